#!/usr/bin/env python3
"""A producer, a consumer and a watch around `hollow`, as RUNNING.md describes them. It begins ./hollow, or what the variable HOLLOW names.

service.py publish FOLDER STATES    publishes so many states of 1,000 products
service.py follow FOLDER SECONDS    keeps a consumer at the announced version, and looks the products up at each
service.py watch FOLDER             one line of figures; status 1 where one asks for somebody
"""
import json
import os
import re
import subprocess
import sys
import time

PROGRAM = os.environ.get("HOLLOW", "./hollow")
INPUT = 2**32 - 2**26  # a run takes 2^32 bytes of input, and one line has at most 2^26 of them
LIMITS = {"bytes": 2**25, "words": 2**22, "ordinals": 2**22}  # of one type


class Ended(Exception):
    """The run ended before it answered. Standard error has its reason."""


class Run:
    """One run of the program over a folder. It is asked one order at a time."""

    def __init__(self, folder):
        self.sent = 0
        self.process = subprocess.Popen([PROGRAM, folder, "run"], stdin=subprocess.PIPE, stdout=subprocess.PIPE)

    def ask(self, order):
        """The answer to an order."""
        line = json.dumps(order).encode() + b"\n"
        self.sent += len(line)
        try:
            self.process.stdin.write(line)
            self.process.stdin.flush()
            answer = self.process.stdout.readline()
        except BrokenPipeError:
            answer = b""
        if not answer.endswith(b"\n"):
            raise Ended(f"the run ended with status {self.end()}")
        return json.loads(answer)

    def is_full(self):
        """Whether a line of the greatest length might pass the input of a run."""
        return self.sent > INPUT

    def end(self):
        """Ends the run by the end of its input. Its status."""
        try:
            self.process.stdin.close()
        except BrokenPipeError:
            pass
        self.process.stdout.close()
        return self.process.wait()


def blobs(folder):
    """The names of blobs in the folder, each with its versions."""
    form = r"(snapshot|(reverse)?delta-[1-9][0-9]*)-[1-9][0-9]*"
    return [(name, [int(number) for number in name.split("-")[1:]]) for name in os.listdir(folder) if re.fullmatch(form, name)]


def announced(folder):
    """The announced version; none where there is none, or where what copies in place is just writing it."""
    try:
        return int(open(folder + "/announced.version").read())
    except (FileNotFoundError, ValueError):
        return None


# The producer.


def begun(folder):
    """A run with a producer: that of the announced version, or a new one."""
    fields = [{"name": "id", "type": "INT"}, {"name": "name", "type": "STRING"}, {"name": "stock", "type": "INT"}]
    version = announced(folder)
    run = Run(folder)
    if version is not None:
        answer = run.ask({"restore": version})
    else:
        answer = run.ask({"model": [{"kind": "OBJECT", "name": "Product", "key": ["id"], "fields": fields}]})
    print(answer, flush=True)
    if "ok" not in answer:
        sys.exit("service.py: there is no producer")
    return run


def publish(folder, states):
    """Publishes states. A run that ended, or that may take no line more, is followed by a new one. A refused cycle ends it."""
    if not os.path.isdir(folder):
        sys.exit(f"service.py: there is no folder {folder}")
    run = None
    while states > 0:
        try:
            if run and run.is_full():
                run.end()
                run = None
            run = run or begun(folder)
            version = max((number for _, versions in blobs(folder) for number in versions), default=0) + 1
            products = [{"id": n, "name": f"product {n}", "stock": (n + version) // 100} for n in range(1000) if n % 50 != version]
            answer = run.ask({"cycle": {"version": version, "tag": 1000 + version, "add": {"Product": products}}})
            print(answer, flush=True)
            if answer.get("name") == "NotLast":
                sys.exit("service.py: another version was announced meanwhile")
            if "ok" not in answer:
                sys.exit("service.py: the cycle was refused")
            states -= 1
        except Ended as fault:
            print(f"service.py: {fault}; once more in 5 seconds", file=sys.stderr)
            run = None
            time.sleep(5)
    if run:
        run.end()


# The consumer.


def ways(folder, goal):
    """Of each version from which deltas lead to goal, the next one on the shortest way. Those with the shortest ways come first."""
    starts, after, turn = {}, {goal: None}, [goal]
    for _, versions in blobs(folder):
        if len(versions) == 2:
            starts.setdefault(versions[1], []).append(versions[0])
    for end in turn:
        for start in starts.get(end, []):
            if start not in after:
                after[start] = end
                turn.append(start)
    return after


def way(after, now):
    """The versions from now to the goal of these ways; none where no way leads there."""
    path = [now] if now in after else []
    while path and after[path[-1]] is not None:
        path.append(after[path[-1]])
    return path


def steps(run, path):
    """Steps along these versions. Whether each was taken."""
    return all("ok" in run.ask({"step": list(step)}) for step in zip(path, path[1:]))


def goes(run, goal):
    """Whether `goto` came there: its answer is "ok" also where a blob was refused."""
    answer = run.ask({"goto": goal})
    return "ok" in answer and answer["applied"] == answer["of"]


def indexed(run):
    """Asks for the index, which each load drops."""
    return "ok" in run.ask({"index": ["Product", []]})


def go(run, folder, now, goal):
    """Moves the consumer: by steps, which keep the indexes; else by `goto`; else by a snapshot and steps, the fewest first. How; none where no way
    leads there, and then it stands somewhere on the last one."""
    after = ways(folder, goal)
    path = way(after, now)
    if path and steps(run, path):
        return "by steps " + str(path)
    if goes(run, goal) and indexed(run):
        return "by goto"
    snapshots = {versions[0] for _, versions in blobs(folder) if len(versions) == 1}
    for start in filter(snapshots.__contains__, after):
        path = way(after, start)
        if "ok" in run.ask({"load": start}) and indexed(run) and steps(run, path):
            return f"by a load of {start} and steps {path}"


def follow(folder, seconds):
    """Keeps a consumer at the announced version."""
    run, now, end = None, None, time.time() + seconds
    while time.time() < end:
        try:
            if run is None or run.is_full():
                if run:
                    run.end()
                run, now = Run(folder), None
            goal = announced(folder)
            if goal not in (None, now):
                how = go(run, folder, now, goal)
                now = goal if how else None
                found = sum("ok" in run.ask({"get": ["Product", [number]]}) for number in range(1000))
                print(f"version {goal} {how or 'not reached'}: {found} of 1000 products found", flush=True)
            time.sleep(1 if goal and now is None else 0.2)  # a second behind "not reached"
        except Ended as fault:
            print(f"service.py: {fault}; once more in 5 seconds", file=sys.stderr)
            run = None
            time.sleep(5)
    if run:
        run.end()


# The watch.


def watch(folder):
    """Prints the figures of the announced state. Whether nobody need be called."""
    version = announced(folder)
    if version is None:
        print("nothing is announced")
        return False
    run = Run(folder)
    there, state = goes(run, version), run.ask({"stat": True})
    run.end()
    shares = {}
    for part in state.get("types", []):
        texts = part["bytes"]
        figures = {"bytes": texts, "words": part["words"] - texts // 8, "ordinals": part["max"] + 1}
        for what, limit in LIMITS.items():
            shares[f"{part['name']} {what}"] = 100 * figures[what] // limit
    most = max(shares, key=shares.get, default=None)
    age = int(time.time() - os.path.getmtime(folder + "/announced.version"))
    room = os.statvfs(folder)
    print(f"version {version}, announced {age} s ago, {'reached' if there else 'NOT REACHED'}", end="; ")
    print(f"room {room.f_bavail * room.f_frsize >> 20} MiB", end="; " if shares else "\n")
    if shares:
        print(f"nearest limit: {most}, {shares[most]} %")
    return there and all(share < 90 for share in shares.values())


if __name__ == "__main__":
    words = sys.argv[1:]
    if len(words) == 3 and words[0] == "publish":
        publish(words[1], int(words[2]))
    elif len(words) == 3 and words[0] == "follow":
        follow(words[1], float(words[2]))
    elif len(words) == 2 and words[0] == "watch":
        sys.exit(0 if watch(words[1]) else 1)
    else:
        sys.exit(__doc__)
