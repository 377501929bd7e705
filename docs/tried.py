#!/usr/bin/env python3
"""Tries what the documents print: shell lines (`$ ..`), orders and answers of their indented blocks, in their order.

tried.py PROGRAM    runs all of them with a program, in a folder that goes away; status 1 where one differs
tried.py --cases    writes documents.case of program_cases: a case a folder, of all that a store in memory can run
tried.py --same     status 1 where that file is not what the documents say, or what else they print stands in no case
"""
import glob
import json
import os
import re
import subprocess
import sys
import tempfile

TOP = os.path.dirname(os.path.dirname(os.path.abspath(__file__)))
DATA = TOP + "/crates/program_cases/data/"
PATHS = {"README": "README.md", **{name: f"docs/{name}.md" for name in ("GUIDE", "ORDERS", "RUNNING", "FORMAT")}}
ORDERS = ("model grow cycle change restore load step plan goto index get find live row walkindex walkfind has at past history was "
          "wasget check stat").split()

# Blocks that are not run: the document, how the first line begins, why.
NOT_RUN = [
    ("README", "./hollow crates/", "they build and prove; this head is tried in ORDERS"),
    ("README", "(cd crates/hollow_cli &&", "it asks for rt; its script is tried in GUIDE"),
    ("README", "producer.add(", "calls of the library, which crates/library_example has"),
    ("ORDERS", "hollow FOLDER head NAME", "forms of the commands"),
    ("ORDERS", '{"kind":"OBJECT","name":N,', "forms of a schema"),
    ("RUNNING", "answer = run.ask(", "Python, of docs/service.py and for it"),
    ("RUNNING", "$ cp shop/announced.version", "it asks for rsync, which not each machine has"),
]
# Nor is the run of RUNNING killed: what it leaves is made (BEFORE).
# What is run, and not compared where an expression finds it: the document, how the line begins, the expression, why.
NOT_COMPARED = [
    ("RUNNING", "$ python3 docs/service.py follow shop 4 &", "(?s).*", "time says whether the follower sees a version by itself"),
    ("RUNNING", "$ python3 docs/service.py watch", "[0-9]+ (?=s ago|MiB)", "the age of a file, and the room of a disk"),
]
# What no store in memory runs: expressions of how the line begins, why.
NOT_IN_MEMORY = [
    (r"\$ (mkdir|cp films|ls made)", "a case begins with what these make"),
    (r"\$ .*\bshop\b|version 3 by", "runs of docs/service.py, and the folder of files that it made"),
]
# What is done before a line, or in place of a command that the text tells: the document, how the line begins, what the shell does; and the
# folder of the orders, with those that go before them.
BEFORE = [
    ("ORDERS", "$ mkdir films", "rm -r films", None, []),
    ("ORDERS", '{"goto":4}', "mkdir front && cp weekend/* front && truncate -s 277 front/delta-2-3", "front", [('{"load":1}', '{"ok":"load","tag":101}')]),
    ("ORDERS", '{"was":[3,"Film",1]}', None, "films", [
        ('{"load":2}', '{"ok":"load","tag":102}'), ('{"history":1}', '{"kept":1,"ok":"history"}'),
        ('{"step":[2,3]}', '{"ok":"step","tag":103}'), ('{"step":[3,2]}', '{"ok":"step","tag":102}')]),
    ("RUNNING", "$ ls made;", "rm -r made; mkdir made; ./hollow made make 7 30 3; rm made/snapshot-[23] made/delta-2-3 made/rev*; "
     "printf 1 > made/announced.version; touch made/hollow.new", None, []),
    ("RUNNING", "version 3 by steps", "printf 7 > shop/announced.version; python3 docs/service.py follow shop 9 > lines & sleep 3; "
     "printf 3 > shop/pin; mv shop/pin shop/announced.version; sleep 3; python3 docs/service.py publish shop 1 > published; wait; tail -n 2 lines; "
     "rm shop/*-8 shop/*-8-3; printf 7 > shop/announced.version", None, []),
    ("RUNNING", "$ ls shop | sed -n 's/^snapshot-", "rm -r shop; mkdir shop; python3 docs/service.py publish shop 3 > published", None, []),
]
# How the store of a case begins that is not empty: the document, the folder, lines of a case. FEW is the cycles of the films, without later snapshots.
FEW, FRONT = "few", "blob 00000406 0000000000000066 0000000000000067 6D 03"
FILM = "06 'Film 01 'id 0003 'id 'INT 'title 'REFERENCE 'Text 'cast 'REFERENCE 'Cast"
BEGIN = {
    ("GUIDE", "weekend"): [FEW],
    ("GUIDE", "cut"): [FEW, f"{FRONT} {FILM} 00 'Text 00", "holds delta-2-3"],
    ("ORDERS", "front"): [FEW, f"{FRONT} {FILM} 00 'Text 0001 'value 'STRING 01 'Cast 'Text 00 0000 03", f"more {FILM} 020001 02 0101 00 030302 00000000",
                          "more 00 'Text 0001 'value 'STRING 020001 06 020301 00 08 0000", "more 01 'Cast 'Text 020001 02 0101 00 04 020308 00",
                          "holds delta-2-3"],
    ("ORDERS", "crates/hollow_cli/data/chain"): [
        "blob 00000406 0000000000000000 0000000000000047 10 01 00 'A 0001 'n 'INT 00 0000 01 00 'A 0001 'n 'INT 020001 01 04 01 00000000000000FA 00",
        "more 00000100 0000000000000003", "fill 255 0000000000000000", "holds snapshot-1"],
    ("RUNNING", "made"): ["empty 4", "go 5 make 7 30 3", "names snapshot-1 delta-1-2 announced.version", "told 1"],
}


class Step:
    """Something that is tried: a command and its lines; or orders with their answers over a folder; or the names that are in a folder."""

    def __init__(self, document, chapter, line, command="", lines=(), folder=None, pairs=()):
        self.document, self.chapter, self.line, self.command, self.lines = document, chapter, line, command, list(lines)
        self.folder, self.pairs, self.script, self.asked = folder, list(pairs), None, None

    def ended(self):
        """This run, whose orders all have answers."""
        assert self.asked is None and len(self.script or self.pairs) == len(self.pairs), f"{self.document}, {self.chapter}: no answer"
        return self


def found(table, document, line):
    """The entries of a table whose line begins so."""
    return [entry for entry in table if entry[0] == document and line.startswith(entry[1])]


def object_of(text):
    """The JSON object of a text; none where it is none."""
    try:
        value = json.loads(text)
        return value if isinstance(value, dict) else None
    except ValueError:
        return None


def is_order(text):
    """Whether a text is an order: an object of one member, which an order has."""
    return [name in ORDERS for name in object_of(text) or {}] == [True]


def status(answers):
    """The status of a command that writes these lines."""
    return int(any("error" in (object_of(line) or {}) for line in answers))


def blocks(document):
    """The indented blocks of a document, each with its chapter."""
    chapter, before, block = "", "", []
    for line in open(f"{TOP}/{PATHS[document]}", encoding="utf-8").read().split("\n") + [""]:
        if line.startswith("    ") and (block or before == ""):
            block.append(line)
        elif block:
            indent = min(len(text) - len(text.lstrip()) for text in block)
            yield chapter, [text[indent:] for text in block]
            block = []
        chapter, before = line.lstrip("# ") if line.startswith("#") else chapter, line


def events(document):
    """What the blocks have: a command with its lines; or an order, an answer or a text, joined where it is cut for reading."""
    for chapter, block in blocks(document):
        while block and not found(NOT_RUN, document, block[0]):
            line = block.pop(0)
            if line.startswith("$ "):
                end = block.index("END") + 1 if line.endswith("<<'END'") else 0
                last = next((place for place in range(end, len(block)) if block[place].startswith("$ ")), len(block))
                yield chapter, line, "\n".join([line[2:]] + block[:end]), block[end:last]
                block = block[last:]
                continue
            text = line
            while object_of(text) is None and block:
                text += block.pop(0).lstrip() if line.startswith("{") else "\n" + block.pop(0)
            yield chapter, line, "", text.split("\n")


def steps():
    """What is tried, in its order. Orders of a chapter are one run; those of a script go on over the chapters, to its end."""
    for document in ("README", "GUIDE", "ORDERS", "RUNNING"):
        run, last = None, ""
        for chapter, line, command, lines in events(document):
            before = found(BEFORE, document, line)
            order = not command and is_order(lines[0])
            if run and not run.script and (command or before or chapter != last or (order and line.startswith('{"model"'))):
                yield run.ended()
                run = None
            last = chapter
            for _, _, shell, folder, pairs in before:
                if folder:
                    run = Step(document, chapter, line, folder=folder, pairs=pairs)
                if shell and not command and not order:
                    command = shell
                elif shell:
                    yield Step(document, chapter, "", shell)
            opened = re.fullmatch(r"\./hollow (\S+) run(?: < (\S+))?", command)
            if opened and not lines:
                run = Step(document, chapter, line, folder=opened[1])
                run.script = opened[2] and open(f"{TOP}/{opened[2]}", encoding="utf-8").read().splitlines()
            elif command:
                yield Step(document, chapter, line, command, lines)
            elif order:
                run = run or Step(document, chapter, line, folder="products" if line.startswith('{"model"') else "films")
                assert run.asked is None, f"{document}: {run.asked} has no answer"
                run.asked = lines[0]
            elif object_of(lines[0]) is not None:
                assert run and (run.script or run.asked), f"{document}: {line} answers nothing"
                expected = run.script[len(run.pairs)] if run.script else run.asked
                assert run.asked in (None, expected), f"{document}: {run.asked} is not the next order"
                run.asked = run.pairs.append((expected, lines[0]))
                if run.script and len(run.pairs) == len(run.script):
                    yield run.ended()
                    run = None
            else:
                yield Step(document, chapter, line, folder="films", lines=" ".join(lines).split())
        if run:
            yield run.ended()


def orders_of(step):
    """The orders that a command of the shell gives a run."""
    words = re.findall(r"'(\{[^']*\})'", step.command) if "| ./hollow" in step.command else []
    return words + list(filter(is_order, step.command.split("\n")))


def try_all(program):
    """Runs all of it with a program. Whether nothing differs."""
    commands, orders, count, odd, kept = 0, 0, 0, 0, ""
    with tempfile.TemporaryDirectory() as room:
        for name, target in (("hollow", os.path.abspath(program)), ("docs", TOP + "/docs"), ("crates", TOP + "/crates")):
            os.symlink(target, f"{room}/{name}")
        for step in steps():
            wanted = [answer for _, answer in step.pairs] or step.lines
            command = f"mkdir -p {step.folder}; ./hollow {step.folder} run" if step.pairs else step.command or f"ls {step.folder}"
            run = subprocess.run(["bash", "-c", kept + command], cwd=room, stdout=subprocess.PIPE, stderr=subprocess.STDOUT,
                                 input="".join(order + "\n" for order, _ in step.pairs).encode(), env=dict(os.environ, LC_ALL="C.UTF-8"))
            got = run.stdout.decode().splitlines()
            if step.pairs or (step.command.startswith("./hollow") and "|" not in step.command and wanted[-1:] != [".."]):
                wanted, got = wanted + [f"status {status(wanted)}"], got + [f"status {run.returncode}"]
            if not step.pairs and not step.command:
                wanted = sorted(wanted)
            if wanted[-1:] == [".."]:
                wanted, got = wanted[:-1], got[:len(wanted) - 1]
            for _, _, part, _ in found(NOT_COMPARED, step.document, step.line):
                wanted, got = ([re.sub(part, "", "\n".join(text))] for text in (wanted, got))
            kept += command + "\n" if re.match(r"\w+=|while ", command) else ""
            if step.line:
                commands += bool(step.command)
                orders += len(step.pairs or orders_of(step))
                count += len(step.pairs or step.lines)
                odd += wanted != got
                for one, other in [pair for pair in zip(wanted + [""], got + [""]) if pair[0] != pair[1]][:1]:
                    print(f"{step.document}, {step.chapter}: {step.line}\n  printed {one}\n  came    {other}")
    print(f"{commands} commands, {orders} orders and {count} lines tried; {odd} differ")
    return odd == 0


def told(words, answers, pairs=()):
    """The lines of a case that run a command: of these orders and answers, or of these lines."""
    size = sum(len(answer.encode()) + 1 for answer in answers)
    asked = [line for order, answer in pairs for line in ("> " + order, "< " + answer)]
    return [f"room {size}"] * (size > 10000) + asked + [f"go {status(answers)} {words}"] + [f"out {line}" for line in answers if not pairs]


def ran(step, script):
    """The folder of a step, and the lines of a case that try it over what the folder holds; none where no store in memory can."""
    command, orders = re.fullmatch(r"\./hollow (\S+) (\S+ ?[^<]*)(< \S+)?", step.command), orders_of(step)
    if step.pairs:
        return step.folder, told("run", [answer for _, answer in step.pairs], step.pairs)
    if command and command[3]:  # the front of what a script prints, which the guide prints whole
        assert step.lines[:-1] == [answer for _, answer in script][:len(step.lines) - 1], step.line
        return command[1], told("run", [answer for _, answer in script], script)
    if command:
        return command[1], told(command[2], step.lines)
    if not step.line or any(re.match(begin, step.line) for begin, _ in NOT_IN_MEMORY):
        return None, None
    if orders:
        return re.search(r"\./hollow (\S+) run", step.command)[1], told("run", step.lines[:len(orders)], list(zip(orders, step.lines)))
    if re.fullmatch("cat [a-z]+/announced.version", step.command):
        return step.command.split("/")[0][4:], ["told " + step.lines[0]]
    assert not step.command, f"{step.document}: {step.line} is tried in no case, and not named"
    kinds = ["snapshot", "delta", "reversedelta", "announced.version"]
    names = sorted((kinds.index(name.split("-")[0]), list(map(int, re.findall("[0-9]+", name))), name) for name in step.lines)
    return step.folder, ["names " + " ".join(name for _, _, name in names)]


def cases():
    """The text of documents.case."""
    stores, chapter, films, few = {}, {}, [], []
    for step in steps():
        folder, lines = ran(step, films and films[0])
        films += [step.pairs] if step.pairs and (step.document, folder) == ("GUIDE", "films") else []
        place = step.document, folder
        if folder == "weekend" and place not in stores:
            pairs = [pair for pair in sum(films, []) if pair[0].startswith('{"model"') or '"published":true' in pair[1]]
            pairs[2:] = [(order[:-2] + ',"snapshot":false}}', answer) for order, answer in pairs[2:]]
            few = told("run", [answer for _, answer in pairs], pairs)
        if folder and place not in stores:
            begin = [few if line == FEW else [line] for line in BEGIN.get(place, [])]
            stores[place] = ["", f"case {step.document}, the folder {folder}"] + sum(begin, [])
        if folder:
            stores[place] += [f"# {step.chapter}"] * (chapter.get(place) != step.chapter) + lines
            chapter[place] = step.chapter
    head = "# What the documents print, a case for each folder. Made by docs/tried.py --cases."
    return "\n".join([head] + sum(stores.values(), [])) + "\n"


def cased():
    """The orders and answers of all cases, a line each, and the blobs that they spell."""
    texts, blobs = [], [b""]
    for line in (line for path in sorted(glob.glob(DATA + "*.case")) for line in open(path, encoding="utf-8")):
        word, _, rest = line.rstrip("\n").partition(" ")
        times, pieces = rest.split() if word == "fill" else (1, rest)
        if word in (">", "<", "input", "out", "differs", "moves"):
            texts.append(rest)
        if word in ("blob", "more", "fill"):
            hexes = [f"{len(piece) - 1:04X}" + piece[1:].encode().hex() if piece[0] == "'" else piece.split("/")[0] for piece in pieces.split()]
            blobs += [b""] * (word == "blob")
            blobs[-1] += int(times) * bytes.fromhex("".join(hexes))
    return "\n".join(texts), blobs


def strays():
    """How many orders and answers stand in the text and the tables, and blobs in FORMAT, and which of them are in no case: in a row of a table an
    answer behind the order. And the entries above that name nothing."""
    (texts, blobs), odd, count = cased(), [], 0
    for document, path in PATHS.items():
        lines = open(f"{TOP}/{path}", encoding="utf-8").read().split("\n")
        odd += [f"{document}: {entry[1]} is no more" for entry in NOT_RUN + NOT_COMPARED + BEFORE
                if entry[0] == document and not any(line.strip().startswith(entry[1]) for line in lines)]
        for line in lines:
            spans = [] if line.startswith("    ") else re.findall("`([^`]*)`", line)
            for span, before in zip(spans, [""] + spans):
                value = object_of(span.replace("[..]", "[]").replace("{..}", "{}")) or {}
                if is_order(span) or {"ok", "error"} & set(value):
                    behind = line.startswith("| `" + before) and is_order(before.replace("[..]", "[]"))
                    text = before + "\n" + span if behind else span
                    count += 1
                    odd += [] if re.search("^" + re.escape(text).replace(r"\.\.", ".*") + "$", texts, re.M) else [f"{document}: {text}"]
    for chapter, block in blocks("FORMAT"):
        if chapter in ("snapshot-1", "delta-1-2", "reversedelta-2-1", "A set of two", "A list and a map"):
            parts = [re.match(r"(\d+ +)?((?:[0-9A-F]{2} )+)" if "-" in chapter else "()((?:[0-9A-F]{2} )+)", line) for line in block]
            whole = b"".join(bytes.fromhex(part[2]) for part in parts)
            at = [(int(part[1]), bytes.fromhex(part[2])) for part in parts if "-" in chapter]  # else they follow each other
            there = [blob for blob in blobs if all(blob[place:].startswith(part) for place, part in at) and (at or whole in blob)]
            count += 1
            odd += [] if there else [f"FORMAT: {chapter}: {block[0]}"]
    return odd, count


def main(words):
    if words == ["--cases"]:
        open(DATA + "documents.case", "w", encoding="utf-8").write(cases())
        return 0
    if words == ["--same"]:
        odd, count = strays()
        same = open(DATA + "documents.case", encoding="utf-8").read() == cases()
        print(f"{count} orders, answers and blobs stand in the text, {len(odd)} of them in no case", *odd, sep="\n")
        print("documents.case is " + ("" if same else "not ") + "what the documents say")
        return int(bool(odd) or not same)
    return int(not try_all(words[0])) if len(words) == 1 and not words[0].startswith("-") else __doc__


if __name__ == "__main__":
    sys.exit(main(sys.argv[1:]))
