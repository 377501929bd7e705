#!/usr/bin/env python3
"""A reader and a validator of blobs that follows FORMAT.md; it prints the lines that the program prints.

reader.py FOLDER head NAME         the header of a blob
reader.py FOLDER show NAME         the rows of a snapshot
reader.py FOLDER walk V1 V2 ..     loads snapshot-V1, steps along the deltas to V2 and on, and prints the rows at the end
"""
import json
import os
import sys

OBJECT, SET, LIST, MAP = range(4)
FIELD_TYPES = {"REFERENCE", "INT", "LONG", "BOOLEAN", "STRING", "BYTES"}
LIMITS = {"blob": 2**28, "ordinals": 2**22, "items": 2**25, "words": 2**22, "bytes": 2**25}


class Refused(Exception):
    """Why a blob is refused: the members of the line."""


def bad(reason, at, **more):
    return Refused(dict(at=at, error=19, name="BadBlob", reason=reason, **more))


def too_large(what):
    return Refused(dict(error=28, limit=LIMITS[what], name="TooLarge", what=what))


def are_well_formed(units):
    try:
        b"".join(unit.to_bytes(2, "big") for unit in units).decode("utf-16-be")
        return True
    except UnicodeDecodeError:
        return False


def text_of(units):
    return b"".join(unit.to_bytes(2, "big") for unit in units).decode("utf-16-be")


def units_in(data):
    """The units of a STRING, or None where the bytes are none."""
    units, at = [], 0
    while at < len(data):
        number, end = 0, at
        while end < len(data) and data[end] & 0x80:
            number, end = number << 7 | data[end] & 0x7F, end + 1
        if end == len(data) or data[at] == 0x80:
            return None
        number = number << 7 | data[end]
        if number >= 0x10000:
            return None
        units.append(number)
        at = end + 1
    return units


def name_in(data):
    """The name that Java UTF bytes spell, or None."""
    units, at = [], 0
    while at < len(data):
        first = data[at]
        size = 1 if first < 0x80 else 2 if first >> 5 == 6 else 3 if first >> 4 == 14 else 0
        rest = data[at + 1 : at + size]
        if size == 0 or len(rest) < size - 1 or any(byte >> 6 != 2 for byte in rest):
            return None
        unit = first & (0x7F, 0x1F, 0x0F)[size - 1]
        for byte in rest:
            unit = unit << 6 | byte & 0x3F
        if size != (1 if 0 < unit < 0x80 else 2 if unit < 0x800 else 3):
            return None
        units.append(unit)
        at += size
    return text_of(units) if are_well_formed(units) else None


class Cursor:
    """The items of a blob, one behind the other."""

    def __init__(self, data):
        self.data, self.at = data, 0

    def take(self, count):
        if self.at + count > len(self.data):
            raise bad(40, self.at)
        self.at += count
        return self.data[self.at - count : self.at]

    def fixed(self, size, signed=False):
        return int.from_bytes(self.take(size), "big", signed=signed)

    def number(self, bits):
        """A VInt (32) or a VLong (64)."""
        value, end = 0, self.at
        while True:
            if end == len(self.data):
                raise bad(40, self.at)
            byte = self.data[end]
            if end == self.at and byte == 0x80:
                raise bad(42, self.at)
            value, end = value << 7 | byte & 0x7F, end + 1
            if byte < 0x80:
                break
        if value >= 1 << bits:
            raise bad(42, self.at)
        self.at = end
        return value

    def text(self):
        start = self.at
        try:
            data = self.take(self.fixed(2))
        except Refused:
            raise bad(40, start)
        name = name_in(data)
        if name is None:
            raise bad(43, start)
        return name

    def words(self, count, need=0, counted_at=0):
        if count < need:
            raise bad(49, counted_at)
        whole = min(count, (len(self.data) - self.at) // 8)
        found = [self.fixed(8) for _ in range(whole)]
        if whole < count:
            raise bad(40, self.at)
        return found

    def word_array(self, need=0):
        start = self.at
        return self.words(self.number(64), need, start)

    def gaps(self):
        data_at = self.number(64)
        start = self.at
        inner, ordinals, last = Cursor(self.take(data_at)), [], 0
        while inner.at < len(inner.data):
            try:
                last += inner.number(32)
            except Refused:
                raise bad(42, start)
            ordinals.append(last)
        return ordinals


class Schema:
    """A kind, a name, and the fields, or the types that are named."""

    def __init__(self, cursor):
        start = cursor.at
        self.at, kind = start, cursor.fixed(1)
        if kind > 6:
            raise bad(44, start)
        if kind in (4, 5):
            raise bad(46, start)
        self.kind, self.key, self.fields, self.named = kind % 6, None, [], []
        self.name = cursor.text()
        if kind == 6:
            self.key = [cursor.text() for _ in range(cursor.number(32))]
        if self.kind != OBJECT:
            self.named = [cursor.text() for _ in range(2 if kind == MAP else 1)]
            return
        start = cursor.at
        count = cursor.fixed(2)
        if count > 1024:
            raise bad(44, start)
        for _ in range(count):
            self.fields.append(read_field(cursor))
        self.named = [to for _, _, to in self.fields if to is not None]

    def agrees(self, other):
        """Whether it agrees with another schema of its name."""
        if (self.kind, self.key) != (other.kind, other.key):
            return False
        if self.kind != OBJECT:
            return self.named == other.named
        theirs = {name: field for name, *field in other.fields}
        return all(theirs.get(name, field) == field for name, *field in self.fields)


def read_field(cursor):
    name, start = cursor.text(), cursor.at
    kind = cursor.text()
    if kind in ("FLOAT", "DOUBLE"):
        raise bad(45, start)
    if kind not in FIELD_TYPES:
        raise bad(44, start)
    return name, kind, cursor.text() if kind == "REFERENCE" else None


def read_count(cursor):
    start = cursor.at
    count = cursor.number(32)
    if count > 512:
        raise bad(44, start)
    return count


def read_header(data):
    if len(data) > LIMITS["blob"]:
        raise too_large("blob")
    cursor = Cursor(data)
    if cursor.fixed(4) != 1030:
        raise bad(41, 0)
    origin, destination, schemas = cursor.fixed(8, True), cursor.fixed(8, True), []
    if cursor.number(32):
        schemas = [Schema(cursor) for _ in range(read_count(cursor))]
        cursor.take(cursor.number(32))
    tags = [[cursor.text(), cursor.text()] for _ in range(cursor.fixed(2))]
    return cursor, origin, destination, schemas, tags


class Section:
    """What a type has in a blob."""

    def __init__(self, cursor, is_delta):
        self.schema = Schema(cursor)
        self.kind, self.at = self.schema.kind, self.schema.at
        if cursor.number(32):
            cursor.take(cursor.number(32))
            start = cursor.at
            if cursor.number(32) != 1:
                raise bad(47, start)
        self.max = cursor.number(32)
        self.max = -1 if self.max == 2**32 - 1 else self.max
        self.removed = cursor.gaps() if is_delta else []
        self.added = cursor.gaps() if is_delta else []
        places = len(self.added) if is_delta else self.max + 1
        self.total, self.items, self.areas = 0, [], []
        if self.kind == OBJECT:
            self.widths = [self.width(cursor, kind) for _, kind, _ in self.schema.fields]
            self.first = cursor.word_array(-(-places * sum(self.widths) // 64))
            self.areas = [cursor.take(cursor.number(64)) for _ in self.widths]
            self.size = self.own = sum(self.widths)
            starts = [sum(self.widths[:i]) for i in range(len(self.widths))]
            self.columns = list(zip(starts, self.widths, self.areas))
        else:
            self.widths = [self.width(cursor) for _ in range({LIST: 2, SET: 3, MAP: 4}[self.kind])]
            self.place_parts = 1 if self.kind == LIST else 2
            self.total = cursor.number(64)
            self.first = cursor.word_array(-(-places * sum(self.widths[: self.place_parts]) // 64))
            self.items = cursor.word_array()
        self.live = [] if is_delta else self.population(cursor)

    def width(self, cursor, kind=None):
        start = cursor.at
        width = cursor.number(32)
        if width > 64 or self.max != -1 and (
            kind == "BOOLEAN" and width != 2 or kind in ("STRING", "BYTES") and width == 0
        ):
            raise bad(48, start)
        return width

    def population(self, cursor):
        words = cursor.words(cursor.fixed(4))
        return [64 * i + bit for i, word in enumerate(words) if word for bit in range(64) if word >> bit & 1]

    def see(self, schema):
        """Takes the reader's schema of the type, whose fields are found by their names; one that the blob has not is null."""
        if self.kind == OBJECT:
            columns = {name: column for (name, _, _), column in zip(self.schema.fields, self.columns)}
            self.columns = [columns.get(name) for name, _, _ in schema.fields]
            self.own = sum(column[1] for column in self.columns if column)
            nulls = [(None, 2 if kind == "BOOLEAN" else 1, b"") for _, kind, _ in schema.fields]
            self.widths = [(column or null)[1] for column, null in zip(self.columns, nulls)]
            self.areas = [(column or null)[2] for column, null in zip(self.columns, nulls)]
        self.schema = schema

    def row(self, place):
        return self.record(place) if self.kind == OBJECT else self.listed(place)

    def record(self, place):
        """The values of a record, numbers as they are packed, or the reason of the first field at fault."""
        row = []
        for (_, kind, _), column in zip(self.schema.fields, self.columns):
            if column is None:
                row.append(None)
                continue
            start, width, area = column
            bit = place * self.size + start
            value = element(self.first, bit, width)
            if kind in ("STRING", "BYTES"):
                before = element(self.first, bit - self.size, width) if place else 0
                top = 1 << (width - 1)
                start, end = before & (top - 1), value & (top - 1)
                if start > end or end > len(area) or value & top and start != end:
                    return 54
                value = None if value & top else bytes(area[start:end])
                if kind == "STRING" and value is not None and units_in(value) is None:
                    return 53
            elif value == ones(width):
                value = None
            elif kind == "BOOLEAN" and value == 2:
                return 52
            elif kind == "INT" and value > 2**32 - 2 or kind == "REFERENCE" and value > 2**32 - 1:
                return 52
            row.append(value)
        return row

    def listed(self, place):
        """The elements of a list or a set or the pairs of a map, or the reason why there are none."""
        sizes, parts = self.widths[: self.place_parts], self.widths[self.place_parts :]
        pointer = lambda k: element(self.first, k * sum(sizes), sizes[0]) if k >= 0 else 0
        start, end, wide = pointer(place - 1), pointer(place), sum(parts)
        if start > end or end > self.total or wide and end > 64 * len(self.items) // wide:
            return 54
        buckets = []
        for k in range(start, end):
            bucket = [element(self.items, k * wide + sum(parts[:i]), part) for i, part in enumerate(parts)]
            is_empty = self.kind != LIST and bucket[0] == ones(parts[0])
            if not is_empty and max(bucket) > 2**32 - 1:
                return 52
            buckets.append(None if is_empty else tuple(bucket))
        if self.kind == LIST:
            return [bucket[0] for bucket in buckets]
        size = element(self.first, place * sum(sizes) + sizes[0], sizes[1])
        if not is_run(buckets, size):
            return 55
        taken = sorted(bucket for bucket in buckets if bucket is not None)
        return [bucket[0] for bucket in taken] if self.kind == SET else taken


def ones(width):
    return (1 << width) - 1


def element(words, bit, width):
    low = words[bit // 64] >> bit % 64 if width else 0
    if width and bit % 64 + width > 64:
        low |= words[bit // 64 + 1] << 64 - bit % 64
    return low & ones(width)


def hash_of(k):
    k = (~k + (k << 15)) & 0xFFFFFFFF
    k ^= k >> 12
    k = (k + (k << 2)) & 0xFFFFFFFF
    k ^= k >> 4
    k = k * 2057 & 0xFFFFFFFF
    return k ^ k >> 16


def is_run(buckets, size):
    count, keys = len(buckets), [bucket[0] for bucket in buckets if bucket is not None]
    if count == 0 or count & (count - 1) or len(keys) == count or len(keys) != size or len(set(keys)) != size:
        return False
    for at, bucket in enumerate(buckets):
        k = hash_of(bucket[0]) % count if bucket is not None else at
        while k != at:
            if buckets[k] is None:
                return False
            k = (k + 1) % count
    return True


def buckets_for(n):
    least = (1, 2, 4)[n] if n < 3 else 10 * n // 7
    return 1 << (least - 1).bit_length()


def resolves(schemas, schema, path):
    names = path.split(".")
    while True:
        wanted = names.pop(0) if names else schema.fields[0][0] if len(schema.fields) == 1 else None
        found = [field for field in schema.fields if field[0] == wanted]
        if schema.kind != OBJECT or not found:
            return False
        if found[0][1] != "REFERENCE":
            return not names
        schema = schemas[found[0][2]]


def test_model(sections, is_delta):
    """Whether the schemas of a body are a model; of a delta the first test alone."""
    schemas, depths = {}, {}
    for section in sections:
        schema = section.schema
        if schema.name in schemas or len({field[0] for field in schema.fields}) < len(schema.fields):
            raise bad(44, schema.at)
        schemas[schema.name] = schema
    if is_delta:
        return

    def depth(name):
        if name not in depths:
            depths[name] = 99  # what comes back here leads into a cycle
            depths[name] = 1 + max([0, *(depth(to) for to in schemas[name].named)])
        return depths[name]

    for fails in (
        lambda schema: any(to not in schemas for to in schema.named),
        lambda schema: depth(schema.name) > 32,
        lambda schema: schema.key is not None
        and not (schema.key and all(resolves(schemas, schema, path) for path in schema.key)),
    ):
        for section in sections:
            if fails(section.schema):
                raise bad(44, section.schema.at)


def test_ordinals(section, live, before):
    """The first ordinal of what is removed, added and stays that is at fault."""
    for ordinals, fails in (
        (section.removed, lambda o: o not in before),
        (section.added, lambda o: o > section.max or o in before),
    ):
        last = -1
        for ordinal in ordinals:
            if ordinal <= last or fails(ordinal):
                return ordinal
            last = ordinal
    return next((ordinal for ordinal in sorted(live) if ordinal > section.max), None)


def first_not_held(section, rows):
    """The least ordinal whose row the widths do not hold as all are laid out anew; how many items there are, and bytes."""
    widths, items, sizes, found = section.widths, 0, [0] * len(section.areas), None
    for ordinal in sorted(rows):
        row = rows[ordinal]
        if section.kind == OBJECT:
            for i, ((_, kind, _), value) in enumerate(zip(section.schema.fields, row)):
                if kind in ("STRING", "BYTES"):
                    sizes[i] += len(value or b"")
                    holds = sizes[i] < 1 << widths[i] - 1
                else:
                    holds = value is None or value < ones(widths[i])
                if not holds and found is None:
                    found = ordinal
            continue
        items += len(row) if section.kind == LIST else buckets_for(len(row))
        holds = items < 1 << widths[0]
        if section.kind == LIST:
            holds &= all(value < 1 << widths[1] for value in row)
        else:
            holds &= len(row) < 1 << widths[1]
            keys = row if section.kind == SET else [key for key, _ in row]
            holds &= all(key < ones(widths[2]) for key in keys)
            holds &= section.kind == SET or all(value < 1 << widths[3] for _, value in row)
        if not holds and found is None:
            found = ordinal
    return found, items, sum(sizes)


def rows_of(section, before):
    """The rows of a type behind a blob: of a snapshot its own, of a delta those before without the removed and with the added."""
    def fault(reason, ordinal):
        return bad(reason, section.at, ordinal=ordinal, type=section.schema.name)

    stays = section.live if before is None else before.keys() - set(section.removed)
    ordinal = test_ordinals(section, stays, before or {})
    if ordinal is not None:
        raise fault(51, ordinal)
    rows = {} if before is None else {o: before[o] for o in stays}
    for place, ordinal in enumerate(section.added) if before is not None else [(o, o) for o in section.live]:
        row = section.row(place)
        if isinstance(row, int):
            raise fault(row, ordinal)
        rows[ordinal] = row
    ordinal, items, size = first_not_held(section, rows)
    if ordinal is not None:
        raise fault(48, ordinal)
    wide = section.own if section.kind == OBJECT else sum(section.widths[: section.place_parts])
    words = -(-(section.max + 1) * wide // 64) + -(-items * (sum(section.widths) - wide) // 64)
    if words > LIMITS["words"]:
        raise too_large("words")
    if size > LIMITS["bytes"]:
        raise too_large("bytes")
    return rows


def names_in(schema, row):
    """What a row names: pairs of a type and an ordinal."""
    if schema.kind == OBJECT:
        return [(to, o) for (_, _, to), o in zip(schema.fields, row) if to is not None and o is not None]
    if schema.kind == MAP:
        return [(to, o) for pair in row for to, o in zip(schema.named, pair)]
    return [(schema.named[0], o) for o in row]


class State:
    """The state of a snapshot, and the states that deltas lead to."""

    def __init__(self, data):
        cursor, _, self.tag, _, _ = read_header(data)
        sections = self.body(cursor, False)
        self.schemas = [section.schema for section in sections]
        self.take(data, sections, {section.schema.name: None for section in sections})

    def step(self, data):
        cursor, origin, tag, _, _ = read_header(data)
        if origin != self.tag:
            raise Refused(dict(current=self.tag, error=20, found=origin, name="OtherOrigin"))
        self.take(data, self.body(cursor, True), self.rows)
        self.tag = tag

    def body(self, cursor, is_delta):
        sections = [Section(cursor, is_delta) for _ in range(read_count(cursor))]
        if cursor.at < len(cursor.data):
            raise bad(50, cursor.at)
        test_model(sections, is_delta)
        if is_delta:
            own = {schema.name: schema for schema in self.schemas}
            for section in sections:
                if not own.get(section.schema.name, section.schema).agrees(section.schema):
                    raise Refused(dict(error=30, name="OtherModel", type=section.schema.name))
            sections = [section for section in sections if section.schema.name in own]
        for section in sections:
            if section.max >= LIMITS["ordinals"]:
                raise too_large("ordinals")
            if section.total > LIMITS["items"]:
                raise too_large("items")
        for section in sections if is_delta else []:
            section.see(own[section.schema.name])
        return sections

    def take(self, data, sections, before):
        rows, at = dict(before), {}
        for section in sections:
            rows[section.schema.name] = rows_of(section, before[section.schema.name])
            at[section.schema.name] = section.at
        for schema in self.schemas:
            for ordinal in sorted(rows[schema.name]):
                if any(o not in rows[to] for to, o in names_in(schema, rows[schema.name][ordinal])):
                    raise bad(56, at.get(schema.name, len(data)), ordinal=ordinal, type=schema.name)
        self.rows = rows

    def lines(self):
        for schema in self.schemas:
            for ordinal in sorted(self.rows[schema.name]):
                row = shown(schema, self.rows[schema.name][ordinal])
                yield line(dict(ordinal=ordinal, row=row, type=schema.name))


def shown(schema, row):
    if schema.kind != OBJECT:
        return row
    return {name: shown_value(kind, value) for (name, kind, _), value in zip(schema.fields, row)}


def shown_value(kind, value):
    if value is None or kind == "REFERENCE":
        return value
    if kind == "STRING":
        units = units_in(value)
        return text_of(units) if are_well_formed(units) else units
    if kind in ("INT", "LONG"):
        return value >> 1 if value % 2 == 0 else -(value >> 1) - 1
    return value == 1 if kind == "BOOLEAN" else value.hex()


def line(members):
    return json.dumps(members, ensure_ascii=False, separators=(",", ":"), sort_keys=True)


def refusal(name, refused):
    members = refused.args[0]
    return line(members if members["error"] == 28 else dict(members, blob=name))


def read(folder, name):
    try:
        with open(os.path.join(folder, name), "rb") as file:
            return file.read()
    except FileNotFoundError:
        raise Refused(dict(error=18, name="NoBlob"))


def main(folder, command, *rest):
    name = rest[0] if command != "walk" else f"snapshot-{rest[0]}"
    try:
        if command == "head":
            _, origin, destination, schemas, tags = read_header(read(folder, name))
            names = [schema.name for schema in schemas]
            print(line(dict(destination=destination, format=1030, ok="head", origin=origin, schemas=names, tags=tags)))
            return
        state = State(read(folder, name))
        for last, version in zip(rest, rest[1:]):
            name = f"{'delta' if int(last) < int(version) else 'reversedelta'}-{last}-{version}"
            state.step(read(folder, name))
        for row in state.lines():
            print(row)
    except Refused as refused:
        sys.exit(refusal(name, refused))


if __name__ == "__main__":
    main(*sys.argv[1:]) if len(sys.argv) > 3 else sys.exit(__doc__)
