#!/usr/bin/env python3
"""Listings of files, read a second time: plain Python from docs/FORMAT.md and docs/USING.md.

    tests/listing.py PROGRAM [COUNT [SEED]]

Draws COUNT files (1,000), some of them damaged, some with names of categories in AppInfo. Compares what PROGRAM prints
for 'list' and 'list --json' with this reading: header, dates, info blocks, names of categories, entries, needs, changes
and faults. Each difference has a line on standard error; the status is 1 then.
"""
import datetime
import json
import os
import random
import sys
from concurrent.futures import ThreadPoolExecutor

from salvage import BUSY, DELETED, HEADER, NAMES, Fields, canonical, cut, damaged, distinct, drawn, faults_of, run
from salvage import put, written

FLAGS, FIELD, CATEGORIES, LAYOUT = 2, 16, 16, 276
EPOCHS = {1904: datetime.datetime(1904, 1, 1), 1970: datetime.datetime(1970, 1, 1)}


# ---- texts

def characters(data):
    """The characters of bytes in Windows-1252, and None for a byte without one."""
    return [bytes([one]).decode("cp1252", errors="replace").replace("\ufffd", "") or None for one in data]


def shown(data):
    """The characters that a terminal can show."""
    return "".join("\ufffd" if one is None or one < " " or "\x7f" <= one <= "\x9f" else one for one in characters(data))


def in_document(data):
    return "".join(chr(byte) if one is None else one for byte, one in zip(data, characters(data)))


def is_quoted(data):
    return all(0x20 <= one <= 0x7E and one != 0x22 for one in data)


def spelled(data):
    return f'"{data.decode("ascii")}"' if is_quoted(data) else "x:" + data.hex()


def epoch(seconds):
    return 1904 if seconds >= 2**31 else 1970


def moment(seconds):
    """Date and time in UTC."""
    return (EPOCHS[epoch(seconds)] + datetime.timedelta(seconds=seconds)).strftime("%Y-%m-%d %H:%M:%S")


# ---- what a file without fault has

def names_of(fields, app):
    """The names of the 16 categories, or None if AppInfo doesn't have the standard layout."""
    if fields.resources or app is None or len(app) < LAYOUT:
        return None
    parts = [app[FLAGS + FIELD * number:][:FIELD] for number in range(CATEGORIES)]
    names = [part.split(b"\0")[0] for part in parts]
    if any(0 not in part for part in parts) or any(one < 0x20 or one == 0x7F for name in names for one in name):
        return None
    return names if names[0] else None


def aligned(size):
    return (size + 7) // 8 * 8


def needs_of(fields, blocks):
    lengths = [4, HEADER + fields.size * fields.count, *(len(block) for block in blocks if block is not None)]
    size = aligned(16 + 4 * len(lengths)) + sum(8 + aligned(length) for length in lengths)
    return size, len(lengths)


def changes_of(fields, offsets):
    placed = [offset for offset in offsets if offset]
    ids = [entry[1] for entry in fields.entries]
    words = {
        "busy": not fields.resources and any(entry[0] & BUSY for entry in fields.entries),
        "filler": fields.file[fields.end:min(placed, default=len(fields.file))] != b"\0\0",
        "ids": not fields.resources and distinct(ids, fields.seed)[0] != ids,
        "name": any(fields.file[len(fields.name):32]),
        "order": placed != sorted(placed),
    }
    return [word for word, holds in words.items() if holds]


class Listed:
    """What a listing says of a file without fault."""

    def __init__(self, file):
        fields = Fields(file)
        data = [0 if fields.has_no_data(entry) else entry[2] for entry in fields.entries]
        offsets = [*fields.infos, *data]
        blocks = cut(file, offsets)
        at = lambda one, size: int.from_bytes(file[one:one + size], "big")
        self.fields, self.file = fields, file
        self.version, self.number, self.seed = at(34, 2), at(48, 4), fields.seed
        self.dates = dict(zip(("created", "modified", "backup"), (at(36, 4), at(40, 4), at(44, 4))))
        self.kind, self.creator = file[60:64], file[64:68]
        places = [None if block is None else (offset, len(block)) for offset, block in zip(offsets, blocks)]
        self.infos, self.places = dict(zip(NAMES, places)), places[2:]
        self.names = names_of(fields, blocks[0])
        self.needs, self.changes = needs_of(fields, blocks), changes_of(fields, offsets)

    def category(self, entry):
        if self.names is None or entry[0] & DELETED:
            return None
        return self.names[entry[0] % CATEGORIES] or None


# ---- text

def text_of(file):
    listed = Listed(file)
    fields = listed.fields
    lines = [f"ok {len(file)}", f"name {spelled(fields.name)}", f"attributes {fields.attributes:04x}",
             f"version {listed.version}"]
    for word, seconds in listed.dates.items():
        since = " since 1970" if seconds and epoch(seconds) == 1970 else ""
        lines.append(f"{word} {seconds} " + (moment(seconds) + since if seconds else "never"))
    lines += [f"number {listed.number}", f"type {spelled(listed.kind)}", f"creator {spelled(listed.creator)}",
              f"seed {listed.seed:08x}"]
    if not is_quoted(fields.name):
        lines.append(f'text "{shown(fields.name)}"')
    for word, place in listed.infos.items():
        lines.append(f"{word} " + ("none" if place is None else f"{place[0]} {place[1]}"))
    for number, name in enumerate(listed.names or []):
        if name:
            lines.append(f'category {number} "{shown(name)}"')
    lines.append(("resources" if fields.resources else "records") + f" {fields.count}")
    for index, (entry, place) in enumerate(zip(fields.entries, listed.places)):
        where = "none" if place is None else f"{place[0]} {place[1]}"
        if fields.resources:
            lines.append(f"{index} {spelled(entry[0])} {entry[1]} {where}")
        else:
            name = listed.category(entry)
            end = "" if name is None else f' "{shown(name)}"'
            lines.append(f"{index} {entry[0]:02x} {entry[1]} {where}{end}")
    lines.append("needs {} bytes and {} slots in a heap".format(*listed.needs))
    lines.append(" ".join(["changes", *listed.changes]) if listed.changes else "canonical")
    return "".join(line + "\n" for line in lines)


def fault_text(file):
    fault = faults_of(file)[0]
    return f"bad {fault}\nat {place_of(file, fault)}\n"


def place_of(file, fault):
    word, *number = fault.split()
    if word == "BadOffset":
        fields = Fields(file)
        return HEADER + fields.size * int(number[0]) + (6 if fields.resources else 0)
    return {"Truncated": len(file), "ChainedList": 72, "EmptyName": 0,
            "BadInfo": 56 if number == ["sort"] else 52}[word]


# ---- documents

def four(key, data):
    return {key: in_document(data), key + "_hex": data.hex()}


def document_of(file):
    if faults_of(file):
        word, *number = faults_of(file)[0].split()
        block = {"block": number.pop()} if word == "BadInfo" else {}
        return {"fault": word, **block, "numbers": [int(one) for one in number],
                "at": place_of(file, faults_of(file)[0])}
    listed = Listed(file)
    fields = listed.fields
    facts = {"size": len(file), **four("name", fields.name), "attributes": fields.attributes, "version": listed.version}
    for word, seconds in listed.dates.items():
        facts |= {word: seconds, word + "_utc": moment(seconds) if seconds else None,
                  word + "_since": epoch(seconds) if seconds else None}
    facts |= {"number": listed.number, **four("type", listed.kind), **four("creator", listed.creator),
              "seed": listed.seed}
    for word, place in listed.infos.items():
        facts[word] = None if place is None else dict(zip(("offset", "length"), place))
    if listed.names is not None:
        facts["categories"] = [in_document(name) if name else None for name in listed.names]
    facts["kind"] = "resources" if fields.resources else "records"
    facts["entries"] = [entry_of(listed, *one) for one in enumerate(zip(fields.entries, listed.places))]
    facts["needs"] = dict(zip(("size", "slots"), listed.needs))
    facts["changes"] = listed.changes
    return facts


def entry_of(listed, index, found):
    entry, place = found
    if listed.fields.resources:
        values = {**four("type", entry[0]), "id": entry[1]}
    else:
        name = listed.category(entry)
        category = {} if name is None else {"category": in_document(name)}
        values = {"attributes": entry[0], **category, "id": entry[1]}
    return {"index": index, **values, **dict(zip(("offset", "length"), place or (None, None)))}


# ---- files that are drawn

def named(draw, file):
    """The file with an AppInfo block of names, or one that nearly is."""
    fields = Fields(file)
    blocks = cut(file, [*fields.infos, *(entry[2] for entry in fields.entries)])
    name = lambda: bytes(draw.choice(b'abc XYZ"\\\xe9\x80\x81\xff~') for _ in range(draw.choice((0, 1, 5, 15))))
    parts = [b"All"] + [name() for _ in range(CATEGORIES - 1)]
    rest = lambda part: draw.randbytes(FIELD - 1 - len(part)) if draw.random() < 0.2 else bytes(FIELD - 1 - len(part))
    app = draw.randbytes(FLAGS) + b"".join(part + b"\0" + rest(part) for part in parts)
    app += draw.randbytes(draw.choice((LAYOUT - len(app), LAYOUT - len(app), 40, LAYOUT - len(app) - 1)))
    kind = draw.randrange(6)
    if kind == 0:
        app = put(app, draw.randrange(len(app)), bytes([draw.choice((0, 9, 0x1F, 0x20, 0x7F, 0x80, 0xFF))]))
    if kind == 1:
        app = put(app, FLAGS + FIELD * draw.randrange(CATEGORIES), draw.choice((b"sixteen letters!", b"\0")))
    blocks[0] = app
    return written(fields, fields.name, fields.entries, blocks, [entry[1] for entry in fields.entries], fields.seed)


def sample(draw):
    file = drawn(draw)
    if draw.random() < 0.5:
        file = named(draw, file)
    if draw.random() < 0.3:
        stamps = b"".join(draw.choice((0, 1, 2**31 - 1, 2**31, 2**32 - 1, draw.getrandbits(32))).to_bytes(4, "big")
                          for _ in range(3))
        file = put(file, 36, stamps)
    for _ in range(draw.choice((0, 0, 0, 1, 2))):
        if len(file) >= HEADER:
            file = damaged(draw, file)
    return file


# ---- the program

def differences(program, file):
    """What PROGRAM prints otherwise than this reading."""
    faulty = bool(faults_of(file))
    if not faulty and (canonical(file) == file) != (not Listed(file).changes):
        yield f"changes {Listed(file).changes} in this reading alone"
    status, text, _ = run(program, ["list", "-"], file)
    wanted = (fault_text(file) if faulty else text_of(file)).encode()
    if status != faulty or text != wanted:
        yield f"list: status {status}, {text!r} for {wanted!r}"
    status, text, _ = run(program, ["list", "--json", "-"], file)
    pairs = lambda value: json.loads(json.dumps(value), object_pairs_hook=list)
    try:
        found = json.loads(text.decode("ascii"), object_pairs_hook=list)
    except ValueError as why:
        yield f"list --json: {why}"
        return
    if status != faulty or found != pairs(document_of(file)) or text.count(b"\n") != 1:
        yield f"list --json: status {status}, {found!r} for {pairs(document_of(file))!r}"


def main(words):
    program = words[0]
    count = int(words[1]) if len(words) > 1 else 1000
    draw = random.Random(int(words[2]) if len(words) > 2 else 1)
    failed, sound, with_names = 0, 0, 0
    with ThreadPoolExecutor(os.cpu_count()) as pool:
        for begin in range(0, count, 1000):
            files = [sample(draw) for _ in range(min(1000, count - begin))]
            good = [file for file in files if not faults_of(file)]
            sound += len(good)
            with_names += sum(Listed(file).names is not None for file in good)
            for number, texts in enumerate(pool.map(lambda file: list(differences(program, file)), files)):
                for text in texts:
                    print(f"file {begin + number}: {text}", file=sys.stderr)
                    failed += 1
    print(f"{count} files, {sound} without fault, {with_names} with names of categories, {failed} differences")
    return 1 if failed else 0


if __name__ == "__main__":
    sys.exit(main(sys.argv[1:]))
