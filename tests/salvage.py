#!/usr/bin/env python3
"""Salvaged files, read a second time: plain Python from docs/FORMAT.md, without the crates' definitions.

    tests/salvage.py [COUNT [SEED]]            checks the laws of this reading alone
    tests/salvage.py PROGRAM [COUNT [SEED]]    compares it with PROGRAM, that is, with 'palmheap salvage' and others

Draws COUNT files (1,000), most of them damaged. Of each it looks whether the salvaged file has no fault, whether it
is the canonical form if the file has no fault, whether there is a line for each fault, and whether each kept entry is
one of the file. With PROGRAM it also looks whether 'salvage', with and without --exact-ids, writes the same file and
prints the same lines, and whether 'canonical' writes the same of a file without fault. Each difference has a line on
standard error; the status is 1 then.
"""
import os
import random
import struct
import subprocess
import sys
from concurrent.futures import ThreadPoolExecutor

HEADER = 78
DELETED, BUSY = 0x80, 0x20
GREATEST = 0xFFFFFF
NAMES = ("app", "sort")


class Faulty(Exception):
    """A file that is refused, with its first fault."""


# ---- the fields of a file

class Fields:
    """The header and the entries of a file of 78 bytes or more, as far as they are whole."""

    def __init__(self, file):
        self.file = file
        self.attributes, = struct.unpack_from(">H", file, 32)
        self.infos = struct.unpack_from(">II", file, 52)
        self.seed, self.chain, self.count = struct.unpack_from(">IIH", file, 68)
        self.resources = self.attributes & 1 == 1
        self.size = 10 if self.resources else 8
        self.end = HEADER + self.size * self.count
        self.name = file[:31].split(b"\0")[0]
        self.entries = []
        for index in range(self.count):
            at = HEADER + self.size * index
            if at + self.size > len(file):
                break
            self.entries.append(self.entry(at))

    def entry(self, at):
        """The values of the entry at an offset, and the offset of its data."""
        if self.resources:
            kind, number, offset = struct.unpack_from(">4sHI", self.file, at)
            return kind, number, offset
        offset, flags = struct.unpack_from(">IB", self.file, at)
        return flags, int.from_bytes(self.file[at + 5:at + 8], "big"), offset

    def may_begin(self, offset):
        return self.end <= offset <= len(self.file)

    def has_no_data(self, entry):
        return not self.resources and entry[2] == 0 and entry[0] & DELETED != 0

    def is_sound(self, entry):
        return self.has_no_data(entry) or self.may_begin(entry[2])


def faults_of(file):
    """The faults of a file in their order, those of entries only for whole ones."""
    if len(file) < HEADER:
        return ["Truncated"]
    fields = Fields(file)
    faults = []
    if len(file) < fields.end:
        faults.append("Truncated")
    if fields.chain:
        faults.append("ChainedList")
    if not fields.name:
        faults.append("EmptyName")
    for offset, name in zip(fields.infos, NAMES):
        if offset and not fields.may_begin(offset):
            faults.append("BadInfo " + name)
    for index, entry in enumerate(fields.entries):
        if not fields.is_sound(entry):
            faults.append(f"BadOffset {index}")
    return faults


# ---- blocks and IDs

def cut(file, offsets):
    """The blocks that begin at these offsets, and None for an offset of 0."""
    order = sorted((offset, rank) for rank, offset in enumerate(offsets) if offset)
    ends = [offset for offset, _ in order[1:]] + [len(file)]
    blocks = [None] * len(offsets)
    for (offset, rank), end in zip(order, ends):
        blocks[rank] = file[offset:end]
    return blocks


def distinct(ids, seed):
    """The IDs that records with these get, and the new seed."""
    kept, given = set(), []
    for one in ids:
        keeps = one != 0 and one not in kept
        given.append(one if keeps else None)
        if keeps:
            kept.add(one)
    last = seed & GREATEST
    for index, one in enumerate(given):
        if one is None:
            last = last + 1 if last < GREATEST else 1
            while last in kept:
                last = last + 1 if last < GREATEST else 1
            kept.add(last)
            given[index] = last
    return given, seed & ~GREATEST | last


# ---- a file that is written

def written(fields, name, entries, blocks, ids, seed):
    """The file with these blocks: of AppInfo, of SortInfo and of the entries."""
    at = HEADER + fields.size * len(entries) + 2
    offsets = []
    for block in blocks:
        offsets.append(0 if block is None else at)
        at += len(block or b"")
    header = name.ljust(32, b"\0") + fields.file[32:52] + struct.pack(">II", *offsets[:2])
    header += fields.file[60:68] + struct.pack(">IIH", seed, 0, len(entries))
    lines = []
    for index, (entry, offset) in enumerate(zip(entries, offsets[2:])):
        if fields.resources:
            lines.append(struct.pack(">4sHI", entry[0], entry[1], offset))
        else:
            lines.append(struct.pack(">IB", offset, entry[0] & ~BUSY & 0xFF) + ids[index].to_bytes(3, "big"))
    return header + b"".join(lines) + b"\0\0" + b"".join(block or b"" for block in blocks)


def rewritten(fields, name, infos, entries, exact):
    blocks = cut(fields.file, [*infos, *(entry[2] for entry in entries)])
    ids, seed = [], fields.seed
    if not fields.resources:
        ids = [entry[1] for entry in entries]
        if not exact:
            ids, seed = distinct(ids, fields.seed)
    return written(fields, name, entries, blocks, ids, seed)


def canonical(file):
    faults = faults_of(file)
    if faults:
        raise Faulty(faults[0])
    fields = Fields(file)
    return rewritten(fields, fields.name, fields.infos, fields.entries, False)


# ---- a file that is salvaged

def where(fields, offset):
    return "beyond the end" if offset > len(fields.file) else "within the entries"


def salvaged(file, exact=False):
    """The salvaged file, and its lines."""
    if len(file) < HEADER:
        raise Faulty("Truncated")
    fields = Fields(file)
    lines = []
    if len(file) < fields.end:
        lines.append(f"entries {fields.count}: the file ends in entry {len(fields.entries)}")
    if fields.chain:
        lines.append("chained list: ignored")
    name = fields.name
    if not name:
        lines.append("name empty: Recovered")
        name = b"Recovered"
    infos = []
    for offset, word in zip(fields.infos, NAMES):
        sound = fields.may_begin(offset)
        infos.append(offset if sound else 0)
        if offset and not sound:
            lines.append(f"{word} offset {offset} {where(fields, offset)}: dropped")
    entries = []
    for index, entry in enumerate(fields.entries):
        if fields.is_sound(entry):
            entries.append(entry)
        else:
            lines.append(f"entry {index} offset {entry[2]} {where(fields, entry[2])}: dropped")
    return rewritten(fields, name, infos, entries, exact), lines


# ---- files that are drawn

def drawn(draw):
    """A file without fault: its blocks in some order, some of them at one offset, bytes between."""
    resources = draw.random() < 0.4
    count = draw.choice((0, 1, 2, 3, 5, 9, 40))
    size = 10 if resources else 8
    name = bytes(draw.choice(b"abcXYZ 09\xe9") for _ in range(draw.choice((1, 4, 30, 31))))
    field = (name + b"\0").ljust(32, draw.choice((b"\0", b"x")))[:32]
    end = HEADER + size * count
    start = end + draw.choice((0, 2, 2, 2, 7))
    ranks = [rank for rank in range(2 + count) if rank >= 2 or draw.random() < 0.5]
    bare = {rank for rank in ranks if rank >= 2 and not resources and draw.random() < 0.1}
    placed = [rank for rank in ranks if rank not in bare]
    if draw.random() < 0.4:
        draw.shuffle(placed)
    offsets, blocks = [0] * (2 + count), []
    at = start
    for rank in placed:
        block = draw.randbytes(draw.choice((0, 0, 1, 3, 8, 20)))
        offsets[rank] = at
        blocks.append(block)
        at += len(block)
    header = field + struct.pack(">HH", draw.choice((0, 2, 8, 0x8000)) | resources, draw.randrange(3))
    header += draw.randbytes(16) + struct.pack(">II", *offsets[:2]) + b"DATATest"
    header += struct.pack(">IIH", draw.choice((0, 5, 0xFFFFFE, 0x12FFFFFF, draw.getrandbits(32))), 0, count)
    entries = []
    for index, offset in enumerate(offsets[2:]):
        if resources:
            entries.append(struct.pack(">4sHI", b"tSTR", draw.randrange(5), offset))
        else:
            flags = draw.getrandbits(8) | DELETED if 2 + index in bare else draw.getrandbits(8)
            number = draw.choice((0, 1, 2, 5, 6, GREATEST, draw.getrandbits(24)))
            entries.append(struct.pack(">IB", offset, flags) + number.to_bytes(3, "big"))
    return header + b"".join(entries) + bytes(start - end) + b"".join(blocks)


def put(file, at, more):
    return file[:at] + more + file[at + len(more):] if at + len(more) <= len(file) else file


def damaged(draw, file):
    """The file with a damage that a program, a disk or a transfer makes."""
    end = len(file)
    count, = struct.unpack_from(">H", file, 76)
    size, field = (10, 6) if file[33] & 1 else (8, 0)
    near = [0, 1, 12, 77, 78, HEADER + size * count - 1, HEADER + size * count, end - 1, end, end + 1, 0xFFFFFFFF]
    offset = struct.pack(">I", max(draw.choice(near + [draw.getrandbits(32)]), 0))
    kind = draw.randrange(9)
    if kind == 0:
        return file[:draw.randrange(end + 1)]
    if kind == 1 and count:
        return put(file, HEADER + size * draw.randrange(count) + field, offset)
    if kind == 2:
        return put(file, draw.choice((52, 56)), offset)
    if kind == 3:
        return put(file, 72, struct.pack(">I", draw.choice((1, 0x80000000, draw.getrandbits(32)))))
    if kind == 4:
        return put(file, 0, draw.choice((b"\0", bytes(32), b"\0left")))
    if kind == 5:
        return put(file, 76, struct.pack(">H", draw.choice((0, 1, count + 1, count + 5, 4000, 65535)) & 0xFFFF))
    if kind == 6:
        return put(file, 33, bytes([file[33] ^ 1]))
    if kind == 7:
        return put(file, draw.randrange(end), bytes([draw.getrandbits(8)]))
    return draw.choice((file.replace(b"\n", b"\r\n"), file + draw.randbytes(draw.randrange(9)), file))


def sample(draw):
    file = drawn(draw)
    for _ in range(draw.choice((0, 1, 1, 1, 2, 3, 6))):
        if len(file) >= HEADER:
            file = damaged(draw, file)
    return file


# ---- the laws

def laws(file):
    """What is wrong with the salvaged file of a file, by this reading alone."""
    faults = faults_of(file)
    if len(file) < HEADER:
        try:
            salvaged(file)
        except Faulty:
            return
        yield "a file without a header is salvaged"
        return
    for exact in (False, True):
        new, lines = salvaged(file, exact)
        if faults_of(new):
            yield f"the salvaged file has the fault {faults_of(new)[0]}"
        if len(lines) != len(faults):
            yield f"{len(lines)} lines for {len(faults)} faults"
        if canonical(new) != new and not exact:
            yield "the salvaged file is not its own canonical form"
        if not faults and not exact and new != canonical(file):
            yield "the salvaged file of a file without fault is not its canonical form"
        yield from strange_entries(Fields(file), Fields(new), exact)


def strange_entries(old, new, exact):
    """The entries of a new file that are not those of the old one, in order."""
    sources = [entry for entry in old.entries if old.is_sound(entry)]
    if len(sources) != len(new.entries):
        yield "another number of entries"
        return
    bounds = sorted({len(old.file), *(entry[2] for entry in sources), *filter(old.may_begin, old.infos)})
    blocks = cut(new.file, [*new.infos, *(entry[2] for entry in new.entries)])
    for source, entry, block in zip(sources, new.entries, blocks[2:]):
        if old.resources:
            same = entry[:2] == source[:2]
        else:
            same = entry[0] == source[0] & ~BUSY & 0xFF and (not exact or entry[1] == source[1])
        if not same:
            yield "an entry with other values"
        if block is None:
            if not old.has_no_data(source):
                yield "an entry without its data"
        elif block:
            end = next(bound for bound in bounds if bound > source[2])
            if block != old.file[source[2]:end]:
                yield "an entry with other bytes"


# ---- the program

def run(program, words, file):
    result = subprocess.run([program, *words], input=file, capture_output=True, check=False, timeout=60)
    return result.returncode, result.stdout, result.stderr


def differences(program, file):
    """What PROGRAM does otherwise than this reading."""
    for options, exact in ((), False), (("--exact-ids",), True):
        status, new, said = run(program, ["salvage", *options, "-", "-"], file)
        try:
            wanted, lines = salvaged(file, exact)
        except Faulty as fault:
            if status != 1 or new or not said.startswith(f"bad {fault}\n".encode()):
                yield f"salvage of {len(file)} bytes: status {status}"
            continue
        text = "".join(line + "\n" for line in [f"ok {len(wanted)}", *lines]).encode()
        if status != 0 or new != wanted or not said.startswith(text):
            yield f"salvage {' '.join(options)}: status {status}, {said!r} for {text!r}"
    if not faults_of(file):
        status, new, _ = run(program, ["canonical", "-", "-"], file)
        if status != 0 or new != canonical(file):
            yield f"canonical: status {status}"


# ---- worked examples, by hand

ORDER = (b"Order".ljust(32, b"\0") + bytes(28) + b"DATATest" + bytes(8) + b"\0\3"
         + bytes.fromhex("0000006c00000000" "0000006803000005" "0000006c20000005") + bytes(2) + b"BBBBCCCC")


def examples():
    """What is wrong with the worked examples of docs/FORMAT.md."""
    cases = [
        (ORDER, 112, []),
        (put(ORDER, 86, struct.pack(">I", 113)), 100, ["entry 1 offset 113 beyond the end: dropped"]),
        (put(ORDER, 86, struct.pack(">I", 112)), 108, []),
        (put(ORDER, 86, struct.pack(">I", 101)), 100, ["entry 1 offset 101 within the entries: dropped"]),
        (put(ORDER, 76, b"\0\5"), 80, [
            "entries 5: the file ends in entry 4",
            "entry 0 offset 108 within the entries: dropped",
            "entry 1 offset 104 within the entries: dropped",
            "entry 2 offset 108 within the entries: dropped",
            "entry 3 offset 16962 beyond the end: dropped"]),
        (put(ORDER, 0, b"\0"), 112, ["name empty: Recovered"]),
        (put(ORDER, 52, struct.pack(">I", 12)), 112, ["app offset 12 within the entries: dropped"]),
        (put(ORDER, 56, struct.pack(">I", 113)), 112, ["sort offset 113 beyond the end: dropped"]),
        (put(ORDER, 72, b"\1"), 112, ["chained list: ignored"]),
        (put(ORDER, 76, b"\0\0")[:78], 80, []),
        (put(ORDER, 76, b"\0\0")[:79], 80, []),
    ]
    for file, size, wanted in cases:
        new, lines = salvaged(file)
        if len(new) != size or lines != wanted:
            yield f"a worked example: {len(new)} bytes, {lines}"
    if salvaged(ORDER)[0] != canonical(ORDER):
        yield "the worked file is not written as its canonical form"


def main(words):
    program = None
    if words and not words[0].isdigit():
        program = words.pop(0)
    count = int(words[0]) if words else 1000
    draw = random.Random(int(words[1]) if len(words) > 1 else 1)
    failed, sound = 0, 0
    for text in examples():
        print(text, file=sys.stderr)
        failed += 1
    with ThreadPoolExecutor(os.cpu_count()) as pool:
        for begin in range(0, count, 1000):
            files = [sample(draw) for _ in range(min(1000, count - begin))]
            sound += sum(not faults_of(file) for file in files)
            found = [list(laws(file)) for file in files]
            if program:
                found += pool.map(lambda file: list(differences(program, file)), files)
            for number, texts in enumerate(found):
                for text in texts:
                    print(f"file {begin + number % len(files)}: {text}", file=sys.stderr)
                    failed += 1
    print(f"{count} files, {sound} without fault, {failed} differences")
    return 1 if failed else 0


if __name__ == "__main__":
    sys.exit(main(sys.argv[1:]))
