#!/usr/bin/env python3
"""Exact folders, read a second time: plain Python from docs/FORMAT.md, without the crates' definitions.

    tests/exact_folders.py PROGRAM [COUNT [SEED]]

Draws COUNT files (200), most of them damaged. For each it runs `PROGRAM unpack --exact` and `PROGRAM pack`, and looks
whether the folder is the one that `folder_of` makes, and the file the one that was unpacked. Then it edits the folder,
and looks whether `pack` gives the file of `file_of`, or names the faulty line. Each difference has a line on standard
error; the status is 1 then. `PROGRAM put` of the same file is compared with the file of `file_with`.
"""
import random
import struct
import subprocess
import sys
import tempfile
from pathlib import Path

MOST = 4_294_967_293


class Faulty(Exception):
    """A file that is refused, by the name of its first fault, or a text, by its line and the line's fault."""


# ---- files

def parsed(file):
    """The parts of a file without fault: its values, the blocks by their ranks, and the ranks in order of the blocks."""
    if len(file) < 78:
        raise Faulty("Truncated")
    attributes, = struct.unpack_from(">H", file, 32)
    count, = struct.unpack_from(">H", file, 76)
    size = 10 if attributes & 1 else 8
    end = 78 + size * count
    if len(file) < end:
        raise Faulty("Truncated")
    if file[72:76] != bytes(4):
        raise Faulty("ChainedList")
    if file[0] == 0:
        raise Faulty("EmptyName")
    offsets = list(struct.unpack_from(">II", file, 52))
    for offset, name in zip(offsets, ("app", "sort")):
        if offset and not end <= offset <= len(file):
            raise Faulty("BadInfo " + name)
    entries = []
    for index in range(count):
        at = 78 + size * index
        if size == 10:
            kind, number, offset = struct.unpack_from(">4sHI", file, at)
            entries.append(("resource", kind, number))
            may_miss = False
        else:
            offset, flags = struct.unpack_from(">IB", file, at)
            entries.append(("record", flags, int.from_bytes(file[at + 5:at + 8], "big")))
            may_miss = flags & 0x80 and offset == 0
        if not may_miss and not end <= offset <= len(file):
            raise Faulty(f"BadOffset {index}")
        offsets.append(offset)
    order = sorted((rank for rank in range(len(offsets)) if offsets[rank]), key=lambda rank: (offsets[rank], rank))
    blocks = [None] * len(offsets)
    for rank, behind in zip(order, order[1:] + [None]):
        blocks[rank] = file[offsets[rank]:len(file) if behind is None else offsets[behind]]
    first = min((offsets[rank] for rank in order), default=len(file))
    return attributes, entries, blocks, order, file[end:first]


def name_of(file):
    return file[:31].split(b"\0")[0]


def file_with(file, rank, part):
    """The file with the block of a rank replaced. `Faulty` has the line if it isn't."""
    attributes, entries, blocks, order, filler = parsed(file)
    if rank >= len(blocks):
        raise Faulty("refused 14 IndexOutOfRange")
    if blocks[rank] is None:
        raise Faulty("refused 24 NoInfoBlock" if rank < 2 else "refused 15 RecordDeleted")
    blocks[rank] = part
    if any(not blocks[one] and other < one for one, other in zip(order, order[1:])):
        raise Faulty("bad EmptyPart")
    size = 10 if attributes & 1 else 8
    end = 78 + size * len(entries)
    new, at = bytearray(file[:end]), end + len(filler)
    for one in order:
        field = 52 + 4 * one if one < 2 else 78 + size * (one - 2) + (6 if attributes & 1 else 0)
        struct.pack_into(">I", new, field, at)
        at += len(blocks[one])
    return bytes(new) + filler + b"".join(blocks[one] for one in order)


# ---- the folder of a file

def spelled(text):
    if all(32 <= byte <= 126 and byte != 34 for byte in text):
        return f'"{text.decode()}"'
    return "x:" + text.hex()


def part_name(rank):
    return ("app", "sort")[rank] if rank < 2 else f"{rank - 2:05}"


def rank_word(rank):
    return ("app", "sort")[rank] if rank < 2 else str(rank - 2)


def folder_of(file):
    """The text of the exact folder of a file, and its parts by their names."""
    attributes, entries, blocks, order, filler = parsed(file)
    name = name_of(file)
    lines = ["exact"]
    if any(file[len(name):32]):
        lines.append("namefield " + file[len(name):32].hex())
    lines.append("filler filler" if filler else "filler none")
    if order != sorted(order):
        lines += [f"order {rank_word(rank)}" for rank in order]
    _, version, created, modified, backup, number = struct.unpack_from(">HHIIII", file, 32)
    seed, = struct.unpack_from(">I", file, 68)
    lines += [f"name {spelled(name)}", f"attributes {attributes:04x}", f"version {version}", f"created {created}",
              f"modified {modified}", f"backup {backup}", f"number {number}", f"type {spelled(file[60:64])}",
              f"creator {spelled(file[64:68])}", f"seed {seed:08x}"]
    named = [part_name(rank) if block is not None else "none" for rank, block in enumerate(blocks)]
    lines += [f"app {named[0]}", f"sort {named[1]}"]
    for entry, part in zip(entries, named[2:]):
        kind, value, number = entry
        lines.append(f"{kind} {spelled(value) if kind == 'resource' else f'{value:02x}'} {number} {part}")
    parts = {part_name(rank): block for rank, block in enumerate(blocks) if block is not None}
    if filler:
        parts["filler"] = filler
    return "\n".join(lines) + "\n", parts


# ---- the file of a folder

def bytes_of(word):
    if word.startswith("x:"):
        return bytes.fromhex(word[2:])
    assert word[0] == word[-1] == '"', word
    return word[1:-1].encode("latin-1")


def rank_of(word):
    return {"app": 0, "sort": 1}.get(word) if word in ("app", "sort") else 2 + int(word)


def file_of(text, parts):
    """The file of an exact folder whose lines are spelled as they should be. `Faulty` has the line of an `order` that
    can't be."""
    after, filler, named, values, blocks, entries = None, b"", [], {}, [], []
    for number, line in enumerate(text.splitlines(), 1):
        words = line.split(" ")
        if words[0] == "namefield":
            after = bytes.fromhex(words[1])
        elif words[0] == "filler":
            filler = b"" if words[1] == "none" else parts[words[1]]
        elif words[0] == "order":
            named.append((number, rank_of(words[1])))
        elif words[0] in ("app", "sort"):
            blocks.append(None if words[1] == "none" else parts[words[1]])
        elif words[0] in ("record", "resource"):
            head, _, part = line.rpartition(" ")
            head, _, given = head.rpartition(" ")
            entries.append((words[0], head.partition(" ")[2], int(given)))
            blocks.append(None if part == "none" else parts[part])
        elif words[0] != "exact":
            values[words[0]] = line.partition(" ")[2]
    line_of = {}
    for number, rank in named:
        if rank >= len(blocks) or blocks[rank] is None or rank in line_of:
            raise Faulty(f"line {number} BadWord 2")
        line_of[rank] = number
    order = [*line_of, *(rank for rank in range(len(blocks)) if rank not in line_of and blocks[rank] is not None)]
    size = 8 if int(values["attributes"], 16) & 1 == 0 else 10
    at = 78 + size * len(entries) + len(filler)
    offsets = [0] * len(blocks)
    for rank, behind in zip(order, order[1:] + [len(blocks)]):
        if not blocks[rank] and behind < rank:
            raise Faulty(f"line {line_of[rank]} BadWord 2")
        offsets[rank] = at
        at += len(blocks[rank])
    if at > MOST:
        raise Faulty("TooLarge")
    name = bytes_of(values["name"])
    file = name + (bytes(32 - len(name)) if after is None else after)
    file += struct.pack(">HHIIIIII", int(values["attributes"], 16), int(values["version"]), int(values["created"]),
                        int(values["modified"]), int(values["backup"]), int(values["number"]), *offsets[:2])
    file += bytes_of(values["type"]) + bytes_of(values["creator"])
    file += struct.pack(">IIH", int(values["seed"], 16), 0, len(entries))
    for (kind, value, number), offset in zip(entries, offsets[2:]):
        if kind == "record":
            file += struct.pack(">IB", offset, int(value, 16)) + number.to_bytes(3, "big")
        else:
            file += bytes_of(value) + struct.pack(">HI", number, offset)
    return file + filler + b"".join(blocks[rank] for rank in order)


# ---- files that are drawn

def drawn_file(draw):
    """A file without fault, with blocks in any order, empty ones, bytes after the name, and any filler."""
    resources = draw.random() < 0.3
    count = draw.choice((0, 1, 2, 3, 5, 12))
    name = bytes(draw.choice(b"abcXYZ09 \"\xe9\x01") for _ in range(draw.choice((1, 2, 7, 30, 31))))
    after = bytes(32 - len(name))
    if draw.random() < 0.3:
        after = b"\0" * (len(name) < 31) + draw.randbytes(32 - len(name) - (len(name) < 31))
    filler = draw.choice((b"", b"\0\0", b"\0", draw.randbytes(7)))
    ranks = [rank for rank in range(2 + count) if rank >= 2 or draw.random() < 0.5]
    deleted = {rank for rank in ranks if rank >= 2 and not resources and draw.random() < 0.15}
    ranks = [rank for rank in ranks if rank not in deleted]
    if draw.random() < 0.6:
        draw.shuffle(ranks)
    blocks = {rank: draw.randbytes(draw.choice((0, 0, 1, 4, 20))) for rank in ranks}
    at = 78 + (10 if resources else 8) * count + len(filler)
    offsets, data = [0] * (2 + count), b""
    for rank in ranks:
        offsets[rank] = at + len(data)
        data += blocks[rank]
    file = name + after
    file += struct.pack(">HH", draw.randrange(0, 65536, 2) + resources, draw.randrange(65536)) + draw.randbytes(16)
    file += struct.pack(">II", *offsets[:2]) + draw.choice((b"DATAmemo", draw.randbytes(8))) + draw.randbytes(4)
    file += struct.pack(">IH", 0, count)
    for rank in range(2, 2 + count):
        if resources:
            file += draw.choice((b"tSTR", draw.randbytes(4))) + struct.pack(">HI", draw.randrange(65536), offsets[rank])
        else:
            flags = draw.randrange(128) | (0x80 if rank in deleted or draw.random() < 0.1 else 0)
            file += struct.pack(">IB", offsets[rank], flags) + draw.choice((0, 1, 7, 0xFFFFFF)).to_bytes(3, "big")
    return file + filler + data


def damaged(draw, file):
    """A file with up to three bytes changed, or cut."""
    file = bytearray(file)
    for _ in range(draw.choice((0, 1, 1, 2, 3))):
        at = draw.randrange(min(len(file), 200))
        file[at] = draw.choice((0, 1, file[at] ^ 1 << draw.randrange(8), draw.randrange(256)))
    if draw.random() < 0.1:
        del file[draw.randrange(len(file)):]
    return bytes(file)


def edited(draw, text, parts):
    """A folder with a part changed, an entry removed, or one added."""
    lines, parts = text.splitlines(), dict(parts)
    entries = [at for at, line in enumerate(lines) if line.startswith(("record ", "resource "))]
    for _ in range(draw.choice((1, 1, 2))):
        kind = draw.randrange(3)
        if kind == 0 and parts:
            parts[draw.choice(sorted(parts))] = draw.randbytes(draw.choice((0, 3, 9)))
        elif kind == 1 and entries:
            lines.pop(entries.pop(draw.randrange(len(entries))))
            entries = [at for at, line in enumerate(lines) if line.startswith(("record ", "resource "))]
        elif kind == 2:
            parts["new"] = draw.randbytes(draw.choice((0, 5)))
            resources = int(next(line for line in lines if line.startswith("attributes "))[11:], 16) & 1
            lines.append('resource "new " 5 new' if resources else "record 41 0 new")
    return "\n".join(lines) + "\n", parts


# ---- the program

def run(program, *words):
    return subprocess.run([program, *words], stdout=subprocess.PIPE, stderr=subprocess.DEVNULL, check=False)


def write_folder(folder, text, parts):
    folder.mkdir()
    for name, data in parts.items():
        (folder / name).write_bytes(data)
    (folder / "database").write_text(text)


def put_differences(program, draw, folder, file):
    """What differs if a block of a file is replaced."""
    rank = draw.randrange(8)
    part = draw.choice((b"", b"x", draw.randbytes(30)))
    (folder / "part").write_bytes(part)
    done = run(program, "put", str(folder / "file"), rank_word(rank), str(folder / "part"), str(folder / "put"))
    try:
        wanted = file_with(file, rank, part)
    except Faulty as fault:
        line = str(fault) if str(fault).startswith("refused ") or str(fault) == "bad EmptyPart" else f"bad {fault}"
        if done.returncode != 1 or done.stdout.split(b"\n")[0] != line.encode():
            yield f"put {rank}: {line} is wanted, and there is {done.stdout}"
        return
    if done.stdout != f"ok {len(wanted)}\n".encode() or (folder / "put").read_bytes() != wanted:
        yield f"put {rank}: another file, or {done.stdout}"


def differences(program, draw, folder):
    """What differs at one drawn file."""
    file = damaged(draw, drawn_file(draw))
    (folder / "file").write_bytes(file)
    yield from put_differences(program, random.Random(len(file)), folder, file)
    done = run(program, "unpack", "--exact", str(folder / "file"), str(folder / "parts"))
    try:
        text, parts = folder_of(file)
    except Faulty as fault:
        if done.returncode != 1 or done.stdout.split(b"\n")[0] != f"bad {fault}".encode():
            yield f"{fault} is wanted, and there is {done.stdout}"
        return
    found = {path.name: path.read_bytes() for path in (folder / "parts").iterdir()}
    if found != {**parts, "database": text.encode()}:
        yield f"another folder: {found}"
    run(program, "pack", str(folder / "parts"), str(folder / "packed"))
    if (folder / "packed").read_bytes() != file:
        yield "another file"
    text, parts = edited(draw, text, parts)
    write_folder(folder / "edited", text, parts)
    done = run(program, "pack", str(folder / "edited"), str(folder / "changed"))
    try:
        wanted = file_of(text, parts)
    except Faulty as fault:
        if done.returncode != 1 or done.stdout != f"{fault}\n".encode():
            yield f"{fault} is wanted after an edit, and there is {done.stdout}"
        return
    if (folder / "changed").read_bytes() != wanted:
        yield "another file after an edit"


def main():
    program, count, seed = sys.argv[1], int((sys.argv + ["", "200"])[2] or 200), int((sys.argv + ["", "", "1"])[3] or 1)
    failed = 0
    for number in range(count):
        draw = random.Random(f"{seed} {number}")
        with tempfile.TemporaryDirectory() as folder:
            for difference in differences(program, draw, Path(folder)):
                failed += 1
                print(f"file {number}: {difference}", file=sys.stderr)
    print(f"{count} files, {failed} differences")
    sys.exit(1 if failed else 0)


if __name__ == "__main__":
    main()
