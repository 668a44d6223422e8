#!/usr/bin/env python3
"""`canonical --keep`, read a second time: plain Python from docs/FORMAT.md, without the crates' definitions.

    tests/kept_files.py PROGRAM [COUNT [SEED]]

Draws COUNT files (200). For each it runs `PROGRAM canonical --keep LIST` with each list of words, and looks whether the
file is the one that `kept` makes and the line that of `left`; and `PROGRAM canonical --check --keep LIST`. Each
difference has a line on standard error; the status is 1 then.
"""
import itertools
import random
import struct
import subprocess
import sys
import tempfile
from pathlib import Path

from exact_folders import Faulty, damaged, drawn_file, name_of, parsed, run

WORDS = ("ids", "filler", "order")


def fresh(ids, seed):
    """The IDs that records with these IDs get, and the seed after that."""
    taken = {number for number in ids if number}
    seen, given = set(), []
    for number in ids:
        if number and number not in seen:
            given.append(number)
        else:
            while True:
                seed = seed % 0xFFFFFF + 1
                if seed not in taken:
                    break
            taken.add(seed)
            given.append(seed)
        seen.add(number)
    return given, seed


def left(file, words):
    """The words of the changes of a file that are left if these words are kept."""
    _, entries, blocks, order, filler = parsed(file)
    ids = [number for kind, _, number in entries if kind == "record"]
    changes = {
        "busy": any(kind == "record" and value & 0x20 for kind, value, _ in entries),
        "filler": filler != bytes(2),
        "ids": fresh(ids, 0)[0] != ids,
        "name": any(file[len(name_of(file)):32]),
        "order": order != sorted(order),
    }
    return [word for word, holds in changes.items() if holds and word not in words]


def kept(file, words):
    """The file in canonical form, but for what these words name."""
    attributes, entries, blocks, order, filler = parsed(file)
    field, = struct.unpack_from(">I", file, 68)
    ids = [number for kind, _, number in entries if kind == "record"]
    seed = field & 0xFFFFFF
    if "ids" not in words:
        ids, seed = fresh(ids, seed)
    if "filler" not in words:
        filler = bytes(2)
    if "order" not in words:
        order = sorted(order)
    at = 78 + (10 if attributes & 1 else 8) * len(entries) + len(filler)
    offsets = [0] * len(blocks)
    for rank in order:
        offsets[rank] = at
        at += len(blocks[rank])
    new = name_of(file).ljust(32, b"\0") + file[32:52] + struct.pack(">II", *offsets[:2]) + file[60:68]
    new += struct.pack(">IIH", field & 0xFF000000 | seed, 0, len(entries))
    numbers = iter(ids)
    for (kind, value, number), offset in zip(entries, offsets[2:]):
        if kind == "record":
            new += struct.pack(">IB", offset, value & 0xDF) + next(numbers).to_bytes(3, "big")
        else:
            new += value + struct.pack(">HI", number, offset)
    return new + filler + b"".join(blocks[rank] for rank in order)


def differences(program, draw, folder):
    """What differs at one drawn file."""
    file = damaged(draw, drawn_file(draw))
    (folder / "file").write_bytes(file)
    for count in (1, 2, 3):
        for words in itertools.permutations(WORDS, count):
            keep = ",".join(words)
            done = run(program, "canonical", "--keep", keep, str(folder / "file"), str(folder / "new"))
            asked = run(program, "canonical", "--check", "--keep", keep, str(folder / "file"))
            try:
                wanted = kept(file, words)
            except Faulty as fault:
                if done.returncode != 1 or done.stdout.split(b"\n")[0] != f"bad {fault}".encode():
                    yield f"{keep}: bad {fault} is wanted, and there is {done.stdout}"
                continue
            words_left = left(file, words)
            line = " ".join(["changes", *words_left]) if words_left else "canonical"
            if done.stdout != f"ok {len(wanted)}\n{line}\n".encode() or (folder / "new").read_bytes() != wanted:
                yield f"{keep}: another file, or {done.stdout}"
            if asked.stdout != f"{line}\n".encode():
                yield f"--check {keep}: {line} is wanted, and there is {asked.stdout}"
            if (wanted == file) != (not words_left):
                yield f"{keep}: {line}, but the bytes say otherwise"


def main():
    program = str(Path(sys.argv[1]).resolve())
    count = int(sys.argv[2]) if len(sys.argv) > 2 else 200
    draw = random.Random(int(sys.argv[3]) if len(sys.argv) > 3 else 1)
    found = 0
    for number in range(count):
        with tempfile.TemporaryDirectory() as folder:
            for text in differences(program, draw, Path(folder)):
                print(f"file {number}: {text}", file=sys.stderr)
                found += 1
    print(f"{count} files, {found} differences")
    return 1 if found else 0


if __name__ == "__main__":
    sys.exit(main())
