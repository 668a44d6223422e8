#!/usr/bin/env python3
"""Writes the two heap images that the benchmark checks, of 16,777,208 bytes each.

usage: make_images.py FOLDER

FOLDER/fixed.image has one slot, not in use, and behind it only fixed chunks of 8 bytes.
FOLDER/movable.image has 65,535 slots, all in use. Their chunks, 8 bytes each, are spread evenly
among fixed ones of 8 bytes, and neighbours of them have slots far apart.
"""

import struct
import sys
from pathlib import Path

SIZE = 16_777_208
CHUNK = 8
OWNER = 1
FIXED_LOCK = 15

# Prime to 65,535, so that the multiples of it pass each slot once.
STRIDE = 40_507


def area_start(slots: int) -> int:
    """Where the chunks begin: behind the head and the table, rounded up to a multiple of 8."""
    return (16 + 4 * slots + 7) // 8 * 8


def chunk(lock: int, h_offset: int) -> bytes:
    """The header of a live chunk with no body."""
    return struct.pack(">II", CHUNK, lock << 28 | OWNER << 24 | h_offset % 2**24)


def image(slots: int, movable: int) -> bytes:
    """An image with so many movable chunks, spread among fixed ones."""
    start = area_start(slots)
    area = bytearray(chunk(FIXED_LOCK, 0) * ((SIZE - start) // CHUNK))
    table = [0] * slots
    for i in range(movable):
        offset = len(area) // CHUNK * i // movable * CHUNK
        number = STRIDE * i % slots
        at = start + offset
        area[offset : offset + CHUNK] = chunk(0, (16 + 4 * number - at) // 2)
        table[number] = at + CHUNK
    head = struct.pack(">4sIHHI", b"PHI1", SIZE, slots, 0, 0)
    return (head + struct.pack(f">{slots}I", *table)).ljust(start, b"\0") + area


def main() -> None:
    folder = Path(sys.argv[1])
    (folder / "fixed.image").write_bytes(image(1, 0))
    (folder / "movable.image").write_bytes(image(65_535, 65_535))


main()
