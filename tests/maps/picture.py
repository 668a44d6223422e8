#!/usr/bin/env python3
"""Draws a heap image with one table, by docs/FORMAT.md and the list of marks alone: as text, or the lines of the SVG but
its styles and the kinds of its legend.

  picture.py IMAGE
  picture.py IMAGE svg
"""
import struct
import sys

LETTERS = "abcdefghijklmnopqrstuvwxyzABCDEGHIJKMNOPQRSTUVWXYZ0123456789"
FIXED, LOCKED, MANAGERS, OTHER, FREE, HEAD = 0, 1, 2, 1027, 1028, 1029
CLASSES = {FIXED: 0, LOCKED: 1, MANAGERS: 2, OTHER: 3, FREE: 4, HEAD: 5}


def read(image):
    """The offset, size, rank and slot of each chunk, by slot too, and the slots in use."""
    slots = struct.unpack(">H", image[8:10])[0]
    start = at = (16 + 4 * slots + 7) // 8 * 8
    chunks = []
    while at < len(image):
        first, second = struct.unpack(">II", image[at:at + 8])
        size = first % 2**24
        chunk = {"at": at, "size": size, "slot": None, "rank": FREE}
        if first < 2**31:
            lock, owner, distance = second >> 28, second >> 24 & 15, second % 2**24
            distance -= distance >> 23 << 24
            chunk["body"] = image[at + 8:at + size - (first >> 24)]
            if lock == 15:
                chunk["rank"] = FIXED
            else:
                chunk["slot"] = at + 2 * distance
                chunk["rank"] = LOCKED if lock else MANAGERS if owner == 0 else OTHER
        chunks.append(chunk)
        at += size
    return slots, start, chunks


def databases(image, chunks):
    """The headers of the databases; the chunks that one names get its rank."""
    by_slot = {chunk["slot"]: chunk for chunk in chunks if chunk["slot"] is not None}
    word = struct.unpack(">I", image[12:16])[0]
    directory = by_slot[word]["body"] if word else b""
    headers = []
    for index, (slot,) in enumerate(struct.iter_unpack(">I", directory)):
        header = by_slot[slot]["body"]
        headers.append(header)
        size, there = (10, 6) if header[33] & 1 else (8, 0)
        ats = [52, 56] + [78 + size * k + there for k in range(struct.unpack(">H", header[76:78])[0])]
        for at in ats:
            named = struct.unpack(">I", header[at:at + 4])[0]
            if named and by_slot[named]["rank"] == OTHER:
                by_slot[named]["rank"] = MANAGERS + 1 + index
    return headers


def letter(number):
    return LETTERS[number - 1] if number <= len(LETTERS) else "+"


def mark(rank, free, size):
    if rank > LOCKED and rank != FREE and 2 * free >= size:
        return ":"
    return {FIXED: "F", LOCKED: "L", MANAGERS: "*", OTHER: "#", FREE: "."}.get(rank) or letter(rank - MANAGERS)


def free_pieces(chunks):
    """The sizes of the runs of neighbouring free chunks."""
    pieces, run = [], 0
    for chunk in chunks:
        if chunk["rank"] == FREE:
            run += chunk["size"]
        elif run:
            pieces.append(run)
            run = 0
    return pieces + [run] * (run > 0)


def rooms(start, chunks):
    """Where each stretch with free bytes begins, and how many it has."""
    found, begin, room = [], start, 0
    for chunk in chunks:
        if chunk["rank"] <= LOCKED:
            found.append((begin, room))
            begin, room = chunk["at"] + chunk["size"], 0
        elif chunk["rank"] == FREE:
            room += chunk["size"]
    return [(begin, room) for begin, room in found + [(begin, room)] if room]


def entries(header):
    name = header[:32].split(b"\0")[0].decode("ascii")
    return name, struct.unpack(">H", header[76:78])[0], "resources" if header[33] & 1 else "records"


def text(image):
    slots, start, chunks = read(image)
    headers = databases(image, chunks)
    area = len(image) - start
    size = 8 * ((area + 16383) // 16384)
    cells = [[FREE, 0] for _ in range((area + size - 1) // size)]
    for chunk in chunks:
        at, end = chunk["at"] - start, chunk["at"] - start + chunk["size"]
        for k in range(at // size, (end - 1) // size + 1):
            cells[k][0] = min(cells[k][0], chunk["rank"])
            cells[k][1] += (chunk["rank"] == FREE) * (min(end, size * k + size) - max(at, size * k))
    used = sum(chunk["slot"] is not None for chunk in chunks)
    yield f"size {len(image)} slots {slots} used {used} cell {size}"
    marks = "".join(mark(rank, free, min(size, area - size * k)) for k, (rank, free) in enumerate(cells))
    for at in range(0, len(marks), 64):
        yield f"{start + size * at:8} {marks[at:at + 64]}"
    pieces = free_pieces(chunks)
    yield f"free {sum(pieces)} in {len(pieces)} pieces, the largest {max(pieces, default=0)}"
    for index, header in enumerate(headers):
        name, count, kind = entries(header)
        yield f'{letter(index + 1)} "{name}" {count} {kind}'


def strips(start, chunks, thin):
    """Each chunk, but neighbours of one rank that are thin as one: rank, offset, size, and whether thin."""
    found = [[HEAD, 0, start, False]]
    for chunk in chunks:
        is_thin = chunk["size"] < thin
        if is_thin and found[-1][3] and found[-1][0] == chunk["rank"]:
            found[-1][2] += chunk["size"]
        else:
            found.append([chunk["rank"], chunk["at"], chunk["size"], is_thin])
    return found


def rectangles(start, chunks, line):
    for rank, at, size, is_thin in strips(start, chunks, line // 1000 + 1):
        number = CLASSES.get(rank, (rank - 3) % 8 + 6)
        for row in range(at // line, (at + size + line - 1) // line):
            first, end = max(at, line * row), min(at + size, line * row + line)
            yield (f'<path class="{"s " * is_thin}c{number}" d="M{first - line * row} {17 * row}h{end - first}'
                   f'v14h-{end - first}z"><title>{at}: {size}</title></path>')


def bar(size, pieces, left):
    used, largest, most = size - sum(pieces), max(pieces, default=0), max(left, default=0)
    yield f'<svg x="74" y="52" width="1000" height="9" viewBox="0 0 {size} 9" preserveAspectRatio="none">'
    for x, width, colour, title in (
            (0, used, "#888", "used"),
            (used, largest, "#2ca02c", "the largest free piece"),
            (used + largest, most - largest, "#98df8a", "what a compact adds to it"),
            (used + most, sum(pieces) - most, "#f7b6b2", "free in other stretches")):
        yield f'<rect x="{x}" width="{width}" height="9" fill="{colour}"><title>{title}</title></rect>'
    yield "</svg>"


def svg(image):
    slots, start, chunks = read(image)
    headers = databases(image, chunks)
    line = 64
    while 32 * line < len(image):
        line *= 2
    rows = (len(image) + line - 1) // line
    below = 17 * rows + 88
    sizes_at = below + 22 * ((len(headers) + 1) // 2) + 44
    pieces, found = free_pieces(chunks), rooms(start, chunks)
    left = [room for _, room in found]
    used = sum(chunk["slot"] is not None for chunk in chunks)
    yield (f'<svg xmlns="http://www.w3.org/2000/svg" width="1224" height="{sizes_at + 70}" '
           f'viewBox="0 0 1224 {sizes_at + 70}" font-family="sans-serif" font-size="12">')
    yield '<rect width="100%" height="100%" fill="#fff"/>'
    yield f'<text x="74" y="22" class="t">{len(image)} bytes, {used} of {slots} slots in use</text>'
    yield (f'<text x="74" y="42">free {sum(pieces)} bytes in {len(pieces)} pieces, the largest {max(pieces, default=0)}; '
           f'a compact leaves {len(left)} pieces, the largest {max(left, default=0)}</text>')
    yield from bar(len(image), pieces, left)
    yield (f'<svg x="74" y="74" width="1000" height="{17 * rows}" viewBox="0 0 {line} {17 * rows}" '
           'preserveAspectRatio="none">')
    yield from rectangles(start, chunks, line)
    yield "</svg>"
    yield '<text x="1082" y="68" class="r">room of stretches</text>'
    for row in range(rows):
        yield f'<text x="68" y="{17 * row + 85}" class="n">{line * row}</text>'
    for row in range(rows):
        here = [room for begin, room in found if begin // line == row]
        more = f" and {len(here) - 1} more" if len(here) > 1 else ""
        if here:
            yield f'<text x="1082" y="{17 * row + 85}" class="r">{max(here)} bytes{more}</text>'
    yield f'<g transform="translate(74 {below})">'
    for index, header in enumerate(headers):
        name, count, kind = entries(header)
        yield (f'<g transform="translate({480 * (index % 2) + 74} {22 * (index // 2) + below + 22})"><path class="c{index % 8 + 6}" '
               f'd="M0 0h12v12h-12z"/><text x="17" y="10">{letter(index + 1)} {name}: {count} {kind}</text></g>')
    if pieces:
        yield f'<text x="74" y="{sizes_at}">free pieces by size, from:</text>'
    for index in range(21):
        least = 8 << index
        count = sum(least <= piece < 2 * least for piece in pieces)
        if count:
            yield (f'<text x="{142 * (index % 7) + 74}" y="{18 * (index // 7) + sizes_at + 18}">'
                   f"{least}: {count}</text>")
    yield "</svg>"


for printed in (svg if sys.argv[2:] == ["svg"] else text)(open(sys.argv[1], "rb").read()):
    print(printed)
