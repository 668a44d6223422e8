"""Functions on PDB and PRC files, images and scripts. They keep nothing between calls, and take any bytes."""

from __future__ import annotations

import ctypes as c
from typing import Any, NamedTuple, Optional, Sequence

from . import _library as low
from ._errors import ImageFault, Kind, fault
from ._library import Buffer

LONGEST_IMAGE = 16_777_208


def _good(answer: Any) -> None:
    if answer.kind != Kind.OK:
        raise fault(answer.kind, answer.at, answer.entry)


def _made(function: Any, file: Buffer, item: Any) -> Any:
    """Calls a function for the number of items that it makes, and then with room for them. Returns their array."""
    given, count = low.exact_bytes(file), c.c_size_t(0)
    answer = function(given or None, len(given), None, 0, c.byref(count))
    items = (item * count.value)()
    if answer.kind == Kind.NO_ROOM:
        answer = function(given or None, len(given), items, count.value, c.byref(count))
    _good(answer)
    return items


class Blocks(NamedTuple):
    """The blocks of a file. One that is not there is None."""

    app_info: Optional[bytes]
    sort_info: Optional[bytes]
    data: list[Optional[bytes]]


class Parts(NamedTuple):
    """A file as structures of C: its header, the places of its info blocks, its entries with those of their data."""

    header: Any
    app: Any
    sort: Any
    entries: Any


class Counts(NamedTuple):
    """The counts of an image: its size, slots, movable and fixed chunks, bytes of its free chunks, databases."""

    size: int
    slots: int
    movable: int
    fixed: int
    free: int
    databases: int


class Needs(NamedTuple):
    """The smallest new image into which the database of a file can be imported: its size, and its slots."""

    size: int
    slots: int


class Salvaged(NamedTuple):
    """A salvaged file, and a line for each fault of the damaged one."""

    file: bytes
    faults: list[str]


class Run(NamedTuple):
    """The results of a script: the image afterwards, the reply lines, and the files that its lines export."""

    image: bytes
    replies: str
    files: list[bytes]


def check_file(file: Buffer) -> None:
    """Checks whether a database can be read from a file, PDB or PRC. Raises its first fault, a `FileFault`."""
    given = low.exact_bytes(file)
    _good(low.library().palmheap_pdb_check(given or None, len(given)))


def blocks(file: Buffer) -> Blocks:
    """Returns the AppInfo block, the SortInfo block, and the data of each entry of a file."""
    file = low.exact_bytes(file)
    found = _made(low.library().palmheap_pdb_blocks, file, low.Block)
    app_info, sort_info, *data = (file[it.start : it.end] if it.is_there else None for it in found)
    return Blocks(app_info, sort_info, data)


def read_parts(file: bytes) -> Parts:
    """Returns the header, the places of the info blocks and the entries of a file. Raises its first fault."""
    header, app, sort, count = low.DatabaseInfo(), low.Block(), low.Block(), c.c_size_t(0)
    while True:
        parts = Parts(header, app, sort, (low.FileEntry * count.value)())
        answer = low.library().palmheap_pdb_read(file or None, len(file), *_pointers(parts), c.byref(count))
        if answer.kind != Kind.NO_ROOM:
            break
    _good(answer)
    return parts


def write_parts(data: bytes, parts: Parts, filler: bytes, order: Sequence[int]) -> bytes:
    """Returns the file of these parts, whose places are in `data`. Raises ValueError if there is none."""
    ranks = (low.U32 * len(order))(*(low.number(low.U32, it) for it in order))
    made, count = (low.U8 * 0)(), c.c_size_t(0)
    while True:
        rest = (filler or None, len(filler), ranks, len(ranks), made, len(made), c.byref(count))
        answer = low.library().palmheap_pdb_write(data or None, len(data), *_pointers(parts), *rest)
        if answer.kind != Kind.NO_ROOM:
            break
        made = (low.U8 * count.value)()
    if answer.kind == Kind.NO_FILE:
        raise ValueError("no file has these values")
    _good(answer)
    return bytes(made)


def _pointers(parts: Parts) -> tuple[Any, ...]:
    places = (c.byref(it) for it in (parts.header, parts.app, parts.sort))
    return (*places, parts.entries, len(parts.entries))


def listing(file: Buffer) -> str:
    """Returns the text that `palmheap list` prints for a file."""
    return bytes(_made(low.library().palmheap_pdb_list, file, low.U8)).decode()


def document(file: Buffer) -> str:
    """Returns the JSON document that `palmheap list --json` prints for a file: if it has a fault, that of the fault."""
    return bytes(_made(low.library().palmheap_pdb_json, file, low.U8)).decode()


def needs(file: Buffer) -> Needs:
    """Returns the size and the number of slots that `new_image` needs at least for the database of a file."""
    given, found = low.exact_bytes(file), low.Needs()
    _good(low.library().palmheap_pdb_needs(given or None, len(given), c.byref(found)))
    return Needs(found.size, found.slots)


def salvage(file: Buffer, exact_ids: bool = False) -> Salvaged:
    """Salvages a damaged file, as `palmheap salvage` does. Raises a `FileFault` if it is shorter than a header.

    Records get IDs as in the canonical form, or keep those of the damaged file if `exact_ids`.
    """
    given, count, faults = low.exact_bytes(file), c.c_size_t(0), c.c_size_t(0)
    salvaged, room = (low.U8 * 0)(), 0
    while True:
        words = (given or None, len(given), bool(exact_ids), salvaged, room, c.byref(count), c.byref(faults))
        answer = low.library().palmheap_salvage(*words)
        if answer.kind != Kind.NO_ROOM:
            break
        room = count.value
        salvaged = (low.U8 * room)()
    _good(answer)
    lines = bytes(_made(low.library().palmheap_salvage_lines, file, low.U8)).decode()
    return Salvaged(bytes(salvaged), lines.splitlines())


def canonical(file: Buffer) -> bytes:
    """Returns the canonical form of a file: the file that is written for the database that is read from it."""
    return bytes(_made(low.library().palmheap_canonical, file, low.U8))


def new_image(size: int, slots: int) -> bytes:
    """Makes an image without chunks, with room for `slots` movable chunks. Its size is a multiple of 8, 64 to 16,777,208."""
    size, slots = low.number(low.U32, size), low.number(low.U16, slots)
    if size > LONGEST_IMAGE:
        raise ImageFault(Kind.BAD_SIZE)
    image = (low.U8 * size)()
    _good(low.library().palmheap_new(image if size else None, size, slots))
    return bytes(image)


def check_image(image: Buffer) -> Counts:
    """Checks whether bytes are an accepted image, and returns its counts. Raises its first fault, an `ImageFault`."""
    given, counts = low.exact_bytes(image), low.Counts()
    _good(low.library().palmheap_check(given or None, len(given), c.byref(counts)))
    return Counts(*(getattr(counts, name) for name in Counts._fields))


def migrate(image: Buffer) -> bytes:
    """Returns the image with a chain of tables that an image becomes, as `palmheap migrate` makes it: `Store.more_slots`
    adds slots to it. An image that has a chain is returned as it is."""
    return bytes(_made(low.library().palmheap_migrate, image, low.U8))


def image_map(image: Buffer) -> str:
    """Returns the picture of an image that `palmheap map` prints. Raises its first fault, an `ImageFault`."""
    return bytes(_made(low.library().palmheap_map, image, low.U8)).decode()


def image_svg(image: Buffer) -> str:
    """Returns the picture of an image as SVG, as `palmheap map` writes it. Raises its first fault, an `ImageFault`."""
    return bytes(_made(low.library().palmheap_map_svg, image, low.U8)).decode()


def database_listing(image: Buffer) -> str:
    """Returns the lines on an image that `palmheap databases` prints. Raises its first fault, an `ImageFault`."""
    return bytes(_made(low.library().palmheap_databases, image, low.U8)).decode()


def database_document(image: Buffer) -> str:
    """Returns the JSON document of the databases of an image, as `palmheap databases --json` prints it.

    Raises the first fault of the image, an `ImageFault`.
    """
    return bytes(_made(low.library().palmheap_databases_json, image, low.U8)).decode()


def run(image: Buffer, script: str | Buffer, files: Sequence[Buffer] = ()) -> Run:
    """Runs a script (docs/USING.md) on an image. `files` are those that its lines import.

    A refused line raises nothing: its reply says so. A text that is no script raises a `ScriptFault`.
    """
    text = script.encode() if isinstance(script, str) else low.exact_bytes(script)
    kept = [low.exact_bytes(it) for it in files]
    given = (low.Bytes * len(kept))(*(low.Bytes(it or None, len(it)) for it in kept)) if kept else None
    before = low.exact_bytes(image)
    after = (low.U8 * len(before)).from_buffer_copy(before)
    sizes, room = low.Sizes(), (0, 0, 0)
    while True:
        printed, exported = (low.U8 * room[0])(), (low.U8 * room[1])()
        ends = (low.SIZE * room[2])()
        buffers = (printed, room[0], exported, room[1], ends, room[2], c.byref(sizes))
        words = (after, len(after), text or None, len(text), given, len(kept), *buffers)
        answer = low.library().palmheap_run(*words)
        if answer.kind != Kind.NO_ROOM:
            break
        room = (sizes.printed, sizes.exported, sizes.files)
    _good(answer)
    stops = list(ends)[: sizes.files]
    whole = bytes(exported)
    parts = [whole[start:end] for start, end in zip([0, *stops], stops)]
    return Run(bytes(after), bytes(printed)[: sizes.printed].decode(), parts)
