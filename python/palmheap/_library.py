"""The functions of palmheap.h for ctypes: what each takes and returns, and where the shared library is found.

`python/tests/test_header.py` compares the rows with the header.
"""

from __future__ import annotations

import ctypes as c
import functools
import operator
import os
from typing import Any, NamedTuple, Tuple, Union

Buffer = Union[bytes, bytearray, memoryview]

U8, U16, U32, SIZE, BOOL = c.c_uint8, c.c_uint16, c.c_uint32, c.c_size_t, c.c_bool
# The library. The number changes if a program that was compiled for one can't use the next.
NAMES = ("libpalmheap.so.1",)
VARIABLE = "PALMHEAP_LIBRARY"


class Answer(c.Structure):
    _fields_ = [("kind", U32), ("at", U32), ("entry", U32)]


class Counts(c.Structure):
    _fields_ = [("size", U32), ("slots", U32), ("movable", U32), ("fixed", U32), ("free", U32), ("databases", U32)]


class Damage(c.Structure):
    _fields_ = [("at", SIZE), ("found", SIZE), ("least", SIZE), ("most", SIZE), ("or_zero", BOOL)]


class Block(c.Structure):
    _fields_ = [("start", SIZE), ("end", SIZE), ("is_there", BOOL)]


class FileEntry(c.Structure):
    _fields_ = [("start", SIZE), ("end", SIZE), ("kind", U32), ("id", U32), ("attributes", U8), ("has_data", BOOL)]


class Needs(c.Structure):
    _fields_ = [("size", SIZE), ("slots", SIZE)]


class Bytes(c.Structure):
    _fields_ = [("at", c.c_char_p), ("len", SIZE)]


class Sizes(c.Structure):
    _fields_ = [("printed", SIZE), ("exported", SIZE), ("files", SIZE)]


class Place(c.Structure):
    _fields_ = [("at", c.c_void_p)]


class Loan(c.Structure):
    _fields_ = [("bytes", c.c_void_p), ("count", SIZE), ("name", U32)]


class DatabaseInfo(c.Structure):
    _fields_ = [
        ("name", U8 * 32),
        ("name_length", U32),
        ("creation_date", U32),
        ("modification_date", U32),
        ("backup_date", U32),
        ("modification_number", U32),
        ("kind", U32),
        ("creator", U32),
        ("seed", U32),
        ("attributes", U16),
        ("version", U16),
        ("entry_count", U16),
    ]


class RecordInfo(c.Structure):
    _fields_ = [("id", U32), ("data", U32), ("attributes", U8), ("has_data", BOOL)]


class ResourceInfo(c.Structure):
    _fields_ = [("kind", U32), ("data", U32), ("id", U16)]


# The structures by their names in C.
STRUCTURES = {
    "palmheap_answer": Answer,
    "palmheap_counts": Counts,
    "palmheap_damage": Damage,
    "palmheap_block": Block,
    "palmheap_file_entry": FileEntry,
    "palmheap_needs": Needs,
    "palmheap_bytes": Bytes,
    "palmheap_sizes": Sizes,
    "palmheap_store": Place,
    "palmheap_loan": Loan,
    "palmheap_database_info": DatabaseInfo,
    "palmheap_record_info": RecordInfo,
    "palmheap_resource_info": ResourceInfo,
}


class Row(NamedTuple):
    """A function: what it takes, what it writes through pointers after that, and what it returns.

    `bytes` stands for a pointer to const and a length, `bytearray` for a buffer and a length.
    """

    takes: Tuple[Any, ...] = ()
    writes: Tuple[Any, ...] = ()
    returns: Any = U32


# A file as structures: its header, the places of AppInfo and SortInfo, and its entries.
PARTS = (c.POINTER(DatabaseInfo), c.POINTER(Block), c.POINTER(Block), c.POINTER(FileEntry), SIZE)
# The functions on files and images.
FILE_FUNCTIONS = {
    "pdb_check": Row((bytes,), (), Answer),
    "pdb_blocks": Row((bytes, c.POINTER(Block), SIZE), (SIZE,), Answer),
    "pdb_read": Row((bytes, *PARTS), (SIZE,), Answer),
    "pdb_write": Row((bytes, *PARTS, bytes, c.POINTER(U32), SIZE, bytearray), (SIZE,), Answer),
    "pdb_list": Row((bytes, bytearray), (SIZE,), Answer),
    "pdb_json": Row((bytes, bytearray), (SIZE,), Answer),
    "pdb_needs": Row((bytes,), (Needs,), Answer),
    "canonical": Row((bytes, bytearray), (SIZE,), Answer),
    "salvage": Row((bytes, BOOL, bytearray), (SIZE, SIZE), Answer),
    "salvage_lines": Row((bytes, bytearray), (SIZE,), Answer),
    "new": Row((bytearray, U16), (), Answer),
    "check": Row((bytes,), (Counts,), Answer),
    "migrate": Row((bytes, bytearray), (SIZE,), Answer),
    "map": Row((bytes, bytearray), (SIZE,), Answer),
    "map_svg": Row((bytes, bytearray), (SIZE,), Answer),
    "databases": Row((bytes, bytearray), (SIZE,), Answer),
    "databases_json": Row((bytes, bytearray), (SIZE,), Answer),
    "run": Row(
        (bytearray, bytes, c.POINTER(Bytes), SIZE, bytearray, bytearray, c.POINTER(SIZE), SIZE), (Sizes,), Answer
    ),
    "open": Row((bytes,), (Place,), Answer),
    "refusal_name": Row((U32, bytearray), (SIZE,)),
}
# The calls on an open store that return 0 or a refusal. Each takes the store first.
CALLS = {
    "MemHandleNew": Row((U32, U8), (U32,)),
    "MemPtrNew": Row((U32, U8), (U32,)),
    "MemChunkFree": Row((U32,)),
    "MemHandleLock": Row((U32,), (U32, U8)),
    "MemHandleUnlock": Row((U32,), (U8,)),
    "MemHandleSize": Row((U32,), (U32,)),
    "MemHandleOwner": Row((U32,), (U8,)),
    "MemHandleLockCount": Row((U32,), (U8,)),
    "DmWrite": Row((U32, U32, bytes)),
    "DmSet": Row((U32, U32, U32, U8)),
    "DmStrCopy": Row((U32, U32, bytes)),
    "MemHandleResize": Row((U32, U32)),
    "MemHandleSetOwner": Row((U32, U8)),
    "MemPtrRecoverHandle": Row((U32,), (U32,)),
    "MemHeapFreeByOwnerID": Row((U8,), (U32,)),
    "MemHeapFreeBytes": Row((), (U32,)),
    "largest_stretch": Row((), (U32,)),
    "MemHeapCompact": Row((), (U32,)),
    "more_slots": Row(),
    "DmCreateDatabase": Row((bytes, U32, U32, BOOL, U32), (U32,)),
    "DmDeleteDatabase": Row((U32,)),
    "DmFindDatabase": Row((bytes,), (U32,)),
    "DmGetDatabase": Row((U32,), (U32,)),
    "DmNumDatabases": Row((), (U32,)),
    "DmDatabaseInfo": Row((U32,), (DatabaseInfo,)),
    "DmSetDatabaseInfo": Row((U32, c.POINTER(DatabaseInfo))),
    "set_info_block": Row((U32, BOOL, U32)),
    "take_info_block": Row((U32, BOOL, U8), (U32,)),
    "info_block": Row((U32, BOOL), (U32,)),
    "DmNewRecord": Row((U32, U32, U32), (U32, U32)),
    "DmDeleteRecord": Row((U32, U32)),
    "DmArchiveRecord": Row((U32, U32)),
    "DmRemoveRecord": Row((U32, U32)),
    "DmMoveRecord": Row((U32, U32, U32)),
    "DmGetRecord": Row((U32, U32), (U32,)),
    "DmQueryRecord": Row((U32, U32), (U32,)),
    "DmReleaseRecord": Row((U32, U32, BOOL)),
    "DmRecordInfo": Row((U32, U32), (RecordInfo,)),
    "DmResizeRecord": Row((U32, U32, U32)),
    "DmNumRecords": Row((U32,), (U32,)),
    "DmAttachRecord": Row((U32, U32, U32), (U32,)),
    "attach_replacing": Row((U32, U32, U32, U8), (U32,)),
    "DmDetachRecord": Row((U32, U32, U8), (U32,)),
    "DmSetRecordInfo": Row((U32, U32, U8, U32)),
    "DmFindRecordByID": Row((U32, U32), (U32,)),
    "DmNumRecordsInCategory": Row((U32, U8), (U32,)),
    "DmQueryNextInCategory": Row((U32, U32, U8), (U32,)),
    "DmPositionInCategory": Row((U32, U32, U8), (U32,)),
    "DmMoveCategory": Row((U32, U8, U8, BOOL)),
    "DmDeleteCategory": Row((U32, U8)),
    "DmNewResource": Row((U32, U32, U16, U32), (U32, U32)),
    "DmAttachResource": Row((U32, U32, U16, U32), (U32,)),
    "DmDetachResource": Row((U32, U32, U8), (U32,)),
    "DmRemoveResource": Row((U32, U32)),
    "DmResizeResource": Row((U32, U32, U32)),
    "DmResourceInfo": Row((U32, U32), (ResourceInfo,)),
    "DmSetResourceInfo": Row((U32, U32, U32, U16)),
    "DmFindResource": Row((U32, U32, U16), (U32,)),
    "DmFindResourceType": Row((U32, U32, U32), (U32,)),
    "DmNumResources": Row((U32,), (U32,)),
    "import": Row((bytes,), (U32,)),
    "take_out": Row((U32,), (Loan,)),
    "take_out_also": Row((U32,), (Loan,)),
    "close": Row(),
}
# Those that write bytes into a buffer, and their number.
BYTE_CALLS = {
    "write_image": Row((bytearray,), (SIZE,)),
    "read": Row((U32, U32, U32, bytearray), (SIZE,)),
    "export": Row((U32, bytearray), (SIZE,)),
}
# Those that are never refused.
ALWAYS = {
    "put_back": Row((c.POINTER(Loan),), (), None),
    "lent": Row((), (U32,), BOOL),
    "loan_above": Row((U32,), (U32, U32), BOOL),
}
STORE_FUNCTIONS = {**CALLS, **BYTE_CALLS, **ALWAYS}


def argument_types(row: Row) -> list[Any]:
    """Returns the types in ctypes of what a function takes and writes, without a store."""
    spans: dict[Any, list[Any]] = {bytes: [c.c_char_p, SIZE], bytearray: [c.c_void_p, SIZE]}
    return [part for it in row.takes for part in spans.get(it, [it])] + [c.POINTER(it) for it in row.writes]


class LibraryNotFound(ImportError):
    """The shared library libpalmheap was not found, or lacks a function."""


def candidates() -> list[str]:
    """Returns where the library is looked for: PALMHEAP_LIBRARY alone if it is set, else the folder of this package,
    and then the folders of the system's loader."""
    given = os.environ.get(VARIABLE)
    if given:
        return [given]
    here = os.path.dirname(os.path.abspath(__file__))
    beside = [path for path in (os.path.join(here, name) for name in NAMES) if os.path.exists(path)]
    return [*beside, *NAMES]


def opened() -> c.CDLL:
    reasons = []
    for path in candidates():
        try:
            return c.CDLL(path)
        except OSError as error:
            reasons.append(str(error))
    raise LibraryNotFound(f"no libpalmheap ({VARIABLE} can have its path): " + "; ".join(reasons))


@functools.lru_cache(maxsize=None)
def library() -> c.CDLL:
    """Returns the shared library, which the first call loads."""
    so = opened()
    for name, row in {**FILE_FUNCTIONS, **STORE_FUNCTIONS}.items():
        try:
            function = getattr(so, f"palmheap_{name}")
        except AttributeError:
            raise LibraryNotFound(f"the library {so._name} has no palmheap_{name}") from None
        first = [c.POINTER(Place)] if name in STORE_FUNCTIONS else []
        function.argtypes, function.restype = [*first, *argument_types(row)], row.returns
    return so


def number(kind: Any, value: int) -> int:
    """Returns a number that is in the range of `kind`. ctypes would cut one that isn't."""
    value = operator.index(value)
    if kind(value).value != value:
        raise OverflowError(f"{value} is out of the range of an unsigned number of {8 * c.sizeof(kind)} bits")
    return value


def exact_bytes(data: Buffer) -> bytes:
    """Returns the bytes of an object with a buffer. Unlike bytes(), takes no number."""
    return data if type(data) is bytes else memoryview(data).tobytes()


def words(row: Row, given: tuple[Any, ...]) -> list[Any]:
    """Returns the arguments of a call: numbers that are in range, and a pointer and a length for bytes."""
    made: list[Any] = []
    for kind, it in zip(row.takes, given):
        if kind is bytes:
            it = exact_bytes(it)
            made += [it or None, len(it)]
        elif kind in (U8, U16, U32, SIZE):
            made.append(number(kind, it))
        else:
            made.append(it)
    return made
