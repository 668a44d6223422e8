"""An open store: chunks, databases, records and resources of an image."""

from __future__ import annotations

import contextlib
import ctypes as c
import threading
from typing import Any, Iterator, NamedTuple, NoReturn, Optional, Union

from . import _files
from . import _library as low
from ._errors import fault, refusal
from ._library import Buffer

# An index after all entries: a new record becomes the last one.
END = 0xFFFF_FFFF
# A category that stands for all records that are not deleted.
ALL = 255
NO_ROOM = 100

# A type or a creator: its four bytes, as bytes or as ASCII text.
Four = Union[bytes, str]


class Lock(NamedTuple):
    """The place of a locked chunk's bytes in the image, and the number of its locks."""

    place: int
    locks: int


class NewEntry(NamedTuple):
    """The index of a new record or resource, and the chunk of its data."""

    at: int
    handle: int


class Loan(NamedTuple):
    """A lent chunk, and the place of its bytes in the image."""

    handle: int
    place: int


class DatabaseInfo(NamedTuple):
    """The header of a database, and the number of its entries. A date counts the seconds since 1904-01-01 00:00:00."""

    name: bytes
    attributes: int
    version: int
    creation_date: int
    modification_date: int
    backup_date: int
    modification_number: int
    kind: bytes
    creator: bytes
    seed: int
    entry_count: int


class RecordInfo(NamedTuple):
    """The entry of a record. The low four bits of `attributes` are the category. `handle` is the chunk of its data."""

    id: int
    attributes: int
    handle: Optional[int]


class ResourceInfo(NamedTuple):
    """The entry of a resource. `handle` is the chunk of its data."""

    kind: bytes
    id: int
    handle: int


def _text(name: Buffer | str) -> bytes:
    return name.encode("ascii") if isinstance(name, str) else low.exact_bytes(name)


def four(kind: Four) -> int:
    """Returns the number that the four bytes of a type or a creator make."""
    given = _text(kind)
    if len(given) != 4:
        raise ValueError(f"a type or a creator has four bytes, and {kind!r} has {len(given)}")
    return int.from_bytes(given, "big")


class Store:
    """An open store. Use it in a `with`, or close it.

    A chunk is named by its handle, a database by a number. A refused call raises a `Refused` and changes nothing.
    Threads may share a store: their calls run one after the other.
    """

    def __init__(self, image: Buffer) -> None:
        """Opens an image, and copies it. Raises its first fault, an `ImageFault`."""
        self._is_open = False
        self._turn = threading.RLock()
        self._place = low.Place()
        self._so = low.library()
        given = low.exact_bytes(image)
        answer = self._so.palmheap_open(given or None, len(given), c.byref(self._place))
        if answer.kind:
            raise fault(answer.kind, answer.at, answer.entry)
        self._is_open = True

    @classmethod
    def open(cls, image: Buffer) -> Store:
        """Opens an image, and copies it: `image()` returns the new one. Raises its first fault, an `ImageFault`."""
        return cls(image)

    @classmethod
    def new(cls, size: int, slots: int) -> Store:
        """Opens an image without chunks, as `new_image` makes it."""
        return cls(_files.new_image(size, slots))

    def __enter__(self) -> Store:
        return self

    def __exit__(self, *_: object) -> None:
        self.close()

    def __del__(self) -> None:
        with contextlib.suppress(Exception):
            self.close()

    def __reduce__(self) -> NoReturn:
        raise TypeError("a store can't be copied or pickled; its image() can")

    @property
    def closed(self) -> bool:
        """Whether the store is closed."""
        return not self._is_open

    def close(self) -> None:
        """Closes the store and frees its memory. Does nothing if it is closed. Raises `Lent` while a chunk is lent."""
        with self._turn:
            if self._is_open:
                self._call("close")
                self._is_open = False

    def image(self) -> bytes:
        """Returns the image of the store. Raises `Lent` while a chunk is lent."""
        return self._bytes("write_image")

    # ---- how calls are made

    def _function(self, name: str) -> Any:
        if not self._is_open:
            raise ValueError("the store is closed")
        return getattr(self._so, f"palmheap_{name}")

    def _call(self, name: str, *given: Any) -> list[Any]:
        """Does a call, and returns what it writes: numbers and structures."""
        row = low.CALLS[name]
        words, made = low.words(row, given), [it() for it in row.writes]
        with self._turn:
            number = self._function(name)(c.byref(self._place), *words, *map(c.byref, made))
        if number:
            raise refusal(number)
        return [it if isinstance(it, c.Structure) else it.value for it in made]

    def _number(self, name: str, *given: Any) -> int:
        """Does a call that writes one number, and returns that."""
        written: int = self._call(name, *given)[0]
        return written

    def _bytes(self, name: str, *given: Any) -> bytes:
        """Does a call that writes bytes into a buffer, and returns them."""
        words, count, room = low.words(low.BYTE_CALLS[name], given), low.SIZE(0), (low.U8 * 0)()
        with self._turn:
            while True:
                function = self._function(name)
                number = function(c.byref(self._place), *words, room, len(room), c.byref(count))
                if number != NO_ROOM:
                    break
                room = (low.U8 * count.value)()
        if number:
            raise refusal(number)
        return bytes(room)[: count.value]

    # ---- chunks

    def new_chunk(self, size: int, owner: int = 1) -> int:
        """Makes a movable chunk of `size` zeros for an owner, 1 to 14. Returns its handle."""
        return self._number("MemHandleNew", size, owner)

    def new_fixed_chunk(self, size: int, owner: int = 1) -> int:
        """Makes a chunk of `size` zeros that never moves, for an owner, 1 to 14. Returns its handle."""
        return self._number("MemPtrNew", size, owner)

    def free_chunk(self, handle: int) -> None:
        """Frees a chunk that has no lock, or is fixed."""
        self._call("MemChunkFree", handle)

    def lock(self, handle: int) -> Lock:
        """Adds a lock to a movable chunk, which can have 14."""
        return Lock(*self._call("MemHandleLock", handle))

    def unlock(self, handle: int) -> int:
        """Removes a lock from a movable chunk. Returns the number of locks left."""
        return self._number("MemHandleUnlock", handle)

    def size(self, handle: int) -> int:
        """Returns the size of a chunk in bytes."""
        return self._number("MemHandleSize", handle)

    def owner(self, handle: int) -> int:
        """Returns the owner of a chunk, or 15 if a database owns it."""
        return self._number("MemHandleOwner", handle)

    def lock_count(self, handle: int) -> int:
        """Returns the number of locks of a chunk, or 15 if it is fixed."""
        return self._number("MemHandleLockCount", handle)

    def read(self, handle: int, at: int = 0, count: Optional[int] = None) -> bytes:
        """Returns `count` bytes of a chunk, locked or not, from the offset `at` on; without `count` all to its end."""
        with self._turn:
            return self._bytes("read", handle, at, self._rest(handle, at) if count is None else count)

    def write(self, handle: int, data: Buffer, at: int = 0) -> None:
        """Overwrites bytes of a locked or fixed chunk, from the offset `at` on."""
        self._call("DmWrite", handle, at, data)

    def fill(self, handle: int, byte: int = 0, at: int = 0, count: Optional[int] = None) -> None:
        """Sets `count` bytes of a locked or fixed chunk to `byte`, from `at` on; without `count` all to its end."""
        with self._turn:
            self._call("DmSet", handle, at, self._rest(handle, at) if count is None else count, byte)

    def copy_text(self, handle: int, text: Buffer | str, at: int = 0) -> None:
        """Writes a text before its first zero byte, and then a zero byte, to a locked or fixed chunk."""
        self._call("DmStrCopy", handle, at, _text(text))

    def resize(self, handle: int, size: int) -> None:
        """Resizes a chunk: cuts bytes off at its end, or adds zeros there."""
        self._call("MemHandleResize", handle, size)

    def set_owner(self, handle: int, owner: int) -> None:
        """Sets the owner of a chunk, 1 to 14."""
        self._call("MemHandleSetOwner", handle, owner)

    def chunk_at(self, place: int) -> int:
        """Returns the chunk whose bytes are at the offset `place` in the image."""
        return self._number("MemPtrRecoverHandle", place)

    def free_owner(self, owner: int) -> int:
        """Frees all chunks of an owner, 1 to 14, also locked and fixed ones. Returns their number."""
        return self._number("MemHeapFreeByOwnerID", owner)

    def free_bytes(self) -> int:
        """Returns the sum of the sizes of all free chunks."""
        return self._number("MemHeapFreeBytes")

    def largest_stretch(self) -> int:
        """Returns the greatest room between locked and fixed chunks, in bytes."""
        return self._number("largest_stretch")

    def compact(self) -> int:
        """Joins the free bytes between locked and fixed chunks. Returns the number of bytes moved."""
        return self._number("MemHeapCompact")

    def more_slots(self) -> None:
        """Adds a table of 15 empty slots, if the image has a chain of tables (`palmheap migrate`)."""
        self._call("more_slots")

    def _rest(self, handle: int, at: int) -> int:
        at = low.number(low.U32, at)
        return max(0, self.size(handle) - at)

    # ---- loans

    @contextlib.contextmanager
    def lent(self, handle: int) -> Iterator[memoryview]:
        """Lends the bytes of a chunk for a `with`, as a memoryview to read and write.

        Until the block ends, the chunk stays where it is, and calls that read, write, free, resize or unlock it are
        refused with `Lent` or `ChunkLocked`. So are `image` and `close`. Any number of chunks can be lent. A movable
        chunk without a lock has one until the block ends.

        The view is of a copy, which is written back when the block ends, also by an exception. A slice of the view
        that is kept longer changes nothing.
        """
        loan, is_locked = self._take_out(handle)
        data = bytearray((low.U8 * loan.count).from_address(loan.bytes) if loan.count else b"")
        view = memoryview(data)
        try:
            yield view
        finally:
            with contextlib.suppress(BufferError):
                view.release()
            self._put_back(loan, data, handle if is_locked else None)

    def _take_out(self, handle: int) -> tuple[low.Loan, bool]:
        """Takes the bytes of a chunk out. Returns the loan, and whether the chunk had to be locked."""
        with self._turn:
            is_locked = self.lock_count(handle) == 0
            if is_locked:
                self.lock(handle)
            try:
                loan: low.Loan = self._call("take_out_also", handle)[0]
            except BaseException:
                if is_locked:
                    self.unlock(handle)
                raise
        return loan, is_locked

    def _put_back(self, loan: low.Loan, data: bytearray, locked: Optional[int]) -> None:
        with self._turn:
            if loan.count:
                c.memmove(loan.bytes, bytes(data), loan.count)
            self._function("put_back")(c.byref(self._place), c.byref(loan))
            if locked is not None:
                self.unlock(locked)

    def loans(self) -> list[Loan]:
        """Returns all lent chunks, in order of their places."""
        found, name, place = [], low.U32(), low.U32(0)
        with self._turn:
            next_one = self._function("loan_above")
            while next_one(c.byref(self._place), place.value, c.byref(name), c.byref(place)):
                found.append(Loan(name.value, place.value))
        return found

    def is_lent(self) -> bool:
        """Whether a chunk is lent."""
        name = low.U32()
        with self._turn:
            return bool(self._function("lent")(c.byref(self._place), c.byref(name)))

    # ---- databases

    def create_database(
        self, name: Buffer | str, kind: Four, creator: Four, *, resources: bool = False, date: int = 0
    ) -> int:
        """Makes a database without entries, after all others. Returns its number. `kind` is its type."""
        return self._number("DmCreateDatabase", _text(name), four(kind), four(creator), bool(resources), date)

    def delete_database(self, db: int) -> None:
        """Deletes a database, its entries and its info blocks."""
        self._call("DmDeleteDatabase", db)

    def find_database(self, name: Buffer | str) -> int:
        """Returns the database with a name."""
        return self._number("DmFindDatabase", _text(name))

    def database_at(self, index: int) -> int:
        """Returns the database at an index, counted from 0."""
        return self._number("DmGetDatabase", index)

    def database_count(self) -> int:
        """Returns the number of databases."""
        return self._number("DmNumDatabases")

    def databases(self) -> list[int]:
        """Returns all databases in order."""
        with self._turn:
            return [self.database_at(it) for it in range(self.database_count())]

    def database_info(self, db: int) -> DatabaseInfo:
        """Returns the header of a database, and the number of its entries."""
        (it,) = self._call("DmDatabaseInfo", db)
        return DatabaseInfo(
            bytes(it.name)[: it.name_length],
            it.attributes,
            it.version,
            it.creation_date,
            it.modification_date,
            it.backup_date,
            it.modification_number,
            it.kind.to_bytes(4, "big"),
            it.creator.to_bytes(4, "big"),
            it.seed,
            it.entry_count,
        )

    def set_database_info(self, db: int, info: DatabaseInfo) -> None:
        """Sets the name, attributes, version, dates, type and creator of a database.

        Ignores the other fields, and the attribute for resources. To change some of them, begin with those that
        `database_info` returns: `info._replace(version=2)`.
        """
        given, name = low.DatabaseInfo(), _text(info.name)[:32]
        given.name[: len(name)], given.name_length = list(name), len(name)
        given.kind, given.creator = four(info.kind), four(info.creator)
        given.attributes = low.number(low.U16, info.attributes)
        given.version = low.number(low.U16, info.version)
        given.creation_date = low.number(low.U32, info.creation_date)
        given.modification_date = low.number(low.U32, info.modification_date)
        given.backup_date = low.number(low.U32, info.backup_date)
        self._call("DmSetDatabaseInfo", db, given)

    def info_block(self, db: int, *, sort: bool = False) -> int:
        """Returns the chunk of the AppInfo block of a database, or of its SortInfo block."""
        return self._number("info_block", db, bool(sort))

    def set_info_block(self, db: int, handle: int, *, sort: bool = False) -> None:
        """Makes a movable chunk the AppInfo block of a database, or its SortInfo block. It may not have it yet."""
        self._call("set_info_block", db, bool(sort), handle)

    def take_info_block(self, db: int, owner: int = 1, *, sort: bool = False) -> int:
        """Gives an info block of a database, which no longer has it, to an owner. Returns its chunk."""
        return self._number("take_info_block", db, bool(sort), owner)

    # ---- records, counted from 0, deleted ones included

    def new_record(self, db: int, size: int, at: int = END) -> NewEntry:
        """Makes a record of `size` zeros at an index, or after all others. It is busy and dirty, with an ID of its own."""
        return NewEntry(*self._call("DmNewRecord", db, at, size))

    def delete_record(self, db: int, index: int) -> None:
        """Deletes a record: frees its data, and keeps its entry."""
        self._call("DmDeleteRecord", db, index)

    def archive_record(self, db: int, index: int) -> None:
        """Marks a record as deleted, and keeps its data."""
        self._call("DmArchiveRecord", db, index)

    def remove_record(self, db: int, index: int) -> None:
        """Removes a record, and frees its data."""
        self._call("DmRemoveRecord", db, index)

    def move_record(self, db: int, index: int, to: int) -> None:
        """Moves a record before the record at the index `to`, or after the last one. Both indexes are the old ones."""
        self._call("DmMoveRecord", db, index, to)

    def get_record(self, db: int, index: int) -> int:
        """Marks a record as busy, and returns the chunk of its data."""
        return self._number("DmGetRecord", db, index)

    def query_record(self, db: int, index: int) -> int:
        """Returns the chunk of a record's data."""
        return self._number("DmQueryRecord", db, index)

    def release_record(self, db: int, index: int, dirty: bool = False) -> None:
        """Marks a record as no longer busy, and as dirty if `dirty` is true."""
        self._call("DmReleaseRecord", db, index, bool(dirty))

    def record_info(self, db: int, index: int) -> RecordInfo:
        """Returns the entry of a record."""
        (it,) = self._call("DmRecordInfo", db, index)
        return RecordInfo(it.id, it.attributes, it.data if it.has_data else None)

    def resize_record(self, db: int, index: int, size: int) -> None:
        """Resizes the data of a record."""
        self._call("DmResizeRecord", db, index, size)

    def record_count(self, db: int) -> int:
        """Returns the number of records."""
        return self._number("DmNumRecords", db)

    def attach_record(self, db: int, handle: int, at: int = END) -> int:
        """Makes a movable chunk the data of a new record at an index, or after all others. Returns its index."""
        return self._number("DmAttachRecord", db, at, handle)

    def replace_record(self, db: int, index: int, handle: int, owner: int = 1) -> int:
        """Makes a movable chunk the data of a record, and gives its old data to an owner. Returns the old chunk."""
        return self._number("attach_replacing", db, index, handle, owner)

    def detach_record(self, db: int, index: int, owner: int = 1) -> int:
        """Removes a record, and gives its data to an owner. Returns the chunk."""
        return self._number("DmDetachRecord", db, index, owner)

    def set_record_info(self, db: int, index: int, attributes: int, id: int = 0) -> None:
        """Sets the attributes of a record, except 0x80 and 0x20, and its ID, if the low 24 bits of `id` are not 0."""
        self._call("DmSetRecordInfo", db, index, attributes, id)

    def find_record(self, db: int, id: int) -> int:
        """Returns the index of the record with an ID, deleted or not."""
        return self._number("DmFindRecordByID", db, id)

    def category_count(self, db: int, category: int = ALL) -> int:
        """Returns the number of records of a category, or of all that are not deleted."""
        return self._number("DmNumRecordsInCategory", db, category)

    def next_in_category(self, db: int, start: int, category: int = ALL) -> int:
        """Returns the index of the first record of a category at the index `start` or after it."""
        return self._number("DmQueryNextInCategory", db, start, category)

    def position_in_category(self, db: int, index: int, category: int = ALL) -> int:
        """Returns the number of records of a category before an index."""
        return self._number("DmPositionInCategory", db, index, category)

    def move_category(self, db: int, category: int, to: int, dirty: bool = False) -> None:
        """Gives all records of a category the category `to`. Marks them as dirty if `dirty` is true."""
        self._call("DmMoveCategory", db, to, category, bool(dirty))

    def delete_category(self, db: int, category: int) -> None:
        """Deletes all records of a category."""
        self._call("DmDeleteCategory", db, category)

    # ---- resources, counted from 0; two may have the same type and ID

    def new_resource(self, db: int, kind: Four, id: int, size: int) -> NewEntry:
        """Makes a resource of `size` zeros, after all others."""
        return NewEntry(*self._call("DmNewResource", db, four(kind), id, size))

    def attach_resource(self, db: int, kind: Four, id: int, handle: int) -> int:
        """Makes a movable chunk the data of a new resource, after all others. Returns its index."""
        return self._number("DmAttachResource", db, four(kind), id, handle)

    def detach_resource(self, db: int, index: int, owner: int = 1) -> int:
        """Removes a resource, and gives its data to an owner. Returns the chunk."""
        return self._number("DmDetachResource", db, index, owner)

    def remove_resource(self, db: int, index: int) -> None:
        """Removes a resource, and frees its data."""
        self._call("DmRemoveResource", db, index)

    def resize_resource(self, db: int, index: int, size: int) -> None:
        """Resizes the data of a resource."""
        self._call("DmResizeResource", db, index, size)

    def resource_info(self, db: int, index: int) -> ResourceInfo:
        """Returns the entry of a resource."""
        (it,) = self._call("DmResourceInfo", db, index)
        return ResourceInfo(it.kind.to_bytes(4, "big"), it.id, it.data)

    def set_resource_info(self, db: int, index: int, kind: Four, id: int) -> None:
        """Sets the type and the ID of a resource."""
        self._call("DmSetResourceInfo", db, index, four(kind), id)

    def find_resource(self, db: int, kind: Four, id: int) -> int:
        """Returns the index of the first resource with a type and an ID."""
        return self._number("DmFindResource", db, four(kind), id)

    def find_resource_type(self, db: int, kind: Four, nth: int = 0) -> int:
        """Returns the index of the resource of a type that has `nth` others of the type before it."""
        return self._number("DmFindResourceType", db, four(kind), nth)

    def resource_count(self, db: int) -> int:
        """Returns the number of resources."""
        return self._number("DmNumResources", db)

    # ---- files

    def import_file(self, file: Buffer) -> int:
        """Makes the database of a PDB or PRC file, after all others. Returns its number."""
        return self._number("import", file)

    def export_file(self, db: int) -> bytes:
        """Returns the file of a database."""
        return self._bytes("export", db)
