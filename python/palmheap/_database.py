"""A PDB or PRC file as Python's values, to be read, changed and written. The library reads and writes it."""

from __future__ import annotations

import dataclasses
import os
from typing import Any, List, Optional, Sequence, Union

from . import _files
from . import _library as low
from ._library import Buffer

RESOURCES = 0x0001
DELETED = 0x80

# The bytes between the entries and the first block in most files, and in the canonical form.
FILLER = b"\0\0"
# The sizes of the field of a name, of a header, of a record's entry and of a resource's.
NAME_SIZE, HEADER_SIZE, RECORD_SIZE, RESOURCE_SIZE = 32, 78, 8, 10

Path = Union[str, "os.PathLike[str]"]


@dataclasses.dataclass
class Record:
    """A record. Only one that is deleted (attribute 0x80) can be without data. An ID of 0 asks for a free one."""

    data: Optional[bytes] = b""
    id: int = 0
    attributes: int = 0


@dataclasses.dataclass
class Resource:
    """A resource: its type, its ID and its data."""

    kind: bytes
    id: int
    data: bytes = b""


@dataclasses.dataclass
class Database:
    """What a PDB or PRC file has. With the attribute 0x0001 it has resources, else records.

    A date counts the seconds since 1904-01-01 00:00:00. The last three fields are for `to_exact_bytes` alone: the bytes
    after the name in its field, unless all are zero; those between the entries and the first block; and the ranks of the
    first blocks, if the blocks are not in the order of the list. AppInfo has the rank 0, SortInfo 1, and the data of an
    entry 2 more than its index.
    """

    name: bytes
    kind: bytes
    creator: bytes
    attributes: int = 0
    version: int = 0
    creation_date: int = 0
    modification_date: int = 0
    backup_date: int = 0
    modification_number: int = 0
    seed: int = 0
    app_info: Optional[bytes] = None
    sort_info: Optional[bytes] = None
    records: List[Record] = dataclasses.field(default_factory=list)
    resources: List[Resource] = dataclasses.field(default_factory=list)
    after_name: bytes = b""
    filler: bytes = FILLER
    order: List[int] = dataclasses.field(default_factory=list)

    @property
    def has_resources(self) -> bool:
        """Whether the database has resources, by its attributes."""
        return bool(self.attributes & RESOURCES)

    @classmethod
    def from_bytes(cls, file: Buffer) -> Database:
        """Reads a file. IDs and attributes are those that the file has. Raises its first fault, a `FileFault`."""
        file = low.exact_bytes(file)
        header, app, sort, entries = parts = _files.read_parts(file)
        dates = (header.creation_date, header.modification_date, header.backup_date, header.modification_number)
        numbers = (header.attributes, header.version, *dates, header.seed)
        kinds = (header.kind.to_bytes(4, "big"), header.creator.to_bytes(4, "big"))
        app_info, sort_info = (file[it.start : it.end] if it.is_there else None for it in (app, sort))
        database = cls(file[: header.name_length], *kinds, *numbers, app_info, sort_info)
        for it in entries:
            data = file[it.start : it.end] if it.has_data else None
            if database.has_resources:
                database.resources.append(Resource(it.kind.to_bytes(4, "big"), it.id, data or b""))
            else:
                database.records.append(Record(data, it.id, it.attributes))
        database._read_form(file, parts)
        return database

    def _read_form(self, file: bytes, parts: _files.Parts) -> None:
        """Reads the values that the canonical form does not keep."""
        after = file[len(self.name) : NAME_SIZE]
        self.after_name = after if any(after) else b""
        blocks = [(it.start, it.is_there) for it in (parts.app, parts.sort)]
        blocks += [(it.start, it.has_data) for it in parts.entries]
        starts = [(start, rank) for rank, (start, is_there) in enumerate(blocks) if is_there]
        end = HEADER_SIZE + len(parts.entries) * (RESOURCE_SIZE if self.has_resources else RECORD_SIZE)
        self.filler = file[end : min((start for start, _ in starts), default=len(file))]
        ordered = [rank for _, rank in sorted(starts)]
        self.order = ordered if ordered != sorted(ordered) else []

    def to_bytes(self) -> bytes:
        """Returns the file, in canonical form: no record is busy, and each has an ID of its own.

        Raises OverflowError if a number has too many bits, ValueError if no file has these values.
        """
        return _files.canonical(self._written(b"", FILLER, ()))

    def to_exact_bytes(self) -> bytes:
        """Returns the file with exactly these values. So `from_bytes(file).to_exact_bytes()` is the same file.

        Raises what `to_bytes` raises, also if `order` has a rank twice or one without data. If entries were added,
        removed or moved, set it to [].
        """
        return self._written(self.after_name, self.filler, self.order)

    def _written(self, after_name: bytes, filler: bytes, order: Sequence[int]) -> bytes:
        data = self._checked()
        if after_name and len(self.name + after_name) != NAME_SIZE:
            raise ValueError("a name and the bytes after it have 32 bytes")
        blocks = (self.app_info, self.sort_info, *data)
        places: list[tuple[int, int, bool]] = []
        end = 0
        for block in blocks:
            places.append((end, end + len(block or b""), block is not None))
            end += len(block or b"")
        entries = (low.FileEntry * len(data))()
        for it, values, (start, stop, is_there) in zip(entries, self._entries(), places[2:]):
            it.kind, it.id, it.attributes = values
            it.start, it.end, it.has_data = start, stop, is_there
        parts = _files.Parts(self._header(after_name), low.Block(*places[0]), low.Block(*places[1]), entries)
        return _files.write_parts(b"".join(it or b"" for it in blocks), parts, bytes(filler), order)

    def _header(self, after_name: bytes) -> Any:
        header = low.DatabaseInfo(name_length=len(self.name))
        header.name[:] = (self.name + after_name).ljust(NAME_SIZE, b"\0")
        for name in ("attributes", "version"):
            setattr(header, name, low.number(low.U16, getattr(self, name)))
        for name in ("creation_date", "modification_date", "backup_date", "modification_number", "seed"):
            setattr(header, name, low.number(low.U32, getattr(self, name)))
        header.kind, header.creator = int.from_bytes(self.kind, "big"), int.from_bytes(self.creator, "big")
        return header

    def _checked(self) -> list[Optional[bytes]]:
        """Returns the data of the entries. Refuses values that a file would have otherwise than they are."""
        if not 1 <= len(self.name) <= 31 or 0 in self.name:
            raise ValueError("a name has 1 to 31 bytes, and none of them is zero")
        if any(len(it) != 4 for it in (self.kind, self.creator, *(it.kind for it in self.resources))):
            raise ValueError("a type or a creator has four bytes")
        if self.records if self.has_resources else self.resources:
            raise ValueError("the attribute 0x0001 marks a database of resources; others have records")
        if any(it.data is None and not it.attributes & DELETED for it in self.records):
            raise ValueError("only a deleted record can be without data")
        return [it.data for it in self.resources] if self.has_resources else [it.data for it in self.records]

    def _entries(self) -> list[tuple[int, int, int]]:
        """Returns the type, the ID and the attributes of each entry."""
        if self.has_resources:
            return [(int.from_bytes(it.kind, "big"), low.number(low.U16, it.id), 0) for it in self.resources]
        for it in self.records:
            if it.id >> 24:
                raise OverflowError(f"the ID {it.id} of a record is out of the range of 24 bits")
        return [(0, it.id, low.number(low.U8, it.attributes)) for it in self.records]


def read(path: Path) -> Database:
    """Reads a PDB or PRC file. Raises its first fault, a `FileFault`."""
    with open(path, "rb") as it:
        return Database.from_bytes(it.read())


def write(database: Database, path: Path) -> None:
    """Writes a PDB or PRC file, in canonical form, in place of one that is there. If it fails, that one stays."""
    file = database.to_bytes()
    beside = f"{os.fspath(path)}.palmheap-new"
    made = open(beside, "xb")
    try:
        with made:
            made.write(file)
        os.replace(beside, path)
    except BaseException:
        os.unlink(beside)
        raise
