"""What a call can raise: faults of files, images and scripts, and refusals."""

from __future__ import annotations

import ctypes as c
import enum

from . import _library as low


class Error(Exception):
    """A fault of bytes, or a refusal of a call."""


class Kind(enum.IntEnum):
    """The kinds of answers. docs/FORMAT.md says what each fault means."""

    OK = 0
    NO_MEMORY = 1
    NO_ROOM = 2
    TOO_LARGE = 3
    BAD_SIZE = 4
    BAD_SLOT_COUNT = 5
    NO_FILE = 6
    TOO_SHORT = 20
    BAD_MAGIC = 21
    BAD_SIZE_FIELD = 22
    BAD_SLOT_FIELD = 23
    BAD_RESERVED = 24
    BAD_PADDING = 25
    BAD_CHUNK = 26
    BAD_TABLE = 27
    SLOT_MISMATCH = 28
    CHUNK_WITHOUT_SLOT = 29
    BAD_FIXED_OWNER = 30
    BAD_DIRECTORY = 31
    BAD_DIRECTORY_SLOT = 40
    BAD_HEADER = 41
    BAD_ENTRY = 42
    SHARED_CHUNK = 43
    STRAY_CHUNK = 44
    BAD_ID = 45
    BAD_NAME = 46
    SAME_NAME = 47
    TRUNCATED = 60
    CHAINED_LIST = 61
    EMPTY_NAME = 62
    BAD_APP_INFO = 63
    BAD_SORT_INFO = 64
    BAD_OFFSET = 65
    UNKNOWN_COMMAND = 70
    WRONG_COUNT = 71
    BAD_WORD = 72
    TOO_LARGE_TO_MIGRATE = 104


# The words that the program has for some kinds. The others are those of their names, as BadOffset.
_WORDS = {
    Kind.BAD_SIZE_FIELD: "BadSize",
    Kind.BAD_SLOT_FIELD: "BadSlotCount",
    Kind.BAD_APP_INFO: "BadInfo app",
    Kind.BAD_SORT_INFO: "BadInfo sort",
    Kind.TOO_LARGE_TO_MIGRATE: "TooLarge",
}
# The kinds that are located by one number, and by two.
_ONE = {Kind.BAD_CHUNK, Kind.BAD_TABLE, Kind.SLOT_MISMATCH, Kind.CHUNK_WITHOUT_SLOT, Kind.BAD_FIXED_OWNER}
_ONE |= {Kind.BAD_DIRECTORY_SLOT, Kind.BAD_HEADER, Kind.SHARED_CHUNK, Kind.STRAY_CHUNK, Kind.BAD_NAME, Kind.SAME_NAME}
_ONE |= {Kind.BAD_OFFSET}
_TWO = {Kind.BAD_ENTRY, Kind.BAD_ID}


class Fault(Error):
    """The first fault of a file, an image or a script: its kind, and the numbers that locate it.

    A number that the kind does not have is 0. A kind that this package does not know is a plain number.
    """

    def __init__(self, kind: int, at: int = 0, entry: int = 0) -> None:
        super().__init__(kind, at, entry)
        self.kind: int = Kind(kind) if kind in Kind.__members__.values() else kind
        self.at, self.entry = at, entry

    def __str__(self) -> str:
        """Returns the words that the program prints, as `BadOffset 3`: `palmheap explain` takes them."""
        if not isinstance(self.kind, Kind):
            return f"kind {self.kind} at {self.at}, entry {self.entry}"
        word = _WORDS.get(self.kind) or "".join(it.capitalize() for it in self.kind.name.split("_"))
        numbers = [self.at, self.entry][: (self.kind in _ONE) + 2 * (self.kind in _TWO)]
        return " ".join(map(str, [word, *numbers]))


class FileFault(Fault):
    """No database is read from a file, or it is too long to be rewritten or listed."""


class ImageFault(Fault):
    """The bytes are no accepted image, no image has the size and the number of slots, or an image can't be migrated."""


class ScriptFault(Fault):
    """A text is no script. `at` is its first faulty line, and `entry` of BAD_WORD the word, both counted from 1."""

    def __str__(self) -> str:
        return f"line {self.at} {super().__str__()}" + (f" {self.entry}" if self.kind == Kind.BAD_WORD else "")


# What is raised for kinds from a number on.
_FAULTS = (
    (105, Fault),
    (104, ImageFault),
    (80, Fault),
    (70, ScriptFault),
    (60, FileFault),
    (20, ImageFault),
    (6, FileFault),
    (4, ImageFault),
    (3, FileFault),
)


def fault(kind: int, at: int = 0, entry: int = 0) -> Exception:
    """Returns what is raised for an answer that is not OK."""
    if kind == Kind.NO_MEMORY:
        return MemoryError("an allocation of palmheap failed")
    for least, what in _FAULTS:
        if kind >= least:
            return what(kind, at, entry)
    return Fault(kind, at, entry)


class Refused(Error):
    """A call was refused, and has changed nothing. docs/USING.md says when each refusal comes."""

    number = 0
    reason = "a refusal that this package does not know"

    def __init__(self, number: int | None = None) -> None:
        if number is not None:
            self.number = number
        super().__init__(self.number)

    def __str__(self) -> str:
        return f"refused {self.number} {type(self).__name__}: {self.reason}"


class InvalidHandle(Refused):
    number = 1
    reason = "the handle is neither a caller's chunk nor a database's"


class OwnedByDatabase(Refused):
    number = 2
    reason = "the chunk belongs to a database"


class ChunkLocked(Refused):
    number = 3
    reason = "the chunk is locked"


class ChunkNotLocked(Refused):
    number = 4
    reason = "the chunk is not locked"


class LockOverflow(Refused):
    number = 5
    reason = "the chunk has 14 locks"


class ChunkFixed(Refused):
    number = 6
    reason = "the chunk is fixed"


class InvalidOwner(Refused):
    number = 7
    reason = "an owner is 1 to 14"


class NotEnoughSpace(Refused):
    number = 8
    reason = "there is no room, or no slot is free"


class OutOfBounds(Refused):
    number = 9
    reason = "the range ends after the last byte of the chunk"


class NoSuchDatabase(Refused):
    number = 10
    reason = "there is no such database"


class NotRecordDatabase(Refused):
    number = 11
    reason = "the database has resources"


class NotResourceDatabase(Refused):
    number = 12
    reason = "the database has records"


class ReadOnly(Refused):
    number = 13
    reason = "the database is read-only"


class IndexOutOfRange(Refused):
    number = 14
    reason = "there are not that many entries"


class RecordDeleted(Refused):
    number = 15
    reason = "the record is deleted"


class RecordBusy(Refused):
    number = 16
    reason = "the record is busy"


class TooManyEntries(Refused):
    number = 17
    reason = "there are 1,024 databases or 65,535 entries"


class InvalidCategory(Refused):
    number = 18
    reason = "a category is 0 to 15"


class DuplicateId(Refused):
    number = 19
    reason = "another record of the database has the ID"


class UniqueIdNotFound(Refused):
    number = 20
    reason = "no record of the database has the ID"


class AlreadyExists(Refused):
    number = 21
    reason = "another database has the name, or the database has the info block"


class InvalidName(Refused):
    number = 22
    reason = "a name has 1 to 31 bytes, and none of them is zero"


class ResourceNotFound(Refused):
    number = 23
    reason = "no resource has the type and the ID"


class NoInfoBlock(Refused):
    number = 24
    reason = "the database does not have the info block"


class BadFile(Refused):
    number = 25
    reason = "no database is read from the file; check_file tells its first fault"


class OutOfMemory(Refused, MemoryError):
    number = 26
    reason = "an allocation failed"


class Lent(Refused):
    number = 27
    reason = "a chunk is lent"


BY_NUMBER: dict[int, type[Refused]] = {it.number: it for it in Refused.__subclasses__()}


def refusal(number: int) -> Refused:
    """Returns what is raised for a refusal."""
    return BY_NUMBER.get(number, Refused)(number)


def refusal_name(number: int) -> str | None:
    """Returns the name that the library has for a refusal, as InvalidHandle, or None if no refusal has the number."""
    room, count = (low.U8 * 32)(), low.SIZE()
    if low.library().palmheap_refusal_name(low.number(low.U32, number), room, len(room), c.byref(count)):
        return None
    return bytes(room)[: count.value].decode("ascii")
