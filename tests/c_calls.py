"""The library for C, call by call, for tests/library.py: each method does one call of palmheap.h.

    LD_LIBRARY_PATH=DIR/lib python3 tests/c_calls.py FILE..

prints the listing of each file, or its first fault. Rows and structures are those of the package in python/.
"""

import ctypes as c
import os
import sys

NO_ROOM = 2
IMAGE_SIZES = range(64, 16_777_209, 8)
PLACES = range(16_777_209)

TOP = os.path.dirname(os.path.dirname(os.path.realpath(__file__)))
sys.path.insert(0, f"{TOP}/python")
sys.dont_write_bytecode = True
from palmheap import _library as rows
from palmheap._library import BOOL, SIZE, U8, U16, U32, Answer, Block, Bytes, Counts, DatabaseInfo, Loan, Needs, Place, Sizes

# The calls on an open store: what they take, and what they write. `bytes` stands for a pointer and a length.
CALLS = {name: (row.takes, row.writes) for name, row in rows.CALLS.items()}
# Those that put bytes into a buffer.
BYTE_CALLS = {name: row.takes[:-1] for name, row in rows.BYTE_CALLS.items()}
CALL_NO_ROOM, CALL_NO_POINTER = 100, 102


def number(kind, value):
    """Returns a number for a call. ctypes would cut one that is out of range."""
    cut = kind(value).value
    if cut != value:
        raise ValueError(f"{value} is out of the range of {kind.__name__}")
    return cut


def word(kind, value):
    """Returns what a call takes: a number in its range, or a structure as it is."""
    return number(kind, value) if kind in (U8, U16, U32, SIZE) else value


def span(data):
    """Returns the pointer and the length of bytes, for a call: NULL if there are none."""
    return data or None, len(data)


class Fault(Exception):
    """An answer that is not 0: its kind and the numbers that locate it."""

    def __init__(self, answer):
        super().__init__(answer.kind, answer.at, answer.entry)
        self.kind, self.at, self.entry = answer.kind, answer.at, answer.entry


class Refused(Exception):
    """A call was refused, for the reason of this number."""

    def __init__(self, number):
        super().__init__(number)
        self.number = number


class Library:
    """The shared library. Each method takes bytes, and returns bytes or Python's numbers, or raises `Fault`."""

    def __init__(self, path="libpalmheap.so.1"):
        self.so = c.CDLL(path)
        size, u8, bytes_in = c.c_size_t, c.POINTER(c.c_uint8), c.c_char_p
        one, sizes = [bytes_in, size], [c.POINTER(size), size]
        for name, kinds in {
            "palmheap_pdb_check": one,
            "palmheap_pdb_blocks": [*one, c.POINTER(Block), size, c.POINTER(size)],
            "palmheap_canonical": [*one, u8, size, c.POINTER(size)],
            "palmheap_pdb_list": [*one, u8, size, c.POINTER(size)],
            "palmheap_pdb_json": [*one, u8, size, c.POINTER(size)],
            "palmheap_pdb_needs": [*one, c.POINTER(Needs)],
            "palmheap_salvage": [*one, BOOL, u8, size, c.POINTER(size), c.POINTER(size)],
            "palmheap_salvage_lines": [*one, u8, size, c.POINTER(size)],
            "palmheap_new": [u8, size, c.c_uint16],
            "palmheap_check": [*one, c.POINTER(Counts)],
            "palmheap_migrate": [*one, u8, size, c.POINTER(size)],
            "palmheap_map": [*one, u8, size, c.POINTER(size)],
            "palmheap_map_svg": [*one, u8, size, c.POINTER(size)],
            "palmheap_databases": [*one, u8, size, c.POINTER(size)],
            "palmheap_databases_json": [*one, u8, size, c.POINTER(size)],
            "palmheap_run": [u8, size, *one, c.POINTER(Bytes), size, u8, size, u8, size, *sizes, c.POINTER(Sizes)],
            "palmheap_open": [*one, c.POINTER(Place)],
        }.items():
            function = getattr(self.so, name)
            function.argtypes, function.restype = kinds, Answer
        place = c.POINTER(Place)
        self.so.palmheap_close.argtypes, self.so.palmheap_close.restype = [place], U32
        for name, kinds, result in (
            ("take_out", [U32, c.POINTER(Loan)], U32),
            ("take_out_also", [U32, c.POINTER(Loan)], U32),
            ("put_back", [c.POINTER(Loan)], None),
            ("lent", [c.POINTER(U32)], BOOL),
            ("loan_above", [U32, c.POINTER(U32), c.POINTER(U32)], BOOL),
            ("loans", [c.POINTER(U32), SIZE, c.POINTER(SIZE)], U32),
            ("lock_pointer", [U32, c.POINTER(c.c_void_p), c.POINTER(SIZE)], U32),
            ("unlock_handle", [U32], U32),
            ("start", [c.POINTER(c.c_void_p)], None),
        ):
            function = getattr(self.so, f"palmheap_{name}")
            function.argtypes, function.restype = [place, *kinds], result
        for name, (given, made) in CALLS.items():
            function = getattr(self.so, f"palmheap_{name}")
            kinds = [kind for it in given for kind in ([bytes_in, size] if it is bytes else [it])]
            function.argtypes, function.restype = [place, *kinds, *map(c.POINTER, made)], U32
        for name_of in (self.so.palmheap_refusal_name, self.so.palmheap_kind_name):
            name_of.argtypes, name_of.restype = [U32, u8, size, c.POINTER(size)], U32
        for name, given in BYTE_CALLS.items():
            function = getattr(self.so, f"palmheap_{name}")
            function.argtypes, function.restype = [place, *given, u8, size, c.POINTER(size)], U32

    @staticmethod
    def _good(answer):
        if answer.kind:
            raise Fault(answer)

    def _made(self, function, file, item=U8):
        """Calls a function for the number of bytes or items that it makes, and then with room for them. Returns them."""
        count, items = c.c_size_t(0), ()
        answer = function(*span(file), None, 0, c.byref(count))
        if answer.kind == NO_ROOM:
            items = (item * count.value)()
            answer = function(*span(file), items, count.value, c.byref(count))
        self._good(answer)
        return (bytes(items) if item is U8 else items)[: count.value]

    def pdb_check(self, file):
        self._good(self.so.palmheap_pdb_check(*span(file)))

    def pdb_blocks(self, file):
        """Returns the AppInfo block, the SortInfo block and the data of each entry, or None for each that is not there."""
        blocks = self._made(self.so.palmheap_pdb_blocks, file, Block)
        return [file[it.start : it.end] if it.is_there else None for it in blocks]

    def canonical(self, file):
        return self._made(self.so.palmheap_canonical, file)

    def pdb_list(self, file):
        return self._made(self.so.palmheap_pdb_list, file).decode()

    def pdb_json(self, file):
        return self._made(self.so.palmheap_pdb_json, file).decode()

    def pdb_needs(self, file):
        needs = Needs()
        self._good(self.so.palmheap_pdb_needs(*span(file), c.byref(needs)))
        return needs.size, needs.slots

    def salvage(self, file, exact_ids):
        """Returns the salvaged file, the number of faults, and a line for each of them."""
        faults = SIZE(0)

        def made(*words):
            return self.so.palmheap_salvage(*words[:2], exact_ids, *words[2:], c.byref(faults))

        salvaged = self._made(made, file)
        return salvaged, faults.value, self._made(self.so.palmheap_salvage_lines, file).decode()

    def new(self, size, slots):
        if size not in IMAGE_SIZES:
            raise ValueError(size)
        image = (c.c_uint8 * size)()
        self._good(self.so.palmheap_new(image, size, number(U16, slots)))
        return bytes(image)

    def check(self, image):
        counts = Counts()
        self._good(self.so.palmheap_check(*span(image), c.byref(counts)))
        return {name: getattr(counts, name) for name, _ in Counts._fields_}

    def migrate(self, image):
        return self._made(self.so.palmheap_migrate, image)

    def texts(self, image):
        """Returns the picture of an image as text and as SVG, and the list of its databases as text and as JSON."""
        so = self.so
        makers = (so.palmheap_map, so.palmheap_map_svg, so.palmheap_databases, so.palmheap_databases_json)
        return [self._made(it, image) for it in makers]

    def run(self, image, script, files=()):
        """Runs a script on an image. Returns the image afterwards, the reply lines, and the files that it exports."""
        image = (U8 * len(image)).from_buffer_copy(image)
        given = (Bytes * len(files))(*[Bytes(*span(it)) for it in files]) if files else None
        sizes, room = Sizes(), (0, 0, 0)
        while True:
            text, exported, ends = ((kind * count)() if count else None for kind, count in zip((U8, U8, SIZE), room))
            buffers = (text, room[0], exported, room[1], ends, room[2], c.byref(sizes))
            answer = self.so.palmheap_run(image, len(image), *span(script), given, len(files), *buffers)
            if answer.kind != NO_ROOM:
                break
            room = (sizes.printed, sizes.exported, sizes.files)
        self._good(answer)
        text, exported, ends = ((it or ())[:count] for it, count in zip((text, exported, ends), room))
        starts = [0, *ends]
        parts = [bytes(exported[at:end]) for at, end in zip(starts, starts[1:])]
        return bytes(image), bytes(text).decode("ascii"), parts

    def open(self, image):
        return Store(self, image)

    @staticmethod
    def _name(function, number):
        name, count = (U8 * 32)(), SIZE(0)
        if function(word(U32, number), name, len(name), c.byref(count)):
            return None
        return bytes(name[: count.value]).decode("ascii")

    def refusal_name(self, number):
        """Returns the name of a refusal, or None if no refusal has the number."""
        return self._name(self.so.palmheap_refusal_name, number)

    def kind_name(self, kind):
        """Returns the name of a kind of fault, or None if no fault has the kind."""
        return self._name(self.so.palmheap_kind_name, kind)


class Store:
    """An open store. Use it in a `with`, or close it."""

    def __init__(self, library, image):
        self.so, self.place, self.loans = library.so, Place(), {}
        library._good(self.so.palmheap_open(*span(image), c.byref(self.place)))
        self.is_open = True

    def __enter__(self):
        return self

    def __exit__(self, *_):
        self.close()

    def close(self):
        if self.is_open:
            self._done(self.so.palmheap_close(c.byref(self.place)))
            self.is_open = False

    def _done(self, number):
        if number:
            raise Refused(number)

    def call(self, name, *given):
        """Does a call of `CALLS`. Returns what it writes: nothing, a number or a structure, or a list of these."""
        if not self.is_open:
            raise ValueError("the store is closed")
        made = [it() for it in CALLS[name][1]]
        if len(given) != len(CALLS[name][0]):
            raise TypeError(f"{name} takes {len(CALLS[name][0])} words")
        pairs = zip(CALLS[name][0], given)
        words = [part for kind, it in pairs for part in (span(it) if kind is bytes else [word(kind, it)])]
        self._done(getattr(self.so, f"palmheap_{name}")(c.byref(self.place), *words, *map(c.byref, made)))
        told = [it if isinstance(it, c.Structure) else it.value for it in made]
        return told[0] if len(told) == 1 else told or None

    def bytes_by(self, name, *given):
        """Does a call of `BYTE_CALLS`, and returns the bytes."""
        if not self.is_open:
            raise ValueError("the store is closed")
        count, room = SIZE(0), None
        function = getattr(self.so, f"palmheap_{name}")
        given = [word(kind, it) for kind, it in zip(BYTE_CALLS[name], given)]
        refusal = function(c.byref(self.place), *given, None, 0, c.byref(count))
        if refusal == CALL_NO_ROOM:
            room = (U8 * count.value)()
            refusal = function(c.byref(self.place), *given, room, count.value, c.byref(count))
        self._done(refusal)
        return bytes(room or ())

    def take_out(self, name):
        """Takes the bytes of a chunk out, if nothing is lent. Returns them as an array to be used only until `put_back`."""
        return self._lend("take_out", name)

    def take_out_also(self, name):
        """Takes the bytes of a chunk out, as `take_out` does, but other chunks may be lent."""
        return self._lend("take_out_also", name)

    def _lend(self, call, name):
        if not self.is_open:
            raise ValueError("the store is closed")
        loan = Loan()
        function = getattr(self.so, f"palmheap_{call}")
        self._done(function(c.byref(self.place), number(U32, name), c.byref(loan)))
        self.loans[loan.name] = loan
        return (U8 * loan.count).from_address(loan.bytes)

    def put_back(self, name):
        """Puts the bytes of a lent chunk back."""
        if name not in self.loans:
            raise ValueError(f"the chunk {name} isn't lent")
        self.so.palmheap_put_back(c.byref(self.place), c.byref(self.loans.pop(name)))

    def lock_pointer(self, name):
        """Gives the bytes of a chunk as an array, to be used until they are unlocked as often."""
        if not self.is_open:
            raise ValueError("the store is closed")
        at, count = c.c_void_p(), SIZE(0)
        self._done(self.so.palmheap_lock_pointer(c.byref(self.place), number(U32, name), c.byref(at), c.byref(count)))
        return (U8 * count.value).from_address(at.value)

    def unlock_handle(self, name):
        """Unlocks the bytes that `lock_pointer` gave for a chunk once."""
        if not self.is_open:
            raise ValueError("the store is closed")
        self._done(self.so.palmheap_unlock_handle(c.byref(self.place), number(U32, name)))

    def unlock_pointer(self, given):
        """Unlocks an array that `lock_pointer` gave once, as palmheap_unlock_pointer of the header does."""
        if not self.is_open:
            raise ValueError("the store is closed")
        start, name = c.c_void_p(), U32()
        self.so.palmheap_start(c.byref(self.place), c.byref(start))
        place = c.addressof(given) - start.value
        if place not in PLACES or self.so.palmheap_MemPtrRecoverHandle(c.byref(self.place), place, c.byref(name)):
            raise Refused(CALL_NO_POINTER)
        self.unlock_handle(name.value)

    def lent(self):
        """Returns the names of all lent chunks, in order of their places."""
        if not self.is_open:
            raise ValueError("the store is closed")
        count = SIZE()
        self.so.palmheap_loans(c.byref(self.place), None, 0, c.byref(count))
        names = (U32 * count.value)()
        refusal = self.so.palmheap_loans(c.byref(self.place), names, count.value, c.byref(count))
        if refusal:
            raise Refused(refusal)
        return list(names)


def main():
    library = Library()
    for path in sys.argv[1:]:
        with open(path, "rb") as it:
            file = it.read()
        try:
            print(path, library.pdb_list(file), sep="\n", end="")
        except Fault as fault:
            print(path, "has a fault of kind", fault.kind, "at", fault.at)


if __name__ == "__main__":
    main()
