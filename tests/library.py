"""Parts of tests/library.sh.

    library.py files DIR               writes PDB and PRC files
    library.py damaged PROGRAM COUNT   compares the library with the program on damaged files
    library.py calls PROGRAM COUNT     compares COUNT calls on an open store with scripts, run by both
"""

import concurrent.futures
import os
import random
import re
import struct
import subprocess
import sys
import tempfile

import c_calls as palmheap

sys.path.insert(0, os.path.join(os.path.dirname(os.path.abspath(__file__)), "..", "python"))
from palmheap import Database, FileFault  # noqa: E402

# What the program prints after the name of a kind of fault.
PARTS_OF_FILES = {63: " app", 64: " sort"}
# Numbers next to those of the faults.
NO_KINDS = (0, 2, 19, 32, 39, 48, 59, 66, 69, 73, 103, 105, 1 << 31)
# Draws are made in parts, each from its own seed, side by side on all processors.
PARTS = range(56, 64)
# How many files one call of the program lists.
BATCH = 500
# The line before the listing of a file, if there are several.
HEADING = re.compile(r"^==> (.*) <==\n", re.M)


def header(name, attributes, count, app=0, sort=0, kind=b"DATA", creator=b"memo"):
    """The 78 bytes of a header (File Format Specification)."""
    words = struct.pack(">HHIIIIII4s4sIIH", attributes, 1, 3878595035, 0, 0, 7, app, sort, kind, creator, 0, 0, count)
    return name.ljust(32, b"\0") + words


def records(name, items, app=b"", sort=b""):
    """A PDB file with these records, each with its attributes and its ID."""
    end = 78 + 8 * len(items) + 2
    at = end + len(app) + len(sort)
    entries = b""
    for attributes, number, data in items:
        entries += struct.pack(">II", at, attributes << 24 | number)
        at += len(data)
    infos = (end if app else 0, end + len(app) if sort else 0)
    return header(name, 0, len(items), *infos) + entries + b"\0\0" + app + sort + b"".join(it[2] for it in items)


def resources(name, items):
    """A PRC file with these resources, each with its type and its ID."""
    at = 78 + 10 * len(items) + 2
    entries = b""
    for kind, number, data in items:
        entries += struct.pack(">4sHI", kind, number, at)
        at += len(data)
    head = header(name, 1, len(items), kind=b"appl", creator=b"test")
    return head + entries + b"\0\0" + b"".join(it[2] for it in items)


FILES = {
    "memos.pdb": records(b"MemoDB", [(1, 1, b"Buy milk\0"), (0x40, 2, b""), (0x90, 3, b"x" * 40)], b"categories", b"order"),
    "none.pdb": records(b"Empty", []),
    "ids.pdb": records(b"Twice", [(0, 0, b"a"), (0, 5, b"bc"), (0, 5, b"")]),
    "code.prc.pdb": resources(b"Code", [(b"code", 0, b"\1\2\3\4"), (b"tSTR", 1000, b"hi\0"), (b"code", 1, b"")]),
}


def write_files(folder):
    for name, file in FILES.items():
        with open(f"{folder}/{name}", "wb") as it:
            it.write(file)


def damaged(rng):
    """A file with one to three changes: a byte, or an end that is cut off or put on."""
    file = bytearray(rng.choice(list(FILES.values())))
    for _ in range(rng.randint(1, 3)):
        way = rng.random()
        if way < 0.8 and file:
            # (most bytes of a name and of data make no difference)
            at = rng.randrange(min(len(file), 110)) if way < 0.7 else rng.randrange(len(file))
            file[at] = rng.choice((0, 1, 0xFF, file[at] ^ (1 << rng.randrange(8)), rng.randrange(256)))
        elif way < 0.9:
            del file[rng.randrange(len(file) + 1) :]
        else:
            file += bytes(rng.randrange(256) for _ in range(rng.randint(1, 9)))
    return bytes(file)


def listed(library, file):
    """What `palmheap list` should print but for the line after a fault, and its status."""
    try:
        library.pdb_check(file)
    except palmheap.Fault as fault:
        part = f" {fault.at}" if fault.kind == 65 else PARTS_OF_FILES.get(fault.kind, "")
        return f"bad {library.kind_name(fault.kind)}{part}\n", 1
    return library.pdb_list(file), 0


def rewritten(library, file):
    try:
        return library.canonical(file)
    except palmheap.Fault:
        return None


def documents(library, file):
    """What `palmheap list --json` should print, and the line that `list` has for the needs."""
    try:
        needs = "needs %d bytes and %d slots in a heap\n" % library.pdb_needs(file)
    except palmheap.Fault:
        needs = ""
    return library.pdb_json(file).encode(), needs


def salvaged(library, file, exact_ids):
    """What `palmheap salvage` should write, and print; None and no text if the file is refused."""
    try:
        new, faults, lines = library.salvage(file, exact_ids)
    except palmheap.Fault:
        return None, ""
    if faults != lines.count("\n"):
        sys.exit(f"{file.hex()}: {faults} faults are counted, and the lines are {lines!r}")
    return new, f"ok {len(new)}\n{lines}"


def compare_salvaged(library, program, room, file, exact_ids):
    words = ["--exact-ids"] if exact_ids else []
    text, status = run(program, "salvage", *words, "-", f"{room}/new", file=file)
    wanted = salvaged(library, file, exact_ids)
    with open(f"{room}/new" if status == 0 else os.devnull, "rb") as it:
        there = (it.read(), text.decode()) if status == 0 else (None, "")
    if there != wanted:
        sys.exit(f"{file.hex()}: the library salvages {wanted}, and the program {there}")


def run(program, *words, file=b""):
    ran = subprocess.run([program, *words], input=file, stdout=subprocess.PIPE, stderr=subprocess.DEVNULL, check=False)
    return ran.stdout, ran.returncode


def each_part(compare_part, program, count):
    """Compares `count` draws in parts, and returns the result of each part. An exit with a message ends it all."""
    starts = [count * it // len(PARTS) for it in range(len(PARTS) + 1)]
    counts = [end - start for start, end in zip(starts, starts[1:])]
    with concurrent.futures.ProcessPoolExecutor(len(os.sched_getaffinity(0))) as pool:
        return list(pool.map(compare_part, [program] * len(PARTS), PARTS, counts))


def reports(program, paths):
    """Lists files with one call of the program, and with one call as JSON. Returns the listings, the documents, and the
    greatest status of a file, with which both calls end."""
    text, status = run(program, "list", "--path", *paths)
    documents, as_json = run(program, "list", "--json", "--path", *paths)
    _, *parts = HEADING.split(text.decode())
    lines = documents.splitlines(keepends=True)
    if parts[::2] != paths or len(lines) != len(paths) or as_json != status:
        sys.exit(f"of {len(paths)} files {len(parts) // 2} are listed, and {len(lines)} as JSON: {status}, {as_json}")
    return parts[1::2], lines, status


def compare_listed(library, program, room, files):
    """Compares the listings and documents of files. Returns the first word that each should be listed with."""
    paths, met, statuses = [f"{room}/{it}" for it in range(len(files))], [], []
    for path, file in zip(paths, files):
        with open(path, "wb") as it:
            it.write(file)
    listings, lines, greatest = reports(program, paths)
    for path, file, text, line in zip(paths, files, listings, lines):
        wanted, status = listed(library, file)
        said = text.split("\n")[0] + "\n" if status else text
        document, needs = documents(library, file)
        if said != wanted or needs not in text:
            sys.exit(f"{file.hex()}: the library has {wanted!r} and {needs!r}, and the program {text!r}")
        if line != b'{"path":"%s",' % path.encode() + document[1:]:
            sys.exit(f"{file.hex()}: the library has {document!r}, and the program {line!r}")
        met.append(wanted.split()[1] if status else "ok")
        statuses.append(status)
    if greatest != max(statuses):
        sys.exit(f"the greatest status of {len(files)} files is {max(statuses)}, and the program has {greatest}")
    return met


def compare_read(file):
    """Looks whether the file that is made of what was read of a file is the same file."""
    try:
        written = Database.from_bytes(file).to_exact_bytes()
    except FileFault:
        return
    if written != file:
        sys.exit(f"{file.hex()}: what was read of it is written as {written.hex()}")


def compare_alone(library, program, room, file):
    """Compares the status of a file, its document, and its canonical form."""
    if run(program, "list", "--json", "-", file=file) != (documents(library, file)[0], listed(library, file)[1]):
        sys.exit(f"{file.hex()}: the documents or the statuses differ")
    _, given = run(program, "canonical", "-", f"{room}/out", file=file)
    with open(f"{room}/out", "rb") if given == 0 else open(os.devnull, "rb") as it:
        there = it.read() if given == 0 else None
    if there != rewritten(library, file):
        sys.exit(f"{file.hex()}: the canonical forms differ")


def compare_damaged(program, seed, count):
    """Compares damaged files, each tenth of them also alone, and each with what is written of what was read of it.
    Returns the first word that each should be listed with."""
    library, rng, met = palmheap.Library(), random.Random(seed), []
    files = [damaged(rng) for _ in range(count)]
    with tempfile.TemporaryDirectory() as room:
        for start in range(0, count, BATCH):
            met += compare_listed(library, program, room, files[start : start + BATCH])
        for index, file in enumerate(files):
            compare_read(file)
            compare_salvaged(library, program, room, file, index % 2 == 0)
        for index in range(0, count, 10):
            compare_alone(library, program, room, files[index])
    return met


def compare_files(program, count):
    met = [word for part in each_part(compare_damaged, program, count) for word in part]
    print(f"{count} damaged files are listed alike:", ", ".join(f"{met.count(it)} {it}" for it in sorted(set(met))))


# ---- calls

LINES = 200
LENT = 27
MOST_LENT = 16
MOST_PINNED = 3
NO_POINTER = 102
CHUNKS = [f"h{it}" for it in range(12)]
DATABASES = [f"d{it}" for it in range(4)]
# What is in the caller's memory before a run: bytes, numbers and sizes.
UNUSED = (165, 165, 165)
SMALL = (0, 0, 1, 1, 2, 3, 5, 8, 20, 70, 1000)
SIZES = (0, 1, 2, 7, 8, 9, 24, 60, 200, 900, 5000)
CATEGORIES = (0, 1, 2, 15, 16, 255)
TEXTS = [b"Memo", b"Book", b"To do", b"x" * 31, bytes((7, 200, 34)), b"", b"y" * 32]
KINDS_OF_FOUR = [b"DATA", b"appl", b"code", b"memo"]


def spelled(text):
    plain = all(32 <= it < 127 and it != 34 for it in text)
    return '"' + text.decode("ascii") + '"' if plain else "x:" + text.hex()


def four(text):
    return int.from_bytes(text, "big")


class Calls:
    """Draws lines of a script, and does the call of each on an open store. `replies` are what the lines should print.

    Most words are drawn from what the store has, so that most calls succeed: it is asked before. The others are drawn
    from all labels and numbers.
    """

    def __init__(self, rng, store, files):
        self.rng, self.store, self.files = rng, store, files
        self.names, self.databases, self.lines, self.replies, self.exported = {}, {}, [], [], []
        self.lent, self.loans, self.most, self.refused = {}, 0, 0, []
        # The chunks to which pointers are out: their labels, and how often.
        self.pinned, self.pointers = {}, 0

    # -- what the store has

    def ask(self, name, *given):
        try:
            return self.store.call(name, *given)
        except palmheap.Refused:
            return None

    def name(self, label):
        return self.names.get(label, 0)

    def db(self, label):
        return self.databases.get(label, 0)

    def one_of(self, fitting, all_of):
        """One of those that fit, seven times of eight, if any does."""
        fitting = list(fitting)
        return self.rng.choice(fitting if fitting and self.rng.random() < 0.875 else list(all_of))

    def facts(self, label):
        name = self.name(label)
        size = self.ask("MemHandleSize", name)
        return size is not None and (size, self.ask("MemHandleOwner", name), self.ask("MemHandleLockCount", name))

    def chunk(self, fits=lambda size, owner, locks: True):
        """A label of a chunk that fits. Its owner is 15 if a database owns it, its locks are 15 if it is fixed."""
        return self.one_of((it for it in CHUNKS if (facts := self.facts(it)) and fits(*facts)), CHUNKS)

    def new_chunk(self):
        """A label that no chunk has."""
        kept = {label for label, _ in self.pinned.values()}
        free = [it for it in CHUNKS if it not in kept]
        return self.one_of((it for it in free if not self.facts(it)), free)

    def movable(self):
        return self.chunk(lambda size, owner, locks: locks < 14)

    def loose(self):
        """A label of a movable chunk that no database owns."""
        return self.chunk(lambda size, owner, locks: owner < 15 and locks < 15)

    def writable(self):
        return self.chunk(lambda size, owner, locks: locks > 0)

    def part(self, label):
        """The start and the length of bytes of a chunk."""
        size = (self.facts(label) or (0,))[0]
        at = self.one_of(range(min(size, 40)), SMALL)
        return at, self.one_of(range(max(0, min(size - at, 40) + 1)), SIZES)

    def size(self):
        """A size for which there may be room."""
        largest = self.ask("largest_stretch")
        return self.one_of((it for it in SIZES if 3 * it < largest), SIZES)

    def owner(self):
        return self.one_of((1, 1, 2, 3, 14), (0, 15, 16, 255))

    def info(self, label):
        return self.ask("DmDatabaseInfo", self.db(label))

    def database(self, resources=None):
        """A label of a database: of any, or of one with resources or with records."""
        fits = lambda info: info and (resources is None or info.attributes & 1 == resources)
        return self.one_of((it for it in DATABASES if fits(self.info(it))), DATABASES)

    def new_database(self):
        return self.one_of((it for it in DATABASES if not self.info(it)), DATABASES)

    def entry(self, resources, fits=lambda info: True):
        """A label of a database, and the index of one of its entries."""
        d = self.database(resources)
        info = self.info(d)
        asked = "DmResourceInfo" if resources else "DmRecordInfo"
        indexes = range(min(info.entry_count if info else 0, 12))
        good = (it for it in indexes if (entry := self.ask(asked, self.db(d), it)) and fits(entry))
        return d, self.one_of(good, SMALL)

    def record(self, forbidden=0x80):
        """The same of a record without these attributes: it isn't deleted (0x80), or not busy (0x20)."""
        return self.entry(False, lambda info: not info.attributes & forbidden)

    def place(self, resources):
        """The same, or the index after the last entry."""
        d, at = self.entry(resources)
        info = self.info(d)
        return d, self.one_of([at, info.entry_count] if info else [at], SMALL)

    def text(self):
        """A name that no database has."""
        return self.one_of((it for it in TEXTS[:-2] if self.ask("DmFindDatabase", it) is None), TEXTS)

    def data(self, count):
        return bytes(self.rng.randrange(256) for _ in range(min(count, 30)))

    # -- what a line needs of a call

    def line(self, text, name, *given, binds=None, shown=lambda told: ""):
        """Does a call. `binds` is a table and a label of it, and which part of what the call gets it is bound to."""
        self.lines.append(text)
        try:
            told = self.store.call(name, *given)
        except palmheap.Refused as refused:
            self.refuse(refused.number)
            return
        if binds:
            table, label, part = binds
            table[label] = part(told)
        self.replies.append(("ok", shown(told)))

    def bytes_line(self, text, name, *given, shown):
        """The same for a call that returns bytes."""
        self.lines.append(text)
        try:
            found = self.store.bytes_by(name, *given)
            self.replies.append(("ok", shown(found)))
        except palmheap.Refused as refused:
            self.refuse(refused.number)

    def refuse(self, number):
        """Notes a refusal. A script lends nothing, so it gets no line that is refused because a chunk is lent."""
        self.refused.append(number)
        if number != LENT:
            self.replies.append(("refused", number))
            return
        if not self.lent:
            sys.exit(f"line {self.lines[-1]!r}: nothing is lent, and the call is refused")
        self.lines.pop()

    def to_chunk(self, label, part=lambda told: told):
        return (self.names, label, part)

    def to_database(self, label):
        return (self.databases, label, lambda told: told)

    # -- lines on chunks

    def new(self, word, name):
        h, size, owner = self.new_chunk(), self.size(), self.owner()
        self.line(f"{word} {h} {size} {owner}", name, size, owner, binds=self.to_chunk(h))

    def free(self):
        h = self.chunk(lambda size, owner, locks: owner < 15 and locks in (0, 15))
        self.line(f"free {h}", "MemChunkFree", self.name(h))

    def lock(self):
        h = self.movable()
        self.line(f"lock {h}", "MemHandleLock", self.name(h), shown=lambda told: f" {told[1]}")

    def lock_often(self):
        """Locks a chunk as often as it can be, and once more."""
        h = self.movable()
        while (facts := self.facts(h)) and facts[2] < 14:
            self.line(f"lock {h}", "MemHandleLock", self.name(h), shown=lambda told: f" {told[1]}")
        self.line(f"lock {h}", "MemHandleLock", self.name(h), shown=lambda told: f" {told[1]}")

    def unlock(self):
        h = self.chunk(lambda size, owner, locks: 0 < locks < 15)
        self.line(f"unlock {h}", "MemHandleUnlock", self.name(h), shown=number)

    def ask_chunk(self, word, name):
        h = self.chunk()
        self.line(f"{word} {h}", name, self.name(h), shown=number)

    def write(self):
        h = self.writable()
        at, count = self.part(h)
        data = self.data(count)
        self.line(f"write {h} {at} {data.hex() or '-'}", "DmWrite", self.name(h), at, data)

    def fill(self):
        h, byte = self.writable(), self.rng.randrange(256)
        at, count = self.part(h)
        self.line(f"set {h} {at} {count} {byte}", "DmSet", self.name(h), at, count, byte)

    def copy_text(self):
        h = self.writable()
        at, count = self.part(h)
        data = self.data(max(0, count - 1))
        self.line(f"strcopy {h} {at} {spelled(data)}", "DmStrCopy", self.name(h), at, data)

    def resize(self):
        h = self.chunk(lambda size, owner, locks: owner < 15 and locks == 0)
        size = self.size()
        self.line(f"resize {h} {size}", "MemHandleResize", self.name(h), size)

    def set_owner(self):
        h, owner = self.loose(), self.owner()
        self.line(f"setowner {h} {owner}", "MemHandleSetOwner", self.name(h), owner)

    def read(self):
        h = self.chunk()
        at, count = self.part(h)
        self.bytes_line(
            f"read {h} {at} {count}",
            "read", self.name(h), at, count,
            shown=lambda found: f" {found.hex() or '-'}",
        )

    def free_owner(self):
        owner = self.owner()
        self.line(f"freeowner {owner}", "MemHeapFreeByOwnerID", owner, shown=number)

    # -- lines on databases

    def create(self):
        d, text, resources = self.new_database(), self.text(), self.rng.random() < 0.4
        kind, creator = self.rng.choice(KINDS_OF_FOUR), self.rng.choice(KINDS_OF_FOUR)
        self.line(
            f"create {d} {spelled(text)} {spelled(kind)} {spelled(creator)} {resources:d} 7",
            "DmCreateDatabase", text, four(kind), four(creator), resources, 7,
            binds=self.to_database(d),
        )

    def find(self):
        d = f"{self.rng.choice(DATABASES)}"
        text = self.one_of((it for it in TEXTS if self.ask("DmFindDatabase", it) is not None), TEXTS)
        self.line(f"find {d} {spelled(text)}", "DmFindDatabase", text, binds=self.to_database(d))

    def nth(self):
        d, at = self.rng.choice(DATABASES), self.one_of(range(self.ask("DmNumDatabases")), SMALL)
        self.line(f"nth {d} {at}", "DmGetDatabase", at, binds=self.to_database(d))

    def show_info(self):
        d = self.database()
        self.line(f"dbinfo {d}", "DmDatabaseInfo", self.db(d), shown=shown_info)

    def set_info(self):
        d, text = self.database(), self.text()
        attributes, version = self.rng.choice((0, 8, 0x10, 0, 8, 0x10, 2)), self.rng.randrange(9)
        kind, creator = self.rng.choice(KINDS_OF_FOUR), self.rng.choice(KINDS_OF_FOUR)
        info = palmheap.DatabaseInfo(name_length=len(text), creation_date=1, modification_date=2, backup_date=3)
        info.kind, info.creator, info.attributes, info.version = four(kind), four(creator), attributes, version
        info.name[: len(text)] = text
        line = f"dbset {d} {spelled(text)} {attributes} {version} 1 2 3 {spelled(kind)} {spelled(creator)}"
        self.line(line, "DmSetDatabaseInfo", self.db(d), info)

    def block(self, wants):
        """A label of a database that has a block, or hasn't, and whether it is the SortInfo block."""
        has = lambda d, sort: self.info(d) and (self.ask("info_block", self.db(d), sort) is not None) == wants
        every = [(d, sort) for d in DATABASES for sort in (False, True)]
        return self.one_of((it for it in every if has(*it)), every)

    def set_block(self):
        (d, sort), h = self.block(False), self.loose()
        self.line(f"infoset {d} {block_word(sort)} {h}", "set_info_block", self.db(d), sort, self.name(h))

    def take_block(self):
        (d, sort), h, owner = self.block(True), self.new_chunk(), self.owner()
        self.line(
            f"infotake {d} {block_word(sort)} {owner} {h}",
            "take_info_block", self.db(d), sort, owner,
            binds=self.to_chunk(h),
        )

    def show_block(self):
        (d, sort), h = self.block(True), self.new_chunk()
        self.line(f"info {d} {block_word(sort)} {h}", "info_block", self.db(d), sort, binds=self.to_chunk(h))

    def import_file(self):
        d, count = self.new_database(), len(self.files)
        number_of = self.one_of(range(1, count + 1), (0, count + 1))
        # (a number without a file stands for an empty one)
        file = self.files[number_of - 1] if 1 <= number_of <= count else b""
        self.line(f"import {d} {number_of}", "import", file, binds=self.to_database(d))

    def export(self):
        d = self.database()
        keep = lambda file: self.exported.append(file) or f" {len(file)}"
        self.bytes_line(f"export {d}", "export", self.db(d), shown=keep)

    def delete(self):
        d = self.database()
        self.line(f"dbdelete {d}", "DmDeleteDatabase", self.db(d))

    # -- lines on records

    def new_record(self):
        (d, at), size, h = self.place(False), self.size(), self.new_chunk()
        self.line(
            f"recnew {d} {at} {size} {h}",
            "DmNewRecord", self.db(d), at, size,
            binds=self.to_chunk(h, lambda it: it[1]),
            shown=lambda it: f" {it[0]}",
        )

    def on_record(self, word, name, forbidden=0):
        d, at = self.record(forbidden)
        self.line(f"{word} {d} {at}", name, self.db(d), at)

    def move_record(self):
        (d, at), to = self.record(0), self.rng.choice(SMALL)
        info = self.info(d)
        to = self.one_of(range(info.entry_count + 1) if info else SMALL, SMALL)
        self.line(f"recmove {d} {at} {to}", "DmMoveRecord", self.db(d), at, to)

    def show_record(self, word, name, forbidden):
        (d, at), h = self.record(forbidden), self.new_chunk()
        self.line(f"{word} {d} {at} {h}", name, self.db(d), at, binds=self.to_chunk(h))

    def release_record(self):
        (d, at), dirty = self.record(0), self.rng.random() < 0.5
        self.line(f"recrelease {d} {at} {dirty:d}", "DmReleaseRecord", self.db(d), at, dirty)

    def record_info(self):
        d, at = self.record(0)
        self.line(
            f"recinfo {d} {at}",
            "DmRecordInfo", self.db(d), at,
            shown=lambda it: f" {it.attributes:02x} {it.id} {'data' if it.has_data else 'none'}",
        )

    def resize_record(self):
        (d, at), size = self.record(), self.size()
        self.line(f"recresize {d} {at} {size}", "DmResizeRecord", self.db(d), at, size)

    def count_records(self):
        d = self.database(False)
        self.line(f"reccount {d}", "DmNumRecords", self.db(d), shown=number)

    def attach_record(self):
        (d, at), h = self.place(False), self.loose()
        self.line(f"recattach {d} {at} {h}", "DmAttachRecord", self.db(d), at, self.name(h), shown=number)

    def replace_record(self):
        (d, at), h, owner, other = self.record(), self.loose(), self.owner(), self.new_chunk()
        self.line(
            f"recreplace {d} {at} {h} {owner} {other}",
            "attach_replacing", self.db(d), at, self.name(h), owner,
            binds=self.to_chunk(other),
        )

    def detach_record(self):
        (d, at), owner, h = self.record(), self.owner(), self.new_chunk()
        self.line(
            f"recdetach {d} {at} {owner} {h}",
            "DmDetachRecord", self.db(d), at, owner,
            binds=self.to_chunk(h),
        )

    def set_record(self):
        (d, at), bits = self.record(0), self.rng.randrange(256)
        number_of = self.one_of((0, 1000 + self.rng.randrange(1000)), (1, 5, 0xFFFFFF, 0x1000001))
        self.line(f"recset {d} {at} {bits} {number_of}", "DmSetRecordInfo", self.db(d), at, bits, number_of)

    def find_record(self):
        d, at = self.record(0)
        info = self.ask("DmRecordInfo", self.db(d), at)
        number_of = self.one_of([info.id] if info else [], (0, 1, 5, 0xFFFFFF, 0x1000001))
        self.line(f"recfind {d} {number_of}", "DmFindRecordByID", self.db(d), number_of, shown=number)

    def in_category(self):
        """A label of a database, the index of a record, and its category."""
        d, at = self.record()
        info = self.ask("DmRecordInfo", self.db(d), at)
        return d, at, self.one_of([info.attributes & 15, 255] if info else [0], CATEGORIES)

    def count_category(self):
        d, _, category = self.in_category()
        self.line(f"catcount {d} {category}", "DmNumRecordsInCategory", self.db(d), category, shown=number)

    def ask_category(self, word, name):
        d, at, category = self.in_category()
        self.line(f"{word} {d} {at} {category}", name, self.db(d), at, category, shown=number)

    def move_category(self):
        (d, _, category), to, dirty = self.in_category(), self.rng.randrange(17), self.rng.random() < 0.5
        category = min(category, 16)
        self.line(f"catmove {d} {to} {category} {dirty:d}", "DmMoveCategory", self.db(d), to, category, dirty)

    def delete_category(self):
        d, category = self.database(False), self.rng.choice(CATEGORIES)
        self.line(f"catdelete {d} {category}", "DmDeleteCategory", self.db(d), category)

    # -- lines on resources

    def numbers_of(self, d, at):
        """The type and the ID of a resource, or of none."""
        info = self.ask("DmResourceInfo", self.db(d), at)
        every = [(it, number_of) for it in KINDS_OF_FOUR for number_of in (0, 1, 1000)]
        return self.one_of([(info.kind.to_bytes(4, "big"), info.id)] if info else [], every)

    def new_resource(self):
        d, size, h = self.database(True), self.size(), self.new_chunk()
        kind, number_of = self.rng.choice(KINDS_OF_FOUR), self.rng.randrange(9)
        self.line(
            f"resnew {d} {spelled(kind)} {number_of} {size} {h}",
            "DmNewResource", self.db(d), four(kind), number_of, size,
            binds=self.to_chunk(h, lambda it: it[1]),
            shown=lambda it: f" {it[0]}",
        )

    def attach_resource(self):
        d, kind, number_of, h = self.database(True), self.rng.choice(KINDS_OF_FOUR), self.rng.randrange(9), self.loose()
        self.line(
            f"resattach {d} {spelled(kind)} {number_of} {h}",
            "DmAttachResource", self.db(d), four(kind), number_of, self.name(h),
            shown=number,
        )

    def detach_resource(self):
        (d, at), owner, h = self.entry(True), self.owner(), self.new_chunk()
        self.line(
            f"resdetach {d} {at} {owner} {h}",
            "DmDetachResource", self.db(d), at, owner,
            binds=self.to_chunk(h),
        )

    def remove_resource(self):
        d, at = self.entry(True)
        self.line(f"resremove {d} {at}", "DmRemoveResource", self.db(d), at)

    def resize_resource(self):
        (d, at), size = self.entry(True), self.size()
        self.line(f"resresize {d} {at} {size}", "DmResizeResource", self.db(d), at, size)

    def resource_info(self):
        (d, at), h = self.entry(True), self.new_chunk()
        self.line(
            f"resinfo {d} {at} {h}",
            "DmResourceInfo", self.db(d), at,
            binds=self.to_chunk(h, lambda it: it.data),
            shown=lambda it: f" {spelled(it.kind.to_bytes(4, 'big'))} {it.id}",
        )

    def set_resource(self):
        (d, at), kind, number_of = self.entry(True), self.rng.choice(KINDS_OF_FOUR), self.rng.randrange(9)
        self.line(
            f"resset {d} {at} {spelled(kind)} {number_of}",
            "DmSetResourceInfo", self.db(d), at, four(kind), number_of,
        )

    def find_resource(self):
        d, at = self.entry(True)
        kind, number_of = self.numbers_of(d, at)
        self.line(
            f"resfind {d} {spelled(kind)} {number_of}",
            "DmFindResource", self.db(d), four(kind), number_of,
            shown=number,
        )

    def find_type(self):
        d, at = self.entry(True)
        kind, nth = self.numbers_of(d, at)[0], self.one_of((0,), SMALL)
        self.line(f"restype {d} {spelled(kind)} {nth}", "DmFindResourceType", self.db(d), four(kind), nth, shown=number)

    def count_resources(self):
        d = self.database(True)
        self.line(f"rescount {d}", "DmNumResources", self.db(d), shown=number)

    # -- loans

    def loan(self):
        loans = [it for it in self.lent if it not in self.pinned]
        if loans and self.rng.randrange(MOST_LENT) < len(self.lent):
            self.put_back(self.rng.choice(loans))
        else:
            self.take_out()

    def take_out(self):
        """Takes a chunk out, and writes half of it. For the script it is a call that writes all of it: until the chunk is
        put back, each call that could tell the difference is refused."""
        h = self.writable()
        name = self.name(h)
        try:
            loan = self.store.take_out_also(name) if self.lent else self.store.take_out(name)
        except palmheap.Refused as refused:
            self.lines.append(f"write {h} 0 -")
            self.refuse(refused.number)
            return
        self.loans += 1
        self.fill_lent(h, loan)

    def fill_lent(self, h, loan):
        data = bytes(self.rng.randrange(256) for _ in range(len(loan)))
        half = len(data) // 2
        loan[:half] = data[:half]
        self.lines.append(f"write {h} 0 {data.hex() or '-'}")
        self.replies.append(("ok", ""))
        self.lent[self.name(h)] = (loan, data)
        self.most = max(self.most, len(self.lent))
        self.check_lent()

    def pointer(self):
        """Locks or unlocks a pointer. For the script the first one of a chunk is a lock and a call that writes, and the last
        one an unlock."""
        if self.pinned and self.rng.random() < 0.6:
            self.unlock_pointer(self.rng.choice(list(self.pinned)))
            return
        if self.pinned and (self.rng.random() < 0.3 or len(self.pinned) == MOST_PINNED):
            h = self.pinned[self.rng.choice(list(self.pinned))][0]
        else:
            h = self.movable()
        name = self.name(h)
        try:
            given = self.store.lock_pointer(name)
        except palmheap.Refused as refused:
            if name in self.pinned:
                sys.exit(f"a pointer to {name} is not given again: {refused.number}")
            self.lines.append(f"lock {h}")
            self.refuse(refused.number)
            return
        self.pointers += 1
        if name in self.pinned:
            self.pinned[name][1] += 1
            was = self.lent[name][0]
            if (palmheap.c.addressof(given), len(given)) != (palmheap.c.addressof(was), len(was)):
                sys.exit(f"another pointer to {name} is given")
            return
        self.pinned[name] = [h, 1]
        self.lines.append(f"lock {h}")
        self.replies.append(("ok", f" {self.ask('MemHandleLockCount', name)}"))
        self.fill_lent(h, given)

    def unlock_once(self, name, given):
        """Unlocks bytes by the name of their chunk or by their address."""
        if self.rng.random() < 0.5:
            self.store.unlock_handle(name)
        else:
            self.store.unlock_pointer(given)

    def unlock_pointer(self, name):
        if self.pinned[name][1] == 1:
            self.put_back(name)
            return
        self.pinned[name][1] -= 1
        locks = self.ask("MemHandleLockCount", name)
        self.unlock_once(name, self.lent[name][0])
        if self.ask("MemHandleLockCount", name) != locks or name not in self.store.lent():
            sys.exit(f"the pointer to {name} is no longer out")

    def check_lent(self):
        names = self.store.lent()
        if len(names) != len(self.lent) or set(names) != set(self.lent):
            sys.exit(f"lent are {sorted(self.lent)}, and not {names}")

    def put_back(self, name):
        loan, data = self.lent[name]
        half = len(data) // 2
        if bytes(loan[:half]) != data[:half]:
            sys.exit(f"the lent chunk {name} has changed")
        for call in (
            lambda: self.store.take_out(name),
            lambda: self.store.take_out_also(name),
            lambda: self.store.bytes_by("write_image"),
            self.store.close,
        ):
            try:
                call()
            except palmheap.Refused as refused:
                if refused.number == LENT:
                    continue
            sys.exit(f"the chunk {name} is lent, and a call is not refused")
        loan[half:] = data[half:]
        if name in self.pinned:
            self.unlock_once(name, loan)
            self.lines.append(f"unlock {self.pinned.pop(name)[0]}")
            self.replies.append(("ok", f" {self.ask('MemHandleLockCount', name)}"))
        else:
            self.store.put_back(name)
        del self.lent[name]
        self.check_lent()
        try:
            self.unlock_once(name, loan)
            sys.exit(f"no pointer to {name} is out, and one is unlocked")
        except palmheap.Refused as refused:
            if refused.number != NO_POINTER:
                sys.exit(f"no pointer to {name} is out: {refused.number}")
        if self.store.bytes_by("read", name, 0, len(data)) != data:
            sys.exit(f"the chunk {name} has other bytes than were put back")

    # -- lines

    def rows(self):
        """The lines, with how often each is drawn."""
        ask = self.line
        return {
            lambda: self.new("new", "MemHandleNew"): 20,
            lambda: self.new("ptrnew", "MemPtrNew"): 4,
            self.free: 20,
            self.lock: 15,
            self.lock_often: 1,
            self.unlock: 15,
            lambda: self.ask_chunk("size", "MemHandleSize"): 4,
            lambda: self.ask_chunk("owner", "MemHandleOwner"): 4,
            lambda: self.ask_chunk("locks", "MemHandleLockCount"): 4,
            self.write: 10,
            self.fill: 6,
            self.copy_text: 6,
            self.resize: 8,
            self.set_owner: 5,
            self.read: 8,
            lambda: ask("freebytes", "MemHeapFreeBytes", shown=number): 4,
            lambda: ask("largest", "largest_stretch", shown=number): 4,
            lambda: ask("compact", "MemHeapCompact"): 4,
            lambda: ask("moreslots", "more_slots"): 2,
            self.free_owner: 2,
            self.create: 20,
            self.find: 4,
            self.nth: 6,
            lambda: ask("dbcount", "DmNumDatabases", shown=number): 4,
            self.show_info: 4,
            self.set_info: 4,
            self.set_block: 5,
            self.take_block: 4,
            self.show_block: 4,
            self.import_file: 5,
            self.export: 5,
            self.delete: 4,
            self.new_record: 20,
            lambda: self.on_record("recdelete", "DmDeleteRecord", 0x80): 3,
            lambda: self.on_record("recarchive", "DmArchiveRecord", 0x80): 2,
            lambda: self.on_record("recremove", "DmRemoveRecord"): 8,
            self.move_record: 5,
            lambda: self.show_record("recget", "DmGetRecord", 0xA0): 5,
            lambda: self.show_record("recquery", "DmQueryRecord", 0x80): 5,
            self.release_record: 6,
            self.record_info: 5,
            self.resize_record: 5,
            self.count_records: 4,
            self.attach_record: 6,
            self.replace_record: 5,
            self.detach_record: 6,
            self.set_record: 5,
            self.find_record: 5,
            self.count_category: 4,
            lambda: self.ask_category("catnext", "DmQueryNextInCategory"): 4,
            lambda: self.ask_category("catpos", "DmPositionInCategory"): 4,
            self.move_category: 4,
            self.delete_category: 1,
            self.new_resource: 10,
            self.attach_resource: 4,
            self.detach_resource: 4,
            self.remove_resource: 4,
            self.resize_resource: 4,
            self.resource_info: 4,
            self.set_resource: 4,
            self.find_resource: 4,
            self.find_type: 4,
            self.count_resources: 4,
            self.loan: 20,
            self.pointer: 16,
        }

    def draw(self, count):
        rows = self.rows()
        for row in self.rng.choices(list(rows), list(rows.values()), k=count):
            row()
        for name in list(self.pinned):
            while name in self.pinned:
                self.unlock_pointer(name)
        for name in list(self.lent):
            self.put_back(name)


def number(told):
    return f" {told}"


def block_word(sort):
    return "sort" if sort else "app"


def shown_info(info):
    name = bytes(info.name[: info.name_length])
    dates = f"{info.creation_date} {info.modification_date} {info.backup_date} {info.modification_number}"
    kinds = f"{spelled(info.kind.to_bytes(4, 'big'))} {spelled(info.creator.to_bytes(4, 'big'))}"
    return f" {spelled(name)} {info.attributes:04x} {info.version} {dates} {kinds} {info.seed:08x} {info.entry_count}"


def run_within(library, image, script, files, room):
    """`palmheap_run` with buffers of `room` items, each before one more. Returns the answer, and what it may write."""
    image = (palmheap.U8 * len(image)).from_buffer_copy(image)
    given = (palmheap.Bytes * len(files))(*[palmheap.Bytes(*palmheap.span(it)) for it in files])
    kinds, sizes = (palmheap.U8, palmheap.U8, palmheap.SIZE), palmheap.Sizes(*UNUSED)
    buffers = [(kind * (count + 1))(*[UNUSED[0]] * (count + 1)) for kind, count in zip(kinds, room)]
    words = [(it, len(it)) for it in (image, script, given)]
    words += [(it if count else None, count) for it, count in zip(buffers, room)]
    answer = library.so.palmheap_run(*[it for pair in words for it in pair], palmheap.c.byref(sizes))
    written = [bytes(image), *map(list, buffers), (sizes.printed, sizes.exported, sizes.files)]
    return (answer.kind, answer.at, answer.entry), written


def unused(image, room, sizes=UNUSED):
    """What `run_within` returns if nothing but perhaps the sizes was written."""
    return [image, *([UNUSED[0]] * (count + 1) for count in room), sizes]


def check_rooms(library, image, script, files, after, text, exported):
    """Runs a script with buffers that are just long enough, and with each of them one item shorter."""
    results = [list(text), list(b"".join(exported)), [sum(map(len, exported[: it + 1])) for it in range(len(exported))]]
    sizes = tuple(map(len, results))
    wanted = [after, *(it + [UNUSED[0]] for it in results), sizes]
    if run_within(library, image, script, files, sizes) != ((0, 0, 0), wanted):
        sys.exit("a run with buffers of its sizes differs")
    for short in (it for it in range(3) if sizes[it] > 0):
        room = [count - (it == short) for it, count in enumerate(sizes)]
        answer, written = run_within(library, image, script, files, room)
        if (answer, written) != ((palmheap.NO_ROOM, 0, 0), unused(image, room, sizes)):
            sys.exit(f"a run with a buffer too short gives {answer}, and writes {written}")


def check_refused(library, rng, program, room, image, lines, files):
    """Runs a script with a bad line, and a script on a bad image. Both are refused, and nothing is written."""
    at = rng.randrange(len(lines))
    bad = rng.choice(("nothing", f"{lines[at]} 1", lines[at].rsplit(" ", 1)[0] + " h", 'new h0 "8 1', "lock 7"))
    script = "".join(f"{it}\n" for it in [*lines[:at], bad, *lines[at + 1 :]]).encode("ascii")
    with open(f"{room}/script", "wb") as it:
        it.write(script)
    names = [f"{room}/{it}" for it in range(len(files))]
    given, status = run(program, "run", f"{room}/image", f"{room}/script", f"{room}/none", *names)
    answer, written = run_within(library, image, script, files, (9, 9, 9))
    kind = f"{library.kind_name(answer[0])}{f' {answer[2]}' if answer[0] == 72 else ''}"
    if status == 0 and answer[0] == palmheap.NO_ROOM:
        return
    if given.decode("ascii") != f"line {answer[1]} {kind}\n" or written != unused(image, (9, 9, 9)):
        sys.exit(f"the line {bad!r} gives {answer}, and the program says {given}")
    broken = bytearray(image)
    broken[rng.randrange(16)] ^= 1 << rng.randrange(8)
    try:
        library.check(bytes(broken))
    except palmheap.Fault as fault:
        given, status = run(program, "check", "-", file=bytes(broken))
        if status == 0 or not given.decode("ascii").startswith(f"bad {library.kind_name(fault.kind)}"):
            sys.exit(f"an image with the fault {fault} is told as {given}")
        for function in ("map", "map_svg", "databases", "databases_json"):
            if refused_text(library, function, bytes(broken)) != (fault.args, UNUSED[0]):
                sys.exit(f"{function} refuses an image with the fault {fault} otherwise")
        answer, written = run_within(library, broken, script, files, (9, 9, 9))
        if answer != (fault.kind, fault.at, fault.entry) or written != unused(bytes(broken), (9, 9, 9)):
            sys.exit(f"an image with the fault {fault} gives {answer}")


def check_migrated(library, program, room, image):
    """Gives the image that a run left in `out` a chain of tables, by the library and by the program."""
    chained = library.migrate(image)
    _, status = run(program, "migrate", f"{room}/out", f"{room}/chained")
    with open(f"{room}/chained", "rb") as it:
        if status != 0 or it.read() != chained:
            sys.exit("an image is migrated to another one by the program")
    if library.migrate(chained) != chained:
        sys.exit("an image with a chain is migrated to another one")


def refused_text(library, function, image):
    """Returns the answer of a function that writes a text about an image, and the count after it."""
    count, text = palmheap.SIZE(UNUSED[0]), (palmheap.U8 * 9)()
    answer = getattr(library.so, f"palmheap_{function}")(image, len(image), text, len(text), palmheap.c.byref(count))
    if any(text):
        sys.exit(f"{function} writes a text for a refused image")
    return (answer.kind, answer.at, answer.entry), count.value


def check_texts(library, program, room, image):
    """The pictures and lists of an image are those of the program."""
    path = f"{room}/pictured"
    with open(path, "wb") as it:
        it.write(image)
    commands = [("map", path), ("map", path, f"{room}/svg"), ("databases", path), ("databases", "--json", path)]
    wanted = [run(program, *words) for words in commands]
    with open(f"{room}/svg", "rb") as it:
        wanted[1] = it.read(), wanted[1][1]
    if [(it, 0) for it in library.texts(image)] != wanted:
        sys.exit("the pictures and the lists of an image differ")


def do_list(library, rng, program, room):
    """Does calls by an open store, by `palmheap_run` and by the program. Returns the refusals, the number of loans, how
    many were out at once at most, and the number of pointers."""
    files = list(FILES.values())
    image = library.new(rng.choice((2048, 8192, 65536)), rng.choice((8, 40, 300)))
    with library.open(image) as store:
        calls = Calls(rng, store, files)
        calls.draw(LINES)
        last = store.bytes_by("write_image")
    script = "".join(f"{it}\n" for it in calls.lines).encode("ascii")
    for path, content in {"image": image, "script": script, **{str(i): it for i, it in enumerate(files)}}.items():
        with open(f"{room}/{path}", "wb") as it:
            it.write(content)
    names = [f"{room}/{it}" for it in range(len(files))]
    text, status = run(program, "run", f"{room}/image", f"{room}/script", f"{room}/out", *names)
    out = []
    for path in ("out", *(f"out.{it + 1}" for it in range(len(calls.exported)))):
        with open(f"{room}/{path}", "rb") as it:
            out.append(it.read())
    if status != 0 or out != [last, *calls.exported]:
        sys.exit(f"a list differs: status {status}; the same images: {out[0] == last}")
    by_library = library.run(image, script, files)
    if by_library != (last, text.decode("ascii"), calls.exported):
        sys.exit("palmheap_run and the program differ")
    check_rooms(library, image, script, files, last, text, calls.exported)
    check_texts(library, program, room, last)
    check_refused(library, rng, program, room, image, calls.lines, files)
    check_migrated(library, program, room, last)
    for line, (kind, told), reply in zip(calls.lines, calls.replies, text.decode("ascii").splitlines(), strict=True):
        wanted = f"ok{told}" if kind == "ok" else f"refused {told} {library.refusal_name(told)} "
        if not (reply == wanted if kind == "ok" else f"{reply} ".startswith(wanted)):
            sys.exit(f"line {line!r}: a call has {wanted!r}, and the script {reply!r}")
    return calls.refused, calls.loans, calls.most, calls.pointers


def compare_drawn(program, seed, count):
    """Compares lists of calls, `count` calls or some more. Returns them and what `do_list` returns."""
    library, rng, calls, refused, loans, most, pointers = palmheap.Library(), random.Random(seed), 0, [], 0, 0, 0
    with tempfile.TemporaryDirectory() as room:
        while calls < count:
            more_refused, more_loans, at_once, more_pointers = do_list(library, rng, program, room)
            calls, refused, loans = calls + LINES, refused + more_refused, loans + more_loans
            pointers += more_pointers
            most = max(most, at_once)
    return calls, refused, loans, most, pointers


def check_closed(library):
    """Closes a store that was never opened, failed to open, or is closed: nothing happens."""
    so, failed, image = library.so, palmheap.Place(UNUSED[0]), library.new(2048, 8)
    places = palmheap.Place(), failed, palmheap.Place()
    answer = so.palmheap_open(None, 0, palmheap.c.byref(failed))
    opened = so.palmheap_open(image, len(image), palmheap.c.byref(places[2]))
    if (answer.kind, opened.kind) != (20, 0) or so.palmheap_close(palmheap.c.byref(places[2])):
        sys.exit("a store was not opened, or not closed")
    for place in places:
        if place.at or so.palmheap_close(palmheap.c.byref(place)) or place.at:
            sys.exit("a closed store is not closed in vain")


def compare_calls(program, count):
    library = palmheap.Library()
    check_closed(library)
    if [library.refusal_name(it) for it in (0, 28, 1 << 31)] != [None] * 3:
        sys.exit("a number of no refusal has a name")
    if any(library.kind_name(it) for it in NO_KINDS) or library.kind_name(1) != "OutOfMemory":
        sys.exit("a kind of fault has another name")
    if library.kind_name(104) != "TooLarge":
        sys.exit("the kind of an image that can't be migrated has another name")
    parts = each_part(compare_drawn, program, count)
    calls, refused = sum(it[0] for it in parts), [number for it in parts for number in it[1]]
    met = ", ".join(f"{refused.count(it)} {library.refusal_name(it)}" for it in sorted(set(refused)))
    print(f"{calls} calls answer as lines of scripts do; {len(refused)} were refused: {met}")
    print(f"{sum(it[2] for it in parts)} loans were put back, at most {max(it[3] for it in parts)} out at once")
    print(f"{sum(it[4] for it in parts)} pointers were given, and unlocked")
    # (those that a loan is in the way of are drawn to be refused)
    if 2 * (len(refused) - refused.count(LENT)) > calls:
        sys.exit("more than half of the calls were refused")


if sys.argv[1] == "files":
    write_files(sys.argv[2])
elif sys.argv[1] == "damaged":
    compare_files(sys.argv[2], int(sys.argv[3]))
else:
    compare_calls(sys.argv[2], int(sys.argv[3]))
