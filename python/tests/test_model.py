"""A store beside dicts and lists of Python: what each call does to chunks and records."""

import dataclasses

import palmheap
import pytest

hypothesis = pytest.importorskip("hypothesis")
from hypothesis import strategies as st
from hypothesis.stateful import RuleBasedStateMachine, initialize, invariant, rule

FIXED, MOST_LOCKS = 15, 14
OWNERS, SIZES = st.integers(1, 3), st.integers(0, 40)
INDEXES = st.integers(0, 5)


@dataclasses.dataclass
class Chunk:
    data: bytes
    owner: int
    locks: int = 0


class Beside(RuleBasedStateMachine):
    """Chunks are a dict from handles, databases a dict from numbers to lists of records (ID, attributes, handle)."""

    @initialize(size=st.sampled_from((512, 2048, 16_384)), slots=st.sampled_from((4, 40, 100)))
    def begin(self, size, slots):
        self.store = palmheap.Store.new(size, slots)
        self.chunks, self.bases, self.names = {}, {}, {}

    def teardown(self):
        if hasattr(self, "store"):
            self.store.close()

    # ---- what is expected

    def done(self, expected, call, *given):
        """Does a call, which is refused exactly with `expected`, or may be for want of space if that is None."""
        try:
            told = call(*given)
        except palmheap.NotEnoughSpace:
            assert expected in (None, palmheap.NotEnoughSpace)
            return None
        except palmheap.Refused as refusal:
            assert type(refusal) is expected, f"{refusal} in place of {expected}"
            return None
        assert expected is None
        return (told,)

    def handle(self, data):
        """A handle of a chunk, seldom another number."""
        known = sorted(self.chunks)
        return data.draw(st.sampled_from([*known, *known, 12]))

    def base(self, data):
        known = sorted(self.bases)
        return data.draw(st.sampled_from([*known, *known, 8]))

    def writable(self, chunk, end):
        if chunk is None:
            return palmheap.InvalidHandle
        if chunk.locks == 0:
            return palmheap.ChunkNotLocked
        return palmheap.OutOfBounds if end > len(chunk.data) else None

    def made(self, told, data, owner, locks=0):
        if told:
            assert told[0] not in self.chunks
            self.chunks[told[0]] = Chunk(data, owner, locks)

    # ---- chunks

    @rule(size=SIZES, owner=OWNERS)
    def new_chunk(self, size, owner):
        self.made(self.done(None, self.store.new_chunk, size, owner), bytes(size), owner)

    @rule(size=SIZES, owner=OWNERS)
    def new_fixed_chunk(self, size, owner):
        self.made(self.done(None, self.store.new_fixed_chunk, size, owner), bytes(size), owner, FIXED)

    @rule(data=st.data())
    def free_chunk(self, data):
        handle = self.handle(data)
        it = self.chunks.get(handle)
        expected = None
        if it is None:
            expected = palmheap.InvalidHandle
        elif it.owner == 15:
            expected = palmheap.OwnedByDatabase
        elif 0 < it.locks < FIXED:
            expected = palmheap.ChunkLocked
        if self.done(expected, self.store.free_chunk, handle):
            del self.chunks[handle]

    @rule(data=st.data())
    def lock(self, data):
        handle = self.handle(data)
        it = self.chunks.get(handle)
        expected = None
        if it is None:
            expected = palmheap.InvalidHandle
        elif it.locks >= MOST_LOCKS:
            expected = palmheap.ChunkFixed if it.locks == FIXED else palmheap.LockOverflow
        told = self.done(expected, self.store.lock, handle)
        if told:
            it.locks += 1
            assert told[0].locks == it.locks and self.store.chunk_at(told[0].place) == handle

    @rule(data=st.data())
    def unlock(self, data):
        handle = self.handle(data)
        it = self.chunks.get(handle)
        expected = None
        if it is None:
            expected = palmheap.InvalidHandle
        elif it.locks in (0, FIXED):
            expected = palmheap.ChunkFixed if it.locks else palmheap.ChunkNotLocked
        told = self.done(expected, self.store.unlock, handle)
        if told:
            it.locks -= 1
            assert told[0] == it.locks

    @rule(data=st.data(), at=SIZES, new=st.binary(max_size=20))
    def write(self, data, at, new):
        handle = self.handle(data)
        it = self.chunks.get(handle)
        if self.done(self.writable(it, at + len(new)), self.store.write, handle, new, at):
            it.data = it.data[:at] + new + it.data[at + len(new) :]

    @rule(data=st.data(), at=SIZES, count=SIZES, byte=st.integers(0, 255))
    def fill(self, data, at, count, byte):
        handle = self.handle(data)
        it = self.chunks.get(handle)
        if self.done(self.writable(it, at + count), self.store.fill, handle, byte, at, count):
            it.data = it.data[:at] + bytes([byte]) * count + it.data[at + count :]

    @rule(data=st.data(), at=SIZES, text=st.binary(max_size=20))
    def copy_text(self, data, at, text):
        handle = self.handle(data)
        it, new = self.chunks.get(handle), text.split(b"\0")[0] + b"\0"
        if self.done(self.writable(it, at + len(new)), self.store.copy_text, handle, text, at):
            it.data = it.data[:at] + new + it.data[at + len(new) :]

    @rule(data=st.data(), new=st.binary(min_size=1, max_size=9))
    def lend(self, data, new):
        handle = self.handle(data)
        it = self.chunks.get(handle)
        if it is None:
            self.done(palmheap.InvalidHandle, self.store.lent(handle).__enter__)
            return
        with self.store.lent(handle) as view:
            assert bytes(view) == it.data
            self.done(palmheap.Lent, self.store.read, handle)
            new = new[: len(view)]
            view[: len(new)] = new
            self.store.compact()
        it.data = new + it.data[len(new) :]

    @rule(data=st.data(), size=SIZES)
    def resize(self, data, size):
        handle = self.handle(data)
        it = self.chunks.get(handle)
        expected = None
        if it is None:
            expected = palmheap.InvalidHandle
        elif it.owner == 15:
            expected = palmheap.OwnedByDatabase
        elif it.locks == FIXED:
            expected = palmheap.ChunkFixed
        elif it.locks and size > len(it.data):
            # (a locked chunk grows only into free chunks after it)
            try:
                self.store.resize(handle, size)
            except palmheap.ChunkLocked:
                return
            it.data = it.data.ljust(size, b"\0")
            return
        if self.done(expected, self.store.resize, handle, size):
            it.data = it.data[:size].ljust(size, b"\0")

    @rule(owner=OWNERS)
    def free_owner(self, owner):
        theirs = [handle for handle, it in self.chunks.items() if it.owner == owner]
        assert self.store.free_owner(owner) == len(theirs)
        for handle in theirs:
            del self.chunks[handle]

    @rule()
    def compact(self):
        self.store.compact()

    @rule()
    def open_again(self):
        """The image has it all."""
        image = self.store.image()
        self.store.close()
        assert palmheap.check_image(image).databases == len(self.bases)
        self.store = palmheap.Store.open(image)

    # ---- databases

    @rule(name=st.sampled_from((b"Memo", b"Book", b"x" * 31)))
    def create_database(self, name):
        expected = palmheap.AlreadyExists if name in self.names.values() else None
        told = self.done(expected, self.store.create_database, name, "DATA", "memo")
        if told:
            self.bases[told[0]], self.names[told[0]] = [], name

    @rule(data=st.data())
    def delete_database(self, data):
        db = self.base(data)
        records = self.bases.get(db)
        expected = None
        if records is None:
            expected = palmheap.NoSuchDatabase
        elif any(self.chunks[handle].locks for _, _, handle in records if handle):
            expected = palmheap.ChunkLocked
        if self.done(expected, self.store.delete_database, db):
            for _, _, handle in self.bases.pop(db):
                self.chunks.pop(handle, None)
            del self.names[db]

    @rule(data=st.data(), at=INDEXES, size=SIZES)
    def new_record(self, data, at, size):
        db = self.base(data)
        told = self.done(None if db in self.bases else palmheap.NoSuchDatabase, self.store.new_record, db, size, at)
        if told:
            (index, handle), records = told[0], self.bases[db]
            assert index == min(at, len(records))
            self.made((handle,), bytes(size), 15)
            info = self.store.record_info(db, index)
            assert info.handle == handle and info.attributes == 0x60
            assert info.id not in [0, *(it for it, _, _ in records)]
            records.insert(index, (info.id, info.attributes, handle))

    def of_record(self, data, index, lacks_data=False):
        """A database, its records and what refuses an index of it. `lacks_data`: so does a deleted record."""
        db = self.base(data)
        records = self.bases.get(db)
        if records is None:
            return db, records, palmheap.NoSuchDatabase
        if index >= len(records):
            return db, records, palmheap.IndexOutOfRange
        return db, records, palmheap.RecordDeleted if lacks_data and records[index][1] & 0x80 else None

    @rule(data=st.data(), index=INDEXES)
    def delete_record(self, data, index):
        db, records, expected = self.of_record(data, index, True)
        if expected is None and self.chunks[records[index][2]].locks:
            expected = palmheap.ChunkLocked
        if self.done(expected, self.store.delete_record, db, index):
            id, _, handle = records[index]
            del self.chunks[handle]
            records[index] = (id, self.store.record_info(db, index).attributes, None)
            assert records[index][1] & 0x80

    @rule(data=st.data(), index=INDEXES)
    def remove_record(self, data, index):
        db, records, expected = self.of_record(data, index)
        if expected is None and records[index][2] and self.chunks[records[index][2]].locks:
            expected = palmheap.ChunkLocked
        if self.done(expected, self.store.remove_record, db, index):
            self.chunks.pop(records.pop(index)[2], None)

    @rule(data=st.data(), index=INDEXES, to=INDEXES)
    def move_record(self, data, index, to):
        db, records, expected = self.of_record(data, index)
        if expected is None and to > len(records):
            expected = palmheap.IndexOutOfRange
        if self.done(expected, self.store.move_record, db, index, to):
            it = records.pop(index)
            records.insert(to - (to > index), it)

    @rule(data=st.data(), index=INDEXES, attributes=st.integers(0, 255), id=st.integers(0, 5))
    def set_record_info(self, data, index, attributes, id):
        db, records, expected = self.of_record(data, index)
        if expected is None and id and any(it[0] == id for at, it in enumerate(records) if at != index):
            expected = palmheap.DuplicateId
        if self.done(expected, self.store.set_record_info, db, index, attributes, id):
            old, before, handle = records[index]
            records[index] = (id or old, before & 0xA0 | attributes & 0x5F, handle)

    @rule(data=st.data(), index=INDEXES, owner=OWNERS)
    def detach_record(self, data, index, owner):
        db, records, expected = self.of_record(data, index, True)
        told = self.done(expected, self.store.detach_record, db, index, owner)
        if told:
            assert told[0] == records.pop(index)[2]
            self.chunks[told[0]].owner = owner

    # ---- what holds after each step

    @invariant()
    def same_chunks(self):
        for handle, it in getattr(self, "chunks", {}).items():
            found = Chunk(self.store.read(handle), self.store.owner(handle), self.store.lock_count(handle))
            assert found == it

    @invariant()
    def same_databases(self):
        if not hasattr(self, "store"):
            return
        assert sorted(self.store.databases()) == sorted(self.bases)
        for db, records in self.bases.items():
            info = self.store.database_info(db)
            assert (info.name, info.kind, info.creator) == (self.names[db], b"DATA", b"memo")
            assert info.entry_count == self.store.record_count(db) == len(records)
            assert [tuple(self.store.record_info(db, it)) for it in range(len(records))] == records


TestBeside = Beside.TestCase
TestBeside.settings = hypothesis.settings(max_examples=200, stateful_step_count=60)
