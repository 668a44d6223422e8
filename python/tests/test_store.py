"""An open store: each refusal, ranges of numbers, loans, closing, threads."""

import copy
import gc
import pickle
import threading

import palmheap
import pytest
from palmheap import _errors, _library

RESOURCES, READ_ONLY = 0x0001, 0x0002


@pytest.fixture
def store():
    with palmheap.Store.new(262_144, 3000) as it:
        yield it


@pytest.fixture
def memos(store):
    """A database with two records of 4 bytes."""
    db = store.create_database("MemoDB", "DATA", "memo")
    store.new_record(db, 4)
    store.new_record(db, 4)
    return db


@pytest.fixture
def code(store):
    """A database with one resource."""
    db = store.create_database(b"Code", b"appl", b"test", resources=True, date=7)
    store.new_resource(db, "code", 1, 8)
    return db


# ---- refusals


def refused(what, call, *given, **named):
    with pytest.raises(palmheap.Refused) as it:
        call(*given, **named)
    assert type(it.value) is what
    assert it.value.number == what.number
    return what


def test_refusals_of_chunks(store, memos):
    h, fixed = store.new_chunk(10), store.new_fixed_chunk(10)
    refused(palmheap.InvalidHandle, store.size, 0)
    refused(palmheap.OwnedByDatabase, store.free_chunk, store.query_record(memos, 0))
    refused(palmheap.ChunkNotLocked, store.write, h, b"x")
    refused(palmheap.ChunkNotLocked, store.unlock, h)
    for count in range(1, 15):
        assert store.lock(h).locks == count
    refused(palmheap.LockOverflow, store.lock, h)
    refused(palmheap.ChunkLocked, store.free_chunk, h)
    refused(palmheap.ChunkFixed, store.lock, fixed)
    refused(palmheap.InvalidOwner, store.new_chunk, 1, 15)
    refused(palmheap.NotEnoughSpace, store.new_chunk, 16_000_000)
    refused(palmheap.OutOfBounds, store.read, h, 0, 11)
    refused(palmheap.OutOfBounds, store.read, h, 11)
    refused(palmheap.OutOfBounds, store.copy_text, h, b"x" * 10)


def test_refusals_of_databases(store, memos, code):
    refused(palmheap.NoSuchDatabase, store.record_count, 0)
    refused(palmheap.NoSuchDatabase, store.find_database, "None")
    refused(palmheap.NoSuchDatabase, store.database_at, 2)
    refused(palmheap.NotRecordDatabase, store.record_count, code)
    refused(palmheap.NotResourceDatabase, store.resource_count, memos)
    refused(palmheap.AlreadyExists, store.create_database, "Code", "DATA", "memo")
    refused(palmheap.InvalidName, store.create_database, b"", "DATA", "memo")
    refused(palmheap.InvalidName, store.create_database, b"x" * 32, "DATA", "memo")
    info = store.database_info(memos)
    refused(palmheap.InvalidName, store.set_database_info, memos, info._replace(name=b"x" * 70))
    refused(palmheap.NoSuchDatabase, store.set_database_info, 0, info._replace(name=b"x" * 70))
    refused(palmheap.NoInfoBlock, store.info_block, memos, sort=True)
    refused(palmheap.BadFile, store.import_file, b"")
    assert store.database_info(memos) == info


def test_refusals_of_entries(store, memos, code):
    refused(palmheap.IndexOutOfRange, store.record_info, memos, 2)
    refused(palmheap.RecordBusy, store.get_record, memos, 0)
    refused(palmheap.InvalidCategory, store.category_count, memos, 16)
    first = store.record_info(memos, 0).id
    refused(palmheap.DuplicateId, store.set_record_info, memos, 1, 0, first)
    refused(palmheap.UniqueIdNotFound, store.find_record, memos, 0xFFFFFF)
    refused(palmheap.ResourceNotFound, store.find_resource, code, "tSTR", 1)
    store.delete_record(memos, 1)
    refused(palmheap.RecordDeleted, store.query_record, memos, 1)
    store.set_database_info(memos, store.database_info(memos)._replace(attributes=READ_ONLY))
    refused(palmheap.ReadOnly, store.new_record, memos, 1)


def test_too_many_databases(store):
    with pytest.raises(palmheap.TooManyEntries):
        for it in range(1025):
            store.create_database(f"db {it}", "DATA", "memo")
    assert store.database_count() == len(store.databases())


def test_each_refusal_has_its_class():
    for number in range(1, 28):
        it = _errors.refusal(number)
        assert type(it).__name__ == palmheap.refusal_name(number)
        again = pickle.loads(pickle.dumps(it))
        assert (type(again), again.number) == (type(it), number)
    assert isinstance(_errors.refusal(26), MemoryError)
    assert palmheap.refusal_name(0) is None and palmheap.refusal_name(28) is None
    assert type(_errors.refusal(99)) is palmheap.Refused and _errors.refusal(99).number == 99


# ---- numbers


NUMBERS = [
    (name, place)
    for name, row in {**_library.CALLS, **_library.BYTE_CALLS}.items()
    for place, kind in enumerate(row.takes)
    if kind in (_library.U8, _library.U16, _library.U32)
]


@pytest.mark.parametrize("name, place", NUMBERS)
def test_numbers_out_of_range(store, name, place):
    row = {**_library.CALLS, **_library.BYTE_CALLS}[name]
    call = store._call if name in _library.CALLS else store._bytes
    limit = 1 << 8 * _library.c.sizeof(row.takes[place])
    before = store.image()
    for wrong in (-1, limit, limit + 1, 1 << 64):
        given = [b"" if it is bytes else 0 for it in row.takes]
        given[place] = wrong
        with pytest.raises(OverflowError):
            call(name, *given)
    given[place] = 1.0
    with pytest.raises(TypeError):
        call(name, *given)
    assert store.image() == before


def test_bytes_are_bytes(store):
    h = store.new_chunk(4)
    store.lock(h)
    for wrong in (4, "text", None, [1]):
        with pytest.raises(TypeError):
            store.write(h, wrong)
    for right in (b"abcd", bytearray(b"abcd"), memoryview(b"a.b.c.d.")[::2]):
        store.fill(h)
        store.write(h, right)
        assert store.read(h) == b"abcd"
    for wrong in ("five5", "abc", b""):
        with pytest.raises(ValueError):
            store.create_database("x", wrong, "memo")
    with pytest.raises(OverflowError):
        palmheap.new_image(64, 65_536)
    with pytest.raises(OverflowError):
        palmheap.new_image(-8, 1)


# ---- loans


def test_loan(store):
    h, other, empty = store.new_chunk(6), store.new_fixed_chunk(3), store.new_chunk(0)
    with store.lent(h) as view, store.lent(other) as second, store.lent(empty) as none:
        assert (bytes(view), bytes(second), bytes(none)) == (bytes(6), bytes(3), b"")
        assert not view.readonly
        assert {it.handle for it in store.loans()} == {h, other, empty}
        assert store.loans() == sorted(store.loans(), key=lambda it: it.place)
        assert store.is_lent() and store.lock_count(h) == 1 and store.lock_count(other) == 15
        view[:] = b"abcdef"
        second[1] = 7
        for call, *given in (
            (store.read, h),
            (store.write, h, b""),
            (store.fill, h),
            (store.unlock, h),
            (store.free_chunk, other),
            (store.free_owner, 1),
            (store.image,),
            (store.close,),
        ):
            refused(palmheap.Lent, call, *given)
        refused(palmheap.ChunkLocked, store.free_chunk, h)
        with pytest.raises(palmheap.Lent), store.lent(h):
            pass
        store.compact()
        store.lock(h)
    assert not store.is_lent() and store.loans() == []
    assert (store.read(h), store.read(other), store.lock_count(h)) == (b"abcdef", b"\0\7\0", 1)
    assert store.lock_count(empty) == 0


def test_loan_is_put_back_by_an_exception(store):
    h = store.new_chunk(2)
    with pytest.raises(KeyError), store.lent(h) as view:
        view[0] = 1
        raise KeyError
    assert store.read(h) == b"\1\0" and store.lock_count(h) == 0
    refused(palmheap.InvalidHandle, store.lent(0).__enter__)


def test_views_that_are_kept(store):
    h = store.new_chunk(4)
    with store.lent(h) as view:
        kept, whole = view[1:3], memoryview(view)
        view[:] = b"abcd"
    kept[0] = 0
    assert store.read(h) == b"abcd" and bytes(whole) == b"a\0cd"
    with pytest.raises(ValueError):
        view[0]


def test_locks_stay_as_they_were(store):
    h = store.new_chunk(4)
    for locks in (0, 1, 14):
        while store.lock_count(h) < locks:
            store.lock(h)
        with store.lent(h):
            assert store.lock_count(h) == max(1, locks)
        assert store.lock_count(h) == locks


# ---- entries


def test_entries(store, memos, code):
    assert [store.record_info(memos, it).attributes for it in (0, 1)] == [0x60, 0x60]
    index, h = store.new_record(memos, 3, 0)
    assert index == 0 and store.query_record(memos, 0) == h and store.record_info(memos, 0).handle == h
    store.move_record(memos, 0, 3)
    assert store.query_record(memos, 2) == h
    store.set_record_info(memos, 2, 5, 1234)
    assert store.find_record(memos, 1234) == 2
    assert store.category_count(memos) == 3 and store.category_count(memos, 5) == 1
    assert store.next_in_category(memos, 0, 5) == 2 and store.position_in_category(memos, 2, 5) == 0
    store.move_category(memos, 5, 6, dirty=True)
    assert store.record_info(memos, 2).attributes & 0x4F == 0x46
    store.release_record(memos, 0)
    assert store.get_record(memos, 0) == store.query_record(memos, 0)
    store.resize_record(memos, 0, 9)
    assert store.size(store.query_record(memos, 0)) == 9
    out = store.detach_record(memos, 2, owner=3)
    assert (out, store.owner(out)) == (h, 3)
    assert store.attach_record(memos, out) == 2
    new = store.new_chunk(1)
    assert store.replace_record(memos, 2, new) == h and store.query_record(memos, 2) == new
    store.archive_record(memos, 2)
    store.delete_record(memos, 1)
    assert store.record_info(memos, 1).handle is None and store.record_info(memos, 2).attributes & 0x80
    store.remove_record(memos, 1)
    assert store.record_count(memos) == 2
    store.delete_category(memos, 0)
    assert store.resource_info(code, 0).kind == b"code" and store.resource_info(code, 0).id == 1
    assert store.attach_resource(code, b"tSTR", 9, h) == 1
    assert store.find_resource(code, "tSTR", 9) == store.find_resource_type(code, "tSTR") == 1
    store.set_resource_info(code, 1, "tSTR", 10)
    store.resize_resource(code, 1, 20)
    assert store.size(store.resource_info(code, 1).handle) == 20
    assert store.detach_resource(code, 1) == h
    store.remove_resource(code, 0)
    assert store.resource_count(code) == 0
    store.set_info_block(memos, h)
    assert store.info_block(memos) == h == store.take_info_block(memos)
    assert store.databases() == [memos, code] and store.find_database("Code") == code
    info = store.database_info(code)._replace(name=b"New", version=3, backup_date=9, creator=b"abcd")
    store.set_database_info(code, info)
    # setting them is a change of the database too
    assert store.database_info(code) == info._replace(modification_number=info.modification_number + 1)
    store.delete_database(memos)
    assert store.databases() == [code]


def test_chunks(store):
    h = store.new_chunk(5, owner=2)
    assert (store.size(h), store.owner(h), store.lock_count(h)) == (5, 2, 0)
    assert store.chunk_at(store.lock(h).place) == h
    store.copy_text(h, "abc")
    store.fill(h, 7, 4)
    assert store.read(h) == b"abc\0\7" and store.read(h, 1, 2) == b"bc"
    assert store.unlock(h) == 0
    store.resize(h, 2)
    store.set_owner(h, 4)
    assert store.read(h) == b"ab" and store.free_owner(4) == 1
    assert 0 < store.largest_stretch() <= store.free_bytes()
    refused(palmheap.NotEnoughSpace, store.more_slots)


# ---- closing


def test_closed():
    store = palmheap.Store.new(2048, 8)
    assert not store.closed
    store.close()
    store.close()
    assert store.closed
    for call in (store.image, store.free_bytes, store.loans, store.is_lent, lambda: store.lent(16).__enter__()):
        with pytest.raises(ValueError):
            call()


def test_dropped_stores_are_freed():
    for _ in range(200):
        palmheap.Store.new(1 << 20, 8)
    gc.collect()


def test_a_store_is_not_copied(store):
    for way in (copy.copy, copy.deepcopy, pickle.dumps):
        with pytest.raises(TypeError):
            way(store)


def test_no_image():
    for image, kind in ((b"", palmheap.Kind.TOO_SHORT), (b"x" * 64, palmheap.Kind.BAD_MAGIC)):
        with pytest.raises(palmheap.ImageFault) as it:
            palmheap.Store.open(image)
        assert it.value.kind == kind


def test_threads(store):
    wrong = []

    def work(owner):
        try:
            for it in range(200):
                h = store.new_chunk(16, owner)
                with store.lent(h) as view:
                    view[:] = bytes([owner]) * 16
                if store.read(h) != bytes([owner]) * 16 or store.owner(h) != owner:
                    wrong.append(h)
                store.free_chunk(h)
        except Exception as error:
            wrong.append(error)

    threads = [threading.Thread(target=work, args=(it,)) for it in range(1, 9)]
    for it in threads:
        it.start()
    for it in threads:
        it.join()
    assert wrong == [] and not store.is_lent()
