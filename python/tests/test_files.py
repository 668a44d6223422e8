"""Functions on files, images and scripts; files as values of Python; the command line."""

import json
import pickle
import subprocess
import sys
import xml.etree.ElementTree

import palmheap
import pytest
from palmheap import _errors

hypothesis = pytest.importorskip("hypothesis")
from hypothesis import given, settings
from hypothesis import strategies as st

U16, U32 = st.integers(0, 0xFFFF), st.integers(0, 0xFFFF_FFFF)
FOUR = st.binary(min_size=4, max_size=4)
NAMES = st.lists(st.integers(1, 255), min_size=1, max_size=31).map(bytes)
BLOCKS = st.none() | st.binary(max_size=9)
# (few IDs, so that some are double)
IDS = st.integers(0, 4) | st.integers(0, 0xFF_FFFF)
HEADERS = {
    "version": U16,
    **dict.fromkeys(("creation_date", "modification_date", "backup_date", "modification_number", "seed"), U32),
    "app_info": BLOCKS,
    "sort_info": BLOCKS,
}


def entry(data, id, attributes):
    return palmheap.Record(data, id, attributes | (0x80 if data is None else 0))


RECORDS = st.lists(st.builds(entry, BLOCKS, IDS, st.integers(0, 255)), max_size=6)
RESOURCES = st.lists(st.builds(palmheap.Resource, FOUR, U16, st.binary(max_size=9)), max_size=6)


def database(has_resources, entries, name, kind, creator, attributes, header):
    kept = {"resources" if has_resources else "records": entries}
    return palmheap.Database(name, kind, creator, attributes & 0xFFFE | has_resources, **header, **kept)


def databases(records=RECORDS):
    rest = (NAMES, FOUR, FOUR, U16, st.fixed_dictionaries(HEADERS))
    return st.builds(database, st.just(False), records, *rest) | st.builds(database, st.just(True), RESOURCES, *rest)


def data_of(it):
    return [entry.data for entry in (it.resources if it.has_resources else it.records)]


def damaged(file, rng):
    """A file with one to three changes."""
    file = bytearray(file)
    for _ in range(rng.randint(1, 3)):
        way = rng.random()
        if way < 0.8 and file:
            file[rng.randrange(min(len(file), 130))] = rng.choice((0, 1, 32, 255, rng.randrange(256)))
        elif way < 0.9:
            del file[rng.randrange(len(file) + 1) :]
        else:
            file += rng.randbytes(rng.randint(1, 9))
    return bytes(file)


@given(databases())
def test_a_database_is_written_in_canonical_form(it):
    file = it.to_bytes()
    assert palmheap.canonical(file) == file
    back = palmheap.Database.from_bytes(file)
    # What changes: IDs of 0, or of earlier records, and with them the seed; busy bits.
    seen = {0}
    for old, new in zip(it.records, back.records):
        assert (new.data, new.attributes) == (old.data, old.attributes & ~0x20)
        assert old.id in seen or new.id == old.id
        seen.add(old.id)
    ids = [record.id for record in back.records]
    assert len(set(ids)) == len(ids) and 0 not in ids
    it.records = back.records
    assert back.seed == it.seed or len(seen) <= len(ids)
    it.seed = back.seed
    assert back == it


@given(databases(), st.randoms(use_true_random=False))
def test_read_and_write_is_canonical(it, rng):
    """For a file of any bytes: what is read and written is its canonical form, or both have the same fault."""
    for file in (it.to_bytes(), it.to_exact_bytes(), damaged(it.to_exact_bytes(), rng)):
        try:
            wanted = palmheap.canonical(file)
        except palmheap.FileFault as fault:
            with pytest.raises(palmheap.FileFault) as other:
                palmheap.Database.from_bytes(file)
            assert other.value.args == fault.args
            with pytest.raises(palmheap.FileFault) as other:
                palmheap.check_file(file)
            assert other.value.args == fault.args
        else:
            assert palmheap.Database.from_bytes(file).to_bytes() == wanted
            assert palmheap.check_file(file) is None
            assert palmheap.listing(file).startswith("ok")


@given(databases(), st.randoms(use_true_random=False))
def test_read_and_write_exactly(it, rng):
    """A file that is read and written with all its values is the same file, byte for byte."""
    it.filler = rng.randbytes(rng.randrange(4))
    it.after_name = b"\0" + rng.randbytes(31 - len(it.name)) if rng.random() < 0.5 else b""
    there = [rank for rank, block in enumerate((it.app_info, it.sort_info, *data_of(it))) if block]
    rng.shuffle(there)
    it.order = there
    whole = it.to_exact_bytes()
    read = palmheap.Database.from_bytes(whole)
    assert (read.records, read.resources, read.filler) == (it.records, it.resources, it.filler)
    for file in (whole, damaged(whole, rng)):
        try:
            read = palmheap.Database.from_bytes(file)
        except palmheap.FileFault:
            continue
        assert read.to_exact_bytes() == file


@settings(max_examples=50)
@given(databases())
def test_import_and_export_is_canonical(it):
    file = it.to_exact_bytes()
    with palmheap.Store.new(65_536, 200) as store:
        assert store.export_file(store.import_file(file)) == palmheap.canonical(file)


@given(databases())
def test_blocks(it):
    app, sort, data = palmheap.blocks(bytearray(it.to_exact_bytes()))
    assert (app, sort) == (it.app_info, it.sort_info)
    assert data == data_of(it)


def test_values_that_no_file_has():
    def made(**fields):
        return palmheap.Database(**{"name": b"x", "kind": b"DATA", "creator": b"memo", **fields})

    record, resource = palmheap.Record, palmheap.Resource
    for wrong in (
        made(name=b""),
        made(name=b"x" * 32),
        made(name=b"a\0b"),
        made(kind=b"DAT"),
        made(creator=b"memos"),
        made(records=[record(None)]),
        made(resources=[resource(b"code", 1)]),
        made(attributes=1, records=[record(b"")]),
        made(attributes=1, resources=[resource(b"cod", 1)]),
        made(records=[record(b"")] * 65_536),
    ):
        with pytest.raises(ValueError):
            wrong.to_bytes()
    for wrong in (
        made(after_name=b"\0"),
        made(after_name=b"a" * 31),
        made(order=[0]),
        made(app_info=b"a", order=[0, 0]),
        made(app_info=b"a", sort_info=b"", order=[1, 0]),
        made(order=[2]),
    ):
        assert len(wrong.to_bytes()) in (80, 81)
        with pytest.raises(ValueError):
            wrong.to_exact_bytes()
    for wrong in (
        made(attributes=1 << 16),
        made(version=-1),
        made(seed=1 << 32),
        made(creation_date=-1),
        made(records=[record(b"", 1 << 24)]),
        made(records=[record(b"", -1)]),
        made(records=[record(b"", 1, 256)]),
        made(attributes=1, resources=[resource(b"code", 1 << 16)]),
    ):
        with pytest.raises(OverflowError):
            wrong.to_bytes()


def test_read_and_write(tmp_path):
    path = tmp_path / "memo.pdb"
    memos = palmheap.Database(b"MemoDB", b"DATA", b"memo", records=[palmheap.Record(b"Buy milk\0", 1, 1)])
    palmheap.write(memos, path)
    assert palmheap.read(path) == memos
    memos.records[0].data = b"Buy bread\0"
    palmheap.write(memos, str(path))
    assert palmheap.read(path).records[0].data == b"Buy bread\0"
    memos.name = b""
    with pytest.raises(ValueError):
        palmheap.write(memos, path)
    assert [it.name for it in tmp_path.iterdir()] == ["memo.pdb"]


@given(databases(), st.booleans(), st.randoms(use_true_random=False))
def test_salvage(it, exact_ids, rng):
    """What is salvaged has no fault. Of a file without fault it is the canonical form, unless IDs are kept."""
    file = damaged(it.to_exact_bytes(), rng)
    if len(file) < 78:
        with pytest.raises(palmheap.FileFault) as fault:
            palmheap.salvage(file, exact_ids)
        assert fault.value.kind == palmheap.Kind.TRUNCATED
        return
    found = palmheap.salvage(file, exact_ids)
    palmheap.check_file(found.file)
    try:
        palmheap.check_file(file)
    except palmheap.FileFault:
        assert found.faults
    else:
        assert not found.faults and (exact_ids or found.file == palmheap.canonical(file))
    if exact_ids:
        ids = [entry.id for entry in palmheap.Database.from_bytes(file).records] if not found.faults else None
        assert ids is None or [entry.id for entry in palmheap.Database.from_bytes(found.file).records] == ids


@given(databases(), st.randoms(use_true_random=False))
def test_document(it, rng):
    """The document has the size of the file, or its first fault."""
    for file in (it.to_exact_bytes(), damaged(it.to_exact_bytes(), rng)):
        document = json.loads(palmheap.document(file))
        try:
            palmheap.check_file(file)
        except palmheap.FileFault as fault:
            assert document["fault"] == str(fault).split()[0]
        else:
            needs = palmheap.needs(file)
            assert (document["size"], document["needs"]) == (len(file), needs._asdict())
            if needs.size <= 1 << 20:
                image = palmheap.new_image(needs.size, needs.slots)
                with palmheap.Store.open(image) as store:
                    store.import_file(file)
                    assert store.free_bytes() == 0


def test_large():
    data = bytes(17_000_000)
    file = palmheap.Database(b"x", b"DATA", b"memo", records=[palmheap.Record(data, 1)]).to_bytes()
    assert len(file) == 88 + len(data)
    assert palmheap.Database.from_bytes(file).records[0].data == data


def test_images():
    image = palmheap.new_image(2048, 8)
    counts = palmheap.check_image(image)
    assert counts[:4] == (2048, 8, 0, 0) and counts.databases == 0 and 0 < counts.free < 2048
    for size, slots, kind in ((63, 1, "BAD_SIZE"), (1 << 31, 1, "BAD_SIZE"), (0, 1, "BAD_SIZE"), (64, 99, "BAD_SLOT_COUNT")):
        with pytest.raises(palmheap.ImageFault) as it:
            palmheap.new_image(size, slots)
        assert it.value.kind.name == kind
    with pytest.raises(palmheap.ImageFault):
        palmheap.check_image(b"")
    with palmheap.Store.open(image) as store:
        assert store.image() == image


def test_migrate():
    image = palmheap.new_image(2048, 8)
    chained = palmheap.migrate(image)
    assert len(chained) == 2056 and chained[:4] == b"PHI2" and palmheap.migrate(chained) == chained
    with palmheap.Store.open(chained) as store:
        store.more_slots()
        assert palmheap.check_image(store.image()).slots == 8 + 15
    for image, kind in ((b"", "TOO_SHORT"), (palmheap.new_image(16_777_208, 8), "TOO_LARGE_TO_MIGRATE")):
        with pytest.raises(palmheap.ImageFault) as it:
            palmheap.migrate(image)
        assert it.value.kind.name == kind


@settings(max_examples=50)
@given(st.lists(databases(), max_size=5, unique_by=lambda it: it.name))
def test_databases_of_an_image(made):
    """The document has the databases that were imported. The listing and the pictures are of the same image."""
    with palmheap.Store.new(1 << 20, 2000) as store:
        for it in made:
            store.import_file(it.to_exact_bytes())
        image, free = store.image(), store.free_bytes()
        sizes = [len(store.export_file(store.find_database(it.name))) for it in made]
    document = json.loads(palmheap.database_document(image))
    assert [(bytes.fromhex(it["name_hex"]), it["count"], it["size"]) for it in document["databases"]] == [
        (it.name, len(data_of(it)), size) for it, size in zip(made, sizes)
    ]
    lines = palmheap.database_listing(image).splitlines()
    assert lines[0] == f"ok {len(made)}" and len(lines) == 1 + len(made)
    assert palmheap.image_map(image).startswith(f"size {1 << 20} slots 2000 used ")
    svg = xml.etree.ElementTree.fromstring(palmheap.image_svg(image))
    assert svg.tag.endswith("svg") and f"free {free} bytes" in "".join(svg.itertext())
    for made_of in (palmheap.database_document, palmheap.database_listing, palmheap.image_map, palmheap.image_svg):
        with pytest.raises(palmheap.ImageFault) as fault:
            made_of(image[:-1])
        assert fault.value.kind.name == "TOO_SHORT"


def test_run():
    file = palmheap.Database(b"MemoDB", b"DATA", b"memo", records=[palmheap.Record(b"Buy milk\0", 1, 1)]).to_bytes()
    image = palmheap.new_image(2048, 8)
    done = palmheap.run(image, "import memos 1\nreccount memos\nexport memos\nfree other\n", [file])
    assert done.replies == f"ok\nok 1\nok {len(file)}\nrefused 1 InvalidHandle\n" and done.files == [file]
    with palmheap.Store.open(done.image) as store:
        assert store.export_file(store.find_database("MemoDB")) == file
    assert palmheap.run(image, b"") == (image, "", [])
    with pytest.raises(palmheap.ScriptFault) as it:
        palmheap.run(image, "nothing\n")
    assert (it.value.kind.name, it.value.at) == ("UNKNOWN_COMMAND", 1)


def test_words_of_faults():
    """Faults have the words that the program prints."""
    for kind, at, entry, words in (
        (21, 0, 0, "BadMagic"),
        (22, 0, 0, "BadSize"),
        (26, 40, 0, "BadChunk 40"),
        (42, 1, 3, "BadEntry 1 3"),
        (45, 0, 0, "BadId 0 0"),
        (60, 0, 0, "Truncated"),
        (64, 0, 0, "BadInfo sort"),
        (65, 0, 0, "BadOffset 0"),
        (71, 4, 0, "line 4 WrongCount"),
        (72, 4, 2, "line 4 BadWord 2"),
        (104, 0, 0, "TooLarge"),
        (99, 1, 2, "kind 99 at 1, entry 2"),
    ):
        it = _errors.fault(kind, at, entry)
        assert str(it) == words and pickle.loads(pickle.dumps(it)).args == it.args
    assert isinstance(_errors.fault(1), MemoryError)


def test_command_line(tmp_path):
    path = tmp_path / "memo.pdb"
    memos = palmheap.Database(b"MemoDB", b"DATA", b"memo")
    palmheap.write(memos, path)

    def said(*words, given=b""):
        command = [sys.executable, "-m", "palmheap", *map(str, words)]
        ran = subprocess.run(command, input=given, capture_output=True, check=False)
        return ran.returncode, ran.stdout.decode()

    text = palmheap.listing(path.read_bytes())
    assert said("list", path) == (0, text) and said("list", "-", given=path.read_bytes()) == (0, text)
    assert said("list", "-") == (1, "bad Truncated\n")
    assert said("list", tmp_path / "none") == (3, "")
    assert said("list") == said("unpack", path) == (2, "")
