"""The programs in docs/PYTHON.md run."""

import os
import re

import palmheap

TOP = os.path.dirname(os.path.dirname(os.path.dirname(os.path.realpath(__file__))))


def test_programs(tmp_path, monkeypatch, capsys):
    monkeypatch.chdir(tmp_path)
    with open(f"{TOP}/docs/PYTHON.md", encoding="utf-8") as it:
        programs = re.findall(r"^```python\n(.*?)^```$", it.read(), re.M | re.S)
    memo = palmheap.Record(b"Buy milk\0", 1, 1)
    palmheap.write(palmheap.Database(b"MemoDB", b"DATA", b"memo", records=[memo]), "try.pdb")
    assert len(programs) == 2
    files, store = {}, {"palmheap": palmheap}
    exec(programs[0], files)
    assert capsys.readouterr().out == "1 b'Buy milk\\x00'\n"
    changed = palmheap.read("changed.pdb").records
    assert [it.data for it in changed] == [b"Buy bread\0", b"Call Anna\0"] and changed[1].id not in (0, 1)
    exec(programs[1], store)
    with palmheap.Store.open(store["image"]) as again:
        assert again.record_count(again.find_database("MemoDB")) == 0
