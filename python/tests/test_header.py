"""Compares the package with include/palmheap.h: functions, structures, kinds of answers and refusals."""

import ctypes as c
import os
import re

import palmheap
from palmheap import _errors, _library, _store

TOP = os.path.dirname(os.path.dirname(os.path.dirname(os.path.realpath(__file__))))
# The functions that the package does without. `lent` needs no pointers, and `Kind` has the names of kinds.
LEFT_OUT = {"lock_pointer", "unlock_pointer", "unlock_handle", "start", "version", "kind_name"}
LEFT_OUT |= {"loans", "new_chained", "pdb_damage", "explain"}
NUMBERS = {_library.U8: "uint8_t", _library.U16: "uint16_t", _library.U32: "uint32_t", _library.SIZE: "size_t"}


def text_of(path):
    with open(f"{TOP}/{path}", encoding="utf-8") as it:
        return it.read()


def header():
    """The header without comments, and without the functions that it defines itself."""
    whole = re.sub(r"/\*.*?\*/", "", text_of("include/palmheap.h"), flags=re.S)
    return re.sub(r"^static inline .*?^\}", "", whole, flags=re.M | re.S)


def names():
    """The names in C of the types."""
    known = {**NUMBERS, _library.BOOL: "bool", None: "void", c.c_void_p: "pointer", c.c_char_p: "pointer"}
    return {**known, **{it: name for name, it in _library.STRUCTURES.items()}}


def c_type(kind):
    return f"{names()[kind._type_]} *" if issubclass(kind, c._Pointer) else names()[kind]


def declared():
    """The result and the parameters of each function of the header, without the names of parameters."""
    body = re.sub(r"\b(struct|enum)\b[^{;]*\{.*?\}", "", header(), flags=re.S)
    found = {}
    for result, name, given in re.findall(r"^([^\n;]*?)\bpalmheap_(\w+)\(([^;]*?)\);", body, re.M | re.S):
        types = [re.sub(r"\w+$", "", " ".join(it.split())).strip() for it in given.split(",")]
        found[name] = result.strip(), types
    return found


def written(name, row):
    """The same of a function of the package."""
    spans = {bytes: ["const uint8_t *", "size_t"], bytearray: ["uint8_t *", "size_t"]}
    types = ["palmheap_store *"] if name in _library.STORE_FUNCTIONS else []
    types += [part for it in row.takes for part in spans.get(it) or [c_type(it)]]
    return names()[row.returns], types + [f"{names()[it]} *" for it in row.writes]


def without_const(types):
    """A pointer to const that isn't one to bytes is a plain pointer for ctypes."""
    return [it if it == "const uint8_t *" else it.replace("const ", "") for it in types]


def test_functions():
    rows = {**_library.FILE_FUNCTIONS, **_library.STORE_FUNCTIONS}
    there = {name: (result, without_const(types)) for name, (result, types) in declared().items()}
    here = {name: written(name, row) for name, row in rows.items()}
    assert {name: it for name, it in there.items() if name not in LEFT_OUT} == here


def test_each_function_is_used():
    """Each function is called by a method, but take_out: `lent` lends any number of chunks."""
    code = "".join(text_of(f"python/palmheap/{it}.py") for it in ("_store", "_files", "_errors"))
    used = set(re.findall(r'"(\w+)"', code)) | set(re.findall(r"palmheap_(\w+)", code))
    assert {*_library.FILE_FUNCTIONS, *_library.STORE_FUNCTIONS} - used == {"take_out"}


def test_structures():
    there = {}
    for name, body in re.findall(r"typedef struct (\w+) \{(.*?)\}", header(), re.S):
        there[name] = [" ".join(it.split()) for it in body.split(";") if it.strip()]
    assert set(there) == set(_library.STRUCTURES)
    for name, kind in _library.STRUCTURES.items():
        for (field, of), text in zip(kind._fields_, there[name], strict=True):
            wanted = re.fullmatch(r"(.*?) ?(\**)(\w+)(?:\[(\d+)\])?", text.replace("const ", ""))
            assert wanted[3] == field
            if wanted[2]:
                assert of in (c.c_void_p, c.c_char_p)
            elif wanted[4]:
                assert names()[of._type_] == wanted[1] and of._length_ == int(wanted[4])
            else:
                assert names()[of] == wanted[1]


def test_numbers():
    there = {name: int(number) for name, number in re.findall(r"\bPALMHEAP_(\w+) = (\d+)", header())}
    assert there.pop("CALL_NO_ROOM") == _store.NO_ROOM
    refusals = {name[8:]: there.pop(name) for name in list(there) if name.startswith("REFUSED_")}
    kinds = {name: number for name, number in there.items() if not name.startswith("CALL_")}
    assert {it.name: it.value for it in palmheap.Kind} == kinds
    shouted = lambda name: re.sub(r"(?<!^)(?=[A-Z])", "_", name).upper()
    assert {shouted(it.__name__): number for number, it in _errors.BY_NUMBER.items()} == refusals


def test_exports():
    """Each public name of the modules is one of the package."""
    for name in _errors.BY_NUMBER.values():
        assert getattr(palmheap, name.__name__) is name
    assert all(hasattr(palmheap, it) for it in palmheap.__all__)


def test_version():
    """The version is that of the header and of the library."""
    given = re.search(r'^version = "(.*)"$', text_of("python/pyproject.toml"), re.M)[1]
    header_version = re.search(r'^#define PALMHEAP_VERSION "(.*)"$', text_of("include/palmheap.h"), re.M)[1]
    assert given == palmheap.__version__ == header_version
    number = 0
    for it in given.split("."):
        number = 1000 * number + int(it)
    assert _library.library().palmheap_version() == number
