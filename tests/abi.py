#!/usr/bin/env python3
"""Compares include/palmheap.h with what programs were compiled with: tests/abi.txt.

    tests/abi.py [--write]

The text has the size of each structure, the offset of each field, the number of each constant, and the types of each
function, on a 64-bit machine. tools/palmheap.map must list the same functions. If something differs, this prints the
lines, and what to do, and the status is 1. `--write` writes the text anew. Needs gcc.
"""

import difflib
import os
import re
import subprocess
import sys
import tempfile

TOP = os.path.dirname(os.path.dirname(os.path.realpath(__file__)))
sys.path.insert(0, f"{TOP}/tools")
sys.dont_write_bytecode = True
import check_header

TEXT = f"{TOP}/tests/abi.txt"
BREAKS = """A program that was compiled with the old header may fail with a library that has this one. Undo the change, or:
- raise the number in `shared` of tools/library.sh, in `NAMES` of python/palmheap/_library.py, and in tests/c_calls.py;
- name the symbols in tools/palmheap.map after the new number;
- raise the first number of PALMHEAP_VERSION; tools/check_header.py names the other places that have it;
- note the change in CHANGELOG.md, and run tests/abi.py --write."""
ADDS = """Only lines are new, so programs that were compiled before can use the library. For them:
- list a new function in tools/palmheap.map, below a new version, as PALMHEAP_1.1 { .. } PALMHEAP_1;
- raise the second number of PALMHEAP_VERSION; tools/check_header.py names the other places that have it;
- note the addition in CHANGELOG.md, and run tests/abi.py --write."""


def measures(header):
    """Yields a line of C that prints each structure, each of its fields, and each constant."""
    for name, fields in check_header.declared_structures(header):
        yield f'printf("struct {name}: size %zu, aligned to %zu\\n", sizeof({name}), _Alignof({name}));'
        for it in fields:
            kind, field, array = re.fullmatch(r"(.*?)(\w+)(\[\d+\])?", it).groups()
            yield f'printf("  {kind.strip()}{array or ""} {field} at %zu\\n", offsetof({name}, {field}));'
    for name in re.findall(r"\b(PALMHEAP_\w+) = \d+", header):
        yield f'printf("{name} = %d\\n", {name});'


def printed(lines):
    """Compiles lines of C with the header, and returns what they print."""
    with tempfile.TemporaryDirectory() as room:
        with open(f"{room}/abi.c", "w", encoding="utf-8") as it:
            it.write("#include <palmheap.h>\n#include <stdio.h>\nint main(void) {\n" + "\n".join(lines) + "\n}\n")
        subprocess.run(["gcc", "-std=c11", "-I", f"{TOP}/include", f"{room}/abi.c", "-o", f"{room}/abi"], check=True)
        return subprocess.run([f"{room}/abi"], check=True, stdout=subprocess.PIPE, text=True).stdout


def prototypes(header):
    """Yields a line for each function: its result, its name and the types of its parameters."""
    for name, given, result in check_header.declared(header):
        types = [re.sub(r"\b\w+$", "", it).strip() for it in given] or ["void"]
        yield f"{result} {name}({', '.join(types)})\n"


def exported():
    """Returns the functions that tools/palmheap.map lists."""
    text = check_header.without_comments(check_header.text_of(f"{TOP}/tools/palmheap.map"))
    return re.findall(r"\b(palmheap_\w+);", text)


def main():
    header = check_header.INLINE.sub("", check_header.text_of(f"{TOP}/include/palmheap.h"))
    header = check_header.without_comments(header)
    new = printed(measures(header)) + "".join(prototypes(header))
    if sys.argv[1:] == ["--write"]:
        with open(TEXT, "w", encoding="utf-8") as it:
            it.write(new)
    elif sys.argv[1:]:
        sys.exit("usage: tests/abi.py [--write]")
    functions, listed = [name for name, *_ in check_header.declared(header)], exported()
    wrong = [f"tools/palmheap.map lacks {it}" for it in functions if it not in listed]
    wrong += [f"tools/palmheap.map has {it}, and the header does not" for it in listed if it not in functions]
    wrong += [f"tools/palmheap.map has {it} twice" for it in sorted(set(listed)) if listed.count(it) > 1]
    old = check_header.text_of(TEXT)
    lines = list(difflib.unified_diff(old.splitlines(), new.splitlines(), "tests/abi.txt", "the header", n=1))
    if lines:
        wrong += [it.rstrip() for it in lines]
        wrong.append(BREAKS if any(it.startswith("-") for it in lines[2:]) else ADDS)
    print("\n".join(wrong) if wrong else f"{len(new.splitlines())} lines are as in tests/abi.txt")
    return 1 if wrong else 0


sys.exit(main())
