"""python -m palmheap list FILE: prints the listing of a PDB or PRC file."""

from __future__ import annotations

import sys

from . import FileFault, listing

USAGE = "usage: python -m palmheap list FILE"


def main(words: list[str]) -> int:
    """Does a command. Returns its status, that of the program `palmheap`: 0 done, 1 a fault, 2 usage, 3 not read."""
    if words in (["help"], ["--help"], ["-h"]):
        print(USAGE)
        return 0
    if len(words) != 2 or words[0] != "list":
        print(USAGE, file=sys.stderr)
        return 2
    try:
        with open(words[1], "rb") if words[1] != "-" else sys.stdin.buffer as it:
            file = it.read()
    except OSError as error:
        print(f"fault read {error}", file=sys.stderr)
        return 3
    try:
        sys.stdout.write(listing(file))
    except FileFault as fault:
        print("bad", fault)
        return 1
    return 0


if __name__ == "__main__":
    sys.exit(main(sys.argv[1:]))
