#!/usr/bin/env python3
"""Counts the instructions that a program of this folder, or benchmarks, executes for each kind of call.

usage: bench/instructions.py c|rattle PROGRAM WORDS

The words ask for one round, as in `bench/instructions.py rattle out/benchmarks memory 2048 16 4096 1`. Each row is
divided by its calls. It needs valgrind. Both programs read the clock before a row and after it; in C the clock between
a row of freed chunks and the next one is read once. The counts include some 70 instructions for a reading.
"""
import glob
import re
import subprocess
import sys
import tempfile

ROW = re.compile(r"(\w+) calls (\d+) best ")


def total(path):
    """The instructions of a part of the run."""
    with open(path) as lines:
        return next(int(line.split()[1]) for line in lines if line.startswith(("totals:", "summary:")))


def parts(words, folder):
    """Runs a program, and returns its rows and the instructions before each reading of the clock since the last."""
    valgrind = ["valgrind", "--tool=callgrind", "--dump-before=clock_gettime*", f"--callgrind-out-file={folder}/part"]
    run = subprocess.run(valgrind + words, capture_output=True, text=True, check=True)
    paths = glob.glob(f"{folder}/part.*")
    return ROW.findall(run.stdout), [total(path) for path in sorted(paths, key=lambda path: int(path.rsplit(".")[-1]))]


def main():
    if len(sys.argv) < 3 or sys.argv[1] not in ("c", "rattle"):
        sys.exit(__doc__)
    with tempfile.TemporaryDirectory() as folder:
        rows, counts = parts(sys.argv[2:], folder)
    at = 1
    for name, calls in rows:
        print(f"{name:26} {counts[at] / int(calls):14.1f}")
        at += 1 if sys.argv[1] == "c" and name.startswith("free_") else 2


if __name__ == "__main__":
    main()
