"""Checks the PDB and PRC files below folders, on all processors, and prints how often each first fault comes.

    PALMHEAP_LIBRARY=libpalmheap.so python3 count_faults.py FOLDER..

PySpark takes the same function, if the package and the library are installed on each worker:

    spark.sparkContext.binaryFiles(folder).mapValues(lambda it: first_fault(bytes(it))).values().countByValue()
"""

import collections
import multiprocessing
import os
import sys

import palmheap


def first_fault(file):
    """Returns the name of the first fault of a file, or `ok`."""
    try:
        palmheap.check_file(file)
    except palmheap.FileFault as fault:
        return fault.kind.name
    return "ok"


def fault_at(path):
    with open(path, "rb") as it:
        return first_fault(it.read())


def main(folders):
    paths = [f"{folder}/{it}" for top in folders for folder, _, names in os.walk(top) for it in names]
    # Not forked: the child of a process with threads, which a pool has, may not call the library.
    with multiprocessing.get_context("spawn").Pool() as pool:
        counted = collections.Counter(pool.imap_unordered(fault_at, paths, chunksize=100))
    for name, count in sorted(counted.items()):
        print(count, name)


if __name__ == "__main__":
    main(sys.argv[1:])
