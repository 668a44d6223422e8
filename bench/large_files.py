#!/usr/bin/env python3
"""Times commands on large PDB files: seconds of wall time and the greatest memory of each, in MB.

    bench/large_files.py PROGRAM [DIR]

Makes a file of 100 MB with 25,000 records and one of 1 GB with 65,535 records in a new folder in DIR, by default in
the folder for temporary files, which needs 6 GB. `canonical` and `salvage` drop one byte after the name, so they write
the file anew. Looks whether both write the same, whether what is packed and put is the file, and whether one block has
its bytes. Then come files of 4,294,967,295 and 4,294,967,296 bytes without data on the disk: `list` takes the first,
and refuses the second. `get` takes 5 GB of memory for the first. The status is 1 if a result is another one, if `list`
or `canonical --check` takes over 64 MB of memory, or if `canonical` or `salvage` takes over 64 MB more than the size of
the file.
"""
import filecmp
import os
import resource
import struct
import subprocess
import sys
import tempfile
import time

SIZES = (("100 MB", 25_000, 4_000), ("1 GB", 65_535, 16_000))
MOST = 4_294_967_295
MOST_MEMORY = 64


def make(path, count, size):
    """Makes a file of records with this many bytes each. A byte after the name is no zero."""
    start = 78 + 8 * count + 2
    name = b"Large".ljust(31, b"\0") + b"x"
    with open(path, "wb") as file:
        file.write(struct.pack(">32sHHIIIIII4s4sIIH", name, 0, 0, 0, 0, 0, 0, 0, 0, b"DATA", b"Test", 0, 0, count))
        for index in range(count):
            file.write(struct.pack(">II", start + index * size, index + 1))
        file.write(b"\0\0")
        for index in range(count):
            file.write(struct.pack(">I", index) * (size // 4))


def make_hollow(path, size):
    """Makes a file with one record, of which only the first bytes are on the disk."""
    with open(path, "wb") as file:
        file.write(struct.pack(">32sHHIIIIII4s4sIIH", b"Hollow", 0, 0, 0, 0, 0, 0, 0, 0, b"DATA", b"Test", 0, 0, 1))
        file.write(struct.pack(">II", 88, 1))
        file.truncate(size)


def run(words, wanted=0, out=subprocess.DEVNULL):
    """Runs a command, and returns its seconds and the greatest memory of it in MB."""
    start = time.monotonic()
    child = subprocess.Popen(words, stdout=out, stderr=subprocess.PIPE)
    errors = child.stderr.read()
    _, status, used = os.wait4(child.pid, 0)
    seconds = time.monotonic() - start
    child.returncode = os.waitstatus_to_exitcode(status)
    if child.returncode != wanted:
        sys.exit(f"{' '.join(words)}: status {child.returncode}\n{errors.decode()}")
    return seconds, used.ru_maxrss / 1024, errors.decode()


def show(name, timed):
    print(f"{name:28}{timed[0]:8.2f} s{timed[1]:10.0f} MB", flush=True)


def show_small(name, timed):
    """The same of a command that reads only the first bytes of a file."""
    show(name, timed)
    if timed[1] > MOST_MEMORY:
        sys.exit(f"{name}: over {MOST_MEMORY} MB of memory")


def show_once(name, timed, file):
    """The same of a command that holds a file once."""
    show(name, timed)
    if timed[1] > MOST_MEMORY + os.path.getsize(file) / 1024**2:
        sys.exit(f"{name}: over {MOST_MEMORY} MB more than the size of the file")


def same(one, other):
    if not filecmp.cmp(one, other, shallow=False):
        sys.exit(f"{one} and {other} differ")


def measure(program, folder, count, size):
    """Times the commands on one file."""
    file, new, parts = (os.path.join(folder, name) for name in ("in.pdb", "out.pdb", "parts"))
    part, salvaged = (os.path.join(folder, name) for name in ("part", "salvaged.pdb"))
    make(file, count, size)
    show_small("list", run([program, "list", file]))
    show_small("list --json", run([program, "list", "--json", file]))
    show_small("canonical --check", run([program, "canonical", "--check", file]))
    show_once("canonical", run([program, "canonical", file, new]), file)
    show_once("salvage", run([program, "salvage", file, salvaged]), file)
    same(new, salvaged)
    os.remove(salvaged)
    with open(part, "wb") as out:
        show("get", run([program, "get", file, str(count - 1)], out=out))
    with open(part, "rb") as block:
        if block.read() != struct.pack(">I", count - 1) * (size // 4):
            sys.exit("get: another block")
    show("put", run([program, "put", file, str(count - 1), part, new]))
    same(file, new)
    os.remove(new)
    show("unpack --exact", run([program, "unpack", "--exact", file, parts]))
    show("pack", run([program, "pack", parts, new]))
    same(file, new)
    subprocess.run(["rm", "-r", parts, file, new, part], check=True)


def main():
    if len(sys.argv) not in (2, 3):
        sys.exit(__doc__)
    resource.setrlimit(resource.RLIMIT_CORE, (0, 0))
    with tempfile.TemporaryDirectory(dir=sys.argv[2] if len(sys.argv) == 3 else None) as folder:
        for name, count, size in SIZES:
            print(f"a file of {name}, {count} records of {size} bytes")
            measure(os.path.abspath(sys.argv[1]), folder, count, size)
        hollow = os.path.join(folder, "hollow.pdb")
        make_hollow(hollow, MOST)
        print(f"a file of {MOST} bytes")
        show_small("list", run([sys.argv[1], "list", hollow]))
        show("get", run([sys.argv[1], "get", hollow, "0"]))
        show("canonical, refused", run([sys.argv[1], "canonical", hollow, os.path.join(folder, "new.pdb")], 3))
        make_hollow(hollow, MOST + 1)
        print(f"a file of {MOST + 1} bytes")
        timed = run([sys.argv[1], "list", hollow], 3)
        show("list, refused", timed)
        if f"longer than {MOST} bytes" not in timed[2]:
            sys.exit(timed[2])


main()
