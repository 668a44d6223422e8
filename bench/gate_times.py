#!/usr/bin/env python3
"""Where the processor time of the gate goes: runs `rt ci`, which is to prove all from nothing, and prints a table by crate.

A kit that keeps what it proved is told by `--anew` to prove it again; one that keeps nothing doesn't know that word.

Every half second it reads how much processor time each check or build under `rt ci` has used. A check
works on a crate as it is, with its tests, or with one of its must-fail edits; the crate's name and which
of these it is stand in its command line and folder. What ends within half a second is missed, and what
`rt` itself does, or a test that runs, is no check: the last line says how much all of it was.
"""

import os
import re
import resource
import subprocess
import sys
import time
from collections import defaultdict
from pathlib import Path

ROOT = Path(__file__).resolve().parent.parent
TICKS = os.sysconf("SC_CLK_TCK")
KINDS = ["proofs", "tests", "edits"]
UNKNOWN_WORD = 2  # the status of `rt` for words that it doesn't know


def processes():
    """Of each process: its parent, and the seconds of processor time that it has used."""
    found = {}
    for entry in Path("/proc").iterdir():
        if entry.name.isdigit():
            try:
                fields = (entry / "stat").read_text().rsplit(")", 1)[1].split()
            except OSError:
                continue
            found[int(entry.name)] = int(fields[1]), (int(fields[11]) + int(fields[12])) / TICKS
    return found


def is_below(found, process, top):
    while process in found and process != top:
        process = found[process][0]
    return process == top


def work_of(process):
    """The crate that a process checks, and which of KINDS it is. None where it is no check."""
    try:
        words = Path(f"/proc/{process}/cmdline").read_bytes().decode().split("\0")
        folder = os.readlink(f"/proc/{process}/cwd")
    except OSError:
        return None
    if "--crate-name" not in words:
        return None
    name = words[words.index("--crate-name") + 1]
    if not Path(folder).is_relative_to(ROOT):
        return name, "edits"
    return name, "tests" if "--test" in words else "proofs"


def watch(gate, spent):
    """Notes the time of each check while the gate runs."""
    while gate.poll() is None:
        found = processes()
        for process in found:
            work = work_of(process) if is_below(found, process, gate.pid) else None
            if work:
                spent[process, *work] = found[process][1]
        time.sleep(0.5)


def print_table(spent):
    minutes = defaultdict(float)
    for (_, name, kind), seconds in spent.items():
        minutes[name, kind] += seconds / 60
    lines = (ROOT / "crates.txt").read_text().splitlines()
    names = [re.split("[ :]", line)[0] for line in lines if line and not line.startswith("#")]
    print("| crate | proofs | tests | edits | number of edits |\n|---|---|---|---|---|")
    for name in names:
        edits = len(list((ROOT / "crates" / name / "must-fail").glob("*.edit")))
        cells = [f"{minutes[name, kind]:.1f}" for kind in KINDS]
        print(f"| {name} | {' | '.join(cells)} | {edits} |")
    sums = [sum(minutes[name, kind] for name in names) for kind in KINDS]
    print(f"| all | {' | '.join(f'{total:.1f}' for total in sums)} | |")


def main():
    spent = {}
    begun = time.monotonic()
    with open(sys.argv[1] if len(sys.argv) > 1 else os.devnull, "w") as log:
        for words in (["rt", "ci", "--anew"], ["rt", "ci"]):
            gate = subprocess.Popen(words, cwd=ROOT, stdout=log, stderr=subprocess.STDOUT)
            watch(gate, spent)
            if spent or gate.returncode != UNKNOWN_WORD:
                break
    used = resource.getrusage(resource.RUSAGE_CHILDREN)
    print_table(spent)
    print(f"\n{(time.monotonic() - begun) / 60:.0f} minutes, of processor time "
          f"{(used.ru_utime + used.ru_stime) / 60:.0f}; status {gate.returncode}")
    return gate.returncode


if __name__ == "__main__":
    sys.exit(main())
