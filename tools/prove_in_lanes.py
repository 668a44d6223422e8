#!/usr/bin/env python3
"""Proves the crates of a program, palmheap if none is named, several at a time, and builds the program.

    tools/prove_in_lanes.py [--clear] [PROGRAM]

`palmheap` calls this script. With --clear it proves nothing: it removes what `rt` kept of the program's crates, some
10 GB, and leaves the program. A later proof then begins from nothing.

One `rt` locks the folders of all crates that it reads, so each lane is a copy of
the crates, in crates/palmheap/out/lanes. A crate starts when the crates that it uses are proved, the one with the
longest chain of crates above it first. A proved crate's out/ moves back to the clone, and the other lanes get its
library by links. So a call that was interrupted loses only what its last crates had not kept, and the next call
goes on from there. `rt` itself decides what is proved: it compares its own checksums each time.

Progress goes to standard error. The status is 0, or 125 if a crate fails or the call is interrupted.
"""

import contextlib
import fcntl
import hashlib
import math
import os
import shutil
import signal
import subprocess
import sys
import time

TOP = os.path.dirname(os.path.dirname(os.path.realpath(__file__)))
WORDS = [it for it in sys.argv[1:] if it != "--clear"]
PROGRAM = WORDS[0] if WORDS else "palmheap"
# The smaller program, which no call uses if the whole one is built.
SMALLER = "palmheap_images"
# The files in the program's out/ that --clear leaves: the program, what `palmheap` keeps about it, the lock of the lanes.
KEPT = (PROGRAM, f"{PROGRAM}.crates", f"{PROGRAM}.list", "lanes.lock")
# One folder for all programs, as they share crates.
LANES = f"{TOP}/crates/palmheap/out/lanes"
# The folders of a crate that its proof reads.
PARTS = ("src", "specs", "proofs")
GB = 1 << 30
# The most memory that a check takes, and that each further process of a check takes.
CHECK, JOB = 3 * GB, GB
# The most processes of a check that help, for a crate with so many lines of code and for a smaller one.
LARGE, MOST_JOBS, FEW_JOBS = 300, 4, 2
# Chains of crates that are this near to the longest share the processors; all other crates give way to them.
NEAR = 0.95
# The seconds within which rt takes over what it proved before.
TAKEN_OVER = 10
# The seconds of a crate that crate_seconds.txt does not list.
UNLISTED = 60
FAILED = 125


class Stopped(Exception):
    """The call ends, for the reason that is its text."""


class Crate:
    """A crate of the program: the crates that it uses, those below it, and how long its proof takes."""

    def __init__(self, name, line, uses, seconds):
        self.name, self.line, self.uses, self.seconds = name, line, uses, seconds
        self.folder = f"{TOP}/crates/{name}"
        self.below = {it for use in uses for it in [use, *use.below]}
        # The seconds from the start of its proof to the end of the longest chain of crates that it begins.
        self.chain = seconds
        # What its proof reads, as a checksum.
        self.sum = ""

    def is_proved(self):
        """Tells whether an earlier call proved the same text. It saves a call of `rt`, and decides nothing else."""
        return os.path.isdir(f"{self.folder}/out/rlib") and text_of(f"{self.folder}/out/proved") == self.sum

    def is_ready(self, proved):
        return all(it in proved for it in self.uses)

    def most_jobs(self):
        lines = sum(text_of(it).count("\n") for it in files_of(f"{self.folder}/src"))
        return MOST_JOBS if lines >= LARGE else FEW_JOBS


class Lane:
    """A copy of the crates, in which one `rt` is at work, or none."""

    def __init__(self, number):
        self.folder = f"{LANES}/{number}"
        self.crate = self.process = None
        self.start = 0.0

    def out_of(self, crate):
        return f"{self.folder}/crates/{crate.name}/out"

    def begin(self, crate, jobs, is_first, lock):
        """Starts the proof of a crate. A first one has the longest chain; all others give way to it."""
        for it in crate.below:
            link_tree(f"{it.folder}/out/rlib", f"{self.out_of(it)}/rlib")
        write(f"{self.folder}/at_work", crate.name)
        move_out(crate.folder, self.out_of(crate))
        words = [*([] if is_first else ["nice", "-n", "10"]), "rt", "lib", "--jobs", str(jobs)]
        with open(f"{self.folder}/said", "w", encoding="utf-8") as said:
            # The lock passes to rt: where this script is killed, the next call waits until rt has ended too.
            self.process = subprocess.Popen(
                words,
                cwd=f"{self.folder}/crates/{crate.name}",
                stdin=subprocess.DEVNULL,
                stdout=said,
                stderr=subprocess.STDOUT,
                start_new_session=True,
                pass_fds=[lock.fileno()],
            )
        self.crate, self.start = crate, time.monotonic()

    def chain_left(self):
        return self.crate.chain - (time.monotonic() - self.start)

    def end(self):
        """Stops `rt` if it is still at work."""
        if self.process and self.process.poll() is None:
            with contextlib.suppress(ProcessLookupError):
                os.killpg(self.process.pid, signal.SIGTERM)
            self.process.wait()

    def give_back(self):
        """Moves what `rt` kept of the lane's last crate back to the clone, and returns the crate's name."""
        name = text_of(f"{self.folder}/at_work")
        if name:
            move_out(f"{self.folder}/crates/{name}", f"{TOP}/crates/{name}/out")
            os.remove(f"{self.folder}/at_work")
        self.crate = self.process = None


def text_of(path):
    try:
        with open(path, encoding="utf-8", errors="replace") as it:
            return it.read()
    except OSError:
        return ""


def files_of(folder):
    for at, folders, files in os.walk(folder):
        folders.sort()
        yield from (f"{at}/{it}" for it in sorted(files))


def write(path, text):
    os.makedirs(os.path.dirname(path), exist_ok=True)
    with open(path, "w", encoding="utf-8") as it:
        it.write(text)


def link_or_copy(old, new):
    try:
        os.link(old, new)
    except OSError:
        shutil.copy2(old, new)


def link_tree(old, new):
    """Gives the files of a folder a second name each. `rt` replaces such files, and never writes into them."""
    if not os.path.isdir(new):
        shutil.copytree(old, new, copy_function=link_or_copy)


def move_out(crate, to):
    """Moves the out/ of a crate's folder, if there is one, in place of another, with no `rt` at work in either crate."""
    old = f"{crate}/out"
    if os.path.isdir(old):
        with locked(crate), locked(os.path.dirname(to)):
            shutil.rmtree(to, ignore_errors=True)
            os.rename(old, to)


@contextlib.contextmanager
def locked(folder):
    """Holds the lock that an `rt` at work in a folder holds."""
    it = os.open(folder, os.O_RDONLY)
    try:
        with contextlib.suppress(OSError):
            fcntl.flock(it, fcntl.LOCK_EX)
        yield
    finally:
        os.close(it)


def say(text):
    print(f"palmheap: {text}", file=sys.stderr, flush=True)


# ---- the crates


def seconds_of_crates():
    rows = [it.split() for it in text_of(f"{TOP}/tools/crate_seconds.txt").splitlines()]
    return {it[0]: float(it[1]) for it in rows if len(it) == 2 and it[0] != "#"}


def read_crates():
    """Returns the crates that the program uses and the program, each after those that it uses."""
    seconds, crates = seconds_of_crates(), {}
    for line in text_of(f"{TOP}/crates.txt").splitlines():
        name, _, uses = line.partition("#")[0].partition(":")
        if name.strip():
            own = [crates[it] for it in uses.split() if it in crates]
            crates[name.strip()] = Crate(name.strip(), line, own, seconds.get(name.strip(), UNLISTED))
    if PROGRAM not in crates:
        raise Stopped(f"crates.txt does not list {PROGRAM}")
    program = crates[PROGRAM]
    wanted = [it for it in crates.values() if it is program or it in program.below]
    for crate in reversed(wanted):
        for it in crate.uses:
            it.chain = max(it.chain, it.seconds + crate.chain)
    return wanted


def copy_crates(crates, old, new):
    write(f"{new}/crates.txt", "".join(f"{it.line}\n" for it in crates))
    if os.path.isfile(f"{old}/HANDLES"):
        shutil.copy2(f"{old}/HANDLES", f"{new}/HANDLES")
    for crate in crates:
        for part in PARTS:
            if os.path.isdir(f"{old}/crates/{crate.name}/{part}"):
                shutil.copytree(f"{old}/crates/{crate.name}/{part}", f"{new}/crates/{crate.name}/{part}")


def sum_crates(crates, top, version):
    """Gives each crate the checksum of its text in this copy, with those of the crates below it."""
    for crate in crates:
        it = hashlib.sha256(f"{version}\n{crate.line}\n{[use.sum for use in crate.uses]}".encode())
        it.update(text_of(f"{top}/HANDLES").encode())
        for part in PARTS:
            for path in files_of(f"{top}/crates/{crate.name}/{part}"):
                with open(path, "rb") as file:
                    it.update(f"{path[len(top):]}\n".encode() + file.read())
        crate.sum = it.hexdigest()


# ---- the machine


def free_memory():
    for line in text_of("/proc/meminfo").splitlines():
        if line.startswith("MemAvailable:"):
            return int(line.split()[1]) * 1024
    return CHECK


def count_lanes():
    """Returns how many lanes there are, and how many processes the check with the longest chain has."""
    processors, memory = len(os.sched_getaffinity(0)), free_memory()
    lanes = max(1, min(processors, memory // CHECK))
    spare = (memory - lanes * CHECK) // JOB
    return lanes, int(max(1, min(MOST_JOBS, processors, 1 + spare)))


# ---- the work


class Work:
    """The crates that are proved, those that are not, and the lanes."""

    def __init__(self, crates):
        self.crates = crates
        self.proved = {it for it in crates if it.name != PROGRAM and it.is_proved()}
        self.waiting = [it for it in crates if it.name != PROGRAM and it not in self.proved]
        self.lanes, self.most_jobs, self.took = [], 1, {}

    def at_work(self):
        return [it for it in self.lanes if it.crate]

    def begin_ready(self, lock):
        """Starts crates that are ready in the lanes that are free."""
        while True:
            free = [it for it in self.lanes if not it.crate]
            ready = [it for it in self.waiting if it.is_ready(self.proved)]
            if not free or not ready:
                return
            crate = max(ready, key=lambda it: it.chain)
            chains = [*(it.chain for it in ready), *(it.chain_left() for it in self.at_work())]
            near = sum(it >= NEAR * max(chains) for it in chains)
            is_first = crate.chain >= NEAR * max(chains)
            jobs = math.ceil(self.most_jobs / near) if is_first else max(1, len(free) // len(ready))
            self.waiting.remove(crate)
            free[0].begin(crate, min(jobs, self.most_jobs, crate.most_jobs()), is_first, lock)

    def take_ended(self):
        """Takes what the lanes that have ended proved, and returns the crates."""
        ended = [it for it in self.at_work() if it.process.poll() is not None]
        crates = []
        for lane in ended:
            crate, status = lane.crate, lane.process.returncode
            self.took[crate] = time.monotonic() - lane.start
            lane.give_back()
            if status:
                raise Stopped(f"{crate.name} is not proved, and rt said:\n{text_of(f'{lane.folder}/said')}")
            write(f"{crate.folder}/out/proved", crate.sum)
            self.proved.add(crate)
            crates.append(crate)
        return crates

    def left(self):
        """Returns an estimate of the seconds that are left, from what the crates proved so far took here."""
        # A crate that takes less was proved before, and rt took that over.
        new = {it: took for it, took in self.took.items() if took > TAKEN_OVER}
        pace = sum(new.values()) / sum(it.seconds for it in new) if new else 1.0
        now = time.monotonic()
        needs = {it: it.seconds * pace for it in [*self.waiting, self.crates[-1]]}
        for lane in self.at_work():
            needs[lane.crate] = max(5.0, lane.crate.seconds * pace - (now - lane.start))
        chains = {}
        for crate in self.crates:
            chains[crate] = needs.get(crate, 0.0) + max([chains[it] for it in crate.uses], default=0.0)
        return max(chains[self.crates[-1]], sum(needs.values()) / max(1, len(self.lanes)))

    def say_progress(self, ended):
        names = ", ".join(it.crate.name for it in self.at_work())
        just = "".join(f", {it.name} in {self.took[it]:.0f} s" for it in ended)
        minutes = round(self.left() / 60)
        left = f"some {minutes} minutes" if minutes > 1 else "a minute or two"
        say(f"{len(self.proved)} of {len(self.crates)} crates proved{just}; at work: {names}; {left} left")

    def run(self, lock):
        ended = []
        while self.waiting or self.at_work():
            self.begin_ready(lock)
            self.say_progress(ended)
            ended = []
            while not ended and self.at_work():
                time.sleep(0.2)
                ended = self.take_ended()

    def stop(self):
        for lane in self.lanes:
            lane.end()
            lane.give_back()


def clear_lanes():
    """Removes the lanes, those of a call that was killed too, and keeps what `rt` kept in them."""
    if os.path.isdir(LANES):
        for name in os.listdir(LANES):
            if os.path.isdir(f"{LANES}/{name}"):
                Lane(name).give_back()
        shutil.rmtree(LANES)


def prove(crates, lock):
    work = Work(crates)
    if not work.waiting:
        return
    lanes, work.most_jobs = count_lanes()
    work.lanes = [Lane(it) for it in range(min(lanes, len(work.waiting)))]
    for lane in work.lanes[1:]:
        copy_crates(crates, work.lanes[0].folder, lane.folder)
    say(f"{len(work.waiting)} of {len(crates)} crates are to be proved, {len(work.lanes)} at a time; later calls start at once")
    try:
        work.run(lock)
    finally:
        with signals_ignored():
            work.stop()


def build(start):
    """Builds the program in the clone, over the libraries that the lanes proved; `rt run` runs it on --version."""
    say("building the program")
    words = ["rt", "run", "--", "--version"]
    said = subprocess.run(
        words,
        cwd=f"{TOP}/crates/{PROGRAM}",
        stdin=subprocess.DEVNULL,
        stdout=subprocess.PIPE,
        stderr=subprocess.STDOUT,
    )
    if said.returncode:
        raise Stopped(f"{PROGRAM} is not built, and rt said:\n{said.stdout.decode(errors='replace')}")
    # An edit since the start is newer than the program, so the next call proves it.
    os.utime(f"{TOP}/crates/{PROGRAM}/out/{PROGRAM}", (start, start))


def clear(crates):
    """Removes what `rt` kept of the crates of a built program, and the smaller program. Leaves the program, and the
    files about it that `palmheap` keeps."""
    for name in [*(it.name for it in crates), SMALLER]:
        out = f"{TOP}/crates/{name}/out"
        if not os.path.isdir(out):
            continue
        with locked(os.path.dirname(out)):
            for it in os.listdir(out):
                if name != PROGRAM or it not in KEPT:
                    remove(f"{out}/{it}")
            if name != PROGRAM:
                os.rmdir(out)


def remove(path):
    if os.path.isdir(path) and not os.path.islink(path):
        shutil.rmtree(path)
    else:
        os.remove(path)


def version_of_rt():
    try:
        return subprocess.run(["rt", "version"], stdout=subprocess.PIPE, check=True).stdout.decode()
    except (OSError, subprocess.CalledProcessError) as error:
        raise Stopped("there is no command rt of the Rattle kit in PATH") from error


def stop_at_signal(number, _frame):
    say("interrupted: what is proved is kept")
    raise Stopped(f"ended by signal {number}; the next call goes on from here")


SIGNALS = (signal.SIGHUP, signal.SIGINT, signal.SIGTERM)


def handle_signals(how=stop_at_signal):
    for it in SIGNALS:
        signal.signal(it, how)


@contextlib.contextmanager
def signals_ignored():
    handle_signals(signal.SIG_IGN)
    yield
    handle_signals()


@contextlib.contextmanager
def alone():
    """Waits until no other call is at work in this clone."""
    os.makedirs(os.path.dirname(LANES), exist_ok=True)
    with open(f"{LANES}.lock", "w", encoding="utf-8") as lock:
        try:
            fcntl.flock(lock, fcntl.LOCK_EX | fcntl.LOCK_NB)
        except BlockingIOError:
            say("waiting for another call to end, which proves a program")
            fcntl.flock(lock, fcntl.LOCK_EX)
        yield lock


def main():
    handle_signals()
    start = time.time()
    try:
        if "--clear" in sys.argv[1:]:
            with alone():
                clear_lanes()
                clear(read_crates())
            return 0
        version, crates = version_of_rt(), read_crates()
        with alone() as lock:
            clear_lanes()
            try:
                copy_crates(crates, TOP, f"{LANES}/0")
                sum_crates(crates, f"{LANES}/0", version)
                prove(crates, lock)
            finally:
                with signals_ignored():
                    clear_lanes()
            build(start)
    except Stopped as why:
        say(why)
        return FAILED
    return 0


if __name__ == "__main__":
    sys.exit(main())
