#!/usr/bin/env python3
"""Proves each crate of the program, as many side by side as processors and memory allow, and builds it:
    ./dongurapi build
Or the libraries that are named, with those below them, for commands of `rt` that go on from there:
    checks/build.py NAME..

A line for each crate that is proved says how many of how many that are, what is under way, and after the first minute how long the
rest may take. `rt` lets one run at a time into a crate's folder and into those below it, so each is proved in a copy of the sources,
and what was made is moved to its `out`."""

import os
import queue
import shutil
import signal
import subprocess
import sys
import tempfile
import time

sys.dont_write_bytecode = True
from crates import CHECK, JOB, TOP, Work, costs, folder, lanes_of, standing_on, with_those_below

PROGRAM = "dongurapi"
# What `rt` keeps and makes in a crate's `out`.
MADE = ("incremental", "rlib", PROGRAM, f"{PROGRAM}.stamp")


def link_or_copy(one, other):
    """Gives a file a second name. What is made of sources is never written into, but made anew."""
    try:
        os.link(one, other)
    except OSError:
        shutil.copy2(one, other)


def remove(path):
    """Removes a file or a folder, where there is one."""
    if os.path.isdir(path):
        shutil.rmtree(path, ignore_errors=True)
    elif os.path.lexists(path):
        os.remove(path)


def move(one, other):
    """Moves a file or a folder in the place of another, where there is one to be moved."""
    if os.path.lexists(one):
        remove(other)
        os.makedirs(os.path.dirname(other), exist_ok=True)
        shutil.move(one, other)


class Room:
    """A copy of the sources in which one crate at a time is proved."""

    def __init__(self, place, crates):
        self.place, self.run = place, None
        os.mkdir(place)
        shutil.copy2(os.path.join(TOP, "HANDLES"), place)
        with open(os.path.join(TOP, "crates.txt"), encoding="utf-8") as lines:
            named = [line for line in lines if line.split(maxsplit=1)[:1] and line.partition(":")[0].split()[0] in crates]
        with open(os.path.join(place, "crates.txt"), "w", encoding="utf-8") as file:
            file.writelines(named)
        for crate in crates:
            shutil.copytree(folder(crate), self.folder(crate), ignore=shutil.ignore_patterns("out", "must-fail"))

    def folder(self, crate, *parts):
        return os.path.join(self.place, "crates", crate, *parts)

    def prove(self, crate, below, words, log):
        """Proves a crate, over the libraries of those below as they stand in the repository. What that makes is moved there. Returns the status."""
        for need in below:
            remove(self.folder(need, "out"))
            shutil.copytree(folder(need, "out", "rlib"), self.folder(need, "out", "rlib"), copy_function=link_or_copy)
        for name in MADE:
            move(folder(crate, "out", name), self.folder(crate, "out", name))
        try:
            with subprocess.Popen(
                ["rt", *words], cwd=self.folder(crate), stdin=subprocess.DEVNULL, stdout=log, stderr=subprocess.STDOUT
            ) as self.run:
                return self.run.wait()
        finally:
            for name in MADE:
                move(self.folder(crate, "out", name), folder(crate, "out", name))


class Build:
    """Crates on their way, with those below them."""

    def __init__(self, named, work_folder):
        self.below = standing_on()
        self.crates = with_those_below(named, self.below)
        self.work_folder = work_folder
        cost = costs()
        minutes = {crate: cost[crate].proof if crate in cost else 1.0 for crate in self.crates}
        lanes = lanes_of(CHECK)
        self.work = Work(minutes, {crate: self.below[crate] for crate in self.crates}, lanes, JOB)
        self.rooms = [Room(os.path.join(work_folder, str(number)), self.crates) for number in range(lanes)]
        self.free_rooms = queue.SimpleQueue()
        for room in self.rooms:
            self.free_rooms.put(room)

    def log_of(self, crate):
        return os.path.join(self.work_folder, f"{crate}.log")

    def prove(self, crate, jobs):
        """Proves a crate with so many jobs, and returns whether it is proved."""
        words = ["run", "--jobs", str(jobs), "--", "--version"] if crate == PROGRAM else ["lib", "--jobs", str(jobs)]
        room = self.free_rooms.get()
        try:
            with open(self.log_of(crate), "wb") as log:
                return room.prove(crate, with_those_below([crate], self.below)[:-1], words, log) == 0
        finally:
            self.free_rooms.put(room)

    def stop(self, *_):
        """Begins nothing more, and ends what is under way."""
        self.work.has_failed = True
        for room in self.rooms:
            if room.run:
                room.run.terminate()

    def tell(self, crate, seconds, is_proved):
        """Says how far it is."""
        work = self.work
        done = f"{len(work.ended)} of {len(self.crates)}"
        parts = [f"{done} proved: {crate}, {seconds:.0f} s" if crate else f"{done} proved"]
        if not is_proved:
            parts = [f"{crate} failed after {seconds:.0f} s"]
        if work.running:
            parts.append(f"under way: {', '.join(work.under_way())}")
        if work.running and time.monotonic() - work.began > 60 and not work.has_failed:
            parts.append(f"about {max(1, round(work.minutes_left()))} min left")
        print(f"dongurapi: {'; '.join(parts)}", file=sys.stderr, flush=True)
        if not is_proved:
            with open(self.log_of(crate), encoding="utf-8", errors="replace") as log:
                print("the last lines of what was said:", *log.read().splitlines()[-20:], sep="\n", file=sys.stderr)


def main():
    begun, named = time.time(), sys.argv[1:] or [PROGRAM]
    unknown = [name for name in named if name != PROGRAM and not os.path.exists(folder(name, "src", "lib.rt"))]
    if unknown:
        print(f"dongurapi: no library: {' '.join(unknown)}", file=sys.stderr)
        return 2
    with tempfile.TemporaryDirectory(prefix="dongurapi-build-", ignore_cleanup_errors=True) as work_folder:
        build = Build(named, work_folder)
        for number in (signal.SIGINT, signal.SIGTERM):
            signal.signal(number, build.stop)
        if not build.work.run(build.prove, build.tell):
            return 1
    # (what was changed meanwhile is newer)
    if PROGRAM in named:
        os.utime(folder(PROGRAM, "out", PROGRAM), (begun, begun))
    return 0


if __name__ == "__main__":
    sys.exit(main())
