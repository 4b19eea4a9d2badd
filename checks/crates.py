"""What scripts share that work on many crates: which there are and what stands on what, what each costs, and work side by side."""

import collections
import concurrent.futures
import math
import os
import re
import time

TOP = os.path.dirname(os.path.dirname(os.path.abspath(__file__)))
# What a check of a crate takes of the memory at most, and what each further job of it does, in bytes.
CHECK, JOB = 3_500_000_000, 1_500_000_000

# What the gate's table says of a crate, in processor minutes.
Cost = collections.namedtuple("Cost", "proof tests seed edits")


def folder(crate, *parts):
    """A folder of the crate, or a file in it."""
    return os.path.join(TOP, "crates", crate, *parts)


def standing_on():
    """The crates of the repository, each with those that it names, as crates.txt has them."""
    named = {}
    with open(os.path.join(TOP, "crates.txt"), encoding="utf-8") as lines:
        for line in lines:
            crate, found, needs = line.partition("#")[0].partition(":")
            if found:
                named[crate.split()[0]] = needs.split()
    return {crate: [need for need in needs if need in named] for crate, needs in named.items()}


def with_those_below(crates, below):
    """These crates and all that they stand on, those first that others stand on."""
    found = []

    def add(crate):
        if crate not in found:
            for need in below[crate]:
                add(need)
            found.append(crate)

    for crate in crates:
        add(crate)
    return found


def with_those_above(crates, below):
    """These crates and all that stand on one of them, in the order of crates.txt."""
    return [crate for crate in below if set(with_those_below([crate], below)) & set(crates)]


def has_tests(crate):
    """Whether a file of the crate has a test."""
    for at, _, names in os.walk(folder(crate, "src")):
        for name in names:
            with open(os.path.join(at, name), encoding="utf-8") as text:
                if "#[test]" in text.read():
                    return True
    return False


def costs():
    """What each crate costs the gate, by the table of docs/GATE.md."""
    row = re.compile(r"\| `(\w+)` \|" + r" ([\d.]*) \|" * 4)
    with open(os.path.join(TOP, "docs", "GATE.md"), encoding="utf-8") as lines:
        found = [match for match in map(row.match, lines) if match]
    return {match[1]: Cost(*(float(minutes or 0) for minutes in match.groups()[1:])) for match in found}


def processors():
    """How many processors this process may use."""
    return len(os.sched_getaffinity(0))


def free_memory():
    """The bytes of memory that are free, under the limit of the control group too."""
    with open("/proc/meminfo", encoding="ascii") as lines:
        found = [1024 * int(line.split()[1]) for line in lines if line.startswith("MemAvailable:")]
    try:
        with open("/sys/fs/cgroup/memory.max", encoding="ascii") as limit, open("/sys/fs/cgroup/memory.current", encoding="ascii") as held:
            found.append(int(limit.read()) - int(held.read()))
    except (OSError, ValueError):
        # (no such group, or one without a limit)
        pass
    return min(found)


def lanes_of(memory):
    """How many runs of so much memory go side by side."""
    return max(1, min(processors(), int(0.85 * free_memory() // memory)))


class Work:
    """Work on crates, as much side by side as there are lanes: each once those that it waits for have ended well, first what most waits for.

    `minutes` has each crate with what it is likely to take in one lane, and `waits` those that it waits for. Lanes that nothing else waits
    for are given to what is begun, as its jobs, at most four, where there is memory for them; what most waits for has more than its share."""

    def __init__(self, minutes, waits, lanes, jobs_take=None):
        self.minutes, self.waits, self.lanes, self.jobs_take = minutes, waits, lanes, jobs_take
        self.left, self.running, self.ended, self.began = set(minutes), {}, {}, time.monotonic()
        self.has_failed = False
        behind = {}
        for crate in reversed(with_those_below(minutes, waits)):
            above = [behind[it] for it in minutes if crate in waits[it]]
            behind[crate] = minutes[crate] + max(above, default=0)
        self.behind = behind

    def ready(self, left, ended):
        """What can begin, that first behind which the most waits."""
        found = [crate for crate in left if all(need in ended for need in self.waits[crate])]
        return sorted(found, key=lambda crate: (-self.behind[crate], crate))

    def jobs_of(self, crate, share, left):
        """How many jobs the crate is given, where this is its share of the lanes: more where what waits for it would else end behind all the rest."""
        if self.jobs_take is None:
            return 1
        fitting = 1 + max(0, int((0.85 * free_memory() - CHECK) // self.jobs_take))
        rest = sum(self.minutes[it] for it in left) / self.lanes
        wanted = math.ceil(self.behind[crate] / rest) if rest else 1
        return max(1, min(4, fitting, max(share, wanted)))

    def begin(self, pool, call):
        """Begins what can begin, as long as a lane is free."""
        ready = self.ready(self.left, self.ended)
        for place, crate in enumerate(ready):
            idle = self.lanes - sum(jobs for _, _, jobs in self.running.values())
            if idle <= 0 or self.has_failed:
                return
            jobs = self.jobs_of(crate, idle // (len(ready) - place), [*self.left, *self.under_way()])
            self.left.remove(crate)
            self.running[pool.submit(call, crate, jobs)] = crate, time.monotonic(), jobs

    def run(self, call, tell):
        """Calls `call` with each crate and its number of jobs. It gives whether that ended well; where not, nothing more is begun. `tell` is called with the
        crate, the seconds and what was given whenever one has ended, and with nothing at least once in half a minute. Returns whether all ended well."""
        with concurrent.futures.ThreadPoolExecutor(self.lanes) as pool:
            self.begin(pool, call)
            while self.running:
                done, _ = concurrent.futures.wait(self.running, 30, concurrent.futures.FIRST_COMPLETED)
                for it in done:
                    crate, since, _ = self.running.pop(it)
                    ends_well = it.result()
                    self.has_failed |= not ends_well
                    self.ended[crate] = time.monotonic() - since
                    self.begin(pool, call)
                    tell(crate, self.ended[crate], ends_well)
                if not done:
                    tell(None, 0, True)
        return not self.has_failed

    def under_way(self):
        """What is under way, the longest first."""
        return [crate for crate, _, _ in sorted(self.running.values(), key=lambda it: it[1])]

    def pace(self):
        """How many minutes pass for one of those that were thought to be needed, by what has ended."""
        thought = sum(self.minutes[crate] for crate in self.ended)
        return sum(self.ended.values()) / 60 / thought if thought > 1 else 1.2

    def minutes_left(self):
        """How many minutes the rest is likely to take: the same work, in thought."""
        now, pace, at = time.monotonic(), self.pace(), 0.0
        ended, left, running = set(self.ended), set(self.left), {}
        for crate, since, jobs in self.running.values():
            whole = pace * self.minutes[crate] / (1 + 0.6 * (jobs - 1))
            running[crate] = max(whole - (now - since) / 60, 0.1 * whole), jobs
        while left or running:
            for crate in self.ready(left, ended)[: max(0, self.lanes - sum(jobs for _, jobs in running.values()))]:
                jobs = self.jobs_of(crate, self.lanes // max(1, len(self.ready(left, ended)) + len(running)), [*left, *running])
                left.remove(crate)
                running[crate] = at + pace * self.minutes[crate] / (1 + 0.6 * (jobs - 1)), jobs
            if not running:
                break
            crate = min(running, key=lambda it: running[it][0])
            at = max(at, running.pop(crate)[0])
            ended.add(crate)
        return at
