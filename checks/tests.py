#!/usr/bin/env python3
"""Runs the tests of all crates, or of those that are named, with nothing proved:
    ./dongurapi test [NAME..]

What is read of the libraries below takes most of the time, so crates of tests are put together, as many such groups as go side by side,
each of crates that stand on nearly the same: a group is a crate of its own in a copy of the sources, with a module for each of its crates. A line for
each crate has its name, how many tests ran and the seconds of its group; tests that failed are said whole. The last line is `N passed,
M failed`. The status is 1 where a test failed, and 2 where a name is none of a crate with tests."""

import os
import re
import shutil
import subprocess
import sys
import tempfile

sys.dont_write_bytecode = True
from crates import TOP, Work, folder, has_tests, lanes_of, standing_on, with_those_below

# What a run of a group takes of the memory at most, in bytes, and the most seconds of its tests.
MEMORY, SECONDS = 4_500_000_000, 600
PROOF_ATTRIBUTE = re.compile(r"(?m)^ *#!?\[tactic\([^\]]*\)\]\n")
TEST = re.compile(r"(?m)^test (\w+)::\S+ \.\.\. (\w+)")
ENDED = re.compile(r"run=ended status=(\d+) .*\Z")


def sources(crate):
    """The files of a crate's sources, by their paths."""
    top = folder(crate, "src")
    for at, _, names in os.walk(top):
        for name in sorted(names):
            with open(os.path.join(at, name), encoding="utf-8") as text:
                yield os.path.relpath(os.path.join(at, name), top), text.read()


def grouped(crates, below, many):
    """The crates in at most so many groups of about the same length, in each those that stand on nearly the same."""
    lines = {crate: sum(text.count("\n") for _, text in sources(crate)) for crate in crates}
    order = sorted(crates, key=lambda crate: (len(with_those_below([crate], below)), crate))
    share, groups = sum(lines.values()) / many, [[]]
    for crate in order:
        if groups[-1] and sum(lines[it] for it in groups[-1]) + lines[crate] / 2 > share and len(groups) < many:
            groups.append([])
        groups[-1].append(crate)
    return groups


def needs_of(crates):
    """The libraries that crates name, those of the kit among them."""
    with open(os.path.join(TOP, "crates.txt"), encoding="utf-8") as lines:
        named = [line.partition(":") for line in lines]
    return sorted({need for crate, _, needs in named if crate.strip() in crates for need in needs.split()})


def write(path, text):
    """Writes a file, and makes the folder that it stands in."""
    os.makedirs(os.path.dirname(path), exist_ok=True)
    with open(path, "w", encoding="utf-8") as file:
        file.write(text)


class Tests:
    """The tests of crates on their way, what has passed and what has failed."""

    def __init__(self, crates, below, place):
        self.passed = self.failed = 0
        self.below, self.place, self.said = below, place, {}
        lanes = lanes_of(MEMORY)
        self.groups = {f"group_{number}": group for number, group in enumerate(grouped(crates, below, lanes))}
        libraries = [it for it in with_those_below(crates, below) if it not in crates]
        for crate in libraries:
            shutil.copytree(folder(crate), os.path.join(place, "crates", crate), ignore=shutil.ignore_patterns("out", "must-fail"))
        for name, group in self.groups.items():
            self.write_group(name, group)
        shutil.copy2(os.path.join(TOP, "HANDLES"), place)
        listed = [f"{it}: {' '.join(needs_of([it]))}" for it in libraries]
        listed += [f"{name}: {' '.join(needs_of(group))}" for name, group in self.groups.items()]
        write(os.path.join(place, "crates.txt"), "".join(f"{line}\n" for line in listed))
        self.work = Work({name: 1 for name in self.groups}, {name: [] for name in self.groups}, lanes)

    def write_group(self, name, group):
        """Writes the crate that holds a group of crates, each as a module. Nothing is proved, so what only a proof reads is left out."""
        top = os.path.join(self.place, "crates", name, "src")
        write(os.path.join(top, "lib.rt"), "#![tactic(auto)]\n\n" + "".join(f"#[cfg(test)]\nmod {crate};\n" for crate in group))
        for crate in group:
            for path, text in sources(crate):
                text = PROOF_ATTRIBUTE.sub("", re.sub(r"\bcrate::", f"crate::{crate}::", text))
                write(os.path.join(top, f"{crate}.rt" if path == "lib.rt" else os.path.join(crate, path)), text)

    def run(self, name, _jobs):
        """Runs the tests of a group, and those of its crates one by one where it gives no answer. That one fails keeps no other from being run."""
        said = tried(os.path.join(self.place, "crates", name))
        self.said[name] = [(None, said)] if TEST.search(said) and ENDED.search(said) else [(crate, tried(folder(crate))) for crate in self.groups[name]]
        return True

    def tell(self, name, seconds, _ends_well):
        """Counts a group's tests by their crates, and says what came of them."""
        for crate, said in self.said.pop(name, []):
            ended = ENDED.search(said)
            results = [(crate or of, result == "ok") for of, result in TEST.findall(said)]
            ends_well = ended is not None and ended[1] == "0"
            if not ends_well:
                print(said)
            for it in [crate] if crate else self.groups[name]:
                self.count(it, [is_ok for of, is_ok in results if of == it], ends_well or not all(is_ok for _, is_ok in results), seconds)

    def count(self, crate, results, ends_as_told, seconds):
        """Counts a crate's tests by their results, with one more that failed where none ran, or where all passed and the run did not end well."""
        passed = sum(results)
        failed = len(results) - passed + (not results or not ends_as_told)
        self.passed += passed
        self.failed += failed
        print(f"{crate}: {passed} passed{f', {failed} failed' if failed else ''}, {seconds:.0f} s", flush=True)


def tried(place):
    """What a run of the tests of a crate says."""
    ran = subprocess.run(
        ["rt", "try", "--test", "--seconds", str(SECONDS)], cwd=place, stdin=subprocess.DEVNULL, stdout=subprocess.PIPE,
        stderr=subprocess.STDOUT, text=True, errors="replace", check=False)
    return ran.stdout.rstrip()


def main():
    below = standing_on()
    known = [crate for crate in below if has_tests(crate)]
    named = list(dict.fromkeys(sys.argv[1:])) or known
    unknown = [name for name in named if name not in known]
    if unknown:
        reasons = [f"{name} {'has no tests of its own' if name in below else 'is no crate'}" for name in unknown]
        print(f"dongurapi: {'; '.join(reasons)}; crates with tests: {' '.join(known)}", file=sys.stderr)
        return 2
    with tempfile.TemporaryDirectory(prefix="dongurapi-tests-", ignore_cleanup_errors=True) as place:
        tests = Tests(named, below, place)
        tests.work.run(tests.run, tests.tell)
    print(f"{tests.passed} passed, {tests.failed} failed")
    return int(tests.failed > 0)


if __name__ == "__main__":
    sys.exit(main())
