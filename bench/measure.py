"""What the scripts of this folder share: how long a program takes, beside what it prints."""

import os
import re
import shutil
import subprocess
import sys

sys.dont_write_bytecode = True


def spent(command, wanted, given=None):
    """The processor seconds and the most memory in KB of a program that has to end well and to print what is wanted (None: anything)."""
    with open(given or os.devnull, "rb") as stdin:
        to = subprocess.DEVNULL if wanted is None else subprocess.PIPE
        child = subprocess.Popen([*map(str, command)], stdin=stdin, stdout=to)
        printed = b"" if wanted is None else child.stdout.read()
        _, status, used = os.wait4(child.pid, 0)
    if status != 0 or wanted is not None and printed != wanted:
        sys.exit(f"{command} ended with status {status} and printed {printed[-300:]!r}")
    return used.ru_utime + used.ru_stime, used.ru_maxrss


def least(command, wanted, given=None):
    """The least processor seconds of five runs."""
    return min(spent(command, wanted, given)[0] for _ in range(5))


def difference(more, less):
    """What the work took beyond the start of the program."""
    if more <= less:
        sys.exit("the work took no time that can be told from the start of the program")
    return more - less


def instructions(command):
    """The instructions of a run, as valgrind counts them, or None where there is no valgrind. Each byte that `rep stosb` clears counts as one."""
    if not shutil.which("valgrind"):
        return None
    words = ["valgrind", "--tool=callgrind", "--callgrind-out-file=/dev/null", *map(str, command)]
    ran = subprocess.run(words, stdin=subprocess.DEVNULL, stdout=subprocess.DEVNULL, stderr=subprocess.PIPE)
    found = re.search(rb"Collected : (\d+)", ran.stderr)
    if ran.returncode != 0 or not found:
        sys.exit(f"{words} ended with status {ran.returncode} and said {ran.stderr[-300:]!r}")
    return int(found[1])


def allocations(command, library):
    """The allocations of a run, counted by this library (checks/allocations.c, compiled), or None where there is none."""
    if not os.path.exists(library):
        return None
    counted = f"{library}.counted"
    told = dict(os.environ, LD_PRELOAD=library, COUNTED=counted)
    subprocess.run([*map(str, command)], env=told, stdout=subprocess.DEVNULL, check=True)
    with open(counted) as file:
        return int(file.readline())
