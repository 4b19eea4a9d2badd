#!/usr/bin/env bash
# Every refused allocation ends as want of memory. Replays each example and each script of `checks/cases`, but those whose
# bytes come one by one and that come whole in another, makes and serves one connection, and runs each test: with its first
# allocation refused, then with its second one, and so on, until a run makes so few that none is refused, at most 500 times. A
# run of the program must end as the whole one, with status 7, with 8 where a thread found no memory, or with a report that
# shows `memory` or a summary that tells of it; a run of a test must pass, or end for want of memory.
# It prints how many were refused, and fails where a run ends otherwise.
#
# It tries the program and the tests that `rt ci` has built. A small library that is loaded before the C library refuses
# the allocations, so a C compiler is wanted.
set -eu
top=$(cd "$(dirname "${BASH_SOURCE[0]}")/.." && pwd)
. "$top/checks/skip.sh"
command -v cc > /dev/null || skip "no C compiler, so no allocation was refused"
work=$(mktemp -d)
trap 'rm -rf "$work"' EXIT

cc -O1 -fPIC -shared -o "$work/allocations.so" "$top/checks/allocations.c"

python3 - "$top" "$work" <<'PY'
import glob, os, re, subprocess, sys
from concurrent.futures import ThreadPoolExecutor
top, work = sys.argv[1:]
MOST = 500

# How a run ends whose nth allocation is refused, and whether there was one.
def ended(command, given, n, mark):
    refuses = dict(os.environ, REFUSE=str(n), REFUSED=mark, LD_PRELOAD=f"{work}/allocations.so")
    with open(given, "rb") as stdin:
        run = subprocess.run(command, stdin=stdin, capture_output=True, env=refuses, timeout=60)
    came = os.path.exists(mark)
    if came:
        os.remove(mark)
    return came, run.returncode, (run.stdout + run.stderr).decode(errors="replace")

# How many allocations were refused, and the first end that is none of memory.
def tried(number, command, given, is_allowed):
    for n in range(1, MOST + 1):
        came, status, text = ended(command, given, n, f"{work}/refused-{number}")
        if not came:
            return n - 1, None
        if not is_allowed(status, text):
            return n, f"allocation {n} refused: status {status}, {text.strip()[-300:]!r}"
    return MOST, None

def replay_is_allowed(whole):
    def is_allowed(status, text):
        return (status, text) in (whole, (7, "out of memory\n"), (8, "no worker could be started\n")) or status == 0 and shows_memory(text)
    return is_allowed

# A line of a connection that ended as `memory`, a summary of one connection that wasn't served, or the last line `end memory`.
def shows_memory(text):
    return bool(re.search(r"(?m)^\d+\.\d+ memory |^served 0$|^end memory$", text))

# A test ends by an error of memory.
ERROR = re.compile(r"(?m)^[Ee]rror: .*(?:Memory|Alloc)")

def test_is_allowed(status, text):
    return status == 0 or bool(ERROR.search(text))

runs = []
program = f"{top}/crates/dongurapi/out/dongurapi"
scripts = sorted(glob.glob(f"{top}/examples/*.script") + glob.glob(f"{top}/checks/cases/*.script"))
scripts = [script for script in scripts if not script.endswith("byte-by-byte.script")]
for script in scripts if os.path.exists(program) else []:
    with open(script, "rb") as stdin:
        whole = subprocess.run([program, "replay"], stdin=stdin, capture_output=True)
    allowed = replay_is_allowed((whole.returncode, whole.stdout.decode()))
    runs.append((os.path.relpath(script, top), [program, "replay"], script, allowed))
if os.path.exists(program):
    made = [program, "generate", "1", "1"]
    whole = subprocess.run(made, capture_output=True)
    runs.append((" ".join(made[1:]), made, "/dev/null", replay_is_allowed((whole.returncode, whole.stdout.decode()))))
for tests in sorted(glob.glob(f"{top}/crates/*/out/*_tests")):
    listed = subprocess.run([tests, "--list"], capture_output=True, text=True).stdout
    for name in re.findall(r"(?m)^(\S+): test$", listed):
        shown = f"{os.path.basename(tests)} {name}"
        runs.append((shown, [tests, name], "/dev/null", test_is_allowed))

with ThreadPoolExecutor(os.cpu_count()) as pool:
    ends = list(pool.map(lambda it: tried(it[0], *it[1][1:]), enumerate(runs)))
for (name, *_), (_, bad) in zip(runs, ends):
    if bad:
        print(f"{name}: {bad}")
failed = sum(bad is not None for _, bad in ends)
print(f"{sum(count for count, _ in ends)} allocations refused, one at a time, in {len(runs)} runs; {failed} runs ended otherwise than for want of memory")
sys.exit(failed > 0 or not runs)
PY
