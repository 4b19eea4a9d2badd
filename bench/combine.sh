#!/usr/bin/env bash
# A call through maps takes time that grows with their number and no faster, and no memory: calls a service that is ready
# at once through 1, 5 and 20 maps, and prints the calls a second of one processor, without the time of the start. Where
# the machine has a C compiler it counts the allocations of a call, by a small library that is loaded before the C
# library. It fails where a call through 20 maps takes above 6 times as long as through 5, where a call behind the first
# allocates, or where the first one, which readies the queue that polls it, allocates more than through one map.
set -eu
top=$(cd "$(dirname "${BASH_SOURCE[0]}")/.." && pwd)
"$top/checks/built.sh" bench_combine 1 1 >&2
work=$(mktemp -d)
trap 'rm -rf "$work"' EXIT

counts=
if command -v cc > /dev/null; then
    cc -O1 -fPIC -shared -o "$work/allocations.so" "$top/checks/allocations.c"
    counts="$work/allocations.so"
fi

PYTHONPATH="$top/bench" python3 -B - "$top/crates/bench_combine/out/bench_combine" "$counts" <<'PY'
import os, subprocess, sys
from measure import difference, least
program, counts = sys.argv[1], sys.argv[2]
CALLS = 2_000_000

def took(depth, calls):
    return least([program, depth, calls], b"the answers sum to %d\n" % ((calls * (calls - 1) // 2 + calls * depth) % 2**32))

# How many allocations the program makes.
def allocations(depth, calls):
    counted = os.path.join(os.path.dirname(counts), "counted")
    subprocess.run([program, str(depth), str(calls)], stdin=subprocess.DEVNULL, stdout=subprocess.DEVNULL, check=True,
        env={**os.environ, "LD_PRELOAD": counts, "COUNTED": counted})
    with open(counted) as number:
        return int(number.readline())

nanoseconds, first, taken = {}, {}, {}
for depth in (1, 5, 20):
    nanoseconds[depth] = difference(took(depth, CALLS), took(depth, 0)) / CALLS * 1e9
    print(f"{depth:3} maps  {1e3 / nanoseconds[depth]:6.2f} million calls a second  {nanoseconds[depth]:7.0f} ns a call")
    if counts:
        first[depth] = allocations(depth, 1) - allocations(depth, 0)
        taken[depth] = (allocations(depth, 1001) - allocations(depth, 1)) / 1000
        print(f"{depth:3} maps  {taken[depth]:.2f} allocations a call")
print(f"20 maps take {nanoseconds[20] / nanoseconds[5]:.2f} times as long as 5")
sys.exit(nanoseconds[20] > 6 * nanoseconds[5] or any(each > 0 for each in taken.values())
    or any(each > first[1] for each in first.values()))
PY
