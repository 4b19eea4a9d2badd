#!/usr/bin/env bash
# The next worker is found by its mark, and not in a walk over all workers: lets connections come and go, 10,000,000
# events in all, over 2, over 64 and over 512 workers, once with all of them free and once with all full but one, and
# prints the events a second, without the time of the start. Then it makes 6,400,000 picks that go all round, since all
# workers but one are full, and prints the nanoseconds a pick. It fails where such a pick among 512 workers takes above 20
# times as long as among 2.
set -eu
top=$(cd "$(dirname "${BASH_SOURCE[0]}")/.." && pwd)
"$top/checks/built.sh" bench_accept 2 1 1 1 >&2

PYTHONPATH="$top/bench" python3 -B - "$top/crates/bench_accept/out/bench_accept" <<'PY'
import sys
from measure import difference, least
program = sys.argv[1]
EVENTS, TURNS = 10_000_000, 3_200_000
PICKING_TURNS, PICKS = 100_000, 64

# Of each sixteen connections one has five events, and each other one has three.
def took(workers, free, turns, picks):
    events = 3 * turns + 2 * (turns // 16)
    picked = turns * picks * (workers - 1) if free == 1 else 0
    return least([program, workers, free, turns, picks], b"%d events, picked numbers sum to %d\n" % (events, picked))

for workers in (2, 64, 512):
    for free in (workers, 1):
        seconds = difference(took(workers, free, TURNS, 0), took(workers, free, 0, 0))
        print(f"{workers:4} workers, {free:3} free  {EVENTS / seconds / 1e6:7.1f} million events a second")
nanoseconds = {}
for workers in (2, 512):
    seconds = difference(took(workers, 1, PICKING_TURNS, PICKS), took(workers, 1, PICKING_TURNS, 0))
    nanoseconds[workers] = seconds / (PICKING_TURNS * PICKS) * 1e9
    print(f"{workers:4} workers,   1 free  {nanoseconds[workers]:7.1f} ns a pick")
ratio = nanoseconds[512] / nanoseconds[2]
print(f"ratio of a pick among 512 against one among 2 {ratio:.2f}")
sys.exit(ratio > 20)
PY
