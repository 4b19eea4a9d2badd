#!/usr/bin/env bash
# What a request costs from the link's bytes to the written answer: serves a connection over a link in memory by a handler
# that answers `Hello world!`, under the policy that allows everything, with sixteen requests in flight and with one. Prints
# the instructions that valgrind counts for each request, and the allocations (where there is a C compiler), as the
# difference of two runs, so that start and policy fall out. It fails where a request costs more with sixteen in flight
# than with one.
set -eu
top=$(cd "$(dirname "${BASH_SOURCE[0]}")/.." && pwd)
"$top/checks/built.sh" bench_requests small 1 1 >&2
work=$(mktemp -d)
trap 'rm -rf "$work"' EXIT
! command -v cc > /dev/null || cc -O1 -fPIC -shared -o "$work/allocations.so" "$top/checks/allocations.c"

PYTHONPATH="$top/bench" python3 -B - "$top/crates/bench_requests/out/bench_requests" "$work/allocations.so" <<'PY'
import sys
from measure import allocations, instructions
program, library = sys.argv[1:]

# What one request costs of what a run costs.
def of_one(cost, kind, flight):
    more, less = (cost([program, kind, str(flight), str(requests // flight)]) for requests in (4800, 1600))
    return None if more is None else (more - less) / 3200

# What comes, and how many at once.
KINDS = (("small", "a GET of 60 bytes"), ("browser", "a browser's GET of 13 headers"))
FLIGHTS = ((16, "sixteen in flight"), (1, "one by one"))

failed = False
for kind, words in KINDS:
    costs = []
    for flight, way in FLIGHTS:
        cost, memory = of_one(instructions, kind, flight), of_one(lambda run: allocations(run, library), kind, flight)
        if cost is None:
            sys.exit("valgrind is not there")
        shown = "" if memory is None else f"{memory:8.2f} allocations"
        print(f"{words + ', ' + way:50} {cost:10.1f} instructions {shown} a request")
        costs.append(cost)
    failed = failed or costs[0] > costs[1]
sys.exit(failed)
PY
