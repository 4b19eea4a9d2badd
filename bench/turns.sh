#!/usr/bin/env bash
# What a worker's turn costs: has a worker make turns over 0, 1,000 and 10,000 connections that wait, once with a service that
# reads once and is done, which shows the worker's own share, and once with the services of HTTP connections that the program
# listens with. Then connections of one request each go over the ring to it, one after the other, until each has come back.
# Prints the instructions that valgrind counts for each turn and for each connection, and the allocations (where there is a C
# compiler), as the difference of two runs, so that the start falls out. What a connection of one request costs is compared with
# what `bench/requests.sh` counts for the request alone, by a service of its own with the same answer. It fails where a turn
# over connections that wait allocates.
set -eu
top=$(cd "$(dirname "${BASH_SOURCE[0]}")/.." && pwd)
"$top/checks/built.sh" bench_requests small 1 1 >&2
"$top/checks/built.sh" bench_turns serve http 1 >&2
work=$(mktemp -d)
trap 'rm -rf "$work"' EXIT
! command -v cc > /dev/null || cc -O1 -fPIC -shared -o "$work/allocations.so" "$top/checks/allocations.c"

PYTHONPATH="$top/bench" python3 -B - "$top/crates/bench_turns/out/bench_turns" "$top/crates/bench_requests/out/bench_requests" "$work/allocations.so" <<'PY'
import sys
from measure import allocations, instructions
turns_program, requests_program, library = sys.argv[1:]

# What one more costs, of a command whose last word is how many there are.
def of_one(cost, command, few, many):
    more, less = (cost([*map(str, command), str(number)]) for number in (many, few))
    return None if more is None else (more - less) / (many - few)

# The instructions of one more, and its allocations.
def costs(command, few, many):
    cost = of_one(instructions, command, few, many)
    if cost is None:
        sys.exit("valgrind is not there")
    return cost, of_one(lambda run: allocations(run, library), command, few, many)

def shown(words, cost, memory, what):
    counted = "" if memory is None else f"{memory:8.2f} allocations"
    print(f"{words:50} {cost:11.1f} instructions {counted} {what}")

KINDS = (("tiny", "a service that reads once"), ("http", "HTTP under a policy"))

failed = False
for kind, words in KINDS:
    empty = None
    for connections in (0, 1_000, 10_000):
        cost, memory = costs([turns_program, "wait", kind, connections], 10, 30)
        shown(f"{words}, {connections} wait", cost, memory, "a turn")
        if connections == 0:
            empty = cost
        else:
            print(f"{'':50} {(cost - empty) / connections:11.1f} instructions a connection")
        failed = failed or bool(memory)

served = {}
for kind, words in KINDS:
    served[kind], memory = costs([turns_program, "serve", kind], 200, 600)
    shown(f"{words}, taken, served, handed back", served[kind], memory, "a connection")
request, memory = costs([requests_program, "small", 1], 1_600, 4_800)
shown("its one request alone", request, memory, "a request")
print(f"{'what a connection of one request costs more':50} {served['http'] - request:11.1f} instructions")
sys.exit(failed)
PY
