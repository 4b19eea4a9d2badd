#!/usr/bin/env bash
# What a request asks for is looked up in a search, and not in a scan of a set, and texts that no request changes are
# copied and not made: asks a service for its answer to simple requests, and to preflights that name a method and two
# headers, under policies of 3, of 1,000 and (simple requests alone) of 10,000 origins, methods and headers. Prints the
# answers a second of one processor, without the time that making the policy takes, the ratios, and, where valgrind is
# there, the instructions of an answer with its request (under 10,000 of each they are not counted). It fails where an
# answer under 1,000 takes above 3 times as long as under 3, or under 10,000 above 2.5 times as long as under 1,000.
set -eu
top=$(cd "$(dirname "${BASH_SOURCE[0]}")/.." && pwd)
"$top/checks/built.sh" bench_cors preflight 3 1 >&2

PYTHONPATH="$top/bench" python3 -B - "$top/crates/bench_cors/out/bench_cors" <<'PY'
import sys
from measure import difference, instructions, least
program, REQUESTS = sys.argv[1], 50000

def took(kind, count, asked):
    return least([program, kind, count, asked], b"granted %d of %d\n" % (asked, asked))

# The instructions of one answer, as the difference of two runs, so that start and policy fall out.
def counted(kind, count):
    more, less = (instructions([program, kind, count, asked]) for asked in (3000, 1000))
    return None if more is None else (more - less) // 2000

# How many of each, and how many times as long an answer may take as under the number before.
SIMPLE = ((3, None), (1000, 3), (10000, 2.5))
PREFLIGHT = ((3, None), (1000, 3))

failed = False
for kind, limits in (("simple", SIMPLE), ("preflight", PREFLIGHT)):
    before = None
    for count, limit in limits:
        nanoseconds = difference(took(kind, count, REQUESTS), took(kind, count, 0)) / REQUESTS * 1e9
        print(f"{kind:9} {count:6} of each  {1e9 / nanoseconds:10.0f} answers a second  {nanoseconds:7.0f} ns an answer")
        found = counted(kind, count) if count <= 1000 else None
        if found:
            print(f"{kind:9} {count:6} of each  {found:10} instructions an answer")
        if limit:
            print(f"{kind:9} takes {nanoseconds / before:.2f} times as long as under the number before")
            failed = failed or nanoseconds / before > limit
        before = nanoseconds
sys.exit(failed)
PY
