#!/usr/bin/env bash
# What a step of a reader costs, whatever the pieces are in which its bytes come: reads heads and bodies in pieces, and prints
# the instructions that valgrind counts for each, as the difference of two runs, so that start and input fall out. It fails
# where the cost is not linear: a head of 32,000 bytes one by one above 250 instructions a byte, 96 headers above 1.3 times as
# much a line as 6, or chunks in pieces above 1.1 times what they cost whole.
set -eu
top=$(cd "$(dirname "${BASH_SOURCE[0]}")/.." && pwd)
"$top/checks/built.sh" bench_reader small 60 1 >&2

PYTHONPATH="$top/bench" python3 -B - "$top/crates/bench_reader/out/bench_reader" <<'PY'
import sys
from measure import instructions
program = sys.argv[1]

# The instructions of one reading of the input in pieces of so many bytes.
def counted(kind, piece, more=300, less=100):
    runs = [instructions([program, kind, piece, times]) for times in (more, less)]
    if None in runs:
        sys.exit("valgrind is not there")
    return (runs[0] - runs[1]) / (more - less)

def row(words, cost, unit):
    print(f"{words:46} {cost:12.1f} instructions {unit}")

small = counted("small", 60)
row("a GET of 60 bytes, whole", small, "a request")
row("the same, byte by byte", counted("small", 1), "a request")
row("a browser's GET of 13 headers, whole", counted("browser", 4096), "a request")
row("the same, in pieces of 64 bytes", counted("browser", 64), "a request")
few, many = (counted(kind, 4096) / count for kind, count in (("few", 8), ("many", 98)))
row("a head of 6 headers", few, "a line")
row("a head of 96 headers", many, "a line")
long_whole, long_ones = counted("long", 32000, 30, 10) / 32000, counted("long", 1, 3, 1) / 32000
row("a head of 32,000 bytes, whole", long_whole, "a byte")
row("the same, byte by byte", long_ones, "a byte")
row("a body of 1,000,000 bytes by its length", counted("sized", 4096, 3, 1) / 1e6, "a byte")
ones_whole, ones = counted("ones", 7000000, 3, 1) / 1e6, counted("ones", 4096, 3, 1) / 1e6
row("the same in chunks of one byte, whole", ones_whole, "a chunk")
row("the same, in pieces of 4,096 bytes", ones, "a chunk")
row("the same in chunks of 100 bytes, likewise", counted("hundreds", 4096, 3, 1) / 1e4, "a chunk")
sys.exit(long_ones > 250 or many > 1.3 * few or ones > 1.1 * ones_whole)
PY
