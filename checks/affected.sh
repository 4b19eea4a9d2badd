#!/usr/bin/env bash
# What a change of these crates costs: the crates that stand on them, those among them that hold tests, and the minutes of the gate, by the
# table of docs/GATE.md: a changed crate is proved again, with all above it, their tests and their wrong bodies.
#   checks/affected.sh CRATE..
set -eu
top=$(cd "$(dirname "${BASH_SOURCE[0]}")/.." && pwd)
PYTHONPATH="$top/checks" exec python3 -B - "$@" <<'PY'
import sys
from crates import costs, has_tests, processors, standing_on, with_those_above

named, below, cost = sys.argv[1:], standing_on(), costs()
unknown = [name for name in named if name not in below]
if unknown or not named:
    sys.exit(f"no crate: {' '.join(unknown)}" if unknown else "usage: checks/affected.sh CRATE..")
found = with_those_above(named, below)
known = [crate for crate in found if crate in cost]
print(f"{'crate':24}{'proof':>8}{'tests':>8}{'bodies':>8}   processor minutes")
for crate in found:
    it = cost.get(crate)
    row = [it.proof, it.tests, it.seed + it.edits] if it else []
    print(f"{crate:24}" + "".join(f"{minutes:8.1f}" if minutes else f"{'':8}" for minutes in row) + ("" if it else "   not in the table"))
sums = [sum(getattr(cost[crate], part) for crate in known) for part in ("proof", "tests", "seed", "edits")]
print(f"{len(found)} of {len(below)} crates: {sum(sums):.0f} processor minutes, {sum(sums) / processors():.0f} and more on the {processors()} processors here")
print(f"their tests: ./dongurapi test {' '.join(crate for crate in found if has_tests(crate))}")
PY
