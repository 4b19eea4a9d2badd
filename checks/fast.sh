#!/usr/bin/env bash
# What can be told within minutes of a change: of the crates that differ from a commit (where none is named, from the last one), the proof of
# each alone, over what earlier checks kept, and first, unproved, the tests of these and of all crates above them.
#   checks/fast.sh [COMMIT]
# It is not the gate: the crates above are not proved, no wrong body is tried and no program is run.
set -eu
top=$(cd "$(dirname "${BASH_SOURCE[0]}")/.." && pwd)
cd "$top"
commit=${1-HEAD}
git rev-parse --quiet --verify "$commit^{commit}" > /dev/null || { echo "no commit: $commit" >&2; exit 2; }
mapfile -t found < <(PYTHONPATH=checks python3 -B - "$commit" <<'PY'
import re, subprocess, sys
from crates import has_tests, standing_on, with_those_above, with_those_below

def lines(*words):
    return subprocess.run(["git", *words], capture_output=True, text=True, check=True).stdout.splitlines()

commit, below = sys.argv[1], standing_on()
paths = lines("diff", "--name-only", commit, "--", "crates") + lines("ls-files", "--others", "--exclude-standard", "crates")
named = {match[1] for path in paths if (match := re.match(r"crates/(\w+)/(src|specs|proofs)/", path))}
# (a line of crates.txt that came or went says what its crate stands on)
named |= {line[1:].partition(":")[0].split()[0] for line in lines("diff", "-U0", commit, "--", "crates.txt") if re.match(r"[+-]\w+[^:]*:", line)}
changed = [crate for crate in with_those_below(below, below) if crate in named]
print(" ".join(changed))
print(" ".join(crate for crate in with_those_above(changed, below) if has_tests(crate)))
PY
)
read -ra changed <<< "${found[0]}"
read -ra tests <<< "${found[1]}"
if [ ${#changed[@]} = 0 ]; then
    echo "no crate differs from $commit"
    exit 0
fi
echo "changed: ${changed[*]}"
status=0
[ ${#tests[@]} = 0 ] || ./dongurapi test "${tests[@]}" || status=1
log=$(mktemp)
trap 'rm -f "$log"' EXIT
for crate in "${changed[@]}"; do
    if (cd "crates/$crate" && rt check) > "$log" 2>&1; then
        echo "$crate: proved"
    else
        tail -n 30 "$log"
        echo "$crate: not proved"
        status=1
    fi
done
exit "$status"
