#!/usr/bin/env bash
# Tries the wrong bodies that the gate leaves out: each wrong-bodies/CRATE/NAME.edit breaks a function or a law on purpose, and the
# prover has to refuse it. All of them, or those of the crates that are named:
#   checks/wrong-bodies.sh [CRATE..]
# They are put in place in a copy of the tree, beside those of crates/CRATE/must-fail. There the crates are proved, with those below, where
# `./dongurapi build` has not left that in the tree, and `rt must-fail` tries each, in half a minute or so; what it has tried before of the same
# files on this machine it does not try again. It prints a line for each, and last how many were refused and how many were not.
set -eu
top=$(cd "$(dirname "${BASH_SOURCE[0]}")/.." && pwd)
cd "$top"
named=("$@")
if [ $# = 0 ]; then
    for bodies in wrong-bodies/*/; do
        named+=("$(basename "$bodies")")
    done
fi
for crate in "${named[@]}"; do
    if [ ! -d "crates/$crate/src" ]; then
        echo "$crate is no crate" >&2
        exit 2
    fi
done
work=$(mktemp -d)
trap 'rm -rf "$work"' EXIT
trap 'exit 1' INT TERM
mkdir "$work/tree"
cp -R checks crates.txt docs HANDLES "$work/tree"
PYTHONPATH=checks python3 -B - "$work/tree/crates" <<'PY'
import os, shutil, sys
from build import link_or_copy

# What was proved and built is linked, since a check makes such a file anew and changes none. On another file system all is proved again.
def link_what_is_proved(one, other):
    is_made = one.endswith(".oantt") or "/out/rlib/" in one
    return link_or_copy(one, other) if is_made else shutil.copy2(one, other)

is_near = os.stat("crates").st_dev == os.stat(os.path.dirname(sys.argv[1])).st_dev
ignored = None if is_near else shutil.ignore_patterns("out")
shutil.copytree("crates", sys.argv[1], symlinks=True, copy_function=link_what_is_proved, ignore=ignored)
PY
wanted=0
for crate in "${named[@]}"; do
    for edit in "wrong-bodies/$crate"/*.edit; do
        [ -e "$edit" ] || continue
        if [ -e "crates/$crate/must-fail/$(basename "$edit")" ]; then
            echo "$crate: $(basename "$edit") stands in must-fail too" >&2
            exit 2
        fi
        mkdir -p "$work/tree/crates/$crate/must-fail"
        cp "$edit" "$work/tree/crates/$crate/must-fail"
    done
    wanted=$((wanted + $(find "$work/tree/crates/$crate/must-fail" -name '*.edit' 2> /dev/null | wc -l)))
done
cd "$work/tree"
git init -q
checks/build.py "${named[@]}"
rt must-fail "${named[@]}" > "$work/said" 2>&1 || true
grep -E '^(rt: )?must-fail ' "$work/said" | sed 's/^rt: //' | cut -c1-160
refused=$(grep -cE '^(rt: )?must-fail [^ ]+: refused, as it must be' "$work/said" || true)
if [ "$refused" != "$wanted" ]; then
    tail -n 20 "$work/said"
fi
echo "$refused passed, $((wanted - refused)) failed"
[ "$refused" = "$wanted" ]
