#!/usr/bin/env bash
# Sees to it that a program of the repository stands: where `rt ci` or an earlier call has built it and nothing that it is built
# of is newer, nothing is done; else `rt run` proves and builds it, and runs it with the words given.
#   checks/built.sh bench_cors preflight 3 1
set -u
top=$(cd "$(dirname "${BASH_SOURCE[0]}")/.." && pwd)
. "$top/checks/sources.sh" || exit 1
program=$top/crates/$1/out/$1
add_with_those_below "$1"
is_current "$program" && exit 0
begun=$(mktemp) || exit 1
trap 'rm -f "$begun"' EXIT
cd "$top/crates/$1" && shift && rt run -- "$@" < /dev/null
status=$?
# (what was changed meanwhile is newer)
[ ! -x "$program" ] || touch -r "$begun" "$program"
exit "$status"
