#!/usr/bin/env bash
# What a connection holds while a body comes in chunks of one byte, each with an extension of 250: its limits and not the
# bytes that came. Serves one million of such chunks, less than the limit of bodies, over a link in memory that keeps none of
# them, and fails where more than twice that limit and 64 KB was ever allocated: bytes that grow lie twice while they are moved.
# It runs the program that `rt ci` has built of `crates/bench_requests`, or builds it; a C compiler is wanted.
set -eu
top=$(cd "$(dirname "${BASH_SOURCE[0]}")/.." && pwd)
. "$top/checks/skip.sh"
command -v cc > /dev/null || skip "no C compiler, so no allocation was counted"
work=$(mktemp -d)
trap 'rm -rf "$work"' EXIT
cc -O1 -fPIC -shared -o "$work/allocations.so" "$top/checks/allocations.c"
"$top/checks/built.sh" bench_requests chunk 1 1 > "$work/log" 2>&1 || { tail -5 "$work/log"; exit 1; }

chunks=1000000
COUNTED="$work/counted" LD_PRELOAD="$work/allocations.so" "$top/crates/bench_requests/out/bench_requests" chunk 16 $((chunks / 16)) > "$work/out"
{ read -r count && read -r most; } < "$work/counted"
echo "$((chunks * 256)) bytes in $chunks chunks: $count allocations, at most $most bytes at once"
[ "$(cat "$work/out")" = "0 bytes written" ] && [ "$most" -le $((2 * 1048576 + 65536)) ]
