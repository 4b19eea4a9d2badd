#!/usr/bin/env bash
# Reading is linear: replays scripts of 1 MB and of 2 MB, once of comment lines and once of one connection's `give`
# lines, and prints the bytes a second and the ratio of the two times, and for scripts up to 16 MB the most memory.
# It fails where a ratio is above 2.3, or the memory above six times a script of 16 MB.
set -eu
top=$(cd "$(dirname "${BASH_SOURCE[0]}")/.." && pwd)
work=$(mktemp -d)
trap 'rm -rf "$work"' EXIT
"$top/dongurapi" build

PYTHONPATH="$top/bench" python3 -B - "$top/crates/dongurapi/out/dongurapi" "$work" <<'PY'
import os, sys
from measure import least, spent
program, work = sys.argv[1:]

# Writes a script of so many bytes of lines of 64 bytes: comments before the listener, or `give` lines of the connection.
# (line by line, since a child begins with the memory of this process in its account)
def write_script(path, kind, size):
    comments = kind == "comments"
    line = b"#" + b"c" * 62 + b"\n" if comments else b"give " + b"x" * 58 + b"\n"
    with open(path, "wb") as file:
        if not comments:
            file.write(b"listener\nconn 10.0.0.1:5000\n")
        for _ in range(size // 64):
            file.write(line)
        if comments:
            file.write(b"listener\n")

failed = False
for kind in ("comments", "give"):
    took, grown = {}, 0
    for mb in (1, 2, 8, 16):
        given = f"{work}/{kind}.{mb}"
        write_script(given, kind, mb * 1_000_000)
        size = os.path.getsize(given)
        took[mb] = least([program, "replay"], None, given)
        memory = spent([program, "replay"], None, given)[1]
        grown = memory * 1024 / size
        print(f"{kind:8} {size:8} bytes  {took[mb] * 1000:8.2f} ms  {size / took[mb] / 1e6:8.1f} MB/s  {memory:6} KB of memory")
    ratio = took[2] / took[1]
    print(f"{kind:8} ratio of the times {ratio:.2f}, at 16 MB the memory is {grown:.2f} times the script")
    failed = failed or ratio > 2.3 or grown > 6
sys.exit(failed)
PY
