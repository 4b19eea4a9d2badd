#!/usr/bin/env bash
# What a server over sockets is worth beside nginx, which answers the same words, without a policy: bench/listen.py says what is
# measured. It takes some three minutes where the program is built. nginx, wrk, valgrind and strace are installed where they lack
# and that can be done; else what wants them is left out, with a word.
set -eu
top=$(cd "$(dirname "${BASH_SOURCE[0]}")/.." && pwd)
"$top/checks/tools.sh" nginx wrk valgrind strace >&2
"$top/checks/built.sh" bench_listen 127.0.0.1:0 0 1 >&2
PYTHONPATH="$top/bench:$top/checks" exec python3 -B "$top/bench/listen.py" "$top/crates/bench_listen/out/bench_listen"
