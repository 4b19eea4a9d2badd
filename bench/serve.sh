#!/usr/bin/env bash
# What more workers are worth: serves connections over links in memory by the services of the program, by 1, 2 and 4 workers
# on threads, once 400,000 connections of one small GET each, and once 1,000 connections of 1,000 GETs each, which come one
# by one. Prints the connections and the requests a second of wall time from the start of the workers to the report, the best of
# three runs that take turns, and how many times what one worker serves more of them serve. Then a server of 1, 2 and 4 workers
# stands idle for three seconds, with one listener to which nothing comes: prints the processor time for each second of wall
# time. A ratio says something only where nothing else runs on the machine and a processor is there for each worker and one more.
set -eu
top=$(cd "$(dirname "${BASH_SOURCE[0]}")/.." && pwd)
"$top/checks/built.sh" bench_serve count 1 1 1 0 >&2

PYTHONPATH="$top/bench" python3 -B - "$top/crates/bench_serve/out/bench_serve" <<'PY'
import os, subprocess, sys
from measure import spent
program = sys.argv[1]
WORKERS = (1, 2, 4)

# The seconds of a run, which has to serve so many connections.
def taken(workers, connections, requests):
    said = subprocess.run([program, "time", *map(str, (workers, connections, requests, 0))], stdout=subprocess.PIPE, check=True).stdout
    served, _, micros = map(int, said.split())
    if served != connections:
        sys.exit(f"{served} of {connections} connections were served")
    return micros / 1e6

print(f"{os.cpu_count()} processors")
for what, connections, requests in (("connections", 400_000, 1), ("requests", 1_000, 1_000)):
    rounds = [{workers: taken(workers, connections, requests) for workers in WORKERS} for _ in range(3)]
    best = {workers: min(seconds[workers] for seconds in rounds) for workers in WORKERS}
    for workers in WORKERS:
        rate, ratio = connections * requests / best[workers], best[1] / best[workers]
        print(f"{workers} workers  {rate:12,.0f} {what} a second  {ratio:5.2f} times one worker")

IDLE = 3
for workers in WORKERS:
    seconds = spent([program, "time", workers, 0, 1, IDLE * 1000], None)[0]
    print(f"{workers} workers  idle  {seconds / IDLE * 100:6.2f} percent of a processor")
PY
