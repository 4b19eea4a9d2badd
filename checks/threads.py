#!/usr/bin/env python3
"""Replays scripts of many connections under different numbers of workers, limits, rings and cuts. The report has to be the
same, byte for byte; and where links wait and fail at random, each connection has to be in exactly one line, and ends as its
lines permit. `rt ci` has to have built the program, or it is built first, which takes some minutes."""

import os
import random
import re
import subprocess
import sys

sys.dont_write_bytecode = True
from clients import PROGRAM, TOP, check, sum_up

program = os.path.join(TOP, "crates", "dongurapi", "out", "dongurapi")
GET = "give GET / HTTP/1.1\\r\\n\\r\\n"
VARY = "vary: Origin, Access-Control-Request-Method, Access-Control-Request-Headers\\r\\n"
LINE = re.compile(r'(\d+)\.(\d+) ([a-z-]+) "(.*)"')


def replayed(lines):
    """The status and the report of a script."""
    run = subprocess.run([program, "replay"], input="\n".join(lines), capture_output=True, text=True, timeout=120)
    return run.returncode, run.stdout


def settings(workers, limit=25600, ring=128, cut=65536):
    """The lines that set the server."""
    return [f"workers {workers}", f"limit {limit}", f"ring {ring}", f"cut {cut}"]


def three_peers(workers):
    """Three connections, each answered with its peer."""
    lines = settings(workers, 1, 1, 1) + ["handler peer", "listener"]
    for n in (1, 2, 3):
        lines += [f"conn 10.0.0.{n}:{n}", GET]
    return lines


def three_lines():
    """Their report."""
    told = [f'0.{n - 1} served "HTTP/1.1 200 OK\\r\\n{VARY}content-length: 10\\r\\n\\r\\n10.0.0.{n}:{n}"' for n in (1, 2, 3)]
    return "\n".join(told + ["listener 0 ended", "end drained", ""])


def many(workers, cut):
    """64 listeners with 2,000 connections in all, each with up to three requests."""
    draw = random.Random(64)
    lines = settings(workers, 8, 4, cut) + ["no-vary", "handler echo"]
    for token in range(64):
        lines.append("listener")
        for place in range(31 + (token < 16)):
            lines.append(f"conn 10.{token}.0.{place}:{place + 1}")
            for _ in range(draw.randint(1, 3)):
                size = draw.randint(0, 40)
                lines.append(f"give POST /{place} HTTP/1.1\\r\\ncontent-length: {size}\\r\\n\\r\\n" + "x" * size)
            if draw.random() < 0.2:
                lines += ["wait", "write-wait"]
        if draw.random() < 0.3:
            lines += ["late", "skip"]
    return lines


def troubled(seed):
    """A script whose links wait and fail at random, how many connections each of its listeners has, and which of them has a read
    and which a write that fails."""
    draw = random.Random(seed)
    lines = settings(draw.randint(1, 8), draw.randint(1, 4), draw.randint(1, 4), draw.choice((1, 7, 65536)))
    counts, reads, writes = [], set(), set()
    for token in range(draw.randint(1, 8)):
        lines.append("listener")
        counts.append(draw.randint(0, 40))
        for place in range(counts[-1]):
            lines.append(draw.choice(("late", "skip", "# nothing")))
            lines.append(f"conn 10.0.{token}.{place}:1")
            for _ in range(draw.randint(1, 6)):
                step = draw.choice((GET, GET, "wait", "write-wait", "take 5", "fail-read", "fail-write"))
                lines.append(step)
                if step == "fail-read":
                    reads.add((token, place))
                if step == "fail-write":
                    writes.add((token, place))
    return lines, counts, reads, writes


def is_fair(report, counts, reads, writes):
    """Whether each connection has one line, in order, that its own lines permit, and each listener has ended."""
    lines = report.splitlines()
    places = [(token, place) for token, count in enumerate(counts) for place in range(count)]
    told = [LINE.fullmatch(line) for line in lines[: len(places)]]
    if not all(told) or [(int(t[1]), int(t[2])) for t in told] != places:
        return False
    for t, place in zip(told, places):
        permitted = {"served"} | ({"read-fault"} if place in reads else set()) | ({"write-fault"} if place in writes else set())
        if t[3] not in permitted:
            return False
    return lines[len(places) :] == [f"listener {token} ended" for token in range(len(counts))] + ["end drained"]


if subprocess.run([PROGRAM, "--version"], stdout=subprocess.DEVNULL).returncode != 0:
    sys.exit(1)
if not os.path.exists(program) and subprocess.run([PROGRAM, "build"], stdout=subprocess.DEVNULL).returncode != 0:
    sys.exit(1)

for workers in (1, 2, 8, 512):
    status, report = replayed(three_peers(workers))
    check(f"three connections on {workers} workers", (status, report) == (0, three_lines()), report[:400])

alone = replayed(many(1, 65536))
check("2,000 connections on one worker", alone[0] == 0 and alone[1].count(" served ") == 2000, alone[1][-200:])
for workers in (1, 3, 8):
    for cut in (1, 7, 65536):
        again = replayed(many(workers, cut))
        check(f"2,000 connections on {workers} workers, cut {cut}", again == alone, again[1][-200:])

for seed in range(20):
    script, counts, reads, writes = troubled(seed)
    status, report = replayed(script)
    check(f"links that wait and fail, seed {seed}", status == 0 and is_fair(report, counts, reads, writes), report[:400])

sum_up()
