#!/usr/bin/env python3
"""Real clients of the program's `listen`, over sockets of the loopback.

curl: connections that are kept, POST by length and in chunks, `Expect: 100-continue`, HEAD, HTTP/1.0 and a preflight. Then two
hundred clients that send a request byte by byte, beside one that asks four times at each byte and is not held up by them; and
one that leaves in the middle of a request. Then wrk with 64 connections that are kept and asked for two seconds, and Chromium
with a page of another origin, which asks with a preflight and without one. Each run ends by itself once as many connections
have come as its words say, and prints how many. A second program at the same address is refused, with the reason. Last the
program of `examples/stop.md`, which a request stops: it serves the connection to its end that has begun, and accepts no other.

Where the machine lacks a tool its part is skipped, and a line says so; where CI is set it has failed. `checks/tools.sh` installs what lacks.
"""

import os
import re
import socket
import subprocess
import sys
import time

sys.dont_write_bytecode = True
from browser import told_by_browser
from clients import (
    PROGRAM, REQUEST, TOP, attempt, check, connect, connect_within, ends,
    fill_up, free_port, has, listen, response, sum_up)


def said(command):
    """What a client says, within half a minute."""
    run = subprocess.run(command, stdin=subprocess.DEVNULL, capture_output=True, text=True, timeout=30)
    return run.stdout + run.stderr


def curl(port, *words):
    return said(["curl", "-s", "-S", "-i", "--max-time", "10", *words, f"http://127.0.0.1:{port}/"])


def by_curl():
    if not has("curl"):
        return
    with listen(7) as (program, port):
        plain = curl(port)
        check("a GET", plain.startswith("HTTP/1.1 200 OK") and plain.endswith("Hello world!"), plain)
        kept = said(["curl", "-s", "--max-time", "10", "-w", "%{num_connects};"] + [f"http://127.0.0.1:{port}/"] * 3)
        check("three on one connection", kept == "Hello world!1;Hello world!0;Hello world!0;", kept)
        posted = curl(port, "-d", "x" * 3000, "-H", "Expect: 100-continue")
        check("a POST that expects to continue", posted.startswith("HTTP/1.1 100 Continue\n"), posted)
        chunked = curl(port, "-d", "some words", "-H", "Transfer-Encoding: chunked")
        check("a POST in chunks", chunked.endswith("Hello world!"), chunked)
        head = curl(port, "-I")
        check("a HEAD", head.startswith("HTTP/1.1 200 OK") and "content-length: 12" in head and "Hello" not in head, head)
        old = curl(port, "--http1.0")
        check("HTTP/1.0", "connection: close" in old and old.endswith("Hello world!"), old)
        asked = curl(port, "-X", "OPTIONS", "-H", "Origin: https://a.example", "-H", "Access-Control-Request-Method: PUT")
        check("a preflight", asked.startswith("HTTP/1.1 200 OK") and "access-control-allow-methods: " in asked, asked)
        ends(program, 7, 7)


def asked(link):
    """The answer to a request on the link, and the seconds that it took."""
    before = time.monotonic()
    link.sendall(REQUEST)
    answer = response(link)
    return answer, time.monotonic() - before


def beside_slow_ones():
    with listen(202) as (program, port):
        slow, fast = [connect(port) for _ in range(200)], connect(port)
        answers = []
        for place in range(len(REQUEST)):
            for link in slow:
                link.sendall(REQUEST[place : place + 1])
            answers += [asked(fast) for _ in range(4)]
            time.sleep(0.02)
        texts, seconds = {text for text, _ in answers}, max(seconds for _, seconds in answers)
        check("answers beside slow ones", len(texts) == 1 and min(texts).startswith(b"HTTP/1.1 200 OK"), texts)
        check("they are not held up", seconds < 1, f"{seconds:.3f} s")
        check("two hundred slow ones", {response(link) for link in slow} == texts)
        for link in [*slow, fast]:
            link.close()
        with connect(port) as link:
            link.sendall(b"GET / HTTP/1.1\r\nHo")
        ends(program, 202, 202)


def by_wrk():
    if not has("wrk"):
        return
    with listen(100) as (program, port):
        told = said(["wrk", "-t2", "-c64", "-d2s", f"http://127.0.0.1:{port}/"])
        count = re.search(r"(\d+) requests in ", told)
        check("64 connections that are kept", count and int(count[1]) > 64, told)
        check("no error among them", "Socket errors" not in told and "Non-2xx" not in told, told)
        fill_up(program, port)
        ends(program, 100)


def by_browser():
    if not has("chromium"):
        return
    with listen(40) as (program, port):
        told = told_by_browser(port)
        check("a page of another origin", told == "200 Hello world!\n200 Hello world!", told)
        fill_up(program, port)
        ends(program, 40)


def at_one_address():
    with listen(1) as (program, port):
        second = subprocess.run(
            [PROGRAM, "listen", f"127.0.0.1:{port}", "1"],
            stdin=subprocess.DEVNULL, capture_output=True, text=True, timeout=30)
        check("an address that is taken", (second.returncode, second.stdout) == (9, "cannot listen\n"), second.stdout)
        check("the reason", f"cannot listen at 127.0.0.1:{port}: " in second.stderr, second.stderr)
        with connect(port) as link:
            link.sendall(REQUEST * 3)
            link.shutdown(socket.SHUT_WR)
            got = b""
            while piece := link.recv(4096):
                got += piece
        check("three in one piece", got.count(b"HTTP/1.1 200 OK") == 3 and got.endswith(b"Hello world!"), got)
        ends(program, 1, 1)


def stopped_by_a_request():
    folder = os.path.join(TOP, "crates", "example_stop")
    built = subprocess.run([os.path.join(TOP, "checks", "built.sh"), "example_stop"], capture_output=True, text=True)
    check("the program that a request stops is built", built.returncode in (0, 2), built.stderr[-500:])
    port = free_port()
    command = [os.path.join(folder, "out", "example_stop"), f"127.0.0.1:{port}"]
    with subprocess.Popen(command, stdin=subprocess.DEVNULL, stdout=subprocess.PIPE, text=True) as program:
        try:
            first = asked(connect_within(port, 10))[0]
            check("a request before the stop", first.endswith(b"Hello!\n"), first)
            begun = connect(port)
            begun.sendall(REQUEST[:5])
            time.sleep(0.5)
            with connect(port) as link:
                link.sendall(b"GET /stop HTTP/1.1\r\n\r\n")
                check("a request that stops it", response(link).endswith(b"Goodbye!\n"))
            begun.sendall(REQUEST[5:])
            check("a connection that had begun", response(begun).endswith(b"Hello!\n"))
            told, _ = program.communicate(timeout=20)
            check("every connection is handed back", (program.returncode, told) == (0, "handed back 3, served 3\n"), told)
        finally:
            program.kill()


subprocess.run([PROGRAM, "--version"], stdout=subprocess.DEVNULL, check=True)
for part in (by_curl, beside_slow_ones, by_wrk, by_browser, at_one_address, stopped_by_a_request):
    attempt(part)
sum_up()
