#!/usr/bin/env python3
"""Serves each text of framing.txt as the bytes of a connection, under the handler that echoes its request, and compares what
is written with what the steps there say. A text comes whole, byte by byte, and in two pieces, cut at each place, with a
wait between them. `rt ci` has to have built the program, or it is built first, which takes some minutes."""

import os
import subprocess
import sys

sys.dont_write_bytecode = True
from framing_table import bytes_of, compare

top = os.path.dirname(os.path.dirname(os.path.abspath(__file__)))
launcher = os.path.join(top, "dongurapi")
program = os.path.join(top, "crates", "dongurapi", "out", "dongurapi")
CONTINUE = b"HTTP/1.1 100 Continue\r\n\r\n"
REFUSED = {"400": b"400 Bad Request", "413": b"413 Payload Too Large", "431": b"431 Request Header Fields Too Large"}
ESCAPES = {9: "\\t", 10: "\\n", 13: "\\r", 34: '\\"', 92: "\\\\"}


def escaped(written):
    """Bytes as a script and a report have them."""
    return "".join(ESCAPES.get(byte) or (chr(byte) if 32 <= byte <= 126 else f"\\x{byte:02x}") for byte in written)


def answer(status, connection, size, body):
    """The bytes of an answer without headers of its own."""
    return b"HTTP/1.1 %s\r\ncontent-length: %d\r\n%s\r\n%s" % (status, size, connection, body)


def echoed(method, target, version, closes, body):
    """The handler's answer to a request."""
    text = b"%s %s\n%s" % (method, target, body)
    stays = b"connection: keep-alive\r\n" if version == b"1.0" else b""
    return answer(b"200 OK", b"connection: close\r\n" if closes else stays, len(text), b"" if method == b"HEAD" else text)


def written_of(steps):
    """What is written on a connection whose bytes are these steps."""
    written, head, closes = b"", [], False
    for step in steps:
        word, _, rest = step.partition(" ")
        if word == "head":
            head, closes = [bytes_of(part) for part in rest.split(" ")], False
        elif step == "  (closes)":
            closes = True
        elif step == "  (expects)":
            written += CONTINUE
        elif word == "body":
            written += echoed(*head, closes, bytes_of(rest))
            if closes:
                break
        elif word == "refused":
            written += answer(REFUSED[rest], b"connection: close\r\n", 0, b"")
    return written


def script_of(limits, pieces, *settings):
    """A script that gives the pieces, with a wait between two."""
    lines = ["no-vary", "no-preflight", "handler echo", f"head {limits[0]}", f"body {limits[1]}", *settings, "listener", "conn local\n"]
    return "\n".join(lines) + "wait\n".join(f"give {escaped(piece)}\n" for piece in pieces if piece)


def scripts_of(limits, text):
    """In which pieces the text comes, and a script for each."""
    yield "whole", script_of(limits, [text])
    yield "byte by byte", script_of(limits, [text], "cut 1")
    for place in range(1, len(text)):
        yield f"cut at {place}", script_of(limits, [text[:place], text[place:]])


def faults_of(row):
    """What is printed otherwise, and how many runs there were."""
    number, limits, text, steps = row
    wanted = f'0.0 served "{escaped(written_of(steps))}"\nlistener 0 ended\nend drained\n'
    faults, count = [], 0
    for shown, script in scripts_of(limits, text):
        ran = subprocess.run([program, "replay"], input=script.encode("ascii"), capture_output=True, check=False)
        count += 1
        if ran.returncode or ran.stdout.decode("ascii") != wanted:
            faults.append(f"framing.txt:{number}: {shown}: status {ran.returncode}, {ran.stdout.decode('ascii')}wanted {wanted}")
    return faults, count


def main():
    if subprocess.run([launcher, "build"], check=False).returncode:
        sys.exit(1)
    compare(faults_of)


main()
