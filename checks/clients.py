"""What scripts that ask the program share: the program and what is counted; of one that listens its answers and its end, and tools
that the machine may lack."""

import contextlib
import os
import re
import shutil
import socket
import subprocess
import sys
import threading
import time

TOP = os.path.dirname(os.path.dirname(os.path.abspath(__file__)))
PROGRAM = os.path.join(TOP, "dongurapi")
REQUEST = b"GET / HTTP/1.1\r\nHost: a\r\nOrigin: https://a.example\r\n\r\n"
passed = failed = skipped = 0
# The status of a script of which a part was skipped.
SKIPPED = 77


def check(shown, holds, got=""):
    """Counts what is shown."""
    global passed, failed
    if holds:
        passed += 1
    else:
        failed += 1
        print(f"failed: {shown}: {got}")


def attempt(part):
    """Does a part of the checks. Where a client of its gets no answer, that is counted as a failure."""
    try:
        part()
    except (OSError, subprocess.SubprocessError) as fault:
        check(part.__name__, False, fault)


def sum_up():
    """Prints how many checks there were, and ends."""
    print(f"{passed} passed, {failed} failed" + (f", {skipped} skipped" if skipped else ""))
    sys.exit(1 if failed else SKIPPED if skipped else 0)


@contextlib.contextmanager
def listening(command):
    """A program that listens at the loopback, and its port. It is killed where it has not ended by itself."""
    with subprocess.Popen(
        [*map(str, command)], stdin=subprocess.DEVNULL, stdout=subprocess.PIPE, stderr=subprocess.PIPE, text=True
    ) as program:
        try:
            yield program, port_of(program)
        finally:
            program.kill()


def port_of(program):
    """The port that the program tells on standard error, within half a minute."""
    guard = threading.Timer(30, program.kill)
    guard.start()
    told = next((line for line in iter(program.stderr.readline, "") if "listening at 127.0.0.1:" in line), None)
    guard.cancel()
    if told is None:
        raise ConnectionError("the program does not listen")
    return int(told.rsplit(":", 1)[1])


def listen(count):
    """The program, listening for so many connections, and its port."""
    return listening([PROGRAM, "listen", "127.0.0.1:0", count])


def connect(port):
    """A link to the program. What is sent on it goes at once."""
    link = socket.create_connection(("127.0.0.1", port), timeout=20)
    link.setsockopt(socket.IPPROTO_TCP, socket.TCP_NODELAY, 1)
    return link


def free_port():
    """A port of the loopback at which nothing listens."""
    with socket.socket() as found:
        found.bind(("127.0.0.1", 0))
        return found.getsockname()[1]


def connect_within(port, seconds):
    """A link to a program that may not listen yet."""
    end = time.monotonic() + seconds
    while True:
        try:
            return connect(port)
        except ConnectionRefusedError:
            if time.monotonic() > end:
                raise
            time.sleep(0.05)


def is_whole(got):
    """Whether it is a response with its body, by its length."""
    head, blank, body = got.partition(b"\r\n\r\n")
    length = re.search(rb"\r\ncontent-length: (\d+)", head.lower())
    return bool(blank and length) and len(body) >= int(length[1])


def response(link):
    """The next response on the link."""
    got = b""
    while not is_whole(got):
        piece = link.recv(4096)
        if not piece:
            break
        got += piece
    return got


def fill_up(program, port):
    """Comes and leaves until the program has ended, half a minute at most."""
    last = time.monotonic() + 30
    while program.poll() is None and time.monotonic() < last:
        with contextlib.suppress(OSError):
            connect(port).close()
        time.sleep(0.01)


def ends(program, count, served=r"\d+"):
    """It ends by itself, and prints how many came and how many of them were served."""
    try:
        out, _ = program.communicate(timeout=30)
    except subprocess.TimeoutExpired:
        return check(f"{count} connections", False, "it does not end")
    wanted = rf"connections {count}\nserved {served}\nend drained\n"
    check(f"{count} connections", re.fullmatch(wanted, out) and program.returncode == 0, out)


def has(tool):
    """Whether the machine has the tool. Where it lacks, its part is skipped, or has failed where CI is set."""
    global skipped
    if shutil.which(tool):
        return True
    print(f"skipped: what {tool} is needed for, which this machine lacks")
    if os.environ.get("CI"):
        check(tool, False, "not on this machine")
    else:
        skipped += 1
    return False
