"""Measures a program that serves `Hello world!` over sockets beside nginx, in one run, and prints what both take and the ratio:

requests a second and latency by wrk, with 64 connections, one by one and 16 in flight, with one connection, and with one request
a connection, each the best of three rounds of two seconds that take turns; instructions a request, as valgrind counts them for
all threads, as the difference of two runs, so that the start falls out; system calls a request, as strace counts them; and what
1,000 and 10,000 connections that were served once and are kept cost while nothing comes, with the latency of one client beside
them. A figure says something only where nothing else runs on the machine.
"""

import contextlib
import glob
import os
import re
import resource
import signal
import socket
import statistics
import subprocess
import sys
import tempfile
import time

from clients import connect, has, response

PROGRAM = sys.argv[1]
REQUEST = b"GET / HTTP/1.1\r\nHost: a\r\n\r\n"
ROUNDS, SECONDS = 3, 2
MICROS = {"us": 1, "ms": 1_000, "s": 1_000_000, "m": 60_000_000}

# Without a master where there is one worker, so that one process does all the work.
CONFIGURATION = """
daemon off;
master_process %s;
worker_processes %d;
pid nginx.pid;
error_log stderr crit;
events { worker_connections 16384; }
http {
    access_log off;
    default_type text/plain;
    keepalive_timeout 3600s;
    keepalive_requests 1000000000;
    server {
        listen 127.0.0.1:%d backlog=4096;
        location / { return 200 "Hello world!"; }
    }
}
"""

# Sixteen requests in one piece.
IN_FLIGHT = """
init = function()
    local all = {}
    for place = 1, 16 do all[place] = wrk.format() end
    piece = table.concat(all)
end
request = function() return piece end
"""

CALLS = {
    "reads": {"read", "readv", "recvfrom", "recvmsg"},
    "writes": {"write", "writev", "sendto", "sendmsg"},
    "waits": {"epoll_wait", "epoll_pwait", "epoll_pwait2", "poll", "ppoll"},
}


def free_port():
    """A port at which nothing listens."""
    with socket.create_server(("127.0.0.1", 0)) as free:
        return free.getsockname()[1]


def await_port(process, port):
    """Waits until something listens there, half a minute at most."""
    last = time.monotonic() + 30
    while process.poll() is None and time.monotonic() < last:
        with contextlib.suppress(ConnectionRefusedError):
            return connect(port).close()
        time.sleep(0.05)
    raise ConnectionError("nothing listens")


@contextlib.contextmanager
def serving(command, port):
    """A program that serves at the port, and the port. It is ended where it has not ended by itself."""
    with subprocess.Popen(
        command, stdin=subprocess.DEVNULL, stdout=subprocess.PIPE, stderr=subprocess.PIPE, text=True
    ) as process:
        try:
            await_port(process, port)
            yield process, port
        finally:
            process.terminate()
            with contextlib.suppress(subprocess.TimeoutExpired):
                process.wait(timeout=20)
            process.kill()


def ours(workers, before=()):
    """Our program with so many workers, by the words that are to stand before it, and its port."""
    port = free_port()
    return serving([*before, PROGRAM, f"127.0.0.1:{port}", "1000000", str(workers)], port)


@contextlib.contextmanager
def nginx(workers, before=()):
    """nginx, as our program."""
    with tempfile.TemporaryDirectory() as folder:
        port = free_port()
        with open(f"{folder}/nginx.conf", "w") as file:
            file.write(CONFIGURATION % ("on" if workers > 1 else "off", workers, port))
        with serving([*before, "nginx", "-e", "stderr", "-p", folder, "-c", "nginx.conf"], port) as server:
            yield server


def show(what, figures, form):
    """A line with what each server takes, and how many times what nginx takes ours does."""
    told = "  ".join(f"{name} {figure:{form}}" for name, figure in figures.items())
    ratio = f"  ratio {figures['ours'] / figures['nginx']:6.2f}" if figures.get("nginx") else ""
    print(f"{what:52} {told}{ratio}", flush=True)


def wrk(port, words):
    """What wrk tells of the server at a port."""
    return subprocess.run(
        ["wrk", "--latency", f"-d{SECONDS}s", *words, f"http://127.0.0.1:{port}/"],
        stdin=subprocess.DEVNULL, capture_output=True, text=True, timeout=60, check=True).stdout


def micros(told, share):
    """The microseconds within which this share of the requests was answered."""
    number, unit = re.search(rf"\n +{share}% +([\d.]+)(us|ms|s|m)", told).groups()
    return float(number) * MICROS[unit]


def load(port, words):
    """The requests a second of the server at a port, and the microseconds of half of them and of 99 in a hundred."""
    told = wrk(port, words)
    for fault in re.findall(r"Socket errors: .*|Non-2xx .*", told):
        print(f"  {fault}")
    return float(re.search(r"Requests/sec: +([\d.]+)", told)[1]), micros(told, 50), micros(told, 99)


def loads(servers, workers, words):
    """The best of each of the three figures, by server, of rounds that take turns."""
    rounds = {name: [] for name in servers}
    for _ in range(ROUNDS):
        for name, server in servers.items():
            with server(workers) as (_, port):
                rounds[name].append(load(port, words))
    return [{name: best(told[place] for told in rounds[name]) for name in servers} for place, best in enumerate((max, min, min))]


def by_wrk(servers):
    """What many clients see."""
    with tempfile.NamedTemporaryFile("w", suffix=".lua") as script:
        script.write(IN_FLIGHT)
        script.flush()
        for workers in (1, 2):
            rates, _, most = loads(servers, workers, ["-t2", "-c64"])
            show(f"{workers} workers, 64 kept: requests a second", rates, "10,.0f")
            show(f"{workers} workers, 64 kept: 99th percentile, us", most, "10,.0f")
            rates, _, _ = loads(servers, workers, ["-t2", "-c64", "-s", script.name])
            show(f"{workers} workers, 64 kept, 16 in flight: requests a second", rates, "10,.0f")
            rates, _, _ = loads(servers, workers, ["-t2", "-c64", "-H", "Connection: close"])
            show(f"{workers} workers, 64 not kept: connections a second", rates, "10,.0f")
    _, halves, _ = loads(servers, 1, ["-t1", "-c1"])
    show("1 workers, 1 kept: median, us", halves, "10,.1f")


def take(link, size):
    """Takes so many bytes from a link."""
    while size:
        piece = link.recv(size)
        if not piece:
            raise ConnectionError("an answer is cut off")
        size -= len(piece)


def ask(link, pieces, depth):
    """Asks on a link: pieces of so many requests, each once the answers to the one before have come. Returns the seconds of each."""
    link.sendall(REQUEST)
    size = len(response(link)) * depth
    times = [time.perf_counter()]
    for _ in range(pieces):
        link.sendall(REQUEST * depth)
        take(link, size)
        times.append(time.perf_counter())
    return [after - before for before, after in zip(times, times[1:])]


def instructions(server, pieces, depth):
    """The instructions of a server that is asked so on one connection."""
    with server(1, ["valgrind", "--tool=callgrind", "--callgrind-out-file=/dev/null"]) as (process, port):
        with connect(port) as link:
            ask(link, pieces, depth)
        process.terminate()
        said = process.communicate(timeout=60)[1]
    found = re.search(r"Collected : (\d+)", said)
    if not found:
        raise ChildProcessError(f"valgrind says {said[-300:]}")
    return int(found[1])


def by_valgrind(servers):
    """What the code of a server costs."""
    for depth, few, many in ((1, 1_000, 3_000), (16, 62, 187)):
        figures = {}
        for name, server in servers.items():
            more, less = (instructions(server, pieces, depth) for pieces in (many, few))
            figures[name] = (more - less) / ((many - few) * depth)
        show(f"instructions a request, {depth} in flight", figures, "10,.0f")


def calls(process, work, port):
    """The system calls of a process, for each of the requests that the work makes, by name."""
    with tempfile.NamedTemporaryFile("r") as file:
        with subprocess.Popen(
            ["strace", "-c", "-f", "-o", file.name, "-p", str(process.pid)],
            stdin=subprocess.DEVNULL, stdout=subprocess.DEVNULL, stderr=subprocess.PIPE, text=True,
        ) as tracer:
            said = tracer.stderr.readline()
            try:
                requests = work(port)
            finally:
                tracer.send_signal(signal.SIGINT)
        rows = re.findall(r"^ *[\d.]+ +[\d.]+ +\d+ +(\d+) .*?(\w+)$", file.read(), re.MULTILINE)
    if not rows:
        raise ChildProcessError(said)
    return {name: int(count) / requests for count, name in rows if name != "total"}


def one_by_one(port):
    """How many requests were made on one connection, one by one."""
    with connect(port) as link:
        return len(ask(link, 5_000, 1))


def on_64_connections(port):
    """How many requests wrk made."""
    return int(re.search(r"(\d+) requests in ", wrk(port, ["-t2", "-c64"]))[1])


def of_kinds(counts):
    """How many calls of each kind there are, and of all."""
    kinds = {kind: sum(counts.get(name, 0) for name in names) for kind, names in CALLS.items()}
    return {**kinds, "system calls": sum(counts.values())}


def by_strace(servers):
    """What a server asks of the system."""
    for shown, work in (("one by one", one_by_one), ("64 kept", on_64_connections)):
        figures = {}
        for name, server in servers.items():
            with server(1) as (process, port):
                figures[name] = of_kinds(calls(process, work, port))
        for kind in figures["ours"]:
            show(f"{kind} a request, {shown}", {name: told[kind] for name, told in figures.items()}, "10.2f")


def processor_seconds(process):
    """The processor time that the threads of a process have taken."""
    spent = 0
    for place in glob.glob(f"/proc/{process.pid}/task/*/schedstat"):
        with open(place) as file:
            spent += int(file.read().split()[0])
    return spent / 1e9


def idle(server, count):
    """The share of a processor in percent that a server takes beside so many connections that were served once, over three
    seconds, and then the microseconds of half of the requests of one more client."""
    with contextlib.ExitStack() as links, server(1) as (process, port):
        for _ in range(count):
            ask(links.enter_context(connect(port)), 0, 1)
        time.sleep(1)
        before = processor_seconds(process)
        time.sleep(3)
        spent = processor_seconds(process) - before
        with connect(port) as link:
            return spent / 3 * 100, statistics.median(ask(link, 2_000, 1)) * 1e6


def by_idle(servers):
    """What connections cost to which nothing comes."""
    _, most = resource.getrlimit(resource.RLIMIT_NOFILE)
    resource.setrlimit(resource.RLIMIT_NOFILE, (most, most))
    for count in (1_000, 10_000):
        count = min(count, most - 200)
        figures = {name: idle(server, count) for name, server in servers.items()}
        for place, what, form in ((0, "percent of a processor", "10.3f"), (1, "median of one more, us", "10.1f")):
            show(f"{count:,} idle: {what}", {name: told[place] for name, told in figures.items()}, form)


def attempt(part, servers):
    """Measures a part. Where that fails, the rest of the part is left out, with the reason."""
    try:
        part(servers)
    except (OSError, subprocess.SubprocessError) as fault:
        print(f"{part.__name__}: the rest is left out: {fault}")


def main():
    print(f"{os.cpu_count()} processors, with a load of {os.getloadavg()[0]:.1f} before the start", flush=True)
    servers = {"ours": ours}
    if has("nginx"):
        servers["nginx"] = nginx
    for tool, part in (("wrk", by_wrk), ("valgrind", by_valgrind), ("strace", by_strace)):
        if has(tool):
            attempt(part, servers)
    attempt(by_idle, servers)


main()
