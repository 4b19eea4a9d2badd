"""A browser that asks the program from a page of another origin, and what it lets the page have of the answers."""

import contextlib
import http.server
import os
import queue
import signal
import subprocess
import tempfile
import threading

# A `PUT` with headers of its own, before which the browser sends a preflight, and a plain `GET` without credentials. What
# comes of both goes back to where the page is from, a line for each.
PAGE = """<!doctype html>
<title>asks</title>
<script>
const address = "http://127.0.0.1:%d/";
const asked = [
    fetch(address, {method: "PUT", headers: {"X-Asked": "yes", "Content-Type": "application/json"}, body: "{}"}),
    fetch(address, {credentials: "omit"}),
];
const line = async answer => `${answer.status} ${await answer.text()}`;
Promise.all(asked.map(answer => answer.then(line).catch(String)))
    .then(lines => fetch("/", {method: "POST", body: lines.join("\\n")}));
</script>
"""


class Origin(http.server.ThreadingHTTPServer):
    """Where the page is from, at a port that the system picks, with what the page told."""

    def __init__(self, page):
        super().__init__(("127.0.0.1", 0), Request)
        self.page, self.told = page, queue.Queue()

    def handle_error(self, *_):
        """Says nothing of a browser that was killed meanwhile."""


class Request(http.server.BaseHTTPRequestHandler):
    """Gets the page, or tells what came of it."""

    def do_GET(self):
        self.answer(200, self.server.page.encode())

    def do_POST(self):
        self.server.told.put(self.rfile.read(int(self.headers["Content-Length"])).decode())
        self.answer(204, b"")

    def answer(self, status, body):
        self.send_response(status)
        self.send_header("Content-Type", "text/html; charset=utf-8")
        self.end_headers()
        self.wfile.write(body)

    def log_message(self, *_):
        """Says nothing."""


@contextlib.contextmanager
def origin_of(page):
    """The origin of a page, which is served."""
    with Origin(page) as server:
        threading.Thread(target=server.serve_forever, daemon=True).start()
        try:
            yield server
        finally:
            server.shutdown()


@contextlib.contextmanager
def browser_at(address):
    """Chromium at the page, with a folder of its own, which asks nobody but the loopback. It is killed with what it started."""
    with tempfile.TemporaryDirectory(ignore_cleanup_errors=True) as folder:
        browser = subprocess.Popen(
            ["chromium", "--headless", "--no-sandbox", "--disable-gpu", "--disable-dev-shm-usage", "--no-first-run",
             "--disable-background-networking", "--disable-component-update", "--disable-sync", "--no-proxy-server",
             "--host-resolver-rules=MAP * ~NOTFOUND, EXCLUDE 127.0.0.1", f"--user-data-dir={folder}", address],
            env=dict(os.environ, HOME=folder, TMPDIR=folder), start_new_session=True,
            stdin=subprocess.DEVNULL, stdout=subprocess.DEVNULL, stderr=subprocess.DEVNULL)
        try:
            yield
        finally:
            os.killpg(browser.pid, signal.SIGKILL)
            browser.wait()


def told_by_browser(port):
    """What a page of another origin tells of the answers that come from the port, a line for each, within a minute."""
    with origin_of(PAGE % port) as server, browser_at(f"http://127.0.0.1:{server.server_port}/"):
        try:
            return server.told.get(timeout=60)
        except queue.Empty:
            return "nothing"
