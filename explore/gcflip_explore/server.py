"""Serves the page and its requests on loopback, to anyone who knows the token in the address.

A web site that the user visits can reach loopback too, but does not know the token. The Host header has to be loopback's, so that no
other name can be bound to the address. Files come from a fixed table, and requests are bounded. Other users of the machine who
may list its processes can see the address with which a browser was started.
"""
from __future__ import annotations

import contextlib
import hmac
import http.server
import json
import os
import secrets
import socket
import sys
import threading
import time
from typing import Any

from .requests import BadRequest, Desk

PAGE = os.path.join(os.path.dirname(os.path.abspath(__file__)), "page")
TYPES = {".html": "text/html; charset=utf-8", ".css": "text/css; charset=utf-8", ".js": "text/javascript; charset=utf-8",
         ".svg": "image/svg+xml"}
PLAIN = "text/plain; charset=utf-8"
# The most bytes of a text, and of the JSON of a request.
MOST_TEXT = 67108864
MOST_BYTES = 2 * MOST_TEXT
MOST_CONNECTIONS = 32
# The most seconds for a whole request, from the connection to the last byte of its body, and for the answer.
SECONDS = 20
HEADERS = {
    "Content-Security-Policy": "default-src 'none'; script-src 'self'; style-src 'self'; img-src 'self'; connect-src 'self'; "
                               "base-uri 'none'; form-action 'none'; frame-ancestors 'none'",
    "Cache-Control": "no-store",
    "Cross-Origin-Opener-Policy": "same-origin",
    "Cross-Origin-Resource-Policy": "same-origin",
    "Referrer-Policy": "no-referrer",
    "X-Content-Type-Options": "nosniff",
}


def page_files() -> dict[str, tuple[str, bytes]]:
    """Reads the files of the page. Returns their types and contents by the names in the address. The page itself has the empty name."""
    found = {}
    for name in os.listdir(PAGE):
        with open(os.path.join(PAGE, name), "rb") as file:
            found["" if name == "index.html" else name] = TYPES[os.path.splitext(name)[1]], file.read()
    return found


class Refusal(Exception):
    """A request that is refused, with its HTTP status."""

    def __init__(self, status: int, message: str) -> None:
        super().__init__(message)
        self.status = status


class Handler(http.server.BaseHTTPRequestHandler):
    """Answers one request on each connection."""

    server: "Server"
    server_version, sys_version = "gcflip", ""
    timeout = SECONDS

    def do_GET(self) -> None:
        self.server.note_read(self.connection)
        self.reply(self.file)

    def do_POST(self) -> None:
        self.reply(self.answer)

    def reply(self, handle: Any) -> None:
        """Sends the handler's result, or the reason why the request is refused."""
        try:
            kind, body = handle(self.name())
            self.send(200, kind, body)
        except Refusal as refusal:
            self.send(refusal.status, PLAIN, (str(refusal) + "\n").encode())
        except (ConnectionError, socket.timeout):
            self.close_connection = True
        except Exception:
            self.send(500, PLAIN, b"The server failed. Its terminal says why.\n")
            raise

    def name(self) -> str:
        """Returns the requested name, which is the path after the token."""
        if self.headers.get("Host") not in self.server.hosts():
            raise Refusal(403, "This server answers requests to 127.0.0.1 alone.")
        _, _, rest = self.path.partition("/")
        token, slash, name = rest.partition("/")
        if not slash or not hmac.compare_digest(token.encode("utf-8", "replace"), self.server.token.encode()):
            raise Refusal(403, "The address lacks the token. Open the address that 'python3 -m gcflip_explore' printed.")
        return name

    def file(self, name: str) -> tuple[str, bytes]:
        if name not in self.server.files:
            raise Refusal(404, "There is no such file.")
        return self.server.files[name]

    def answer(self, name: str) -> tuple[str, bytes]:
        """Answers a request of the page."""
        if name not in self.server.desk.answers:
            raise Refusal(404, "There is no such request.")
        if self.headers.get("Content-Type") != "application/json":
            raise Refusal(415, "A request has to be JSON.")
        try:
            data = json.loads(self.body())
        except (ValueError, RecursionError):
            raise Refusal(400, "The request is no JSON.") from None
        try:
            answer = self.server.desk.answer(name, data)
        except BadRequest as fault:
            answer = {"message": str(fault)}
        return "application/json", json.dumps(answer).encode()

    def body(self) -> bytes:
        length = self.headers.get("Content-Length", "")
        if not length.isascii() or not length.isdigit() or self.headers.get("Transfer-Encoding"):
            raise Refusal(411, "The request does not tell its length.")
        if len(length) > 9 or int(length) > MOST_BYTES:
            self.skip(4 * MOST_BYTES)
            raise Refusal(413, "This page takes texts of up to %d MiB. 'gcflip' itself takes longer ones." % (MOST_TEXT >> 20))
        body = self.rfile.read(int(length))
        self.server.note_read(self.connection)
        if len(body) < int(length):
            raise Refusal(400, "The request ended early.")
        return body

    def skip(self, most: int) -> None:
        """Reads and discards the body, up to a bound. A sender that is cut off would not read the answer."""
        self.connection.settimeout(1)
        try:
            while most > 0:
                part = self.rfile.read1(65536)
                if not part:
                    return
                most -= len(part)
        except socket.timeout:
            return

    def send(self, status: int, kind: str, body: bytes) -> None:
        self.send_response(status)
        for header, value in {**HEADERS, "Content-Type": kind, "Content-Length": str(len(body))}.items():
            self.send_header(header, value)
        self.end_headers()
        self.wfile.write(body)

    def log_message(self, *_words: Any) -> None:
        """Logs nothing, since the address contains the token."""


class Server(http.server.ThreadingHTTPServer):
    """The server, with its token and the files of the page."""

    daemon_threads = True

    def __init__(self, desk: Desk, port: int = 0) -> None:
        self.desk = desk
        self.token = secrets.token_urlsafe(24)
        self.files = page_files()
        # When each connection came, as long as its request is not read; the oldest first.
        self.waiting: dict[socket.socket, float] = {}
        self.answered: set[socket.socket] = set()
        self.guard = threading.Lock()
        super().__init__(("127.0.0.1", port), Handler)

    def hosts(self) -> tuple[str, ...]:
        return "127.0.0.1:%d" % self.server_port, "localhost:%d" % self.server_port

    def address(self) -> str:
        return "http://127.0.0.1:%d/%s/" % (self.server_port, self.token)

    def process_request(self, request: Any, client_address: Any) -> None:
        """Starts a thread for a connection. If there are too many, closes the one that has waited longest with its request, or this one if all
        others have theirs."""
        with self.guard:
            if len(self.waiting) + len(self.answered) >= MOST_CONNECTIONS:
                oldest = next(iter(self.waiting), None)
                self.cut_off(oldest if oldest is not None else request)
                if oldest is None:
                    return self.close_request(request)
            self.waiting[request] = time.monotonic()
        super().process_request(request, client_address)

    def process_request_thread(self, request: Any, client_address: Any) -> None:
        try:
            super().process_request_thread(request, client_address)
        finally:
            with self.guard:
                self.waiting.pop(request, None)
                self.answered.discard(request)

    def note_read(self, request: socket.socket) -> None:
        """Notes that the request of a connection is read. From then on it is not closed."""
        with self.guard:
            if self.waiting.pop(request, None) is not None:
                self.answered.add(request)

    def service_actions(self) -> None:
        """Closes the connections whose requests take too long. The server calls this twice a second."""
        with self.guard:
            for request in [request for request, came in self.waiting.items() if time.monotonic() - came > SECONDS]:
                self.cut_off(request)

    def cut_off(self, request: socket.socket) -> None:
        """Ends a connection. Its thread, if it has one, reads no more and ends."""
        self.waiting.pop(request, None)
        with contextlib.suppress(OSError):
            request.shutdown(socket.SHUT_RDWR)

    def handle_error(self, request: Any, client_address: Any) -> None:
        """Prints an error to the terminal, except for a broken connection."""
        if not isinstance(sys.exc_info()[1], (ConnectionError, socket.timeout)):
            super().handle_error(request, client_address)
