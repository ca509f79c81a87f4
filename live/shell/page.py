"""The page: one HTML file and the JSON that feeds it, to this machine alone."""
import http.server
import json
import pathlib
import threading
import urllib.parse
from typing import Any, Callable

from shell.faults import EdgeFault

PAGE = pathlib.Path(__file__).with_name("page.html")


class Handler(http.server.BaseHTTPRequestHandler):
    """Answers `/` and `/state.json`: `slot=N` has a subscriber's last entries, `find=TEXT` those rows that have it."""

    def do_GET(self) -> None:
        asked = urllib.parse.urlsplit(self.path)
        if asked.path == "/":
            self.answer("text/html; charset=utf-8", PAGE.read_bytes())
        elif asked.path == "/state.json":
            query = urllib.parse.parse_qs(asked.query)
            slot = query.get("slot", [""])[0]
            state = self.server.state(
                int(slot) if slot.isdecimal() and len(slot) < 6 else None, query.get("find", [""])[0]
            )
            self.answer("application/json", json.dumps(state).encode())
        else:
            self.send_error(404)

    def answer(self, kind: str, octets: bytes) -> None:
        self.send_response(200)
        self.send_header("Content-Type", kind)
        self.send_header("Content-Length", str(len(octets)))
        self.end_headers()
        self.wfile.write(octets)

    def log_message(self, *_: Any) -> None:
        """Standard error is for faults of the gateway."""


class Server(http.server.ThreadingHTTPServer):
    """Serves the page, in threads of its own."""

    daemon_threads = True

    def __init__(self, port: int, state: Callable[[int | None, str], dict[str, Any]]) -> None:
        self.state = state
        try:
            super().__init__(("127.0.0.1", port), Handler)
        except OSError as fault:
            raise EdgeFault(f"the page's port {port} can't be had: {fault.strerror}") from fault
        threading.Thread(target=self.serve_forever, daemon=True).start()

    def handle_error(self, *_: Any) -> None:
        """A browser that went away is no fault."""
