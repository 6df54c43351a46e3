"""The site over HTTP, on this machine alone."""

from __future__ import annotations

import re
import socket
import socketserver
import sys
import traceback
from http import HTTPStatus
from http.server import BaseHTTPRequestHandler, ThreadingHTTPServer
from typing import Any, Optional

from .site import Response, Site

ADDRESS = "127.0.0.1"
# a name of this machine; the port may be another where it is passed on
_HOST = re.compile(r"(?:127\.0\.0\.1|localhost)(?::[0-9]{1,5})?", re.I)
_METHODS = ("GET", "HEAD")
_HEADERS = {
    "Content-Security-Policy": "default-src 'none'; style-src 'self'; img-src 'self'; form-action 'self'; "
    "base-uri 'none'; frame-ancestors 'none'",
    "X-Content-Type-Options": "nosniff",
    "X-Frame-Options": "DENY",
    "Referrer-Policy": "no-referrer",
    "Cross-Origin-Opener-Policy": "same-origin",
    "Cross-Origin-Resource-Policy": "same-origin",
    "Cache-Control": "no-store",
}
# in seconds: how long a request is waited for
_PATIENCE = 30


class Server(ThreadingHTTPServer):
    """Serves a site, each request in a thread of its own."""

    request_queue_size = 128
    site: Site

    def __init__(self, port: int) -> None:
        """Takes the port, or any that is free for 0. Raises `OSError` where it can't be taken."""
        super().__init__((ADDRESS, port), Handler)

    def serve(self, site: Site) -> None:
        """Answers requests, also those that came before, until it is interrupted."""
        self.site = site
        self.serve_forever()

    def server_bind(self) -> None:
        """Takes the port, and asks nobody for a name of it."""
        socketserver.TCPServer.server_bind(self)
        self.server_name, self.server_port = self.server_address[:2]

    def handle_error(self, request: Any, client_address: Any) -> None:
        """A browser that went away, or sent nothing in time, is nothing to tell of."""
        if not isinstance(sys.exc_info()[1], (ConnectionError, socket.timeout)):
            super().handle_error(request, client_address)


class Handler(BaseHTTPRequestHandler):
    """A request. Only GET and HEAD are answered, and only where they are sent to a name of this machine."""

    server: Server
    timeout = _PATIENCE
    # an answer has its headers also where the request is too old or too odd to name a version
    default_request_version = "HTTP/1.0"

    def version_string(self) -> str:
        return "birchagain"

    def log_message(self, *_arguments: Any) -> None:
        """Queries are nobody else's: nothing is written of requests."""

    def do_GET(self) -> None:  # noqa: N802
        self._answer(True)

    def do_HEAD(self) -> None:  # noqa: N802
        self._answer(False)

    def _answer(self, has_body: bool) -> None:
        hosts = self.headers.get_all("Host", [])
        if len(hosts) != 1 or not _HOST.fullmatch(hosts[0].strip()):
            self._send(self.server.site.refuse(421, "This page answers at 127.0.0.1 and localhost alone."), has_body)
            return
        if self._is_built_into_another_site():
            self._send(self.server.site.refuse(403, "This page is no part of another."), has_body)
            return
        try:
            response = self.server.site.respond(self.path)
        except Exception:
            traceback.print_exc()
            response = self.server.site.refuse(500, "This went wrong. The terminal says more.")
        self._send(response, has_body)

    def _is_built_into_another_site(self) -> bool:
        """Whether a page of another site asks for this one as a picture, a frame and the like, as browsers tell.

        A link there that a reader follows is none of these.
        """
        is_elsewhere = self.headers.get("Sec-Fetch-Site", "none") in ("cross-site", "same-site")
        return is_elsewhere and self.headers.get("Sec-Fetch-Dest") != "document"

    def send_error(self, code: int, message: Optional[str] = None, explain: Optional[str] = None) -> None:
        """What is no request that is answered, in a page like all others."""
        status = HTTPStatus(code)
        if status is HTTPStatus.NOT_IMPLEMENTED:
            status = HTTPStatus.METHOD_NOT_ALLOWED
        self.close_connection = True
        self._send(self.server.site.refuse(status, f"{status.phrase}."), self.command != "HEAD")

    def _send(self, response: Response, has_body: bool) -> None:
        self.send_response(response.status)
        for name, value in _HEADERS.items():
            self.send_header(name, value)
        if response.status == HTTPStatus.METHOD_NOT_ALLOWED:
            self.send_header("Allow", ", ".join(_METHODS))
        self.send_header("Content-Type", response.kind)
        self.send_header("Content-Length", str(len(response.body)))
        self.end_headers()
        if has_body:
            self.wfile.write(response.body)
