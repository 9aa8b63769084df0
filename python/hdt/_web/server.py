"""The server of the standard library, for few clients on this machine."""

from __future__ import annotations

from socketserver import ThreadingMixIn
from wsgiref.simple_server import WSGIRequestHandler, WSGIServer


class Server(ThreadingMixIn, WSGIServer):
    """A server with a thread for each connection."""

    daemon_threads = True
    request_queue_size = 128


class Handler(WSGIRequestHandler):
    """Logs nothing, as the application does."""

    def log_message(self, format: str, *args: object) -> None:
        """Log nothing."""
