"""The parameters of a request, and its refusal."""

from __future__ import annotations

import re

Headers = list[tuple[str, str]]

HOST = re.compile(r"(?:[A-Za-z0-9._-]{1,253}|\[[0-9A-Fa-f:.]{2,45}\])(?::\d{1,5})?\Z")
_HALF_AN_ESCAPE = re.compile(rb"%(?![0-9A-Fa-f]{2})")
_ESCAPE = re.compile(rb"%(..)", re.DOTALL)


class Refusal(Exception):
    """An answer that is no page: a status, a reason for people, headers."""

    def __init__(self, status: str, reason: str, *headers: tuple[str, str]) -> None:
        super().__init__(reason)
        self.status, self.reason, self.headers = status, reason, list(headers)


def bad(reason: str) -> Refusal:
    """The refusal of a request that is wrong."""
    return Refusal("400 Bad Request", reason)


def _decoded(raw: bytes) -> str:
    plain = raw.replace(b"+", b" ")
    return _ESCAPE.sub(lambda match: bytes([int(match[1], 16)]), plain).decode()


def parameters(query: bytes) -> list[tuple[str, str, bytes]]:
    """The parameters of a query: names and values decoded, and the bytes as they came."""
    found = []
    for raw in query.split(b"&"):
        if _HALF_AN_ESCAPE.search(raw):
            raise bad("A percent sign of the query is not followed by two hexadecimal digits.")
        name, _, value = raw.partition(b"=")
        try:
            if raw:
                found.append((_decoded(name), _decoded(value), raw))
        except UnicodeDecodeError:
            raise bad("A parameter is not UTF-8 once its percent signs are decoded.") from None
    return found
