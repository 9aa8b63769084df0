"""Logs, and what comes from clients and files as text for a log, which a terminal may show."""

from __future__ import annotations

import logging
import traceback

_LONGEST = 1_000  # characters of an error


def escaped(text: str) -> str:
    """A text of which each character can be printed: others, as line feeds and controls, are escapes of Python."""
    return "".join(each if each.isprintable() and each != "\\" else repr(each)[1:-1] for each in text)


def traced(error: BaseException) -> str:
    """An error and where it was raised, with its text escaped."""
    text = repr(error)[:_LONGEST]
    return "".join(traceback.format_tb(error.__traceback__)) + (text if text.isprintable() else escaped(text))


def log_to_standard_error() -> None:
    """Log requests and errors on standard error, unless logging is configured already."""
    logging.basicConfig(level=logging.INFO, format="%(asctime)s %(message)s")
