"""The shared library libhdt and its calls, as c/hdt.h declares them, and memory that is lent to it."""

from __future__ import annotations

import ctypes
import ctypes.util
import os
import subprocess
from pathlib import Path
from typing import Any

from ._brief import Brief

# Answers and reasons of c/hdt.h.
ABSENT, NO_MEMORY, CLOSED = 2**64 - 1, 2**64 - 2, 2**64 - 3
DONE, NOT_A_TERM, NO_TRIPLES, BAD_OPTIONS, IS_CLOSED, IS_OPEN, OUT_OF_MEMORY = 0, 250, 251, 252, 253, 254, 255
ANY, ID, STRING = 0, 1, 2  # kinds of a part of a pattern
BLANK_NODES = {None: 0, "one": 0, "apart": 1}  # of hdt_merge_with
_SMALL = 1024 * 1024  # bytes that are freed in some microseconds


class Verdict(ctypes.Structure):
    """An hdt_verdict."""

    _fields_ = [("reason", ctypes.c_uint32), ("place", ctypes.c_uint64), ("counts", ctypes.c_uint64 * 5)]


class Report(ctypes.Structure):
    """An hdt_report."""

    _fields_ = [
        ("reason", ctypes.c_uint32),
        ("line", ctypes.c_uint64),
        ("column", ctypes.c_uint64),
        ("counts", ctypes.c_uint64 * 5),
    ]


class SplitReport(ctypes.Structure):
    """An hdt_split_report."""

    _fields_ = [
        ("reason", ctypes.c_uint32),
        ("has_blank_nodes", ctypes.c_uint32),
        ("line", ctypes.c_uint64),
        ("column", ctypes.c_uint64),
        ("lines", ctypes.c_uint64),
        ("triples", ctypes.c_uint64),
    ]


class TextResult(ctypes.Structure):
    """An hdt_text_result."""

    _fields_ = [("reason", ctypes.c_uint32), ("role", ctypes.c_uint32), ("number", ctypes.c_uint64)]


class Ranges(ctypes.Structure):
    """An hdt_ranges."""

    _fields_ = [("first", ctypes.c_uint64 * 2), ("second", ctypes.c_uint64 * 2)]


class Handle(ctypes.Structure):
    """An hdt_graph, which isn't open at first.

    Each call writes to it. So it is as long as a line of a processor's cache: calls of different threads would wait for
    each other's lines.
    """

    _fields_ = [("state", ctypes.c_uint64), ("at", ctypes.c_void_p), ("rest", ctypes.c_uint64 * 6)]


class PlainHandle(ctypes.Structure):
    """An hdt_graph of an array of them, which isn't open at first."""

    _fields_ = [("state", ctypes.c_uint64), ("at", ctypes.c_void_p)]


class Made(ctypes.Structure):
    """An hdt_bytes, which has none at first. Used with `with`, it is freed behind it."""

    _fields_ = [
        ("at", ctypes.c_void_p),
        ("len", ctypes.c_uint64),
        ("state", ctypes.c_uint64),
        ("kept", ctypes.c_void_p),
    ]

    def view(self) -> memoryview:
        """The bytes where they lie, until they are freed."""
        if not self.len:
            return memoryview(b"")
        return memoryview((ctypes.c_char * self.len).from_address(self.at)).cast("B")

    def __enter__(self) -> Made:
        return self

    def __exit__(self, *_: object) -> None:
        (held if self.len <= _SMALL else library).hdt_free(self)


def _of_checkout() -> list[str]:
    """The library of the checkout that this package is part of, if it is part of one and the library belongs to it."""
    current = Path(__file__).resolve().parents[2] / "tools/current"
    if not current.is_file():
        return []
    found = subprocess.run([current], stdout=subprocess.PIPE, stderr=subprocess.PIPE, text=True)
    if found.returncode:
        raise ImportError(found.stderr.strip())
    return [str(current.parents[1] / found.stdout.strip() / "libhdt.so")]


def _candidates() -> list[str]:
    """Where the library may be, the first one first."""
    if named := os.environ.get("HDT_LIBRARY"):
        return [os.path.join(named, "libhdt.so") if os.path.isdir(named) else named]
    beside = Path(__file__).resolve().parent / "libhdt.so"
    if beside.exists():
        return [str(beside)]
    if found := _of_checkout():
        return found
    system = ctypes.util.find_library("hdt")
    return [system] if system else []


def _load() -> Any:
    """The library with the types of its calls. Other threads run during a call (ctypes lets go of Python's lock)."""
    candidates = _candidates()
    if not candidates:
        raise ImportError(
            "no libhdt.so: it is looked for in the file that HDT_LIBRARY names, beside this package, in the "
            "checkout that the package is part of, and where the system finds it"
        )
    try:
        loaded = ctypes.CDLL(candidates[0])
    except OSError as why:
        raise ImportError(f"{candidates[0]} can't be loaded: {why}") from None
    bytes_of, graph, role, number, size = (
        [ctypes.c_void_p, ctypes.c_size_t],
        ctypes.POINTER(Handle),
        ctypes.c_uint32,
        ctypes.c_uint64,
        ctypes.c_size_t,
    )
    pattern, room = ctypes.c_void_p, ctypes.c_void_p  # (a pattern is given as its bytes)
    made, ranges = ctypes.POINTER(Made), ctypes.POINTER(Ranges)
    verdict, report, outcome = ctypes.POINTER(Verdict), ctypes.POINTER(Report), ctypes.POINTER(TextResult)
    split_report = ctypes.POINTER(SplitReport)
    for name, parameters, answer in (
        ("hdt_verify", [*bytes_of, verdict], None),
        ("hdt_verify_tight", [*bytes_of, verdict], None),
        ("hdt_open", [*bytes_of, graph, verdict], None),
        ("hdt_close", [graph], None),
        ("hdt_share", [graph, graph], ctypes.c_uint32),
        ("hdt_len", [graph], number),
        ("hdt_count", [graph, role], number),
        ("hdt_number", [graph, role, ctypes.c_char_p, size], number),
        ("hdt_string", [graph, role, number, room, size], number),
        ("hdt_strings", [graph, role, room, size, made, room, size], number),
        ("hdt_header", [graph, room, size], number),
        ("hdt_prefix", [graph, role, ctypes.c_char_p, size, ranges], number),
        ("hdt_predicates", [graph, room, size], number),
        ("hdt_pattern_find", [graph, pattern, number, room, size], number),
        ("hdt_pattern_matching", [graph, pattern], number),
        ("hdt_pattern_text", [graph, pattern, made, outcome], None),
        ("hdt_page", [graph, pattern, number, room, size, room], number),
        ("hdt_page_text", [graph, pattern, number, number, made, room, outcome], None),
        ("hdt_build", [*bytes_of, *bytes_of, ctypes.c_uint32, made, report], None),
        ("hdt_merge_with", [*bytes_of, ctypes.c_uint32, *bytes_of, ctypes.c_uint32, made, report], None),
        ("hdt_split", [*bytes_of, ctypes.c_uint32, *bytes_of, made, room, size, split_report], None),
        ("hdt_rewrite", [*bytes_of, ctypes.c_uint32, made, verdict], None),
        ("hdt_with_header", [*bytes_of, *bytes_of, made, verdict, report], None),
        ("hdt_free", [made], None),
        ("hdt_version", [], ctypes.c_uint32),
        ("hdt_reason_name", [ctypes.c_uint32, room, size], number),
        ("hdt_text_reason_name", [ctypes.c_uint32, room, size], number),
    ):
        try:
            call = getattr(loaded, name)
        except AttributeError:
            raise ImportError(f"{candidates[0]} is another library, or an older one: it has no {name}") from None
        call.argtypes, call.restype = parameters, answer
    return loaded


class _Buffer(ctypes.Structure):
    """A Py_buffer of Python's C API."""

    _fields_ = [
        ("buf", ctypes.c_void_p),
        ("obj", ctypes.c_void_p),
        ("len", ctypes.c_ssize_t),
        ("itemsize", ctypes.c_ssize_t),
        ("readonly", ctypes.c_int),
        ("ndim", ctypes.c_int),
        ("format", ctypes.c_char_p),
        ("shape", ctypes.c_void_p),
        ("strides", ctypes.c_void_p),
        ("suboffsets", ctypes.c_void_p),
        ("internal", ctypes.c_void_p),
    ]


_get, _release = ctypes.pythonapi.PyObject_GetBuffer, ctypes.pythonapi.PyBuffer_Release
_get.argtypes, _get.restype = [ctypes.py_object, ctypes.POINTER(_Buffer), ctypes.c_int], ctypes.c_int
_release.argtypes, _release.restype = [ctypes.POINTER(_Buffer)], None


class Lent:
    """The bytes of an object, as `bytes` or a mapped file, borrowed without a copy.

    The object keeps them until they are given back. (ctypes alone lends only what may be written.)
    """

    def __init__(self, data: Any) -> None:
        self._buffer = _Buffer()
        _get(data, self._buffer, 0)
        self.address: int = self._buffer.buf
        self.size: int = self._buffer.len

    def give_back(self) -> None:
        """Ends the loan; a second time it does nothing."""
        _release(self._buffer)

    def __enter__(self) -> Lent:
        return self

    def __exit__(self, *_: object) -> None:
        self.give_back()


library = _load()
# The same library, with calls that keep Python's lock.
held = ctypes.PyDLL(library._name)
held.hdt_free.argtypes, held.hdt_free.restype = [ctypes.POINTER(Made)], None
for _name in ("hdt_number", "hdt_string"):
    setattr(library, _name, Brief(getattr(held, _name), getattr(library, _name)).call)
VERSION = "{}.{}".format(*divmod(library.hdt_version(), 2**16))  # of hdt.h: its major and its minor number
