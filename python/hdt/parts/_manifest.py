"""The manifest of a folder, and which part has a subject."""

from __future__ import annotations

import json
import math
import os
import re
import zlib
from collections.abc import Collection, Iterable, Iterator
from dataclasses import asdict, dataclass, fields
from typing import Any, Union

from hdt import _regular as regular
from hdt._files import MANIFEST
from hdt.parts._errors import PartFault

KIND, VERSION = "hdt-parts", 1
HASH = "CRC-32 (gzip) of the subject's dictionary string in UTF-8, modulo the number of parts"
MOST_PARTS = 65_536
MOST_BYTES = 32 * 1024 * 1024  # of a manifest
_SHOWN = 60  # characters of a value in a message
_COUNTS = ("triples", "shared", "subjects", "predicates", "objects")
_SHA256 = re.compile("[0-9a-f]{64}")
_IRI = re.compile(r'[A-Za-z][A-Za-z0-9+.-]*:[^\x00-\x20<>"{}|^`\\\ud800-\udfff]*')  # a base that a header may have


def part_of(subject: str, parts: int) -> int:
    """The number of the part, from 0, that has the triples of a subject, a dictionary string. Raises TypeError.

    >>> hdt.parts.part_of("http://example.org/a", 8)
    6
    """
    return zlib.crc32(subject.encode("utf-8", "surrogatepass")) % parts


def file_of(number: int) -> str:
    """The name of the file of a part."""
    return f"part-{number:05}.hdt"


def base_of(base: str, number: int, parts: int) -> str:
    """The IRI that names a part in its header: a part is not the graph, and the header counts the part's triples."""
    return f"{base}{'-' if '#' in base else '#'}part-{number}-of-{parts}"


def check_size(base: str, inputs: Iterable[str], parts: int) -> None:
    """Raises ValueError if a manifest would be too long to be read again."""
    longest = Part(file_of(0), 2**63, "0" * 64, *[2**63] * len(_COUNTS))
    row = len(json.dumps(asdict(longest), indent=1)) + 64  # (white space before each line, with a good deal to spare)
    if len(json.dumps(base)) + row * parts + sum(len(json.dumps(path)) + 64 for path in inputs) + 1_024 > MOST_BYTES:
        raise ValueError(f"the manifest would have more than {MOST_BYTES:,} bytes: there are too many inputs")


@dataclass(frozen=True)
class Part:
    """A part of a graph: its file in the folder, the bytes and the SHA-256 of that, and the counts of `hdt.verify`.

    A part without triples has no file: its other fields are empty or 0.

    >>> hdt.parts.Part().file
    ''
    """

    file: str = ""
    bytes: int = 0
    sha256: str = ""
    triples: int = 0
    shared: int = 0
    subjects: int = 0
    predicates: int = 0
    objects: int = 0

    @property
    def counts(self) -> tuple[int, ...]:
        """The counts, as `hdt.verify` has them."""
        return tuple(getattr(self, name) for name in _COUNTS)


_PART_FIELDS = {field.name for field in fields(Part)}


@dataclass(frozen=True)
class Manifest:
    """What a folder has: the files of the parts, in order, their counts, and what they were built from.

    `triples` and `subjects` are the counts of the graph. The other counts of parts have no sum: one string may be in
    many parts. `blank_nodes` is "one" or "apart", as `build` has it, and `inputs` has their paths and bytes.

    >>> with hdt.parts.open("graph.parts") as graph:
    ...     graph.manifest.triples, [part.file for part in graph.manifest.parts]
    (3, ['', 'part-00001.hdt', 'part-00002.hdt'])
    """

    base: str
    block_size: int
    blank_nodes: str
    inputs: tuple[tuple[str, int], ...]
    parts: tuple[Part, ...]

    @property
    def triples(self) -> int:
        """How many triples the graph has."""
        return sum(part.triples for part in self.parts)

    @property
    def subjects(self) -> int:
        """How many subjects the graph has: each is in one part."""
        return sum(part.shared + part.subjects for part in self.parts)

    def write(self, folder: str) -> None:
        """Write it to a folder, and hand it to the disk. Raises OSError."""
        values = {
            "kind": KIND,
            "version": VERSION,
            "hash": HASH,
            "base": self.base,
            "block_size": self.block_size,
            "blank_nodes": self.blank_nodes,
            "triples": self.triples,
            "subjects": self.subjects,
            "inputs": [{"path": path, "bytes": size} for path, size in self.inputs],
            "parts": [asdict(part) for part in self.parts],
        }
        with open(os.path.join(folder, MANIFEST), "w", encoding="ascii") as file:
            json.dump(values, file, indent=1)
            file.write("\n")
            file.flush()
            os.fsync(file.fileno())

    @classmethod
    def read(cls, folder: str) -> Manifest:
        """Read that of a folder, of which every field is checked. Raises PartFault if it isn't one, and OSError."""
        with regular.opened(os.path.join(folder, MANIFEST)) as file:
            text = regular.read(file, MOST_BYTES + 1)
        if len(text) > MOST_BYTES:
            raise PartFault(MANIFEST, f"has more than {MOST_BYTES:,} bytes")
        try:
            values = json.loads(text.decode(), object_pairs_hook=_fields, parse_int=_whole)
        except PartFault:
            raise
        except ValueError as error:
            raise PartFault(MANIFEST, f"is no JSON: {error}") from None
        except RecursionError:
            raise PartFault(MANIFEST, "is nested too deeply") from None
        return cls._of(_Object(values, ""))

    @classmethod
    def _of(cls, values: _Object) -> Manifest:
        for name, known in (("kind", KIND), ("version", VERSION), ("hash", HASH)):
            found = values.field(name)
            if type(found) is not type(known) or found != known:
                raise PartFault(MANIFEST, f"has another {name}: {_shown(found)}")
        base, blank_nodes = values.text("base"), values.text("blank_nodes")
        if not _IRI.fullmatch(base):
            raise values.wrong("base")
        if blank_nodes not in ("one", "apart"):
            raise values.wrong("blank_nodes")
        inputs = tuple((row.text("path"), row.number("bytes")) for row in values.rows("inputs"))
        count = values.count("parts")
        if not 1 <= count <= MOST_PARTS:
            raise PartFault(MANIFEST, f"has {count:,} parts")
        parts = tuple(_part(number, row) for number, row in enumerate(values.rows("parts")))
        made = cls(base, values.number("block_size", 1, 65_535), blank_nodes, inputs, parts)
        if (made.triples, made.subjects) != (values.number("triples", 1), values.number("subjects", 1)):
            raise PartFault(MANIFEST, "has triples and subjects that are not the sums of those of its parts")
        return made


def _part(number: int, row: _Object) -> Part:
    """The row of a part with this number. Raises PartFault."""
    row.check_names(_PART_FIELDS)
    numbers = {name: row.number(name) for name in ("bytes", *_COUNTS)}
    part = Part(file=row.text("file"), sha256=row.text("sha256"), **numbers)
    if part == Part():
        return part
    if part.file != file_of(number):
        raise PartFault(MANIFEST, f"has another file for part {number}: {_shown(part.file)}")
    if not _SHA256.fullmatch(part.sha256):
        raise row.wrong("sha256")
    for name in ("bytes", "triples"):
        row.number(name, 1)
    return part


class _Object:
    """An object of a manifest, at a place as `parts[3].`, whose fields are checked as they are taken."""

    def __init__(self, values: Any, place: str) -> None:
        if not isinstance(values, dict):
            raise PartFault(MANIFEST, f"has a wrong {place.rstrip('.') or 'value'}: {_shown(values)}")
        self._values, self._place = values, place

    def wrong(self, name: str) -> PartFault:
        """The error of a field that can't have its value."""
        return PartFault(MANIFEST, f"has a wrong {self._place}{name}: {_shown(self._values[name])}")

    def check_names(self, names: Collection[str]) -> None:
        """Raises PartFault for a field that no row of a part has."""
        for name in self._values:
            if name not in names:
                raise PartFault(MANIFEST, f"has an unexpected {self._place}{_shown(name)}")

    def field(self, name: str) -> Any:
        """The value of a field, of any type. Raises PartFault if the field is missing."""
        if name not in self._values:
            raise PartFault(MANIFEST, f"has no {self._place}{name}")
        return self._values[name]

    def text(self, name: str) -> str:
        """A text."""
        found = self.field(name)
        if not isinstance(found, str) or "\0" in found:
            raise self.wrong(name)
        return found

    def number(self, name: str, least: int = 0, most: int = 2**63 - 1) -> int:
        """A whole number."""
        found = self.field(name)
        if type(found) is not int or not least <= found <= most:
            raise self.wrong(name)
        return found

    def count(self, name: str) -> int:
        """The length of a list."""
        found = self.field(name)
        if not isinstance(found, list):
            raise self.wrong(name)
        return len(found)

    def rows(self, name: str) -> Iterator[_Object]:
        """Iterate over the objects of a list. Nothing after the first wrong one is read."""
        for at in range(self.count(name)):
            yield _Object(self._values[name][at], f"{self._place}{name}[{at}].")


def _fields(pairs: list[tuple[str, Any]]) -> dict[str, Any]:
    """The fields of an object of JSON. Raises PartFault for two of one name."""
    found: dict[str, Any] = {}
    for name, value in pairs:
        if name in found:
            raise PartFault(MANIFEST, f"has {_shown(name)} twice")
        found[name] = value
    return found


def _whole(digits: str) -> Union[int, float]:
    """A whole number of JSON; infinity, which no field may have, for one that takes long to read."""
    return int(digits) if len(digits) <= 20 else math.inf


def _shown(value: Any) -> str:
    """A value of a manifest in a message, in short and in ASCII."""
    if isinstance(value, (dict, list)):
        return "an object" if isinstance(value, dict) else "a list"
    return ascii(value[:_SHOWN]) + "..." * (len(value) > _SHOWN) if isinstance(value, str) else ascii(value)
