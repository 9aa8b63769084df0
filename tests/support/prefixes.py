"""The IDs of strings that begin with a prefix: what the probes answer, and a plain filter."""

from __future__ import annotations

import random
from collections.abc import Iterable, Sequence

from support.probe import Answer

# Prefixes with which no string of a section begins, and the empty one.
SPECIAL = [b"", b"\0", b"\xff", b"\xff\xff", b"a\0b", b"\xc3", b"\xf4\x8f\xbf\xbf\xff"]


def begin(strings: Sequence[bytes], prefix: bytes) -> list[int]:
    """The IDs, from 1, of the strings that begin with a prefix."""
    return [n for n, string in enumerate(strings, 1) if string.startswith(prefix)]


def near(strings: Iterable[bytes]) -> list[bytes]:
    """Prefixes of each string, the string, and longer ones and their neighbours."""
    found = []
    for string in strings:
        found += [string[:1], string[:2], string[: len(string) // 2], string[:-1], string]
        found += [string + byte for byte in (b"\0", b"a", b"\xff")]
        if string and string[-1] < 255:
            found.append(string[:-1] + bytes([string[-1] + 1]))
    return found


def some(strings: Sequence[bytes], count: int, seed: int) -> list[bytes]:
    """So many prefixes of strings at random, of any length, also changed in their last byte."""
    numbers = random.Random(seed)
    found = []
    for _ in range(count):
        string = numbers.choice(strings)
        prefix = string[: numbers.randint(0, len(string))]
        found.append(prefix if numbers.random() < 0.7 else prefix[:-1] + bytes([numbers.randrange(256)]))
    return found


def ids_of(answer: Answer, count: int, ranges: int) -> list[list[int]]:
    """The IDs that the answer of one request gives for each prefix, by so many ranges without their ends.

    Raises:
        AssertionError: The ranges don't ascend, or aren't those of so many strings.
    """
    assert answer[0] == "ok"
    ends = [int(number) for number in answer[1:]]
    found = []
    for at in range(0, len(ends), 2 * ranges):
        end = at + 2 * ranges
        bounds = ends[at:end]
        assert bounds == sorted(bounds) and 1 <= bounds[0] and bounds[-1] <= count + 1
        found.append([n for first, after in zip(bounds[::2], bounds[1::2]) for n in range(first, after)])
    return found
