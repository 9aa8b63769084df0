"""Measure the calls of the Python package `hdt` on an HDT file, and print a table in Markdown.

    python3 python/speed.py FILE [--rounds N]

It measures the package beside it, over the library that belongs to this tree or that HDT_LIBRARY names: microseconds
by one thread, and how many times as many calls a second 2 and 4 threads on one graph make. The fastest of N short
rounds counts, as other work on the machine takes processors away in longer ones. Run it on a quiet machine. It is no
part of the gate, and nothing that it prints is proved.
"""

from __future__ import annotations

import argparse
import sys
import time
from collections import deque
from collections.abc import Callable
from concurrent.futures import ThreadPoolExecutor
from pathlib import Path

import hdt

SECONDS = 0.04  # of a round
THREADS = (1, 2, 4)
TIMES = 1_000  # that a call on one string is made


def calls(file: Path, graph: hdt.Graph) -> dict[str, tuple[Callable[[int], object], int]]:
    """Return calls by what they do, each with how many times it does it; a call has a number of its own."""
    ids = [it * 7919 % graph.count("subject") + 1 for it in range(TIMES)]
    strings, counts = [graph.string("subject", it) for it in ids], dict(graph.predicates())
    predicate, last = max(counts, key=counts.__getitem__), max(len(graph) - TIMES, 1)
    return {
        "verify": (lambda _: hdt.verify(file), 1),
        "open": (lambda _: hdt.open(file).close(), 1),
        "string": (lambda _: [graph.string("subject", it) for it in ids], TIMES),
        "number": (lambda _: [graph.number("subject", it) for it in strings], TIMES),
        "ids.find of a subject": (lambda _: [list(graph.ids.find(it)) for it in strings], TIMES),
        "find of a subject": (lambda _: [list(graph.find(it)) for it in strings], TIMES),
        "matching of a subject": (lambda _: [graph.matching(it) for it in strings], TIMES),
        "matching of a predicate and an object": (lambda n: graph.ids.matching(p=predicate, o=n % TIMES + 1), 1),
        "page_text of 1,000 lines": (lambda n: graph.page_text(start=n * 104_729 % last, limit=1_000), 1),
        "ids.find of a predicate": (lambda _: deque(graph.ids.find(p=predicate, limit=16_384), 0), 1),
        "ids.array of a predicate": (lambda _: graph.ids.array(p=predicate, limit=16_384), 1),
        "ids.find of all, a triple": (lambda _: deque(graph.ids.find(), 0), len(graph)),
        "find of all, a triple": (lambda _: deque(graph, 0), len(graph)),
        "text of all, a triple": (lambda _: graph.text(), len(graph)),
    }


def rate(call: Callable[[int], object], threads: int) -> float:
    """Make calls in so many threads for a while, and return how many all of them made a second."""

    def work(first: int) -> int:
        made = 0
        while not made or time.perf_counter() < end:
            call(made * threads + first)
            made += 1
        return made

    with ThreadPoolExecutor(threads) as pool:
        list(pool.map(time.sleep, [SECONDS] * threads))  # (its threads are started)
        began = time.perf_counter()
        end = began + SECONDS
        return sum(pool.map(work, range(threads))) / (time.perf_counter() - began)


def main() -> int:
    """Run the command line."""
    words = argparse.ArgumentParser(description=__doc__, formatter_class=argparse.RawDescriptionHelpFormatter)
    words.add_argument("file", type=Path, metavar="FILE", help="an HDT file")
    words.add_argument("--rounds", type=int, default=5, metavar="N", help="measure in N rounds (5)")
    given = words.parse_args()
    print("| call | microseconds each | 2 threads | 4 threads |\n|---|---|---|---|")
    with hdt.open(given.file) as graph:
        for what, (call, times) in calls(given.file, graph).items():
            rounds = [[rate(call, it) for it in THREADS] for _ in range(given.rounds)]
            one, *others = (max(it) for it in zip(*rounds))
            ratios = " | ".join(f"{it / one:.2f}" for it in others)
            print(f"| {what} | {1e6 / one / times:.3f} | {ratios} |", flush=True)
    return 0


if __name__ == "__main__":
    sys.exit(main())
