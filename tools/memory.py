"""Measure the peak memory and the CPU time of commands by kind of document, and print the table of docs/SIZING.md.

    python3 -m tools.memory                  all kinds, in their sizes
    python3 -m tools.memory --scale 0.5      documents half as large
    python3 -m tools.memory --scratch        only the table of `build` and `merge` with `--memory`

A cell has bytes a triple: of a line of the document, of the HDT file, and of a command's peak memory without the
program's own, which it has on a file of three triples. `merge` makes one file of those of the document's two halves.
`answer` opens a file and gets no request; its cell is without the file. So is that of `dump`, which has MB in all,
since it hardly grows with the text. Buffers grow in steps, so a document is made in five sizes, of which one is just
above a power of two. The largest cell counts. Peaks hardly differ from run to run, also on a busy machine. The last
cells have CPU microseconds a triple, the median of the sizes, which do depend on how busy the machine is.

The table of `--memory` has one document of each kind: peaks in MB, for `merge` without its largest file; CPU
microseconds a triple and how many times those without `--memory`, the least of three runs of each in turn; and the most
bytes of scratch files, by looking twenty times a second, in times of the HDT file.

It needs /usr/bin/time (Debian's time), and is no part of the gate.
"""

from __future__ import annotations

import datetime
import os
import statistics
import subprocess
import sys
import tempfile
import threading
from collections.abc import Iterator, Sequence
from contextlib import contextmanager
from pathlib import Path
from typing import NamedTuple

from tools import documents
from tools.repository import TOP, Failed, built, command_line

# The kinds, as the table names them; how many triples a document has.
KINDS = {
    "exported": ("as exported", 4_000_000), "people": ("people", 5_500_000), "labels": ("many labels", 2_000_000),
    "short": ("short, distinct", 3_000_000), "long": ("long literals", 300_000),
}
COLUMNS = ["text", "file", "build", "merge", "open beyond the file", "rewrite", "dump beyond the file, MB"]
TIMES = [f"{it}, µs" for it in ("build", "merge", "open", "rewrite", "dump")]
THREE = TOP / "samples/three.hdt"
SIZE = "64M"
SCRATCH_COLUMNS = ["build, MB", "build, µs", "of `build`", "merge beyond its largest file, MB", "merge, µs",
                   "of `merge`", "scratch, times the file"]


class Cost(NamedTuple):
    """What a command took: seconds of a processor, and its peak memory in bytes."""

    cpu: float
    memory: int


def cost(words: Sequence[str | Path], given: str | Path = os.devnull, out: str | Path = os.devnull) -> Cost:
    """Run a command between two files. Raises Failed, and OSError without /usr/bin/time.

    That one says the peak: the one that the system keeps of a process begins with that of the process that starts it.
    """
    environment = {**os.environ, "LC_ALL": "C"}
    with open(given, "rb") as source, open(out, "wb") as output, tempfile.NamedTemporaryFile("r") as peak:
        timed = ["/usr/bin/time", "-q", "-f", "%M", "-o", peak.name, *words]
        process = subprocess.Popen(timed, stdin=source, stdout=output, stderr=subprocess.DEVNULL, env=environment)
        _, status, usage = os.wait4(process.pid, 0)
        process.returncode = os.waitstatus_to_exitcode(status)
        if process.returncode:
            raise Failed(f"{' '.join(map(str, words))} ended with status {process.returncode}")
        return Cost(usage.ru_utime + usage.ru_stime, int(peak.read()) * 1024)


def measure(program: Path, folder: Path, kind: str, count: int) -> tuple[list[float], list[float]]:
    """Return the cells of a document with so many triples, and the CPU microseconds a triple. Raises Failed."""
    document, file, again = (folder / it for it in ("document.nt", "file.hdt", "again.hdt"))
    halves, own = [folder / "half-aa", folder / "half-ab"], cost([program, "answer", THREE]).memory
    documents.write(document, kind, count)

    def run(*words: str | Path) -> Cost:
        """Return what a command takes, its peak without the program's own."""
        cpu, memory = cost([program, *words])
        return Cost(cpu, memory - own)

    subprocess.run(["split", "-n", "l/2", document, folder / "half-"], check=True)
    for half in halves:
        run("build", half, half.with_suffix(".hdt"))
        half.unlink()
    build, merge = run("build", document, file), run("merge", *(it.with_suffix(".hdt") for it in halves), again)
    answer, rewrite, dump = run("answer", file), run("rewrite", file, again), run("dump", file)
    size = file.stat().st_size
    cells = [document.stat().st_size, size, build.memory, merge.memory, answer.memory - size, rewrite.memory]
    times = [it.cpu / count * 1_000_000 for it in (build, merge, answer, rewrite, dump)]
    return [*(it / count for it in cells), (dump.memory - size) / 1_000_000], times


def print_table(program: Path, folder: Path, scale: float) -> None:
    """Print the table. A document has five sizes, down to about half of the most; one is just above a power of two."""
    print(f"{datetime.date.today()}; bytes and microseconds a triple, of dump MB\n")
    columns = ["document", "triples", *COLUMNS, *TIMES]
    print(f"| {' | '.join(columns)} |\n|{'---|' * len(columns)}", flush=True)
    for kind, (name, triples) in KINDS.items():
        most = max(int(triples * scale), 100)
        sizes = [*(int(most * 2 ** (-quarter / 4)) for quarter in range(4)), int(2 ** (most.bit_length() - 1) * 1.01)]
        rows = [measure(program, folder, kind, it) for it in sizes]
        peaks = [max(column) for column in zip(*(cells for cells, _ in rows))]
        times = [statistics.median(column) for column in zip(*(times for _, times in rows))]
        cells = [*(f"{it:,.0f}" for it in peaks), *(f"{it:.2f}" for it in times)]
        print(f"| {name} | {min(sizes):,} to {max(sizes):,} | {' | '.join(cells)} |", flush=True)


@contextmanager
def watched(folder: Path) -> Iterator[list[int]]:
    """Look at the files below a folder until the end, and put the most bytes that they had into a list of one."""
    most, is_over = [0], threading.Event()

    def look() -> None:
        while not is_over.wait(0.05):
            sizes = (it.stat().st_size for it in folder.rglob("*") if it.is_file())
            try:
                most[0] = max(most[0], sum(sizes))
            except FileNotFoundError:  # (one went meanwhile)
                pass

    thread = threading.Thread(target=look)
    thread.start()
    try:
        yield most
    finally:
        is_over.set()
        thread.join()


def measure_scratch(program: Path, folder: Path, kind: str, count: int) -> list[str]:
    """Return the cells of a document with so many triples in the table of `--memory`. Raises Failed."""
    document, file, scratch = (folder / it for it in ("document.nt", "file.hdt", "scratch"))
    halves = [folder / "half-aa", folder / "half-ab"]
    documents.write(document, kind, count)
    subprocess.run(["split", "-n", "l/2", document, folder / "half-"], check=True)
    files = [it.with_suffix(".hdt") for it in halves]
    for half, made in zip(halves, files):
        cost([program, "build", half, made])
        half.unlink()
    scratch.mkdir(exist_ok=True)
    limited: list[str | Path] = ["--memory", SIZE, "--scratch", scratch]

    def costs(*words: str | Path) -> tuple[Cost, Cost]:
        """Return the least costs of a command with `--memory`, and without."""
        runs = [(cost([program, *words, *limited]), cost([program, *words])) for _ in "abc"]
        return min(it for it, _ in runs), min(it for _, it in runs)

    with watched(scratch) as most:
        build = costs("build", document, file)
        merge = costs("merge", *files, file)
    beyond = merge[0].memory - max(it.stat().st_size for it in files)
    cells = []
    for (few, many), memory in ((build, build[0].memory), (merge, beyond)):
        cells += [f"{memory / 1e6:,.0f}", f"{few.cpu / count * 1e6:.2f}", f"{few.cpu / many.cpu:.2f}"]
    return [*cells, f"{most[0] / file.stat().st_size:.1f}"]


def print_scratch_table(program: Path, folder: Path, scale: float) -> None:
    """Print the table of `--memory`."""
    print(f"{datetime.date.today()}; with --memory {SIZE}\n")
    columns = ["document", "triples", *SCRATCH_COLUMNS]
    print(f"| {' | '.join(columns)} |\n|{'---|' * len(columns)}", flush=True)
    for kind, (name, triples) in KINDS.items():
        count = max(int(triples * scale), 100)
        print(f"| {name} | {count:,} | {' | '.join(measure_scratch(program, folder, kind, count))} |", flush=True)


def main() -> int:
    """Run the command line."""
    words = command_line("memory", __doc__)
    words.add_argument("--scale", type=float, default=1.0, metavar="F", help="multiply the sizes of documents (1)")
    words.add_argument("--scratch", action="store_true", help="only the table of --memory")
    given, memory = words.parse_args(), "/dev/shm" if os.access("/dev/shm", os.W_OK) else None
    try:
        with tempfile.TemporaryDirectory(prefix="hdt-memory-", dir=memory) as folder:
            if not given.scratch:
                print_table(built() / "hdt", Path(folder), given.scale)
            print_scratch_table(built() / "hdt", Path(folder), given.scale)
    except (Failed, OSError) as why:
        print(f"memory: {why}", file=sys.stderr)
        return 2
    return 0


if __name__ == "__main__":
    sys.exit(main())
