"""Measure the program `hdt` beside other tools, and draw the plots of docs/PERFORMANCE.md.

    python3 -m tools.plots                      measure, and write docs/plots/*.svg and docs/plots/measured.json
    python3 -m tools.plots --lines 10000        measure documents of other sizes
    python3 -m tools.plots --draw               draw what docs/plots/measured.json has, without measuring

It draws three plots: CPU seconds by the size of a document, beside `sort -u`, serdi and rapper; peak memory per triple
of `build`; and CPU microseconds per request, by kind. Documents are those of tools.documents in the order of an export.
The least of three runs counts. Run it on a quiet machine. It needs /usr/bin/time and matplotlib (Debian's time and
python3-matplotlib).
"""

from __future__ import annotations

import datetime
import json
import os
import random
import shutil
import sys
import tempfile
from pathlib import Path
from typing import Any

from tools import documents
from tools.memory import cost
from tools.repository import TOP, built, command_line

FOLDER = TOP / "docs/plots"
RUNS = 3
SIZES = [100_000, 300_000, 1_000_000, 3_000_000]
# The commands that are timed: those that read a document, or the file that is built of it.
COMMANDS = {
    "hdt build": "{hdt} build {document} {file}",
    "hdt verify": "{hdt} verify {file}",
    "hdt dump": "{hdt} dump {file}",
    "sort -u": "sort --parallel=1 -u {document}",
    "serdi": "serdi -i ntriples {document}",
    "rapper -c": "rapper -q -c -i ntriples {document}",
}
# The requests of `answer` that are timed, on a document of this many lines: their number, and the form of each.
REQUEST_LINES = 300_000
REQUESTS = {
    "S ? ?": (20_000, "{0} ? ?"),
    "S P ?": (20_000, "{0} {1} ?"),
    "S ? O": (20_000, "{0} ? {2}"),
    "? P O": (5_000, "? {1} {2}"),
    "? ? O": (5_000, "? ? {2}"),
    "S P O": (20_000, "{0} {1} {2}"),
}


def measure(hdt: Path, folder: Path, sizes: list[int]) -> dict[str, Any]:
    """Return where and when; by command rows of size, CPU seconds and peak bytes; by kind of request CPU microseconds.

    Those of opening the file are left out. Raises Failed.
    """
    about = f"{datetime.date.today()}, {len(os.sched_getaffinity(0))} cores, load {os.getloadavg()[0]:.1f}"
    document, file, asked, out = (folder / it for it in ("document.nt", "file.hdt", "requests", "out"))
    commands: dict[str, list[tuple[int, float, int]]] = {}
    for size in sizes:
        documents.write(document, "exported", size)
        for what, form in COMMANDS.items():
            words = [it.format(hdt=hdt, document=document, file=file) for it in form.split()]
            if shutil.which(words[0]):
                cpu, memory = min(cost(words, out=out) for _ in range(RUNS))
                commands.setdefault(what, []).append((size, cpu, memory))
                print(f"{size:,} lines, {what}: {cpu:.3f} s, {memory / 1e6:.0f} MB", flush=True)
    documents.write(document, "exported", REQUEST_LINES)
    cost([str(it) for it in (hdt, "build", document, file)])
    lines, answer, requests = document.read_text().splitlines(), [str(hdt), "answer", str(file)], {}
    opening = min(cost(answer, out=out) for _ in range(RUNS)).cpu
    for kind, (times, form) in REQUESTS.items():
        chosen = (it.removesuffix(" .").split(" ", 2) for it in random.Random(times).choices(lines, k=times))
        asked.write_text("".join(form.format(*it) + "\n" for it in chosen))
        cpu = min(cost(answer, asked, out) for _ in range(RUNS)).cpu
        requests[kind] = max(cpu - opening, 0) / times * 1e6
    return {"about": about, "commands": commands, "requests": requests}


def draw(about: str, commands: dict[str, list[tuple[int, float, int]]], requests: dict[str, float]) -> None:
    """Draw the plots of what was measured."""
    import matplotlib

    matplotlib.use("svg")
    from matplotlib import pyplot

    pyplot.rcParams.update({"svg.hashsalt": "hdt", "svg.fonttype": "none", "font.size": 9, "axes.grid": True})

    def save(name: str, title: str, across: str, up: str) -> None:
        pyplot.title(title)
        pyplot.xlabel(across)
        pyplot.ylabel(up)
        pyplot.tight_layout()
        pyplot.savefig(FOLDER / name, metadata={"Date": None, "Creator": None})
        pyplot.close()

    pyplot.figure(figsize=(6, 3.6))
    for what, rows in commands.items():
        pyplot.loglog([row[0] for row in rows], [row[1] for row in rows], marker="o", label=what)
    pyplot.legend()
    save("speed.svg", f"CPU seconds by size ({about})", "lines of N-Triples", "CPU seconds")

    pyplot.figure(figsize=(6, 3))
    build = commands["hdt build"]
    pyplot.semilogx([row[0] for row in build], [row[2] / row[0] for row in build], marker="o")
    pyplot.ylim(bottom=0)
    save("memory.svg", "Peak memory of build, with its input", "lines of N-Triples", "bytes per line")

    pyplot.figure(figsize=(6, 3))
    pyplot.barh(list(requests), list(requests.values()))
    save("requests.svg", f"Requests on {REQUEST_LINES:,} lines, with their answers", "CPU microseconds per request", "")


def main() -> int:
    """Run the command line."""
    words = command_line("plots", __doc__)
    words.add_argument("--lines", nargs="+", type=int, metavar="N", default=SIZES, help="sizes of documents")
    words.add_argument("--draw", action="store_true", help="draw what was measured before")
    given = words.parse_args()
    data, memory = FOLDER / "measured.json", "/dev/shm" if os.access("/dev/shm", os.W_OK) else None
    if not given.draw:
        with tempfile.TemporaryDirectory(prefix="hdt-plots-", dir=memory) as folder:
            data.write_text(json.dumps(measure(built() / "hdt", Path(folder), given.lines), indent=1) + "\n")
    draw(**json.loads(data.read_text()))
    return 0


if __name__ == "__main__":
    sys.exit(main())
