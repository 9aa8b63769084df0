"""Check the tables of promises, crates/NAME/PROMISES.md, against the sources.

    python3 -m tools.promises             check the tables
    python3 -m tools.promises --counts    print the table of lines, mutants and tests in docs/PROOFS.md

A row of a table has four cells: the promise, its functions, the clauses that state it, and the mutants that break it.
Every name in backquotes there must exist: a function, type or trait of the crate; a clause of that name in the crate,
or of a trait of the library; a mutant in the crate's must-fail/ or wrong/. A remark in the last cell is in round
brackets. Each mutant is named once, and each function that the crate exports is in a row.

The last line is 'N passed, M failed', and the status is 1 if one failed.
"""

from __future__ import annotations

import re
import sys
from collections import Counter
from collections.abc import Iterable, Iterator
from functools import lru_cache
from pathlib import Path

from tools import contracts, repository
from tools.repository import TOP, command_line, print_table

# Clauses that traits of the library state, and methods whose clauses come from a derive.
OF_TRAITS, DERIVED = {"output", "from_gives"}, {"is_clone"}
# The crates that promise nothing: tests and probes.
WITHOUT_PROMISES = re.compile(r"\w+_tests|hdt_probe(_\w+)?")
# The first row of a table of promises.
HEAD = ["promise", "function", "clause", "wrong bodies refused (edits)"]
# A case: whether it holds, and what is wrong otherwise.
Case = tuple[bool, str]


@lru_cache(maxsize=None)
def mutants_of(crate: Path) -> list[str]:
    """Return the names of a crate's mutants, without the numbers that order them."""
    files = [*crate.glob("must-fail/*.edit"), *crate.glob("wrong/*.edit")]
    return sorted(re.sub(r"^\d+_", "", it.stem) for it in files)


def quoted(cell: str) -> list[str]:
    """Return the names in backquotes, without their modules; `a::{b, c}` is two names."""
    braces = re.sub(r"`(?:[^`{]*::)?\{([^`]*)\}`", lambda it: "`" + it[1].replace(", ", "` `") + "`", cell)
    return [it.split("::")[-1] for it in re.findall(r"`([^`]+)`", braces)]


def rows_of(text: str) -> Iterator[list[str]]:
    """Give the cells of the rows of the tables of promises."""
    is_inside = False
    for line in text.split("\n"):
        cells = [it.strip() for it in line.strip("|").split(" | ")] if line.startswith("|") else []
        if is_inside and cells and not line.startswith("|---"):
            yield cells
        is_inside = cells == HEAD or is_inside and bool(cells)


def check_row(crate: Path, cells: list[str], items: set[str], clauses: set[str], own: list[str]) -> Iterator[Case]:
    """Check the names in a row of a table; `own` are its mutants of this crate."""
    for name in quoted(cells[1]):
        yield name in items or (crate / "src" / name).is_file(), f"there is no function, type or trait {name}"
    for name in quoted(cells[2]):
        yield name in clauses | items, f"there is no clause {name}, of {cells[1]}"
    for name, other in re.findall(r"`([^`]+)` in (\w+)", cells[3]):
        yield name in mutants_of(crate.parent / other), f"there is no mutant {name} in {other}"
    for name in own:
        yield name in mutants_of(crate), f"there is no mutant {name}"


def check(crate: Path) -> Iterator[Case]:
    """Check a crate's tables, and that they leave out no mutant and no exported function."""
    file, texts = crate / "PROMISES.md", contracts.sources(crate)
    if not file.is_file():
        yield False, "there is no PROMISES.md"
        return
    code = "\n".join(texts.values())
    items = DERIVED.union(
        re.findall(r"\b(?:fn|struct|enum|trait|const(?! fn\b)) (\w+)", code),
        re.findall(r"\bimpl(?:<[^>]*>)? (?:\w+::)*(\w+)(?:<[^>]*>)? for ", code),
    )
    clauses = OF_TRAITS.union(re.findall(r"\b(?:ensures|requires)\*? (\w+) \{", code))
    mutants, functions = Counter[str](), set[str]()
    for cells in rows_of(file.read_text()):
        yield len(cells) == len(HEAD), f"a row without its four cells: {' | '.join(cells)[:100]}"
        if len(cells) == len(HEAD):
            cells[3] = re.sub(r"\([^)]*\)", "", cells[3])
            own = quoted(re.sub(r"`[^`]+` in \w+", "", cells[3]))
            mutants.update(own)
            functions.update(quoted(cells[1]))
            yield from check_row(crate, cells, items, clauses, own)
    for name in mutants_of(crate):
        yield mutants[name] == 1, f"the mutant {name} is named {mutants[name]} times, and not once"
    for name in sorted({it.name.split("::")[-1] for it in contracts.of_library(texts)}):
        yield name in functions, f"the exported function {name} is in no row"


COUNTS = ["code", "definitions", "laws", "proofs", "must-fail mutants", "mutants", "tests"]


def counts(crate: Path) -> list[int]:
    """Return the numbers of a crate's row: lines of four kinds, mutants in must-fail/ and in wrong/, tests."""

    def lines(files: Iterable[Path]) -> int:
        return sum(it.read_text().count("\n") for it in files)

    source, specs = list(crate.glob("src/**/*.rt")), list(crate.glob("specs/**/*.antt"))
    is_test = crate.name.endswith("_tests")
    return [
        lines(it for it in source if not is_test and not it.stem.endswith("tests")),
        lines(it for it in specs if it.parent.name != "Laws"),
        lines(it for it in specs if it.parent.name == "Laws"),
        lines(crate.glob("proofs/**/*.antt")),
        *(len(list(crate.glob(f"{folder}/*.edit"))) for folder in ("must-fail", "wrong")),
        sum(len(re.findall(r"^\s*#\[test\]", it.read_text(), re.M)) for it in source),
    ]


def main() -> int:
    """Run the command line."""
    words = command_line("promises", __doc__)
    words.add_argument("--counts", action="store_true", help="print the table of lines, mutants and tests instead")
    words.add_argument("--top", type=Path, default=TOP, metavar="DIR", help="the repository (this one)")
    given = words.parse_args()
    crates = [given.top / "crates" / name for name in repository.crates(given.top)]
    if given.counts:
        print_table(COUNTS, {it.name: counts(it) for it in crates})
        return 0
    checked = [it for it in crates if not WITHOUT_PROMISES.fullmatch(it.name)]
    cases = [(holds, f"{it.name}: {why}") for it in checked for holds, why in check(it)]
    wrong = [why for holds, why in cases if not holds]
    print(*wrong, f"{len(cases) - len(wrong)} passed, {len(wrong)} failed", sep="\n")
    return int(bool(wrong))


if __name__ == "__main__":
    sys.exit(main())
