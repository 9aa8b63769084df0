"""The gate, `make prove`: every proof, the mutants, the shipped files and all tests.

It runs its parts one after another, stops at the first that fails, prints a table of what each took, and ends with the
line 'N passed, M failed'. CONTRIBUTING.md says what the parts do.
"""

from __future__ import annotations

import os
import re
import resource
import sys
import time
from collections.abc import Callable, Mapping

from tools import build, manifest
from tools.repository import Failed, command_line, kit, kit_line, lanes, lines_of

Counts = tuple[int, int]

# What checks the scripts and packages; a user who runs the tests does without.
MORE_PACKAGES = """aspell aspell-en codespell flake8 git lintian mypy python3-typeshed raptor2-utils serdi shellcheck
    default-jdk-headless libapache-jena-java libjna-java junit5 python3-tqdm python3-zstandard time zstd"""


def run(*words: str, env: Mapping[str, str] | None = None) -> Counts:
    """Run a command, show what it prints, and return the counts of its last line; one failure if it ends otherwise."""
    last, bad = "", 0
    try:
        for line in lines_of(*words, env=env):
            print(line, end="", flush=True)
            last = line.strip() or last
    except Failed:
        bad = 1
    found = re.match(r"(\d+) (?:passed|refused), (\d+) failed", last)
    return (int(found[1]), max(int(found[2]), bad)) if found else (0, 1)


def proofs() -> Counts:
    """Prove every crate and run its tests and programs."""
    kit()
    sources = manifest.sources()
    passed, failed = run("rt", "ci", env={"RT_JOBS": os.environ.get("RT_JOBS", str(lanes()))})
    if not failed:
        build.keep_proved(sources)
    return passed, failed


def dist() -> Counts:
    """Compare dist/ with the tree's sources, and with the files just made if the kit is the same."""
    remedy = "make dist, and commit dist/"
    try:
        shipped = manifest.read(manifest.SHIPPED)
    except (OSError, ValueError) as why:
        print(f"dist: {why}; to mend it: {remedy}")
        return 0, 1
    made = manifest.read(manifest.BUILT)
    wrong = [f"{name} is missing or altered" for name in manifest.altered(manifest.SHIPPED)]
    present = {str(it.relative_to(manifest.SHIPPED)) for it in manifest.SHIPPED.rglob("*") if it.is_file()}
    wrong += [f"{name} is in no manifest" for name in sorted(present - {*shipped.files, "MANIFEST"})]
    if shipped.sources != made.sources:
        wrong.append("dist/ is not made of the tree's sources")
    if shipped.kit == made.kit:
        differing = (it for it in {*shipped.files, *made.files} if shipped.files.get(it) != made.files.get(it))
        wrong += [f"{it} is not what was just proved and built" for it in sorted(differing)]
    else:
        print(f"dist: made with {shipped.kit}, and this kit is {made.kit}: not compared byte for byte; both are tested")
    for found in wrong:
        print(f"dist: {found}; to mend it: {remedy}")
    return len(shipped.files) + 1 - min(len(wrong), len(shipped.files) + 1), len(wrong)


def tests() -> Counts:
    """Run the tests over dist/, and over the files just made if another kit made dist/."""
    folders = [manifest.SHIPPED]
    if manifest.read(manifest.SHIPPED).kit != kit_line():
        folders.append(manifest.BUILT)
    passed = failed = 0
    for folder in folders:
        good, bad = run("./test", env={"HDT_BUILT": str(folder / manifest.PLATFORM), "MORE_PACKAGES": MORE_PACKAGES})
        passed, failed = passed + good, failed + bad
    good, bad = run("./test", "-m", "kit", env={"HDT_BUILT": str(manifest.BUILT / manifest.PLATFORM)})
    return passed + good, failed + bad


PARTS: dict[str, Callable[[], Counts | None]] = {
    "rt ci": proofs,
    "link": build.link,
    "mutants": lambda: run(sys.executable, "-m", "tools.mutants"),
    "promises": lambda: run(sys.executable, "-m", "tools.promises"),
    "dist": dist,
    "tests": tests,
}


def main() -> int:
    """Run the command line."""
    words = command_line("gate", __doc__)
    words.add_argument("parts", nargs="*", metavar="PART", help=f"only these parts, of {', '.join(PARTS)} (all)")
    given = words.parse_args()
    if unknown := [it for it in given.parts if it not in PARTS]:
        words.error(f"there is no part {unknown[0]}")
    passed = failed = 0
    table = ["| part | minutes by the clock | CPU minutes | passed | failed |", "|---|---|---|---|---|"]
    for name in given.parts or PARTS:
        clock, processor = time.monotonic(), sum(resource.getrusage(resource.RUSAGE_CHILDREN)[:2])
        print(f"== {name}", flush=True)
        try:
            good, bad = PARTS[name]() or (1, 0)
        except (Failed, OSError, ValueError) as why:
            print(f"{name}: {why}")
            good, bad = 0, 1
        minutes = (time.monotonic() - clock) / 60
        cpu = (sum(resource.getrusage(resource.RUSAGE_CHILDREN)[:2]) - processor) / 60  # (of commands that have ended)
        table.append(f"| {name} | {minutes:.1f} | {cpu:.1f} | {good:,} | {bad:,} |")
        passed, failed = passed + good, failed + bad
        if bad:
            break
    print("\n".join(table))
    print(f"{passed} passed, {failed} failed")
    return 1 if failed else 0


if __name__ == "__main__":
    sys.exit(main())
