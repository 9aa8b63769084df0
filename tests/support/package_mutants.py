"""Plants wrong bodies in a Python package, and says for each which test sees it first.

`python_mutants.py` and the others that are named so have the bodies, and are run as

    HDT_BUILT=FOLDER PYTHONPATH=tests:. /usr/bin/python3 tests/support/python_mutants.py [NUMBER..]

The tests of a package run over a copy of it, one body after another. The status is 1 if a body is not seen. Tests that
take more than five CPU minutes, or half an hour, have seen it, as those of the right body take less than one minute.
"""

from __future__ import annotations

import os
import re
import resource
import shutil
import signal
import subprocess
import sys
import tempfile
from collections.abc import Callable, Mapping, Sequence
from pathlib import Path
from typing import Optional

TOP = Path(__file__).resolve().parents[2]
MOST, LONGEST = 300, 1_800  # CPU seconds, and seconds, of the tests of one body

# The wrong bodies of a package, by their modules: a name, a text of the module, and what it is replaced by.
Wrong = Mapping[str, Sequence[tuple[str, str, str]]]


def limit_time() -> None:
    """Limit the CPU time of this process, which says more than the clock on a busy machine, and how long it waits."""
    resource.setrlimit(resource.RLIMIT_CPU, (MOST, MOST))
    signal.alarm(LONGEST)


def first_test(module: str, old: str, new: str, tests: Sequence[str]) -> Optional[str]:
    """The first test that fails over a copy with a text of a module replaced, or None."""
    with tempfile.TemporaryDirectory() as folder:
        top = Path(folder)
        for name in ("python", "reference", "tests"):
            shutil.copytree(TOP / name, top / name, ignore=shutil.ignore_patterns("__pycache__", ".hypothesis"))
        shutil.copy(TOP / "pytest.ini", top)
        for name in ("samples", "docs"):
            os.symlink(TOP / name, top / name)
        source = (top / module).read_text()
        if old not in source:
            raise SystemExit(f"{module} has no such text: {old}")
        (top / module).write_text(source.replace(old, new))
        command = [sys.executable, "-B", "-m", "pytest", "-q", "-x", "-p", "no:cacheprovider", *tests]
        done = subprocess.run(command, cwd=top, stdout=subprocess.PIPE, stderr=subprocess.STDOUT, text=True,
                              preexec_fn=limit_time)
        if done.returncode < 0:
            return f"(ended by a signal, as after {MOST} CPU seconds or {LONGEST} seconds)"
        found = re.search(r"^(?:FAILED|ERROR) tests/(?:test_\w+\.py::)?(\S+)", done.stdout, re.MULTILINE)
        return None if not done.returncode else found[1] if found else "(no test)"


def judge(package: str, wrong: Wrong, tests_of: Callable[[str], Sequence[str]]) -> int:
    """Judge the bodies that the command line names by number, or all, and return the status.

    `tests_of` gives the tests for a module, those first that are likely to see a wrong body.
    """
    bodies = [(module, *row) for module, rows in wrong.items() for row in rows]
    chosen = [int(word) for word in sys.argv[1:]] or range(len(bodies))
    missed = 0
    for number in chosen:
        module, name, old, new = bodies[number]
        seen = first_test(f"{package}/{module}.py", old, new, tests_of(module))
        missed += seen is None
        print(f"{number:3} {name:50} {seen or 'NOT SEEN'}", flush=True)
    print(f"{len(chosen) - missed} seen, {missed} not seen")
    return 1 if missed else 0
