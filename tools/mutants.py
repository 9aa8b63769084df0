"""Judge the mutants: wrong bodies, crates/NAME/wrong/*.edit, each of which the prover must refuse.

    python3 -m tools.mutants            judge those whose inputs have changed since, and a sample of at least 5 percent
                                        of the others, drawn by the commit
    python3 -m tools.mutants hdt_seq    the same for one crate

Run it after `rt ci`, which leaves the built libraries in crates/NAME/out/rlib. A mutant is a line 'file: src/X.rt',
then pairs of lines 'old: TEXT' and 'new: TEXT'; the old TEXT is in that file exactly once.

A function is proved from its own body and from the contracts of those that it calls, never from their bodies. So
mutants that change nothing but bodies, of different functions, share one copy of the crate (a tree), which is checked
once over the work that a check of the unchanged crate left. A tree of 60 mutants of hdt_tool takes 7 GB of memory,
which is why a tree has 30 at most. The rules:

- A mutant is refused by a goal of its own function: one that the prover leaves open, or whose written answer no longer
  proves it. That the function calls another one that is not proved does not count.
- A mutant SHOWS NOTHING if its function is refused only because a proof written by hand no longer fits the body: a
  name is gone from it, or a step of the function. That is a failure: the mutant needs another form.
- Mutants of one function never share a tree. One that changes more than bodies, a `const fn` or a function of a cycle
  of calls is judged alone, and then any goal may be the one that fails.
- A tree judges nothing if a function that no mutant changes fails by itself, or if it does not compile. What a tree
  does not judge is tried again by halves, down to one.

crates/NAME/wrong/RECORD has a line for each mutant that was refused: its name, a checksum of its inputs, the function
and the goal that refused it, the date and the kit. The inputs are the mutant's text, the crate's src/, specs/ and
proofs/, and of the crates below their specs/ and src/ without bodies, all without comments. Only this command writes
it, of mutants that it has judged itself in that run, and as soon as it has: an interrupted run keeps them.

The last line is 'N refused, M failed', and the status is 1 if one failed.
"""

from __future__ import annotations

import argparse
import hashlib
import math
import os
import re
import shutil
import signal
import subprocess
import sys
import tempfile
import threading
from collections.abc import Iterable
from concurrent.futures import ThreadPoolExecutor
from datetime import date
from functools import lru_cache
from pathlib import Path

from tools import rattle_text, repository
from tools.repository import TOP, NoKit, command_line, kit_line, lanes

# The share of the mutants judged before that is judged again, and how many mutants a tree has at most.
SAMPLE, MOST = 0.05, 30
# The functions in a cycle of calls share one proof.
CYCLE = re.compile(r"#\s*\[\s*cycle\b")


class BadMutant(Exception):
    """Why a mutant cannot be judged."""


@lru_cache(maxsize=None)
def without_comments(name: str, text: str) -> str:
    """Return what the prover reads of a file with this name: no comments, and a space for each gap of a source."""
    if name.endswith(".rt"):
        return rattle_text.without_comments(text)
    return "\n".join(it for it in text.split("\n") if not it.lstrip().startswith("--"))


class Crate(repository.Crate):
    """A crate, its source texts, and how a copy of it is checked."""

    def __init__(self, name: str, top: Path) -> None:
        super().__init__(name, top)
        files = sorted(self.folder.glob("src/**/*.rt"))
        self.texts = {str(it.relative_to(self.folder)): it.read_text() for it in files}
        self.parts = {path: rattle_text.split(text) for path, text in self.texts.items()}

    def mutants(self, only: str = "") -> list[Mutant]:
        """Return the mutants of the crate whose name the regular expression finds."""
        files = sorted((self.folder / "wrong").glob("*.edit"))
        return [Mutant(self, it) for it in files if re.search(only, it.stem)]

    def inputs(self) -> str:
        """Return the checksum of all but the mutant that a judgement stands on."""
        whole, below = hashlib.sha256(), {name: self.top / "crates" / name for name in self.below()}
        for name, folder in {"": self.folder, **below}.items():
            for part in ("specs/**/*.antt", "src/**/*.rt") if name else ("src/**/*", "specs/**/*", "proofs/**/*"):
                for file in sorted(it for it in folder.glob(part) if it.is_file()):
                    text = file.read_text()
                    if name and file.suffix == ".rt":
                        text = rattle_text.split(text)[0]
                    read = str(file.relative_to(folder)), without_comments(file.name, text)
                    whole.update(repr((name, *read) if name else read).encode())
        return whole.hexdigest()

    def with_mutants(self, mutants: list[Mutant]) -> dict[str, str]:
        """Return the files that these mutants change, with all of them applied; they change different functions."""
        if len(mutants) == 1:
            return mutants[0].texts
        texts = {}
        for path in {path for it in mutants for path, _ in it.bodies}:
            rest, bodies = self.parts[path]
            changed = {key: body for it in mutants for (of, key), body in it.bodies.items() if of == path}
            texts[path] = rattle_text.joined(rest, bodies | changed)
        return texts


class Mutant:
    """A wrong body, or several: what it makes of the files of its crate, and which functions it changes."""

    def __init__(self, crate: Crate, file: Path) -> None:
        self.crate, self.file, self.name, self.label = crate, file, file.stem, f"{crate.name}/{file.stem}"
        # The texts of the files that it changes, by path; the bodies that it changes, by path, number and name.
        self.texts: dict[str, str] = {}
        self.bodies: dict[tuple[str, rattle_text.Key], str] = {}
        self.functions: set[str] = set()
        self.is_alone = False

    def inputs(self, of_crate: str) -> str:
        """Return the checksum of all that a judgement of this mutant stands on."""
        return hashlib.sha256(of_crate.encode() + self.file.read_bytes()).hexdigest()

    def apply(self) -> None:
        """Make the changed texts. Raises BadMutant."""
        path = old = ""
        for word, value in re.findall(r"^(file|old|new): ?(.*)$", self.file.read_text(), re.M):
            if word == "file":
                path = value.strip()
            elif word == "old":
                old = value
            elif not path or not old:
                raise BadMutant("a 'new:' line comes before any 'file:' or 'old:' line")
            elif path not in self.crate.texts:
                raise BadMutant(f"there is no file {path} below src/")
            else:
                text = self.texts.get(path, self.crate.texts[path])
                if text.count(old) != 1:
                    raise BadMutant(f"an 'old:' text is in {path} {text.count(old)} times, and not once")
                self.texts[path], old = text.replace(old, value), ""
        if old:
            raise BadMutant("the last 'old:' line has no 'new:' line")
        if all(self.crate.texts[path] == text for path, text in self.texts.items()):
            raise BadMutant("it changes nothing")

    def read(self, checked: Iterable[str]) -> None:
        """Apply the changes, and find the functions that they are in by the names of a check. Raises BadMutant."""
        self.apply()
        for path, text in self.texts.items():
            rest, bodies = rattle_text.split(text)
            was_rest, was = self.crate.parts[path]
            if rest != was_rest or bodies.keys() != was.keys() or CYCLE.search(text):
                self.is_alone, self.bodies, self.functions = True, {}, set()
                return
            self.bodies |= {(path, key): body for key, body in bodies.items() if body != was[key]}
        for path, (_, impl, name) in self.bodies:
            found = rattle_text.names_of(self.crate.name, path, impl, name, checked)
            if len(found) != 1:
                has = ", ".join(found) or "no such"
                raise BadMutant(f"which function of the check is {name} of {path}? It has {has}")
            self.functions.add(found[0])


# ---- the record


class Record:
    """What crates/NAME/wrong/RECORD says: of each mutant its inputs, function, goal, date and kit."""

    def __init__(self, crate: Crate) -> None:
        self.file = crate.folder / "wrong/RECORD"
        rows = self.file.read_text().splitlines() if self.file.is_file() else []
        self.entries = {row.split("\t")[0]: row.split("\t")[1:] for row in rows if row.count("\t") == 5}

    def has(self, mutant: Mutant, of_crate: str) -> bool:
        """Return whether the mutant was refused for these very inputs."""
        return self.entries.get(mutant.name, [""])[0] == mutant.inputs(of_crate)

    def write(self, names: Iterable[str]) -> None:
        """Write the entries of the mutants with these names; others are gone."""
        rows = ["\t".join([name, *self.entries[name]]) + "\n" for name in sorted(names) if name in self.entries]
        self.file.write_text("".join(rows))


# ---- what a check says

# An error that follows from another one.
FOLLOWS = re.compile(r"declarations? that depends? on|imports? .* was not|which was (?:rejected|not admitted)")
# What a proof file says if only a name is gone, or a step of the function.
SHAPE = re.compile("has no (field|`|goal)|not in scope|is no name|there is no such|cannot be imported|does not export")
IN_PROOFS = re.compile(r"(?:\./)?proofs/(\S+?)\.antt:\d+:\d+: error: (.*)")
OPEN_GOAL = re.compile(r"note: src/\S+: (?:it is not proved that|`search` found no proof) .*?\((`[^`]+`)\)")
LEFT_OPEN = re.compile(r"did not prove (`.*`)")


class Verdict:
    """What a check said of a tree: of each function whether it is proved, and why it is refused by itself."""

    def __init__(self, crate: Crate, status: int, lines: list[str]) -> None:
        self.status, self.lines = status, lines
        self.proved: dict[str, bool] = {}
        self.goals: dict[str, list[str]] = {}
        self.shapes: dict[str, list[str]] = {}
        self.lemmas: list[str] = []
        open_goals: list[str] = []
        for line in lines:
            if found := IN_PROOFS.match(line):
                self.take(f"{crate.name}::{found[1].replace('/', '::')}", found[2])
            elif found := re.match(r"fn (\S+): (.*)", line):
                self.proved[found[1]] = found[2].startswith("proved")
                # (a function's open goals are above its line, or in it)
                if not open_goals and (named := LEFT_OPEN.search(found[2])):
                    open_goals = [named[1]]
                if open_goals:
                    self.goals.setdefault(found[1], []).insert(0, f"left open: {', '.join(dict.fromkeys(open_goals))}")
                open_goals = []
            elif found := OPEN_GOAL.match(line):
                open_goals.append(found[1])
        for kept in (self.goals, self.shapes):
            for name in [it for it in kept if self.proved.get(it) is not False]:
                del kept[name]

    def take(self, file: str, said: str) -> None:
        """Take an error in a proof file: `C::f::Answers`, `C::f::Invariants`, `C::f::Proof`, or a file of lemmas."""
        if FOLLOWS.search(said):
            return
        name, _, kind = file.rpartition("::")
        if kind not in ("Answers", "Invariants", "Proof"):
            self.lemmas.append(f"{file}: {said}")
        elif SHAPE.search(said) or kind == "Proof":
            self.shapes.setdefault(name, []).append(said)
        else:
            self.goals.setdefault(name, []).append(f"its answer fails: {said}")

    def is_judged(self) -> bool:
        """Return whether the prover was reached, and could read what it was given."""
        unread = any(re.match(r"(?:\./)?(?:src|specs)/\S+: error", it) for it in self.lines)
        return self.status == 1 and self.lines[-1] == "logic=not-proved" and not unread

    def first_error(self) -> str:
        """Return the first line that names an error, or else the last line."""
        return next((it for it in self.lines if "error" in it), self.lines[-1])[:200]


def outer_function(name: str) -> str:
    """Return the function that a closure of a check is in: `C::m::f` of `C::m::fn::f::g`."""
    module, _, inner = name.partition("::fn::")
    return f"{module}::{inner.split('::')[0]}" if inner else name


def check(crate: Crate, texts: dict[str, str], kept: Path) -> Verdict:
    """Check a copy of the crate with these texts in place of its own, over the work in `kept`.

    `kept` gains work only if no text is given. Then the check has two jobs, as all trees of the crate wait for it.
    """

    def link_or_copy(one: str, other: str) -> None:
        if one.endswith(".oantt"):  # (a check replaces a module, and never changes it)
            os.link(one, other)
        else:
            shutil.copy2(one, other)

    with tempfile.TemporaryDirectory(prefix="hdt-mutants-") as room:
        for part in ("src", "specs", "proofs"):
            if (crate.folder / part).is_dir():
                shutil.copytree(crate.folder / part, f"{room}/crate/{part}")
        for path, text in texts.items():
            Path(room, "crate", path).write_text(text)
        if texts:
            kept = Path(shutil.copytree(kept, f"{room}/kept", copy_function=link_or_copy))
        words = [*crate.rattle("check"), "--jobs", "1" if texts else "2", "--incremental", str(kept)]
        for _ in "ab":
            ran = subprocess.run(words, cwd=f"{room}/crate", stdin=subprocess.DEVNULL, stdout=subprocess.PIPE,
                                 stderr=subprocess.STDOUT, text=True, errors="replace")
            if ran.returncode != -signal.SIGKILL:  # (one more try if it is killed, most likely for memory)
                break
    return Verdict(crate, ran.returncode, ran.stdout.splitlines() or ["it said nothing"])


# ---- judging


def trees_of(mutants: list[Mutant], most: int) -> list[list[Mutant]]:
    """Put mutants of different functions together."""
    trees: list[list[Mutant]] = []
    for mutant in mutants:
        for tree in trees:
            taken = {name for other in tree for name in other.functions}
            if not mutant.is_alone and not tree[0].is_alone and len(tree) < most and not taken & mutant.functions:
                tree.append(mutant)
                break
        else:
            trees.append([mutant])
    return trees


class Trial:
    """A run of this command, and what came of it."""

    def __init__(self, given: argparse.Namespace) -> None:
        self.lanes, self.lock = threading.Semaphore(given.jobs), threading.RLock()
        self.refused: dict[str, tuple[str, str]] = {}
        self.failed: list[str] = []
        # The inputs that each crate had when its mutants were begun.
        self.inputs: dict[Crate, str] = {}

    def say(self, text: str) -> None:
        """Print a line."""
        with self.lock:
            print(text, flush=True)

    def fail(self, label: str, why: str) -> None:
        """Count a failure and say why."""
        self.failed.append(label)
        self.say(f"{label}: {why}")

    def tree(self, crate: Crate, tree: list[Mutant], kept: Path) -> list[Mutant]:
        """Judge the mutants of a tree, and return those that it does not judge."""
        with self.lanes:
            verdict = check(crate, crate.with_mutants(tree), kept)
        changed = {name for it in tree for name in it.functions}
        refused = [] if tree[0].is_alone else [*verdict.goals, *verdict.shapes]
        strange = [it for it in refused if outer_function(it) not in changed]
        judges, why = verdict.is_judged() and not strange, verdict.first_error()
        why = f"{strange[0]} is refused, which no mutant changes" if strange else why
        said = "" if judges else f"; it judges nothing: {why}"
        self.say(f"-- {crate.name}: a tree of {len(tree)}{said}")
        left = [it for it in tree if not self.judge(it, verdict, judges, len(tree) == 1)]
        self.write(crate, [it for it in tree if it not in left])
        return left

    def judge(self, mutant: Mutant, verdict: Verdict, judges: bool, is_last: bool) -> bool:
        """Say what a tree says of a mutant, and return whether it says anything."""

        def own(kept: dict[str, list[str]]) -> dict[str, str]:
            """Return the first reason of each of the mutant's functions, and of the closures in them; alone, of all."""
            return {it: kept[it][0] for it in kept if mutant.is_alone or outer_function(it) in mutant.functions}

        lemmas = {"a lemma": it for it in verdict.lemmas[:1]} if mutant.is_alone else {}
        goals, shapes = own(verdict.goals) | lemmas, own(verdict.shapes)
        if judges and goals:
            name, why = next(iter(goals.items()))
            self.refused[mutant.label] = name, why[:110]
            self.say(f"{mutant.label}: refused, by {name}: {why[:110]}")
        elif not is_last and verdict.status:
            return False
        elif verdict.status == 0:
            self.fail(mutant.label, "NOT REFUSED: the crate is still proved with this mutant")
        elif not verdict.is_judged():
            self.fail(mutant.label, f"BAD MUTANT: it did not reach the prover: {verdict.first_error()}")
        elif shapes:
            only = "only because a proof written by hand no longer fits its body: give the mutant another form"
            self.fail(mutant.label, f"SHOWS NOTHING: {next(iter(shapes))} is refused {only}")
        else:
            names = ", ".join(sorted(mutant.functions)) or "any goal"
            self.fail(mutant.label, f"NOT REFUSED by {names}: no goal of its own fails; {verdict.first_error()}")
        return True

    def crate(self, crate: Crate, mutants: list[Mutant], kept: Path) -> None:
        """Judge mutants of a crate, over the work of a check of the unchanged crate."""
        if missing := crate.missing():
            return self.fail(crate.name, f"its library {missing[0]} is not built: run rt ci first")
        with self.lanes:
            base = check(crate, {}, kept)
        if base.status or not base.lines[-1].startswith("logic=proved"):
            return self.fail(crate.name, f"it is not proved without a mutant: {base.first_error()}")
        left, most = [], MOST
        for mutant in mutants:
            try:
                mutant.read(base.proved)
                left.append(mutant)
            except (BadMutant, OSError, UnicodeDecodeError) as why:
                self.fail(mutant.label, f"BAD MUTANT: {why}")
        self.write(crate, [it for it in mutants if it not in left])
        while left:
            trees = trees_of(left, most)
            with ThreadPoolExecutor(len(trees)) as pool:
                left = [it for some in pool.map(lambda tree: self.tree(crate, tree, kept), trees) for it in some]
            most = max(1, min(most, len(left)) // 2)

    def all(self, work: dict[Crate, list[Mutant]]) -> None:
        """Judge the mutants of each crate, the crates side by side."""

        def one(crate: Crate) -> None:
            with tempfile.TemporaryDirectory(prefix="hdt-kept-") as kept:
                own = crate.folder / "out/incremental"
                if own.is_dir():  # (what an `rt check` of this crate kept saves the first check)
                    shutil.copytree(own, kept, dirs_exist_ok=True)
                self.inputs[crate] = crate.inputs()
                self.crate(crate, work[crate], Path(kept))

        with ThreadPoolExecutor(len(work) or 1) as pool:
            list(pool.map(one, work))

    def write(self, crate: Crate, judged: list[Mutant]) -> None:
        """Write judgements into the crate's record, unless its sources have changed. An interrupted run keeps them."""
        with self.lock:
            of_crate = crate.inputs()
            if of_crate != self.inputs[crate]:
                return
            record, today = Record(crate), date.today().isoformat()
            for mutant in judged:
                if mutant.label in self.refused:
                    name, why = self.refused[mutant.label]
                    said = why.replace("\t", " ")
                    record.entries[mutant.name] = [mutant.inputs(of_crate), name, said, today, kit_line()]
                elif mutant.label in self.failed:
                    record.entries.pop(mutant.name, None)
            record.write(it.name for it in crate.mutants())


def drawn(mutants: list[Mutant], seed: str) -> list[Mutant]:
    """Return a sample of at least SAMPLE of the mutants, from as few crates as that takes.

    Each judged crate has to be proved once more, so the crate of the mutant that the seed draws first gives as many as
    it has. A mutant of a crate that is larger than the sample is as likely as any other of these.
    """
    left = sorted(mutants, key=lambda it: hashlib.sha256(f"{seed} {it.label}".encode()).digest())
    crates = list(dict.fromkeys(it.crate.name for it in left))
    return sorted(left, key=lambda it: crates.index(it.crate.name))[: math.ceil(len(mutants) * SAMPLE)]


def commit(top: Path) -> str:
    """Return the commit that is checked out, or nothing if there is none."""
    words = ["git", "-C", str(top), "rev-parse", "HEAD"]
    if not shutil.which("git"):
        return ""
    return subprocess.run(words, stdout=subprocess.PIPE, stderr=subprocess.DEVNULL, text=True).stdout.strip()


def words_given() -> argparse.Namespace:
    """Read the command line."""
    words = command_line("mutants", __doc__)
    words.add_argument("crates", nargs="*", metavar="CRATE", help="crates of crates.txt (all)")
    words.add_argument("--all", action="store_true", help="judge every mutant, also those judged for the same inputs")
    words.add_argument("--list", action="store_true", help="judge nothing; say which are not judged for these sources")
    words.add_argument("--only", default="", metavar="WORD", help="the mutants whose name the regular expression finds")
    words.add_argument("--jobs", type=int, default=lanes(), metavar="N", help="N checks at a time")
    words.add_argument("--top", type=Path, default=TOP, metavar="DIR", help="the repository (this one)")
    return words.parse_args()


def chosen(crates: list[Crate], given: argparse.Namespace) -> tuple[dict[Crate, list[Mutant]], int]:
    """Return the mutants to judge, by crate, and how many others are judged for the same inputs."""
    work: dict[Crate, list[Mutant]] = {}
    current: list[Mutant] = []
    for crate in crates:
        of_crate, record, mutants = crate.inputs(), Record(crate), crate.mutants(given.only)
        known = [] if given.all else [it for it in mutants if record.has(it, of_crate)]
        work[crate] = [it for it in mutants if it not in known]
        current += known
    sample = [] if given.list or given.only else drawn(current, commit(given.top))
    for mutant in sample:
        work[mutant.crate].append(mutant)
    return {crate: mutants for crate, mutants in work.items() if mutants}, len(current) - len(sample)


def main() -> int:
    """Run the command line."""
    given = words_given()
    uses, trial = repository.crates(given.top), Trial(given)
    for name in [it for it in given.crates if it not in uses]:
        trial.fail(name, "crates.txt has no such crate")
    # The crates that stand on most others are the dearest: they begin.
    names = [it for it in reversed(uses) if it in (given.crates or uses)]
    crates = [it for it in (Crate(name, given.top) for name in names) if it.mutants(given.only)]
    work, others = chosen(crates, given)
    count = sum(map(len, work.values()))
    if given.list:
        labels = [it.label for some in work.values() for it in some]
        print(*labels, f"{count} to judge, {others} judged for these inputs", sep="\n")
        return 0
    trial.say(f"-- {count} to judge; {others} were judged for the same inputs")
    try:
        trial.all(work)
    except NoKit as why:
        print(f"mutants: {why}", file=sys.stderr)
        return 2
    if trial.failed:
        print(f"FAILED: {' '.join(sorted(trial.failed))}")
    print(f"{len(trial.refused)} refused, {len(trial.failed)} failed")
    return 1 if trial.failed or not trial.refused else 0


if __name__ == "__main__":
    sys.exit(main())
