"""List the definitions that the contracts of exported functions reach, and how many lines of specs/ they are.

    python3 -m tools.definitions             print a table, crate by crate
    python3 -m tools.definitions --list      name each definition that is reached
    python3 -m tools.definitions --others    name each definition that is not
    python3 -m tools.definitions --of NAME   count those of one function, as hdt_file::open or hdt_file::Graph::find;
                                             with --list name them, with --others those that it doesn't reach
    python3 -m tools.definitions --of NAME --clauses found,only --no-views
                                             count those of some of its clauses, up to the views

A contract reaches the definitions that its clauses name, and all that those name, in any crate; so does the view of a
type. A name is that of its file, or of what its file imports: a field or a variable of that name is no definition. A
program exports the public functions of all its modules.

A view is a function of a value whose fields callers don't see, as a Graph, and gives no type. What follows for callers
from all contracts follows for any function in its place, so it need not be read.

The table has, for each crate: the definitions that are reached, their lines and how many of these are comments; the
definitions that only contracts inside the crate reach, in specs/Inside and beside the others, and their lines; the
laws, in specs/Laws, and their lines. It is no part of the gate.
"""

from __future__ import annotations

import re
import sys
from collections.abc import Iterator
from pathlib import Path
from typing import NamedTuple, Optional

from tools import contracts
from tools.repository import TOP, command_line, crates, print_table

# A definition: its crate, its module in specs/, and its name.
Name = tuple[str, str, str]

# A word that is no projection, or the name of an operator.
WORD = re.compile(r"(?<![\w.'])[A-Za-z_][\w'-]*|◌[^\s,}]+◌")
IMPORT = re.compile(r"^\s*(?:ghost |pub )*use Rattle\.(\w+)\.specs\.([\w.]+?)\.\{([^}]*)\}", re.M)
BEGIN = re.compile(
    r"^(?:(?:abbrev|unfoldable|pub|mutual|ruleset|record|data) +)*"
    r"([A-Za-z_][\w'-]*|◌[^\s,}]+◌)(?= *[:({]| +\w+ *[:({])"
)
# The names of variables: of a lambda, a binder with a type, `let`, a step of `do`, and a record's field.
VARIABLES = re.compile(
    r"λ ([^.]*)\.|[({]([\w' -]+) : |\blet ([^=]*)=|^ *(?:do )?([^←=]*)←|^  (?:pub )?([\w'-]+) :", re.M
)
# A struct or an enum of src/, and a field that callers don't see.
TYPE = re.compile(r"^(?:pub\S* )?(struct|enum) (\w+)[^{;(]*\{\n(.*?)^\}", re.M | re.S)
SECRET = re.compile(r"^    (?:pub\(\w+\) )?[a-z_]\w*:", re.M)
MODEL = re.compile(r"^impl(?:<[^>]*>)? Model for (\w+)", re.M)
# The first argument of a function, but for an implicit one; what gives a type is none.
ARGUMENT = re.compile(r"^\w[^:]* : (?:\{[^}]*\} → )?([\w.]+)[^→\n]*→(?!.*Type 0$)", re.S)
# A field that a record is made with.
FIELD = re.compile(r"[\w'-]+(?= =(?: |$))", re.M)


def named(text: str, variables: str = "") -> Iterator[str]:
    """Give the words of a text that can be names of definitions; `variables` are no such names."""
    bound = {word for found in VARIABLES.findall(text) for it in found for word in WORD.findall(it)}
    bound.update(WORD.findall(variables))
    yield from (it for it in WORD.findall(FIELD.sub("", text)) if it not in bound)
    if re.search(r"\bdo\b|>>=", text):
        yield "◌>>=◌"


class Definition(NamedTuple):
    """A definition: its lines with its comment, what its file imports, and the names that its file defines."""

    lines: list[str]
    imports: dict[str, Name]
    beside: set[str]

    def comments(self) -> int:
        """Return how many of its lines are comments."""
        return sum(line.startswith("--") for line in self.lines)

    def reaches(self, crate: str, module: str) -> Iterator[Name]:
        """Give the definitions that it names, as one of a module of a crate."""
        text = re.sub(r"--.*", "", "\n".join(self.lines))
        for part in re.split(r"\n(?=\S)", text):
            # (what is before the sign of an equation are variables)
            sign = None if BEGIN.match(part) else re.search(r" =\s", part)
            for word in named(part[sign.end() :], part[: sign.start()]) if sign else named(part):
                if word in self.beside:
                    yield crate, module, word
                elif word in self.imports:
                    yield self.imports[word]


def imports(text: str) -> dict[str, Name]:
    """Return the definitions that a file imports, by the names that they have in it."""
    found: dict[str, Name] = {}
    for crate, module, names in IMPORT.findall(text):
        for name in names.split(","):
            one, _, other = name.strip().partition(" as ")
            found[(other or one).strip()] = (crate, module, one.strip())
    return found


def blocks(text: str) -> dict[str, list[str]]:
    """Return the lines of each declaration of a file, with the comment above it, by its name."""
    found: dict[str, list[str]] = {}
    comment: list[str] = []
    name: Optional[str] = None
    for line in text.split("\n"):
        if not line.strip() or line.startswith(("use ", "pub use ", "pub mod ", "mod ")):
            comment, name = [], None if not line.strip() else name
        elif line.startswith("--"):
            comment.append(line)
            name = None
        else:
            begin, word = BEGIN.match(line), WORD.match(line)
            if begin and begin[1] not in ("unfolding", "where"):
                name = begin[1]
                found.setdefault(name, []).extend(comment)
                comment = []
            elif word and word[0] in found:
                name = word[0]
            if name:
                found[name].append(line)
    return found


def definitions(top: Path) -> dict[Name, Definition]:
    """Return each definition in specs/ of each crate."""
    found: dict[Name, Definition] = {}
    for crate in crates(top):
        specs = top / "crates" / crate / "specs"
        for file in specs.rglob("*.antt"):
            module, text = ".".join(file.relative_to(specs).with_suffix("").parts), file.read_text()
            names, imported = blocks(text), imports(text)
            for name, lines in names.items():
                found[crate, module, name] = Definition(lines, imported, set(names))
    return found


def some_clauses(function: contracts.Function, labels: list[str]) -> str:
    """Return the clauses of a function with these labels, or all of them. Raises KeyError if it lacks one."""
    return "\n".join(function.parts()[f"ensures {label}"] for label in labels) if labels else function.clauses


def named_by_contracts(crate: Path, only: str, labels: list[str]) -> Iterator[Name]:
    """Give what the clauses of a crate's exported functions and the views of its types name, or one function's.

    Raises KeyError if the function has no clause with one of the labels.
    """
    texts = contracts.sources(crate)
    of_functions = ((it.path, named(some_clauses(it, labels), " ".join(re.findall(r"\b(\w+): ", it.head))))
                    for it in contracts.functions(texts) if (it.name == only if only else it.is_exported))
    of_views = () if only else ((path, named(text)) for path, text in contracts.views(texts))
    for path, words in (*of_functions, *of_views):
        imported = imports(texts[path])
        yield from (imported[word] for word in words if word in imported)


def opaque_types(texts: contracts.Texts) -> set[str]:
    """Return a crate's types with fields that callers don't see, also in a variant, and without an `impl Model`."""
    found = [it for text in texts.values() for it in TYPE.findall(text)]
    models = {name for text in texts.values() for name in MODEL.findall(text)}
    opaque = {name for kind, name, body in found if kind == "struct" and SECRET.search(body)} - models
    return opaque | {it for _, it, body in found if opaque.intersection(re.findall(r"^    \w+\((\w+)", body, re.M))}


def views(found: dict[Name, Definition], top: Path) -> set[Name]:
    """Return the definitions that are functions of a value whose fields callers don't see."""
    opaque = {crate: opaque_types(contracts.sources(top / "crates" / crate)) for crate in crates(top)}
    seen: set[Name] = set()
    for at, it in found.items():
        code = "\n".join(line for line in it.lines if not line.startswith("--"))
        argument = ARGUMENT.search(code.partition(f"\n{at[2]} ")[0])
        crate, module, name = it.imports.get(argument[1], at) if argument else at
        if module.startswith("declared.") and name in opaque.get(crate, ()):
            seen.add(at)
    return seen


def reached(
    found: dict[Name, Definition], top: Path, only: str = "", labels: Optional[list[str]] = None
) -> set[Name]:
    """Return the definitions that contracts of exported functions reach, or the contract of one, or some clauses of it.

    Raises KeyError if the function has no clause with one of the labels.
    """
    crate_of_only, _, function = only.partition("::")
    some = [crate_of_only] if only else crates(top)
    left = [it for crate in some for it in named_by_contracts(top / "crates" / crate, function, labels or [])]
    seen: set[Name] = set()
    while left:
        at = left.pop()
        if at not in seen and at in found:
            seen.add(at)
            left += found[at].reaches(at[0], at[1])
    return seen


COLUMNS = ["definitions reached", "their lines", "comments", "inside", "their lines", "laws", "their lines"]


def row(crate: str, found: dict[Name, Definition], seen: set[Name]) -> list[int]:
    """Return the numbers of a crate's row."""
    numbers: list[int] = []
    laws = {at for at in found if at not in seen and at[1].startswith("Laws.")}
    for part in (seen, set(found) - seen - laws, laws):
        own = [found[at] for at in part if at[0] == crate]
        numbers += [len(own), sum(len(it.lines) for it in own)]
        numbers += [sum(it.comments() for it in own)] if part is seen else []
    return numbers


def main() -> int:
    """Run the command line."""
    words = command_line("definitions", __doc__)
    words.add_argument("--list", action="store_true", help="name the definitions that are reached, with their lines")
    words.add_argument("--others", action="store_true", help="name those that are not, with their lines")
    words.add_argument("--of", default="", metavar="NAME", help="count those that the contract of a function reaches")
    words.add_argument("--clauses", default="", metavar="NAMES", help="only those that these clauses of it reach")
    words.add_argument("--no-views", action="store_true", help="leave out views, and what is only reached by them")
    words.add_argument("--top", type=Path, default=TOP, metavar="DIR", help="the repository (this one)")
    given = words.parse_args()
    found = definitions(given.top)
    for view in views(found, given.top) if given.no_views else ():
        del found[view]
    seen = reached(found, given.top, given.of, [it for it in given.clauses.split(",") if it])
    if given.list or given.others:
        for at in sorted(found):
            if given.list and at in seen or given.others and at not in seen:
                print(".".join(at), len(found[at].lines))
    elif given.of:
        lines, comments = sum(len(found[at].lines) for at in seen), sum(found[at].comments() for at in seen)
        print(f"{len(seen)} definitions, {lines} lines, {comments} of them comments")
    else:
        rows = {crate: row(crate, found, seen) for crate in crates(given.top)}
        print_table(COLUMNS, {crate: numbers for crate, numbers in rows.items() if any(numbers)})
    return 0


if __name__ == "__main__":
    sys.exit(main())
