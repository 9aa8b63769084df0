"""The functions of a Rattle source file that is laid out as `rt fmt` does, and the names that a check has for them."""

from __future__ import annotations

import re
from collections.abc import Iterable, Iterator
from typing import NamedTuple

# Whitespace and comments; a string or a character, in which the signs of a comment are none.
TOKEN = re.compile(
    r"""(\s|//[^\n]*|/\*.*?\*/)+|[bc]?r(\#*)".*?"\2|[bc]?"(?:[^"\\]|\\.)*"|'(?:[^'\\\n]|\\[^\n]+?)'""", re.S
)
# The head of an impl, and its trait, the trait's arguments and its type.
IMPL = re.compile(r"impl(?:<.*?>)? (?:(?:\w+::)*(\w+)(?:<(.*)>)? for )?(?:\w+::)*(\w+)")
# Such a head, or a function: indent, visibility, other words, name, what is before its body, and this. The line with
# the brace that opens the body is not indented further, and so is the one with the brace that closes it.
ITEM = re.compile(
    r'^impl\b.*|^( *)(pub\S* )?((?:const |extern "C" )*)fn (\w+)(?![^{\n]*;$)'
    r"([^{\n]*|(?:.*\n)+?\1(?:\)[^{\n]*)?)(\{\}|\{.*\n(?:.*\n)*?\1\})$",
    re.M,
)
CLAUSE = re.compile(r"^\s*(?:requires|ensures)\b", re.M)


class Function(NamedTuple):
    """A function with a body: the head of its impl, or nothing, and the parts of its text.

    `clauses` is what is between the head and the body; `start` and `end` are where this begins and ends.
    """

    impl: str
    is_public: bool
    words: str
    name: str
    head: str
    clauses: str
    start: int
    end: int

    def owner(self) -> str:
        """Return the name of the type in whose impl it is, or nothing."""
        found = IMPL.match(self.impl)
        return found[3] if found else ""


def functions(text: str) -> Iterator[Function]:
    """Give the outermost functions of a source text."""
    impl = ""
    for it in ITEM.finditer(text):
        if not it[4]:
            impl = it[0]
            continue
        clause = CLAUSE.search(it[5])
        at = clause.start() if clause else len(it[5])
        own = impl if it[1] else ""
        yield Function(own, it[2] == "pub ", it[3], it[4], it[5][:at], it[5][at:], it.start(6), it.end(6))


def without_comments(text: str) -> str:
    """Return the text with one space in place of whitespace and comments."""
    return TOKEN.sub(lambda it: " " if it[1] else it[0], text).rstrip()


# A function among those of a file: its number, its impl's head and its name.
Key = tuple[int, str, str]


def split(text: str) -> tuple[str, dict[Key, str]]:
    """Return the text without bodies, and the bodies.

    Those of a `const fn` stay: its value can be part of a type or a constant, which other functions read.
    """
    rest: list[str] = []
    bodies: dict[Key, str] = {}
    at = 0
    for it in functions(text):
        if "const " not in it.words:
            rest.append(text[at : it.start])
            bodies[len(bodies), it.impl, it.name] = text[it.start : it.end]
            at = it.end
    return "\0".join([*rest, text[at:]]), bodies


def joined(rest: str, bodies: dict[Key, str]) -> str:
    """Return the text that `split` took apart, with these bodies."""
    return "".join(a + b for a, b in zip(rest.split("\0"), [*bodies.values(), ""]))


def names_of(crate: str, path: str, impl: str, name: str, checked: Iterable[str]) -> list[str]:
    """Return those of a check's names that a function of a file can have; `impl` is the head of its impl, or empty.

    A check calls `impl From<hdt_wire::Fault> for Fault` FaultFromHdt_wireFault, or by its type and its trait alone.
    """
    parts = path.removeprefix("src/").removesuffix(".rt").split("/")
    module = "::".join([crate, *(it for it in parts if it not in ("lib", "main", "mod"))])
    found = IMPL.match(impl)
    if not found:
        return [it for it in checked if it == f"{module}::{name}"]
    trait, arguments, own = (it or "" for it in found.groups())
    usual = own + trait
    exact = usual + "".join(it[0].upper() + it[1:] for it in re.findall(r"[A-Za-z]\w*", arguments.partition("<")[0]))
    for owner in (exact, usual):
        if f"{module}::{owner}::{name}" in checked:
            return [f"{module}::{owner}::{name}"]
    # An impl may stand in another file than its type, by whose module the check calls it.
    named = [it for it in checked if it.endswith(f"::{name}") and "::fn::" not in it]
    return [it for it in named if it.endswith(f"::{usual}::{name}")] or [
        it for it in named if it.startswith(f"{module}::{usual}")
    ]
