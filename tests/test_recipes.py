"""Recipes that build a file of what another command writes: if that command fails, OUT stays as it was.

`build` cannot see that its input was cut off. So a recipe that pipes into it builds a new name, and renames that if no
command of the pipeline has failed; or it makes a document, and builds that afterwards.
"""

from __future__ import annotations

import os
import re
from pathlib import Path
from typing import NamedTuple
from zlib import crc32

import pytest

from support.built import PROGRAM, TOP
from support.code_blocks import blocks, documents, man_page_examples
from support.program import hdt, run

BUILD = r"(?:\./)?hdt build "
# A pipeline into a new name, which is then renamed; and a document that is made before it is built.
PIPED = re.compile(rf"[^\n]+ \| {BUILD}- (?P<new>\S+)(?: --\S+ \S+)* && mv (?P=new) (?P<out>\S+)")
IN_TWO_STEPS = re.compile(rf"[^\n]+ > (?P<document>\S+) [^\n]*&& {BUILD}(?P=document) (?P<out>\S+)")
FIRST_COMMAND = re.compile(r"\(?((?:'[^']*'|[^'|&>])+?) *(?=[|&>])")
# At least so many recipes are in the documents.
RECIPES = 9
# These examples show what `build` refuses.
WITHOUT_RECIPES = "docs/ERRORS.md"
# Lines whose subjects are in part 3 of 8, which one recipe builds.
LINES = [f"<u:{n}> <u:p> <u:o> .\n" for n in range(400) if crc32(b"u:%d" % n) % 8 == 3]
ENDS = {"fails": "exit 3", "is killed": "kill -KILL $$"}


class Recipe(NamedTuple):
    """A line of shell commands in which another command precedes `build`, and whether `pipefail` is set before it."""

    document: str
    line: str
    pipefail: bool

    @property
    def is_piped(self) -> bool:
        """Whether `build` reads from a pipe."""
        return re.search(rf"\|\s*{BUILD}", self.line) is not None

    @property
    def out(self) -> str | None:
        """The name of OUT, if the recipe protects it."""
        form = (PIPED if self.is_piped else IN_TWO_STEPS).fullmatch(self.line)
        if form is None or self.is_piped and (form["new"] == form["out"] or not self.pipefail):
            return None
        return form["out"]


def recipes_of(document: str, text: str) -> list[Recipe]:
    """The recipes in shell commands; a command may go on after a backslash, `|` or `&&` at the end of a line."""
    found, pipefail = [], False
    for line in re.sub(r"\\\n\s*|(?<=[|&])\s*\n\s*", " ", text).splitlines():
        command = re.sub(r"(?:^|\s+)#\s.*", "", line).strip()
        command = re.sub(r"^/usr/bin/time (?:-f '[^']*' )?", "", command)  # (which ends with the command's status)
        pipefail = pipefail or command == "set -o pipefail"
        # (The Python package's command builds of several inputs by itself, as safely as `build`.)
        if re.match(r"tickmarl-hdt |python3 -m hdt ", command):
            continue
        if re.search(rf"\S.*\b{BUILD}", command.removeprefix("./")):
            found.append(Recipe(document, command, pipefail))
    return found


def all_recipes() -> list[Recipe]:
    """The recipes of the documents' blocks, of commands in their text, and of the man page."""
    found = recipes_of("man/hdt.1", man_page_examples())
    for name in documents():
        for block in blocks(name):
            found += recipes_of(name, block.text)
        text = re.sub(r"^```.*?^```$", "", (TOP / name).read_text(), flags=re.M | re.S)
        for paragraph in text.split("\n\n") if name != WITHOUT_RECIPES else []:
            setting = "set -o pipefail\n" if "`set -o pipefail`" in paragraph else ""
            for span in re.findall(r"`([^`]*)`", paragraph):
                found += recipes_of(name, setting + " ".join(span.split()))
    return found


@pytest.mark.parametrize("recipe", all_recipes(), ids=lambda it: f"{it.document}: {it.line}")
def test_recipe(recipe: Recipe, tmp_path: Path) -> None:
    """OUT stays as it was if the first command writes a part and fails, and is built of all if it succeeds."""
    assert recipe.out is not None
    out, older = tmp_path / recipe.out, tmp_path / "older.nt"
    (tmp_path / "hdt").symlink_to(PROGRAM)
    (tmp_path / "lines.nt").write_text("".join(LINES))
    older.write_text("<u:older> <u:p> <u:o> .\n")
    assert hdt("build", older, out).status == 0
    before, first = out.read_bytes(), tmp_path / "first"

    def status_if(end: str) -> int:
        first.write_text(f"#!/bin/sh\ncat lines.nt\n{end}\n")
        first.chmod(0o755)
        found = FIRST_COMMAND.match(recipe.line)
        assert found
        line = recipe.line.replace(found[1], "./first", 1)
        commands = f"{'set -o pipefail' if recipe.pipefail else ''}\n{line}"
        return run(["bash", "-c", commands], cwd=tmp_path, env={"PATH": f"{tmp_path}:{os.environ['PATH']}"}).status

    for end in ENDS.values():
        assert (status_if(end) != 0, out.read_bytes() == before) == (True, True), end
    assert status_if("exit 0") == 0
    assert sorted(hdt("dump", out).out.decode().splitlines(keepends=True)) == sorted(LINES)


def test_how_many_recipes() -> None:
    """The documents have at least as many recipes as they had."""
    assert len(all_recipes()) >= RECIPES


@pytest.mark.parametrize("text, protects", [
    ("zcat a.gz | hdt build - out.hdt", [False]),
    ("set -o pipefail\nzcat a.gz | ./hdt build - out.hdt", [False]),
    ("set -o pipefail\nzcat a.gz |\n    hdt build - out.hdt # a comment", [False]),
    ("zcat a.gz | hdt build - new.hdt && mv new.hdt out.hdt", [False]),
    ("set -o pipefail # in bash\nzcat a.gz | hdt build - new.hdt --base u:g && mv new.hdt out.hdt", [True]),
    ("set -o pipefail\nzcat a.gz | hdt build - out.hdt && mv out.hdt out.hdt", [False]),
    ("set -o pipefail\nzcat a.gz | hdt build - new.hdt; mv new.hdt out.hdt", [False]),
    ("zcat a.gz > a.nt && ./hdt build a.nt out.hdt", [True]),
    ("zcat a.gz > a.nt; ./hdt build a.nt out.hdt", [False]),
    ("./hdt build a.nt out.hdt\nhdt build b.nt out.hdt", []),
])
def test_what_protects_a_file(text: str, protects: list[bool]) -> None:
    """A pipeline that ends with OUT, that ignores a failing command, or that renames after one protects nothing."""
    assert [it.out is not None for it in recipes_of("", text)] == protects
