"""The documents, and the blocks of code in them."""

from __future__ import annotations

import re
from typing import NamedTuple

from support.built import TOP


class Block(NamedTuple):
    """A fenced block of a document: its language, its text, and the text between it and the next block."""

    language: str
    text: str
    after: str


def documents() -> list[str]:
    """The documents' names."""
    folders = "", "crates/example/", "docs/", "tests/"
    paths = (path for folder in folders for path in sorted(TOP.glob(f"{folder}*.md")))
    return [str(path.relative_to(TOP)) for path in paths]


def blocks(document: str, *languages: str) -> list[Block]:
    """The blocks of a document in these languages, or all."""
    found = re.findall(r"^```(\w*)\n(.*?)^```$(.*?)(?=^```|\Z)", (TOP / document).read_text(), re.M | re.S)
    return [Block(*block) for block in found if not languages or block[0] in languages]


def man_page_examples() -> str:
    """The shell commands in the section EXAMPLES of man/hdt.1."""
    found = re.search(r"^\.SH EXAMPLES\n\.nf\n(.*?)^\.fi$", (TOP / "man/hdt.1").read_text(), re.M | re.S)
    assert found
    return found[1].replace("\\-", "-").replace("\\(aq", "'").replace("\\en", "\\n")
