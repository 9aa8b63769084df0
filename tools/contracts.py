"""Compare the contracts of the exported functions with those of an earlier commit, clause by clause.

A function is the same if its type and its name are, whichever crate and file it is in. Reported are functions that are
gone or new, and of the others each clause that is gone, new or has another text, and a signature that differs.
Whitespace, comments and the order of clauses make no difference.

The last line is 'N functions, M differences', and the status is 1 if there are differences.
"""

from __future__ import annotations

import re
import subprocess
import sys
import tempfile
from collections.abc import Iterator
from pathlib import Path
from typing import NamedTuple, Optional

from tools import rattle_text
from tools.repository import TOP, command_line

CLAUSE = re.compile(r"^\s*(requires|ensures)\b(?: *\*)?(?:\s+(\w+))?\s*(?=\{)", re.M)
VIEW = re.compile(r"^impl(?:<[^>]*>)? Model for (\w+).*?^\}", re.M | re.S)

# The texts of a crate's src/, by path; the parts of a contract, by their names.
Texts = dict[str, str]
Parts = dict[str, str]


class Function(NamedTuple):
    """A function: its file, its name behind its type's, if it has one, and whether users of the crate see it.

    `head` is what is between name and clauses.
    """

    path: str
    name: str
    is_exported: bool
    head: str
    clauses: str

    def parts(self) -> Parts:
        """Return the signature, and the clauses by kind and label: those without a label are numbered."""
        parts: Parts = {"signature": plain(self.head)}
        for text in re.split(r"^(?=\s*(?:requires|ensures)\b)", self.clauses, flags=re.M):
            if clause := CLAUSE.match(text):
                label = clause[2] or str(sum(it.startswith(clause[1]) for it in parts))
                parts[f"{clause[1]} {label}"] = plain(text[clause.end() :])
        return parts


def sources(crate: Path) -> Texts:
    """Return the texts of a crate's code, without its tests, by path."""
    files = [it for it in sorted(crate.glob("src/**/*.rt")) if not it.stem.endswith("tests")]
    return {str(it.relative_to(crate)): it.read_text() for it in files}


def exported(texts: Texts) -> Optional[set[str]]:
    """Return the names that a library's root file exports, or nothing for a program, which exports all."""
    if "src/main.rt" in texts:
        return None
    used = re.findall(r"^pub use [\w:]*?(\{[^}]*\}|\w+);", texts.get("src/lib.rt", ""), re.M)
    return set(re.findall(r"\w+", " ".join(used)))


def functions(texts: Texts) -> Iterator[Function]:
    """Give the functions of a crate; a program shows all that is public."""
    names = exported(texts)
    for path, text in texts.items():
        for it in rattle_text.functions(re.sub(r"//.*", "", text)):
            owner = it.owner()
            is_exported = it.is_public and (names is None or (owner or it.name) in names)
            is_shown = is_exported or "extern" in it.words or path == "src/main.rt"
            yield Function(path, f"{owner}::{it.name}" if owner else it.name, is_shown, it.head, it.clauses)


def views(texts: Texts) -> Iterator[tuple[str, str]]:
    """Give the files and texts of the views of a crate's exported types."""
    names = exported(texts)
    found = ((path, it) for path, text in texts.items() for it in VIEW.finditer(text))
    yield from ((path, it[0]) for path, it in found if names is None or it[1] in names)


def plain(text: str) -> str:
    """Return a text without comments, with one space for any whitespace."""
    return " ".join(re.sub(r"^\s*--.*$", "", text, flags=re.M).split())


def of_library(texts: Texts) -> list[Function]:
    """Return the functions that a library exports; a program exports none to other crates."""
    return [] if exported(texts) is None else [it for it in functions(texts) if it.is_exported]


def differences(old: dict[str, Parts], new: dict[str, Parts]) -> Iterator[str]:
    """Give what differs between two versions."""
    for name in sorted(old.keys() | new.keys()):
        if name not in new or name not in old:
            yield f"{name}: {'gone' if name in old else 'new'}"
            continue
        for part in [*old[name], *(it for it in new[name] if it not in old[name])]:
            before, after = old[name].get(part), new[name].get(part)
            if before != after:
                yield f"{name}: {part}\n    old: {before}\n    new: {after}"


def main() -> int:
    """Compare; return the exit status."""
    words = command_line("contracts", __doc__)
    words.add_argument("revision", metavar="REVISION", help="the earlier commit")
    words.add_argument("--top", type=Path, default=TOP, metavar="DIR", help="the repository (this one)")
    given = words.parse_args()
    archive = ["git", "-C", str(given.top), "archive", given.revision, "crates"]
    with tempfile.TemporaryDirectory() as folder:
        data = subprocess.run(archive, check=True, stdout=subprocess.PIPE).stdout
        subprocess.run(["tar", "-x", "-C", folder], input=data, check=True)
        crates = [sorted((top / "crates").iterdir()) for top in (Path(folder), given.top)]
        old, new = ({it.name: it.parts() for crate in some for it in of_library(sources(crate))} for some in crates)
    found = list(differences(old, new))
    print(*found, f"{len(new)} functions, {len(found)} differences", sep="\n")
    return int(bool(found))


if __name__ == "__main__":
    sys.exit(main())
