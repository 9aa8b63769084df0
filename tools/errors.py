"""Make the examples in docs/ERRORS.md: run the program on each, and write or check what it prints.

    python3 -m tools.errors                 write what the examples of docs/ERRORS.md print, and man/hdt-errors.7
    python3 -m tools.errors --check         check that the page has it, word for word, and the man page
    python3 -m tools.errors --file Width    print the damaged file of an example to standard output
    python3 -m tools.errors --rattle        write the texts of `hdt explain`, crates/hdt_usage/src/*_errors.rt

The page is the source of the texts. An error is a heading (`### 13 Width`), one paragraph of meaning, and a list of its
cause, its remedy and its example; `entries` reads them. Before its first error a section may have a cause and a remedy,
which are those of errors without one; a message has neither. An example is what is wrong with a file, that of
reference/damaged.py, or a shell command; what is written is the offset of the error, or the line that is printed. The
program is that of the folder HDT_BUILT, else the one that belongs to the sources (tools/current). The last line is
'N passed, M failed', the status 1 if one failed.
"""

from __future__ import annotations

import os
import re
import subprocess
import sys
import tempfile
import textwrap
from collections.abc import Iterator
from contextlib import contextmanager
from pathlib import Path
from typing import NamedTuple, Optional

from reference.damaged import FILES, NOT_A_TERM
from tools.repository import TOP, built, command_line, with_parts

PAGE = TOP / "docs/ERRORS.md"
MAN_PAGE = TOP / "man/hdt-errors.7"
SOURCES = TOP / "crates/hdt_usage/src"
# A text of the page, as `hdt explain` prints it, has at most so many lines of so many columns.
LINES, COLUMNS = 4, 78
# The sections of the page that have errors, and the kind of each.
SECTIONS = {"Errors of an HDT file": "file", "Errors of an N-Triples text": "text", "Other messages": "message"}
ENTRY = re.compile(
    r"### (?P<title>.*)\n\n(?P<meaning>(?:.+\n)+)\n"
    r"(?:- Cause: (?P<cause>(?:.+\n)+?))?(?:- Remedy: (?P<remedy>(?:.+\n)+?))?- Example:(?P<example>.*\n(?:.+\n)*)"
)
# The cause and the remedy of the errors of a section that have none of their own.
SHARED = re.compile(r"^- Cause: (?P<cause>(?:.+\n)+?)- Remedy: (?P<remedy>(?:.+\n)+)", re.M)
TITLES = {"message": r"(?P<name>.+) \(status (?P<number>\d)\)"}
# The exit status and the message of errors of a text that `hdt build` reports in other words.
IN_OTHER_WORDS = {"Read": (3, "hdt: reading failed"), "OutOfMemory": (4, "hdt: out of memory")}

# ---- the errors of the page


def filled(text: str, title: str = "") -> str:
    """Return a text of the page without markup, in lines that have at most COLUMNS columns behind its title.

    A command is in one line.
    """
    kept = re.sub("`([^`]*)`", lambda command: command[1].replace(" ", "\0"), text)
    lines = textwrap.fill(kept, COLUMNS, initial_indent=title, break_on_hyphens=False, break_long_words=False)
    return lines[len(title) :].replace("\0", " ")


class Entry(NamedTuple):
    """An error of the page.

    `number` and `name` are those of a reason; a message has an exit status and its text, and no cause or remedy. Texts
    have no line ends, but for the example.
    """

    kind: str
    number: int
    name: str
    meaning: str
    cause: str
    remedy: str
    example: str

    def plain(self) -> tuple[str, str, str]:
        """Return meaning, cause and remedy without markup, in lines of at most COLUMNS columns."""
        return filled(self.meaning), filled(self.cause, "Cause: "), filled(self.remedy, "Remedy: ")

    def given(self) -> str:
        """Return the example without what is written here: what the program prints."""
        return re.sub(r"; at \d+$" if self.kind == "file" else ":$", "", self.example.splitlines()[0].strip())

    def command(self) -> str:
        """Return the shell command of the example; it reads `bad.hdt`, if that is one of its words."""
        if self.kind == "file":
            return "hdt verify --tight bad.hdt" if self.name == "Unused" else "hdt verify bad.hdt"
        return self.given().split("`")[1]

    def expected(self) -> tuple[int, str]:
        """Return the exit status that the example ends with, and a pattern of the line that it prints."""
        if self.kind == "file":
            return 1, rf"hdt: fault {self.number} {self.name} at \d+"
        if self.kind == "text":
            line = rf"(hdt:|#) line \d+ column \d+: {self.number} {self.name}"
            return IN_OTHER_WORDS.get(self.name, (1, line))
        # (words in capitals stand for others)
        return self.number, "(hdt: )?" + re.sub(r"\b[A-Z]+\b", r"\\S+", self.name.replace("..", ".*"))


def entries(page: str) -> list[Entry]:
    """Return the errors of the page, in its order. Raises ValueError if one has another form."""
    found = []
    for section in re.split(r"^## ", page, flags=re.M)[1:]:
        title, _, text = section.partition("\n")
        if title not in SECTIONS:
            continue
        kind, matches, shared = SECTIONS[title], list(ENTRY.finditer(text)), SHARED.search(text.partition("### ")[0])
        for it in matches:
            if not (named := re.fullmatch(TITLES.get(kind, r"(?P<number>\d+) (?P<name>\w+)"), it["title"])):
                raise ValueError(f"a heading of another form: {it['title']}")
            cause, remedy = (joined(it[part] or (shared[part] if shared else "")) for part in ("cause", "remedy"))
            found.append(
                Entry(kind, int(named["number"]), named["name"], joined(it["meaning"]), cause, remedy, it["example"])
            )
        # (a message has no cause and no remedy, any other error both)
        parts = [bool(part) for it in found if it.kind == kind for part in (it.cause, it.remedy)]
        if len(matches) != text.count("\n### ") or (kind == "message") in parts:
            raise ValueError(f"an error without one of its parts, in the section {title}")
    return found


def joined(text: str) -> str:
    """Return a text of the page in one line."""
    return " ".join(text.split())


# ---- what is made of them: the tables of `hdt explain`, and the man page

# The name of the module, and what has the errors, by their kind.
TABLES = {"file": ("file_errors", "an HDT file"), "text": ("text_errors", "an N-Triples text")}


def rattle_module(kind: str, found: list[Entry]) -> str:
    """Return the Rattle module with the explanations of the errors of a kind."""
    name, what = TABLES[kind]
    rows = ""
    for entry in (it for it in found if it.kind == kind):
        texts = (re.sub(r'([\\"])', r"\\\1", it) for it in (str(entry.number), entry.name, *entry.plain()))
        rows += "    (\n" + "".join(f'        "{text}",\n' for text in texts) + "    ),\n"
    return (
        f"//! The errors of {what}. `python3 -m tools.errors --rattle` makes this of docs/ERRORS.md.\n\n"
        "use crate::explanations::Explanation;\n\n"
        f"/// The errors of {what}, as docs/ERRORS.md explains them: number, name, meaning, cause and remedy.\n"
        f"pub(crate) const {name.upper()}: &[Explanation] = &[\n{rows}];\n"
    )


def roff(text: str) -> str:
    """Return a text of the page as roff has it: in one line, commands bold."""
    escaped = text.replace("\\", "\\e").replace("-", "\\-").replace("'", "\\(aq").replace("^", "\\(ha")
    return re.sub(r"`([^`]*)`", r"\\fB\1\\fR", escaped)


def man_page(found: list[Entry]) -> str:
    """Return the man page with these errors."""
    page = ""
    for title, kind in SECTIONS.items():
        page += f".SH {title.upper()}\n"
        for it in (entry for entry in found if entry.kind == kind):
            heading = f"{it.name} (status {it.number})" if kind == "message" else f"{it.number} {it.name}"
            parts = {"Cause": it.cause, "Remedy": it.remedy}
            more = "".join(f".br\n{part}: {roff(text)}\n" for part, text in parts.items() if text)
            page += f".TP\n.B {heading}\n{roff(it.meaning)}\n{more}"
    return with_parts(MAN_PAGE.read_text(), [page])


# ---- what is printed


def search_path() -> str:
    """Return a PATH on which `hdt` is the program."""
    return f"{built()}:{os.environ['PATH']}"


@contextmanager
def folder_with(data: Optional[bytes]) -> Iterator[Path]:
    """Give a temporary folder with `samples`, and with `bad.hdt` if there are data."""
    with tempfile.TemporaryDirectory() as name:
        folder = Path(name)
        (folder / "samples").symlink_to(TOP / "samples")
        if data is not None:
            (folder / "bad.hdt").write_bytes(data)
        yield folder


def tried(entry: Entry) -> tuple[str, str]:
    """Run the example of an error in a folder of its own.

    Return its text in the page, and what is wrong with what it prints, or nothing. The line that counts is the first on
    standard error, or on standard output if there is none.
    """
    command, data = ["bash", "-c", entry.command()], FILES[entry.name] if entry.kind == "file" else NOT_A_TERM
    env = {**os.environ, "PATH": search_path(), "LC_ALL": "C.UTF-8"}
    with folder_with(data) as folder:
        done = subprocess.run(
            command, cwd=folder, env=env, stdin=subprocess.DEVNULL, capture_output=True, text=True, timeout=60
        )
    status, line = done.returncode, (done.stderr or done.stdout).partition("\n")[0]
    wanted, pattern = entry.expected()
    is_right = status == wanted and re.fullmatch(pattern, line)
    wrong = "" if is_right else f"the example ({entry.given()}) ends with status {status} and prints: {line}"
    output = "" if line == f"hdt: {entry.name}" else f":\n  `{line}`"
    return f" {entry.given()}{f'; at {line.split()[-1]}' if entry.kind == 'file' else output}\n", wrong


def main() -> int:
    """Run the command line."""
    parser = command_line("errors", __doc__)
    parser.add_argument("--check", action="store_true", help="check the page and write nothing")
    parser.add_argument("--file", metavar="NAME", choices=FILES, help="print the file of an example")
    parser.add_argument("--rattle", action="store_true", help="write the texts of `hdt explain`, and no examples")
    options = parser.parse_args()
    if options.file:
        sys.stdout.buffer.write(FILES[options.file])
        return 0
    page = PAGE.read_text()
    found = entries(page)
    if options.rattle:
        for kind, (name, _) in TABLES.items():
            (SOURCES / f"{name}.rt").write_text(rattle_module(kind, found))
        return 0
    texts, wrong = [], []
    for entry in found:
        text, why = tried(entry)
        texts.append(text)
        if options.check and not why and text != entry.example:
            why = f"the page does not have the example:{text.rstrip()}"
        wrong += [f"{entry.number} {entry.name}: {why}"] if why else []
    if not options.check:
        left = iter(texts)
        PAGE.write_text(ENTRY.sub(lambda it: it[0][: it.start("example") - it.start()] + next(left), page))
        MAN_PAGE.write_text(man_page(found))
    elif MAN_PAGE.read_text() != man_page(found):
        wrong.append(f"{MAN_PAGE.name} is not made of the page")
    print(*wrong, sep="\n", end="\n" if wrong else "", file=sys.stderr)
    print(f"{len(found) - len(wrong)} passed, {len(wrong)} failed")
    return int(bool(wrong))


if __name__ == "__main__":
    sys.exit(main())
