"""Make N-Triples documents to measure with: always the same lines for a kind and a number of lines.

    python3 -m tools.documents exported 1000000 > document.nt
    hyperfine -N -r 3 "$(tools/current)/hdt build document.nt file.hdt" 'sort --parallel=1 -u document.nt'

*exported* is as an exporter writes it: lines of about 150 bytes, a subject has some eight triples, one line of fifty
repeats an earlier one; *shuffled* has these lines in another order. In *distinct* all lines differ: a subject has
eight, with objects of its own, in the order of the subjects. *people* has a type, a name, an age, an address, a place
and two acquaintances of each; *labels* names in twelve languages, of which a subject has one by each of four
predicates; *short* lines that have a subject and an object of their own; *long* literals of some 700 bytes.
"""

from __future__ import annotations

import random
import sys
from collections.abc import Callable, Iterable, Iterator
from pathlib import Path

from tools.repository import command_line

NAMES = "knows name label comment type size partOf seeAlso created creator subject source".split()
PREDICATES = [f"http://example.org/vocabulary/{name}" for name in NAMES]
WORDS = "graph triple subject predicate object dictionary section header string number file term block node".split()
LABELS = ("2000/01/rdf-schema#label", *(f"2004/02/skos/core#{it}Label" for it in ("pref", "alt", "hidden")))
LANGUAGES = "ar de en es fr it ja nl pl pt ru sv".split()


def literal(source: random.Random) -> str:
    """Return a literal: with a language tag, with a datatype, or plain."""
    kind = source.random()
    if 0.4 <= kind < 0.7:
        return f'"{source.randrange(100_000)}"^^<http://www.w3.org/2001/XMLSchema#integer>'
    text = " ".join(source.choices(WORDS, k=4)) + " of the collection"
    return f'"{text}"@{source.choice(("en", "de", "en-GB"))}' if kind < 0.4 else f'"{text}"'


def exported(count: int) -> list[str]:
    """Return lines as an exporter writes them."""
    source = random.Random(count)

    def address() -> str:
        return f"<http://example.org/resource/{source.choice(WORDS)}/item/{source.randrange(count // 8 + 1):07}>"

    lines: list[str] = []
    while len(lines) < count:
        subject = address()
        for _ in range(source.randrange(4, 13)):
            predicate = source.choice(PREDICATES)
            other = address() if source.random() < 0.5 else literal(source)
            lines.append(f"{subject} <{predicate}> {other} .\n")
            if source.random() < 0.02:
                lines.append(source.choice(lines))
    return lines[:count]


def shuffled(count: int) -> list[str]:
    """Return the same lines in another order."""
    return random.Random(count).sample(exported(count), count)


def distinct(count: int) -> Iterator[str]:
    """Give lines that all differ."""
    address = "<http://example.org/resource/%09d>"
    for it in range(count):
        other = f'"object {it} of the subject"' if it % 2 else address % (it + count)
        yield f"{address % (it // 8)} <{PREDICATES[it % 8]}> {other} .\n"


def people(count: int) -> Iterator[str]:
    """Give lines about people, seven for each."""
    source = random.Random(count)
    foaf, person = "http://xmlns.com/foaf/0.1/", "http://example.org/people/%d"
    for it in range(count // 7 + 1):
        subject = f"<{person % it}>"
        name = f"{source.choice(WORDS)} {source.choice(WORDS)}"
        yield f"{subject} <http://www.w3.org/1999/02/22-rdf-syntax-ns#type> <{foaf}Person> .\n"
        yield f'{subject} <{foaf}name> "{name} {source.randrange(10_000)}" .\n'
        yield f'{subject} <{foaf}age> "{source.randrange(100)}"^^<http://www.w3.org/2001/XMLSchema#integer> .\n'
        yield f"{subject} <{foaf}mbox> <mailto:{name.replace(' ', '.')}.{it}@example.org> .\n"
        yield f"{subject} <{foaf}based_near> <http://example.org/places/{source.randrange(5_000)}> .\n"
        for other in source.sample(range(count // 7 + 4), 2):
            yield f"{subject} <{foaf}knows> <{person % other}> .\n"


def labels(count: int) -> Iterator[str]:
    """Give lines with names."""
    source = random.Random(count)
    for it in range(count):
        subject = f"<http://example.org/entity/Q{it // len(LABELS)}>"
        text = f"{' '.join(source.choices(WORDS, k=4))} {source.randrange(count)}"
        yield f'{subject} <http://www.w3.org/{LABELS[it % len(LABELS)]}> "{text}"@{source.choice(LANGUAGES)} .\n'


def short(count: int) -> Iterator[str]:
    """Give short lines."""
    yield from (f"<a:{it:x}> <b:{it % 10}> <c:{it:x}> .\n" for it in range(count))


def long(count: int) -> Iterator[str]:
    """Give lines with long literals."""
    source = random.Random(count)
    for it in range(count):
        text = " ".join(source.choices(WORDS, k=100))
        yield f'<http://example.org/documents/{it}> <http://example.org/text> "{text} {it}"@en .\n'


ALL = (exported, shuffled, distinct, people, labels, short, long)
KINDS: dict[str, Callable[[int], Iterable[str]]] = {it.__name__: it for it in ALL}


def write(path: Path, kind: str, lines: int) -> None:
    """Write a document. Raises OSError."""
    with path.open("w") as file:
        file.writelines(KINDS[kind](lines))


def main() -> int:
    """Run the command line."""
    words = command_line("documents", __doc__)
    words.add_argument("kind", metavar="KIND", choices=KINDS, help=", ".join(KINDS))
    words.add_argument("lines", metavar="LINES", type=int, help="how many lines")
    given = words.parse_args()
    sys.stdout.writelines(KINDS[given.kind](given.lines))
    return 0


if __name__ == "__main__":
    sys.exit(main())
