"""What is said of a dataset: by the configuration, else by the header of its file."""

from __future__ import annotations

from collections.abc import Mapping, Sequence
from dataclasses import dataclass

from hdt.fragments import _terms as terms
from hdt.fragments._config import Source


@dataclass(frozen=True)
class About:
    """Values of properties of Dublin Core by their names, as dictionary strings. Each dataset has a title."""

    values: Mapping[str, Sequence[str]]

    @property
    def title(self) -> str:
        """The title as a text."""
        return _text(self.values["title"][0])

    @property
    def description(self) -> str:
        """The description, or an empty text."""
        return _text(next(iter(self.values.get("description", ())), ""))


def about_of(name: str, source: Source, said: Mapping[str, Sequence[str]]) -> About:
    """What is said of a dataset: what the configuration says comes before what its header does."""
    values = dict(said)
    for key, value in (("title", source.title), ("description", source.description)):
        if value:
            values[key] = [f'"{value}"']
    if source.license:
        values["license"] = [source.license]
    values.setdefault("title", [f'"{name}"'])
    return About(values)


def _text(term: str) -> str:
    return terms.parts(term)[0] if term.startswith('"') else term
