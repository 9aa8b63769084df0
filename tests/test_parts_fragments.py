"""The fragment server over a folder of parts: its pages have what those over one file have."""

from __future__ import annotations

import os
import re
import shutil
from pathlib import Path

import pytest

from support.fragments import BASE, ODD, Site, build, fragments, url
from support.parts import inputs, parts

P, N = "http://odd.example/p", "http://odd.example/n"
NEW = "<u:a> <u:p> <u:b> .\n"


@pytest.fixture
def folder(tmp_path: Path) -> Path:
    """A folder of the odd graph, beside its file."""
    build(tmp_path, ODD)
    parts.build([tmp_path / "odd.nt"], tmp_path / "parts", 4, base="http://odd.example/")
    return tmp_path / "parts"


@pytest.fixture
def site(folder: Path) -> Site:
    """A server of both, which may be downloaded."""
    sets = {"odd": {"file": str(folder.parent / "odd.hdt"), "download": True},
            "parts": {"file": str(folder), "download": True}}
    return Site(fragments.Application({"datasets": sets, "log": False}))


def pages(site: Site, name: str, **asked: str) -> tuple[list[str], int]:
    """The lines of all pages of a fragment that have data, following the links, and the number of triples."""
    target, lines, total = url(name, **asked), list[str](), 0
    while target:
        text = site.nquads(target).body.decode()
        lines += [line for line in text.split("\n") if line and not line.endswith("#metadata> .")]
        count = re.search(r'totalItems> "(\d+)"', text)
        following = re.search(r"hydra/core#next> <([^>]*)>", text)
        total = int(count[1]) if count else 0
        target = following[1].replace(BASE, "/") if following else ""
    return [line.replace(f"/{name}/", "/x/") for line in lines], total


@pytest.mark.parametrize("asked", [{}, {"predicate": P}, {"predicate": N}, {"subject": "http://odd.example/s1"},
                                   {"object": '"plain"'}, {"subject": "u:none"}, {"object": '"colour"@EN-gb'}])
def test_pages(site: Site, asked: dict[str, str]) -> None:
    """All pages of a pattern, and its count, are those of one file."""
    (one, total), (found, again) = pages(site, "odd", **asked), pages(site, "parts", **asked)
    assert sorted(found) == sorted(one) and total == again == len(one)


def test_far_page(site: Site) -> None:
    """A page that is asked for by its number is that of the links."""
    lines, _ = pages(site, "parts", predicate=N)
    text = site.nquads(url("parts", predicate=N, page=3)).body.decode()
    data = [line.replace("/parts/", "/x/") for line in text.split("\n") if line and "#metadata> ." not in line]
    assert data == lines[200:]


def test_descriptions(site: Site) -> None:
    """The description has the counts that are known of parts, and no file is given out."""
    of_file, of_parts = (site.nquads(f"/{name}/void").body.decode() for name in ("odd", "parts"))
    for name in ("triples", "distinctSubjects", "properties"):
        counts = [re.findall(rf'#dataset> <[^>]*void#{name}> "(\d+)"', text) for text in (of_file, of_parts)]
        assert counts[0] == counts[1] != []
    assert "distinctObjects" in of_file and "distinctObjects" not in of_parts
    assert "dataDump" in of_file and "dataDump" not in of_parts
    assert sorted(re.findall(r'propertyPartition', of_file)) == sorted(re.findall(r'propertyPartition', of_parts))
    assert site.ask("/odd/data.hdt").status == 200 and site.ask("/parts/data.hdt").status == 404
    for target in ("/parts", "/parts/void", url("parts", subject="http://odd.example/s1"), "/"):
        assert site.ask(target, Accept="text/html").status == 200


def test_folder_that_is_replaced(site: Site, folder: Path, monkeypatch: pytest.MonkeyPatch) -> None:
    """A new folder in its place is served from then on; one that is damaged is refused, and the old one stays."""
    monkeypatch.setattr("hdt.fragments._dataset._SECONDS", -1)
    new = folder.parent / "new"
    parts.build(inputs(folder.parent, NEW.splitlines(), 1), new, 2)
    folder.rename(folder.parent / "old")
    new.rename(folder)
    assert pages(site, "parts") == (["<u:a> <u:p> <u:b> ."], 1)
    damaged = folder.parent / "damaged"
    shutil.copytree(folder.parent / "old", damaged)
    part = next(damaged.glob("*.hdt"))
    part.write_bytes(part.read_bytes()[:-1] + b"x")
    folder.rename(folder.parent / "older")
    os.rename(damaged, folder)
    assert pages(site, "parts") == (["<u:a> <u:p> <u:b> ."], 1)
