"""`make release`: what is in out/release/, that its SBOM holds together, and what it refuses."""

from __future__ import annotations

import hashlib
import json
import re
import shutil
import sys
import tarfile
import time
from pathlib import Path

import pytest

from support.built import TOP
from support.clone import copied
from support.program import Result, run
from tools import manifest, repository

SECONDS = 600
FOLDER = "out/release"
IDENTITY = {"GIT_CONFIG_GLOBAL": "/dev/null", **{f"GIT_{who}_{what}": "a@b.example" for who in ("AUTHOR", "COMMITTER")
                                                 for what in ("NAME", "EMAIL")}}
pytestmark = [
    pytest.mark.skipif(not all(map(shutil.which, ("git", "dpkg-deb"))), reason="there is no git, or no dpkg-deb"),
    pytest.mark.skipif(manifest.read(manifest.SHIPPED).sources != manifest.sources(), reason="dist/ is older"),
]


def git(tree: Path, *words: str) -> str:
    """What git prints in a tree."""
    done = run(["git", *words], cwd=tree, env=IDENTITY)
    assert done.status == 0, done.err
    return done.out.decode()


def release(tree: Path) -> Result:
    """Run `make release` in a tree."""
    return run(["make", "-s", "release"], cwd=tree, env={"MAKEFLAGS": "", "MAKELEVEL": ""}, seconds=SECONDS)


@pytest.fixture(scope="module")
def tree(tmp_path_factory: pytest.TempPathFactory) -> Path:
    """A clean checkout, with a release."""
    folder = copied(tmp_path_factory.mktemp("tree"))
    git(folder, "init", "-q")
    git(folder, "add", "-A")
    git(folder, "commit", "-q", "-m", "all")
    done = release(folder)
    assert (done.status, done.out.count(b"\n")) == (0, 5), done.err
    return folder


def made(tree: Path, suffix: str) -> Path:
    """The one file of the release with this suffix."""
    (found,) = (tree / FOLDER).glob(f"*{suffix}")
    return found


def test_files(tree: Path) -> None:
    """There are five files, SHA256SUMS has the sums of the others, and the archive has the committed files."""
    names = {it.name for it in (tree / FOLDER).iterdir()}
    assert {re.sub(r".*?(SHA256SUMS|\.deb|\.whl|\.tar\.gz|\.spdx\.json)$", r"\1", it) for it in names} == {
        "SHA256SUMS", ".deb", ".whl", ".tar.gz", ".spdx.json"}
    done = run(["sha256sum", "--check", "SHA256SUMS"], cwd=tree / FOLDER)
    assert (done.status, done.out.count(b": OK\n")) == (0, 4)
    with tarfile.open(made(tree, ".tar.gz")) as archive:
        members = {it.name.partition("/")[2] for it in archive.getmembers() if not it.isdir()}
    assert members == set(git(tree, "ls-files").splitlines())


def test_bill_of_materials(tree: Path) -> None:
    """The SBOM has each shipped file with its sums, the crates and libraries of it, and no reference to nothing."""
    bill = json.loads(made(tree, ".spdx.json").read_text())
    parts = [*bill["packages"], *bill["files"]]
    identifiers = [it["SPDXID"] for it in parts]
    assert len(set(identifiers)) == len(identifiers)
    assert all(re.fullmatch(r"SPDXRef-[A-Za-z0-9.-]+", it) for it in identifiers)
    ends = {it[end] for it in bill["relationships"] for end in ("spdxElementId", "relatedSpdxElement")}
    assert ends == {"SPDXRef-DOCUMENT", *identifiers}
    files = {file["fileName"]: {it["algorithm"]: it["checksumValue"] for it in file["checksums"]}
             for file in bill["files"]}
    assert set(files) == {f"./dist/{name}" for name in manifest.read(tree / "dist").files}
    for name, sums in files.items():
        data = (tree / name).read_bytes()
        assert sums == {"SHA1": hashlib.sha1(data).hexdigest(), "SHA256": hashlib.sha256(data).hexdigest()}
    names = {it["name"] for it in bill["packages"]}
    assert {"crate hdt", "crate hdt_c", "crate hdt_wire", "kit byteorder", "kit clap", "glibc"} <= names
    assert not names & {"crate example", "crate hdt_fields_tests"}
    assert {f"crate {it}" for it in repository.below("hdt_c", repository.crates())} <= names


def test_release_again(tree: Path) -> None:
    """Another run, after a second and over files with other times, gives the same files."""
    before = made(tree, "SHA256SUMS").read_bytes()
    time.sleep(1)
    for path in tree.glob("python/hdt/*.py"):
        path.touch()
    assert release(tree).status == 0
    assert made(tree, "SHA256SUMS").read_bytes() == before


def test_refused(tree: Path, tmp_path: Path) -> None:
    """A changed checkout, an altered dist/, and a tree without git are refused; the release before stays."""
    before = made(tree, "SHA256SUMS").read_bytes()
    other = tmp_path / "tree"
    shutil.copytree(tree, other, symlinks=True)
    (other / "new").write_text("")
    assert release(other)[2].startswith(b"release: the checkout has changes that are not committed\n")
    (other / "new").unlink()
    (other / "dist/x86_64-linux-gnu/hdt").write_bytes(b"")
    git(other, "commit", "-q", "-a", "-m", "altered")
    done = release(other)
    assert (done.status, done.err.splitlines()[0]) == (2, b"release: dist/ does not belong to the sources: make dist")
    assert made(other, "SHA256SUMS").read_bytes() == before
    assert [it.name for it in (other / "out").iterdir() if "unfinished" in it.name] == []
    shutil.rmtree(other / ".git")
    done = run([sys.executable, "-B", "-m", "tools.release"], cwd=other, env={"GIT_CEILING_DIRECTORIES": str(tmp_path)})
    assert done.status == 2 and b"release: git status" in done.err


def test_place_of_the_signature() -> None:
    """CONTRIBUTING says what a maintainer signs."""
    assert "`SHA256SUMS.asc`" in (TOP / "CONTRIBUTING.md").read_text()
