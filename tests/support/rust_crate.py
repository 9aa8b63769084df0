"""The Rust crate in tests: running cargo, and compiling programs of users."""

from __future__ import annotations

import os
import re
import shutil
from collections.abc import Mapping
from pathlib import Path

import pytest

from support.built import BUILT, TOP
from support.program import Result, run

CRATE = TOP / "rust"
DOCUMENT = TOP / "docs/RUST.md"
SECONDS = 600


def needs(*programs: str) -> pytest.MarkDecorator:
    """Skip a test where a program is missing."""
    missing = [name for name in programs if not shutil.which(name)]
    return pytest.mark.skipif(bool(missing), reason=f"there is no {' '.join(missing)}")


needs_cargo = needs("cargo", "cc")


def cargo_environment(factory: pytest.TempPathFactory) -> Mapping[str, str]:
    """What cargo is run with: a folder for what it makes, which the processes of one run share, and the library."""
    base = factory.getbasetemp()
    target = (base.parent if "PYTEST_XDIST_WORKER" in os.environ else base) / "cargo"
    return {"CARGO_TARGET_DIR": str(target), "CARGO_TERM_COLOR": "never", "HDT_LIB_DIR": str(BUILT)}


def cargo(environment: Mapping[str, str], *words: str, cwd: Path = CRATE) -> Result:
    """Run cargo, which may not use the network."""
    return run(["cargo", *words], env={**environment, "CARGO_NET_OFFLINE": "true"}, cwd=cwd, seconds=SECONDS)


def printed(done: Result) -> str:
    """What a command printed on both streams."""
    return (done.out + done.err).decode(errors="replace")


def programs(document: Path) -> list[str]:
    """The programs in Rust of a document. (Their language is rs: blocks of rust are Rattle.)"""
    return re.findall(r"^```rs\n(.*?)^```$", document.read_text(), re.M | re.S)


def user(folder: Path, main: str) -> Path:
    """An empty folder with a program of a user, as docs/RUST.md says."""
    blocks = re.findall(r"^```toml\n(.*?)^```$", DOCUMENT.read_text(), re.M | re.S)
    assert len(blocks) == 1 and '"../tickmarl/rust"' in blocks[0]
    (folder / "src").mkdir(parents=True)
    package = '[package]\nname = "calls"\nversion = "0.1.0"\nedition = "2021"\n\n'
    (folder / "Cargo.toml").write_text(package + blocks[0].replace("../tickmarl/rust", str(CRATE)))
    (folder / "src/main.rs").write_text(main)
    return folder


def compiled(factory: pytest.TempPathFactory, main: str) -> Path:
    """The program of a user with this text, compiled without a warning."""
    folder = user(factory.mktemp("compiled") / "user", main)
    own = {**cargo_environment(factory), "CARGO_TARGET_DIR": str(folder / "target"), "RUSTFLAGS": "-D warnings"}
    done = cargo(own, "build", "-q", "--offline", cwd=folder)
    assert (done.status, printed(done)) == (0, ""), printed(done)
    return folder / "target/debug/calls"
