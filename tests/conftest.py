"""Fixtures and settings of all tests."""

from __future__ import annotations

import os
import tempfile
from collections.abc import Iterator
from pathlib import Path

import pytest
from hypothesis import HealthCheck, settings

from support import built
from support.build_memory import Documents
from support.documents import LONG_LINE
from support.large import Files
from support.probe import Probe

# Files are long draws, and slow on a busy machine: neither is an error of a test.
SUPPRESSED = [HealthCheck.too_slow, HealthCheck.data_too_large]

# The gate draws the same examples each time; `long` draws others, and keeps those that fail in .hypothesis/.
settings.register_profile("gate", max_examples=200, deadline=None, suppress_health_check=SUPPRESSED, derandomize=True)
settings.register_profile("long", max_examples=20_000, deadline=None, suppress_health_check=SUPPRESSED, print_blob=True)
settings.load_profile("gate")


def pytest_unconfigure(config: pytest.Config) -> None:
    """Print the counts as the very last line, as the gate reads them."""
    reporter = config.pluginmanager.get_plugin("terminalreporter")
    if hasattr(config, "workerinput") or reporter is None or config.option.collectonly:
        return
    counts = {kind: len(reporter.stats.get(kind, [])) for kind in ("passed", "failed", "error", "skipped")}
    skipped = f", {counts['skipped']} skipped" if counts["skipped"] else ""
    print(f"{counts['passed']} passed, {counts['failed'] + counts['error']} failed{skipped}")


@pytest.fixture(scope="session")
def program() -> Path:
    """The command `hdt`."""
    return built.PROGRAM


@pytest.fixture(scope="session")
def samples() -> Path:
    """The folder of sample files."""
    return built.SAMPLES


@pytest.fixture(scope="session")
def probe() -> Iterator[Probe]:
    """The probe programs, over which tests call the libraries' functions."""
    it = Probe()
    yield it
    assert all(status == 0 for status in it.close().values())


@pytest.fixture(scope="session")
def large_document(tmp_path_factory: pytest.TempPathFactory) -> Path:
    """A document of some 58 MB, whose lines are all the same."""
    path = tmp_path_factory.mktemp("document") / "document.nt"
    path.write_bytes(LONG_LINE * 60_000)
    return path


@pytest.fixture(scope="session")
def large_files(tmp_path_factory: pytest.TempPathFactory) -> Files:
    """The large files of all tests, which the processes of one run share."""
    base = tmp_path_factory.getbasetemp()
    return Files((base.parent if "PYTEST_XDIST_WORKER" in os.environ else base) / "large")


@pytest.fixture(scope="session")
def batches(large_files: Files) -> Documents:
    """Documents of many batches, of a build with little memory."""
    return Documents(large_files)


@pytest.fixture
def public_folder() -> Iterator[Path]:
    """A folder that every user may enter, which pytest's own folders are not."""
    with tempfile.TemporaryDirectory() as name:
        folder = Path(name)
        folder.chmod(0o755)
        yield folder
        folder.chmod(0o755)
