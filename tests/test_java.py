"""The Java package, Apache Jena over HDT files: it compiles without a warning, and its tests in java/src/test pass.

They are run where a JDK and Debian's jars are installed: default-jdk-headless libapache-jena-java libjna-java junit5.
"""

from __future__ import annotations

import fcntl
import os
import re
import shutil
from pathlib import Path

import pytest

from support.built import BUILT, TOP
from support.code_blocks import blocks
from support.program import Result, Word, hdt, run

JARS = Path("/usr/share/java")
NEEDED = ["jena-arq", "jena-shacl", "jna", "junit-platform-console-standalone"]
JAVA = TOP / "java"
TESTS = sorted((JAVA / "src/test/java").rglob("*Test.java"))
PACKAGE = "io.github.tickmarl.hdt"
SECONDS = 900
# At least so many tests do the classes have together.
COUNT = 43

pytestmark = [
    pytest.mark.skipif(not shutil.which("javac"), reason="there is no javac"),
    pytest.mark.skipif(
        not all((JARS / f"{name}.jar").exists() for name in NEEDED), reason=f"{JARS} lacks one of {' '.join(NEEDED)}"
    ),
]


def printed(done: Result) -> str:
    """What a command printed on both streams."""
    return (done.out + done.err).decode(errors="replace")


@pytest.fixture(scope="session")
def package(tmp_path_factory: pytest.TempPathFactory) -> Path:
    """The folder of the built jar, its tests and its class path, which the processes of one run share."""
    base = tmp_path_factory.getbasetemp()
    folder = (base.parent if "PYTEST_XDIST_WORKER" in os.environ else base) / "java"
    folder.mkdir(exist_ok=True)
    with (folder / "lock").open("w") as lock:
        fcntl.flock(lock, fcntl.LOCK_EX)
        if not (folder / "done").exists():
            done = run([JAVA / "build", "--tests", folder], env={"HDT_BUILT": str(BUILT)}, seconds=SECONDS)
            assert (done.status, printed(done)) == (0, f"{folder}/tickmarl-hdt.jar\n"), printed(done)
            (folder / "done").touch()
    return folder


def java(package: Path, folder: Path, *words: Word, tests: bool = True) -> Result:
    """Run java in a folder, with the class path of the package."""
    path = (package / "classpath").read_text().strip()
    if tests:
        path = f"{package}/tests:{path}:{JARS}/junit-platform-console-standalone.jar"
    options = ["-XX:+UseSerialGC", "-Xmx1g", f"-Dhdt.built={BUILT}", f"-Dhdt.top={TOP}", "-cp", path]
    return run(["java", *options, *words], cwd=folder, seconds=SECONDS)


@pytest.mark.parametrize("path", TESTS, ids=lambda path: str(path.stem))
def test_class(path: Path, package: Path, tmp_path: Path) -> None:
    """The tests of one class pass."""
    name = ".".join(path.relative_to(JAVA / "src/test/java").with_suffix("").parts)
    done = java(package, tmp_path, "org.junit.platform.console.ConsoleLauncher", "--disable-banner",
                "--details=summary", "--select-class", name)
    found = re.search(r"(\d+) tests successful", printed(done))
    assert done.status == 0, printed(done)
    assert found and int(found[1]) == path.read_text().count("@Test"), printed(done)


def test_how_many_tests() -> None:
    """The classes have at least as many tests as they had."""
    assert sum(path.read_text().count("@Test") for path in TESTS) >= COUNT


def test_lines() -> None:
    """A line of the sources has at most 120 columns, and none ends with white space."""
    lines = [line for path in JAVA.rglob("*.java") for line in path.read_text().split("\n")]
    assert [line for line in lines if len(line) > 120 or line != line.rstrip()] == []


def test_comments(package: Path, tmp_path: Path) -> None:
    """All that is public has a comment that javadoc accepts, without a warning."""
    path = (package / "classpath").read_text().strip()
    sources = sorted((JAVA / "src/main/java").rglob("*.java"))
    done = run(["javadoc", "-quiet", "-Xdoclint:all", "-Xwerror", "-d", tmp_path, "-cp", path, *sources],
               seconds=SECONDS)
    assert (done.status, printed(done)) == (0, "")


def test_program_of_the_document(package: Path, tmp_path: Path) -> None:
    """The program of docs/JAVA.md compiles without a warning, and prints what its comments say."""
    (block,) = blocks("docs/JAVA.md", "java")
    (tmp_path / "First.java").write_text(block.text)
    path = (package / "classpath").read_text().strip()
    done = run(["javac", "-Xlint:all,-path", "-Werror", "-cp", path, "First.java"], cwd=tmp_path, seconds=SECONDS)
    assert (done.status, printed(done)) == (0, "")
    (tmp_path / "samples").symlink_to(TOP / "samples")
    done = run(["java", "-cp", f"{tmp_path}:{path}", "First"], cwd=tmp_path, seconds=SECONDS)
    wanted = re.findall(r"println\(.*\);?.* // (.*)", block.text)
    assert (done.status, done.err) == (0, b"")
    assert done.out.decode() == "".join(f"{line}\n" for lines in wanted for line in lines.split(", and "))


def test_configuration_of_the_document(package: Path, tmp_path: Path) -> None:
    """The dataset of the Fuseki configuration in docs/JAVA.md is opened, and asked by a command of Jena."""
    (block,) = blocks("docs/JAVA.md", "turtle")
    (tmp_path / "graph.hdt").write_bytes((TOP / "samples/three.hdt").read_bytes())
    (tmp_path / "data.ttl").write_text(block.text)
    done = java(package, tmp_path, "arq.query", "--desc", "data.ttl", "--results", "csv",
                "SELECT (COUNT(*) AS ?n) { ?s ?p ?o }", tests=False)
    assert (done.status, done.out.decode().split()) == (0, ["n", "3"]), printed(done)


def test_fresh_archive(package: Path) -> None:
    """The jar has the library that is tested, and each class and page."""
    done = run(["jar", "tf", package / "tickmarl-hdt.jar"], seconds=SECONDS)
    names = done.out.decode().split()
    assert "io/github/tickmarl/hdt/linux-x86-64/libhdt.so" in names
    assert {f"io/github/tickmarl/hdt/serve/{name}" for name in ("page.js", "page.css", "page.html")} <= set(names)
    sources = (JAVA / "src/main/java").rglob("*.java")
    classes = {str(path.relative_to(JAVA / "src/main/java").with_suffix(".class")) for path in sources}
    assert {name for name in classes if not name.endswith("package-info.class")} <= set(names)


def test_version() -> None:
    """Maven gives the package the version of the program."""
    (version,) = re.findall(r"</artifactId>\n  <version>(.*)</version>", (JAVA / "pom.xml").read_text())
    assert hdt("--version").out.decode() == f"hdt {version}\n"
