"""`make install`, `uninstall`, `wheel` and `deb`: what they install, that it works from there, and failures."""

from __future__ import annotations

import gzip
import importlib.util
import os
import re
import shutil
import sys
import zipfile
from collections.abc import Sequence
from pathlib import Path

import pytest

from support.built import SAMPLES, TOP
from support.c_library import EXAMPLE, HEADER, compile_program, succeeds
from support.clone import copied
from support.program import Result, Word, hdt, run

pytestmark = pytest.mark.skipif(not (TOP / "Makefile").exists(), reason="there is no Makefile")
needs_pkg_config = pytest.mark.skipif(not shutil.which("pkg-config"), reason="there is no pkg-config")
needs_root = pytest.mark.skipif(os.geteuid() != 0, reason="only root may do this")
SECONDS = 300

# What is installed: files, and links with what they lead to.
FILES = {
    "bin/hdt",
    "include/hdt.h",
    "lib/libhdt.a",
    "lib/libhdt.so",
    "lib/libhdt.so.1",
    "lib/pkgconfig/hdt.pc",
    "share/bash-completion/completions/hdt",
    "share/fish/vendor_completions.d/hdt.fish",
    "share/man/man1/hdt.1",
    "share/man/man7/hdt-errors.7",
    "share/zsh/site-functions/_hdt",
}
AS_NOBODY = ("setpriv", "--reuid=65534", "--regid=65534", "--clear-groups")
PATTERNS = [["?"] * 3, ["u:a"], ["?", "u:p", "?"], ["?", "?", '"x"']]


def make(tree: Path, *words: Word, before: Sequence[Word] = ()) -> Result:
    """Run `make` in a copy of the repository, without the flags of an outer `make`. `before` runs it."""
    environment = {"MAKEFLAGS": "", "MAKELEVEL": "", "HOME": str(tree.parent)}
    return run([*before, "make", "-s", "-C", tree, *words], env=environment, seconds=SECONDS)


def installed_files(folder: Path) -> set[str]:
    """The files and links below a folder."""
    return {str(path.relative_to(folder)) for path in folder.rglob("*") if path.is_symlink() or path.is_file()}


def empty_folders(folder: Path) -> set[str]:
    """The folders below a folder that have nothing in them."""
    return {str(path.relative_to(folder)) for path in folder.rglob("*") if path.is_dir() and not any(path.iterdir())}


@pytest.fixture(scope="module")
def tree(tmp_path_factory: pytest.TempPathFactory) -> Path:
    """A copy of the repository without what was made in it."""
    return copied(tmp_path_factory.mktemp("tree"))


@pytest.fixture(scope="module")
def prefix(tree: Path, tmp_path_factory: pytest.TempPathFactory) -> Path:
    """A folder, with a blank in its name, into which all was installed."""
    folder = tmp_path_factory.mktemp("installed") / "a prefix"
    done = make(tree, "install", f"PREFIX={folder}")
    assert (done.status, done.err) == (0, b"")
    return folder


# ---- install and uninstall


def test_what_is_installed(prefix: Path) -> None:
    """All files are installed, and no others."""
    assert installed_files(prefix) == FILES


def test_links_to_the_shared_library(prefix: Path) -> None:
    """libhdt.so leads to the library with its SONAME."""
    assert (prefix / "lib/libhdt.so").resolve() == (prefix / "lib/libhdt.so.1").resolve()
    assert (prefix / "lib/libhdt.so").is_symlink()


def test_modes(prefix: Path) -> None:
    """Everyone may read what is installed, and run the program."""
    modes = {name: (prefix / name).stat().st_mode & 0o777 for name in FILES}
    assert {name: mode & 0o444 for name, mode in modes.items()} == dict.fromkeys(FILES, 0o444)
    assert modes["bin/hdt"] == 0o755


def test_installed_program_runs(prefix: Path) -> None:
    """The installed program verifies a sample, and has the version of the one under test."""
    assert run([prefix / "bin/hdt", "verify", SAMPLES / "three.hdt"]) == (0, b"ok 3 2 0 2 1\n", b"")
    assert run([prefix / "bin/hdt", "--version"]) == hdt("--version")


def test_installed_page_is_read(prefix: Path) -> None:
    """`man` finds the installed page."""
    if not shutil.which("man"):
        pytest.skip("there is no man")
    done = run(["man", "-M", prefix / "share/man", "hdt"], env={"LC_ALL": "C.UTF-8", "MANPAGER": "cat"})
    assert (done.status, done.err) == (0, b"")
    assert b"rewrite" in done.out


def test_install_again(tree: Path, tmp_path: Path) -> None:
    """A second install over the first one leaves the same."""
    for _ in range(2):
        assert make(tree, "install", f"PREFIX={tmp_path}").status == 0
        assert installed_files(tmp_path) == FILES


def test_destdir(tree: Path, tmp_path: Path) -> None:
    """With DESTDIR all files are below it, and they name the prefix without it."""
    done = make(tree, "install", "PREFIX=/usr", f"DESTDIR={tmp_path / 'root'}")
    assert (done.status, done.err) == (0, b"")
    assert installed_files(tmp_path) == {f"root/usr/{name}" for name in FILES}
    assert str(tmp_path) not in (tmp_path / "root/usr/lib/pkgconfig/hdt.pc").read_text()


@pytest.mark.parametrize("destdir", [False, True], ids=["prefix", "destdir"])
def test_uninstall(destdir: bool, tree: Path, tmp_path: Path) -> None:
    """Uninstalling removes what was installed, with the folders that were made and are empty, and nothing else.

    An install with DESTDIR lists no folders in hdt.pc, which goes into a package.
    """
    words = ["PREFIX=/usr", f"DESTDIR={tmp_path}"] if destdir else [f"PREFIX={tmp_path / 'usr'}"]
    for name in ("usr/share/zsh", "beside"):
        (tmp_path / name).mkdir(parents=True)
    for _ in range(2):
        assert make(tree, "install", *words).status == 0
    settings = tmp_path / "usr/lib/pkgconfig/hdt.pc"
    assert ("# made" in settings.read_text()) == (not destdir)
    settings.write_text(settings.read_text() + "# made ../beside\n")
    others = {"usr/bin/other", "usr/lib/libhdt.so.2", "usr/share/man/man1/hdt.1x"}
    for name in others:
        (tmp_path / name).write_text("other\n")
    done = make(tree, "uninstall", *words)
    assert (done.status, done.err) == (0, b"")
    assert installed_files(tmp_path) == others
    assert destdir or empty_folders(tmp_path) == {"usr/share/zsh", "beside"}
    assert make(tree, "uninstall", *words).status == 0


# What is in the way of an install: a file instead of a folder, or a folder with a file in it instead of a file.
IN_THE_WAY = [
    *((name, "file") for name in (".", "bin", "lib", "share", "include", "lib/pkgconfig", "share/man/man1")),
    *((name, "folder") for name in ("bin/hdt", "lib/libhdt.so", "lib/libhdt.so.1", "share/man/man1/hdt.1")),
]


@pytest.mark.parametrize("name, kind", IN_THE_WAY)
def test_install_fails_whole(name: str, kind: str, tree: Path, tmp_path: Path) -> None:
    """An install that not even root can do says why, and leaves nothing half done."""
    prefix = tmp_path / "prefix"
    blocked = prefix / name / "inside" if kind == "folder" else prefix / name
    blocked.parent.mkdir(parents=True, exist_ok=True)
    blocked.write_text("this is in the way\n")
    before = installed_files(tmp_path)
    done = make(tree, "install", f"PREFIX={prefix}")
    assert (done.status != 0, done.err != b"", installed_files(tmp_path)) == (True, True, before)
    assert empty_folders(tmp_path) == set()


@pytest.mark.parametrize("words", [["--help"], ["a", "b"]], ids=" ".join)
def test_arguments_that_install_does_not_take(words: list[str], tree: Path, tmp_path: Path) -> None:
    """What `make install` runs takes no other argument than --remove."""
    done = run([tree / "tools/install", *words], env={"PREFIX": str(tmp_path), "DESTDIR": ""})
    assert (done.status, done.out) == (2, b"") and done.err != b""
    assert installed_files(tmp_path) == set()


def test_a_prefix_that_is_relative(tree: Path) -> None:
    """A PREFIX that the shell has not expanded is refused, and nothing is made."""
    result = run([tree / "tools/install"], cwd=tree, env={"PREFIX": "~/.local"})
    assert result == Result(2, b"", b"install: PREFIX has to be an absolute path: ~/.local\n")
    assert not (tree / "~").exists()


@needs_root
def test_install_into_a_folder_of_another_user(public_folder: Path) -> None:
    """A folder that the user can't write to stays as it is."""
    tree, prefix = copied(public_folder), public_folder / "prefix"
    prefix.mkdir()
    succeeds("chown", "-R", "65534:65534", tree)
    done = make(tree, "install", f"PREFIX={prefix}", before=AS_NOBODY)
    assert done.status != 0 and str(prefix).encode() in done.err
    assert installed_files(prefix) == set()


@needs_root
def test_install_from_a_folder_of_another_user(public_folder: Path) -> None:
    """A user who can only read the repository can install it into a folder of their own."""
    tree, prefix = copied(public_folder), public_folder / "prefix"
    prefix.mkdir()
    shutil.chown(prefix, 65534, 65534)
    done = make(tree, "install", f"PREFIX={prefix}", before=AS_NOBODY)
    assert (done.status, done.err) == (0, b"")
    assert installed_files(prefix) == FILES


@pytest.mark.skipif(os.geteuid() == 0, reason="root may write everywhere")
def test_install_into_a_folder_that_is_read_only(tree: Path, tmp_path: Path) -> None:
    """A folder that the user can't write to stays as it is."""
    tmp_path.chmod(0o555)
    done = make(tree, "install", f"PREFIX={tmp_path}")
    tmp_path.chmod(0o755)
    assert done.status != 0 and str(tmp_path).encode() in done.err
    assert installed_files(tmp_path) == set()


@pytest.mark.parametrize("is_there", [True, False], ids=["altered", "missing"])
def test_install_of_damaged_files(is_there: bool, tmp_path: Path) -> None:
    """If a shipped file is missing or altered, it is named and nothing is installed."""
    tree = copied(tmp_path)
    library = next(tree.glob("dist/*/libhdt.a"))
    if is_there:
        library.write_bytes(library.read_bytes()[:-1])
    else:
        library.unlink()
    done = make(tree, "install", f"PREFIX={tmp_path / 'prefix'}")
    assert done.status != 0 and b"libhdt.a" in done.err
    assert not (tmp_path / "prefix").exists() or installed_files(tmp_path / "prefix") == set()


# ---- the installed library


def flags_of(prefix: Path) -> list[str]:
    """What pkg-config gives for compiling and linking against the installed library."""
    asked = succeeds("pkg-config", "--cflags", "--libs", "hdt", env={"PKG_CONFIG_PATH": str(prefix / "lib/pkgconfig")})
    return [re.sub(r"\\(.)", r"\1", word) for word in re.findall(r"(?:\\.|\S)+", asked)]


@needs_pkg_config
def test_pkg_config(prefix: Path, tmp_path: Path) -> None:
    """pkg-config gives the header's version, and flags with which the example compiles."""
    wanted = [f"-I{prefix}/include", f"-L{prefix}/lib", "-lhdt"]
    assert [os.path.normpath(word) for word in flags_of(prefix)] == wanted
    version = succeeds("pkg-config", "--modversion", "hdt", env={"PKG_CONFIG_PATH": str(prefix / "lib/pkgconfig")})
    assert version.strip() == ".".join(re.findall(r"#define HDT_VERSION_M\w+ (\d+)", HEADER.read_text()))
    program = compile_program(tmp_path / "example", EXAMPLE, "-std=c99", "-O2", *flags_of(prefix))
    assert run_example(program, prefix, SAMPLES / "three.hdt").status == 0


@pytest.fixture(scope="module")
def examples(prefix: Path, tmp_path_factory: pytest.TempPathFactory) -> dict[str, Path]:
    """c/example.c, linked with each installed library."""
    folder = tmp_path_factory.mktemp("examples")
    options = ("-std=c99", "-O2", f"-I{prefix}/include")
    return {
        "shared": compile_program(folder / "shared", EXAMPLE, *options, f"-L{prefix}/lib", "-lhdt"),
        "static": compile_program(folder / "static", EXAMPLE, *options, prefix / "lib/libhdt.a"),
    }


def run_example(program: Path, prefix: Path, *words: Word) -> Result:
    """Run an example with the installed shared library."""
    return run([program, *words], env={"LD_LIBRARY_PATH": str(prefix / "lib")})


def test_example_is_linked_with_the_soname(examples: dict[str, Path], prefix: Path) -> None:
    """The shared example needs the library by its SONAME; the static one does not need it."""
    environment = {"LD_LIBRARY_PATH": str(prefix / "lib")}
    found = {name: succeeds("ldd", path, env=environment) for name, path in examples.items()}
    assert re.search(rf"libhdt\.so\.1 => {re.escape(str(prefix))}/lib/libhdt\.so\.1 ", found["shared"])
    assert "libhdt" not in found["static"]


@pytest.mark.parametrize("pattern", PATTERNS, ids=" ".join)
@pytest.mark.parametrize("sample", ["three", "v1"])
@pytest.mark.parametrize("linked", ["shared", "static"])
def test_example(linked: str, sample: str, pattern: list[str], examples: dict[str, Path], prefix: Path) -> None:
    """The example prints counts, and then what `hdt find` prints."""
    path = SAMPLES / f"{sample}.hdt"
    done = run_example(examples[linked], prefix, path, *pattern)
    counts, _, found = done.out.partition(b"\n")
    assert (done.status, found, done.err) == hdt("find", "--raw", path, *(pattern + ["?", "?"])[:3])
    assert re.fullmatch(rb"\d triples, \d subjects, \d predicates, \d objects", counts)


@pytest.mark.parametrize("linked", ["shared", "static"])
def test_example_of_an_invalid_file(linked: str, examples: dict[str, Path], prefix: Path) -> None:
    """The example reports the error of an invalid file."""
    done = run_example(examples[linked], prefix, SAMPLES / "v1-head.hdt")
    assert done == (1, b"", b"reason 1 Truncated at byte 218\n")


def test_example_of_a_pipe_and_of_no_file(examples: dict[str, Path], prefix: Path) -> None:
    """The example reads a pipe and a large file as a small one, and reports a file that is missing."""
    data = (SAMPLES / "three.hdt").read_bytes()
    done = run([examples["static"], "/dev/stdin"], stdin=data)
    assert done == run([examples["static"], SAMPLES / "three.hdt"])
    large = run([examples["static"], "/dev/stdin"], stdin=data + bytes(1 << 18))
    assert large == (1, b"", f"reason 33 TrailingBytes at byte {len(data)}\n".encode())
    assert run([examples["static"], prefix / "none"]) == (3, b"", f"{prefix / 'none'} cannot be read\n".encode())


# ---- the Python wheel


PYTHON_PROGRAM = f"""
import hdt, pathlib, sys
hdt.build({str(SAMPLES / "three.nt")!r}, "built.hdt", base="http://a/")
assert pathlib.Path("built.hdt").read_bytes() == pathlib.Path({str(SAMPLES / "three.hdt")!r}).read_bytes()
with hdt.open("built.hdt") as graph:
    print(len(graph), list(graph.find("u:a", o='"x"')))
maps = pathlib.Path("/proc/self/maps").read_text().splitlines()
mapped = {{line.split()[-1] for line in maps if "libhdt" in line}}
print(mapped if mapped != {{str(pathlib.Path(hdt.__file__).parent / "libhdt.so")}} else "its own library")
print(pathlib.Path(hdt.__file__).is_relative_to(sys.prefix))
"""
# What keeps Python from finding another package or library.
ALONE = {"PYTHONPATH": "", "HDT_LIBRARY": "", "PYTHONDONTWRITEBYTECODE": "1"}
PRINTED = "3 [('u:a', 'u:q', '\"x\"')]\nits own library\nTrue\n"


def results(tree: Path, target: str, pattern: str) -> list[Path]:
    """What `make` with a target puts into out/."""
    done = make(tree, target)
    assert done.status == 0, done
    return sorted((tree / "out").glob(pattern))


@pytest.fixture(scope="module")
def wheel(tree: Path) -> Path:
    """The wheel that `make wheel` makes."""
    wheels = results(tree, "wheel", "*.whl")
    assert len(wheels) == 1
    return wheels[0]


def test_wheel_has_a_platform(wheel: Path) -> None:
    """The wheel's name has the version and a platform, and no version of Python."""
    assert re.fullmatch(r"tickmarl_hdt-2\.1\.0-py3-none-(many)?linux\w*_x86_64\.whl", wheel.name)


def test_wheel_has_the_library(wheel: Path) -> None:
    """The wheel has the package, its types, the library and the program."""
    names = [f"/{name}" for name in zipfile.ZipFile(wheel).namelist()]
    wanted = ["/hdt/__init__.py", "/hdt/_faults.py", "/hdt/_library.py", "/hdt/py.typed", "/hdt/libhdt.so",
              "/hdt/bin/hdt", "/hdt/__main__.py",
              "/hdt/fragments/__init__.py", "/hdt/fragments/_application.py", "/hdt/rdflib/__init__.py",
              "/hdt/rdflib/_store.py", "/hdt/parts/__init__.py", "/hdt/parts/_build.py", "/hdt/sparql/__init__.py"]
    assert [name for name in wanted if sum(it.endswith(name) for it in names) != 1] == []


def installed_by_pip(folder: Path, *words: Word, tree: Path, venv: Sequence[Word] = ()) -> Path:
    """The Python of a fresh environment into which pip has installed something, without a network."""
    succeeds(sys.executable, "-m", "venv", "--without-pip", *venv, folder / "venv")
    python = folder / "venv/bin/python"
    pip: list[Word] = [sys.executable, "-m", "pip", "--quiet", "--disable-pip-version-check", "--python", python]
    succeeds(*pip, "install", "--no-index", *words, env=ALONE, cwd=tree)
    return python


def test_wheel_is_installed_and_used(wheel: Path, tree: Path, tmp_path: Path) -> None:
    """In a fresh environment the installed package works with the library inside it, without a network."""
    python = installed_by_pip(tmp_path, wheel, tree=tree)
    assert succeeds(python, "-W", "error", "-c", PYTHON_PROGRAM, env=ALONE, cwd=tmp_path) == PRINTED


def test_folder_is_installed_by_pip(tree: Path, tmp_path: Path) -> None:
    """`pip install ./python` gives a package that works; it takes the setuptools that are there: no network is used."""
    python = installed_by_pip(tmp_path, "--no-build-isolation", "./python", tree=tree, venv=["--system-site-packages"])
    assert succeeds(python, "-W", "error", "-c", PYTHON_PROGRAM, env=ALONE, cwd=tmp_path) == PRINTED
    check_scripts(python, tmp_path)


def check_scripts(python: Path, folder: Path) -> None:
    """The scripts `hdt` and `tickmarl-hdt`, and the module, of an installed package work, in an empty PATH."""
    scripts: list[list[Word]] = [[python.parent / "tickmarl-hdt"], [python, "-m", "hdt"]]
    (folder / "other/hdt").mkdir(parents=True)
    (folder / "other/hdt/__init__.py").write_text("raise ImportError('another package')\n")
    (folder / "a.nt").write_text("<u:a> <u:p> _:b .\n")
    (folder / "b.nt.gz").write_bytes(gzip.compress(b"<u:a> <u:p> _:b .\n"))
    alone = {**ALONE, "PATH": ""}
    commands: list[list[Word]] = [[python.parent / "hdt"], *scripts]
    for words in commands:
        assert run([*words, "--version"], env=alone, cwd=folder) == hdt("--version")
        assert run([*words, "verify", SAMPLES / "three.hdt"], env=alone, cwd=folder) == (0, b"ok 3 2 0 2 1\n", b"")
    beside = {**alone, "PYTHONPATH": str(folder / "other")}
    for words, environment in ((scripts[0], alone), (scripts[1], alone), (scripts[0], beside)):
        done = run([*words, "build", "a.nt", "b.nt.gz", "out.hdt"], env=environment, cwd=folder)
        assert (done.status, done.out[:16], done.err) == (0, b"built 2 0 1 1 2 ", b"")
    done = run([*scripts[0], "build", "a.ttl", "out.hdt"], env=alone, cwd=folder)
    assert (done.status, done.err) == (3, b"hdt: [Errno 2] No such file or directory: 'a.ttl'\n")


def test_scripts_of_the_wheel(wheel: Path, tree: Path, tmp_path: Path) -> None:
    """In a fresh environment the wheel gives the commands."""
    check_scripts(installed_by_pip(tmp_path, wheel, tree=tree), tmp_path)


@pytest.mark.skipif(not importlib.util.find_spec("rdflib"), reason="there is no rdflib")
def test_store_of_rdflib_is_found_by_its_name(tree: Path, tmp_path: Path) -> None:
    """rdflib finds the store of an installed package by its entry point."""
    python = installed_by_pip(tmp_path, "--no-build-isolation", "./python", tree=tree, venv=["--system-site-packages"])
    program = "from rdflib import Graph; print(type(Graph('HDT').store).__module__)"
    assert succeeds(python, "-W", "ignore", "-c", program, env=ALONE, cwd=tmp_path) == "hdt.rdflib\n"


def test_package_in_a_clone(tree: Path, tmp_path: Path) -> None:
    """With PYTHONPATH the package of a clone finds the library that belongs to the clone."""
    environment = {**ALONE, "PYTHONPATH": str(tree / "python")}
    printed = succeeds(sys.executable, "-W", "error", "-c", PYTHON_PROGRAM, env=environment, cwd=tmp_path)
    found = re.search(r"\{'(.*)'\}", printed)
    assert found and Path(found[1]).is_relative_to(tree)


# ---- the Debian package


needs_dpkg = pytest.mark.skipif(not shutil.which("dpkg-deb"), reason="there is no dpkg-deb")


@pytest.fixture(scope="module")
def package(tree: Path) -> Path:
    """The Debian package that `make deb` makes."""
    packages = results(tree, "deb", "*.deb")
    assert len(packages) == 1
    return packages[0]


def check_root(root: Path, tmp_path: Path) -> None:
    """The program, the library and the page of a root's /usr work."""
    assert run([root / "usr/bin/hdt", "verify", SAMPLES / "three.hdt"]) == (0, b"ok 3 2 0 2 1\n", b"")
    library = next(path for path in root.rglob("libhdt.so.1"))
    options = ("-std=c99", f"-I{root}/usr/include", f"-L{library.parent}", "-lhdt")
    example = compile_program(tmp_path / "example", EXAMPLE, *options)
    done = run([example, SAMPLES / "three.hdt"], env={"LD_LIBRARY_PATH": str(library.parent)})
    assert (done.status, done.out.count(b"\n")) == (0, 4)
    assert list(root.glob("usr/share/man/man1/hdt.1*")) and list(root.glob("usr/share/man/man7/hdt-errors.7*"))


@needs_dpkg
def test_package_fields(package: Path) -> None:
    """The package says what it is and for which machine."""
    lines = succeeds("dpkg-deb", "--field", package).splitlines()
    fields = dict(line.split(": ", 1) for line in lines if ": " in line)
    assert (fields["Version"].split("-")[0], fields["Architecture"]) == ("1.1.0", "amd64")
    assert fields["Maintainer"] and fields["Description"] and "libc6" in fields["Depends"]


@needs_dpkg
def test_package_files(package: Path) -> None:
    """Each file of the package belongs to root; none is outside /usr."""
    lines = succeeds("dpkg-deb", "--contents", package).splitlines()
    assert {line.split()[1] for line in lines} == {"root/root"}
    names = [line.split()[5] for line in lines]
    assert [name for name in names if name not in ("./", "./usr/") and not name.startswith("./usr/")] == []


@needs_dpkg
def test_package_unpacked(package: Path, tmp_path: Path) -> None:
    """The unpacked files work."""
    succeeds("dpkg-deb", "-x", package, tmp_path / "root")
    check_root(tmp_path / "root", tmp_path)


@needs_dpkg
@needs_root
def test_package_installed_and_removed(package: Path, tmp_path: Path) -> None:
    """dpkg installs it into a fresh root, where it works, and removes all of it."""
    root = tmp_path / "root"
    for name in ("info", "updates", "triggers"):
        (root / "var/lib/dpkg" / name).mkdir(parents=True)
    (root / "var/lib/dpkg/status").touch()
    options = (f"--root={root}", "--force-not-root", "--force-script-chrootless", "--force-depends")
    succeeds("dpkg", *options, "--install", package)
    check_root(root, tmp_path)
    name = succeeds("dpkg-deb", "--field", package, "Package").strip()
    succeeds("dpkg", *options, "--purge", name)
    assert [path for path in installed_files(root) if path.startswith("usr")] == []


@needs_dpkg
def test_package_by_lintian(package: Path) -> None:
    """lintian has no error."""
    if not shutil.which("lintian"):
        pytest.skip("there is no lintian")
    done = run(["lintian", "--fail-on", "error", package], seconds=SECONDS)
    assert done.status == 0, done.out.decode()
