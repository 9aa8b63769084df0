"""The commands in `tools/`, and the launcher `hdt`."""

from __future__ import annotations

import re
import shutil
from pathlib import Path

import pytest

from support import built
from support.built import TOP
from support.program import Result, failed, run
from support.tools import tool, write

MODULES = sorted(it.stem for it in (TOP / "tools").glob("*.py") if "__main__" in it.read_text())


@pytest.mark.parametrize("name", MODULES)
def test_help(name: str) -> None:
    """`--help` says how the command is called."""
    status, out, err = tool(name, "--help")
    assert (status, out.startswith(f"usage: python3 -m tools.{name} [-h]".encode()), err) == (0, True, b"")


# ---- with a kit that only makes files, and without one

KIT = {
    # Proves all, and links the program; a file `edit` beside the kit is run as a script meanwhile.
    "bin/rt": """\
#!/bin/sh
[ "$1" != version ] || echo kit of files 1
[ "$1" = ci ] || exit 0
echo "rt: hdt proved" && echo "rt: hdt_c is kept: of an earlier run"
mkdir -p crates/hdt/out && cp crates/hdt/src/main.rt crates/hdt/out/hdt
[ ! -f "${0%/*}/../edit" ] || . "${0%/*}/../edit"
echo "2 passed, 0 failed"
""",
    # `-o FILE` makes a file, of the last word if that is one; `rcD FILE` does, too.
    "toolchain/bin/clang": """\
#!/bin/sh
for last; do :; done
before=
for it; do
    case $before in
    -o | rcD) if [ -f "$last" ]; then cat "$last" >"$it"; else echo "made by the kit" >"$it"; fi ;;
    esac
    before=$it
done
""",
    "bin/rattle": '#!/bin/sh\nwhile [ "$1" != -o ]; do shift; done\necho library >"$2"\n',
}
# The program says which folder it is in, its input and its arguments.
PROGRAM = """\
#!/bin/sh
folder=$(readlink -f "$0")
folder=${folder%/*/*}
echo ${folder##*/}: "$(cat) [$*]"
exit 7
"""
TREE = {
    "hdt": (TOP / "hdt").read_text(), "crates.txt": "hdt:\nhdt_c staticlib:\n", "crates/hdt/src/main.rt": PROGRAM,
    "crates/hdt_c/src/lib.rt": "", "c/hdt.map": "{ global: hdt_*; local: *; };\n",
}
# What belongs to the sources, and files beside them that don't.
SOURCES = ["c/hdt.map", "crates.txt", "crates/b/proofs/A.antt", "crates/hdt/specs/Lib.antt", "crates/hdt/src/a/lib.rt"]
OTHERS = ["README.md", "crates/hdt/PROMISES.md", "crates/hdt/wrong/zero.edit", "crates/hdt/out/one.log"]
FROM_SOURCE = "to build it from source, with the Rattle kit: make (see CONTRIBUTING.md)"
CHANGED = failed(2, "the sources have changed since dist/ was made, and nothing is built from them: make")


class Tree:
    """A small tree with all scripts, and a kit that makes files."""

    def __init__(self, folder: Path) -> None:
        self.top, self.kit = folder / "a tree", folder / "kit"

    def tool(self, words: str) -> Result:
        """Run a module of the tree's `tools`."""
        return tool(*words.split(), path=f"{self.kit}/bin:/usr/bin:/bin", top=self.top)

    def hdt(self, command: str = "./hdt") -> Result:
        """Run a command in the tree, the launcher; commands beside the tree come first on the path."""
        env = {"PATH": f"{self.top.parent}:/usr/bin:/bin"}
        return run(["sh", "-c", command], stdin=b"input", cwd=self.top, env=env)


@pytest.fixture(scope="module")
def shipped(tmp_path_factory: pytest.TempPathFactory) -> Path:
    """A folder with a tree that is built and has its dist/, and with its kit."""
    tree = Tree(tmp_path_factory.mktemp("shipped"))
    write(tree.kit, KIT)
    shutil.copytree(TOP / "tools", write(tree.top, TREE) / "tools", ignore=shutil.ignore_patterns("__pycache__"))
    status, out, err = tree.tool("build")
    assert (status, out) == (0, b""), err
    assert b"hdt is proved, 1 of 2\n" in err and b"hdt_c was proved before, 2 of 2\n" in err
    files = {it.name for it in (tree.top / "out/x86_64-linux-gnu").iterdir()}
    assert files == {"hdt", "libhdt.a", "libhdt.so"}
    assert tree.tool("build --dist") == Result(0, b"", b"hdt: made dist/x86_64-linux-gnu\n")
    return tree.top.parent


@pytest.fixture
def tree(tmp_path: Path, shipped: Path) -> Tree:
    """Such a tree and kit."""
    return Tree(shutil.copytree(shipped, tmp_path / "folder"))


def runs(folder: str, words: str = "") -> Result:
    """What the program of a folder does."""
    return Result(7, f"{folder}: input [{words}]\n".encode(), b"")


@pytest.mark.parametrize("words", ["build", "build --link", "build --dist", "gate", "gate link", "gate dist"])
def test_without_kit(tree: Tree, words: str) -> None:
    """Where the kit, or what is built with it, is missing, a line says so, and nothing is built or shipped."""
    for folder in (tree.kit, tree.top / "out", tree.top / "dist"):
        shutil.rmtree(folder)
    status, out, err = tree.tool(words)
    text = (out + err).decode()
    assert re.search("no Rattle kit|is not built|nothing is built|No such file or directory: '.*/MANIFEST'", text), text
    assert (status > 0, "Traceback" in text, list(tree.top.rglob("MANIFEST"))) == (True, False, [])
    assert not words.startswith("gate") or text.splitlines()[-1] == "0 passed, 1 failed"


@pytest.mark.parametrize("changed", [*SOURCES, "crates/new/src/lib.rt"])
def test_changed_sources(tree: Tree, changed: str) -> None:
    """Nothing but what the sources of a manifest's checksum built runs, or is shipped. Other files don't count."""
    write(tree.top, dict.fromkeys(OTHERS, ""))
    assert tree.hdt() == runs("dist")
    write(tree.top, {changed: TREE.get(changed, "") + "# more\n"})
    assert (tree.hdt(), *(tree.tool(f"build {it}").status for it in ("--link", "--dist"))) == (CHANGED, 2, 2)
    assert (tree.tool("build").status, tree.hdt()) == (0, runs("out"))
    (tree.top / "out/x86_64-linux-gnu/hdt").unlink()
    assert tree.hdt() == failed(2, f"missing or altered: out/x86_64-linux-gnu/hdt; {FROM_SOURCE}")
    for folder in ("dist", "out"):
        shutil.rmtree(tree.top / folder)
    assert tree.hdt() == failed(2, "dist/MANIFEST is missing; to restore it: git checkout dist")


def test_sources_that_change_during_the_proofs(tree: Tree) -> None:
    """Files do not belong to sources that are newer than the proofs that they come from."""
    (tree.kit / "edit").write_text("echo '// changed' >>crates/hdt/src/main.rt\n")
    assert (tree.tool("build").status, tree.hdt()) == (2, CHANGED)


@pytest.mark.parametrize("has, is_enough", [("2.34", True), ("2.100", True), ("2.4", False), ("", False)])
def test_other_machines(tree: Tree, has: str, is_enough: bool) -> None:
    """The line says what the machine lacks: the version of glibc, the architecture, or, before, whole files."""
    text = (tree.top / "dist/MANIFEST").read_text()
    getconf = f"#!/bin/sh\n[ -n '{has}' ] && echo glibc {has}\n"
    write(tree.top, {"dist/MANIFEST": text.replace("glibc 2.17", "glibc 2.34"), "../getconf": getconf})
    line = f"the program needs glibc 2.34, and this machine has {has or 'none'}; {FROM_SOURCE}"
    assert tree.hdt() == (runs("dist") if is_enough else failed(2, line))
    write(tree.top, {"../uname": "#!/bin/sh\necho aarch64\n"})
    assert tree.hdt() == failed(2, f"the program is for x86_64, and this machine is aarch64; {FROM_SOURCE}")
    write(tree.top, {"dist/x86_64-linux-gnu/libhdt.so": "DIST"})
    assert b"hdt: missing or altered: dist/x86_64-linux-gnu/libhdt.so; to restore it" in tree.hdt().err


@pytest.mark.parametrize("command", ["./hdt", "sh hdt", "PATH=:$PATH hdt", "../bin/hdt", "CDPATH=/usr ./hdt"])
def test_ways_to_call(tree: Tree, command: str) -> None:
    """It runs the program of its own tree by every name, with a closed descriptor too, and leaves nothing."""
    (tree.top.parent / "bin").mkdir()
    (tree.top.parent / "bin/hdt").symlink_to(tree.top / "hdt")
    before = sorted(tree.top.rglob("*"))
    assert tree.hdt(f"{command} 'a  b' '*'") == runs("dist", "a  b *")
    assert tree.hdt(f"{command} >&-").status == 7
    assert sorted(tree.top.rglob("*")) == before


SIGNED = 'sum=$(sha256sum <$f | cut -c1-64); sed -i "\\|$f|d" dist/MANIFEST; echo "file $sum 6 ${f#*/}" >>dist/MANIFEST'
DISTS: dict[str, list[str]] = {
    ":": [],
    "echo more >>dist/x86_64-linux-gnu/hdt": ["hdt is missing or altered"],
    "rm dist/x86_64-linux-gnu/libhdt.a": ["libhdt.a is missing or altered"],
    f"f=dist/x86_64-linux-gnu/hdt; echo other >$f; {SIGNED}": ["hdt is not what was just proved and built"],
    f"f=dist/x86_64-linux-gnu/more; echo other >$f; {SIGNED}": ["more is not what was just proved and built"],
    "echo more >dist/x86_64-linux-gnu/more": ["more is in no manifest"],
    'sed -i "s/^sources ./sources x/" dist/MANIFEST': ["dist/ is not made of the tree's sources"],
    'sed -i "s/^kit .*/kit another/" dist/MANIFEST': [],
    "sed -i /^kit/d dist/MANIFEST": ["has no line 'kit'"],
    "rm dist/MANIFEST": ["dist/MANIFEST"],
}


@pytest.mark.parametrize("command", DISTS)
def test_gate_of_dist(tree: Tree, command: str) -> None:
    """The gate compares dist/ with the sources, and with what was just built if the kit is the same."""
    wanted = DISTS[command]
    assert run(["sh", "-c", command], cwd=tree.top).status == 0
    status, out, err = tree.tool("gate dist")
    lines = [it for it in out.decode().splitlines() if it.startswith("dist: ") and "not compared" not in it]
    assert (status, err, len(lines)) == (1 if wanted else 0, b"", len(wanted)), out
    assert all(text in line for text, line in zip(wanted, lines)), lines
    assert re.search(rf"\d+ passed, {len(wanted)} failed\n$", out.decode())


# ---- tools that are no part of the gate


def test_differential(tmp_path: Path) -> None:
    """The same program differs nowhere; another one is found out by what it prints and by the files that it leaves."""
    status, out, err = tool("differential", built.PROGRAM, built.PROGRAM, "--requests", "100")
    assert (status, err, out.splitlines()[-1]) == (0, b"", b"100 requests, 0 differences")
    wrong = '[ "$1" != verify ] || exec echo ok\n[ "$1" != dump ] || : >left\n'
    write(tmp_path, {"hdt": f'#!/bin/sh\n{wrong}{built.PROGRAM} "$@"\n'})
    status, out, err = tool("differential", built.PROGRAM, tmp_path / "hdt", "--requests", "100")
    assert (status, err) == (1, b"")
    differing = set(re.findall(rb"^request \d+: \['(\w+)', .*\] differs in .*?(\w+): ", out, re.M))
    assert differing == {(b"verify", b"out"), (b"verify", b"err"), (b"dump", b"files")}


@pytest.mark.skipif(not Path("/usr/bin/time").exists(), reason="there is no /usr/bin/time")
def test_memory() -> None:
    """Each kind of document has its row in both tables."""
    status, out, err = tool("memory", "--scale", "0.00001")
    assert (status, len(re.findall(rb"^\| .* \| (?:59 to )?100 \|", out, re.M)), err) == (0, 10, b"")
