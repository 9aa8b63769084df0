"""The man page and the completions: each command and option is there, and the shells complete what is typed."""

from __future__ import annotations

import re
import shlex
import shutil
import sys
from collections.abc import Callable, Iterator
from contextlib import ExitStack
from pathlib import Path

import pytest

from support.built import BUILT, TOP
from support.program import hdt, run
from support.terminal import Terminal
from tools import completions

COMMANDS = (
    "head verify info strings string number find answer dump count build rewrite merge lint split explain help".split()
)
SHELLS = ["bash", "zsh", "fish"]
# The program that reads each file: a warning is a line on standard error.
READERS = {
    "man/hdt.1": ("man", "--warnings", "-l"),
    "man/hdt-errors.7": ("man", "--warnings", "-l"),
    "completions/hdt.bash": ("bash", "-n"),
    "completions/_hdt": ("zsh", "-n"),
    "completions/hdt.fish": ("fish", "-n"),
}
# What is in the folder in which lines are typed, and at home.
NAMES = ["build/", "sub/", "sub/inner.hdt", "graph.hdt", "my graph.hdt", "notes.txt", "document.nt", "~/xyz.hdt"]
# What is typed, and the command line after the tab key.
TYPED = {
    "hdt bui": "hdt build ",
    "hdt grap": "hdt grap",
    "hdt --ver": "hdt --version ",
    "hdt help bu": "hdt help build ",
    "hdt verify gr": "hdt verify graph.hdt ",
    "hdt verify my": "hdt verify my\\ graph.hdt ",
    "hdt verify no": "hdt verify notes.txt ",
    "hdt verify bu": "hdt verify build/",
    "hdt verify sub/": "hdt verify sub/inner.hdt ",
    "hdt verify ~/x": "hdt verify ~/xyz.hdt ",
    "hdt verify --tight gr": "hdt verify --tight graph.hdt ",
    "hdt verify graph.hdt gr": "hdt verify graph.hdt gr",
    "hdt verify graph.hdt --ti": "hdt verify graph.hdt --tight ",
    "hdt verify graph.hdt --base": "hdt verify graph.hdt --base",
    "hdt strings graph.hdt su": "hdt strings graph.hdt subject ",
    "hdt strings 'my graph.hdt' pre": "hdt strings 'my graph.hdt' predicate ",
    "hdt string graph.hdt object gr": "hdt string graph.hdt object gr",
    "hdt number graph.hdt object gr": "hdt number graph.hdt object gr",
    "hdt find --nu": "hdt find --numbers ",
    "hdt find graph.hdt gr": "hdt find graph.hdt gr",
    "hdt find graph.hdt '?' gr": "hdt find graph.hdt '?' gr",
    "hdt find graph.hdt '<u:a>' '?' gr": "hdt find graph.hdt '<u:a>' '?' gr",
    "hdt find --raw graph.hdt u:a gr": "hdt find --raw graph.hdt u:a gr",
    "hdt find --most gr": "hdt find --most gr",
    "hdt find --most 3 gr": "hdt find --most 3 graph.hdt ",
    "hdt build do": "hdt build document.nt ",
    "hdt build document.nt gr": "hdt build document.nt graph.hdt ",
    "hdt build --base gr": "hdt build --base gr",
    "hdt build --base http://a/ do": "hdt build --base http://a/ document.nt ",
    "hdt build --block-size=gr": "hdt build --block-size=gr",
    "hdt me": "hdt merge ",
    "hdt merge gr": "hdt merge graph.hdt ",
    "hdt merge graph.hdt my": "hdt merge graph.hdt my\\ graph.hdt ",
    "hdt lint --ke": "hdt lint --keep ",
    "hdt lint do": "hdt lint document.nt ",
    "hdt lint --most do": "hdt lint --most do",
}
# What is typed, and all that is offered then, folders without their slash.
OFFERED: dict[str, list[str]] = {
    "hdt re": ["rewrite"],
    "hdt verify --t": ["--terms", "--tight"],
    "hdt find --": [
        "--count", "--help", "--most", "--no-progress", "--numbers", "--quiet", "--raw", "--skip-non-terms",
        "--verbose",
    ],
    "hdt string x.hdt o": ["object"],
    "hdt build --b": ["--base", "--blank-nodes", "--block-size"],
    "hdt rewrite --p": ["--progress"],
    "hdt merge --": ["--base", "--blank-nodes", "--block-size", "--help", "--memory", "--no-progress", "--progress",
                     "--scratch", "--verbose"],
    "hdt dump ": ["build", "graph.hdt", "my graph.hdt", "sub"],
    "hdt dump no": ["notes.txt"],
    "hdt strings graph.hdt ": ["object", "predicate", "subject"],
    "hdt find graph.hdt ": [],
    "hdt count graph.hdt ": ["object", "predicate", "subject"],
    "hdt count --t": ["--top"],
    "hdt info --j": ["--json"],
    "hdt i": ["info"],
    "hdt l": ["lint"],
    "hdt lint --": ["--help", "--keep", "--longest-line", "--most", "--verbose"],
}

# An interactive zsh that prints what it offers between two marks, and ends then.
ZSHRC = r"""
PS1= fpath=($COMPLETIONS $fpath)
autoload -Uz compinit && compinit -D -u
bindkey '^I' complete-word
zle-line-init() { print -r - '<<ready>>' }
zle -N zle-line-init
mark_begin() { print -r - '<<begin>>' }
mark_end() { print -r - '<<end>>'; exit }
compprefuncs=(mark_begin)
comppostfuncs=(mark_end)
compadd() {
    [[ ${@[1,(i)(-|--)]} != *-(O|A|D)\ * ]] || { builtin compadd "$@"; return }
    local -a offered
    builtin compadd -A offered "$@"
    (( ! $#offered )) || print -rl - ${(Q)offered}
    builtin compadd "$@"
}
"""
# It runs in a terminal of its own; a line and the tab key are typed.
ZSH = r"""
zmodload zsh/zpty && zpty shell zsh -i && zpty -r shell seen '*<<ready>>*' || exit 1
zpty -w -n shell "$1"$'\t'
while zpty -r shell seen; do print -rn - "$seen"; done
exit 0
"""


def options_of(command: str) -> list[str]:
    """The options that the help of a command lists, without their dashes."""
    text = hdt(command, "--help").out.decode().partition("\nOptions:")[2]
    return sorted(set(re.findall(r"--([a-z-]+)", text)))


def has_option(text: str, option: str) -> bool:
    """Whether the man page has an option."""
    return "\\-\\-" + option.replace("-", "\\-") in text


# ---- the man page


def test_help_lists_the_commands() -> None:
    """The help lists the commands that the tests of this module know."""
    listed = hdt("--help").out.decode().partition("Commands:")[2].partition("Options:")[0]
    assert re.findall(r"^  (\w+)  ", listed, re.M) == COMMANDS


@pytest.mark.parametrize("command", COMMANDS)
def test_man_page(command: str) -> None:
    """The man page has each command of the help, each option of its help, and --version."""
    text = (TOP / "man/hdt.1").read_text()
    assert re.search(rf"\.B[IR]* \"?{command}\b", text), command
    assert [option for option in [*options_of(command), "version"] if not has_option(text, option)] == []


@pytest.mark.parametrize("file", READERS)
def test_read_without_a_warning(file: str) -> None:
    """The program that reads a file takes it without a warning."""
    if not shutil.which(READERS[file][0]):
        pytest.skip(f"there is no {READERS[file][0]}")
    done = run([*READERS[file], TOP / file], env={"LC_ALL": "C.UTF-8", "MANPAGER": "cat"})
    assert (done.status, done.err) == (0, b"")


# ---- the completions


def test_completions_are_those_of_the_help() -> None:
    """The completions are what the tool makes of the program's help: they have each command and option."""
    done = run([sys.executable, "-m", "tools.completions", "--check"], cwd=TOP, env={"HDT_BUILT": str(BUILT)})
    assert (done.status, done.out.decode(), done.err) == (0, "", b"")


def test_parts_of_the_help(monkeypatch: pytest.MonkeyPatch) -> None:
    """What the tool reads in a help text: arguments, their possible values, and options with and without a value."""
    text = """Usage: hdt count [OPTIONS] <FILE> <ROLE> [OUT]

Arguments:
  <FILE>  Path of the HDT file to read, or - for standard input
  <ROLE>  What the strings are [possible values: subject, predicate]
  [OUT]   Path of the document to write

Options:
      --top <N>    The first N terms alone [default: 10]
  -q, --quiet      Print nothing
  -o, --only <IRI>
  -h, --help       Print help (see more with '--help')
"""
    monkeypatch.setattr(completions, "printed", lambda *words: text)
    it = completions.command("count", "Count")
    assert [(arg.name, arg.suffix, arg.choices) for arg in it.arguments] == [
        ("FILE", "hdt", []), ("ROLE", "", ["subject", "predicate"]), ("OUT", "nt", [])]
    assert [(option.words, option.help, option.value) for option in it.options] == [
        (["--top"], "The first N terms alone", "N"), (["-q", "--quiet"], "Print nothing", ""),
        (["-o", "--only"], "", "IRI"), (["-h", "--help"], "Print help", "")]


@pytest.fixture(scope="module")
def terminals(tmp_path_factory: pytest.TempPathFactory) -> Iterator[Callable[[str], Terminal]]:
    """Gives the terminal of a shell, by its name; one for all tests. Skips where the shell is missing."""
    opened: dict[str, Terminal] = {}
    with ExitStack() as stack:

        def terminal(shell: str) -> Terminal:
            if not shutil.which(shell):
                pytest.skip(f"there is no {shell}")
            if shell not in opened:
                home, folder = tmp_path_factory.mktemp("home"), tmp_path_factory.mktemp("folder")
                make_names(folder, home)
                opened[shell] = stack.enter_context(Terminal(shell, TOP / "completions", home, folder))
            return opened[shell]

        yield terminal


def make_names(folder: Path, home: Path) -> None:
    """Make the empty files and the folders of `NAMES`."""
    for name in NAMES:
        path = home / name[2:] if name.startswith("~") else folder / name
        if name.endswith("/"):
            path.mkdir()
        else:
            path.touch()


@pytest.mark.parametrize("line", TYPED)
@pytest.mark.parametrize("shell", SHELLS)
def test_typed(shell: str, line: str, terminals: Callable[[str], Terminal]) -> None:
    """What the tab key makes of a line that is typed."""
    assert terminals(shell).line_after(line + "\t") == TYPED[line]


@pytest.mark.parametrize("line", OFFERED)
def test_offered_by_bash(line: str, terminals: Callable[[str], Terminal]) -> None:
    """What bash offers: the key Meta-* inserts it all."""
    inserted = terminals("bash").line_after(line + "\x1b*")
    assert inserted.startswith("hdt ")
    words = shlex.split(inserted[line.rindex(" "):])
    assert sorted(words) == OFFERED[line]


@pytest.mark.parametrize("line", OFFERED)
def test_offered_by_zsh(line: str, tmp_path: Path) -> None:
    """What zsh offers."""
    if not shutil.which("zsh"):
        pytest.skip("there is no zsh")
    home, folder = tmp_path / "home", tmp_path / "folder"
    home.mkdir()
    folder.mkdir()
    make_names(folder, home)
    (home / ".zshrc").write_text(ZSHRC)
    environment = {"ZDOTDIR": str(home), "HOME": str(home), "COMPLETIONS": str(TOP / "completions")}
    done = run(["zsh", "-f", "-c", ZSH, "zsh", line], env=environment, cwd=folder, seconds=20)
    offered = re.search(r"<<begin>>\n(.*?)<<end>>\n", done.out.decode().replace("\r", ""), re.S)
    assert offered, done
    assert sorted(set(offered[1].splitlines())) == OFFERED[line]


@pytest.mark.parametrize("line", OFFERED)
def test_offered_by_fish(line: str, tmp_path: Path) -> None:
    """What fish offers; it has files without the suffix behind those with it."""
    if not shutil.which("fish"):
        pytest.skip("there is no fish")
    make_names(tmp_path, tmp_path)
    command = f"source '{TOP / 'completions/hdt.fish'}'; complete -C '{line}'"
    done = run(["fish", "--no-config", "-c", command], env={"HOME": str(tmp_path)}, cwd=tmp_path)
    offered = [words.partition("\t")[0].rstrip("/") for words in done.out.decode().splitlines()]
    files = [name for name in ("document.nt", "notes.txt", "xyz.hdt") if "graph.hdt" in offered]
    assert (sorted(offered), done.err) == (sorted({*OFFERED[line], *files}), b"")
