"""`hdt build --memory SIZE`: where OUT and the scratch files are, and where they can't be."""

from __future__ import annotations

import os
import re
import shutil
import signal
import stat
import subprocess
from pathlib import Path

import pytest

from support.build_memory import SECONDS, Built, Documents, build
from support.built import PROGRAM
from support.files import THREE, as_root, mounts, names, shell
from support.program import WRITING_FAILED, Result, Word, hdt, run
from test_build_inputs import HELP


@pytest.fixture(scope="module")
def three(tmp_path_factory: pytest.TempPathFactory) -> Built:
    """The three triples, built in memory."""
    return build(tmp_path_factory.mktemp("three"), THREE)


OUTPUTS: dict[str, str] = {
    "standard output": '"$0" build --memory 4M --scratch . "$1" -',
    "its path": '"$0" build --memory 4M --scratch . "$1" /dev/stdout',
    "a file as standard output": '"$0" build --memory 4M --scratch . "$1" - > file && cat file',
    "appended": 'printf "" > file; "$0" build --memory 4M --scratch . "$1" - >> file && cat file && rm file',
    "a named pipe": 'mkfifo pipe; cat pipe & "$0" build --memory 4M --scratch . "$1" pipe >&2; wait; rm pipe',
    "a new file": '"$0" build --memory 4M "$1" file >&2 && cat file',
    "a file named -": '"$0" build --memory 4M "$1" ./- >&2 && cat ./- && rm ./-',
    "a link to nothing": 'ln -s file link; "$0" build --memory 4M --scratch . "$1" link >&2 && cat file && rm link',
    "standard input": '"$0" build --memory 4M - file >&2 < "$1" && cat file',
    "standard input and output": 'cat "$1" | "$0" build --memory 4M --scratch . - - | cat',
}


@pytest.mark.parametrize("name", OUTPUTS)
def test_outputs(name: str, three: Built, tmp_path: Path) -> None:
    """The file goes where it goes without `--memory`, and so does the line of counts."""
    assert shell(OUTPUTS[name], THREE, cwd=tmp_path) == Result(0, three.file, three.result.out)
    assert names(tmp_path) in ([], ["file"])


@pytest.mark.parametrize("out", ["/dev/null", "pipe", "-", "/dev/stdout"])
def test_an_output_that_is_no_file(out: str, tmp_path: Path) -> None:
    """Scratch files have no place beside a device, a pipe or standard output: `--scratch` names one."""
    os.mkfifo(tmp_path / "pipe")
    seen = hdt("build", "--memory", "4M", THREE, out, cwd=tmp_path)
    assert (seen.status, seen.out, b"--scratch" in seen.err, seen.err.endswith(HELP)) == (2, b"", True, True)
    assert names(tmp_path) == ["pipe"]


def test_a_full_device(tmp_path: Path) -> None:
    """A device that takes no bytes is a failed write."""
    assert hdt("build", "--memory", "4M", "--scratch", tmp_path, THREE, "/dev/full") == WRITING_FAILED
    assert shell('"$0" build --memory 4M --scratch . "$1" - > /dev/full', THREE, cwd=tmp_path) == WRITING_FAILED
    assert hdt("build", "--memory", "4M", "--scratch", tmp_path, THREE, "/dev/null").status == 0
    assert names(tmp_path) == []


def test_an_output_is_replaced(three: Built, tmp_path: Path) -> None:
    """OUT becomes a new file with the old one's permissions, also through a link; a hard link keeps the old one."""
    out, soft, hard = (tmp_path / name for name in ("out.hdt", "soft.hdt", "hard.hdt"))
    for mode in (0o600, 0o640, 0o644, 0o400):
        out.unlink(missing_ok=True)
        out.write_bytes(b"before")
        out.chmod(mode)
        os.link(out, hard)
        soft.symlink_to(out)
        assert shell('umask 077; exec "$0" build --memory 4M "$@"', THREE, soft) == three.result
        assert (out.read_bytes(), hard.read_bytes(), soft.is_symlink()) == (three.file, b"before", True)
        assert (stat.S_IMODE(out.stat().st_mode), names(tmp_path)) == (mode, ["hard.hdt", "out.hdt", "soft.hdt"])
        soft.unlink()
        hard.unlink()
    out.unlink()
    assert shell('umask 027; exec "$0" build --memory 4M "$@"', THREE, out) == three.result
    assert stat.S_IMODE(out.stat().st_mode) == 0o640


@pytest.mark.parametrize("script", [
    '"$0" build --memory 4M in.nt in.nt', '"$0" build --memory 4M in.nt soft.nt',
    '"$0" build --memory 4M - in.nt < in.nt', '"$0" build --memory 4M in.nt other.nt in.nt',
    '"$0" build --memory 4M --scratch . in.nt - >> in.nt'])
def test_a_document_is_not_built_over(script: str, tmp_path: Path) -> None:
    """OUT is no IN."""
    (tmp_path / "in.nt").write_bytes(b"no triple\n")
    (tmp_path / "other.nt").write_bytes(b"no triple\n")
    (tmp_path / "soft.nt").symlink_to("in.nt")
    before = names(tmp_path)
    assert shell(script, cwd=tmp_path) == Result(2, b"", b"error: IN and OUT are the same file" + HELP)
    assert ((tmp_path / "in.nt").read_bytes(), names(tmp_path)) == (b"no triple\n", before)


@pytest.mark.parametrize("closed", ["<&-", ">&-", "2>&-", "<&- >&- 2>&-"])
def test_closed_descriptors(closed: str, batches: Documents, tmp_path: Path) -> None:
    """No scratch file is taken for a standard stream that is closed: nothing is printed into it."""
    plain = build(tmp_path, batches.path("people"))
    seen = shell(f'exec "$0" build --memory 4M "$1" out.hdt {closed}', batches.path("people"), cwd=tmp_path)
    wanted = WRITING_FAILED if ">&-" in closed.split() else plain.result
    assert seen == (wanted._replace(err=b"") if "2>" in closed else wanted)
    assert (names(tmp_path), (tmp_path / "out.hdt").read_bytes()) == (["out.hdt"], plain.file)


def test_few_descriptors(batches: Documents, tmp_path: Path) -> None:
    """However many batches there are, two files are open beside the standard streams."""
    wanted = build(tmp_path / "plain", batches.path("shuffled")).file
    script = 'ulimit -n 6; exec "$0" build --memory 4M "$1" out.hdt'
    assert shell(script, batches.path("shuffled"), cwd=tmp_path).status == 0
    assert (tmp_path / "out.hdt").read_bytes() == wanted


def test_relative_paths(batches: Documents, tmp_path: Path) -> None:
    """Paths are those of the folder in which the program starts."""
    for name in ("in", "out", "scratch"):
        (tmp_path / name).mkdir()
    (tmp_path / "in/a.nt").symlink_to(batches.path("people"))
    (tmp_path / "in/b.nt").symlink_to(batches.path("labels"))
    cases: list[list[Word]] = [[], ["--memory", "4M"], ["--memory=4M", "--scratch=scratch"]]
    made = [run([PROGRAM, "build", "in/a.nt", "in/b.nt", f"out/{number}", *options], cwd=tmp_path)
            for number, options in enumerate(cases)]
    assert made[0] == made[1] == made[2] and made[0].status == 0
    assert (names(tmp_path / "out"), names(tmp_path / "scratch")) == (["0", "1", "2"], [])
    assert len({it.read_bytes() for it in (tmp_path / "out").iterdir()}) == 1


def test_what_others_left(three: Built, tmp_path: Path) -> None:
    """What a killed program left stays."""
    left = tmp_path / "hdt-unfinished-0123456789abcdef"
    left.mkdir()
    (left / "0").write_bytes(b"left")
    assert hdt("build", "--memory", "4M", THREE, tmp_path / "out.hdt") == three.result
    assert (left / "0").read_bytes() == b"left" and names(tmp_path) == [left.name, "out.hdt"]


def test_builds_at_once(batches: Documents, tmp_path: Path) -> None:
    """Builds of one OUT at once don't meet."""
    words: list[Word] = [PROGRAM, "build", "--memory", "4M", batches.path("people"), tmp_path / "out.hdt"]
    programs = [subprocess.Popen([os.fsencode(word) for word in words], stdout=subprocess.PIPE) for _ in range(3)]
    assert len({it.communicate(timeout=SECONDS)[0] for it in programs}) == 1
    assert ([it.returncode for it in programs], names(tmp_path)) == ([0, 0, 0], ["out.hdt"])
    assert hdt("verify", tmp_path / "out.hdt", "--tight").status == 0


# ---- places that can't be written


@pytest.mark.parametrize("out", ["", "missing/out.hdt", "in.nt/out.hdt"])
def test_an_output_that_cannot_be_written(out: str, tmp_path: Path) -> None:
    """A folder, or a file in a missing folder, is no output; nothing is made."""
    (tmp_path / "in.nt").write_bytes(THREE.read_bytes())
    for scratch in ("", "--scratch=."):
        words: list[Word] = [PROGRAM, "build", "--memory", "4M", *filter(None, [scratch]), "in.nt", out]
        assert run(words, cwd=tmp_path) == WRITING_FAILED
        assert names(tmp_path) == ["in.nt"]


@pytest.mark.parametrize("folder", ["", "missing", "missing/more", "file", "link"])
def test_scratch_that_is_no_folder(folder: str, tmp_path: Path) -> None:
    """`--scratch` has to name a folder that is there."""
    (tmp_path / "file").write_bytes(b"file")
    (tmp_path / "link").symlink_to("link")
    words: list[Word] = [PROGRAM, "build", "--memory", "4M", f"--scratch={folder}", THREE, "out.hdt"]
    assert run(words, cwd=tmp_path) == WRITING_FAILED
    assert names(tmp_path) == ["file", "link"]


@as_root
@pytest.mark.parametrize("option", [[], ["--scratch", "closed"]], ids=["beside", "scratch"])
def test_a_folder_that_may_not_be_written(option: list[str], public_folder: Path) -> None:
    """Another user may make no scratch files there."""
    shutil.copy(PROGRAM, public_folder / "hdt")
    shutil.copy(THREE, public_folder / "in.nt")
    (public_folder / "closed").mkdir(mode=0o755)
    (public_folder / "open").mkdir()
    (public_folder / "open").chmod(0o777)
    out = "open/out.hdt" if option else "closed/out.hdt"
    as_nobody = ["setpriv", "--reuid=65534", "--clear-groups", "--"]
    words: list[Word] = [*as_nobody, "./hdt", "build", "--memory", "4M", *option, "in.nt", out]
    assert run(words, cwd=public_folder) == WRITING_FAILED
    assert names(public_folder / "closed") == names(public_folder / "open") == []


def test_a_full_file_system(batches: Documents, tmp_path: Path) -> None:
    """On a full file system writing fails, of scratch files or of OUT, which stays what it was; or all has room."""
    namespace = mounts()
    script = ('mount -t tmpfs -o size="$2" tmpfs "$1" && printf before > "$1/out.hdt" || exit; '
              '"$0" build --memory 4M "$3" "$1/out.hdt" 2>&1; echo $?; ls "$1"; head -c 6 "$1/out.hdt"')
    failed = rb"hdt: writing failed\n  [^\n]*: No space left on device\n3\nout.hdt\nbefore"
    built = rb"built [0-9 ]+\n0\nout.hdt\n\$HDT\x01."
    ends = []
    for size in ("16k", "256k", "1m", "3m", "6m", "9m", "12m", "16m", "24m", "64m"):
        seen = run([*namespace, "sh", "-c", script, PROGRAM, tmp_path, size, batches.path("distinct")])
        ends.append(next((it for it in (failed, built) if re.fullmatch(it, seen.out)), seen.out))
    assert set(ends) == {failed, built} and (ends[0], ends[-1]) == (failed, built)


def test_a_full_scratch(batches: Documents, tmp_path: Path) -> None:
    """A full file system of `--scratch` is a failed write, too, and nothing is left there or beside OUT."""
    namespace = mounts()
    (tmp_path / "scratch").mkdir()
    (tmp_path / "out.hdt").write_bytes(b"before")
    script = ('mount -t tmpfs -o size=1m tmpfs scratch && '
              '{ "$0" build --memory 4M --scratch scratch "$1" out.hdt; echo $?; ls scratch; }')
    seen = run([*namespace, "sh", "-c", script, PROGRAM, batches.path("distinct")], cwd=tmp_path)
    assert seen == Result(0, b"3\n", WRITING_FAILED.err)
    assert (names(tmp_path), (tmp_path / "out.hdt").read_bytes()) == (["out.hdt", "scratch"], b"before")


@pytest.mark.parametrize("ignored", [False, True], ids=["by signal", "ignored"])
def test_a_limit_on_files(ignored: bool, batches: Documents, tmp_path: Path) -> None:
    """Past a limit on the size of files the system ends the program by a signal, or writing fails."""
    (tmp_path / "out.hdt").write_bytes(b"before")
    script = f'{"trap" if ignored else ":"} "" XFSZ; exec prlimit --fsize=100000 -- "$0" build --memory 4M "$@"'
    seen = shell(script, batches.path("people"), tmp_path / "out.hdt")
    assert seen == (WRITING_FAILED if ignored else Result(-signal.SIGXFSZ, b"", b""))
    assert (tmp_path / "out.hdt").read_bytes() == b"before"
    assert not ignored or names(tmp_path) == ["out.hdt"]
