"""`hdt.build` of damaged archives, converters that die, iterables that raise, and documents made to cost much.

After each failure the output is as it was, nothing else is in its folder, and no process is left (`fails`).
"""

from __future__ import annotations

import errno
import gzip
import io
import lzma
import os
import signal
import socket
import subprocess
import sys
import threading
import time
import tracemalloc
from collections.abc import Iterator
from pathlib import Path
from typing import Any

import pytest
from hypothesis import given, settings
from hypothesis import strategies as st

from support.formats import COMPRESS, GRAPH, LINES, TURTLE, XML, built, fails, fake, needs
from support.python_package import ENVIRONMENT, hdt

NAMES = {"gz": "gzip", "bz2": "bzip2", "xz": "xz", "zst": "Zstandard"}

# ---- damaged archives


@pytest.mark.parametrize("compression", COMPRESS)
def test_cut_archives(compression: str, tmp_path: Path) -> None:
    """An archive that is cut anywhere, or followed by anything, is refused, also after a whole stream."""
    path = tmp_path / f"data.nt.{compression}"
    whole = COMPRESS[compression](LINES.encode() * 50)
    damaged = [whole[:end] for end in range(len(whole) - 1, -1, -max(1, len(whole) // 12))]
    damaged += [b"", whole + b"x", whole + whole[:-4], whole + b"BZh9" + b"\0" * 30, whole + b"x" * 100_000]
    for data in damaged:
        path.write_bytes(data)
        told = fails(tmp_path, path, OSError)
        assert told.startswith(f"{path}: not a whole {NAMES[compression]} file: "), len(data)


@pytest.mark.parametrize("compression", COMPRESS)
@settings(max_examples=30)
@given(data=st.data())
def test_damaged_archives(compression: str, data: st.DataObject, tmp_path_factory: pytest.TempPathFactory) -> None:
    """A changed byte is an error, or makes no difference (as of a date in the head)."""
    folder = tmp_path_factory.mktemp("damaged")
    whole = bytearray(COMPRESS[compression](LINES.encode()))
    at = data.draw(st.integers(0, len(whole) - 1))
    whole[at] ^= 1 << data.draw(st.integers(0, 7))
    path = folder / f"data.nt.{compression}"
    path.write_bytes(whole)
    try:
        assert built(folder, path) == GRAPH
    except (OSError, hdt.LineFault):
        assert os.listdir(folder) == [path.name]


@pytest.mark.parametrize("compression", ["gz", "xz"])
def test_padding(compression: str, tmp_path: Path) -> None:
    """Zeros after a stream are padding of gzip and xz."""
    path = tmp_path / f"data.nt.{compression}"
    path.write_bytes(COMPRESS[compression](LINES.encode()) + bytes(8))
    assert built(tmp_path, path) == GRAPH


def test_archive_of_converted_text(tmp_path: Path) -> None:
    """An archive that is damaged is the error, not what the converter thinks of its beginning."""
    needs("serdi")
    path = tmp_path / "data.ttl.gz"
    text = TURTLE + "".join(f'u:a u:p "{number * number}" .\n' for number in range(50_000))
    path.write_bytes(gzip.compress(text.encode())[:-5000])
    assert "not a whole gzip file" in fails(tmp_path, path, OSError)


def test_memory_that_an_archive_asks_for(tmp_path: Path) -> None:
    """An xz file that asks for more than 256 MiB is refused."""
    path = tmp_path / "data.nt.xz"
    filters = [{"id": lzma.FILTER_LZMA2, "preset": 0, "dict_size": 2**29}]
    path.write_bytes(lzma.compress(LINES.encode(), filters=filters))
    assert "not a whole xz file: Memory usage limit" in fails(tmp_path, path, OSError)


# ---- documents made to cost much


@pytest.mark.parametrize("compression", COMPRESS)
def test_bombs(compression: str, tmp_path: Path) -> None:
    """Of a small archive of a line of 40 MB, or of as much text, only what may be read is in memory."""
    path = tmp_path / f"bomb.nt.{compression}"
    compress = COMPRESS[compression]
    path.write_bytes(compress(b'<u:a> <u:p> "') + compress(b"x" * 2_000_000) * 20)
    assert path.stat().st_size < 50_000
    text = compress(b"<u:a> <u:p> <u:b> .\n" * 10_000) * 200
    tracemalloc.start()
    told = fails(tmp_path, path, hdt.LineFault, longest_line=1_000_000)
    assert told == f"{path}: line 1 column 1000001: 9 TooLong"
    path.write_bytes(text)
    assert "larger, as N-Triples, than 1,000,000 bytes" in fails(tmp_path, path, ValueError, largest_text=1_000_000)
    assert tracemalloc.get_traced_memory()[1] < 16_000_000
    tracemalloc.stop()


def test_largest_text(tmp_path: Path) -> None:
    """The limit is that of the N-Triples of all inputs together."""
    line = "<u:a> <u:p> <u:b> .\n"
    inputs = [io.BytesIO(line.encode()), [line]]
    assert "than 39 bytes" in fails(tmp_path, inputs, ValueError, largest_text=39)
    assert len(built(tmp_path, [io.BytesIO(line.encode()), [line]], largest_text=40)) == 1
    path = tmp_path / "a.nt"
    path.write_text(line)
    assert "than 19 bytes" in fails(tmp_path, path, ValueError, largest_text=19)
    assert len(built(tmp_path, path, largest_text=20)) == 1


def test_expansion(tmp_path: Path) -> None:
    """Turtle whose N-Triples are far larger is stopped at the limit."""
    needs("serdi")
    path = tmp_path / "a.ttl"
    path.write_text(f"@prefix p: <http://a/{'x' * 100_000}> .\n" + "p:a p:b p:c .\n" * 100_000)
    start = time.monotonic()
    assert "than 10,000,000 bytes" in fails(tmp_path, path, ValueError, largest_text=10_000_000)
    assert time.monotonic() - start < 20
    told = fails(tmp_path, path, hdt.ConversionFault, longest_line=100_000)
    assert told == f"{path}: serdi: TooLong: a line of N-Triples has over 100,000 bytes"


def test_quads_in_linear_time(tmp_path: Path) -> None:
    """Lines that look like N-Quads again and again take linear time."""
    seconds = []
    for size in (50_000, 400_000):
        for text in ("_:" * size, '"' + "\\" * size, "<u:a> <u:p> _:" + "_:a" * size, "<u:a> <u:p>" + "<u:b>" * size,
                     "<u:a> <u:p> <u:o> <u:" + "\\u0041" * size, " " * size + "x", '<u:a> <u:p> "' + '"' * size,
                     "<u:a> <u:p> <u:o>" + "\t" * size, "<u:a> <u:p> <u:o> _:" + ":." * size + "\xe9"):
            path = tmp_path / "a.nq"
            path.write_text(text)
            start = time.process_time()
            fails(tmp_path, path, hdt.LineFault)
            seconds.append(time.process_time() - start)
    half = len(seconds) // 2
    assert max(seconds[half:]) < 30 * max(max(seconds[:half]), 0.02)


def test_many_graphs(tmp_path: Path, monkeypatch: pytest.MonkeyPatch) -> None:
    """Graphs are told apart up to a number."""
    from hdt import _quads

    monkeypatch.setattr(_quads, "_MOST", 10)
    path = tmp_path / "a.nq"
    for count, told in ((9, " 9 named graphs"), (10, " 10 or more named graphs"), (50, " 10 or more named graphs")):
        path.write_text("".join(f"<u:a> <u:p> <u:b> <u:{number}> .\n" for number in range(count)))
        assert told in fails(tmp_path, path, ValueError)


def test_nothing_is_fetched(tmp_path: Path) -> None:
    """What a document refers to is not fetched: not from the network, and no files are read."""
    needs("rdflib")
    (tmp_path / "context.json").write_text('{"@context": {"p": "u:p"}}')
    (tmp_path / "secret.txt").write_text("a secret")
    with socket.create_server(("127.0.0.1", 0)) as server:
        server.settimeout(0.1)
        address = f"http://127.0.0.1:{server.getsockname()[1]}/context.json"
        for context in (address, (tmp_path / "context.json").as_uri(), "context.json"):
            path = tmp_path / "a.jsonld"
            path.write_text(f'{{"@context": "{context}", "@id": "u:a", "p": "x"}}')
            assert "it refers to" in fails(tmp_path, path, hdt.ConversionFault)
        for converter in ("rapper", "rdflib"):
            needs(converter)
            for entity in (address, (tmp_path / "secret.txt").as_uri()):
                path = tmp_path / "a.rdf"
                path.write_text(f'<!DOCTYPE r [<!ENTITY x SYSTEM "{entity}">]>' + XML.replace("chat", "&x;"))
                try:
                    assert "secret" not in str(built(tmp_path, path, converter=converter))
                except hdt.ConversionFault:
                    pass
        with pytest.raises(socket.timeout):
            server.accept()


def test_entities_within_entities(tmp_path: Path) -> None:
    """XML whose entities multiply is refused by rapper."""
    needs("rapper")
    entities = "".join(f'<!ENTITY e{n} "{f"&e{n - 1};" * 10}">' for n in range(1, 12))
    path = tmp_path / "a.rdf"
    path.write_text(f'<!DOCTYPE r [<!ENTITY e0 "chat">{entities}]>' + XML.replace("chat", "&e11;"))
    assert "entity reference loop" in fails(tmp_path, path, hdt.ConversionFault)


# ---- converters that die

WHOLE = "<u:a> <u:p> <u:b> ."
DEATHS = {
    "a status": (f"cat > /dev/null; echo '{WHOLE}'; exit 3", "serdi failed with status 3"),
    "a status and a word": ("cat > /dev/null; echo 'no luck' >&2; exit 1", "serdi failed with status 1: no luck"),
    "a signal": (f"echo '{WHOLE}'; cat > /dev/null; kill -KILL $$", "serdi was ended by signal 9"),
    "a signal and an error": ("echo 'error: (stdin):7:1: no' >&2; kill -TERM $$", "no (serdi was ended by signal 15)"),
    "an error and no status": (f"cat > /dev/null; echo '{WHOLE}'; echo 'error: x:7:1: no' >&2", "line 7: serdi: no"),
    "half a line": (f"cat > /dev/null; echo '{WHOLE}'; printf '<u:a> <u'", "its output ends within a line"),
    "a line without its end": (f"cat > /dev/null; printf '{WHOLE}'", "its output ends within a line"),
    "no RDF": ("cat > /dev/null; echo hello", "1 Syntax in its N-Triples: hello"),
    "colours": ("cat > /dev/null; printf 'error: x:7:1: \\033[31mred\\007\\n' >&2; exit 1", "line 7: serdi: [31mred"),
    "much to say": ("cat > /dev/null; yes 'warning: x' | head -c 9000000 >&2; echo 'error: x:7:1: no' >&2; exit 1",
                    "line 7: serdi: no"),
    "an error at the end": (
        "cat > /dev/null; (yes | head -c 50000; echo 'error: x:7:1: no') > said; cat said >&2; exit 1",
        "line 7: serdi: no"),
}  # fmt: skip


@pytest.mark.parametrize("death", DEATHS)
def test_converters_that_die(death: str, tmp_path: Path, monkeypatch: pytest.MonkeyPatch) -> None:
    """A converter that fails in any way makes no file, and is named with what it says."""
    script, told = DEATHS[death]
    monkeypatch.chdir(tmp_path)
    fake(tmp_path, monkeypatch, script)
    path = tmp_path / "a.ttl"
    path.write_text(TURTLE)
    found = fails(tmp_path, path, hdt.ConversionFault)
    assert found.startswith(f"{path}: ") and found.endswith(told)


@pytest.mark.parametrize("script", ["exit 0", f"echo '{WHOLE}'", "head -c 100000 > /dev/null", "exec <&-; sleep 0.1"])
def test_converters_that_stop_reading(script: str, tmp_path: Path, monkeypatch: pytest.MonkeyPatch) -> None:
    """A converter that succeeds without reading all of a large input has not converted it."""
    fake(tmp_path, monkeypatch, script)
    path = tmp_path / "a.ttl"
    path.write_text(TURTLE * 10_000)
    assert "did not read all of its input" in fails(tmp_path, path, hdt.ConversionFault)


def test_output_without_end(tmp_path: Path, monkeypatch: pytest.MonkeyPatch) -> None:
    """Output without end is stopped by the limit, and by that of a line; the input need not have been read."""
    path = tmp_path / "a.ttl"
    path.write_text(TURTLE * 10_000)
    fake(tmp_path, monkeypatch, f"exec yes '{WHOLE}'")
    assert "than 10,000,000 bytes" in fails(tmp_path, path, ValueError, largest_text=10_000_000)
    fake(tmp_path, monkeypatch, "exec tr '\\0' x < /dev/zero")
    assert "TooLong" in fails(tmp_path, path, hdt.ConversionFault, longest_line=1_000_000)


def test_a_full_disk(tmp_path: Path, monkeypatch: pytest.MonkeyPatch) -> None:
    """If the scratch file can't be written, the error names the output."""
    import tempfile

    class Full(io.BytesIO):
        def write(self, _: Any) -> int:
            raise OSError(errno.ENOSPC, os.strerror(errno.ENOSPC))

    monkeypatch.setattr(tempfile, "TemporaryFile", lambda **_: Full())
    told = fails(tmp_path, [WHOLE], OSError)
    assert told == f"[Errno 28] No space left on device: '{tmp_path}/out/out.hdt'"


def test_converters_that_do_not_end(tmp_path: Path, monkeypatch: pytest.MonkeyPatch) -> None:
    """A converter that closes its output and goes on is ended."""
    from hdt import _process

    monkeypatch.setattr(_process, "_SECONDS", 0.2)
    fake(tmp_path, monkeypatch, f"cat > /dev/null; echo '{WHOLE}'; exec sleep 100 >&- 2>&-")
    path, began = tmp_path / "a.ttl", time.monotonic()
    path.write_text(TURTLE)
    assert "serdi did not end" in fails(tmp_path, path, hdt.ConversionFault)
    assert time.monotonic() - began < 60


def test_converter_of_zstandard_dies(tmp_path: Path, monkeypatch: pytest.MonkeyPatch) -> None:
    """The same of the program zstd."""
    path = tmp_path / "a.nt.zst"
    path.write_bytes(COMPRESS["zst"](LINES.encode()))
    fake(tmp_path, monkeypatch, f"cat > /dev/null; echo '{WHOLE}'; kill -KILL $$", "zstd")
    assert "not a whole Zstandard file: zstd was ended by signal 9" in fails(tmp_path, path, OSError)


def test_converters_that_take_turns(tmp_path: Path, monkeypatch: pytest.MonkeyPatch) -> None:
    """A converter may write much before it reads, read all before it writes, and say much meanwhile."""
    path, count = tmp_path / "a.ttl", 50_000
    path.write_text(TURTLE * 10_000)
    lines = f"yes '{WHOLE}' | head -n {count}"
    read, say = "cat > /dev/null", "yes x | head -c 999999 >&2"
    for script in (f"{lines}; {read}", f"{read}; {lines}", f"{say}; {lines}; {read}"):
        fake(tmp_path, monkeypatch, script)
        assert built(tmp_path, path) == [("u:a", "u:p", "u:b")]


# ---- inputs that fail


def test_iterables_that_raise(tmp_path: Path) -> None:
    """What an iterable raises comes out, at its beginning and later."""
    def triples(count: int) -> Iterator[Any]:
        for number in range(count):
            yield "u:a", "u:p", f'"{number}"'
        raise KeyError(count)

    for count in (0, 1, 20_000):
        assert fails(tmp_path, triples(count), KeyError) == str(count)
        assert fails(tmp_path, [LINES and io.BytesIO(LINES.encode()), triples(count)], KeyError) == str(count)
        assert fails(tmp_path, (it for it in [triples(count)]), KeyError) == str(count)


@pytest.mark.parametrize("error", [OSError("gone"), KeyboardInterrupt(), SystemExit(1), MemoryError()])
def test_files_that_raise(error: BaseException, tmp_path: Path) -> None:
    """What a file raises comes out, also while a converter runs."""
    class Bad(io.RawIOBase):
        def __init__(self) -> None:
            self._left = 3

        def read(self, size: int = -1) -> bytes:
            self._left -= 1
            if not self._left:
                raise error
            return b"<u:a> <u:p> <u:b> .\n" * 10_000

    for syntax in ("ntriples", "turtle", "nquads"):
        fails(tmp_path, Bad(), type(error), syntax=syntax, base="u:b")


def test_a_build_that_is_killed(tmp_path: Path) -> None:
    """A program that is killed while it builds leaves nothing, and neither does its converter, which ends."""
    fake_folder = tmp_path / "programs"
    fake_folder.mkdir()
    serdi = fake_folder / "serdi"
    serdi.write_text(f"#!/bin/sh\necho $$ > {tmp_path}/pid\nexec yes '{WHOLE}'\n")
    serdi.chmod(0o755)
    (tmp_path / "a.ttl").write_text(TURTLE)
    (tmp_path / "out").mkdir()
    program = f"import hdt; hdt.build({str(tmp_path / 'a.ttl')!r}, {str(tmp_path / 'out/out.hdt')!r})"
    environment = {**os.environ, **ENVIRONMENT, "PATH": f"{fake_folder}:{os.environ['PATH']}"}
    with subprocess.Popen([sys.executable, "-c", program], env=environment) as process:
        deadline = time.monotonic() + 30
        while not (tmp_path / "pid").exists() or not (tmp_path / "pid").read_text():
            assert time.monotonic() < deadline
            time.sleep(0.02)
        process.send_signal(signal.SIGKILL)
    assert os.listdir(tmp_path / "out") == []
    converter = int((tmp_path / "pid").read_text())
    while Path(f"/proc/{converter}").exists() and "zombie" not in Path(f"/proc/{converter}/status").read_text():
        assert time.monotonic() < deadline
        time.sleep(0.02)


def test_threads_build_at_once(tmp_path: Path) -> None:
    """Threads may build at once, each by its own converter."""
    needs("serdi")
    for number in range(4):
        (tmp_path / f"{number}.ttl").write_text(f'<u:{number}> <u:p> "{number}" .' * 5_000)
    found: list[int] = []

    def build(number: int) -> None:
        found.append(hdt.build(tmp_path / f"{number}.ttl", tmp_path / f"{number}.hdt").triples)

    threads = [threading.Thread(target=build, args=(number,)) for number in range(4)]
    for thread in threads:
        thread.start()
    for thread in threads:
        thread.join()
    assert found == [1] * 4
