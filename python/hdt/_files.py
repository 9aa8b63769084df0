"""Files: how they are read or mapped, verified, rewritten and replaced."""

from __future__ import annotations

import contextlib
import errno
import io
import mmap
import operator
import os
import secrets
import shutil
import stat
from collections.abc import Iterator
from typing import Any, NamedTuple, Optional, Union

from ._calls import Counts, Path, counts_of, encoded
from ._library import Lent, Made, Report, Verdict, library
from ._lines import LongestLine

_MAPPED = 64 * 1024 * 1024  # bytes: files of this size and more are mapped
MANIFEST = "manifest.json"  # the file by which a folder is a graph in parts


class Identity(NamedTuple):
    """What distinguishes a file from one that replaced it: its inode, its size, and when it was last written to."""

    inode: int
    size: int
    modified: int


def data_of(
    path: Path, copy: Optional[bool] = None, lines: Optional[LongestLine] = None
) -> tuple[Any, Optional[Identity]]:
    """The bytes of a file, and its identity if it is a regular one.

    It is read if `copy` says so or it can't be mapped, as a pipe or an empty file, else mapped. Where `copy` is None,
    files under 64 MiB are read. `lines` checks the lines of a text meanwhile. Raises OSError, and what `lines` raises.
    """
    with io.open(path, "rb") as file:
        there = os.fstat(file.fileno())
        is_regular = stat.S_ISREG(there.st_mode)
        identity = Identity(there.st_ino, there.st_size, there.st_mtime_ns) if is_regular else None
        copied = there.st_size < _MAPPED if copy is None else copy
        if not copied and is_regular and there.st_size:
            data = mmap.mmap(file.fileno(), 0, access=mmap.ACCESS_READ)
            if lines is not None:
                lines.check(data)
            return data, identity
        return file.read() if lines is None else lines.read(file), identity


def _umask() -> int:
    """The process's umask, without changing it, as another thread may create a file meanwhile.

    Where the system doesn't say, as without /proc, it is the strictest one.
    """
    try:
        with io.open("/proc/self/status", encoding="ascii", errors="replace") as status:
            return next((int(line.split()[1], 8) for line in status if line.startswith("Umask:")), 0o077)
    except OSError:
        return 0o077


def _new_in(folder: str) -> str:
    return os.path.join(folder, f"hdt-unfinished-{secrets.token_hex(8)}")


def _create_beside(path: str) -> tuple[int, str]:
    """A new file in the folder of a path, which nobody else can read."""
    while True:
        beside = _new_in(os.path.dirname(path))
        try:
            return os.open(beside, os.O_WRONLY | os.O_CREAT | os.O_EXCL | os.O_CLOEXEC, 0o600), beside
        except FileExistsError:
            continue
        except OSError as error:
            raise OSError(error.errno, error.strerror, path) from None  # (the caller knows nothing of the other name)


@contextlib.contextmanager
def unfinished(folder: str, path: Path) -> Iterator[str]:
    """A new folder in a folder, which nobody else can open. It is removed at the end. Raises OSError of `path`."""
    made = _new_in(folder)
    try:
        os.mkdir(made, 0o700)
    except OSError as error:
        raise OSError(error.errno, error.strerror, os.fsdecode(path)) from None
    try:
        yield made
    finally:
        shutil.rmtree(made, ignore_errors=True)


def _take_over(descriptor: int, target: str) -> None:
    """Give a new file, which nobody else can read, the group and the permissions of the file that it will replace.

    The setuid, setgid and sticky bits are not taken over. If this process may not give the group, the group that the
    file has then and others get what both had: so nobody who was kept out is let in. (The group is given first, as the
    permissions of a group would be those of another one meanwhile.) If there is no file, the umask decides.
    """
    try:
        replaced = os.stat(target)
    except FileNotFoundError:
        os.fchmod(descriptor, 0o666 & ~_umask())
        return
    with contextlib.suppress(OSError):
        os.fchown(descriptor, -1, replaced.st_gid)
    mode = replaced.st_mode & 0o777
    if os.fstat(descriptor).st_gid != replaced.st_gid:
        both = mode >> 3 & mode & 0o7
        mode = mode & 0o700 | both << 3 | both
    os.fchmod(descriptor, mode)


def target_of(path: Path) -> tuple[str, bool]:
    """Where a path leads, and whether a file is replaced there: a device or a pipe is written to. Raises OSError."""
    target = os.path.realpath(os.fsdecode(path))
    if os.path.islink(target):
        raise OSError(errno.ELOOP, os.strerror(errno.ELOOP), os.fsdecode(path))
    return target, os.path.isfile(target) or not os.path.exists(target)


def move(made: str, path: Path) -> None:
    """Replace the file at a path by another one of its file system, which is on the disk; write a device or a pipe.

    The file takes over from the one that it replaces, and then takes its name.
    """
    target, is_replaced = target_of(path)
    with io.open(made, "rb") as file:
        if not is_replaced:
            with io.open(target, "wb") as there:
                shutil.copyfileobj(file, there)
            return
        _take_over(file.fileno(), target)
    os.replace(made, target)


def replace(path: Path, data: memoryview) -> None:
    """Replace the file at a path by one with these bytes; a device or a pipe is written to.

    A new file beside it is handed to the disk, takes over from the one that it replaces, and then takes its name. On
    failure the old file is unchanged.
    """
    target, is_replaced = target_of(path)
    if not is_replaced:
        with io.open(target, "wb") as there:
            there.write(data)
        return
    descriptor, beside = _create_beside(target)
    try:
        with io.open(descriptor, "wb") as file:
            file.write(data)
            file.flush()
            os.fsync(descriptor)
            _take_over(descriptor, target)
        os.replace(beside, target)
    except BaseException:
        os.unlink(beside)
        raise


def _block_size(size: int) -> int:
    """A block size as the library takes it, in 32 bits; 0, which it refuses, for one that has no room there."""
    number = operator.index(size)
    return number if 0 <= number < 2**32 else 0


def _checked(block_size: int) -> int:
    """A block size that may be taken, so that bad options can only be the base."""
    number = operator.index(block_size)
    if not 1 <= number <= 65_535:
        raise ValueError("the block size isn't 1 to 65535")
    return number


def verify(path: Path, tight: bool = False) -> Counts:
    """Validate a whole file and return its counts. With `tight` unused strings are an error, too.

    Errors: `Fault`, MemoryError, OSError. Time is linear in the file; with `tight`, memory in triples and strings.

    >>> hdt.verify("graph.hdt").triples
    3
    """
    verdict = Verdict()
    call = library.hdt_verify_tight if tight else library.hdt_verify
    with Lent(data_of(path)[0]) as lent:
        call(lent.address, lent.size, verdict)
    return counts_of(verdict, path)


def are_one(path: Path, other: Path) -> bool:
    """Whether two paths lead to one regular file."""
    try:
        there, here = os.stat(path), os.stat(other)
    except OSError:
        return False
    return stat.S_ISREG(there.st_mode) and os.path.samestat(there, here)


def built(text: Any, made: Made, base: str, block_size: int, path: Optional[Path] = None) -> Counts:
    """Build the file of the bytes of a text, and return its counts. Raises what `build` raises, but OSError.

    Errors have the path of the text.
    """
    report, name = Report(), encoded(base)
    with Lent(text) as lent:
        library.hdt_build(lent.address, lent.size, name, len(name), _checked(block_size), made, report)
    return counts_of(report, path)


def longest_of(line: Optional[int], path: Path) -> Optional[LongestLine]:
    """What checks the lines of a text, if there is a limit. Raises ValueError for a negative one, TypeError."""
    if line is None:
        return None
    number = operator.index(line)
    if number < 0:
        raise ValueError("the longest line is negative")
    return LongestLine(number, path)


def rewrite(
    in_path: Path, out_path: Path, block_size: Optional[int] = None, *, header: Union[str, bytes, None] = None
) -> Counts:
    """Write the canonical file of a file's triples, with its header and without unused strings; return its counts.

    `block_size` is 16 if it is None. With `header`, N-Triples about the graph as those of `metadata`, only the header
    is replaced, by this text as it is, which may be empty: there can be no block size, and all other bytes stay, but
    for the header's length and the CRC over it. The output is replaced atomically; both paths may be the same. Errors:
    `Fault`; `LineFault`, without a path, if the header is not N-Triples; ValueError, TypeError for the block size;
    MemoryError; OSError. The time is linear in the file, but for sorting the triples if the order of IDs changes.

    >>> hdt.rewrite("graph.hdt", "other.hdt", block_size=4) == hdt.verify("other.hdt")
    True
    >>> counts = hdt.rewrite("graph.hdt", "other.hdt", header='<http://a/> <http://purl.org/dc/terms/title> "A" .')
    """
    if header is not None and block_size is not None:
        raise ValueError("a new header replaces nothing else: there can be no block size")
    size = _block_size(16 if block_size is None else block_size)
    with Made() as made:
        data = data_of(in_path)[0]
        counts = _rewritten(data, made, size, in_path) if header is None else with_header(data, made, header, in_path)
        replace(out_path, made.view())
    return counts


def _rewritten(data: Any, made: Made, block_size: int, path: Path) -> Counts:
    """Rewrite a file, and return its counts. Raises what `rewrite` does."""
    verdict = Verdict()
    with Lent(data) as lent:
        library.hdt_rewrite(lent.address, lent.size, block_size, made, verdict)
    return counts_of(verdict, path)


def with_header(data: Any, made: Made, header: Union[str, bytes], path: Optional[Path] = None) -> Counts:
    """Replace only the header of a file, and return its counts. Raises what `rewrite` does."""
    verdict, report = Verdict(), Report()
    with Lent(data) as lent, Lent(encoded(header) if isinstance(header, str) else header) as text:
        library.hdt_with_header(lent.address, lent.size, text.address, text.size, made, verdict, report)
    counts_of(verdict, path)
    return counts_of(report)
