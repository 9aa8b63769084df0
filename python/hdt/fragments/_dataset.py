"""A dataset: its file, which is opened anew where it was replaced."""

from __future__ import annotations

import errno
import logging
import os
import stat
import time
from typing import Optional

import hdt
from hdt import _regular as regular
from hdt._files import MANIFEST
from hdt._forks import Locked
from hdt._web.identity import Identity, identity_of
from hdt._web.log import escaped
from hdt.fragments._about import About, about_of
from hdt.fragments._config import Source, changed_at
from hdt.fragments._reader import Reader
from hdt.parts import open_any

_SECONDS = 1.0  # between two checks of the file
_LONGEST = 1_000  # characters of an error
_TRIES = 3  # to open a file that is replaced meanwhile

log = logging.getLogger("hdt.fragments")


def _paths(path: str) -> list[str]:
    """A path, and that of its manifest if it is a folder of parts."""
    return [path, os.path.join(path, MANIFEST)] if os.path.isdir(path) else [path]


def _identity_at(path: str) -> Identity:
    """The identity of what a path leads to, and of the manifest of a folder. Raises OSError."""
    there = os.stat(path)
    if not stat.S_ISDIR(there.st_mode):
        return identity_of(there)
    return identity_of(there) + identity_of(os.stat(os.path.join(path, MANIFEST)))


def _opened(path: str, copy: Optional[bool]) -> hdt.Graph:
    """A file or a folder of parts. Raises what `open_any` raises, and OSError for what is neither."""
    if os.path.isdir(path):
        return open_any(path, copy)
    with regular.opened(path) as file:
        return hdt.Graph(regular.data_of(file, copy))


class Loaded:
    """A file as it was when it was opened."""

    def __init__(self, name: str, source: Source, most_predicates: int) -> None:
        for _ in range(_TRIES):
            self.identity = _identity_at(source.file)
            self.modified = max(map(changed_at, _paths(source.file)))
            self.reader = Reader(_opened(source.file, source.copy), most_predicates)
            self.about = about_of(name, source, self.reader.said)
            if _identity_at(source.file) == self.identity:
                return
        raise OSError(errno.EBUSY, "it is being written to", source.file)


class Dataset(Locked):
    """A file by its name. A request that has begun goes on with the file that it has."""

    def __init__(self, name: str, source: Source, most_predicates: int) -> None:
        super().__init__()
        self.name, self.source, self._most_predicates = name, source, most_predicates
        self._loaded: Optional[Loaded] = None
        self._refused: Optional[Identity] = None
        self.error = ""  # why the file as it is now can't be opened
        self._checked = time.monotonic()
        self._load()

    def about(self, loaded: Optional[Loaded]) -> About:
        """What is said of it, even without a file."""
        return loaded.about if loaded else about_of(self.name, self.source, {})

    def loaded(self) -> Optional[Loaded]:
        """The file as it is now, or the last one that could be opened, or None if no file could be.

        The file is checked at most once a second.
        """
        if time.monotonic() - self._checked > _SECONDS and self._lock.acquire(blocking=False):
            try:
                self._load()
            finally:
                self._checked = time.monotonic()
                self._lock.release()
        return self._loaded

    def _load(self) -> None:
        """Open the file if it is another one than before. Whatever goes wrong, the other datasets are served."""
        identity = None
        try:
            identity = _identity_at(self.source.file)
            if self._loaded and identity == self._loaded.identity:
                self.error = ""
                return
            if identity == self._refused:
                return
            loaded = Loaded(self.name, self.source, self._most_predicates)
        except Exception as error:
            error.__traceback__ = None  # (its frames have what was read, of which there may be too much)
            may_pass = isinstance(error, (OSError, MemoryError))  # (else it is the file's, and stays until that does)
            self._refused = None if may_pass else identity
            known = may_pass or isinstance(error, ValueError)
            self._report((getattr(error, "strerror", None) or str(error) if known else "") or repr(error))
            return
        self._take(loaded)

    def _take(self, loaded: Loaded) -> None:
        """Serve a file from now on. Its time is later than that of the one before, whose pages clients may have."""
        again, self._loaded, self._refused, self.error = self._loaded, loaded, None, ""
        if again:
            loaded.modified = max(loaded.modified, again.modified + 1)
            log.warning("%s: the file was replaced: %d triples", self.name, loaded.reader.counts.triples)

    def _report(self, why: str) -> None:
        """Log an error, once."""
        why = escaped(why[:_LONGEST])
        if why != self.error:
            self.error = why
            self.log_error()

    def log_error(self) -> None:
        """Log why the file can't be opened."""
        kept = "the previous file stays in use" if self._loaded else "it answers 503"
        log.error("%s: %s can't be opened: %s: %s", self.name, escaped(self.source.file), self.error, kept)
