"""The configuration: what a server has, from a file of TOML or JSON or from Python."""

from __future__ import annotations

import dataclasses
import json
import os
import re
from collections.abc import Mapping
from dataclasses import dataclass, field
from pathlib import Path
from typing import Any, Optional, Union

from hdt._web.request import HOST
from hdt.fragments import _terms as terms

PREFIXES = {
    "rdf": terms.RDF,
    "rdfs": terms.RDFS,
    "xsd": terms.XSD,
    "owl": "http://www.w3.org/2002/07/owl#",
    "hydra": terms.HYDRA,
    "void": terms.VOID,
    "dcterms": terms.DCTERMS,
    "dc": "http://purl.org/dc/elements/1.1/",
    "foaf": terms.FOAF,
    "skos": "http://www.w3.org/2004/02/skos/core#",
    "schema": "http://schema.org/",
    "geo": "http://www.w3.org/2003/01/geo/wgs84_pos#",
}
_NAME = re.compile(r"[A-Za-z0-9][A-Za-z0-9._-]{0,99}\Z")


def changed_at(path: Union[str, Path]) -> float:
    """When a path began to lead to the file that is there: the latest time of the file, and of the link, if it is one.

    A file that is renamed keeps the time of its last change, but not that of its last change of status. Raises OSError.
    """
    return max(time for there in (os.stat(path), os.lstat(path)) for time in (there.st_mtime, there.st_ctime))


@dataclass(frozen=True)
class Source:
    """A dataset: its file, and what is said of it.

    - `file`: the path of an HDT file, or of a folder that `hdt.parts.build` made;
    - `title`, `description`: texts for people; `license`: an IRI;
    - `download`: whether clients can download the file;
    - `copy`: as of `hdt.open`. A large file is mapped unless this is true, and must not change in place.
    """

    file: str
    title: str = ""
    description: str = ""
    license: str = ""
    download: bool = False
    copy: Optional[bool] = None

    @property
    def gives_file(self) -> bool:
        """Whether there is a file to download: a folder of parts isn't one."""
        return self.download and not os.path.isdir(self.file)


@dataclass(frozen=True)
class Config:
    """What a server has.

    - `datasets`: the datasets, by the last part of their URL;
    - `title`: the title of the start page;
    - `base`: the URL that clients see; if empty, that of the request;
    - `hosts`: the hosts that are answered if there is no base; any if there are none;
    - `forwarded`: whether X-Forwarded-Proto, -Host and -Prefix come from a trusted proxy, which sets all three of them
      for each request (else they are the client's, and come into links); it needs `hosts`;
    - `page_size`: triples on a page, 1 to 10,000;
    - `max_age`: seconds that a cache may keep an answer;
    - `gzip`: whether answers are compressed for clients that accept it;
    - `query_limit`: the longest query string that is answered, in bytes;
    - `log`: whether each request is a line of the log;
    - `partitions`: at most so many predicates are counted one by one in the description of a dataset;
    - `prefixes`: names of namespaces, for pages for people and their forms, added to those of `PREFIXES`;
    - `skolem`: the path below which blank nodes are served as IRIs; if empty, they keep their labels;
    - `dereference`: beginnings of paths; an IRI whose path has one is redirected to its triples in that dataset.
    """

    datasets: Mapping[str, Source] = field(default_factory=dict)
    title: str = "Triple Pattern Fragments"
    base: str = ""
    hosts: tuple[str, ...] = ()
    forwarded: bool = False
    page_size: int = 100
    max_age: int = 3600
    gzip: bool = True
    query_limit: int = 7000
    log: bool = True
    partitions: int = 1000
    prefixes: Mapping[str, str] = field(default_factory=lambda: dict(PREFIXES))
    skolem: str = ".well-known/genid/"
    dereference: Mapping[str, str] = field(default_factory=dict)

    @classmethod
    def of(cls, values: Mapping[str, Any], folder: Union[str, Path] = "") -> Config:
        """The configuration of a file's values. Files of datasets are relative to `folder`. Raises ValueError."""
        known = _checked(cls, values, "the configuration")
        sources = {}
        for name, about in dict(known.get("datasets", {})).items():
            about = _checked(Source, {"file": about} if isinstance(about, str) else about, f"dataset {name!r}")
            file: str = about.pop("file", "")
            if not file:
                raise ValueError(f"dataset {name!r} has no file")
            sources[name] = Source(file=os.path.join(folder, file), **about)
        known["datasets"] = sources
        known["hosts"] = tuple(known.get("hosts", ()))
        known["prefixes"] = {**PREFIXES, **known.get("prefixes", {})}
        config = cls(**known)
        config.check()
        return config

    @classmethod
    def read(cls, path: Union[str, Path]) -> Config:
        """The configuration of a file: TOML by its name (`.toml`, from Python 3.11 on), else JSON.

        Raises OSError, and ValueError with the path.
        """
        path = Path(path)
        try:
            return cls.of(_values(path), path.parent)
        except ValueError as error:
            raise ValueError(f"{path}: {error}") from error

    def check(self) -> None:
        """Raise ValueError for an impossible value."""
        for name in self.datasets:
            if not _NAME.match(name):
                raise ValueError(f"not a dataset name: {name!r}")
        if self.base and not re.match(r"https?://[^\s<>\"{}|^`\\?#/]+(?:/[^\s<>\"{}|^`\\?#]*)?\Z", self.base):
            raise ValueError(f"the base is not a URL: {self.base!r}")
        for name, source in self.datasets.items():
            if source.license and not terms.has_scheme(source.license):
                raise ValueError(f"dataset {name!r}: the license is not an IRI")
        for texts in (self.prefixes, self.dereference):
            if not all(isinstance(text, str) for text in texts.values()):
                raise ValueError("prefixes and dereference have texts as their values")
        if isinstance(self.hosts, str) or not all(isinstance(host, str) and HOST.match(host) for host in self.hosts):
            raise ValueError("hosts are names of hosts, each with a port or without")
        if self.forwarded and not (self.hosts or self.base):
            raise ValueError('forwarded needs the hosts that are served, as hosts = ["data.example.org"]; or set base')
        if not re.match(r"[A-Za-z0-9._~:/#-]*\Z", self.skolem):
            raise ValueError(f"skolem cannot be part of an IRI: {self.skolem!r}")
        for prefix, name in self.dereference.items():
            if name not in self.datasets or not prefix.strip("/"):
                raise ValueError(f"{prefix!r} leads to no dataset: {name!r}")
        for key, least in (("page_size", 1), ("max_age", 0), ("query_limit", 100), ("partitions", 0)):
            if not least <= getattr(self, key) <= 10**9:
                raise ValueError(f"{key} is less than {least} or too large")
        if self.page_size > 10_000:
            raise ValueError("page_size is more than 10,000")


def _values(path: Path) -> dict[str, Any]:
    if path.suffix != ".toml":
        try:
            values = json.loads(path.read_text(encoding="utf-8"))
        except ValueError as error:
            raise ValueError(f"not JSON (the name of a TOML file ends with .toml): {error}") from error
    else:
        try:
            import tomllib
        except ImportError:
            raise ValueError("this Python reads no TOML: the configuration may be JSON") from None
        values = tomllib.loads(path.read_text(encoding="utf-8"))
    if not isinstance(values, dict):
        raise ValueError("the configuration is not an object")
    return values


def _checked(kind: Any, values: Any, where: str) -> dict[str, Any]:
    """The values for a class, which are of the types that its defaults have."""
    if not isinstance(values, Mapping):
        raise ValueError(f"{where} is no table")
    fields = {each.name: each for each in dataclasses.fields(kind)}
    for name, value in values.items():
        if name not in fields:
            raise ValueError(f"{where} has no {name!r}: it may have {', '.join(fields)}")
        wanted = _TYPES[str(fields[name].type).split("[")[0]]
        if not isinstance(value, wanted) or isinstance(value, bool) and bool not in wanted:
            raise ValueError(f"{where}: {name} is a {wanted[0].__name__}, not a {type(value).__name__}")
    return dict(values)


_TYPES: dict[str, tuple[type, ...]] = {
    "str": (str,), "int": (int,), "bool": (bool,), "Optional": (bool,), "tuple": (list, tuple), "Mapping": (dict,),
}
