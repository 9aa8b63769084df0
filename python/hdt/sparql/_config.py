"""What a server has."""

from __future__ import annotations

import dataclasses
import re
from collections.abc import Mapping
from dataclasses import dataclass, field

_NAME = re.compile(r"[A-Za-z0-9_][A-Za-z0-9._-]*\Z")
_MOST = 10**9


@dataclass(frozen=True)
class Config:
    """What a server has. Raises ValueError for what can't be.

    - `datasets`: the HDT files, or folders of parts, by the last part of their URL;
    - `processes`: how many queries run at a time; another one is answered 503 with Retry-After;
    - `timeout`: seconds that a query may take;
    - `memory`: megabytes of a process, beyond which a query is ended; a file that is mapped counts, too;
    - `max_rows`: solutions, or triples, that an answer has at most: if it is cut, its header X-SPARQL-MaxRows says so;
    - `query_limit`: the longest query, in bytes;
    - `log`: whether each request is a line of the log.
    """

    datasets: Mapping[str, str] = field(default_factory=dict)
    processes: int = 2
    timeout: int = 60
    memory: int = 4_096
    max_rows: int = 100_000
    query_limit: int = 100_000
    log: bool = True

    def __post_init__(self) -> None:
        for name in self.datasets:
            if not _NAME.match(name):
                raise ValueError(f"not a dataset name: {name!r}")
        for each in dataclasses.fields(self):
            value = getattr(self, each.name)
            if isinstance(value, int) and not isinstance(value, bool) and not 1 <= value <= _MOST:
                raise ValueError(f"{each.name} is less than 1 or too large")
