"""The media type that a client accepts."""

from __future__ import annotations

import functools
import re
from typing import Optional

_QUALITY = re.compile(r"(?:0(?:\.\d{0,3})?|1(?:\.0{0,3})?)\Z")


def _qualities(accept: str) -> dict[str, float]:
    """The ranges of an Accept header with their q-values. An item that can't be read is passed over."""
    found: dict[str, float] = {}
    for item in accept.split(","):
        media, *parameters = (part.strip().lower() for part in item.split(";"))
        quality = next((part[2:].strip() for part in parameters if part.startswith("q=")), "1")
        if media.count("/") == 1 and _QUALITY.match(quality):
            found[media] = max(found.get(media, 0.0), float(quality))
    return found


@functools.lru_cache(128)
def chosen(accept: str, offered: tuple[str, ...], only_by_name: frozenset[str] = frozenset()) -> Optional[str]:
    """The offered media type that an Accept header asks for, or None.

    The most specific range of a type counts (RFC 9110, 12.5.1). Of equal ones a type that has its name in the header
    comes before one of a wildcard; then the order of the offers counts. No wildcard stands for those `only_by_name`.
    """
    ranges = _qualities(accept) if accept.strip() else {"*/*": 1.0}
    best, found = (0.0, False), None
    for media in offered:
        wildcards = () if media in only_by_name else (media.split("/")[0] + "/*", "*/*")
        taken = next((name for name in (media, *wildcards) if name in ranges), None)
        if taken is not None and ranges[taken] > 0 and (ranges[taken], taken == media) > best:
            best, found = (ranges[taken], taken == media), media
    return found
