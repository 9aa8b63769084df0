"""Serves HDT files as Triple Pattern Fragments: pages of triples for people, for programs and for SPARQL clients.

    python3 -m hdt.fragments --port 8080 places=places.hdt

`Application` is a WSGI application. Under gunicorn, with a configuration of TOML or JSON:

    FRAGMENTS=fragments.toml gunicorn --preload -w 2 --threads 4 --limit-request-line 8190 \\
        'hdt.fragments:from_environment()'

A configuration (`Config` and `Source` have all fields):

    title = "Our data"
    base = "https://data.example.org/"  # or hosts and forwarded: see Config

    [datasets.places]
    file = "places.hdt"
    title = "Places"
    download = true

    [dereference]
    "place/" = "places"  # https://data.example.org/place/x leads to its triples

A dataset is at `/NAME`; `?subject=`, `?predicate=`, `?object=` and `&page=` ask for a page of the triples that match.
Links to the next page add `&from=`, by which it costs what the first one does; a page is the same without it. It is
ignored unless it is that of a link to this page of this file. Without it, the first far page of a pattern may take a
walk over its matches; then each takes at most a thousand of them.
`/NAME/void` describes it, and `/NAME/data.hdt` is its file, if the configuration allows that.
"""

from __future__ import annotations

import os

from hdt._web.log import log_to_standard_error
from hdt.fragments._application import Application
from hdt.fragments._config import Config, Source, changed_at

__all__ = ["Application", "Config", "Source", "from_environment"]


def from_environment() -> Application:
    """The application of the configuration that the environment variable FRAGMENTS names, with a log."""
    log_to_standard_error()
    path = os.environ["FRAGMENTS"]
    changed = changed_at(path)
    return Application(Config.read(path), changed)
