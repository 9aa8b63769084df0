"""Answers SPARQL queries on this machine: `python3 -m hdt.sparql [--port N] NAME=FILE..`"""

from __future__ import annotations

import argparse
import logging
import sys
from wsgiref.simple_server import make_server

from hdt._web.log import escaped, log_to_standard_error
from hdt._web.server import Handler, Server
from hdt.parts import open_any
from hdt.sparql import Application, Config

_OPTIONS = {
    "processes": "queries that run at a time", "timeout": "seconds that a query may take",
    "memory": "megabytes that a query may take, with the file", "max_rows": "solutions or triples of an answer",
}


def _config(words: argparse.Namespace) -> Config:
    datasets = {}
    for word in words.dataset:
        name, equals, file = word.partition("=")
        if not equals:
            raise ValueError(f"{escaped(word)} is not NAME=FILE")
        datasets[name] = file
        with open_any(file):  # (so that one line says what is wrong)
            pass
    return Config(datasets, **{name: getattr(words, name) for name in _OPTIONS})


def main() -> int:
    """Answer queries until it is interrupted."""
    parser = argparse.ArgumentParser(prog="hdt.sparql", description="Answers SPARQL queries over HDT files.")
    parser.add_argument("--port", type=int, default=8080, help="the port (default: 8080)")
    parser.add_argument("--host", default="127.0.0.1", help="the address to listen at (default: 127.0.0.1)")
    for name, what in _OPTIONS.items():
        default = getattr(Config(), name)
        option = "--" + name.replace("_", "-")
        parser.add_argument(option, type=int, default=default, metavar="N", help=f"{what} (default: {default:,})")
    parser.add_argument("dataset", nargs="+", metavar="NAME=FILE", help="a dataset and its HDT file")
    words = parser.parse_args()
    logging.getLogger("hdt.sparql").addHandler(logging.NullHandler())
    try:
        application = Application(_config(words))
        made = make_server(words.host, words.port, application, server_class=Server, handler_class=Handler)
    except (OSError, OverflowError, ValueError) as error:
        print(f"hdt.sparql: {error}", file=sys.stderr)
        return 2
    log_to_standard_error()
    with made as server:
        for name in application.config.datasets:
            print(f"http://{words.host}:{server.server_port}/{name}", file=sys.stderr, flush=True)
        try:
            server.serve_forever()
        except KeyboardInterrupt:
            pass
        finally:
            application.close()
    return 0


if __name__ == "__main__":
    sys.exit(main())
