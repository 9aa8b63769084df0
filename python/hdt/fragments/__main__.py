"""Serves HDT files on this machine: `python3 -m hdt.fragments [--port N] [--config FILE] NAME=FILE..`"""

from __future__ import annotations

import argparse
import dataclasses
import logging
import sys
from wsgiref.simple_server import make_server

from hdt._web.log import escaped, log_to_standard_error
from hdt._web.server import Handler, Server
from hdt.fragments import Application, Config, Source
from hdt.fragments._config import changed_at


def _config(words: argparse.Namespace) -> Config:
    config = Config.read(words.config) if words.config else Config()
    more = {}
    for word in words.dataset:
        name, equals, file = word.partition("=")
        if not equals:
            raise ValueError(f"{word!r} is not NAME=FILE")
        more[name] = Source(file)
    return dataclasses.replace(config, datasets={**config.datasets, **more})


def main() -> int:
    """Serve until it is interrupted."""
    parser = argparse.ArgumentParser(prog="hdt.fragments", description="Serves HDT files as Triple Pattern Fragments.")
    parser.add_argument("--port", type=int, default=8080, help="the port on 127.0.0.1 (default: 8080)")
    parser.add_argument("--config", help="a file of TOML or JSON")
    parser.add_argument("dataset", nargs="*", metavar="NAME=FILE", help="a dataset and its HDT file")
    words = parser.parse_args()
    logging.getLogger("hdt.fragments").addHandler(logging.NullHandler())  # (so that one line says what is wrong)
    try:
        changed = changed_at(words.config) if words.config and not words.dataset else None
        application = Application(_config(words), changed)
    except (OSError, ValueError) as error:
        print(f"hdt.fragments: {error}", file=sys.stderr)
        return 2
    if not application.datasets:
        parser.error("there is no dataset")
    wrong = {name: dataset for name, dataset in application.datasets.items() if dataset.error}
    for word in words.dataset:  # (a dataset of the configuration answers 503, as under another server)
        if dataset := wrong.get(word.partition("=")[0]):
            print(f"hdt.fragments: {escaped(word)}: {dataset.error}", file=sys.stderr)
            return 2
    log_to_standard_error()
    for dataset in wrong.values():
        dataset.log_error()
    try:
        made = make_server("127.0.0.1", words.port, application, server_class=Server, handler_class=Handler)
    except (OSError, OverflowError) as error:
        print(f"hdt.fragments: cannot listen on port {words.port}: {error}", file=sys.stderr)
        return 2
    with made as server:
        print(f"http://127.0.0.1:{server.server_port}/", file=sys.stderr, flush=True)
        try:
            server.serve_forever()
        except KeyboardInterrupt:
            pass
    return 0


if __name__ == "__main__":
    sys.exit(main())
