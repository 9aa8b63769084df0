"""The scripts of an installed package, `hdt` and `tickmarl-hdt`, which ask for it by the name that no other one has.

If `hdt` is this package, that name is another one of it: what is imported here by it would be there twice.
"""

from __future__ import annotations

import importlib
import sys
from typing import Any

_PACKAGE = sys.modules[__name__.rpartition(".")[0]].__name__


def _command() -> Any:
    return importlib.import_module(f"{_PACKAGE}.__main__")


def main() -> int:
    """The command of the package: `tickmarl-hdt`."""
    status: int = _command().main()
    return status


def program() -> int:
    """The program: `hdt`."""
    status: int = _command().program()
    return status
