"""The module `hdt.rdflib` of this repository. Whoever imports this is skipped where there is no rdflib."""

from __future__ import annotations

import importlib.util
import sys
from unittest import mock

import pytest

if not importlib.util.find_spec("rdflib"):
    pytest.skip("there is no rdflib", allow_module_level=True)

from support.python_package import PACKAGE, hdt

with mock.patch.object(sys, "dont_write_bytecode", True), mock.patch.object(sys, "path", [str(PACKAGE), *sys.path]):
    import hdt.rdflib as store
    from hdt.rdflib import _join as join, _options as options, _paths as paths

__all__ = ["hdt", "join", "options", "paths", "store"]
