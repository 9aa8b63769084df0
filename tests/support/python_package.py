"""The Python package `hdt` of this repository, over the shared library under test.

`pattern_of` is its function that packs a pattern.
"""

from __future__ import annotations

import sys
from unittest import mock

from support.built import SHARED_LIBRARY, TOP

PACKAGE = TOP / "python"
# What a Python program finds the package and the library by.
ENVIRONMENT = {"HDT_LIBRARY": str(SHARED_LIBRARY), "PYTHONPATH": str(PACKAGE), "PYTHONDONTWRITEBYTECODE": "1"}

with mock.patch.dict("os.environ", ENVIRONMENT), mock.patch.object(sys, "dont_write_bytecode", True), \
        mock.patch.object(sys, "path", [str(PACKAGE), *sys.path]):
    import hdt
    from hdt._calls import pattern_of

__all__ = ["ENVIRONMENT", "PACKAGE", "hdt", "pattern_of"]
