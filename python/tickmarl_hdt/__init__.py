"""The package `hdt` of this distribution, by a name that no other distribution has.

    import tickmarl_hdt as hdt

If `import hdt` gives that package, this is the same module, with the same classes and exceptions. If `import hdt` gives
another package, as pyHDT, this is the package without that name. (`hdt.rdflib` and `hdt.fragments` need the name.)
"""

from __future__ import annotations

import importlib.util
import sys
from pathlib import Path
from typing import TYPE_CHECKING

if TYPE_CHECKING:
    from hdt import *  # noqa: F401, F403
    from hdt import LIBHDT_VERSION as LIBHDT_VERSION  # noqa: F401
    from hdt import __version__ as __version__  # noqa: F401

_OWN = Path(__file__).resolve().parent.parent / "hdt/__init__.py"


def _is_own(name: str) -> bool:
    """Whether a name of a package is that of the one beside this, without importing it."""
    found = sys.modules[name].__spec__ if name in sys.modules else importlib.util.find_spec(name)
    return found is not None and found.origin is not None and Path(found.origin).resolve() == _OWN


def _load() -> None:
    """Put the package in the place of this module."""
    if _is_own("hdt"):
        sys.modules[__name__] = importlib.import_module("hdt")
        return
    spec = importlib.util.spec_from_file_location(__name__, _OWN, submodule_search_locations=[str(_OWN.parent)])
    assert spec and spec.loader
    sys.modules[__name__] = module = importlib.util.module_from_spec(spec)
    spec.loader.exec_module(module)


_load()
