"""One file of a folder of parts."""

from __future__ import annotations

import os
from contextlib import ExitStack
from typing import Optional, Union

from hdt._build import check_header
from hdt._calls import Counts, Path
from hdt._files import replace
from hdt._library import Made
from hdt._low_memory import LowMemory
from hdt._merging import merge_files, merged
from hdt.parts._files import opened
from hdt.parts._manifest import Manifest


def merge(
    folder: Path,
    out_path: Path,
    base: Optional[str] = None,
    block_size: Optional[int] = None,
    *,
    memory: Union[int, str, None] = None,
    scratch: Optional[Path] = None,
) -> Counts:
    """Merge the parts of a folder into one file, and return its counts.

    `base` and `block_size` are those that the folder was built with, unless they are given. The file is the one that
    `hdt.build` makes of the inputs as one text, with the `blank_nodes` of the folder: a label in two parts is one node,
    as the parts are one graph. It is replaced atomically, as by `hdt.build`, and can't be in the folder.

    Errors: `PartFault` for a file of the folder that is missing, damaged or another one; ValueError for the options and
    for an output in the folder; TypeError; MemoryError; OSError. Time and memory are those of `hdt.merge`: all parts
    are open at once. With `memory` and `scratch`, which are those of `hdt.merge`, too, they are opened one by one.

    >>> hdt.parts.merge("graph.parts", "merged.hdt").triples
    3
    """
    name = os.path.abspath(os.fsdecode(folder))
    target = os.path.realpath(os.fsdecode(out_path))
    if os.path.dirname(target) == os.path.realpath(name):
        raise ValueError("the output is in the folder")
    low, manifest = LowMemory.of(memory, scratch), Manifest.read(name)
    base = manifest.base if base is None else base
    size = manifest.block_size if block_size is None else block_size
    check_header(base, size)
    rows = [part for part in manifest.parts if part.file]
    if low is not None:
        for part in rows:
            opened(name, part).close()
        paths = [os.path.join(name, part.file) for part in rows]
        return merge_files(paths, out_path, base, size, None, low)
    with ExitStack() as kept, Made() as made:
        graphs = [kept.enter_context(opened(name, part)) for part in rows]
        counts = merged(graphs, made, base, size)
        replace(out_path, made.view())
    return counts
