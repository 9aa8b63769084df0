"""Prove every crate and build the program, the probes and the C library into out/x86_64-linux-gnu.

    python3 -m tools.build            prove what is not proved yet (`rt ci`), then link
    python3 -m tools.build --link     only link, if the sources are those that such a run has proved
    python3 -m tools.build --dist     only copy what is built into dist/, which is shipped; commit it once for a release

It needs the Rattle kit, but for --dist. `rt ci` proves crates side by side, as processors and memory allow, and keeps
what it has proved, also if it is interrupted. All linking is done by the kit's own tools, so the files depend on no
other compiler.
"""

from __future__ import annotations

import os
import re
import shutil
import subprocess
import sys
import tempfile
import time
from pathlib import Path

from tools import manifest
from tools.repository import TOP, Crate, Failed, command_line, crates, kit, kit_line, lanes, lines_of

# The crate whose program is the command `hdt`, and the crate of the C library.
COMMAND = "hdt"
LIBRARY = "hdt_c"
# The checksum of the sources that the last run of `rt ci` in this tree has proved.
PROVED = TOP / "out/PROVED"
# The soname of libhdt.so: its number goes up when a call of c/hdt.h changes or goes.
SONAME = "libhdt.so.1"


def toolchain(name: str, *words: str | Path) -> None:
    """Run one of the kit's LLVM tools by its name. Raises Failed."""
    command, clang = [name, *map(str, words)], kit() / "toolchain/bin/clang"
    ran = subprocess.run(command, executable=clang, stdout=subprocess.PIPE, stderr=subprocess.STDOUT, text=True)
    if ran.returncode:
        raise Failed(f"{name} failed: {ran.stdout.strip()}")


def keep_proved(began: str) -> None:
    """Keep the checksum that the sources had when a run of `rt ci` began that has passed. Raises Failed."""
    if manifest.sources() != began:
        raise Failed("sources changed during the proofs: run it again")
    PROVED.parent.mkdir(exist_ok=True)
    PROVED.write_text(began + "\n")


def prove() -> None:
    """Run `rt ci`, print a line for each crate that is proved, and keep its output in out/prove.log.

    Raises NoKit and Failed.
    """
    kit()
    log = TOP / "out/prove.log"
    log.parent.mkdir(exist_ok=True)
    sources, began, done, whole = manifest.sources(), time.monotonic(), 0, len(crates())
    told = f"proving {whole} crates on {lanes()} processors, with its output in {log.relative_to(TOP)}"
    print(f"hdt: {told}; CONTRIBUTING.md says how long that takes", file=sys.stderr)
    with open(log, "w", buffering=1) as kept:
        for line in lines_of("rt", "ci", env={"RT_JOBS": str(lanes()), **os.environ}):
            kept.write(line)
            if found := re.match(r"rt: (\w+) (proved|is kept|NOT PROVED)", line):
                done += found[2] != "NOT PROVED"
                clock = int(time.monotonic() - began)
                said = {"is kept": "was proved before"}.get(found[2], f"is {found[2]}")
                print(f"hdt: {clock // 60}:{clock % 60:02} {found[1]} {said}, {done} of {whole}", file=sys.stderr)
    keep_proved(sources)


def program(crate: str, to: Path) -> None:
    """Copy the program that `rt ci` linked, without its symbol table. Raises Failed."""
    made = TOP / "crates" / crate / "out" / crate
    if not made.is_file():
        raise Failed(f"{crate} is not built: run rt ci first")
    toolchain("llvm-strip", "-o", to, made)
    to.chmod(0o755)


def archive(folder: Path) -> Path:
    """Compile the proved C library into a static archive in the folder, and return its path. Raises Failed.

    `rt ci` checks a static library without writing it, so its own crate (none of those below) is proved once more here.
    """
    crate = Crate(LIBRARY)
    if missing := crate.missing():
        raise Failed(f"{missing[0]} is not built: run rt ci first")
    made = folder / f"lib{LIBRARY}.a"
    # (a library with a stamp is one that the session's own `rt check` or `rt lib` has built, maybe of older sources)
    is_own = any((crate.library(it).parent / "stamp").exists() for it in crate.below())
    options = ["--crate-type", "staticlib", "--toolchain", f"{kit()}/toolchain", "--backend", "llvm"]
    build = [*crate.rattle("build"), *options, "--jobs", str(lanes()), "-o", str(made)]
    words = ["rt", "lib"] if is_own else build
    log = TOP / "out/library.log"
    with open(log, "w") as kept:
        if subprocess.run(words, cwd=crate.folder, stdout=kept, stderr=subprocess.STDOUT).returncode:
            raise Failed(f"{LIBRARY} is not proved or not built; see {log.relative_to(TOP)}")
    return crate.folder / "out" / made.name if is_own else made


def libraries(to: Path) -> None:
    """Link libhdt.a and libhdt.so, which export the calls of c/hdt.h alone. Raises Failed."""
    exported = TOP / "c/hdt.map"
    names = re.findall(r"hdt_[a-z_*]*", exported.read_text())
    with tempfile.TemporaryDirectory() as name:
        folder = Path(name)
        whole = folder / "hdt.o"
        # (of the kit's archive comes what asks the C library for memory: malloc, realloc and free)
        all_of = ("--whole-archive", archive(folder), "--no-whole-archive")
        toolchain("ld.lld", "-r", "-o", whole, *all_of, kit() / "c/liblibc_c.a")
        toolchain("llvm-objcopy", "--wildcard", "--strip-debug", *[f"--keep-global-symbol={it}" for it in names], whole)
        toolchain("llvm-ar", "rcD", to / "libhdt.a", whole)
        from_kit = kit() / "toolchain/lib"
        given: list[str | Path] = ["-soname", SONAME, "--version-script", exported]
        options = "-z text -z defs -z noexecstack -z relro --eh-frame-hdr --hash-style=gnu --build-id=sha1".split()
        inputs = [whole, from_kit / "libgcc.a", from_kit / "libc.so.6"]
        toolchain("ld.lld", "-shared", "-o", to / "libhdt.so", *given, *options, *inputs)
        toolchain("llvm-strip", "--strip-unneeded", to / "libhdt.so")
        (to / "libhdt.so").chmod(0o644)


def link() -> None:
    """Make out/x86_64-linux-gnu and its manifest of what is proved in this tree. Raises NoKit and Failed."""
    kit()
    began = manifest.sources()
    if not PROVED.is_file() or PROVED.read_text().strip() != began:
        raise Failed("the sources as they are have not been proved: make")
    to = manifest.BUILT / manifest.PLATFORM
    shutil.rmtree(to, ignore_errors=True)
    (manifest.BUILT / "MANIFEST").unlink(missing_ok=True)
    to.mkdir(parents=True)
    program(COMMAND, to / "hdt")
    for name in crates():
        if name.startswith("hdt_probe_") and Crate(name).is_program:
            program(name, to / name)
    libraries(to)
    made = manifest.describe(manifest.BUILT, kit_line())
    if made.sources != began:
        raise Failed("sources changed during the build: run it again")
    (manifest.BUILT / "MANIFEST").write_text(made.text())


def ship() -> str:
    """Make dist/ of what is built, and return its path. Raises Failed."""
    try:
        manifest.current(manifest.BUILT)
    except (OSError, ValueError) as why:
        raise Failed(f"nothing is built of the sources as they are: {why}: make") from None
    to = manifest.SHIPPED / manifest.PLATFORM
    shutil.rmtree(to, ignore_errors=True)
    shutil.copytree(manifest.BUILT / manifest.PLATFORM, to)
    shutil.copy(manifest.BUILT / "MANIFEST", manifest.SHIPPED)
    return str(to.relative_to(TOP))


def main() -> int:
    """Run the command line."""
    words = command_line("build", __doc__)
    words.add_argument("--link", action="store_true", help="only link what is proved")
    words.add_argument("--dist", action="store_true", help="only make dist/ of what is built")
    given = words.parse_args()
    try:
        if not given.link and not given.dist:
            prove()
        if not given.dist:
            link()
        print(f"hdt: made {ship() if given.dist else f'out/{manifest.PLATFORM}'}", file=sys.stderr)
    except Failed as why:
        print(f"hdt: {why}", file=sys.stderr)
        return 2
    return 0


if __name__ == "__main__":
    sys.exit(main())
