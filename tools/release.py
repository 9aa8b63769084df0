"""Make out/release/, what a maintainer publishes: wheel, Debian package, source archive, SBOM and SHA256SUMS.

    python3 -m tools.release

It needs a clean checkout whose dist/ belongs to its sources, git, and what `make wheel` and `make deb` need. The SBOM
is a document of SPDX 2.3 in JSON: the files of dist/, the crates that each is made of, and the libraries of the kit and
of the system that these use. All files depend on the commit alone, and packages on the versions of the tools that make
them. Nothing is signed: SHA256SUMS is what to sign, as SHA256SUMS.asc beside it.
"""

from __future__ import annotations

import hashlib
import json
import shutil
import subprocess
import sys
import uuid
from pathlib import Path
from typing import Any

from tools import manifest
from tools.repository import TOP, Failed, below, command_line, crates

NAME = "tickmarl-hdt"
FOLDER = TOP / "out/release"
# The crate that each shipped file is made of, if it has another name.
MADE_OF = {"libhdt.a": "hdt_c", "libhdt.so": "hdt_c"}


def output(*words: str | Path) -> str:
    """Return what a command prints, without its last line feed. Raises Failed."""
    try:
        done = subprocess.run(words, cwd=TOP, stdout=subprocess.PIPE, text=True)
    except OSError as why:
        raise Failed(f"{words[0]}: {why.strerror}") from None
    if done.returncode:
        raise Failed(f"{' '.join(map(str, words))} ended with status {done.returncode}")
    return done.stdout.strip()


def spdx_id(name: str) -> str:
    """Return an identifier of SPDX."""
    return "SPDXRef-" + "".join(it if it.isalnum() else "-" for it in name)


def entry(of: str, unknown: str, /, **more: Any) -> dict[str, Any]:
    """Return the entry of a package or a file of which nothing is known but what is given."""
    return {"SPDXID": spdx_id(of), **dict.fromkeys(unknown.split(), "NOASSERTION"), **more}


def package(name: str, **more: str) -> dict[str, Any]:
    """Return the entry of a package."""
    unknown = "downloadLocation licenseConcluded licenseDeclared copyrightText"
    return entry(name, unknown, name=name, filesAnalyzed=False, **more)


def file_entry(path: Path) -> dict[str, Any]:
    """Return the entry of a file of dist/. Raises OSError."""
    sums = {it: hashlib.new(it, path.read_bytes()).hexdigest() for it in ("sha1", "sha256")}
    return entry(path.name, "licenseConcluded copyrightText", fileName=f"./{path.relative_to(TOP)}",
                 checksums=[{"algorithm": it.upper(), "checksumValue": value} for it, value in sums.items()])


def bill_of_materials(made: manifest.Manifest, version: str, created: str) -> dict[str, Any]:
    """Return the SBOM of what is shipped. Raises OSError."""
    uses = crates()
    of_file = {name: MADE_OF.get(Path(name).name, Path(name).name) for name in sorted(made.files)}
    ours = sorted({it for crate in of_file.values() for it in [crate, *below(crate, uses)]})
    others = sorted({it for crate in ours for it in uses[crate] if it not in uses})
    root = spdx_id(NAME)
    links = [("SPDXRef-DOCUMENT", "DESCRIBES", root)]
    for name, crate in of_file.items():
        links += [(root, "CONTAINS", spdx_id(Path(name).name)),
                  (spdx_id(Path(name).name), "GENERATED_FROM", spdx_id(f"crate {crate}")),
                  (spdx_id(Path(name).name), "DEPENDS_ON", spdx_id("glibc"))]
    for crate in ours:
        links += [(spdx_id(f"crate {crate}"), "DEPENDS_ON", spdx_id(f"{'crate' if it in uses else 'kit'} {it}"))
                  for it in uses[crate]]
    return {
        "spdxVersion": "SPDX-2.3",
        "dataLicense": "CC0-1.0",
        "SPDXID": "SPDXRef-DOCUMENT",
        "name": f"{NAME}-{version}",
        "documentNamespace": f"urn:uuid:{uuid.uuid5(uuid.NAMESPACE_OID, made.text() + created)}",
        "creationInfo": {"created": created, "creators": ["Tool: tools.release"]},
        "packages": [
            package(NAME, versionInfo=version, sourceInfo=f"sources {made.sources}"),
            *(package(f"crate {it}", versionInfo=version) for it in ours),
            *(package(f"kit {it}", sourceInfo=f"of the kit: {made.kit}") for it in others),
            package("glibc", sourceInfo=f"of the system, {made.glibc} or later"),
        ],
        "files": [file_entry(manifest.SHIPPED / name) for name in of_file],
        "relationships": [
            {"spdxElementId": one, "relationshipType": kind, "relatedSpdxElement": other} for one, kind, other in links
        ],
    }


def make(folder: Path) -> None:
    """Make all files of a release in a folder. Raises Failed, OSError."""
    if output("git", "status", "--porcelain"):
        raise Failed("the checkout has changes that are not committed")
    try:
        made = manifest.current(manifest.SHIPPED)
    except (OSError, ValueError) as why:
        raise Failed(f"{why}: make dist") from None
    version = output(manifest.SHIPPED / manifest.PLATFORM / "hdt", "--version").split()[-1]
    created = output("env", "TZ=UTC", "git", "log", "-1", "--date=format-local:%Y-%m-%dT%H:%M:%SZ", "--format=%cd")
    for kind in ("wheel", "deb"):
        shutil.copy(TOP / output("tools/package", kind).splitlines()[-1], folder)
    name = f"{NAME}-{version}"
    output("git", "archive", f"--prefix={name}/", f"--output={folder / name}.tar.gz", "HEAD")
    bill = json.dumps(bill_of_materials(made, version, created), indent=1)
    (folder / f"{name}.spdx.json").write_text(bill + "\n")
    files = sorted(folder.iterdir())
    (folder / "SHA256SUMS").write_text("".join(f"{manifest.checksum(it)}  {it.name}\n" for it in files))


def main() -> int:
    """Run the command line."""
    command_line("release", __doc__).parse_args()
    unfinished = FOLDER.with_suffix(".unfinished")
    try:
        shutil.rmtree(unfinished, ignore_errors=True)
        unfinished.mkdir(parents=True)
        make(unfinished)
        shutil.rmtree(FOLDER, ignore_errors=True)
        unfinished.rename(FOLDER)
    except (OSError, Failed) as why:
        shutil.rmtree(unfinished, ignore_errors=True)
        print(f"release: {why}", file=sys.stderr)
        return 2
    print("".join(f"{it.relative_to(TOP)}\n" for it in sorted(FOLDER.iterdir())), end="")
    return 0


if __name__ == "__main__":
    sys.exit(main())
