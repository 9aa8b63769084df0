"""Builds the wheel: the package with the library and the program that belong to the checkout, for one platform."""

from __future__ import annotations

import shutil
import subprocess
from pathlib import Path

from setuptools import setup
from setuptools.command.build_py import build_py
from wheel.bdist_wheel import bdist_wheel  # type: ignore[import]

TOP = Path(__file__).resolve().parent.parent


def built() -> Path:
    """Return the folder of built files that belongs to the checkout."""
    found = subprocess.run([TOP / "tools/current"], check=True, stdout=subprocess.PIPE, text=True)
    return TOP / found.stdout.strip()


class BuildWithLibrary(build_py):
    """Copies the library and the program into the package."""

    def run(self) -> None:
        super().run()
        package = Path(self.build_lib) / "hdt"
        shutil.copy(built() / "libhdt.so", package / "libhdt.so")
        (package / "bin").mkdir(exist_ok=True)
        shutil.copy(built() / "hdt", package / "bin/hdt")


class PlatformWheel(bdist_wheel):  # type: ignore[misc]
    """A wheel for any Python 3, on one platform."""

    def finalize_options(self) -> None:
        super().finalize_options()
        self.root_is_pure = False

    def get_tag(self) -> tuple[str, str, str]:
        manifest = (built().parent / "MANIFEST").read_text()
        glibc = next(line.split()[1] for line in manifest.splitlines() if line.startswith("glibc "))
        return "py3", "none", f"manylinux_{glibc.replace('.', '_')}_x86_64"


setup(cmdclass={"build_py": BuildWithLibrary, "bdist_wheel": PlatformWheel})
