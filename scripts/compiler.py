"""Compiles the small C programs and libraries that checks and measurements need, by `cc` or else by the kit's own clang."""

from __future__ import annotations

import os
import shutil
import subprocess
from pathlib import Path

# The kit's clang has no headers of the C library, and links nothing by itself.
ALONE = ["-fuse-ld=lld", "-nostdinc", "-nostdlib"]


class NoCompiler(Exception):
    """There is no C compiler that can make this."""


def kit_clang() -> str | None:
    """The clang beside `rt`, where there is a kit."""
    rt = shutil.which("rt")
    clang = Path(os.path.realpath(rt)).parent.parent / "toolchain/bin/clang" if rt else None
    return str(clang) if clang and clang.exists() else None


def attempts(words: list[str], needs_headers: bool) -> list[list[str]]:
    found = [["cc", *words]] if shutil.which("cc") else []
    clang = None if needs_headers else kit_clang()
    return found + ([[clang, *ALONE, *words]] if clang else [])


def compile_c(source: Path, target: Path, *flags: str, needs_headers: bool = True) -> None:
    said = "neither `cc` nor the kit's clang is there" if not needs_headers else "`cc` is not there"
    for command in attempts(["-O2", str(source), "-o", str(target), *flags], needs_headers):
        ran = subprocess.run(command, capture_output=True, text=True)
        if ran.returncode == 0:
            return
        said = ran.stderr.strip()
    raise NoCompiler(said)
