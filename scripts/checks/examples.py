"""Runs each command that README.md and docs/USAGE.md show, as it is written, and compares what PROGRAM prints with what they show.

An example is an indented line that begins with `$ `; the lines up to the next one are what it prints on its output and as its message, and
`..` among them stands for any lines. The commands run one after another in an empty folder, in which samples/ and scripts/ are those of the
repository, and `trace_cmd` is PROGRAM.
"""

from __future__ import annotations

import os
import subprocess
import tempfile
from pathlib import Path
from typing import Iterator, NamedTuple, Sequence

TOP = Path(__file__).resolve().parent.parent.parent
DOCUMENTS = ["README.md", "docs/USAGE.md"]
INDENT, PROMPT, LEFT_OUT = "    ", "    $ ", ".."


class Example(NamedTuple):
    """A command, the document and the line in which it stands, and the lines that it is to print."""

    place: str
    command: str
    shown: list[str]


def examples(document: str) -> Iterator[Example]:
    found: Example | None = None
    for number, line in enumerate((TOP / document).read_text().splitlines(), 1):
        goes_on = found is not None and line.startswith(INDENT) and not line.startswith(PROMPT)
        if goes_on and found:
            found.shown.append(line.removeprefix(INDENT))
            continue
        if found:
            yield found
        found = Example(f"{document}:{number}", line.removeprefix(PROMPT), []) if line.startswith(PROMPT) else None
    if found:
        yield found


def is_shown(shown: Sequence[str], printed: Sequence[str]) -> bool:
    """Whether these lines were printed, where those that are left out may be any."""
    if not shown:
        return not printed
    if shown[0].strip() == LEFT_OUT:
        return len(shown) == 1 or any(is_shown(shown[1:], printed[start:]) for start in range(len(printed) + 1))
    return bool(printed) and shown[0] == printed[0] and is_shown(shown[1:], printed[1:])


def printed_by(command: str, folder: Path) -> list[str]:
    given = {**os.environ, "PATH": f"{folder / 'bin'}:{os.environ['PATH']}", "LC_ALL": "C.UTF-8"}
    how = {"stdin": subprocess.DEVNULL, "stdout": subprocess.PIPE, "stderr": subprocess.STDOUT}
    return subprocess.run(["bash", "-c", command], cwd=folder / "in", env=given, timeout=100, **how).stdout.decode(errors="replace").splitlines()


def check(program: str) -> bool:
    count, good = 0, True
    with tempfile.TemporaryDirectory() as name:
        folder = Path(name)
        for made in ("bin", "in"):
            (folder / made).mkdir()
        (folder / "bin/trace_cmd").symlink_to(program)
        for shared in ("samples", "scripts"):
            (folder / "in" / shared).symlink_to(TOP / shared)
        for example in [it for document in DOCUMENTS for it in examples(document)]:
            count += 1
            printed = printed_by(example.command, folder)
            if not is_shown(example.shown, printed):
                good = False
                print(f"WRONG: {example.place}: {example.command}: it printed {len(printed)} lines: {printed[:8]}")
    if good:
        print(f"{count} examples, each prints what is shown")
    return good
