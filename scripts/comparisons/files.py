"""Compares a report of several recordings with what the original tool prints of them.

What `PROGRAM report -i RECORDING ..` and `trace-cmd report -N -i RECORDING ..` print must be the same lines in the same order, each of
the same file, but for the column of the names, in which the original writes the last part of the path, filled up to the longest, and
PROGRAM the path as it was given; the last parts of the paths must differ. A difference of a line's text is counted under its event and
its kind.

It ends with 0 where all lines agree but for differences of the kinds below, and with 1 where anything else differs.
"""

from __future__ import annotations

import argparse
import sys
from itertools import zip_longest
from pathlib import Path
from typing import Mapping

from comparisons.lines import EVENT, KINDS, LOSS, ORIGINAL, Differences, failure, kind, run, tell

DETAILS = KINDS
Named = tuple[str, bytes]


def arguments(parser: argparse.ArgumentParser) -> None:
    parser.add_argument("recordings", nargs="+", metavar="RECORDING")


def named_items(report: bytes, names: Mapping[bytes, str]) -> list[Named]:
    """The lines with their files, each text that holds newlines as one with the lines that it goes on in."""
    found: list[Named] = []
    for line in report.split(b"\n"):
        bare = line.lstrip(b" ")
        name = next((name for name in names if bare.startswith(name + b": ")), None)
        if name is not None:
            found.append((names[name], bare[len(name) + 2 :]))
        elif found and LOSS.match(found[-1][1]) and EVENT.match(line):
            # The original names the file once for a loss and the event after it.
            found.append((found[-1][0], line))
        elif found:
            found[-1] = found[-1][0], found[-1][1] + b"\n" + line
    return [(name, text.rstrip(b"\n")) for name, text in found]


def printed(*words: str) -> bytes:
    ran = run(*words)
    if ran.returncode != 0:
        sys.exit(f"{' '.join(words)}: {failure(ran)}")
    return ran.stdout


def known(ours: Named | None, theirs: Named | None) -> str | None:
    return kind(ours[1], theirs[1]) if ours and theirs and ours[0] == theirs[0] else None


def compare(program: str, recordings: list[str]) -> bool:
    if len(recordings) < 2:
        sys.exit("name two recordings or more")
    inputs = [word for path in recordings for word in ("-i", path)]
    ours = named_items(printed(program, "report", *inputs), {path.encode(): Path(path).name for path in recordings})
    theirs = named_items(printed(ORIGINAL, "report", "-N", *inputs), {Path(path).name.encode(): Path(path).name for path in recordings})
    found = Differences()
    for number, (our, their) in enumerate(zip_longest(ours, theirs)):
        found.see(f"line {number}", our, their, known(our, their))
    tell(f"{len(ours)} lines", [f"{found.same} agree whole", *found.told()])
    return not found.others
