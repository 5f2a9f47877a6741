"""Compares reports of real recordings with what the original tool prints of them.

DIRECTORY has recordings NAME.dat, and may have beside each what `trace-cmd report -N NAME.dat` prints, as NAME.report-N.txt; else the
original is asked. Reports are compared line by line, whole. Where two lines differ, the pid, the processor, the time and the event's
name must still agree, and the difference is counted under its event and its kind; a line of a loss must agree whole. A latency
recording is compared whole, but for one empty line at the end of the original's. OPTIONs go to `PROGRAM report`.

It ends with 0 where all lines agree but for differences of the kinds below, and with 1 where anything else differs.
"""

from __future__ import annotations

import argparse
from pathlib import Path
from typing import Sequence

from comparisons.lines import EVENT, KINDS, differences, failure, items, plain_report, recordings, run, tell

DETAILS = KINDS


def arguments(parser: argparse.ArgumentParser) -> None:
    parser.add_argument("directory", type=Path, metavar="DIRECTORY")
    parser.add_argument("options", nargs=argparse.REMAINDER, metavar="OPTION")


def compare_one(program: str, recording: Path, options: Sequence[str]) -> tuple[bool, list[str]]:
    ran, expected = run(program, "report", *options, recording), plain_report(recording)
    if ran.returncode != 0:
        return False, [failure(ran)]
    if not any(EVENT.match(line) for line in expected.split(b"\n")[1:]):
        same = expected in (ran.stdout, ran.stdout + b"\n")
        return same, ["agrees" if same else "the texts differ"]
    ours = items(ran.stdout)
    found = differences(ours, items(expected))
    return not found.others, [f"{len(ours)} items, {found.same} agree whole", *found.told()]


def compare(program: str, directory: Path, options: Sequence[str]) -> bool:
    good = True
    for recording in recordings(directory):
        agrees, told = compare_one(program, recording, options)
        good = agrees and good
        tell(recording.name, told)
    return good
