#!/usr/bin/env python3
"""How many instructions an event of a recording takes in a report, beside the original trace-cmd (`report -N`): rows of docs/PERFORMANCE.md.

    scripts/bench/recordings.py PROGRAM RECORDING ..

Counted by callgrind: what the report takes beyond that of the recording's first tenth, which PROGRAM splits off, for each event more. So
what is done once is not counted, be it before the first event or, as the original sorts the symbols, at the first that asks for it.
scripts/bench/recordings.sh makes recordings of all kinds of events in an emulated machine. `apt-get install valgrind trace-cmd` brings what
is needed. The original takes some 25,000 instructions an event, so a recording of 10,000 takes a minute or two.
"""

from __future__ import annotations

import argparse
import os
import shutil
import subprocess
import sys
import tempfile
from pathlib import Path

from instructions import Tool, counted

from tracefile import read_plain_trace


def first_events(program: str, recording: Path, count: int, folder: Path) -> Path:
    """A file with so many of a recording's first events."""
    command = [program, "split", "-i", recording, "-o", folder / "first", "-e", str(count)]
    ran = subprocess.run(command, stdin=subprocess.DEVNULL, stdout=subprocess.DEVNULL, stderr=subprocess.PIPE, text=True)
    if ran.returncode:
        sys.exit(f"{recording}: not split: {ran.stderr.strip()}")
    return folder / "first.1"


def of_an_event(tools: list[Tool], recording: Path, folder: Path) -> tuple[int, list[float]]:
    """The number of a recording's events, and what each of them takes."""
    count = sum(map(len, read_plain_trace(recording).events()))
    few = count // 10
    part = first_events(tools[0].program, recording, few, folder)
    costs = [[counted(tool.program, [*tool.report, file], folder) for file in (recording, part)] for tool in tools]
    return count, [(whole - first) / (count - few) for whole, first in costs]


def main() -> None:
    parser = argparse.ArgumentParser(description=__doc__, formatter_class=argparse.RawDescriptionHelpFormatter)
    parser.add_argument("program", metavar="PROGRAM")
    parser.add_argument("recordings", nargs="+", type=Path, metavar="RECORDING")
    given = parser.parse_args()
    for needed in ("valgrind", "trace-cmd"):
        if not shutil.which(needed):
            sys.exit(f"{needed} is not installed")
    tools = [Tool("trace_cmd", os.path.abspath(given.program), ["report"]), Tool("trace-cmd", "trace-cmd", ["report", "-N"])]
    print("| recording | events | one of them | the original | ratio |\n|---|---|---|---|---|", flush=True)
    for recording in given.recordings:
        with tempfile.TemporaryDirectory() as name:
            count, (ours, original) = of_an_event(tools, recording.resolve(), Path(name))
        print(f"| `{recording.name}` | {count:,} | {ours:,.0f} | {original:,.0f} | {original / ours:.1f} |", flush=True)


if __name__ == "__main__":
    main()
