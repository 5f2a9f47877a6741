#!/usr/bin/env python3
"""What a report costs where one of many processors has all events: instructions, and the memory that it touches at its most.

    scripts/bench/idle_processors.py PROGRAM [--original]

The traces have 1,000 switches on one processor, by the header of samples/sched.dat, and none, 255 or 1,023 processors without data
beside it. With --original the same is told of the original trace-cmd (`report -N`). `apt-get install valgrind time` brings what counts
and what measures.
"""

from __future__ import annotations

import argparse
import os
import shutil
import subprocess
import sys
import tempfile
from pathlib import Path

from instructions import SAMPLE, Tool, counted

from make_trace import add_idle, one_kind

EVENTS, PROCESSORS = 1000, (1, 256, 1024)


def resident(program: str, words: list[object]) -> int:
    """The most memory that a run touches, in KiB."""
    command = ["time", "-f", "%M", program, *map(str, words)]
    ran = subprocess.run(command, stdin=subprocess.DEVNULL, stdout=subprocess.DEVNULL, stderr=subprocess.PIPE, text=True)
    if ran.returncode:
        sys.exit(f"{' '.join(map(str, words))}: {ran.stderr.strip()}")
    return int(ran.stderr.split()[-1])


def main() -> None:
    parser = argparse.ArgumentParser(description=__doc__, formatter_class=argparse.RawDescriptionHelpFormatter)
    parser.add_argument("program", metavar="PROGRAM")
    parser.add_argument("--original", action="store_true")
    given = parser.parse_args()
    tools = [Tool("trace_cmd", os.path.abspath(given.program), ["report"])]
    if given.original:
        tools.append(Tool("trace-cmd", shutil.which("trace-cmd") or sys.exit("trace-cmd is not installed"), ["report", "-N"]))
    for needed in ("valgrind", "time"):
        if not shutil.which(needed):
            sys.exit(f"{needed} is not installed")
    with tempfile.TemporaryDirectory() as name:
        folder = Path(name)
        events, idle = folder / "events.dat", folder / "idle.dat"
        one_kind(SAMPLE, events, "switch", EVENTS)
        for processors in PROCESSORS:
            add_idle(events, idle, processors)
            for tool in tools:
                words = [*tool.report, idle]
                count, most = counted(tool.program, words, folder), resident(tool.program, words)
                print(f"{tool.name}: {processors} processors of which one has {EVENTS} events: {count:,} instructions, {most:,} KiB", flush=True)


if __name__ == "__main__":
    main()
