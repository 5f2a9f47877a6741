#!/usr/bin/env python3
"""How many instructions a run takes, counted by callgrind: the rows of docs/PERFORMANCE.md, and those of README.md among them.

    scripts/bench/instructions.py PROGRAM [RECORDING ..] [--original]

`apt-get install valgrind` brings what counts. Without RECORDING it is samples/sched.dat, by whose header the traces are made that the
costs of one event are of (scripts/make_trace.py): what 3,000 events take beyond 1,000. With --original the same is counted of the
original trace-cmd (`report -N`). A count is the same each time, but for some hundred instructions of the C library's. It takes some two
minutes, and as long again for the original.
"""

from __future__ import annotations

import argparse
import os
import re
import shutil
import subprocess
import sys
import tempfile
from pathlib import Path
from typing import Callable, Iterator, NamedTuple, Sequence

sys.path.insert(0, str(Path(__file__).resolve().parent.parent))

from make_trace import add_formats, add_idle, deal_to_processors, of_task, one_kind  # noqa: E402
from tracefile import read_plain_trace  # noqa: E402

SAMPLE = Path(__file__).resolve().parent.parent.parent / "samples/sched.dat"
FEW, MORE = 1000, 3000
# As many formats as kernels have, without modules and with them.
FORMATS = (1491, 4707)
ONE_KIND: list[tuple[str, list[str]]] = [("switch", []), ("function", []), ("graph", ["--calls"])]


# Tasks whose pid is wider than most, or whose name was not saved: Linux has no pid of more than seven digits.
TASKS = ((77_777, ""), (777_777, ""), (7_777_777, ""), (7_777_777, "task"))


class Tool(NamedTuple):
    """A program that is counted, and how it is asked for a report."""

    name: str
    program: str
    report: list[str]


def counted(program: str, words: Sequence[object], folder: Path) -> int:
    """The instructions of a run, in which new files go into the folder."""
    command = ["valgrind", "--tool=callgrind", f"--callgrind-out-file={folder}/callgrind", program, *map(str, words)]
    ran = subprocess.run(command, cwd=folder, stdin=subprocess.DEVNULL, stdout=subprocess.DEVNULL, stderr=subprocess.PIPE, text=True)
    found = re.search(r"Collected : (\d+)", ran.stderr)
    if not found:
        sys.exit(f"{' '.join(map(str, words))}: not counted: {ran.stderr.strip()}")
    return int(found[1])


def beyond(tool: Tool, make: Callable[[Path, int], None], words: Sequence[str], folder: Path) -> float:
    """What an event takes, in a trace that is made with so many events."""
    trace, costs = folder / "events.dat", []
    for count in (FEW, MORE):
        make(trace, count)
        costs.append(counted(tool.program, [*words, trace], folder))
    return (costs[1] - costs[0]) / (MORE - FEW)


def rows_of_events(tool: Tool, folder: Path) -> Iterator[tuple[str, float]]:
    for kind, options in ONE_KIND:
        if options and tool.report != ["report"]:
            continue

        def make(trace: Path, count: int) -> None:
            one_kind(SAMPLE, trace, kind, count)

        yield f"a {kind} event, report {' '.join(options)}".rstrip(), beyond(tool, make, [*tool.report, *options], folder)
        if not options:
            yield f"a {kind} event, split into one file", beyond(tool, make, ["split", "-o", "new", "-i"], folder)


def rows_of_tasks(tool: Tool, folder: Path) -> Iterator[tuple[str, float]]:
    for pid, name in TASKS:

        def make(trace: Path, count: int) -> None:
            one_kind(SAMPLE, trace, "function", count)
            of_task(trace, trace, pid, name)

        yield f"a function event of pid {pid}, {'with' if name else 'without'} a name, report", beyond(tool, make, tool.report, folder)


def rows_of_recording(tool: Tool, recording: Path, folder: Path) -> Iterator[tuple[str, float]]:
    name, idle = recording.name, folder / "idle.dat"
    yield f"{name}: report", counted(tool.program, [*tool.report, recording], folder)
    yield f"{name}: report --cpu 1023 (no event)", counted(tool.program, [*tool.report, "--cpu", "1023", recording], folder)
    yield f"{name}: split into one file", counted(tool.program, ["split", "-i", recording, "-o", "new"], folder)
    yield f"{name}: split -e 1", counted(tool.program, ["split", "-i", recording, "-o", "new", "-e", "1"], folder)
    yield f"{name}: split -e 500 -r", counted(tool.program, ["split", "-i", recording, "-o", "new", "-e", "500", "-r"], folder)
    yield f"{name}: split -m 100 -r", counted(tool.program, ["split", "-i", recording, "-o", "new", "-m", "100", "-r"], folder)
    for count in FORMATS:
        add_formats(recording, idle, count)
        yield f"{name}: report, of {count:,} formats and no event", counted(tool.program, [*tool.report, idle], folder)
    add_idle(recording, idle, 256)
    yield f"{name}: report, with idle processors up to 256", counted(tool.program, [*tool.report, idle], folder)


def rows_of_processors(tool: Tool, folder: Path) -> Iterator[tuple[str, float]]:
    """What a line and a split event take where function events are dealt out to many processors."""
    functions, trace = folder / "functions.dat", folder / "dealt.dat"
    one_kind(SAMPLE, functions, "function", 37_000)
    for cpus in (1, 4, 64, 256):
        for name, words in (("a line of report", tool.report), ("an event of split", ["split", "-o", "new", "-i"])):
            costs, events = [], []
            for pages in (256, 512):
                deal_to_processors(functions, trace, cpus, pages * 4096)
                costs.append(counted(tool.program, [*words, trace], folder))
                events.append(sum(map(len, read_plain_trace(trace).events())))
            yield f"{cpus} processors: {name}", (costs[1] - costs[0]) / (events[1] - events[0])


def main() -> None:
    parser = argparse.ArgumentParser(description=__doc__, formatter_class=argparse.RawDescriptionHelpFormatter)
    parser.add_argument("program", metavar="PROGRAM")
    parser.add_argument("recordings", nargs="*", type=Path, metavar="RECORDING")
    parser.add_argument("--original", action="store_true")
    given = parser.parse_args()
    tools = [Tool("trace_cmd", os.path.abspath(given.program), ["report"])]
    if given.original:
        tools.append(Tool("trace-cmd", shutil.which("trace-cmd") or sys.exit("trace-cmd is not installed"), ["report", "-N"]))
    if not shutil.which("valgrind"):
        sys.exit("valgrind is not installed")
    for tool in tools:
        with tempfile.TemporaryDirectory() as name:
            folder = Path(name)
            for recording in given.recordings or [SAMPLE]:
                for row, count in rows_of_recording(tool, recording.resolve(), folder):
                    print(f"{tool.name}: {row}: {count:,.0f}", flush=True)
            for rows in (rows_of_events, rows_of_tasks, rows_of_processors):
                for row, count in rows(tool, folder):
                    print(f"{tool.name}: {row}: {count:,.0f}", flush=True)


if __name__ == "__main__":
    main()
