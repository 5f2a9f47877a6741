#!/usr/bin/env python3
"""How long a report takes with two and with four workers, as ratios to one worker.

    scripts/bench/worker_times.py PROGRAM [TURNS]

Function events, made of samples/sched.dat, are dealt out to 2, 4, 16 and 64 processors, in sub-buffers of 4 KiB and of 64 KiB; and, as
`4 of 64`, to 4 neighbours of 64 processors, of which the others have one sub-buffer each (scripts/make_trace.py makes all of them).
PROGRAM reports each trace with 1, 2 and 4 workers in turn, TURNS times, 15 where none is given. Each line has the least time of one
worker, and the least times of the others divided by it. The machine should be idle, with four processors at least.
"""

from __future__ import annotations

import argparse
import os
import subprocess
import sys
import tempfile
import time
from pathlib import Path
from typing import Iterator

sys.path.insert(0, str(Path(__file__).resolve().parent.parent))

from make_trace import deal_to_processors, one_kind, repack  # noqa: E402
from tracefile import PAGE  # noqa: E402

SIZE = 16 << 20
EVENTS = 37_000
WORKERS = (1, 2, 4)
SAMPLE = Path(__file__).resolve().parent.parent.parent / "samples/sched.dat"


def traces(folder: Path) -> Iterator[tuple[str, Path]]:
    """Each trace with its name."""
    functions = folder / "functions.dat"
    one_kind(SAMPLE, functions, "function", EVENTS)
    for cpus in (2, 4, 16, 64):
        small, large = folder / f"{cpus}.dat", folder / f"{cpus}-large.dat"
        deal_to_processors(functions, small, cpus, SIZE)
        repack(small, large, 65_536, PAGE)
        yield f"{cpus}, 4 KiB", small
        yield f"{cpus}, 64 KiB", large
    few = folder / "few.dat"
    deal_to_processors(functions, few, 64, SIZE, busy=4)
    yield "4 of 64, 4 KiB", few


def seconds(program: str, trace: Path, workers: int) -> float:
    begun = time.monotonic()
    subprocess.run([program, "report", "--workers", str(workers), trace], stdout=subprocess.DEVNULL, check=True)
    return time.monotonic() - begun


def main() -> None:
    parser = argparse.ArgumentParser(description=__doc__, formatter_class=argparse.RawDescriptionHelpFormatter)
    parser.add_argument("program", metavar="PROGRAM")
    parser.add_argument("turns", nargs="?", type=int, default=15, metavar="TURNS")
    given = parser.parse_args()
    program = os.path.abspath(given.program)
    print(f"{'processors':16} {'1 worker':>10}" + "".join(f"{workers:>8}" for workers in WORKERS[1:]))
    with tempfile.TemporaryDirectory() as folder:
        for name, trace in traces(Path(folder)):
            runs = [[seconds(program, trace, workers) for workers in WORKERS] for _ in range(given.turns)]
            one, *others = (min(times) for times in zip(*runs))
            print(f"{name:16} {one:8.3f} s" + "".join(f"{other / one:8.2f}" for other in others), flush=True)


if __name__ == "__main__":
    main()
