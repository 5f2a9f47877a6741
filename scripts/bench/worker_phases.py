#!/usr/bin/env python3
"""Where the time of a report with workers goes.

    scripts/bench/worker_phases.py PROGRAM TRACE [TURNS]

PROGRAM reports TRACE with 1, 2 and 4 workers in turn, TURNS times, 9 where none is given, once with each new thread where the system
puts it and once with each on a processor of its own. A small library before pthread_create notes when each thread is asked for, begins
and ends, and how long its maker waits for it. A line has the least time of a report in milliseconds and, of that turn, the threads that
were started, how long one takes to begin (microseconds), the milliseconds in which several threads could work and those in which one
did alone, and the threads' processor time. It wants a C compiler (`cc`), and the machine should be idle, with four processors at least.
"""

from __future__ import annotations

import argparse
import os
import subprocess
import sys
import tempfile
import time
from pathlib import Path
from typing import Mapping, NamedTuple

sys.path.insert(0, str(Path(__file__).resolve().parent.parent))

from compiler import NoCompiler, compile_c  # noqa: E402

WORKERS = (1, 2, 4)


class Turn(NamedTuple):
    """A report's time, the threads that it started, how long one took to begin, and what they shared and used. In milliseconds, the
    beginning in microseconds."""

    took: float
    threads: float
    begins: float
    shared: float
    used: float


def turn(command: list[str], environment: Mapping[str, str], noted: Path) -> Turn:
    begun = time.monotonic()
    subprocess.run(command, stdout=subprocess.DEVNULL, env=environment, check=True)
    took = (time.monotonic() - begun) * 1e3
    return Turn(took, *map(float, noted.read_text().split()))


def least_turns(program: str, trace: str, turns: int, environment: Mapping[str, str], noted: Path) -> dict[int, Turn]:
    least: dict[int, Turn] = {}
    for _ in range(turns):
        for workers in WORKERS:
            found = turn([program, "report", "--workers", str(workers), "-i", trace], environment, noted)
            least[workers] = min(found, least.get(workers, found))
    return least


def main() -> None:
    parser = argparse.ArgumentParser(description=__doc__, formatter_class=argparse.RawDescriptionHelpFormatter)
    parser.add_argument("program", metavar="PROGRAM")
    parser.add_argument("trace", metavar="TRACE")
    parser.add_argument("turns", nargs="?", type=int, default=9, metavar="TURNS")
    given = parser.parse_args()
    with tempfile.TemporaryDirectory() as folder:
        library, noted = Path(folder, "phases.so"), Path(folder, "noted")
        try:
            compile_c(Path(__file__).with_name("phases.c"), library, "-shared", "-fPIC", "-ldl")
        except NoCompiler as error:
            sys.exit(f"no C compiler: {error}")
        print("workers           whole   threads   to begin   shared    alone   threads' own")
        for apart in ("", "1"):
            environment = {"LD_PRELOAD": str(library), "PHASES": str(noted), **({"APART": apart} if apart else {})}
            for workers, it in least_turns(os.path.abspath(given.program), given.trace, given.turns, environment, noted).items():
                name = f"{workers}{', each apart' if apart else ''}"
                print(f"{name:15} {it.took:7.1f} {it.threads:9.0f} {it.begins:10.0f} {it.shared:8.1f} {it.took - it.shared:8.1f} {it.used:14.1f}")


if __name__ == "__main__":
    main()
