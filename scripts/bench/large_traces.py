#!/usr/bin/env python3
"""How long a report and a split of a large trace take beside the original trace-cmd, by the clock.

    scripts/bench/large_traces.py PROGRAM [TURNS]

54 MB of function events, made of samples/sched.dat, are dealt out to 4, 64 and 256 processors. The trace and the new files stand in
/dev/shm. PROGRAM and the original (`report -N`) run in turn, TURNS times (6 where none is given) for PROGRAM, and for the original
a third as often for a report and two thirds for a split, since it takes so much longer. Each line has the least times, and how many
times as long the original took. The machine should be idle. `apt-get install trace-cmd` brings the original.
"""

from __future__ import annotations

import argparse
import os
import shutil
import subprocess
import sys
import tempfile
import time
from pathlib import Path
from typing import Sequence

sys.path.insert(0, str(Path(__file__).resolve().parent.parent))

from make_trace import deal_to_processors, one_kind  # noqa: E402

SIZE, EVENTS, PROCESSORS = 54 << 20, 37_000, (4, 64, 256)
SAMPLE = Path(__file__).resolve().parent.parent.parent / "samples/sched.dat"


def seconds(words: Sequence[object]) -> float:
    command = [str(word) for word in words]
    begun = time.monotonic()
    ran = subprocess.run(command, stdin=subprocess.DEVNULL, stdout=subprocess.DEVNULL, stderr=subprocess.DEVNULL)
    took = time.monotonic() - begun
    if ran.returncode:
        sys.exit(f"{' '.join(command)}: it ended with status {ran.returncode}")
    return took


def least(ours: Sequence[object], theirs: Sequence[object], turns: int, their_turns: int) -> tuple[float, float]:
    """The least times of both, which run in turn as long as both have turns left."""
    times: tuple[list[float], list[float]] = ([], [])
    for turn in range(turns):
        times[0].append(seconds(ours))
        if turn < their_turns:
            times[1].append(seconds(theirs))
    return min(times[0]), min(times[1])


def main() -> None:
    parser = argparse.ArgumentParser(description=__doc__, formatter_class=argparse.RawDescriptionHelpFormatter)
    parser.add_argument("program", metavar="PROGRAM")
    parser.add_argument("turns", nargs="?", type=int, default=6, metavar="TURNS")
    given = parser.parse_args()
    program, turns = os.path.abspath(given.program), given.turns
    original = shutil.which("trace-cmd") or sys.exit("trace-cmd is not installed")
    print(f"{'processors':10} {'':6} {'ours':>9} {'original':>10} {'ratio':>7}")
    with tempfile.TemporaryDirectory(dir="/dev/shm") as name:
        functions, trace, new = (Path(name) / it for it in ("functions.dat", "trace.dat", "new"))
        one_kind(SAMPLE, functions, "function", EVENTS)
        for processors in PROCESSORS:
            deal_to_processors(functions, trace, processors, SIZE)
            runs = (
                ("report", [program, "report", trace], [original, "report", "-N", trace], max(1, turns // 3)),
                ("split", [program, "split", "-i", trace, "-o", new], [original, "split", "-i", trace, "-o", new], max(1, turns * 2 // 3)),
            )
            for what, ours, theirs, their_turns in runs:
                mine, other = least(ours, theirs, turns, their_turns)
                print(f"{processors:10} {what:6} {mine:7.3f} s {other:8.3f} s {other / mine:7.1f}", flush=True)


if __name__ == "__main__":
    main()
