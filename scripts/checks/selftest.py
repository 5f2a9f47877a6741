#!/usr/bin/env python3
"""The line that `trace_cmd selftest SEED EVENTS` is to print, computed without the program.

    scripts/checks/selftest.py SEED EVENTS [--report]

No file is made: the events are drawn, put in order, and printed as the report prints them. With --report that report itself is written.
"""

from __future__ import annotations

import argparse
import subprocess
import sys
from itertools import cycle
from typing import Iterator, NamedTuple

MASK = 2**64 - 1
CPUS = 4
NAMES = ((1, "A"), (2, "B"), (4, "C"))
ROWS = [(7, 0), (7, 1), (0, 1000), (1, 999), (2**64 - 1, 5000), (7, 200_000)]
WORKERS: list[list[str]] = [[], ["--workers", "3"]]


class Drawn(NamedTuple):
    cpu: int
    time: int
    pid: int
    value: int


def numbers(seed: int) -> Iterator[int]:
    state = seed
    while True:
        state = (state * 6364136223846793005 + 1442695040888963407) & MASK
        yield state >> 33


def drawn(seed: int, count: int) -> Iterator[Drawn]:
    """The events in the order in which they are drawn."""
    draws, times = numbers(seed), [1_000_000_000] * CPUS
    for number in range(count):
        cpu, step = next(draws) % CPUS, next(draws) % 5000
        pid, value = next(draws) % 100, next(draws)
        times[cpu] += 2**28 if number % 1000 == 999 else step
        yield Drawn(cpu, times[cpu], pid, value)


def line(event: Drawn) -> str:
    task = "<idle>" if event.pid == 0 else f"task-{event.pid}"
    seconds, micros = divmod((event.time + 500) // 1000, 1_000_000)
    mask = "|".join(name for bit, name in NAMES if event.value & bit)
    return f"{task:>16}-{event.pid:<5} [{event.cpu:03}] {seconds:5}.{micros:06}: {'step:':<22}value={event.value} mask={mask}\n"


def report(seed: int, count: int) -> bytes:
    """The report's bytes. Of equal times the lower processor comes first, and its events in their order."""
    events = sorted(drawn(seed, count), key=lambda event: (event.time, event.cpu))
    return (f"cpus={CPUS}\n" + "".join(map(line, events))).encode()


def summary(seed: int, count: int) -> str:
    text = report(seed, count)
    total = sum(byte * weight for byte, weight in zip(text, cycle(range(1, 1001))))
    return f"selftest seed={seed} events={count} lines={text.count(10)} bytes={len(text)} sum={total}\n"


def check(program: str) -> bool:
    good = True
    for seed, count in ROWS:
        wanted = (0, summary(seed, count), "")
        for workers in WORKERS:
            words = ["selftest", str(seed), str(count), *workers]
            ran = subprocess.run([program, *words], capture_output=True, text=True, timeout=100)
            if (ran.returncode, ran.stdout, ran.stderr) != wanted:
                good = False
                print(f"WRONG: {' '.join(words)}: status {ran.returncode}, {ran.stdout!r}, {ran.stderr!r}, not {wanted[1]!r}")
    if good:
        print(f"{len(ROWS) * len(WORKERS)} self-tests, each line as it is computed without the program")
    return good


def main() -> None:
    parser = argparse.ArgumentParser(description=__doc__, formatter_class=argparse.RawDescriptionHelpFormatter)
    parser.add_argument("seed", type=int, metavar="SEED")
    parser.add_argument("count", type=int, metavar="EVENTS")
    parser.add_argument("--report", action="store_true")
    options = parser.parse_args()
    if options.report:
        sys.stdout.buffer.write(report(options.seed, options.count))
    else:
        print(summary(options.seed, options.count), end="")


if __name__ == "__main__":
    main()
