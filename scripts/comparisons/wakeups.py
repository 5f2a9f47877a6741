"""Compares the latencies of real recordings with those that the original tool prints at its switches.

DIRECTORY has recordings NAME.dat. `trace-cmd report -N -w -t` prints a latency after the text of a switch. For each recording every
pair that PROGRAM prints is compared with the original's switch at its processor and time: the task must be the switch's, and the
latency the original's, but for differences of these kinds, each of which is checked by the events that the original prints:

- again: the task was woken again before the switch. The original counts from the last wake-up, PROGRAM from the first;
- loss: events were lost in between. The original pairs all the same, PROGRAM not, or from a wake-up after the loss.

Pairs must stand in the order of the switches, and the number of pairs, the average, the maximum and the minimum must be those of the
pairs. It ends with 0 where all agree but for these kinds, and else with 1.
"""

from __future__ import annotations

import argparse
import re
from collections import Counter
from dataclasses import dataclass
from itertools import zip_longest
from pathlib import Path
from typing import NamedTuple

from comparisons.lines import EVENT, LOSS, ORIGINAL, failure, recordings, run, tell

DETAILS = ""
PAIR = re.compile(rb"^ *.{1,16}-(?P<pid>-?\d+) +\[(?P<cpu>\d{3,})\] +(?P<time>\d+\.\d{9}): latency (?P<latency>\d+\.\d{3}) us$", re.S)
LATENCY = re.compile(rb" Latency: (\d+\.\d{3}) usecs$")
FIGURE = re.compile(rb"^(average|maximum|minimum) (\d+\.\d{3}) us(?: at (\d+\.\d{9}))?$")
WAKEUPS, SWITCH = (b"sched_wakeup:", b"sched_wakeup_new:"), b"sched_switch:"


class Pair(NamedTuple):
    """A switch to a woken task; times and latencies are in nanoseconds."""

    cpu: bytes
    time: int
    task: int
    latency: int


class Figure(NamedTuple):
    """One of the last lines of a section."""

    name: bytes
    value: int
    time: int | None


@dataclass
class Switch:
    """A switch of the original's: where it is, its task, the latency that it prints, and the two that are expected."""

    cpu: bytes
    time: int
    task: int
    latency: int | None
    ours: int | None
    theirs: int | None
    lost: bool

    def pair(self) -> list[Pair]:
        return [] if self.ours is None else [Pair(self.cpu, self.time, self.task, self.ours)]


def arguments(parser: argparse.ArgumentParser) -> None:
    parser.add_argument("directory", type=Path, metavar="DIRECTORY")


def thousandths(number: bytes) -> int:
    return int(number.replace(b".", b""))


def field(name: bytes, text: bytes) -> int:
    found = re.search(rb"(?:^|[ ])" + name + rb"=(-?\d+)", text)
    assert found, text
    return int(found[1])


def switches(report: bytes) -> list[Switch]:
    """The switches of the original's report, with what its wake-ups and losses make of them."""
    found: list[Switch] = []
    first: dict[int, int] = {}
    last: dict[int, int] = {}
    before_loss: set[int] = set()
    for line in report.split(b"\n"):
        if LOSS.match(line):
            before_loss |= set(last)
            first = {}
        latency = LATENCY.search(line)
        event = EVENT.match(line[: latency.start()] if latency else line)
        if event and event["event"] in WAKEUPS:
            task, time = field(b"pid", event["text"]), thousandths(event["time"])
            first.setdefault(task, time)
            last[task] = time
        elif event and event["event"] == SWITCH:
            task, time = field(b"next_pid", event["text"]), thousandths(event["time"])
            ours, theirs = (None if woken is None else max(time - woken, 0) for woken in (first.pop(task, None), last.pop(task, None)))
            told = thousandths(latency[1]) if latency else None
            found.append(Switch(event["cpu"], time, task, told, ours, theirs, task in before_loss))
            before_loss.discard(task)
    return found


def figures(pairs: list[Pair]) -> list[Figure]:
    """The last lines of a section with these pairs."""
    if not pairs:
        return []
    waits = [pair.latency for pair in pairs]
    extremes = [(name, of(waits)) for name, of in ((b"maximum", max), (b"minimum", min))]
    at = [Figure(name, wait, next(pair.time for pair in pairs if pair.latency == wait)) for name, wait in extremes]
    return [Figure(b"average", sum(waits) // len(waits), None), *at]


def section(report: bytes) -> tuple[int, list[Pair], list[Figure]]:
    """The number that a section tells, its pairs and its last lines."""
    head, *lines = report[report.rindex(b"\nwakeups=") + 1 :].rstrip(b"\n").split(b"\n")
    pairs, ends = [], []
    for line in lines:
        if pair := PAIR.match(line):
            pairs.append(Pair(pair["cpu"], thousandths(pair["time"]), int(pair["pid"]), thousandths(pair["latency"])))
        elif figure := FIGURE.match(line):
            ends.append(Figure(figure[1], thousandths(figure[2]), thousandths(figure[3]) if figure[3] else None))
        else:
            ends.append(Figure(line, 0, None))
    return int(head.split(b"=")[1]), pairs, ends


def compare_one(program: str, recording: Path) -> tuple[bool, list[str]]:
    ran = run(program, "report", "-w", "-t", recording)
    if ran.returncode != 0:
        return False, [failure(ran)]
    if b"\nwakeups=" not in ran.stdout:
        return b": sched_" not in ran.stdout, ["no section"]
    theirs = switches(run(ORIGINAL, "report", "-N", "-w", "-t", recording).stdout)
    count, pairs, ends = section(ran.stdout)
    wanted = [pair for switch in theirs for pair in switch.pair()]
    kinds = Counter("loss" if it.lost else "again" for it in theirs if it.latency == it.theirs != it.ours)
    others = [
        f"the original at {it.time} of processor {it.cpu.decode()}: {it.latency}, expected {it.theirs}" for it in theirs if it.latency != it.theirs
    ]
    others += [f"ours {pair}, wanted {want}" for pair, want in zip_longest(pairs, wanted) if pair != want]
    if count != len(pairs):
        others.append(f"{count} told, {len(pairs)} pairs")
    if ends != figures(pairs):
        others.append(f"figures {ends}, of the pairs {figures(pairs)}")
    same, original = sum(it.ours is not None and it.ours == it.latency for it in theirs), sum(it.latency is not None for it in theirs)
    told = [f"{len(pairs)} pairs, {original} of the original, {same} alike"]
    told += [f"    {number:6} {kind}" for kind, number in sorted(kinds.items())]
    return not others, told + [f"    {other}" for other in others[:5]]


def compare(program: str, directory: Path) -> bool:
    good = True
    for recording in recordings(directory):
        agrees, told = compare_one(program, recording)
        good = agrees and good
        tell(recording.name, told)
    return good
