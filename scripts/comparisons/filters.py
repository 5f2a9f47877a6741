"""Compares filtered reports of real recordings with the lines that the original tool prints.

DIRECTORY is that of `reports`. For each recording of events and each row of FILTERS the lines of `PROGRAM report OPTIONS` must be those
of the original's whole report whose event the row's test takes, and all lines of losses. Texts may differ in the ways that `reports`
knows. It ends with 0 where all agree, and else with 1.
"""

from __future__ import annotations

import argparse
import re
from pathlib import Path
from typing import Callable, Match

from comparisons.lines import EVENT, differences, is_latency, items, plain_report, recordings, run

DETAILS = ""
Test = Callable[[Match[bytes]], bool]


def arguments(parser: argparse.ArgumentParser) -> None:
    parser.add_argument("directory", type=Path, metavar="DIRECTORY")


def named(*names: str) -> Test:
    """Events of these names."""
    return lambda event: event["event"] in [name.encode() + b":" for name in names]


def field(name: str, value: str) -> Test:
    """Events whose text has a field of this name with this value."""
    wanted = re.compile(rb"(^|[ ])" + name.encode() + b"=" + value.encode() + rb"($|[ ])")
    return lambda event: wanted.search(event["text"]) is not None


def both(*tests: Test) -> Test:
    return lambda event: all(test(event) for test in tests)


def either(*tests: Test) -> Test:
    return lambda event: any(test(event) for test in tests)


def other(test: Test) -> Test:
    return lambda event: not test(event)


def column(name: str, value: bytes) -> Test:
    return lambda event: event[name].strip() == value


SWITCH = named("sched_switch")
SCHED: Test = lambda event: (event["event"] or b"").startswith(b"sched_")
FILTERS: list[tuple[list[str], Test]] = [
    (["-F", "sched_switch"], SWITCH),
    (["-F", "sched/sched_switch"], SWITCH),
    (["-F", "ftrace/sched_switch"], lambda event: False),
    (["-F", "sched_switch:next_pid == 0"], both(SWITCH, field("next_pid", "0"))),
    (["-F", "sched_switch:prev_pid == 15 || next_pid == 15"], both(SWITCH, either(field("prev_pid", "15"), field("next_pid", "15")))),
    (["-F", "sched_switch:next_comm == 'rcu_preempt'"], both(SWITCH, field("next_comm", "rcu_preempt"))),
    (["-F", "sched_switch:CPU == 1"], both(SWITCH, column("cpu", b"001"))),
    (["-F", 'sched:COMM == "sh"'], both(SCHED, column("task", b"sh"))),
    (["-F", "sched:common_pid == 0"], both(SCHED, column("pid", b"0"))),
    (["-v", "-F", "sched_switch"], other(SWITCH)),
    (["-v", "-F", "sched_switch:next_pid == 0"], other(both(SWITCH, field("next_pid", "0")))),
    (["-F", "sched", "-v", "-F", "sched_waking,sched_wakeup"], both(SCHED, other(named("sched_waking", "sched_wakeup")))),
]


def compare_one(program: str, recording: Path, options: list[str], test: Test) -> bool:
    theirs = [line for line in items(plain_report(recording)) if not (event := EVENT.match(line)) or test(event)]
    ran = run(program, "report", *options, recording)
    ours = items(ran.stdout)
    same = ran.returncode == 0 and not differences(ours, theirs).others
    print(f"{recording.name}: {' '.join(options)}: {len(ours)} items, {'agree' if same else 'DIFFER'}", flush=True)
    return same


def compare(program: str, directory: Path) -> bool:
    chosen = [path for path in recordings(directory) if not is_latency(program, path)]
    return all([compare_one(program, path, *row) for path in chosen for row in FILTERS])
