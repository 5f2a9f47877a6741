"""Compares the calls of function graph recordings with what the original tool prints of them.

Each NAME.dat of DIRECTORY in which the original finds events of the function graph is reported by `PROGRAM report -t --calls` and
compared with two reports of the original.

`trace-cmd report -t -N` tells the bare events and losses. By these the lines that PROGRAM should write are told here once more, from the
definitions of the manual alone, and each line must be that one, byte for byte.

`trace-cmd report -t -O fgraph:tailprint=1` pairs entries and exits by itself. Its lines must be the bare events in their order, and in
each the function, the depth, the duration and whether it is a leaf must be PROGRAM's, but for differences of these kinds, which are
counted:

- apart: PROGRAM shows a leaf in one line, and the original its entry and its exit, since other events stand between them;
- alone: an exit whose entry was not recorded, or stands before a loss, has no duration here, and the one that its own fields tell there;
- lost: the original shows a leaf whose entry and exit have a loss between them, and PROGRAM an open call and an exit alone;
- digits: the original shows fewer than three digits after the point of a long duration;
- deep: PROGRAM indents a depth above 50 as 50, and the original on and on.

It ends with 0 where all is so, and else with 1.
"""

from __future__ import annotations

import argparse
import re
from collections import Counter, defaultdict
from dataclasses import dataclass
from itertools import zip_longest
from pathlib import Path
from typing import Match, Sequence

from comparisons.lines import LOSS, ORIGINAL, failure, recordings, run, tell

DETAILS = ""
PLACE = rb"^ *.{1,16}-(?P<pid>-?\d+) +\[(?P<cpu>\d{3,})\] +(?P<time>\d+\.\d{9}): funcgraph_(?P<way>entry|exit): *"
BARE = re.compile(PLACE + rb"(?:-->|<--) (?P<name>[^ ]+) \((?P<depth>\d+)\)(?: \(start: (?P<start>[0-9a-f]+)  end: (?P<end>[0-9a-f]+)\).*)?$")
TOLD = re.compile(PLACE + rb"(?:[^0-9 ]? *(?P<took>\d+(?:\.\d+)?) us)? *\|  (?P<indent>(?:  )*)(?P<what>.*)$")
WHAT = re.compile(rb"^(?:(?P<leaf>[^ ]+)\(\);|(?P<entry>[^ ]+)\(\) \{|\} /\* (?P<exit>.*) \*/)$")
DEEPEST = 50


def arguments(parser: argparse.ArgumentParser) -> None:
    parser.add_argument("directory", type=Path, metavar="DIRECTORY")


@dataclass(eq=False)
class Call:
    """An entry or an exit as it was recorded, and what the definitions make of it. Times are in nanoseconds."""

    columns: bytes
    enters: bool
    name: bytes
    depth: int
    thread: tuple[int, bytes | None]
    time: int
    own: int | None
    """The duration that an exit's own fields tell."""
    losses: int
    """How many losses stand before it."""
    took: int | None = None
    paired: bool = False
    leaf: bool = False

    @classmethod
    def of(cls, line: Match[bytes], losses: int) -> Call:
        pid = int(line["pid"])
        return cls(
            columns=line[0][: line.end("time")],
            enters=line["way"] == b"entry",
            name=line["name"],
            depth=int(line["depth"]),
            thread=(pid, line["cpu"] if pid == 0 else None),
            time=int(line["time"].replace(b".", b"")),
            own=int(line["end"], 16) - int(line["start"], 16) if line["start"] else None,
            losses=losses,
        )

    def duration(self) -> bytes | None:
        return None if self.took is None else b"%d.%03d" % divmod(self.took, 1000)

    def lines(self) -> list[bytes]:
        """The line that PROGRAM should write; none for the exit of a leaf."""
        if self.leaf and not self.enters:
            return []
        if self.enters:
            what = self.name + (b"();" if self.leaf else b"() {")
        else:
            what = b"}" if self.paired else b"} /* %s */" % self.name
        took = b" " * 12 if self.took is None else b"%9s us" % self.duration()
        return [b"%s: %s | %s%s" % (self.columns, took, b"  " * min(self.depth, DEEPEST), what)]


def pair(entry: Call, exit: Call, last: Call) -> None:
    """Tells a call's entry and exit of each other; `last` is the event of their thread before the exit."""
    exit.took = max(exit.time - entry.time if exit.own is None else exit.own, 0)
    exit.paired = entry.paired = True
    if last is entry:
        entry.leaf, entry.took, exit.leaf = True, exit.took, True


def defined(report: bytes) -> tuple[list[Call], list[bytes]]:
    """The entries and exits of a report, and the lines that PROGRAM should write of them and of the losses."""
    told: list[Call | bytes] = []
    opens: defaultdict[tuple[int, bytes | None], list[Call]] = defaultdict(list)
    last: dict[tuple[int, bytes | None], Call] = {}
    losses = 0
    for line in report.split(b"\n"):
        if LOSS.match(line):
            losses += 1
            told.append(line)
            opens.clear()
        found = BARE.match(line)
        if not found:
            continue
        call, ended = Call.of(found, losses), None
        stack = opens[call.thread]
        while stack and stack[-1].depth >= call.depth:
            ended = stack.pop()
        if call.enters:
            stack.append(call)
        elif ended and (ended.depth, ended.name) == (call.depth, call.name):
            pair(ended, call, last[call.thread])
        last[call.thread] = call
        told.append(call)
    calls = [it for it in told if isinstance(it, Call)]
    return calls, [line for it in told for line in (it.lines() if isinstance(it, Call) else [it])]


class Pairing:
    """The original's own lines, beside the entries and exits."""

    def __init__(self, calls: Sequence[Call]):
        self.calls, self.next, self.same = calls, 0, 0
        self.kinds = Counter[str]()
        self.others: list[tuple[bytes, object]] = []

    def following(self) -> Call | None:
        found = self.calls[self.next] if self.next < len(self.calls) else None
        self.next += 1
        return found

    def differs(self, line: Match[bytes], call: Call | None) -> None:
        self.others.append((line[0], call and call.lines()))

    def take(self, line: Match[bytes], name: bytes, enters: bool) -> Call | None:
        """The next entry or exit, where it is the line's."""
        call = self.following()
        columns, depth = line[0][: line.end("time")], len(line["indent"]) // 2
        if not call or (call.columns, call.enters, call.name, call.depth) != (columns, enters, name, depth):
            self.differs(line, call)
            return None
        self.kinds["deep"] += depth > DEEPEST
        return call

    def durations(self, line: Match[bytes], call: Call) -> None:
        if call.duration() == line["took"]:
            self.same += 1
        elif line["took"] and (call.duration() or b"").startswith(line["took"]):
            self.kinds["digits"] += 1
        else:
            self.differs(line, call)

    def leaf(self, line: Match[bytes], call: Call | None) -> None:
        """A leaf takes its exit too, which is the next event whatever it is."""
        exit = self.following()
        if call and call.leaf:
            self.durations(line, call)
        elif call and exit and not exit.paired and exit.losses > call.losses and exit.name == call.name:
            self.kinds["lost"] += 1
        else:
            self.differs(line, call)

    def exit(self, line: Match[bytes], call: Call | None) -> None:
        if call and not call.paired:
            self.kinds["alone"] += 1
        elif call:
            self.durations(line, call)

    def see(self, line: Match[bytes]) -> None:
        what = WHAT.match(line["what"])
        if not what or not what.lastgroup:
            self.differs(line, None)
            return
        call = self.take(line, what[what.lastgroup], what.lastgroup != "exit")
        if what["leaf"]:
            self.leaf(line, call)
        elif what["exit"]:
            self.exit(line, call)
        elif call and call.leaf:
            self.kinds["apart"] += 1
        elif call:
            self.same += 1


def pairing(calls: Sequence[Call], report: bytes) -> Pairing:
    found = Pairing(calls)
    for line in map(TOLD.match, report.split(b"\n")):
        if line:
            found.see(line)
    if found.next != len(calls):
        found.others.append((b"%d events" % found.next, b"%d events" % len(calls)))
    return found


def compare_one(program: str, recording: Path) -> tuple[bool, list[str]]:
    """Whether a recording is as it should be, and what is to be said of it; nothing of one without a function graph."""
    calls, wanted = defined(run(ORIGINAL, "report", "-t", "-N", recording).stdout)
    if not calls:
        return True, []
    ran = run(program, "report", "-t", "--calls", recording)
    if ran.returncode != 0:
        return False, [failure(ran)]
    lines = ran.stdout.splitlines()[1:]
    wrong = [both for both in zip_longest(lines, wanted) if both[0] != both[1]]
    found = pairing(calls, run(ORIGINAL, "report", "-t", "-O", "fgraph:tailprint=1", recording).stdout)
    told = [f"{len(lines)} lines, {len(lines) - len(wrong)} as the definitions tell them of the bare events"]
    told += [f"    ours    {ours!r}\n    defined {its!r}" for ours, its in wrong[:5]]
    told += [f"    {len(calls)} entries and exits, {found.same} lines of the original agree whole"]
    told += [f"    {count:6} {name}" for name, count in sorted(found.kinds.items()) if count]
    told += [f"    original {their!r}\n    ours     {our!r}" for their, our in found.others[:5]]
    if found.others:
        told.append(f"    {len(found.others)} differ in no known way")
    return not found.others and not wrong, told


def compare(program: str, directory: Path) -> bool:
    good = True
    for recording in recordings(directory):
        agrees, told = compare_one(program, recording)
        good = agrees and good
        if told:
            tell(recording.name, told)
    return good
