"""Lines of reports, and how two of them may differ: what the comparisons share."""

from __future__ import annotations

import os
import re
import subprocess
from collections import Counter
from itertools import zip_longest
from pathlib import Path
from typing import Hashable, Iterable, Iterator, Sequence

ORIGINAL = "trace-cmd"
EVENT = re.compile(
    rb"^ *(?P<task>.{1,16})-(?P<pid>-?\d+) +\[(?P<cpu>\d{3,})\] +(?P<time>\d+\.\d{6}(?:\d{3})?): (?P<event>[^:]*:)? *(?P<text>.*)$", re.S
)
LOSS = re.compile(rb"^CPU:\d+ \[(?:\d+ )?EVENTS DROPPED\]$")
FLAGS = re.compile(rb" flags=[MDPI|]*$")
UNKNOWN = re.compile(rb"^\[UNKNOWN EVENT \d+\]$")
UNREAD = b"[FAILED TO PARSE]"

KINDS = """Kinds of difference, each counted under its event:

- bprint: the original expands the binary arguments of trace_printk, and PROGRAM shows the format text;
- unread: PROGRAM says `[FAILED TO PARSE]`, for a print fmt with enum constants, variables or a conversion that is not read;
- brackets: the original reads `A & (B | C)` in a print fmt as `A & B | C`, and so shows flags of `timer_start` that are not set;
- null: the original prints `(nil)` for the address 0, and PROGRAM `0x0`;
- escape: the original resolves the `\\n` that a stored printk format ends in, and PROGRAM shows it as it is stored;
- digit: the event's name begins with a digit, so it is no identifier, and PROGRAM says `[UNKNOWN EVENT id]`;
- maple: the original says `[FAILED TO PARSE]` of an event of maple trees (`ma_*`), whose print fmt PROGRAM reads;
- address: the original shows the bytes of the address of a text in a big-endian `rcu_utilization`, and PROGRAM the text.
"""


def run(*words: object) -> subprocess.CompletedProcess[bytes]:
    return subprocess.run([str(word) for word in words], capture_output=True, env={**os.environ, "LC_ALL": "C"})


def failure(ran: subprocess.CompletedProcess[bytes]) -> str:
    return f"status {ran.returncode}: {ran.stderr.decode(errors='replace').strip()}"


def recordings(directory: Path) -> list[Path]:
    return sorted(directory.glob("*.dat"))


def is_latency(program: str, recording: Path) -> bool:
    return run(program, "dump", "--flyrecord", recording).stdout.startswith(b"[latency]")


def plain_report(recording: Path) -> bytes:
    """What the original prints of a recording without plugins, as NAME.report-N.txt beside it has it, or else as it prints it now."""
    kept = recording.with_name(recording.stem + ".report-N.txt")
    return kept.read_bytes() if kept.exists() else run(ORIGINAL, "report", "-N", recording).stdout


def items(report: bytes) -> list[bytes]:
    """The lines, each text that holds newlines as one with the lines that it goes on in."""
    found: list[bytes] = []
    for line in report.split(b"\n"):
        if found and not EVENT.match(line) and not LOSS.match(line) and not line.startswith(b"cpus="):
            found[-1] += b"\n" + line
        else:
            found.append(line)
    return [item.rstrip(b"\n") for item in found]


def kind(ours: bytes, theirs: bytes) -> str | None:
    """The event and the kind of a difference, or none where it is of no known kind."""
    our, their = EVENT.match(ours), EVENT.match(theirs)
    if not our or not their or any(our[part] != their[part] for part in ("task", "pid", "cpu", "time")):
        return None
    name, our_text, their_text = their["event"] or b"", our["text"], their["text"]
    event = name.decode(errors="replace")
    if our["event"] is None and name[:1].isdigit() and UNKNOWN.match(our_text):
        return f"{event} digit"
    if our["event"] != their["event"]:
        return None
    known = {
        "bprint": name == b"bprint:",
        "unread": our_text.startswith(UNREAD),
        "brackets": name == b"timer_start:" and FLAGS.sub(b"", our_text) == FLAGS.sub(b"", their_text),
        "null": our_text.replace(b"0x0", b"(nil)") == their_text,
        "escape": our_text.replace(b"\\n", b"") == their_text,
        "maple": name.startswith(b"ma_") and their_text.startswith(UNREAD),
        "address": name == b"rcu_utilization:" and re.fullmatch(rb"[0-9a-f]+", their_text) is not None,
    }
    return next((f"{event} {it}" for it, holds in known.items() if holds), None)


class Differences:
    """Lines beside each other: how many are the same, how many differ in each known way, and which differ in no known way."""

    def __init__(self) -> None:
        self.same, self.kinds = 0, Counter[str]()
        self.others: list[tuple[Hashable, object, object]] = []

    def see(self, place: Hashable, ours: object, theirs: object, known: str | None = None) -> None:
        if ours == theirs:
            self.same += 1
        elif known:
            self.kinds[known] += 1
        else:
            self.others.append((place, ours, theirs))

    def told(self) -> Iterator[str]:
        for name, count in sorted(self.kinds.items()):
            yield f"    {count:6} {name}"
        for place, ours, theirs in self.others[:5]:
            yield f"    {place}:\n      ours   {ours!r}\n      theirs {theirs!r}"
        if self.others:
            yield f"    {len(self.others)} differ in no known way"


def differences(ours: Sequence[bytes], theirs: Sequence[bytes]) -> Differences:
    """Two reports' items beside each other; what one has too many is a difference."""
    found = Differences()
    for number, (our, their) in enumerate(zip_longest(ours, theirs)):
        found.see(f"item {number}", our, their, kind(our, their) if our and their else None)
    return found


def tell(title: str, lines: Iterable[str]) -> None:
    print(f"{title}: " + "\n".join(lines), flush=True)
