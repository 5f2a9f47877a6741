"""Runs PROGRAM under limits of its address space, which no test inside a process can set.

A trace of 1,024 processors, with sub-buffers of 4 KiB and an event on each, is made in a temporary folder. A report of it holds a
sub-buffer and a region of lines a processor, some 90 MB:

- under 110,000 KiB, and 9,000 more a thread, it is whole, and the same on 1, 3 and 64 threads;
- under 60,000 KiB there is no memory for it: status 6, its one message, and nothing on the output. A report reserves all memory before
  its first line, though it touches a region only once a line comes.

A long trace of one processor, 40 MB, is reported whole under 20,000 KiB: what a report holds does not depend on its length.

A short trace of 256 processors, of which one has all events, is reported whole under 16,000 KiB: processors without data cost nothing.
"""

from __future__ import annotations

import resource
import subprocess
import tempfile
from pathlib import Path
from typing import Iterator, NamedTuple, Sequence

from tracefile import header, payload, record, sub_buffer, write_trace

WIDE, LONG, EVENTS = 1024, 10_000, 340
IDLE, BUSY = 256, 200
NO_FORMAT = 58


class Ended(NamedTuple):
    status: int
    out: bytes
    err: bytes


def run(program: str, words: Sequence[str | Path], kibibytes: int) -> Ended:
    def limit() -> None:
        resource.setrlimit(resource.RLIMIT_AS, (kibibytes * 1024, kibibytes * 1024))

    ran = subprocess.run([program, *words], stdin=subprocess.DEVNULL, capture_output=True, preexec_fn=limit, timeout=100)
    return Ended(ran.returncode, ran.stdout, ran.stderr)


def line(pid: int, cpu: int, time: int) -> bytes:
    seconds, rest = divmod(time, 10**9)
    return b"           <...>-%-5d [%03d] %5d.%09d: [UNKNOWN EVENT %d]\n" % (pid, cpu, seconds, rest, NO_FORMAT)


def wide_trace(file: Path) -> bytes:
    """A trace of many processors; its report with nanoseconds."""
    write_trace(file, header(), [sub_buffer(5000 - cpu, record(payload(NO_FORMAT, cpu + 1))) for cpu in range(WIDE)])
    return b"cpus=%d\n" % WIDE + b"".join(line(cpu + 1, cpu, 5000 - cpu) for cpu in reversed(range(WIDE)))


def long_trace(file: Path) -> bytes:
    """A trace of one processor with many sub-buffers; its report with nanoseconds."""
    events = record(payload(NO_FORMAT, 1)) * EVENTS
    write_trace(file, header(), [b"".join(sub_buffer(1000 * at, events) for at in range(LONG))])
    return b"cpus=1\n" + b"".join(line(1, 0, 1000 * at) * EVENTS for at in range(LONG))


def idle_trace(file: Path) -> bytes:
    """A trace of many processors without data but for one; its report with nanoseconds."""
    data = [b""] * IDLE
    data[BUSY] = sub_buffer(1000, record(payload(NO_FORMAT, 1)) * EVENTS)
    write_trace(file, header(), data)
    return b"cpus=%d\n" % IDLE + line(1, BUSY, 1000) * EVENTS


def faults(program: str, room: Path) -> Iterator[str]:
    wide, long, idle = room / "wide.dat", room / "long.dat", room / "idle.dat"
    report = wide_trace(wide)
    for workers in (1, 3, 64):
        found = run(program, ["report", "-t", "--workers", str(workers), wide], 110_000 + 9_000 * workers)
        if found != (0, report, b""):
            yield f"{WIDE} processors on {workers} threads: status {found.status}, {len(found.out)} bytes, {found.err!r}"
    found = run(program, ["report", "-t", wide], 60_000)
    if found != (6, b"", b"trace-cmd: out of memory\n"):
        yield f"{WIDE} processors without room: status {found.status}, {len(found.out)} bytes, {found.err!r}"
    report = long_trace(long)
    found = run(program, ["report", "-t", long], 20_000)
    if found != (0, report, b""):
        yield f"a long trace: status {found.status}, {len(found.out)} bytes, {found.err!r}"
    report = idle_trace(idle)
    found = run(program, ["report", "-t", idle], 16_000)
    if found != (0, report, b""):
        yield f"{IDLE} processors of which one has events: status {found.status}, {len(found.out)} bytes, {found.err!r}"


def check(program: str) -> bool:
    with tempfile.TemporaryDirectory() as room:
        wrong = list(faults(program, Path(room)))
    for it in wrong:
        print(f"WRONG: {it}")
    if not wrong:
        print("6 reports under limits of memory, each as it must be")
    return not wrong
