"""Runs PROGRAM with each of its allocations refused in turn, and tells what was not answered as it must be.

A small library stands between the program and malloc. Where an allocation is refused a run must end as it does without that; or with
status 6, its one message, nothing on the output and no new file; or, where it was the folder that asked for the memory, with status 4 or
5, the first few bytes of the output, and whole new files alone. It is told how many allocations each command makes and how the runs ended.
"""

from __future__ import annotations

import os
import struct
import subprocess
import tempfile
from collections import Counter
from pathlib import Path
from typing import NamedTuple, Sequence

from checks import Skipped
from compiler import NoCompiler, compile_c
from tracefile import FLYRECORD, header, options, payload, record, sub_buffer, trace_file

LINES = [
    ["report"],
    ["report", "--workers", "3"],
    ["report", "-F", 'sched:COMM=="bash"'],
    ["report", "-R"],
    ["report", "-l"],
    ["report", "-E"],
    ["report", "-f"],
    ["report", "-w", "woken.dat"],
    ["report", "--calls", "called.dat"],
    ["report", "-i", "trace.dat", "-i", "woken.dat"],
    ["split", "-o", "p"],
    ["split", "-e", "1", "-r", "-o", "p"],
    ["dump"],
    ["dump", "--all"],
    ["restore", "-i", "trace.dat", "-o", "out.dat", "cpu0", "cpu1"],
    ["selftest", "7", "10"],
]

FUNCTION = b"""name: function
ID: 1
format:
\tfield:unsigned short common_type;\toffset:0;\tsize:2;\tsigned:0;
\tfield:unsigned char common_flags;\toffset:2;\tsize:1;\tsigned:0;
\tfield:unsigned char common_preempt_count;\toffset:3;\tsize:1;\tsigned:0;
\tfield:int common_pid;\toffset:4;\tsize:4;\tsigned:1;

\tfield:unsigned long ip;\toffset:8;\tsize:8;\tsigned:0;
\tfield:unsigned long parent_ip;\toffset:16;\tsize:8;\tsigned:0;

print fmt: " %ps <-- %ps", (void *)REC->ip, (void *)REC->parent_ip
"""

WAKING = b"""name: sched_waking
ID: 316
format:
\tfield:unsigned short common_type;\toffset:0;\tsize:2;\tsigned:0;
\tfield:int common_pid;\toffset:4;\tsize:4;\tsigned:1;

\tfield:char comm[16];\toffset:8;\tsize:16;\tsigned:0;

print fmt: "comm=%s %s", REC->comm, __print_symbolic(REC->common_pid, { 1234, "one" }, { 42, "other" })
"""

WAKEUP = b"name: sched_wakeup\nID: 20\nformat:\n\tfield:pid_t pid;\toffset:8;\tsize:4;\tsigned:1;\n\nprint fmt: \"pid=%d\", REC->pid\n"

SWITCH = b"name: sched_switch\nID: 21\nformat:\n\tfield:pid_t next_pid;\toffset:8;\tsize:4;\tsigned:1;\n\nprint fmt: \"next=%d\", REC->next_pid\n"

ENTRY = b"""name: funcgraph_entry
ID: 11
format:
\tfield:unsigned long func;\toffset:8;\tsize:8;\tsigned:0;
\tfield:int depth;\toffset:16;\tsize:4;\tsigned:1;

print fmt: "--> %ps", (void *)REC->func
"""

EXIT = b"""name: funcgraph_exit
ID: 10
format:
\tfield:unsigned long func;\toffset:8;\tsize:8;\tsigned:0;
\tfield:int depth;\toffset:16;\tsize:4;\tsigned:1;

print fmt: "<-- %ps", (void *)REC->func
"""


def event(identity: int, pid: int, rest: bytes) -> bytes:
    """An event ten nanoseconds after the one before it, whose payload is this after its common fields."""
    return record(payload(identity, pid, rest), 10)


def page(time: int, events: Sequence[bytes]) -> bytes:
    return sub_buffer(time, b"".join(events))


def trace(ftrace: Sequence[bytes], sched: Sequence[bytes], lanes: Sequence[bytes]) -> bytes:
    symbols, tasks = b"ffffffff81000000 T schedule\nffffffff81000100 t do_idle\n", b"1234 bash\n42 kworker/0:1\n"
    return trace_file(header(ftrace, {b"sched": sched}, symbols, tasks=tasks), lanes, options((1, bytes(4))) + FLYRECORD)


def address(symbol: int) -> bytes:
    return struct.pack("<Q", 0xFFFFFFFF81000000 + symbol)


def number(value: int) -> bytes:
    return struct.pack("<i", value)


WAKING_EVENT = event(316, 1234, b"bash".ljust(16, b"\0"))
FUNCTION_EVENT = event(1, 42, address(0x10) + address(0x120))
WOKEN = [event(identity, 7, number(task)) for identity in (20, 21) for task in (42, 43)]
CALLED = [event(identity, 7, address(0) + number(depth)) for identity, depth in ((11, 0), (11, 1), (10, 1), (10, 0))]
CPU0, CPU1 = page(1000, [WAKING_EVENT, WAKING_EVENT]), page(1500, [FUNCTION_EVENT])

INPUTS = {
    "trace.dat": trace([FUNCTION], [WAKING], [CPU0, CPU1]),
    "woken.dat": trace([FUNCTION], [WAKEUP, SWITCH], [page(1000, WOKEN[:2]), page(2000, WOKEN[2:])]),
    "called.dat": trace([ENTRY, EXIT], [WAKING], [page(1000, CALLED), CPU0]),
    "cpu0": CPU0,
    "cpu1": CPU1,
}
LIBRARY, COUNT = "refuse.so", "count"


class Ended(NamedTuple):
    """How a run ended, and the new files that it left."""

    status: int
    out: bytes
    err: bytes
    files: dict[str, bytes]


def new_files(folder: Path) -> dict[str, bytes]:
    return {it.name: it.read_bytes() for it in sorted(folder.iterdir()) if it.name not in (*INPUTS, LIBRARY, COUNT)}


def run(program: str, folder: Path, words: Sequence[str], refuse: int) -> tuple[Ended, int]:
    """How a run ends whose allocation of this number is refused, and how many it made."""
    for name in new_files(folder):
        (folder / name).unlink()
    (folder / COUNT).write_bytes(struct.pack("<qq", refuse, 0))
    given = {**os.environ, "LD_PRELOAD": str(folder / LIBRARY), "COUNT": str(folder / COUNT)}
    ran = subprocess.run([program, *words], cwd=folder, stdin=subprocess.DEVNULL, capture_output=True, env=given, timeout=60)
    made = struct.unpack("<qq", (folder / COUNT).read_bytes())[1]
    return Ended(ran.returncode, ran.stdout, ran.stderr, new_files(folder)), made


def is_as_it_must(found: Ended, whole: Ended) -> bool:
    if found == whole:
        return True
    if found.status == 6:
        return found.out == b"" and found.files == {} and found.err in (b"trace-cmd: out of memory\n", b"")
    if found.status in (4, 5):
        return whole.out.startswith(found.out) and all(whole.files.get(name) == content for name, content in found.files.items())
    return False


def refuse_each(program: str, folder: Path, words: Sequence[str]) -> tuple[Counter[int], bool]:
    """Refuses each allocation of a run: how the runs ended, and whether each ended as it must."""
    whole, count = run(program, folder, words, 0)
    ends, good = Counter[int](), True
    if whole.status != 0 or count == 0:
        print(f"WRONG: {' '.join(words)}: status {whole.status} and {count} allocations without a refusal")
        return ends, False
    for refuse in range(1, count + 1):
        found, _ = run(program, folder, words, refuse)
        ends[found.status] += 1
        if not is_as_it_must(found, whole):
            good = False
            told = f"status {found.status}, output {len(found.out)}, {found.err!r}, files {list(found.files)}"
            print(f"WRONG: {' '.join(words)}, allocation {refuse}: {told}")
    return ends, good


def told(ends: Counter[int]) -> str:
    return f"{sum(ends.values())} allocations; " + ", ".join(f"status {status}: {ends[status]}" for status in sorted(ends))


def check(program: str) -> bool:
    all_ends, good = Counter[int](), True
    with tempfile.TemporaryDirectory() as name:
        folder = Path(name)
        for file, content in INPUTS.items():
            (folder / file).write_bytes(content)
        try:
            compile_c(Path(__file__).with_name("refuse.c"), folder / LIBRARY, "-shared", "-fPIC", needs_headers=False)
        except NoCompiler as error:
            raise Skipped(f"there is no C compiler: {error}") from None
        for words in LINES:
            ends, agrees = refuse_each(program, folder, words)
            all_ends += ends
            good = agrees and good
            print(f"{' '.join(words)}: {told(ends)}", flush=True)
    print(f"in all {told(all_ends)}")
    return good
