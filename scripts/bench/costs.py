#!/usr/bin/env python3
"""Runs PROGRAM on files and words that are long in one way each, and tells what grows faster than its length.

    scripts/bench/costs.py PROGRAM [CASE ..]

Each case is made with N and with 4 N parts, and the length and the processor time of both runs are printed. Where four times the
length take more than six times the time, and more than half a second, the line is marked: the cost is more than the length times
its logarithm. The status is 1 where a line is marked, else 0.
"""

from __future__ import annotations

import argparse
import os
import resource
import subprocess
import sys
import tempfile
from pathlib import Path
from typing import Callable, NamedTuple, Sequence

sys.path.insert(0, str(Path(__file__).resolve().parent.parent))

from tracefile import FLYRECORD, MISSED, PAGE, header, options, payload, record, sub_buffer, trace_file, u64  # noqa: E402


def event(identity: int, pid: int, delta: int = 0) -> bytes:
    return record(payload(identity, pid), delta)


EVENT = sub_buffer(1000, event(7, 1))


def trace(
    ftrace: Sequence[bytes] = (),
    sched: Sequence[bytes] = (),
    kallsyms: bytes = b"",
    printk: bytes = b"",
    lines: bytes = b"",
    entries: Sequence[tuple[int, bytes]] = (),
    processors: Sequence[bytes] = (EVENT,),
) -> bytes:
    tail = (options(*entries) if entries else b"") + FLYRECORD
    return trace_file(header(ftrace, {b"sched": sched}, kallsyms, printk, lines), processors, tail)


FIELD = b"\tfield:int a;\toffset:4;\tsize:4;\tsigned:1;\n"


def text_format(fields: bytes, print_fmt: bytes, name: bytes = b"sum", identity: int = 7) -> bytes:
    return b"name: " + name + b"\nID: %d\nformat:\n" % identity + fields + b"\nprint fmt: " + print_fmt + b"\n"


def one(fields: bytes, print_fmt: bytes) -> bytes:
    return trace(ftrace=[text_format(fields, print_fmt)])


def many_fields(n: int) -> bytes:
    return b"".join(b"\tfield:int f%d;\toffset:4;\tsize:4;\tsigned:1;\n" % i for i in range(n))


def formats(n: int) -> list[bytes]:
    return [text_format(FIELD, b'"x"', b"e%d" % i, i + 1) for i in range(n)]


def pages(n: int, data: bytes) -> bytes:
    return b"".join(sub_buffer(1000 * i, data) for i in range(n))


def events_of(n: int, identity: int = 7) -> bytes:
    return pages(n // 340 + 1, event(identity, 1, 1) * 340)


PID = b"\tfield:int pid;\toffset:4;\tsize:4;\tsigned:1;\n"
WOKEN = [text_format(PID, b'"x"', b"sched_wakeup", 7), text_format(PID.replace(b"pid", b"next_pid"), b'"x"', b"sched_switch", 8)]
CALL = b"\tfield:int func;\toffset:4;\tsize:4;\tsigned:0;\n\tfield:int depth;\toffset:4;\tsize:4;\tsigned:1;\n"
CALLED = [text_format(CALL, b'"x"', b"funcgraph_entry", 7), text_format(CALL, b'"x"', b"funcgraph_exit", 8)]
LOSS = (u64(5) + u64(MISSED)).ljust(PAGE, b"\0")


def events_of_tasks(n: int, identities: Sequence[int], after: bytes = b"") -> bytes:
    """Events of these formats for each of n tasks, and something after each sub-buffer of them."""
    found = [event(identity, i, 1) for i in range(n) for identity in identities]
    return b"".join(sub_buffer(1000 * i, b"".join(found[i : i + 340])) + after for i in range(0, len(found), 340))


class Case(NamedTuple):
    """A number of parts, the file of so many, and the words of so many."""

    parts: int
    file_of: Callable[[int], bytes]
    words_of: Callable[[int], list[str]]


R = ["report"]
CASES = {
    "sum of constants": Case(25_000, lambda n: one(FIELD, b'"%d", 1' + b" + 1" * n), lambda n: R),
    "sum after a field": Case(25_000, lambda n: one(FIELD, b'"%d", REC->a' + b" + 1" * n), lambda n: R),
    "sum of a field": Case(25_000, lambda n: one(FIELD, b'"%d", 1' + b" + REC->a" * n), lambda n: R),
    "constants between fields": Case(25_000, lambda n: one(FIELD, b'"%d", REC->a' + b" + 2 * 3 + REC->a" * n), lambda n: R),
    "arguments": Case(25_000, lambda n: one(FIELD, b'"' + b"%d" * n + b'"' + b", REC->a" * n), lambda n: R),
    "stars": Case(25_000, lambda n: one(FIELD, b'"' + b"%*d" * n + b'"' + b", 3, REC->a" * n), lambda n: R),
    "texts joined": Case(50_000, lambda n: one(FIELD, b'"x" ' * n), lambda n: R),
    "symbols of a number": Case(25_000, lambda n: one(FIELD, b'"%s", __print_symbolic(REC->a' + b', { 2, "x" }' * n + b")"), lambda n: R),
    "flags of a number": Case(25_000, lambda n: one(FIELD, b'"%s", __print_flags(REC->a, "|"' + b', { 2, "x" }' * n + b")"), lambda n: R),
    "prefixes": Case(100_000, lambda n: one(FIELD, b'"%d", ' + b"!" * n + b"1"), lambda n: R),
    "brackets": Case(100_000, lambda n: one(FIELD, b'"%d", ' + b"(" * n + b"1" + b")" * n), lambda n: R),
    "types": Case(100_000, lambda n: one(FIELD, b'"%d", (' + b"int " * n + b")REC->a"), lambda n: R),
    "types in brackets": Case(10_000, lambda n: one(FIELD, b'"%d", ' + (b"(" + b"int " * n) * 10 + b"1" + b")" * 10), lambda n: R),
    "conditions": Case(50_000, lambda n: one(FIELD, b'"%d", ' + b"REC->a == 2 ? 3 : " * n + b"4"), lambda n: R),
    "percent signs": Case(200_000, lambda n: one(FIELD, b'"' + b"%%" * n + b'"'), lambda n: R),
    "flags of a directive": Case(200_000, lambda n: one(FIELD, b'"%' + b"-" * n + b'd", REC->a'), lambda n: R),
    "a field again and again": Case(25_000, lambda n: one(FIELD * n, b'"%d", REC->a'), lambda n: R),
    "fields": Case(25_000, lambda n: one(many_fields(n), b'"x"'), lambda n: ["report", "-R"]),
    "fields and their names": Case(10_000, lambda n: one(many_fields(n), b'"%d", 0' + b" + REC->f%d" % (n - 1) * n), lambda n: R),
    "names that are no fields": Case(10_000, lambda n: one(many_fields(n), b'"%d", 0' + b" + REC->g" * n), lambda n: R),
    "brackets of a declaration": Case(200_000, lambda n: one(b"\tfield:int a" + b"[" * n + b"];\toffset:4;\tsize:4;\n", b'"x"'), lambda n: R),
    "lines of a format": Case(200_000, lambda n: one(b"x\n" * n + FIELD, b'"x"'), lambda n: R),
    "formats": Case(10_000, lambda n: trace(ftrace=formats(n)), lambda n: R),
    "formats of one id": Case(10_000, lambda n: trace(ftrace=[text_format(FIELD, b'"x"')] * n), lambda n: R),
    "formats whose ids share their last bits": Case(10_000, lambda n: trace(ftrace=[text_format(FIELD, b'"x"', b"e", i << 16) for i in range(n)]), lambda n: R),
    "formats and raw names": Case(5_000, lambda n: trace(ftrace=formats(n)), lambda n: R + ["-r", "no"] * n),
    "formats and filters": Case(1_000, lambda n: trace(sched=formats(n)), lambda n: R + ["-F", "no"] * n),
    "formats and a long filter": Case(500, lambda n: trace(sched=formats(n)), lambda n: R + ["-F", "sched:" + "a==1||" * n + "1"]),
    "fields and a long filter": Case(4_000, lambda n: trace(sched=[text_format(many_fields(n), b'"x"')]), lambda n: R + ["-F", "sched:" + "g==1||" * n + "1"]),
    "a long filter and events": Case(2_000, lambda n: trace(sched=[text_format(FIELD, b'"x"')], processors=(events_of(n),)), lambda n: R + ["-F", "sched:" + "a==2||" * n + "1"]),
    "filters and events": Case(2_000, lambda n: trace(sched=[text_format(FIELD, b'"x"')], processors=(events_of(n),)), lambda n: R + ["-F", "sched:a==2"] * n),
    "a long print fmt and events": Case(2_000, lambda n: trace(ftrace=[text_format(FIELD, b'"%d", REC->a' + b" + REC->a" * n)], processors=(events_of(n),)), lambda n: R),
    "fields and events": Case(2_000, lambda n: trace(ftrace=[text_format(FIELD * n, b'"x"')], processors=(events_of(n),)), lambda n: ["report", "-R"]),
    "symbols by falling addresses": Case(100_000, lambda n: trace(kallsyms=b"".join(b"%x T s\n" % (n - i) for i in range(n))), lambda n: ["report", "-f"]),
    "symbols of one address": Case(100_000, lambda n: trace(kallsyms=b"1 T s\n" * n), lambda n: ["report", "-f"]),
    "symbols in a saw": Case(100_000, lambda n: trace(kallsyms=b"".join(b"%x T s\n" % (i * 7919 % n) for i in range(n))), lambda n: ["report", "-f"]),
    "a long symbol": Case(1_000_000, lambda n: trace(kallsyms=b"1 T " + b"x" * n), lambda n: ["report", "-f"]),
    "printk formats": Case(100_000, lambda n: trace(printk=b"".join(b'0x%x : "x"\n' % (n - i) for i in range(n))), lambda n: ["report", "-P"]),
    "names of tasks": Case(100_000, lambda n: trace(lines=b"".join(b"%d x\n" % (1024 * (n - i)) for i in range(n))), lambda n: R),
    "names of one task": Case(100_000, lambda n: trace(lines=b"1 x\n" * n), lambda n: R),
    "tasks that share their last bits, and events": Case(2_000, lambda n: trace(lines=b"".join(b"%d x\n" % (1024 * i + 1) for i in range(n)), processors=(events_of(100 * n, 9),)), lambda n: R),
    "options": Case(50_000, lambda n: trace(entries=[(1, bytes(4))] * n), lambda n: ["dump", "--options"]),
    "options of instances": Case(50_000, lambda n: trace(entries=[(3, bytes(4))] * n), lambda n: ["split", "-o", "p"]),
    "a long filter": Case(5_000, lambda n: trace(ftrace=[text_format(FIELD, b'"x"')]), lambda n: R + ["-F", "sum:" + "a==2||" * n + "1"]),
    "names of a filter": Case(2_500, lambda n: trace(ftrace=[text_format(FIELD, b'"x"')]), lambda n: R + ["-F", "sum:" + "".join(f"n{i}==2||" for i in range(n)) + "1"]),
    "brackets of a filter": Case(25_000, lambda n: trace(), lambda n: R + ["-F", "sum:" + "(" * n]),
    "events of a filter": Case(10_000, lambda n: trace(ftrace=[text_format(FIELD, b'"x"')]), lambda n: R + ["-F", "no," * n + "sum"]),
    "flags": Case(25_000, lambda n: trace(), lambda n: R + ["-t"] * n),
    "flags that are asked for": Case(12_500, lambda n: trace(), lambda n: R + ["-R", "-l", "-I"] * n),
    "raw names": Case(12_500, lambda n: trace(), lambda n: R + ["-r", "x"] * n),
    "filters": Case(12_500, lambda n: trace(), lambda n: R + ["-F", "x"] * n),
    "filters after flags": Case(12_500, lambda n: trace(), lambda n: R + ["-t"] * n + ["-F", "x"] * n),
    "raw names after flags": Case(12_500, lambda n: trace(), lambda n: R + ["-t"] * n + ["-r", "x"] * n),
    "a list of processors": Case(15_000, lambda n: trace(), lambda n: R + ["--cpu", "0" + ",0" * n]),
    "sections of a dump": Case(12_500, lambda n: trace(), lambda n: ["dump"] + ["--validate"] * n),
    "events": Case(100_000, lambda n: trace(processors=(events_of(n),)), lambda n: R),
    "events of two processors": Case(50_000, lambda n: trace(processors=(events_of(n), events_of(n))), lambda n: R),
    "events of one processor, all at once": Case(100_000, lambda n: trace(processors=(pages(n // 340, event(7, 1) * 340), EVENT)), lambda n: R),
    "losses": Case(1_000, lambda n: trace(processors=(LOSS * n,)), lambda n: R),
    "empty sub-buffers": Case(2_500, lambda n: trace(processors=(bytes(PAGE) * n, EVENT)), lambda n: R),
    "tasks that wait": Case(50_000, lambda n: trace(sched=WOKEN, processors=(events_of_tasks(n, [7]),)), lambda n: R + ["-w"]),
    "tasks that wait, and losses": Case(50_000, lambda n: trace(sched=WOKEN, processors=(events_of_tasks(n, [7], LOSS),)), lambda n: R + ["-w"]),
    "tasks that waited": Case(25_000, lambda n: trace(sched=WOKEN, processors=(events_of_tasks(n, [7, 8]),)), lambda n: R + ["-w"]),
    "calls": Case(25_000, lambda n: trace(ftrace=CALLED, processors=(events_of_tasks(n, [7, 8]),)), lambda n: R + ["--calls"]),
    "calls without an end": Case(50_000, lambda n: trace(ftrace=CALLED, processors=(events_of_tasks(n, [7]),)), lambda n: R + ["--calls"]),
    "calls without an end, and losses": Case(50_000, lambda n: trace(ftrace=CALLED, processors=(events_of_tasks(n, [7], LOSS),)), lambda n: R + ["--calls"]),
    "events of eight files": Case(12_500, lambda n: trace(processors=(events_of(n),)), lambda n: R + ["-i", "trace.dat"] * 8),
    "data files of a restore": Case(64, lambda n: trace(), lambda n: ["restore", "-i", "trace.dat", "-o", "p"] + ["trace.dat"] * n),
    "pieces of a split": Case(100, lambda n: trace(processors=(events_of(n),)), lambda n: ["split", "-e", "1", "-r", "-o", "p"]),
}


class Run(NamedTuple):
    """How a case of so many bytes ended, and its processor time."""

    size: int
    status: int | str
    seconds: float


def run(program: str, words: list[str], folder: str) -> tuple[int | str, float]:
    status: int | str
    none = subprocess.DEVNULL
    before = resource.getrusage(resource.RUSAGE_CHILDREN)
    try:
        status = subprocess.run([program, *words], cwd=folder, timeout=120, stdin=none, stdout=none, stderr=none).returncode
    except subprocess.TimeoutExpired:
        status = "timeout"
    after = resource.getrusage(resource.RUSAGE_CHILDREN)
    return status, after.ru_utime + after.ru_stime - before.ru_utime - before.ru_stime


def tried(program: str, case: Case, parts: int) -> Run:
    with tempfile.TemporaryDirectory() as folder:
        file, words = case.file_of(parts), case.words_of(parts)
        Path(folder, "trace.dat").write_bytes(file)
        return Run(len(file) + sum(len(word) + 1 for word in words), *run(program, words, folder))


def main() -> None:
    parser = argparse.ArgumentParser(description=__doc__, formatter_class=argparse.RawDescriptionHelpFormatter)
    parser.add_argument("program", metavar="PROGRAM")
    parser.add_argument("cases", nargs="*", metavar="CASE", help=", ".join(CASES))
    given = parser.parse_args()
    if unknown := set(given.cases) - set(CASES):
        parser.error(f"no case is named {', '.join(sorted(unknown))}")
    marked = 0
    for name in given.cases or CASES:
        small, large = (tried(os.path.abspath(given.program), CASES[name], parts) for parts in (CASES[name].parts, 4 * CASES[name].parts))
        is_marked = large.seconds > 0.5 and large.seconds > 6 * max(small.seconds, 0.005) * large.size / (4 * small.size)
        marked += is_marked
        told = "   ".join(f"{it.size:>9} bytes {it.seconds:7.2f} s ({it.status})" for it in (small, large))
        print(f"{name:45} {told}{'  <-- more than its length' if is_marked else ''}", flush=True)
    sys.exit(1 if marked else 0)


if __name__ == "__main__":
    main()
