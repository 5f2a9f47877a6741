"""Takes a recording apart, restores it by both tools, and compares the files with the recording.

RECORDING, one of version 6 with data of processors, is taken apart in DIRECTORY, or in a folder that is removed at the end, as
`scripts/make_trace.py parts` does it. It is restored with PROGRAM from each partial file, and with the original from the second, since the
original wants the command lines. A line is printed for each comparison:

- data: by the tables of the restored files each processor has the bytes of its data file;
- report: PROGRAM's report of each restored file is its report of the recording; of nameless.dat the names of tasks do not count;
- original's report: the same of the original's reports.

It ends with 0 where all agree, and with 1 otherwise.
"""

from __future__ import annotations

import argparse
import re
import sys
import tempfile
from pathlib import Path

from comparisons.lines import ORIGINAL, run
from make_trace import take_apart
from tracefile import read_trace

DETAILS = ""
TASK = re.compile(rb"^ *\S.{0,15}-(-?\d+) +\[", re.M)


def arguments(parser: argparse.ArgumentParser) -> None:
    parser.add_argument("recording", type=Path, metavar="RECORDING")
    parser.add_argument("directory", type=Path, nargs="?", metavar="DIRECTORY")


def lines(report: bytes, names: bool) -> bytes:
    """A report's lines, but for those in front of its events, and without the names of tasks where these do not count."""
    events = b"".join(line for line in report.splitlines(keepends=True) if not line.startswith((b"cpus=", b"version = ")))
    return events if names else TASK.sub(rb"\1 [", events)


def told(name: str, agree: bool) -> bool:
    print(f"{name}: {'agree' if agree else 'DIFFER'}", flush=True)
    return agree


def restored(tool: str, partial: Path, raw: list[Path], file: Path) -> Path:
    file.unlink(missing_ok=True)
    ran = run(tool, "restore", "-i", partial, "-o", file, *raw)
    if not file.exists():
        sys.exit(f"{tool} {partial}: not restored: {ran.stderr.decode(errors='replace')}")
    return file


def compare_in(program: str, recording: Path, room: Path) -> bool:
    (nameless, partial), raw = take_apart(recording, room)
    files = [
        ("ours without names", restored(program, nameless, raw, room / "ours-nameless.dat"), False),
        ("ours", restored(program, partial, raw, room / "ours.dat"), True),
        ("theirs", restored(ORIGINAL, partial, raw, room / "theirs.dat"), True),
    ]
    given, good = [name.read_bytes() for name in raw], True
    for name, file, names in files:
        good = told(f"{name}: data", read_trace(file).data() == given) and good
        for title, words in (("report", [program, "report", "-t"]), ("original's report", [ORIGINAL, "report", "-N", "-t"])):
            whole, own = run(*words, recording).stdout, run(*words, file).stdout
            good = told(f"{name}: {title}", lines(own, names) == lines(whole, names)) and good
    return good


def compare(program: str, recording: Path, directory: Path | None) -> bool:
    if directory:
        return compare_in(program, recording, directory)
    with tempfile.TemporaryDirectory() as room:
        return compare_in(program, recording, Path(room))
