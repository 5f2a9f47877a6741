"""Splits real recordings, and compares the pieces with the whole and with what the original tool makes of them.

DIRECTORY has recordings NAME.dat. Each is split by the words of SPLITS, and a line is printed for each split, with the number of new
files and what three comparisons gave:

- parts: the reports of the new files, joined, are PROGRAM's report of the recording, line by line but for the lines `cpus=N`; where
  each processor is cut by itself, this holds of each processor's report;
- read: the same of the reports that the original prints of PROGRAM's new files and of the recording;
- alike: the original's split of the recording by the same words has as many new files, and its report of each is its report of PROGRAM's;
  `counts` is said where they differ in the numbers of losses alone, since the original makes up a number for a loss that has none.

It ends with 0 where the first two agree everywhere, and with 1 otherwise. The original refuses to split a latency recording, which is
left out here.
"""

from __future__ import annotations

import argparse
import re
import tempfile
from pathlib import Path
from typing import Callable, Sequence

from comparisons.lines import ORIGINAL, failure, is_latency, recordings, run

DETAILS = ""
Lines = list[bytes]
SPLITS: list[list[str]] = [
    [],
    ["-e", "500", "-r"],
    ["-m", "100", "-r"],
    ["-e", "500", "-r", "-c"],
    ["-m", "100", "-r", "-c"],
    ["-u", "50000", "-r", "-C", "1"],
    ["-s", "1", "-r"],
]


def arguments(parser: argparse.ArgumentParser) -> None:
    parser.add_argument("directory", type=Path, metavar="DIRECTORY")


def ours(program: str) -> Callable[..., Lines]:
    return lambda file, *words: run(program, "report", "-t", *words, file).stdout.splitlines()[1:]


def theirs(file: Path, *words: str) -> Lines:
    return [line for line in run(ORIGINAL, "report", "-N", "-t", *words, file).stdout.splitlines() if not line.startswith(b"cpus=")]


def pieces(base: Path) -> list[Path]:
    return sorted(base.parent.glob(base.name + ".*"), key=lambda file: int(file.suffix[1:]))


def uncounted(reports: Sequence[Lines]) -> list[Lines]:
    return [[re.sub(rb"^(CPU:\d+ \[)\d+ (EVENTS DROPPED\])$", rb"\1\2", line) for line in report] for report in reports]


def choices(program: str, recording: Path, words: Sequence[str]) -> list[list[str]]:
    """The choices of processors by which reports are compared."""
    if "-C" in words:
        return [["--cpu", words[words.index("-C") + 1]]]
    if "-c" not in words:
        return [[]]
    count = int(run(program, "report", recording).stdout.splitlines()[0].removeprefix(b"cpus="))
    return [["--cpu", str(cpu)] for cpu in range(count)]


def compare_one(program: str, recording: Path, words: list[str], folder: Path) -> tuple[bool, str]:
    split = run(program, "split", "-i", recording, "-o", folder / "ours", *words)
    if split.returncode != 0:
        return False, failure(split)
    run(ORIGINAL, "split", "-i", recording, "-o", folder / "theirs", *words)
    made, original = pieces(folder / "ours"), pieces(folder / "theirs")
    chosen = choices(program, recording, words)

    def joins(report: Callable[..., Lines]) -> bool:
        return all([line for file in made for line in report(file, *cpus)] == report(recording, *cpus) for cpus in chosen)

    def say(agrees: bool) -> str:
        return "agree" if agrees else "DIFFER"

    parts, read = joins(ours(program)), joins(theirs)
    told, other = [theirs(file) for file in made], [theirs(file) for file in original]
    alike = "counts" if told != other and uncounted(told) == uncounted(other) else say(told == other)
    return parts and read, f"{len(made):4} files, parts {say(parts)}, read {say(read)}, alike {alike} ({len(original)} files)"


def compare(program: str, directory: Path) -> bool:
    good = True
    for recording in recordings(directory):
        if is_latency(program, recording):
            continue
        print(recording.name)
        for words in SPLITS:
            with tempfile.TemporaryDirectory() as folder:
                agrees, told = compare_one(program, recording, words, Path(folder))
            good = agrees and good
            print(f"    {' '.join(words):16} {told}", flush=True)
    return good
