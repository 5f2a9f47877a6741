#!/usr/bin/env python3
"""Compares PROGRAM, the built trace_cmd, with the original trace-cmd (`apt-get install trace-cmd`; version 3.1.6 was tried).

    scripts/compare.py reports PROGRAM DIRECTORY [OPTION ..]       reports line by line with `trace-cmd report -N`
    scripts/compare.py filters PROGRAM DIRECTORY                   filtered reports with the lines that they should have
    scripts/compare.py files PROGRAM RECORDING RECORDING ..        a report of several recordings with the original's
    scripts/compare.py splits PROGRAM DIRECTORY                    new files with the whole, and with the original's split
    scripts/compare.py calls PROGRAM DIRECTORY                     --calls with its definitions, and with the original's pairing
    scripts/compare.py wakeups PROGRAM DIRECTORY                   latencies with those at the original's switches
    scripts/compare.py restore PROGRAM RECORDING [DIRECTORY]       what both tools restore of a recording taken apart

`COMMAND --help` says what is compared, and which differences are known. The status is 0 where all agrees but for these, and else 1.
"""

from __future__ import annotations

import argparse
import os
import shutil
import sys

from comparisons import calls, files, filters, reports, restore, splits, wakeups
from comparisons.lines import ORIGINAL

COMPARISONS = {
    "reports": reports, "filters": filters, "files": files, "splits": splits, "calls": calls, "wakeups": wakeups, "restore": restore,
}


def main() -> None:
    layout = argparse.RawDescriptionHelpFormatter
    parser = argparse.ArgumentParser(description=__doc__, formatter_class=layout)
    several = parser.add_subparsers(dest="comparison", required=True, metavar="COMMAND")
    for name, module in COMPARISONS.items():
        words = (module.__doc__ or "").strip()
        it = several.add_parser(name, help=words.splitlines()[0], description=words, epilog=module.DETAILS, formatter_class=layout)
        it.add_argument("program", metavar="PROGRAM")
        module.arguments(it)
    options = vars(parser.parse_args())
    if not shutil.which(ORIGINAL):
        sys.exit(f"{ORIGINAL} is not installed")
    comparison, program = COMPARISONS[options.pop("comparison")], os.path.abspath(options.pop("program"))
    sys.exit(0 if comparison.compare(program, **options) else 1)


if __name__ == "__main__":
    main()
