#!/usr/bin/env python3
"""What threads can give on this machine, by a small C program: rounds of so much work each, shared out to threads that are started and
joined anew in each round, as report's workers are.

    scripts/bench/thread_starts.py

Each line has the work of a round, and the times of two and of four threads as ratios to that of one, the least of three turns. It wants
a C compiler (`cc`), and the machine should be idle, with four processors at least.
"""

from __future__ import annotations

import subprocess
import sys
import tempfile
from pathlib import Path

sys.path.insert(0, str(Path(__file__).resolve().parent.parent))

from compiler import NoCompiler, compile_c  # noqa: E402


def main() -> None:
    if len(sys.argv) > 1:
        sys.exit(__doc__)
    with tempfile.TemporaryDirectory() as folder:
        program = Path(folder, "starts")
        try:
            compile_c(Path(__file__).with_name("starts.c"), program, "-pthread")
        except NoCompiler as error:
            sys.exit(f"no C compiler: {error}")
        subprocess.run([program], check=True)


if __name__ == "__main__":
    main()
