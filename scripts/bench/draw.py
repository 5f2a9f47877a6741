#!/usr/bin/env python3
"""Draws README's table of speed as a picture.

    scripts/bench/draw.py README.md PICTURE.svg

The table is the one under the heading `How fast`. Each of its rows has a text, what trace_cmd takes and what the original
takes, both as a number and one unit. A row becomes a bar, as long as the second number is a multiple of the first.
"""

from __future__ import annotations

import argparse
import html
import sys
from pathlib import Path
from typing import NamedTuple, Sequence

WIDTH, LEFT, ROW, BAR, TOP = 900, 430, 34, 18, 56
LONGEST = WIDTH - LEFT - 90


class Row(NamedTuple):
    """A row of the table: what was measured, and what each program takes, in one unit."""

    text: str
    ours: float
    theirs: float


def rows_of(text: str) -> list[Row]:
    """The rows of the table under the heading."""
    rows: list[Row] = []
    inside = False
    for line in text.splitlines():
        if line.startswith("## "):
            inside = line[3:].strip() == "How fast"
        cells = [cell.strip() for cell in line.strip("|").split("|")]
        if inside and line.startswith("|") and len(cells) == 3 and cells[1][:1].isdigit():
            (ours, unit), (theirs, other) = (value(cell) for cell in cells[1:])
            if unit != other:
                sys.exit(f"two units: {line}")
            rows.append(Row(cells[0].replace("`", ""), ours, theirs))
    return rows


def value(cell: str) -> tuple[float, str]:
    """A cell's number and its unit."""
    number, unit = cell.split(" ", 1)
    return float(number.replace(",", "")), unit


def text_at(x: float, y: float, text: str, anchor: str = "start", weight: str = "normal") -> str:
    return f'<text x="{x}" y="{y}" text-anchor="{anchor}" font-weight="{weight}">{html.escape(text)}</text>'


def picture(rows: Sequence[Row]) -> str:
    ratios = [row.theirs / row.ours for row in rows]
    scale = LONGEST / max(ratios)
    height = TOP + ROW * len(rows) + 16
    lines = [
        f'<svg xmlns="http://www.w3.org/2000/svg" width="{WIDTH}" height="{height}" viewBox="0 0 {WIDTH} {height}"'
        ' font-family="sans-serif" font-size="15">',
        f'<rect width="{WIDTH}" height="{height}" fill="white"/>',
        text_at(16, 30, "How many times as much trace-cmd 3.1.6 takes", weight="bold"),
    ]
    for number, (row, ratio) in enumerate(zip(rows, ratios)):
        y = TOP + ROW * number
        length = round(ratio * scale, 1)
        lines += [
            text_at(LEFT - 12, y + BAR - 4, row.text, "end"),
            f'<rect x="{LEFT}" y="{y}" width="{length}" height="{BAR}" fill="#2f6f9f"/>',
            text_at(LEFT + length + 8, y + BAR - 4, f"{ratio:.1f}"),
        ]
    # A thin line where both take the same.
    x = round(LEFT + scale, 1)
    lines += [
        f'<line x1="{x}" y1="{TOP - 8}" x2="{x}" y2="{height - 16}" stroke="#c04020" stroke-dasharray="4 3"/>',
        "</svg>",
    ]
    return "\n".join(lines) + "\n"


def main() -> None:
    parser = argparse.ArgumentParser(description=__doc__, formatter_class=argparse.RawDescriptionHelpFormatter)
    parser.add_argument("readme", type=Path, metavar="README.md")
    parser.add_argument("picture", type=Path, metavar="PICTURE.svg")
    given = parser.parse_args()
    rows = rows_of(given.readme.read_text())
    if not rows:
        sys.exit("no table under the heading `How fast`")
    given.picture.write_text(picture(rows))


if __name__ == "__main__":
    main()
