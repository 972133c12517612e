#!/usr/bin/env python3
"""Prints a chart: `draw_charts.py calls` docs/benchmarks.svg, from the instructions in bench/rivals.tsv, and
`draw_charts.py jobs` docs/jobs.svg, from the times in docs/PERF.md."""

import math
import pathlib
import sys

DOCS = pathlib.Path(__file__).resolve().parent
COUNTS = DOCS.parent / "bench" / "rivals.tsv"
# Each ring of this repository, with the others that a program could take in its place.
FIXED = ["Rust array", "Rust heap", "VecDeque", "Boost", "circular_buffer"]
RIVALS = {"heap": FIXED, "copy": FIXED, "array": FIXED, "growable": ["Rust growable", "growing VecDeque"]}
TYPES = {"heap": "AllocRingBuffer", "copy": "CopyRingBuffer", "array": "ConstGenericRingBuffer", "growable": "GrowableAllocRingBuffer"}

WIDTH, ROW = 800, 20
INK, GRID, BETTER, WORSE, PALE = "#1b1f24", "#d8dce0", "#1f5fa8", "#b4491c", "#b9c0c8"
LEFT, RIGHT = 270, 585
LEAST, GREATEST = 1 / 32, 32
NAMED = [(1 / 32, "1/32"), (1 / 8, "1/8"), (1 / 2, "1/2"), (1, "1"), (2, "2"), (8, "8"), (32, "32")]


def table(page, heading):
    """The first table of a page under a heading, as a list of its columns' names and a list of its rows."""
    lines = (DOCS / page).read_text(encoding="utf-8").split(f"\n## {heading}\n")[1].split("\n## ")[0].splitlines()
    rows = [[cell.strip(" `") for cell in line.strip("| ").split("|")] for line in lines if "|" in line]
    return rows[0], rows[2:]


def text(x, y, words, anchor="start", size=13, color=INK, weight="normal"):
    return (
        f'<text x="{x:.0f}" y="{y:.0f}" text-anchor="{anchor}" font-size="{size}" fill="{color}" '
        f'font-weight="{weight}">{words}</text>'
    )


def line(x, top, bottom, color):
    return f'<line x1="{x:.0f}" y1="{top}" x2="{x:.0f}" y2="{bottom}" stroke="{color}"/>'


def picture(drawn, height):
    head = f'<svg xmlns="http://www.w3.org/2000/svg" viewBox="0 0 {WIDTH} {height}" font-family="sans-serif">'
    return "\n".join([head, f'<rect width="{WIDTH}" height="{height}" fill="white"/>', *drawn, "</svg>"])


def number(ratio):
    """A ratio in two digits at least."""
    return f"{ratio:.0f}" if ratio >= 10 else f"{ratio:.1f}" if ratio >= 2 else f"{ratio:.2f}"


def across(ratio):
    """Where a ratio lies on the logarithmic axis."""
    part = math.log(min(max(ratio, LEAST), GREATEST) / LEAST) / math.log(GREATEST / LEAST)
    return LEFT + part * (RIGHT - LEFT)


def ratios(ring):
    """Each call on words with a ring's ratio to the least number that a rival has, and that rival, least ratio first."""
    (_, *columns), *rows = (line.split("\t") for line in COUNTS.read_text(encoding="utf-8").splitlines())
    found = []
    for case, *cells in rows:
        counts = {column: float(cell) for column, cell in zip(columns, cells) if cell != "-"}
        rivals = [rival for rival in RIVALS[ring] if rival in counts]
        item, call, many, held, _ = case.split()
        if item == "u64" and ring in counts and rivals:
            best = min(rivals, key=counts.get)
            found.append((counts[ring] / counts[best], f"{call} of {held}" if many == "1" else f"{call} {many} of {held}", best))
    return sorted(found)


def panel(ring, top):
    """A ring's rows, and where they end."""
    calls = ratios(ring)
    first = top + 68
    bottom = first + ROW * len(calls)
    drawn = [
        text(12, top + 24, TYPES[ring], size=16, weight="bold"),
        text(262, top + 24, "instructions of a call on words over the best rival's; left of 1 is better", size=13),
        text(12, top + 54, "call, and items held", size=12),
        text(656, top + 54, "the best rival", size=12),
    ]
    for ratio, name in NAMED:
        drawn += [line(across(ratio), first - 6, bottom, INK if ratio == 1 else GRID)]
        drawn += [text(across(ratio), top + 54, name, "middle", 12)]
    for row, (ratio, work, rival) in enumerate(calls):
        middle = first + ROW * row + ROW // 2
        color = WORSE if ratio > 1.005 else BETTER
        drawn += [text(LEFT - 12, middle + 4, work.replace("&", "&amp;"), "end")]
        drawn += [f'<circle cx="{across(ratio):.1f}" cy="{middle}" r="4.5" fill="{color}"/>']
        # A dot at the end of the axis stands for a number beyond it.
        words = number(ratio) + (" →" if ratio > GREATEST else "")
        side, anchor = (9, "start") if ratio > 0.995 else (-9, "end")
        drawn += [text(across(ratio) + side, middle + 4, words, anchor, 12, color), text(656, middle + 4, rival)]
    return drawn, bottom


def calls():
    drawn, top = [], 0
    for ring in RIVALS:
        rows, bottom = panel(ring, top)
        drawn, top = drawn + rows, bottom + 16
    return picture(drawn, top)


def jobs():
    names, rows = table("PERF.md", "Times")
    column = {name: place for place, name in enumerate(names)}
    seconds = sorted((float(row[column["Seconds now"]]), float(row[column["Yardstick"]]), row[0]) for row in rows)
    seconds.sort(key=lambda job: job[0] / job[1])
    most = max(max(ours, rust) for ours, rust, _ in seconds)
    left, right, bar = 150, 640, 18
    drawn = [
        text(12, 28, "Six whole jobs in seconds (shorter is better)", size=16, weight="bold"),
        text(12, 50, "In Rust over the Rust crate's rings where these have the calls, else over std's types.", size=12),
        text(WIDTH - 12, 50, "ours / Rust", "end", 12),
    ]
    top = 64
    for ours, rust, job in seconds:
        ratio = ours / rust
        # Less than a twentieth is no difference on a shared machine.
        color = INK if abs(ratio - 1) < 0.05 else BETTER if ratio < 1 else WORSE
        drawn.append(text(12, top + 23, job, size=15, weight="bold"))
        for value, word, fill in [(ours, "ours", color), (rust, "Rust", PALE)]:
            width = (right - left) * value / most
            drawn.append(text(left - 8, top + 13, word, "end", 12))
            drawn.append(f'<rect x="{left}" y="{top + 1}" width="{width:.0f}" height="{bar - 3}" fill="{fill}"/>')
            drawn.append(text(left + width + 6, top + 13, f"{value:.3f}", size=12))
            top += bar
        drawn.append(text(WIDTH - 12, top - 13, f"{ratio:.2f}", "end", 15, color, "bold"))
        top += 10
    return picture(drawn, top + 2)


print({"calls": calls, "jobs": jobs}[sys.argv[1]]())
