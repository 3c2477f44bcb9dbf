"""Draws docs/growth.svg from the tables of bench/RESULTS.md: how the time of gitv2 and of Git grows with the commits.

usage: plots.py [--check]   with --check it writes nothing, and compares the file with what it would write
"""

import os
import re
import sys

TOP = os.path.dirname(os.path.dirname(os.path.abspath(__file__)))
RESULTS, PLOT = f"{TOP}/bench/RESULTS.md", f"{TOP}/docs/growth.svg"
ROWS = ["check", "clone", "fetch of 100 commits"]
SERIES = [("gitv2", 2, "#0b66c3"), ("git", 4, "#c2410c")]
# A panel with its margins, and the place for axes and words in it.
WIDTH, HEIGHT, LEFT, RIGHT, ABOVE, BELOW = 300, 250, 54, 52, 44, 40
UNITS = {"ms": 0.001, "s": 1.0}


def seconds_of(cell):
    number, unit = cell.split()
    return float(number) * UNITS[unit]


def points_of(results):
    """For each row and each program, its seconds by millions of commits."""
    points = {(row, name): [] for row in ROWS for name, _, _ in SERIES}
    for line in results.splitlines():
        cells = [cell.strip() for cell in line.strip("|").split("|")]
        commits = re.fullmatch(r"([\d,]+) commits", cells[1]) if len(cells) == 7 else None
        if commits and cells[0] in ROWS:
            for name, column, _ in SERIES:
                points[cells[0], name].append((int(commits[1].replace(",", "")) / 1e6, seconds_of(cells[column])))
    return points


def step_of(most):
    """The distance of two lines of the grid, so that there are at most five."""
    return next(step for step in (0.1, 0.2, 0.25, 0.5, 1, 2, 5, 10, 20, 50) if most / step <= 5)


def text(x, y, words, more=""):
    return f'<text x="{x:.1f}" y="{y:.1f}"{more}>{words}</text>'


def panel_of(row, points, left):
    """One panel: a title, the grid, and a line for each program with its name at the end."""
    most = max(seconds for name, _, _ in SERIES for _, seconds in points[row, name])
    step = step_of(most)
    wide, high = WIDTH - LEFT - RIGHT, HEIGHT - ABOVE - BELOW
    across = lambda commits: left + LEFT + wide * commits
    down = lambda seconds: ABOVE + high * (1 - seconds / most / 1.05)
    drawn = [text(left + LEFT, ABOVE - 16, row, ' class="title"')]
    for number in range(int(most * 1.05 / step) + 1):
        y = down(number * step)
        drawn.append(f'<line x1="{across(0):.1f}" y1="{y:.1f}" x2="{across(1):.1f}" y2="{y:.1f}" class="grid"/>')
        drawn.append(text(left + LEFT - 6, y + 4, f"{number * step:g} s", ' text-anchor="end"'))
    for commits in (0, 0.5, 1):
        drawn.append(text(across(commits), HEIGHT - BELOW + 16, f"{commits:g}", ' text-anchor="middle"'))
    drawn.append(text(across(0.5), HEIGHT - BELOW + 32, "million commits", ' text-anchor="middle"'))
    for name, _, color in SERIES:
        places = [(across(commits), down(seconds)) for commits, seconds in points[row, name]]
        line = " ".join(f"{x:.1f},{y:.1f}" for x, y in places)
        drawn.append(f'<polyline points="{line}" stroke="{color}"/>')
        drawn += [f'<circle cx="{x:.1f}" cy="{y:.1f}" r="3" fill="{color}"/>' for x, y in places]
        x, y = places[-1]
        drawn.append(text(x + 8, y + 4, name, f' style="fill:{color}"'))
    return drawn


def plot_of(results):
    points = points_of(results)
    wide = WIDTH * len(ROWS)
    drawn = [
        f'<svg xmlns="http://www.w3.org/2000/svg" viewBox="0 0 {wide} {HEIGHT}" width="{wide}" height="{HEIGHT}" role="img"',
        '  aria-label="Seconds by commits, of gitv2 and of git: check, clone, and a fetch of 100 commits">',
        "<style>text{font:12px sans-serif;fill:#333}.title{font-weight:bold;font-size:13px}",
        ".grid{stroke:#ddd}polyline{fill:none;stroke-width:2}</style>",
        f'<rect width="{wide}" height="{HEIGHT}" fill="#fff"/>',
    ]
    for number, row in enumerate(ROWS):
        drawn += panel_of(row, points, number * WIDTH)
    return "\n".join([*drawn, "</svg>", ""])


def main(words):
    with open(RESULTS) as file:
        plot = plot_of(file.read())
    if words == ["--check"]:
        with open(PLOT) as file:
            is_same = file.read() == plot
        print(f"plots: docs/growth.svg is {'what' if is_same else 'NOT what'} bench/RESULTS.md says")
        return 0 if is_same else 1
    with open(PLOT, "w") as file:
        file.write(plot)
    return 0


sys.exit(main(sys.argv[1:]))
