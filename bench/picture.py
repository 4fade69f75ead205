#!/usr/bin/env python3
"""Draws the picture of the last run, and prints the table of README.md: picture.py FIGURES PICTURE

FIGURES is the file figures.csv that compare.py wrote, and PICTURE the SVG file to write. A bar, and a speed of the table, is the geometric
mean of the speeds of a library at a work, over all inputs at which each library that has this work was measured. `bench/run` calls this.
"""
import csv
import math
import pathlib
import sys

# a work that is drawn, and what it is called in two lines
WORKS = {
    "typed": ("typed", "structs read"),
    "typed-lent": ("typed-lent", "three fields, lent"),
    "typed-text": ("typed-text", "structs written"),
    "log": ("log", "a member of a line"),
    "events": ("events", "each value visited"),
    "document": ("document", "peers: their trees"),
    "tree": ("tree", "simdjson: its tape"),
    "text": ("text", "a tree written"),
    "fmt": ("fmt", "a whole process"),
}
# the works of the table
LINES = ("typed", "typed-lent", "typed-text", "log", "skip", "events", "document", "check", "tree", "text", "fmt")
SIDES = {"ours": "facet_json", "serde_json": "serde_json", "simdjson": "simdjson", "rapidjson": "RapidJSON"}
# measured for one work alone, so they are no part of a mean
LEFT_OUT = ("one-account.json", "accounts-indented.json", "accounts-reversed.json")

WIDTH, LEFT, RIGHT, TOP, FOOT = 760, 150, 60, 64, 62
BAR, GAP = 18, 20
STYLE = """
text { font: 13px system-ui, sans-serif; fill: #1f2328 }
.small, .value { font-size: 11px; fill: #57606a }
.value { stroke: #ffffff; stroke-width: 4px; paint-order: stroke }
.ground { fill: #ffffff; stroke: #d0d7de }
.grid { stroke: #d8dee4 }
.ours { fill: #2f6fb0 } .serde_json { fill: #c8691e } .simdjson { fill: #5f8a3a } .rapidjson { fill: #8a5fa8 }
@media (prefers-color-scheme: dark) {
text { fill: #e6edf3 }
.small, .value { fill: #9aa4ae }
.value { stroke: #14181d }
.ground { fill: #14181d; stroke: #3d444d }
.grid { stroke: #343b43 }
.ours { fill: #6cb0f2 } .serde_json { fill: #f0a35e } .simdjson { fill: #a5cc78 } .rapidjson { fill: #c8a0e6 }
}
"""


def read_speeds(path):
    """Megabytes a second: of each work, by side and then by input."""
    speeds = {}
    with open(path, encoding="utf-8", newline="") as file:
        for line in csv.DictReader(file):
            if line["input"] not in LEFT_OUT and line["side"] in SIDES:
                by_input = speeds.setdefault(line["work"], {}).setdefault(line["side"], {})
                by_input[line["input"]] = int(line["bytes"]) / int(line["nanoseconds"]) * 1e3
    return speeds


def shared_inputs(by_side):
    """The inputs at which all of these sides were measured."""
    return set.intersection(*(set(by_input) for by_input in by_side.values()))


def means(by_side):
    """The geometric mean of the speeds of each side over the inputs that all of them have."""
    shared = shared_inputs(by_side)
    mean = lambda by_input: math.exp(sum(math.log(by_input[name]) for name in shared) / len(shared))
    return {side: mean(by_side[side]) for side in SIDES if side in by_side}


def text(x, y, words, anchor="start", kind=""):
    """A line of words."""
    mark = f' class="{kind}"' if kind else ""
    return f'<text x="{x:.0f}" y="{y:.0f}" text-anchor="{anchor}"{mark}>{words}</text>'


def axis(most, step, bottom):
    """The lines of the scale and their numbers."""
    for value in range(0, most + 1, step):
        x = LEFT + (WIDTH - LEFT - RIGHT) * value / most
        yield f'<line class="grid" x1="{x:.0f}" y1="{TOP - 6}" x2="{x:.0f}" y2="{bottom}"/>'
        yield text(x, bottom + 16, value, "middle", "small")


def legend():
    """Which colour is whose."""
    for at, (side, name) in enumerate(SIDES.items()):
        x = LEFT + 130 * at
        yield f'<rect class="{side}" x="{x}" y="34" width="12" height="12"/>'
        yield text(x + 18, 45, name)


def group(work, mean, most, y):
    """The bars of a work, with their speeds."""
    name, note = WORKS[work]
    middle = y + BAR * len(mean) / 2
    yield text(LEFT - 12, middle - 1, name, "end")
    yield text(LEFT - 12, middle + 13, note, "end", "small")
    for at, (side, speed) in enumerate(mean.items()):
        length = (WIDTH - LEFT - RIGHT) * speed / most
        yield f'<rect class="{side}" x="{LEFT}" y="{y + BAR * at}" width="{length:.1f}" height="{BAR - 3}"/>'
        yield text(LEFT + length + 5, y + BAR * at + 12, f"{speed:.0f}", kind="value")


def picture(speeds):
    """The lines of the whole picture."""
    drawn = {work: means(speeds[work]) for work in WORKS if work in speeds}
    fastest = max(max(mean.values()) for mean in drawn.values())
    step = next(step for step in (100, 200, 500, 1000) if fastest <= 12 * step or step == 1000)
    most = math.ceil(fastest / step) * step
    bottom = TOP + sum(BAR * len(mean) + GAP for mean in drawn.values()) - GAP + 6
    height = bottom + FOOT
    counts = sorted({len(shared_inputs(speeds[work])) for work in drawn})
    title = "How fast JSON is read and written"
    yield f'<svg xmlns="http://www.w3.org/2000/svg" viewBox="0 0 {WIDTH} {height}" width="{WIDTH}" height="{height}" role="img">'
    yield f"<title>{title}: megabytes a second, by work and library</title>"
    yield f"<style>{STYLE}</style>"
    yield f'<rect class="ground" x="0.5" y="0.5" width="{WIDTH - 1}" height="{height - 1}" rx="6"/>'
    yield text(LEFT, 22, title)
    yield from legend()
    yield text(LEFT - 12, 45, "work", "end", "small")
    yield from axis(most, step, bottom)
    y = TOP
    for work, mean in drawn.items():
        yield from group(work, mean, most, y)
        y += BAR * len(mean) + GAP
    middle = (LEFT + WIDTH - RIGHT) / 2
    yield text(middle, bottom + 36, "speed in megabytes (10⁶ bytes) of JSON a second; more is faster", "middle")
    yield text(middle, bottom + 52, f"geometric mean over {' to '.join(str(it) for it in counts)} inputs, one thread", "middle", "small")
    yield "</svg>"


def between(by_side, other):
    """How many times as fast this library is as another one: at the input where it is least so, and where it is most."""
    if other not in by_side:
        return ""
    ratios = sorted((by_side["ours"][name] / by_side[other][name], name.removesuffix(".json")) for name in shared_inputs(by_side))
    (least, slowest), (most, fastest) = ratios[0], ratios[-1]
    if len(ratios) == 1:
        return f"{least:.2f} (`{slowest}`)"
    return f"{least:.2f} (`{slowest}`) to {most:.2f} (`{fastest}`)"


def table(speeds):
    """The lines of the table."""
    yield "| Work | " + " | ".join(SIDES.values()) + " | times serde_json's |"
    yield "|---" * (len(SIDES) + 2) + "|"
    for work in (it for it in LINES if it in speeds):
        mean = means(speeds[work])
        cells = [f"{mean[side]:.0f}" if side in mean else "" for side in SIDES]
        yield f"| {work} | " + " | ".join([*cells, between(speeds[work], "serde_json")]) + " |"


def main():
    if len(sys.argv) != 3:
        sys.exit(__doc__)
    figures, into = map(pathlib.Path, sys.argv[1:])
    speeds = read_speeds(figures)
    into.write_text("\n".join(picture(speeds)) + "\n", encoding="utf-8")
    print("\n".join(table(speeds)))


if __name__ == "__main__":
    main()
