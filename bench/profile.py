#!/usr/bin/env python3
"""Says where the time goes where this library is behind: the first entries of the profile of each such work on each such input.

profile.py OUT RESULTS: OUT has the built programs and the inputs, and RESULTS the figures that compare.py wrote; RESULTS/profile.md is written.
`bench/run` calls this. It needs perf.
"""
import argparse
import csv
import dataclasses
import datetime
import math
import pathlib
import re
import shutil
import subprocess
import sys
import tempfile

from compare import RATIOS, WORKS, Bench, commit, is_behind, processor, row, said, short

SECONDS = 1.0
ENTRIES = 3
SAMPLING = ["perf", "record", "-e", "cpu-clock", "-F", "2000"]
# Runs a program so many times: the arguments are its input, what it writes to, the number, and the program with its arguments.
LOOP = 'input=$1 output=$2 times=$3; shift 3; for turn in $(seq "$times"); do "$@" < "$input" > "$output" || exit; done'
# Linux keeps so many characters of a process's name.
NAME_LENGTH = 15


@dataclasses.dataclass
class Case:
    """A work of this library that is behind on an input, and the shortest time that it took."""

    work: str
    path: pathlib.Path
    nanoseconds: int

    def command(self, bench):
        """How often which program is run, so that the work takes as long as is sampled."""
        times = math.ceil(SECONDS * 1e9 / self.nanoseconds)
        if self.work == "fmt":
            return times, bench.processes["ours"]
        return 1, bench.words("ours", WORKS[self.work]["ours"], times, self.path)


@dataclasses.dataclass
class Entry:
    """A function, and its share of the samples in percent."""

    share: float
    symbol: str
    in_kernel: bool

    def __str__(self):
        whose = "the kernel's " if self.in_kernel else ""
        return f"{whose}`{readable(self.symbol)}` {self.share:.1f} %"


def readable(symbol):
    """The last two names of a symbol's path, without the trait and the mark of an instance."""
    names = re.sub(r"::<#\w+>|[.@].*", "", symbol).replace("++", "::").split("::")
    return "::".join(name.partition("+")[0] for name in names[-2:])


def read_figures(results):
    """The times that compare.py measured: of each input, by work and side."""
    figures = {}
    with open(results / "figures.csv", encoding="utf-8", newline="") as file:
        for line in csv.DictReader(file):
            figures.setdefault(line["input"], {})[line["work"], line["side"]] = int(line["nanoseconds"])
    return figures


def cases(figures, inputs):
    """Where this library is behind in a ratio that is to be reached, work after work."""
    for work in (*WORKS, "fmt"):
        for name, least in figures.items():
            if any(ratio.work == work and is_behind(ratio, name, least) for ratio in RATIOS):
                yield Case(work, inputs / name, least[work, "ours"])


def obstacle(folder):
    """What hinders sampling here, or nothing."""
    if not shutil.which("perf"):
        return "no perf (apt-get install linux-perf)"
    trial = subprocess.run([*SAMPLING, "-o", folder / "trial", "true"], stdout=subprocess.DEVNULL, stderr=subprocess.DEVNULL, check=False)
    return "perf may not sample here (see kernel.perf_event_paranoid)" if trial.returncode else ""


def entries(case, bench, folder):
    """The first entries of the profile of a work."""
    times, words = case.command(bench)
    loop = ["sh", "-c", LOOP, "sh", case.path, bench.out / "written", str(times), *words]
    subprocess.run([*SAMPLING, "--quiet", "--no-buildid-cache", "-o", folder / "samples", *loop], check=True)
    # What the shell took is left out.
    only = ["--comms", words[0].name[:NAME_LENGTH], "--percentage", "relative"]
    report = ["perf", "report", "--stdio", "--quiet", "--no-children", "-F", "overhead,symbol", "-i", folder / "samples", *only]
    lines = subprocess.run(report, stdout=subprocess.PIPE, check=True, text=True).stdout
    found = re.findall(r"^\s*([\d.]+)%\s+\[(.)\] (\S+)", lines, re.MULTILINE)
    return [Entry(float(share), symbol, mark == "k") for share, mark, symbol in found[:ENTRIES]]


def profile(case, bench, folder):
    """A line of the table."""
    print(f"bench: profile of {case.work} on {case.path.name}", file=sys.stderr)
    first = [str(entry) for entry in entries(case, bench, folder)]
    return row(case.work, short(case.path.name), *first, *[""] * (ENTRIES - len(first)))


def page(lines):
    """The whole page."""
    yield "# Where the time goes where this library is behind"
    yield ""
    yield f"- Date: {datetime.date.today()}. Commit: {commit()}. Processor: {processor()}."
    yield f"- `{' '.join(SAMPLING)}` of {said('perf', '--version')}, for some {SECONDS:g} s of each work: of one process, and of `fmt` of many, without the shell that runs them."
    yield ""
    yield "Each work on each input of which [table.md](table.md) has a ratio in bold, and the first entries of its profile: functions, and their shares of the samples."
    yield "A function that the compiler put in line is part of the one that it stands in. Of a name the last two parts are shown. `text` reads its tree once, which is sampled too."
    yield ""
    yield row("Work", "Input", "First", "Second", "Third")
    yield row(*["---"] * (ENTRIES + 2))
    yield from lines


def main():
    arguments = argparse.ArgumentParser()
    arguments.add_argument("out", type=pathlib.Path)
    arguments.add_argument("results", type=pathlib.Path)
    given = arguments.parse_args()
    with tempfile.TemporaryDirectory() as name:
        folder = pathlib.Path(name)
        hindered = obstacle(folder)
        if hindered:
            print(f"bench: {hindered}: profile.md is not written", file=sys.stderr)
            return
        bench = Bench(given.out)
        lines = [profile(case, bench, folder) for case in cases(read_figures(given.results), given.out / "inputs")]
    (given.results / "profile.md").write_text("\n".join(page(lines)) + "\n", encoding="utf-8")
    print(f"bench: {given.results}/profile.md is written", file=sys.stderr)


if __name__ == "__main__":
    main()
