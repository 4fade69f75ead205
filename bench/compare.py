#!/usr/bin/env python3
"""Has each side do the same work on the same inputs, in turns, and writes tables of the shortest times.

compare.py OUT RESULTS [--turns N] [--before PROGRAM]: OUT has the built programs and the inputs. `bench/run` calls this. What is measured of an
older program stands in OUT/before.md alone.
"""
import argparse
import csv
import dataclasses
import datetime
import os
import pathlib
import platform
import shutil
import subprocess
import sys

# The works on types with serde's derives, by the input of each.
DERIVES = {
    "accounts.json": ("derive", "derive-text"),
    "points.json": ("points", "points-text"),
    "shapes.json": ("shapes", "shapes-text"),
    "outlines.json": ("outlines", "outlines-text"),
}
# What a work is called by each side. Where a side has none, it has no name for it.
WORKS = {
    "tokens": {"ours": "tokens", "before": "tokens"},
    "scanner": {"ours": "scanner"},
    "skip": {"ours": "skip", "serde_json": "skip"},
    "events": {"ours": "events", "serde_json": "events", "simdjson": "walk", "rapidjson": "sax", "before": "events"},
    "trusted": {"ours": "trusted", "serde_json": "trusted"},
    "tree": {"ours": "tree", "serde_json": "tree", "simdjson": "tape", "rapidjson": "dom", "before": "tree"},
    "document": {"ours": "document", "serde_json": "tree", "simdjson": "tape", "rapidjson": "dom"},
    "check": {"ours": "check", "serde_json": "skip", "simdjson": "tape"},
    "text": {"ours": "text", "serde_json": "text", "rapidjson": "write", "before": "text"},
    "document-text": {"ours": "document-text"},
    "typed": {"ours": "typed", "serde_json": "typed", "before": "typed"},
    "typed-lent": {"ours": "typed-lent", "serde_json": "typed-lent"},
    "typed-text": {"ours": "typed-text", "serde_json": "typed-text"},
    "log": {"ours": "log", "serde_json": "log", "simdjson": "log"},
    **{work: {"ours": work, "kit": f"{work}-kit"} for works in DERIVES.values() for work in works},
}
# The inputs of which the program has a typed reader, and the one that is too short for all but it and the tree.
ONE = "one-account.json"
TYPED = ("accounts.json", ONE)
OF_TYPES = ("typed", "typed-lent", "typed-text")
# The same structs in other layouts, read alone.
INDENTED, REVERSED = "accounts-indented.json", "accounts-reversed.json"
RELAID = (INDENTED, REVERSED)
# The input that has a document on each line.
LINES = "log.jsonl"
# The inputs that are for types with derives alone.
OF_DERIVES = tuple(DERIVES)[1:]


def suits(work, name):
    """Whether the work is done on the input of this name."""
    if name in OF_DERIVES or any(work in works for works in DERIVES.values()):
        return work in DERIVES.get(name, ())
    if work == "log" or name == LINES:
        return work == "log" and name == LINES
    if name == ONE:
        return work in (*OF_TYPES, "tree")
    if name in RELAID:
        return work in ("typed", "typed-lent")
    return work not in OF_TYPES or name in TYPED
PROGRAMS = {"ours": "facet_json_bench", "kit": "facet_json_bench", "serde_json": "serde_peer", "simdjson": "simdjson_peer",
            "rapidjson": "rapidjson_peer"}
PROCESSES = {"ours": ["facet_json_tool", "fmt"], "serde_json": ["fmt_tree"], "serde_json, sorted": ["fmt_sorted"], "serde_json, no tree": ["fmt_pass"]}
# What a side is called in the table, where it has another name.
TITLES = {"ours": "this library", "kit": "the toolchain's serde_json"}
# Programs of the machine that format a document, each in its own way, and so are run once a turn.
FORMATTERS = {"jq": ["jq", "-c", "."], "json.tool": ["python3", "-m", "json.tool", "--compact"]}


@dataclasses.dataclass
class Ratio:
    """How many times as fast the first is as the second, each a work and a side, and the ratio that is wanted."""

    title: str
    work: str
    beside: str
    side: str
    wanted: float = 0.0
    on: tuple = ()
    # what is wanted on inputs that are like no others
    apart: dict = dataclasses.field(default_factory=dict)


RATIOS = [
    Ratio("tokens / simdjson's walk", "tokens", "events", "simdjson", 1.2),
    Ratio("scanner / simdjson's walk", "scanner", "events", "simdjson"),
    Ratio("skip / our tokens", "skip", "tokens", "ours", 1.0),
    Ratio("skip / serde_json's", "skip", "skip", "serde_json"),
    Ratio("events / simdjson's walk", "events", "events", "simdjson", 0.6),
    Ratio("events / serde_json's", "events", "events", "serde_json"),
    Ratio("events / RapidJSON's SAX", "events", "events", "rapidjson"),
    Ratio("trusted / checking", "trusted", "events", "ours", 1.2, ("posts-unicode.json",)),
    Ratio("tree / serde_json's Value", "tree", "tree", "serde_json", 1.5),
    Ratio("tree / simdjson's tape", "tree", "tree", "simdjson"),
    Ratio("tree / RapidJSON's DOM", "tree", "tree", "rapidjson"),
    Ratio("document / simdjson's tape", "document", "document", "simdjson", 0.9),
    Ratio("document / RapidJSON's DOM", "document", "document", "rapidjson", 3.0),
    Ratio("document / our tree", "document", "tree", "ours", 8.0),
    Ratio("document written / our to_vec", "document-text", "text", "ours", 2.0),
    Ratio("check / simdjson's tape", "check", "check", "simdjson", 1.0),
    Ratio("check / our events", "check", "events", "ours", 1.4),
    Ratio("typed / our tree", "typed", "tree", "ours", 1.0, TYPED),
    Ratio("typed / serde's derive", "typed", "typed", "serde_json", 1.4, ("accounts.json",), {ONE: 1.1, INDENTED: 1.2, REVERSED: 1.0}),
    Ratio("typed-lent / serde's derive", "typed-lent", "typed-lent", "serde_json", 1.5, ("accounts.json",), {ONE: 1.2}),
    Ratio("typed to_vec / serde's derive", "typed-text", "typed-text", "serde_json", 1.3, ("accounts.json",)),
    Ratio("log / serde's derive", "log", "log", "serde_json", 1.8),
    Ratio("log / simdjson's iterate_many", "log", "log", "simdjson", 0.65),
    Ratio("derive / the toolchain's serde_json", "derive", "derive", "kit", 1.2, ("accounts.json",)),
    Ratio("derived to_vec / the toolchain's", "derive-text", "derive-text", "kit", 1.0, ("accounts.json",)),
    Ratio("points / the toolchain's", "points", "points", "kit", 1.2, ("points.json",)),
    Ratio("points to_vec / the toolchain's", "points-text", "points-text", "kit", 1.0, ("points.json",)),
    Ratio("shapes / the toolchain's", "shapes", "shapes", "kit", 1.0, ("shapes.json",)),
    Ratio("shapes to_vec / the toolchain's", "shapes-text", "shapes-text", "kit", 1.0, ("shapes.json",)),
    Ratio("outlines / the toolchain's", "outlines", "outlines", "kit", 1.0, ("outlines.json",)),
    Ratio("outlines to_vec / the toolchain's", "outlines-text", "outlines-text", "kit", 1.0, ("outlines.json",)),
    Ratio("to_vec / serde_json's", "text", "text", "serde_json", 1.2),
    Ratio("to_vec / RapidJSON's writer", "text", "text", "rapidjson"),
    Ratio("fmt / serde_json by a Value", "fmt", "fmt", "serde_json", 2.0),
    Ratio("fmt / the same, members sorted", "fmt", "fmt", "serde_json, sorted"),
    Ratio("fmt / serde_json without a Value", "fmt", "fmt", "serde_json, no tree"),
    Ratio("fmt / jq -c", "fmt", "fmt", "jq"),
    Ratio("fmt / python3 -m json.tool", "fmt", "fmt", "json.tool"),
]
SINCE = [
    Ratio("tokens / before", "tokens", "tokens", "before"),
    Ratio("events / before", "events", "events", "before"),
    Ratio("tree / before", "tree", "tree", "before"),
    Ratio("to_vec / before", "text", "text", "before"),
    Ratio("typed / before", "typed", "typed", "before"),
]


class Bench:
    """The programs, and how often each is run."""

    def __init__(self, out, turns=1, before=None):
        self.out = out
        self.turns = turns
        # Short, so that each side has its share of the times at which the machine is fast.
        self.seconds = 0.02
        # The first two rounds of a process pay for memory that is new to it.
        self.fewest = 6
        self.programs = {side: out / name for side, name in PROGRAMS.items() if (out / name).exists()}
        if before:
            self.programs["before"] = pathlib.Path(before).resolve()
        self.processes = {side: [out / words[0], *words[1:]] for side, words in PROCESSES.items() if (out / words[0]).exists()}
        self.formatters = {side: words for side, words in FORMATTERS.items() if shutil.which(words[0])}
        if "ours" not in self.processes:
            print("bench: no facet_json_tool: without fmt", file=sys.stderr)
            self.processes = self.formatters = {}

    def words(self, side, name, rounds, path):
        """The program that does the work so many times, and its arguments."""
        return [self.programs[side], name, str(rounds)] + (["jsonc"] if path.suffix == ".jsonc" else [])

    def once(self, side, name, rounds, path):
        """The shortest time in nanoseconds within one process, and what the work passed."""
        with open(path, "rb") as given:
            said = subprocess.run(self.words(side, name, rounds, path), stdin=given, stdout=subprocess.PIPE, check=True).stdout.split()
        return int(said[0]), (int(said[1]), int(said[2]))

    def works(self, path):
        """What each side does with the input: a work, a side and its name for the work."""
        for work, names in WORKS.items():
            if not suits(work, path.name):
                continue
            for side, name in names.items():
                if side in self.programs and (path.suffix != ".jsonc" or side in ("ours", "before")):
                    yield work, side, name

    def measure(self, path):
        """The shortest time of each work of each side in nanoseconds: the sides take turns at each work."""
        rounds, seen, least = {}, {}, {}
        for work, side, name in self.works(path):
            spent, seen[work, side] = self.once(side, name, 2, path)
            rounds[work, side] = max(self.fewest, min(400, int(self.seconds * 1e9 / max(spent, 1))))
        self.agree(path, seen)
        for _ in range(self.turns):
            for work, side, name in self.works(path):
                spent, _ = self.once(side, name, rounds[work, side], path)
                least[work, side] = min(spent, least.get((work, side), spent))
            self.format(path, least)
        return least

    def agree(self, path, seen):
        """Stops where two sides did not pass the same."""
        for work in ("events", "trusted", "text", "typed-text", "log", *(work for works in DERIVES.values() for work in works)):
            # RapidJSON writes doubles in a form of its own.
            passed = {side: what for (done, side), what in seen.items() if done == work and (work, side) != ("text", "rapidjson")}
            if len(set(passed.values())) > 1:
                sys.exit(f"bench: {path.name}: the sides do not agree on {work}: {passed}")
        if seen.get(("tokens", "ours")) != seen.get(("scanner", "ours")) or seen.get(("events", "ours")) != seen.get(("trusted", "ours")):
            sys.exit(f"bench: {path.name}: two ways of one side do not agree: {seen}")

    def format(self, path, least):
        """Runs each process that writes the document anew, three times in turn."""
        if path.suffix == ".jsonc" or path.name in (ONE, LINES, *RELAID, *OF_DERIVES):
            return
        written = {}
        for _ in range(3):
            for side, words in self.processes.items():
                text = self.process(side, words, path, least)
                if side != "serde_json, sorted":
                    written[side] = text
        if len(set(written.values())) > 1:
            sys.exit(f"bench: {path.name}: the sides wrote different texts")
        for side, words in self.formatters.items():
            self.process(side, words, path, least)

    def process(self, side, words, path, least):
        """Runs a process once, notes its time if it is the shortest, and answers what it wrote."""
        target = self.out / "written"
        with open(path, "rb") as given, open(target, "wb") as into:
            ran = subprocess.Popen(words, stdin=given, stdout=into)
            _, status, used = os.wait4(ran.pid, 0)
        if status:
            sys.exit(f"bench: {pathlib.Path(words[0]).name} ended with {status} on {path.name}")
        spent = int((used.ru_utime + used.ru_stime) * 1e9)
        least["fmt", side] = min(spent, least.get(("fmt", side), spent))
        return target.read_bytes()


def said(*words):
    """The first line that a command prints, or nothing."""
    try:
        lines = subprocess.run(words, stdout=subprocess.PIPE, stderr=subprocess.DEVNULL, check=True, text=True).stdout.splitlines()
        return lines[0].strip() if lines else ""
    except (OSError, subprocess.CalledProcessError):
        return ""


def package(name):
    """The version of a package of Debian."""
    return said("dpkg-query", "-W", "-f", "${Version}", name)


def processor():
    """The processor's name."""
    lines = pathlib.Path("/proc/cpuinfo").read_text(encoding="utf-8").splitlines()
    return next((line.split(":")[1].strip() for line in lines if line.startswith("model name")), platform.machine())


def commit():
    """The commit that is checked out here."""
    here = pathlib.Path(__file__).resolve().parent
    return said("git", "-C", str(here), "rev-parse", "--short=12", "HEAD")


def circumstances(bench):
    """Lines of where and how the times were taken."""
    compiler = os.environ.get("CXX", "g++")
    target = os.environ.get("BENCH_TARGET", "native")
    yield f"Date: {datetime.date.today()}. Commit: {commit()}. Command: `{os.environ.get('BENCH_COMMAND', ' '.join(['python3', *sys.argv]))}`."
    yield f"Processor: {processor()}."
    yield f"This library: proved and built by `{said('rt', 'version')}`, for x86-64-v2."
    if "serde_json" in bench.programs:
        yield f"serde_json: {package('librust-serde-json-dev')} of Debian, by {said('rustc', '--version')}, `opt-level=3`, fat LTO, one codegen unit, `target-cpu={target}`."
    if "simdjson" in bench.programs:
        yield f"simdjson: {package('libsimdjson-dev')} of Debian, by {said(compiler, '--version')}, `-O3 -march={target}`, kernels {said(str(bench.programs['simdjson']), 'kernel')}."
    if "rapidjson" in bench.programs:
        yield f"RapidJSON: {package('rapidjson-dev')} of Debian, by {said(compiler, '--version')}, `-O3 -march={target}`, its SSE kernels on, the encoding checked."
    if "jq" in bench.formatters:
        yield f"jq: {said('jq', '--version')}; json.tool: {said('python3', '--version')}."
    yield f"iso-codes: {package('iso-codes') or 'missing'}. The other inputs are made by `bench/corpora.py`."
    yield f"Each figure: the shortest of {bench.turns} turns of some {int(bench.seconds * 1000)} ms of the thread's processor time, {bench.fewest} rounds at least."
    if bench.processes:
        yield f"`fmt`: the processor time of a whole process, the shortest of {bench.turns * 3} runs."
    else:
        yield "`fmt` is not measured: the program was not built."


def ratio_of(ratio, least):
    """How many times as fast, or nothing."""
    ours, theirs = least.get((ratio.work, "ours")), least.get((ratio.beside, ratio.side))
    return theirs / ours if ours and theirs else None


def wanted_on(ratio, name):
    """The ratio that is to be reached on the input, if one is."""
    if name in (ONE, *RELAID):
        return ratio.apart.get(name, 0.0)
    return ratio.wanted if not ratio.on or name in ratio.on else 0.0


def is_behind(ratio, name, least):
    """Whether a ratio is to be reached on the input, and isn't."""
    value = ratio_of(ratio, least)
    return value is not None and value < wanted_on(ratio, name)


def cell(ratio, name, least):
    """A ratio as the table shows it: bold where it is behind what is wanted."""
    value = ratio_of(ratio, least)
    if value is None:
        return ""
    return f"**{value:.2f}**" if is_behind(ratio, name, least) else f"{value:.2f}"


def row(*cells):
    """A line of a table."""
    return "| " + " | ".join(cells) + " |"


def short(name):
    """An input's name in a table."""
    return name.removesuffix(".json")


def ratios_table(ratios, figures):
    """The ratios, an input a line."""
    used = [ratio for ratio in ratios if any(ratio_of(ratio, least) for least in figures.values())]
    yield row("Input", *(ratio.title for ratio in used))
    yield row(*["---"] * (len(used) + 1))
    if any(ratio.wanted for ratio in used):
        yield row("*to reach*", *((f"*{ratio.wanted}*" if ratio.wanted else "") for ratio in used))
    for name, least in figures.items():
        yield row(short(name), *(cell(ratio, name, least) for ratio in used))


def reached(ratio, figures):
    """The inputs on which what is wanted is reached, the fastest first, and those on which it isn't, the slowest first."""
    found = [(ratio_of(ratio, least), name) for name, least in figures.items() if wanted_on(ratio, name)]
    found = sorted((value, name) for value, name in found if value is not None)
    said = lambda pairs: ", ".join(f"`{short(name)}` ({value:.2f})" for value, name in pairs) or "none"
    is_reached = lambda it: it[0] >= wanted_on(ratio, it[1])
    return said([it for it in reversed(found) if is_reached(it)]), said([it for it in found if not is_reached(it)])


def reached_table(ratios, figures):
    """What is to be reached, and on which inputs it is."""
    yield row("Ratio", "To reach", "Reached on", "Behind on")
    yield row(*["---"] * 4)
    for ratio in ratios:
        if ratio.wanted and any(ratio_of(ratio, least) for least in figures.values()):
            aim = ", ".join([str(ratio.wanted), *(f"`{short(name)}` {value}" for name, value in ratio.apart.items())])
            yield row(ratio.title, aim, *reached(ratio, figures))


def speeds_table(side, sizes, figures):
    """Megabytes a second of one side, an input a line."""
    works = [work for work in (*WORKS, "fmt") if any((work, side) in least for least in figures.values())]
    yield row("Input", "MB", *works)
    yield row(*["---"] * (len(works) + 2))
    for name, least in figures.items():
        if any(other == side for _, other in least):
            speeds = (f"{sizes[name] / least[work, side] * 1e3:,.0f}" if (work, side) in least else "" for work in works)
            yield row(short(name), f"{sizes[name] / 1e6:.2f}", *speeds)


def table(bench, sizes, figures):
    """The whole page."""
    yield "# This library beside serde_json, simdjson and RapidJSON"
    yield ""
    yield from (f"- {line}" for line in circumstances(bench))
    yield ""
    yield "## How many times as fast"
    yield ""
    yield "Above 1 this library is faster. Bold: less than is to be reached. What each work is: `bench/README.md`."
    yield ""
    yield from ratios_table(RATIOS, figures)
    yield ""
    yield "## Where that is reached"
    yield ""
    yield from reached_table(RATIOS, figures)
    for side in dict.fromkeys(side for least in figures.values() for _, side in least if side != "before"):
        yield ""
        yield f"## MB a second: {TITLES.get(side, side)}"
        yield ""
        yield from speeds_table(side, sizes, figures)


def main():
    arguments = argparse.ArgumentParser()
    arguments.add_argument("out", type=pathlib.Path)
    arguments.add_argument("results", type=pathlib.Path)
    arguments.add_argument("--turns", type=int, default=9)
    arguments.add_argument("--before")
    given = arguments.parse_args()
    results = given.results
    results.mkdir(parents=True, exist_ok=True)
    bench = Bench(given.out, given.turns, given.before)
    figures, sizes = {}, {}
    for path in sorted((given.out / "inputs").iterdir()):
        print(f"bench: {path.name}", file=sys.stderr)
        sizes[path.name] = path.stat().st_size
        figures[path.name] = bench.measure(path)
    (results / "table.md").write_text("\n".join(table(bench, sizes, figures)) + "\n", encoding="utf-8")
    with open(results / "figures.csv", "w", encoding="utf-8", newline="") as file:
        lines = csv.writer(file, lineterminator="\n")
        lines.writerow(["input", "bytes", "work", "side", "nanoseconds"])
        lines.writerows([name, sizes[name], *key, spent] for name, least in figures.items() for key, spent in least.items() if key[1] != "before")
    print(f"bench: {results}/table.md and figures.csv are written", file=sys.stderr)
    if given.before:
        (given.out / "before.md").write_text("\n".join(ratios_table(SINCE, figures)) + "\n", encoding="utf-8")
        print(f"bench: {given.out}/before.md is written", file=sys.stderr)


if __name__ == "__main__":
    main()
