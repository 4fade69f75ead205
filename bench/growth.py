#!/usr/bin/env python3
"""Measures how the time of each call grows with the input: growth.py PROGRAM prints a table, PROGRAM being the built facet_json_bench.

Each input is made in two sizes, the second four times the first. Time in proportion to the bytes gives a ratio of 4.
"""
import subprocess
import sys
import tempfile

SIZES = [1 << 19, 1 << 21]
WORKS = ["tokens", "scanner", "skip", "check", "events", "trusted", "document", "tree"]
TURNS = 5


def escapes(size):
    """one text, each character an escape"""
    return b'"' + b"\\n" * (size // 2) + b'"'


def far_escape(size):
    """one text, an escape and then characters that are not ASCII"""
    return b'"\\n' + "中".encode() * (size // 3) + b'"'


def pairs(size):
    """one text, an escape and a character that is not ASCII in turn"""
    return b'"' + "\\té".encode() * (size // 4) + b'"'


def brackets(size):
    """all `[`, then all `]`"""
    return b"[" * (size // 2) + b"]" * (size // 2)


def open_brackets(size):
    """all `[`"""
    return b"[" * size


def empty(size):
    """empty arrays in an array"""
    return b"[" + b"[]," * (size // 3) + b"]"


def number(size):
    """one number of digits"""
    return b"1" * size


def decimal(size):
    """one number with a fraction"""
    return b"0." + b"1" * size


def white(size):
    """white space before a number"""
    return b" \n" * (size // 2) + b"1"


def open_text(size):
    """a text without an end"""
    return b'"' + b"a" * size


def comment(size):
    """a comment without an end"""
    return b"/*" + b"a" * size


def openings(size):
    """a comment without an end, made of `/*`"""
    return b"/*" * (size // 2)


def stars(size):
    """a comment without an end, made of `*`"""
    return b"/" + b"*" * size


def comments(size):
    """comments in a list"""
    return b"[" + b"/**/1,//\n" * (size // 9) + b"]"


PLAIN = [escapes, far_escape, pairs, brackets, open_brackets, empty, number, decimal, white, open_text]
WITH_COMMENTS = [comment, openings, stars, comments]
# A scanner asks for more where the input ends within what may be longer, and our program goes on asking.
CUT = [number, decimal, white, open_text, comment, openings, stars]


def once(program, words, path):
    """The shortest of three times within one process, and whether the input was refused."""
    with open(path, "rb") as given:
        said = subprocess.run([program, *words], stdin=given, stdout=subprocess.PIPE, check=True).stdout.split()
    return int(said[0]), said[1] == b"refused"


def measured(program, words, make):
    """The shortest time of each size, the sizes taking turns, and whether the input was refused."""
    least, refused = [None] * len(SIZES), False
    with tempfile.TemporaryDirectory() as folder:
        paths = [f"{folder}/{size}" for size in SIZES]
        for size, path in zip(SIZES, paths):
            with open(path, "wb") as file:
                file.write(make(size))
        for _ in range(TURNS):
            for at, path in enumerate(paths):
                spent, refused = once(program, words, path)
                least[at] = min(spent, least[at] or spent)
    return least, refused


def cell(program, work, make):
    """How many times as long the larger input takes, and its nanoseconds a byte."""
    if work == "tree" and make in (brackets, open_brackets):
        return ""  # reading a tree recurses
    if work == "scanner" and make in CUT:
        return ""
    words = [work, "3"] + (["jsonc"] if make in WITH_COMMENTS else [])
    (small, large), refused = measured(program, words, make)
    return f"{large / small:.1f} ({large / SIZES[1]:.2f}{', refused' if refused else ''})"


def table(program):
    """The lines of a table: an input a line, a work a column."""
    yield "| Input | " + " | ".join(WORKS) + " |"
    yield "|" + " --- |" * (len(WORKS) + 1)
    for make in PLAIN + WITH_COMMENTS:
        yield f"| {make.__doc__} | " + " | ".join(cell(program, work, make) for work in WORKS) + " |"


if __name__ == "__main__":
    print("# Time in proportion to the bytes\n")
    print(f"How many times as long {SIZES[1] >> 10} KiB take as {SIZES[0] >> 10} KiB, where 4 is in proportion, and in brackets nanoseconds a byte of the larger.")
    print("`refused`: the input is no JSON text, and the time is that of finding so. No tree of deep arrays is read here, since that recurses.\n")
    for line in table(sys.argv[1]):
        print(line, flush=True)
