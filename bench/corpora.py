#!/usr/bin/env python3
"""Makes the inputs of the benchmark, the same ones at each run: corpora.py FOLDER [MEBIBYTES]

Decimals are written with as few digits as tell them apart, and no key stands twice in an object, so that every side writes the same
number of bytes. Nothing is nested deeper than 128, where serde_json stops by default.
"""
import json
import pathlib
import random
import shutil
import sys

SEED = 20_260
WORDS = "the quick brown fox jumps over a lazy dog while nobody minds it at all and then some more words follow on each line".split()
FOREIGN = ["今日は", "良い天気", "ですね", "中文字符", "在此", "привет", "мир", "Straße", "café", "naïve", "😀", "🚀✨", "한국어", "ελληνικά"]
REAL = ["/usr/share/iso-codes/json/iso_639-3.json", "/usr/share/iso-codes/json/iso_3166-2.json"]


def sentence(chance, words, least, most):
    """Some of the words."""
    return " ".join(chance.choice(words) for _ in range(chance.randint(least, most)))


def until(size, make):
    """Texts that are made until they fill so many bytes."""
    made, length = [], 0
    while length < size:
        made.append(make(len(made)))
        length += len(made[-1].encode()) + 1
    return made


def compact(value):
    """The text of a value without white space."""
    return json.dumps(value, ensure_ascii=False, separators=(",", ":"))


def post(chance, words, number):
    """A message as services of that kind send them: some short texts, numbers and literals, and little else."""
    user = {
        "id": chance.randrange(1 << 31),
        "name": sentence(chance, words, 1, 3),
        "screen_name": f"user_{chance.randrange(10**6)}",
        "description": sentence(chance, words, 4, 20),
        "url": None if chance.random() < 0.5 else f"https://example.org/{chance.randrange(10**6)}",
        "followers_count": chance.randrange(20_000),
        "verified": chance.random() < 0.1,
        "time_zone": None,
    }
    text = sentence(chance, words, 6, 24)
    if chance.random() < 0.25:
        text = f'{text}\n"{sentence(chance, words, 1, 4)}"'
    return {
        "created_at": f"Sun Aug 31 00:{number % 60:02}:{number % 47:02} +0000 2014",
        "id": 505_874_924_095_815_681 + number,
        "text": text,
        "truncated": False,
        "user": user,
        "in_reply_to": None,
        "retweet_count": chance.randrange(500),
        "entities": {"hashtags": [], "urls": [{"indices": [chance.randrange(60), 80]}], "user_mentions": []},
        "lang": chance.choice(["ja", "en", "de"]),
    }


def posts(chance, size):
    """Messages in ASCII, with some escapes."""
    return "[" + ",".join(until(size, lambda n: compact(post(chance, WORDS, n)))) + "]"


def posts_unicode(chance, size):
    """Messages half of whose words are not ASCII."""
    return "[" + ",".join(until(size, lambda n: compact(post(chance, WORDS[:14] + FOREIGN, n)))) + "]"


def posts_escaped(chance, size):
    """The same, each character that is not ASCII an escape."""
    words = WORDS[:14] + FOREIGN
    return "[" + ",".join(until(size, lambda n: json.dumps(post(chance, words, n), separators=(",", ":")))) + "]"


def catalogue(chance, size):
    """Products, printed with two spaces a level."""

    def product(number):
        return {
            "id": number,
            "title": sentence(chance, WORDS, 2, 6),
            "price": chance.randrange(100, 100_000) / 100,
            "in_stock": chance.random() < 0.7,
            "tags": [chance.choice(WORDS) for _ in range(chance.randrange(4))],
            "dimensions": {"width": chance.randrange(500), "height": chance.randrange(500), "depth": chance.randrange(500)},
            "reviews": [{"stars": chance.randrange(1, 6), "text": sentence(chance, WORDS, 3, 12)} for _ in range(chance.randrange(3))],
        }

    made = until(size, lambda n: json.dumps(product(n), indent=2).replace("\n", "\n    "))
    return '{\n  "products": [\n    ' + ",\n    ".join(made) + "\n  ]\n}\n"


def decimals(chance, size):
    """Points of outlines, as maps have them."""

    def outline(_):
        # Below a thousandth digits are written in more than one way.
        points = [[chance.choice([-1, 1]) * round(chance.uniform(0.001, limit), 6) for limit in (180, 90)] for _ in range(40)]
        return compact({"type": "Feature", "geometry": {"type": "Polygon", "coordinates": [points]}})

    return '{"type":"FeatureCollection","features":[' + ",".join(until(size, outline)) + "]}"


def whole_numbers(chance, size):
    """Whole numbers of one to nineteen digits, a third of them negative."""
    return "[" + ",".join(until(size, lambda _: str(chance.randrange(10 ** chance.choice([1, 2, 3, 6, 9, 18])) * chance.choice([1, 1, -1])))) + "]"


def deep(chance, size):
    """Arrays and objects in one another, 100 deep."""

    def tower(_):
        kinds = [chance.random() < 0.5 for _ in range(98)]
        opening = "".join('{"a":' if is_object else "[" for is_object in kinds)
        closing = "".join("}" if is_object else "]" for is_object in reversed(kinds))
        return opening + str(chance.randrange(100)) + closing

    return "[" + ",".join(until(size, tower)) + "]"


def long_texts(chance, size):
    """Texts of some kilobytes without an escape."""
    return "[" + ",".join(until(size, lambda _: compact(sentence(chance, WORDS, 400, 4_000)))) + "]"


def records(chance, size):
    """Objects of five members each, as a table of a database is exported."""

    def record(number):
        name = f"{chance.choice(WORDS)} {chance.choice(WORDS)}"
        return compact({"id": number, "name": name, "city": chance.choice(WORDS), "age": chance.randrange(18, 90), "active": chance.random() < 0.5})

    return "[" + ",".join(until(size, record)) + "]"


def account(number):
    """An object of ten members, as the program's typed reader knows it."""
    return {
        "id": number,
        "name": f"user{number}",
        "email": f"user{number}@example.org",
        "active": number % 3 == 0,
        "age": 18 + number % 60,
        "score": number % 2001 - 1000,
        "visits": number * 7919 % 1_000_003,
        "city": None if number % 5 == 0 else f"town{number % 97}",
        "tags": ["a", "b"][: number % 3],
        "parent": None if number % 2 else number // 2,
    }


def accounts(chance, size):
    """A list of ten thousand of them."""
    return compact([account(number) for number in range(10_000)])


def one_account(chance, size):
    """A list of one."""
    return compact([account(7)])


def accounts_indented(chance, size):
    """The ten thousand, printed with two spaces a level."""
    return json.dumps([account(number) for number in range(10_000)], indent=2) + "\n"


def accounts_reversed(chance, size):
    """The ten thousand, the members of each in reverse order."""
    return compact([dict(reversed(account(number).items())) for number in range(10_000)])


def coordinate(chance, limit):
    """A decimal of at most six digits after its point, not below a thousandth."""
    return chance.choice([-1, 1]) * round(chance.uniform(0.001, limit), 6)


def points(chance, size):
    """A list of ten thousand points of a space, as the program's type with serde's derives knows them."""
    return compact([{"x": coordinate(chance, 180), "y": coordinate(chance, 90), "z": coordinate(chance, 1_000)} for _ in range(10_000)])


def shape(number):
    """What a shape is called, and its members."""
    if number % 3 == 0:
        return "circle", {"radius": number}
    if number % 3 == 1:
        return "box", {"width": number * 3 % 1_000, "height": number % 77}
    return "label", {"text": f"label {number}", "bold": number % 2 == 0}


def shapes(chance, size):
    """A list of ten thousand shapes, whose kind is a member."""
    return compact([{"kind": kind, **members} for kind, members in map(shape, range(10_000))])


def outlines(chance, size):
    """A list of ten thousand shapes, whose kind is a key around the members."""
    return compact([{kind: members} for kind, members in map(shape, range(10_000))])


def log(chance, size):
    """Lines of a log of some 400 bytes, each an object of nine members."""

    def line(number):
        return compact(
            {
                "time": f"2026-11-{number % 28 + 1:02}T{number % 24:02}:{number % 60:02}:{number % 59:02}.{number % 1000:03}Z",
                "host": f"node-{number % 40}.example.org",
                "service": chance.choice(["search", "accounts", "checkout", "mail"]),
                "method": chance.choice(["GET", "POST", "PUT"]),
                "path": f"/{'/'.join(chance.choice(WORDS) for _ in range(4))}?page={number % 90}",
                "agent": f"Mozilla/5.0 ({sentence(chance, WORDS, 14, 18)}) {chance.randrange(90, 130)}.0",
                "client": {"address": f"10.0.{number % 256}.{number % 199}", "port": chance.randrange(1_024, 65_536)},
                "status": chance.choice([200, 200, 200, 204, 301, 404, 500]),
                "message": sentence(chance, WORDS, 10, 16),
            }
        )

    return "\n".join(until(size, line)) + "\n"


def settings(chance, size):
    """Settings with comments of both kinds."""

    def setting(number):
        note = f"// {sentence(chance, WORDS, 3, 12)}\n  " if number % 2 else f"/* {sentence(chance, WORDS, 3, 12)} */ "
        return f'{note}"{chance.choice(WORDS)}.{number}": {chance.choice(["true", "false", str(number), compact(sentence(chance, WORDS, 1, 5))])}'

    return "// Settings.\n{\n  " + ",\n  ".join(until(size, setting)) + "\n}\n"


MADE = {
    "posts.json": posts,
    "posts-unicode.json": posts_unicode,
    "posts-escaped.json": posts_escaped,
    "catalogue.json": catalogue,
    "decimals.json": decimals,
    "whole-numbers.json": whole_numbers,
    "deep.json": deep,
    "long-texts.json": long_texts,
    "records.json": records,
    "accounts.json": accounts,
    "one-account.json": one_account,
    "accounts-indented.json": accounts_indented,
    "accounts-reversed.json": accounts_reversed,
    "points.json": points,
    "shapes.json": shapes,
    "outlines.json": outlines,
    "log.jsonl": log,
    "settings.jsonc": settings,
}


def main():
    folder = pathlib.Path(sys.argv[1])
    size = int(float(sys.argv[2] if len(sys.argv) > 2 else 2) * (1 << 20))
    folder.mkdir(parents=True, exist_ok=True)
    for name, make in MADE.items():
        (folder / name).write_text(make(random.Random(f"{SEED} {name}"), size), encoding="utf-8")
    for path in map(pathlib.Path, REAL):
        if path.exists():
            shutil.copyfile(path, folder / path.name)
        else:
            print(f"bench: no {path} (Debian's package iso-codes has it), so it is left out", file=sys.stderr)


if __name__ == "__main__":
    main()
