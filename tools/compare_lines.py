#!/usr/bin/env python3
"""Makes up lines, good and bad, and compares what two programs answer them, byte for byte.

The lines are the same in each run with one seed. They ask for every command and report, with each field there, absent,
null, of another type or out of its range, members too many or twice and in any order, unknown commands, bad keys and
days, and bytes that are no JSON. In a share of them rows are said by names, ways, keys and serials, which are faults
without the word that allows them. A file of lines may be given too: each is sent whole to both programs.

usage: tools/compare_lines.py OLD NEW [--lines N] [--seed N] [--names SHARE] [FILE..]"""
import json
import pathlib
import random
import sys

from machine.lines import FIELDS, FLAGS, REPORTS, ROWS, SIDES, STATUSES
from shared import reader_of_words, run


def kind_of(kind, is_optional):
    """What is made up for a field of a kind."""
    kind = {"number": "quantity", "row": "number", "rows": "numbers"}.get(kind, kind)
    return f"maybe_{kind}" if is_optional else kind


COMMANDS = {do: {name: kind_of(*of) for name, *of in fields} for do, fields in FIELDS.items()}
# What fields that say rows are called, in whatever command.
ROW_NAMES = {name for tables in ROWS.values() for name in tables} | {"of"}
LATER = "consumes build_line output complete auto_allocates".split()
STRANGE = [None, True, False, 0, 1, -1, 1.5, "", "x", "7", [], [1], ["x"], [None], {}, {"a": 1}, 2**64, 10**30, -0.0]
# Numbers as they may be spelled: a number with a sign, a fraction or an exponent is none.
SPELLED = ["1e3", "1.0", "-0", "1E0", "18446744073709551615", "18446744073709551616", "0.5", "-1"]


class Spelled(str):
    """A number as it is spelled on the line."""


def text(r):
    letters = "abcXYZ 09-_.,;\"\\/é漢\u0001\u007f\n"
    numbered = [f"{word} {r.randint(1, 10**6)}" for word in ("Part", "Part", "Hall")]
    return r.choice(["A", "B", "Screw", *numbered, "a" * 200, "a" * 201, "é" * 100, "é" * 101, "",
                     "".join(r.choice(letters) for _ in range(r.randint(1, 12)))])


def serials(r):
    return r.choice([f"S{r.randint(1, 400)}", f"{r.randint(1, 99)}", "1-3", "7-7", "9-3", "1-1000", "1-1001", "01-2",
                     "a,b", "a,,b", ",", "", "a b", "x" * 24, "x" * 25, "3-5,A-1", "A.1,B_2,C/3", "é",
                     "999999999999999998-999999999999999999", f"{r.randint(1, 50)}-{r.randint(1, 99)}"])


def value(r, kind):
    """A value of the kind, in its range most often."""
    if kind == "number":
        return r.choice([r.randint(1, 18)] * 8 + [r.randint(1, 400), 0, r.randint(1, 10**6), 2**64 - 1])
    if kind == "maybe_number":
        return r.choice([None, None, r.randint(1, 18)])
    if kind == "quantity":
        return r.choice([1, 1, 2, 3, r.randint(1, 1000), 10**9, 10**9 + 1, 0])
    if kind == "text":
        return text(r)
    if kind == "maybe_text":
        return r.choice([None, text(r), "B-7"])
    if kind == "yes":
        return r.random() < 0.5
    if kind == "flags":
        chosen = r.sample(FLAGS, r.randint(0, 4))
        if r.random() < 0.1:
            chosen.append(r.choice(FLAGS + ["Template", "", "trackable "]))
        return chosen
    if kind == "status":
        return r.choice(STATUSES + ["ok", "", "Lost "])
    if kind == "side":
        return r.choice(SIDES + SIDES + ["Sale", "", "purchases"])
    if kind == "serials":
        return serials(r)
    if kind == "maybe_serials":
        return r.choice([None, None, serials(r)])
    return [r.randint(1, 400) for _ in range(r.choice([0, 1, 1, 2, 3, 5, 101]))]


def damaged(r, members):
    """The members with one thing wrong or unusual."""
    at = r.randrange(len(members))
    name, held = members[at]
    way = r.randrange(9)
    if way == 0:
        del members[at]
    elif way == 1:
        members[at] = (name, None)
    elif way in (2, 3):
        members[at] = (name, r.choice(STRANGE))
    elif way == 4:
        members[at] = (name, Spelled(r.choice(SPELLED)))
    elif way == 5:
        more = r.choice(["of", "report", "item", "name", "Name", "side", "", "keys"])
        members.append((more, r.choice([1, "x", None])))
    elif way == 6:
        members.append((name, r.choice([held] + STRANGE)))
    elif way == 7:
        if isinstance(held, list):
            members[at] = (name, held + [r.choice(STRANGE)])
        else:
            members[at] = (name, [held])
    else:
        members[at] = (r.choice([name.upper(), name + "s", name[:-1]]), held)


def spelled(held):
    if isinstance(held, Spelled):
        return str(held)
    return json.dumps(held, ensure_ascii=False)


def called(r):
    """What a row may be said by where names are allowed, and what is near it."""
    name, other = (r.choice([text(r), "Motor", "Robot", "Sold", "Hall"]) for _ in range(2))
    key = r.choice([f"k{r.randint(1, 3000)}"] * 6 + ["none", "", "a b"])
    part = r.choice([2, 3, 7, "Motor", "Robot", name])
    serial = r.choice([f"S{r.randint(1, 400)}", "R-1", "A-1", "A-2", serials(r)])
    return r.choice([
        name, name, "Motor", "Hall", [name], ["Hall", name], [name, other], [], [name, 7], [[name]], {}, {"key": key},
        {"key": key}, {"key": r.choice([7, None, [key]])}, {"key": key, "x": 1}, {"part": part, "serial": serial},
        {"part": part, "serial": serial}, {"part": part}, {"serial": serial}, {"part": part, "serial": serial, "x": 1},
        {"part": r.choice([None, -1, [name], {"key": key}]), "serial": serial}, {"part": part, "serial": 7},
        Spelled('{"key":"none","key":"k1"}'), Spelled('{"part":2,"serial":"none","part":3,"serial":"R-1"}')])


def by_names(r, members):
    """The members, with some of their rows said by what they are called."""
    for at, (name, held) in enumerate(members):
        if name in ROW_NAMES and r.random() < 0.6:
            members[at] = (name, [called(r) for _ in held] if isinstance(held, list) else called(r))


def line_of(r, members):
    space = r.choice(["", "", "", " "])
    return "{" + f",{space}".join(f"{json.dumps(name)}:{space}{spelled(held)}" for name, held in members) + "}"


def request(r):
    verb = r.choice(list(COMMANDS))
    members = [("do", verb)]
    if r.random() < 0.85:
        members += [(name, value(r, kind)) for name, kind in COMMANDS[verb].items()]
    else:
        members += [(name, value(r, kind)) for name, kind in COMMANDS[verb].items() if r.random() < 0.8]
    members.append(("day", r.choice(["2030-01-02"] * 90 + ["2030-02-30", "1999-12-31", "2100-01-01", "2030-1-2", ""])))
    if r.random() < 0.3:
        members.append(("key", r.choice([f"k{r.randint(1, 3000)}"] * 60 + ["", "a b", "k" * 80, "k" * 81, "é"])))
    return members


def report(r):
    return [("report", r.choice([*REPORTS, "Ledger", ""])), ("of", value(r, "number"))]


def made_up(r, named, share):
    """One line, as bytes; in such a share of the lines rows are said by what they are called, as `named` chooses."""
    way = r.random()
    members = report(r) if way < 0.05 else request(r)
    if r.random() < 0.02:
        members = [(n, r.choice(LATER + ["Found", "", "found "])) if n == "do" else (n, h) for n, h in members]
    for _ in range(r.choice([0, 0, 0, 1, 1, 2])):
        if members:
            damaged(r, members)
    if named.random() < share:
        by_names(named, members)
    if r.random() < 0.5:
        r.shuffle(members)
    line = line_of(r, members).encode()
    if r.random() < 0.02:
        cut = r.randrange(len(line) + 1)
        line = r.choice([line[:cut], line + line[:cut], line[:cut] + b"\xff" + line[cut:], b"[" + line + b"]", b"null",
                         b"", b"7", b'"x"', line[:-1] + b" " * 70_000 + b"}"])
    return line.replace(b"\n", b" ")


def lines(count, seed, share=0.0):
    """So many lines. What rows are called by is chosen by random numbers of its own, so that the other lines are the
    same whatever the share is."""
    r, named = random.Random(seed), random.Random(f"names {seed}")
    first = [b'{"day":"2030-01-02","do":"add_location","name":"Hall"}',
             b'{"day":"2030-01-02","do":"add_part","name":"Motor","flags":["component","trackable"]}',
             b'{"day":"2030-01-02","do":"add_part","name":"Robot","flags":["assembly","component","trackable"]}',
             b'{"day":"2030-01-02","do":"add_line","assembly":3,"component":2,"quantity":2}',
             b'{"day":"2030-01-02","do":"found","part":2,"location":1,"quantity":1000}',
             b'{"day":"2030-01-02","do":"found","part":3,"location":1,"quantity":1,"serials":"R-1"}',
             b'{"day":"2030-01-02","do":"add_part","name":"Sold","flags":["component","purchaseable","salable"]}',
             b'{"day":"2030-01-02","do":"order","side":"purchase","partner":"Acme"}',
             b'{"day":"2030-01-02","do":"order_line","order":8,"part":7,"quantity":1000000}',
             b'{"day":"2030-01-02","do":"issue_order","order":8}',
             b'{"day":"2030-01-02","do":"order","side":"sale","partner":"Best"}',
             b'{"day":"2030-01-02","do":"order_line","order":10,"part":7,"quantity":1000000}',
             b'{"day":"2030-01-02","do":"issue_order","order":10}',
             b'{"day":"2030-01-02","do":"receive","line":9,"location":1,"quantity":1000}',
             b'{"day":"2030-01-02","do":"add_line","assembly":3,"component":7,"quantity":2}',
             b'{"day":"2030-01-02","do":"build","part":3,"quantity":1000}',
             b'{"day":"2030-01-02","do":"issue_build","build":14}',
             b'{"day":"2030-01-02","do":"outputs","build":14,"quantity":3,"serials":"A-1,A-2,A-3"}',
             b'{"day":"2030-01-02","do":"build","part":3,"quantity":1000000}']
    return first + [made_up(r, named, share) for _ in range(count - len(first))]


def answers(program, sent):
    done = run(program, lines=sent)
    return done.stdout, done.stderr, done.returncode


def compare(old, new, sent, name):
    """Whether both answer alike; the first line that they don't is printed."""
    before, after = answers(old, sent), answers(new, sent)
    if before == after:
        print(f"{name}: {sent.count(10)} lines, {len(before[0])} bytes, the same")
        return True
    asked, a, b = sent.split(b"\n"), before[0].split(b"\n"), after[0].split(b"\n")
    at = next((i for i, (x, y) in enumerate(zip(a, b)) if x != y), min(len(a), len(b)))
    print(f"{name}: line {at + 1} differs (status {before[2]} and {after[2]})")
    for shown in (asked, a, b):
        print(f"  {shown[at][:300] if at < len(shown) else b''}")
    return False


def main():
    reader = reader_of_words(__doc__, "old", "new")
    reader.add_argument("--lines", type=int, default=20_000)
    reader.add_argument("--seed", type=int, default=25)
    reader.add_argument("--names", type=float, default=0.1)
    reader.add_argument("files", nargs="*", type=pathlib.Path)
    words = reader.parse_intermixed_args()
    old, new = words.old, words.new
    made = b"".join(line + b"\n" for line in lines(words.lines, words.seed, words.names))
    same = [compare(old, new, made, f"seed {words.seed}")]
    kinds = {}
    for answer in answers(old, made)[0].split(b"\n"):
        kind = answer.split(b":")[0] if answer[2:6] in (b"entr", b"repo") else answer.split(b",")[0]
        kinds[kind.decode()] = kinds.get(kind.decode(), 0) + 1
    for kind, count in sorted(kinds.items(), key=lambda it: -it[1]):
        print(f"  {count:6} {kind}")
    for file in words.files:
        same.append(compare(old, new, file.read_bytes(), file.name))
    sys.exit(0 if all(same) else 1)


if __name__ == "__main__":
    main()
