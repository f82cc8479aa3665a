#!/usr/bin/env python3
"""Tries on the built program what a clerk asks for by a word: `run --stop`, which ends at the first line that is
refused or faulty, and `run --check`, which reads all lines first and runs none where one is faulty. Each is tried in
memory and on a file, with names and without, alone and together, and by a pipe that brings the lines one by one. The
lines that are run have to be answered as a plain run of them answers, and to leave the same rows.
Then `--explain`, which says on the standard error why a line or a row isn't done, and of a new name that it is near
another or blank, and changes nothing of the answers; so it is told at a terminal without the word. Then `--journal`,
which changes nothing of the answers either and keeps each that is accepted, under the key that a request has or gets,
and which a run has without the word where its lines are typed at a terminal. And `import --loose`, on the sheet of a
stocktake and on deliveries that have their columns in another order, more of them,
or something else between two fields; where LibreOffice's `soffice` is found, on the sheet as it saves it. And with
`--unchanged`, on sheets of a stocktake and of a delivery, before and after the books have changed.

usage: tools/check_people.py PROGRAM"""
import csv
import io
import itertools
import json
import os
import pathlib
import pty
import random
import shutil
import subprocess
import tempfile
import unicodedata

from machine.notes import DRAWN, IGNORABLE, note_of, what_counts
from shared import expect, reader_of_words, run

DAY = "2030-01-02"
# How many seconds a run may take that reads a few lines.
MOST = 60
# What the lines ask for, by a letter: the first three make rows, the others read or change them.
LINES = {
    "l": {"do": "add_location", "day": DAY, "name": "A"},
    "p": {"do": "add_part", "day": DAY, "flags": ["component"], "name": "Screw"},
    "f": {"do": "found", "day": DAY, "part": 2, "location": 1, "quantity": 100},
    "n": {"do": "found", "day": DAY, "part": "Screw", "location": "A", "quantity": 7},
    "u": {"do": "found", "day": DAY, "part": "Nut", "location": "A", "quantity": 7},
    "s": {"report": "stock", "of": 2},
    # refused
    "r": {"do": "remove", "day": DAY, "item": 3, "quantity": 1000},
    "m": {"report": "stock", "of": 99},
    # faulty
    "w": {"do": "remove", "day": DAY, "item": 3, "quantity": "many"},
    "x": {"do": "add_location", "day": DAY, "nome": "B"},
}
FAULTY = {"w": "WrongType", "x": "UnknownField"}
BLANK = {"_": "", "-": "\r"}
# One of 65,537 bytes, which is one too many.
LONG = {"L": "x" * 65_537}


def text_of(letters):
    """The lines of these letters."""
    return "".join(text_of_one(letter) + "\n" for letter in letters)


def text_of_one(letter):
    other = {**BLANK, **LONG, "j": "{not JSON"}
    return other[letter] if letter in other else json.dumps(LINES[letter])


def is_fine(answer):
    """Whether an answer is neither a refusal nor a fault."""
    return "refused" not in answer and "fault" not in answer


def plain(program, letters, *words):
    """The answers of a plain run of these lines, and its status."""
    done = run(program, "run", *words, lines=text_of(letters))
    return done.stdout, done.returncode


def taken(program, letters, *words):
    """The first of these letters, up to the first whose line isn't answered well, by plain runs of them."""
    for count in range(len(letters) + 1):
        if plain(program, letters[:count], *words)[1] != 0:
            return letters[:count]
    return letters


def faults(letters):
    """The faults of these lines, as a check tells them."""
    told = {**FAULTY, "L": "TooLong", "j": "NotJson"}
    lines = enumerate(letters, 1)
    return "".join(f'{{"fault":"{told[letter]}","line":{number}}}\n' for number, letter in lines if letter in told)


def exports(program, path):
    """The tables of a file."""
    names = ["items", "history", "locations", "parts", "kept"]
    return [run(program, "export", "--db", path, name).stdout for name in names]


def expect_same(where, done, answers, status):
    expect(done.stdout == answers, f"{where}: wrote {done.stdout!r} and not {answers!r}")
    expect(done.returncode == status, f"{where}: ended with {done.returncode} and not with {status}")


def try_words(program, top, letters, names):
    """Tries each of the words on these lines, in memory and on a file."""
    asked = ["--names"] if names else []
    wrong = faults(letters)
    front = taken(program, letters, *asked)
    for number, words in enumerate([["--stop"], ["--check"], ["--stop", "--check"]]):
        done_letters = "" if "--check" in words and wrong else front if "--stop" in words else letters
        answers, status = plain(program, done_letters, *asked)
        if "--check" in words and wrong:
            answers, status = wrong, 1
        where = f"{letters} {' '.join(asked + words)}"
        expect_same(where, run(program, "run", *asked, *words, lines=text_of(letters)), answers, status)
        path, other = (os.path.join(top, f"{name}-{number}.db") for name in ("asked", "plain"))
        done = run(program, "run", "--db", path, *asked, *words, lines=text_of(letters))
        expect_same(f"{where} --db", done, answers, status)
        run(program, "run", "--db", other, *asked, lines=text_of(done_letters))
        expect(exports(program, path) == exports(program, other), f"{where}: the file has other rows")


def try_by_hand(program):
    """A clerk types line by line: with `--stop` the run ends behind the refused one, and with `--check` the answers
    come at the end of the input."""
    how = {"stdin": subprocess.PIPE, "stdout": subprocess.PIPE, "text": True}
    with subprocess.Popen([program, "run", "--stop"], **how) as typed:
        for letter in "lpr":
            typed.stdin.write(text_of(letter))
            typed.stdin.flush()
            told = json.loads(typed.stdout.readline())
            expect(is_fine(told) == (letter != "r"), f"by hand: {letter} is answered {told}")
        expect(typed.wait(MOST) == 1, "by hand: the run doesn't end behind a refusal")
    with subprocess.Popen([program, "run", "--check"], **how) as typed:
        out, _ = typed.communicate(text_of("lpf"), timeout=MOST)
        expect(len(out.splitlines()) == 3, f"by hand: {out!r} is answered at the end")


def try_long(program, top):
    """A text of over 16 MiB isn't looked at."""
    path = pathlib.Path(top, "long")
    line = text_of("l")
    path.write_text(line * (16_777_216 // len(line) + 1))
    done = run(program, "run", "--check", lines=path.read_text())
    expect_same("a text of over 16 MiB", done, '{"fault":"TooLong","line":0}\n', 1)


# Lines behind `lpf`, each with what is told of it.
REASONS = [
    ({"do": "remove", "day": DAY, "item": 3, "quantity": 1000},
     "Short: item 3 (Screw, A, 100, 100 free, OK), quantity 1000. There is less than that;"),
    ({"do": "retire_part", "day": DAY, "part": 9}, "NoSuch: part 9 (no such row). A number, or a key,"),
    ({"do": "add_part", "day": DAY, "name": "Screw", "flags": []},
     "NameTaken: name Screw, flags none. Another part has the name,"),
    ({"do": "transfer", "day": DAY, "item": 3, "location": 1, "quantity": 0},
     "BadNumber: item 3 (Screw, A, 100, 100 free, OK), location 1 (A), quantity 0. A quantity is 0"),
    ({"do": "merge", "day": DAY, "into": 3, "items": [3, 7]},
     "NoSuch: into 3 (Screw, A, 100, 100 free, OK), items 3 (Screw, A, 100, 100 free, OK), items 7 (no such row). A "),
    ({"report": "stock", "of": 99}, "NoSuch: of 99 (no such row). A number,"),
    ({"do": "remove", "day": DAY, "item": 3, "quantity": "many"}, 'quantity: WrongType: "many". A field has something'),
    ({"do": "remove", "day": DAY, "item": 3}, "quantity: NoField. A field is missing:"),
    ({"do": "add_location", "day": DAY, "nome": "B"}, 'nome: UnknownField: "B" (did you mean name?). The command,'),
    ({"do": "add_location", "day": DAY, "\x1b[2J": "B"}, '\\u{1b}[2J: UnknownField: "B". The command,'),
    ({"do": "fond", "day": DAY}, 'do: UnknownCommand: "fond" (did you mean found?). There is no such command'),
    ({"do": "add_part", "day": DAY, "name": "N", "flags": ["component", "purchasable"]},
     'flags: BadWord: ["component","purchasable"] (did you mean purchaseable?). There is no such status,'),
    ({"do": "add_location", "day": "2030-02-30", "name": "B"}, 'day: BadDay: "2030-02-30". The day isn\'t written'),
    ({"do": "add_location", "day": DAY, "key": "a b", "name": "B"}, 'key: BadKey: "a b". The key isn\'t 1 to 80'),
    ({"report": "stok", "of": 2}, 'report: BadWord: "stok" (did you mean stock?). There is no such status,'),
    ([1], "NotObject. The line is JSON, but"),
]


def naming(kind, name, parent=None, **more):
    """The line that makes a part, a category or a location."""
    return {"do": f"add_{kind}", "day": DAY, "name": name,
            **({"flags": []} if kind == "part" else {"parent": parent}), **more}


# Lines that give names, each with what is told of it: the first row beside that is the same but for the case of
# letters, blanks, punctuation and what has no width, or that nothing is seen of the name.
NEAR = [
    (naming("category", "Capacitors"), None),
    (naming("category", "capacitors"), 'note: "capacitors" is new beside "Capacitors"'),
    (naming("category", "Capacitor"), None),
    (naming("category", "capacitors", 1), None),
    (naming("category", "CAPACITORS ", 1), 'note: "CAPACITORS " is new beside "capacitors"'),
    (naming("part", "LM 317"), None),
    (naming("part", "capacitors"), None),
    (naming("part", "lm-317"), 'note: "lm-317" is new beside "LM 317"'),
    (naming("part", "LM 318"), None),
    (naming("part", "LM+317"), None),
    (naming("part", "L\u200bM317"), 'note: "L\u25a1M317" is new beside "LM 317"'),
    (naming("part", "LM 317"), "NameTaken: name LM 317, flags none. Another part has the name, "),
    (naming("part", "L.M.317", key="K"), 'note: "L.M.317" is new beside "LM 317"'),
    (naming("part", "L.M.317", key="K"), None),
    (naming("part", "LM\ufff9317"), 'note: "LM\u25a1317" is new beside "LM 317"'),
    (naming("part", "\u0600LM 317"), None),
    (naming("part", "a"), None),
    (naming("part", "A\ufffb"), 'note: "A\u25a1" is new beside "a"'),
    (naming("part", " \u2003"), 'note: the name " \u25a1" is blank'),
    (naming("part", "\ufffa\u00ad"), 'note: the name "\u25a1\u25a1" is blank'),
    (naming("part", "\u2605"), None),
    (naming("location", "REGAL \u00c4"), None),
    (naming("location", "Regal: \u00e4"), 'note: "Regal: \u00e4" is new beside "REGAL \u00c4"'),
    (naming("location", "regal \u00e4", 21), None),
    (naming("location", "Capacitors"), None),
]


def reasons_of(text):
    """What is told on the standard error, a line each."""
    return [line for line in text.replace("\r", "").split("\n") if line]


def try_reasons(program, top):
    """Each reason, in memory and on a file; with --check, those of the faults; at a terminal without the word."""
    text = text_of("lpf") + "".join(json.dumps(line) + "\n" for line, _ in REASONS)
    wanted = [f"line {number}: {told}" for number, (_, told) in enumerate(REASONS, 4)]
    path = os.path.join(top, "reasons.db")
    for words in [], ["--db", path], ["--stop"]:
        answers = run(program, "run", *words, lines=text)
        if "--db" in words:
            os.remove(path)
        done = run(program, "run", *words, "--explain", lines=text)
        where = f"--explain {' '.join(words)}"
        expect_same(where, done, answers.stdout, answers.returncode)
        expect(not reasons_of(answers.stderr), f"{where}: without the word {answers.stderr!r} is told")
        told = reasons_of(done.stderr)
        for line, front in zip(told, wanted, strict="--stop" not in words):
            expect(line.startswith(front), f"{where}: {line!r} is told, and not {front!r}")
    told = reasons_of(run(program, "run", "--check", "--explain", lines=text).stderr)
    faulty = [front for front in wanted if front.split(": ")[1] not in ("Short", "NoSuch", "NameTaken", "BadNumber")]
    expect(len(told) == len(faulty), f"--check --explain: {told}")
    expect(all(map(str.startswith, told, faulty)), f"--check --explain: {told}")
    named = json.dumps({"do": "found", "day": DAY, "part": "Nut", "location": "A", "quantity": 7}) + "\n"
    told = run(program, "run", "--names", "--explain", lines=named).stderr
    expect(told.startswith('line 1: part: NoName: "Nut". Nothing is called so.'), f"a name: {told!r}")
    for lines, front in REFUSED:
        told = run(program, "run", "--explain", lines="".join(json.dumps(line) + "\n" for line in lines)).stderr
        wanted = f"line {len(lines)}: {front}"
        expect(told.startswith(wanted), f"{told!r} is told, and not {wanted!r}")
    told = at_terminal(program, "[1]\n")
    expect(told[-1].startswith("line 1: NotObject. "), f"at a terminal {told!r} is told")


def try_near_names(program, top):
    """Each name that is near another or blank, in memory, on a file and once all lines were looked at; what is told
    where nothing is asked for; and at a terminal without the word. The answers are the same throughout."""
    text = "".join(json.dumps(line) + "\n" for line, _ in NEAR)
    wanted = [f"line {number}: {told}" for number, (_, told) in enumerate(NEAR, 1) if told]
    answers = run(program, "run", lines=text)
    expect(not answers.stderr, f"names: without the word {answers.stderr!r} is told")
    path = os.path.join(top, "near.db")
    for words in [], ["--check"], ["--db", path]:
        done = run(program, "run", *words, "--explain", lines=text)
        expect_same(f"names {words}", done, answers.stdout, answers.returncode)
        told = reasons_of(done.stderr)
        for line, front in zip(told, wanted, strict=True):
            is_told = line == front if "note: " in front else line.startswith(front)
            expect(is_told, f"names {words}: {line!r} is told, and not {front!r}")
    more = json.dumps(naming("category", "capa citors")) + "\n"
    told = run(program, "run", "--db", path, "--explain", lines=more).stderr
    expect(told == 'line 1: note: "capa citors" is new beside "Capacitors"\n', f"names of a file: {told!r}")
    expect(at_terminal(program, text_of("l") + json.dumps(naming("location", "a")) + "\n")[-1]
           == 'line 2: note: "a" is new beside "A"', "names at a terminal")


def made_names():
    """Names of parts: with each character of which nothing is seen, or that one may take for such; and short ones by
    chance."""
    unseen = [chr(it) for pair in IGNORABLE + DRAWN for it in pair]
    unseen += [it for it in map(chr, range(0x20000)) if unicodedata.category(it) in ("Cf", "Zl", "Zp", "Zs")]
    for number, it in enumerate(dict.fromkeys(unseen)):
        yield from (f"Lm {number}", f"lM{it}{number}", f"L.M{it}{number}{it}", it, f"{it} {it}")
    chance = random.Random(7)
    letters = "aA1-_ +\u00df\u1e9e\u00b5\u03bc\u0130\u200b\ufff9\u0600"
    for _ in range(400):
        yield "".join(chance.choices(letters, k=chance.randint(1, 4)))


def try_made_names(program):
    """Many names are told as tools/machine reads the rule. How many names."""
    names, counts, wanted = [*dict.fromkeys(made_names())], {}, []
    for number, name in enumerate(names, 1):
        note = note_of(name, counts.setdefault(what_counts(name), []))
        counts[what_counts(name)].append(name)
        wanted += [f"line {number}: note: {note}"] if note else []
    done = run(program, "run", "--explain", lines="".join(json.dumps(naming("part", it)) + "\n" for it in names))
    expect(done.stdout.count("ids") == len(names), f"made names: {done.stdout!r}")
    for told, line in itertools.zip_longest(done.stderr.split("\n")[:-1], wanted):
        expect(told == line, f"made names: {told!r} is told, and not {line!r}")
    return len(names)


def kept(program, path):
    """The keys under which a file keeps answers."""
    table = csv.DictReader(io.StringIO(run(program, "export", "--db", path, "kept").stdout))
    return {row["word"] for row in table}


def by_hand(request, key):
    """The request with a key that a person gives."""
    return {**request, "key": key}


# Requests with the keys that are kept of them then: the third finds the key of its number given, and the fourth is
# refused and leaves its number to the next.
JOURNAL = [
    (LINES["l"], f"{DAY}/1"),
    (by_hand({**LINES["l"], "name": "B"}, f"{DAY}/3"), f"{DAY}/3"),
    (LINES["p"], f"{DAY}/4"),
    (LINES["l"], None),
    ({**LINES["l"], "day": "2030-01-05", "name": "C"}, "2030-01-05/4"),
    (LINES["m"], None),
    (by_hand({**LINES["l"], "name": "B"}, f"{DAY}/3"), f"{DAY}/3"),
]


def typed(program, path, text):
    """What a run on a file answers whose lines are typed at a terminal."""
    master, slave = pty.openpty()
    words = [program, "run", "--db", path]
    with subprocess.Popen(words, stdin=slave, stdout=subprocess.PIPE, stderr=subprocess.PIPE) as typing:
        os.close(slave)
        os.write(master, text.encode() + b"\x04")
        answers = typing.communicate(timeout=MOST)[0].decode()
    os.close(master)
    return answers


def try_journal(program, top):
    """A journal of lines as they come and of lines that were looked at, and with names; one that goes on in a further
    run; what is kept without the word; and a run at a terminal."""
    text = "".join(json.dumps(line) + "\n" for line, _ in JOURNAL)
    plain_path = os.path.join(top, "plain.db")
    answers = run(program, "run", "--db", plain_path, lines=text)
    expect(kept(program, plain_path) == {f"{DAY}/3"}, f"without a journal {kept(program, plain_path)} are kept")
    keys = {key for _, key in JOURNAL if key}
    for number, words in enumerate([[], ["--check"], ["--names"], ["--explain"]]):
        path = os.path.join(top, f"journal-{number}.db")
        done = run(program, "run", "--journal", *words, "--db", path, lines=text)
        expect_same(f"--journal {words}", done, answers.stdout, answers.returncode)
        expect(kept(program, path) == keys, f"--journal {words}: {kept(program, path)} are kept, and not {keys}")
        same = exports(program, path)[:-1] == exports(program, plain_path)[:-1]
        expect(same, f"--journal {words}: the file has other rows")
        run(program, "run", "--journal", "--db", path, lines=json.dumps({**LINES["l"], "name": "D"}) + "\n")
        expect(kept(program, path) == keys | {f"{DAY}/5"}, f"--journal {words}: then {kept(program, path)} are kept")
    expect_same("--journal", run(program, "run", "--journal", lines=text), answers.stdout, answers.returncode)
    path = os.path.join(top, "typed.db")
    told = typed(program, path, text)
    expect(told == answers.stdout, f"typed lines are answered by {told!r}")
    expect(kept(program, path) == keys, f"of typed lines {kept(program, path)} are kept, and not {keys}")


def at_terminal(program, text):
    """What a run tells where the standard error is a terminal."""
    master, slave = pty.openpty()
    with subprocess.Popen([program, "run"], stdin=subprocess.PIPE, stdout=subprocess.PIPE, stderr=slave) as typed:
        typed.communicate(text.encode(), timeout=MOST)
        told = os.read(master, 65_536).decode()
    os.close(slave)
    os.close(master)
    return reasons_of(told)


# Deliveries that are read loosely, each with what is told of it: `P` is the line of the order, `S` the location.
LOOSE = [
    ("number,line,location,quantity,batch,serials\n1,P,S,5,L1,\n", None),
    ("quantity;serials;batch;location;line;number\r\n5;;L1;S;P;1\r\n", None),
    ("note\tnumber\tline\tlocation\tquantity\nwhat, came\t1\tP\tS\t5\n", None),
    ("\ufeffnumber;line;location;quantity\n;;;\n\n1;P;S;5\n2;P;S;\n3;P\n", None),
    ("number,line,location,quantity\n1,P,S,10.0\n", "record 2: quantity: WrongType: 10.0. A field has"),
    ('number,line,location,quantity\n\n,,,\n1,P,S,"1,000"\n', "record 3: quantity: WrongType: 1,000. A field has"),
    ("number,line,location,quantity\n1,P,S,\x1b[2J5\n", "record 2: quantity: WrongType: \\u{1b}[2J5. A field has"),
    ('number,line,location,quantity\n1,P,S,"5\nline 2: 5"\n', "record 2: quantity: WrongType: 5\\u{0a}line 2: 5. A"),
    ("number;line;location;quantity\n1;P;S;5;6\n", "record 2: Csv. The record has more"),
    ("number,line,location,amount\n1,P,S,5\n", "record 1: Header: number,line,location,quantity,batch,serials is"),
    ("number,line,location,quantity,quantity\n1,P,S,5,5\n", "record 1: Header: number,line,location,quantity"),
]
ORDERED = [
    {"do": "add_location", "day": DAY, "name": "A"},
    {"do": "add_part", "day": DAY, "flags": ["component", "purchaseable"], "name": "Screw"},
    {"do": "order", "day": DAY, "side": "purchase", "partner": "M"},
    {"do": "order_line", "day": DAY, "order": 3, "part": 2, "quantity": 9},
    {"do": "issue_order", "day": DAY, "order": 3},
    {"do": "found", "day": DAY, "part": 2, "location": 1, "quantity": 100},
    {"do": "found", "day": DAY, "part": 2, "location": 1, "quantity": 50},
]
FOUND = {"do": "found", "day": DAY, "part": 2, "location": 1, "quantity": 5}
TRACKED = {**FOUND, "key": "K", "quantity": 2, "serials": "M1,M2"}
# Lines of which the last is refused, each with what is told of that.
REFUSED = [
    ([*ORDERED[:2], {**FOUND, "batch": "L1"}, FOUND, {"do": "merge", "day": DAY, "into": 3, "items": [4]}],
     "Mismatch: into 3 (Screw, batch L1, A, 5, 5 free, OK), items 4 (Screw, A, 5, 5 free, OK). "),
    ([*ORDERED[:5], ORDERED[4]], "WrongState: order 3 (purchase, in progress, M, 9 of Screw outstanding). "),
    ([ORDERED[0], {**ORDERED[1], "flags": ["trackable"]}, TRACKED, {**TRACKED, "key": "L", "serials": "M1,M3"}],
     "SerialTaken: part 2 (Screw, trackable), location 1 (A), quantity 2, 2 serials, serial M1 is taken. "),
    ([ORDERED[0], {**ORDERED[1], "flags": ["trackable"]}, TRACKED, {**TRACKED, "serials": "M3,M4"}],
     'KeyTaken: key K was used for {"batch":null,"do":"found","location":1,"part":2,"quantity":2,'
     '"serials":["M1","M2"]}, part 2 (Screw, trackable), location 1 (A), quantity 2, 2 serials. '),
    ([*ORDERED[:2], {"do": "add_part", "day": DAY, "flags": ["assembly"], "name": "Lamp"},
      {"do": "add_line", "day": DAY, "assembly": 3, "component": 2, "quantity": 4},
      {"do": "build", "day": DAY, "part": 3, "quantity": 2}, {"do": "complete_build", "day": DAY, "build": 5}],
     "WrongState: build 5 (Lamp, pending, 2 wanted, 0 done, 8 of Screw missing). "),
]


def imported(program, path, kind, name, *words):
    asked = ["--db", path, "--kind", kind, "--document", "D", "--day", DAY, *words]
    return run(program, "import", *asked, name)


def try_loose(program, top):
    """Deliveries that are read loosely; the same without the word have a fault, or the same rows."""
    for number, (text, told) in enumerate(LOOSE):
        path, name = os.path.join(top, f"loose-{number}.db"), os.path.join(top, f"loose-{number}.csv")
        run(program, "run", "--db", path, lines="".join(json.dumps(line) + "\n" for line in ORDERED))
        pathlib.Path(name).write_text(text.replace("P", "4").replace("S", "1"), newline="")
        where = f"--loose on {text!r}"
        done = imported(program, path, "receipts", name, "--loose", "--explain")
        if told:
            expect(done.returncode == 1, f"{where}: ended with {done.returncode}")
            expect(done.stderr.startswith(told), f"{where}: {done.stderr!r} is told, and not {told!r}")
            continue
        expect_same(where, done, '1\t{"entries":1,"ids":[7]}\n', 0)
        expect(done.stderr == "", f"{where}: {done.stderr!r} is told")
        strict = imported(program, path, "receipts", name)
        expect(strict.returncode == (number > 0), f"{where}: without the word it ends with {strict.returncode}")


def counted(sheet, separator=","):
    """The sheet of a stocktake, in which the second row is counted, as 49."""
    header, *rows = csv.reader(io.StringIO(sheet))
    rows[1][-1] = "49"
    text = io.StringIO()
    csv.writer(text, delimiter=separator).writerows([header, *rows])
    return text.getvalue()


def saved_by_office(folder, sheet):
    """The sheet as LibreOffice saves it with semicolons, once it read it."""
    path = folder / "sheet.csv"
    path.write_text(sheet)
    profile = f"-env:UserInstallation={(folder / 'profile').as_uri()}"
    out = folder / "out"
    kind = "csv:Text - txt - csv (StarCalc):59,34,76,1"
    words = ("soffice", profile, "--headless", "--convert-to", kind, "--outdir", str(out), str(path))
    subprocess.run(words, capture_output=True, timeout=120, check=True)
    return (out / "sheet.csv").read_text()


def try_sheet(program, top):
    """A stocktake goes by its sheet: what was counted is booked, and rows without a quantity are left out."""
    sheets = {"by Python": counted, "with semicolons": lambda sheet: counted(sheet, ";")}
    if shutil.which("soffice"):
        sheets["by LibreOffice"] = lambda sheet: saved_by_office(pathlib.Path(top), counted(sheet))
    for what, save in sheets.items():
        path, name = os.path.join(top, "sheet.db"), os.path.join(top, "sheet-in.csv")
        run(program, "run", "--db", path, lines="".join(json.dumps(line) + "\n" for line in ORDERED))
        sheet = run(program, "show", "--db", path, "--csv", "count-sheet").stdout
        pathlib.Path(name).write_text(save(sheet), newline="")
        done = imported(program, path, "counts", name, "--loose")
        expect_same(f"a sheet saved {what}", done, '2\t{"entries":1,"ids":[]}\n', 0)
        items = list(csv.DictReader(io.StringIO(run(program, "export", "--db", path, "items").stdout)))
        expect([row["quantity"] for row in items] == ["100", "49"], f"a sheet saved {what}: {items}")
        os.remove(path)
    return len(sheets)


def filled_in(sheet, **fields):
    """The sheet with these fields in its first row."""
    header, first, *rows = csv.reader(io.StringIO(sheet))
    first = [fields.get(name, it) for name, it in zip(header, first)]
    text = io.StringIO()
    csv.writer(text).writerows([header, first, *rows])
    return text.getvalue()


def try_changed(program, top):
    """With --unchanged nothing is run of a sheet of which the books have another number now than it says they had."""
    path, name = os.path.join(top, "changed.db"), os.path.join(top, "changed.csv")
    run(program, "run", "--db", path, lines="".join(json.dumps(line) + "\n" for line in ORDERED))
    pathlib.Path(name).write_text(counted(run(program, "show", "--db", path, "--csv", "count-sheet").stdout))
    how = ("--loose", "--unchanged", "--explain")
    run(program, "run", "--db", path, lines=json.dumps({"do": "remove", "day": DAY, "item": 6, "quantity": 1}) + "\n")
    done = imported(program, path, "counts", name, *how)
    expect_same("a sheet of other books", done, '{"fault":"Changed","line":3}\n', 1)
    expect(done.stderr.startswith("record 3: Changed. "), f"of a sheet of other books {done.stderr!r} is told")
    run(program, "run", "--db", path, lines=json.dumps({"do": "count", "day": DAY, "item": 6, "quantity": 50}) + "\n")
    for _ in "again", "once more":
        done = imported(program, path, "counts", name, *how)
        expect_same("a sheet of these books", done, '2\t{"entries":1,"ids":[]}\n', 0)
    sheet = run(program, "show", "--db", path, "--csv", "receipt-sheet", "3").stdout
    pathlib.Path(name).write_text(filled_in(sheet, location="A", quantity="4", batch="L7"))
    done = imported(program, path, "receipts", name, "--names", *how)
    expect_same("a sheet for a delivery", done, '1\t{"entries":1,"ids":[7]}\n', 0)
    asked = ["--db", path, "--kind", "receipts", "--document", "E", "--day", DAY, "--names", *how[:2]]
    done = run(program, "import", *asked, name)
    expect_same("a sheet of a delivery before", done, '{"fault":"Changed","line":2}\n', 1)


def main():
    program = reader_of_words(__doc__).parse_args().program
    texts = ["", "lpfs", "lpfr", "lprfs", "rlpf", "lpfws", "wlpf", "lpfwrxs", "lp_-fm", "lpfLs", "jlpf", "lpfr-"]
    named = ["lpns", "lpnu", "lpunw", "unlp", "lpnrn"]
    for letters, names in itertools.chain(((it, False) for it in texts), ((it, True) for it in texts + named)):
        with tempfile.TemporaryDirectory() as top:
            try_words(program, top, letters, names)
    with tempfile.TemporaryDirectory() as top:
        try_by_hand(program)
        try_long(program, top)
        try_reasons(program, top)
        try_near_names(program, top)
        names = try_made_names(program)
        try_journal(program, top)
        try_loose(program, top)
        sheets = try_sheet(program, top)
        try_changed(program, top)
    count, reasons = len(texts) + len(texts + named), len(REASONS) + len(REFUSED)
    print(f"check_people: {count} texts, each with --stop, with --check and with both, {reasons} reasons, "
          f"{names} names, {len(LOOSE)} deliveries that are read loosely, {sheets} sheets: all as it should be")


if __name__ == "__main__":
    main()
