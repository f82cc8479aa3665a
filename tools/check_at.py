#!/usr/bin/env python3
"""Has the program ask a service of its own, with '--at' in the place of '--db'. The commands of `docs/TUTORIAL.md` are run
twice, each time in a folder of their own: as they stand, and with each call that a service can be asked for done by one,
which is started for the file and has it meanwhile. Each call has to print the same bytes and to end with the same status,
and both files have to have the same books. Then long and faulty lines, lines that come slowly, a token, files that are too
long, ports at which nobody listens or something else does, and a service that is killed.

usage: tools/check_at.py PROGRAM"""
import base64
import contextlib
import http.server
import json
import os
import pathlib
import subprocess
import sys
import tempfile
import threading
import time

from check_tutorial import commands
from shared import expect, free_port, reader_of_words, run, serve

DAY = "2030-01-02"
ASKED = ("run", "import", "report", "export", "show", "dump")
# What is said when a service is started, and not with '--at'.
SAID_BEFORE = ("--names", "--journal")
# What a call is done without a service for.
NOT_ASKED = ("--explain", "--set", "--column", "--unchanged", "history")


def line(**members):
    return json.dumps({"day": DAY, **members}) + "\n"


# ---- the program as a shell calls it, in a folder that has 'services.json' for
# those that run, and 'log' for what came back


def asked(words, services):
    """The words with which a service is asked in the place of these, and its file; or none, where none can be."""
    if not words or words[0] not in ASKED or "--db" not in words or any(it in words for it in NOT_ASKED):
        return None, None
    at = words.index("--db")
    path = words[at + 1]
    if words[0] == "report" and {"--names", "--csv"} & {*words} or words[0] == "import" and "--stop" in words:
        return None, path
    if words[0] == "run" and not {*SAID_BEFORE} <= {*words}:
        return None, path
    if words[0] in ("report", "export", "show", "dump") and not os.path.exists(path):
        return None, path
    if path not in services:
        process, port = serve(os.environ["PROGRAM"], "--db", path, "--page", *SAID_BEFORE)
        services[path] = port, process.pid
    rest = [it for it in words[:at] + words[at + 2:] if it not in SAID_BEFORE]
    return [rest[0], "--at", str(services[path][0]), *rest[1:]], path


def stop(program, port, number):
    """Stops the service at the port, and waits until its process, which has this number, has ended."""
    ended = subprocess.run([program, "stop", "--at", str(port)], capture_output=True, check=False)
    expect(ended.returncode == 0, f"a service isn't stopped: {ended.stderr!r}")
    for _ in range(600):
        if not os.path.exists(f"/proc/{number}/exe"):
            return
        time.sleep(0.1)
    expect(False, "a service that was stopped goes on")


def called(words):
    """Does what the words say, by a service where that is to be and can be, and logs what came back."""
    program, folder = os.environ["PROGRAM"], pathlib.Path(os.environ["BESIDE"])
    state = folder / "services.json"
    services = json.loads(state.read_text()) if state.exists() else {}
    instead, path = asked(words, services) if os.environ["BY"] == "service" else (None, None)
    if instead is None:
        path = words[words.index("--db") + 1] if "--db" in words else None
        if path in services:
            stop(program, *services.pop(path))
    state.write_text(json.dumps(services))
    done = subprocess.run([program, *(instead or words)], stdout=subprocess.PIPE, check=False)
    with open(folder / "log", "a", encoding="utf-8") as log:
        told = [words, instead, base64.b64encode(done.stdout).decode(), done.returncode]
        log.write(json.dumps(told) + "\n")
    sys.stdout.buffer.write(done.stdout)
    return done.returncode


def end_services(program, folder):
    """Stops the services, so that their files are closed, each with all that it has."""
    state = pathlib.Path(folder, "services.json")
    for service in json.loads(state.read_text()).values() if state.exists() else []:
        stop(program, *service)
    state.write_text("{}")


def played(program, by):
    """What each call of the tutorial came back with, and the dumps of the files that are left."""
    with tempfile.TemporaryDirectory() as top:
        for name in ("bin", "workshop"):
            pathlib.Path(top, name).mkdir()
        wrapper = pathlib.Path(top, "bin", "invdesk")
        wrapper.write_text(f'#!/bin/sh\nexec "{sys.executable}" "{os.path.abspath(__file__)}" --as-invdesk "$@"\n')
        wrapper.chmod(0o755)
        words = {**os.environ, "PATH": f"{top}/bin:{os.environ['PATH']}", "PROGRAM": program, "BESIDE": top, "BY": by}
        for _, command, _ in commands("docs/TUTORIAL.md"):
            if not command.startswith("invdesk"):
                end_services(program, top)
            subprocess.run(["sh", "-c", command], cwd=f"{top}/workshop", env=words, stdin=subprocess.DEVNULL,
                           stdout=subprocess.DEVNULL, stderr=subprocess.DEVNULL, check=False)
        end_services(program, top)
        log = [json.loads(it) for it in pathlib.Path(top, "log").read_text().splitlines()]
        files = sorted(pathlib.Path(top, "workshop").glob("*.db"))
        return log, {it.name: run(program, "dump", "--db", str(it)).stdout for it in files}


def check_tutorial(program):
    (ours, books), (theirs, others) = played(program, "service"), played(program, "file")
    expect(len(ours) == len(theirs), "the tutorial isn't called as often")
    for (words, instead, text, status), (_, _, wanted, ended) in zip(ours, theirs):
        expect(text == wanted and status == ended, f"{instead or words} ends {status} and not {ended}, or prints otherwise")
    expect(books == others and books, "the books differ")
    count = sum(1 for _, instead, _, _ in ours if instead)
    expect(count > 10, "too few calls are a service's")
    print(f"{count} of {len(ours)} calls of the tutorial are a service's, and each is alike")


# ---- a service that is asked beside a file


@contextlib.contextmanager
def served(program, path, *words):
    process, port = serve(program, "--db", path, "--page", *words)
    try:
        yield port, process
    finally:
        process.kill()
        process.wait()


def made(folder, name):
    return str(pathlib.Path(folder, name))


def many(count):
    """Lines of which each tenth is refused or faulty, and some are blank."""
    yield line(do="add_location", name="Store")
    for number in range(count):
        yield line(do="add_part", flags=["component"], name=f"Part {number} {'x' * (number % 90)}")
        if number % 10 == 3:
            yield "\n"
            yield '{"day":"2030-01-02","do":"nothing"}\n'
            yield line(do="retire_part", part=9_999_999)
        if number % 10 == 7:
            yield line(do="report", report="stock", of=2)
    yield "x" * 70_000 + "\n"
    yield "{}"


def alike(program, folder, port, *words, what, lines=""):
    """A call with a file and the same with a service print and end alike."""
    ours = run(program, words[0], "--at", str(port), *words[1:], lines=lines)
    theirs = run(program, words[0], "--db", made(folder, "beside.db"), *words[1:], lines=lines)
    expect(ours.stdout == theirs.stdout, f"{what}: another text")
    expect(ours.returncode == theirs.returncode, f"{what}: {ours.returncode} and not {theirs.returncode}")
    return ours


def check_lines(program, folder):
    text = "".join(many(2_000))
    with served(program, made(folder, "asked.db")) as (port, _):
        ended = alike(program, folder, port, "run", what="many lines", lines=text)
        expect(ended.returncode == 1 and ended.stdout.count("\n") > 2_000, "many lines aren't answered")
        alike(program, folder, port, "run", "--stop", what="many lines with a stop", lines=text)
        alike(program, folder, port, "run", "--check", what="lines that are looked at", lines=text[:60_000])
        fine = "".join(line(do="add_part", flags=["component"], name=f"Fine {number}") for number in range(900))
        ended = alike(program, folder, port, "run", "--check", "--stop", what="fine lines", lines=fine)
        expect(ended.returncode == 0, "fine lines aren't")
        alike(program, folder, port, "run", what="no line", lines="")
        for words in (["stock"], ["stock", "--csv", "--low", "20"], ["part", "Part 7 xxxxxxx"], ["part", "Nothing"],
                      ["find", "Part 1% x?"], ["orders", "--open"], ["at", "Store"], ["builds"]):
            alike(program, folder, port, "show", *words, what=f"show {words}")
        for words in (["stock", "2"], ["ledger", "9999"], ["history", "1"], ["shortage", "1"]):
            alike(program, folder, port, "report", *words, what=f"report {words}")
        for table in ("meta", "parts", "history", "kept"):
            alike(program, folder, port, "export", table, what=f"export {table}")
        alike(program, folder, port, "dump", what="a dump")
        for words in (["dump"], ["show", "stock"], ["export", "parts"]):
            asker = [program, words[0], "--at", str(port), *words[1:]]
            with subprocess.Popen(asker, stdin=subprocess.DEVNULL, stdout=subprocess.PIPE) as gone:
                gone.stdout.close()
                expect(gone.wait() == 0, f"{words[0]} doesn't end well where its reader has gone")
        delivery = made(folder, "parts.csv")
        for text in ("name,flags\nWasher,component\n", "name,flags\nWasher,component\nNut,nothing\n", "no header\n"):
            pathlib.Path(delivery).write_text(text)
            for words in (["--kind", "add_part"], ["--kind", "counts", "--loose"], ["--kind", "receipts"]):
                alike(program, folder, port, "import", *words, "--document", "D1", "--day", DAY, delivery, what="a file")
        expect(run(program, "stop", "--at", str(port)).returncode == 0, "it isn't stopped")


def check_slow_lines(program, folder):
    """What comes line by line is answered line by line."""
    with served(program, made(folder, "slow.db")) as (port, _):
        words = [program, "run", "--at", str(port)]
        with subprocess.Popen(words, stdin=subprocess.PIPE, stdout=subprocess.PIPE, text=True, bufsize=1) as client:
            for name in ("One", "Two", "Three"):
                client.stdin.write(line(do="add_location", name=name))
                client.stdin.flush()
                expect(client.stdout.readline().startswith('{"entries":'), "a line isn't answered before the next comes")
            client.stdin.close()
            expect(client.wait() == 0, "slow lines don't end well")


def refused(program, port, what, reason, *words, status=3, lines=""):
    ended = run(program, words[0], "--at", str(port), *words[1:], lines=lines)
    expect(ended.returncode == status, f"{what}: {ended.returncode}")
    expect(ended.stdout == "", f"{what} prints {ended.stdout!r}")
    expect(reason in ended.stderr, f"{what} tells {ended.stderr!r}")


class Other(http.server.SimpleHTTPRequestHandler):
    """Another server, which logs nothing."""

    def log_message(self, *_):
        pass


def check_troubles(program, folder):
    refused(program, free_port(), "nobody", "the service isn't there", "show", "stock")
    with http.server.ThreadingHTTPServer(("127.0.0.1", 0), Other) as other:
        threading.Thread(target=other.serve_forever, daemon=True).start()
        refused(program, other.server_port, "another server", "isn't 'invdesk serve --page'", "show", "stock")
        other.shutdown()
    process, port = serve(program, "--db", made(folder, "plain.db"))
    refused(program, port, "no page", "isn't 'invdesk serve --page'", "report", "stock", "1")
    process.kill()
    process.wait()
    token = pathlib.Path(folder, "token")
    token.write_text("0123456789abcdef0123456789abcdef\n")
    token.chmod(0o600)
    with served(program, made(folder, "token.db"), "--token", str(token)) as (port, process):
        refused(program, port, "no token", "asks for a token", "show", "stock")
        ended = run(program, "show", "--at", str(port), "--token", str(token), "stock")
        expect(ended.returncode == 0 and ended.stdout, "the token isn't shown")
        pathlib.Path(folder, "long.csv").write_text("name,flags\n" + "Washer,component\n" * 70_000)
        words = ["import", "--token", str(token), "--kind", "add_part", "--document", "D1", "--day", DAY]
        refused(program, port, "a long file", "1048576 bytes", *words, made(folder, "long.csv"))
        wrong = run(program, "run", "--db", made(folder, "token.db"), lines="")
        expect(wrong.returncode == 3 and "--at PORT" in wrong.stderr, "a file in use doesn't tell of --at")
        with subprocess.Popen([program, "run", "--at", str(port), "--token", str(token)], stdin=subprocess.PIPE,
                              stdout=subprocess.PIPE, stderr=subprocess.PIPE, text=True, bufsize=1) as client:
            client.stdin.write(line(do="add_location", name="Store"))
            client.stdin.flush()
            expect(client.stdout.readline().startswith('{"entries":'), "a line isn't answered")
            process.kill()
            process.wait()
            client.stdin.write(line(do="add_location", name="Shop"))
            client.stdin.close()
            expect(client.wait() == 3 and client.stdout.read() == "", "a killed service isn't told")
    for words in (["run", "--names"], ["run", "--db", "x.db"], ["run", "--journal"], ["run", "--explain"],
                  ["report", "--names", "stock", "2"], ["report", "--csv", "stock", "2"], ["show", "history"],
                  ["show", "at", ""], ["run", "--at", "0"]):
        ended = run(program, words[0], "--at", str(port), *words[1:], lines="")
        expect(ended.returncode == 2 and ended.stdout == "", f"{words} are taken")
    for words in (["show", "stock"], ["report", "stock", "2"], ["dump"], ["run", "--token", "x"], ["stop"]):
        expect(run(program, *words, lines="").returncode == 2, f"{words} without a place are taken")


def main():
    program = os.path.abspath(reader_of_words(__doc__, "program").parse_args().program)
    check_tutorial(program)
    for check in (check_lines, check_slow_lines, check_troubles):
        with tempfile.TemporaryDirectory() as folder:
            check(program, folder)
    print("check_at: a service that is asked prints and ends as a file does")


if __name__ == "__main__":
    if sys.argv[1:2] == ["--as-invdesk"]:
        sys.exit(called(sys.argv[2:]))
    main()
