#!/usr/bin/env python3
"""Runs the program as a server on the loopback and asks it as clients do, with Python's http.client, with curl where it
is there, and with bare sockets: each route and each error; rows that are said by what they are called; a journal; a
request that is sent in pieces, cut off at a byte, or sent again under its key after its connection was dropped; clients
that wait to be told that their body may come; made-up bytes; many connections one after another, of which no descriptor
and no memory may stay; and a server that is killed, whose file has to be the books before or after each request. What a
web page sends is refused, and who doesn't show the token; a token is taken of no pipe and no other user's file; where
standard streams are closed no client gets their place; clients that are silent keep nobody waiting, also where there
are many that come again and again, and they and slow ones are left; descriptors are waited for; and a server that goes
on is stopped by a signal, and its books are copied. With a page many lines come in
one body, lists are those that are printed, the books are dumped, and it is asked to stop. It takes about a minute.

usage: tools/check_http.py PROGRAM"""
import concurrent.futures
import contextlib
import json
import os
import pathlib
import random
import resource
import select
import shutil
import signal
import socket
import sqlite3
import subprocess
import tempfile
import threading
import time

from shared import ask, expect, free_port, posted, reader_of_words, run, serve

DAY = "2030-01-02"
LOCATION = {"day": DAY, "do": "add_location", "name": "A"}
PART = {"day": DAY, "do": "add_part", "flags": ["component", "purchaseable"], "name": "Screw"}
ORDERED = {"day": DAY, "do": "order_line", "order": 3, "part": 2, "quantity": 500}
COUNT = "number,item,quantity\n1,5,1\n"
RECEIPTS = "number,line,location,quantity,batch,serials\n1,4,1,100,L1,\n2,4,1,50,,\n"
CONNECTIONS = 10_000
MADE_UP = 1_000
TOKEN = "0123456789abcdefghijklmnopqrstuvwxyz~!"
NOBODY = 65534


class Server:
    """The program, serving so many connections, or going on where no count is given."""

    def __init__(self, program, count, *words, descriptors=None):
        counted = [] if count is None else ["--count", str(count)]
        limit = descriptors and (lambda: limit_descriptors(0, descriptors))
        self.process, self.port = serve(program, *words, *counted, preexec_fn=limit)

    def asked(self, method, path, body=None, **fields):
        """The status, the answer's fields and its body."""
        return ask(self.port, method, path, body, **fields)

    def run(self, request):
        return self.asked("POST", "/run", json.dumps(request))

    def sent(self, data, pieces=1):
        """What is answered to these bytes, sent in so many pieces; afterwards nothing more is sent."""
        with socket.create_connection(("127.0.0.1", self.port), timeout=20) as stream:
            for at in range(pieces):
                stream.sendall(data[at * len(data) // pieces:(at + 1) * len(data) // pieces])
            stream.shutdown(socket.SHUT_WR)
            answer = b""
            with contextlib.suppress(ConnectionError):
                while piece := stream.recv(65536):
                    answer += piece
            return answer

    def closed(self, pieces, pause):
        """What a client that sends the pieces with such pauses is answered, and after how many seconds."""
        answer = b""
        with contextlib.closing(socket.create_connection(("127.0.0.1", self.port))) as stream:
            begun = time.monotonic()
            with contextlib.suppress(ConnectionError):
                for piece in pieces:
                    stream.sendall(piece)
                    stream.settimeout(pause)
                    with contextlib.suppress(TimeoutError):
                        answer = stream.recv(65536)
                        break
                stream.settimeout(60)
                while piece := stream.recv(65536):
                    answer += piece
            return answer, time.monotonic() - begun

    def stopped(self):
        """Stops it by a signal, as a service is stopped."""
        self.process.send_signal(signal.SIGTERM)
        expect(self.ended() == -signal.SIGTERM, "a signal doesn't stop it")

    def ended(self):
        """The status that it ends with, after its last connection."""
        status = self.process.wait(timeout=20)
        self.process.stdout.close()
        self.process.stderr.close()
        return status

    def kill(self):
        self.process.send_signal(signal.SIGKILL)
        self.ended()


def limit_descriptors(process, count):
    """Lets the process have so many descriptors; 0 is this one."""
    _, most = resource.prlimit(process, resource.RLIMIT_NOFILE)
    resource.prlimit(process, resource.RLIMIT_NOFILE, (count, most))


def routes(program):
    """Each route, and what is refused."""
    cases = [
        ("POST", "/run", json.dumps(LOCATION), 200, b'{"entries":0,"ids":[1]}\n'),
        ("POST", "/run", json.dumps(PART), 200, b'{"entries":0,"ids":[2]}\n'),
        ("POST", "/run", json.dumps(PART), 409, b'{"refused":"NameTaken"}\n'),
        ("POST", "/run", "[]", 400, b'{"fault":"NotObject","line":1}\n'),
        ("POST", "/run", "", 400, b'{"fault":"NotJson","line":1}\n'),
        ("POST", "/run", '{"of":2,"report":"stock"}', 400, b'{"fault":"NoField","line":1}\n'),
        ("POST", "/run", "x" * 65_537, 400, b'{"fault":"TooLong","line":1}\n'),
        ("POST", "/run", json.dumps({"day": DAY, "do": "order", "partner": "Acme", "side": "purchase"}), 200, None),
        ("POST", "/run", json.dumps(ORDERED), 200, None),
        ("POST", "/run", json.dumps({"day": DAY, "do": "issue_order", "order": 3}), 200, None),
        ("POST", f"/import/receipts/D1/{DAY}", RECEIPTS, 200,
         b'1\t{"entries":1,"ids":[5]}\n2\t{"entries":1,"ids":[6]}\n'),
        ("POST", "/import/receipts/D1/2030-03-02", RECEIPTS, 200,
         b'1\t{"entries":1,"ids":[5]}\n2\t{"entries":1,"ids":[6]}\n'),
        ("POST", f"/import/counts/D1/{DAY}", "number,item,quantity\n0,5,1\n", 400, b'{"fault":"WrongType","line":2}\n'),
        ("POST", f"/import/counts/D1/{DAY}", "number,item,quantity\n1,99,1\n", 200, b'1\t{"refused":"NoSuch"}\n'),
        ("POST", "/import/counts/D1/2030-02-30", "", 404, b'{"http":404}\n'),
        ("POST", "/import/prices/D1/2030-01-02", "", 404, b'{"http":404}\n'),
        ("POST", f"/import/add_part/P1/{DAY}", "name,flags\nNut,component\n", 404, b'{"http":404}\n'),
        ("GET", "/report/stock/2", None, 200, b"5\t100\tOK\tat 1\tL1\t\n6\t50\tOK\tat 1\t\t\n"),
        ("GET", "/report/stock/002", None, 200, b"5\t100\tOK\tat 1\tL1\t\n6\t50\tOK\tat 1\t\t\n"),
        ("GET", "/report/where_used/2", None, 200, b""),
        ("GET", "/report/stock/9", None, 409, b'{"refused":"NoSuch"}\n'),
        ("GET", "/report/price/1", None, 404, b'{"http":404}\n'),
        ("GET", "/report/ledger/%32", None, 404, b'{"http":404}\n'),
        ("GET", "/x", None, 404, b'{"http":404}\n'),
        ("GET", "/run", None, 405, b'{"http":405}\n'),
        ("HEAD", "/run", None, 405, b""),
        ("POST", "/report/ledger/1", "", 405, b'{"http":405}\n'),
        ("GET", "/run?x=1", None, 404, b'{"http":404}\n'),
    ]
    server = Server(program, len(cases))
    for method, path, body, status, text in cases:
        got, fields, answer = server.asked(method, path, body)
        what = f"{method} {path} {body!r}"
        expect(got == status, f"{what} is answered {got}, {answer!r}")
        expect(text is None or answer == text, f"{what} is answered {answer!r}")
        expect(fields["Connection"] == "close", f"{what} leaves the connection open")
        plain = text is not None and status == 200 and not path.startswith("/run")
        expect(fields["Content-Type"] == ("text/plain; charset=utf-8" if plain else "application/json"),
               f"{what} is answered as {fields['Content-Type']}")
        allow = {"/run": "POST", "/report/ledger/1": "GET"}.get(path) if status == 405 else None
        expect(fields["Allow"] == allow, f"{what} allows {fields['Allow']}")
    expect(server.ended() == 0, "it doesn't end well")


def names(program):
    """Rows that are said by what they are called, in a line and in a file, and not in a target."""
    named = '1,"{""key"":""PO-1/1""}",A,100,,\n2,4,B,50,,\n'
    found = {"day": DAY, "do": "found", "location": "A", "part": "Screw", "quantity": 5}
    ordered = dict(ORDERED, key="PO-1/1", order={"key": "PO-1"}, part="Screw")
    cases = [
        ("POST", "/run", LOCATION, 200, b'{"entries":0,"ids":[1]}\n'),
        ("POST", "/run", PART, 200, b'{"entries":0,"ids":[2]}\n'),
        ("POST", "/run", {"day": DAY, "do": "order", "key": "PO-1", "partner": "Acme", "side": "purchase"}, 200, None),
        ("POST", "/run", ordered, 200, b'{"entries":0,"ids":[4]}\n'),
        ("POST", "/run", {"day": DAY, "do": "issue_order", "order": {"key": "PO-1"}}, 200, None),
        ("POST", "/run", found, 200, b'{"entries":1,"ids":[5]}\n'),
        ("POST", "/run", dict(found, part="Nut"), 400, b'{"fault":"NoName","field":"part","line":1}\n'),
        ("POST", "/run", {"of": "Screw", "report": "stock"}, 400, b'{"fault":"NoField","line":1}\n'),
        ("POST", f"/import/receipts/D1/{DAY}", RECEIPTS.split("\n")[0] + "\n" + named, 400,
         b'{"fault":"NoName","field":"location","line":3}\n'),
        ("POST", f"/import/receipts/D1/{DAY}", RECEIPTS.split("\n")[0] + "\n" + named.replace("B", "1"), 200,
         b'1\t{"entries":1,"ids":[6]}\n2\t{"entries":1,"ids":[7]}\n'),
        ("GET", "/report/stock/Screw", None, 404, b'{"http":404}\n'),
        ("GET", "/report/where_used/2", None, 200, b""),
    ]
    server = Server(program, len(cases), "--names")
    for method, path, body, status, text in cases:
        got, _, answer = server.asked(method, path, json.dumps(body) if isinstance(body, dict) else body)
        is_so = got == status and text in (None, answer)
        expect(is_so, f"with names {method} {path} {body!r} is answered {got}, {answer!r}")
    expect(server.ended() == 0, "with names it doesn't end well")


def journal(program, folder):
    """With a journal each line that is done is kept, under its own key or the one that it is given, and answered as
    without."""
    sent = [LOCATION, LOCATION, dict(PART, key=f"{DAY}/3"), dict(LOCATION, name="B"), dict(PART, name="Nut"), "[]"]
    told = []
    for words in [], ["--journal"]:
        path = os.path.join(folder, f"journal{len(words)}.db")
        server = Server(program, len(sent) + 1, "--db", path, *words)
        answers = [server.run(it) for it in sent]
        answers.append(server.asked("POST", f"/import/counts/D1/{DAY}", COUNT))
        told.append([(status, text) for status, _, text in answers])
        expect(server.ended() == 0, f"{words}: it doesn't end well")
    expect(told[0] == told[1], f"with a journal it is answered {told[1]}, and not {told[0]}")
    kept = run(program, "export", "--db", path, "kept").stdout
    keys = [line.split(",")[0] for line in kept.splitlines()[1:]]
    expect(keys == [f"{DAY}/{n}" for n in (1, 3, 4, 5)], f"with a journal these keys are kept: {keys}")


def heads(program):
    """Heads that are refused, and requests that aren't whole."""
    whole = posted(json.dumps(LOCATION))
    cases = [
        (b"GET / HTTP/1.1\r\n" + b"a: b\r\n" * 65 + b"\r\n", b"HTTP/1.1 431 "),
        (b"GET /" + b"x" * 8_192, b"HTTP/1.1 431 "),
        (b"GET / HTTP/2.0\r\n\r\n", b"HTTP/1.1 400 "),
        (b"GET /x HTTP/1.0\r\n\r\n", b"HTTP/1.1 404 "),
        (b"get /run HTTP/1.1\r\n\r\n", b"HTTP/1.1 405 "),
        (b"POST /run HTTP/1.1\r\n\r\n", b"HTTP/1.1 411 "),
        (posted("{}", fields="Content-Length: 2\r\n"), b"HTTP/1.1 400 "),
        (posted("{}", fields="Transfer-Encoding: chunked\r\n"), b"HTTP/1.1 400 "),
        (b"POST /run HTTP/1.1\r\nContent-Length: 99999999999\r\n\r\n", b"HTTP/1.1 413 "),
        (b"\r\n\r\n" + whole, b"HTTP/1.1 200 "),
    ]
    cuts = random.Random(5).sample(range(len(whole)), 40)
    server = Server(program, len(cases) + len(cuts) + 1)
    for data, start in cases:
        answer = server.sent(data, 3)
        expect(answer.startswith(start), f"{data[:60]!r} is answered {answer[:60]!r}")
    for cut in cuts:
        answer = server.sent(whole[:cut])
        expect(answer == b"", f"the first {cut} bytes of a request are answered {answer[:60]!r}")
    status, _, answer = server.run(LOCATION)
    expect((status, answer) == (409, b'{"refused":"NameTaken"}\n'), "a request that wasn't whole was run")
    expect(server.ended() == 0, "it doesn't end well")


def by_curl(program):
    """The answers that curl prints."""
    if not shutil.which("curl"):
        print("check_http: no curl is here")
        return
    server = Server(program, 3)
    url = f"http://127.0.0.1:{server.port}"
    asked = (
        (["-d", json.dumps(LOCATION), f"{url}/run"], b'{"entries":0,"ids":[1]}\n'),
        (["--data-binary", COUNT, f"{url}/import/counts/C1/{DAY}"], b'1\t{"refused":"NoSuch"}\n'),
        ([f"{url}/report/ledger/2"], b'{"refused":"NoSuch"}\n'),
    )
    for words, text in asked:
        done = run("curl", "-s", *words, lines=b"")
        expect(done.stdout == text, f"curl prints {done.stdout!r} for {words[-1]}")
    expect(server.ended() == 0, "it doesn't end well")


def expecting(program):
    """A client that waits to be told that its body may come is told at once; nobody else is told so."""
    body = json.dumps(LOCATION) + " " * 2_000
    interim = b"HTTP/1.1 100 Continue\r\n\r\n"
    expects = "Expect: 100-continue\r\n"
    waiting = [(posted(body, fields=expects), 200), (posted(body, fields="expect:\t100-Continue \r\n"), 409)]
    at_once = [(posted(body), 409), (posted(body, fields="Expect: 200-ok\r\n"), 409),
               (posted(body, fields=expects).replace(b"HTTP/1.1", b"HTTP/1.0"), 409)]
    rejected = [("/x", expects, 404), ("/run", f"{expects}Origin: null\r\n", 403),
                ("/run", f"{expects}Content-Length: 9\r\n", 400)]
    has_curl = shutil.which("curl") is not None
    server = Server(program, len(waiting) + 2 * len(at_once) + len(rejected) + has_curl)
    for data, status in waiting:
        with socket.create_connection(("127.0.0.1", server.port), timeout=20) as stream:
            head, _, rest = data.partition(b"\r\n\r\n")
            begun = time.monotonic()
            stream.sendall(head + b"\r\n\r\n")
            told = b""
            while len(told) < len(interim) and (piece := stream.recv(65536)):
                told += piece
            seconds = time.monotonic() - begun
            expect(told == interim and seconds < 1, f"{head!r} is told {told!r} after {seconds:.1f} s")
            stream.sendall(rest)
            answer = stream.makefile("rb").read()
            expect(answer.startswith(b"HTTP/1.1 %d " % status), f"{head!r} is answered {answer[:60]!r}")
    for data, status in at_once:
        for pieces in (1, 9):
            answer = server.sent(data, pieces)
            expect(answer.startswith(b"HTTP/1.1 %d " % status), f"{data[:60]!r} is answered {answer[:60]!r}")
    for path, fields, status in rejected:
        answer = server.sent(posted(body, path, fields).partition(b" " * 2_000)[0])
        expect(answer.startswith(b"HTTP/1.1 %d " % status), f"{path} with {fields!r} is answered {answer[:60]!r}")
    if has_curl:
        begun = time.monotonic()
        words = ["-s", "-H", "Expect: 100-continue", "-d", body, f"http://127.0.0.1:{server.port}/run"]
        done = run("curl", *words, lines=b"")
        seconds = time.monotonic() - begun
        expect(done.stdout == b'{"refused":"NameTaken"}\n', f"curl prints {done.stdout!r}")
        expect(seconds < 0.9, f"curl waits {seconds:.1f} s")
    expect(server.ended() == 0, "it doesn't end well")


def slow_answer(program):
    """The time of an answer begins with it, though an interim response was written long before."""
    server = Server(program, 1)
    begun = time.monotonic()
    with socket.create_connection(("127.0.0.1", server.port), timeout=60) as stream:
        stream.sendall(HEAD.replace(b"\r\n\r\n", b"\r\nExpect: 100-continue\r\n\r\n"))
        expect(stream.recv(65536) == b"HTTP/1.1 100 Continue\r\n\r\n", "an interim response isn't told")
        for _ in range(100):
            stream.sendall(b"a" * 4_000)
            time.sleep(0.36)
        answer = stream.makefile("rb").read()
    seconds = time.monotonic() - begun
    expect(answer.startswith(b"HTTP/1.1 400 ") and seconds > 34, f"after {seconds:.1f} s is answered {answer[:60]!r}")
    expect(server.ended() == 0, "it doesn't end well")


def descriptors(server):
    """How many are open while no client is there; the last client's may take a moment to be closed."""
    counts = []
    for _ in range(10):
        time.sleep(0.1)
        counts.append(len(os.listdir(f"/proc/{server.process.pid}/fd")))
    return min(counts)


def memory(server):
    """What it holds, in KiB."""
    text = pathlib.Path(f"/proc/{server.process.pid}/status").read_text()
    return int(text.split("VmRSS:")[1].split()[0])


def many(program):
    """Connections one after another leave no descriptor and no memory behind."""
    server = Server(program, CONNECTIONS + 100)
    for _ in range(100):
        server.asked("GET", "/report/stock/9")
    before = descriptors(server), memory(server)
    for i in range(CONNECTIONS):
        if i == CONNECTIONS - 1:
            after = descriptors(server), memory(server)
        server.asked("GET", "/report/stock/9")
    expect(after[0] <= before[0], f"descriptors grew from {before[0]} to {after[0]}")
    expect(after[1] <= before[1] + 1024, f"memory grew from {before[1]} to {after[1]} KiB")
    expect(server.ended() == 0, "it doesn't end well")
    print(f"check_http: after {CONNECTIONS} connections {after[0]} descriptors and {after[1]} KiB, as before")


def made_up(program):
    """Made-up bytes end no server, and change nothing."""
    source = random.Random(7)
    whole = posted(json.dumps(LOCATION))
    server = Server(program, MADE_UP + 1)
    for i in range(MADE_UP):
        if i % 2:
            data = bytes(source.randrange(256) for _ in range(source.randrange(400)))
        else:
            data = bytearray(whole)
            for _ in range(source.randrange(1, 4)):
                data[source.randrange(60)] = source.randrange(256)
        server.sent(bytes(data))
    status, _, _ = server.asked("GET", "/report/ledger/2")
    expect(status == 409, "made-up bytes made a part")
    expect(server.ended() == 0, "it doesn't end well")


def killed(program, folder):
    """A server that is killed leaves the books before or after each request; what is sent again is done once."""
    path = os.path.join(folder, "w.db")
    source = random.Random(11)
    requests = [dict(LOCATION, key="a"), dict(PART, key="b")] + [
        {"day": DAY, "do": "found", "key": f"f{i}", "location": 1, "part": 2, "quantity": 10} for i in range(60)]
    done = 0
    for _ in range(20):
        server = Server(program, 1_000, "--db", path)
        stop = source.randrange(1, 12)
        for request in requests[max(done - 2, 0):done + stop]:
            status, _, _ = server.run(request)
            expect(status == 200, f"a request that is sent again is answered {status}")
        done = min(done + stop, len(requests))
        if done < len(requests):
            # One more is sent, and its answer isn't waited for.
            with contextlib.closing(socket.create_connection(("127.0.0.1", server.port))) as stream:
                stream.sendall(posted(json.dumps(requests[done])))
                server.kill()
        else:
            server.kill()
        with contextlib.closing(sqlite3.connect(path)) as database:
            kept = database.execute("SELECT count(*) FROM kept").fetchone()[0]
        expect(done <= kept <= done + 1, f"{kept} requests are kept of {done} or one more")
    server = Server(program, len(requests) + 1, "--db", path)
    for request in requests:
        expect(server.run(request)[0] == 200, "a request that is sent again is refused")
    _, _, text = server.asked("GET", "/report/ledger/2")
    expect(b"found\t600\n" in text, f"the ledger is {text!r}")
    expect(server.ended() == 0, "it doesn't end well")


def pages(program):
    """What web pages send, and names that aren't the service's."""
    server = Server(program, 24)
    own = f"127.0.0.1:{server.port}"
    local = f"localhost:{server.port}"
    for number, (status, fields) in enumerate((
        (200, {}),
        (200, {"Host": local}),
        (200, {"Origin": f"http://{own}", "Sec-Fetch-Site": "same-origin"}),
        (200, {"Host": local, "Origin": f"http://{local}", "Sec-Fetch-Site": "none"}),
        (421, {"Host": "evil.example"}),
        (421, {"Host": "localhost"}),
        (421, {"Host": f"localhost.evil.example:{server.port}"}),
        (421, {"Host": f"127.0.0.1:{server.port % 65535 + 1}"}),
        (403, {"Origin": "null"}),
        (403, {"Origin": "http://evil.example"}),
        (403, {"Origin": f"https://{own}"}),
        (403, {"Sec-Fetch-Site": "cross-site"}),
    )):
        line = json.dumps(dict(LOCATION, name=f"L{number}"))
        got, headers, answer = server.asked("POST", "/run", line, **fields)
        expect(got == status, f"a line with {fields} is answered {got}")
        if status != 200:
            text = b'{"http":%d}\n' % status
            expect(answer == text and headers["Content-Type"] == "application/json", f"{fields}: {answer!r}")
        got, _, answer = server.asked("POST", "/run", line)
        expect(got == (409 if status == 200 else 200), f"with {fields} a line is done, or isn't")
    expect(server.ended() == 0, "it doesn't end well")
    server = Server(program, 3)
    twice = f"Host: {own}\r\nHost: {own}\r\n"
    for fields, status in ((twice, 421), ("Origin: null\r\n", 403), ("ORIGIN:null\r\n", 403)):
        answer = server.sent(f"GET /report/stock/1 HTTP/1.1\r\n{fields}\r\n".encode())
        expect(answer.startswith(f"HTTP/1.1 {status} ".encode()), f"{fields!r} is answered {answer[:40]!r}")
    expect(server.ended() == 0, "it doesn't end well")


def tokens(program, folder):
    """The file of a token, and who shows it."""
    path = pathlib.Path(folder, "token")

    def kept(text, mode):
        path.write_text(text)
        path.chmod(mode)

    def refused(what, reason=""):
        words = ["serve", "--port", str(free_port()), "--count", "1", "--token", str(path)]
        done = run(program, *words, timeout=20)
        expect(done.returncode == 3 and not done.stdout, f"{what} ends with {done.returncode}")
        expect(str(path) in done.stderr and reason in done.stderr, f"of {what} is told {done.stderr!r}")

    refused("no file")
    os.mkfifo(path, 0o600)
    refused("a pipe", "it is no file")
    path.unlink()
    path.mkdir(0o700)
    refused("a folder", "it is no file")
    path.rmdir()
    if os.geteuid() == 0:
        kept(TOKEN, 0o600)
        os.chown(path, NOBODY, NOBODY)
        refused("another user's file", "another user's")
        path.unlink()
    for text, mode in ((TOKEN, 0o640), (TOKEN, 0o604), (TOKEN, 0o620), (TOKEN[:31], 0o600), (TOKEN * 4, 0o600),
                       (TOKEN + " \n", 0o600), ("\n" + TOKEN, 0o600), (TOKEN + "\r\n", 0o600), ("", 0o600)):
        kept(text, mode)
        refused(f"{text!r} in a file of mode {mode:o}")
    for text, mode in ((TOKEN, 0o600), (f"{TOKEN}\nmore\n", 0o400)):
        kept(text, mode)
        server = Server(program, 9, "--token", str(path))
        local = f"localhost:{server.port}"
        for status, fields in ((200, {"Authorization": f"Bearer {TOKEN}"}), (401, {}),
                               (401, {"Authorization": f"Bearer {TOKEN[:-1]}"}), (401, {"Authorization": TOKEN}),
                               (401, {"Authorization": f"Bearer {TOKEN}a"}),
                               (403, {"Authorization": f"Bearer {TOKEN}", "Origin": "null"}),
                               (421, {"Authorization": f"Bearer {TOKEN}", "Host": local}),
                               (403, {"Authorization": f"Bearer {TOKEN}", "Origin": f"http://{local}"})):
            got, headers, answer = server.asked("POST", "/run", json.dumps(LOCATION), **fields)
            expect(got == status, f"{fields} is answered {got}, {answer!r}")
            expect(headers["WWW-Authenticate"] == ("Bearer" if status == 401 else None), f"{got} asks for no token")
        expect(server.asked("GET", "/prove/a")[0] == 404, "without a page something is proved")
        expect(server.ended() == 0, "it doesn't end well")


def closed_streams(program):
    """Where standard streams are closed as it starts, the null device stands in their place and no client; where it can't
    tell that it listens it ends with 3."""
    def words(port, closed):
        called = [program, "serve", "--port", str(port), "--count", "1"]
        return ["sh", "-c", f'exec "$@" {closed}', "sh", *called]

    done = subprocess.run(words(free_port(), "<&- >&- 2>&-"), timeout=20, check=False)
    expect(done.returncode == 3, f"with no stream it ends with {done.returncode}")
    port = free_port()
    with subprocess.Popen(words(port, "<&- 2>&-"), stdout=subprocess.PIPE) as process:
        said = process.stdout.readline()
        expect(said == f"listening on 127.0.0.1:{port}\n".encode(), f"with closed streams it says {said!r}")
        with contextlib.closing(socket.create_connection(("127.0.0.1", port), timeout=20)) as stream:
            stream.sendall(b"GET /x ")
            time.sleep(0.5)
            places = {number: os.readlink(f"/proc/{process.pid}/fd/{number}") for number in (0, 2)}
            expect(set(places.values()) == {"/dev/null"}, f"in the place of closed streams stand {places}")
            stream.sendall(b"HTTP/1.1\r\n\r\n")
            stream.shutdown(socket.SHUT_WR)
            expect(stream.recv(65536).startswith(b"HTTP/1.1 404 "), "with closed streams it doesn't answer")
        expect(process.wait(timeout=20) == 0, "with closed streams it doesn't end well")


def silent(program):
    """Clients that say nothing keep nobody waiting, and are left after a second; so are those that send on after an
    answer. One that asks late is answered."""
    server = Server(program, 5)
    with contextlib.closing(socket.create_connection(("127.0.0.1", server.port), timeout=20)) as stream:
        begun = time.monotonic()
        expect(server.asked("GET", "/x")[0] == 404, "a client behind a silent one isn't answered")
        seconds = time.monotonic() - begun
        expect(seconds < 0.5, f"a client behind a silent one is answered after {seconds:.1f} s")
        expect(stream.recv(1) == b"", "a silent client is told something")
        seconds = time.monotonic() - begun
        expect(0.8 < seconds < 3, f"a silent client is left after {seconds:.1f} s")
    with contextlib.closing(socket.create_connection(("127.0.0.1", server.port), timeout=20)) as stream:
        time.sleep(0.5)
        stream.sendall(b"GET /x HTTP/1.1\r\n\r\n")
        expect(stream.recv(20).startswith(b"HTTP/1.1 404 "), "a client that asks late isn't answered")
    begun = time.monotonic()
    with contextlib.closing(socket.create_connection(("127.0.0.1", server.port))) as stream:
        stream.sendall(b"GET /x HTTP/1.1\r\n\r\n")
        with contextlib.suppress(ConnectionError):
            while time.monotonic() < begun + 10:
                stream.sendall(b"x" * 100)
                time.sleep(0.05)
    expect(time.monotonic() < begun + 3, "a client that sends on and on is read for long")
    with contextlib.closing(socket.create_connection(("127.0.0.1", server.port))) as stream:
        stream.sendall(b"GET /rep")
    expect(server.ended() == 0, "it doesn't end well")


class Crowd:
    """Clients that say nothing, and each of whom comes again as soon as its connection is closed."""

    def __init__(self, port, count):
        self.port, self.came, self.goes_on = port, 0, True
        self.streams = {}
        self.poll = select.poll()
        for _ in range(count):
            self.come()
            # A listener's queue holds 128: of more that come at once the system lets some ask again after a second.
            time.sleep(0.002)
        self.thread = threading.Thread(target=self.stay)
        self.thread.start()

    def come(self):
        stream = socket.create_connection(("127.0.0.1", self.port), timeout=20)
        self.streams[stream.fileno()] = stream
        self.poll.register(stream, select.POLLIN)
        self.came += 1

    def stay(self):
        while self.goes_on:
            for number, _ in self.poll.poll(100):
                self.poll.unregister(number)
                self.streams.pop(number).close()
                self.come()

    def go(self):
        self.goes_on = False
        self.thread.join()
        for stream in self.streams.values():
            stream.close()


def crowd(program):
    """Beside 200 clients that say nothing and come again, each client is answered within a tenth of a second; of 300
    that come at once those that came first are closed at once."""
    server = Server(program, None)
    others = Crowd(server.port, 200)
    times = []
    for _ in range(60):
        begun = time.monotonic()
        expect(server.asked("GET", "/x")[0] == 404, "beside silent clients one isn't answered")
        times.append(time.monotonic() - begun)
        time.sleep(0.05)
    others.go()
    expect(others.came > 400, f"of 200 silent clients {others.came} came in three seconds")
    middle, worst = sorted(times)[30], max(times)
    expect(middle < 0.1 and worst < 1, f"beside 200 silent clients one waits {middle:.3f} s, and {worst:.3f} s at most")
    time.sleep(1.5)
    begun = time.monotonic()
    streams = []
    for _ in range(300):
        streams.append(socket.create_connection(("127.0.0.1", server.port), timeout=20))
        time.sleep(0.001)
    closed = [bool(select.select([it], [], [], 0)[0]) for it in streams]
    is_soon = time.monotonic() - begun < 0.9
    is_so = sum(closed[:44]) > 40 and not any(closed[100:])
    expect(is_so or not is_soon, f"of 300 silent clients are closed: {closed}")
    for stream in streams:
        stream.close()
    server.stopped()
    print(f"check_http: beside 200 silent clients one is answered in {1000 * middle:.1f} ms, or {1000 * worst:.1f}")


def slow_head(program):
    """A client that sends a byte now and then is left half a minute after its first."""
    server = Server(program, 1)
    answer, seconds = server.closed([b"GET /x HTTP/1.1\r\n"] + [b"a"] * 200, 0.5)
    expect(answer == b"" and 28 < seconds < 40, f"a slow head is left after {seconds:.1f} s with {answer!r}")
    expect(server.ended() == 0, "it doesn't end well")


HEAD = b"POST /run HTTP/1.1\r\nContent-Length: 400000\r\n\r\n"


def fair_body(program):
    """A body of 10 KiB a second goes on past half a minute."""
    server = Server(program, 1)
    answer, seconds = server.closed([HEAD] + [b"a" * 4_000] * 100, 0.36)
    is_answered = answer.startswith(b"HTTP/1.1 400 ") and seconds > 34
    expect(is_answered, f"a fair body is left after {seconds:.1f} s with {answer!r}")
    expect(server.ended() == 0, "it doesn't end well")


def slow_body(program):
    """A body of less is left."""
    server = Server(program, 1)
    answer, seconds = server.closed([HEAD] + [b"a" * 1_000] * 400, 0.5)
    expect(answer == b"" and 28 < seconds < 60, f"a slow body is left after {seconds:.1f} s with {answer!r}")
    expect(server.ended() == 0, "it doesn't end well")


def slow_taker(program):
    """A client that doesn't take its answer is left after half a minute; it is more than the system holds for it."""
    server = Server(program, 2)
    rows = "number,item,quantity\n" + 174_000 * "1,9,1\n"
    with contextlib.closing(socket.socket()) as stream:
        stream.setsockopt(socket.SOL_SOCKET, socket.SO_RCVBUF, 4096)
        stream.connect(("127.0.0.1", server.port))
        stream.sendall(posted(rows, f"/import/counts/C1/{DAY}"))
        begun = time.monotonic()
        expect(ask(server.port, "GET", "/x", timeout=90)[0] == 404, "who comes behind isn't answered")
        seconds = time.monotonic() - begun
        expect(14 < seconds < 60, f"a client that takes nothing is left after {seconds:.1f} s")
    expect(server.ended() == 0, "it doesn't end well")


def slow_reader(program):
    """A client that takes 2,000 bytes a second of an answer of 12 MB has half a minute, and a second for each 100 KiB
    that the system takes for it; less where the system takes nothing for a quarter of a minute."""
    server = Server(program, None, "--page")
    lines = "[]\n" * 349_525
    with contextlib.closing(socket.create_connection(("127.0.0.1", server.port))) as stream:
        stream.sendall(posted(lines, "/lines"))
        begun = time.monotonic()
        waits = threading.Thread(target=trickle, args=(stream, 1_000, 0.5), daemon=True)
        waits.start()
        expect(ask(server.port, "GET", "/x", timeout=600)[0] == 404, "who comes behind isn't answered")
        seconds = time.monotonic() - begun
        expect(14 < seconds < 100, f"a client that takes 2,000 bytes a second is left after {seconds:.1f} s")
    server.stopped()


def trickle(stream, size, pause):
    """Takes so many bytes at a time, with such pauses."""
    with contextlib.suppress(OSError):
        while stream.recv(size):
            time.sleep(pause)


def crowded(program):
    """Where no descriptor is left one is waited for, and then the service ends; a full standard output is named."""
    server = Server(program, 1, descriptors=4)
    begun = time.monotonic()
    with contextlib.closing(socket.create_connection(("127.0.0.1", server.port))):
        status = server.process.wait(timeout=20)
    told = server.process.stderr.read()
    seconds = time.monotonic() - begun
    expect(status == 3 and 1.5 < seconds < 6, f"without a descriptor it ends with {status} after {seconds:.1f} s")
    expect(f"127.0.0.1:{server.port}: ".encode() in told, f"without a descriptor it tells {told!r}")
    server = Server(program, 1, descriptors=4)
    threading.Timer(0.7, limit_descriptors, (server.process.pid, 64)).start()
    expect(server.asked("GET", "/x")[0] == 404, "a descriptor isn't waited for")
    expect(server.ended() == 0, "it doesn't end well")
    with open("/dev/full", "wb") as full:
        words = [program, "serve", "--port", str(free_port()), "--count", "1"]
        done = subprocess.run(words, stdout=full, stderr=subprocess.PIPE, check=False)
    expect(done.returncode == 3 and b"standard output" in done.stderr, f"at a full device it tells {done.stderr!r}")


def goes_on(program, folder):
    """Without a count it goes on until it is stopped; started once more, it leaves all in the one file."""
    path = os.path.join(folder, "on.db")
    server = Server(program, None, "--db", path)
    for number in range(300):
        expect(server.run(dict(LOCATION, name=f"L{number}"))[0] == 200, "it doesn't go on")
    expect(server.process.poll() is None, "it ends by itself")
    server.stopped()
    expect(os.path.getsize(f"{path}-wal") > 10_000, "what was done last isn't in the log")
    done = run(program, "run", "--db", path)
    expect(done.returncode == 0, f"the books of a server that was stopped end with {done.returncode}")
    copy = os.path.join(folder, "copy.db")
    shutil.copy(path, copy)
    with contextlib.closing(sqlite3.connect(copy)) as database:
        count = database.execute("SELECT count(*) FROM locations").fetchone()[0]
    expect(count == 300, f"a copy has {count} locations of 300")


LISTS = (
    ("/show/stock", ["stock"]),
    ("/show/stock?csv", ["--csv", "stock"]),
    ("/show/stock?low=20&csv", ["--csv", "stock", "--low", "20"]),
    ("/show/part/Screw%20M3", ["part", "Screw M3"]),
    ("/show/at/A?csv", ["--csv", "at", "A"]),
    ("/show/orders?open", ["orders", "--open"]),
    ("/show/count-sheet?csv", ["--csv", "count-sheet"]),
    ("/show/receipt-sheet", ["receipt-sheet"]),
    ("/show/find/screw", ["find", "screw"]),
    ("/show/item/4", ["item", "4"]),
)
NO_LISTS = (
    ("/show/nothing", 404), ("/show/stock?all", 404), ("/show/stock?csv&csv", 404), ("/show/orders?low=1", 404),
    ("/show/part", 404), ("/show/part/Nut", 409), ("/show/part/9", 409), ("/dump?", 404), ("/dump/", 404),
    ("/show/history", 404), ("/show/receipt-sheet?open", 404), ("/show/receipt-sheet/9", 409),
)


def paged(program, folder):
    """With a page: many lines in one body, lists as `show` prints them, and the stop, after which the file alone has
    the books. Nothing of that is done for a page of another origin, or where there is no page."""
    path = os.path.join(folder, "paged.db")
    found = {"day": DAY, "do": "found", "location": 1, "part": 2, "quantity": 7}
    lines = [LOCATION, dict(PART, name="Screw M3"), LOCATION, {"of": 2, "report": "ledger"}, [], found, found]
    body = "".join(json.dumps(it) + "\n" for it in lines)
    routes = [("GET", "/show/stock"), ("GET", "/dump"), ("POST", "/lines"), ("POST", "/stop"),
              ("POST", f"/import/counts/C1/{DAY}?loose")]
    server = Server(program, len(routes))
    for method, target in routes:
        got, _, answer = server.asked(method, target, body if method == "POST" else None)
        expect((got, answer) == (404, b'{"http":404}\n'), f"without a page {target} is answered {got}, {answer!r}")
    expect(server.ended() == 0, "without a page it doesn't end well")
    server = Server(program, None, "--db", path, "--page")
    for method, target in routes:
        got, _, _ = server.asked(method, target, body if method == "POST" else None, Origin="http://evil.example")
        expect(got == 403, f"a page of another origin is answered {got} at {target}")
    for words, status in (("?check", 400), ("?check&stop", 400), ("?again", 404), ("", 200)):
        got, fields, answer = server.asked("POST", f"/lines{words}", body)
        expect(got == status, f"/lines{words} is answered {got}, {answer!r}")
    kind = fields["Content-Type"]
    expect(kind == "application/x-ndjson", f"lines are answered as {kind}")
    alone = os.path.join(folder, "lines.db")
    printed = run(program, "run", "--db", alone, lines=body.encode()).stdout
    expect(answer == printed, f"lines are answered {answer!r}, and not {printed!r}")
    answer = server.sent(b"POST /lines HTTP/1.1\r\nContent-Length: 1048577\r\n\r\n")
    expect(answer.startswith(b"HTTP/1.1 413 "), f"a body that is too long is answered {answer[:60]!r}")
    shown = {}
    for target, _ in LISTS:
        got, _, shown[target] = server.asked("GET", target)
        expect(got == 200, f"{target} is answered {got}")
    for target, status in NO_LISTS:
        got, _, answer = server.asked("GET", target)
        expect(got == status, f"{target} is answered {got}, {answer!r}")
    dump = dumped(server)
    got, _, answer = server.asked("POST", "/stop", "")
    expect((got, answer) == (200, b'{"stopped":true}\n'), f"the stop is answered {got}, {answer!r}")
    expect(server.ended() == 0, "a service that was asked to stop doesn't end well")
    os.remove(f"{path}-wal")
    for target, given in LISTS:
        printed = run(program, "show", "--db", path, *given, lines=b"").stdout
        expect(shown[target] == printed, f"{target} is answered {shown[target]!r}, and {given} print {printed!r}")
    printed = run(program, "dump", "--db", path, lines=b"").stdout
    expect(dump == printed, "what is dumped isn't what `dump` prints")
    once_more(program, folder, dump)


def dumped(server):
    """The dump of the books, by http.client, and by the words that are told where the command is there. Whoever goes away
    amid one costs nothing."""
    with socket.create_connection(("127.0.0.1", server.port), timeout=20) as stream:
        stream.sendall(b"GET /dump HTTP/1.1\r\n\r\n")
    got, fields, answer = server.asked("GET", "/dump")
    expect((got, fields["Content-Type"]) == (200, "application/sql"), f"a dump is answered {got}, {fields}")
    expect(fields["Content-Length"] is None and answer.endswith(b"\nCOMMIT;\n"), "a dump isn't whole")
    if shutil.which("curl"):
        text = subprocess.run(["curl", "-sf", f"http://127.0.0.1:{server.port}/dump"], capture_output=True, check=True)
        expect(text.stdout == answer, "curl gets another dump")
    return answer


def once_more(program, folder, dump):
    """A file that is made of a dump is served as the same books."""
    path = os.path.join(folder, "again.db")
    with contextlib.closing(sqlite3.connect(path)) as database:
        database.executescript(dump.decode())
    server = Server(program, None, "--db", path, "--page")
    expect(dumped(server) == dump, "books that were made of a dump have another dump")
    expect(server.asked("POST", "/stop", "")[0] == 200 and server.ended() == 0, "they can't be served")


def words(program):
    """Words that are wrong, and a port that is taken."""
    for given in (["--port", "0", "--count", "1"], ["--port", "65536", "--count", "1"], ["--count", "8"],
                  ["--port", "8080", "--token"],
                  ["--port", "8080", "--count", "0"], ["--port", "8080", "--count", "1000001"]):
        done = run(program, "serve", *given)
        expect(done.returncode == 2, f"{given} end with {done.returncode}")
    with contextlib.closing(socket.socket()) as taken:
        taken.bind(("127.0.0.1", 0))
        taken.listen()
        port = str(taken.getsockname()[1])
        done = run(program, "serve", "--port", port, "--count", "1")
        expect(done.returncode == 3, f"a port that is taken ends with {done.returncode}")


SLOW = (slow_head, fair_body, slow_body, slow_taker, slow_reader, slow_answer)


def main():
    program = reader_of_words(__doc__).parse_args().program
    with concurrent.futures.ThreadPoolExecutor() as beside, tempfile.TemporaryDirectory() as folder:
        waits = [beside.submit(slow, program) for slow in SLOW]
        words(program)
        routes(program)
        names(program)
        journal(program, folder)
        heads(program)
        by_curl(program)
        expecting(program)
        pages(program)
        tokens(program, folder)
        closed_streams(program)
        silent(program)
        crowd(program)
        crowded(program)
        made_up(program)
        goes_on(program, folder)
        paged(program, folder)
        killed(program, folder)
        many(program)
        for wait in waits:
            wait.result()
    print("check_http: all as it has to be")


if __name__ == "__main__":
    main()
