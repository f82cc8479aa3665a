#!/usr/bin/env python3
"""Runs the program as a server with its page, and asks it for all that a page reads: each route, good and bad, with its
fields byte for byte; the page as it lies in the repository, and whether its policy is that of its scripts and styles;
the books beside what the program exports of each table; the history in steps of a thousand; the tag, which only what is
taken changes; files of commands, good and bad, and sent again; and who may ask, with a token and without. Without
'--page' the same paths have to be unknown, and each answer has to be as before. Then 2,000 readings, of which no
descriptor and no memory may stay.

usage: tools/check_site.py PROGRAM"""
import base64
import contextlib
import csv
import hashlib
import hmac
import io
import json
import os
import pathlib
import re
import socket
import tempfile
import time

import make_page
from shared import COLUMNS, expect, reader_of_words, run, serve

DAY = "2030-01-02"
TOKEN = "0123456789abcdefghijklmnopqrstuvwxyz~!"
GUARDS = [
    "X-Content-Type-Options: nosniff",
    "Cache-Control: no-store",
    "Cross-Origin-Resource-Policy: same-origin",
]
OF_PAGE = ["Referrer-Policy: same-origin", "Cross-Origin-Opener-Policy: same-origin", 'Clear-Site-Data: "cache"']
READINGS = 2_000
# Names that JSON and comma-separated values have to escape.
NAMES = ['Nut "M4"', "Plate, 3 mm", "Mu\u0308tter \u20ac \U0001f529", "Back\\slash", "=1+1"]
PATHS = ["/", "/books", "/export/items", "/history/1"]
# What is there with a page, or with a page and a token alone.
UNKNOWN = [*PATHS, "/prove/a"]


def line(**members):
    return json.dumps({"day": DAY, **members}) + "\n"


def shop():
    """The lines that make a small workshop, whose history has more than two thousand entries."""
    yield line(do="add_location", name="Store")
    for name in NAMES:
        yield line(do="add_part", flags=["component", "trackable"], name=name)
    yield line(do="found", key="f/1", part=2, location=1, quantity=5_000, batch="L \u00e4")
    yield line(do="found", part=3, location=1, quantity=1, serials="S-1")
    yield line(do="found", part=4, location=1, quantity=2)
    for _ in range(2_100):
        yield line(do="remove", item=7, quantity=1)


class Site:
    """The program, serving a file with these words besides."""

    def __init__(self, program, path, *words):
        self.process, self.port = serve(program, "--db", path, *words)

    def sent(self, method, path, *fields, body=b""):
        """The lines of the answer's head and its body. The fields go out as they are given."""
        length = [f"Content-Length: {len(body)}"] if body else []
        head = "\r\n".join([f"{method} {path} HTTP/1.1", *fields, *length, "", ""]).encode()
        with contextlib.closing(socket.create_connection(("127.0.0.1", self.port), timeout=30)) as stream:
            stream.sendall(head + body)
            pieces = []
            while piece := stream.recv(1 << 20):
                pieces.append(piece)
        head, _, text = b"".join(pieces).partition(b"\r\n\r\n")
        return head.decode().split("\r\n"), text

    def run(self, **members):
        """The status of a line that is sent."""
        head, _ = self.sent("POST", "/run", body=line(**members).encode())
        return int(head[0].split()[1])

    def ended(self):
        self.process.terminate()
        self.process.wait(timeout=20)
        self.process.stdout.close()
        self.process.stderr.close()


def status_line(status):
    names = {
        200: "OK",
        304: "Not Modified",
        400: "Bad Request",
        401: "Unauthorized",
        403: "Forbidden",
        404: "Not Found",
        405: "Method Not Allowed",
        421: "Misdirected Request",
    }
    return f"HTTP/1.1 {status} {names[status]}"


def expect_head(what, head, status, media, length, *further, guards=True):
    """Ends the script where the head isn't that, byte for byte."""
    kind = [f"Content-Type: {media}", f"Content-Length: {length}"] if media else []
    right = [status_line(status), *kind, *further, *(GUARDS if guards else []), "Connection: close"]
    expect(head == right, f"{what} is answered with the head {head}, and not {right}")


def policy_of(page):
    """The policy that lets a page run its own scripts and have its own styles, and nothing else."""
    hashes = {}
    for element in ("script", "style"):
        texts = re.findall(rf"<{element}>(.*?)</{element}>", page, re.DOTALL)
        digests = (base64.b64encode(hashlib.sha256(text.encode()).digest()).decode() for text in texts)
        hashes[element] = " ".join(f"'sha256-{digest}'" for digest in digests)
    return (
        f"default-src 'none'; script-src {hashes['script']}; style-src {hashes['style']}; connect-src 'self'; "
        "img-src data:; base-uri 'none'; form-action 'none'; frame-ancestors 'none'; "
        "require-trusted-types-for 'script'; trusted-types 'none'"
    )


def page_itself(site):
    """The page and its fields."""
    head, body = site.sent("GET", "/")
    page = make_page.page()
    expect(body == page.encode(), "the page isn't that of the repository")
    policy = f"Content-Security-Policy: {policy_of(page)}"
    expect_head("the page", head, 200, "text/html; charset=utf-8", len(body), *OF_PAGE, policy)


def exports(program, path):
    """What the program exports of each table of the file."""
    texts = {}
    for table in COLUMNS:
        done = run(program, "export", "--db", path, table, lines=b"")
        expect(done.returncode == 0, f"an export of {table} ends with {done.returncode}")
        texts[table] = done.stdout
    return texts


def fields_of(text):
    """The rows of an export, without its header."""
    return list(csv.reader(io.StringIO(text.decode(), newline="")))[1:]


def readings(site, texts):
    """Each table as it was exported, the books as one object of them, and the history in steps."""
    for table, text in texts.items():
        head, body = site.sent("GET", f"/export/{table}")
        expect(body == text, f"the export of {table} isn't the program's")
        expect_head(f"/export/{table}", head, 200, "text/csv; charset=utf-8", len(body))
    head, body = site.sent("GET", "/books")
    tag = next((field for field in head if field.startswith("ETag: ")), "")
    expect(re.fullmatch(r'ETag: "\d+-0"', tag), f"the books have the tag {tag!r}")
    expect_head("/books", head, 200, "application/json", len(body), tag)
    books = json.loads(body)
    tables = [table for table in COLUMNS if table not in ("history", "kept")]
    expect(list(books) == ["accepted", *tables], f"the books have {list(books)}")
    expect(books["accepted"] == 0 and body.endswith(b"\n"), "the books don't begin or end as they have to")
    for table in tables:
        expect(books[table] == fields_of(texts[table]), f"the books have other rows in {table}")
    entries = fields_of(texts["history"])
    for begin in (0, 1, 2, 1_001, 2_001, len(entries), len(entries) + 1, 10**19 - 1):
        head, body = site.sent("GET", f"/history/{begin}")
        expect_head("/history", head, 200, "application/json", len(body))
        first = max(begin, 1) - 1
        right = entries[first : first + 1_000]
        expect(json.loads(body) == {"history": right}, f"the history from {begin} on is another")


def tags(site):
    """Only what is taken changes the tag."""

    def tag():
        head, _ = site.sent("GET", "/books")
        return next(field.removeprefix("ETag: ") for field in head if field.startswith("ETag: "))

    def status(*fields):
        head, body = site.sent("GET", "/books", *fields)
        if head[0] == status_line(304):
            expect_head("books that are known", head, 304, None, None, f"ETag: {tag()}")
            expect(body == b"", "books that are known come with a body")
        return int(head[0].split()[1])

    first = tag()
    expect(status(f"If-None-Match: {first}") == 304, "books that haven't changed are told again")
    expect(status(f"if-none-match:   {first}") == 304, "a field's name has a case")
    for other in (f"W/{first}", first.strip('"'), f'{first}, "x"', "*", '"0-0"', ""):
        expect(status(f"If-None-Match: {other}") == 200, f"books are thought to be known by {other!r}")
    expect(status(f"If-None-Match: {first}", f"If-None-Match: {first}") == 200, "two tags are thought to be one")
    expect(site.run(do="ship", order=99) == 409 and site.run(do="nothing") == 400, "a wrong line isn't refused")
    for path in PATHS:
        site.sent("GET", path)
    expect(tag() == first, "what is refused, or read, changes the tag")
    expect(site.run(do="add_location", name="Shelf") == 200, "a line isn't taken")
    second = tag()
    expect(second != first and status(f"If-None-Match: {first}") == 200, "a line that was taken leaves the tag")
    expect(site.run(do="order", partner="Acme", side="sale", key="o/1") == 200, "a line isn't taken")
    expect(tag() not in (first, second), "a second line leaves the tag")
    head, body = site.sent("POST", "/import/counts/C1/2030-01-03", body=b"number,item,quantity\n1,7,1\n")
    expect(head[0] == status_line(200), f"a file is answered {body!r}")
    expect(tag().split("-")[1] == '3"', "a file that was taken isn't counted")


def sheets(site):
    """Files of commands: what is answered to them, and that nothing is done of one with a fault."""

    def tag():
        head, _ = site.sent("GET", "/books")
        return next(field.removeprefix("ETag: ") for field in head if field.startswith("ETag: "))

    def sent(command, document, text, status, media):
        path = f"/import/{command}/{document}/{DAY}"
        head, body = site.sent("POST", path, body=text)
        expect_head(f"{path} with {text!r}", head, status, media, len(body))
        return body

    plain, as_json = "text/plain; charset=utf-8", "application/json"
    parts = b"name;flags;price\nWasher;component;0,2\n;;\nStud;component;1\n"
    first = sent("add_part", "P1", parts, 200, plain)
    expect(len(first.splitlines()) == 2 and all(b'"ids":[' in told for told in first.splitlines()),
           f"a file of parts is answered {first!r}")
    known = tag()
    expect(sent("add_part", "P1", parts, 200, plain) == first, "a file that is sent again is answered otherwise")
    expect(tag() != known, "a file that was taken isn't counted")
    known = tag()
    for text, faults in (
        (b"part,location,quantity\nWasher,Store,1\nStud,Store,x\n", b'{"fault":"WrongType","line":3}\n'),
        (b"part,location,quantity\nWasher,Store,\n", b'{"fault":"NoField","line":2}\n'),
        (b"part,location\nWasher,Store\n", b'{"fault":"Header","line":1}\n'),
        (b"\xff\xfep\0", b'{"fault":"Header","line":1}\n'),
        (b"part,location,quantity\nWasher,Store,1,2\n", b'{"fault":"Csv","line":2}\n'),
    ):
        expect(sent("found", "S1", text, 400, as_json) == faults, f"{text!r} isn't told to have the fault {faults!r}")
    two = b"part,location,quantity\nWasher,Store,x\nWasher,Store,1\nStud,Store,1.5\n"
    faults = b'{"fault":"WrongType","line":2}\n{"fault":"WrongType","line":4}\n'
    expect(sent("found", "S1", two, 400, plain) == faults, "two faults aren't told as lines")
    expect(tag() == known, "what has a fault changes the tag")
    named = b"part,location,quantity\nWasher,Store,3\nNo such part,Store,1\nStud,Store,2\n"
    told = sent("found", "S1", named, 200, plain).splitlines()
    expect(len(told) == 3 and told[1] == b'{"fault":"NoName","field":"part","line":3}', f"names are answered {told}")
    told = sent("add_part", "P2", b"name,flags\nWasher,component\n", 200, plain)
    expect(told == b'{"refused":"NameTaken"}\n', f"a name that is taken is answered {told!r}")
    for command in ("receive", "count", "receipt", "add_parts", "Add_part", "add-part"):
        expect(sent(command, "P1", b"name\n", 404, as_json) == b'{"http":404}\n', f"there is a command {command}")
    head, body = site.sent("GET", f"/import/add_part/P1/{DAY}")
    expect_head("a file that is asked for", head, 405, as_json, len(body), "Allow: POST")


def wrong_paths(site):
    """What is no path, and what has another method."""
    for path in ("/index.html", "/export", "/export/", "/export/robots", "/export/Items", "/export/items/1", "/books/",
                 "/books?x=1", "/history", "/history/", "/history/x", "/history/-1", "/history/1/2",
                 "/history/10000000000000000000", "//", "/?x=1",
                 "/prove", "/prove/a"):
        head, body = site.sent("GET", path)
        expect(body == b'{"http":404}\n', f"{path} is answered {body!r}")
        expect_head(path, head, 404, "application/json", len(body))
    for path in PATHS:
        for method in ("POST", "PUT", "DELETE", "OPTIONS"):
            head, body = site.sent(method, path)
            expect(body == b'{"http":405}\n', f"{method} {path} is answered {body!r}")
            expect_head(f"{method} {path}", head, 405, "application/json", len(body), "Allow: GET")
        head, _ = site.sent("HEAD", path)
        expect(head[0] == status_line(405), f"HEAD {path} is answered {head[0]}")


def who_may_ask(site):
    """Pages of other sites, and other names of this machine; the page itself may be come to from anywhere."""
    for path in PATHS:
        cases = [
            (f"Host: localhost:{site.port}", 200), ("Host: evil.example", 421), ("Host: localhost", 421),
            (f"Origin: http://127.0.0.1:{site.port}", 200), ("Origin: null", 403), ("Origin: http://evil.example", 403),
            ("Sec-Fetch-Site: same-origin", 200), ("Sec-Fetch-Site: none", 200),
            ("Sec-Fetch-Site: cross-site", 200 if path == "/" else 403),
            ("Sec-Fetch-Site: same-site", 200 if path == "/" else 403),
        ]
        for field, status in cases:
            head, body = site.sent("GET", path, field)
            expect(head[0] == status_line(status), f"{path} with {field!r} is answered {head[0]}")
            if status != 200:
                expect_head(path, head, status, "application/json", len(body))


def proved(site):
    """What proves that the service knows its token, as Python's `hmac` has it; it isn't called localhost, and proves
    nothing to a page of another site."""
    for nonce in ("a", "abc-DEF_09", "z" * 64):
        right = hmac.new(TOKEN.encode(), f"{site.port}:{nonce}".encode(), hashlib.sha256).hexdigest()
        head, body = site.sent("GET", f"/prove/{nonce}", f"Host: 127.0.0.1:{site.port}")
        expect(body == right.encode(), f"of {nonce} is proved {body!r}, and not {right}")
        expect_head("a proof", head, 200, "text/plain; charset=utf-8", len(body))
    for nonce in ("", "z" * 65, "a.b", "a%20b", "a/b", "a?b"):
        head, body = site.sent("GET", f"/prove/{nonce}")
        expect(head[0] == status_line(404) and body == b'{"http":404}\n', f"of {nonce!r} is proved {body!r}")
    for field, status in ((f"Host: localhost:{site.port}", 421), ("Sec-Fetch-Site: cross-site", 403),
                          ("Origin: http://evil.example", 403), ("Sec-Fetch-Site: same-origin", 200)):
        head, _ = site.sent("GET", "/prove/a", field)
        expect(head[0] == status_line(status), f"with {field!r} a proof is answered {head[0]}")
    head, _ = site.sent("POST", "/prove/a")
    expect(head[0] == status_line(405) and "Allow: GET" in head, f"a proof that is posted is answered {head}")


def with_a_token(program, path, folder):
    """All but the page and the proof that the token is known asks for the token. The service isn't called localhost."""
    at = pathlib.Path(folder) / "token"
    at.write_text(TOKEN + "\n", encoding="ascii")
    at.chmod(0o600)
    site = Site(program, path, "--page", "--token", str(at))
    for asked in PATHS:
        head, body = site.sent("GET", asked)
        if asked == "/":
            expect(head[0] == status_line(200), f"with a token the page is answered {head[0]}")
        else:
            further = "WWW-Authenticate: Bearer"
            expect_head(asked, head, 401, "application/json", len(body), further)
        head, _ = site.sent("GET", asked, f"Authorization: Bearer {TOKEN}")
        expect(head[0] == status_line(200), f"{asked} with its token is answered {head[0]}")
        head, _ = site.sent("GET", asked, f"Authorization: Bearer {TOKEN}", f"Host: localhost:{site.port}")
        expect(head[0] == status_line(421), f"{asked} of localhost is answered {head[0]}")
    proved(site)
    site.ended()


def without_a_page(program, path):
    """The paths of a page are unknown, and no field is more than before."""
    site = Site(program, path)
    for asked in UNKNOWN:
        head, body = site.sent("GET", asked)
        expect(body == b'{"http":404}\n', f"without a page {asked} is answered {body!r}")
        expect_head(asked, head, 404, "application/json", len(body), guards=False)
    head, body = site.sent("POST", f"/import/add_part/P9/{DAY}", body=b"name,flags\nRivet,component\n")
    expect_head("a file of a command", head, 404, "application/json", len(body), guards=False)
    head, body = site.sent("GET", "/report/ledger/2")
    expect_head("a report", head, 200, "text/plain; charset=utf-8", len(body), guards=False)
    site.ended()


def again(program, path, tag_before):
    """Another run of the service has another tag, though it has taken as many lines."""
    site = Site(program, path, "--page")
    head, _ = site.sent("GET", "/books", f"If-None-Match: {tag_before}")
    expect(head[0] == status_line(200), "a tag of another run is taken for this one's")
    site.ended()


def many(site):
    """Readings leave nothing behind."""
    folder = pathlib.Path(f"/proc/{site.process.pid}")

    def held():
        time.sleep(0.2)
        status = (folder / "status").read_text(encoding="ascii")
        return len(os.listdir(folder / "fd")), int(status.split("VmRSS:")[1].split()[0])

    for number in range(READINGS + 200):
        if number == 200:
            before = held()
        site.sent("GET", PATHS[number % len(PATHS)])
    after = held()
    expect(after[0] <= before[0], f"descriptors grew from {before[0]} to {after[0]}")
    expect(after[1] <= before[1] + 1024, f"memory grew from {before[1]} to {after[1]} KiB")
    print(f"check_site: after {READINGS} readings {after[0]} descriptors and {after[1]} KiB, before them {before}")


def main():
    program = reader_of_words(__doc__).parse_args().program
    with tempfile.TemporaryDirectory() as folder:
        path = f"{folder}/shop.db"
        done = run(program, "run", "--db", path, lines="".join(shop()))
        expect(done.returncode == 0, f"the workshop isn't made: {done.stdout[-200:]} {done.stderr}")
        texts = exports(program, path)
        site = Site(program, path, "--page")
        page_itself(site)
        readings(site, texts)
        head, _ = site.sent("GET", "/books")
        first = next(field.removeprefix("ETag: ") for field in head if field.startswith("ETag: "))
        wrong_paths(site)
        who_may_ask(site)
        tags(site)
        sheets(site)
        many(site)
        site.ended()
        again(program, path, first)
        with_a_token(program, path, folder)
        without_a_page(program, path)
    print("check_site: all as it has to be")


if __name__ == "__main__":
    main()
