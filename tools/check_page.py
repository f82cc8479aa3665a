#!/usr/bin/env python3
"""Looks at the page of `invdesk serve --page` in a browser without a window. A workshop of 10,000 items is made up, in
which everything happened, and served; then the page is used as its owner would use it, by mouse and by keyboard.

Looked at are each view, its title and the names of its controls; each form, with what it offers first; that a double
click, an early click and a lost answer do nothing twice; the sheet on which stock is counted; that names which look
like markup stay text; that nothing is read anew where nothing changed; the light, the dark, the printed and the narrow
page, and its contrast; what other pages are refused; the token; and how long it takes, with 100,000 items too. A line
tells each check and what was measured. It takes about three minutes.

Chromium has to be here: `apt-get install -y chromium`. Where Firefox is, as by `apt-get install -y firefox-esr`, the
page is looked at there too.

usage: tools/check_page.py PROGRAM [--draft] [--pictures]     --pictures writes the pictures of the page that stand in docs/"""
import base64
import contextlib
import csv
import http.server
import io
import json
import pathlib
import re
import shutil
import sys
import tempfile
import threading
import time
import urllib.parse

import make_page
from browser import Broken, Firefox
from made_workshop import DAY, HOSTILE, many_items, workshop
from page_user import CHROMIUM, CONTRAST, FILL, H1, SENDER, Desk, Page, button, field, given_by, words_of
from shared import COLUMNS, TOP, expect, run

DOCS = TOP / "docs"
TOKEN = "0123456789abcdefghijklmnopqrstuvwxyz"
# What is wanted, in milliseconds, and by how much it may be missed on a machine that is busy.
WANTED = {"opened": 300, "again": 100, "task": 200}
MISSED = 8
# Faults that the browser tells as they are wanted: refusals and answers that were lost.
TOLD = re.compile(r"status of (4(00|01|09)|500)|ERR_CONNECTION_RESET|insertAdjacentHTML|TrustedHTML")


class Checks:
    """What was looked at, and how much of it failed."""

    count = failed = 0

    def say(self, what, holds, measured=""):
        print(f"{'pass' if holds else 'FAIL'}  {what}{f'  [{measured}]' if measured != '' else ''}", flush=True)
        self.count += 1
        self.failed += not holds


# What the page is

def check_source(c, desk, b):
    page = make_page.page()
    status, headers, text = desk.ask("GET", "/")
    c.say("the program serves the page as it is", (status, text) == (200, page), f"{len(page.encode()):,} bytes")
    policy = headers["Content-Security-Policy"]
    c.say("with the policy of its hashes", policy == make_page.policy_of(page))
    told = headers["Cache-Control"], headers["X-Content-Type-Options"]
    c.say("and isn't kept, sniffed or framed", told == ("no-store", "nosniff") and "frame-ancestors 'none'" in policy)
    c.say("it names no other resource", not re.search(r"https?://|\bsrc=|@import|url\(|import\(", page))
    markup = r"innerHTML|outerHTML|insertAdjacent|document\.write|\beval\(|new Function|srcdoc"
    c.say("it makes no markup of data", not re.search(markup, page))
    forms = dict(b.js("[...FORMS.keys()].map(it => [it, FORMS.get(it).title])"))
    known = {command for command, *_ in make_page.commands()}
    c.say("it has a form with a title for each command", set(forms) == known and all(forms.values()), len(forms))
    c.say("titles are different", len(set(forms.values())) == len(forms))
    told = b.js("[...MEANINGS.keys()]")
    c.say("it has a meaning for each refusal", set(make_page.meanings("Refusals")) <= set(told), len(told))


def check_exports(c, desk, exports):
    same = [desk.ask("GET", f"/export/{table}")[2] == text for table, text in exports.items()]
    c.say("each table is exported as the program exports it by itself", all(same), len(same))
    told = json.loads(desk.ask("GET", "/books")[2])
    rows = {table: list(csv.reader(io.StringIO(exports[table])))[1:] for table in told if table != "accepted"}
    c.say("/books has the same rows", all(told[it] == rows[it] for it in rows), len(rows))


def check_books(c, desk, b):
    told = json.loads(desk.ask("GET", "/books")[2])
    tables = [it for it in COLUMNS if it not in make_page.LEFT_OUT]
    c.say("/books has the tables in their order", [*told] == ["accepted", *tables])
    headers = desk.ask("GET", "/books")[1]
    again = desk.ask("GET", "/books", If_None_Match=headers["ETag"])
    same = again[1]["ETag"] == headers["ETag"]
    c.say("books that didn't change are 304, without a body", same and (again[0], again[2]) == (304, ""))
    requests = [("refused", "issue_build", {"build": 1}, 0), ("done", "add_category", {"name": "Counted"}, 1)]
    for word, command, asked, more in requests:
        before = json.loads(desk.ask("GET", "/books")[2])["accepted"]
        desk.ask("POST", "/run", json.dumps({"day": DAY, "do": command, **asked}))
        _, fields, text = desk.ask("GET", "/books")
        is_new, after = fields["ETag"] != headers["ETag"], json.loads(text)["accepted"]
        c.say(f"a request that is {word} counts {more}", after == before + more and is_new == bool(more))
    b.js("refresh()")
    b.events.clear()
    for _ in range(3):
        b.click("document.getElementById('again')")
        b.rest()
    seen = [params["response"] for event, params in b.events if event == "Network.responseReceived"]
    answers = [it["status"] for it in seen if it["url"].endswith("/books")]
    c.say("the page asks with what it has, and gets 304 where nothing changed", answers == [304] * 3, answers)
    desk.do("add_location", name="Made elsewhere")
    b.go("locations")
    shown = b.wait("document.querySelector('main').textContent.includes('Made elsewhere')")
    c.say("what another program made is shown as one goes to a view", shown)
    b.rest()
    b.events.clear()
    b.js("(async () => { await refresh(); tag = null; await refresh(); })()")
    asked = [params["request"]["url"] for event, params in b.events if event == "Network.requestWillBeSent"]
    c.say("a reading is one request", len(asked) == 2, len(asked))


# What it shows

def measured(c, b, items):
    """How long the books take, to be opened and to be read anew."""
    b.wait("document.getElementById('status')?.textContent.startsWith('Read in')", 120)
    opened = int(re.search(r"\d+", b.js("document.getElementById('status').textContent"))[0])
    longest = b.longest()
    again, alone, same = [b.js(f"(async () => {{ const begun = performance.now(); {what};"
                               "return Math.round(performance.now() - begun); })()")
                          for what in ("tag = null; await refresh()", "workOut()", "await refresh()")]
    factor = MISSED * items / 10_000
    c.say(f"{items:,} items are read and shown", opened < factor * WANTED["opened"], f"{opened} ms")
    c.say("no task of the browser is long meanwhile", longest < factor * WANTED["task"], f"{longest} ms")
    told = f"{again} ms, of which {alone} ms are sums; unchanged {same} ms"
    c.say("they are read anew", again < factor * WANTED["again"], told)


def check_views(c, b, rows):
    views = [("stock", "Stock"), ("low", "What is low"), ("locations", "Locations"), ("builds", "Builds"),
             (f"location/{rows['room']}?deep=1", "Workshop"), (f"build/{rows['build']}", "Build"), ("orders", "Orders"),
             (f"sheet/{rows['shelf']}", "Count sheet: Workshop / Shelf 1.1"), (f"part/{rows['part']}", "Gasket"),
             (f"part/{rows['robot']}", "Robot"), (f"part/{rows['cell']}", "Robot cell"),
             (f"item/{rows['built']}", "Arm 0 A1"), (f"line/{rows['line']}", "Board 0: 3"), ("orders?all=1", "Orders"),
             (f"order/{rows['purchase']}", "Purchase"), (f"order/{rows['last_sale']}", "Sale"),
             ("recent", "Recent activity"), ("do", "What can be done"), ("find/motor", "Found: motor"),
             ("files", "Rows from a file"), ("shopping?optional=1", "Shopping list"), ("lists", "Lists"),
             ("list/stock", "List: stock"), (f"list/at?location={rows['room']}", "List: at"), ("list/builds", "List: bu"),
             ("part/999999999", "No part 999999999"), ("item/x", "No item x"), ("%E0%A4%A", "Stock")]
    for to, title in views:
        b.js("longest = 0; location.hash = '#/find/nothing%20at%20all'")
        b.rest()
        took = b.js(f"""(async () => {{
            const begun = performance.now();
            location.hash = '#/{to}';
            await new Promise(go => addEventListener('hashchange', go, {{ once: true }}));
            await new Promise(go => requestAnimationFrame(() => setTimeout(go)));
            return performance.now() - begun; }})()""")
        took = round(max(took, b.longest()))
        b.rest()
        head, nameless = b.js(H1), b.nameless()
        holds = head.startswith(title) and not nameless and b.js("document.activeElement.tagName") == "H1"
        c.say(f"view {to}: shown, titled, each control named", holds and took < MISSED * WANTED["task"],
              f"{took} ms" + ("" if holds else f", {head}, {nameless[:4]}"))
    lacking = []
    for command in b.js("[...FORMS.keys()]"):
        b.go(f"do/{command}")
        if b.nameless() or not b.count("form.card"):
            lacking.append(command)
    c.say("each form is shown, each control named", not lacking, lacking or "")
    b.go(f"location/{rows['room']}?deep=1")
    first = b.count("main tbody tr")
    b.js("scrollTo(0, document.body.scrollHeight)")
    b.wait(f"document.querySelectorAll('main tbody tr').length > {first}")
    c.say("a long table is drawn in slices, more of it as one scrolls", first <= 160, f"{first} rows at first")
    b.click("[...document.querySelectorAll('main thead button')].find(it => it.textContent === 'Quantity')")
    amounts = [int(it) for it in b.cells(3)]
    c.say("a click on its head sorts it", amounts == sorted(amounts) and b.count("th[aria-sort=ascending]") == 1)
    b.go("stock")
    b.js("longest = 0")
    b.click("document.querySelector('main input[type=search]')")
    b.type("motor type 17")
    b.wait("document.querySelector('main [role=status]').textContent === '1 parts'")
    c.say("the box over the stock finds a part", b.longest() < MISSED * WANTED["task"], f"{b.longest()} ms")
    c.say("what is looked for stands in the address", "q=motor" in b.js("location.hash"))
    b.go(f"part/{rows['cell']}")
    for _ in range(4):
        b.js("for (const it of document.querySelectorAll('main .tree details')) it.open = true")
        time.sleep(0.1)
    c.say("a bill is a tree, which grows down to a board's substitutes",
          b.js("[...document.querySelectorAll('main .tree .tree .tree')].some(it => it.textContent.includes('or '))"))
    b.go(f"item/{rows['motor']}")
    words = b.js("[...document.querySelectorAll('#timeline li b')].map(it => it.textContent)")
    c.say("an item's history is a line of time", words == ["found", "installed"], words)
    b.go(f"item/{rows['built']}")
    content = b.js("document.querySelector('main .tree').textContent")
    c.say("what lies in an item is a tree", content.startswith("Motor type 00 M0-1"))
    b.go("builds")
    lacks = b.cells(5)
    some = "?" not in lacks and any("\u00d7" in it for it in lacks)
    c.say("each open build says what it misses", len(lacks) > 10 and some, lacks[-1][:60])


def check_new_views(c, desk, b, rows):
    free = "[...stock.values()].filter(it => !it.part.retired && !(it.part.flags & 65) && it.free < {}).length"
    b.go("low")
    few = b.count("main tbody tr")
    c.say("at first a part is low of which nothing is free", few == b.js(free.format(1)) > 0, few)
    box = "document.querySelector('main input[inputmode=numeric]')"
    b.click(box)
    b.js(f"{box}.select()")
    b.type("4")
    b.key("Tab")
    more = [int(it) for it in b.cells(3)]
    c.say("the number below which it is can be set", len(more) > few and max(more) == 3, f"{len(more)} rows shown")
    b.call("Page.reload")
    b.rest()
    c.say("and is kept when the page is opened anew", b.js(f"{box}.value") == "4" and b.js(H1) == "What is low")
    b.js("localStorage.clear(); lowBelow = 1")
    b.go("recent")
    entries = desk.entries()
    shown = b.cells(0)[:3]
    c.say("recent activity begins with the latest entry", shown == [str(entries - n) for n in range(3)], shown)
    told = [len(json.loads(desk.ask("GET", f"/history/{at}")[2])["history"]) for at in (1, entries - 4, 999_999_999)]
    c.say("/history has the entries from a number on, at most a thousand", told == [1000, 5, 0], told)
    back = "[...document.querySelectorAll('main button.more')].find(it => it.textContent.startsWith('Look further'))"
    told = b.js(f"{back}.textContent")
    b.js(f"{back}.click()")
    b.wait(f"{back}.textContent !== {told!r}")
    told = b.js(f"{back}.textContent").replace("\u202f", "")
    c.say("one can look further back", told == f"Look further back than entry {entries - 1999}", told)
    b.go(f"part/{rows['hinge']}")
    kinds = b.cells(2, "main section:last-of-type")
    latest = kinds[0].startswith("written off") and kinds[1].startswith("marked")
    c.say("a part's own entries are shown, the latest first", latest and
          any(it.startswith("shipped") for it in kinds), kinds[:4])
    b.js("printed = 0; window.print = () => { printed++; }; byId('print').click()")
    c.say("the button prints", b.js("printed") == 1)


def check_sheet(c, desk, b, rows):
    """The sheet on which stock is counted, with an answer that is lost. check_clerk.py looks how it is filled in."""
    place, items = desk.do("add_location", name="Counted shelf")[0], []
    for n, part in enumerate((rows["part"], rows["hinge"], rows["counted_part"])):
        items += desk.do("found", part=part, location=place, quantity=10 + n)
    sale = desk.do("order", side="sale", partner="Counter")[0]
    line = desk.do("order_line", order=sale, part=rows["hinge"], quantity=5)[0]
    desk.do("issue_order", order=sale)
    desk.do("allocate_sale", line=line, item=items[1], quantity=5)
    b.click("document.getElementById('again')")
    b.rest()
    b.go(f"sheet/{place}")
    boxes = "[...document.querySelectorAll('main tbody input')]"
    order, expected = [int(it) for it in b.cells(1)], b.cells(2)
    shown, wanted = dict(zip(order, expected)), dict(zip(items, ["10", "11", "12"]))
    c.say("the sheet lists what lies there, with what is expected", shown == wanted, shown)
    counts = {items[0]: 12, items[1]: 3, items[2]: 12}
    b.js(f"{boxes}[0].focus()")
    for item in order:
        b.type(str(counts[item]))
        b.key("Enter")
    b.click(button("Look at what will change"))
    b.wait("document.querySelector('main').innerText.includes('Nothing is sent yet')")
    before = desk.entries()
    lost, sent = b.lose(1)
    b.click(button("Send these 3 counts"))
    said = b.wait("document.querySelector('.said')?.textContent")
    b.rest()
    b.stop_intercepting()
    c.say("what came of each count is told, and of all of them together", said == "Counted: 2. Refused: 1.", said)
    keys = [json.loads(it)["key"] for it in sent]
    c.say("each has a key of its own; the lost one was sent twice under one", len(keys) == 4 and len(set(keys)) == 3
          and not lost["left"] and all(re.fullmatch("....-..-../page-[0-9a-f]{24}", it) for it in keys), len(keys))
    found = {int(row[0]): row[5] for row in desk.table("items")}
    c.say("the books have what was counted, each once", desk.entries() == before + 1 and
          [found[it] for it in items] == ["12", "11", "12"])
    b.call("Emulation.setEmulatedMedia", media="print", features=[])
    b.go(f"sheet/{rows['shelf']}")
    c.say("the sheet is printed with its boxes, without what is clicked", b.js(
        "getComputedStyle(document.querySelector('main tbody input')).display !== 'none' &&"
        "getComputedStyle(document.querySelector('.acts')).display === 'none'"))
    b.call("Emulation.setEmulatedMedia", media="", features=[])


# What it does

def check_paths(c, desk, b):
    b.js(f"document.getElementById('day').value = '{DAY}'")
    b.go("stock")
    b.js("document.querySelector('main a.button').focus()")
    b.key("Enter")
    b.wait("!!document.querySelector('form.card')")
    b.js(field("Name") + ".focus()")
    b.type("Widget <i>new</i>")
    b.key("Tab")
    b.type("fasteners b")
    b.key("Enter")
    for _ in range(4):
        b.key("Tab")
    focused = b.js("document.activeElement.value")
    b.key(" ")
    for _ in range(5):
        b.key("Tab")
    said = b.js("document.activeElement.className")
    b.key("Enter")
    said = b.wait("document.querySelector('.said')?.textContent") if said == "main" else said
    b.rest()
    row = desk.table("parts")[-1]
    part, made = int(row[0]), (row[1], row[2] != "", row[4]) == ("Widget <i>new</i>", True, "4")
    c.say("a part is made by the keyboard alone, its category chosen by words",
          focused == "component" and "Done" in said and made, row)
    to = b.wait("document.querySelector('.said a')?.getAttribute('href')")
    c.say("the answer has a link to it", to == f"#/part/{part}", to)
    b.go(f"part/{part}")
    before = len(desk.table("items"))
    b.click(button("Found stock"))
    b.wait("!!document.querySelector('form.card')")
    shown = b.js("document.querySelector('form.card').textContent")
    c.say("a form that is opened from a row has that row chosen", f"number {part}" in shown)
    b.choose("Location", "yard / shelf 3.1")
    b.fill("Quantity", "50")
    b.click(SENDER, 2)
    b.wait("document.querySelector('.said')?.textContent")
    time.sleep(0.3)
    b.rest()
    c.say("a double click finds stock once", len(desk.table("items")) == before + 1)
    item = int(desk.table("items")[-1][0])
    b.go(f"do/found?part={part}")
    b.choose("Location", "yard / shelf 3.1")
    b.fill("Quantity", "7")
    said = b.submit()
    c.say("another one is a new request", "Done" in said and [it[5] for it in desk.table("items")[before:]] ==
          ["50", "7"], said)
    b.go(f"item/{item}")
    b.click(button("Transfer"))
    b.wait("!!document.querySelector('form.card')")
    b.choose("Location", "goods shelf 4.6 bin 8")
    b.fill("Quantity", "20")
    said = b.submit()
    moved = desk.table("items")[-1]
    c.say("part of an item is moved", "Done" in said and moved[5] == "20" and moved[6] == "0", moved)
    told = b.shown_ledger(part)
    has_all = all(it in told["text"] for it in ("found 57", "present 57", "\u2713 balanced"))
    c.say("the ledger tells it, in balance", has_all, told["text"])
    b.go(f"do/remove?item={item}&quantity=9")
    b.submit()
    told = b.shown_ledger(part)
    c.say("both stacks of the ledger have one length", told["wide"][0] == told["wide"][1] and
          told["pieces"] == [["found 57"], ["present 48", "written off 9"]], told)
    b.go(f"do/transfer?item={item}&quantity=1000")
    b.choose("Location", "goods in")
    said = b.submit()
    told = [make_page.meanings("Refusals")["Short"], "(Short. Nothing has changed.)", ", 21,"]
    c.say("a refusal is told in words, with what it came from", all(it in said for it in told), said)
    b.fill("Quantity", "1")
    c.say("the form can be mended and sent", "Done" in b.submit())
    b.go("do/ship")
    b.choose("Order", "customer 00 pending")
    said = b.submit()
    c.say("a refusal says what state its row is in", "(pending)" in said and "WrongState" in said, said)
    b.js("location.hash = '#/do/order?partner=x' + '%C3%A9'.repeat(110)")
    b.wait(f"{H1} === 'New order'")
    said = b.submit()
    c.say("a fault is told in words", "200 bytes" in said, said)
    b.go("do/count")
    entries = desk.table("meta")
    b.js(f"{SENDER}.focus()")
    b.key("Enter")
    time.sleep(0.2)
    c.say("a form in which nothing is chosen isn't sent", not b.count(".said") and desk.table("meta") == entries)
    orders = len(desk.table("orders"))
    b.js("location.hash = '#/do/order?side=sale&partner=Early'")
    b.wait(f"{H1} === 'New sale'")
    b.js("show(true); document.querySelector('form.card').requestSubmit()")
    time.sleep(0.2)
    early = len(desk.table("orders")) == orders
    c.say("a click in the first half second sends nothing; a later one does", early and "Done" in b.submit())
    check_choosing(c, b)


def check_choosing(c, b):
    b.go("do/transfer")
    b.js("longest = 0")
    b.click(field("Item"))
    b.type("b02")
    b.wait("document.querySelectorAll('[role=option]').length > 5")
    b.type("00 nut")
    b.wait("document.querySelectorAll('[role=option]').length > 0")
    c.say("a list over all items answers as one types", b.longest() < MISSED * WANTED["task"], f"{b.longest()} ms")
    b.key("ArrowDown")
    active = b.js(f"{field('Item')}.getAttribute('aria-activedescendant')")
    selected = b.js(f"document.getElementById('{active}').getAttribute('aria-selected')")
    c.say("the arrows go through its rows", active and selected == "true")
    b.key("Escape")
    c.say("Escape closes it", b.js(f"{field('Item')}.getAttribute('aria-expanded')") == "false")
    b.go("do/merge")
    b.choose("Into", "hinge h-2030")
    b.click(field("Items"))
    b.key("Enter")
    chosen = "main .field .row button"
    c.say("a row that doesn't suit isn't chosen unasked", b.count(chosen) == 0)
    b.type("hinge workshop")
    b.key("Enter")
    several = b.count(chosen) == 1
    b.click(f"document.querySelector('{chosen}')")
    none = b.count(chosen) == 0
    b.choose("Items", "hinge workshop")
    c.say("several rows can be chosen, and left out again", several and none and b.count(chosen) == 1)
    said = b.submit()
    c.say("items of other batches aren't merged", "Mismatch" in said, said)


def check_forms(c, b):
    wrong, refused, done = [], [], 0
    for command in b.js("[...FORMS.keys()]"):
        b.go(f"do/{command}")
        said = b.js(FILL) or ""
        b.rest()
        done += said.startswith("Done")
        if said.startswith("Refused"):
            refused.append(f"{command} {said[9:60]}")
        elif not said.startswith("Done"):
            wrong.append((command, said))
        if re.search(r"\((Bad(Day|Text|Serials|Word)|WrongType|NoField|Un\w+|Not(Json|Object))\.", said):
            wrong.append((command, said))
    c.say("each form sends a line that the program reads", not wrong, wrong or f"{done} done, {len(refused)} refused")
    c.say("most are done with what they offer first", done >= 30, "; ".join(refused))


def check_lost(c, desk, b, rows):
    for times in (1, 3):
        before = len(desk.table("items"))
        b.go("stock")
        b.go(f"do/found?part={rows['part']}&location={rows['room']}&quantity={times}")
        _, sent = b.lose(times)
        said = b.submit()
        if times == 1:
            c.say("an answer that is lost: sent twice, done once", "sent 2 times" in said and
                  len(desk.table("items")) == before + 1, said)
        else:
            c.say("three answers that are lost: the page says that it doesn't know", "isn't known" in said and
                  b.js("document.querySelector('form.card fieldset').disabled"), said)
            b.click(button("Send again"))
            said = b.wait("document.querySelector('.said.good')?.textContent")
            c.say("sent again it is done once", "Done" in said and len(desk.table("items")) == before + 1, said)
        c.say("under one key", len({json.loads(it)["key"] for it in sent}) == 1, len(sent))
        b.stop_intercepting()
        b.rest()

    def failing(params):
        body = base64.b64encode(b'{"http":500}\n').decode()
        b.post("Fetch.fulfillRequest", requestId=params["requestId"], responseCode=500, responseHeaders=[], body=body)
    b.go("stock")
    b.go(f"do/found?part={rows['part']}&location={rows['room']}&quantity=4")
    b.intercept(failing, "*/run", "Response")
    said = b.submit()
    b.stop_intercepting()
    c.say("an answer of 500 is told as not known", "isn't known" in said and "500" in said and
          b.js("document.querySelector('form.card fieldset').disabled"), said)


def check_unread(c, b):
    """Books that can't be read, as where the program has ended."""
    def failing(params):
        b.post("Fetch.failRequest", requestId=params["requestId"], errorReason="ConnectionReset")
    b.go("do/found")
    b.fill("Quantity", "12")
    b.intercept(failing, "*/books")
    b.js("dispatchEvent(new Event('focus'))")
    b.rest()
    c.say("what is written in a form stays where the books can't be read", b.js(f"{field('Quantity')}.value") == "12")
    b.go("stock")
    b.js("dispatchEvent(new Event('focus'))")
    c.say("elsewhere it is told", b.wait(f"{H1} === \"The program doesn't answer\""))
    b.stop_intercepting()
    if b.js(f"!!{button('Try again')}"):   # the page asks again by itself each 20 seconds
        b.click(button("Try again"))
    c.say("and asked for again", b.wait(f"{H1} === 'Stock'"))


def check_hostile(c, b, rows):
    views = [f"part/{rows['hostile']}", f"item/{rows['hostile_item']}", "find/img", f"do/found?part={rows['hostile']}",
             "stock?q=img", f"location/{rows['room']}", f"sheet/{rows['room']}", "find/" + urllib.parse.quote(HOSTILE)]
    values = "[...document.querySelectorAll('input')].map(it => it.value).join(' ')"
    for to in views:
        b.go(to)
        shown = b.js(f"document.body.textContent + {values}")
        c.say(f"a name that looks like markup is text in {to[:12]}", HOSTILE in shown and
              b.js("!document.querySelector('main img, main script') && window.hit === undefined"))
    b.go("do/found")
    b.click(field("Part"))
    b.type("onerror")
    b.wait("document.querySelectorAll('[role=option]').length === 1")
    offered = b.js("document.querySelector('[role=option]').textContent")
    c.say("and in a list of choices", HOSTILE in offered and b.js("window.hit === undefined"))
    c.say("a text that is put as markup is stopped by the policy too", b.js("""(() => {
        try { document.body.insertAdjacentHTML('beforeend', '<b>x</b>'); return false; }
        catch (fault) { return fault instanceof TypeError; } })()"""))


def check_log(c, b):
    c.say("each line that the page sent has a key", b.lines and not b.keyless(), len(b.lines))
    told = [it for it in map(json.dumps, b.logged) if not TOLD.search(it)]
    c.say("no fault and no breach of the policy was logged", not told, told[:2] or "")


# How it looks

def check_looks(c, b, rows):
    views = ["stock", "low", f"part/{rows['hinge']}", f"item/{rows['motor']}", f"build/{rows['build']}", "orders",
             "recent", "do/add_part", f"location/{rows['room']}", f"sheet/{rows['shelf']}"]
    for mode in ("light", "dark"):
        b.call("Emulation.setEmulatedMedia", features=[{"name": "prefers-color-scheme", "value": mode}])
        worst = [99, ""]
        for to in views:
            b.go(to)
            time.sleep(0.1)
            worst = min(worst, b.js(CONTRAST))
        c.say(f"{mode}: each text has a contrast of at least 4.5", worst[0] >= 4.5, f"{worst[0]:.2f} {worst[1]}")
    b.call("Emulation.setEmulatedMedia", media="print", features=[])
    b.go(f"part/{rows['part']}")
    c.say("print leaves out what can only be clicked", b.js(
        "['header', '.acts'].every(it => getComputedStyle(document.querySelector(it)).display === 'none')"))
    b.call("Emulation.setEmulatedMedia", media="", features=[])
    b.go(f"location/{rows['shelf']}?deep=1")
    first = b.count("main tbody tr")
    printed = base64.b64decode(b.call("Page.printToPDF", printBackground=True)["data"])
    pages, shown = len(re.findall(rb"/Type /Page\b", printed)), b.count("main tbody tr")
    c.say("a long table is printed, more of it than the screen shows", pages > 3 and shown > first, f"{pages} pages")
    b.call("Emulation.setDeviceMetricsOverride", width=390, height=800, deviceScaleFactor=1, mobile=False)
    for to in [*views, f"part/{rows['cell']}", "do/allocate_build", f"location/{rows['shelf']}?deep=1"]:
        b.go(to)
        wide = b.js("document.documentElement.scrollWidth")
        c.say(f"390 pixels wide: {to.split('/')[0]} fits", wide <= 400, wide)
    b.call("Emulation.clearDeviceMetricsOverride")
    b.go("stock")
    b.js("document.querySelector('h1').focus()")
    b.key("/")
    c.say("the key / goes to the search", b.js("document.activeElement.name") == "text")
    b.type("M7-3")
    b.key("Enter")
    b.wait(f"{H1}.startsWith('Found')")
    c.say("a serial is found", b.js("document.querySelector('main tbody').textContent").count("M7-3") == 1)
    b.js("scrollTo(0, 0); document.activeElement.blur()")
    order = []
    for _ in range(20):
        b.key("Tab")
        order.append(b.js("(it => it.textContent || it.id || it.name)(document.activeElement)")[:14].strip())
    top = "Stock Low Shopping Locations Builds Orders Recent Do Files Lists text day".split()
    c.say("Tab goes through all controls from the top", " ".join(top) in " ".join(order), ", ".join(order))


def take_pictures(b, rows):
    b.go("stock?q=salable")
    for _ in range(2):
        b.js("[...document.querySelectorAll('main thead button')].find(it => it.textContent === 'Allocated').click()")
    b.picture(DOCS / "page-stock.png")
    b.go(f"part/{rows['hinge']}")
    b.picture(DOCS / "page-part.png")
    b.call("Emulation.setEmulatedMedia", features=[{"name": "prefers-color-scheme", "value": "dark"}])
    b.go(f"part/{rows['arm']}")
    b.js("[...document.querySelectorAll('h2')].find(it => it.textContent.startsWith('What one')).scrollIntoView()")
    b.picture(DOCS / "page-bill-dark.png")
    b.call("Emulation.setEmulatedMedia", media="", features=[])
    b.call("Emulation.setDeviceMetricsOverride", width=375, height=720, deviceScaleFactor=2, mobile=True)
    b.go(f"order/{rows['purchase']}")
    b.picture(DOCS / "page-phone.png")
    b.call("Emulation.clearDeviceMetricsOverride")
    b.go(f"files?kind=receipts&order={rows['purchase']}")
    b.js(f"""(() => {{
        const [line] = find.linesOf({rows['purchase']}).filter(it => leftOf(it) > 0), part = partName(line.part);
        byId('rows').value = `Part;Location;Quantity;Batch\\n${{part}};Goods in;${{leftOf(line)}};D-77\\n` +
          `${{part}};Shelf 99;1;D-78\\n`;
        byId('document').value = 'delivery-77';
        byId('rows').dispatchEvent(new Event('input', {{ bubbles: true }})); }})()""")
    b.click(button("Look at the rows"))
    b.wait("document.querySelector('main h2')?.textContent === 'What the rows will do'")
    b.js("document.querySelector('main dl').scrollIntoView()")
    b.picture(DOCS / "page-files.png")


# Who may ask

def attack(desk, name):
    """What comes of it where a page of another origin asks for a location of that name, reads, and frames the page; and
    what a name that was pointed at this machine is given."""
    run_it = json.dumps(json.dumps({"day": DAY, "do": "add_location", "name": name}))
    body = f"""<!doctype html><title>other</title><iframe src="{desk.url}"></iframe><script>
        window.out = [];
        (async () => {{
          const told = ask => ask.catch(() => 'stopped').then(it => out.push(it));
          await told(fetch('{desk.url}run', {{ method: 'POST', mode: 'no-cors', body: {run_it} }}).then(() => 'sent'));
          for (const path of ['books', 'export/parts', 'history/1'])
            await told(fetch('{desk.url}' + path).then(it => it.text()));
          window.ended = 1;
        }})();</script>""".encode()

    class Other(http.server.BaseHTTPRequestHandler):
        def do_GET(self):
            self.send_response(200)
            self.send_header("Content-Type", "text/html")
            self.send_header("Content-Length", str(len(body)))
            self.end_headers()
            self.wfile.write(body)

        def log_message(self, *_):
            pass
    other = http.server.ThreadingHTTPServer(("127.0.0.1", 0), Other)
    threading.Thread(target=other.serve_forever, daemon=True).start()
    with contextlib.closing(Page(CHROMIUM, "--host-resolver-rules=MAP evil.example 127.0.0.1")) as b:
        b.open(f"http://127.0.0.1:{other.server_port}/")
        b.wait("window.ended")
        time.sleep(0.3)
        out = b.js("window.out")
        frames = b.call("Page.getFrameTree")["frameTree"].get("childFrames", [])
        out.append("framed" if any(it["frame"]["url"].startswith(desk.url) for it in frames) else "not framed")
        b.call("Page.navigate", url=f"http://evil.example:{desk.port}/")
        time.sleep(0.5)
        pointed = b.js("document.body.textContent")
    other.shutdown()
    return out, pointed


def check_rules(c, desk):
    def line(name):
        return json.dumps({"day": DAY, "do": "add_location", "name": name})

    def has(name):
        return any(row[1] == name for row in desk.table("locations"))
    own = f"127.0.0.1:{desk.port}"
    cases = [("another host's name", 421, {"Host": f"evil.example:{desk.port}"}),
             ("a host without the port", 421, {"Host": "127.0.0.1"}),
             ("another origin", 403, {"Origin": "http://evil.example"}),
             ("another port's origin", 403, {"Origin": "http://127.0.0.1:1"}),
             ("the origin null", 403, {"Origin": "null"}),
             ("a request across sites", 403, {"Sec_Fetch_Site": "cross-site"}),
             ("a request of another port", 403, {"Sec_Fetch_Site": "same-site"})]
    for word, status, fields in cases:
        told = [desk.ask("POST", "/run", line(word), **fields)[0]]
        told += [desk.ask("GET", path, **fields)[0] for path in ("/books", "/export/parts", "/history/1")]
        c.say(f"{word} is answered {status}, and nothing is done", set(told) == {status} and not has(word), told)
    own_fields = {"Origin": f"http://{own}", "Sec_Fetch_Site": "same-origin"}
    for word, fields in (("a program", {}), ("the page's own origin", own_fields),
                         ("localhost", {"Host": f"localhost:{desk.port}", "Origin": f"http://localhost:{desk.port}"})):
        c.say(f"{word} is served", desk.ask("POST", "/run", line(word), **fields)[0] == 200)
    c.say("the page may be followed to from anywhere", desk.ask("GET", "/", Sec_Fetch_Site="cross-site")[0] == 200)
    statuses = {desk.ask("GET", f"/export/{table}")[0] for table in COLUMNS}
    c.say("each table is exported, others are 404", statuses == {200} and desk.ask("GET", "/export/price")[0] == 404 and
          desk.ask("POST", "/export/parts", "")[0] == 405)
    out, pointed = attack(desk, "attack")
    c.say("a page of another origin has nothing done, reads nothing and can't frame the page", not has("attack") and
          out[1:] == ["stopped"] * 3 + ["not framed"], out)
    c.say("a name that is pointed at this machine gets no page", '"http":421' in pointed, pointed[:60])


def check_token(c, program, folder):
    path = folder / "token"
    path.write_text(TOKEN + "\n")
    path.chmod(0o600)
    with contextlib.closing(Desk(program, str(folder / "kept.db"), "--token", str(path))) as desk:
        told = [desk.ask("GET", to)[0] for to in ("/books", "/export/parts", "/history/1", "/")]
        told.append(desk.ask("GET", "/books", Authorization=f"Bearer {TOKEN}")[0])
        c.say("with a token all but the page is 401 without it", told == [401, 401, 401, 200, 200], told)
        with contextlib.closing(Page(CHROMIUM)) as b:
            b.open(f"{desk.url}#token={TOKEN}")
            b.wait(f"{H1} === 'Stock'")
            c.say("the page takes it from the address, and out of it", TOKEN not in b.js("location.href"))
            b.call("Page.reload")
            b.wait("!!document.getElementById('token')")
            b.click("document.getElementById('token')")
            b.type(TOKEN)
            b.key("Enter")
            c.say("opened anew it asks for it", b.wait(f"{H1} === 'Stock'"))
            b.js(f"location.hash = '#token={TOKEN}'")
            b.wait("!location.hash.includes('token')")
            c.say("an open page takes it out of the address too", TOKEN not in b.js("location.href"))
            b.rest()
            check_another(c, desk, b)


class Another(http.server.BaseHTTPRequestHandler):
    """Another program, which answers all that it is asked, and keeps it."""

    heard = []

    def do_GET(self):
        self.heard.append((self.path, self.headers.get("Authorization")))
        body = b"0" * 64
        self.send_response(200)
        self.send_header("Content-Type", "text/plain")
        self.send_header("Content-Length", str(len(body)))
        self.end_headers()
        self.wfile.write(body)

    do_POST = do_GET

    def log_message(self, *_):
        pass


def check_another(c, desk, b):
    """Once the service has ended another program at its port is sent nothing by the page that is open."""
    desk.kill()
    if desk.proxy:
        desk.proxy.shutdown()
        desk.proxy.server_close()
    b.js("provenAt = null")
    with http.server.ThreadingHTTPServer(("127.0.0.1", desk.port), Another) as another:
        threading.Thread(target=another.serve_forever, daemon=True).start()
        b.js("renew(true)")
        told = b.wait("document.body.textContent.includes('Nothing was sent')")
        another.shutdown()
    paths = [path for path, _ in Another.heard if not path.startswith("/prove/")]
    shown = [it for _, it in Another.heard if it]
    c.say("another program at the port isn't sent the token, and the page tells so", told and Another.heard and
          not paths and not shown, Another.heard)


def check_many(c, program, folder):
    path = str(folder / "many.db")
    told = run(program, "run", "--db", path, lines="\n".join(many_items(100_000)))
    c.say("100,000 items are made", told.returncode == 0)
    with contextlib.closing(Desk(program, path)) as desk, contextlib.closing(Page(CHROMIUM)) as b:
        b.open(desk.url)
        measured(c, b, 100_000)
        b.go("do/count")
        b.js("longest = 0")
        b.click(field("Item"))
        b.type("77777")
        b.wait("document.querySelectorAll('[role=option]').length > 0", 30)
        c.say("a list over 100,000 items answers", b.longest() < 10 * MISSED * WANTED["task"], f"{b.longest()} ms")


def check_firefox(c, desk, rows):
    firefox = shutil.which("firefox-esr") or shutil.which("firefox")
    if not firefox:
        print("none  Firefox isn't here, so the page isn't looked at there: apt-get install -y firefox-esr")
        return
    with contextlib.closing(Firefox(firefox)) as b:
        b.open(desk.url)
        b.wait(f"{H1} === 'Stock'", 60)
        views = [("low", "What is low"), ("builds", "Builds"), ("recent", "Recent activity"),
                 (f"part/{rows['cell']}", "Robot cell"), (f"item/{rows['motor']}", "Motor type"),
                 (f"sheet/{rows['shelf']}", "Count sheet"), ("shopping", "Shopping list"),
                 ("files?kind=counts", "Rows from a file"), ("lists", "Lists"), ("list/orders?open=1", "List: orders"),
                 (f"list/trace-back?item={rows['built']}", "List: trace-back")]
        for to, title in views:
            b.js(f"location.hash = '#/{to}'")
            shown = b.wait(f"({H1} || '').startsWith('{title}') && !document.querySelector('[aria-busy=true]')")
            c.say(f"Firefox shows {to}", shown)
        b.js(f"location.hash = '#/do/found?part={rows['part']}&location={rows['room']}&quantity=3'")
        b.wait(f"{H1} === 'Found stock'")
        time.sleep(0.7)
        b.js("document.querySelector('form.card').requestSubmit()")
        said = b.wait("document.querySelector('.said')?.textContent")
        c.say("Firefox sends a form", said.startswith("Done"), said[:60])


def look(c, desk, rows, with_pictures):
    with contextlib.closing(Page(CHROMIUM)) as b:
        b.open(desk.url)
        measured(c, b, 10_000)
        if with_pictures:
            take_pictures(b, rows)
        check_source(c, desk, b)
        check_views(c, b, rows)
        told = b.shown_ledger(rows["hinge"])
        equation = ("received 150 + found 300 + built 0 + returned 30 = "
                    "present 335 + used up 40 + shipped 80 + written off 25 \u2713 balanced")
        same = told["wide"][0] == told["wide"][1]
        c.say("the ledger of a part to which everything happened", equation in told["text"] and same, told)
        for check, *given in ((check_new_views, desk, b, rows), (check_books, desk, b), (check_paths, desk, b),
                              (check_sheet, desk, b, rows), (check_forms, b), (check_lost, desk, b, rows),
                              (check_unread, b), (check_hostile, b, rows), (check_looks, b, rows), (check_log, b)):
            try:
                check(c, *given)
            except Broken as fault:
                c.say(f"{check.__name__} goes to its end", False, fault)
                b.stop_intercepting()


def main():
    words = words_of(__doc__)
    words.add_argument("--pictures", action="store_true")
    given = given_by(words)
    expect(CHROMIUM, "Chromium isn't here: apt-get install -y chromium")
    c = Checks()
    with tempfile.TemporaryDirectory() as top:
        folder = pathlib.Path(top)
        path = str(folder / "workshop.db")
        lines, rows = workshop(10_000)
        begun = time.monotonic()
        told = run(given.program, "run", "--db", path, lines="\n".join(lines))
        took = time.monotonic() - begun
        c.say(f"a workshop is made by {len(lines):,} lines, none refused", told.returncode == 0, f"{took:.0f} s")
        try:
            exports = {it: run(given.program, "export", "--db", path, it).stdout for it in COLUMNS}
            with contextlib.closing(Desk(given.program, path)) as desk:
                check_exports(c, desk, exports)
                look(c, desk, rows, given.pictures)
                check_firefox(c, desk, rows)
                check_rules(c, desk)
            check_token(c, given.program, folder)
            check_many(c, given.program, folder)
        except Broken as fault:
            c.say("the page does what it has to", False, fault)
    print(f"check_page: {c.count} checks, {c.failed} failed")
    sys.exit(c.failed > 0)


if __name__ == "__main__":
    main()
