#!/usr/bin/env python3
"""Looks in Chromium at what can harm the books by way of the page, and at what a row of a file does: answers that are
lost while one counts, another count meanwhile, other books behind the same address, two windows, a service that is
killed and started again, a full disk; the keyboard alone; paper; names that look like markup in every table; files that
are chosen and pasted; and where items came from and went. A line tells each check. It takes some three minutes.

Chromium has to be here: `apt-get install -y chromium`. `tools/check_clerk.py` and `tools/check_page.py` look at the
rest of the page.

usage: tools/check_hazards.py PROGRAM [--draft] [--only GROUP,..]"""
import base64
import contextlib
import csv
import io
import json
import os
import pathlib
import re
import resource
import signal
import sqlite3
import sys
import tempfile
import time
import urllib.parse

from check_clerk import CLOCK, TOLD, Checks, Clerk, Trial
from made_small import XSS, workshop
from page_user import CHROMIUM, CONTRAST, H1, Desk, given_by, words_of
from shared import expect

BOX, NOTICES = "document.querySelector('main tbody input')", "document.getElementById('notices').innerText"
# What may stand in the log where the service is away.
AWAY = re.compile(TOLD.pattern + "|ERR_CONNECTION_REFUSED|ERR_EMPTY_RESPONSE")


def reload(b):
    b.call("Page.reload")
    time.sleep(0.4)
    b.rest()


def clear(b):
    """What the window kept is forgotten."""
    b.go("stock")
    b.js("sessionStorage.clear()")
    reload(b)


def summary(b):
    b.press("Look at what will change")
    b.see("document.querySelector('main').innerText.includes('Nothing is sent yet')")


def is_counted(b):
    b.see("[...document.querySelectorAll('main .said')].some(it => it.innerText.startsWith('Counted: 1'))")


def count_lost(b, place, text):
    """Counts what lies at a place; the count is done, and its answers are lost. Gives the lines that were sent."""
    b.go(f"sheet/{place}")
    b.put(BOX, text)
    summary(b)
    _, sent = b.lose(3)
    b.press("Send these 1 counts")
    b.see("document.querySelector('.said.warn')?.innerText.includes('isn\\'t known')", 8)
    b.stop_intercepting()
    return sent


# Counts that aren't answered

def check_lost(t):
    b, r, desk = t.b, t.r, t.desk
    item, place = r["i_r2"], r["count2"]

    def by_notice():
        clear(b)
        entries = desk.entries()
        count_lost(b, place, "533")
        reload(b)
        told = b.js("document.querySelector('main tbody tr').innerText")
        b.press("Send it again", "#notices")
        b.see(f"{NOTICES}.includes('done now, once')")
        rows = b.count("main tr.changed")
        return ("533 was sent and not answered" in told and "The books changed" not in told and b.boxes() == [""]
                and not rows and t.quantity(item) == 533 and desk.entries() == entries + 1), (told, b.boxes(), rows)
    t.check("a count that was done and not answered: its row says so, and the notice empties it", by_notice)

    def blocked():
        clear(b)
        count_lost(b, place, "530")
        b.press("To the sheet")
        b.put(BOX, "520")
        b.mark()
        b.press("Look at what will change")
        b.see("document.querySelector('main').innerText.includes('Sent and not answered: 1')")
        return not b.sent() and not b.count("main td select") and t.quantity(item) == 530, b.text()[-300:]
    t.check("another count that is typed over it isn't sent before it is settled", blocked)

    def settled():
        b.press("Send them again")
        b.see("document.querySelector('main').innerText.includes('Nothing is sent yet')")
        text, asks = b.text(), b.count("main td select")
        b.press("Send these 1 counts")
        is_counted(b)
        b.go("stock")
        keys = {it["key"] for it in b.sent()}
        return (t.quantity(item) == 520 and "\u221210" in text and not asks and len(keys) == 2
                and "Not answered" not in b.js(NOTICES)), (t.quantity(item), text[-200:])
    t.check("then it is compared with that, and sent under a key of its own; nothing is left", settled)

    def other_sheet():
        clear(b)
        count_lost(b, place, "515")
        b.go(f"sheet/{place}?deep=1")
        b.put(BOX, "510")
        b.press("Look at what will change")
        held = b.see("document.querySelector('main').innerText.includes('Sent and not answered: 1')")
        b.press("Send them again")
        b.see("document.querySelector('main').innerText.includes('Nothing is sent yet')")
        b.press("Send these 1 counts")
        is_counted(b)
        b.go(f"sheet/{place}")
        return held and t.quantity(item) == 510 and b.boxes() == [""] and not b.count("main tr.changed"), b.boxes()
    t.check("nor from another sheet that has the same item", other_sheet)

    def by_form():
        clear(b)
        count_lost(b, place, "505")
        b.go("stock")
        b.go(f"do/count?item={item}&quantity=500")
        b.mark()
        b.press("Count", "main form")
        said = b.see("document.querySelector('main .said')?.innerText")
        held = "Not sent" in said and not b.sent()
        b.press("Send it again", "#notices")
        b.see(f"{NOTICES}.includes('done now, once')")
        b.press("Count", "main form")
        b.see("document.querySelector('main .said.good')?.innerText.includes('Counted 500')")
        return held and t.quantity(item) == 500, (said, t.quantity(item))
    t.check("nor from the item's own form", by_form)

    def since():
        clear(b)
        count_lost(b, place, "495")
        desk.do("remove", item=item, quantity=5)
        reload(b)
        told = b.js(NOTICES)
        b.press("Forget it", "#notices")
        b.focus_window()
        b.press("Look at what will change")
        b.see("!!document.querySelector('main td select')")
        offers = b.js("[...document.querySelector('main td select').options].map(it => it.textContent)")
        return ("Since it was sent" in told and "may be in this" in b.text() and len(offers) == 2
                and not any("before" in it for it in offers)), (told, offers)
    t.check("forgotten it isn't taken for another's change, and can't be applied twice", since)
    clear(b)


# The service and its books

def check_service(t):
    b, r, desk = t.b, t.r, t.desk

    def killed():
        clear(b)
        b.go(f"do/found?part={r['screw']}&location={r['lab']}")
        b.fill_in("Quantity", "61")
        desk.kill()
        b.focus_window()
        away = b.see(f"{NOTICES}.includes(\"doesn't answer\")")
        desk.start()
        b.focus_window()
        back = b.see(f"!{NOTICES}.includes(\"doesn't answer\")")
        value = b.js("[...document.querySelectorAll('main input')].find(it => it.inputMode === 'numeric').value")
        before = len(desk.table("items"))
        said = b.submit()
        return away and back and value == "61" and "Done" in said and len(desk.table("items")) == before + 1, (value,
            said)
    t.check("killed while one types: it is told, what is typed stays, and is done once it is there again", killed)

    def amid():
        b.go("stock")
        b.go(f"do/found?part={r['screw']}&location={r['lab']}&quantity=62")
        before = len(desk.table("items"))
        waiting = []
        b.intercept(lambda params: waiting.append(params["requestId"]), "*/run")
        b.js("document.querySelector('form.card button.main').focus()")
        b.key("Enter")
        b.see("busy > 0")
        b.js("1")
        desk.kill()
        b.stop_intercepting()
        b.see("document.querySelector('.said.warn')?.innerText.includes('isn\\'t known')", 10)
        desk.start()
        b.press("Send again")
        b.see("document.querySelector('.said.good')?.innerText.includes('Done')", 8)
        return bool(waiting) and len(desk.table("items")) == before + 1, len(desk.table("items")) - before
    t.check("killed while a line is on its way: it isn't known, and sent again it is done once", amid)

    def full():
        desk.close()
        size = os.path.getsize(desk.path) + 40_000

        def few():
            resource.setrlimit(resource.RLIMIT_FSIZE, (size, size))
            signal.signal(signal.SIGXFSZ, signal.SIG_IGN)
        desk.start(preexec_fn=few)
        clear(b)
        count = len(desk.table("locations"))
        rows = 100 + size // 400   # whose log has no room
        paste(b, "add_location", "FULL", "name,parent\n" + "".join(f"F{n}{'x' * 150},Lab\n" for n in range(rows)))
        b.press("Send these ", begins=True)
        said = b.see("document.querySelector('main .said.warn')?.textContent", 10)
        status = desk.process.wait(10)
        b.focus_window()
        away = b.js(NOTICES)
        kept = len(b.js("store.keys('open:')"))
        desk.start()
        some = len(desk.table("locations")) - count
        reload(b)
        b.press("Send it again", "#notices")
        b.see(f"{NOTICES}.includes('done now, once')", 10)
        done = len(desk.table("locations")) - count
        return (status == 3 and "isn't known" in said and "file failed" in said and "doesn't answer" in away and
                kept == 1 and some < done <= rows and not b.js("store.keys('open:')")), (
                    status, said, away, kept, some, done)
    t.check("a full disk: the service ends, the rows are kept, and once there is room each is done once", full)

    def full_line():
        desk.close()
        size = os.path.getsize(desk.path) + 8_000

        def few():
            resource.setrlimit(resource.RLIMIT_FSIZE, (size, size))
            signal.signal(signal.SIGXFSZ, signal.SIG_IGN)
        desk.start(preexec_fn=few)
        clear(b)
        b.go("stock")
        b.go(f"do/found?part={r['screw']}&location={r['lab']}&quantity=63")
        said, tries = "Done", 0
        while "Done" in said and tries < 200:
            said, tries = b.submit(), tries + 1
            if "Done" in said:
                b.go("stock")
                b.go(f"do/found?part={r['screw']}&location={r['lab']}&quantity=63")
        desk.process.wait(10)
        desk.start()
        before = desk.entries()
        b.press("Send again")
        b.see("document.querySelector('.said.good')?.innerText.includes('Done')", 8)
        return ("file failed" in said and desk.entries() == before + 1 and not b.js("store.keys('open:')")), (
            said, tries, desk.entries() - before)
    t.check("so is a line of a form, which can be sent again where it stands", full_line)

    def others(path):
        """A file of another workshop, in which other rows have the numbers of this one's."""
        with contextlib.closing(Desk(desk.program, path)) as made:
            for n in range(60):
                made.do("add_location", name=f"Elsewhere {n}")
            part = made.do("add_part", name="Other part", flags=["component"])[0]
            for n in range(20):
                made.do("found", part=part, location=r["count"], quantity=7 + n)

    def other_books(folder=pathlib.Path(desk.path).parent):
        own, other = desk.path, str(folder / "other.db")
        others(other)
        clear(b)
        count_lost(b, r["count2"], "444")
        b.go(f"sheet/{r['count']}")
        b.put(BOX, "77")
        sale = desk.do("order", side="sale", partner="Before")[0]
        desk.do("order_line", order=sale, part=r["screw"], quantity=1)
        b.focus_window()
        b.go(f"order/{sale}")
        time.sleep(1)   # names are read still
        desk.close()
        desk.start(other)
        b.mark()
        b.js("readAt = -9999")   # as if some seconds had gone by
        b.press("Issue this order")
        told = b.see(f"{NOTICES}.includes('of another workshop than before')")
        entries, sent = desk.entries(), b.sent()
        offered = b.js("[...document.querySelectorAll('#notices button')].map(it => it.textContent)")
        foreign = b.js(NOTICES)
        b.go(f"sheet/{r['count']}")
        boxes, text = b.boxes(), b.text()
        b.put(BOX, "9")
        summary(b)
        b.js("sessionStorage.removeItem(Object.keys(sessionStorage).find(it => it.startsWith('sheet:')))")
        desk.close()
        desk.start(own)
        reload(b)
        b.press("Send it again", "#notices")
        b.see(f"{NOTICES}.includes('done now, once')")
        return (told and not sent and offered == ["Forget it"] and "444" in foreign and set(boxes) == {""} and
                "another workshop isn't put here" in text and t.quantity(r["i_r2"]) == 444 and entries == 20), (offered,
            sent, boxes[:4], text[:200])
    t.check("other books behind the address are offered neither a line nor a sheet; its own are", other_books)
    clear(b)


def check_windows(t):
    b, r, desk = t.b, t.r, t.desk
    with contextlib.closing(Clerk(CHROMIUM)) as other:
        other.open(desk.url)
        other.rest()
        item = r["counted"][1]

        def counted():
            clear(b)
            for window, text in ((b, "190"), (other, "170")):
                window.go(f"sheet/{r['count']}")
                window.settle()
                window.put(f"[...document.querySelectorAll('main tbody input')].find(it => it.closest('tr')"
                           f".querySelector('a[href=\"#/item/{item}\"]'))", text)
            summary(other)
            other.press("Send these 1 counts")
            is_counted(other)
            b.focus_window()
            marked = b.js("document.querySelector('main tr.changed')?.innerText") or ""
            summary(b)
            left = b.js("document.querySelector('main td select').value") == ""
            none = b.js("[...document.querySelectorAll('main button')].find(it => it.textContent === 'Send these 0 "
                "counts').disabled")
            return "from 200 to 170" in marked and left and none and t.quantity(item) == 170, (marked, t.quantity(item))
        t.check("two windows count one item: the second is told of the first, and sends nothing unasked", counted)

        def both():
            clear(b)
            order = desk.do("order", side="purchase", partner="Two windows")[0]
            desk.do("order_line", order=order, part=r["screw"], quantity=10)
            desk.do("issue_order", order=order)
            for window in (b, other):
                window.focus_window()
                window.go(f"order/{order}")
            other.press("Receive what is ticked")
            other.see("document.querySelector('main .said.good')?.innerText.includes('Received')")
            b.press("Receive what is ticked")
            b.see("document.querySelector('main .said')?.innerText.includes('Refused: 1')")
            done = [it[4] for it in desk.table("order_lines") if int(it[1]) == order]
            return done == ["10"] and "OverNeed" in b.text(), (done, b.text()[:300])
        t.check("two windows receive one delivery: it is received once, and the second is told why", both)
        def one_file():
            text = "part,location,quantity,batch\nScrew M3,Lab,5,TWO\nScrew M3,Lab,6,TWO\n"
            for window in (b, other):
                paste(window, "found", "TWO-1", text)
            send_rows(other, 2)
            said = send_rows(b, 2)
            found = [it[5] for it in desk.table("items") if it[2] == "TWO"] or [it for it in desk.table("items")
                                                                              if "TWO" in it]
            return len(found) == 2 and all(it.startswith("done before") for it in answers(b)), (said, answers(b), found)
        t.check("two windows send one file: each row is done once, and the second is told so", one_file)
        told = other.keyless()
        t.check("the second window's lines have keys", lambda: (other.lines and not told, told))

    def in_part():
        order = desk.do("order", side="purchase", partner="In part")[0]
        for part in ("screw", "motor"):
            desk.do("order_line", order=order, part=r[part], quantity=2)
        desk.do("issue_order", order=order)
        b.focus_window()
        b.go(f"order/{order}")
        b.put(b.labelled("Serials of Motor"), "M1,M2")
        b.press("Receive what is ticked")
        b.see("document.querySelector('main .said')?.innerText.includes('Refused: 1')")
        desk.do("add_location", name=f"Made after {order}")
        b.focus_window()
        own = b.js(NOTICES)
        line = int(desk.table("order_lines")[-1][0])
        desk.do("receive", line=line, location=r["lab"], quantity=1, serials="W1")
        b.focus_window()
        return "changed" not in own and "1 done" in b.js(NOTICES), (own, b.js(NOTICES))
    t.check("after a table was done in part one's own changes aren't told as another's", in_part)

    def names():
        clear(b)
        b.go("stock")
        b.mark()
        desk.do("order", side="sale", partner="Nameless", key="SO-77")
        b.focus_window()
        none = len(b.asked("/export/kept"))
        b.go("orders")
        shown = b.see("document.querySelector('main').innerText.includes('SO-77')")
        once = len(b.asked("/export/kept"))
        return (none, once) == (0, 1) and shown, (none, once)
    t.check("what another named is looked up where it is shown, and not elsewhere", names)


# By the keyboard, on a phone, on paper

class Unreached(ValueError):
    """A control that can't be reached, or what may not be there."""


def tab_to(b, text, begins=False):
    """Goes by the key Tab to the control with this text or label."""
    for _ in range(250):
        b.key("Tab")
        told = b.js("(it => (it.ariaLabel || it.textContent || '').trim())(document.activeElement)") or ""
        if told == text or begins and told.startswith(text):
            return
    raise Unreached(f"Tab doesn't go to {text}")


def check_keyboard(t):
    b, r, desk = t.b, t.r, t.desk

    def receive():
        order = desk.do("order", side="purchase", partner="By keys")[0]
        desk.do("order_line", order=order, part=r["screw"], quantity=8)
        desk.do("issue_order", order=order)
        clear(b)
        b.go(f"order/{order}")
        tab_to(b, "Quantity of Screw M3")
        b.js("document.activeElement.select()")
        b.type("5")
        tab_to(b, "Location of Screw M3")
        b.js("document.activeElement.select()")
        b.type("goods")
        b.see("document.activeElement.ariaExpanded === 'true'")
        b.key("Enter")
        tab_to(b, "Receive what is ticked")
        b.key("Enter")
        b.see("document.querySelector('main .said.good')?.innerText.includes('Received')")
        row = desk.table("items")[-1]
        return (row[5], row[7]) == ("5", str(r["goods"])), row
    t.check("a delivery is received by the keyboard alone", receive)

    def ship():
        order = desk.do("order", side="sale", partner="By keys")[0]
        desk.do("order_line", order=order, part=r["screw"], quantity=3)
        desk.do("issue_order", order=order)
        b.focus_window()
        b.go(f"order/{order}")
        for press, said in (("Allocate what is ticked", "Allocated"), ("Ship what is allocated", "Shipped"),
                            ("Close this order", "is now")):
            tab_to(b, press)
            b.key("Enter")
            b.see(f"document.querySelector('main .said.good')?.innerText.includes('{said}')")
        return t.state("orders", order) == 2
    t.check("a sale is allocated, shipped and closed by the keyboard alone", ship)

    def end():
        build = desk.do("build", part=r["board"], quantity=2)[0]
        desk.do("issue_build", build=build)
        desk.do("auto_allocate", build=build)
        output = desk.do("outputs", build=build, quantity=1)[0]
        desk.do("complete_output", output=output, location=r["lab"])
        b.focus_window()
        b.go(f"build/{build}")
        tab_to(b, "Cancel this build")
        b.key("Enter")
        tab_to(b, "Use up and end")
        b.key("Enter")
        b.see("document.querySelector('main .said.good')?.innerText.includes('Used up')")
        return t.state("builds", build) == 3
    t.check("a build is ended by the keyboard alone", end)

    def count():
        b.go(f"sheet/{r['count2']}")
        wanted = str(t.quantity(r["i_r2"]) - 1)
        tab_to(b, "Counted of", True)
        b.type(wanted)
        b.key("Enter")
        b.key("Enter")
        b.see("document.querySelector('main').innerText.includes('Nothing is sent yet')")
        tab_to(b, "Send these 1 counts")
        b.key("Enter")
        is_counted(b)
        return str(t.quantity(r["i_r2"])) == wanted
    t.check("and a shelf is counted so", count)


def check_looks(t):
    b, r, desk = t.b, t.r, t.desk
    b.phone()
    views = ["files?kind=receipts", "shopping?optional=1", f"batch/{r['c100n']}?text=L22", "find/capacitr",
             f"build/{r['b1']}"]

    def narrow():
        wide = {}
        for to in views:
            b.go(to)
            time.sleep(0.1)
            wide[to] = b.js("document.documentElement.scrollWidth")
        small = b.js("[...document.querySelectorAll('main button, main select, main input:not([type=checkbox])')]"
                     ".filter(it => it.checkVisibility() && it.getBoundingClientRect().height < 43).length")
        return max(wide.values()) <= 376 and not small, (wide, small)
    t.check("375 pixels wide: files, the shopping list, a batch and a build fit", narrow)

    def sorted_there():
        b.go("stock")
        shown = b.js("[...document.querySelectorAll('main select.sorter')].filter(it => it.checkVisibility()).length")
        b.js("(it => { it.value = [...it.options].find(one => one.textContent === 'Present, down').value; "
             "it.dispatchEvent(new Event('change', { bubbles: true })); })(document.querySelector('main .sorter'))")
        amounts = [int(it) for it in b.cells(2)]
        b.go("builds")
        b.go("stock")
        again = [int(it) for it in b.cells(2)]
        return shown == 1 and amounts == sorted(amounts, reverse=True) == again, amounts
    t.check("cards are sorted on a phone by a list, and stay so", sorted_there)
    b.phone(False)
    t.check("elsewhere the heads sort", lambda: b.js("!document.querySelector('main .sorter').checkVisibility()"))
    b.call("Emulation.setEmulatedMedia", media="print", features=[])
    for to, wanted in ((f"build/{r['b2']}", "What it needs"), ("shopping", "To buy or make")):
        def paper(to=to, wanted=wanted):
            b.go(to)
            left = b.js("[...document.querySelectorAll('main button, main .button, main summary, header *')].filter("
                        "it => it.checkVisibility() && !it.closest('thead')).map(it => it.textContent)")
            file = base64.b64decode(b.call("Page.printToPDF", printBackground=True)["data"])
            pages = len(re.findall(rb"/Type /Page\b", file))
            shown = b.js("[...document.querySelectorAll('main table')].filter(it => it.checkVisibility()).length")
            return not left and pages >= 1 and shown and wanted in b.text(), (left[:5], pages, shown)
        t.check(f"{to.split('/')[0]} is printed with its tables, without what is clicked", paper)
    b.call("Emulation.setEmulatedMedia", media="", features=[])

    def optional():
        line = desk.do("add_line", assembly=r["kit"], component=r["shelfpin"], quantity=3, optional=True)
        build = desk.do("build", part=r["kit"], quantity=2)[0]
        b.focus_window()
        b.go("shopping")
        none = "Shelf pin" not in " ".join(it[0] for it in b.rows(0))
        b.click("[...document.querySelectorAll('main label')].find(it => it.textContent === 'optional lines too')")
        b.see("document.querySelector('main').innerText.includes('need, optional lines too')")
        row = next(it for it in b.rows(0) if it[0] == "Shelf pin")
        desk.do("cancel_build", build=build)
        return line and none and row[1] == "6", row
    t.check("the shopping list has optional lines where they are asked for", optional)

    def slips():
        told = {}
        for word, wanted in (("moter", "Motor"), ("scrwe", "Screw M3"), ("contoller", "Controller board"),
                             ("drawwer", "Lab / Shelf A / Drawer 1"), ("mouzer", "Mouser")):
            b.go(f"find/{word}")
            told[word] = wanted in b.text() and "slip of one letter" in b.text()
        b.go("find/motor")
        return all(told.values()) and "slip" not in b.text(), told
    t.check("Find knows a slip of a letter, and says so", slips)

    def chosen():
        b.go("stock")
        b.go("do/found")
        b.fill_in("Part", "scrwe", choose=True)
        return b.js("document.querySelector('main [role=combobox]').value") == "Screw M3"
    t.check("so does a list of choices", chosen)


# Names in every table

def check_markup(t):
    b, r, desk = t.b, t.r, t.desk
    tables = {}

    def look(to, *presses):
        b.go(to)
        for it in presses:
            b.press(it)
        b.js("for (const it of document.querySelectorAll('main details')) it.open = true")
        time.sleep(0.1)
        b.rest()
        is_text = b.js("window.hit === undefined && !document.querySelector('main img, main script, main iframe, "
                           "main svg, main [onclick], main [onmouseover], main [onload], main [onerror]')")
        if not is_text:
            raise Unreached(f"markup in {to}")
        for caption, text in b.js("[...document.querySelectorAll('main table')].map(it => [it.caption.textContent, "
                                  "it.tBodies[0].textContent + [...it.querySelectorAll('input')].map(x => x.value)"
                                  ".join(' ')])"):
            tables[caption] = tables.get(caption, "") + text

    def everywhere():
        b.focus_window()
        for to in ("stock", "low", "shopping", f"location/{r['xlocation']}?deep=1", "builds?all=1", "orders?all=1",
                   "recent", f"part/{r['xpart']}", f"part/{r['xassembly']}", f"item/{r['i_x']}", f"item/{r['xpiece']}",
                   f"order/{r['xpo']}", f"order/{r['xso']}", f"order/{r['xso2']}", f"build/{r['bx2']}",
                   f"build/{r['bx3']}", f"batch/{r['xpart']}?text={urllib.parse.quote(XSS['batch'], safe='')}",
                   "find/img", "find/hit"):
            look(to)
        b.go(f"sheet/{r['xlocation']}")
        b.put(BOX, "6")
        summary(b)
        look(f"sheet/{r['xlocation']}?x=1")
        b.put(BOX, "6")
        summary(b)
        for caption, text in b.js("[...document.querySelectorAll('main table')].map(it => [it.caption.textContent, "
                                  "it.tBodies[0].textContent])"):
            tables[caption] = tables.get(caption, "") + text
        clear(b)
        paste(b, "found", "MARK", f"part,location,quantity\n\"{XSS['part'].replace(chr(34), chr(34) * 2)}\","
              f"{XSS['location']},1\n{XSS['key']},nowhere,1\n")
        look_at = b.js("[...document.querySelectorAll('main table')].map(it => [it.caption.textContent, "
                       "it.tBodies[0].textContent])")
        tables.update({caption: text for caption, text in look_at})
        b.press("Let the program read it")
        b.see("document.querySelector('main h2')?.textContent === 'As the program reads it'")
        tables.update(dict(b.js("[...document.querySelectorAll('main table')].map(it => [it.caption.textContent, "
                                "it.tBodies[0].textContent])")))
        clear(b)
        return True
    t.check("no name is taken for markup, in any view with all that opens", everywhere)
    wanted = ("Parts", "Shopping list", "Items", "Builds", "Purchases", "Sales", "Entries", "Allocated", "Receive",
              "Lines", "Allocate", "Complete", "What it needs", "Outputs", "Used up", "With the customer",
              "parts found", "items found", "locations found", "orders found", "builds found", "What will change",
              "Went into it", "Came of it", "Came from", "Went to", "What the rows will do", "As the program reads it",
              "Make it anew, and cancel this one", "Use up and end")

    def each():
        lacking = [it for it in wanted if not any(name in tables.get(it, "") for name in XSS.values())]
        return not lacking, (lacking, sorted(tables))
    t.check("each table had such a name in it", each)


# Files

def paste(b, kind, document, text, press="Look at the rows", title="What the rows will do"):
    b.go("stock")
    b.go(f"files?kind={kind}")
    b.js("document.getElementById('rows').value = ''")
    if len(text) < 2000:
        b.click("document.getElementById('rows')")
        b.type(text)
    else:   # which the browser takes long to type
        b.js(f"byId('rows').value = {json.dumps(text)}; "
             "byId('rows').dispatchEvent(new Event('input', { bubbles: true }))")
    b.put("document.getElementById('document')", document)
    b.press(press)
    b.see(f"document.querySelector('main h2')?.textContent === '{title}' || "
          "!!document.querySelector('main .said.bad')")


def answers(b):
    at = b.js("document.querySelectorAll('main table thead th').length") - 1
    return [it[at] for it in b.rows(0)]


def send_rows(b, n):
    b.press(f"Send these {n} rows")
    return b.see("document.querySelector('main .said')?.textContent", 10)


def check_files(t):
    b, r, desk = t.b, t.r, t.desk

    def delivery():
        order = desk.do("order", side="purchase", partner="By file", key="PO-F")[0]
        r["file_lines"] = [desk.do("order_line", order=order, part=r[it], quantity=n)[0]
                           for it, n in (("screw", 500), ("motor", 2))]
        desk.do("issue_order", order=order)
        r["file_order"] = order
        clear(b)
        b.mark()
        paste(b, f"receipts&order={order}", "D-1", "Part;Location;Quantity;Batch;Serials;Price\n"
              "Screw M3;Lab / Shelf A;300;F1;;1,20\nMotor;Lab;2;;\"F1,F2\";\nScrew M3;Lab;;;;\n"
              "Screw M3;Nowhere;1;;;\n")
        told = b.text().replace("0 are left out, ", "")
        none = not b.asked("/import/receipts/D-1") and not b.sent()
        said = send_rows(b, 2)
        asked = [it for it in b.asked(b.js("'/import/receipts/D-1/' + day.value"))]
        got = {it[2]: it[5] for it in desk.table("items") if it[2] == "F1"}
        done = [it[4] for it in desk.table("order_lines") if int(it[0]) in r["file_lines"]]
        return ("2 rows are to be sent, 1 are faulty and left out, 1 say nothing" in told and none and len(asked) == 1
                and "Done: 2. Refused: 0." in said and got == {"F1": "300"} and done == ["300", "2"]
                and answers(b)[0].startswith("location: nothing is called Nowhere") and
                answers(b)[1:] == ["done", "done"]), (told[-300:], said, answers(b))
    t.check("a delivery with semicolons, with columns and rows by name: a summary, then one file", delivery)

    def again():
        entries = desk.entries()
        paste(b, f"receipts&order={r['file_order']}", "D-1", "Part,Location,Quantity,Batch,Serials\n"
              "Screw M3,Lab / Shelf A,300,F1,\nMotor,Lab,2,,\"F1,F2\"\n")
        said = send_rows(b, 2) if "2 rows are to be sent" in b.text() else answers(b)
        return desk.entries() == entries, said
    t.check("sent once more nothing is received twice", again)

    def refused():
        line = r["file_lines"][0]
        paste(b, "receipts", "D-2", f"number\tline\tlocation\tquantity\n7\t{line}\t{r['lab']}\t100\n"
              f"9\t{line}\t{r['lab']}\t900\n")
        said = send_rows(b, 2)
        told = answers(b)
        return "Done: 1. Refused: 1." in said and told[0] == "done" and "OverNeed" in told[1], (said, told)
    t.check("tabs and numbers; what was refused is told beside its row", refused)

    def counts():
        item, other = r["counted"][0], r["counted"][4]
        before = t.quantity(item)
        paste(b, "counts", "C-1", f"\ufeffPart,Item,Expected,Counted,Note\nR,{item},100,{before - 40},\n"
              f"LED,{other},12,,\n")
        row = b.rows(0)[0]
        said = send_rows(b, 1)
        return row[2:4] == [str(before), "\u221240big"] and "Done: 1" in said and t.quantity(item) == before - 40, (row,
            said)
    t.check("a sheet that was saved and filled in is counted, its differences before it is sent", counts)

    def changed():
        item, now = r["counted"][0], t.quantity(r["counted"][0])
        paste(b, "counts", "C-2", f"item;expected;counted\n{item};{now + 5};{now + 4}\n")
        none = b.js("[...document.querySelectorAll('main button')].find(it => it.textContent === 'Send these 0 rows')"
                    ".disabled")
        told = "since the sheet was saved" in b.text()
        b.click("document.querySelector('main td input[type=checkbox]')")
        said = send_rows(b, 1)
        return none and told and "Done: 1" in said and t.quantity(item) == now + 4, said
    t.check("where the books changed since it was saved the row is left out, unless one says so", changed)

    def rows():
        b.mark()
        paste(b, "found", "S-1", "part,location,quantity,batch\nScrew M3,Lab,11,B1\nLM358,Drawer 1,12,\n,,,\n")
        said = send_rows(b, 2)
        lines = b.sent()
        return ([it["key"] for it in lines] == ["found/S-1/@2", "found/S-1/@3"] and "Done: 2" in said and
                [it["quantity"] for it in lines] == [11, 12]), lines
    t.check("rows of a command are lines under the keys of docs/IMPORTS.md", rows)

    def repeated():
        items = len(desk.table("items"))
        paste(b, "found", "S-1", "part,location,quantity,batch\nScrew M3,Lab,11,B1\nLM358,Drawer 1,12,\n"
              "LED red,Lab,13,\n")
        send_rows(b, 3)
        told = [it.split(":")[0] for it in answers(b)]
        return len(desk.table("items")) == items + 1 and told == ["done before", "done before", "done"], told
    t.check("a longer file sent again does what is new alone, and says what was done before", repeated)

    def counted_before():
        item, now = r["counted"][2], t.quantity(r["counted"][2])
        text = f"item;counted\n{item};{now - 1}\n"
        paste(b, "counts", "C-9", text)
        send_rows(b, 1)
        desk.do("add", item=item, quantity=20)
        paste(b, "counts", "C-9", text)
        send_rows(b, 1)
        return t.quantity(item) == now + 19 and answers(b) == [f"done before: the books say {now + 19} now"], answers(b)
    t.check("a count that was done before isn't told as done now", counted_before)

    def reloaded():
        text = "part,location,quantity\nScrew M3,Lab,7\n"
        paste(b, "found", "RE-1", text)
        b.mark()
        reload(b)
        told = b.js("[byId('kind').value, byId('document').value, byId('rows').value]")
        return told == ["found", "RE-1", text] and not b.sent() and not b.count("main table"), told
    t.check("rows that were pasted are there after a reload, and none is sent", reloaded)

    def meanwhile():
        item, now = r["counted"][4], t.quantity(r["counted"][4])
        paste(b, "counts", "C-10", f"item;counted\n{item};{now - 1}\n")
        desk.do("add", item=item, quantity=5)
        b.mark()
        said = send_rows(b, 1)
        none = not [it for it in b.events if "/import/" in str(it)]
        b.press("Look at the rows")
        b.see("document.querySelector('main h2')?.textContent === 'What the rows will do'")
        row = b.rows(0)[0]
        again = send_rows(b, 1)
        return ("Not sent" in said and none and row[2:4] == [str(now + 5), "\u22126big"] and "Done: 1" in again and
                t.quantity(item) == now - 1), (said, none, row, again)
    t.check("books that changed after the rows were looked at: nothing is sent, one looks again", meanwhile)

    def round_trip():
        """Both sheets of the program's lists, saved, filled in and sent."""
        order = desk.do("order", side="purchase", partner="By sheet")[0]
        lines = [desk.do("order_line", order=order, part=r[it], quantity=40)[0] for it in ("screw", "lm")]
        desk.do("issue_order", order=order)
        b.focus_window()
        with tempfile.TemporaryDirectory() as top:
            b.go(f"list/receipt-sheet?order={order}")
            sheet = records(b.saved(pathlib.Path(top), CSV)[1].decode())
            b.go(f"list/count-sheet?location={r['count']}")
            counted = records(b.saved(pathlib.Path(top), CSV)[1].decode())
        for row, text in zip(sheet[1:], ("30", "12")):
            row[6:8] = ["Lab / Shelf A", text]
        desk.do("receive", line=lines[1], location=r["lab"], quantity=1)
        paste(b, "receipts", "R-1", "".join(";".join(row) + "\n" for row in sheet))
        held = "The books changed from 40 to 39 since the sheet was saved" in b.text()
        said = send_rows(b, 1)
        done = [it[4] for it in desk.table("order_lines") if int(it[0]) in lines]
        for row in counted[1:3]:
            row[7] = str(int(row[6]) + 1)
        paste(b, "counts", "R-2", "".join(",".join(row) + "\n" for row in counted))
        also = send_rows(b, 2)
        now = [t.quantity(int(row[1])) for row in counted[1:3]]
        return (held and "Done: 1. Refused: 0." in said and done == ["30", "1"] and "Done: 2. Refused: 0." in also and
                now == [int(row[6]) + 1 for row in counted[1:3]]), (held, said, done, also, now)
    t.check("sheets that the lists saved are filled in and sent; of a line that changed since nothing is", round_trip)

    def chosen():
        with tempfile.TemporaryDirectory() as top:
            path = pathlib.Path(top) / "new locations.csv"
            path.write_text("number,name,parent\n1,Row A,Lab\n2,Row B,Lab\n")
            b.go("stock")
            b.go("files?kind=add_location")
            b.call("DOM.enable")
            root = b.call("DOM.getDocument")["root"]["nodeId"]
            node = b.call("DOM.querySelector", nodeId=root, selector="#file")["nodeId"]
            b.call("DOM.setFileInputFiles", files=[str(path)], nodeId=node)
            b.see("document.getElementById('document').value === 'new-locations'")
            b.mark()
            b.press("Look at the rows")
            b.see("document.querySelector('main h2')?.textContent === 'What the rows will do'")
            said = send_rows(b, 2)
        keys = [it["key"] for it in b.sent()]
        return "Done: 2" in said and keys == [f"add_location/new-locations/{n}" for n in (1, 2)], (said, keys)
    t.check("a file is chosen, and named after itself", chosen)

    def lost():
        line, entries = r["file_lines"][0], desk.entries()
        paste(b, "receipts", "D-3", f"line,location,quantity\n{line},{r['lab']},9\n")
        lost = {"left": 3}

        def paused(params):
            if lost["left"]:
                lost["left"] -= 1
                b.post("Fetch.failRequest", requestId=params["requestId"], errorReason="ConnectionReset")
            else:
                b.post("Fetch.continueRequest", requestId=params["requestId"])
        b.intercept(paused, "*/import/*", "Response")
        b.press("Send these 1 rows")
        b.see("document.querySelector('main .said.warn')?.innerText.includes('isn\\'t known')", 8)
        b.stop_intercepting()
        reload(b)
        b.press("Send it again", "#notices")
        b.see(f"{NOTICES}.includes('done now, once')")
        return desk.entries() == entries + 1, desk.entries() - entries
    t.check("a file that isn't answered is kept, offered again, and done once", lost)

    def one_request():
        b.mark()
        lines = "".join(f"Row {n},Lab\n" for n in range(300))
        paste(b, "add_location", "L-300", "name,parent\n" + lines)
        said = send_rows(b, 300)
        asked = b.asked("/lines")
        names = {it[1] for it in desk.table("locations")}
        return (len(asked) == 1 and not b.asked("/run") and "Done: 300. Refused: 0." in said
                and {f"Row {n}" for n in range(300)} <= names), (len(asked), said)
    t.check("300 rows go as one request", one_request)

    def many():
        b.mark()
        paste(b, "add_location", "L-9000", "name,parent\n" + "".join(f"{n:04}{'y' * 130},Lab\n" for n in range(5000)))
        said = send_rows(b, "5\u202f000")
        sizes = len(b.asked("/lines"))
        return sizes == 2 and "Done: 5\u202f000. Refused: 0." in said, (sizes, said)
    t.check("more of them than a body may have go as several", many)

    def lost_lines():
        before = len(desk.table("locations"))
        paste(b, "add_location", "L-3", "name,parent\nLost 1,Lab\nLost 2,Lab\nLost 1,Lab\n")
        lost = {"left": 3}

        def paused(params):
            if lost["left"]:
                lost["left"] -= 1
                b.post("Fetch.failRequest", requestId=params["requestId"], errorReason="ConnectionReset")
            else:
                b.post("Fetch.continueRequest", requestId=params["requestId"])
        b.intercept(paused, "*/lines", "Response")
        b.press("Send these 3 rows")
        b.see("document.querySelector('main .said.warn')?.innerText.includes('isn\\'t known')", 8)
        b.stop_intercepting()
        reload(b)
        paste(b, "add_location", "L-3", "name,parent\nLost 1,Lab\nLost 3,Lab\n")
        b.mark()
        held = "Settle that first" in send_rows(b, 2) and not b.sent()
        b.press("Send it again", "#notices")
        b.see(f"{NOTICES}.includes('done now, once')")
        told = b.js(NOTICES)
        return held and len(desk.table("locations")) == before + 2 and "row 3: NameTaken" in told, (held, told)
    t.check("rows that aren't answered are kept, offered again, and done once, with what is refused", lost_lines)

    def loose():
        item, other = r["counted"][1], r["counted"][3]
        before = t.quantity(item)
        b.mark()
        paste(b, "counts", "W-1", f"number;where;item;quantity;expected\n3;Shelf;{item};{before + 2};{before}\n"
              f"5;Shelf;{other};;\n8;Shelf;999999;4;4\n", "Let the program read it", "As the program reads it")
        none = not b.asked("/import/counts/W-1")
        b.press("Send these 3 records as they are")
        said = b.see("document.querySelector('main .said')?.textContent", 10)
        sent = [params["request"]["url"].split("/import/")[1] for event, params in b.events
                if event == "Network.requestWillBeSent" and "/import/" in params["request"]["url"]]
        told = answers(b)
        return (none and sent == [f"counts/W-1/{b.js('day.value')}?loose"] and "Done: 1. Refused: 1." in said
                and told[0] == "done" and told[1] == "" and "NoSuch" in told[2] and t.quantity(item) == before + 2), (
                    sent, said, told)
    t.check("a file goes as it is, to be read loosely, after one more press: each answer beside its record", loose)

    def whole():
        items = len(desk.table("items"))
        text = "part,location,quantity,batch\nScrew M3,Lab,21,W1\n,,,\nScrew M3,\"[\"\"Lab\"\",\"\"Shelf A\"\"]\",22,\n"
        paste(b, "found", "W-2", text + "Screw M3,Lab,0,\n", "Let the program read it", "As the program reads it")
        b.press("Send these 4 records as they are")
        said = b.see("document.querySelector('main .said')?.textContent", 10)
        told = answers(b)
        paste(b, "found", "W-2", text, "Let the program read it", "As the program reads it")
        b.press("Send these 3 records as they are")
        b.see("document.querySelector('main .said')?.textContent", 10)
        again = [it.split(":")[0] for it in answers(b)]
        return ("Done: 2. Refused: 1." in said and [told[0], told[1], told[2]] == ["done", "", "done"] and
                "BadNumber" in told[3] and again == ["done before", "", "done before"] and
                len(desk.table("items")) == items + 2), (said, told, again)
    t.check("so does a file of a command, with rows as a line says them; sent again it is told as done before", whole)

    def whole_faults():
        entries = desk.entries()
        paste(b, "found", "W-3", "part,location,quantity\nScrew M3,Lab,many\nScrew M3,Lab,1\nScrew M3,Lab,more\n",
              "Let the program read it", "As the program reads it")
        b.press("Send these 3 records as they are")
        said = b.see("document.querySelector('main .said')?.textContent", 10)
        told = answers(b)
        paste(b, "found", "W-5", "part,location,quantity\n" + "Screw M3,Lab,1\n" * 75_000, "Let the program read it",
              "As the program reads it")
        long = b.text()
        paste(b, "receipts", "W-4", "line,location,quantity\n1,2,3\n", "Let the program read it",
              "As the program reads it")
        b.press("Send these 1 records as they are")
        head = b.see("document.querySelector('main .said')?.textContent", 10)
        kept = b.js("store.keys('open:').length")
        return ("Refused" in said and "WrongType" in told[0] and "WrongType" in told[2] and told[1] == "" and
                "cut it up" in long and desk.entries() == entries and
                "Header" in head and not kept), (said, told, head, kept)
    t.check("what the program can't read is told beside its record, and nothing is done", whole_faults)

    def faults():
        told = []
        for text, wanted in (("line,location,quantity\n1,2,3,4\n", "more fields than the header"),
                             ("line,location,quantity\n1,\"2,3\n", "quote that isn't closed")):
            paste(b, "receipts", "D-4", text)
            told.append(wanted in b.text() and "Nothing was sent" in b.text())
        paste(b, "receipts", "D 4", "line,location,quantity\n1,2,3\n")
        told.append("The document needs a name" in b.text())
        return all(told), told
    t.check("a file that can't be read is told, and nothing is sent", faults)
    clear(b)


# Where it came from

def check_origins(t):
    b, r, desk = t.b, t.r, t.desk
    title = "Where it came from, and where it went"

    def opened(to):
        b.go(to)
        b.press(title)
        part = ("[...document.querySelectorAll('main details')].find(it => it.firstChild.textContent === "
                f"{json.dumps(title)})")
        b.see(f"{part}.children[1] && !{part}.querySelector('[aria-busy=true]')", 20)
        return b.js(f"{part}.innerText").replace("\u202f", "")

    def item():
        order = desk.do("order", side="purchase", partner="Origin Ltd", key="PO-O")[0]
        line = desk.do("order_line", order=order, part=r["c100n"], quantity=50, key="PO-O/1")[0]
        desk.do("issue_order", order=order)
        whole = desk.do("receive", line=line, location=r["lab"], quantity=50, batch="ORI", key="del-1")[0]
        piece = desk.do("split", item=whole, quantity=10, key="cut-1")[0]
        r.update(o_whole=whole, o_piece=piece)
        b.focus_window()
        told = opened(f"item/{piece}")
        return all(it in told for it in ("it was cut off this", "delivered it", "Origin Ltd", "del-1", "cut-1")), told
    t.check("an item says that it was cut off another, and that this was delivered for an order", item)

    def went():
        told = opened(f"item/{r['o_whole']}").split("Went to")[-1]
        return "cut off it" in told and "Lab" in told and f"{r['o_piece']}" in told, told
    t.check("and what was cut off it, with where that is", went)

    def far():
        at = r["i_screw"]
        for n in range(12):
            at = desk.do("split", item=at, quantity=900 - n * 20, key=f"far-{n}")[0]
        b.focus_window()
        told = opened(f"item/{at}")
        return told.count("it was cut off this") == 12 and "[object" not in told and "far-0" in told, told[:300]
    t.check("by however many steps", far)

    def unknown():
        told = opened(f"item/{r['i_c']}")
        return len(b.rows(2)) == 1 and "What a request without a key made isn't known" in told, (b.rows(2), told)
    t.check("what isn't known is said to be unknown", unknown)

    def build():
        made = desk.do("build", part=r["board"], quantity=1, key="B-O")[0]
        desk.do("issue_build", build=made)
        for line, one, n in ((r["l_r"], r["i_r"], 4), (r["l_c"], r["o_piece"], 5), (r["l_lm"], r["i_lm"], 1)):
            desk.do("allocate_build", build=made, line=line, item=one, quantity=n)
        output = desk.do("outputs", build=made, quantity=1, key="out-O")[0]
        desk.do("complete_output", output=output, location=r["goods"], key="done-O")
        desk.do("complete_build", build=made, key="end-O")
        b.focus_window()
        told = opened(f"build/{made}")
        back = opened(f"item/{output}")
        return ("Went into it" in told and "C 100n" in told and "Came of it" in told and "Goods in" in told and
                "made it" in back and "B-O" in back and "C 100n" in back), (told, back)
    t.check("a build has what went into it and what came of it, and an output the build", build)

    def batch():
        b.go(f"item/{r['o_whole']}")
        b.click("[...document.querySelectorAll('main dd a')].find(it => it.textContent === 'ORI')")
        b.see(f"{H1}.startsWith('Batch ORI of C 100n')")
        rows = b.rows(0)
        used = any("used by" in " ".join(it) and "Controller board" in " ".join(it) for it in rows)
        b.press(title)
        b.see("document.querySelectorAll('main .table').length > 2 && !document.querySelector('[aria-busy=true]')", 20)
        told = b.text().split("Went to")[-1]
        return len(rows) == 3 and used and "Used up" in b.text() and "used it" in told and "begun for it" in told, (
            rows, told)
    t.check("a batch has a page: its items, where each is, and what it went into", batch)


# Lists, the dump and the stop

CSV = "[...document.querySelectorAll('main button')].find(it => it.textContent === 'CSV' && it.offsetParent)"


def words_of_lists(r):
    """Each list: its address in the page, and in the program."""
    batch = urllib.parse.quote(XSS["batch"], safe="")
    return [("stock", "stock?csv"), ("stock?low=20", "stock?low=20&csv"), (f"at?location={r['xlocation']}",
            f"at/{r['xlocation']}?csv"), (f"part?part={r['xpart']}", f"part/{r['xpart']}?csv"),
            (f"item?item={r['i_x']}", f"item/{r['i_x']}?csv"), ("orders", "orders?csv"), ("orders?open=1",
            "orders?open&csv"), ("builds", "builds?csv"), ("builds?open=1", "builds?open&csv"),
            ("find?text=%3Cimg", "find/%3Cimg?csv"), ("shortages", "shortages?csv"),
            (f"trace-forward?item={r['i_x2']}", f"trace-forward/{r['i_x2']}?csv"),
            (f"trace-forward?batch={batch}", f"trace-forward/{batch}?csv"),
            (f"trace-back?item={r['i_x']}", f"trace-back/{r['i_x']}?csv"), ("count-sheet", "count-sheet?csv"),
            (f"count-sheet?location={r['xlocation']}", f"count-sheet/{r['xlocation']}?csv"),
            ("receipt-sheet", "receipt-sheet?csv"), (f"receipt-sheet?order={r['xpo']}",
            f"receipt-sheet/{r['xpo']}?csv")]


def records(text):
    return list(csv.reader(io.StringIO(text)))


def check_lists(t):
    b, r, desk = t.b, t.r, t.desk
    folder = pathlib.Path(desk.path).parent / "saved"
    folder.mkdir(exist_ok=True)
    clear(b)

    def each():
        lacking = []
        for page, program in words_of_lists(r):
            b.go(f"list/{page}")
            told = records(desk.ask("GET", f"/show/{program}")[2])
            shown = b.js("[...document.querySelectorAll('main table')].map(it => [[...it.tHead.rows[0].cells].map("
                         "one => one.textContent), it.tBodies[0].rows.length])")
            heads = [[it.capitalize() for it in told[0]], min(len(told) - 1, 25)]
            hit = b.js("window.hit !== undefined || !!document.querySelector('main img, main svg, main iframe, main "
                       "script, main video')")
            if shown != [heads] or hit or b.nameless():
                lacking.append((page, shown, heads, hit))
        return not lacking, lacking[:2]
    t.check("each list of the program is a view, with its columns and rows, and no name is markup", each)

    def hostile():
        seen = ""
        for page, _ in words_of_lists(r):
            b.go(f"list/{page}")
            seen += b.js("document.querySelector('main tbody')?.textContent")
        return all(XSS[it] in seen for it in ("part", "location", "category", "partner", "batch", "key", "assembly")), [
            it for it in XSS if XSS[it] not in seen]
    t.check("such names stand in them", hostile)

    def saved():
        lacking = []
        for page, program in words_of_lists(r):
            b.go(f"list/{page}")
            called, body = b.saved(folder, CSV)
            wanted = f"{page.split('?')[0]}-{b.js('today()')}.csv"
            if (called, body.decode()) != (wanted, desk.ask("GET", f"/show/{program}")[2]):
                lacking.append((page, called, body[:80]))
        return not lacking, lacking[:2]
    t.check("each is saved as the program tells it, named with the day", saved)

    def by_form():
        b.go("list/at")
        none = b.count("main table")
        b.fill_in("Location", "second counting", choose=True)
        b.press("Show it")
        b.see("document.querySelectorAll('main table').length === 1")
        at = b.js("location.hash")
        b.go("list/stock")
        b.put("document.getElementById('list-low')", "20")
        b.key("Enter")
        b.see("location.hash.includes('low=20')")
        b.rest()
        few = b.count("main tbody tr")
        b.go("list/orders?open=1")
        ticked = b.js("document.getElementById('list-open').checked")
        return (none == 0 and at == f"#/list/at?location={r['count2']}" and ticked
                and few == len(records(desk.ask("GET", "/show/stock?low=20&csv")[2])) - 1), (none, at, few)
    t.check("what goes with a list is chosen in its form", by_form)

    def wheel():
        b.go("list/stock?low=20")
        box = "document.getElementById('list-low')"
        b.js(f"{box}.focus()")
        x, y = b.js(f"(it => [it.x + 20, it.y + 10])({box}.getBoundingClientRect())")
        b.call("Input.dispatchMouseEvent", type="mouseWheel", x=x, y=y, deltaX=0, deltaY=240)
        b.key("ArrowUp")
        b.key("ArrowDown")
        time.sleep(0.1)
        return b.js(f"{box}.value") == "20" and b.js(f"{box}.type") == "text", b.js(f"{box}.value")
    t.check("wheel and arrows change no number there", wheel)

    def words():
        b.go("list/at?location=999999")
        gone = b.text()
        b.go("list/find?text=" + urllib.parse.quote("50% off / a?b#c&d+e", safe=""))
        odd = b.count("main table") == 1 and "None." in b.text()
        b.go("list/nothing")
        return "says no row" in gone and odd and "no such list" in b.text(), (gone, odd)
    t.check("a word that says no row is told, and any text may be looked for", words)

    def twin():
        desk.do("found", part=r["screw"], location=r["lab"], quantity=2, batch=str(r["i_lm"]))
        b.focus_window()
        b.go(f"list/trace-forward?item={r['i_lm']}")
        return b.rows(0)[0][2:5] == [str(r["i_lm"]), str(r["lm"]), "LM358"], b.rows(0)
    t.check("an item whose number is a batch is traced, and not that batch", twin)

    def within():
        lacking = []
        for to, wanted in (("stock", ["stock"]), ("low", ["stock"]), ("shopping", ["shortages"]),
                           ("builds", ["builds"]), ("orders", ["orders", "receipt-sheet"]),
                           (f"location/{r['lab']}", ["at", "count-sheet"]),
                           (f"part/{r['lm']}", ["part"]),
                           (f"item/{r['i_lm']}", ["item", "trace-forward", "trace-back"]),
                           (f"order/{r['po']}", ["receipt-sheet"]), ("find/motor", ["find"]),
                           (f"batch/{r['c100n']}?text=L22", ["trace-forward"])):
            b.go(to)
            links = b.js("[...document.querySelectorAll('main a')].filter(it => it.hash.startsWith('#/list/'))"
                         ".map(it => [it.textContent, it.hash])")
            if [it[0] for it in links] != wanted:
                lacking.append((to, links))
            for _, there in links:
                b.go(there.removeprefix("#/"))
                if b.count("main table") != 1:
                    lacking.append(there)
        return not lacking, lacking
    t.check("a view leads to the lists that tell of it", within)

    def changed():
        b.go(f"list/at?location={r['count2']}")
        before = b.rows(0)
        desk.do("add", item=r["i_r2"], quantity=3)
        b.focus_window()
        b.rest()
        return b.rows(0) != before, before
    t.check("a list is asked for anew where the books changed", changed)

    def keys():
        b.go("lists")
        tab_to(b, "Receipt-sheet")
        b.key("Enter")
        b.see(f"{H1} === 'List: receipt-sheet'")
        b.rest()
        tab_to(b, "Show it")
        b.key("Enter")
        b.rest()
        tab_to(b, "CSV")
        return b.count("main table") == 1
    t.check("a list is reached, asked for and saved by the keyboard alone", keys)

    def phone():
        b.phone()
        wide, small = {}, 0
        for page in ["lists", *("list/" + it[0] for it in words_of_lists(r))]:
            b.go(page)
            wide[page] = b.js("document.documentElement.scrollWidth")
            small += b.js("[...document.querySelectorAll('main button, main select, main input:not([type=checkbox])')]"
                          ".filter(it => it.checkVisibility() && it.getBoundingClientRect().height < 43).length")
        b.phone(False)
        return max(wide.values()) <= 376 and not small, ({to: it for to, it in wide.items() if it > 376}, small)
    t.check("375 pixels wide: each list fits", phone)

    def dark():
        worst = [99, ""]
        b.call("Emulation.setEmulatedMedia", features=[{"name": "prefers-color-scheme", "value": "dark"}])
        for to in ("lists", "list/stock", f"list/trace-forward?item={r['i_x2']}", "files"):
            b.go(to)
            time.sleep(0.1)
            worst = min(worst, b.js(CONTRAST))
        b.call("Emulation.setEmulatedMedia", media="", features=[])
        return worst[0] >= 4.5, worst
    t.check("dark: each text of a list has a contrast of at least 4.5", dark)

    def paper():
        b.call("Emulation.setEmulatedMedia", media="print", features=[])
        b.go("list/builds")
        left = b.js("[...document.querySelectorAll('main button, main .button, main input, header *')].filter("
                    "it => it.checkVisibility() && !it.closest('thead')).map(it => it.textContent)")
        shown = b.js("[...document.querySelectorAll('main table')].filter(it => it.checkVisibility()).length")
        b.call("Emulation.setEmulatedMedia", media="", features=[])
        return not left and shown == 1, (left[:5], shown)
    t.check("a list is printed with its table, without what is clicked", paper)

    def away():
        b.go(f"list/at?location={r['count2']}")
        desk.kill()
        b.js("location.hash = '#/list/stock'")
        b.see(f"{H1} === \"The program doesn't answer\"", 8)
        desk.start()
        b.focus_window()
        b.see(f"{H1} === 'List: stock'")
        b.rest()
        return b.count("main table") == 1
    t.check("killed while a list is looked at: it is told, and the list is there once it is back", away)

    def dumped():
        b.go("lists")
        called, body = b.saved(folder, "[...document.querySelectorAll('main button')].find(it => it.textContent === "
                               "'Save a dump')", "sql")
        made = sqlite3.connect(":memory:")
        made.executescript(body.decode())
        items = made.execute("SELECT count(*) FROM items").fetchone()[0]
        before = b.js("today()")
        b.js("window.shift = 86400000")
        later, _ = b.saved(folder, "[...document.querySelectorAll('main button')].find(it => it.textContent === "
                           "'Save a dump')", "sql")
        b.js("window.shift = 0")
        return (called == f"invdesk-{before}.sql" and body.decode() == desk.ask("GET", "/dump")[2] and
                later > called and items == len(desk.table("items")) and "Saved: invdesk-" in b.text()), (
                    called, later, items)
    t.check("a dump is saved, named with the day, and has all of the books", dumped)

    def cut():
        def paused(params):
            b.post("Fetch.fulfillRequest", requestId=params["requestId"], responseCode=200,
                   body=base64.b64encode(b"BEGIN;\nCREATE TABLE x(y);\n").decode())
        b.go("stock")
        b.go("lists")
        b.intercept(paused, "*/dump")
        for it in folder.glob("*.sql"):
            it.unlink()
        b.press("Save a dump")
        b.see("document.querySelector('main .said')?.innerText.includes('cut short')")
        time.sleep(0.3)
        return not list(folder.glob("*.sql")), list(folder.glob("*.sql"))
    t.check("a dump that was cut short isn't saved, and it is told", cut)
    clear(b)


def check_stop(t):
    b, r, desk = t.b, t.r, t.desk

    def once():
        clear(b)
        b.go("lists")
        b.mark()
        b.press("Stop the program")
        time.sleep(0.2)
        return not b.asked("/stop") and desk.process.poll() is None and "everybody who uses it" in b.text(), b.text()
    t.check("one press on 'Stop the program' asks once more, and stops nothing", once)

    def double():
        b.go("stock")
        b.go("lists")
        b.mark()
        b.click("[...document.querySelectorAll('main summary')].find(it => it.textContent === 'Stop the program')", 2)
        time.sleep(0.3)
        return not b.asked("/stop") and desk.process.poll() is None
    t.check("nor does a double click", double)

    def stopped():
        with contextlib.closing(Clerk(CHROMIUM)) as other:
            other.open(desk.url)
            other.rest()
            other.go(f"do/found?part={r['screw']}&location={r['lab']}")
            other.fill_in("Quantity", "64")
            b.go("stock")
            b.go("lists")
            tab_to(b, "Stop the program")
            b.key("Enter")
            tab_to(b, "Stop it now")
            b.key("Enter")
            told = b.see(f"{H1} === 'The program was stopped'")
            status = desk.process.wait(10)
            b.js("renew(true)")
            b.js("location.hash = '#/stock'")
            time.sleep(0.5)
            stays = b.js(H1) == "The program was stopped"
            other.focus_window()
            away = other.js(NOTICES)
            desk.start()
            b.press("Try again")
            b.see(f"{H1} === 'Stock'")
            other.focus_window()
            said = other.submit()
        return (told and status == 0 and stays and "doesn't answer" in away and said.startswith("Done")), (
            status, stays, away, said)
    t.check("the second press stops it: the page says so and stays so, and goes on when it is started again", stopped)

    def lost():
        b.go("lists")

        def paused(params):
            b.post("Fetch.failRequest", requestId=params["requestId"], errorReason="ConnectionReset")
        b.intercept(paused, "*/stop")
        b.press("Stop the program")
        b.press("Stop it now")
        b.see("document.querySelector('main .said')?.innerText.includes('isn\\'t known whether it stopped')")
        b.stop_intercepting()
        return desk.process.poll() is None
    t.check("a stop that isn't answered is told so", lost)
    clear(b)


GROUPS = {"lost": check_lost, "windows": check_windows, "keyboard": check_keyboard, "files": check_files,
          "origins": check_origins, "looks": check_looks, "markup": check_markup, "lists": check_lists,
          "stop": check_stop, "service": check_service}


def main():
    words = words_of(__doc__)
    words.add_argument("--only", default=",".join(GROUPS))
    given = given_by(words)
    expect(CHROMIUM, "Chromium isn't here: apt-get install -y chromium")
    c = Checks()
    with tempfile.TemporaryDirectory() as top, contextlib.ExitStack() as ends:
        desk = ends.enter_context(contextlib.closing(Desk(given.program, str(pathlib.Path(top) / "w.db"))))
        rows = workshop(desk.do)
        b = ends.enter_context(contextlib.closing(Clerk(CHROMIUM)))
        b.open("about:blank")
        b.call("Page.addScriptToEvaluateOnNewDocument", source=CLOCK)
        b.call("Page.navigate", url=desk.url)
        time.sleep(0.3)
        b.rest()
        t = Trial(c, desk, desk.url, rows, b)
        for name in given.only.split(","):
            print(f"--- {name}", flush=True)
            GROUPS[name](t)
        t.check("each line that the page sent has a key", lambda: (not b.keyless(), b.keyless()[:2]))
        print(f"      {len(b.lines):,} lines were sent")
        told = [it for it in map(json.dumps, b.logged) if not AWAY.search(it)]
        t.check("no fault and no breach of the policy was logged", lambda: (not told, told[:1]))
    print(f"check_hazards: {c.count} checks, {c.failed} failed")
    sys.exit(c.failed > 0)


if __name__ == "__main__":
    main()
