#!/usr/bin/env python3
"""Looks at the page in Chromium as a clerk uses it in a workshop: counts, receives, ships, builds, ends a build, mends
a mistake, at a desk and on a phone, with names that look like markup. A line tells each check. It takes
some five minutes.

Chromium has to be here: `apt-get install -y chromium`. `tools/check_page.py` looks at the rest of the page, and
`tools/check_hazards.py` at what can harm the books.

usage: tools/check_clerk.py PROGRAM [--draft] [--only GROUP,..] [--pictures FOLDER]"""
import contextlib
import csv
import io
import json
import pathlib
import re
import sys
import tempfile
import time

import make_page
from browser import CODES, Broken
from made_small import XSS, workshop
from page_user import CHROMIUM, CONTRAST, FILL, H1, Desk, Page, given_by, lines_in, words_of
from shared import expect, run

CODES.update({"Backspace": 8})
LIMIT = 4
TOKEN = "0123456789abcdefghijklmnopqrstuvwxyz"
# Moves the clock of a page by `shift` milliseconds.
CLOCK = """{ const Real = Date; window.shift = 0;
  window.Date = class extends Real { constructor(...it) {
    if (it.length) super(...it); else super(Real.now() + shift); } }; }"""
TOLD = re.compile(r"status of (4(00|01|09)|500)|ERR_CONNECTION_RESET|ERR_EMPTY_RESPONSE|insertAdjacentHTML|TrustedHTML")


class Checks:
    """What was looked at, and how much of it failed."""

    count = failed = 0

    def say(self, what, holds, measured=""):
        seen = f"  [{str(measured)[:200]}]" if measured != "" else ""
        print(f"{'pass' if holds else 'FAIL'}  {what}{seen}", flush=True)
        self.count += 1
        self.failed += not holds


class Clerk(Page):
    """The page in Chromium, used by what stands on it."""

    def see(self, text, limit=LIMIT):
        return self.wait(text, limit)

    def text(self):
        return self.js("document.querySelector('main').innerText").replace("\u202f", "")

    def press(self, text, within="main", begins=False):
        """Clicks on the control with this text."""
        told = json.dumps(text)
        same = f"it.textContent.startsWith({told})" if begins else f"it.textContent.trim() === {told}"
        found = (f"[...document.querySelectorAll('{within} button, {within} a, {within} summary')]"
                 f".find(it => {same} && it.offsetParent && !it.disabled)")
        if not self.js(f"!!{found}"):
            raise Broken(f"nothing to press: {text}")
        self.click(found)
        time.sleep(0.05)

    def labelled(self, label, within="main"):
        return (f"[...document.querySelectorAll('{within} [aria-label]')].find(it => it.ariaLabel.startsWith("
                f"{json.dumps(label)}) && it.matches('input, select') && it.offsetParent)")

    def put(self, element, text):
        if not self.js(f"!!{element}"):
            raise Broken(f"no such box: {element[-60:]}")
        self.js(f"{element}.focus(); {element}.select?.()")
        self.key("Backspace")
        self.type(text)

    def fill_in(self, label, text, choose=False, form="main"):
        box = (f"(() => {{ const it = [...document.querySelectorAll('{form} label')].find(it => "
               f"it.textContent.startsWith({json.dumps(label)}) && it.offsetParent); "
               "return document.getElementById(it.htmlFor) ?? it.querySelector('input'); })()")
        self.put(box, text)
        if choose:
            self.see(f"{box}.getAttribute('aria-expanded') === 'true'")
            self.key("Enter")

    def mark(self):
        self.events.clear()

    def sent(self):
        """The lines that were sent since the mark."""
        self.js("1")
        return [json.loads(line) for event, params in self.events if event == "Network.requestWillBeSent"
                for line in lines_in(params["request"]) if line]

    def asked(self, path):
        self.js("1")
        return [params["request"] for event, params in self.events
                if event == "Network.requestWillBeSent" and params["request"]["url"].endswith(path)]

    def saved(self, folder, press, ends="csv"):
        """Clicks where a file is saved: its name and its bytes."""
        for it in folder.glob(f"*.{ends}"):
            it.unlink()
        self.call("Browser.setDownloadBehavior", behavior="allow", downloadPath=str(folder))
        self.click(press)
        end = time.monotonic() + LIMIT
        while time.monotonic() < end:
            found = [it for it in folder.glob(f"*.{ends}")]
            if found and found[0].stat().st_size:
                return found[0].name, found[0].read_bytes()
            time.sleep(0.1)
        raise Broken("no file was saved")

    def focus_window(self):
        self.js("dispatchEvent(new Event('focus'))")
        time.sleep(0.15)
        self.rest()

    def boxes(self):
        return self.js("[...document.querySelectorAll('main tbody input')].map(it => it.value)")

    def at_box(self):
        return self.js("[...document.querySelectorAll('main tbody input')].indexOf(document.activeElement)")

    def rows(self, at):
        """What stands in the rows of that table of the view, cell by cell."""
        found = f"[...[...document.querySelectorAll('main table')][{at}].tBodies[0].rows]"
        return self.js(f"{found}.map(it => [...it.cells].map(cell => cell.textContent.replaceAll('\\u202f', '')))")

    def phone(self, is_on=True):
        if is_on:
            self.call("Emulation.setDeviceMetricsOverride", width=375, height=720, deviceScaleFactor=2, mobile=True)
        else:
            self.call("Emulation.clearDeviceMetricsOverride")


class Trial:
    """A workshop, a page of it in a browser, and what is checked of both."""

    def __init__(self, c, desk, url, rows, b):
        self.c, self.desk, self.url, self.r, self.b = c, desk, url, rows, b

    def check(self, what, holds):
        """A check: `holds` gives whether it does, or that with what was seen."""
        try:
            told = holds()
            good, seen = told if isinstance(told, tuple) else (told, "")
        except (Broken, KeyError, IndexError, TypeError, ValueError, StopIteration, AttributeError) as fault:
            good, seen = False, str(fault).replace("\n", " ")[:160]
        with contextlib.suppress(Broken):
            self.b.stop_intercepting()
        self.c.say(what, bool(good), "" if good else seen)
        return good

    def row(self, table, number):
        return next(it for it in self.desk.table(table) if int(it[0]) == number)

    def quantity(self, item):
        return int(self.row("items", item)[5])

    def state(self, table, number):
        return int(self.row(table, number)[3])

    def history(self):
        told = json.loads(self.desk.ask("GET", "/history/1")[2])["history"]
        return told


# The count sheet

def check_sheet(t):
    b, r, desk = t.b, t.r, t.desk
    boxes = "[...document.querySelectorAll('main tbody input')]"

    def open_sheet():
        b.go("stock")
        b.js("sessionStorage.clear()")
        b.go(f"sheet/{r['count']}")
        b.settle()

    def type_in(values):
        """Types into the boxes of these items, by their labels."""
        for item, text in values.items():
            box = f"{boxes}.find(it => it.closest('tr').querySelector('a[href=\"#/item/{item}\"]'))"
            b.put(box, text)

    open_sheet()
    t.check("a box to count in is plain text for digits", lambda: b.js(
        f"{boxes}.length === 5 && {boxes}.every(it => it.type === 'text' && it.inputMode === 'numeric')"))

    def arrow_down():
        b.js(f"{boxes}[0].focus()")
        b.key("ArrowDown")
        return b.boxes()[0] == "" and b.at_box() == 1, (b.boxes(), b.at_box())
    t.check("ArrowDown in an empty box enters nothing and goes to the next row", arrow_down)

    def arrow_up():
        b.key("ArrowUp")
        return b.boxes()[:2] == ["", ""] and b.at_box() == 0, (b.boxes(), b.at_box())
    t.check("ArrowUp goes to the row before", arrow_up)

    def wheel():
        open_sheet()
        b.js(f"{boxes}[0].focus()")
        b.type("7")
        x, y = b.js(f"(it => [it.x + 20, it.y + 10])({boxes}[0].getBoundingClientRect())")
        b.call("Input.dispatchMouseEvent", type="mouseWheel", x=x, y=y, deltaX=0, deltaY=240)
        time.sleep(0.2)
        return b.boxes()[0] == "7" and b.js(f"{boxes}[0].type") == "text", b.boxes()
    t.check("the wheel changes no number", wheel)

    def enter():
        open_sheet()
        before, at = desk.entries(), []
        b.mark()
        b.js(f"{boxes}[0].focus()")
        for text in ("98", "200", "30", "40", "12"):
            b.type(text)
            b.key("Enter")
            at.append(b.at_box())
        time.sleep(0.3)
        return at[:4] == [1, 2, 3, 4] and not b.sent() and desk.entries() == before, (at, len(b.sent()))
    t.check("Enter goes to the next row and sends nothing, in the last one neither", enter)

    def kept():
        open_sheet()
        type_in({r["counted"][0]: "97", r["counted"][2]: "31"})
        b.call("Page.reload")
        time.sleep(0.3)
        b.rest()
        return sorted(b.boxes()) == ["", "", "", "31", "97"], b.boxes()
    t.check("what was typed is there after a reload", kept)

    def summary():
        open_sheet()
        b.mark()
        type_in({r["counted"][0]: "99", r["counted"][1]: "150", r["counted"][3]: "40"})
        b.press("Look at what will change")
        b.see("document.querySelector('main').innerText.includes('Nothing is sent yet')")
        heads = b.js("[...document.querySelectorAll('main table:not([hidden]) thead th')].filter(it => it.offsetParent)"
                     ".map(it => it.textContent)")
        return not b.sent() and {"Expected", "Counted", "Difference"} <= set(heads), heads
    t.check("a summary tells what will change before anything is sent", summary)

    def biggest():
        rows = b.js("[...document.querySelectorAll('main tbody tr')].filter(it => it.offsetParent).map(it => "
            "it.innerText)")
        first = all(it in rows[0] for it in ("150", "\u221250", "big"))
        return len(rows) == 3 and first and "99" in rows[1], rows
    t.check("the biggest difference stands first, and is marked", biggest)

    def confirm():
        before = [t.quantity(it) for it in r["counted"]]
        b.mark()
        b.press("Send these 3 counts")
        b.see("document.querySelector('.said')?.innerText.startsWith('Counted: 3')")
        after, lines = [t.quantity(it) for it in r["counted"]], b.sent()
        return (before, after) == ([100, 200, 30, 40, 12], [99, 150, 30, 40, 12]) and len({it["key"]
            for it in lines}) == 3, after
    t.check("confirmed it sends what was counted, each under a key; an empty box isn't counted", confirm)
    t.check("what came of each is told by what was written", lambda: ("written off 50 (counted)" in b.text() and
            "As expected: nothing was written" in b.text(), b.text()))

    def cleared():
        b.call("Page.reload")
        time.sleep(0.3)
        b.rest()
        return b.count("main tbody input[inputmode=numeric]") == 5 and set(b.boxes()) == {""}
    t.check("what was sent is no longer kept", cleared)

    def wrong_word():
        open_sheet()
        b.mark()
        type_in({r["counted"][0]: "12a", r["counted"][1]: "150"})
        b.press("Look at what will change")
        b.see("document.querySelector('main').innerText.includes('no whole number')")
        return not b.sent() and b.js(f"!!{boxes}.find(it => it.ariaInvalid === 'true')") is not False
    t.check("what is no whole number is told and left out", wrong_word)

    def marked():
        open_sheet()
        type_in({r["counted"][1]: "150"})
        desk.do("remove", item=r["counted"][1], quantity=10)
        b.focus_window()
        row = b.js("document.querySelector('main tr.changed')?.innerText") or ""
        return "from 150 to 140" in row and b.boxes().count("150") == 1, row
    t.check("a row whose quantity changed since the sheet was opened is marked, and what was typed stays", marked)

    def asked():
        type_in({r["counted"][2]: "29"})
        b.press("Look at what will change")
        b.see("!!document.querySelector('main td select')")
        left_out = b.js("document.querySelector('main td select').value") == ""
        b.mark()
        b.press("Send these 1 counts")
        b.see("document.querySelector('.said')?.innerText.startsWith('Counted: 1')")
        return left_out and [it["item"] for it in b.sent()] == [r["counted"][2]] and t.quantity(r["counted"][1]) == 140
    t.check("such a row is asked about, and left out unless it is said", asked)

    def before_it():
        b.press("To the sheet")
        b.press("Look at what will change")
        b.see("!!document.querySelector('main td select')")
        b.js("(it => { it.value = '140'; it.dispatchEvent(new Event('change', { bubbles: true })); })"
             "(document.querySelector('main td select'))")
        b.press("Send these 1 counts")
        b.see("document.querySelector('.said')?.innerText.startsWith('Counted: 1')")
        return t.quantity(r["counted"][1]) == 140 and "As expected" in b.text(), b.text()
    t.check("counted before the change it is counted on from there", before_it)

    def once_more():
        open_sheet()
        type_in({r["counted"][3]: "38"})
        b.press("Look at what will change")
        b.see("document.querySelector('main').innerText.includes('Nothing is sent yet')")
        desk.do("add", item=r["counted"][3], quantity=5)
        b.mark()
        b.press("Send these 1 counts")
        b.see("document.querySelector('main').innerText.includes('changed once more')")
        return not b.sent() and t.quantity(r["counted"][3]) == 45
    t.check("books that changed after the summary: nothing is sent, one looks again", once_more)

    def truth():
        """Two windows: 540 is counted as another one removes 10."""
        item = r["i_r2"]
        b.go("stock")
        b.js("sessionStorage.clear()")
        b.go(f"sheet/{r['count2']}")
        b.put("document.querySelector('main tbody input')", "540")
        done = []

        def paused(params):
            if not done:
                done.append(desk.do("remove", item=item, quantity=10))
            b.post("Fetch.continueRequest", requestId=params["requestId"])
        b.intercept(paused, "*/run", "Request")
        b.press("Look at what will change")
        b.see("document.querySelector('main').innerText.includes('Nothing is sent yet')")
        b.press("Send these 1 counts")
        b.see("document.querySelector('.said')?.innerText.startsWith('Counted: 1')")
        b.stop_intercepting()
        text = b.text()
        return done and t.quantity(item) == 540 and "found 10" in text and "expected" not in text.lower().replace(
            "expected\n", ""), text[-200:]
    t.check("where another removed 10 meanwhile, it says that 10 were found and not 'as expected'", truth)

    def lost():
        b.go("stock")
        b.js("sessionStorage.clear()")
        b.go(f"sheet/{r['count2']}")
        b.put("document.querySelector('main tbody input')", "533")
        entries = desk.entries()
        b.press("Look at what will change")
        b.see("document.querySelector('main').innerText.includes('Nothing is sent yet')")
        _, sent = b.lose(3)
        b.press("Send these 1 counts")
        b.see("document.querySelector('.said.warn')?.innerText.includes('isn\\'t known')", 8)
        b.stop_intercepting()
        b.call("Page.reload")
        time.sleep(0.4)
        b.rest()
        notice = b.js("document.querySelector('#notices').innerText")
        b.press("Send it again", "#notices")
        b.see("document.querySelector('#notices').innerText.includes('done now, once')")
        return len({json.loads(it)["key"]
            for it in sent}) == 1 and desk.entries() == entries + 1 and "Not answered" in notice
    t.check("answers that are lost, and a reload: it is offered again under its key, and done once", lost)
    b.js("sessionStorage.clear()")
    b.call("Page.reload")
    time.sleep(0.3)
    b.rest()


# Builds and their end

def check_builds(t):
    b, r, desk = t.b, t.r, t.desk

    def half_done(part="board", quantity=5, made=4):
        build = desk.do("build", part=r[part], quantity=quantity)[0]
        desk.do("issue_build", build=build)
        desk.do("auto_allocate", build=build)
        output = desk.do("outputs", build=build, quantity=made)[0]
        desk.do("complete_output", output=output, location=r["lab"])
        return build

    def warned():
        b.go(f"build/{r['b1']}")
        b.focus_window()
        b.press("Cancel this build")
        text = b.text()
        return "4 of 5 are made already" in text and "20 of R 10k 0603" in text and "isn't used up" in text, text[-300:]
    t.check("to cancel a build of which some is made it warns, and lists what is allocated and not used up", warned)
    t.check("it offers to use up and end, says that it is called cancelled then, and plain cancel beside", lambda: all(
        it in b.text() for it in ("Use up and end", "calls it cancelled", "Cancel, and use nothing up")))

    def used_up():
        before = {it: t.quantity(r[it]) for it in ("i_r", "i_c", "i_lm")}
        b.mark()
        b.press("Use up and end", "main section")
        b.see("document.querySelector('.said.good')?.innerText.includes('Used up')")
        after = {it: t.quantity(r[it]) for it in before}
        lines = b.sent()
        return ([before[it] - after[it] for it in before] == [20, 25, 5] and t.state("builds", r["b1"]) == 3 and
                [it["do"] for it in lines] == ["consume"] * 3 + ["cancel_build"] and len({it["key"]
                    for it in lines}) == 4), after
    t.check("'Use up and end' consumes each allocation and then cancels, each under a key", used_up)
    t.check("one is still at the build, and is told the effect",
        lambda: (b.js("location.hash") == f"#/build/{r['b1']}" and
            re.search(r"present \d+ \u2192 \d+",
                b.js("document.querySelector('.said.good').innerText").replace("\u202f", "")), b.text()[:200]))

    def chosen():
        build = half_done()
        b.focus_window()
        before = {it: t.quantity(r[it]) for it in ("i_r", "i_c", "i_lm")}
        b.go(f"build/{build}?end=1")
        box = ("[...document.querySelectorAll('main tbody tr')].filter(it => it.innerText.includes('C 100n'))"
               ".map(it => it.querySelector('input[type=checkbox]')).find(it => it)")
        b.click(box)
        b.press("Use up and end", "main section")
        b.see("document.querySelector('.said.good')?.innerText.includes('Used up')")
        return [before[it] - t.quantity(r[it]) for it in before] == [20, 0, 5] and t.state("builds", build) == 3
    t.check("what isn't ticked goes back into stock", chosen)

    def plain():
        build = half_done()
        b.focus_window()
        before = t.quantity(r["i_r"])
        b.go(f"build/{build}?end=1")
        b.press("Cancel, and use nothing up")
        b.see("document.querySelector('.said.good')?.innerText.includes('Cancelled')")
        return t.quantity(r["i_r"]) == before and t.state("builds", build) == 3
    t.check("plain cancel is there still", plain)

    def on_hold():
        build = half_done()
        desk.do("hold_build", build=build)
        b.focus_window()
        b.go(f"build/{build}?end=1")
        b.mark()
        b.press("Use up and end", "main section")
        b.see("document.querySelector('.said.good')?.innerText.includes('Used up')")
        return [it["do"] for it in b.sent()] == ["issue_build"] + ["consume"] * 3 + ["cancel_build"], b.sent()
    t.check("a build on hold is set going first", on_hold)

    def takes():
        build = half_done()
        b.focus_window()
        b.go(f"build/{build}?end=1")
        told = b.js("[...document.querySelectorAll('main section')].find(it => it.querySelector('h2')?.textContent "
            "=== 'Use up and end')"
                    ".querySelector('tbody').innerText").split()
        return "16" in told and "20" in told, told
    t.check("it says beside each what the pieces that are made take", takes)

    def elsewhere():
        """An answer that comes when one has gone elsewhere disturbs nothing there."""
        order = desk.do("order", side="purchase", partner="Slow")[0]
        desk.do("order_line", order=order, part=r["screw"], quantity=70)
        b.focus_window()
        b.go(f"order/{order}")
        waiting = []
        b.intercept(lambda params: waiting.append(params["requestId"]), "*/run", "Response")
        b.press("Issue this order")
        b.see("busy > 0")
        b.js(f"location.hash = '#/do/remove?item={r['i_conn']}'")
        b.see("!!document.querySelector('form.card')")
        b.fill_in("Quantity", "5")
        for _ in range(200):   # until the answer is there
            if not waiting:
                b.js("new Promise(go => setTimeout(go, 20))")
        b.post("Fetch.continueRequest", requestId=waiting[0])
        b.see("document.getElementById('notices').innerText.includes('Issued')")
        value = b.js("[...document.querySelectorAll('main input')].find(it => it.inputMode === 'numeric').value")
        return value == "5" and t.state("orders", order) == 1, value
    t.check("an answer that comes when one is elsewhere is told there, and disturbs nothing", elsewhere)

    def form_warns():
        build = half_done()
        b.focus_window()
        b.go(f"do/cancel_build?build={build}")
        text = b.text()
        leads = b.count(f"main a[href='#/build/{build}?end=1']")
        return "isn't used up" in text and leads, text
    t.check("the form warns too, and leads there", form_warns)

    def short():
        build = desk.do("build", part=r["board"], quantity=2)[0]
        desk.do("issue_build", build=build)
        output = desk.do("outputs", build=build, quantity=1)[0]
        desk.do("complete_output", output=output, location=r["lab"])
        b.focus_window()
        b.go(f"do/complete_build?build={build}")
        said = b.submit()
        text = b.text()
        told = ("1 of 2 aren't made", "8 \u00d7 R 10k 0603", "end the build")
        return "Short" in said and all(it in text for it in told), text
    t.check("complete_build refused as Short says what is missing, and offers the same", short)

    def short_at_build():
        build = desk.do("build", part=r["board"], quantity=2)[0]
        desk.do("issue_build", build=build)
        desk.do("auto_allocate", build=build)
        output = desk.do("outputs", build=build, quantity=1)[0]
        desk.do("complete_output", output=output, location=r["lab"])
        b.focus_window()
        b.go(f"build/{build}")
        b.press("Complete this build")
        b.see("document.querySelector('main .said.bad')?.innerText.includes('Short')")
        missing = "1 of 2 aren't made" in b.text()
        b.press("Use up what was used, and end the build")
        b.see("document.querySelector('details.panel[open]')?.innerText.includes('Use up and end')")
        b.press("Use up and end", "main section")
        b.see("document.querySelector('.said.good')?.innerText.includes('Used up')")
        return missing and t.state("builds", build) == 3
    t.check("so does the build's own page, from where it leads there", short_at_build)

    def made_whole():
        """A build of robots with tracked motors, from its own page alone."""
        build = r["b3"]
        b.go(f"build/{build}")
        b.focus_window()
        b.press("Issue this build")
        b.see("document.querySelector('.said.good')?.innerText.includes('Issued')")
        b.press("Begin outputs (2 left)")
        quantity = b.js("[...document.querySelectorAll('main form input')].find(it => it.inputMode === "
            "'numeric').value")
        b.fill_in("Serials", "RB1,RB2")
        b.press("Begin these")
        b.see("document.querySelector('.said.good')?.innerText.includes('Began')")
        b.press("Allocate what is ticked")
        b.see("document.querySelector('.said.good')?.innerText.includes('Allocated')")
        b.press("Complete what is ticked")
        b.see("document.querySelector('.said.good')?.innerText.includes('Completed')")
        b.press("Complete this build")
        b.see("document.querySelector('.said.good')?.innerText.includes('Completed')")
        inside = sorted(it[3] for it in desk.table("items") if it[6] == "1" and int(it[2 - 1]) == r["motor"])
        return quantity == "2" and t.state("builds", build) == 4 and inside == ["M1", "M2", "M3", "M4"], (quantity,
            inside)
    t.check("a build's page issues, begins outputs, allocates, completes them and the build", made_whole)


# What time does to the page

def check_time(t):
    b, r, desk = t.b, t.r, t.desk
    day = "document.getElementById('day').value"

    def midnight():
        b.go("stock")
        today = b.js(day)
        b.js("window.shift = 86400000")
        time.sleep(1.3)
        b.focus_window()
        return b.js(day) > today, (today, b.js(day))
    t.check("the day follows the clock over midnight", midnight)

    def sent_day():
        tomorrow = b.js("(it => new Date(it - 60000 * it.getTimezoneOffset()).toISOString().slice(0, 10))(new Date())")
        b.go(f"do/found?part={r['screw']}&location={r['lab']}&quantity=1")
        b.mark()
        b.submit()
        return [it["day"] for it in b.sent()] == [tomorrow], (b.sent(), tomorrow)
    t.check("what is sent then has that day", sent_day)

    def by_hand():
        b.js("(it => { it.value = '2030-05-05'; it.dispatchEvent(new Event('input', { bubbles: true })); "
             "it.dispatchEvent(new Event('change', { bubbles: true })); })(document.getElementById('day'))")
        b.js("window.shift = 2 * 86400000")
        time.sleep(1.3)
        b.focus_window()
        kept, text = b.js(day) == "2030-05-05", b.js("document.querySelector('header').innerText")
        b.press("Today", "header")
        return kept and "by hand" in text.lower() and b.js(day) < "2030", (text, b.js(day))
    t.check("a day that was set by hand stays; the page says so and offers today", by_hand)
    b.js("window.shift = 0")
    time.sleep(1.2)

    def each_view():
        b.go("stock")
        b.mark()
        b.go("builds")
        time.sleep(0.3)
        asked = b.asked("/books")
        return len(asked) >= 1 and all("If-None-Match" in it["headers"] for it in asked), len(asked)
    t.check("a change of view reads the books anew, by If-None-Match", each_view)

    def seen():
        b.go("locations")
        desk.do("add_location", name="Made elsewhere")
        b.go("stock")
        b.go("locations")
        return b.see("document.querySelector('main').innerText.includes('Made elsewhere')")
    t.check("what another made is there when one comes to a view", seen)

    def focused():
        b.go("locations")
        desk.do("add_location", name="Made at focus")
        b.js("dispatchEvent(new Event('focus'))")
        return b.see("document.querySelector('main').innerText.includes('Made at focus')")
    t.check("and when the window gets the focus", focused)

    def by_itself():
        b.go("locations")
        desk.do("add_location", name="Made in twenty seconds")
        return b.see("document.querySelector('main').innerText.includes('Made in twenty seconds')", 24)
    t.check("and by itself within 20 seconds", by_itself)

    def undisturbed():
        b.go(f"do/remove?item={r['i_conn']}")
        b.fill_in("Quantity", "7")
        desk.do("remove", item=r["i_conn"], quantity=3)
        b.focus_window()
        value = b.js("[...document.querySelectorAll('main input')].find(it => it.inputMode === 'numeric').value")
        text = b.js("document.body.innerText").replace("\u202f", "")
        return value == "7" and "40" in text and re.search(r"Conn USB-C 2p, 40.*\u2192.*Conn USB-C 2p, 37",
            text), text[:300]
    t.check("a form that is filled in isn't disturbed, and says what changed of what it speaks of", undisturbed)

    def order_undisturbed():
        b.go(f"order/{r['po']}")
        b.put(b.labelled("Quantity of LM358"), "33")
        desk.do("receive", line=r["po_l1"], location=r["lab"], quantity=10)
        b.focus_window()
        value = b.js(f"{b.labelled('Quantity of LM358')}.value")
        return value == "33" and "10 done" in b.js("document.getElementById('notices').innerText"), value
    t.check("nor is an order's table, which says that another received", order_undisturbed)


# What one clicks

def check_clicks(t):
    b, r, desk = t.b, t.r, t.desk

    had = [int(it[4]) for it in desk.table("order_lines") if int(it[1]) == r["po"]]

    def prefilled():
        b.go("stock")
        b.go(f"order/{r['po']}")
        b.focus_window()
        words = ("Quantity of LM358", "Location of LM358", "Quantity of Motor", "Location of Motor")
        told = [b.js(f"{b.labelled(it)}.value") for it in words]
        return told[0] == str(100 - had[0]) and told[1] and told[2:] == ["2", "Lab"], told
    t.check("an order's page has a table of all that is outstanding, with quantity and location filled in", prefilled)
    t.check("it asks for serials of parts that have them, and for batches", lambda: b.js(
        f"!{b.labelled('Serials of LM358')} && !!{b.labelled('Serials of Motor')} && !!{b.labelled('Batch of LM358')}"))

    def received():
        b.put(b.labelled("Quantity of LM358"), "60")
        b.put(b.labelled("Batch of LM358"), "D-77")
        b.put(b.labelled("Serials of Motor"), "M1,M9")
        b.mark()
        b.press("Receive what is ticked")
        b.see("document.querySelector('main .said')?.innerText.includes('Refused: 1')")
        rows = b.js("[...document.querySelectorAll('main tbody tr')].map(it => it.innerText)")
        lines = b.sent()
        return (len({it["key"] for it in lines}) == 2 and any("done" in it and "LM358" in it for it in rows) and
                any("SerialTaken" in it for it in rows)), rows
    t.check("each row is a request with a key: one is done, the refused one says why beside it", received)

    def mended():
        b.put(b.labelled("Serials of Motor"), "M8,M9")
        b.mark()
        b.press("Receive what is ticked")
        b.see("document.querySelector('main .said.good')?.innerText.includes('Received')")
        done = [it[4] for it in desk.table("order_lines") if int(it[1]) == r["po"]]
        is_there = b.js("location.hash") == f"#/order/{r['po']}"
        return len(b.sent()) == 1 and done == [str(had[0] + 60), "2"] and is_there, (done, b.sent())
    t.check("mended it is sent alone, and one is at the order still", mended)

    def said():
        text = b.js("document.querySelector('.said.good').innerText").replace("\u202f", "")
        return "60 \u00d7 LM358" in text and re.search(r"present \d+ \u2192 \d+, .*on order \d+ \u2192 \d+", text), text
    t.check("a line says what was done and its effect on the books", said)

    def oldest():
        b.go(f"order/{r['so']}")
        told = b.js("[...document.querySelectorAll('main tbody tr')].filter(it => "
            "it.querySelector('input[inputmode=numeric]')?.checkVisibility())"
                    ".map(it => [it.innerText.match(/\\((\\w+)\\)/)?.[1], "
                        "it.querySelector('input[inputmode=numeric]').value])")
        return told == [["OLD", "5"], ["NEW", "15"]], told
    t.check("a sale's page allocates what is free, the oldest item first", oldest)

    def shipped():
        b.press("Allocate what is ticked")
        b.see("document.querySelector('main .said.good')?.innerText.includes('Allocated')")
        listed = "These leave the house" in b.text()
        b.press("Ship what is allocated")
        b.see("document.querySelector('main .said.good')?.innerText.includes('Shipped')")
        held = t.quantity(r["i_led2"])
        b.press("Close this order")
        b.see("document.querySelector('main .said.good')?.innerText.includes('is now')")
        return listed and held == 35 and t.state("orders",
            r["so"]) == 2 and b.js("location.hash") == f"#/order/{r['so']}"
    t.check("it ships and closes, without leaving the order", shipped)

    def item_back():
        b.go(f"item/{r['i_screw']}")
        b.press("Transfer")
        b.see("!!document.querySelector('form.card')")
        filled = b.js("[...document.querySelectorAll('main input')].find(it => it.inputMode === 'numeric').value")
        b.fill_in("Quantity", "10")
        b.fill_in("Location", "drawer", choose=True)
        b.press("Transfer", "main form")
        b.see(f"location.hash === '#/item/{r['i_screw']}'")
        text = b.js("document.querySelector('main .said.good').innerText").replace("\u202f", "")
        return int(filled) >= 980 and "Moved 10 \u00d7 Screw M3" in text, (filled, text)
    t.check("after an act on an item one is at the item again, with what was done; the form was filled in", item_back)

    def new_order():
        b.go("orders")
        b.press("New sale")
        b.see("!!document.querySelector('form.card')")
        b.fill_in("Partner", "Clicks & Sons")
        b.press("New order", "main form")
        b.see("location.hash.startsWith('#/order/')")
        order = int(b.js("location.hash").split("/")[-1])
        for part, quantity in (("led red", "1"), ("screw", "2")):
            b.fill_in("Part", part, choose=True)
            b.fill_in("Quantity", quantity)
            b.press("Add this line")
            b.see("document.querySelector('main .said.good')?.innerText.includes('Added " + quantity + "')")
        focused = b.js("document.activeElement.getAttribute('role')")
        b.press("Issue this order")
        b.see("document.querySelector('main .said.good')?.innerText.includes('Issued')")
        lines = [it for it in desk.table("order_lines") if int(it[1]) == order]
        return len(lines) == 2 and t.state("orders", order) == 1 and focused == "combobox", (lines, focused)
    t.check("a new sale leads to its own page, where lines are added one after another and it is issued", new_order)

    def many_lines():
        order = desk.do("order", side="purchase", partner="Long")[0]
        for n in range(150):
            desk.do("order_line", order=order, part=r["screw"], quantity=1 + n)
        desk.do("issue_order", order=order)
        b.go("stock")
        b.focus_window()
        b.go(f"order/{order}")
        drawn = b.count("main section:first-of-type tbody tr")
        b.mark()
        b.js("calm = 0; [...document.querySelectorAll('main button')].find(it => it.textContent === "
             "'Receive what is ticked').click()")
        b.see("document.querySelector('main .said.warn')?.innerText.includes('more rows')")
        none = not b.sent()
        for _ in range(4):
            b.js("calm = 0; [...document.querySelectorAll('main button')].find(it => it.textContent === "
                 "'Receive what is ticked' && !it.disabled)?.click()")
            time.sleep(0.2)
        b.see("document.querySelector('main .said.good')?.innerText.includes('Received')", 20)
        return drawn < 150 and none and len(b.sent()) == 150, (drawn, len(b.sent()))
    t.check("rows that weren't drawn yet aren't sent unseen", many_lines)

    def double():
        order = desk.do("order", side="sale", partner="Twice")[0]
        line = desk.do("order_line", order=order, part=r["screw"], quantity=1)
        desk.do("issue_order", order=order)
        desk.do("allocate_sale", line=line[0], item=r["i_screw"], quantity=1)
        b.focus_window()
        b.go(f"order/{order}")
        b.mark()
        b.settle()
        b.click("[...document.querySelectorAll('main button')].find(it => it.textContent === 'Ship what is "
            "allocated')", 2)
        b.see("document.querySelector('main .said.good')?.innerText.includes('Shipped')")
        time.sleep(0.5)
        return len(b.sent()) == 1, len(b.sent())
    t.check("a double click on a button that sends at once sends once", double)


# Forms, names and what is found

def check_forms(t):
    b, r, desk = t.b, t.r, t.desk

    def does():
        lacking = []
        for command in b.js("[...FORMS.keys()]"):
            b.js(f"location.hash = '#/do/{command}'")
            b.see(f"location.hash === '#/do/{command}' && !!document.querySelector('form.card')")
            text = b.js("document.querySelector('form.card').innerText")
            if not re.search(r"does: \S.{5,}\.", text):
                lacking.append(command)
        return not lacking, lacking
    t.check("each form says what it does", does)
    t.check("the words are those of docs/MACHINE.md", lambda: (b.go("do/cancel_order"),
        "It is cancelled, and its allocations go." in b.text())[1])

    def flags():
        b.go("do/add_part")
        told = b.js("[...document.querySelectorAll('form.card input[type=checkbox]')].map(it => "
            "it.closest('label').innerText)")
        text = b.text()
        return len(told) == 7 and all(len(it) > 25 for it in told) and "final" in text, told
    t.check("each flag has a sentence, and that they are final", flags)

    def near():
        told = []
        for name, wanted in (("r10K-0603", "Nearly the same name"), ("Screw  M3", "Nearly the same name"),
                             ("LM358", "is called just so"), ("Wholly new", "")):
            b.go("stock")
            b.go("do/add_part")
            b.fill_in("Name", name)
            alerts = b.js("[...document.querySelectorAll('form.card [role=alert]')].map(it => it.innerText).join()")
            told.append(wanted in alerts and bool(alerts) == bool(wanted))
        return all(told), told
    t.check("a new name that differs only in case, spaces or punctuation is warned of", near)

    def prefills():
        b.go("stock")
        b.go(f"do/receive?line={r['po_l1']}")
        told = b.js("[...document.querySelectorAll('form.card input')].slice(0, 3).map(it => it.value)")
        return told[1] and told[2] == str(100 - int(next(it for it in desk.table("order_lines")
            if int(it[0]) == r["po_l1"])[4])), told
    t.check("a form is filled in by what is chosen: the outstanding quantity, the usual location", prefills)

    def near_partner():
        b.go("stock")
        b.go("do/order?side=sale")
        b.fill_in("Partner", "ACME gmbh")
        return "Acme GmbH" in b.js("[...document.querySelectorAll('form.card [role=alert]')].map(it => "
            "it.innerText).join()")
    t.check("so is a partner", near_partner)

    def named():
        b.go("stock")
        b.go("do/order?side=purchase&back=orders")
        b.fill_in("Partner", "Named Ltd")
        b.fill_in("Name", "PO-2030/4")
        b.mark()
        b.press("New order", "main form")
        b.see("location.hash.startsWith('#/order/')")
        title, key = b.js(H1), b.sent()[0]["key"]
        b.go("orders")
        return key == "PO-2030/4" and "PO-2030/4" in title and "PO-2030/4" in b.text(), (key, title)
    t.check("an order is given a name on its form: its key; its page and the list show it", named)

    def build_named():
        b.go("stock")
        b.go(f"do/build?part={r['board']}&quantity=1&back=builds")
        b.fill_in("Name", "BOARDS-9")
        b.press("New build", "main form")
        b.see("location.hash.startsWith('#/build/')")
        b.go("builds")
        return "BOARDS-9" in b.text()
    t.check("so is a build", build_named)

    def taken():
        orders = len(desk.table("orders"))
        b.go("stock")
        b.go("do/order?side=purchase&partner=Mouser")
        b.fill_in("Name", "PO-17")
        b.mark()
        b.press("New order", "main form")
        b.see("document.querySelector('main .said')?.innerText.includes('taken')")
        return not b.sent() and len(desk.table("orders")) == orders
    t.check("a name that is taken isn't sent, as it would be answered like the old one", taken)
    t.check("names that other programs gave are shown", lambda: (b.go("orders?all=1"), "SO-3" in b.text()
        and "PO-17" in b.text())[1])

    def first_link(kind):
        return b.js(f"[...document.querySelectorAll('main h2')].find(it => it.textContent.startsWith('{kind}'))"
                    "?.parentElement.querySelector('tbody a')?.textContent")

    def find_name():
        told = []
        for word in ("PO-17", "po17", "PO 17"):
            b.go("find/" + word.replace(" ", "%20"))
            told.append("Mouser" in (first_link("Orders") or ""))
        b.go("find/robots")
        told.append("ROBOTS" in (first_link("Builds") or ""))
        return all(told), told
    t.check("Find finds an order by its name, however it is written", find_name)

    def forgiving():
        told = []
        for word, kind, wanted in (("r10k", "Parts", "R 10k 0603"), ("10 K", "Parts", "R 10k 0603"),
                                   ("usbc", "Parts", "Conn USB-C 2p"), ("shelfa", "Locations", "Lab / Shelf A"),
                                   (f"item {r['i_lm']}", "Items", "LM358"), ("build " + str(r["b2"]), "Builds",
                                       "build")):
            b.go("find/" + word.replace(" ", "%20"))
            told.append((first_link(kind) or "").startswith(wanted))
        return all(told), told
    t.check("Find is forgiving of case, spaces and punctuation, and takes 'item 25'", forgiving)

    def begins():
        b.go("find/shelf")
        heads = b.js("[...document.querySelectorAll('main h2')].map(it => it.textContent.split('s:')[0])")
        return heads[:2] == ["Location", "Part"] and first_link("Locations") == "Lab / Shelf A" and first_link(
            "Parts") == "Shelf pin", (heads, first_link("Locations"), first_link("Parts"))
    t.check("locations and parts that begin with the word stand first", begins)

    def slash():
        b.js("document.querySelector('#find input').value = 'old words'; document.querySelector('h1').focus()")
        b.key("/")
        return b.js("document.activeElement.name === 'text' && document.activeElement.value === ''")
    t.check("the key / clears the search and goes there", slash)
    b.js("document.querySelector('#find input').value = ''")

    def every_form():
        wrong = []
        for command in b.js("[...FORMS.keys()]"):
            b.go("stock")
            b.go(f"do/{command}")
            said = b.js(FILL) or ""
            b.rest()
            if not said.startswith(("Done", "Refused")) or re.search(r"\((Bad|Wrong|No)(Day|Word|Type|Field)", said):
                wrong.append((command, said[:60]))
        return not wrong, wrong or "each"
    t.check("each form still sends a line that the program reads", every_form)


# The phone

def check_phone(t):
    b, r = t.b, t.r
    b.phone()
    views = ["stock", "locations", f"location/{r['lab']}?deep=1", "orders", f"order/{r['po']}", "builds",
        f"build/{r['b2']}",
             f"sheet/{r['count']}", "recent", f"part/{r['lm']}", f"item/{r['i_r']}", f"do/receive?line={r['po_l1']}"]
    narrow, small = {}, {}
    for to in views:
        b.go(to)
        time.sleep(0.1)
        narrow[to] = b.js("""(() => {
          const wide = document.documentElement.scrollWidth;
          const cells = [...document.querySelectorAll('main tbody th')].filter(it => it.checkVisibility())
            .map(it => [it.clientWidth, it.textContent]);
          const letters = [...document.querySelectorAll('main tbody th, main tbody td')].filter(it =>
            it.checkVisibility() && it.textContent.trim().length > 5 && it.clientWidth < 60).map(it => it.textContent);
          return [wide, cells.filter(it => it[0] < 150 && it[1].length > 4).length + letters.length]; })()""")
        small[to] = b.js("""[...document.querySelectorAll('main button, main .button, main input:not([type=checkbox]),'
          + 'main select, main tbody th a, main tbody td a, nav#views a')].filter(it => it.checkVisibility())
          .map(it => [Math.round(it.getBoundingClientRect().height), it.textContent || it.ariaLabel])
          .filter(it => it[0] < 43).slice(0, 3)""")
    t.check("375 pixels wide: each view fits, and no name stands letter by letter", lambda: (
        all(wide <= 376 and not bad for wide, bad in narrow.values()), {to: it for to, it in narrow.items()
            if it[0] > 376 or it[1]}))
    t.check("on a phone what is touched is 44 pixels high", lambda: (
        not any(small.values()), {to: it for to, it in small.items() if it}))

    def cards():
        b.go("stock")
        return b.js("getComputedStyle(document.querySelector('main tbody tr')).display === 'block' && "
                    "getComputedStyle(document.querySelector('main tbody td'), "
                        "'::before').content.includes('Category')")
    t.check("a row is a card there, each value with its title", cards)

    t.check("the head leaves room: less than a quarter of the screen", lambda: (
        b.js("document.querySelector('header').getBoundingClientRect().height") < 180))
    b.phone(False)


# Lists, files and paper

def check_lists(t, folder):
    b, r, desk = t.b, t.r, t.desk

    def shopping():
        b.go("shopping")
        b.focus_window()
        open_builds = [int(it[0]) for it in desk.table("builds") if int(it[3]) < 3]
        wanted = {}
        for build in open_builds:
            for line in desk.ask("GET", f"/report/shortage/{build}")[2].splitlines():
                _, name, required, allocated, missing = line.split("\t")
                have = wanted.setdefault(name, [0, 0, 0])
                for at, it in enumerate((required, allocated, missing)):
                    have[at] += int(it)
        table = b.js("[...document.querySelector('main table').querySelectorAll('tbody tr')].map(it => "
                     "[...it.children].slice(0, 7).map(x => x.textContent.replaceAll('\\u202f', '')))")
        shown = {it[0]: [int(x) for x in it[1:4]] for it in table}
        buys = all(int(it[6]) == max(0, int(it[3]) - int(it[4]) - int(it[5])) for it in table)
        return shown == wanted and len(shown) > 2 and buys and any(int(it[6]) for it in table), (shown, wanted)
    t.check("a shopping list over all open builds: required, allocated, missing as the reports have it; to buy",
        shopping)
    t.check("low stock stands beside it: what is free is less than 1 of, and nothing else", lambda: (b.go("shopping"), (
        "Low stock" in b.text() and sorted(it[0].strip().removesuffix(" low") for it in b.rows(1)) == b.js(
            "[...stock.values()].filter(it => isLow(it.part)).map(it => it.part.name).sort()"), b.rows(1)))[1])

    csv_button = "[...document.querySelectorAll('main button')].find(it => it.textContent === 'CSV' && it.offsetParent)"

    def csv_file():
        b.go("stock")
        name, body = b.saved(folder, csv_button)
        rows = list(csv.reader(io.StringIO(body.decode("utf-8-sig"))))
        parts = [it[1] for it in desk.table("parts")]
        return rows[0][:3] == ["Part", "Category",
            "Present"] and len(rows) == len(parts) + 1 and name.endswith(".csv"), rows[:2]
    t.check("a table is saved as a file for a spreadsheet, all its rows", csv_file)

    def csv_safe():
        name, body = b.saved(folder, csv_button)
        text = body.decode("utf-8-sig")
        rows = list(csv.reader(io.StringIO(text)))
        return "'=HYPERLINK(1)" in [it[0] for it in rows] and XSS["part"] in [it[0].strip() for it in rows], [it[0]
            for it in rows]
    t.check("a cell that would be a formula has a ' before it; quotes are kept", csv_safe)

    def csv_of_work():
        order = desk.do("order", side="purchase", partner="Half typed")[0]
        desk.do("order_line", order=order, part=r["screw"], quantity=70)
        desk.do("issue_order", order=order)
        b.go("stock")
        b.focus_window()
        b.go(f"order/{order}")
        b.put(b.labelled("Quantity of Screw"), "33")
        _, body = b.saved(folder, csv_button)
        b.mark()
        b.press("Receive what is ticked")
        b.see("document.querySelector('main .said.good')?.innerText.includes('Received')")
        return [it["quantity"] for it in b.sent()] == [33] and "33" in body.decode("utf-8-sig"), body
    t.check("a file of a table that is being filled in has what was typed, and leaves it as it is", csv_of_work)

    def each_table():
        lacking = []
        for to in ("stock", "orders", "builds", "recent", "shopping", "low", f"location/{r['lab']}?deep=1",
            f"order/{r['po']}",
                   f"build/{r['b2']}", f"part/{r['lm']}", "find/r"):
            b.go(to)
            more = b.js("[...document.querySelectorAll('main table')].filter(it => it.offsetParent && !['CSV', "
                "'Print this']"
                        ".every(word => [...it.closest('.table')?.querySelectorAll('button') ?? []].some(x => "
                            "x.textContent === word))).length")
            if more or not b.count("main table"):
                lacking.append(to)
        return not lacking, lacking
    t.check("each table has a button for the file and one for paper", each_table)

    def printed():
        b.go(f"build/{r['b2']}")
        b.js("window.print = () => { window.printedText = [...document.querySelectorAll('main *')].filter(it => "
             "it.closest('.unprinted')).length; window.shown = [...document.querySelectorAll('main table')]"
             ".filter(it => !it.closest('.unprinted')).length; dispatchEvent(new Event('afterprint')); }")
        b.click("[...document.querySelectorAll('main button')].find(it => it.textContent === 'Print this' && "
            "it.offsetParent)")
        return b.js("window.shown") == 1 and b.js("window.printedText") > 5 and not b.count(".unprinted")
    t.check("a table can be printed alone", printed)


# What mends a mistake, and what happened

def check_mends(t):
    b, r, desk = t.b, t.r, t.desk
    title = "When something went wrong"

    def item():
        b.go(f"item/{r['i_r']}")
        b.press(title)
        text = b.text()
        return all(it in text for it in ("Took too much out", "Received or found too much",
            "It lies somewhere else")), text
    t.check("an item has what mends a mistake, in a clerk's words", item)

    def put_back():
        before = t.quantity(r["i_r"])
        b.press("Put some back")
        b.see("!!document.querySelector('form.card')")
        b.fill_in("Quantity", "4")
        b.press("Add to an item", "main form")
        b.see(f"location.hash === '#/item/{r['i_r']}'")
        return t.quantity(r["i_r"]) == before + 4
    t.check("took too much out: some is put back, and one is at the item", put_back)

    def serial():
        motor = next(int(it[0]) for it in desk.table("items") if it[3] == "M8")
        b.go(f"item/{motor}")
        b.press(title)
        b.press("First take it off the books")
        b.see("!!document.querySelector('form.card')")
        b.press("Take out", "main form")
        b.see(f"location.hash === '#/item/{motor}'")
        off = t.row("items", motor)[6] == "5"
        b.press(title)
        return off and "by mistake" in b.text() and "Bring it back" in b.text()
    t.check("wrong serial: it is taken off, and can be brought back", serial)

    def order():
        b.go(f"order/{r['po']}")
        b.press(title)
        text = b.text()
        return all(it in text for it in ("Received too much", "The partner or a line is wrong",
            "wrong serial")), text[-400:]
    t.check("an order has what mends received too much, a wrong serial, a wrong partner", order)

    def partner():
        orders = len(desk.table("orders"))
        old = desk.do("order", side="purchase", partner="Wrong GmbH")[0]
        desk.do("order_line", order=old, part=r["screw"], quantity=70)
        desk.do("issue_order", order=old)
        b.focus_window()
        b.go(f"order/{old}")
        b.press(title)
        b.put(b.labelled("Right partner"), "Right GmbH")
        b.press("Make it anew, and cancel this one")
        b.see("document.querySelector('main .said.good')?.innerText.includes('Made anew')")
        new = desk.table("orders")[-1]
        line = [it for it in desk.table("order_lines") if it[1] == new[0]]
        return (len(desk.table("orders")) == orders + 2 and new[2] == "Right GmbH" and new[3] == "1"
            and t.state("orders", old) == 3
                and line[0][3] == "70" and b.js("location.hash") == f"#/order/{new[0]}"), (new, line)
    t.check("wrong partner: the order is made anew with its lines, and the wrong one cancelled", partner)

    def build():
        b.go(f"build/{r['b2']}")
        b.press(title)
        return "quantity is wrong" in b.text() and "a new build" in b.text()
    t.check("a build has what mends it", build)

    def recent():
        b.go("recent?from=2030-04-01&to=2030-04-01")
        rows = b.js("[...document.querySelectorAll('main tbody tr')].map(it => it.innerText.replace(/\\s+/g, ' '))")
        return any(re.search(r"2030-04-01 (received|found|built) \d+ \u00d7 .+ at Lab", it) for it in rows), rows[:3]
    t.check("what happened is told in words, with its day", recent)

    def by_part():
        b.go("recent")
        b.put("document.getElementById('part')", "shelfpin")
        b.see("location.hash.includes('part=shelfpin')")
        b.rest()
        none = b.count("main tbody tr")
        b.put("document.getElementById('part')", "conn usb")
        time.sleep(0.5)
        b.rest()
        rows = b.js("[...document.querySelectorAll('main tbody tr')].map(it => it.innerText)")
        return none == 0 and len(rows) >= 2 and all("Conn USB-C" in it
            for it in rows) and "part=conn" in b.js("location.hash"), len(rows)
    t.check("it is filtered by part", by_part)

    def by_day():
        b.go("recent?from=2030-04-01&to=2030-04-01")
        some = b.count("main tbody tr")
        days = set(b.js("[...document.querySelectorAll('main tbody tr')].map(it => "
            "it.innerText.match(/\\d{4}-\\d\\d-\\d\\d/)[0])"))
        b.go("recent?from=2031-01-01")
        return some > 5 and days == {"2030-04-01"} and b.count("main tbody tr") == 0, (some, days)
    t.check("and by day", by_day)


# What is the same in every view

def check_names(t):
    b, r, desk = t.b, t.r, t.desk
    page = make_page.page()
    t.check("no markup is made of data, no inline handler, nothing from elsewhere", lambda: not re.search(
        r"innerHTML|outerHTML|insertAdjacent|document\.write|\beval\(|new Function|srcdoc|https?://|\bsrc=|@import|"
        r"url\(|import\(|<[^>]+ on\w+=", page))

    def policy():
        told = b.js("(async () => { const it = await fetch('/'); return [...it.headers].map(it => it.join(': ')); })()")
        policy = next(it for it in told if it.startswith("content-security-policy"))
        return all(it in policy for it in ("default-src 'none'", "require-trusted-types-for 'script'",
            "form-action 'none'",
                                           "frame-ancestors 'none'")) and "unsafe" not in policy
    t.check("the policy is as strict as it was", policy)
    views = ["stock", "stock?q=img", "low", "locations", f"location/{r['xlocation']}?deep=1", "orders?all=1",
        "builds?all=1", "recent", "do",
             f"order/{r['xpo']}", f"build/{r['bx']}", f"item/{r['i_x']}", f"part/{r['xpart']}",
                 f"sheet/{r['xlocation']}",
             "find/img", "find/svg", "find/hit", f"do/receive?line={r['xpo_l']}", f"do/remove?item={r['i_x']}",
             "shopping", f"order/{r['xpo']}?x=1"]

    def harmless():
        bad, seen = [], ""
        for to in views:
            b.go(to)
            seen += b.js("document.body.textContent + [...document.querySelectorAll('input')].map(it => "
                "it.value).join(' ')")
            if b.js("window.hit !== undefined || !!document.querySelector('main img, main script, main iframe, main "
                "svg, main [onclick], "
                    "main [onmouseover], main [onload], main [onerror]')"):
                bad.append(to)
        return not bad and all(it in seen for it in XSS.values()), bad or [it for it in XSS.values() if it not in seen]
    t.check("names that look like markup are text in every view", harmless)

    def hostile_acts():
        b.go(f"order/{r['xpo']}")
        b.put(b.labelled("Quantity of"), "2")
        b.press("Receive what is ticked")
        b.see("document.querySelector('main .said.good')?.innerText.includes('Received')")
        said = b.js("document.querySelector('main .said.good').textContent")
        b.go(f"sheet/{r['xlocation']}")
        b.put("document.querySelector('main tbody input')", "6")
        b.press("Look at what will change")
        b.see("document.querySelector('main').innerText.includes('Nothing is sent yet')")
        b.press("Send these 1 counts")
        b.see("document.querySelector('.said')?.innerText.startsWith('Counted: 1')")
        return XSS["part"] in said and b.js("window.hit === undefined && !document.querySelector('main img, main "
            "iframe, main svg')")
    t.check("and in what is said after an act, and in a summary", hostile_acts)

    def near_hostile():
        b.go("stock")
        b.go("do/add_part")
        b.fill_in("Name", XSS["part"].upper())
        warned = XSS["part"] in b.js("document.querySelector('form.card').textContent")
        b.go("do/order?side=sale")
        b.fill_in("Name", XSS["key"])
        return warned and "called just so" in b.text() and b.js("window.hit === undefined && "
            "!document.querySelector('main img, main i[onmouseover]')")
    t.check("and in a warning of a name", near_hostile)

    def keys():
        b.go("stock")
        b.go(f"do/found?part={r['screw']}&location={r['lab']}&quantity=1")
        _, sent = b.lose(1)
        said = b.submit()
        return "sent 2 times" in said and len({json.loads(it)["key"] for it in sent}) == 1, said
    t.check("an answer that is lost: sent twice under one key, done once", keys)

    def keyboard():
        b.go("stock")
        b.js("document.querySelector('#views a').focus()")
        seen = ["Stock"]
        for _ in range(14):
            b.key("Tab")
            seen.append(b.js("(it => it.textContent || it.id || it.name)(document.activeElement)")[:14].strip())
        return "Stock Low" in " ".join(seen) and "text day" in " ".join(seen) and not b.nameless(), ", ".join(seen)
    t.check("Tab goes through the controls from the top, and each has a name", keyboard)
    for mode in ("light", "dark"):
        def contrast(mode=mode):
            b.call("Emulation.setEmulatedMedia", features=[{"name": "prefers-color-scheme", "value": mode}])
            worst = [99, ""]
            for to in ("stock", f"order/{r['po']}", f"build/{r['b2']}?end=1", f"item/{r['i_r']}",
                f"sheet/{r['count']}", "recent", "shopping", "files", f"batch/{r['c100n']}?text=L22",
                       "do/add_part", "find/screv"):
                b.go(to)
                time.sleep(0.1)
                worst = min(worst, b.js(CONTRAST))
            return worst[0] >= 4.5, f"{worst[0]:.2f} {worst[1]}"
        t.check(f"{mode}: each text has a contrast of at least 4.5", contrast)
    b.call("Emulation.setEmulatedMedia", media="print", features=[])

    def paper():
        b.go(f"order/{r['po']}")
        return b.js("['header', '.acts'].every(it => getComputedStyle(document.querySelector(it)).display === 'none')")
    t.check("print leaves out what can only be clicked", paper)
    b.call("Emulation.setEmulatedMedia", media="", features=[])
    t.check("each line that the page sent has a key", lambda: (b.lines and not b.keyless(), b.keyless()[:2]))
    told = [it for it in map(json.dumps, b.logged) if not TOLD.search(it)]
    t.check("no fault and no breach of the policy was logged", lambda: (not told, told[:1]))


def check_token(c, program, folder):
    path = folder / "token"
    path.write_text(TOKEN + "\n")
    path.chmod(0o600)
    with contextlib.closing(Desk(program, str(folder / "kept.db"), "--token", str(path))) as desk:
        with contextlib.closing(Clerk(CHROMIUM)) as b:
            b.open(f"{desk.url}#token={TOKEN}")
            b.wait(f"{H1} === 'Stock'")
            taken = TOKEN not in b.js("location.href") and TOKEN not in b.js("JSON.stringify(sessionStorage) + "
                "JSON.stringify(localStorage)")
            b.call("Page.reload")
            b.wait("!!document.getElementById('token')")
            b.click("document.getElementById('token')")
            b.type(TOKEN)
            b.key("Enter")
            c.say("the token is taken from the address, kept nowhere, and asked for anew", taken and
                  b.wait(f"{H1} === 'Stock'"))
            b.go("list/stock")
            listed = b.count("main .table")
            b.go("lists")
            called, body = b.saved(folder, "[...document.querySelectorAll('main button')].find(it => it.textContent "
                                   "=== 'Save a dump')", "sql")
            c.say("with a token a list is shown and a dump is saved", listed == 1 and body.endswith(b"COMMIT;\n"),
                  called)


def check_speed(c, program, folder):
    """20,000 items: what a view takes from the change of the address to its being drawn."""
    from made_workshop import workshop as many
    lines, rows = many(20_000)
    path = str(folder / "many.db")
    told = run(program, "run", "--db", path, lines="\n".join(lines))
    expect(told.returncode == 0, "the workshop of 20,000 items can't be made")
    with contextlib.closing(Desk(program, path)) as desk, contextlib.closing(Clerk(CHROMIUM)) as b:
        b.open(desk.url)
        b.wait("document.getElementById('status')?.textContent.startsWith('Read in')", 60)
        opened = b.js("document.getElementById('status').textContent")
        b.rest()
        time.sleep(1.5)
        again = b.js("(async () => { const a = performance.now(); tag = null; await refresh(); return "
            "Math.round(performance.now() - a); })()")
        same = b.js("(async () => { const a = performance.now(); await refresh(); return "
            "Math.round(performance.now() - a); })()")
        views = ["stock", "low", "locations", f"location/{rows['room']}?deep=1", "builds", "orders",
            f"order/{rows['purchase']}",
                 f"build/{rows['build']}", f"part/{rows['hinge']}", f"item/{rows['motor']}",
                     f"sheet/{rows['room']}?deep=1", "recent", "find/motor",
                 "do/transfer", "shopping", "lists", "list/stock", f"list/at?location={rows['room']}"]
        took = {}
        for to in views:
            times = []
            while len(times) < 3 or len(times) < 8 and min(it[0] for it in times) >= 50:   # others are busy here too
                b.go("find/nothing%20at%20all")
                time.sleep(0.3)
                times.append(b.js(f"""(async () => {{ const a = performance.now(); location.hash = '#/{to}';
                  await new Promise(go => addEventListener('hashchange', go, {{ once: true }}));
                  const shown = performance.now() - a;
                  await new Promise(go => requestAnimationFrame(() => setTimeout(go)));
                  return [shown, performance.now() - a]; }})()"""))
                b.rest()
            took[to.split("?")[0].split("/")[0] + ("/deep" if "deep" in to else "")] = [round(min(it[n]
                for it in times)) for n in (0, 1)]
        slow = {to: it for to, it in took.items() if it[0] >= 50}
        c.say("20,000 items: each view is made in less than 50 ms", not slow, slow or "")
        print("      times [made, drawn] in ms:", json.dumps(took))
        print(f"      {opened} read anew {again} ms, unchanged {same} ms; {len(desk.ask('GET', '/books')[2]):,} "
            f"bytes of books")
        box = "document.querySelector('main input[role=combobox]')"
        b.go("do/transfer")
        b.js("longest = 0")
        b.click(box)
        b.type("b02")
        time.sleep(0.3)
        c.say("a list over 20,000 items answers as one types", b.longest() < 200, f"{b.longest()} ms")
        b.go(f"sheet/{rows['room']}?deep=1")
        c.say("a sheet of thousands of rows is drawn in slices", 0 < b.count("main tbody tr") <= 160,
            b.count("main tbody tr"))


def take_pictures(t, folder):
    b, r = t.b, t.r

    def shot(name):
        time.sleep(0.2)
        b.picture(folder / f"{name}.png")
    b.js("sessionStorage.clear()")
    order = t.desk.do("order", side="purchase", partner="Mouser", key="PO-18")[0]
    for part, quantity in (("lm", 100), ("conn", 500), ("motor", 2)):
        t.desk.do("order_line", order=order, part=r[part], quantity=quantity)
    t.desk.do("issue_order", order=order)
    build = t.desk.do("build", part=r["board"], quantity=5, key="BOARDS-10")[0]
    t.desk.do("issue_build", build=build)
    t.desk.do("auto_allocate", build=build)
    output = t.desk.do("outputs", build=build, quantity=4)[0]
    t.desk.do("complete_output", output=output, location=r["lab"])
    b.focus_window()
    b.go(f"order/{order}")
    shot("01-order-receive")
    b.put(b.labelled("Serials of Motor"), "M21,M22")
    b.press("Receive what is ticked")
    b.see("document.querySelector('main .said.good')?.innerText.includes('Received')")
    shot("02-order-received")
    b.go(f"sheet/{r['count']}")
    for n, text in enumerate(("98", "", "25", "40", "12")):
        if text:
            b.put(f"[...document.querySelectorAll('main tbody input')][{n}]", text)
    t.desk.do("remove", item=r["counted"][2], quantity=2)
    b.focus_window()
    shot("03-sheet")
    b.press("Look at what will change")
    b.see("document.querySelector('main').innerText.includes('Nothing is sent yet')")
    shot("04-sheet-summary")
    b.js("sessionStorage.clear()")
    b.go(f"build/{build}?end=1")
    b.js("document.querySelector('details.panel[open]').scrollIntoView()")
    shot("05-build-use-up-and-end")
    b.go("shopping")
    shot("06-shopping")
    b.go(f"item/{r['i_r']}")
    b.press("When something went wrong")
    shot("07-item-went-wrong")
    b.go("do/add_part")
    b.fill_in("Name", "r10K-0603")
    shot("08-add-part")
    b.phone()
    b.go("stock")
    shot("09-phone-stock")
    b.go(f"sheet/{r['count']}")
    shot("10-phone-sheet")
    b.go(f"order/{r['xpo']}")
    b.js("scrollTo(0, 300)")
    shot("11-phone-order")
    b.phone(False)
    b.call("Emulation.setEmulatedMedia", features=[{"name": "prefers-color-scheme", "value": "dark"}])
    b.go(f"build/{build}")
    shot("12-dark-build")
    b.call("Emulation.setEmulatedMedia", media="", features=[])


def main():
    words = words_of(__doc__)
    words.add_argument("--pictures", type=pathlib.Path)
    words.add_argument("--only", default="")
    given = given_by(words)
    expect(CHROMIUM, "Chromium isn't here: apt-get install -y chromium")
    c = Checks()
    groups = {"sheet": check_sheet, "builds": check_builds, "time": check_time, "clicks": check_clicks,
        "mends": check_mends,
              "lists": check_lists, "phone": check_phone, "forms": check_forms, "names": check_names}
    only = given.only.split(",") if given.only else [*groups, "token", "speed"]
    with tempfile.TemporaryDirectory() as top:
        folder = pathlib.Path(top)
        with contextlib.closing(Desk(given.program, str(folder / "w.db"))) as desk:
            rows = workshop(desk.do)
            with contextlib.closing(Clerk(CHROMIUM)) as b:
                b.open("about:blank")
                b.call("Page.addScriptToEvaluateOnNewDocument", source=CLOCK)
                b.call("Page.navigate", url=desk.url)
                time.sleep(0.3)
                b.rest()
                t = Trial(c, desk, desk.url, rows, b)
                for name, group in groups.items():
                    if name in only:
                        print(f"--- {name}", flush=True)
                        group(t, *([folder] if name == "lists" else []))
                if given.pictures:
                    given.pictures.mkdir(exist_ok=True)
                    take_pictures(t, given.pictures)
        if "token" in only:
            check_token(c, given.program, folder)
        if "speed" in only:
            check_speed(c, given.program, folder)
    print(f"check_clerk: {c.count} checks, {c.failed} failed")
    sys.exit(c.failed > 0)


if __name__ == "__main__":
    main()
