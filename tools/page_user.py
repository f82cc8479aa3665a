"""The page as its user has it: served by the program, opened in Chromium, looked at and used."""
import json
import pathlib
import shutil
import urllib.parse

import page_proxy
from browser import Chromium
from made_workshop import DAY
from shared import ask, reader_of_words, serve

H1, SENDER = "document.querySelector('h1')?.textContent", "document.querySelector('form.card button.main')"
IS_AT_REST = "typeof reading !== 'undefined' && find && !reading && !document.querySelector('[aria-busy=true]')"
# The roles of what has to have a name for who can't see it.
NAMED = set("button link textbox searchbox combobox checkbox spinbutton listbox option navigation image img Date form"
            " table".split())
# Chromium, where it is.
CHROMIUM = next(filter(None, map(shutil.which, ("chromium", "chromium-browser", "google-chrome"))), None)
# The worst contrast of a text on its ground.
CONTRAST = r"""(() => {
  const light = text => {
    const [r, g, b] = text.match(/[\d.]+/g).map(Number).map(it => it / 255)
      .map(it => it <= 0.03928 ? it / 12.92 : ((it + 0.055) / 1.055) ** 2.4);
    return 0.2126 * r + 0.7152 * g + 0.0722 * b;
  };
  const ground = element => {
    for (let it = element; it; it = it.parentElement) {
      const color = getComputedStyle(it).backgroundColor;
      if (!/, 0\)$/.test(color)) return color;
    }
    return 'rgb(255, 255, 255)';
  };
  let worst = [99, ''];
  for (const it of document.querySelectorAll('body *')) {
    const isText = [...it.childNodes].some(inner => inner.nodeType === 3 && inner.data.trim());
    if (!isText || !it.offsetParent || it.closest('[disabled], noscript')) continue;
    const [a, b] = [light(getComputedStyle(it).color), light(ground(it))].sort((x, y) => x - y);
    if ((b + 0.05) / (a + 0.05) < worst[0])
      worst = [(b + 0.05) / (a + 0.05), `${it.tagName} ${it.className} ${it.textContent.slice(0, 30)}`];
  }
  return worst;
})()"""
# Fills the form with what it offers first, sends it, and gives what is said then.
FILL = r"""(async () => {
  for (const field of document.querySelectorAll('main .field')) {
    const box = field.querySelector('input, select');
    if (box.getAttribute('role') === 'combobox') {
      const key = name => box.dispatchEvent(new KeyboardEvent('keydown', { key: name, cancelable: true }));
      box.click();
      if (!box.hasAttribute('aria-activedescendant')) key('ArrowDown');
      key('Enter');
    } else if (box.type === 'checkbox') box.checked = ['on', 'component', 'template'].includes(box.value);
    else if (box.inputMode === 'numeric') box.value = '1';
    else if (box.tagName === 'INPUT' && (box.required || field.textContent.startsWith('Batch')))
      box.value = 'Z' + Math.floor(Math.random() * 1e9);
  }
  const form = document.querySelector('form.card');
  if (!form.checkValidity()) return 'invalid: ' + [...form.querySelectorAll(':invalid')].map(it => it.id);
  await new Promise(go => setTimeout(go, Math.max(0, calm - performance.now() + 20)));
  form.requestSubmit();
  for (let n = 0; n < 400 && !document.querySelector('.said'); n++) await new Promise(go => setTimeout(go, 25));
  return document.querySelector('.said')?.textContent;
})()"""
LEDGER = r"""(() => {
  const stacks = [...document.querySelectorAll('#ledger .stack')].map(it => [...it.children]);
  const plain = text => text.replaceAll('\u202f', '');
  return { text: plain(document.querySelector('#ledger figcaption').textContent),
    wide: stacks.map(it => Math.round(it.at(-1).getBoundingClientRect().right - it[0].getBoundingClientRect().left)),
    pieces: stacks.map(it => it.map(inner => plain(inner.textContent))) };
})()"""


def words_of(text):
    """The words of a script that looks at the page, which may look at a draft of it."""
    words = reader_of_words(text)
    words.add_argument("--draft", action="store_true", help="show the page of the files of page/ before the program")
    return words


def given_by(words):
    given = words.parse_args()
    Desk.is_draft = given.draft
    return given


class Desk:
    """The program, serving the page of a file."""

    is_draft = False   # whether the page is that of the files, and not the program's

    def __init__(self, program, path, *words):
        self.program, self.path, self.words, self.own_port, self.proxy = program, path, words, None, None
        self.start()

    def start(self, path=None, **more):
        """Starts the program, at its port where it had one before; with another file if one is named."""
        self.path = path or self.path
        words = [self.program, "--db", self.path, "--page", *self.words]
        self.process, self.own_port = serve(*words, stderr=None, port=self.own_port, **more)
        if self.is_draft and not self.proxy:
            self.proxy = page_proxy.start(self.own_port, self.token())
        self.port = self.proxy.server_port if self.proxy else self.own_port
        self.url = f"http://127.0.0.1:{self.port}/"

    def token(self):
        """The token that is asked for, if one is."""
        if "--token" not in self.words:
            return None
        return pathlib.Path(self.words[self.words.index("--token") + 1]).read_bytes().split(b"\n")[0]

    def ask(self, method, path, body=None, **fields):
        fields = {name.replace("_", "-"): value for name, value in fields.items()}
        status, headers, text = ask(self.port, method, path, body, **fields)
        return status, headers, text.decode()

    def do(self, command, **fields):
        """The numbers that a command draws."""
        line = json.dumps({"day": DAY, "do": command, **fields})
        return json.loads(self.ask("POST", "/run", line)[2])["ids"]

    def table(self, name):
        return json.loads(self.ask("GET", "/books")[2])[name]

    def entries(self):
        return int(self.table("meta")[0][3])

    def kill(self):
        """Ends it as a power cut would."""
        self.process.kill()
        self.process.wait()

    def close(self):
        self.process.terminate()
        self.process.wait()


def lines_in(request):
    """The lines that a request of the page sends."""
    path, body = urllib.parse.urlsplit(request["url"]).path, request.get("postData", "")
    return [body] if path == "/run" else body.splitlines() if path == "/lines" else []


class Page(Chromium):
    """The page in Chromium. All lines that it sends are kept."""

    def __init__(self, program, *words):
        super().__init__(program, *words)
        self.lines = []

    def take(self, event, params):
        if event == "Network.requestWillBeSent":
            self.lines += lines_in(params["request"])
        super().take(event, params)

    def keyless(self):
        """The lines that were sent without a key."""
        return [it for it in self.lines if not (it and json.loads(it).get("key"))]

    def go(self, to):
        self.js(f"location.hash = '#/{to}'")
        self.rest()

    def rest(self):
        """Waits until nothing is being read."""
        self.wait(IS_AT_REST, 60)

    def settle(self):
        """Waits until a form may be sent."""
        self.wait("typeof calm === 'undefined' || performance.now() > calm")

    def key(self, name):
        if name == "Enter":
            self.settle()
        super().key(name)

    def click(self, element, times=1):
        self.settle()
        super().click(element, times)

    def count(self, selector):
        return self.js(f"document.querySelectorAll({selector!r}).length")

    def cells(self, at, section="main"):
        """What stands in one column of the tables."""
        rows = f"[...document.querySelectorAll({section + ' tbody tr'!r})]"
        return self.js(f"{rows}.map(it => it.children[{at}].textContent.replaceAll('\\u202f', ''))")

    def longest(self):
        """How long the longest task was, in milliseconds, since it was set to 0."""
        return round(self.js("longest"))

    def choose(self, label, words):
        """Chooses a row by words of its name."""
        self.fill(label, words)
        self.wait(f"{field(label)}.getAttribute('aria-expanded') === 'true'")
        self.key("Enter")

    def fill(self, label, text):
        self.click(field(label))
        self.js(f"{field(label)}.select()")
        self.type(text)

    def submit(self):
        """Sends the form by the keyboard, and gives what is said then."""
        self.js("document.querySelector('.said')?.remove()")
        self.js(f"{SENDER}.focus()")
        self.key("Enter")
        said = self.wait("document.querySelector('.said')?.textContent")
        self.rest()
        return said

    def shown_ledger(self, part):
        self.go(f"part/{part}")
        return self.js(LEDGER)

    def lose(self, times):
        """Loses the next so many answers of /run on their way: how many are left to be lost, and the lines that are
        sent."""
        lost, sent = {"left": times}, []

        def paused(params):
            sent.append(params["request"]["postData"])
            if lost["left"]:
                lost["left"] -= 1
                self.post("Fetch.failRequest", requestId=params["requestId"], errorReason="ConnectionReset")
            else:
                self.post("Fetch.continueRequest", requestId=params["requestId"])
        self.intercept(paused, "*/run", "Response")
        return lost, sent

    def intercept(self, hook, urls, stage="Request"):
        self.hooks["Fetch.requestPaused"] = hook
        self.call("Fetch.enable", patterns=[{"urlPattern": urls, "requestStage": stage}])

    def stop_intercepting(self):
        self.call("Fetch.disable")
        self.hooks.clear()

    def nameless(self):
        """The roles of the controls that have no name for who can't see them."""
        nodes = [it for it in self.call("Accessibility.getFullAXTree")["nodes"] if not it.get("ignored")]
        told = [(it.get("role", {}).get("value"), it.get("name", {}).get("value")) for it in nodes]
        return [role for role, name in told if role in NAMED and not name]


def field(label):
    return ("document.getElementById([...document.querySelectorAll('main label')]"
            f".find(it => it.textContent.startsWith('{label}')).htmlFor)")


def button(text):
    return f"[...document.querySelectorAll('main button, main a.button')].find(it => it.textContent === '{text}')"
