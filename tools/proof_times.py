"""Where the time of the gate goes: what each crate's proof, its tests and its wrong bodies took, read off the processes
that 'rt ci' starts, and what each waited for; as a table, and as a graph."""
import collections
import json
import os
import pathlib
import threading
import time

from shared import TOP

KEPT = TOP / ".git" / "gate-times.json"
TICKS = os.sysconf("SC_CLK_TCK")
# What 'rt ci' does with a crate, in the order in which it comes.
KINDS = ("proof", "tests", "wrong bodies")
# A step that begins within so many seconds of the end of another one waited for that.
AT_ONCE = 15


def listed():
    """The crates of the repository, each with the libraries that it uses, as crates.txt lists them."""
    lines = [line.split("#")[0].split(":") for line in (TOP / "crates.txt").read_text().splitlines() if ":" in line]
    return {line[0].split()[0]: line[1].split() for line in lines}


def dependencies():
    """The crates of the repository, each with those that it stands on."""
    named = listed()
    return {name: [it for it in below if it in named] for name, below in named.items()}


def seen_processes():
    """The processes that prove a crate now: their numbers, the crate, what is done with it, and the seconds of a
    processor that they have taken, each without its children, which are told, too."""
    for folder in pathlib.Path("/proc").glob("[0-9]*"):
        try:
            words = (folder / "cmdline").read_bytes().decode(errors="replace").split("\0")
            if not words[0].endswith("/rattle") or "--crate-name" not in words:
                continue
            where = os.readlink(folder / "cwd")
            fields = (folder / "stat").read_text().rpartition(")")[2].split()
        except OSError:
            continue
        kind = "wrong bodies" if "rt-edits-" in where + " ".join(words) else "tests" if "--test" in words else "proof"
        yield int(folder.name), words[words.index("--crate-name") + 1], kind, sum(map(int, fields[11:13])) / TICKS


class Watch(threading.Thread):
    """Looks each second at what is being proved, until it is told to stop."""

    def __init__(self):
        super().__init__(daemon=True)
        self.begun, self.steps, self.is_over = time.monotonic(), {}, threading.Event()

    def run(self):
        while not self.is_over.wait(1):
            now = time.monotonic() - self.begun
            for process, crate, kind, seconds in seen_processes():
                step = self.steps.setdefault((crate, kind), {"began": now, "processor": {}})
                step["ended"], step["processor"][process] = now, seconds

    def stop(self):
        """What was seen, a record for each step."""
        self.is_over.set()
        self.join()
        return [{"crate": crate, "kind": kind, "began": round(it["began"]), "ended": round(it["ended"]),
                 "processor": round(sum(it["processor"].values()))} for (crate, kind), it in self.steps.items()]


def waited_for(steps):
    """What each step waited for: the step that has to come before it and ended last, or a processor."""
    ended, below, told = {(it["crate"], it["kind"]): it["ended"] for it in steps}, dependencies(), {}
    for it in steps:
        crate, kind = it["crate"], it["kind"]
        before = [(name, "proof") for name in below.get(crate, [])]
        if kind == "wrong bodies":
            before = [(crate, "proof"), (crate, "tests")]
        last = max((it for it in before if it in ended), key=ended.get, default=None)
        is_at_once = it["began"] - ended.get(last, 0) <= AT_ONCE
        told[crate, kind] = last if is_at_once else ("a processor", "")
    return told


def table_of(steps):
    """The steps as lines of text, in the order in which they began."""
    told = waited_for(steps)
    yield f"{'crate':16} {'what':12} {'began':>6} {'ended':>6} {'clock':>6} {'processor':>9}  waited for"
    for it in sorted(steps, key=lambda it: it["began"]):
        why = told[it["crate"], it["kind"]]
        why = "" if why is None else why[0] + (f", {why[1]}" if why[1] not in ("", "proof") else "")
        yield (f"{it['crate']:16} {it['kind']:12} {it['began']:6} {it['ended']:6} {it['ended'] - it['began']:6} "
               f"{it['processor']:9}  {why}")
    sums = collections.Counter()
    for it in steps:
        sums[it["kind"]] += it["processor"]
    yield "seconds; of a processor: " + ", ".join(f"{kind} {sums[kind]:,}" for kind in KINDS if sums[kind])
    yield f"the longest chain: {' > '.join(chain_of(steps))}"


def chain_of(steps):
    """The step that ended last, behind what it waited for, and so on."""
    if not steps:
        return []
    told, last = waited_for(steps), max(steps, key=lambda it: it["ended"])
    at, chain = (last["crate"], last["kind"]), []
    while at in told and at not in chain:
        chain.append(at)
        at = told[at]
    return [crate + ("" if kind == "proof" else f" ({kind})") for crate, kind in reversed(chain)]


def graph_of(steps):
    """The steps as bars over time, as a picture (SVG): those of the longest chain are dark."""
    steps = sorted(steps, key=lambda it: it["began"])
    whole, chain = max(it["ended"] for it in steps), chain_of(steps)
    yield f'<svg xmlns="http://www.w3.org/2000/svg" width="1160" height="{len(steps) * 16 + 30}" font-size="11">'
    yield '<style>text { font-family: sans-serif } .chain { fill: #0b5394 } .else { fill: #a9c4e4 }</style>'
    for at, it in enumerate(steps):
        name = it["crate"] + ("" if it["kind"] == "proof" else f" ({it['kind']})")
        left, wide = 220 + 900 * it["began"] / whole, max(1, 900 * (it["ended"] - it["began"]) / whole)
        look = "chain" if name in chain else "else"
        yield f'<text x="4" y="{at * 16 + 12}">{name}</text>'
        yield f'<rect class="{look}" x="{left:.0f}" y="{at * 16 + 2}" width="{wide:.0f}" height="12"/>'
    for minute in range(0, whole // 60 + 1, 15):
        yield f'<text x="{220 + 900 * minute * 60 / whole:.0f}" y="{len(steps) * 16 + 22}">{minute} min</text>'
    yield "</svg>"


def keep(steps):
    """Keeps what was seen beside the repository's history, where there is one, for 'gate.py --table'."""
    if KEPT.parent.is_dir():
        KEPT.write_text(json.dumps(steps))


def kept():
    """What the last gate saw; none where none ran here."""
    return json.loads(KEPT.read_text()) if KEPT.exists() else []
