"""Makes up the requests of a workshop in which much is to be recalled: batches that come in, that builds use up in what
goes into other builds, and that go out to customers and come back."""
from machine.made_up import Maker

OFTEN = {
    "receive": 14, "order": 5, "order_line": 9, "issue_order": 8, "build": 8, "issue_build": 12, "outputs": 14,
    "allocate_build": 30, "auto_allocate": 9, "complete_output": 18, "scrap_output": 4, "cancel_output": 3,
    "complete_build": 14, "consume": 10, "allocate_sale": 14, "ship": 10, "return_item": 5, "install": 8,
    "uninstall": 3, "disassemble": 2, "transfer": 7, "split": 4, "serialise": 5, "merge": 3, "found": 6, "remove": 2,
    "count": 2, "reinstate": 1, "close_order": 1, "hold_build": 0.3, "cancel_build": 0.5, "cancel_order": 0.3}
STOCKED = ["component", "purchaseable"]
MADE = ["assembly", "component", "trackable", "salable"]
PARTS = {
    "Cell": STOCKED, "Nut": STOCKED, "Driver": [*STOCKED, "trackable"], "Bag of nuts": ["assembly", "component"],
    "Board": MADE, "Lamp": MADE, "Set": ["assembly", "trackable", "salable"]}
BILLS = [("Bag of nuts", "Nut", 3), ("Board", "Cell", 2), ("Lamp", "Board", 1), ("Lamp", "Driver", 1),
         ("Lamp", "Bag of nuts", 1), ("Set", "Lamp", 2), ("Set", "Nut", 1)]
# A batch may look like a number, or like a word that calls an item.
BATCHES = ["L1", "L2", "L3", "l2", "7", "19", "é", '{"part":"Lamp","serial":"1"}']


class RecallMaker(Maker):
    """Makes such requests up for one machine."""

    def __init__(self, r, machine):
        super().__init__(r, machine)
        often = {do: OFTEN.get(do, 0.1) for do in self.style["often"]}
        self.style = {**self.style, "newest": 6, "parts": 0, "chain": 0, "builder": False, "often": often}
        self.first = self.workshop()

    def request(self):
        for do, made in self.first:
            return do, made()
        return self.rarest() if self.r.random() < 0.05 else self.likely()

    def workshop(self):
        """Requests for the locations, the parts and their bills, and some stock."""
        for name in ("Store", "Bench"):
            yield "add_location", lambda name=name: {"name": name, "parent": None}
        for name, flags in PARTS.items():
            yield "add_part", lambda name=name, flags=flags: {
                "name": name, "category": None, "template": None, "flags": flags}
        for assembly, component, quantity in BILLS:
            yield "add_line", lambda of=(assembly, component, quantity): {
                "assembly": self.named(of[0]), "component": self.named(of[1]), "quantity": of[2], "optional": False,
                "consumable": False, "inherited": False, "variants": False}
        for name in list(PARTS)[:3] * 2:
            yield "found", lambda name=name: {
                "part": self.named(name), "location": self.row("location"), **self.stock(self.named(name))}

    def stock(self, part, most=60):
        quantity = {**super().stock(part, most), "batch": self.r.choice([None, *BATCHES])}
        return {**quantity, "quantity": min(quantity["quantity"], 60)}
