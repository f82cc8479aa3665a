"""A small workshop in which everything is there that the page's checks need, with names that look like markup."""
XSS = {"part": '<img src=x onerror="window.hit=1">', "location": "<svg/onload=window.hit=2>",
       "category": "<b onclick=window.hit=3>cat</b>", "partner": '<script>window.hit=4</script> & "Co"',
       "batch": '<iframe srcdoc="<script>parent.hit=5</script>">', "key": "<i/onmouseover=window.hit=6>",
       "assembly": "<video src=x onerror=window.hit=7>"}
ALL = ["component", "purchaseable", "salable"]


def workshop(do):
    """Makes it by a function that runs a command, and gives the numbers of its rows."""
    one = lambda *words, **fields: do(*words, **fields)[0]
    r = {}
    r["lab"] = one("add_location", name="Lab")
    r["shelf"] = one("add_location", name="Shelf A", parent=r["lab"])
    r["drawer"] = one("add_location", name="Drawer 1", parent=r["shelf"])
    r["goods"] = one("add_location", name="Goods in")
    r["xlocation"] = one("add_location", name=XSS["location"])
    r["cat"] = one("add_category", name="Passive")
    r["xcat"] = one("add_category", name=XSS["category"])
    for key, name in (("r10k", "R 10k 0603"), ("c100n", "C 100n 0603"), ("lm", "LM358"), ("conn", "Conn USB-C 2p"),
                      ("screw", "Screw M3"), ("shelfpin", "Shelf pin"), ("led", "LED red")):
        r[key] = one("add_part", name=name, category=r["cat"], flags=ALL)
    r["formula"] = one("add_part", name="=HYPERLINK(1)", category=r["cat"], flags=ALL)
    r["xpart"] = one("add_part", name=XSS["part"], category=r["xcat"], flags=ALL)
    r["motor"] = one("add_part", name="Motor", flags=["component", "trackable", "purchaseable", "salable"])
    r["board"] = one("add_part", name="Controller board", flags=["assembly", "component", "salable"])
    r["robot"] = one("add_part", name="Robot", flags=["assembly", "trackable", "salable"])
    r["l_r"] = one("add_line", assembly=r["board"], component=r["r10k"], quantity=4)
    r["l_c"] = one("add_line", assembly=r["board"], component=r["c100n"], quantity=5)
    r["l_lm"] = one("add_line", assembly=r["board"], component=r["lm"], quantity=1)
    one("add_substitute", line=r["l_c"], part=r["led"])
    r["l_m"] = one("add_line", assembly=r["robot"], component=r["motor"], quantity=2)
    r["l_s"] = one("add_line", assembly=r["robot"], component=r["screw"], quantity=8)
    found = lambda part, place, n, **more: do("found", part=r[part], location=r[place], quantity=n, **more)
    r["i_r"] = found("r10k", "shelf", 550)[0]
    r["i_c"] = found("c100n", "shelf", 300, batch="L22")[0]
    r["i_lm"] = found("lm", "drawer", 25)[0]
    r["i_conn"] = found("conn", "shelf", 40)[0]
    r["i_screw"] = found("screw", "lab", 1000)[0]
    r["i_led1"] = found("led", "lab", 5, batch="OLD")[0]
    r["i_led2"] = found("led", "goods", 50, batch="NEW")[0]
    r["motors"] = found("motor", "lab", 4, serials="M1,M2,M3,M4")
    r["i_x"] = found("xpart", "xlocation", 7, batch=XSS["batch"])[0]
    r["i_formula"] = found("formula", "xlocation", 3)[0]
    # a shelf to count on
    r["count"] = one("add_location", name="Counting shelf")
    r["counted"] = [do("found", part=r[it], location=r["count"], quantity=n)[0]
                    for it, n in (("r10k", 100), ("c100n", 200), ("lm", 30), ("conn", 40), ("led", 12))]
    r["count2"] = one("add_location", name="Second counting shelf")
    r["i_r2"] = do("found", part=r["r10k"], location=r["count2"], quantity=540)[0]
    # a purchase in progress with a key, one with a hostile partner and key
    r["po"] = one("order", side="purchase", partner="Mouser", key="PO-17")
    r["po_l1"] = one("order_line", order=r["po"], part=r["lm"], quantity=100)
    r["po_l2"] = one("order_line", order=r["po"], part=r["motor"], quantity=2)
    do("issue_order", order=r["po"])
    r["xpo"] = one("order", side="purchase", partner=XSS["partner"], key=XSS["key"])
    r["xpo_l"] = one("order_line", order=r["xpo"], part=r["xpart"], quantity=9)
    do("issue_order", order=r["xpo"])
    # a sale
    r["so"] = one("order", side="sale", partner="Acme GmbH", key="SO-3")
    r["so_l"] = one("order_line", order=r["so"], part=r["led"], quantity=20)
    do("issue_order", order=r["so"])
    # builds: one for boards, half done, with untracked allocations; one that is short; one of robots
    r["b1"] = one("build", part=r["board"], quantity=5, key="B-1")
    do("issue_build", build=r["b1"])
    do("auto_allocate", build=r["b1"])
    out = one("outputs", build=r["b1"], quantity=4)
    do("complete_output", output=out, location=r["lab"])
    r["b2"] = one("build", part=r["board"], quantity=100)
    do("issue_build", build=r["b2"])
    r["b3"] = one("build", part=r["robot"], quantity=2, key="ROBOTS")
    r["bx"] = one("build", part=r["board"], quantity=1, key="<b/id=x>")
    hostile_work(do, one, r)
    return r


def hostile_work(do, one, r):
    """Work on what has a hostile name: a build at work and one that is done, a sale at work and one that is shipped."""
    r["xassembly"] = one("add_part", name=XSS["assembly"], flags=["assembly", "component", "salable"])
    r["l_x"] = one("add_line", assembly=r["xassembly"], component=r["xpart"], quantity=2)
    r["kit"] = one("add_part", name="Kit", flags=["assembly"])
    one("add_line", assembly=r["kit"], component=r["screw"], quantity=1)
    r["i_x2"] = one("found", part=r["xpart"], location=r["xlocation"], quantity=40)
    for key, quantity, given in (("bx2", 5, 4), ("bx3", 1, 2)):
        r[key] = one("build", part=r["xassembly"], quantity=quantity)
        do("issue_build", build=r[key])
        do("allocate_build", build=r[key], line=r["l_x"], item=r["i_x2"], quantity=given)
        r["xpiece"] = one("outputs", build=r[key], quantity=1, batch=XSS["batch"], key=f"{key}/outputs")
    do("complete_output", output=r["xpiece"], location=r["xlocation"])
    do("complete_build", build=r["bx3"])
    for key in ("xso", "xso2"):
        r[key] = one("order", side="sale", partner=XSS["partner"])
        line = one("order_line", order=r[key], part=r["xpart"], quantity=3)
        do("issue_order", order=r[key])
        do("allocate_sale", line=line, item=r["i_x2"], quantity=2)
    do("ship", order=r["xso2"])
