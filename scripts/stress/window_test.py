"""The window of `weltiyo web` in a real browser (Debian's chromium and chromium-driver; where they lack nothing is tried, and that is said).

    stress window [--short] [--part views|undo|foreign|return|access|million|pictures] [--rows N] [--browser chromium|firefox] [--late MS]

Without --part all run, one behind another; --short leaves out `million` and `pictures`. With --browser firefox Debian's firefox-esr is taken.
With --late each look at the page comes late by up to so many milliseconds, as on a busy machine: what is awaited must still be there then.

    views     over examples/shop.toml: each index of each table, a record marked in all of them with its rank, searches that are checked as they
              are typed, the distribution zoomed into its rows, the service, the line at the bottom, and all of it by the keyboard alone
    undo      sessions and changes by the buttons; behind an undo the rows are marked back, changed, moved and gone, where they were, for two seconds
    foreign   what another page of the same browser asks is refused, of the window and of the server's port; so are wrong hosts, origins, content types
              and tokens; no table is changed
    return    a server that goes away and comes back
    access    names, roles, order, focus and contrast, in light and dark, wide and 320 pixels wide
    million   a million accounts: the first view, the frames of scrolling, how many rows are in the document and how many lines are asked
    pictures  writes those of the guide into docs/img"""
import argparse
import os
import random
import statistics
import time

import program
from stress import marionette
from stress import small_png
from stress import webdriver
from stress import window_access
from stress import window_foreign
from stress import window_kit
from stress.marionette import Firefox
from stress.webdriver import Browser, Failed
from stress.window_kit import SHOP, Small, Web

SEEN = 'performance.getEntriesByName("first view").length'
KEEPS = """
window.shown = []; window.marked = {};
new MutationObserver((all) => all.forEach((it) => it.addedNodes.forEach((one) => shown.push(one.textContent))))
  .observe(document.querySelector("#lines"), { childList: true });
function sight(row) {
  const a = row.getBoundingClientRect(), b = row.closest(".scroll").getBoundingClientRect();
  return a.bottom > b.top && a.top < b.bottom;
}
const nameOf = (row) => row.closest(".panel").getAttribute("aria-label").slice(6), names = new Map();
function mark(row) {
  const word = row.dataset.mark, it = names.get(row);
  if (it) { it.count--; it.until = performance.now(); names.delete(row); }
  if (!word || !row.isConnected || !sight(row)) return;
  const now = marked[`${nameOf(row)} ${word}`] ||= { index: nameOf(row), word, since: performance.now(), count: 0 };
  now.count++;
  names.set(row, now);
}
const gone = (row) => { if (names.has(row)) mark(row); };
new MutationObserver((all) => all.forEach((it) => it.type === "attributes" ? mark(it.target) : it.removedNodes.forEach(gone)))
  .observe(document.querySelector("#panels"), { subtree: true, childList: true, attributeFilter: ["data-mark"] });
"""
"""Keeps each text that the line at the bottom shows, and since when and until when an index has a row in sight with a mark: both may be gone again
before the driver looks."""
SETTLED = "const done = arguments[0]; requestAnimationFrame(() => requestAnimationFrame(() => done(true)))"
"""Behind what has been scrolled or sized, and drawn."""
IMAGES = f"{program.TOP}/docs/img"


class Differs(Exception):
    """What the page shows isn't what it is to show."""


def must(found, wanted, about):
    if found != wanted:
        raise Differs(f"{about}: {found!r}, and {wanted!r} was wanted")


class Page:
    """The page in a browser, as a user sees it."""

    def __init__(self, browser, web):
        self.browser, self.web = browser, web
        browser.go("about:blank")
        browser.said()  # (an earlier page may still have looked for its server)
        browser.go(web.address)
        browser.wait("return document.querySelector('#panels')")
        browser.run(KEEPS)
        browser.wait(f"return {SEEN}")

    def panel(self, name):
        return f'[aria-label="Index {name}"]'

    def rows(self, name):
        """The rows in sight of an index, from above: their texts by cells, and classes."""
        return self.browser.run("""
            const box = document.querySelector(arguments[0]), scroll = box.querySelector(".scroll").getBoundingClientRect();
            return [...box.querySelectorAll(".row")].filter((it) => !it.hidden).map((it) => [it.getBoundingClientRect().top, it])
                .filter(([y]) => y > scroll.top - 20 && y < scroll.bottom - 8).sort((a, b) => a[0] - b[0])
                .map(([, it]) => ({ cells: [...it.querySelectorAll("[role=gridcell]")].map((one) => one.textContent), mark: it.dataset.mark || "",
                    pointed: it.classList.contains("is-pointed") })).filter((it) => it.cells.length > 1)""", self.panel(name))

    def cells(self, name, n):
        return [it["cells"][n] for it in self.rows(name)]

    def pointed(self, name):
        return [it["cells"] for it in self.rows(name) if it["pointed"]]

    def foot(self, name):
        return self.browser.run('return document.querySelector(arguments[0] + " > .foot").textContent', self.panel(name))

    def text(self, selector):
        return self.browser.run("return document.querySelector(arguments[0]).textContent", selector)

    def wait_text(self, selector, part, seconds=20):
        try:
            self.browser.wait("return (document.querySelector(arguments[0]) || {textContent: ''}).textContent.includes(arguments[1])", selector, part, seconds=seconds)
        except Failed:
            raise Differs(f"{selector} says {self.text(selector)!r}, and not {part!r}") from None

    def wait_line(self, *parts):
        """Waits until the line at the bottom has shown a text with these parts; others may have come behind it."""
        code = "return shown.some((it) => [...arguments].every((one) => it.includes(one)))"
        if not window_kit.until(lambda: self.browser.run(code, *parts)):
            raise Differs(f"the line at the bottom hasn't shown {parts}, but {self.browser.run('return shown.slice(-9)')}")

    def wait_is(self, code, *given, about, seconds=20):
        """Waits until a script of the page returns something true."""
        try:
            return self.browser.wait(code, *given, seconds=seconds)
        except Failed:
            raise Differs(f"{about} isn't so within {seconds} s") from None

    def settle(self, name):
        """Waits until an index that was scrolled has its rows."""
        self.browser.run_later(SETTLED)
        self.wait_is("return document.querySelector(arguments[0] + ' .grid').getAttribute('aria-busy') === 'false'", self.panel(name),
                     about=f"that {name} has its rows")

    def scroll(self, name, where):
        """Scrolls an index to a place of its bar, which is a script's expression of `it`."""
        self.browser.run(f"const it = document.querySelector(arguments[0] + ' .scroll'); it.scrollTop = {where}", self.panel(name))
        self.settle(name)

    def wait_rows(self, name, true, about, seconds=20):
        if not window_kit.until(lambda: true(self.rows(name)), seconds):
            raise Differs(f"{about}: {self.rows(name)}")

    def table(self, name):
        self.browser.run("[...document.querySelectorAll('#tables button')].find((it) => it.firstChild.textContent === arguments[0]).click()", name)
        self.browser.wait("return document.querySelector('#tables [aria-current]').firstChild.textContent === arguments[0]", name)

    def search(self, index, **parts):
        for name, text in parts.items():
            self.browser.run("""const it = document.querySelector(arguments[0] + ` [name="${arguments[1]}"]`);
                it.value = arguments[2]; it.dispatchEvent(new Event("input", { bubbles: true }))""", self.panel(index), name, text)

    def found(self, index):
        return self.text(f"{self.panel(index)} .found")

    def fill(self, **values):
        for name, text in values.items():
            self.browser.run('const it = document.querySelector(`#dialog [name="${arguments[0]}"]`); it.value = arguments[1]', name, text)
        self.browser.click("#dialog .chief")
        self.browser.wait("return !document.querySelector('#dialog').open")

    def button(self, text):
        self.browser.run("[...document.querySelectorAll('button')].find((it) => it.textContent.startsWith(arguments[0]) && !it.disabled).click()", text)

    def click_row(self, index, text):
        """The row in sight that has this text in a cell."""
        x, y = self.browser.run("""
            document.querySelector(arguments[0]).scrollIntoView({ inline: "nearest", block: "nearest" });
            const it = [...document.querySelectorAll(arguments[0] + " .row")].find((one) => !one.hidden
                && [...one.children].some((cell) => cell.textContent === arguments[1])).getBoundingClientRect();
            return [Math.round(it.x + 60), Math.round(it.y + 12)]""", self.panel(index), text)
        self.browser.click_at(x, y)

    def complaints(self):
        return [it for it in self.browser.said() if "favicon" not in it[1]]


# Views


def views(browser, _):
    server = Small().fill()
    with Web(server.port, schema=SHOP) as web:
        page = Page(browser, web)
        must(page.text("#mode"), "read-only", "the mode")
        must([page.text(f"#tables li:nth-child({n})") for n in (1, 2)], ["item60", "sale40"], "the tables")
        must(page.cells("id", 0)[:3], ["0", "1", "2"], "places by id")
        must(page.cells("by_name", 1)[:2], ["chalk 1", "chalk 2"], "names in their order")
        must(page.cells("by_stock", 2)[:3], ["0", "2", "3"], "stocks in their order")
        marked_everywhere(page)
        searched(page)
        of_sales(page)
        typed(browser, page)
        distributed(browser, page)
        served(browser, page)
        copied(browser, page)
        odd(server, page)
        must(page.complaints(), [], "the console")
    told_by_the_service(browser, server)
    server.stop()
    return "two tables under seven indexes, pointing, searching, distribution, service, the line and the keyboard"


def marked_everywhere(page):
    page.click_row("by_name", "chalk 4")
    page.wait_text(f"{page.panel('by_stock')} > .foot", "rank 15 of 60")
    for index, at in (("id", 1), ("by_name", 0), ("by_stock", 1)):
        page.wait_rows(index, lambda rows, at=at: [it["cells"][at] for it in rows if it["pointed"]] == ["59"], f"record 59 is marked in {index}")
    must(page.foot("id"), "record 59 · rank 59 of 60", "its rank by id")
    must(page.foot("by_name"), "record 59 · the only one with its key", "its key by name")


def searched(page):
    page.search("by_stock", stock="4x")
    must(page.found("by_stock"), "stock: a whole number is wanted", "a key that is none")
    page.search("by_stock", stock="9223372036854775808")
    must(page.found("by_stock"), "stock: that is beyond 64 bits", "a number that is too large")
    page.search("by_stock", stock="35")
    page.wait_text(f"{page.panel('by_stock')} .found", f"1 record has this key, at place {sorted(n * 37 % 90 for n in range(60)).index(35)}")
    page.wait_rows("by_stock", lambda rows: any(it["pointed"] and it["cells"][2] == "35" for it in rows), "what was found is marked")
    page.search("by_stock", stock="1")
    page.wait_text(f"{page.panel('by_stock')} .found", "no record has this key; it would stand at place 1")
    page.search("by_name", name="paper 2")
    page.wait_text(f"{page.panel('by_name')} .found", "1 record has this key")
    page.wait_rows("by_name", lambda rows: any(it["pointed"] and it["cells"][1] == "paper 2" for it in rows), "a name is found")
    searched_late(page)


LATE = """const real = window.fetch, isLate = (it) => it.includes('"by_name"') && it.includes('"lower"');
    window.fetch = async (path, how) => {
        if (path === "/ask" && JSON.parse(how.body).lines.some(isLate)) await new Promise((go) => setTimeout(go, 3000));
        return real(path, how); };
    window.timely = () => { window.fetch = real; }"""
"""The rows at a key of by_name come behind the time at which the page asks by itself again."""


def searched_late(page):
    """A search whose rows come late goes to its key all the same."""
    page.search("by_name", name="chalk 1")
    page.wait_rows("by_name", lambda rows: any(it["pointed"] and it["cells"][1] == "chalk 1" for it in rows), "the first name is found")
    page.browser.run(LATE)
    page.search("by_name", name="paper 2")
    page.wait_rows("by_name", lambda rows: any(it["pointed"] and it["cells"][1] == "paper 2" for it in rows), "a name whose rows come late is found")
    page.browser.run("timely()")


def of_sales(page):
    page.table("sale")
    page.wait_rows("by_count", lambda rows: [it["cells"][1] for it in rows[:4]] == ["11", "11", "11", "10"], "counts descend")
    page.search("by_item", item="ink 1")
    page.wait_text(f"{page.panel('by_item')} .found", "1 record has this key")
    page.wait_text(f"{page.panel('by_item')} dl", "1002")
    page.wait_text(f"{page.panel('by_item')} > .foot", "record 1002 · the first with its key")
    page.search("by_count", count="", item="ink 1")
    must(page.found("by_count"), "count can't be left out before item", "a part that lacks")
    page.search("by_count", count="2", item="ink 1")
    page.wait_text(f"{page.panel('by_count')} .found", "1 record has this key")
    page.wait_rows("log", lambda rows: [it["cells"][0] for it in rows[:2]] == ["0", "1"], "the list has places")


def typed(browser, page):
    """By the keyboard alone: from the top to a list, down, and to a tab."""
    page.table("item")
    browser.run("document.querySelector('.skip').focus()")
    for _ in range(40):
        browser.press("Tab")
        if browser.run("return document.activeElement.getAttribute('aria-label')") == "item by id":
            break
    else:
        raise Differs("Tab doesn't come to the list")
    browser.press("ArrowDown", "ArrowDown", "ArrowDown")
    page.wait_text("#said", "Record 2. rank 2 in id")
    page.wait_is("""const it = document.getElementById(document.activeElement.getAttribute('aria-activedescendant'));
        return it && it.children[1].textContent === '2'""", about="that a screen reader is on record 2")
    browser.press("End")
    page.wait_rows("by_stock", lambda rows: any(it["pointed"] and it["cells"][1] == "59" for it in rows), "the last record by End")
    browser.press("/")
    page.wait_is("return document.activeElement.name === 'id'", about="that / goes to the first search")


def distributed(browser, page):
    browser.click("#tab-plot")
    browser.wait('return document.querySelectorAll(".bars button").length > 3')
    total = browser.run('return [...document.querySelectorAll(".bars button")].reduce((n, it) => n + Number(/: ([\\d,]+) record/.exec(it.getAttribute("aria-label"))[1]), 0)')
    must(total, 60, "the records of all bars")
    browser.run('document.querySelector(".bars button").focus()')
    browser.press("ArrowRight", "Enter")
    browser.wait('return document.querySelectorAll(".trail li").length === 2')
    browser.wait('return document.querySelector("#sheet-plot .row .place") && document.querySelector("#sheet-plot .grid").getAttribute("aria-rowcount") < 12')
    browser.press("Escape")
    browser.wait('return document.querySelectorAll(".trail li").length === 1')
    browser.run('const it = document.querySelector("#sheet-plot select"); it.value = "by_name"; it.dispatchEvent(new Event("change"))')
    page.wait_text(".tells", "60 records by name")
    page.wait_text(".tells", "values behind the first ones are counted together")


def served(browser, page):
    browser.click("#tab-service")
    page.wait_text("#service-note", "This server has no status line")
    page.wait_text(".plots", "Rows of item60")
    browser.wait('return [...document.querySelectorAll(".plots svg")].every((it) => it.getAttribute("aria-label").length > 20)')
    browser.click("#tab-rows")


def told_by_the_service(browser, server):
    """A service that tells its status, but not all that is drawn."""
    telling = window_kit.Telling(server.port)
    with Web(telling.port, schema=SHOP) as web:
        page = Page(browser, web)
        browser.click("#tab-service")
        page.wait_text("#plots", "Connections3")
        page.wait_text("#plots", "Lines a second of all connections")
        page.wait_text("#service-note", "the service's own word")
        must("Journal" in page.text("#plots"), False, "whether a member that lacks is drawn")
    telling.stop()


def copied(browser, page):
    """The page asks rows and ranks behind a search, so its line may not be the newest any more: what is copied is what stands there at the click."""
    asked, answered = '{"cmd":"count","table":"item","index":"by_stock","key":[7]}', '{"count":0,"ok":true}'
    page.search("by_stock", stock="7")
    page.wait_line(asked, answered)
    browser.click("#unfold")
    page.wait_text("#lines", "ms at the server")
    page.wait_text("#lines", asked)
    browser.click("#unfold")
    browser.run("""navigator.clipboard.writeText = (text) => { window.written = text; return Promise.resolve(); };
        const stands = () => { window.stood = document.querySelector("#lines").textContent; };
        document.querySelector("#copy").addEventListener("click", stands, { capture: true })""")
    browser.click("#copy")
    lines = browser.wait("return window.written").split("\n")
    stood = browser.run("return stood")
    must((lines[0][:2], stood.startswith(lines[0][2:]), lines[1][:400] in stood), ("> ", True, True), f"what is copied, {lines[:2]}, of {stood!r}")
    page.wait_text("#said", "Copied.")


def odd(server, page):
    """What another connection inserts comes by itself; a text is shown as a text, and a number with all its digits."""
    browser = page.browser
    browser.run("window.ran = false")
    page.search("by_stock", stock="")
    for name in ("by_name", "by_stock"):
        page.scroll(name, "0")
    with server.connect() as db:
        db.insert({"name": "<img src=x onerror='window.ran = true'>\u202e\n", "stock": 9007199254740993}, table="item")
        db.insert({"name": "least", "stock": -(2**63)}, table="item")
    page.wait_rows("by_name", lambda rows: rows[0]["cells"][1] == "<img src=x onerror='window.ran = true'>\\u202e\\u000a", "a text of another page's language")
    page.wait_rows("by_stock", lambda rows: rows[0]["cells"][2] == "-9223372036854775808", "the least number")
    page.search("by_stock", stock="9007199254740993")
    page.wait_text(f"{page.panel('by_stock')} .found", "1 record has this key, at place 61")
    page.wait_line('"key":[9007199254740993]')
    page.wait_rows("by_stock", lambda rows: any(it["pointed"] and it["cells"][2] == "9007199254740993" for it in rows), "a number that doubles don't have")
    must(browser.run("return window.ran"), False, "whether the text was run")


# Sessions


def undo(browser, _):
    server = Small().fill()
    with Web(server.port, "--write", schema=SHOP) as web:
        page = Page(browser, web)
        must(page.text("#mode"), "changes allowed", "the mode")
        page.table("sale")
        page.wait_rows("log", lambda rows: len(rows) > 5, "the list is there")
        changed(browser, page)
        before = server.connect()
        wanted = before.list("log", table="sale").rows
        page.button("Undo")
        seen, times = marks(browser, page)
        must(seen, {"log": {"moved", "changed", "back", "gone"}, "id": {"changed", "back", "gone"}, "by_count": {"moved", "back", "gone"}}, "the marks")
        must(min(times) >= 1900, True, f"whether each mark stays for two seconds, of {times}")
        page.wait_text("#said", "Undone: 1 back, 1 changed back, 1 gone, 1 moved back")
        must([it["mark"] for name in ("id", "by_count", "log") for it in page.rows(name) if it["mark"]], [], "the marks that stay")
        again = before.list("log", table="sale").rows
        must([it["id"] for it in again][:3], [1000, 1001, 1002], "the list as it was")
        must(wanted == again, False, "the undo changed something")
        before.close()
        squashed(browser, page)
        must(page.complaints(), [], "the console")
    server.stop()
    stay = f"{min(times) / 1000:.1f} to {max(times) / 1000:.1f} s"
    return f"start, insert, change, erase, move, squash and undo; marks of four kinds, which stay for {stay}"


def changed(browser, page):
    page.button("Start")
    page.wait_text("#sessions", "revision 1, 1 session open")
    page.click_row("id", "1001")
    page.button("Change 1001…")
    page.fill(count="3", item="pencil 9")
    page.click_row("id", "1000")
    page.button("Erase 1000")
    page.fill()
    page.click_row("log", "1003")
    page.button("Move 1003…")
    page.fill()
    page.button("Insert…")
    page.fill(item="new pen", count="9", paid="true")
    page.wait_text("#sessions", "this window4")
    must(page.text("#tables li:nth-child(2)"), "sale40", "the rows while the session is open")
    for index in ("id", "log"):
        page.scroll(index, "0")
    browser.run("document.querySelectorAll(arguments[0] + ' [name]').forEach((it) => { it.value = ''; })", page.panel("by_count"))
    # (all of the rows are in sight, so that each mark is)
    browser.size(1900, 1500)
    for index in ("id", "by_count", "log"):
        page.wait_rows(index, lambda rows: len(rows) >= 40, "all rows are in sight")


def marks(browser, page):
    """The marks that each index has had, once all are gone, and how many milliseconds each was there."""
    found = page.wait_is("const all = Object.values(marked); return all.length > 0 && all.every((it) => it.count === 0) && all",
                         about="that marks come and go")
    browser.size(1280, 800)
    seen = {}
    for it in found:
        seen.setdefault(it["index"], set()).add(it["word"])
    return seen, [round(it["until"] - it["since"]) for it in found]


def squashed(browser, page):
    page.button("Start")
    page.wait_text("#sessions", "revision 1, 1 session open")
    page.button("Start")
    page.wait_text("#sessions", "revision 2, 2 sessions open")
    page.button("Insert…")
    page.fill(item="other pen", count="1", paid="false")
    page.wait_text("#sessions", "2this window1")
    page.button("Squash")
    page.wait_text("#sessions", "1this window1")
    page.button("Insert…")
    page.fill(item="x", count="1", paid="false")
    page.wait_text("#sessions", "1this window2")
    page.button("Undo")
    page.wait_text("#sessions", "revision 0, no session open")
    page.wait_text("#tables li:nth-child(2)", "sale40")


# Others


def foreign(browser, _):
    server = Small().fill()
    try:
        with Web(server.port, "--write", schema=SHOP) as web:
            page = Page(browser, web)
            said = window_foreign.tried(browser, web, server.port, lambda: server.connect().size("item"))
            page.complaints()
        return said
    except window_foreign.Answered as error:
        raise Differs(str(error)) from None
    finally:
        server.stop()


def returning(browser, _):
    server = Small().fill()
    with Web(server.port, "--write", schema=SHOP) as web:
        page = Page(browser, web)
        page.button("Start")
        page.wait_text("#sessions", "1 session open")
        server.stop()
        page.wait_text("#state", "gone")
        page.wait_text("#alarm-text", "The server is gone")
        server.start()
        server.fill(items=5, sales=0)
        began = time.monotonic()
        page.wait_text("#state", "connected")
        page.wait_text("#tables li:nth-child(1)", "item5")
        took = time.monotonic() - began
        page.wait_text("#sessions", "no session open")
        page.wait_rows("by_name", lambda rows: [it["cells"][1] for it in rows][:2] == ["ink 1", "paper 1"], "the rows of the new server")
        page.wait_is("return document.querySelector('#alarm').hidden", about="that the alarm is gone")
        page.complaints()
    server.stop()
    return f"the page says that the server is gone, and goes on {took:.1f} s behind its return, with its rows and no session"


MARKED = """["back", "moved", "changed", "gone"].forEach((mark, n) => document.querySelectorAll(".panel").forEach((panel) => {
    const it = panel.querySelectorAll(".row")[n];
    if (it && it.querySelector(".badge")) { it.dataset.mark = mark; it.querySelector(".badge").textContent = mark; }
}))"""
"""Puts each mark on a row, so that its colours are looked at."""


def access(browser, options):
    server = Small().fill()
    looks = [(scheme, width) for scheme in ("light", "dark") for width in (1280, browser.narrowest)]
    with Web(server.port, "--write", schema=SHOP) as web:
        page = Page(browser, web)
        faults, least, tried = [], 99, 0
        for scheme, width in [looks[0], looks[3]] if options.short else looks:
            browser.scheme(scheme)
            browser.size(width, 800)
            page.wait_is("return document.documentElement.dataset.theme === arguments[0]", scheme, about=f"that the page is {scheme}")
            for view in ("rows", "plot", "service", "dialog"):
                found = looked_at(browser, page, view)
                faults += [f"{scheme}, {width} px, {view}: {it}" for it in found["faults"]]
                least, tried = min(least, found["least"]), tried + found["tried"]
        browser.scheme("light")
        browser.size(1280, 800)
        if faults:
            raise Differs("\n".join(dict.fromkeys(faults)))
        page.complaints()
    server.stop()
    return f"{len(window_access.NAMES)} rules over {tried} elements of four views, in light and dark, down to {browser.narrowest} pixels; the least contrast of a text is {least:.2f}"


READY = {
    "rows": "document.querySelectorAll('#panels .row').length > 20 && !document.querySelector('#panels .grid:not([aria-busy=false])')",
    "plot": "document.querySelectorAll('.bars button').length > 3 && !document.querySelector('.bars[aria-busy], "
            "#sheet-plot .grid:not([aria-busy=false])')",
    "service": "document.querySelectorAll('#plots svg').length > 2 && document.querySelector('#service-note').textContent",
    "dialog": "document.querySelector('#dialog').open",
}
"""When a view has all that is looked at."""


def looked_at(browser, page, view):
    browser.click(f"#tab-{'rows' if view == 'dialog' else view}")
    if view == "dialog":
        page.button("Insert…")
    browser.run_later(SETTLED)
    page.wait_is(f"return {READY[view]}", about=f"that {view} is there whole")
    browser.run(MARKED)
    found = browser.run(window_access.RULES)
    browser.run("document.querySelector('#dialog').close()")
    return found


# A million rows

MOST_LINES = 96
"""What a jump may ask in an index: three pages, of which two are in sight at most."""
RECORD = """window.gaps = []; window.isOver = false; let last = 0;
    const step = (now) => { if (last) gaps.push(now - last); last = now; if (!isOver) requestAnimationFrame(step); }; requestAnimationFrame(step);"""
SCROLL = """const [scroll, by, frames, done] = arguments; const gaps = []; let last = 0, n = 0;
    const step = (now) => { if (last) gaps.push(now - last); last = now; scroll.scrollTop += by; if (++n < frames) requestAnimationFrame(step); else done(gaps); };
    requestAnimationFrame(step);"""


def million(browser, options):
    large = window_kit.Large(options.rows)
    with large as web:
        page = Page(browser, web)
        first = [first_view(browser, web) for _ in range(7)]
        idle = frames(browser, "id", 0)
        moving = {index: frames(browser, index, 90) for index in ("id", "by_balance")}
        wheel = wheeled(browser, page)
        rows = browser.run("return document.querySelectorAll('.row').length")
        jumped(browser, page, options.rows)
        walked(browser, page, options.rows)
        asked = lines_of_a_page(browser, page, options.rows)
        must(asked <= MOST_LINES, True, f"whether a jump asks for what is in sight alone, of {asked} lines")
        browser.click("#tab-plot")
        browser.wait("return performance.getEntriesByName('plot drawn').length")
        total = browser.run('return [...document.querySelectorAll(".bars button")].reduce((n, it) => n + Number(/: ([\\d,]+) record/.exec(it.getAttribute("aria-label"))[1].replaceAll(",", "")), 0)')
        must(total, options.rows, "the records of all bars")
        must(page.complaints(), [], "the console")
    return (f"{options.rows:,} rows by {large.title}: first view {min(first):.0f} to {max(first):.0f} ms, median {statistics.median(first):.0f}; "
            f"frames: still {idle}, scrolling id {moving['id']}, by_balance {moving['by_balance']}, by the wheel {wheel}; "
            f"{rows} rows in the document, {asked} lines for a jump; {window_kit.load()}")


def first_view(browser, web):
    browser.go("about:blank")
    browser.go(web.address)
    browser.wait(f"return {SEEN}")
    return browser.run('return performance.getEntriesByName("first view")[0].startTime')


def told(gaps):
    gaps = sorted(gaps)
    return f"median {statistics.median(gaps):.1f} ms, 95 in 100 within {gaps[int(len(gaps) * 0.95)]:.1f}, {sum(it > 25 for it in gaps)} of {len(gaps)} over 25"


def frames(browser, index, by):
    scroll = f'document.querySelector(`[aria-label="Index {index}"] .scroll`)'
    return told(browser.run_later(f"const done = arguments[0]; (function () {{ {SCROLL} }})({scroll}, {by}, 300, done)"))


def wheeled(browser, page):
    x, y = browser.run("const it = document.querySelector(arguments[0] + ' .scroll').getBoundingClientRect(); return [Math.round(it.x + 60), Math.round(it.y + 60)]", page.panel("id"))
    browser.run(RECORD)
    browser.wheel(x, y, 100, 120, 16)
    return told(browser.run("isOver = true; return gaps"))


def jumped(browser, page, rows):
    """The bar's middle and end, and the row of a place that is searched."""
    page.scroll("by_balance", "it.scrollHeight")
    page.wait_rows("by_balance", lambda found: bool(found) and found[-1]["cells"][0] == f"{rows - 1:,}" and found[-1]["cells"][1] != "", "the last place")
    page.scroll("by_balance", "it.scrollHeight / 2")
    page.wait_rows("by_balance", lambda found: bool(found) and abs(int(found[0]["cells"][0].replace(",", "")) - rows // 2) < rows // 100 and found[0]["cells"][1] != "", "the middle")
    page.search("id", id=str(rows // 3))
    page.wait_text(f"{page.panel('id')} .found", f"1 record has this key, at place {rows // 3:,}")
    page.wait_rows("id", lambda found: any(it["pointed"] and it["cells"][1] == str(rows // 3) for it in found), "the row that was searched")


DEEP = 5000
"""A row beyond what a list keeps."""


def walked(browser, page, rows):
    """A list and an ordered index go on as they are scrolled, beyond what they keep, and back. Accounts stand in the list as they were inserted."""
    goal = min(DEEP, rows * 9 // 10)
    for index, true in (("line", lambda rows: all(it["cells"][0].replace(",", "") == it["cells"][1] for it in rows)), ("by_class", is_in_order)):
        deep = 0
        for _ in range(70):
            deep = to_edge(browser, page, index, "it.scrollHeight", true)
            if index == "line" and deep > goal:
                break
        must(deep > goal, True, f"whether {index} goes on")
        for _ in range(90):
            if to_edge(browser, page, index, "0", true) == 0:
                break
        else:
            raise Differs(f"{index} doesn't come back to its beginning: {page.rows(index)[:2]}")


def is_in_order(rows):
    keys = [(it["cells"][1] != "true", int(it["cells"][2])) for it in rows]
    return keys == sorted(keys) and len({it["cells"][0] for it in rows}) == len(rows)


def to_edge(browser, page, index, where, true):
    """Scrolls to an edge of what is known, and waits until more is. Answers how deep the first row in sight is, by the id of a list."""
    page.scroll(index, where)
    rows = page.rows(index)
    must(bool(rows) and true(rows), True, f"whether {index} is in order, of {rows}")
    if index == "line":
        return int(rows[0]["cells"][1])
    first = browser.run("return document.querySelector(arguments[0] + ' .row:not([hidden]) .says') === null && document.querySelector(arguments[0] + ' .scroll').scrollTop === 0", page.panel(index))
    return 0 if where == "0" and first else DEEP + 1


def lines_of_a_page(browser, page, rows):
    """How many places of an index a jump in it asks, near the one to which it goes."""
    page.settle("by_balance")
    near = "sent.filter((it) => it.cmd === 'nth' && it.index === 'by_balance' && Math.abs(it.n - arguments[0]) < arguments[1])"
    browser.run("""window.sent = []; const real = window.fetch;
        window.fetch = (path, how) => { if (path === "/ask") sent.push(...JSON.parse(how.body).lines.map(JSON.parse)); return real(path, how); };
        const it = document.querySelector(arguments[0] + " .scroll"); it.scrollTop = it.scrollHeight * 0.7""", page.panel("by_balance"))
    page.settle("by_balance")
    given = rows * 7 // 10, max(100, rows // 100)
    page.wait_is(f"return {near}.length", *given, about="that a jump asks rows")
    return browser.run(f"return new Set({near}.map((it) => it.n)).size", *given)


# Pictures


def written(browser, taken):
    os.makedirs(IMAGES, exist_ok=True)
    for name, data in taken.items():
        with open(f"{IMAGES}/window-{name}.png", "wb") as file:
            file.write(small_png.made_small(browser, data))


def pictures(browser, options):
    """Those of the guide: a record marked in each index, and a distribution zoomed in."""
    try:
        with window_kit.Large(options.rows) as web:
            browser.size(1400, 660)
            page = Page(browser, web)
            page.search("by_balance", balance="5000")
            page.wait_text(f"{page.panel('by_balance')} .found", "records have this key")
            page.wait_rows("by_balance", lambda rows: any(it["pointed"] for it in rows), "what was found is marked")
            browser.run("document.querySelector(arguments[0]).scrollIntoView({ inline: 'start', block: 'nearest' })", page.panel("by_balance"))
            pointed = next(it for it in page.rows("by_balance") if it["pointed"])
            page.click_row("by_balance", pointed["cells"][1])
            for index in ("by_class", "line"):
                page.wait_rows(index, lambda rows: any(it["pointed"] for it in rows), f"it is marked in {index}")
                page.settle(index)
            taken = {"rows": browser.png()}
            browser.click("#tab-plot")
            browser.wait('return document.querySelectorAll(".bars button").length > 3')
            browser.run('document.querySelector(".bars button").click()')
            page.wait_is('return document.querySelectorAll(".trail li").length === 2 && !document.querySelector(".bars[aria-busy]")',
                         about="that a bar zooms")
            browser.hover(600, 250)
            browser.run_later(SETTLED)
            page.wait_is(f"return {READY['plot']}", about="that the distribution is there whole")
            taken["distribution"] = browser.png()
        written(browser, taken)
    finally:
        browser.size(1280, 800)
    return "docs/img/window-rows.png and docs/img/window-distribution.png"


PARTS = {"views": views, "undo": undo, "foreign": foreign, "return": returning, "access": access, "million": million, "pictures": pictures}
LONG = ("million", "pictures")
BROWSERS = {"chromium": Browser, "firefox": Firefox}


def come_late(browser, seconds):
    """From here on each look at the page is late by a random time."""
    run, pick = browser.run, random.Random(1)

    def late(*given):
        time.sleep(pick.random() * seconds)
        return run(*given)

    browser.run = late


def seen(browser, name):
    """Where a picture is of what a part saw, if the browser still gives one."""
    path = f"{program.TOP}/out/window-{name}.png"
    os.makedirs(os.path.dirname(path), exist_ok=True)
    try:
        browser.picture(path)
    except (Failed, OSError) as why:
        return f"the browser gives no picture: {why}"
    return f"what it saw is {os.path.relpath(path)}"


def tried(browser, name, options):
    """Runs a part, and prints what it says. Answers whether it has passed."""
    began = time.monotonic()
    try:
        print(f"{name}: {PARTS[name](browser, options)} ({time.monotonic() - began:.0f} s)", flush=True)
    except window_kit.build.Missing as why:
        print(f"{name}: left out: no server of a million rows: {why}", flush=True)
    except window_kit.NotReady as why:
        print(f"window: {name}: {why}", flush=True)
        return False
    except (Differs, Failed) as why:
        print(f"window: {name}: {why}\n{seen(browser, name)}", flush=True)
        return False
    return True


def main():
    parser = argparse.ArgumentParser(description=__doc__, formatter_class=argparse.RawDescriptionHelpFormatter)
    parser.add_argument("--part", choices=list(PARTS))
    parser.add_argument("--short", action="store_true")
    parser.add_argument("--browser", choices=list(BROWSERS), default="chromium")
    parser.add_argument("--rows", type=int, default=window_kit.MILLION)
    parser.add_argument("--late", type=int, default=0, metavar="MS")
    options = parser.parse_args()
    lacks = webdriver.lacking() if options.browser == "chromium" else marionette.lacking()
    if lacks:
        print(f"window: left out, it needs {' and '.join(lacks)} (apt-get install {' '.join(lacks)})")
        return 0
    chosen = [options.part] if options.part else [it for it in PARTS if not (options.short and it in LONG)]
    with BROWSERS[options.browser]() as browser:
        if options.late:
            come_late(browser, options.late / 1000)
        return 0 if all(tried(browser, name, options) for name in chosen) else 1
