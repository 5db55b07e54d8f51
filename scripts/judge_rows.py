"""judge_rows.py ROOT PAGE PROGRAM WORK: opens the page that build_page made as a user does, and compares what it says with what the program
says. Then it opens wrong pages (page/judge/must-fail), each of which some row must refuse. Used by judge_rows."""
import base64
import concurrent.futures
import glob
import os
import shutil
import subprocess
import sys
import time

from called_program import FILES, Program
from judge_cases import ACCEPTED, GROUPS, LIMIT, LONG, MODULE, Page, line_of, long_tape
from library_texts import changed_triples, triples
from page_browser import Browser, Hung
import page_firefox
from page_drive import Refused, edit_of
import page_module

ROOT, PAGE, PROGRAM, WORK = sys.argv[1:]
CHANGED = 500
PROGRAM_OF = Program(PROGRAM, WORK)


class Rows:
    """Counts rows, and prints those that fail: each has a name, whether it is so, and what was seen."""

    def __init__(self):
        self.passed = self.failed = 0

    def __call__(self, name, is_so, seen=None):
        self.passed, self.failed = self.passed + bool(is_so), self.failed + (not is_so)
        if not is_so and self.failed <= 20:
            print(f"judge row FAILED: {name}: {seen!r}"[:500], flush=True)

    def equal(self, name, seen, due):
        self(name, seen == due, f"{seen!r} in place of {due!r}"[:400])

    def has(self, name, seen, part):
        self(name, part in (seen or ""), f"{seen!r} has no {part!r}")


class WrongRows(Rows):
    """The rows of a wrong page: the first that fails refuses it."""

    def __call__(self, name, is_so, seen=None):
        if not is_so:
            raise Refused(name)


# ---- page and program ----

def due_of(given):
    """What the program says of a triple."""
    name, texts = given
    calls = {"waits": PROGRAM_OF(texts, "waits", *FILES), "verdict": PROGRAM_OF.again("verify", *FILES)}
    if calls["verdict"].status == 0:
        calls["trace"] = PROGRAM_OF.again("trace", "--blocks", str(LIMIT), *FILES)
    return name, texts, {part: (answer.status, answer.text.decode()) for part, answer in calls.items()}


def compare(row, page):
    """The page says the bytes that the program says, and draws what it says."""
    many_waits = tuple("\n".join(["%", f"O{path}", *[f"M{100 + k % 90}" for k in range(4000)], "M30", "%", ""]).encode() for path in (1, 2))
    given = [*triples(), *changed_triples(CHANGED), ("many waits", (*many_waits, b"")), ("long tapes", LONG),
             ("a block too many", (long_tape(1, 19998), LONG[1], b""))]
    with concurrent.futures.ThreadPoolExecutor(4) as pool:
        for name, texts, due in pool.map(due_of, given):
            seen = page.give(*texts)
            row.equal(f"{name}: the parts", list(seen["answers"]), list(due))
            for part in due:
                row.equal(f"{name}: {part}", line_of(seen["answers"].get(part)), due[part])
            if "trace" in due:
                row.equal(f"{name}: the picture", (seen["state"], seen["isStale"]), ("drawn", False))


# ---- another browser ----

# Whether a browser knows the kind of module: an empty one with a memory of 64 bits.
KNOWS_MODULE = "WebAssembly.validate(new Uint8Array([0, 97, 115, 109, 1, 0, 0, 0, 5, 3, 1, 4, 1]))"
# The groups that only Chromium can be driven for, and those that take long and say the same in each browser.
CHROMIUM_ALONE = "looks", "requests", "typing", "length"


class RowsIn(Rows):
    """The rows of another browser, under its name."""

    def __init__(self, row, browser):
        self.row, self.browser = row, browser

    def __call__(self, name, is_so, seen=None):
        self.row(f"{self.browser}: {name}", is_so, seen)


def rows_of_firefox(row, path):
    """The page by itself in Firefox: the same groups of rows, and a long pair."""
    firefox = page_firefox.Firefox(os.path.join(WORK, "saved"))
    try:
        if not firefox.run(KNOWS_MODULE):
            return print("judge rows: this Firefox knows no WebAssembly of 64 bits: its rows are left out")
        page, rows = Page(firefox), RowsIn(row, "Firefox")
        page.open(path)
        for name, group in GROUPS.items():
            if name not in CHROMIUM_ALONE:
                group(rows, page, WORK)
        seen = page.give(*LONG)
        rows.equal("20,000 blocks a tape are judged and drawn", (line_of(seen["answers"].get("verdict")), seen["state"], seen["isStale"]), (ACCEPTED, "drawn", False))
        rows.equal("no exception", firefox.problems, [])
    finally:
        firefox.close()


# ---- wrong pages ----

def wrong_page(edit, module):
    """Makes the wrong page of an edit. Its old text must stand in the page's scripts once."""
    folder, made = os.path.join(WORK, "page"), os.path.join(WORK, "wrong.html")
    shutil.rmtree(folder, ignore_errors=True)
    shutil.copytree(os.path.join(ROOT, "page"), folder)
    name = os.path.join(folder, "judge", edit["file"])
    source = page_module.read(name)
    if source.count(edit["old"]) != 1:
        raise RuntimeError("the old text does not stand there once")
    with open(name, "w", encoding="utf-8") as file:
        file.write(source.replace(edit["old"], edit["new"]))
    text = page_module.assemble(folder, page_module.read(os.path.join(ROOT, "docs/ERRORS.md")), module)
    with open(made, "w", encoding="utf-8") as file:
        file.write(text)
    return made


def open_browser():
    """A page in a browser of its own, whose workers are watched."""
    browser = Browser()
    browser.watch_workers()
    return Page(browser)


def try_wrong_page(row, page, called, edit, module):
    """Tries a wrong page, and tells whether a row of the group that its edit names refuses it."""
    try:
        page.open(wrong_page(edit, module))
        GROUPS[edit["rows"]](WrongRows(), page, WORK)
        row(called, False, "no row refuses it")
    except Refused as refused:
        row(f"{called} (refused by: {refused})", True)
        print(f"judge rows: {called}, refused by: {refused}")
    except RuntimeError as fault:
        row(called, False, str(fault))


def refuse_wrong_pages(row, module):
    """Each wrong page must be refused by a row. If the browser goes away, it is tried in a new one, once more."""
    page = open_browser()
    for name in sorted(glob.glob(os.path.join(ROOT, "page/judge/must-fail/*.edit"))):
        called, edit = "wrong page: " + os.path.basename(name)[:-len(".edit")].replace("_", " "), edit_of(name)
        for is_last in (False, True):
            try:
                try_wrong_page(row, page, called, edit, module)
                break
            except Hung as fault:
                page.browser.close()
                page = open_browser()
                if is_last:
                    row(called, False, str(fault))
    page.browser.close()


def main():
    row, began = Rows(), time.monotonic()
    row("the page has no more bytes than build_page allows", os.path.getsize(PAGE) <= page_module.MOST_BYTES, os.path.getsize(PAGE))
    # The page by itself, in a folder without any other file.
    alone = os.path.join(WORK, "alone", "twin_lathe.html")
    os.mkdir(os.path.dirname(alone))
    shutil.copy(PAGE, alone)
    try:
        page = open_browser()
    except Hung as fault:
        row("the browser starts", False, str(fault))
    else:
        try:
            page.open(alone)
            for group in GROUPS.values():
                group(row, page, WORK)
            compare(row, page)
            row.equal("no exception, and no request", page.browser.problems, [])
            page.browser.close()
            if page_firefox.find():
                rows_of_firefox(row, alone)
            else:
                print("judge rows: there is no Firefox here: its rows are left out")
            refuse_wrong_pages(row, base64.b64decode(MODULE.search(page_module.read(PAGE))[2]))
        except (Hung, page_firefox.Gone, RuntimeError, subprocess.TimeoutExpired) as fault:
            row("the rows come to their end", False, str(fault))
        finally:
            page.browser.close()
    print(f"judge rows: {time.monotonic() - began:.0f} seconds")
    print(f"judge rows: {row.passed} passed, {row.failed} failed")
    return row.failed > 0


sys.exit(main())
