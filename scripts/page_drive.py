#!/usr/bin/env python3
"""The rows of the page in a real browser. Called by scripts/page_rows:

    page_drive.py PAGE FOLDER       PAGE is the folder of the page, FOLDER one for the single files that are made

It prints each row, then how many passed and failed. The last rows are the wrong pages of PAGE/must-fail, each of which a row refuses."""
import glob
import os
import shutil
import subprocess
import sys
import tempfile
import time

sys.dont_write_bytecode = True
from page_browser import Browser, Hung
from page_cases import BLUE, FIRST_ROWS, EXAMPLES, FLANGE, HERE, Hand, rows_of_page, text
from page_texts import long_trace


class Refused(Exception):
    """A row of a wrong page failed, as it should."""


class Rows:
    """Counts and prints rows: each has a name, whether it is so, and what was seen."""

    def __init__(self):
        self.passed = self.failed = 0

    def __call__(self, name, is_so, seen=None):
        self.passed, self.failed = self.passed + bool(is_so), self.failed + (not is_so)
        print(f"page row passed: {name}" if is_so else f"page row FAILED: {name}: {seen!r}", flush=True)

    def equal(self, name, seen, due):
        self(name, seen == due, f"{seen!r} in place of {due!r}")

    def has(self, name, seen, part):
        self(name, seen is not None and part in seen, f"{seen!r} has no {part!r}")

    def near(self, name, seen, due, within):
        self(name, abs(seen - due) <= within, f"{seen!r} in place of {due!r}")


class WrongRows(Rows):
    """The rows of a wrong page: the first that fails refuses it."""

    def __call__(self, name, is_so, seen=None):
        if not is_so:
            raise Refused(name)


def rows_of_length(row, browser):
    """A long trace, on the page that is open."""
    long, began = long_trace(20000), time.monotonic()
    browser.drop([("long.txt", long)])
    took = time.monotonic() - began
    row.equal("20,000 moves are drawn", Hand(browser).data("moves"), "10000 10000")
    row("within 15 s, even on a busy machine", took < 15, took)
    before = browser.run("Camera.xOf(0)")
    browser.drag(500, 300, 560, 300)
    time.sleep(0.3)
    row.near("a long picture can be dragged", browser.run("Camera.xOf(0)") - before, 60, 2)


def rows_of_single_files(row, browser, folder):
    """The files that scripts/picture makes."""
    hand, picture = Hand(browser), os.path.join(HERE, "picture")
    tapes = [os.path.join(EXAMPLES, name) for name, _ in FLANGE]
    for name, more, due in (("examples", [], "19 11"), ("flange", tapes, "38 24"), ("drift", [], "8 4")):
        made = os.path.join(folder, name + ".html")
        with open(made, "wb") as out:
            done = subprocess.run([picture, name, *more], input=text(name + ".txt").encode(), stdout=out, stderr=subprocess.DEVNULL)
        browser.open(made)
        row.equal(f"one file of {name}", (done.returncode, hand.data("state"), hand.data("moves")), (0, "drawn", due))
        row(f"one file of {name} has its cuts, and its tapes if they were given",
            hand.heights("plane", BLUE) and browser.run("$('tapes').hidden") == (not more))
    row.equal("one file needs no other", browser.run("document.querySelectorAll('script[src], link').length"), 0)
    for name, words, given, due in (("a refusal makes no file", ["x"], "refused 72 WaitMismatch\n", (1, b"")),
                                    ("a text with other bytes makes no file", ["x"], "trace 2\n</textarea><script>\n", (1, b"")),
                                    ("a missing tape makes no file", ["x", "no.nc", "no.nc"], text("flange.txt"), (1, b"")),
                                    ("no name of a job is bad usage", [], "", (2, b""))):
        done = subprocess.run([picture, *words], input=given.encode(), capture_output=True)
        row(name, (done.returncode, done.stdout) == due and done.stderr.startswith(b"picture: "), (done.returncode, done.stderr))


def edit_of(name):
    """An edit: the group of rows that refuses it, the file, the old text and the new one."""
    with open(name, encoding="utf-8") as file:
        return dict(line.rstrip("\n").split(": ", 1) for line in file)


def wrong_page(page, edit, folder):
    """Makes the wrong page of an edit. Its old text must stand there once."""
    made = os.path.join(folder, "page")
    shutil.copytree(page, made)
    path = os.path.join(made, edit["file"])
    with open(path, encoding="utf-8") as file:
        source = file.read()
    if source.count(edit["old"]) != 1:
        raise RuntimeError("the old text does not stand there once")
    with open(path, "w", encoding="utf-8") as file:
        file.write(source.replace(edit["old"], edit["new"]))
    return made


def refuse_wrong_pages(row, browser, page):
    """Each wrong page must be refused by a row, and not because it does not come up."""
    for name in sorted(glob.glob(os.path.join(page, "must-fail", "*.edit"))):
        called, edit = "wrong page: " + os.path.basename(name)[:-len(".edit")].replace("_", " "), edit_of(name)
        with tempfile.TemporaryDirectory(prefix="page_rows.") as folder:
            browser.problems.clear()
            try:
                rows_of_page(WrongRows(), browser, wrong_page(page, edit, folder), [edit["rows"]])
                row(called, False, "no row refuses it")
            except Refused as refused:
                row(f"{called} (refused by: {refused})", str(refused) not in FIRST_ROWS, "it does not come up")
            except RuntimeError as fault:
                row(called, False, str(fault))
            browser.size(1400, 900)
            browser.call("Emulation.setTouchEmulationEnabled", enabled=False)


def main(page, folder):
    row, began = Rows(), time.monotonic()
    try:
        browser = Browser()
    except Hung as fault:
        row("the browser starts", False, str(fault))
    else:
        try:
            rows_of_page(row, browser, page)
            rows_of_length(row, browser)
            rows_of_single_files(row, browser, folder)
            refuse_wrong_pages(row, browser, page)
        except (Hung, RuntimeError) as fault:
            row("the rows come to their end", False, str(fault))
        finally:
            browser.close()
    print(f"page rows: {time.monotonic() - began:.0f} seconds")
    print(f"page rows: {row.passed} passed, {row.failed} failed")
    return 0 if row.failed == 0 else 1


if __name__ == "__main__":
    sys.exit(main(*sys.argv[1:3]))
