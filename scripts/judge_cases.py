"""The rows of the page that judges, in groups: what a user does, and what must then be said, marked and drawn. Each group takes the rows,
what they ask of the page, and the room in which pages and texts are made. Used by judge_rows.py."""
import base64
import os
import re
import shutil
import socket
import time

import wasm_binary
from library_texts import EXAMPLES, read

LIMIT = 50000                   # records of a picture, as page/judge/worker.js has it
PARTS = ("waits", "verdict", "trace")
WORKERS = 2                     # one for the waits, one for the other parts
PATIENCE = 300                  # seconds for one question, on a machine that does much else
MODULE = re.compile(r'(<script type="text/plain" id="module">)([^<]*)(</script>)')

# What scripts of the page are: `now` is what is answered and seen, `settled` waits until all is answered.
SETTLED = """
  const page = document.documentElement.dataset;
  const settled = async () => { while (page.judged === "asked") await new Promise(done => setTimeout(done, 2)); };
  const now = () => ({ answers: { ...Judge.answers }, state: page.state, isStale: document.body.classList.contains("stale"), workers: Judge.workers,
    marked: Judge.texts.map(text => [...text.numbers.querySelectorAll(".marked")].map(row => Number(row.textContent))),
    said: Object.fromEntries(["waits", "verdict", "run", "races"].map(part => [part, $("judge-" + part).textContent])) });
"""
GIVE = """(async () => {
  %s
  const times = {}, turns = { before: 0 };
  let begun = 0;
  const look = new MutationObserver(() => { for (const part of Object.keys(Judge.answers)) times[part] ??= performance.now() - begun; });
  look.observe($("judge"), { subtree: true, childList: true });
  const bytes = %s.map(text => Uint8Array.from(atob(text), letter => letter.charCodeAt(0)));
  bytes.forEach((text, k) => Judge.texts[k].set("", text));
  begun = performance.now();
  Judge.ask();
  const turn = () => { if (page.judged === "asked" && !times.trace) { turns.before += 1; setTimeout(turn, 1); } };
  turn();
  await settled();
  look.disconnect();
  return { ...now(), times, turns: turns.before };
})()"""


class Page:
    """What a user does with the page that judges, and what is to be seen of it."""

    def __init__(self, browser):
        self.browser, self.run, self.path = browser, browser.run, None

    def open(self, path):
        """Opens a page, from a file."""
        self.path = path
        self.run("typeof Keep === 'undefined' || (Keep.want(false), 0)")        # what this one keeps is not for the next
        self.browser.open(path)
        self.run("Keep.want(true)")
        self.run("document.documentElement.dataset.judged = ''")

    def give(self, *texts):
        """Gives it three texts at once, and waits for all answers."""
        return self.run(GIVE % (SETTLED, [base64.b64encode(text).decode() for text in texts]), seconds=PATIENCE)

    def clear(self):
        """Takes all texts away, with their changes."""
        self.run("Judge.texts.forEach(text => text.set('', new Uint8Array()))")

    def do(self, script):
        """Does something that asks again, and waits for all answers."""
        return self.run("""(async () => { %s
          page.judged = "asked";
          %s;
          await settled();
          return now();
        })()""" % (SETTLED, script), seconds=PATIENCE)

    def wait(self):
        """Waits for all answers, and for a change that is about to be asked."""
        return self.run("(async () => { %s await settled(); return now(); })()" % SETTLED, seconds=PATIENCE)

    def type(self, *texts):
        """Types where the cursor is, and waits for all answers."""
        for text in texts:
            self.browser.type(text)
        return self.wait()

    def select(self, place, line, begin, end):
        """Puts the cursor on letters of a line."""
        self.run(f"""(text => {{ text.goTo({line}); const at = text.field.selectionStart; text.field.setSelectionRange(at + {begin}, at + {end}); }})
          (Judge.texts[{place}])""")

    def drop(self, target, files):
        """Drops files, (name, bytes) each, on a part of the page."""
        given = [[name, base64.b64encode(data).decode()] for name, data in files]
        return self.do(f"""const data = new DataTransfer();
          for (const [name, text] of {given})
            data.items.add(new File([Uint8Array.from(atob(text), letter => letter.charCodeAt(0))], name));
          {target}.dispatchEvent(new DragEvent("drop", {{ dataTransfer: data, bubbles: true, cancelable: true }}))""")

    def start_drop(self, target, files):
        """Drops files, and waits until the page asks whether what is there may go."""
        given = [[name, base64.b64encode(data).decode()] for name, data in files]
        self.run(f"""(async () => {{ const data = new DataTransfer();
          for (const [name, text] of {given})
            data.items.add(new File([Uint8Array.from(atob(text), letter => letter.charCodeAt(0))], name));
          {target}.dispatchEvent(new DragEvent("drop", {{ dataTransfer: data, bubbles: true, cancelable: true }}));
          for (let turn = 0; turn < 400 && !{OPEN}; turn++) await new Promise(done => setTimeout(done, 10)); }})()""")

    def choose(self, name, files):
        """Chooses files by the button of an element."""
        self.run("document.documentElement.dataset.judged = 'asked'")
        self.browser.choose(name, files)
        return self.wait()


def line_of(answer):
    """An answer as a row shows it: its status, and its text."""
    return (answer["status"], answer["text"]) if answer else None


def pair(*names):
    return tuple(read(name) for name in names)


GOOD = "upper.nc", "lower.nc", "cell.txt"
DEADLOCK = "deadlock_upper.nc", "deadlock_lower.nc", "plain.txt"
MISMATCH = (1, "refused 72 WaitMismatch path 1 line 3 path 2 line 3 after 0\n")
ACCEPTED = (0, "accepted\n")


def long_tape(path, count):
    """A tape of so many blocks; each hundredth is a wait."""
    lines = [f"G01 X{40 + k % 17}.{k % 10} Z-{k % 50}.5 F0.{1 + k % 5}" if k % 100 else f"M{100 + k // 100 % 90}" for k in range(count)]
    return ("\n".join(["%", f"O{path}", "G99", "G97 S800", *lines, "M30", "%"]) + "\n").encode()


LONG = long_tape(1, 19997), long_tape(2, 19997), b""        # 20,000 blocks with the first two and the end, as many as a tape may have


# ---- the groups ----

def rows_of_answers(row, page, room):
    """What is said of an accepted pair, of a refused one, of settings, and of a run that ends by an alarm."""
    seen = page.give(*pair(*GOOD))
    row.equal("the parts come in their order", (list(seen["times"]), sorted(seen["times"], key=seen["times"].get)), (list(PARTS), list(PARTS)))
    row.equal("an accepted pair is accepted", line_of(seen["answers"]["verdict"]), ACCEPTED)
    row.equal("the waits have both lines", seen["answers"]["waits"]["text"].splitlines()[0], "waits 2")
    row("each meeting is shown with both lines", all(line in seen["said"]["waits"] for line in seen["answers"]["waits"]["text"].splitlines()),
        seen["said"]["waits"])
    row.equal("its picture is drawn", (seen["state"], page.run("document.documentElement.dataset.moves"), seen["isStale"]), ("drawn", "19 11", False))
    row.has("and how its run ends is said", seen["said"]["run"], "end done")
    row.equal("and that it has no race", seen["said"]["races"], "races 0All runs that both paths finish have the same moves.")
    row.equal("no line is marked", seen["marked"], [[], [], []])
    page.run("document.querySelector('#judge-waits .place').click()")
    due = [int(number) for number in re.findall(r"line (\d+)", seen["answers"]["waits"]["text"].splitlines()[1])]
    row.equal("a click on a meeting goes to both lines", page.run("""Judge.texts.slice(0, 2).map(({ field }) =>
        field.value.slice(0, field.selectionStart).split("\\n").length)"""), due)

    page.run("$('judge-outside').value = '9000-9999'")
    waits = page.give(*pair("shaft_upper.nc", "shaft_lower.nc", "plain.txt"))["answers"]["waits"]["text"].splitlines()
    row.equal("programs in the control are taken for what they are said to be", (waits[0], waits[-1]), ("waits 4", "goes on G42 G70 G71 G75 G76 O9010"))
    page.run("$('judge-outside').value = ''")

    seen = page.give(*pair(*DEADLOCK))
    row.equal("a deadlock is refused", line_of(seen["answers"]["verdict"]), MISMATCH)
    row.equal("and has no trace", list(seen["answers"]), ["waits", "verdict"])
    row.equal("the lines of both tapes are marked", seen["marked"], [[3], [3], []])
    row("what a refusal means is said once", "Do: " not in seen["said"]["waits"], seen["said"]["waits"])
    for part in ("M101", "M102", "Meaning: ", "Do: make both tapes wait at the same codes in the same order"):
        row.has(f"a refusal says the lines and what to do: {part}", seen["said"]["verdict"], part)
    row("the picture of the pair before is no longer in force, and is not saved", seen["isStale"] and page.run("$('save-picture').disabled"))
    row.equal("a mark is where its line is", page.run("""Judge.texts.slice(0, 2).map(({ field }) => [getComputedStyle(field).lineHeight,
        getComputedStyle(field).paddingTop, /\\) 36px, .*\\) 54px, /.test(getComputedStyle(field).backgroundImage)])"""), [["18px", "0px", True]] * 2)

    seen = page.give(*pair(*GOOD[:2]), b"wait 100 199\nplace 1 X300.\n")
    row.equal("bad settings are refused", line_of(seen["answers"]["verdict"]), (1, "refused 90 BadSetting line 2\n"))
    row.equal("and their line is marked", seen["marked"], [[], [], [2]])

    seen = page.give(b"%\nO1\n#101=0\n#102=40/#101\nM30\n%\n", b"%\nO2\nM30\n%\n", b"")
    row.equal("an alarm leaves the verdict as it is", line_of(seen["answers"]["verdict"]), ACCEPTED)
    row.has("and is said", seen["said"]["run"], "end alarm path 1 line 4 cause 2 ZeroDivide")
    row.has("with what to do", seen["said"]["run"], "Do: set the divisor before this line")
    row.equal("and its line is marked", (seen["marked"], seen["answers"]["trace"]["status"]), ([[4], [], []], 3))

    seen = page.give(*pair("race_upper.nc", "race_lower.nc", "plain.txt"))
    row.equal("a race leaves the verdict as it is", line_of(seen["answers"]["verdict"]), ACCEPTED)
    for part in ("races 1", "#500 after 0 path 1 line 3 path 2 line 3", "Put a wait into both tapes between the two lines"):
        row.has(f"and is said, with what to do: {part}", seen["said"]["races"], part)
    row.equal("and marks no line before it is clicked", seen["marked"], [[], [], []])
    page.run("document.querySelector('#judge-races .place').click()")
    row.equal("then its line of each path", page.wait()["marked"], [[3], [3], []])

    seen = page.give(b"%" * 4194305, *pair(*GOOD[1:]))
    row.equal("a tape that is too long has the program's status", seen["answers"]["verdict"]["status"], 13)
    row.has("and is told", seen["said"]["verdict"], "more than 4,194,304 bytes")


def rows_of_hands(row, page, room):
    """Texts come in by drop, by choice and by typing, and go in byte by byte."""
    named = list(zip(GOOD, pair(*GOOD)))
    seen = page.drop("document.body", [named[2], named[0], named[1]])
    row.equal("three files that are dropped on the page find their places", line_of(seen["answers"].get("verdict")), ACCEPTED)
    row.equal("with their names", page.run("Judge.texts.map(text => text.title.textContent)"), list(GOOD))
    seen = page.drop("$('judge-right')", [("other.nc", read("deadlock_lower.nc"))])
    row.equal("a file that is dropped on a text goes there", page.run("Judge.texts.map(text => text.title.textContent)"), ["upper.nc", "other.nc", "cell.txt"])
    row.equal("and is judged", seen["answers"]["verdict"]["status"], 1)
    seen = page.do("$('judge-exchange').click()")
    row.equal("the tapes can be exchanged", page.run("Judge.texts.map(text => text.title.textContent)"), ["other.nc", "upper.nc", "cell.txt"])
    examples = os.path.realpath(EXAMPLES)
    for name, file in (("judge-left-file", DEADLOCK[0]), ("judge-right-file", DEADLOCK[1]), ("judge-cell-file", DEADLOCK[2])):
        seen = page.choose(name, [os.path.join(examples, file)])
    row.equal("files can be chosen", line_of(seen["answers"]["verdict"]), MISMATCH)
    seen = page.choose("file", [os.path.join(examples, file) for file in GOOD])
    row.equal("several at once too", line_of(seen["answers"]["verdict"]), ACCEPTED)
    strange = bytes(range(256))
    page.give(b"%\nO1\n(" + strange.replace(b")", b"").replace(b"\n", b"") + b")\nM30\n%\n", b"%\nO2\nM30\n%\n", b"")
    page.select(0, 4, 0, 0)
    page.type(" ")
    row.equal("a change leaves all other bytes as they are", page.run("[...Judge.texts[0].bytes()]"),
              list(b"%\nO1\n(" + strange.replace(b")", b"").replace(b"\n", b"") + b")\n M30\n%\n"))
    seen = page.give(read(GOOD[0]), b"", b"")
    row.equal("a tape that is not there yet is told", seen["said"], {"waits": "", "verdict": "Path 2 has no tape yet.", "run": "", "races": ""})
    page.give(b"", b"", b"")
    for place, text in ((0, "%\nO1\nM101\nM30\n%\n"), (1, "%\nO2\nM101\nM30\n%\n")):
        page.run(f"Judge.texts[{place}].field.focus()")
        seen = page.type(*text)
    for key in (" ", "0", "+", "-"):
        page.browser.key(key)
    page.wait()
    row.has("keys of the picture are letters in a text", page.run("Judge.texts[1].field.value"), "%\n 0+-")
    row.equal("two tapes that are typed letter by letter are judged", (line_of(seen["answers"]["waits"])[1].splitlines()[0], seen["state"]), ("waits 1", "drawn"))


NAMES = "Judge.texts.map(text => text.title.textContent)"
CAME = "$('judge-came').hidden ? '' : $('judge-came-said').textContent"


def rows_of_files(row, page, room):
    """Files that come together find their places, or the page asks; what it does not take it says, and no byte is changed on the way."""
    upper, lower, cell = zip(GOOD, pair(*GOOD))
    page.clear()
    seen = page.drop("document.body", [lower, upper, cell])
    row.equal("lower.nc is path 2, though it comes first", page.run(NAMES), list(GOOD))
    row.equal("and it is judged so", line_of(seen["answers"].get("verdict")), ACCEPTED)
    row.has("by which sign is told", page.run(CAME), "Path 1: upper.nc, Path 2: lower.nc, Settings: cell.txt (the paths by their names)")
    page.drop("document.body", [("O12.nc", lower[1]), ("O11.nc", b"%\nO11 (HEAD 1)\nM30\n%\n")])
    row.has("or by their comments", page.run(CAME), "Path 1: O11.nc, Path 2: O12.nc (the paths by their comments)")
    cell_of_two = cell[1].replace(b"place 1 X200.", b"place 1 X222.")
    mute = [text[1].replace(b"(UPPER TURRET)", b"").replace(b"(LOWER TURRET)", b"") for text in (upper, lower)]
    seen = page.drop("document.body", [("b.nc", mute[1]), ("a.nc", mute[0]), ("cell.txt", cell_of_two)])
    row.has("where nothing says it, it is asked", page.run(CAME), "Path 1: b.nc, Path 2: a.nc, Settings: cell.txt. Nothing says which path is whose. Is it so?")
    seen = page.do("$('judge-came-exchange').click()")
    row.equal("one click exchanges them", page.run(NAMES), ["a.nc", "b.nc", "cell.txt"])
    row("and the settings stay those of their paths", "\n1 0 at X222.000 Z150.000\n" in seen["answers"]["trace"]["text"] if "trace" in seen["answers"] else False,
        seen["said"])
    page.drop("$('judge-left')", [lower])
    page.drop("$('judge-right')", [upper])
    row.has("a file that was put to the other path is asked about", page.run(CAME), "By their names the tapes are the other way round. Is it so?")
    page.run("$('judge-came-right').click()")
    row.equal("and a yes is enough", page.run(CAME), "")
    seen = page.drop("document.body", [("b.txt", b"O1\nG00 X1.\nM30\n"), ("a.txt", b"O2\n#100=1\nIF[#100 EQ 0]GOTO 5\nM30\n")])
    row.equal("a tape without a percent sign is a tape", page.run(NAMES), ["b.txt", "a.txt", "cell.txt"])
    row("and what it lacks is told", seen["answers"]["verdict"]["status"] == 1 and "Do: " in seen["said"]["verdict"], seen["said"])
    page.drop("document.body", [upper, lower, ("third.nc", lower[1]), cell, ("more.txt", b"home 1 X3.\n"), ("part.pdf", b"%PDF-1.7\n\0\n"), ("note.txt", b"Dear all\n")])
    for part in ("third.nc (there are two paths)", "more.txt (there is one text of settings)", "part.pdf (it looks neither like", "note.txt (it looks neither like"):
        row.has(f"what was not taken is told: {part}", page.run(CAME), part)
    row.equal("and the others have their places", page.run(NAMES), list(GOOD))
    page.drop("document.body", [("lower.nc", read("deadlock_lower.nc"))])
    row.equal("a tape that comes again goes where it was", page.run(NAMES + ".concat(Judge.texts[1].line(4))"), [*GOOD, "M101"])
    rows_of_returns(row, page)


def rows_of_returns(row, page):
    """A carriage return by itself stays one, and line ends of Windows stay so."""
    alone = b"%\nO1\nG00 X1.\nN20\rG28\nM30\n%\n"
    due = (1, "refused 10 BadCharacter path 1 line 4\n")
    seen = page.give(alone, b"%\nO2\nM30\n%\n", b"")
    row.equal("a carriage return by itself is refused at its line", line_of(seen["answers"]["verdict"]), due)
    row.equal("and the editor has as many lines as the control", page.run("Judge.texts[0].lines"), 7)
    page.select(0, 5, 0, 0)
    seen = page.type(" ")
    row.equal("it stays what it is when another line is changed", page.run("[...Judge.texts[0].bytes()]"), list(alone.replace(b"M30", b" M30")))
    row.equal("and is refused still", line_of(seen["answers"]["verdict"]), due)
    page.run("""(field => { const data = new DataTransfer(); data.setData("text/plain", "\\r(A)\\r\\n");
        const event = new ClipboardEvent("paste", { bubbles: true, cancelable: true });
        Object.defineProperty(event, "clipboardData", { value: data });         // (not each browser takes it as a word of the event)
        field.dispatchEvent(event); })(Judge.texts[0].field)""")
    page.wait()
    row("one that is pasted stays too", b" \r(A)\nM30" in bytes(page.run("[...Judge.texts[0].bytes()]")), page.run("Judge.texts[0].field.value"))
    windows = b"%\r\nO1\r\nM30\r\n%\r\n"
    page.give(windows, b"%\nO2\nM30\n%\n", b"")
    page.select(0, 3, 0, 0)
    page.type("M101\n")
    row.equal("line ends of Windows stay so", page.run("[...Judge.texts[0].bytes()]"), list(windows.replace(b"M30", b"M101\r\nM30")))


def saved(page, room, name, script):
    """The bytes of the file that a script of the page, or a user, saves under a name; None if none comes."""
    folder = os.path.join(room, "saved")
    shutil.rmtree(folder, ignore_errors=True)
    os.mkdir(folder)
    page.browser.save_to(folder)
    if callable(script):
        script()
    else:
        page.run(script + "; 0")
    whole = os.path.join(folder, name)
    for _ in range(400):
        # (a browser may make the file first, and fill it when all has come)
        if os.path.exists(whole) and os.path.getsize(whole) and os.listdir(folder) == [name]:
            with open(whole, "rb") as file:
                return file.read()
        time.sleep(0.025)
    return None


def rows_of_saving(row, page, room):
    """What was changed, the picture and the report become files; nothing goes without a question; what was open comes back."""
    upper, lower, cell = zip(GOOD, pair(*GOOD))
    page.clear()
    page.drop("document.body", [upper, lower, cell])
    page.select(0, 2, 0, 0)
    page.browser.key(" ")
    page.wait()
    changed = upper[1].replace(b"O0001", b" O0001")
    row.equal("a change is told", page.run(NAMES), ["upper.nc, changed", "lower.nc", "cell.txt"])
    row.equal("the changed tape is saved under its name", saved(page, room, "upper.nc", "$('judge-left-save').click()"), changed)
    row.equal("and has no changes then", page.run(NAMES), list(GOOD))
    row.equal("the settings are saved", saved(page, room, "cell.txt", "$('judge-cell-save').click()"), cell[1])
    picture = saved(page, room, "upper.png", "$('save-picture').click()") or b""
    wide = page.run("Plane.sheet.width")
    row("the picture is saved", picture[:8] == b"\x89PNG\r\n\x1a\n" and int.from_bytes(picture[16:20], "big") >= 2 * wide > 0, picture[:24])
    row("and what is shown stays", page.run("Plane.sheet.under.width === Math.round(Plane.sheet.width * devicePixelRatio)"))
    report = (saved(page, room, "twin_lathe report.txt", "$('save-report').click()") or b"").decode()
    for part in (f"path 1: upper.nc, {len(changed)} bytes\n", "== verify\naccepted\n", "== waits\nwaits 2\n", "\nraces 0\n", "\npath 1 moves 19\n", "\nend done\n"):
        row.has(f"the report has {part.strip()!r}", report, part)
    strange = b"%\nO1\n(" + bytes(range(256)).replace(b")", b"").replace(b"\n", b"") + b")\nM30\n%\n"
    page.give(strange, b"%\nO2\nM30\n%\n", b"")
    row.equal("a text is saved byte by byte", saved(page, room, "path1.nc", "$('judge-left-save').click()"), strange)
    rows_of_loss(row, page, room)


OPEN = "$('judge-unsaved').open"


def answer(page, value):
    """Presses a button of the question, and waits until all is done that hangs on it."""
    page.run(f"""new Promise(done => {{
        $("judge-unsaved").addEventListener("close", () => setTimeout(done, 50), {{ once: true }});
        document.querySelector("#judge-unsaved button[value={value}]").click(); }})""")
    return page.wait()


def rows_of_loss(row, page, room):
    """What is not saved is asked for before it goes, and comes back after a reload."""
    upper, lower, cell = zip(GOOD, pair(*GOOD))
    other = ("other.nc", read("deadlock_upper.nc"))
    page.drop("document.body", [upper, lower, cell])
    page.run("Judge.texts[0].field.focus()")
    page.select(0, 2, 0, 0)
    page.browser.key(" ")
    page.wait()
    page.start_drop("$('judge-left')", [other])
    row("a tape with changes is asked for before another takes its place", page.run(OPEN))
    answer(page, "stay")
    row.equal("it stays", page.run(NAMES)[0], "upper.nc, changed")
    page.start_drop("$('judge-left')", [other])
    kept = saved(page, room, "upper.nc", "document.querySelector('#judge-unsaved button[value=save]').click()")
    row.equal("or is saved first", (kept, page.wait() and page.run(NAMES)[0]), (upper[1].replace(b"O0001", b" O0001"), "other.nc"))
    page.drop("document.body", [upper, lower, cell])
    row("without changes nothing is asked", not page.run(OPEN))
    page.run("Judge.texts[1].field.focus()")
    page.select(1, 2, 0, 0)
    page.browser.key(" ")
    page.do("$('judge-outside').value = '9000-9999'; Judge.ask()")
    due = page.run("[Judge.texts.map(text => [text.title.textContent, [...text.bytes()]]), $('judge-outside').value]")
    page.browser.asked.clear()
    page.browser.reload()
    seen = page.wait()
    row.equal("the browser asks before a page with changes goes", page.browser.asked, ["beforeunload"])
    row.equal("after a reload all is there, with its changes", page.run("[Judge.texts.map(text => [text.title.textContent, [...text.bytes()]]), $('judge-outside').value]"), due)
    row.equal("and it is judged", line_of(seen["answers"].get("verdict")), ACCEPTED)
    row.has("the page says where they were", page.run(CAME), "This browser kept them")
    page.run("$('judge-clear').click()")
    row("what is to be cleared is asked for", page.run(OPEN))
    answer(page, "go")
    row.equal("and all of it goes", page.run("[Judge.texts.map(text => text.bytes().length), Keep.read()]"), [[0, 0, 0], None])
    page.browser.reload()
    row.equal("for good", page.run("Judge.texts.map(text => text.bytes().length)"), [0, 0, 0])
    page.run("$('judge-keep').click()")
    page.drop("document.body", [upper, lower])
    page.browser.reload()
    row.equal("who wants nothing kept has nothing kept", page.run("[Judge.texts.map(text => text.bytes().length), Keep.read(), $('judge-keep').checked]"), [[0, 0, 0], None, False])
    page.run("$('judge-keep').click()")


# Turns the wheel over a canvas, with Ctrl or without, and tells whether the page keeps that for itself: if not, the browser scrolls.
WHEELED = """((view, ctrlKey) => {
  const { left, top } = view.getBoundingClientRect();
  const event = new WheelEvent("wheel", { deltaY: -240, ctrlKey, clientX: left + 200, clientY: top + 90, bubbles: true, cancelable: true });
  view.dispatchEvent(event);
  return event.defaultPrevented; })($('%s'), %s)"""
SAVED = "$('saved').textContent"
FIRST = ["At which codes and lines the two paths meet.", "Accepted, or the first refusal with its line and what to do.", "How the run ends that is drawn below.",
         "Which variables one path may write while the other uses them."]


def rows_of_newcomers(row, page, room):
    """What who sees the page for the first time may stumble over: the wheel, words with two meanings, what was saved, and a page that is cleared."""
    run = page.run
    page.clear()
    page.give(*pair(*GOOD))
    for view, size in (("plane", "Camera.now.scale"), ("times", "1 / (TimeLine.shown.to - TimeLine.shown.from)")):
        before = run(size)
        row.equal(f"{view}: the wheel alone is the page's, and zooms nothing", (run(WHEELED % (view, "false")), run(size)), (False, before))
        row.equal(f"{view}: what zooms is told there", run("$('%s').textContent" % {"plane": "pointer", "times": "pointer-time"}[view]), "Ctrl and the wheel: nearer, farther")
        row(f"{view}: with Ctrl it comes nearer", run(WHEELED % (view, "true")) and run(size) > before, before)
    row.has("the help says so", run("$('help').textContent.replace(/\\s+/g, ' ')"), "Ctrl and the wheel, or two fingers: nearer and farther. The wheel alone moves the page.")
    scale = run("Camera.now.scale")
    for by in ("1.3", "0.77"):
        run(f"document.querySelector('[data-zoom=\"{by}\"]').click()")
        row(f"a button zooms by {by}", abs(run("Camera.now.scale") / scale - float(by)) < 1e-9, scale)
        scale = run("Camera.now.scale")
    row.equal("what zooms to the cuts says what it may leave out", run("[...document.querySelectorAll('[data-fit]')].map(button => `${button.textContent}: ${button.title}`)"),
              ["zoom to cuts: The cuts fill the picture; rapids, starts and homes may lie outside it (0)", "zoom to all: All moves with their rapids, starts and homes"])
    rows_of_words(row, page)
    page.give(*pair(*GOOD))
    names = "path1.nc", "settings.txt", "twin_lathe.png"
    for name, button in zip(names, ("judge-left-save", "judge-cell-save", "save-picture")):
        row(f"{name} is saved", saved(page, room, name, f"$('{button}').click()"))
        row.has("and said to be", run(SAVED), name)
    row.equal("several are named together", run(SAVED), f"Saved in the browser's downloads: {', '.join(names)}")
    page.give(*pair(*DEADLOCK))
    run("(async () => { Judge.texts.forEach(text => text.setChanged(false)); $('judge-clear').click(); await new Promise(done => setTimeout(done, 50)); })()")
    row.equal("a page that is cleared says what comes where", run("['waits', 'verdict', 'run', 'races'].map(part => $(`judge-${part}`).textContent)"), FIRST)
    row.equal("and nothing of it is good or bad", run("[...document.querySelectorAll('.judge-said.bad, .judge-said.good')].filter(part => part.checkVisibility()).map(part => part.id)"), [])
    page.give(read(GOOD[0]), b"", b"")
    row("one tape alone is no fault either", run("$('judge-verdict').className === 'judge-said'"), run("$('judge-verdict').className"))
    page.clear()


def rows_of_words(row, page):
    """Words of an answer that are said in other words too, and a button whose name is no advice."""
    seen = page.give(*pair(*DEADLOCK))
    row.equal("the button that exchanges the tapes says what it swaps", page.run("$('judge-exchange').textContent"), "\u21c4 swap tapes")
    row("and what to do about two waits speaks of nothing like it", not re.search("swap|exchange", seen["said"]["verdict"]), seen["said"]["verdict"])
    row.equal("that plain has nothing to write out is no fault", page.run("$('judge-plain').className"), "judge-said")
    tapes = lambda *codes: "\n".join(["%", "O1", *[f"M{code}" for code in codes], "M30", "%", ""]).encode()
    for before, words in (((), "At their first waits:"), ((105,), "After 1 equal wait:"), ((105, 105, 106), "After 3 equal waits:")):
        seen = page.give(tapes(*before, 101, 102), tapes(*before, 102, 101), b"")
        line = 3 + len(before)
        row.has(f"after {len(before)}: the refusal says where", seen["said"]["verdict"], f"after {len(before)}{words}path 1 line {line} M101path 2 line {line} M102")
    for wait, words in ((b"", "before any meeting"), (b"M101\n", "after meeting 1")):
        seen = page.give(b"%\nO1\n" + wait + b"M08\n#1=#500\nM30\n%\n", b"%\nO2\n" + wait + b"#500=1\nM30\n%\n", b"")
        row.has(f"{words}: a race says who does what", seen["said"]["races"], f"{words} path 2 may write it, while path 1 has it")


# The parts of the page whose letters are too near to what lies behind them, by the contrast of WCAG 2: 4.5 is the least for plain text.
CONTRAST = """(() => {
  const numbers = colour => colour.match(/[\\d.]+/g).map(Number);
  const light = colour => numbers(colour).slice(0, 3).reduce((sum, value, k) => {
    const part = value / 255;
    return sum + [0.2126, 0.7152, 0.0722][k] * (part <= 0.03928 ? part / 12.92 : ((part + 0.055) / 1.055) ** 2.4); }, 0);
  const behind = part => { const { backgroundColor } = getComputedStyle(part); return (numbers(backgroundColor)[3] ?? 1) > 0.8 ? backgroundColor : behind(part.parentElement); };
  const hasText = part => [...part.childNodes].some(node => node.nodeType === 3 && node.data.trim());
  const poor = [...document.body.querySelectorAll("*")].filter(part => hasText(part) && part.checkVisibility() && !part.closest("script")).filter(part => {
    const [one, two] = [light(getComputedStyle(part).color), light(behind(part))];
    return (Math.max(one, two) + 0.05) / (Math.min(one, two) + 0.05) < 4.5; });
  return poor.map(part => `${part.tagName} ${part.className} ${part.textContent.slice(0, 20)}`); })()"""


def rows_of_habits(row, page, room):
    """Search, go to line, the keys of editors, and the place of the mouse."""
    upper, lower, cell = zip(GOOD, pair(*GOOD))
    browser, run = page.browser, page.run
    page.clear()
    page.drop("document.body", [upper, lower, cell])
    run("Judge.texts[0].field.focus()")
    browser.key("g", control=True)
    for letter in "12":
        browser.key(letter)
    browser.key("Enter")
    row.equal("Ctrl+G goes to a line", run("(field => [document.activeElement === field, field.value.slice(0, field.selectionStart).split('\\n').length])(Judge.texts[0].field)"), [True, 12])
    browser.key("f", control=True)
    for letter in "g00":
        browser.key(letter)
    count = "$('judge-find-count').textContent"
    row.equal("Ctrl+F finds, in capitals or not", (run(count), run("Judge.texts[0].found")), ("2 of 2", 12))
    seen = []
    for key, shift in (("Enter", False), ("F3", False), ("F3", True)):
        browser.key(key, shift=shift)
        seen.append((run(count), run("Judge.texts[0].found")))
    row.equal("Enter and F3 go on, with Shift back", seen, [("1 of 2", 8), ("2 of 2", 12), ("1 of 2", 8)])
    browser.key("Escape")
    row.equal("Escape closes the search", run("[$('judge-find').hidden, document.activeElement === Judge.texts[0].field]"), [True, True])
    row.equal("the text is as it was", run("[...Judge.texts[0].bytes()]"), list(upper[1]))
    browser.key(" ")
    page.wait()
    row.equal("Ctrl+S saves the text that has the cursor", saved(page, room, "upper.nc", lambda: browser.key("s", control=True)), bytes(run("[...Judge.texts[0].bytes()]")))
    browser.key("Tab")
    row("Tab leaves the text, and writes none", run("document.activeElement !== Judge.texts[0].field && !Judge.texts[0].field.value.includes('\\t')"))
    page.drop("document.body", [upper])
    run("$('page').scrollIntoView()")
    browser.settle()
    browser.hover(*run("(box => [box.left + Math.round(Camera.xOf(-20)), box.top + Math.round(Camera.yOf(15))])($('plane').getBoundingClientRect())"))
    found = re.fullmatch(r"Z \u2212(\d+\.\d+)  \u2300 (\d+\.\d+)  \(path 1\)", run("$('pointer').textContent"))
    row("the place of the mouse is told", found and abs(float(found[1]) - 20) < 0.5 and abs(float(found[2]) - 30) < 0.5, run("$('pointer').textContent"))
    browser.hover(*run("(box => [box.left + TimeLine.xOf(1), box.top + TimeLine.LANES[1] + 20])($('times').getBoundingClientRect())"))
    found = re.fullmatch(r"(\d+\.\d\d) s, a guess", run("$('pointer-time').textContent"))
    row("and the time", found and abs(float(found[1]) - 1) < 0.1, run("$('pointer-time').textContent"))
    run("scrollTo(0, 0)")


def rows_of_looks(row, page, room):
    """Dark mode, by which all letters can be read, paper, and the key that opens files."""
    browser, run = page.browser, page.run
    page.clear()
    page.give(*pair(*GOOD))
    run("$('file').addEventListener('click', event => { event.preventDefault(); window.wereAskedFor = true; }, { once: true }); Judge.texts[0].field.focus()")
    browser.key("o", control=True)
    row("Ctrl+O asks for files", run("window.wereAskedFor === true"))
    for mode in ("dark", "light"):
        browser.call("Emulation.setEmulatedMedia", features=[{"name": "prefers-color-scheme", "value": mode}])
        browser.settle()
        row.equal(f"{mode}: no letters are hard to read", run(CONTRAST), [])
        corner = run("[...$('plane').getContext('2d').getImageData(3, 3, 1, 1).data].length && Colours.INK.paper")
        row.equal(f"{mode}: the picture has its colours", corner, {"dark": "#1c222a", "light": "#ffffff"}[mode])
    rows_of_paper(row, page)


def rows_of_paper(row, page):
    """What is printed: all lines of both tapes, the picture and the verdict."""
    browser, run = page.browser, page.run
    page.give(*LONG[:2], b"")
    run("dispatchEvent(new Event('beforeprint'))")
    paper = run("(paper => [paper.textContent, paper.querySelectorAll('canvas').length])($('paper'))")
    for tape in LONG[:2]:
        lines = tape.decode().splitlines()
        row("all lines of a tape are printed", all(f"{k}  {lines[k - 1]}" in paper[0] for k in (1, 2, 777, 20002, len(lines))), paper[0][:200])
    row("with the verdict and the picture", "accepted" in paper[0] and paper[1] == 1, paper[0][:200])
    run("dispatchEvent(new Event('afterprint'))")
    row("and nothing of it stays", not run("Boolean($('paper'))"))
    page.give(*pair(*GOOD))
    pages = base64.b64decode(browser.call("Page.printToPDF", printBackground=True)["data"])
    row("a browser prints it", pages.startswith(b"%PDF-") and pages.count(b"/Type /Page\n") >= 2, len(pages))


ERRORS = os.path.join(os.path.dirname(EXAMPLES.rstrip("/")), "docs", "ERRORS.md")


def rows_of_refusals(row, page, room):
    """All that is refused is named at once, each beside its line and with what docs/ERRORS.md says of it."""
    left, right, cell = (read(name).decode().splitlines() for name in GOOD)
    left[6], left[10], right[8] = "N50 G01 X Z5.", "N90 G00 X10. (ROUGH", "N70 G01 X123456789. F0.1"
    cell[3], cell[-1] = "wiat 100 197", "place 3 X1. Z1."
    seen = page.give(*(("\n".join(text) + "\n").encode() for text in (left, right, cell)))
    due = [f"refused 90 BadSetting line {line}" for line in (4, len(cell))] + ["refused 11 NoNumber path 1 line 7", "refused 12 OpenComment path 1 line 11",
                                                                               "refused 5 TooManyDigits path 2 line 9"]
    row.equal("the first refusal is the program's", line_of(seen["answers"]["verdict"]), (1, due[0] + "\n"))
    summaries = page.run("[...document.querySelectorAll('#judge-further summary')].map(part => `refused ${part.textContent}`)")
    row.equal("all further ones are named too", summaries, due[1:])
    row.has("as what they are", page.run("$('judge-further-box').textContent"), "judged again with the refused lines left empty")
    row.equal("each has a note beside its line", page.run("Judge.texts.map(text => [...text.notes.keys()])"), [[7, 11], [9], [4, len(cell)]])
    with open(ERRORS, encoding="utf-8") as file:
        part = re.search(r"^## 12 OpenComment\n(.*?)^## ", file.read(), flags=re.M | re.S)[1]
    meant = [" ".join(text.replace("`", "").split()) for text in re.findall(r"^(?:Meaning|Do): .*?(?=\n\n)", part, flags=re.M | re.S)]
    row.equal("with what it means and what to do", page.run("[...Judge.texts[0].notes.get(11).querySelectorAll('.judge-why p')].map(part => part.textContent)"), meant)
    page.run("Judge.texts[0].field.focus()")
    stops = []
    for shift in (False, False, False, False, True):
        page.browser.key("F8", shift=shift)
        stops.append(page.run("[Judge.texts.findIndex(text => text.field === document.activeElement), (field => field.value.slice(0, field.selectionStart).split('\\n').length)(document.activeElement)]"))
    row.equal("F8 goes from one to the next, and back with Shift", stops, [[2, 4], [2, len(cell)], [0, 7], [0, 11], [0, 7]])
    many = "\n".join(["%", "O1", *["G01 X Z5."] * 30, "M30", "%", ""]).encode()
    page.give(many, many, b"")
    row("of many some are named, of both tapes, and that there may be more", page.run("""(box => box.textContent.endsWith("There may be more.")
        && [...box.querySelectorAll("summary")].map(part => part.textContent).filter(text => text.includes("path 2")).length === 8)($('judge-further'))"""),
        page.run("$('judge-further').textContent"))
    page.give(*pair(*DEADLOCK))
    row("a deadlock stands alone", page.run("$('judge-further-box').hidden && Judge.texts[0].notes.size === 1"))
    page.give(*pair(*GOOD))
    row("and a good pair has no note", page.run("Judge.texts.every(text => text.notes.size === 0)"))


SHOP = b"%\nO1\n(ROUGH)\nG00 X40. Z2.\nG01 Z-20. F0.2 M41 M08\nG00 X50.\nM101\nM30\n%\n", b"%\nO2\nG00 X30. Z5.\nM101\nM30\n%\n", b""
FILLED = """(async () => { %s; while (!$("judge-written").dataset.filled) await new Promise(done => setTimeout(done, 5));
  return [$("judge-written-left").value, $("judge-written-right").value, $("judge-written-said").textContent]; })()"""


def rows_of_written(row, page, room):
    """Tapes that are refused as they are, and accepted as `plain` writes them out: the page says so, draws that, and shows both."""
    page.clear()
    seen = page.give(*SHOP)
    row.equal("a shop's tape is refused as it is", seen["answers"]["verdict"]["status"], 1)
    row.equal("written out it is drawn", (seen["state"], seen["isStale"], page.run("document.body.classList.contains('plained')")), ("drawn", False, True))
    row.has("and the page says of what the picture is", page.run("$('judge-plain').textContent"), "Written out by plain these tapes are accepted")
    row.has("with the end of the run", page.run("$('judge-plain').textContent"), "end done")
    report = (saved(page, room, "twin_lathe report.txt", "$('save-report').click()") or b"").decode()
    for part in ("\n== written out by plain\n", "\n== run, the paths take turns\npath 1 moves ", "\nend done\n"):
        row.has(f"the report has it: {part.strip()!r}", report, part)
    row("the tape beside the picture is the written one", page.run("Look.trace && TapeTexts && document.body.textContent.includes('M41 (5)')"))
    left, right, said = page.run(FILLED % "document.querySelector('#judge-plain button').click()")
    rows = list(zip(left.split("\n"), right.split("\n")))
    row.equal("both stand line beside line", len(left.split("\n")), len(right.split("\n")))
    row("a line that stays stands beside itself", (" 4 G00 X40. Z2.", "  G00 X40. Z2.") in rows, rows)
    row("one that gives way stands beside what was written", any(one.startswith(" 5 G01") and two.startswith("> ") and two.endswith("(5)") for one, two in rows), rows)
    row.has("how many lines gave way is told", said, "Path 1, plain: ")
    due = (page.run("[...Judge.plained.tapes[0].bytes]"))
    row.equal("what was written is saved", list(saved(page, room, "path1.plain.nc", "$('judge-written-save').click()") or b""), due)
    page.do("$('judge-written-take').click(); await new Promise(done => setTimeout(done, 100))")
    seen = page.wait()
    row.equal("and taken in the place of the tape", (page.run("[...Judge.texts[0].bytes()]"), page.run("Judge.texts[0].isChanged")), (due, True))
    row.equal("then the pair is accepted", line_of(seen["answers"]["verdict"]), ACCEPTED)
    row("and nothing is said of plain", page.run("$('judge-plain-box').hidden && !document.body.classList.contains('plained')"))
    page.clear()
    seen = page.give(*pair(*DEADLOCK))
    row("of tapes in the language plain writes nothing", "nothing to write out" in page.run("$('judge-plain').textContent") and seen["isStale"])
    page.give(read("roughing.nc"), SHOP[1], b"")
    left, right, said = page.run(FILLED % "$('judge-write').click()")
    page.run("delete $('judge-written').dataset.filled; $('judge-written-name').value = 'expand'; $('judge-written-name').dispatchEvent(new Event('change'))")
    left, right, said = page.run(FILLED % "0")
    row("expand writes roughing cycles out", "> G00 X48.000" in right and "G71 U2. R0.5" in left, (right[:300], said))
    row("line beside line", any(one.endswith("G71 U2. R0.5") and two == "> G00 X48.000" for one, two in zip(left.split("\n"), right.split("\n"))), right[:300])
    row.equal("in two columns of one height", len(left.split("\n")), len(right.split("\n")))
    page.run("$('judge-written').close()")
    seen = page.give(*SHOP[:2], b"thread passes 2\n")
    row.equal("settings that plain alone takes are refused", line_of(seen["answers"]["verdict"]), (1, "refused 90 BadSetting line 1\n"))
    row.has("and left out for the run of what was written", page.run("$('judge-plain').textContent"), "The lines of the settings that plain alone takes are left out")
    row.equal("which is drawn", (seen["state"], seen["isStale"]), ("drawn", False))
    seen = page.give(*pair("nipple_upper.nc", "nipple_lower.nc"), b"")
    row.equal("a pair with G71 over an arc, G70, G75, G76 and G83 is written out, and drawn", (seen["state"], seen["isStale"]), ("drawn", False))
    row("with all its moves", all(int(many) > 30 for many in page.run("document.documentElement.dataset.moves").split()), page.run("document.documentElement.dataset.moves"))
    page.give(b"%\nO1\nG12.1\nM30\n%\n", SHOP[1], b"")
    row.has("why plain can't write a tape out is told", page.run("$('judge-plain').textContent"), "plain can't write out path 1: refused 96 NotPlain line 3 NoForm")
    left, right, said = page.run(FILLED % "delete $('judge-written').dataset.filled; $('judge-write').click()")
    row.has("with what to do", said, "docs/ERRORS.md")
    page.run("$('judge-written').close()")
    page.clear()


# A tape with G42, the settings that name its nose, with the centre as the programmed point, and what plain writes of it.
NOSE = (b"%\nO1\nT0101\nG00 X50. Z5.\nG42 G00 X40. Z0\nG01 Z-20. F0.2\nX60.\nG40 X64. Z-10.\nM30\n%\n", SHOP[1].replace(b"M101\n", b""), b"nose 1 1 R1. 0\n")
NOSE_WRITTEN = (b"%\nO1\nT0101\nG00 X50. Z5.\nG00 X42.000 Z0.000 (5)\nG01 X42.000 Z-19.000 F0.2 (6)\nG01 X60.000 Z-19.000 (7)\nG01 X64.000 Z-10.000 (8)\nM30\n%\n",
                NOSE[1], b"")
# The part of a line along Z that is drawn darkly, at a diameter: 1 if it is whole, less if it is dashed.
DARK = """((x, z0, z1) => {
  const { sheet } = Plane, { ratio } = sheet, [from, to] = [z0, z1].map(z => Math.round(Camera.xOf(z) * ratio)), y = Math.round(Camera.yOf(x / 2) * ratio);
  const { data } = sheet.under.getContext("2d").getImageData(from, y - 1, to - from, 3), wide = to - from;
  const isDark = at => data[at + 3] > 80 && data[at] + data[at + 1] + data[at + 2] < 400;
  const count = [...Array(wide).keys()].filter(k => [0, 1, 2].some(row => isDark(4 * (row * wide + k)))).length;
  return count / wide;
})(%s)"""
SHOW_PLAIN = """(trace => { const bytes = %s.map(text => new TextEncoder().encode(text));
  Judge.showPlain({ tapes: bytes.slice(0, 2).map(bytes => ({ kind: "said", status: 0, bytes, text: "" })), settings: bytes[2], isLess: true, trace: { kind: "said", status: 0, text: trace } });
  Look.drawAsked(); })(%r)"""


def show_plain(page, given, wrote):
    """Shows what plain writes of tapes, as if this module had written it."""
    trace = page.give(*wrote)["answers"]["trace"]["text"]
    page.give(*given)
    page.run(SHOW_PLAIN % ([text.decode() for text in wrote], trace))


def rows_of_contour(row, page, room):
    """Of a tape with G41 or G42 that plain wrote out the picture has both the path of the nose and the contour as it is programmed."""
    run, shape = page.run, "Look.contours.map(({ x1, z1, arc }) => [x1, z1, arc ? [arc.radius, 2 * arc.r, arc.z].map(value => Math.round(value * 1000) / 1000) : 0])"
    page.clear()
    page.give(*NOSE)
    if run("/^trace /.test(Judge.plained?.trace?.text ?? '')"):
        row.equal("plain writes the nose out", run("textOf(Judge.plained.tapes[0].bytes)"), NOSE_WRITTEN[0].decode())
    else:
        print("judge rows: this module writes no nose out; the page is shown what another one wrote")
        show_plain(page, NOSE, NOSE_WRITTEN)
    row.equal("the contour is that of the tape", run(shape), [[40, 0, 0], [40, -20, 0], [60, -20, 0], [64, -10, 0]])
    run("Plane.fit(false); Look.drawAsked()")
    path, between, contour = (run(DARK % f"{x}, -15, -5") for x in (42, 41, 40))
    row("the path of the nose is drawn whole", path > 0.97, path)
    row("the contour dashed, a radius beside it", 0.3 < contour < 0.85, contour)
    row("and nothing between them", between == 0, between)
    row.has("the legend names it", run("$('legend').textContent"), "programmed contour")
    given = b"%\nO1\nG00 X30. Z5.\nG42\nG01 X20. Z0 F0.2\nG01 W-10.\nG02 X30. Z-15. R5.\nG03 U10. W-5. I0 K-5.\nG40\nG00 X60.\nG00 Z50.\nM30\n%\n"
    show_plain(page, (given, NOSE[1], b""), (given.replace(b"G42\n", b"").replace(b"G40\n", b"").replace(b"F0.2\n", b"F0.2 (5)\n"), NOSE[1], b""))
    row.equal("with arcs, and lengths from where it stands", run(shape),
              [[20, 0, 0], [20, -10, 0], [30, -15, [5, 30, -10]], [40, -20, [5, 30, -20]], [60, -20, 0]])
    page.give(*pair(*GOOD))
    row("another pair has none", run("Look.contours.length === 0 && !$('legend').textContent.includes('contour')"))
    page.clear()


def rows_of_states(row, page, room):
    """The state of the machine after each meeting is that of the program, at the records of that meeting."""
    seen = page.give(*pair(*GOOD))
    row.equal("the meetings of the run are counted", page.run("[$('judge-state-of').textContent, $('judge-state-meeting').max]"), ["of 2", "2"])
    found = {}
    for meeting in (0, 1, 2):
        found[meeting] = page.run(f"""(async () => {{ $('judge-state-meeting').value = {meeting}; await State.show();
            return document.querySelector('#judge-state pre').textContent; }})()""", seconds=PATIENCE)
        row.has(f"the state after meeting {meeting} is told", found[meeting], "path 1")
    row.equal("each has another state", len(set(found.values())), 3)
    row.has("before the first turn nothing is recorded", found[0], "records 0")
    met = [line for line in seen["answers"]["trace"]["text"].splitlines() if line.startswith("met ")]
    row.equal("as many as the trace has", len(met), 2)
    page.give(*pair(*DEADLOCK))
    row("a refused pair has no state", page.run("$('judge-state-box').hidden"))


ZONED = """(async () => { %s; $("judge-zones").replaceChildren(); $("judge-zones-judge").click();
  while (!$("judge-zones").children.length) await new Promise(done => setTimeout(done, 5)); return $("judge-zones").innerText; })()"""


def rows_of_zones(row, page, room):
    """Zones by areas and by moves of the run that is drawn, a bad text, and a reload that keeps it."""
    page.clear()
    page.give(*pair("flange_upper.nc", "flange_lower.nc", "flange_cell.txt"))
    row("a run can be asked for its zones", not page.run("$('judge-zones-box').hidden"))
    said = page.run(ZONED % "$('judge-zones-box').open = true; $('judge-zones-text').value = 'mirror 2\\ngap X20. Z5.\\n'")
    for part in ("end hit 1", "0 X-4.000 X320.000 Z108.100 Z260.000 X-320.000 X-320.000 Z260.000 Z260.000 clear", "1 X12.000 X126.000 Z66.000 Z188.000"):
        row.has(f"they are those of docs/COMMANDS.md: {part}", said, part)
    page.run("[...document.querySelectorAll('#judge-zones .place')].find(row => row.textContent.startsWith('1 ')).click()")
    row.equal("a segment leads to its stretch", page.run("Look.stretch"), 1)
    said = page.run(ZONED % "$('judge-zones-text').value = 'by moves\\ntool 1 0 X-60. X60. Z0. Z150.\\n'")
    row.has("by moves too", said, "end ")
    said = page.run(ZONED % "$('judge-zones-text').value = 'gap\\n'")
    row.has("a bad text is refused by its line", said, "refused 92")
    page.run("$('judge-zones-text').value = 'gap X1. Z1.'; $('judge-zones-text').dispatchEvent(new Event('input'))")
    page.give(*pair(*DEADLOCK))
    row("a refused pair has none", page.run("$('judge-zones-box').hidden"))
    page.do("Judge.ask()")
    page.run("new Promise(done => setTimeout(done, 700))")
    page.browser.reload()
    page.wait()
    row.equal("the text is there after a reload", page.run("$('judge-zones-text').value"), "gap X1. Z1.")
    page.run("Zones.set('')")
    page.clear()


# Two turrets over one spindle: path 2 sees X from the other side, and its tool comes past the axis.
BODIES = (b"%\nO1\nT0303\nG00 X100. Z50.\nM101\nG00 X40. Z50.\nG04 P2000\nG00 X200.\nM102\nM30\n%\n",
          b"%\nO2\nT0505\nG00 X200. Z150.\nM101\nG00 X60. Z150.\nG00 X-30. Z60.\nM102\nG00 X60. Z-20.\nM30\n%\n",
          b"place 1 X100. Z50.\nplace 2 X200. Z150.\n")
BODIES_CELL = ("by moves\nmirror 2\nframe 2 X0 Z30.\ngap X2. Z2.\ntool 1 3 X-10. X30. Z0. Z60.\ntool 2 5 X-20. X40. Z-5. Z25.\n"
               "fixed 2 X-120. X-80. Z0. Z20.\n")
# Of boxes of the cell, (least X, greatest X, least Z, greatest Z), whether each edge is where it is due: something is drawn before it, and
# nothing behind it. The tools and their names are not drawn then.
EDGES = """(boxes => {
  const { sheet } = Plane, { ratio } = sheet, pen = sheet.clean(sheet.over);
  for (const draw of Look.layers.over) draw(pen);
  const alpha = (x, z) => pen.getImageData(Math.round(Camera.xOf(z) * ratio), Math.round(Camera.yOf(x / 2) * ratio), 1, 1).data[3];
  return boxes.map(([x0, x1, z0, z1]) => {
    const [x, z] = [(x0 + x1) / 2, (z0 + z1) / 2], out = 4 / Camera.now.scale;
    return [[x0, -2 * out, z, 0], [x1, 2 * out, z, 0], [x, 0, z0, -out], [x, 0, z1, out]].map(([a, da, b, db]) => alpha(a - da, b - db) > 0 && alpha(a + da, b + db) === 0);
  });
})(%s)"""
RED = """(boxes => {
  const { sheet } = Plane, { ratio } = sheet, pen = sheet.clean(sheet.over);
  for (const draw of Look.layers.over) draw(pen);
  return boxes.map(([x0, x1, z0, z1]) => {
    const [x, z] = [(x0 + x1) / 2, (z0 + z1) / 2], [r, g, b] = pen.getImageData(Math.round(Camera.xOf(z) * ratio), Math.round(Camera.yOf(x / 2) * ratio), 1, 1).data;
    return r > 150 && g < 90 && b < 90;
  });
})(%s)"""
CLICKED = "[...document.querySelectorAll('#judge-zones .place')].find(row => row.textContent.startsWith('%s ')).click()"


def rows_of_bodies(row, page, room):
    """By moves, the bodies of the tools stand where the text of zones has them; a finding leads to its moves, and marks them."""
    run = page.run
    page.clear()
    page.give(*BODIES)
    row("without a text of zones there is no cell to look at", run("$('show-cell').hidden"))
    said = run(ZONED % f"$('judge-zones-box').open = true; $('judge-zones-text').value = {BODIES_CELL!r}")
    for line in ("1 hit path 1 line 6 path 2 line 7 tool 3 tool 5", "2 hit path 2 line 9 fixed 1 tool 5", "end hit 2"):
        row.has(f"it is found: {line}", said, line)
    run("document.querySelector('[data-coordinates=cell]').click(); Moving.goTo(0); Plane.show({ z0: 0, z1: 210, r0: -120, r1: 120 }); Look.drawAsked()")
    due = [[90, 130, 50, 110], [-240, -180, 175, 205], [-120, -80, 0, 20]]
    row.equal("both bodies and the fixed box stand where the text has them", run(EDGES % due), [[True] * 4] * 3)
    row.equal("none is red before a finding is clicked", run(RED % due), [False] * 3)
    run("Moving.goTo(Look.trace.meetings[1].time - 1e-6); Look.drawAsked()")
    due = [[190, 230, 50, 110], [-10, 50, 85, 115], [-120, -80, 0, 20]]
    row.equal("they move with the time", run(EDGES % due), [[True] * 4] * 3)
    for coordinates, due in (("machine", [190, 230, 50, 110]), ("work", [190, 230, 50, 110])):
        run(f"document.querySelector('[data-coordinates={coordinates}]').click(); Plane.fit(true); Look.drawAsked()")
        row.equal(f"in {coordinates} coordinates they stand at their tools", run(EDGES % [due]), [[True] * 4])
    run(CLICKED % 1 + "; Look.drawAsked()")
    row.equal("a finding leads to its moves, in the cell", run("[Look.coordinates, Look.stretch, PATHS.map(p => Look.hit.lines[p])]"), ["cell", 1, [6, 7]])
    row.equal("its lines are marked in both tapes", page.wait()["marked"], [[6], [7], []])
    row.equal("and beside the picture", run("[...document.querySelectorAll('.row.hit')].map(row => Number(row.dataset.line))"), [6, 7])
    near = run("""PATHS.map(p => { const { segment, part } = Times.standing(Look.trace.paths[p], Look.time), { z, r } = Shapes.onSegment(segment, part);
        return p === 1 ? [2 * r - 10, 2 * r + 30, z, z + 60] : [-2 * r - 40, -2 * r + 20, z + 25, z + 55]; })""")
    row("both bodies are red, at a moment at which they are near", run(RED % near) == [True, True]
        and max(near[0][0], near[1][0]) - min(near[0][1], near[1][1]) <= 2.001 and max(near[0][2], near[1][2]) - min(near[0][3], near[1][3]) <= 2.001, near)
    run(CLICKED % 2 + "; Look.drawAsked()")
    row.equal("a finding at a fixed box too", run("[Look.stretch, PATHS.map(p => Look.hit.lines[p] ?? 0)]"), [2, [0, 9]])
    row.equal("its line is marked", page.wait()["marked"], [[], [9], []])
    row.equal("and the box is red", run(RED % [[-120, -80, 0, 20]]), [True])
    run("Judge.texts[0].field.focus()")
    stops = []
    for shift in (False, False, False, True):
        page.browser.key("F8", shift=shift)
        stops.append(run("[Look.stretch, Judge.texts.findIndex(text => text.field === document.activeElement)]"))
    row.equal("F8 goes from one finding to the next, and back with Shift", stops, [[1, 0], [2, 1], [1, 0], [2, 1]])
    run("$('plane').focus()")
    page.browser.key("Escape")
    row("Escape takes the marks off", run("Look.hit === null"))
    page.select(0, 2, 0, 0)
    run("document.querySelector('[data-coordinates=cell]').click()")
    page.type(" ")
    row("after a change the bodies are there again, in the cell", run("""new Promise(done => { let turns = 400;
        const look = () => (Bodies.cell || !turns--) ? done(Look.coordinates === "cell") : setTimeout(look, 10); look(); })"""))
    run(ZONED % "$('judge-zones-text').value = 'gap X1. Z1.'")
    row.equal("by areas there are no bodies", run("[$('show-cell').hidden, Look.coordinates, Bodies.cell]"), [True, "work", None])
    run("Zones.set('')")
    page.clear()


def rows_of_readings(row, page, room):
    """What was asked of the module once is not asked again until a text changes."""
    run = page.run

    def calls(script):
        """The exports that are called while a script of the page asks and is answered."""
        run(f"(async () => {{ Judge.calls.length = 0; await {script}; }})()", seconds=PATIENCE)
        page.wait()
        return sorted(run("Judge.calls"))

    page.give(*pair(*DEADLOCK))
    seen = page.give(*pair(*GOOD))
    row.equal("a question reads the pair once for its waits, and once for all else", sorted(run("Judge.calls")), ["lathe_trace", "lathe_waits"])
    again = page.do("Judge.ask()")
    row.equal("the same question again reads nothing", (run("Judge.calls"), again["answers"]), ([], seen["answers"]))
    row.equal("other programs in the control are a question about the waits alone", calls("($('judge-outside').value = '9000-9999', Judge.ask())"), ["lathe_waits"])
    run("$('judge-outside').value = ''")
    state, zones = "($('judge-state-meeting').value = %d, State.show())", "Judge.zonesOf(new TextEncoder().encode('gap X%d. Z1.\\n'))"
    for name, first, due, other, others in (
            ("a state", state % 1, ["lathe_events", "lathe_state"], state % 2, ["lathe_state"]),
            ("a report", "Judge.report()", ["lathe_run"], "Judge.report()", []),
            ("zones", zones % 1, ["lathe_zones"], zones % 2, ["lathe_zones"]),
            ("a tape that is written out", "Judge.written('plain', 0)", ["lathe_plain"], "Judge.written('expand', 0)", ["lathe_expand"])):
        row.equal(f"{name} is asked for once", [calls(first), calls(first)], [due, []])
        row.equal(f"{name}: another one by itself", [calls(other), calls(first)], [others, []])
    for part, click in (("a meeting", "document.querySelector('#judge-waits .place').click()"), ("a line of the picture", "Moving.toLine(1, 8)"),
                        ("a stretch", "Moving.choose(1, true)")):
        row.equal(f"a click on {part} reads nothing", calls(click), [])
    page.select(0, 2, 0, 0)
    run("Judge.calls.length = 0; Judge.texts[0].field.focus()")
    page.type(" ")
    row.equal("a change is read anew", sorted(run("Judge.calls")), ["lathe_trace", "lathe_waits"])
    page.give(*SHOP)
    row.equal("the tapes that plain wrote out are not written out again", calls("Judge.written('plain', 1)"), [])
    page.give(*LONG)
    row.equal("of a long pair the verdict is asked for by itself", sorted(run("Judge.calls")), ["lathe_trace", "lathe_verify", "lathe_waits"])
    page.clear()


def rows_of_rates(row, page, room):
    """Rates that the settings tell as comments make the times, and are no longer called a guess."""
    tapes = b"%\nO1\nG00 X0 Z1000.\nT0202\nM30\n%\n", b"%\nO2\nM30\n%\n"
    page.give(*tapes, b"")
    row.equal("without rates it is a guess", page.run("[$('rates-of').textContent, Look.trace.total, $('rapid').disabled]"), ["guess with rapid", 4, False])
    seen = page.give(*tapes, b"(rate 60000)\n(change 2.5)\n(spindle 1)\n")
    row.equal("the settings with rates are accepted", line_of(seen["answers"]["verdict"]), ACCEPTED)
    row.equal("and their rates count", page.run("[$('rates-of').textContent, Look.trace.total, $('rapid').value, $('rapid').disabled]"), ["rates of the settings: rapid", 3.5, "60", True])
    page.give(b"%\nO1\nG97 S800 M03\nG97 S900\nG97 S900\nM30\n%\n", tapes[1], b"(spindle 1.5)\n")
    row.equal("another speed takes its time", page.run("Look.trace.total"), 3)
    page.give(*tapes, b"")
    row.equal("without them the guess is back", page.run("[$('rates-of').textContent, Look.trace.total]"), ["guess with rapid", 4])


def rows_of_typing(row, page, room):
    """A change is judged again, and its line is marked; the page stays alive meanwhile."""
    left = read("upper.nc").decode().splitlines()
    line = next(k for k, text in enumerate(left, 1) if "M101" in text)
    at = left[line - 1].index("M101") + 3
    page.give(*pair(*GOOD))
    page.select(0, line, at, at + 1)
    seen = page.type("3")
    row("a typed change is judged", seen["answers"]["verdict"]["text"].startswith("refused 72 "), seen["answers"])
    row("and its line is marked in both tapes", seen["marked"][0] == [line] and len(seen["marked"][1]) == 1, seen["marked"])
    row.has("with its new text", seen["said"]["verdict"], left[line - 1].replace("M101", "M103"))
    page.select(0, line, at, at + 1)
    seen = page.type("1")
    row.equal("typed back it is accepted again", (line_of(seen["answers"]["verdict"]), seen["marked"], seen["isStale"]), (ACCEPTED, [[], [], []], False))
    page.give(*LONG)
    # (a machine that does other work may leave one try few turns)
    turns = max(page.give(*(tape.replace(b"S800", b"S%d" % (801 + attempt)) for tape in LONG))["turns"] for attempt in range(3))
    row("the page stays alive while a long pair is judged", turns >= 5, turns)
    seen = page.do(f"Judge.ask(); Judge.texts[0].set('', new TextEncoder().encode({read(DEADLOCK[0]).decode()!r})); "
                   f"Judge.texts[1].set('', new TextEncoder().encode({read(DEADLOCK[1]).decode()!r})); Judge.ask()")
    row.equal("what is asked last counts", (line_of(seen["answers"]["verdict"]), list(seen["answers"])), (MISMATCH, ["waits", "verdict"]))


def spoilt(page, room, spoil):
    """A page with another module in place of its own."""
    with open(page, encoding="utf-8") as file:
        text = file.read()
    module = spoil(base64.b64decode(MODULE.search(text)[2]))
    made = os.path.join(room, "spoilt.html")
    with open(made, "w", encoding="utf-8") as file:
        file.write(MODULE.sub(lambda found: found[1] + base64.b64encode(module).decode() + found[3], text))
    return made


def rows_of_faults(row, page, room):
    """The module breaks off, its stack ends, its memory is refused, or it can't be had at all."""
    due = {part: line_of(answer) for part, answer in page.give(*pair(*GOOD))["answers"].items()}
    own = page.path
    page.open(spoilt(own, room, lambda module: wasm_binary.with_trap(module, "lathe_waits")))
    seen = page.give(*pair(*GOOD))
    row.equal("a call that breaks off gives no answer", (seen["answers"]["waits"]["kind"], seen["workers"]), ("broken off", WORKERS + 1))
    row.has("the page says so", seen["said"]["waits"], "broke off")
    row.has("and that the judge was made anew", seen["said"]["waits"], "was made anew")
    row.equal("the other answers are right", {part: line_of(seen["answers"][part]) for part in PARTS[1:]}, {part: due[part] for part in PARTS[1:]})
    seen = page.give(*pair(*DEADLOCK))
    row.equal("the next pair is judged as ever", line_of(seen["answers"]["verdict"]), MISMATCH)
    page.open(spoilt(own, room, lambda module: wasm_binary.with_trap(module, "lathe_trace")))
    seen = page.give(*pair(*GOOD))
    row.equal("without the call of the pair there is no verdict", (seen["answers"]["verdict"]["kind"], list(seen["answers"])), ("broken off", list(PARTS[:2])))
    row.has("and the page says so", seen["said"]["verdict"], "broke off")
    for what, spoil, kind, words, sizes in (
            ("a stack", wasm_binary.with_short_stack, "broken off", "broke off", [1 << k for k in range(8, 21)]),
            ("a memory", wasm_binary.with_little_memory, "no memory", "no memory for this", [0, *(1 << k for k in range(13))])):
        kinds = set()
        for size in sizes:
            page.open(spoilt(own, room, lambda module: spoil(module, size)))
            seen = page.give(*pair(*GOOD))
            for part, answer in seen["answers"].items():
                kinds.add(answer["kind"])
                is_told = words in seen["said"]["run" if part == "trace" else part]
                row(f"{what} of {size}: the answer is the right one, or the page says why there is none: {part}",
                    line_of(answer) == due[part] or answer["kind"] == kind and is_told, (answer["kind"], answer["text"][:80]))
        row.equal(f"{what}: one that is too small, and one that is not", kinds, {"said", kind})
    page.open(spoilt(own, room, lambda module: module[:200]))
    page.run("new Promise(done => setTimeout(done, 300))")
    row.has("a browser that does not know the module is told", page.run("$('judge-verdict').textContent"), "can't judge")
    row.equal("and no worker is made", page.run("Judge.workers"), 0)
    page.open(own)


HELD = """new Promise(done => {
    addEventListener("securitypolicyviolation", event => done(event.effectiveDirective), { once: true });
    fetch("%s").catch(() => 0);
    setTimeout(() => done("asked for"), 2000); })"""


INJECTED = """new Promise(done => {
    addEventListener("securitypolicyviolation", event => done(event.effectiveDirective), { once: true });
    const made = %s;
    made.textContent = "window.wasInjected = 1";
    document.body.append(made);
    setTimeout(() => done("came in"), 2000); })"""


def rows_of_requests(row, page, room):
    """The page and its worker ask for nothing, and their policy would let nothing out."""
    browser = page.browser
    browser.problems.clear()
    page.give(*pair(*GOOD))
    row("the worker is watched", browser.workers, browser.workers)
    row.equal("no exception, and no request", browser.problems, [])
    with socket.create_server(("127.0.0.1", 0)) as server:
        far = f"http://127.0.0.1:{server.getsockname()[1]}/"
        for name, session in (("the page's", None), ("the worker's", browser.workers[-1])):
            row.equal(f"{name} policy lets no request out", browser.run(HELD % far, session), "connect-src")
        row.equal("no script may come in later", browser.run(INJECTED % "document.createElement('script')"), "script-src-elem")
        row.equal("and no style", browser.run(INJECTED % "document.createElement('style')"), "style-src-elem")
        made = browser.call("Runtime.evaluate", expression="(() => { try { return new Function('return 1')(); } catch (fault) { return fault.name; } })()",
                            returnByValue=True, allowUnsafeEvalBlockedByCSP=False)
        row.equal("and no text becomes a script", made["result"]["value"], "EvalError")
        server.settimeout(0.3)
        try:
            server.accept()
            row("no request came", False, "one did")
        except TimeoutError:
            row("no request came", True)
    browser.problems.clear()


BOUNDS = {"verdict": 500, "trace": 1500}        # milliseconds until the verdict is told and the picture drawn


def rows_of_length(row, page, room):
    """20,000 blocks a tape, soon: the best of some tries. On a machine that does more than it has processors all takes as much longer."""
    best, busy = {}, min(4, max(1, os.getloadavg()[0] / os.cpu_count()))
    for attempt in range(8):
        seen = page.give(*(tape.replace(b"S800", b"S%d" % (801 + attempt)) for tape in LONG))        # (other texts: nothing of them is kept)
        best = {part: min(seen["times"][part], best.get(part, 1e9)) for part in PARTS}
        if all(best[part] < BOUNDS[part] for part in BOUNDS):
            break
    row.equal("20,000 blocks a tape are accepted", line_of(seen["answers"]["verdict"]), ACCEPTED)
    row("their verdict is told within half a second", best["verdict"] < BOUNDS["verdict"] * busy, (best, busy))
    row("their picture is drawn within a second and a half", best["trace"] < BOUNDS["trace"] * busy, (best, busy))
    print(f"judge rows: 20,000 blocks a tape, the best of some, at a load of {os.getloadavg()[0]:.0f}: "
          + ", ".join(f"{part} after {best[part]:.0f} ms" for part in PARTS))
    # What the page itself asks of a text for one question: its bytes, once.
    counted = page.run("""(() => { const counts = [0, 0, 0];
        Judge.texts.forEach((text, k) => { const { bytes } = Object.getPrototypeOf(text); text.bytes = function () { counts[k] += 1; return bytes.call(this); }; });
        Judge.ask();
        Judge.texts.forEach(text => { delete text.bytes; });
        return counts; })()""")
    page.wait()
    row.equal("for a question the page takes the bytes of each text once", counted, [1, 1, 1])


GROUPS = {group.__name__.removeprefix("rows_of_"): group for group in (
    rows_of_answers, rows_of_hands, rows_of_files, rows_of_saving, rows_of_newcomers, rows_of_habits, rows_of_looks, rows_of_refusals, rows_of_written,
    rows_of_contour, rows_of_states, rows_of_zones, rows_of_bodies, rows_of_readings, rows_of_rates, rows_of_typing, rows_of_faults, rows_of_requests, rows_of_length)}
