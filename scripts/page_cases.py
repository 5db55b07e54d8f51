"""The rows of the page, in groups: what a user does, and what must then be drawn and said. Each group takes the rows, what they ask of
the page, and the browser."""
import json
import math
import os
import time

HERE = os.path.dirname(os.path.abspath(__file__))
TEXTS = os.path.join(HERE, "..", "page", "texts")
EXAMPLES = os.path.join(HERE, "..", "examples")

BLUE, ORANGE, PURPLE = [0x0b, 0x6f, 0xb8], [0xc2, 0x50, 0x0c], [0x7a, 0x3e, 0xc8]     # of the first, second and fourth tool
RED, GLOW = [0xc4, 0x25, 0x2d], [0xff, 0xb7, 0x00]
TWICE = 0.4                     # after so many seconds a second click is a click of its own


def text(name, folder=TEXTS):
    with open(os.path.join(folder, name), encoding="ascii") as file:
        return file.read()


def trace(name):
    return [(name + ".txt", text(name + ".txt"))]


# Races as the flange might have them: in its first stretch, behind its first meeting, and behind more than there are.
RACES = ("#500 after 0 path 1 line 9 path 2 line 3", "#512 after 1 path 2 line 21 path 1 line 15", "#533 after 7 path 1 line 30 path 2 line 28")


def with_races(trace, *races):
    """A trace without a race, with these."""
    return trace.replace("races 0\n", "\n".join((f"races {len(races)}", *races)) + "\n")


FLANGE = [(name, text(name, EXAMPLES)) for name in ("flange_upper.nc", "flange_lower.nc")]


class Hand:
    """What the rows ask of the page."""

    def __init__(self, browser):
        self.browser = browser
        self.run = browser.run

    def data(self, name):
        return self.run(f"document.documentElement.dataset.{name} ?? null")

    def drawn(self):
        return tuple(self.data(name) for name in ("state", "moves", "meetings", "records", "end"))

    def shown(self, selector):
        """The text of an element."""
        return self.run(f"document.querySelector({json.dumps(selector)})?.textContent ?? null")

    def spot(self, p, line, part=0.5):
        """Where on the page the part of a path's first motion of a line is."""
        return self.run(f"""(() => {{
            const isIt = some => some.line === {line} && Reading.MOTIONS.has(some.kind), box = $("plane").getBoundingClientRect();
            const at = Camera.pointOf(Look.trace.paths[{p}].segments.find(isIt), {part});
            return [box.left + at.x, box.top + at.y]; }})()""")

    def goal(self, p, line):
        """Where in the plane a path's first cut of a line ends."""
        return self.run(f"""(() => {{
            const isIt = some => some.line === {line} && Reading.CUTS.has(some.kind);
            const at = Camera.pointOf(Look.trace.paths[{p}].segments.find(isIt), 1);
            return [at.x, at.y]; }})()""")

    def is_at(self, seen, z, r):
        """Whether a point of the plane is where Z and the radius are."""
        return self.run(f"Math.hypot(Camera.xOf({z}) - {seen[0]}, Camera.yOf({r}) - {seen[1]})") < 0.5

    def lane(self, seconds, p):
        """Where on the page the lane of a path has a time."""
        return self.run(f"""(() => {{ const box = $("times").getBoundingClientRect();
            return [box.left + TimeLine.xOf({seconds}), box.top + TimeLine.LANES[{p}] + 20]; }})()""")

    def corner(self):
        """Where the plane begins on the page."""
        return self.run("(box => [box.left, box.top])($('plane').getBoundingClientRect())")

    def press(self, selector):
        self.browser.click(*self.run(f"""(() => {{ const box = document.querySelector({json.dumps(selector)}).getBoundingClientRect();
            return [box.left + box.width / 2, box.top + box.height / 2]; }})()"""))

    def heights(self, canvas, colour):
        """The least and the greatest height, in points, at which a canvas has a colour; None if it has none."""
        return self.run(f"""(() => {{
            const c = $({json.dumps(canvas)}), ratio = c.width / c.clientWidth, colour = {colour};
            const {{ data }} = c.getContext("2d").getImageData(0, 0, c.width, c.height);
            const isIt = at => data[at + 3] > 200 && colour.reduce((sum, value, k) => sum + Math.abs(data[at + k] - value), 0) < 12;
            let low = Infinity, high = -1;
            for (let at = 0; at < data.length; at += 4) if (isIt(at)) {{
                const y = Math.floor(at / 4 / c.width) / ratio;
                low = Math.min(low, y);
                high = Math.max(high, y);
            }}
            return high < 0 ? null : [low, high]; }})()""")

    def inked(self, z, r):
        """Whether the plane has a cut of the first colour, blue, at a place."""
        return self.run(f"""(() => {{
            const c = $("plane"), ratio = c.width / c.clientWidth, pixel = value => Math.round(value * ratio) - 1;
            const {{ data }} = c.getContext("2d").getImageData(pixel(Camera.xOf({z})), pixel(Camera.yOf({r})), 3, 3);
            for (let at = 0; at < data.length; at += 4) if (data[at] < 90 && data[at + 2] > 150 && data[at + 3] > 200) return true;
            return false; }})()""")


def rows_of_texts(row, hand, browser):
    """Each text is drawn with what it says."""
    alarm = "alarm path 1 line 12 cause 2 ZeroDivide"
    for name, due in (("examples", ("drawn", "19 11", "2", "26", "done")), ("bolt", ("drawn", "57 17", "4", "78", "done")),
                      ("flange", ("drawn", "38 24", "3", "62", "done")), ("drift", ("drawn", "8 4", "0", "16", alarm))):
        browser.drop(trace(name))
        row.equal(f"{name} is drawn", hand.drawn(), due)
        row(f"{name} has cuts in both views", hand.heights("plane", BLUE) and hand.heights("times", BLUE))
    browser.drop([("stopped.txt", text("flange.txt").replace("end done", "end stopped"))])
    row.has("a stopped run says so", hand.shown("#badges"), "stopped after 62 records")
    browser.drop([("crlf.txt", text("flange.txt").replace("\n", "\r\n"))])
    row.equal("a text with the line ends of Windows is drawn", hand.data("moves"), "38 24")


def rows_of_refusals(row, hand, browser):
    """What is no trace is told, by its line, and not drawn."""
    flange = text("flange.txt")
    for name, bad, due in (
            ("a report", "path 1 moves 0\npath 2 moves 0\nrecords 2\nend done\n", "report of run or moves"),
            ("a verdict", "refused 72 WaitMismatch path 1 line 9 path 2 line 6 after 0\n", "refused 72 WaitMismatch"),
            ("an empty text", "", "Line 1"),
            ("another text", "hello\n", "Line 1"),
            ("the form before this one", flange.replace("trace 2", "trace 1"), 'reads the form "trace 2", and the text says "trace 1"'),
            ("a text that breaks off", flange[:600].rsplit("\n", 1)[0] + "\n", "does not say how the run ended"),
            ("a text without its races", flange.replace("races 0\n", ""), "does not have all races"),
            ("a text with a race too few", with_races(flange, RACES[0]).replace("races 1", "races 2"), "does not have all races"),
            ("a race too many", flange + RACES[0] + "\n", "Line 88"),
            ("a race before the end", flange.replace("end done\n", "races 0\nend done\n"), "Line 86"),
            ("a race of one path", with_races(flange, RACES[0].replace("path 2", "path 1")), "Line 88"),
            ("a race that comes twice", with_races(flange, RACES[0], RACES[0]), "Line 89"),
            ("another word for a race", with_races(flange, RACES[0].replace("after", "behind")), "Line 88"),
            ("an unknown move", flange.replace("1 8 aux M08", "1 8 lift"), "Line 21"),
            ("a word of the browser", flange.replace("1 8 aux M08", "1 8 constructor X1.000 Z1.000"), "Line 21"),
            ("a meeting of another number", flange.replace("met 1 M100", "met 2 M100"), "Line 25"),
            ("a meeting at another line", flange.replace("met 1 M100 path 1 line 11", "met 1 M100 path 1 line 12"), "Line 25"),
            ("a meeting without the other path", flange.replace("2 6 wait M100\n", ""), "Line 24"),
            ("a move of a path that waits", flange.replace("2 6 wait M100\n", "2 6 wait M100\n2 6 dwell 1\n"), "Line 18"),
            ("a line after the end", flange.replace("races 0\n", "1 9 end\nraces 0\n"), "Line 87"),
            ("a line after the races", flange + "1 9 end\n", "Line 88")):
        browser.drop([("bad.txt", bad)])
        fault = hand.shown("#fault")
        row(f"refused: {name}", hand.data("state") == "refused" and due in fault and hand.run("$('page').hidden"), fault)


def rows_of_times(row, hand, browser):
    """Times that were worked out by hand, at 20 m/min and 1 s for a tool."""
    browser.drop(trace("times"))
    surface = lambda from_, to: 60 * math.pi * (from_ ** 2 - to ** 2) / (4000 * 100 * 0.2)      # G96 S100 F0.2, along X
    knee = 100000 / math.pi / 1000                                                             # below it the limit of 1000 holds
    limited = surface(40, knee) + 60 * knee / 2 / (0.2 * 1000)
    for line, what, due in ((3, "rapid", 0.3), (4, "feed a minute", 30), (6, "feed a turn", 18), (7, "thread", 2.4), (8, "dwell", 0.5),
                            (9, "new tool", 1), (10, "new offset of the same tool", 0), (11, "arc", 60 * 5 * math.pi / 100),
                            (12, "rapid along X, a diameter", 0.12), (14, "surface speed", surface(100, 40)),
                            (16, "surface speed with a limit", limited)):
        seen = hand.run(f"(s => s.end - s.begin)(Look.trace.paths[1].segments.find(s => s.line === {line}))")
        row.near(f"time by hand: {what}", seen, due, 0.01)
    row.near("the earlier path waits until the later is there", hand.run("Look.trace.waited[2]"), 87.69, 0.02)
    row.has("a cut without a speed is told", hand.shown("#badges"), "1 cut without a speed")
    browser.drop(trace("flange"))
    row("after a meeting both paths go on at once", hand.run("""Look.trace.meetings.every(
        meeting => PATHS.every(p => Look.trace.paths[p].segments[meeting.last[p] + 1].begin === meeting.time))"""))
    row("each segment begins when the one before ends", hand.run("""PATHS.every(p => Look.trace.paths[p].segments.every(
        (segment, k, all) => segment.end >= segment.begin && segment.begin === (k === 0 ? 0 : all[k - 1].end)))"""))
    rows_of_idle(row, hand, browser)
    total = "Look.trace.total"
    before = hand.run(total)
    hand.run("$('rapid').value = 5; $('rapid').dispatchEvent(new Event('change'))")
    row("another rapid makes another guess", hand.run(total) > before + 1, hand.run(total))
    hand.run("$('rapid').value = ''; $('rapid').dispatchEvent(new Event('change'))")
    row.near("no number is the usual one", hand.run(total), before, 1e-9)


def rows_of_idle(row, hand, browser):
    """Where a path stands idle, and how long by the guess, is told as a guess."""
    rows = "[...document.querySelectorAll('#idle .idle')].map(e => e.textContent)"
    browser.drop(trace("times"))
    told = browser.run(rows)
    row.has("the longest idle time comes first", told[0], "\u2248 87.7 s path 2 at M100, line ")
    row.has("how long each path stands idle is told as a guess", hand.shown("#idle-said"), "By the guess path 1 stands idle for \u2248 ")
    row.equal("a path that has ended stands idle while the other goes on", [some for some in told if "path 1" in some],
              ["\u2248 6.0 s path 1 after its end, line 18, from 87.7 s on"])
    begin = browser.run("Times.idleOf(Look.trace, 2).sort((one, two) => two.end - two.begin - one.end + one.begin)[0].begin")
    hand.press("#idle .idle")
    row.equal("a click goes there", browser.run("[Look.time, Look.stretch]"), [begin, 0])
    browser.key("Escape")
    browser.drop(trace("flange"))
    row("waits, work and the time behind the end make up the whole, for each path", browser.run("""PATHS.every(p => {
        const { segments } = Look.trace.paths[p], lasts = list => list.reduce((sum, { begin, end }) => sum + end - begin, 0);
        const work = lasts(segments.filter(segment => segment.kind !== "wait")), idle = lasts(Times.idleOf(Look.trace, p));
        return Math.abs(work + idle - Look.trace.total) < 0.2; })"""))


def rows_of_plane(row, hand, browser):
    """Everything lies where it should."""
    browser.drop(trace("flange"))
    browser.run("Moving.goTo(30)")
    browser.settle()
    axis, groove, bore = browser.run("Camera.yOf(0)"), hand.heights("plane", ORANGE), hand.heights("plane", PURPLE)
    row("path 1's groove is above the axis", groove and groove[1] < axis, (groove, axis))
    row("path 2's boring bar is below the axis", bore and bore[0] > axis, (bore, axis))
    row("the fillet of G02 is hollow", hand.inked(-28.5355, 31.4645) and not hand.inked(-26.4645, 33.5355))
    row("the edge of G03 is full", hand.inked(-30.5858, 39.4142) and not hand.inked(-31.4142, 38.5858))
    ends = hand.goal(1, 12), hand.goal(2, 12)
    row("work coordinates: less the shift", hand.is_at(ends[0], -42, 40.25) and hand.is_at(ends[1], -36, 0), ends)
    hand.press("[data-coordinates=machine]")
    ends = hand.goal(1, 12), hand.goal(2, 12)
    row("machine coordinates: as the report has them", hand.is_at(ends[0], 66, 28.25) and hand.is_at(ends[1], 98, 15), ends)
    hand.press("[data-coordinates=work]")
    hand.press("[data-show='2']")
    row("a path can be hidden", hand.heights("plane", PURPLE) is None and hand.heights("plane", ORANGE) is not None)
    hand.press("[data-show='2']")
    hand.press("[data-fit=all]")
    row("zoom to all shows home too", browser.run("""(() => {
        const { home, firstShift } = Look.trace.paths[1], { width, height } = Camera.sheet;
        const x = Camera.xOf(home.z - firstShift.z), y = Camera.yOf((home.x - firstShift.x) / 2);
        return x > 0 && x < width && y > 0 && y < height; })()"""))
    browser.drop(trace("drift"))
    ends = hand.goal(1, 8), hand.goal(1, 10)
    row("a shift that the tape changes counts from its block on", all(hand.is_at(end, -30, 20) for end in ends), ends)
    top, below = browser.run("[TimeLine.LANES[1], TimeLine.LANES[2] + TimeLine.HIGH]")
    red = hand.heights("times", RED)
    row("an alarm is red, in its lane and above", red and red[0] < top and red[1] < below, (red, top, below))
    row.has("an alarm is told", hand.shown("#badges"), "alarm path 1 line 12 cause 2 ZeroDivide")


def rows_of_mouse(row, hand, browser):
    browser.drop(trace("flange"))
    spot = hand.spot(1, 23)
    browser.hover(*spot)
    said = browser.run("[...$('note').children].map(part => part.textContent).join(' | ')")
    row.has("hovering tells path, line, move and goal", said,
            "path 1, line 23, T0101 | cw X46.000 Z78.000 R5.000 F0.12 rev | to work X70.000 Z-30.000, \u2248 ")
    top, below = browser.run("[TimeLine.LANES[1] - 4, TimeLine.LANES[1] + TimeLine.HIGH + 4]")
    mark = hand.heights("times-over", GLOW)
    row("hovering in the plane marks the time line", mark and top <= mark[0] and mark[1] <= below, mark)
    browser.click(*spot)
    row.equal("a click in the plane marks the stretch", browser.run("Look.stretch"), 1)
    row("and its row, and goes there", browser.run(
        "document.querySelector('#meetings tr.on').dataset.stretch === '1' && Look.time === Look.focus.begin"))
    browser.key("Escape")
    row("escape takes the mark off", browser.run("Look.stretch === null && $('note').hidden"))
    time.sleep(TWICE)
    browser.click(*hand.lane(browser.run("Look.trace.meetings[0].time") + 1.5, 2))
    row.equal("a click in the time line marks the stretch", browser.run("Look.stretch"), 1)
    browser.run("$('speed').value = '100'")
    hand.press("#play")
    for _ in range(200):
        if not browser.run("Moving.isPlaying"):
            break
        time.sleep(0.05)
    row.near("play goes to the end of the stretch", browser.run("Look.time"), browser.run("Look.trace.meetings[1].time"), 1e-6)
    hand.press("#meetings tr[data-stretch='2']")
    row.has("a click in the table marks the stretch before the meeting", hand.shown("#stretch-name"), "M101 to M102")
    time.sleep(TWICE)
    hand.press("[data-fit=part]")
    left, top = hand.corner()
    scale, fixed = browser.run("[Camera.now.scale, Camera.now.z + (300 - Camera.sheet.width / 2) / Camera.now.scale]")
    browser.wheel(left + 300, top + 200, -300)
    row.equal("the wheel alone leaves the picture as it is", browser.run("Camera.now.scale"), scale)
    row.has("and how it comes nearer is told", hand.shown("#pointer"), "Ctrl and the wheel")
    browser.wheel(left + 300, top + 200, -300, control=True)
    row("the wheel with Ctrl comes nearer", browser.run("Camera.now.scale") > scale)
    row.near("and the point under it stays", browser.run(f"Camera.xOf({fixed})"), 300, 0.01)
    scale = browser.run("Camera.now.scale")
    hand.press("[data-zoom='1.3']")
    row.near("a button comes nearer", browser.run("Camera.now.scale"), 1.3 * scale, 1e-9)
    before = browser.run("Camera.xOf(0)")
    browser.drag(left + 300, top + 300, left + 340, top + 320)
    row.near("dragging moves the plane with the hand", browser.run("Camera.xOf(0)") - before, 40, 1)
    browser.hover(*hand.spot(1, 23, 1))
    row.equal("the place of the mouse is told", hand.shown("#pointer")[:5], "Z \u221230")
    x, y = hand.lane(10, 1)
    browser.hover(x, y)
    row.near("and its time", float(hand.shown("#pointer-time").split(" ")[0]), 10, 0.1)
    browser.drag(x, y - 40, x + 100, y - 40)
    row.near("dragging above the lanes sets the time", browser.run("TimeLine.xOf(Look.time) - TimeLine.xOf(10)"), 100, 3)


def rows_of_tapes(row, hand, browser):
    names = lambda: [hand.shown("#tape-name-1"), hand.shown("#tape-name-2")]
    problems = lambda: [hand.shown("#tape-problem-1"), hand.shown("#tape-problem-2")]
    now = lambda p: hand.shown(f"#tape-{p} .row.now .text")
    browser.drop([("flange_cell.txt", text("flange_cell.txt", EXAMPLES))] + list(reversed(FLANGE)) + trace("flange"))
    row.equal("dropped tapes find their paths, beside the settings", names(), ["flange_upper.nc", "flange_lower.nc"])
    row.equal("tapes that go with the trace make no complaint", problems(), ["", ""])
    browser.run("Moving.goTo(Look.trace.meetings[0].time + 3)")
    browser.settle()
    row.equal("the line of each path is marked", [now(1), now(2)], ["N100 G01 Z-42. F0.3 (ROUGH)", "N70 G01 Z-18. F0.16"])
    row.equal("waits are red in the tape", browser.run("[...document.querySelectorAll('#tape-1 .row.wait .text')].map(e => e.textContent)[0]"),
              "N90 M100 (FACE IS DONE)")
    browser.hover(*hand.spot(1, 23))
    row.equal("the line under the hand is marked", hand.shown("#tape-1 .row.focus .text"), "N210 G02 X70. Z-30. R5.")
    row("and it is in sight", browser.run("""(() => {
        const row = document.querySelector("#tape-1 .row.focus").getBoundingClientRect(), box = $("tape-1").getBoundingClientRect();
        return row.top >= box.top && row.bottom <= box.bottom; })()"""))
    hand.press("#tape-1 .row[data-line='22'] .text")
    row("a click on a line goes there", browser.run("Look.time === Look.trace.paths[1].segments.find(s => s.line === 22).begin"))
    hand.press("#exchange")
    row.has("a tape of the other path is told", problems()[0], "This is not the tape of the trace")
    hand.press("#close-tapes")
    row("the tapes can be closed", browser.run("$('tapes').hidden"))
    browser.drop([FLANGE[1]], "!$('tapes').hidden")
    row("a single tape finds its path", browser.run("$('tape-box-1').hidden && !$('tape-box-2').hidden"))
    old = FLANGE[1][1].replace("N30 T1212 (DRILL 18 MM)\n", "")
    browser.drop([("old.nc", old)], "PATHS.some(p => $(`tape-name-${p}`).textContent === 'old.nc')")
    row.has("a tape of another version is told", " ".join(problems()), "has no")
    browser.drop(trace("bolt"))
    row("a new trace takes the old tapes away", browser.run("$('tapes').hidden"))
    browser.drop([("u", text("bolt_upper.nc", EXAMPLES)), ("l", text("bolt_lower.nc", EXAMPLES))], "!$('tapes').hidden")
    row.equal("computed tools make no complaint", names() + problems(), ["u", "l", "", ""])
    browser.run("Moving.goTo(Look.trace.paths[1].segments.filter(s => s.line === 30)[2].begin + 0.1)")
    browser.settle()
    row.equal("a line of a subprogram is marked", now(1), "N20 G01 W-40. F0.25")
    evil = FLANGE[0][1].replace("(TURNING TOOL)", "(<IMG SRC=X ONERROR=ALERT(1)><B>)")
    browser.drop([("evil.nc", evil), FLANGE[1]] + trace("flange"))
    row.has("a tape is text", hand.shown("#tape-1 .row[data-line='6'] .text"), "<IMG SRC=X")
    row.equal("and never HTML", browser.run("document.querySelectorAll('#tapes img, #tapes b b').length"), 0)
    browser.drop([("long.nc", "%\nO1\n" + "N10 G00 X1.\n" * 20000 + "%\n"), FLANGE[1]] + trace("flange"))
    row("of a long tape only the lines in sight are in the page", browser.run("document.querySelectorAll('#tapes .row').length") < 200)


def rows_of_races(row, hand, browser):
    """Each race is told in words with what to do, and a click marks where it is."""
    marked = lambda p: hand.shown(f"#tape-{p} .row.race .text")
    told = lambda: browser.run("[...document.querySelectorAll('#races .race')].map(e => e.textContent)")
    browser.drop(trace("flange"))
    row.has("a pair without a race says so", hand.shown("#badges"), "no race")
    row.has("and what that means", hand.shown("#races-said"), "all runs that both paths finish have the same moves")
    row("and has nothing to click", told() == [] and browser.run("$('races-hint').hidden"), told())
    browser.drop([("raced.txt", text("raced.txt")), ("upper.nc", text("race_upper.nc", EXAMPLES)), ("lower.nc", text("race_lower.nc", EXAMPLES))])
    row.equal("a pair with a race is drawn", hand.drawn(), ("drawn", "1 1", "1", "7", "done"))
    row.has("how many races it has stands at the head", hand.shown("#badges"), "1 race")
    row.has("what to do is told", hand.shown("#races-said"), "Put a wait into both tapes between the two lines, or let one path alone use the variable")
    row.equal("a race is told in words", told(), ["#500 before the first meeting: path 1 may write it at line 3, path 2 has it at line 3"])
    hand.press("#races .race")
    browser.settle()
    row.equal("a click on a race marks its lines in both tapes", [marked(1), marked(2)], ["#500=12.5", "G00 X30. Z#500"])
    browser.drop([("three.txt", with_races(text("flange.txt"), *RACES))] + FLANGE)
    row.has("several races are counted", hand.shown("#badges"), "3 races")
    row.equal("a race behind a meeting says which", told()[1:],
              ["#512 after meeting 1 (M100): path 2 may write it at line 21, path 1 has it at line 15",
               "#533 after meeting 7: path 1 may write it at line 30, path 2 has it at line 28"])
    hand.press("#races .race:nth-child(2)")
    browser.settle()
    row.equal("a click marks the stretch of the race too", browser.run("Look.stretch"), 1)
    row.equal("and each line in the tape of its path", [marked(1), marked(2)], ["N130 G01 Z-24.5 F0.3", "N190 G01 Z-20."])
    row("the row is marked", browser.run("document.querySelector('#races .race:nth-child(2)').getAttribute('aria-pressed') === 'true'"))
    hand.press("#meetings tr[data-stretch='2']")
    browser.settle()
    row("another mark takes it off", marked(1) is None and browser.run("Look.race === null && Look.stretch === 2"))
    hand.press("#races .race:nth-child(3)")
    browser.settle()
    row.equal("a race to which this run did not come has its lines alone", [browser.run("Look.stretch"), marked(1)], [None, "N280 T0505 (GROOVING TOOL)"])
    browser.key("Escape")
    browser.settle()
    row("escape takes it off", marked(1) is None and browser.run("Look.race === null"))
    browser.drop([("stopped.txt", "".join(line for line in text("raced.txt").splitlines(True) if line[:4] in ("1 0 ", "2 0 ") or line[0] not in "12m").replace("done", "stopped"))])
    row.has("a run that was stopped before any meeting has the races of the pair", hand.shown("#races"), "#500 from the start on: path 1 may write it")


def rows_of_keys(row, hand, browser):
    """All of it by the keyboard alone."""
    browser.drop(FLANGE + [("flange.txt", with_races(text("flange.txt"), RACES[0]))])
    browser.run("document.activeElement.blur(); $('speed').value = '100'")
    reached = []
    for _ in range(60):
        browser.key("Tab")
        now = browser.run("(e => e.id || e.className === 'race' && 'race' || Object.entries(e.dataset).map(pair => pair.join(' ')).join() || e.tagName)(document.activeElement)")
        if now in reached:
            break
        reached.append(now)
    wanted = {"keys", "open", "exchange", "close-tapes", "tape-1", "tape-2", "plane", "coordinates work", "coordinates machine", "zoom 0.77", "zoom 1.3",
              "fit part", "fit all", "show 1", "show 2", "show rapid", "stretch 0", "race", "play", "slider", "speed", "rapid", "change", "times"}
    row("the tabulator comes to everything", wanted <= set(reached), sorted(wanted - set(reached)))
    browser.run("$('meetings').querySelector('[tabindex=\"0\"]').focus()")
    browser.key("ArrowDown")
    browser.key("Enter")
    row.equal("arrows go along the meetings, and Enter marks", browser.run("Look.stretch"), 1)
    browser.key("PageDown")
    row.has("page down goes to the next stretch", hand.shown("#said"), "M101 to M102")
    browser.key("Escape")
    browser.run("document.activeElement.blur()")
    times = []
    for key in ("Home", "ArrowRight", "ArrowRight", "ArrowLeft", "End"):
        browser.key(key)
        times.append(browser.run("Look.time"))
    start, first, second, again, end = times
    row("arrows go from move to move", start == 0 < first < second and abs(again - first) < 1e-9, times)
    row.equal("End goes to the end", end, browser.run("Look.trace.total"))
    browser.key("ArrowLeft")
    row.has("a step is told to who hears the page", hand.shown("#said"), "path 1 line ")
    browser.key("Home")
    browser.key(" ")
    row("the space bar plays", browser.run("Look.time > 0 || Moving.isPlaying"))
    browser.run("Moving.play(false); $('plane').focus()")
    scale, x = browser.run("[Camera.now.scale, Camera.xOf(0)]")
    browser.key("+")
    row("plus comes nearer", browser.run("Camera.now.scale") > scale * 1.2)
    browser.key("0")
    row.near("and 0 shows all", browser.run("Camera.now.scale"), scale, 1e-9)
    browser.key("ArrowRight", shift=True)
    row.near("shift and an arrow move the plane", browser.run("Camera.xOf(0)") - x, -60, 1)
    browser.run("$('times').focus()")
    span = browser.run("TimeLine.shown.to - TimeLine.shown.from")
    browser.key("+")
    row("plus comes nearer in the time line if that has the focus", browser.run("TimeLine.shown.to - TimeLine.shown.from") < span)
    browser.key("0")
    browser.run("Moving.goTo(0); $('tape-1').focus()")
    browser.key("ArrowDown")
    browser.key("ArrowDown")
    row.equal("arrows go from line to line of a tape", hand.shown("#tape-1 .row.focus .text"), "N60 G00 X84. Z0.1 M08")
    browser.run("document.querySelector('[data-show=\"2\"]').focus()")
    browser.key(" ")
    row("the space bar on a button presses it, and does not play", browser.run("!Look.shown[2] && !Moving.isPlaying"))
    browser.key(" ")
    browser.key("?")
    row("a question mark opens the help", browser.run("$('help').open"))
    browser.key("Escape")
    row("escape closes the help", not browser.run("$('help').open"))


def rows_of_screens(row, hand, browser):
    """Fingers, small screens, and screens with more pixels a point."""
    browser.drop(trace("flange"))
    time.sleep(TWICE)
    browser.call("Emulation.setTouchEmulationEnabled", enabled=True, maxTouchPoints=5)
    x, y = hand.spot(1, 23)
    browser.tap(x + 9, y + 9)
    row.has("a tap near a move tells it", hand.shown("#note"), "line 23")
    row.equal("and marks its stretch", browser.run("Look.stretch"), 1)
    left, top = hand.corner()
    before = browser.run("Camera.xOf(0)")
    browser.swipe([(left + 200 + 12 * step, top + 300)] for step in range(6))
    row.near("one finger moves the plane", browser.run("Camera.xOf(0)") - before, 60, 2)
    scale, z = browser.run("[Camera.now.scale, Camera.now.z + (300 - Camera.sheet.width / 2) / Camera.now.scale]")
    browser.swipe([(left + 250 - 10 * step, top + 300), (left + 350 + 10 * step, top + 300)] for step in range(6))
    row.near("two fingers come nearer", browser.run("Camera.now.scale") / scale, 2, 0.1)
    row.near("and the point between them stays", browser.run(f"Camera.xOf({z})"), 300, 8)
    span, (x, y) = browser.run("TimeLine.shown.to - TimeLine.shown.from"), hand.lane(20, 1)
    browser.swipe([(x - 10 * step, y), (x + 100 + 10 * step, y)] for step in range(6))
    row.near("two fingers come nearer in the time line", span / browser.run("TimeLine.shown.to - TimeLine.shown.from"), 2, 0.1)
    browser.call("Emulation.setTouchEmulationEnabled", enabled=False)
    browser.drop(trace("flange"))
    seen = "[$('plane').width, $('plane').height, Camera.xOf(-30), Camera.yOf(35)]"
    one = browser.run(seen)
    browser.size(1400, 900, 2)
    browser.run("Look.ask('over')")
    browser.settle()
    two = browser.run(seen)
    row("two pixels a point: the canvas is twice as fine, and shows the same",
        abs(2 * one[0] - two[0]) <= 1 and abs(2 * one[1] - two[1]) <= 1 and one[2:] == two[2:], (one, two))
    row("two pixels a point: the fillet is where it was", hand.inked(-28.5355, 31.4645) and not hand.inked(-26.4645, 33.5355))
    browser.hover(*hand.spot(1, 23))
    row.has("two pixels a point: the mouse finds the same move", hand.shown("#note"), "line 23")
    browser.size(390, 844, 2, mobile=True)
    browser.settle()
    time.sleep(0.2)
    row("a narrow screen shows all without moving sideways",
        browser.run("document.documentElement.scrollWidth <= innerWidth && Camera.sheet.height > 200"))
    browser.size(1400, 900)
    browser.settle()


def rows_of_promises(row, hand, browser):
    """What the page says of itself."""
    browser.drop(trace("flange"))
    said = hand.shown(".honest")
    of_each = [sentence for sentence in said.split(".") if "each run" in sentence.lower()]
    row("it says what is proved of this run", "Proved" in said and "each line is what the tapes do in this run" in said, said)
    row("of each run it says the order of waits and meetings alone",
        len(of_each) == 1 and "waits and meetings" in of_each[0] and "as far as it gets" in of_each[0] and "line" not in of_each[0], said)
    row("of races it says that they are all, and what a pair without one has",
        "No variable has a race but those that are listed" in said and "If none has one, all runs that both paths finish have the same moves" in said, said)
    row("it says what is a guess, and what nobody looked for", all(word in said for word in ("A guess:", "collisions", "two masters")), said)
    waits = browser.run("[...document.querySelectorAll('#meetings td:nth-child(6)')].map(e => e.textContent).filter(t => /\\d/.test(t))")
    row("each guessed wait has its sign", waits and all("\u2248" in wait for wait in waits), waits)
    row("the whole time is called a guess", "guess" in hand.shown("#now-total") and "(a guess)" in hand.shown("#badges"))
    far = "http://127.0.0.1:9/"
    for what, ask in (("connect-src", f"fetch('{far}').catch(() => 0)"), ("img-src", f"new Image().src = '{far}'"),
                      ("script-src-elem", f"document.head.append(Object.assign(document.createElement('script'), {{ src: '{far}' }}))")):
        held = browser.run(f"""new Promise(done => {{
            addEventListener("securitypolicyviolation", event => done(event.effectiveDirective), {{ once: true }});
            {ask};
            setTimeout(() => done("asked for"), 2000); }})""")
        row.equal(f"its own policy lets no request out: {what}", held, what)
    # (the browser counts what a page's policy holds back as asked for, and then as blocked)
    problems = [problem for problem in browser.problems if far not in problem]
    row.equal("no exception, and no request", problems, [])


def rows_of_looks(row, hand, browser):
    """By daylight, in the dark, and on paper."""
    browser.drop([*FLANGE, *trace("flange")])
    for mode, paper in (("dark", "#1c222a"), ("light", "#ffffff")):
        browser.call("Emulation.setEmulatedMedia", features=[{"name": "prefers-color-scheme", "value": mode}])
        browser.settle()
        row.equal(f"{mode}: the picture has its colours", browser.run("Colours.INK.paper"), paper)
    browser.run("dispatchEvent(new Event('beforeprint'))")
    text, pictures = browser.run("(paper => [paper.textContent, paper.querySelectorAll('canvas').length])($('paper'))")
    lines = [tape.splitlines() for _, tape in FLANGE]
    row("the picture and all lines of both tapes are printed", pictures == 1 and all(tape[k] in text for tape in lines for k in (0, 5, len(tape) - 1)), text[:200])
    browser.run("dispatchEvent(new Event('afterprint'))")
    row("and nothing of it stays", not browser.run("Boolean($('paper'))"))


GROUPS = {group.__name__.removeprefix("rows_of_"): group for group in (
    rows_of_texts, rows_of_refusals, rows_of_times, rows_of_plane, rows_of_mouse, rows_of_tapes, rows_of_races, rows_of_keys, rows_of_looks, rows_of_screens,
    rows_of_promises)}
FIRST_ROWS = ("the page begins empty", "tapes before the trace are kept", "the trace then finds them")


def rows_of_page(row, browser, page, groups=tuple(GROUPS)):
    """Opens a page, and looks at it by these groups of rows."""
    hand = Hand(browser)
    browser.open(os.path.join(page, "index.html"))
    row(FIRST_ROWS[0], hand.data("state") == "empty" and not browser.run("$('empty').hidden"), hand.data("state"))
    browser.drop(FLANGE, "$('hint').textContent")
    row.has(FIRST_ROWS[1], hand.shown("#hint"), "now drop the text of the trace")
    browser.drop(trace("flange"))
    row(FIRST_ROWS[2], not browser.run("$('tapes').hidden"))
    for group in groups:
        GROUPS[group](row, hand, browser)
