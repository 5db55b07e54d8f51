#!/usr/bin/env python3
"""cycle_reading.py lines|moves TEXT [SETTINGS]: what threads, tapers, grooves and holes are due to be written out as, worked out apart
from the program. cycle_reading.py cases SEED COUNT FOLDER: random ones, each with its tape, its settings, its lines and its moves in FOLDER.

TEXT has the blocks of a tape from line 3 on, with | for a line feed. `lines` prints them with the cycles written out, `moves` the moves of a
run of that, both with | for a line feed. SETTINGS names a file with the settings. It reads what the rows of plain_rows have, and no more:
no jump, no call, and no word that is calculated.

Lengths are whole numbers of 0.001 mm or fractions of them, X a diameter, a depth a radius."""
import math
import random
import sys
from fractions import Fraction
from pathlib import Path

from rough_reading import Block, counts, number, shown

DEFAULTS = {"roots": "down", "passes": 1, "pullout": 0, "angle": 60, "least": 0, "left": 0, "groove": 500, "peck": "level", "clearance": 500,
            "tap": (4, 3), "idle": "", "system": "A"}
MOST_STEPS = 1000


class Refused(Exception):
    """The cycle takes more than a thousand passes or pecks."""


def settings_of(text):
    """The choices of the machine, by the lines of its settings."""
    said = dict(DEFAULTS)
    for line in text.split("\n"):
        words = [] if line.lstrip().startswith("(") else line.split()
        match words:
            case ["codes", system]:
                said["system"] = system
            case ["thread", name, value]:
                said[name] = value if name == "roots" else int(value)
            case ["groove", "retreat", value]:
                said["groove"] = int(value)
            case ["peck", "retreat", value]:
                said["peck"] = value if value == "level" else int(value)
            case ["peck", "clearance", value]:
                said["clearance"] = int(value)
            case ["tap", "none"]:
                said["tap"] = None
            case ["tap", "codes", about, back]:
                said["tap"] = (int(about), int(back))
            case ["idle", letter]:
                said["idle"] += letter
    return said


def nearest(value):
    """The nearest whole number, halves upwards."""
    return math.floor(value + Fraction(1, 2))


def steps(whole, step):
    """How far each step of a way leads: each as far as said, and the last one to its end."""
    found = [min(k * step, whole) for k in range(1, math.ceil(Fraction(whole, step)) + 1)] if whole else []
    if len(found) > MOST_STEPS:
        raise Refused
    return found


# --- threads

def tangent(degrees):
    """The tangent of half the angle of a tip, in millionths, rounded down."""
    return Fraction(math.floor(10 ** 6 * math.tan(math.radians(Fraction(degrees, 2)))), 10 ** 6)


def depths_of(whole, first, least, left, passes, roots):
    """How deep each pass goes: the first depth times the root of its number, but deeper than the one before by the least depth, up to what
    is left for the passes at the whole depth."""
    found, end = [], whole - left
    while not found or found[-1] < end:
        n = len(found) + 1
        root = math.isqrt(first * first * n)
        if roots == "up" and root * root < first * first * n:
            root += 1
        found.append(min(end, max(root, (found or [0])[-1] + least)))
        if n > MOST_STEPS:
            raise Refused
    return found + [whole] * passes


class Thread:
    """A thread from a start: its end, its taper as a radius, its depth, the angle of its tip, its lead in mm, and its pull-out in tenths of it."""

    def __init__(self, start, end, taper, depth, angle, lead, pull_out):
        self.start, self.end, self.taper, self.depth, self.lead = start, end, taper, depth, lead
        self.tan = tangent(angle)
        self.pull = nearest(Fraction(lead) * 100 * pull_out)
        self.off = 1 if start[0] >= end[0] else -1      # to where it is free: out of a shaft, into a bore
        self.on = 1 if end[1] > start[1] else -1        # along the cut

    def x_at(self, depth, z):
        """The X of a pass at a Z: on the line of its taper, and on its free side of it if that is no whole number."""
        share = Fraction(self.end[1] - z, self.end[1] - self.start[1])
        exact = self.end[0] + self.off * 2 * (self.depth - depth) + 2 * self.taper * share
        return math.ceil(exact) if self.off > 0 else math.floor(exact)

    def begin(self, depth):
        """The Z of a pass's begin: that of the passes at the whole depth, less the half groove's width at this depth, rounded down."""
        whole, width = nearest(self.depth * self.tan), math.floor((self.depth - depth) * self.tan)
        return self.start[1] + self.on * (whole - width)

    def cut(self, depth):
        """The places to which a pass cuts: its end, or the place where it is pulled out and the end of a rise by 45 degrees."""
        z = self.begin(depth)
        pull = min(self.pull, abs(self.end[1] - z))
        if not pull:
            return [(self.x_at(depth, self.end[1]), self.end[1])]
        corner = self.x_at(depth, self.end[1] - self.on * pull), self.end[1] - self.on * pull
        rise = min(pull, abs(self.start[0] - corner[0]) // 2)
        return [corner, (corner[0] + self.off * 2 * rise, corner[1] + self.on * rise)]

    def blocks(self, depths):
        found = []
        for depth in depths:
            z = self.begin(depth)
            found += [("rapid", None, z), ("rapid", self.x_at(depth, z), None)]
            found += [("thread", *place, self.lead) for place in self.cut(depth)]
            found.append(("rapid", self.start[0], None))
        return found + [("rapid", None, self.start[1])]


def two_line_thread(head, body, at, said, lead):
    """G76 in two lines."""
    p = int(head.get("P", "0"))
    passes, pull_out, angle = p // 10000, p // 100 % 100, p % 100
    if "P" not in head:
        pull_out, angle = said["pullout"], said["angle"]
    least, left = int(head.get("Q", said["least"])), counts(head["R"]) if "R" in head else said["left"]
    depth = int(body["P"])
    it = Thread(at, place_of(body, at), counts(body.get("R", "0")), depth, angle, lead, pull_out)
    return it.blocks(depths_of(depth, int(body["Q"]), least, left, passes or said["passes"], said["roots"]))


def one_line_thread(body, at, said, lead):
    """G76 in one line."""
    depth = counts(body["K"])
    it = Thread(at, place_of(body, at), counts(body.get("I", "0")), depth, int(body.get("A", "0")), lead, said["pullout"])
    return it.blocks(depths_of(depth, counts(body["D"]), said["least"], said["left"], said["passes"], said["roots"]))


def place_of(words, at):
    """Where the words X or U, Z or W lead from a place."""
    x = counts(words["X"]) if "X" in words else at[0] + counts(words.get("U", "0"))
    z = counts(words["Z"]) if "Z" in words else at[1] + counts(words.get("W", "0"))
    return x, z


# --- tapers

def tapered(kind, start, end, taper, lead, said):
    """The blocks of a cycle with a taper: a thread of one pass, a cut along Z, or one along X."""
    if kind == "thread":
        return Thread(start, end, taper, 0, 0, lead, said["pullout"]).blocks([0])
    if kind == "turn":
        return [("rapid", end[0] + 2 * taper, None), ("cut", *end, lead), ("cut", start[0], None, lead), ("rapid", None, start[1])]
    return [("rapid", None, end[1] + taper), ("cut", *end, lead), ("cut", None, start[1], lead), ("rapid", start[0], None)]


# --- grooves and holes

def along(axis, place):
    """A place along an axis alone, as X and Z."""
    return (place, None) if axis == "X" else (None, place)


def pecks(axis, level, bottom, peck, back, to_level, feed):
    """The blocks of pecks: the tool draws back from each but the last one by a way, or to the level and in again to that far before its end;
    never past the level."""
    down, found = (1 if bottom > level else -1), []
    ends = steps(abs(bottom - level), peck)
    for n, end in enumerate(ends):
        if n:
            found += [("rapid", *along(axis, level))] * to_level
            found.append(("rapid", *along(axis, level + down * max(ends[n - 1] - back, 0))))
        found.append(("cut", *along(axis, level + down * end), feed))
    return found


def groove(axis, words, at, back, feed):
    """G74 (along Z) and G75 (in X): columns of pecks from the first to the last, each left at its bottom towards the first, and back across."""
    end, other = place_of(words, at), "Z" if axis == "X" else "X"
    first, last = (at[1], end[1]) if axis == "X" else at
    level, bottom = (at[0], end[0]) if axis == "X" else (at[1], end[1])
    if axis == "Z":
        first, last = at[0], end[0]
    radius = {"X": 2, "Z": 1}       # a radius is half of what X counts
    peck, step = (int(words.get({"X": "P", "Z": "Q"}[it], "0")) * radius[it] for it in (axis, other))
    relief = abs(counts(words.get("R", "0"))) * radius[other]
    way, found = (1 if last > first else -1), []
    for far in [0] + (steps(abs(last - first), step) if last != first else []):
        found.append(("rapid", *along(other, first + way * far)))
        found += pecks(axis, level, bottom, peck, back * radius[axis], False, feed)
        if relief:
            found.append(("rapid", *along(other, first + way * max(far - relief, 0))))
        found.append(("rapid", *along(axis, level)))
    return found + [("rapid", *along(other, first))]


HOLES = {83: ("Z", "drill"), 84: ("Z", "tap"), 85: ("Z", "bore"), 87: ("X", "drill"), 88: ("X", "tap"), 89: ("X", "bore")}


class Holes:
    """A run of holes: what is in force in it."""

    def __init__(self, code, at, said, level):
        self.code, self.said, self.level, self.words = code, said, level, {}
        self.axis, self.kind = HOLES[code]
        self.initial = at[0] if self.axis == "X" else at[1]

    def blocks(self, block, at):
        """The blocks of a block of the run, from where the tool is."""
        words, axis, said = block.said, self.axis, self.said
        # (another code of the axis goes on with what is in force)
        self.kind = next((HOLES[c][1] for c in block.codes if c in HOLES), self.kind)
        other, way = ("Z", "W") if axis == "X" else ("X", "U")
        size = 2 if axis == "X" else 1
        if said["system"] == "B":
            self.level = next((c for c in block.codes if c in (98, 99)), self.level)
        own = {"X": "U", "Z": "W"}[axis]
        for letter in words:
            # (a place takes the place of a way, and a way that of a place)
            if letter in (axis, own):
                self.words.pop(axis, None), self.words.pop(own, None)
        self.words |= {letter: it for letter, it in words.items() if letter in ("R", "Q", "P", "F", axis, own)}
        found, now = [], self.words
        if other in words or way in words:
            place = counts(words[other]) if other in words else at["XZ".index(other)] + counts(words[way])
            found.append(("rapid", *along(other, place)))
        point = self.initial + size * counts(now.get("R", "0"))
        bottom = counts(now[axis]) if axis in now else point + counts(now[own])
        for _ in range(int(words.get("K", "1"))):
            found += self.hole(point, bottom, size, now)
        return found

    def hole(self, point, bottom, size, now):
        axis, said, feed = self.axis, self.said, now.get("F")
        peck = size * int(now.get("Q", "0")) if self.kind == "drill" else 0
        to_level = said["peck"] == "level"
        back = size * (said["clearance"] if to_level else said["peck"])
        found = [("rapid", *along(axis, point))]
        found += pecks(axis, point, bottom, peck or abs(bottom - point), back, to_level, feed)
        rest = int(now.get("P", "0"))
        found += [("dwell", rest)] * (rest > 0)
        turns = said["tap"] if self.kind == "tap" else None
        found += [("M", turns[0])] if turns else []
        if self.kind != "drill":
            found.append(("cut", *along(axis, point), feed))
        if self.kind == "drill" or self.level == 98:
            found.append(("rapid", *along(axis, point if self.level == 99 else self.initial)))
        return found + ([("M", turns[1])] if turns else [])


# --- a tape

class Tape:
    """Reads the blocks of a tape in their order: the lines that are due, and the blocks that a run makes."""

    def __init__(self, text, settings):
        self.said = settings_of(settings)
        self.blocks = [Block(n, it) for n, it in enumerate(text.rstrip("|").split("|"), 3)]
        self.lines, self.done = [], []
        self.at, self.motion, self.feed, self.retreat, self.level, self.n = [None, None], 0, None, self.said["groove"], 98, 0
        is_b = self.said["system"] == "B"
        self.cycles = {77: "turn", 78: "thread", 79: "face"} if is_b else {90: "turn", 92: "thread", 94: "face"}
        self.plain = {0: 0, 1: 1, 33 if is_b else 32: 32} | self.cycles
        while self.n < len(self.blocks):
            self.read(self.blocks[self.n])
            self.n += 1

    def read(self, block):
        code = next((c for c in block.codes if c in (74, 75, 76) or c in HOLES), None)
        cycle = next((self.cycles[c] for c in block.codes if c in self.cycles), self.motion if not block.codes else None)
        if code == 76:
            self.read_thread(block)
        elif code in (74, 75):
            self.read_groove(block, code)
        elif code is not None:
            self.read_holes(Holes(code, self.at, self.said, self.level))
        elif cycle in self.cycles.values() and "R" in block.said:
            self.read_tapers(cycle)
        else:
            self.keep(block)

    def keep(self, block):
        """A block of the language stays, without words that move nothing."""
        idle = [word for word in block.text.split() if word[0] in self.said["idle"]]
        self.lines.append(" ".join(word for word in block.text.split() if word not in idle) + f" ({block.line})" if idle else block.text)
        self.level = next((c for c in block.codes if c in (98, 99)), self.level) if self.said["system"] == "B" else 98
        self.motion = next((self.plain[c] for c in block.codes if c in self.plain), self.motion)
        if "F" in block.said:
            self.feed = block.said["F"]
            self.do([("F", self.feed)])
        if any(letter in block.said for letter in "XZUW"):
            x, z = place_of(block.said, self.at)
            if self.motion == "turn":
                self.do([("rapid", x, None), ("cut", None, z, None), ("cut", self.at[0], None, None), ("rapid", None, self.at[1])])
            else:
                self.do([({0: "rapid", 1: "cut"}[self.motion], x, z, None)])
        if "M" in block.said:
            self.do([("M", int(block.said["M"]))])

    def do(self, found):
        for it in found:
            self.done.append(it)
            if it[0] in ("rapid", "cut", "thread"):
                self.at = [old if new is None else new for old, new in zip(self.at, it[1:3])]
                self.feed = it[3] if len(it) > 3 and it[3] is not None else self.feed

    def write(self, block, found, again, *codes):
        """Blocks take the place of a line, with the code of motion that is in force again behind them."""
        self.do(found)
        said = [self.line_of(it) for it in found] + [*codes] + ["G01"] * again
        said[:1] = [(f"N{block.number} " if block.number is not None else "") + it for it in said[:1]]
        self.lines += [f"{it} ({block.line})" for it in said]

    def line_of(self, block):
        name, *rest = block
        if name == "dwell":
            return f"G04 X{shown(rest[0])}"
        if name == "M":
            return f"M{rest[0]}"
        code = {"rapid": "G00", "cut": "G01", "thread": "G33" if self.said["system"] == "B" else "G32"}[name]
        said = [code] + [f"{letter}{shown(it)}" for letter, it in zip("XZ", rest) if it is not None]
        return " ".join(said + [f"F{number(it)}" for it in rest[2:] if it is not None])

    def read_thread(self, block):
        body = block
        if "K" not in block.said:
            self.n += 1
            body = self.blocks[self.n]
        lead = body.said.get("F", self.feed)
        if body is block:
            found = one_line_thread(body.said, self.at, self.said, lead)
        else:
            found = two_line_thread(block.said, body.said, self.at, self.said, lead)
        self.write(block, found, self.motion == 1)

    def read_groove(self, block, code):
        body = block
        if not any(letter in block.said for letter in "XZUW"):
            self.retreat = counts(block.said["R"]) if "R" in block.said else self.retreat
            self.n += 1
            body = self.blocks[self.n]
        found = groove("Z" if code == 74 else "X", body.said, self.at, self.retreat, body.said.get("F"))
        self.write(block, found, self.motion == 1)

    def in_run(self):
        """The blocks from here on that are of a run: up to a code of motion or G80, or holes along the other axis."""
        axes = {HOLES[c][0] for c in self.blocks[self.n].codes if c in HOLES}
        while self.n < len(self.blocks):
            block = self.blocks[self.n]
            if any(c in (0, 1, 2, 3, 32, 33, 80) or c in HOLES and HOLES[c][0] not in axes for c in block.codes):
                break
            yield block
            self.n += 1
        self.n -= 1

    def read_tapers(self, kind):
        start, x, z, taper, lead = list(self.at), None, None, 0, self.feed
        for block in self.in_run():
            words = block.said
            to = place_of(words, start)
            x = to[0] if "X" in words or "U" in words else x
            z = to[1] if "Z" in words or "W" in words else z
            taper, lead = counts(words["R"]) if "R" in words else taper, words.get("F", lead)
            self.write(block, tapered(kind, start, (x, z), taper, lead, self.said), False)
        self.motion = 0

    def read_holes(self, run):
        for block in self.in_run():
            found = run.blocks(block, self.at)
            # (a feed to the point R leaves G01)
            self.write(block, found, self.motion == 1, *["G00"] * (self.motion == 0 and run.kind != "drill" and run.level == 99))
        self.level = run.level


def moves_of(done):
    """The moves of a run of these blocks, and the codes of M between them."""
    at, feed, said = [0, 0], None, []
    for name, *rest in done:
        if name == "F":
            feed = rest[0]
            continue
        if name in ("dwell", "M"):
            said.append(f"dwell {rest[0]}" if name == "dwell" else f"aux M{rest[0]:02d}")
            continue
        at = [old if new is None else new for old, new in zip(at, rest)]
        feed = rest[2] if len(rest) > 2 and rest[2] is not None else feed
        ends = {"rapid": "", "thread": f" F{number(feed or '0')}", "cut": f" F{number(feed or '0')} rev"}[name]
        said.append(f"{'feed' if name == 'cut' else name} X{shown(at[0])} Z{shown(at[1])}{ends}")
    return said


# --- random cycles

class Chance:
    """Random words of cycles, of which none is refused."""

    def __init__(self, seed):
        self.random = random.Random(seed)

    def some(self, low, high):
        """A length, mostly of whole tenths of mm."""
        step = self.random.choice((1, 10, 100, 500))
        return self.random.randint(-(-low // step), high // step) * step if high // step >= -(-low // step) else low

    def word(self, letter, length):
        """A length as a word, in mm or in 0.001 mm."""
        return f"{letter}{length}" if self.random.random() < 0.2 else f"{letter}{shown(length).rstrip('0')}"

    def to(self, place, way, at, end):
        """A place as the word of it or of its way."""
        return self.word(way, end - at) if way and self.random.random() < 0.3 else self.word(place, end)

    def settings(self, system):
        it = self.random
        lines = [f"codes {system}"] if system == "B" else []
        choices = [f"thread roots {it.choice(('up', 'down'))}", f"thread passes {it.randint(1, 4)}", f"thread pullout {it.randint(0, 30)}",
                   f"thread angle {it.choice((0, 29, 30, 55, 60, 80))}", f"thread least {it.randint(0, 120)}", f"thread left {it.randint(0, 90)}",
                   f"groove retreat {it.randint(0, 900)}", it.choice((f"peck retreat {it.randint(0, 900)}", "peck retreat level")),
                   f"peck clearance {it.randint(0, 900)}", it.choice(("tap none", f"tap codes {it.randint(10, 29)} {it.randint(30, 49)}")), "idle C"]
        return "".join(f"{line}\n" for line in lines + it.sample(choices, it.randint(0, len(choices))))

    def thread(self, system):
        """G76 in one line or in two, or a run of G92 with a taper: outer or inner, towards lesser or greater Z."""
        it, ways = self.random, system == "A"
        inner, on = it.random() < 0.4, it.choice((-1, -1, 1))
        depth, length = self.some(150, 4000), self.some(12000, 60000)
        taper = it.choice((0, it.randint(-length // 4, length // 4)))
        end = self.some(20000, 90000), self.some(-40000, 20000)
        off = -1 if inner else 1
        # (clear of the crest at both ends)
        crest = end[0] + off * 2 * depth
        start = (min if inner else max)(crest, crest + 2 * taper) + off * self.some(10, 5000), end[1] - on * length
        ends = [self.to("X", ways and "U", start[0], end[0]), self.to("Z", ways and "W", start[1], end[1])]
        lead = f"F{it.choice(('0.5', '1.', '1.5', '2', '3.175', '.75'))}"
        first, least, left = self.some(60, depth), self.some(0, 120), self.some(0, min(depth - 1, 90))
        begin = [f"G0{it.choice('01')} {self.word('X', start[0])} {self.word('Z', start[1])} F0.3"]
        kind = it.choice(("one", "two", "two", "run"))
        if kind == "one":
            words = ends + [f"K{shown(depth)}", self.word("D", first), lead] + [self.word("I", taper)] * (taper != 0)
            words += it.choice(([], [f"A{it.choice((0, 29, 30, 55, 60, 80))}"], ["P1"]))
            return begin + [self.mixed("G76", words)]
        if kind == "two":
            head = [f"P{it.randint(0, 4):02d}{it.randint(0, 25):02d}{it.choice((0, 29, 30, 55, 60, 80)):02d}", f"Q{least}", self.word("R", left)]
            body = ends + [f"P{depth}", f"Q{first}", lead] + [self.word("R", taper)] * (taper != 0)
            return begin + [self.mixed("G76", it.sample(head, it.randint(1, 3))), self.mixed("G76", body)]
        taper = taper or it.randint(-length // 4, length // 4)
        start = (min if inner else max)(end[0], end[0] + 2 * taper) + off * self.some(10, 5000), end[1] - on * length
        begin = [f"G00 {self.word('X', start[0])} {self.word('Z', start[1])} F0.3"]
        ends = [self.to("X", ways and "U", start[0], end[0]), self.to("Z", ways and "W", start[1], end[1])]
        lines = [self.mixed("G92" if ways else "G78", ends + [self.word("R", taper), lead])]
        lines += [self.word("X", end[0] - off * k * it.randint(0, 300)) for k in range(1, it.randint(1, 4)) if off > 0 or end[0] > start[0]]
        return begin + lines + ["G00 X120."]

    def taper(self, system):
        """A run of G90 or of G94 with tapers."""
        it, ways = self.random, system == "A"
        turns = it.random() < 0.5
        start, end = (self.some(60000, 90000), self.some(1000, 9000)), (self.some(20000, 59000), self.some(-50000, 0))
        code = {(True, True): "G90", (True, False): "G77", (False, True): "G94", (False, False): "G79"}[turns, ways]
        room = 500      # (no end lies nearer to the start)
        lines = [f"G00 {self.word('X', start[0])} {self.word('Z', start[1])}"]
        words = [self.to("X", ways and "U", start[0], end[0]), self.to("Z", ways and "W", start[1], end[1]),
                 self.word("R", it.randint(-9000, room)), f"F{it.choice(('0.1', '.25', '0.3'))}"]
        lines.append(self.mixed(code, words))
        for _ in range(it.randint(0, 3)):
            words = it.choice(([self.to("X", ways and "U", start[0], self.some(20000, 59000))],
                               [self.word("Z", self.some(-50000, 0)), self.word("R", -it.randint(0, 9000))], [self.word("X", 30000), "R0", "F.2"]))
            lines.append(" ".join(words))
        return lines + ["G00 X100."]

    def grooves(self, system):
        """G74 or G75, in one line or two."""
        it, ways = self.random, system == "A"
        start = self.some(30000, 60000), self.some(-5000, 5000)
        end = start[0] + it.choice((-1, -1, -1, 1)) * self.some(0, 20000), start[1] + it.choice((-1, -1, -1, 1)) * self.some(0, 20000)
        code = it.choice((74, 75))
        along_x = code == 75
        if (end[0] if along_x else end[1]) == start[0 if along_x else 1]:
            end = start[0] - 8000, start[1] - 8000
        words = []
        if along_x or end[0] != start[0]:
            words.append(self.to("X", ways and "U", start[0], end[0]))
        if not along_x or end[1] != start[1]:
            words.append(self.to("Z", ways and "W", start[1], end[1]))
        words += [f"P{it.randint(200, 6000)}", f"Q{it.randint(200, 6000)}"] + it.choice(([], [self.word("R", self.some(0, 400))]))
        words += it.choice(([], ["F0.08"]))
        head = it.choice(([], [f"G{code} {self.word('R', self.some(0, 900))}"], [f"G{code}"]))
        return [f"G0{it.choice('01')} {self.word('X', start[0])} {self.word('Z', start[1])} F0.2"] + head + [self.mixed(f"G{code}", words)]

    def holes(self, system):
        """A run of holes."""
        it, ways = self.random, system == "A"
        code = it.choice(list(HOLES))
        axis, kind = HOLES[code]
        size, start = (2 if axis == "X" else 1), (self.some(60000, 90000), self.some(2000, 9000))
        initial = start[0 if axis == "X" else 1]
        down = self.some(0, 3000)
        bottom = initial - size * down - self.some(1000, 25000)
        other = "Z" if axis == "X" else "X"
        words = [self.word(axis, bottom), f"F{it.choice(('0.1', '.25', '1.'))}"] + [self.word("R", -down)] * (down > 0 or it.random() < 0.5)
        words += [self.word(other, self.some(0, 20000))] * (it.random() < 0.5)
        words += [f"Q{it.randint(300, 9000)}"] * (kind == "drill" and it.random() < 0.6) + [f"P{it.randint(0, 900)}"] * (it.random() < 0.4)
        words += [f"K{it.randint(0, 3)}"] * (it.random() < 0.3)
        level = lambda: [it.choice(("G98", "G99"))] * (not ways and it.random() < 0.5)
        lines = [f"G0{it.choice('01')} {self.word('X', start[0])} {self.word('Z', start[1])} F0.2", self.mixed(" ".join(level() + [f"G{code}"]), words)]
        for _ in range(it.randint(0, 4)):
            words = it.choice(([self.word(other, self.some(0, 20000))], [self.word(axis, bottom - self.some(0, 5000))],
                               [self.word("W" if axis == "Z" else "U", -self.some(1000, 9000))] if ways else [self.word(other, 5000)],
                               [self.word("U" if axis == "Z" else "W", -self.some(0, 3000))] if ways else [self.word(other, 7000)],
                               [self.word(other, self.some(0, 20000)), self.word("R", -down // 2), f"P{it.randint(0, 300)}", "F.15"],
                               [self.word(other, self.some(0, 20000)), f"K{it.randint(0, 4)}"] + [f"Q{it.randint(500, 4000)}"] * (kind == "drill")))
            if it.random() < 0.2:
                code = it.choice([c for c in HOLES if HOLES[c][0] == axis])
                kind = HOLES[code][1]
                words.insert(0, f"G{code}")
            words = [word for word in words if kind == "drill" or word[0] != "Q"]
            lines.append(" ".join(level() + words))
        return lines + ["G80"] * it.randint(0, 1) + ["G00 X100."]

    def mixed(self, code, words):
        """The words of a block in any order, behind its code."""
        return " ".join([code] + self.random.sample(words, len(words)))

    def case(self):
        """A tape of eight cycles, its settings, and what is read of it."""
        system = self.random.choice("AAB")
        settings, text, tape = self.settings(system), "G90|" * (system == "B"), None
        for _ in range(8):
            more = None
            while more is None or len(more.lines) > (len(tape.lines) if tape else 0) + 600:
                kind = self.random.choice((self.thread, self.thread, self.taper, self.grooves, self.holes, self.holes))
                next_text = text + "".join(f"{line}|" for line in kind(system))
                try:
                    more = Tape(next_text, settings)
                except Refused:
                    more = None
            text, tape = next_text, more
        return text, settings, tape


def write_cases(seed, count, folder):
    chance, folder = Chance(seed), Path(folder)
    for k in range(count):
        text, settings, tape = chance.case()
        due = tape.lines
        for name, lines in (("nc", ["%", "O1", *text.rstrip("|").split("|"), "M30", "%"]), ("due", ["%", "O1", *due, "M30", "%"]), ("moves", moves_of(tape.done))):
            (folder / f"{k}.{name}").write_text("".join(f"{line}\n" for line in lines))
        (folder / f"{k}.txt").write_text(settings)
        (folder / f"{k}.cell").write_text(f"codes {tape.said['system']}\n" if tape.said["system"] == "B" else "")


if __name__ == "__main__":
    if sys.argv[1] == "cases":
        write_cases(int(sys.argv[2]), int(sys.argv[3]), sys.argv[4])
    else:
        read = Tape(sys.argv[2], Path(sys.argv[3]).read_text() if len(sys.argv) > 3 else "")
        print("|".join(read.lines if sys.argv[1] == "lines" else moves_of(read.done)) + "|" * (sys.argv[1] == "lines"))
