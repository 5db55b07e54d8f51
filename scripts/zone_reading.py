"""Random pairs for `zones` by moves, with a reading of their own of what is hit. It knows nothing of the program but its words.

    zone_reading.py PROGRAM COUNT SEED

Each pair has straight moves, rapids, cycles, arcs by a centre and by a radius, changes of tools, rests and waits; and a text of zones with
frames, mirrors of X and of Z, bodies, and fixed boxes with and without `cut`. All numbers are whole: positions count 0.001 mm, X as a
diameter, and points count a quarter of that. Of each pair the whole answer is compared with that of the own reading, which judges each pair
of moves by its box. And beside it points of the moves are taken densely, each with the box of its tool: where the program says `clear`, no
two of them come within the gap, nor one and a fixed box that binds it. Every third pair is run first, and judged by its journal."""
import math
import os
import random
import subprocess
import sys
import tempfile

PARTS = 4   # points of a move count so many parts of 0.001 mm


def mm(n):
    return f"{'-' if n < 0 else ''}{abs(n) // 1000}.{abs(n) % 1000:03}"


def root_above(n):
    """The least whole number whose square is n or more."""
    least = math.isqrt(n)
    return least if least * least == n else least + 1


class Move:
    """A move of one path: its line, the tool in force, whether it is a rapid, its box without a body, and points that it passes, in parts."""

    def __init__(self, line, tool, is_rapid, box, points):
        self.line, self.tool, self.is_rapid, self.box, self.points = line, tool, is_rapid, box, points


def box_of(*points):
    xs, zs = zip(*points)
    return min(xs), max(xs), min(zs), max(zs)


def joined(one, two):
    return min(one[0], two[0]), max(one[1], two[1]), min(one[2], two[2]), max(one[3], two[3])


def straight(at, to):
    """The box of a straight move, and points of its line: of a whole number of steps, each rounded to a part."""
    points = [tuple(PARTS * a + PARTS * (b - a) * k // 16 for a, b in zip(at, to)) for k in range(17)]
    return box_of(at, to), points


def rapid(rng, at, to):
    """A rapid need not keep to the line: besides, points anywhere between its ends, and the corners of its box."""
    box, points = straight(at, to)
    inside = [(rng.randint(PARTS * box[0], PARTS * box[1]), rng.randint(PARTS * box[2], PARTS * box[3])) for _ in range(8)]
    return box, points + inside + [(PARTS * at[0], PARTS * to[1]), (PARTS * to[0], PARTS * at[1])]


def square_of(point, centre):
    """The square of how far a point lies from a centre, in half counts: X is a diameter, so it counts once, and Z twice."""
    return (point[0] - centre[0]) ** 2 + (2 * (point[1] - centre[1])) ** 2


def box_round(centre, square):
    """The least box of whole counts round all points that are no farther from a centre than this square says."""
    across, along = root_above(square), root_above(square)
    along = (along + 1) // 2
    return centre[0] - across, centre[0] + across, centre[1] - along, centre[1] + along


def round_points(centre, square, first, turn):
    """Points of an arc, from the angle `first` on by `turn`, each moved to a part that lies on the circle or in it. The circle says where:
    the sines only choose which of its points are taken."""
    points = []
    for k in range(25):
        angle = first + turn * k / 24
        for inward in range(4):
            reach = math.sqrt(square) * PARTS - inward
            x = PARTS * centre[0] + round(reach * math.sin(angle))
            z = PARTS * centre[1] + round(reach * math.cos(angle) / 2)
            if (x - PARTS * centre[0]) ** 2 + (2 * (z - PARTS * centre[1])) ** 2 <= PARTS * PARTS * square:
                points.append((x, z))
                break
    return points


def angle_of(point, centre):
    """From Z towards X, in a plane in which X is a radius."""
    return math.atan2(point[0] - centre[0], 2 * (point[1] - centre[1]))


def turn_of(first, last, is_clockwise):
    """By how much an arc turns: G03 from Z towards X, G02 the other way round."""
    return -((first - last) % math.tau) if is_clockwise else (last - first) % math.tau


def arc_by_centre(rng, at, is_clockwise):
    """An arc whose centre is given: where it ends, its box, points of it, and its words. Its ends lie on one circle but for rounding."""
    i, k = rng.randrange(-15000, 15001), rng.choice([-1, 1]) * rng.randrange(1000, 15001)
    centre = (at[0] + 2 * i, at[1] + k)
    reach = square_of(at, centre)
    last = rng.uniform(0, math.tau)
    to = (centre[0] + round(math.sqrt(reach) * math.sin(last)), centre[1] + round(math.sqrt(reach) * math.cos(last) / 2))
    square = max(reach, square_of(to, centre))
    first = angle_of(at, centre)
    points = round_points(centre, square, first, turn_of(first, angle_of(to, centre), is_clockwise))
    box = joined(box_of(at, to), box_round(centre, square))
    return to, box, points, f"I{mm(i)} K{mm(k)}"


def arc_by_radius(rng, at, is_clockwise):
    """An arc whose radius is given. It may pass what lies no farther from its start than twice the radius."""
    to = (at[0] + 2 * rng.randrange(-8000, 8001), at[1] + rng.choice([-1, 1]) * rng.randrange(500, 8001))
    chord = root_above(square_of(at, to))
    radius = (chord + 3) // 4 + rng.randrange(20, 9000)
    square = (4 * radius) ** 2
    # (the centre lies on the side that the turn asks for; its sign decides between the two arcs, and both lie in the box)
    middle = ((at[0] + to[0]) / 2, (at[1] + to[1]) / 2)
    across, along = (to[0] - at[0]) / 2, to[1] - at[1]
    length = math.hypot(across, along)
    high = math.sqrt(radius * radius - length * length / 4)
    is_long = rng.random() < 0.4
    side = (1 if is_clockwise else -1) * (-1 if is_long else 1)
    centre = (middle[0] + 2 * side * high * -along / length, middle[1] + side * high * across / length)
    first, last = (math.atan2((p[0] - centre[0]) / 2, p[1] - centre[1]) for p in (at, to))
    turn = turn_of(first, last, is_clockwise)
    points = [(round(PARTS * (centre[0] + 2 * radius * math.sin(first + turn * k / 24))), round(PARTS * (centre[1] + radius * math.cos(first + turn * k / 24))))
              for k in range(25)]
    start = (PARTS * at[0], PARTS * at[1])
    points = [point for point in points if square_of(point, start) <= PARTS * PARTS * square]
    return to, joined(box_of(at, to), box_round(at, square)), points, f"R{'-' if is_long else ''}{mm(radius)}"


def somewhere(rng, spread):
    return rng.randrange(-spread, spread) * 500, rng.randrange(-spread, spread) * 500


class Tape:
    """The text of a tape while it is made, and its segments: where each begins, with which tool, and its moves."""

    def __init__(self, start):
        self.lines, self.at, self.tool = ["%", "O1"], start, 0
        self.segments = [(start, 0, [])]

    def add(self, is_rapid, box, points):
        self.segments[-1][2].append(Move(len(self.lines), self.tool, is_rapid, box, points))

    def rest(self, words):
        self.lines.append(words)
        self.add(False, box_of(self.at), [(PARTS * self.at[0], PARTS * self.at[1])])

    def go(self, rng, is_rapid, to):
        self.add(is_rapid, *(rapid(rng, self.at, to) if is_rapid else straight(self.at, to)))
        self.at = to

    def line(self, rng, is_rapid, to):
        self.lines.append(f"{'G00' if is_rapid else 'G01'} X{mm(to[0])} Z{mm(to[1])}" + ("" if is_rapid else " F100."))
        self.go(rng, is_rapid, to)

    def cycle(self, rng, to):
        """G90: in by a rapid, along, out, and back by a rapid."""
        start = self.at
        self.lines.append(f"G90 X{mm(to[0])} Z{mm(to[1])} F100.")
        for is_rapid, end in ((True, (to[0], start[1])), (False, to), (False, (start[0], to[1])), (True, start)):
            self.go(rng, is_rapid, end)

    def arc(self, rng):
        is_clockwise = rng.random() < 0.5
        to, box, points, words = rng.choice([arc_by_centre, arc_by_radius])(rng, self.at, is_clockwise)
        self.lines.append(f"{'G02' if is_clockwise else 'G03'} X{mm(to[0])} Z{mm(to[1])} {words} F100.")
        self.add(False, box, points)
        self.at = to

    def wait(self, code):
        self.lines.append(f"M{code}")
        self.segments.append((self.at, self.tool, []))

    def text(self):
        return "\n".join(self.lines + ["M30", "%", ""])


def make_path(rng, start, waits, spread):
    tape = Tape(start)
    for wait in waits + [None]:
        for _ in range(rng.randrange(0, 5)):
            kind = rng.choice(["rapid", "feed", "arc", "arc", "cycle", "tool", "rest"])
            if kind == "tool":
                tape.tool = rng.randrange(1, 4)
                tape.rest(f"T0{tape.tool}00")
            elif kind == "rest":
                tape.rest("G04 P10")
            elif kind == "arc":
                tape.arc(rng)
            elif kind == "cycle":
                tape.cycle(rng, somewhere(rng, spread))
            else:
                tape.line(rng, kind == "rapid", somewhere(rng, spread))
        if wait is not None:
            tape.wait(wait)
    return tape.text(), tape.segments


def sorted_pair(rng):
    return sorted((rng.randrange(-30, 30) * 500, rng.randrange(-30, 30) * 500))


def box_words(box):
    return f"X{mm(box[0])} X{mm(box[1])} Z{mm(box[2])} Z{mm(box[3])}"


def make_cell(rng):
    """Frames, mirrors, the gap, bodies and fixed boxes, and the text that says them."""
    cell = {"frames": {}, "bodies": {}, "boxes": []}
    lines = ["by moves"]
    for path in (1, 2):
        mirror, mirror_z = rng.random() < 0.3, rng.random() < 0.3
        shift = (rng.randrange(-40, 40) * 1000, rng.randrange(-40, 40) * 1000) if rng.random() < 0.5 else (0, 0)
        cell["frames"][path] = (mirror, mirror_z, shift)
        lines += [f"mirror {path}"] * mirror + [f"mirror {path} Z"] * mirror_z + [f"frame {path} X{mm(shift[0])} Z{mm(shift[1])}"]
        for tool in rng.sample(range(4), rng.randrange(0, 4)):
            cell["bodies"][path, tool] = (*sorted_pair(rng), *sorted_pair(rng))
            lines.append(f"tool {path} {tool} {box_words(cell['bodies'][path, tool])}")
    for _ in range(rng.randrange(0, 3)):
        path, cut = rng.choice([1, 2]), rng.random() < 0.5
        x, z = rng.randrange(-200, 200) * 1000, rng.randrange(-200, 200) * 1000
        box = (x, x + rng.randrange(0, 40) * 1000, z, z + rng.randrange(0, 40) * 1000)
        cell["boxes"].append((path, box, cut))
        lines.append(f"fixed {path} {box_words(box)}" + " cut" * cut)
    cell["gap"] = (rng.randrange(0, 10) * 500, rng.randrange(0, 10) * 500)
    lines.append(f"gap X{mm(cell['gap'][0])} Z{mm(cell['gap'][1])}")
    first, rest = lines[0], lines[1:]
    rng.shuffle(rest)
    # (the order of `fixed` lines numbers them: it is kept)
    fixed = [line for line in lines if line.startswith("fixed")]
    rest = [line if not line.startswith("fixed") else fixed.pop(0) for line in rest]
    rest.insert(rng.randrange(len(rest) + 1), first)
    return cell, "\n".join(rest) + "\n"


def placed(cell, path, tool, box, parts=1):
    """A box, which counts so many parts of 0.001 mm, with the body of the tool round it, as it lies in the cell."""
    body = cell["bodies"].get((path, tool), cell["bodies"].get((path, 0), (0, 0, 0, 0)))
    left, right, below, above = (edge + parts * by for edge, by in zip(box, body))
    mirror, mirror_z, shift = cell["frames"][path]
    if mirror:
        left, right = -right, -left
    if mirror_z:
        below, above = -above, -below
    return left + parts * shift[0], right + parts * shift[0], below + parts * shift[1], above + parts * shift[1]


def near(gap, one, two):
    """Whether two boxes come within the gap, in X and in Z."""
    return one[0] - two[1] <= gap[0] and two[0] - one[1] <= gap[0] and one[2] - two[3] <= gap[1] and two[2] - one[3] <= gap[1]


def stretches(cell, path, segment):
    at, tool, moves = segment
    yield "stands", tool, False, placed(cell, path, tool, box_of(at))
    for move in moves:
        yield f"line {move.line}", move.tool, move.is_rapid, placed(cell, path, move.tool, move.box)


def judge(cell, one, two):
    """What the line of a segment says behind its number."""
    left, right = list(stretches(cell, 1, one)), list(stretches(cell, 2, two))
    for what, tool, _, box in left:
        for other, other_tool, _, other_box in right:
            if near(cell["gap"], box, other_box):
                return f"hit path 1 {what} path 2 {other} tool {tool} tool {other_tool}"
    for path, list_ in ((1, left), (2, right)):
        for what, tool, is_rapid, box in list_:
            for number, (owner, fixed, cut) in enumerate(cell["boxes"], 1):
                if owner == path and (is_rapid or not cut) and near(cell["gap"], box, fixed):
                    return f"hit path {path} {what} fixed {number} tool {tool}"
    return "clear"


def dense(cell, path, segment):
    at, tool, moves = segment
    x, z = PARTS * at[0], PARTS * at[1]
    yield False, placed(cell, path, tool, (x, x, z, z), PARTS)
    for move in moves:
        for x, z in move.points:
            yield move.is_rapid, placed(cell, path, move.tool, (x, x, z, z), PARTS)


def is_kept(cell, one, two):
    """Whether no dense points of both bodies come within the gap, nor those of one and a fixed box that binds it."""
    gap = tuple(PARTS * length for length in cell["gap"])
    left, right = list(dense(cell, 1, one)), list(dense(cell, 2, two))
    if any(near(gap, box, other) for _, box in left for _, other in right):
        return False
    return not any(
        owner == path and (is_rapid or not cut) and near(gap, box, tuple(PARTS * edge for edge in fixed))
        for path, points in ((1, left), (2, right)) for is_rapid, box in points for owner, fixed, cut in cell["boxes"])


def answer_of(program, folder, is_run):
    """What the program says of the pair in the folder: of its journal, or of its texts alone."""
    def call(*words):
        return subprocess.run([program, *words], cwd=folder, capture_output=True, text=True)

    if not is_run:
        return call("zones", "q.txt", "l.nc", "r.nc", "s.txt").stdout
    journal = os.path.join(folder, "twin.journal")
    if os.path.exists(journal):
        os.remove(journal)
    ran = call("run", "l.nc", "r.nc", "s.txt")
    if ran.returncode:
        return f"the run ended with {ran.returncode}: {ran.stdout[-200:]}"
    return call("zones", "q.txt").stdout


def one_case(program, rng, folder, is_run):
    waits = [101 + k for k in range(rng.randrange(0, 3))]
    places = [(rng.randrange(-200, 200) * 1000, rng.randrange(-200, 200) * 1000) for _ in range(2)]
    spread = rng.choice([100, 400])
    tapes, paths = zip(*(make_path(rng, place, waits, spread) for place in places))
    cell, zones = make_cell(rng)
    texts = {"l.nc": tapes[0], "r.nc": tapes[1], "q.txt": zones,
             "s.txt": "".join(f"place {p} X{mm(x)} Z{mm(z)}\n" for p, (x, z) in enumerate(places, 1))}
    for name, text in texts.items():
        with open(os.path.join(folder, name), "w") as file:
            file.write(text)
    told = answer_of(program, folder, is_run)
    wanted, hits = f"zones {len(waits) + 1}\n", 0
    for number, (one, two) in enumerate(zip(*paths)):
        if number:
            wanted += f"met {waits[number - 1]}\n"
        said = judge(cell, one, two)
        hits += said != "clear"
        wanted += f"{number} {said}\n"
        if said == "clear" and not is_kept(cell, one, two):
            return "the own reading calls clear what dense points do not keep", texts, 0, 0
    wanted += "end clear\n" if not hits else f"end hit {hits}\n"
    return (None if told == wanted else f"told:\n{told}\nwanted:\n{wanted}"), texts, len(waits) + 1, hits


def main():
    program, count, seed = os.path.abspath(sys.argv[1]), int(sys.argv[2]), int(sys.argv[3])
    rng = random.Random(seed)
    segments = hits = 0
    with tempfile.TemporaryDirectory() as folder:
        for number in range(count):
            wrong, texts, some, hit = one_case(program, rng, folder, number % 3 == 0)
            if wrong:
                print(f"pair {number} of seed {seed}: {wrong}")
                for name, text in texts.items():
                    print(f"--- {name}\n{text}")
                return 1
            segments, hits = segments + some, hits + hit
    print(f"{count} pairs, {segments} segments, {hits} hit")
    return 0


if __name__ == "__main__":
    sys.exit(main())
