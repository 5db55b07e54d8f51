#!/usr/bin/env python3
"""nose_reading.py PROGRAM [CONTOURS [SEED]]: random contours under G41 and G42, written out by PROGRAM, read apart from it.

Of each contour that is written, the nose's centre is taken from the written points and the number of the tip, and the exact distance of
each of its moves from each line of the contour is compared with the radius less 0.002 mm. Of each that is refused for its nose, an ideal
path is drawn in floating point by the rules of the control: a leg of it has to go back, or a move of it has to come nearer than the radius.
It ends with 0 where no contour says otherwise, and prints how many were written and refused.

Everything is counted in half thousandths: X as a diameter stands, Z twice."""
import fractions
import math
import pathlib
import random
import re
import subprocess
import sys
import tempfile

SHORT = 4  # how much nearer than the radius a place may be
TIPS = {1: (1, 1), 2: (1, -1), 3: (-1, -1), 4: (-1, 1), 5: (0, 1), 6: (1, 0), 7: (0, -1), 8: (-1, 0)}
WRITTEN = re.compile(r"^G0[01] (?:X(-?[0-9.]+) )?(?:Z(-?[0-9.]+) )?(?:F0\.2 )?\((\d+)\)$")
FIRST = 5  # the line of the block with G41 or G42


def way(p, q):
    return q[0] - p[0], q[1] - p[1]


def dot(w, v):
    return w[0] * v[0] + w[1] * v[1]


def cross(w, v):
    return w[0] * v[1] - w[1] * v[0]


def along(p, w, share):
    return p[0] + share * w[0], p[1] + share * w[1]


def square_from_line(at, p, q, number):
    """The square of the distance of a place from a line, with numbers of this kind."""
    w = way(p, q)
    size = dot(w, w)
    share = number(dot(way(p, at), w)) / size if size else number(0)
    near = along(p, w, min(max(share, number(0)), number(1)))
    return dot(way(near, at), way(near, at))


def square_between(a, b, p, q, number):
    """The square of the distance of two lines: 0 if they cross, else that of an end from the other line."""
    if cross(way(a, b), way(p, q)):
        sides = [cross(way(p, q), way(p, a)), cross(way(p, q), way(p, b)), cross(way(a, b), way(a, p)), cross(way(a, b), way(a, q))]
        if sides[0] * sides[1] <= 0 and sides[2] * sides[3] <= 0:
            return number(0)
    ends = [(a, p, q), (b, p, q), (p, a, b), (q, a, b)]
    return min(square_from_line(*end, number) for end in ends)


def least_square(moves, contour, number):
    """The square of the least distance of a path of these places from a contour."""
    return min(square_between(a, b, p, q, number) for a, b in zip(moves, moves[1:]) for p, q in zip(contour, contour[1:]))


def shown(length):
    """A length in 0.001 mm as a word has it."""
    return f"{'-' if length < 0 else ''}{abs(length) // 1000}.{abs(length) % 1000:03d}"


def point_text(place):
    return f"X{shown(place[0])} Z{shown(place[1] // 2)}"


def centre_of(place, tip, radius):
    """Where the nose's centre is when the tool is at a place."""
    off = TIPS.get(tip, (0, 0))
    return place[0] - off[0] * radius, place[1] - off[1] * radius


def any_contour(chance):
    """A contour of 2 to 7 places: it turns a shaft, or goes anywhere."""
    place = (chance.randint(-20000, 60000), 2 * chance.randint(-10000, 10000))
    places, turns = [place], chance.random() < 0.5
    for _ in range(chance.randint(1, 6)):
        size = chance.choice((300, 2000, 10000, 40000))
        x, z = chance.randint(-size, size), chance.randint(-size, size)
        if turns:
            x, z = chance.choice(((abs(x), 0), (0, -abs(z)), (abs(x), -abs(z))))
        if x or z:
            place = (place[0] + x, place[1] + 2 * z)
            places.append(place)
    return places if len(places) > 1 else any_contour(chance)


def unit(p, q):
    w = way(p, q)
    size = math.hypot(*w)
    return w[0] / size, w[1] / size


def aside(side, w):
    """A way a right angle to the tool's side."""
    return (w[1], -w[0]) if side == 41 else (-w[1], w[0])


def ideal_path(side, radius, start, contour, end):
    """The places of the path that the control's rules ask for, and whether a leg of it goes back."""
    ways = [unit(p, q) for p, q in zip(contour, contour[1:])]
    corners = [[along(contour[0], aside(side, ways[0]), radius)] * 2]
    for at, d, e in zip(contour[1:], ways, ways[1:]):
        n, m = aside(side, d), aside(side, e)
        if dot(d, e) >= 0 or dot(n, e) > 0:
            share = radius / (1 + dot(d, e)) if 1 + dot(d, e) > 1e-12 else 1e12
            corners.append([along(along(at, n, share), m, share)] * 2)
        else:
            corners.append([along(along(at, n, radius), d, radius), along(along(at, m, radius), e, -radius)])
    corners.append([along(contour[-1], aside(side, ways[-1]), radius)] * 2)
    back = any(dot(d, way(a[1], b[0])) < 1 for d, a, b in zip(ways, corners, corners[1:]))
    return [start, *[at for corner in corners for at in corner], end], back


def place_off(chance, side, tip, radius, at, line):
    """Where the tool is before or after a contour: mostly with its centre on the tool's side of the line there."""
    if chance.random() < 0.2:
        return at[0] + chance.randint(-30000, 30000), at[1] + 2 * chance.randint(-8000, 8000)
    x, z = along(at, aside(side, unit(*line)), radius + chance.randint(1000, 20000))
    off = TIPS.get(tip, (0, 0))
    return round(x) + off[0] * radius, 2 * round(z / 2) + off[1] * radius


def tape_of(side, before, contour, after):
    """The tape of a contour."""
    first, *others = contour
    lines = ["%", "O1", "T0101", f"G00 {point_text(before)}", f"G{side} G01 {point_text(first)} F0.2"]
    lines += [*map(point_text, others), f"G40 G00 {point_text(after)}", "M30", "%"]
    return "\n".join(lines) + "\n"


def written_places(text, before):
    """The places of the moves that stand for the lines of a contour."""
    places, at = [before], before
    for line in text.splitlines():
        found = WRITTEN.match(line)
        if found and int(found[3]) >= FIRST:
            x, z = (None if said is None else int(said.replace(".", "")) for said in (found[1], found[2]))
            at = (at[0] if x is None else x, at[1] if z is None else 2 * z)
            places.append(at)
    return places


def main(program, count, seed):
    chance, told = random.Random(seed), {"written": 0, "refused": 0}
    wrong = 0
    with tempfile.TemporaryDirectory() as folder:
        tape, settings = pathlib.Path(folder) / "shop.nc", pathlib.Path(folder) / "nose.txt"
        for _ in range(count):
            side, tip, size = chance.choice((41, 42)), chance.randint(0, 9), chance.choice((100, 400, 800, 1200, 2400))
            radius, contour = 2 * size, any_contour(chance)
            before = place_off(chance, side, tip, radius, contour[0], contour[:2])
            after = place_off(chance, side, tip, radius, contour[-1], contour[-2:])
            tape.write_text(tape_of(side, before, contour, after))
            settings.write_text(f"nose 1 1 R{shown(size)} {tip}\n")
            done = subprocess.run([program, "plain", tape, settings], capture_output=True, text=True, check=False)
            start, end = centre_of(before, tip, radius), centre_of(after, tip, radius)
            if done.returncode == 0:
                told["written"] += 1
                moves = [centre_of(place, tip, radius) for place in written_places(done.stdout, before)]
                least = least_square(moves, contour, fractions.Fraction)
                good = len(moves) > len(contour) and moves[-1] == end and least >= max(radius - SHORT, 0) ** 2
            else:
                told["refused"] += 1
                moves, back = ideal_path(side, radius, start, contour, end)
                good = " Nose" in done.stdout and (back or least_square(moves, contour, float) < (radius - 1) ** 2)
            if not good:
                wrong += 1
                print(f"wrong: {done.stdout.splitlines()[-1:]} tip {tip} radius {shown(size)}\n{tape.read_text()}")
    print(f"nose reading: {told['written']} written, {told['refused']} refused, {wrong} wrong, seed {seed}")
    return min(wrong, 1)


if __name__ == "__main__":
    if not 2 <= len(sys.argv) <= 4:
        sys.exit(__doc__)
    sys.exit(main(sys.argv[1], int((sys.argv + ["300"])[2]) if len(sys.argv) > 2 else 300, int(sys.argv[3]) if len(sys.argv) > 3 else 1))
