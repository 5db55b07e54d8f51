#!/usr/bin/env python3
"""rough_reading.py lines|moves TEXT [DEPTH RETREAT]: what G71, G72, G73 and G70 are due to be written out as, worked out apart from the program.

TEXT has the blocks of a tape from line 3 on, with | for a line feed. `lines` prints them with the cycles written out, `moves` the moves of a
run of that, both with | for a line feed. It reads what the rows of plain_rows have, in system A, and no more. DEPTH and RETREAT are those of the settings.

Everything is counted in half thousandths: X as a diameter stands, Z and radius values twice, so that a circle is one."""
import decimal
import math
import re
import sys

WORD = re.compile(r"([A-Z])\s*([+-]?[0-9]*\.?[0-9]*)")


def words_of(line):
    """The words of a line without its comments, as pairs of a letter and a text."""
    return WORD.findall(re.sub(r"\(.*?\)", "", line).upper())


def counts(text):
    """A length in 0.001 mm."""
    value = decimal.Decimal(text) * (1000 if "." in text else 1)
    return int(value)


def number(text):
    """A number as it is printed."""
    said = format(decimal.Decimal(text).normalize(), "f")
    return said


def shown(length):
    """A length in 0.001 mm as it is printed."""
    return f"{'-' if length < 0 else ''}{abs(length) // 1000}.{abs(length) % 1000:03d}"


class Block:
    """A block of the tape: its line, its number, its words by letter, its codes."""

    def __init__(self, line, text):
        found = words_of(text)
        self.line, self.text = line, text
        self.codes = [int(decimal.Decimal(value)) for letter, value in found if letter == "G"]
        self.said = {letter: value for letter, value in found if letter not in "GN"}
        self.number = next((int(value) for letter, value in found if letter == "N"), None)

    def place(self, at):
        """Where it leads from a place (X, Z)."""
        x, z = at
        if "X" in self.said:
            x = counts(self.said["X"])
        if "Z" in self.said:
            z = counts(self.said["Z"])
        return x + counts(self.said.get("U", "0")), z + counts(self.said.get("W", "0"))

    def moves(self):
        return any(letter in self.said for letter in "XZUW")


class Piece:
    """A line (centre None), or an arc with the centre's way from its start in 0.001 mm (I, K)."""

    def __init__(self, start, end, code, offset=None, feed=None, speed=None):
        self.start, self.end, self.code, self.offset, self.feed, self.speed = start, end, code, offset, feed, speed


def offset_by_radius(start, end, clockwise, r):
    """I and K of the shorter arc of this radius, rounded to 0.001 mm: half the chord, and the height over it to the one side."""
    with decimal.localcontext() as context:
        context.prec = 60
        half = decimal.Decimal("0.5")
        dz, dx = decimal.Decimal(end[1] - start[1]), (decimal.Decimal(end[0] - start[0])) * half
        chord = (dz * dz + dx * dx).sqrt()
        height = (decimal.Decimal(r) ** 2 - chord * chord / 4).sqrt()
        # (to the left of the way from start to end, with Z to the right and X up: the centre of an arc against the clock)
        side = -1 if clockwise else 1
        left = (-dx / chord * side, dz / chord * side)
        k, i = dz / 2 + left[0] * height, dx / 2 + left[1] * height
        return tuple(int(v.quantize(decimal.Decimal(1), rounding=decimal.ROUND_HALF_UP)) for v in (i, k))


def contour_of(blocks, begin, last, start):
    """The place of the last block of the contour that begins in a place, its first point and its pieces."""
    entry = blocks[begin]
    at, code, pieces, feed, speed = entry.place(start), max(entry.codes), [], entry.said.get("F"), None
    point = at
    for n in range(begin + 1, len(blocks)):
        it = blocks[n]
        code = next((c for c in it.codes if c in (1, 2, 3)), code)
        feed, speed = it.said.get("F", feed), it.said.get("S", speed)
        if it.moves():
            end = it.place(at)
            offset = None
            if code != 1:
                if "R" in it.said:
                    offset = offset_by_radius(at, end, code == 2, counts(it.said["R"]))
                else:
                    offset = counts(it.said.get("I", "0")), counts(it.said.get("K", "0"))
            pieces.append(Piece(at, end, code, offset, feed, speed))
            at, speed = end, None
        if it.number == last:
            return n, point, pieces
    raise ValueError("no contour")


class Sight:
    """How the contour is seen: across the passes it rises, along them they lead to lesser lengths."""

    def __init__(self, turning, first, last, start):
        self.turning = turning
        across, along = (0, 1) if turning else (1, 0)
        rises = last[across] > first[across] or last[across] == first[across] and start[across] >= first[across]
        falls = last[along] < first[along] or last[along] == first[along] and start[along] >= first[along]
        self.across, self.along = 1 if rises else -1, 1 if falls else -1

    def seen(self, point):
        a, b = point if self.turning else point[::-1]
        return self.across * a, self.along * b

    def told(self, across=None, along=None):
        """The words X and Z of a place across and along."""
        across = None if across is None else self.across * across
        along = None if along is None else self.along * along
        return (across, along) if self.turning else (along, across)

    def halves(self, a, b):
        """A place as it is seen in half thousandths."""
        return (a, 2 * b) if self.turning else (2 * a, b)


def is_inside(sight, pieces, u, w, place):
    """Whether the place across and along lies below each piece that holds it along, of the contour moved by u and w."""
    held = False
    for piece in pieces:
        p, q = ((a + u, b + w) for a, b in (sight.seen(piece.start), sight.seen(piece.end)))
        if not q[1] <= place[1] <= p[1]:
            continue
        held = True
        (a, b), (pa, pb), (qa, qb) = sight.halves(*place), sight.halves(*p), sight.halves(*q)
        if piece.offset is None:
            below = (a - pa) * (pb - qb) < (qa - pa) * (pb - b) if pb > qb else a < pa
        else:
            i, k = piece.offset
            ca, cb = (2 * i, 2 * k) if sight.turning else (2 * k, 2 * i)
            ca, cb = pa + sight.across * ca, pb + sight.along * cb
            far = [(x - ca) ** 2 + (y - cb) ** 2 for x, y in ((pa, pb), (qa, qb))]
            if ca <= pa:
                # (it bulges: the farther of both ends)
                below = a < pa or (max(a - ca, 0)) ** 2 + max(b - cb, 0) ** 2 < max(far)
            else:
                below = a < pa or a < qa and max(ca - a, 0) ** 2 + max(cb - b, 0) ** 2 > min(far)
        if not below:
            return False
    return held


def last_free(sight, first, pieces, u, w, level):
    """The least place along at which a pass of this level, which comes from above, is in no contour yet."""
    high, low = sight.seen(first)[1] + w, sight.seen(pieces[-1].end)[1] + w
    if not any(is_inside(sight, pieces, u, w, (level, place)) for place in {low, *(sight.seen(it.end)[1] + w + 1 for it in pieces)} if place <= high):
        return low
    while low < high:
        middle = (low + high) // 2
        if is_inside(sight, pieces, u, w, (level, middle)):
            low = middle + 1
        else:
            high = middle
    return high


def contour_blocks(sight, start, first, pieces, u, w, enters, feeds):
    """The blocks along a contour moved by u and w, as (code, X, Z, offset, feed, speed)."""
    begin, point = sight.seen(start), sight.seen(first)
    found = [(0, *sight.told(along=point[1] + w), None, None, None), (enters, *sight.told(across=point[0] + u), None, feeds[0][0], feeds[0][1])]
    for piece, (feed, speed) in zip(pieces, feeds[1:]):
        end = sight.seen(piece.end)
        found.append((piece.code, *sight.told(end[0] + u, end[1] + w), piece.offset, feed, speed))
    found.append((1, *sight.told(across=begin[0]), None, feeds[-1][0], None))
    found.append((0, *sight.told(along=begin[1]), None, None, None))
    return found


def roughed(sight, start, first, pieces, depth, retreat, u, w, enters, feed):
    begin, found, k = sight.seen(start), [], 1
    across, along = (2, 1) if sight.turning else (1, 2)
    while True:
        level = begin[0] - across * depth * k
        if level <= sight.seen(first)[0] + u:
            break
        end = last_free(sight, first, pieces, u, w, level)
        if end >= sight.seen(first)[1] + w:
            end = sight.seen(first)[1] + w + 1
        if end >= begin[1]:
            break
        found.append((0, *sight.told(across=level), None, None, None))
        found.append((1, *sight.told(along=end), None, feed, None))
        found.append((0, *sight.told(level + across * retreat, min(end + along * retreat, begin[1])), None, None, None))
        found.append((0, *sight.told(along=begin[1]), None, None, None))
        k += 1
    return found + contour_blocks(sight, start, first, pieces, u, w, enters, [(feed, None)] * (len(pieces) + 2))


def pattern(sight, start, first, pieces, said, u, w, enters, feed):
    """The passes of G73: the whole way out (U a radius), and in again by equal parts of it, whose rests are cut off."""
    out, passes, found = (abs(counts(said.get("U", "0"))), abs(counts(said.get("W", "0")))), int(said["R"]), []
    for n in range(passes):
        across, along = (it * (passes - 1 - n) // (passes - 1) if passes > 1 else 0 for it in out)
        found += contour_blocks(sight, start, first, pieces, u + 2 * across, w + along, enters, [(feed, None)] * (len(pieces) + 2))
    return found


def line_of(block):
    code, x, z, offset, feed, speed = block
    said = [f"G{code:02d}"] + [f"{letter}{shown(it)}" for letter, it in (("X", x), ("Z", z)) if it is not None]
    if offset is not None:
        said += [f"I{shown(offset[0])}", f"K{shown(offset[1])}"]
    if code != 0 and feed is not None:
        said.append(f"F{number(feed)}")
    if speed is not None:
        said.append(f"S{number(speed)}")
    return " ".join(said)


def read(text, depth=None, retreat="500"):
    """The lines that are due, and each of their blocks."""
    blocks = [Block(n, it) for n, it in enumerate(text.rstrip("|").split("|"), 3)]
    lines, done, at, motion, n = [], [], (None, None), 0, 0
    while n < len(blocks):
        it = blocks[n]
        cycle = next((c for c in it.codes if c in (70, 71, 72, 73)), None)
        if cycle is None:
            lines.append(it.text)
            motion = next((c for c in it.codes if c in (0, 1)), motion)
            if it.moves():
                at = it.place(at)
                done.append((motion, *at, None, it.said.get("F"), None))
            if "M" in it.said:
                done.append(int(it.said["M"]))
            n += 1
            continue
        call = it
        if cycle == 73:
            call = blocks[n + 1]
        elif cycle != 70 and "P" not in it.said:
            depth, own, call = it.said["U" if cycle == 71 else "W"], it.said.get("R", retreat), blocks[n + 1]
        elif "D" in it.said:
            depth, own = it.said["D"], retreat
        else:
            own = retreat
        # (a finish means the latest contour before it, a cycle the one behind it)
        named = [k for k, block in enumerate(blocks) if block.number == int(call.said["P"])]
        begin = max(k for k in named if k < n) if cycle == 70 else min(k for k in named if k > n)
        end, first, pieces = contour_of(blocks, begin, int(call.said["Q"]), at)
        entry = blocks[begin]
        enters = next(c for c in entry.codes if c in (0, 1))
        if cycle == 70:
            caller = blocks[begin - 1]
            sight = Sight(72 not in caller.codes, first, pieces[-1].end, at)
            feed = entry.said.get("F", call.said.get("F"))
            feeds = [(feed, entry.said.get("S"))] + [(piece.feed or feed, piece.speed) for piece in pieces]
            found = contour_blocks(sight, at, first, pieces, 0, 0, enters, feeds + [(feeds[-1][0], None)])
            n += 1
        else:
            sight = Sight(cycle != 72, first, pieces[-1].end, at)
            u, w = counts(call.said.get("U", "0")), counts(call.said.get("W", "0"))
            u, w = sight.seen((u, w))
            if cycle == 73:
                found = pattern(sight, at, first, pieces, it.said, u, w, enters, call.said.get("F"))
            else:
                found = roughed(sight, at, first, pieces, counts(depth), counts(own), u, w, enters, call.said.get("F"))
            n = end + 1
        said = [line_of(block) for block in found] + ["G01"] * (motion == 1)
        if "S" in call.said:
            said.insert(0, f"S{number(call.said['S'])}")
        said[0] = (f"N{it.number} " if it.number is not None else "") + said[0]
        lines += [f"{line} ({it.line})" for line in said]
        done += found
    return lines, done


def moves_of(done):
    """The moves of a run of these blocks, and the codes of M between them."""
    (x, z), feed, said = (0, 0), None, []
    for block in done:
        if isinstance(block, int):
            said.append(f"aux M{block:02d}")
            continue
        code, to_x, to_z, offset, own, _ = block
        x, z, feed = x if to_x is None else to_x, z if to_z is None else to_z, own or feed
        name = {0: "rapid", 1: "feed", 2: "cw", 3: "ccw"}[code]
        round_it = f" I{shown(offset[0])} K{shown(offset[1])}" if offset else ""
        said.append(f"{name} X{shown(x)} Z{shown(z)}{round_it}" + (f" F{number(feed)} rev" if code else ""))
    return said


if __name__ == "__main__":
    written, run = read(*sys.argv[2:])
    print("|".join(written if sys.argv[1] == "lines" else moves_of(run)) + "|" * (sys.argv[1] == "lines"))
