"""Triples of texts for rows: the examples, made pairs, and changed texts. Used by library_rows.py and judge_rows.py."""
import os
import random

EXAMPLES = os.path.join(os.path.dirname(os.path.abspath(__file__)), "../examples")


def read(name):
    with open(os.path.join(EXAMPLES, name), "rb") as file:
        return file.read()


def made_tape(picker, path, waits):
    """A tape of moves, arcs, cycles, loops and calls, with these waits."""
    lines = ["%", f"O{path:04}", "G21 G40 G97 G99", f"T0{path}0{path}", "G97 S900 M03", "G00 X60. Z5."]
    for wait in waits:
        for _ in range(picker.randrange(1, 7)):
            x, z = picker.randrange(10, 60), -picker.randrange(0, 40)
            lines += picker.choice([
                [f"G01 X{x}.5 Z{z}. F0.{picker.randrange(1, 5)}"], [f"G00 X{x}. Z{z}."],
                [f"G02 U4. W-2. R{picker.randrange(4, 9)}."], [f"G04 P{picker.randrange(1, 999)}"], [f"G90 X{x}. Z{z}. F0.2"],
                ["M08"], [f"#1{picker.randrange(0, 33):02}=[{x}+#3]*2"], ["M98 P900 L2"], [f"G96 S{x + 100}"],
                ["#1=0", "WHILE[#1LT3]DO1", "#1=#1+1", "G00 U-1.", "END1"], ["G98 G01 W-1. F80"], [f"G65 P901 A{x}."]])
        lines.append(f"M{wait}")
    return ("\n".join([*lines, "M30", "O0900", "G01 U-1. W-1. F0.1", "M99", "O0901", "G00 X#1", "M99", "%"]) + "\n").encode()


def made_pair(number):
    picker = random.Random(number)
    waits = [100 + picker.randrange(0, 90) for _ in range(picker.randrange(0, 6))]
    return made_tape(picker, 1, waits), made_tape(picker, 2, waits), read("cell.txt")


def changed(picker, text):
    """A text with up to three changes."""
    text = bytearray(text)
    for _ in range(picker.choice([0, 1, 1, 2, 3])):
        at, kind = picker.randrange(len(text) + 1), picker.randrange(5)
        if kind == 0 and text:
            is_plain = picker.random() < 0.9
            text[at % len(text)] = picker.choice(b"0123456789XZMGN#[]=.-+% \n(") if is_plain else picker.randrange(256)
        elif kind == 1:
            del text[at:at + picker.randrange(1, 6)]
        elif kind == 2:
            text[at:at] = picker.choice([b"M101\n", b"#1=#2+1\n", b"GOTO 50\n", b"WHILE[#1LT3]DO1\nEND1\n", b"IF[#100EQ1]GOTO90\n",
                                         b"G65P1\n", b"(", b"M98P2\n", b"#500=#501/3.\n"])
        elif kind == 3 and b"\n" in text:
            lines = bytes(text).split(b"\n")
            one, two = picker.randrange(len(lines)), picker.randrange(len(lines))
            lines[one], lines[two] = lines[two], lines[one]
            text = bytearray(b"\n".join(lines))
        else:
            text += text[at:at + 40]
    return bytes(text)


def triples():
    names = sorted(it for it in os.listdir(EXAMPLES) if it.endswith(".nc"))
    tapes = [read(it) for it in names]
    pairs = [(i, j) for i in range(len(names)) for j in range(len(names))]
    found = [(f"{names[i]} {names[j]}", (tapes[i], tapes[j], read("cell.txt"))) for i, j in pairs]
    found += [(f"{a} {b} {c}", (read(a), read(b), read(c))) for a, b, c in (
        ("bolt_upper.nc", "bolt_lower.nc", "bolt.txt"), ("deadlock_upper.nc", "deadlock_lower.nc", "plain.txt"),
        ("upper.nc", "lower.nc", "plain.txt"), ("upper.nc", "lower.nc", "bolt.txt"))]
    return found + [(f"made pair {number}", made_pair(number)) for number in range(60)]


def changed_triples(count):
    picker = random.Random(5)
    tapes = [read(it) for it in sorted(os.listdir(EXAMPLES)) if it.endswith(".nc")]
    tapes += [made_pair(number)[0] for number in range(9)]
    cell = read("cell.txt")
    for number in range(count):
        texts = changed(picker, picker.choice(tapes)), changed(picker, picker.choice(tapes))
        yield f"changed triple {number}", (*texts, changed(picker, cell) if picker.random() < 0.2 else cell)
