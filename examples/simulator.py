"""simulator.py LEFT RIGHT SETTINGS: plays a pair of tapes in its own time, and prints a time line, by ctypes alone.

    scripts/build_library --try
    python3 examples/simulator.py examples/upper.nc examples/lower.nc examples/cell.txt
"""
import math
import os
import sys

sys.path.insert(0, os.path.join(os.path.dirname(os.path.abspath(__file__)), "../python"))
from twin_lathe import Kind, Lathe, Status  # noqa: E402

NO_FILE = 13
MOST_TURNS, MOST_ROUNDS = 100000, 20
RAPID = 10000.0  # mm per minute
NAMES = {Kind.PLACED: "at", Kind.RAISED: "alarm"}


class Path:
    """How a path stands in its own time: its clock in seconds, where its turret is, and its spindle."""

    def __init__(self):
        self.clock = self.x = self.z = self.shift = self.speed = self.limit = 0.0
        self.at_surface = 0

    def _rate(self, event):
        feed, turns = event.value / 1e6, self.speed
        if event.kind == Kind.RAPID:
            return RAPID
        if event.kind != Kind.THREAD and not event.per_revolution:
            return feed if feed > 0 else RAPID
        if self.at_surface:
            turns = self.speed * 1000 / (3.14159265358979 * max(abs(event.x / 1000 - self.shift), 1.0))
        if self.limit > 0:
            turns = min(turns, self.limit)
        return feed * turns if feed * turns > 0 else RAPID

    def make(self, event):
        """Does an event, and answers what it takes, in seconds. An arc is taken as the shorter one."""
        if event.kind == Kind.DWELL:
            return event.amount / 1000
        if event.kind == Kind.SPEED:
            self.speed, self.at_surface = float(event.amount), event.at_surface
        if event.kind == Kind.WAY:
            self.at_surface = event.at_surface
        if event.kind == Kind.SHIFT:
            self.shift = event.x / 1000
        if event.kind == Kind.LIMIT:
            self.limit = float(event.amount)
        if not Kind.RAPID <= event.kind <= Kind.ARC:
            return 0.0
        x, z = event.x / 1000, event.z / 1000
        length = math.hypot((x - self.x) / 2, z - self.z)
        if event.kind == Kind.ARC:
            radius = math.hypot(event.i / 1000, event.k / 1000) if event.by_centre else abs(event.i / 1000)
            if radius > 0:
                length = 2 * radius * math.asin(min(1.0, length / 2 / radius))
        length /= self._rate(event) / 60
        self.x, self.z = x, z
        return length


def turns_of(events):
    """The turns, each with its path, its time and its events, and when all is over. A record begins with a new number of
    records, and a read is a turn by itself."""
    paths, turns, records = {1: Path(), 2: Path()}, [], 0
    for event in events:
        own, other = paths[event.path], paths[3 - event.path]
        if event.kind == Kind.PLACED:
            own.x, own.z = event.x / 1000, event.z / 1000
            continue
        if event.records == 0 and event.kind != Kind.READ:
            own.make(event)
            continue
        if event.kind == Kind.READ or event.records != records:
            turns.append((event.path, own.clock, []))
        if event.kind != Kind.READ:
            records = event.records
        turns[-1][2].append(event)
        if event.kind == Kind.MET:
            own.clock = other.clock = max(own.clock, other.clock)
        own.clock += own.make(event)
    return turns, max(paths[1].clock, paths[2].clock)


def play(lathe, texts):
    """The turns in the order that their own times make."""
    count = 64
    while True:
        count *= 2
        status, events = lathe.events(*texts, bytes([1, 2]) * (count // 2))
        if status != Status.STOPPED or count >= MOST_TURNS:
            break
    turns, end = turns_of(events)
    for _ in range(MOST_ROUNDS):
        by_time = bytes(turn[0] for turn in sorted(turns, key=lambda turn: turn[1]))
        if by_time == bytes(turn[0] for turn in turns):
            break
        status, events = lathe.events(*texts, by_time)
        turns, end = turns_of(events)
    return status, turns, end


def main(names):
    texts = []
    for name in names:
        if not os.path.isfile(name):
            print("no file", name)
            return NO_FILE
        with open(name, "rb") as file:
            texts.append(file.read())
    lathe = Lathe()
    verdict = lathe.verify(*texts)
    if verdict.status != Status.DONE:
        print(verdict.text, end="")
        return verdict.status
    status, turns, end = play(lathe, texts)
    for path, time, events in turns:
        for event in events:
            said = f"{time:10.3f} s  path {path}  line {event.line}  {NAMES.get(event.kind) or Kind(event.kind).name.lower()}"
            if Kind.RAPID <= event.kind <= Kind.ARC or event.kind == Kind.SHIFT:
                said += f" X{event.x / 1000:.3f} Z{event.z / 1000:.3f}"
            elif event.code or event.amount:
                said += f" {event.code or event.amount}"
            print(said)
    print(f"{end:10.3f} s  status {int(status)}")
    return status


if __name__ == "__main__":
    if len(sys.argv) != 4:
        sys.exit("simulator.py LEFT RIGHT SETTINGS")
    sys.exit(main(sys.argv[1:]))
