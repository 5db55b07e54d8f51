"""library_rows.py ROOT LIBRARY PROGRAM WORK: compares what the library answers with what the program answers. Used by library_rows,
which has made WORK/simulator and WORK/memory."""
import concurrent.futures
import ctypes
import os
import re
import subprocess
import sys
import threading
import time

ROOT, LIBRARY, PROGRAM, WORK = sys.argv[1:]
EXAMPLES = os.path.join(ROOT, "examples")
sys.path.insert(0, os.path.join(ROOT, "python"))
import twin_lathe  # noqa: E402
from called_program import FILES, Program  # noqa: E402
from library_texts import changed_triples, read, triples  # noqa: E402
from twin_lathe import Answer, Kind  # noqa: E402

CHANGED = 3000


class Lathe(twin_lathe.Lathe):
    """The module, whose texts are bytes as the library gave them."""

    def _text(self, name, texts, *more):
        status, found, length = self._call(name, texts, more, ctypes.c_uint8, 4096)
        return Answer(status, bytes(found[:length]))


LATHE, PROGRAM_OF = Lathe(LIBRARY), Program(PROGRAM, WORK)
passed = failed = 0


def check(name, is_right, said=""):
    global passed, failed
    passed += bool(is_right)
    failed += not is_right
    if not is_right and failed <= 20:
        print(f"library row FAILED: {name}: {said}"[:400])


def says_the_same(why, verdict):
    """Whether a refusal says as numbers what the line of the verdict says."""
    if not why:
        return verdict == (0, b"accepted\n")
    found = re.fullmatch(rb"refused (\d+) (\w+)(?: path (\d))?(?: line (\d+))?(?: path 2 line (\d+))?(?: after (\d+))?\n", verdict.text)
    number, name, path, line, other, after = found.groups() if found else [None] * 6
    due = (why.number, LATHE.name(why.number).encode(), why.path, why.line, why.other, why.after)
    return due == (int(number or 0), name, int(path or 0), int(line or 0), int(other or 0), int(after or 0))


def compare_texts(given):
    """Verdict, meetings and trace of a triple."""
    name, texts = given
    verdict, why = LATHE.verify(*texts), LATHE.refusal(*texts)
    rows = [(f"{name}: judge", Answer(not says_the_same(why, verdict), repr(why).encode()), Answer(False, repr(why).encode())),
            (f"{name}: verify", verdict, PROGRAM_OF(texts, "verify", *FILES)),
            (f"{name}: waits", LATHE.waits(*texts), PROGRAM_OF.again("waits", *FILES)),
            (f"{name}: races", LATHE.races(*texts), PROGRAM_OF.again("races", *FILES)),
            (f"{name}: trace", LATHE.trace(*texts, limit=500), PROGRAM_OF.again("trace", "--blocks", "500", *FILES))]
    if name.startswith("changed"):
        return rows[:2] if verdict.status else rows
    rows.append((f"{name}: waits outside", LATHE.waits(*texts, least=900, greatest=999),
                 PROGRAM_OF.again("waits", "--outside", "900-999", *FILES)))
    return rows


def reads_none(texts):
    return not any(it.kind == Kind.READ for it in LATHE.events(*texts, bytes([1, 2]) * 20000).list)


# How many runs, lists of events and moves of such lists were compared. Runs that hang on an order of turns are not.
compared = {"runs": 0, "lists of events": 0, "moves": 0}


def compare_run(given):
    """Report and state of a whole run, where they hang on no order of turns."""
    name, texts = given
    report = LATHE.run(*texts, limit=20000)
    if report.status != 0 or not reads_none(texts):
        return []
    due = PROGRAM_OF(texts, "run", *FILES)
    state, zones = PROGRAM_OF.again("state"), list(zone_rows(name, texts))
    PROGRAM_OF.forget()
    return [(f"{name}: run", report, due), (f"{name}: state", LATHE.state(*texts, limit=20000), state), *zones]


# Texts of zones: by areas and by moves, and one that is refused.
ZONES = (b"", b"gap X5. Z5.\n", b"frame 2 X0 Z500.\nmirror 2\ngap X10. Z10.\n", b"by moves\ngap X5. Z5.\n", b"gap\n")


def zone_rows(name, texts):
    """The zones of the run that the program has in its journal, or the refusal of their text."""
    for number, zones in enumerate(ZONES):
        PROGRAM_OF.put("zones", zones)
        yield f"{name}: zones {number}", LATHE.zones(*texts, zones, limit=20000), PROGRAM_OF.again("zones", "zones")


NAMES = {Kind.RAPID: "rapid", Kind.FEED: "feed", Kind.THREAD: "thread"}


def shown(event):
    """A move as a report has it, up to its place; a wait, a meeting and an end as a trace has them."""
    if event.kind in NAMES or event.kind == Kind.ARC:
        way = NAMES.get(event.kind) or ("cw" if event.clockwise else "ccw")
        return f"{event.line} {way} X{event.x / 1000:.3f} Z{event.z / 1000:.3f}"
    return None


def moves_of(report):
    found, path = {1: [], 2: []}, 0
    for line in report.decode().split("\n"):
        head = re.fullmatch(r"path ([12]) moves \d+", line)
        move = re.match(r"\d+ (rapid|feed|thread|cw|ccw) X\S+ Z\S+", line)
        if head:
            path = int(head[1])
        elif move and path:
            found[path].append(move[0])
    return found


def changes_of(trace, path):
    """The shifts, the way home and the ways of the spindle of a path in a trace."""
    return [it.split(" ", 2)[2] for it in trace.decode().split("\n") if re.match(rf"{path} \d+ (shift|home|spindle) ", it)]


def shown_change(event):
    """A shift, a way home or a way of the spindle as a trace has it."""
    if event.kind in (Kind.SHIFT, Kind.HOME):
        return f"{Kind(event.kind).name.lower()} X{event.x / 1000:.3f} Z{event.z / 1000:.3f}"
    return ("spindle G96" if event.at_surface else "spindle G97") if event.kind == Kind.WAY else None


def check_events(name, texts):
    """The moves of each path are those of the report, in whatever order the turns come."""
    report = LATHE.run(*texts, limit=2000)
    if report.status != 0 or not reads_none(texts):
        return
    due = moves_of(report.text)
    trace = LATHE.trace(*texts, limit=2000).text
    changes = {path: changes_of(trace, path) for path in (1, 2)}
    compared["lists of events"] += 1
    compared["moves"] += sum(map(len, due.values()))
    for order in (bytes([1, 2]), bytes([2, 1]), bytes([1, 1, 1, 2]), bytes([2] * 40 + [1] * 7)):
        status, events = LATHE.events(*texts, order * 4000)
        found = {path: [shown(it) for it in events if it.path == path and shown(it)] for path in (1, 2)}
        found_changes = {path: [shown_change(it) for it in events if it.path == path and shown_change(it)] for path in (1, 2)}
        check(f"{name}: shifts and ways {order[:4]}", found_changes == changes, f"{found_changes} {changes}")
        counts = [it.records for it in events if it.kind != Kind.READ and it.records > 0]
        is_counted = sorted(set(counts)) == list(range(1, len(set(counts)) + 1)) and counts == sorted(counts)
        check(f"{name}: events {order[:4]}", status == 0 and found == due and is_counted, f"status {status}")


def check_rooms(name, texts):
    """The room has the front of the text, and what lies behind it is as it was."""
    whole = LATHE.trace(*texts, limit=300)
    size = len(whole.text)
    call = LATHE.library.lathe_trace
    given = [it for text in texts for it in (ctypes.c_char_p(text), ctypes.c_size_t(len(text)))]
    for room in {0, 1, size // 2, max(size - 1, 0), size, size + 9}:
        held = ctypes.create_string_buffer(b"." * (size + 30), size + 30)
        length = ctypes.c_size_t(77)
        status = call(*given, ctypes.c_uint32(300), held, ctypes.c_size_t(room), ctypes.byref(length))
        due = whole.text[:room] + b"." * (size + 30 - min(room, size))
        check(f"{name}: a room of {room}", (status, length.value, held.raw) == (whole.status, size, due), f"status {status}")
    nothing = ctypes.c_char_p(None), ctypes.c_size_t(0)
    length = ctypes.c_size_t(77)
    status = LATHE.library.lathe_verify(*given[:4], *nothing, *nothing, ctypes.byref(length))
    due = LATHE.verify(texts[0], texts[1], b"")
    check(f"{name}: no room and no settings", (status, length.value) == (due.status, len(due.text)), f"status {status}")


# Tapes of which every form that `plain` writes out has a line, and some that it refuses.
SHOPS = (b"%\nO1\nG50 S2000\nT0101\nG00 X40. Z2.\nG01 U-2. W-3. F.2\nZ-20.,R2.\nX50.,C1.\nG04 U1.5\nM03 M08\nM30\n%\n",
         b"%\nO1 (drill)\nT0202\nG00 X0 Z3.\nG74 R1.\nG74 Z-30. Q5000 F.1\nG00 Z50.\nM30\n%\n",
         b"%\nO1\nG00 X30. Z2.\nG76 P010060 Q100 R50\nG76 X26. Z-20. P1000 Q300 F1.5\nM30\n%\n",
         b"%\nO1\nG00 X#1\nU1.\nM30\n%\n", b"%\nO1\nG31 Z-1.\nM30\n%\n", b"%\nO1\nG00 X1..\nM30\n%\n", b"O1", b"")


def check_tapes():
    """Written-out tapes, and refused ones, as the program writes them."""
    given = [(name, read(name)) for name in sorted(os.listdir(EXAMPLES)) if name.endswith(".nc")]
    given += [(f"shop tape {number}", tape) for number, tape in enumerate(SHOPS)]
    statuses = {"expand": set(), "plain": set()}
    for name, tape in given:
        due = PROGRAM_OF((tape, b"", b""), "expand", "left")
        statuses["expand"].add(due.status)
        check(f"expand {name}", LATHE.expand(tape) == due, f"{due.status} is due")
        for settings in (b"", read("cell.txt"), b"system B\n", b"no settings\n"):
            due = PROGRAM_OF((tape, b"", settings), "plain", "left", "cell")
            statuses["plain"].add(due.status)
            check(f"plain {name} {settings[:9]}", LATHE.plain(tape, settings) == due, f"{due.status} is due")
        check(f"plain {name} without settings", LATHE.plain(tape) == PROGRAM_OF.again("plain", "left"))
    for what, found in statuses.items():
        check(f"{what} takes a tape and refuses one", found == {0, 1}, f"statuses {found}")
    check("expand: a tape that is too long", LATHE.expand(b"%" * 4194305) == (13, b""))
    check("plain: a tape that is too long", LATHE.plain(b"%" * 4194305) == (13, b""))
    check("plain: settings that are too long", LATHE.plain(b"%", b"%" * 65537) == (13, b""))


def check_refusals():
    texts = read("upper.nc"), read("lower.nc"), read("cell.txt")
    for place, size in ((0, 4194305), (1, 4194305), (2, 65537)):
        longer = list(texts)
        longer[place] = b"%" * size
        due = PROGRAM_OF(longer, "verify", *FILES).status
        check(f"text {place} is too long", LATHE.verify(*longer) == (due, b""), f"{due} is due")
        check(f"text {place} is too long: events", LATHE.events(*longer, b"\1\2") == (due, []), f"{due} is due")
    check("an order with a 3", LATHE.events(*texts, b"\1\2\3") == (2, []))
    check("an order with a 0", LATHE.events(*texts, b"\0") == (2, []))
    check("refused texts have no event", LATHE.events(read("deadlock_upper.nc"), read("deadlock_lower.nc"), b"", b"\1") == (1, []))
    check("no turn", [it.kind for it in LATHE.events(*texts, b"").list] == [Kind.PLACED, Kind.HOME, Kind.SHIFT] * 2)


def check_threads(given):
    """Four threads at once answer what one answers."""
    due = [(LATHE.verify(*texts), LATHE.trace(*texts, limit=200)) for _, texts in given]
    answers = [None] * 4

    def work(number):
        lathe = Lathe(LIBRARY)
        answers[number] = [(lathe.verify(*texts), lathe.trace(*texts, limit=200)) for _, texts in given]

    threads = [threading.Thread(target=work, args=(number,)) for number in range(4)]
    for it in threads:
        it.start()
    for it in threads:
        it.join()
    for number in range(4):
        check(f"thread {number}", answers[number] == due)


# The simulator in Python, over the library that is named first.
IN_PYTHON = """import os, sys
os.environ["TWIN_LATHE"] = sys.argv[1]
import simulator
sys.exit(simulator.main(sys.argv[2:]))"""


def check_simulators():
    """The simulators in C and in Python print the same time line."""
    for names in ("upper.nc lower.nc cell.txt", "bolt_upper.nc bolt_lower.nc plain.txt", "dividing.nc idle.nc plain.txt",
                  "deadlock_upper.nc deadlock_lower.nc plain.txt", "passes.nc passes.nc cell.txt", "none.nc lower.nc cell.txt"):
        how = {"cwd": EXAMPLES, "stdout": subprocess.PIPE, "stderr": subprocess.PIPE, "timeout": 120}
        in_c = subprocess.run([os.path.join(WORK, "simulator"), *names.split()], **how)
        in_python = subprocess.run([sys.executable, "-c", IN_PYTHON, LIBRARY, *names.split()], **how)
        is_same = (in_c.returncode, in_c.stdout) == (in_python.returncode, in_python.stdout)
        is_silent = not in_c.stderr + in_python.stderr
        check(f"simulators: {names}", is_same and is_silent and in_c.stdout, f"{in_c.returncode} {in_python.returncode}")


def main():
    began, given = time.monotonic(), triples()
    with concurrent.futures.ThreadPoolExecutor(4) as pool:
        for rows in pool.map(compare_texts, [*given, *changed_triples(CHANGED)]):
            for name, answer, due in rows:
                check(name, answer == due, f"{answer.status} {answer.text[:80]}, and {due.status} {due.text[:80]} is due")
        for rows in pool.map(compare_run, given):
            compared["runs"] += bool(rows)
            for name, answer, due in rows:
                check(name, answer == due, f"{answer.status} {answer.text[-80:]}, and {due.status} {due.text[-80:]} is due")
    for name, texts in given[::7]:
        check_events(name, texts)
    for name, texts in given[::11]:
        check_rooms(name, texts)
    for what, count in compared.items():
        check(f"{what} are compared", count > 0, "there are none")
    check_refusals()
    check_tapes()
    check_threads(given)
    check_simulators()
    ran = subprocess.run([os.path.join(WORK, "memory"), "upper.nc", "lower.nc", "cell.txt"], cwd=EXAMPLES, stdout=subprocess.PIPE)
    check("refused memory", ran.returncode == 0, ran.stdout.decode())
    print(f"library rows: {time.monotonic() - began:.0f} seconds")
    print(f"library rows: {passed} passed, {failed} failed")
    return failed > 0 or passed == 0


sys.exit(main())
