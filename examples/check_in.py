"""check_in.py FOLDER [SETTINGS]: judges each pair of a folder, as a tool does before programs go to a machine. A pair is NAME_upper.nc and
NAME_lower.nc. It prints a line for each pair, and ends with 1 if one is refused, or with 13 if there is none.

    scripts/build_library --try
    python3 examples/check_in.py examples examples/cell.txt
"""
import os
import sys

sys.path.insert(0, os.path.join(os.path.dirname(os.path.abspath(__file__)), "../python"))
from twin_lathe import Lathe  # noqa: E402

UPPER, LOWER = "_upper.nc", "_lower.nc"


def of_file(*name):
    with open(os.path.join(*name), "rb") as file:
        return file.read()


def pairs_in(folder):
    names = set(os.listdir(folder))
    return sorted(it[:-len(UPPER)] for it in names if it.endswith(UPPER) and it[:-len(UPPER)] + LOWER in names)


def check_in(lathe, folder, settings):
    """Each pair with why it is refused; a refusal counts as false if there is none."""
    for name in pairs_in(folder):
        files = name + UPPER, name + LOWER
        yield name, files, lathe.refusal(*(of_file(folder, it) for it in files), settings)


def main(folder, *more):
    lathe, judged, refused = Lathe(), 0, 0
    for name, files, why in check_in(lathe, folder, of_file(*more) if more else b""):
        judged += 1
        refused += bool(why)
        if not why:
            print(f"{name}: accepted")
            continue
        where = f"{files[why.path - 1]}:{why.line}" if why.path else f"settings, line {why.line}"
        other = f" and {files[1]}:{why.other}" if why.other else ""
        print(f"{name}: {where}{other}: {lathe.name(why.number)}: {lathe.meaning(why.number)}")
    print(f"{judged} pairs, {refused} refused")
    return 1 if refused else 0 if judged else 13


if __name__ == "__main__":
    if len(sys.argv) not in (2, 3):
        sys.exit("check_in.py FOLDER [SETTINGS]")
    sys.exit(main(*sys.argv[1:]))
