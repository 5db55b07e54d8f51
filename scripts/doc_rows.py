"""doc_rows.py ROOT CALLED WORK: runs the command lines of the documents, and looks at what the documents list. Used by doc_rows.
Each row is a line `passed|` or `failed|NAME|TEXT`."""
import os
import re
import shutil
import signal
import subprocess
import sys

ROOT, CALLED, WORK = sys.argv[1:]
HAS_LAUNCHER = os.path.samefile(CALLED, os.path.join(ROOT, "twin_lathe"))
SECONDS = 300
DOCUMENTS = ("README.md", "docs/TUTORIAL.md", "docs/COMMANDS.md", "docs/ZONES.md")

# Documents whose calls stand in a copy of examples/, with the program on the PATH.
IN_EXAMPLES = ("docs/COMMANDS.md", "docs/ZONES.md")

# Lines that are not run here, and why.
NOT_RUN = {
    "./twin_lathe prove": "it proves the program, for 20 to 50 minutes; the gate has proved it",
    ".ci/run": "it is the gate, of which these rows are a part",
    "scripts/release": "it needs what the gate leaves; release_rows calls it",
    "scripts/build_library": "it proves the library; library_rows calls it",
    "scripts/build_page": "it compiles the library for a browser; judge_rows calls it",
}

# Options of the launcher alone: with a named program in its place, calls that have them are left out.
OF_LAUNCHER = re.compile(r"--(all|format|quiet|explain)\b")

# What a command line is if it has no `$ ` before it.
BARE = re.compile(r"(\./|\.\./|scripts/|\.ci/)*(twin_lathe|picture|run|build_\w+|release) ")

# The status that goes with the last line that is shown, if that is not 0.
STATUSES = (("refused ", 1), ("usage", 2), ("end alarm ", 3), ("no run", 8), ("run there", 8), ("end stopped", 10), ("no file ", 13))


def row(name, is_right, text=""):
    print("passed|" if is_right else f"failed|{name}|{text}".replace("\n", " / "), flush=True)


def read(name):
    with open(os.path.join(ROOT, name), encoding="utf-8") as file:
        return file.read().split("\n")


class Call:
    """A command line of a document, and the lines that are shown below it."""

    def __init__(self, place, text):
        self.place, self.text, self.shown = place, text, []

    def is_explained(self):
        return any(line.startswith("twin_lathe: ") for line in self.shown)

    def status(self):
        lines = [line.rpartition(": ")[2] for line in self.shown if not line.startswith("twin_lathe: ")]
        ends = [number for line in lines for front, number in STATUSES if line.startswith(front)]
        ends += [int(number) for line in lines for number in re.findall(r'"status":(\d+)', line)]
        return ends[-1] if ends and not re.search(r"[|;&]", self.text) else 0


def sessions(name):
    """The calls of a document, a list for each session. A line of a code block begins with four blanks."""
    found, calls, begun, latest = [], [], "", None
    for number, line in enumerate(read(name), 1):
        if line.startswith("## ") and name != "docs/TUTORIAL.md":
            found, calls = found + [calls], []
        if not line.startswith("    "):
            begun, latest = "", latest if line == "" else None
            continue
        line = line[4:]
        if begun or line.startswith("$ "):
            begun += "\n" + line if begun else line[2:]
            if not begun.endswith("\\"):
                latest, begun = Call(f"{name}:{number}", begun), ""
                calls.append(latest)
        elif latest:
            latest.shown.append(line)
        else:
            row(f"{name}:{number}", not BARE.match(line), f"this command line does not begin with '$ ': {line}")
    return [it for it in found + [calls] if it]


def pattern_of(line):
    """`..` as a word stands for any words, and in quotes for any text. The documents show a program that was proved."""
    text = re.escape(line).replace(r"\ ", " ").replace(r'"\.\."', '"[^"]*"').replace('"proved":true', '"proved":(?:true|false)')
    return re.sub(r"(?<!\S)\\\.\\\.(?!\S)", ".*", text)


def fits(shown, said):
    """Whether the lines that were printed are those that are shown. `..` alone stands for any lines; what stands after three blanks is a
    remark."""
    pattern = ""
    for line in shown:
        if line.strip() == "..":
            pattern += r"(?:.*\n)*?"
            continue
        forms = [line] if line in said else [re.split(r" {3,}", line)[0]]
        pattern += "|".join(pattern_of(form) for form in forms) + r"\n"
    return re.fullmatch(pattern, "".join(line + "\n" for line in said)) is not None


def make_clone(folder):
    os.mkdir(folder)
    shutil.copytree(os.path.join(ROOT, "examples"), os.path.join(folder, "examples"))
    shutil.copytree(os.path.join(ROOT, "examples"), os.path.join(folder, "job"))
    for name in ("scripts", "page", "docs", "include", "crates"):
        os.symlink(os.path.join(ROOT, name), os.path.join(folder, name))
    os.symlink(CALLED, os.path.join(folder, "twin_lathe"))


def ends(words):
    """Whether a command ends in time. One that does not is ended, with all that it called."""
    with subprocess.Popen(words, stdin=subprocess.DEVNULL, start_new_session=True) as called:
        try:
            called.wait(SECONDS)
            return True
        except subprocess.TimeoutExpired:
            os.killpg(called.pid, signal.SIGKILL)
            return False


def run_session(name, calls, folder):
    make_clone(folder)
    if name == "docs/TUTORIAL.md":
        shutil.rmtree(os.path.join(folder, "job"))
    calls = [call for call in calls if call.text not in NOT_RUN and (HAS_LAUNCHER or not OF_LAUNCHER.search(call.text))]
    start = os.path.join(folder, "job") if name in IN_EXAMPLES else folder
    lines = [f"cd '{start}' || exit 1"]
    if name in IN_EXAMPLES:
        lines.append(f"PATH='{folder}':$PATH")
    for k, call in enumerate(calls):
        at = os.path.join(folder, f".row{k}")
        lines += [f"export TWIN_LATHE_EXPLAIN={int(call.is_explained())}", "{", call.text, f"}} >'{at}.out' 2>'{at}.err' </dev/null",
                  f"echo $? >'{at}.status'"]
    script = os.path.join(folder, ".session")
    with open(script, "w", encoding="utf-8") as file:
        file.write("\n".join(lines) + "\n")
    row(name, ends(["bash", script]), f"its calls did not end in {SECONDS} seconds")
    for k, call in enumerate(calls):
        judge(call, os.path.join(folder, f".row{k}"))


def judge(call, at):
    if not os.path.exists(at + ".status"):
        row(call.place, False, f"it was not run: {call.text}")
        return
    said, complained, status = (open(at + end, encoding="utf-8", errors="replace").read() for end in (".out", ".err", ".status"))
    complained = re.sub(r"^twin_lathe: .*not proved.*\n", "", complained, flags=re.M)
    if call.is_explained():
        said, complained = said + complained, ""
    lines = said.split("\n")[:-1]
    row(call.place, not complained, f"it complained: {complained}")
    row(call.place, int(status) == call.status(), f"status {status.strip()}, and {call.status()} is due: {call.text}")
    row(call.place, fits(call.shown, lines), f"{call.text} printed: {lines}, and this is shown: {call.shown}")


def look_at_readme():
    lines = read("README.md")
    words = sum(len(line.split()) for line in lines if not line.startswith("    "))
    row("README.md", words <= 700, f"{words} words outside of code")
    wide = [number for number, line in enumerate(lines, 1) if len(line) > 100]
    row("README.md", not wide, f"lines of more than 100 columns: {wide}")
    if os.path.exists(os.path.join(ROOT, "VERSION")):
        version = read("VERSION")[0]
        row("README.md", f"Version {version} " in " ".join(lines), f"it does not name the version {version}")
        row("CHANGELOG.md", f"## {version}" in read("CHANGELOG.md"), f"it has no section {version}")


def anchors_of(name):
    """The names of a document's headings, as a web page of it has them."""
    heads = [re.sub(r"^#+ ", "", line) for line in read(name) if re.match(r"#+ ", line)]
    return {re.sub(r"[^\w\- ]", "", head.lower()).replace(" ", "-") for head in heads}


def documents():
    found = ["README.md", "CHANGELOG.md", "examples/README.md", "page/README.md"]
    for folder, _, names in os.walk(os.path.join(ROOT, "docs")):
        found += [os.path.relpath(os.path.join(folder, name), ROOT) for name in names if name.endswith(".md")]
    return sorted(it for it in found if os.path.exists(os.path.join(ROOT, it)))


def look_at_links():
    """Each link of a document leads to a file of the repository, and to a heading of it."""
    for name in documents():
        text = "\n".join(line for line in read(name) if not line.startswith("    "))
        for target in re.findall(r"\]\(([^)\s]+)\)", text):
            if re.match(r"[a-z]+:", target):
                continue
            file, _, heading = target.partition("#")
            file = os.path.normpath(os.path.join(os.path.dirname(name), file)) if file else name
            row(name, os.path.exists(os.path.join(ROOT, file)), f"there is no {file}")
            row(name, not heading or heading in anchors_of(file), f"{file} has no heading {heading}")


def look_at_lists():
    """The lists of folders and of examples have each that is there, and no other."""
    lines = "\n".join(read("docs/ARCHITECTURE.md")).partition("## What lies here\n")[2].partition("\n## ")[0]
    listed = set(re.findall(r"^\| `([\w./]+)/`", lines, flags=re.M))
    tracked = subprocess.run(["git", "-C", ROOT, "ls-files"], capture_output=True, text=True, check=False).stdout.split("\n")
    there = {it.split("/")[0] for it in tracked if "/" in it}
    if there:
        row("the folders of docs/ARCHITECTURE.md", {it.split("/")[0] for it in listed} == there, f"they differ: {listed ^ there}")
    listed = set(re.findall(r"`([\w]+\.\w+)`", "\n".join(line for line in read("examples/README.md") if line.startswith("|"))))
    there = set(os.listdir(os.path.join(ROOT, "examples"))) - {"README.md", "twin.journal", "__pycache__"}
    row("the lists of examples/README.md", listed == there, f"they differ: {listed ^ there}")


def main():
    look_at_readme()
    look_at_links()
    look_at_lists()
    count = 0
    for name in DOCUMENTS:
        for calls in sessions(name):
            count += 1
            run_session(name, calls, os.path.join(WORK, f"clone{count}"))


main()
