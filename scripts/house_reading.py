"""What the scripts `statement`, `users` and `house` know of the sources: definitions, clauses, and which name means which definition.

It reads the files as text, by their layout: a definition of specs/ begins at the margin, a clause of a function begins a line. What the
toolchain makes of the types of the code (specs.declared) is no definition here, and neither is what std has."""
import functools
import glob
import os
import re

ROOT = os.path.dirname(os.path.dirname(os.path.realpath(__file__)))
HEAD = re.compile(r"^(?:(?:pub|abbrev|unfoldable|opaque|record|data|syntax)\s+)*([^\s(){}\[\],:;]+)(?=\s|$)")
GROUP = re.compile(r"use Rattle\.(\w+)\.specs\.([\w.]+?)\.\{([^}]*)\}", re.S)
ALIAS = re.compile(r"use Rattle\.(\w+)\.specs\.([\w.]+) as (\w+)")
OPENS = re.compile(r"(?:pub )?module .*where$")
WORD = re.compile(r"[A-Za-z_][\w'-]*(?:\.[A-Za-z_][\w'-]*)*")
FUNCTION = re.compile(r"^\s*(?:pub(?:\([a-z]+\))?\s+)?(?:const\s+|unsafe\s+)*fn\s+(\w+)")
CLAUSE = re.compile(r"^\s*(?:requires|ensures|invariant)\b\s*(\w+)?\s*\{")


class Definition:
    """A definition of specs/: where it stands, its lines without comments, and what its file calls by which name."""

    def __init__(self, crate, module, name, path, line, text, said, names):
        self.crate, self.module, self.name = crate, module, name
        self.path, self.line, self.text, self.said, self.names = path, line, text, said, names

    @property
    def key(self):
        return self.crate, self.module, self.name

    @property
    def size(self):
        return len(self.text.split("\n"))


def names_in(group):
    return [it.strip() for it in re.sub(r"(--|//).*", "", group).split(",") if it.strip()]


def taken_names(text):
    """What a file calls by which name: names of its groups, and modules by another name."""
    names, modules = {}, {}
    for crate, module, group in GROUP.findall(text):
        for name in names_in(group):
            own, _, other = name.partition(" as ")
            names[other or own] = (crate, module, own)
    for crate, module, name in ALIAS.findall(text):
        modules[name] = (crate, module)
    return names, modules


def crates():
    """The crates of crates.txt, in its order: of each the sentence above its line, and what it stands on."""
    found, said = {}, []
    with open(f"{ROOT}/crates.txt", encoding="utf-8") as it:
        for line in it.read().split("\n"):
            if line.startswith("#"):
                said.append(line.lstrip("# "))
            elif ":" in line:
                head, _, below = line.partition("#")[0].partition(":")
                found[head.split()[0]] = (" ".join(said), below.split())
                said = []
            else:
                said = []
    return found


def definitions_of(path):
    """The definitions of one file of specs/. One begins at the margin, or at that of the module with parameters that it is in, and goes on
    while a line is indented further or begins with its name."""
    crate, _, rest = os.path.relpath(path, f"{ROOT}/crates").split("/", 2)
    module = rest[: -len(".antt")].replace("/", ".")
    with open(path, encoding="utf-8") as it:
        whole = it.read()
    names, found, said, last, margin = taken_names(whole), [], [], None, 0
    for number, line in enumerate(whole.split("\n"), 1):
        text = line.strip()
        indent = len(line) - len(line.lstrip())
        if text and indent < margin:
            margin = indent
        if not text:
            said, last = [], None
        elif text.startswith("--"):
            if indent == margin:
                said.append(text.lstrip("- "))
                last = None
        elif OPENS.match(text):
            said, last, margin = [], None, indent + 2
        elif text.startswith(("use ", "pub use ", "module ", "pub mod", "mod ", "}")):
            said, last = [], None
        elif indent > margin:
            if last is not None:
                last.text += "\n" + line
        else:
            name = HEAD.match(text)
            name = name.group(1) if name else None
            if name is None or last is not None and last.name == name:
                if last is not None:
                    last.text += "\n" + line
            elif found and found[-1].name == name:
                last = found[-1]
                last.text += "\n" + line
            else:
                last = Definition(crate, module, name, os.path.relpath(path, ROOT), number, line, " ".join(said), names)
                found.append(last)
            said = []
    return found


@functools.lru_cache(None)
def definitions():
    """Every definition of specs/ by its crate, its module and its name. A clause of a constructor or a field is part of its type."""
    found = {}
    for path in sorted(glob.glob(f"{ROOT}/crates/*/specs/**/*.antt", recursive=True)):
        for it in definitions_of(path):
            if it.module.split(".")[-1] != "Lib":
                found[it.key] = it
    return found


PASSES = re.compile(r"^pub use Rattle\.(\w+)\.specs\.([\w.]+?)\.\{([^}]*)\}", re.M | re.S)


@functools.lru_cache(None)
def passed_on():
    """What a module of specs/ passes on from another one, under its own name."""
    found = {}
    for path in glob.glob(f"{ROOT}/crates/*/specs/**/*.antt", recursive=True):
        crate, _, rest = os.path.relpath(path, f"{ROOT}/crates").split("/", 2)
        with open(path, encoding="utf-8") as it:
            for own, module, group in PASSES.findall(it.read()):
                for name in names_in(group):
                    source, _, other = name.partition(" as ")
                    found[crate, rest[: -len(".antt")].replace("/", "."), other or source] = (own, module, source)
    return found


def meant(key):
    """The definition that a crate, a module and a name lead to, if it is one of this repository."""
    for _ in range(4):
        if key in definitions():
            return definitions()[key]
        if key not in passed_on():
            return None
        key = passed_on()[key]
    return None


def cited(text, names, crate=None, module=None):
    """The definitions that a text names, in the order in which it names them."""
    single, modules = names
    found = []
    for word in WORD.findall(re.sub(r"(?m)--.*$", "", text)):
        parts = word.split(".")
        it = None
        if parts[0] in single:
            it = meant(single[parts[0]])
        elif parts[0] in modules and len(parts) > 1:
            it = meant((*modules[parts[0]], parts[1]))
        elif crate and (crate, module, parts[0]) in definitions():
            it = definitions()[crate, module, parts[0]]
        if it is not None and it not in found:
            found.append(it)
    return found


def cited_by(it):
    return [other for other in cited(it.text, it.names, it.crate, it.module) if other is not it]


class Clause:
    """A clause of a function of the code."""

    def __init__(self, crate, function, name, path, line, text, names):
        self.crate, self.function, self.name = crate, function, name
        self.path, self.line, self.text, self.names = path, line, text, names


def clauses_of(path):
    """The clauses of the functions of one file of the code. A clause goes on until its braces are closed."""
    crate = os.path.relpath(path, f"{ROOT}/crates").split("/")[0]
    with open(path, encoding="utf-8") as it:
        whole = it.read()
    names, function, found, depth = taken_names(whole), None, [], 0
    for number, line in enumerate(whole.split("\n"), 1):
        if depth == 0:
            head, clause = FUNCTION.match(line), CLAUSE.match(line)
            function = head.group(1) if head else function
            if not clause or not function:
                continue
            found.append(Clause(crate, function, clause.group(1) or "", os.path.relpath(path, ROOT), number, "", names))
        found[-1].text += line + "\n"
        depth = max(depth + line.count("{") - line.count("}"), 0)
    return found


@functools.lru_cache(None)
def clauses():
    return [it for path in sorted(glob.glob(f"{ROOT}/crates/*/src/**/*.rt", recursive=True)) for it in clauses_of(path)]


def wanted(word):
    """The definitions and clauses that a word names: NAME, MODULE.NAME, CRATE.MODULE.NAME; or FUNCTION, FUNCTION.CLAUSE, CRATE.FUNCTION.CLAUSE."""
    parts = word.replace("::", ".").split(".")
    specs = [it for key, it in definitions().items() if ".".join(key).split(".")[-len(parts) :] == parts]
    said = [it for it in clauses() if parts in ([it.function], [it.function, it.name], [it.crate, it.function], [it.crate, it.function, it.name])]
    return specs, said
