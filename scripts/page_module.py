"""What build_page does by itself, in three steps. Each stops with 69 where it finds something that it does not know.

    page_module.py retarget MODULE.ll TO.ll          the module that the toolchain compiled, for WebAssembly
    page_module.py check MODULE.wasm                 whether the linked module is one for the page
    page_module.py assemble ROOT MODULE.wasm TO.html one page with all in it; with --try behind it as long as it is, for what is not proved has more code"""
import base64
import hashlib
import json
import re
import sys

import wasm_binary

CALLS = {f"lathe_{it}" for it in ("version", "name", "meaning", "verify", "judge", "run", "trace", "state", "waits", "races", "expand", "plain", "zones", "events")}
MOST_BYTES = 2500000


def stop(why):
    print(f"build_page: {why}", file=sys.stderr)
    sys.exit(69)


def read(name):
    with open(name, encoding="utf-8") as file:
        return file.read()


# ---- the module ----

def retarget(text):
    """The same module for WebAssembly of 64 bits: its target, its processor, and the names of its exports. Nothing else is changed. The
    layout of data goes, so that the compiler takes that of the target."""
    text, triples = re.subn(r"^target triple = .*$", 'target triple = "wasm64-unknown-unknown"', text, flags=re.M)
    text, layouts = re.subn(r"^target datalayout = .*\n", "", text, flags=re.M)
    processor = r'"probe-stack"="inline-asm" "stack-probe-size"="\d+" "target-cpu"="[\w-]+"'
    text, processors = re.subn(processor, '"target-cpu"="lime1"', text)
    if (triples, layouts) != (1, 1) or processors == 0:
        stop(f"the module has {triples} targets, {layouts} layouts and {processors} groups of attributes for its processor")
    if re.search(r'x86|probe-stack|target-features|\basm\b', text):
        stop("the module still has something of another processor")
    return with_exports(text) + "\n"


def with_exports(text):
    """Gives each function that the module shows its name outside. They must be the calls of include/lathe.h."""
    found = []

    def export(head):
        found.append(head[2])
        return f"{head[1]} #{9000 + len(found)} {{"

    if re.search(r"^attributes #9\d{3} ", text, flags=re.M):
        stop("the module has more groups of attributes than this script knows")
    text = re.sub(r"^(define (?!internal|private)[^\n]*@([\w.]+)\([^\n]*) \{$", export, text, flags=re.M)
    if sorted(found) != sorted(CALLS):
        stop(f"the module shows {', '.join(found) or 'nothing'}")
    return text + "".join(f'\nattributes #{k} = {{ "wasm-export-name"="{name}" }}' for k, name in enumerate(found, 9001))


def check(module):
    """The linked module must need nothing, and show the calls, its memory and the heap's `room`. The linker shows where the heap begins."""
    shown = set(wasm_binary.exports(module))
    if wasm_binary.imports(module):
        stop("the linked module needs something from outside")
    if shown - {"__heap_base"} != CALLS | {"room", "memory"}:
        stop(f"the linked module shows {', '.join(sorted(shown))}")


# ---- the page ----

def meanings(errors):
    """What each refusal and alarm means and what to do, by its number, from docs/ERRORS.md."""
    found = {}
    for number, part in re.findall(r"^## (\d+) \w+\n(.*?)(?=^## |^# |\Z)", errors, flags=re.M | re.S):
        said = re.findall(r"^(Meaning|Do): (.*?)(?=\n\n|\Z)", part, flags=re.M | re.S)
        if [word for word, _ in said] != ["Meaning", "Do"]:
            stop(f"docs/ERRORS.md does not say once what {number} means and what to do")
        found[number] = [(word, " ".join(text.split())) for word, text in said]
    if "10" not in found or "72" not in found:
        stop("docs/ERRORS.md has no meanings where they are looked for")
    return found


def replaced(page, pattern, by, times=1):
    """The page with so many places of a pattern replaced; with at least that many if `times` is below 0."""
    page, count = re.subn(pattern, by if callable(by) else lambda _: by, page, flags=re.S)
    if count != times and not (times < 0 and count >= -times):
        stop(f"page/index.html has {count} places like {pattern}")
    return page


def in_script(text):
    """A text as it may stand in a script's element."""
    if re.search(r"</script|<!--", text, flags=re.I):
        stop("a script of the page has text that would end it")
    return text


def assemble(page_folder, errors, module):
    """One page with its scripts, its looks, the worker, the module and the meanings in it."""
    def script_of(found):
        return f"<script>\n{in_script(read(f'{page_folder}/{found[1]}'))}</script>"

    judge = f"{page_folder}/judge"
    page = read(f"{page_folder}/index.html")
    page = replaced(page, r'<link rel="stylesheet" href="look.css">', f"<style>\n{read(f'{page_folder}/look.css')}{read(f'{judge}/judge.css')}</style>")
    page = replaced(page, r'<script src="([\w.]+)"></script>', script_of, -10)
    page = replaced(page, "<title>[^<]*</title>", "<title>twin_lathe</title>")
    page = replaced(page, "<body>", '<body class="judging">')
    page = replaced(page, "(?=<main )", read(f"{judge}/panel.html") + "\n")
    page = replaced(page, "(?=    <h2>Mouse and fingers</h2>)", read(f"{judge}/keys.html"))
    page = replaced(page, r'<div id="empty".*?</div>\n', read(f"{judge}/empty.html"))
    means = json.dumps(meanings(errors)).replace("<", "\\u003c")
    page = replaced(page, "(?=</body>)", "".join([
        f'<script type="text/plain" id="module">{base64.b64encode(module).decode()}</script>\n',
        f'<script type="text/plain" id="worker">{in_script(read(f"{judge}/worker.js"))}</script>\n',
        f'<script type="application/json" id="meanings">{means}</script>\n',
        *[f"<script>\n{in_script(read(f'{judge}/{name}.js'))}</script>\n" for name in ("editor", "files", "keep", "saving", "coming", "rates", "answers", "written", "cell_text", "bodies", "zones", "contour", "seeking", "judge")]]))
    if re.search(r'\b(src|href)="', page):
        stop("the page still names another file")
    return with_policy(page)


def with_policy(page):
    """The page with its own policy: nothing may be loaded or sent, and no script and no style may run but those that stand there now, each
    named by its checksum. The worker and the module are made of what stands there."""
    def sums(tag):
        texts = re.findall(rf"<{tag}>(.*?)</{tag}>", page, flags=re.S)
        return " ".join(f"'sha256-{base64.b64encode(hashlib.sha256(text.encode()).digest()).decode()}'" for text in texts)

    if re.search(r'<[^>]*\s(style|on\w+)="', page[:page.index("<script")]):
        stop("the page has a style or a script in an attribute, which its policy would not let in")
    return replaced(page, "script-src 'unsafe-inline' file:; style-src 'unsafe-inline' file:;",
                    f"script-src {sums('script')} 'wasm-unsafe-eval'; worker-src blob:; style-src {sums('style')};")


def main(step, *words):
    if step == "retarget":
        text = retarget(read(words[0]))
        with open(words[1], "w", encoding="utf-8") as file:
            file.write(text)
    elif step == "check":
        with open(words[0], "rb") as file:
            check(file.read())
    else:
        root, module, made, *is_try = words
        with open(module, "rb") as file:
            page = assemble(f"{root}/page", read(f"{root}/docs/ERRORS.md"), file.read()).encode()
        if len(page) > MOST_BYTES and not is_try:
            stop(f"the page has {len(page)} bytes, and {MOST_BYTES} are the most")
        with open(made, "wb") as file:
            file.write(page)


if __name__ == "__main__":
    main(*sys.argv[1:])
