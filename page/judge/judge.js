"use strict";
// Two tapes and the settings of the cell are dropped, chosen or typed, and judged again at each change, in a worker. The answers are
// the library's: first the waits, then the verdict, and of an accepted pair the trace, which the page draws.

const Judge = (() => {
  const PAUSE = 150;                    // milliseconds that a typed change waits for the next one
  const names = ["judge-left", "judge-right", "judge-cell"];
  const texts = names.map(name => new Editor(name, askSoon));
  const [left, right, cell] = texts;
  const LANES = ["waits", "pair"];      // what a worker is for: the waits; the verdict, the run and the races, by one call
  const answers = {};                   // the answers to the newest question, for tests
  const came = {};                      // those of its parts that are not shown yet, since one before them is still to come
  const clicks = new Map();             // who waits for what a click asked for, by its number
  const lanes = new Map();              // the worker of each lane
  const calls = [];                     // the exports that the workers called for the newest question and for clicks since, for tests
  let isHeld = false;                   // whether a question came before the workers
  let module = null, isBroken = false, asked = 0, waiting = 0, workers = 0, keeping = 0, clicked = 0;
  let plained = null;                   // what `plain` wrote of the newest texts, if they are refused as they are
  let ran = null;                       // the three texts whose run is drawn: those that stand here, or what `plain` wrote of them

  Object.assign(Answers.editors, { 1: left, 2: right, settings: cell });

  // ---- the workers ----

  /** Makes the module and its workers, and asks what was asked meanwhile. */
  async function start() {
    const bytes = Uint8Array.from(atob($("module").textContent.trim()), letter => letter.charCodeAt(0));
    try {
      module = await WebAssembly.compile(bytes);
    } catch (fault) {
      return sayUnable(fault.message);
    }
    LANES.forEach(makeWorker);
    if (isHeld) ask();
  }

  /** This browser can't run the module. */
  function sayUnable(why) {
    isBroken = true;
    Answers.sayInstead(`This browser can't judge (${why}). It has to know WebAssembly of 64 bits: try a newer Chrome, Edge or Firefox.`, false);
    setState("stopped");
  }

  /** Makes the worker of a lane, and gives it the module. What it answers is taken if it is of the newest question. */
  function makeWorker(lane) {
    workers += 1;
    const script = URL.createObjectURL(new Blob([$("worker").textContent], { type: "text/javascript" })), worker = new Worker(script);
    worker.onmessage = ({ data }) => {
      URL.revokeObjectURL(script);
      calls.push(...data.calls);
      if (data.part === "asked") takeClicked(data);
      else if (data.number === asked) takePart(data, lane);
    };
    worker.onerror = event => stopped(lane, event.message);
    worker.postMessage({ module });
    lanes.set(lane, worker);
  }

  /** Takes a new worker in place of one that may be spoilt. */
  function makeAnew(lane) {
    lanes.get(lane).terminate();
    makeWorker(lane);
  }

  /** A worker itself ended. */
  function stopped(lane, why) {
    makeAnew(lane);
    asked += 1;
    Answers.sayInstead(`The judge stopped (${why}), and was made anew. Nothing is said about these texts. Change one to ask again.`, false);
    setState("stopped");
  }

  // ---- questions and answers ----

  /** Notes how far the question is, for tests: asked, done or stopped. While it is asked the panel shows it. */
  function setState(state) {
    document.documentElement.dataset.judged = state;
    $("judge").classList.toggle("asked", state === "asked");
  }

  /** Asks about the texts as they are now, if both paths have a tape. */
  function ask() {
    clearTimeout(waiting);
    if (isBroken) return setState("stopped");
    asked += 1;
    keepSoon();
    for (const list of [answers, came]) for (const part of Object.keys(list)) delete list[part];
    calls.length = 0;
    plained = null;
    const lacking = [left, right].findIndex(text => text.isEmpty());
    if (lacking >= 0) return sayLacking(lacking + 1);
    setState("asked");
    isHeld = !lanes.size;
    const bytes = bytesOfTexts();
    for (const [lane, worker] of lanes) worker.postMessage({ number: asked, part: lane, texts: bytes, outside: outside() });
  }

  /** Asks the judge for something by a click, and gives its answer. */
  function askFor(part, given) {
    return new Promise(done => {
      clicked += 1;
      clicks.set(clicked, done);
      lanes.get("pair").postMessage({ number: clicked, part, ...given });
    });
  }

  const bytesOfTexts = () => texts.map(text => text.bytes());

  /** The report of the run that is drawn. */
  const report = () => askFor("report", { texts: ran });

  /** The tape of a path, from 0, as `plain` or `expand` writes it out. */
  const written = (name, of) => askFor("written", { texts: bytesOfTexts(), name: `lathe_${name}`, of });

  /** The state of the machine after a meeting of the run that is drawn. */
  const stateAfter = meeting => askFor("state", { texts: ran, meeting });

  /** What a text of zones asks for of the run that is drawn. */
  const zonesOf = zones => askFor("zones", { texts: ran, zones });

  /** Gives an answer to who waits for it. */
  function takeClicked({ number, answer }) {
    clicks.get(number)?.(answer);
    clicks.delete(number);
  }

  /** The least and the greatest number of the programs that are in the control and on no tape; 1 and 0 if there are none. */
  function outside() {
    const field = $("judge-outside"), found = /^ *(\d{1,4}) *- *(\d{1,4}) *$/.exec(field.value);
    field.classList.toggle("wrong", !found && field.value.trim() !== "");
    return found ? [Number(found[1]), Number(found[2])] : [1, 0];
  }

  /** Says that a path has no tape; the picture is of other texts then. */
  function sayLacking(path) {
    setStale(true);
    Answers.sayInstead(`Path ${path} has no tape yet.`, null);
    setState("done");
  }

  /** Notes whether the picture is of other texts than those that stand here. Such a picture is not saved. */
  function setStale(isStale) {
    document.body.classList.toggle("stale", isStale);
    $("save-picture").disabled = isStale || !Look.trace;
  }

  /** Asks when no change comes for a moment. What is shown until then is of the text before. */
  function askSoon() {
    setState("asked");
    clearTimeout(waiting);
    waiting = setTimeout(ask, PAUSE);
  }

  /** The parts that come after a verdict: the run of an accepted pair, or what else is said of texts that are refused. */
  function partsAfter(verdict) {
    if (verdict?.kind !== "said") return [];
    return verdict.status === 0 ? ["trace"] : verdict.status === 1 ? ["plain", "further"] : [];
  }

  /** Takes a part of the answer. The parts are shown in their order: waits, verdict, and what comes after that. */
  function takePart({ part, answer }, lane) {
    if (answer.kind === "broken off") makeAnew(lane);
    came[part] = answer;
    for (const next of ["waits", "verdict", ...partsAfter(came.verdict)]) {
      if (!came[next]) return;
      if (!shownParts.has(came[next])) show(next, came[next]);
    }
    if (came.verdict) setState("done");
  }

  const shownParts = new WeakSet();     // answers that are shown already

  /** Shows a part of the answer. */
  function show(part, answer) {
    shownParts.add(answer);
    if (part === "further") return Answers.showFurther(answer);
    if (part === "plain") return showPlain(answer);
    answers[part] = answer;
    Answers.show(part, answer);
    if (part === "verdict") setStale(answer.status !== 0);
    if (part === "trace" && /^trace /.test(answer.text)) draw(answer.text, [left, right].map(text => text.field.value), bytesOfTexts());
  }

  /** Shows what `plain` wrote of tapes that are refused as they are, and draws its run. */
  function showPlain(answer) {
    plained = answer;
    Written.showPlain(answer);
    if (!/^trace /.test(answer.trace?.text ?? "")) return;
    setStale(false);
    draw(answer.trace.text, answer.tapes.map(tape => textOf(tape.bytes)), [...answer.tapes.map(tape => tape.bytes), answer.settings]);
    Contour.take([left, right].map(text => text.letters()));
  }

  /** Gives the trace and both tapes to the picture; its times go by the rates of the settings. */
  function draw(trace, shownTapes, bytes) {
    ran = bytes;
    Contour.take([]);
    Rates.take(cell.letters());
    const tapes = [left, right].map((text, k) => ({ name: text.fileName || "typed", text: shownTapes[k], path: k + 1 }));
    Page.take([{ name: [left, right].map(text => text.fileName).filter(Boolean).join(", "), text: trace }, ...tapes]);
    $("save-picture").disabled = false;
    State.tell((trace.match(/^met /gm) ?? []).length);
    Zones.tell();
  }

  // ---- what is asked with the texts ----

  $("judge-outside").addEventListener("input", askSoon);
  $("judge-outside").addEventListener("keydown", event => event.stopPropagation());

  /** At first nothing is judged: the panel says what comes where. */
  function sayFirst() {
    const first = { waits: "At which codes and lines the two paths meet.", verdict: "Accepted, or the first refusal with its line and what to do.",
                    run: "How the run ends that is drawn below.", races: "Which variables one path may write while the other uses them." };
    for (const part of Object.keys(first)) Answers.tell(part, null, first[part]);
  }

  // ---- what is kept and saved ----

  /** Keeps the texts when nothing changes for a moment. */
  function keepSoon() {
    clearTimeout(keeping);
    keeping = setTimeout(keep, 3 * PAUSE);
  }

  /** Keeps the texts in this browser, and says so, or why not. */
  function keep() {
    clearTimeout(keeping);
    keeping = 0;
    if (texts.every(text => text.isEmpty())) return tellKept("");
    if (Keep.write(texts, $("judge-outside").value, Zones.text())) tellKept("Kept in this browser, for after a reload. Nothing is sent.");
    else tellKept(Keep.isWanted() ? "This browser can't keep these texts: save them." : "");
  }

  function tellKept(text) { $("judge-kept").textContent = text; }

  /** Brings back what was open before. */
  function restore() {
    const kept = Keep.read();
    if (!kept) return;
    texts.forEach((text, k) => text.set(kept.texts[k].name, bytesOf(kept.texts[k].text), kept.texts[k].isChanged));
    $("judge-outside").value = kept.outside;
    Zones.set(kept.zones ?? "");
    Coming.tell({ said: ["These texts were open before. This browser kept them."], isAsked: false });
    ask();
  }

  /** Takes all texts away, the picture, and what is kept. */
  async function clear() {
    if (!await Saving.mayGo(texts)) return;
    for (const text of texts) text.set("", new Uint8Array());
    $("judge-outside").value = "";
    Zones.set("");
    Keep.forget();
    tellKept("");
    Coming.tellNothing();
    ask();
    sayFirst();
    Page.clear();
  }

  texts.forEach((text, k) => $(`${names[k]}-save`).addEventListener("click", () => Saving.saveText(text)));
  /** A copy of a part of the panel, in which nothing is folded. */
  function unfolded(part) {
    const copy = part.cloneNode(true);
    for (const more of copy.querySelectorAll("details")) more.open = true;
    return copy;
  }

  Coming.watch(texts, ask);
  Seeking.watch(texts);
  Paper.sources.texts = () => [[left, "path 1"], [right, "path 2"], [cell, "settings"]].filter(([text]) => !text.isEmpty())
    .map(([text, what]) => ({ name: `${what}: ${text.title.textContent || "typed"}`, text: text.field.value }));
  Paper.sources.said = () => ["verdict", "further", "plain", "waits", "run", "races", "state", "zones"].map(part => $(`judge-${part}`)).filter(part => part.textContent)
    .map(unfolded);
  Paper.sources.hasPicture = () => Boolean(Look.trace) && !document.body.classList.contains("stale");
  $("save-report").addEventListener("click", () => Saving.saveReport(texts));
  $("judge-clear").addEventListener("click", clear);
  $("judge-keep").checked = Keep.isWanted();
  $("judge-keep").addEventListener("change", () => { Keep.want($("judge-keep").checked); keep(); });
  addEventListener("pagehide", () => { if (keeping) keep(); });
  addEventListener("beforeunload", event => { if (texts.some(Saving.isUnsaved)) event.preventDefault(); });

  sayFirst();
  restore();
  start();
  return { ask, texts, answers, calls, showPlain, report, written, stateAfter, zonesOf, keepSoon, get workers() { return workers; }, get plained() { return plained; } };
})();
