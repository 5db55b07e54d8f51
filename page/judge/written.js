"use strict";
// Tapes that are written out, by `plain` in the language that runs or by `expand` with their roughing cycles as plain blocks: both texts
// line beside line, and what was written as a file or in the place of the tape.

const Written = (() => {
  const dialog = $("judge-written");
  let shown = null;                     // what the dialog shows: the path from 0, and the bytes that were written

  // ---- line beside line ----

  /** The lines of a text, without its line ends. */
  const linesOf = text => text.split("\n").map(line => line.replace(/\r$/, ""));

  /** Of each line of a tape what was written in its place: the same line, or the lines that end with its number as a comment. Without such
   * comments (expand has none) null. */
  function besideByNumbers(lines, made) {
    let next = 0;
    const rows = lines.map((line, k) => {
      const end = `(${k + 1})`, from = next;
      if (made[next] === line) next += 1;
      else while (next < made.length && made[next].endsWith(end)) next += 1;
      return { number: k + 1, line, made: made.slice(from, next) };
    });
    return next === made.length ? rows : null;
  }

  const MOST_APART = 6000, MOST_GONE = 300;         // how far on the next line that stays is looked for, in what was written and in the tape

  /** How many lines of both texts give way to each other from two places on: up to the nearest two lines that stay, or to the ends. */
  function gap(lines, made, i, j) {
    for (let sum = 1; sum < MOST_APART; sum++)
      for (let gone = 0; gone <= Math.min(sum, MOST_GONE); gone++) {
        const [a, b] = [i + gone, j + sum - gone];
        if (a < lines.length && lines[a] === made[b] && lines[a + 1] === made[b + 1]) return [gone, sum - gone];
      }
    return [lines.length - i, made.length - j];
  }

  /** The same by the lines that stay: what is between two of them stands beside the first line that went, or the one before. */
  function besideByLines(lines, made) {
    const rows = [];
    let i = 0, j = 0;
    while (i < lines.length || j < made.length) {
      const [gone, come] = i < lines.length && lines[i] === made[j] ? [1, 1] : gap(lines, made, i, j);
      for (let k = 0; k < gone; k++) rows.push({ number: i + k + 1, line: lines[i + k], made: k ? [] : made.slice(j, j + come) });
      if (!gone && rows.length) rows.at(-1).made.push(...made.slice(j, j + come));
      else if (!gone) rows.push({ number: 1, line: "", made: made.slice(j, j + come) });
      i += gone;
      j += come;
    }
    return rows;
  }

  /** Of each line of a tape what was written in its place. */
  function beside(tape, text) {
    const lines = linesOf(tape), made = linesOf(text);
    return besideByNumbers(lines, made) ?? besideByLines(lines, made);
  }

  /** Of each line of the run the line of the tape that it stands for, from 1 on, if `plain` wrote the tape out; else nothing. */
  function numbersOf(of) {
    const plained = document.body.classList.contains("plained") && Judge.plained.tapes[of].bytes;
    return plained ? [0, ...beside(Judge.texts[of].letters(), textOf(plained)).flatMap(({ number, made }) => made.map(() => number))] : null;
  }

  /** The line of a tape that a line of the run stands for: that line, or the one that `plain` wrote out. */
  const lineOf = (of, number) => numbersOf(of)?.[number] ?? number;

  const isKept = ({ line, made }) => made.length === 1 && made[0] === line;

  /** Both columns as texts of as many lines, each row with the number of its line; a line that was written anew has a sign. */
  function columns(rows) {
    const width = String(rows.length).length, left = [], right = [];
    for (const row of rows) {
      const { number, line, made } = row, sign = isKept(row) ? "  " : "> ";
      for (let k = 0; k < Math.max(1, made.length); k++) {
        left.push(k ? "" : `${String(number).padStart(width)} ${line}`);
        right.push(k < made.length ? sign + made[k] : "> (nothing)");
      }
    }
    return [left.join("\n"), right.join("\n")];
  }

  /** Shows a tape and what was written of it; or why it can't be written out. */
  function show(of, name, answer) {
    const text = Judge.texts[of], tape = text.letters(), rows = answer.bytes ? beside(tape, textOf(answer.bytes)) : null;
    shown = answer.bytes ? { of, bytes: answer.bytes, name } : null;
    const [left, right] = rows ? columns(rows) : [tape, ""];
    $("judge-written-left").value = left;
    $("judge-written-right").value = right;
    for (const button of ["save", "take"]) $(`judge-written-${button}`).disabled = !shown;
    $("judge-written-said").replaceChildren(...saidOf(of, name, answer, rows));
  }

  /** In words how many lines were written anew, or the line of the refusal with what it means. */
  function saidOf(of, name, answer, rows) {
    if (!answer.bytes) return [element("b", "", answer.text.trimEnd() || "There is no memory for it."), ...Answers.meaningOf(Answers.numberOf(answer.text || "0"))];
    const anew = rows.filter(row => !isKept(row)), lines = anew.reduce((sum, { made }) => sum + made.length, 0);
    return [`Path ${of + 1}, ${name}: ${anew.length ? `${anew.length} lines give way to ${lines}` : "each line stays as it is"}.`];
  }

  /** Asks for the tape of the path and the way that are chosen, and shows it. */
  async function fill() {
    const of = Number($("judge-written-path").value), name = $("judge-written-name").value;
    show(of, name, await Judge.written(name, of));
    dialog.dataset.filled = `${of} ${name}`;
  }

  /** Opens the dialog for a path, from 0. */
  function open(of, name) {
    delete dialog.dataset.filled;
    $("judge-written-path").value = String(of);
    $("judge-written-name").value = name;
    if (!dialog.open) dialog.showModal();
    return fill();
  }

  /** What was written as a file, named by the tape. */
  function save() {
    const { of, bytes, name } = shown, base = (Judge.texts[of].fileName || `path${of + 1}.nc`).replace(/\.[^.]*$/, "");
    download(`${base}.${name}.nc`, bytes, "application/octet-stream");
  }

  /** Puts what was written in the place of the tape. It is a change, which is not saved yet. */
  async function take() {
    const { of, bytes } = shown, text = Judge.texts[of];
    if (!await Saving.mayGo([text])) return;
    text.set(text.fileName, bytes, true);
    dialog.close();
    Judge.ask();
  }

  // ---- what the panel says ----

  /** Says what `plain` made of tapes that are refused as they are. */
  function showPlain({ tapes, trace, isLess }) {
    const end = (trace?.text ?? "").split("\n").find(line => line.startsWith("end "));
    const isDrawn = Boolean(end), refused = tapes.findIndex(tape => !tape.bytes);
    const said = isDrawn ? ["Written out by plain these tapes are accepted. The picture is of what was written, and so are its lines.", element("p", "answer", end)]
      : trace ? ["Written out by plain they are refused too:", element("p", "answer", trace.text.trimEnd())]
      : refused >= 0 ? [`plain can't write out path ${refused + 1}: `, element("p", "answer", tapes[refused].text.trimEnd() || "no memory")]
      : ["Both tapes are in the language that runs: plain has nothing to write out."];
    if (isLess && trace) said.push("The lines of the settings that plain alone takes are left out for the run.");
    const buttons = [0, 1].map(of => element("button", "", `path ${of + 1}, line beside line`));
    buttons.forEach((button, of) => button.addEventListener("click", () => open(of, "plain")));
    $("judge-plain").replaceChildren(element("p", "", ...said), ...(trace ? buttons : []));
    $("judge-plain").className = `judge-said${isDrawn ? " good" : trace || refused >= 0 ? " bad" : ""}`;
    $("judge-plain-box").hidden = false;
    document.body.classList.toggle("plained", isDrawn);
  }

  /** Takes away what was said of other texts. */
  function forget() {
    $("judge-plain-box").hidden = true;
    $("judge-plain").replaceChildren();
    document.body.classList.remove("plained");
  }

  const [one, two] = ["left", "right"].map(side => $(`judge-written-${side}`));
  one.addEventListener("scroll", () => { two.scrollTop = one.scrollTop; });
  two.addEventListener("scroll", () => { one.scrollTop = two.scrollTop; });
  for (const field of ["path", "name"]) $(`judge-written-${field}`).addEventListener("change", fill);
  $("judge-written-save").addEventListener("click", save);
  $("judge-written-take").addEventListener("click", take);
  $("judge-write").addEventListener("click", () => open(0, "plain"));
  dialog.addEventListener("keydown", event => event.stopPropagation());

  return { showPlain, forget, open, beside, numbersOf, lineOf };
})();

// The state of the machine after a meeting of the run that is drawn: positions, codes in force, offsets and variables.

const State = (() => {
  /** Tells how many meetings the run has; its states can be asked for. */
  function tell(meetings) {
    const field = $("judge-state-meeting");
    field.max = String(meetings);
    field.value = String(Math.min(Number(field.value) || 0, meetings));
    $("judge-state-of").textContent = `of ${meetings}`;
    $("judge-state").replaceChildren();
    $("judge-state-box").hidden = false;
  }

  /** Shows the state after the meeting that is chosen. */
  async function show() {
    const field = $("judge-state-meeting"), meeting = Math.max(0, Math.min(Number(field.max), Math.floor(Number(field.value) || 0)));
    const { text, kind } = await Judge.stateAfter(meeting);
    $("judge-state").replaceChildren(element("p", "answer", meeting ? `after meeting ${meeting}` : "before the first turn"),
      element("pre", "", kind === "said" ? text.trimEnd() : "There is no answer. Ask again."));
  }

  /** Takes it away: there is no such run. */
  function forget() {
    $("judge-state-box").hidden = true;
    $("judge-state").replaceChildren();
  }

  $("judge-state-show").addEventListener("click", show);
  $("judge-state-meeting").addEventListener("change", show);
  $("judge-state-meeting").addEventListener("keydown", event => event.stopPropagation());
  return { tell, show, forget };
})();
