"use strict";
// The zones of the run that is drawn: where both paths may come too near each other, by a text of zones. It is judged at a click and at
// each change of a run. By moves, the bodies of the tools are drawn, and a finding leads to the moves that it found.

const Zones = (() => {
  const field = $("judge-zones-text"), said = $("judge-zones");
  let asked = 0;                        // how often was asked: an answer to an older question is not shown
  let findings = [], stood = -1;        // what the answer found, and at which of them the keys came to

  const text = () => field.value;

  /** Puts a text of zones in. */
  function set(to) {
    field.value = to;
    $("judge-zones-box").open = to !== "";
  }

  /** There is a run: its zones are judged if a text asks for them. */
  function tell() {
    $("judge-zones-box").hidden = false;
    if (text().trim()) judge();
    else show("", []);
  }

  /** Asks for what the text says, and shows it. An older answer is not shown. */
  async function judge() {
    const number = ++asked, zones = text(), { kind, text: answer } = await Judge.zonesOf(new TextEncoder().encode(zones));
    if (number !== asked) return;
    show(zones, kind === "said" ? answer.trimEnd().split("\n") : ["There is no answer. Ask again."]);
  }

  /** Shows the lines of an answer, the last one first; of a text that is taken the bodies are drawn. */
  function show(zones, lines) {
    const last = lines.at(-1), isTaken = /^zones \d/.test(lines[0]);
    Bodies.take(isTaken ? zones : null);
    Answers.markHit([]);
    findings = lines.map(Bodies.findingOf).filter(Boolean);
    stood = -1;
    // (a run that is not over, or a pair with races: other moves may come)
    const isWhole = !lines.slice(0, -1).some(line => /^(?:end|races) /.test(line));
    said.className = `judge-said ${last === "end clear" && isWhole ? "good" : last ? "bad" : ""}`;
    said.replaceChildren(...(last === undefined ? [] : [element("p", "answer", last), ...lines.slice(0, -1).map(rowOf)]));
  }

  /** A line of the answer; that of a segment leads to its stretch of the picture, and that of a hit to its moves. */
  function rowOf(line) {
    const found = /^(\d+) .*\b(?:clear|hit)\b/.exec(line), finding = Bodies.findingOf(line);
    if (!found) return element("div", "", line);
    const row = element("button", "place", line);
    row.addEventListener("click", () => (finding ? goTo(finding) : Moving.choose(Number(found[1]), true)));
    return row;
  }

  /** Goes to the moves that a finding found, and marks their lines, which it answers. */
  function goTo(finding) {
    const places = finding.doers.filter(({ line }) => line).map(({ path, line }) => ({ of: String(path), line: Written.lineOf(path - 1, line) }));
    Bodies.choose(finding);
    Answers.markHit(places);
    return places;
  }

  /** Goes to the next finding, or to the one before, with the cursor too. */
  function step(way) {
    if (!findings.length) return;
    stood = (Math.max(stood, way > 0 ? -1 : 0) + way + findings.length) % findings.length;
    Answers.goTo(goTo(findings[stood]));
  }

  /** Takes the answer away: there is no such run. */
  function forget() {
    asked += 1;
    $("judge-zones-box").hidden = true;
    show("", []);
  }

  $("judge-zones-judge").addEventListener("click", judge);
  field.addEventListener("input", () => Judge.keepSoon());
  field.addEventListener("keydown", event => event.stopPropagation());
  return { text, set, tell, step, forget };
})();
