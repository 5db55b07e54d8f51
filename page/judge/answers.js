"use strict";
// What the judge said, in words: the waits, the verdict, how the run of the picture ended, and the races of the pair. The lines that an
// answer names are marked in the texts, and a click on them goes there.

const Answers = (() => {
  const MOST_ROWS = 2000;               // meetings that are listed
  const FULL = 14, JOURNAL_FULL = "The run ends there too: its journal is full. The line records of the settings can allow more.";
  const meanings = JSON.parse($("meanings").textContent);
  const editors = { 1: null, 2: null, settings: null };
  let marks = new Map();                // what is marked for the waits, the verdict and the run, and for a race or a hit that was clicked
  let refusedWaits = "";                // the line that refuses the waits, if one does
  let refused = [];                     // the lines that refuse, of the verdict and those found behind it, in their order
  let stood = -1;                       // at which of them the keys came to

  // ---- places ----

  /** The lines that an answer names, each with its text: path 1, path 2 or the settings. */
  function placesOf(line) {
    const places = [...line.matchAll(/path ([12]) line (\d+)/g)].map(found => ({ of: found[1], line: Number(found[2]) }));
    const alone = /^refused \d+ \w+ line (\d+)/.exec(line);
    return alone ? [{ of: "settings", line: Number(alone[1]) }] : places;
  }

  const nameOf = place => place.of === "settings" ? `settings line ${place.line}` : `path ${place.of} line ${place.line}`;

  /** Goes to these lines, to the first one last: the cursor stays there. */
  function goTo(places) {
    for (const place of [...places].reverse()) editors[place.of].goTo(place.line);
  }

  /** Marks the lines of the first of hit, race, verdict, waits and run that has some. */
  function markAll() {
    const places = ["hit", "races", "verdict", "waits", "run"].map(part => marks.get(part) ?? []).find(some => some.length) ?? [];
    for (const of of Object.keys(editors)) editors[of].mark(places.filter(place => place.of === of).map(place => place.line));
  }

  // ---- what is said ----

  /** Puts these elements in the place of what a part of the panel said, in the looks of good or bad, or of neither if that is null. */
  function tell(part, isGood, ...parts) {
    $(`judge-${part}`).replaceChildren(...parts);
    $(`judge-${part}`).className = `judge-said${isGood === null ? "" : isGood ? " good" : " bad"}`;
  }

  const sentence = text => element("p", "", text);

  /** A row that leads to the lines that it names. */
  function row(text) {
    const places = placesOf(text);
    if (!places.length) return element("div", "", text);
    const button = element("button", "place", text);
    button.addEventListener("click", () => goTo(places));
    return button;
  }

  /** A place and the text that stands there. */
  function quote(place) {
    const line = row(nameOf(place));
    line.replaceChildren(element("b", "", nameOf(place)), " ", element("code", "", editors[place.of].line(place.line)));
    line.className = "place";
    line.onclick = () => goTo([place]);
    return line;
  }

  /** What a refusal or an alarm means and what to do, from docs/ERRORS.md. What stands there between back quotes is code. */
  function meaningOf(number) {
    return (meanings[number] ?? []).map(([word, text]) => element("p", "", element("b", "", `${word}: `),
      ...text.split("`").map((part, k) => k % 2 ? element("code", "", part) : part)));
  }

  /** Whether an answer has a text of the judge's. */
  const isLine = answer => answer.kind === "said" && answer.text !== "";

  /** An answer that has none: why. */
  function tellNone(part, answer) {
    const why = {
      "no memory": "The browser gives no memory for this. Close other pages, and change a text to ask again.",
      "broken off": `The judge broke off (${answer.text}), and was made anew. Nothing is said about these texts. Change one to ask again.`,
      said: "A tape has more than 4,194,304 bytes, or the settings have more than 65,536.",
    };
    tell(part, false, sentence(why[answer.kind]));
  }

  /** What the `after` at the end of a refusal says: how many waits of both paths are equal before the two that it names. */
  function afterText(line) {
    const after = / after (\d+)$/.exec(line)?.[1];
    return { undefined: "", 0: "At their first waits:", 1: "After 1 equal wait:" }[after] ?? `After ${after} equal waits:`;
  }

  /** A line that refuses, with the text of the lines that it names. */
  function tellRefusal(part, line) {
    const places = placesOf(line), after = afterText(line);
    marks.set(part, places);
    tell(part, false, element("p", "answer", line), ...after ? [sentence(after)] : [], ...places.map(quote));
  }

  const addMeaning = (part, line) => $(`judge-${part}`).append(...meaningOf(numberOf(line)));

  /** Shows the meetings, at most 2,000 of them, or why the waits are refused. */
  function showWaits(answer) {
    const lines = answer.text.trimEnd().split("\n"), shown = lines.slice(0, MOST_ROWS + 1);
    refusedWaits = isLine(answer) && answer.status !== 0 ? lines[0] : "";
    if (!isLine(answer)) tellNone("waits", answer);
    else if (refusedWaits) tellRefusal("waits", refusedWaits);
    else {
      const more = lines.length - shown.length;
      tell("waits", true, ...shown.map((line, k) => k ? row(line) : element("p", "answer", line)),
        ...more ? [sentence(`and ${more} more lines, which the program lists`)] : []);
    }
  }

  /** Shows that the pair is accepted, or its refusal with its meaning. */
  function showVerdict(answer) {
    const line = answer.text.trimEnd();
    if (refusedWaits && refusedWaits !== line) addMeaning("waits", refusedWaits);      // else it would be said twice
    if (!isLine(answer)) tellNone("verdict", answer);
    else if (answer.status !== 0) {
      tellRefusal("verdict", line);
      addMeaning("verdict", line);
      refused = [line];
      noteAll();
    } else tell("verdict", true, element("p", "answer", line), sentence("The two paths can never deadlock at a wait."));
  }

  // ---- further refusals ----

  /** Shows what else is refused: each with its line, what stands there, what it means and what to do. */
  function showFurther({ lines, isWhole }) {
    refused = [...refused, ...lines];
    stood = -1;
    $("judge-further-box").hidden = !lines.length;
    $("judge-further").replaceChildren(...lines.map(furtherRow), ...isWhole ? [] : [sentence("There may be more.")]);
    noteAll();
  }

  /** A further refusal, whose meaning opens by a click. */
  function furtherRow(line) {
    const head = element("summary", "", line.replace(/^refused /, "")), parts = [...placesOf(line).map(quote), ...meaningOf(numberOf(line))];
    const means = element("details", "", head, ...parts);
    means.addEventListener("toggle", () => { if (means.open) goTo(placesOf(line)); });
    return means;
  }

  const numberOf = line => /\d+/.exec(line)[0];

  /** Puts a note beside each line that is refused: what it is, and under the hand what it means and what to do. */
  function noteAll() {
    const notes = { 1: new Map(), 2: new Map(), settings: new Map() };
    for (const line of refused) for (const place of placesOf(line))
      if (!notes[place.of].has(place.line)) notes[place.of].set(place.line, noteOf(line));
    for (const of of Object.keys(editors)) editors[of].note(notes[of]);
  }

  /** The note of a refusal. */
  function noteOf(line) {
    const [, number, name] = /^refused (\d+) (\w+)/.exec(line);
    return element("div", "judge-note", element("button", "", `${number} ${name}`), element("div", "judge-why", ...meaningOf(number)));
  }

  /** Goes to the next refused line of all texts, or to the one before; if none is refused, to a finding of the zones. */
  function step(way) {
    if (!refused.length) return Zones.step(way);
    stood = (Math.max(stood, way > 0 ? -1 : 0) + way + refused.length) % refused.length;
    goTo(placesOf(refused[stood]));
  }

  /** What a trace says behind its events: how the run ended whose picture is drawn, and the races of the pair. */
  function showTrace(answer) {
    if (!isLine(answer)) return tellNone("run", answer);
    const lines = answer.text.trimEnd().split("\n"), end = lines.findIndex(line => line.startsWith("end "));
    showRun(answer, lines[end]);
    showRaces(lines.slice(end + 1));
  }

  /** Shows how the run of the picture ended, an alarm with its meaning. */
  function showRun(answer, line) {
    const alarm = /cause (\d+)/.exec(line);
    marks.set("run", placesOf(line));
    if (alarm) tell("run", false, element("p", "answer", line), ...placesOf(line).map(quote), ...meaningOf(alarm[1]));
    else if (answer.status === 0) tell("run", true, element("p", "answer", line), sentence("Both programs ran to their ends."));
    else tell("run", true, element("p", "answer", line), sentence(answer.status === FULL ? JOURNAL_FULL : "The picture ends there, and the run does not."));
  }

  /** Shows the races of the pair, and what to do about them. */
  function showRaces([head, ...races]) {
    if (!races.length) return tell("races", true, element("p", "answer", head), sentence("All runs that both paths finish have the same moves."));
    tell("races", false, element("p", "answer", head), ...races.map(raceRow),
      sentence("This run is one of many. Put a wait into both tapes between the two lines, or let one path alone use the variable."),
      sentence("If both lines are right whoever is first, leave it."));
  }

  /** What a race is, in words. */
  function raceText(text) {
    const [, after, writer, other] = /^#\d+ after (\d+) path (\d) line \d+ path (\d) /.exec(text);
    return `${after === "0" ? "before any meeting" : `after meeting ${after}`} path ${writer} may write it, while path ${other} has it`;
  }

  /** A race; a click on it marks its two lines. */
  function raceRow(text) {
    const made = row(text);
    made.append(element("small", "", ` ${raceText(text)}`));
    made.addEventListener("click", () => {
      marks.delete("hit");
      marks.set("races", placesOf(text));
      markAll();
    });
    return made;
  }

  /** Marks the lines of moves that come too near, each with its text; none takes such marks away. */
  function markHit(places) {
    marks.set("hit", places);
    if (places.length) marks.delete("races");
    markAll();
  }

  const SHOW = { waits: showWaits, verdict: showVerdict, trace: showTrace };

  /** Shows one part of the answer to a question. */
  function show(part, answer) {
    if (part === "waits") forget();
    SHOW[part](answer);
    markAll();
  }

  /** Takes the marks, the run and the races of the question before away. */
  function forget() {
    marks = new Map();
    refused = [];
    noteAll();
    $("judge-further-box").hidden = true;
    $("judge-further").replaceChildren();
    clear("run");
    clear("races");
    Written.forget();
    State.forget();
    Zones.forget();
  }

  /** Takes away what a part of the panel said. */
  function clear(part) {
    $(`judge-${part}`).replaceChildren();
    $(`judge-${part}`).className = "judge-said";
  }

  /** Says a sentence in place of all answers. */
  function sayInstead(text, isGood) {
    forget();
    markAll();
    tell("verdict", isGood, sentence(text));
    clear("waits");
  }

  return { editors, show, showFurther, step, tell, sayInstead, goTo, markHit, meaningOf, numberOf };
})();
