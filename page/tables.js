"use strict";
// What is told in words: the head, where both paths are, the meetings, the stretch, the legend, the note beside the hand.

const Tables = (() => {
  const MOST_ROWS = 2000;
  let toldStretch = null;

  // ---- the head ----

  /** Tells how the run ended, and how many records, moves, meetings and races there are. */
  function tellHead() {
    const { trace } = Look, count = p => trace.paths[p].moves;
    const parts = [endBadge(trace), ["", countText(trace.records, "record")], ["", `${count(1)} + ${countText(count(2), "move")}`],
                   ["", countText(trace.meetings.length, "meeting")], racesBadge(trace.races.length), ["guess", `about ${secondsText(trace.total)} (a guess)`]];
    if (trace.unknown) parts.push(["guess", `${countText(trace.unknown, "cut")} without a speed, taken at ${Times.NO_SPEED} a minute`]);
    $("badges").replaceChildren(...parts.map(([kind, text]) => element("span", kind, text)));
  }

  /** How the run ended: good, bad or a guess, and the text. */
  function endBadge({ end, records }) {
    if (end === "done") return ["good", "both paths ended"];
    if (end.startsWith("alarm")) return ["bad", end];
    return ["guess", end === "full" ? "the journal would be full here" : `stopped after ${countText(records, "record")}`];
  }

  const racesBadge = count => (count ? ["bad", countText(count, "race")] : ["good", "no race"]);

  const countText = (count, noun) => `${count} ${noun}${count === 1 ? "" : "s"}`;

  // ---- where both paths are ----

  /** Tells the time, what both paths do at it, and its stretch or the marked one. */
  function tellNow() {
    const { trace, time } = Look;
    $("now-time").textContent = `At ${time.toFixed(1)} s`;
    $("now-total").textContent = `of about ${secondsText(trace.total)}, a guess`;
    for (const p of PATHS) tellPath(trace.paths[p], time);
    $("clock").textContent = `${time.toFixed(1)} / ${trace.total.toFixed(1)} s`;
    $("slider").value = time / trace.total;
    $("slider").setAttribute("aria-valuetext", `${time.toFixed(1)} seconds of about ${trace.total.toFixed(1)}`);
    tellStretch(Look.stretch ?? Times.stretchAt(trace, time));
  }

  /** Tells what a path does at a time, where it is, and its next three segments. */
  function tellPath(path, time) {
    const { segments, number } = path, at = Times.lastBegun(segments, time), segment = segments[at];
    const [what, isBad] = segment ? doingOf(path, segment, time) : ["does nothing yet", false];
    $(`now-line-${number}`).textContent = segment ? `line ${segment.line}` : "";
    setText($(`now-words-${number}`), what);
    $(`now-words-${number}`).classList.toggle("bad", isBad);
    setText($(`now-where-${number}`), segment ? whereText(segment, time) : "");
    const next = segments.slice(at + 1, at + 4).map(some => `${some.line}: ${some.words}`);
    for (let k = 0; k < 3; k++) setText($(`now-next-${number}-${k}`), next[k] || "\u00a0");
  }

  /** Gives an element a text, unless it has it already. */
  function setText(place, text) { if (place.textContent !== text) place.textContent = text; }

  /** What a path does at a time, and whether it stands still for it. */
  function doingOf(path, segment, time) {
    if (segment.kind === "wait" && segment.end > time) return [`waits at M${segment.code}`, true];
    if (segment === path.alarm) return [segment.words, true];
    if (segment === path.open) return [`waits at M${segment.code}, to the end`, true];
    if (time >= Look.trace.last[path.number] && segment.kind !== "wait") return [path.ended ? "has ended" : "stops here", false];
    return [segment.words, false];
  }

  /** The tool of a segment and where it is at a time, in work coordinates, in mm. */
  function whereText(segment, time) {
    const at = Shapes.onSegment(segment, Times.partAt(segment, time));
    return `${toolText(segment)}, work X${(2 * at.r - segment.shiftX).toFixed(3)} Z${(at.z - segment.shiftZ).toFixed(3)}`;
  }

  // ---- the meetings ----

  /** Fills the table of meetings: at most 2,000 rows, and one for the end. */
  function fillMeetings() {
    const { meetings } = Look.trace, head = element("tr");
    for (const text of ["#", "code", "line of 1", "line of 2", "waits", "for"]) head.append(element("th", "", text));
    const body = element("tbody");
    for (const meeting of meetings.slice(0, MOST_ROWS)) body.append(meetingRow(meeting));
    const more = meetings.length - MOST_ROWS;
    if (more > 0) body.append(element("tr", "", wideCell(6, `and ${more} more, which the time line shows`)));
    body.append(endRow());
    $("meetings").replaceChildren(element("thead", "", head), body);
    tellShares();
    markMeeting();
  }

  /** The row of a meeting: who waited for it, and how long, from 0.05 s on. */
  function meetingRow(meeting) {
    const { waits, lines, number, code } = meeting, wait = p => waits[p].end - waits[p].begin;
    const who = wait(1) > wait(2) ? 1 : 2, isLong = wait(who) >= 0.05;
    const waiting = isLong ? [`path ${who}`, `\u2248 ${secondsText(wait(who))}`] : ["\u2013", "\u2013"];
    return stretchRow(number - 1, [number, "M" + code, lines[1], lines[2], ...waiting].map(text => element("td", "", text)));
  }

  /** The row of the last stretch: how each path ends. */
  function endRow() {
    const { trace } = Look, [one, two] = PATHS.map(p => stopOf(trace.paths[p]));
    const words = one.how === two.how ? `both ${one.how === "ends" ? "end" : one.how}` : `1 ${one.how}, 2 ${two.how}`;
    return stretchRow(trace.meetings.length, [element("td", "", ""), element("td", "plain", "end"), element("td", "", one.line),
                                              element("td", "", two.line), wideCell(2, words)]);
  }

  /** At which line a path stops, and by what. */
  function stopOf(path) {
    const last = path.alarm || path.open || path.ended || path.segments[path.segments.length - 1];
    return { line: last ? last.line : "\u2013", how: path.alarm ? "alarm" : path.open ? "waits" : path.ended ? "ends" : "stopped" };
  }

  /** A cell over so many columns. */
  function wideCell(columns, text) {
    const cell = element("td", "wide", text);
    cell.colSpan = columns;
    return cell;
  }

  /** A row that marks a stretch when it is clicked. */
  function stretchRow(stretch, cells) {
    const row = element("tr", "", ...cells);
    row.dataset.stretch = stretch;
    return row;
  }

  /** Tells who hears the page which part of the time each path waits. */
  function tellShares() {
    const { trace } = Look, share = p => `${Math.round(100 * trace.waited[p] / trace.total)} %`;
    const shares = `By the guess path 1 waits ${share(1)} of the time, and path 2 ${share(2)}.`;
    $("times").setAttribute("aria-label", `Time line of both paths. ${shares} The table of meetings tells the same in words.`);
  }

  /** Marks the row of the marked stretch. The table is one stop of the tabulator: that row, or else the first. */
  function markMeeting() {
    const rows = [...$("meetings").querySelectorAll("tr[data-stretch]")];
    const marked = rows.find(row => Look.stretch !== null && Number(row.dataset.stretch) === Look.stretch);
    for (const row of rows) {
      row.classList.toggle("on", row === marked);
      if (row === marked) row.setAttribute("aria-current", "true");
      else row.removeAttribute("aria-current");
      row.tabIndex = row === (marked || rows[0]) ? 0 : -1;
    }
    if (marked) marked.scrollIntoView({ block: "nearest" });
  }

  // ---- what both paths do between two meetings ----

  /** Tells what both paths do in a stretch, unless it was told last. */
  function tellStretch(stretch) {
    if (toldStretch === stretch) return;
    toldStretch = stretch;
    const { meetings } = Look.trace;
    const from = stretch === 0 ? "the start" : `M${meetings[stretch - 1].code}`;
    const to = stretch === meetings.length ? "the end" : `M${meetings[stretch].code}`;
    $("stretch-name").textContent = `From ${from} to ${to}`;
    $("stretch-number").textContent = `stretch ${stretch + 1} of ${meetings.length + 1}`;
    for (const p of PATHS) $(`stretch-${p}`).replaceChildren(...doneIn(p, stretch).map(text => element("div", "", text)));
  }

  /** What a path does in a stretch: its lines, its cuts and their tools, and the seconds of cuts and waits. */
  function doneIn(p, stretch) {
    const segments = Times.segmentsIn(Look.trace, p, stretch);
    const cuts = segments.filter(segment => Reading.CUTS.has(segment.kind)), waits = segments.filter(segment => segment.kind === "wait");
    const sum = list => secondsText(list.reduce((seconds, segment) => seconds + segment.end - segment.begin, 0));
    const tools = [...new Set(cuts.map(toolText))], names = tools.slice(0, 3).join(", ") + (tools.length > 3 ? " \u2026" : "");
    return [wayIn(p, stretch), countText(cuts.length, "cut") + (tools.length ? ` by ${names}` : ""),
            `cuts \u2248 ${sum(cuts)}, waits \u2248 ${sum(waits)}`];
  }

  /** From which line to which line of its tape a path goes. Lines of subprograms may lie anywhere. */
  function wayIn(p, stretch) {
    const { meetings } = Look.trace, path = Look.trace.paths[p], end = path.alarm || path.open || path.ended;
    const from = stretch === 0 ? "from its start" : `from line ${meetings[stretch - 1].lines[p]}`;
    if (stretch < meetings.length) return `${from} to line ${meetings[stretch].lines[p]}`;
    return end ? `${from} to line ${end.line}` : `${from} on`;
  }

  /** After new times the stretch is told anew. */
  function forget() { toldStretch = null; }

  // ---- the legend ----

  /** Fills the legend: the kinds of moves in the trace, and the first 16 tools. */
  function fillLegend() {
    const ink = Colours.INK.text, kinds = new Set(PATHS.flatMap(p => Look.trace.paths[p].segments.map(segment => segment.kind)));
    const lines = [["rapid", { stroke: Colours.INK.rapid, "stroke-dasharray": "4 3" }], ["feed", { stroke: ink, "stroke-width": 1.7 }],
                   ["arc", { stroke: ink, "stroke-width": 2.6 }],
                   ["thread", { stroke: ink, "stroke-width": 3, "stroke-dasharray": "0.1 4.5", "stroke-linecap": "round" }]];
    if (Look.contours.length) lines.push(["programmed contour", { stroke: ink, "stroke-width": 1, "stroke-dasharray": "3 3" }]);
    const tools = [...Colours.tools].slice(0, 16).map(([key, stroke]) => [`path ${key.replace(" T00", ", no tool")}`, { stroke, "stroke-width": 4 }]);
    const shown = [...lines.filter(([kind]) => kinds.has(kind) || kind === "programmed contour"), ...tools];
    $("legend").replaceChildren(...shown.map(([text, style]) => element("span", "", sample(style), text)));
  }

  /** A short line in this style. */
  function sample(style) {
    const make = (tag, attributes) => {
      const made = document.createElementNS("http://www.w3.org/2000/svg", tag);
      for (const [name, value] of Object.entries(attributes)) made.setAttribute(name, value);
      return made;
    };
    const picture = make("svg", { width: 26, height: 10, "aria-hidden": "true" });
    picture.append(make("line", { x1: 1, y1: 5, x2: 25, y2: 5, ...style }));
    return picture;
  }

  // ---- the note beside the hand ----

  /** Shows the note of a segment at a point of the window; without a segment there is none. */
  function note(segment, x, y) {
    const box = $("note");
    box.hidden = !segment;
    if (!segment) return;
    box.replaceChildren(element("div", "", `path ${segment.path}, line ${segment.line}${segment.tool ? `, ${segment.tool}` : ""}`),
                        element("code", "", segment.words), element("div", "", resultText(segment)));
    const { width, height } = box.getBoundingClientRect();
    box.style.left = `${Math.max(4, Math.min(x + 14, innerWidth - width - 6))}px`;
    box.style.top = `${y + 20 + height > innerHeight ? Math.max(4, y - height - 14) : y + 20}px`;
  }

  // ---- the place of the mouse ----

  /** A place of the plane in words: Z and the diameter or X, in mm, as fine as the picture is, and whose side it is. */
  function placeText({ z, r }) {
    const digits = Math.max(0, Math.min(3, Math.ceil(Math.log10(Camera.now.scale)))), letter = Look.coordinates === "work" ? "\u2300" : "X";
    const isCell = Look.coordinates === "cell", whose = isCell ? "cell" : `path ${r >= 0 ? 1 : 2}`;
    return `Z ${Ticks.text(z, 10 ** -digits)}  ${letter} ${Ticks.text(isCell ? 2 * r : Math.abs(2 * r), 10 ** -digits)}  (${whose})`;
  }

  /** Tells the place of the mouse in the corner of its canvas. */
  function tellPointer(canvas, text) { setText($(canvas.id === "plane" ? "pointer" : "pointer-time"), text); }

  // ---- what a segment leads to ----

  /** Where a segment leads, and how long it may take. */
  function resultText(segment) {
    const seconds = `\u2248 ${secondsText(segment.end - segment.begin)}`, other = 3 - segment.path;
    if (segment.kind === "wait") {
      if (!segment.met) return `path ${other} never comes`;
      return `meets path ${other} at its line ${segment.met.lines[other]} (meeting ${segment.met.number}), ${seconds} later`;
    }
    if (!Reading.MOTIONS.has(segment.kind)) return seconds;
    return `to work X${(segment.x1 - segment.shiftX).toFixed(3)} Z${(segment.z1 - segment.shiftZ).toFixed(3)}, ${seconds}`;
  }

  return { tellHead, tellNow, fillMeetings, markMeeting, fillLegend, note, resultText, placeText, tellPointer, forget };
})();
