"use strict";
// The tapes' own text beside the picture, with the line of each path marked. Only the lines in sight are in the page.

const TapeTexts = (() => {
  const LINE_HEIGHT = 18, MORE = 12;
  const panels = { 1: newPanel(1), 2: newPanel(2) };

  /** The panel of a path that has no tape yet. */
  function newPanel(p) {
    return { p, tape: null, waits: new Set(), visited: new Set(), now: null, focus: null, race: null, hit: null,
             box: $(`tape-box-${p}`), scroll: $(`tape-${p}`), rows: $(`tape-rows-${p}`) };
  }

  // ---- which tape is which path's ----

  /** Takes tapes, each with its name and lines, and whose path it is (`path`) where that is known. */
  function take(tapes) {
    const { trace } = Look, all = tapes.slice(0, 2);
    if (all.length === 2) {
      const isExchanged = !all[0].path && Tapes.areExchanged(trace, all[0], all[1]);
      panels[1].tape = all[isExchanged ? 1 : 0];
      panels[2].tape = all[isExchanged ? 0 : 1];
    } else if (all.length === 1) panels[Tapes.isSecond(trace, all[0]) ? 2 : 1].tape = all[0];
    show();
  }

  /** Gives each path the tape of the other. */
  function exchange() {
    [panels[1].tape, panels[2].tape] = [panels[2].tape, panels[1].tape];
    show();
  }

  /** Takes both tapes away. */
  function clear() {
    panels[1].tape = panels[2].tape = null;
    show();
  }

  /** What is wrong with the tape of a path, in a sentence; empty if the trace goes with it. */
  function problemOf(panel) {
    if (panel.tape.path === panel.p) return "";
    const { wrong } = Tapes.compare(panel.tape.lines, Look.trace.paths[panel.p]);
    if (!wrong) return "";
    const what = wrong.due ? `line ${wrong.line} has no ${wrong.due}` : `there is no line ${wrong.line}`;
    return `This is not the tape of the trace: ${what}.`;
  }

  /** Shows the panels of the paths that have a tape. */
  function show() {
    const isAny = PATHS.some(p => panels[p].tape);
    $("page").classList.toggle("with-tapes", isAny);
    $("tapes").hidden = !isAny;
    for (const p of PATHS) showPanel(panels[p]);
    if (isAny) mark();
  }

  /** Shows the tape of a panel from its first line, or no panel if there is none. */
  function showPanel(panel) {
    panel.box.hidden = !panel.tape;
    panel.now = panel.focus = panel.race = panel.hit = null;
    if (!panel.tape) return;
    const { segments } = Look.trace.paths[panel.p];
    panel.waits = new Set(segments.filter(segment => segment.kind === "wait").map(segment => segment.line));
    panel.visited = new Set(segments.map(segment => segment.line));
    $(`tape-name-${panel.p}`).textContent = panel.tape.name;
    $(`tape-problem-${panel.p}`).textContent = problemOf(panel);
    panel.rows.style.height = `${panel.tape.lines.length * LINE_HEIGHT}px`;
    panel.scroll.scrollTop = 0;
    draw(panel);
  }

  // ---- the lines in sight ----

  /** Puts the lines in sight into the page, and 12 more before and after them. */
  function draw(panel) {
    const { lines } = panel.tape, first = Math.max(0, Math.floor(panel.scroll.scrollTop / LINE_HEIGHT) - MORE);
    const last = Math.min(lines.length, first + Math.ceil((panel.scroll.clientHeight || 600) / LINE_HEIGHT) + 2 * MORE);
    const rows = [];
    for (let at = first; at < last; at++) rows.push(rowOf(panel, at + 1, lines[at]));
    panel.rows.replaceChildren(...rows);
  }

  /** The row of a line, with what is marked of it. */
  function rowOf(panel, line, text) {
    const row = element("div", "row", element("span", "number", line), element("span", "text", text));
    row.style.top = `${(line - 1) * LINE_HEIGHT}px`;
    row.dataset.line = line;
    row.classList.toggle("visited", panel.visited.has(line));
    row.classList.toggle("wait", panel.waits.has(line));
    row.classList.toggle("now", line === panel.now);
    row.classList.toggle("focus", line === panel.focus);
    row.classList.toggle("race", line === panel.race);
    row.classList.toggle("hit", line === panel.hit);
    if (line === panel.now) row.setAttribute("aria-current", "true");
    return row;
  }

  /** Marks the line at which each path is, that of the segment under the hand and that of the race; brings a new one into sight. */
  function mark() {
    for (const p of PATHS) {
      const panel = panels[p];
      if (!panel.tape) continue;
      const { segments } = Look.trace.paths[p], segment = segments[Times.lastBegun(segments, Look.time)];
      const now = segment ? segment.line : null, focus = Look.focus && Look.focus.path === p ? Look.focus.line : null;
      const marks = { hit: Look.hit?.lines[p] ?? null, race: Look.race ? Look.race.lines[p] : null, focus, now };
      const changed = Object.keys(marks).filter(mark => marks[mark] !== panel[mark]);
      if (!changed.length) continue;
      const wanted = changed.map(mark => marks[mark]).find(line => line !== null);
      Object.assign(panel, marks);
      if (wanted !== undefined) bringIntoSight(panel, wanted);
      draw(panel);
    }
  }

  /** Scrolls a line to the middle, unless it is in sight and no row at the rim. */
  function bringIntoSight(panel, line) {
    const top = (line - 1) * LINE_HEIGHT, { scrollTop, clientHeight } = panel.scroll;
    const isInSight = top >= scrollTop + LINE_HEIGHT && top + 2 * LINE_HEIGHT <= scrollTop + clientHeight;
    if (!isInSight) panel.scroll.scrollTop = top - Math.round(clientHeight / 2 / LINE_HEIGHT) * LINE_HEIGHT;
  }

  // ---- the hand ----

  for (const p of PATHS) {
    panels[p].scroll.addEventListener("scroll", () => { if (panels[p].tape) draw(panels[p]); });
    panels[p].rows.addEventListener("click", event => {
      const row = event.target.closest(".row");
      if (row) Moving.toLine(p, Number(row.dataset.line));
    });
  }

  /** The tapes that there are, each with its path and name. */
  const tapes = () => PATHS.filter(p => panels[p].tape).map(p => ({ name: `path ${p}: ${panels[p].tape.name}`, text: panels[p].tape.lines.join("\n") }));

  /** Draws the tapes that there are anew. */
  function redraw() { for (const p of PATHS) if (panels[p].tape) draw(panels[p]); }

  return { take, exchange, clear, mark, redraw, tapes, panels };
})();
