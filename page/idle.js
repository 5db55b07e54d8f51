"use strict";
// Where a path stands idle, and how long by the guess: at its waits, and from its end on while the other path goes on.

const Idle = (() => {
  const MOST_ROWS = 100;

  /** Tells how long each path stands idle, and lists where, the longest first. All of it is a guess, and called so. */
  function fill() {
    const { trace } = Look, idle = { 1: Times.idleOf(trace, 1), 2: Times.idleOf(trace, 2) };
    $("idle-said").textContent = `By the guess ${PATHS.map(p => shareText(p, idle[p])).join(", and ")}, of about ${secondsText(trace.total)}.`;
    const all = [...idle[1], ...idle[2]].sort((one, two) => lengthOf(two) - lengthOf(one)), more = all.length - MOST_ROWS;
    $("idle").replaceChildren(...all.slice(0, MOST_ROWS).map(rowOf), ...(more > 0 ? [element("p", "", `and ${more} shorter ones`)] : []));
  }

  const lengthOf = ({ begin, end }) => end - begin;

  /** How long a path stands idle in all. */
  function shareText(p, list) {
    const sum = list.reduce((seconds, some) => seconds + lengthOf(some), 0);
    return `path ${p} stands idle for \u2248 ${secondsText(sum)} (${Math.round(100 * sum / Look.trace.total)} %)`;
  }

  /** A row: where a path stands idle, from when and how long; a click goes there. */
  function rowOf(some) {
    const { path, segment, begin } = some, where = segment.kind === "wait" ? `at M${segment.code}, line ${segment.line}` : `after its end, line ${segment.line}`;
    const row = element("button", "idle", element("b", "", `\u2248 ${secondsText(lengthOf(some))}`), ` path ${path} ${where}, from ${begin.toFixed(1)} s on`);
    row.addEventListener("click", () => {
      Moving.goTo(begin);
      Moving.choose(segment.stretch, true);
    });
    return row;
  }

  return { fill };
})();
