"use strict";
// What is told of the races of the pair: shared variables that hang on which path is first. A click on one marks the stretch in which it is,
// and its two lines in the tapes.

const Races = (() => {
  let rows = new Map();       // the button of each race

  const NONE = "None: all runs that both paths finish have the same moves.";
  const ADVICE = "So this run is one of many. Put a wait into both tapes between the two lines, or let one path alone use the variable. "
    + "If both lines are right whoever is first, leave it.";

  /** How many variables race, and what to do about it. */
  function countText(count) {
    if (count === 0) return NONE;
    const what = count === 1 ? "One variable hangs" : `${count} variables hang`;
    return `${what} on timing: one path may write ${count === 1 ? "it" : "each"} while the other has it. ${ADVICE}`;
  }

  /** When a race is: before the first meeting, or behind one. */
  function whenText(after) {
    if (after === 0) return Look.trace.meetings.length ? "before the first meeting" : "from the start on";
    const meeting = Look.trace.meetings[after - 1];
    return `after meeting ${after}${meeting ? ` (M${meeting.code})` : ""}`;
  }

  /** Which path may write the variable and which has it, each with the line of its tape. */
  function placesText({ writer, lines }) {
    const other = 3 - writer;
    return `path ${writer} may write it at line ${lines[writer]}, path ${other} has it at line ${lines[other]}`;
  }

  /** Lists the races of the trace, a button each. */
  function fill() {
    const { races } = Look.trace;
    $("races-said").textContent = countText(races.length);
    $("races-hint").hidden = !races.length;
    rows = new Map(races.map(race => [race, rowOf(race)]));
    $("races").replaceChildren(...rows.values());
    mark();
  }

  /** The button of a race, which marks it, and takes the mark away if it has it. */
  function rowOf(race) {
    const row = element("button", "race", element("b", "", `#${race.variable}`), ` ${whenText(race.after)}: ${placesText(race)}`);
    row.addEventListener("click", () => Moving.chooseRace(race === Look.race ? null : race));
    return row;
  }

  /** Marks the row of the race that is marked. */
  function mark() {
    for (const [race, row] of rows) {
      row.classList.toggle("on", race === Look.race);
      row.setAttribute("aria-pressed", race === Look.race);
    }
  }

  return { fill, mark };
})();
