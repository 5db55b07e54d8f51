"use strict";
// The tapes' own text: its lines, and which tape is which path's. A trace does not hold its tapes, so the page can only compare.

const Tapes = (() => {
  const MOST_BYTES = 4194304;

  /** Whether a text can be a tape: one has a line that begins with a percent sign. */
  const isTape = text => text.length <= MOST_BYTES && /^[ \t]*%/m.test(text);

  /** The lines of a tape, as the control counts them: each ends with a line feed. */
  function linesOf(text) {
    const lines = text.replace(/\r/g, "").split("\n");
    if (lines[lines.length - 1] === "") lines.pop();
    return lines;
  }

  /** A line without its comments, in capitals and without blanks. */
  const wordsOf = line => line.replace(/\([^)]*\)?/g, "").replace(/[\s;]/g, "").toUpperCase();

  /** How a tape's lines go with what a path did: how many say so, and the first that does not, with what it should have. */
  function compare(lines, path) {
    const answer = { right: 0, wrong: null };
    for (const segment of path.segments) {
      const due = dueWord(segment);
      const words = segment.line <= lines.length ? wordsOf(lines[segment.line - 1]) : null;
      const isComputed = words !== null && /[MT][-+]?[#[]/.test(words);
      if (words === null) answer.wrong ??= { line: segment.line, due: "" };
      else if (due && hasWord(words, due)) answer.right++;
      else if (due && !isComputed) answer.wrong ??= { line: segment.line, due };
    }
    return answer;
  }

  /** The word that a segment's line must have: the code of its wait or its M code, its tool. */
  function dueWord(segment) {
    if (segment.kind === "wait") return "M" + segment.code;
    const found = /^(?:aux (M\d+)|tool (T\d+))$/.exec(segment.words);
    return found ? found[1] || found[2] : "";
  }

  const hasWord = (words, due) => new RegExp(`${due[0]}\\+?0*${Number(due.slice(1))}(?!\\d)(?!\\.0*[1-9])`).test(words);

  /** Which of two tapes is path 1's: the one whose waits, codes and tools stand on the lines that the trace names. */
  function areExchanged(trace, first, second) {
    const score = (tape, p) => {
      const { right, wrong } = compare(tape.lines, trace.paths[p]);
      return right - (wrong ? 1e6 : 0);
    };
    return score(first, 2) + score(second, 1) > score(first, 1) + score(second, 2);
  }

  /** Whether a single tape rather is path 2's. */
  function isSecond(trace, tape) {
    const one = compare(tape.lines, trace.paths[1]), two = compare(tape.lines, trace.paths[2]);
    if (Boolean(one.wrong) !== Boolean(two.wrong)) return Boolean(one.wrong);
    return two.right > one.right;
  }

  return { isTape, linesOf, compare, areExchanged, isSecond };
})();
