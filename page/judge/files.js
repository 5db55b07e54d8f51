"use strict";
// What files are that come together: the tape of path 1, that of path 2, the settings, or none of these. What was taken as what, by which
// sign, and what was not taken, is told.

const Files = (() => {
  const BEGIN = 65536;                  // bytes of a file that are looked at
  const BLOCK = /^[ \t]*\/?\d?[ \t]*(?:[A-Z:][ \t]*(?:[-+]?[ \t]*[\d.]|#|\[)|#|(?:IF|WHILE)[ \t]*\[|GOTO[ \t]*[\d#[]|(?:DO|END)[ \t]*\d)/i;
  const SETTING = /^[ \t]*[a-z]{4,9}\d{0,3}[ \t]+(?:\d|bits\b|numbers\b|[AB][ \t\r]*$)/i;

  // ---- what a file is ----

  /** What a file is: a tape, settings, a trace, or nothing that this page takes. A tape may lack its percent sign. */
  function kindOf({ bytes }) {
    const text = textOf(bytes.subarray(0, BEGIN)), mark = /^[ \t]*%/m.exec(text);
    if (/^trace \d/.test(text)) return "trace";
    const lines = linesWithWords(mark ? text.slice(mark.index + mark[0].length) : text), blocks = lines.filter(line => BLOCK.test(line)).length;
    if (mark && !lines.length || blocks && 2 * blocks >= lines.length) return "tape";
    const settings = lines.filter(line => SETTING.test(line)).length;
    return !mark && 2 * settings >= lines.length ? "settings" : "nothing";
  }

  /** The lines of a text that have more than blanks, percent signs and comments. */
  const linesWithWords = text => text.split("\n").filter(line => /^[ \t]*[^ \t\r(%]/.test(line));

  // ---- whose tape it is ----

  /** The path that a name or a comment names: by a word, or else by a number behind one of those that come before it. */
  function pathIn(text) {
    const words = new Set([...text.matchAll(/upper|lower/gi)].map(([word]) => (word.toLowerCase() === "upper" ? 1 : 2)));
    if (words.size === 1) return [...words][0];
    const numbers = new Set([...text.matchAll(/(?:path|turret|head|(?:^|[-_. ])p|[-_. ])[-_ ]?([12])(?!\d)/gi)].map(found => Number(found[1])));
    return !words.size && numbers.size === 1 ? [...numbers][0] : 0;
  }

  /** The path that the comments at the begin of a tape name. */
  const pathInComments = ({ bytes }) => pathIn((textOf(bytes.subarray(0, 2000)).match(/\([^)\n]*/g) ?? []).join(" "));

  /** By which sign two tapes go to their paths, and in which order. */
  function orderOf(tapes) {
    for (const [sign, pathOf] of [["names", file => pathIn(file.name)], ["comments", pathInComments]]) {
      const paths = tapes.map(pathOf);
      if (paths[0] !== paths[1]) return { sign, tapes: paths[0] === 2 || paths[1] === 1 ? [...tapes].reverse() : tapes };
    }
    return { sign: "order", tapes };
  }

  /** The two of several tapes that are taken: of each path the first that its name gives to it, and else the first ones. */
  function twoOf(tapes) {
    const named = [1, 2].map(p => tapes.find(file => pathIn(file.name) === p)).filter(Boolean);
    const both = named.length === 2 ? named : [...new Set([...named, ...tapes])].slice(0, 2);
    return tapes.filter(file => both.includes(file));
  }

  /** To which path a single tape goes: where one of its name is, or as its name says, or where none is; else to path 1. */
  function placeOf(tape, names, areEmpty) {
    const same = names.findIndex(name => name === tape.name), named = pathIn(tape.name);
    if (same >= 0) return { path: same + 1, sign: "the same name" };
    if (named) return { path: named, sign: "names" };
    const empty = areEmpty.indexOf(true);
    return { path: empty >= 0 ? empty + 1 : 1, sign: "order" };
  }

  /**
   * Shares out files that came together, to texts with these names of which these are empty: what each path and the settings get, by which
   * sign, and what is left over and why.
   */
  function share(files, names, areEmpty) {
    const kinds = new Map(files.map(file => [file, kindOf(file)])), all = kind => files.filter(file => kinds.get(file) === kind);
    const tapes = all("tape"), settings = all("settings"), two = twoOf(tapes), given = { 1: null, 2: null, settings: settings[0] ?? null, sign: "" };
    if (two.length === 2) {
      const order = orderOf(two);
      Object.assign(given, { 1: order.tapes[0], 2: order.tapes[1], sign: order.sign });
    } else if (two.length) {
      const place = placeOf(two[0], names, areEmpty);
      Object.assign(given, { [place.path]: two[0], sign: place.sign });
    }
    const left = [[tapes.filter(file => !two.includes(file)), "there are two paths"], [settings.slice(1), "there is one text of settings"],
                  [all("trace"), "it is a trace, and this page makes its own"],
                  [all("nothing"), "it looks neither like a tape nor like settings: drop it on its place"]];
    return { given, left: left.flatMap(([some, why]) => some.map(({ name }) => ({ name, why }))) };
  }

  // ---- what is told ----

  const SIGNS = { names: "by their names", comments: "by their comments", "the same name": "which had the same name", order: "" };

  /** What was taken and what was not, in sentences; and whether nothing but the order of the files said which path is whose. */
  function tell({ given, left }) {
    const places = [[given[1], "Path 1"], [given[2], "Path 2"], [given.settings, "Settings"]].filter(([file]) => file);
    const took = places.map(([file, where]) => `${where}: ${file.name}`);
    const areTwo = Boolean(given[1] && given[2]), sign = areTwo && SIGNS[given.sign] ? ` (the paths ${SIGNS[given.sign]})` : "";
    const said = took.length ? [`${took.join(", ")}${sign}.`] : [];
    const isAsked = areTwo && given.sign === "order";
    if (isAsked) said.push("Nothing says which path is whose. Is it so?");
    if (left.length) said.push(`Not taken: ${left.map(({ name, why }) => `${name} (${why})`).join(", ")}.`);
    return { said, isAsked };
  }

  /** Whether the names of two tapes say that their paths are exchanged. */
  const areExchanged = (one, two) => pathIn(one) === 2 && pathIn(two) === 1;

  return { share, tell, areExchanged, kindOf };
})();
