"use strict";
// What is printed: what was said, the picture on light paper, and all lines of both tapes. It stands in the page only while it is printed.

const Paper = (() => {
  /** What is printed before the picture, and the texts behind it, each with its name: the page that judges has its own. */
  const sources = { said: () => [], texts: () => TapeTexts.tapes(), hasPicture: () => Boolean(Look.trace) };

  /** A text with the number before each of its lines. */
  function numbered(text) {
    const lines = text.split("\n"), width = String(lines.length).length;
    if (lines[lines.length - 1] === "") lines.pop();
    return lines.map((line, k) => `${String(k + 1).padStart(width)}  ${line}`).join("\n");
  }

  /** The head: which job it is, and what the badges say. */
  function head() {
    const badges = [...$("badges").children].map(badge => badge.textContent).join(" \u00b7 ");
    return [element("h1", "", `twin_lathe  ${Look.name}`), ...(sources.hasPicture() ? [element("p", "", badges)] : [])];
  }

  /** The picture, and the table of meetings under it. */
  function picture() {
    if (!sources.hasPicture()) return [];
    return [Picture.make(), element("h2", "", "Meetings"), withoutNames($("meetings").cloneNode(true))];
  }

  /** A copy, whose parts have no names: each name stands in the page once. */
  function withoutNames(copy) {
    for (const part of [copy, ...copy.querySelectorAll("[id]")]) part.removeAttribute("id");
    return copy;
  }

  /** Makes what is printed. */
  function make() {
    take();
    const texts = sources.texts().map(({ name, text }) => element("section", "", element("h2", "", name), element("pre", "", numbered(text))));
    const paper = element("article", "paper", ...head(), ...sources.said().map(withoutNames), ...picture(), element("div", "paper-texts", ...texts));
    paper.id = "paper";
    document.body.append(paper);
  }

  /** Takes it away again. */
  function take() { $("paper")?.remove(); }

  addEventListener("beforeprint", make);
  addEventListener("afterprint", take);
  $("print").addEventListener("click", () => window.print());

  return { sources, make };
})();
