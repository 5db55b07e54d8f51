"use strict";
// Search and go to line in the texts, and the keys that editors have for it.

const Seeking = (() => {
  const bar = $("judge-find"), field = $("judge-find-text"), line = $("judge-find-line");
  let texts = [], text = null;

  /** Opens the bar in the box of a text, with the cursor in its search or in its number of a line. */
  function open(which, place) {
    text = which;
    text.field.closest(".judge-text").querySelector(".judge-head").after(bar);
    bar.hidden = false;
    const { value, selectionStart, selectionEnd } = text.field, marked = value.slice(selectionStart, selectionEnd);
    if (place === field && marked && !marked.includes("\n")) field.value = marked;
    place.focus();
    place.select();
    tellCount();
  }

  /** Closes the bar; the cursor is in the text then. */
  function close() {
    bar.hidden = true;
    if (!text) return;
    text.found = null;
    text.paint();
    text.field.focus();
  }

  /** The places of what is sought, without regard to capitals. */
  function places() {
    const sought = field.value.toLowerCase(), value = text.field.value.toLowerCase(), found = [];
    if (!sought) return found;
    for (let at = value.indexOf(sought); at >= 0; at = value.indexOf(sought, at + sought.length)) found.push(at);
    return found;
  }

  /** Goes to the next place of what is sought, or to the one before; from the end to the start again. */
  function step(way) {
    if (!text || bar.hidden && !field.value) return;
    const all = places(), { selectionStart, selectionEnd } = text.field;
    const next = way > 0 ? all.find(at => at >= selectionEnd) ?? all[0] : all.findLast(at => at < selectionStart) ?? all[all.length - 1];
    if (next !== undefined) show(next, next + field.value.length);
    tellCount(all, next);
  }

  /** Selects letters of the text, marks their line and brings it into sight. */
  function show(begin, end) {
    text.field.setSelectionRange(begin, end);
    text.found = text.lineAt(begin);
    text.paint();
    text.bringIntoSight(text.found);
  }

  /** Tells which of how many places is selected. */
  function tellCount(all = places(), at = text.field.selectionStart) {
    const number = all.indexOf(at) + 1;
    $("judge-find-count").textContent = !field.value ? "" : !all.length ? "not there" : number ? `${number} of ${all.length}` : `${all.length} there`;
  }

  /** Goes to the line of the number. */
  function goToLine() {
    const number = Math.max(1, Math.min(text.lines, Number(line.value) || 1));
    close();
    text.goTo(number);
  }

  // ---- the keys ----

  /** The text that has the cursor, or whose bar is open. */
  const textOfFocus = () => texts.find(some => some.field === document.activeElement) ?? (bar.contains(document.activeElement) ? text : null);

  /** What a key does with Ctrl, in a text. */
  const WITH_CONTROL = {
    f: which => open(which, field),
    g: which => open(which, line),
    s: which => Saving.saveText(which),
    o: () => $("file").click(),
  };

  /** What a key does in a text, by itself and with Shift. */
  const PLAIN = {
    F3: (which, way) => { text ??= which; step(way); },
    F8: (which, way) => Answers.step(way),
    Escape: () => close(),
  };

  addEventListener("keydown", event => {
    const which = textOfFocus(), isControl = event.ctrlKey || event.metaKey, way = event.shiftKey ? -1 : 1;
    if (!which && !(isControl && event.key === "s")) return;
    const does = isControl ? WITH_CONTROL[event.key.toLowerCase()] : event.altKey ? null : PLAIN[event.key];
    if (!does || event.key === "Escape" && bar.hidden) return;
    event.preventDefault();
    event.stopPropagation();
    if (which) does(which, way);
    else Saving.saveAll(texts);
  }, true);

  bar.addEventListener("submit", event => {
    event.preventDefault();
    if (document.activeElement === line) goToLine();
    else step(1);
  });
  bar.addEventListener("keydown", event => event.stopPropagation());
  field.addEventListener("input", () => { text.field.setSelectionRange(text.field.selectionStart, text.field.selectionStart); step(1); });
  $("judge-find-before").addEventListener("click", () => step(-1));
  $("judge-find-close").addEventListener("click", close);

  /** Watches these texts; the button of each opens the bar. */
  function watch(some) {
    texts = some;
    for (const one of texts) $(`${one.field.id}-find`).addEventListener("click", () => open(one, field));
  }

  return { watch, open, step, get text() { return text; } };
})();
