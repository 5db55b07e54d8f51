"use strict";
// A text that is dropped, chosen or typed, with the numbers of its lines beside it. Lines can be marked, found, and have a note.

const LINE = 18;                      // the height of a line, as in judge.css
const MOST_SHOWN = 4194304;           // a file with more bytes is judged, and not shown
const RETURN = "\u21b5";              // stands for a carriage return by itself: the field would make a line end of it

class Editor {
  /** The editor of the elements whose names begin so; `changed` is called when a user changes the text. */
  constructor(name, changed) {
    this.field = $(name);
    this.numbers = $(`${name}-numbers`);
    this.title = $(`${name}-name`);
    this.beside = $(`${name}-beside`);
    this.marked = new Set();
    this.notes = new Map();
    this.found = null;                // the line that a search came to
    this.set("", new Uint8Array());
    this.field.addEventListener("input", () => {
      this.file = null;               // from now on the text counts, and no longer the file's bytes
      this.found = null;
      this.setChanged(true);
      this.count();
      this.paint();
      changed();
    });
    this.field.addEventListener("scroll", () => this.draw());
    this.field.addEventListener("paste", event => this.paste(event));
    this.field.addEventListener("keydown", event => event.stopPropagation());      // the keys of the picture are letters here
    new ResizeObserver(() => this.draw()).observe(this.field);
  }

  // ---- the text and its bytes ----

  /** Takes the bytes of a file; `isChanged` says whether they are not saved yet. */
  set(fileName, bytes, isChanged = false) {
    this.isShown = bytes.length <= MOST_SHOWN;
    this.fileName = fileName;
    this.file = bytes;
    this.found = null;
    this.field.value = this.isShown ? this.shown(textOf(bytes)) : "";
    this.setChanged(isChanged);
    this.field.scrollTop = 0;
    this.count();
    this.paint();
  }

  /** Notes whether there are changes that are not saved. */
  setChanged(isChanged) {
    this.isChanged = isChanged;
    const told = this.isShown ? this.fileName : `${this.fileName} is too long to be shown`;
    this.title.title = this.title.textContent = isChanged ? `${told || "typed"}, changed` : told;
    $(`${this.field.id}-save`).classList.toggle("unsaved", isChanged);
  }

  /** A text as the field can show it. If each line ends with a return and a line feed, the line feeds stand for both. */
  shown(text) {
    this.hasReturns = text.includes("\r\n") && !/(?:^|[^\r])\n/.test(text);
    return (this.hasReturns ? text.replaceAll("\r\n", "\n") : text).replaceAll("\r", RETURN);
  }

  /** The text that is meant by what the field shows. */
  meant() {
    const text = this.hasReturns ? this.field.value.replaceAll("\n", "\r\n") : this.field.value;
    return text.replaceAll(RETURN, "\r");
  }

  /** Puts in what is pasted. A return by itself stays one, which the field would not let it. */
  paste(event) {
    const text = event.clipboardData?.getData("text/plain") ?? "";
    if (!/\r(?!\n)/.test(text)) return;
    event.preventDefault();
    document.execCommand("insertText", false, text.replaceAll("\r\n", "\n").replaceAll("\r", RETURN));
  }

  /** Counts the lines: as many as an editor shows, one after the last line feed too. */
  count() { this.lines = this.field.value.split("\n").length; }

  /** The bytes of the text. A file goes in byte by byte, as long as nobody changes the text. */
  bytes() { return this.file ?? bytesOf(this.meant()); }

  /** The text with a letter for each byte. */
  letters() { return this.file ? textOf(this.file) : this.meant(); }

  /** How many letters it has, or about so many. */
  get length() { return this.file ? this.file.length : this.field.value.length; }

  isEmpty() { return this.file ? this.file.length === 0 : this.field.value === ""; }

  /** The text of a line, from 1. */
  line(number) { return this.field.value.split("\n", number)[number - 1] ?? ""; }

  // ---- marks ----

  /** Marks these lines, and no others. */
  mark(lines) {
    this.marked = new Set(lines);
    this.paint();
    if (lines.length && document.activeElement !== this.field) this.bringIntoSight(lines[0]);
  }

  /** Puts notes beside lines: of each line an element. */
  note(notes) {
    this.notes = notes;
    this.beside.replaceChildren(...notes.values());
    this.draw();
  }

  /** Draws the marks of the lines, and their numbers. */
  paint() {
    const marks = [...[...this.marked].map(line => [line, "--mark"]), ...(this.found ? [[this.found, "--found"]] : [])];
    this.field.style.backgroundImage = marks.map(([line, ink]) => {
      const top = (line - 1) * LINE, end = top + LINE;
      return `linear-gradient(transparent ${top}px, var(${ink}) ${top}px, var(${ink}) ${end}px, transparent ${end}px)`;
    }).join(", ");
    this.draw();
  }

  /** Draws the numbers of the lines in sight, and puts the notes beside theirs. */
  draw() {
    const { scrollTop, clientHeight } = this.field, first = Math.floor(scrollTop / LINE) + 1;
    const last = Math.min(this.lines, first + Math.ceil(clientHeight / LINE)), rows = [];
    const kindOf = line => (this.marked.has(line) ? "marked" : this.notes.has(line) ? "noted" : "");
    for (let line = first; line <= last; line++) rows.push(element("div", kindOf(line), line));
    this.numbers.replaceChildren(...rows);
    this.numbers.style.transform = `translateY(${-(scrollTop % LINE)}px)`;
    for (const [line, note] of this.notes) {
      const top = (line - 1) * LINE - scrollTop;
      note.style.top = `${top}px`;
      note.hidden = line < first || line > last;
      note.classList.toggle("up", top > clientHeight / 2);
    }
  }

  // ---- places ----

  /** Brings a line into the middle, if it is out of sight. */
  bringIntoSight(line) {
    const top = (line - 1) * LINE, { scrollTop, clientHeight } = this.field;
    if (top < scrollTop || top + LINE > scrollTop + clientHeight) this.field.scrollTop = top - clientHeight / 2;
  }

  /** Puts the cursor on a line, and selects it. */
  goTo(line) {
    const before = this.field.value.split("\n", line - 1).join("\n").length + (line > 1 ? 1 : 0);
    this.field.focus();
    this.field.setSelectionRange(before, before + this.line(line).length);
    this.bringIntoSight(line);
  }

  /** The line on which a letter stands. */
  lineAt(place) { return this.field.value.slice(0, place).split("\n").length; }
}

/** A text with one letter for each byte, and back. A letter that no byte has is as UTF-8 writes it. */
function textOf(bytes) {
  const parts = [];
  for (let at = 0; at < bytes.length; at += 8192) parts.push(String.fromCharCode(...bytes.subarray(at, at + 8192)));
  return parts.join("");
}

/** The bytes of such a text. */
function bytesOf(text) {
  if (/[^\0-\xff]/.test(text)) {
    const utf8 = new TextEncoder();
    return Uint8Array.from([...text].flatMap(letter => letter.codePointAt(0) < 256 ? [letter.charCodeAt(0)] : [...utf8.encode(letter)]));
  }
  const bytes = new Uint8Array(text.length);
  for (let at = 0; at < text.length; at++) bytes[at] = text.charCodeAt(at);
  return bytes;
}
