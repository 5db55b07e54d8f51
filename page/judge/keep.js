"use strict";
// What was open is kept in this browser, and nowhere else, so that it is there after a reload. A user can clear it, or want none of it.

const Keep = (() => {
  const TEXTS = "twin_lathe texts", WISH = "twin_lathe keep";
  const MOST_LETTERS = 5000000;         // more than that no browser keeps

  /** Does something with the browser's store. Some browsers have none for this page, and some have too little: then nothing is given. */
  function withStore(does) {
    try {
      return does(window.localStorage);
    } catch (fault) {
      return undefined;
    }
  }

  const isWanted = () => withStore(store => store.getItem(WISH)) !== "no";

  /** Notes whether anything may be kept. If not, what is kept goes. */
  function want(isOn) {
    withStore(store => (isOn ? store.removeItem(WISH) : store.setItem(WISH, "no")));
    if (!isOn) forget();
  }

  const forget = () => withStore(store => store.removeItem(TEXTS));

  /** Keeps texts, each with its name, its letters and whether it is saved as a file; says whether they are kept. */
  function write(texts, outside, zones) {
    if (!isWanted()) return false;
    const isShort = texts.reduce((sum, text) => sum + text.length, 0) <= MOST_LETTERS;
    const kept = isShort ? texts.map(text => ({ name: text.fileName, text: text.letters(), isChanged: text.isChanged })) : [];
    const isKept = isShort && withStore(store => { store.setItem(TEXTS, JSON.stringify({ texts: kept, outside, zones })); return true; });
    if (!isKept) forget();
    return Boolean(isKept);
  }

  /** What was kept, or nothing. */
  function read() {
    const kept = withStore(store => JSON.parse(store.getItem(TEXTS)));
    const isWhole = kept?.texts?.length === 3 && kept.texts.every(({ name, text }) => typeof name === "string" && typeof text === "string");
    return isWanted() && isWhole && kept.texts.some(({ text }) => text) ? kept : null;
  }

  return { isWanted, want, forget, write, read };
})();
