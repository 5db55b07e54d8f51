"use strict";
// How texts come in: files that are dropped or chosen go to their places, and the page says what it took as what, and asks where nothing says
// whose a tape is.

const Coming = (() => {
  const MOST_BYTES = 2 ** 26;           // a file with more is not read at all
  let texts = [], left = null, right = null, cell = null, ask = null;

  const read = async file => ({ name: file.name, bytes: new Uint8Array(await file.arrayBuffer()) });

  /** Reads files, and gives them to whoever takes them; says so if one can't be read. */
  async function take(files, taker) {
    const long = files.find(file => file.size > MOST_BYTES);
    if (long) return Answers.sayInstead(`${long.name} is far too long for a tape.`, false);
    try {
      if (await taker(await Promise.all(files.map(read)))) ask();
    } catch (fault) {
      if (!(fault instanceof DOMException)) throw fault;
      Answers.sayInstead("A file can't be read. Is it a folder?", false);
    }
  }

  /** Several files: what they are says where they go. It is told, and what is left out. It answers whether they were taken. */
  async function share(files) {
    const shared = Files.share(files, [left, right].map(text => text.fileName), [left, right].map(text => text.isEmpty()));
    const places = [[shared.given[1], left], [shared.given[2], right], [shared.given.settings, cell]].filter(([file]) => file);
    if (!await Saving.mayGo(places.map(([, text]) => text))) return false;
    for (const [file, text] of places) text.set(file.name, file.bytes);
    tell(Files.tell(shared));
    return true;
  }

  /** A single file, for this text. */
  async function give(text, { name, bytes }) {
    if (!await Saving.mayGo([text])) return false;
    text.set(name, bytes);
    tell({ said: [], isAsked: false });
    return true;
  }

  /** Says what came and what was left out, and asks if the paths are right where nothing says so. */
  function tell({ said, isAsked }) {
    const isDoubtful = Files.areExchanged(left.fileName, right.fileName);
    if (isDoubtful) said.push("By their names the tapes are the other way round. Is it so?");
    $("judge-came-said").textContent = said.join(" ");
    $("judge-came").hidden = !said.length;
    $("judge-came").classList.toggle("asks", isAsked || isDoubtful);
    for (const name of ["exchange", "right"]) $(`judge-came-${name}`).hidden = !(isAsked || isDoubtful);
    $("judge-came-close").hidden = isAsked || isDoubtful;
  }

  const tellNothing = () => { $("judge-came").hidden = true; };

  /** Gives each path the tape of the other, and asks. The settings stay as they are: they are the paths', and not the tapes'. */
  function exchange() {
    const [one, two] = [left, right].map(text => [text.fileName, text.bytes(), text.isChanged]);
    left.set(...two);
    right.set(...one);
    const [first, second] = [left, right].map(text => text.fileName || "the other text");
    tell({ said: [`Swapped: path 1 has ${first}, path 2 has ${second}.`], isAsked: false });
    ask();
  }

  /** Takes the files that were dropped; the picture's own handler does not see them. */
  function takeDropped(event, taker) {
    event.preventDefault();
    event.stopImmediatePropagation();
    document.body.classList.remove("drag");
    const files = [...event.dataTransfer.files];
    if (files.length) take(files, taker);
  }

  /** Watches what is dropped or chosen for these texts; `asks` judges them. */
  function watch(some, asks) {
    texts = some;
    [left, right, cell] = some;
    ask = asks;
    // A single file that is dropped on a text goes there; all else that is dropped or chosen is shared out.
    for (const text of texts) {
      text.field.addEventListener("dragover", () => text.field.classList.add("over"));
      for (const kind of ["dragleave", "drop"]) text.field.addEventListener(kind, () => text.field.classList.remove("over"));
      $(`${text.field.id}-file`).addEventListener("change", event => {
        take([...event.target.files], ([file]) => give(text, file));
        event.target.value = "";
      });
    }
    addEventListener("drop", event => {
      const text = texts.find(some => some.field === event.target);
      if (text) text.field.classList.remove("over");
      takeDropped(event, files => text && files.length === 1 ? give(text, files[0]) : share(files));
    }, true);
    $("file").addEventListener("change", event => {
      event.stopImmediatePropagation();
      take([...event.target.files], share);
      event.target.value = "";
    }, true);
    for (const name of ["judge-exchange", "judge-came-exchange"]) $(name).addEventListener("click", exchange);
    for (const name of ["right", "close"]) $(`judge-came-${name}`).addEventListener("click", tellNothing);
  }

  return { watch, tell, tellNothing };
})();
