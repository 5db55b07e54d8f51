"use strict";
// Takes the texts that are opened, dropped or stand in the page, and ties the parts together. Nothing is sent, loaded or kept.

const Page = (() => {
  let pending = [];       // tapes that came before a trace
  let isCellWished = false;             // whether the coordinates of the cell were shown when they went: they are shown again when they come

  const rates = () => ({ rapid: 1000 * numberIn("rapid", 0.1, 20), change: numberIn("change", 0, 1), spindle: numberIn("spindle", 0, 0) });

  /** The number in a field; the usual one if there is none, or one below the least. */
  function numberIn(name, least, usual) {
    const value = Number($(name).value);
    return $(name).value.trim() !== "" && Number.isFinite(value) && value >= least ? value : usual;
  }

  // ---- texts come in ----

  /** Takes texts with their names: a trace, and the tapes of its paths. A tape whose trace this is names its path, and is not compared. */
  function take(texts) {
    const trace = texts.find(({ text }) => isTrace(text)), others = texts.filter(({ text }) => !isTrace(text));
    const tapes = others.filter(({ text }) => Tapes.isTape(text)).map(({ name, text, path }) => ({ name, path, lines: Tapes.linesOf(text) }));
    if (trace) load(trace.text, trace.name, tapes.length ? tapes : pending);
    else if (tapes.length) takeTapes(tapes);
    else if (others.length) load(others[0].text, others[0].name, []);
  }

  const isTrace = text => /^trace \d/.test(text);

  /** Takes tapes for the trace that is shown; if there is none they wait for one. */
  function takeTapes(tapes) {
    if (Look.trace) return TapeTexts.take(tapes);
    pending = tapes;
    say("hint", `${tapes.map(tape => tape.name).join(" and ")}: now drop the text of the trace too.`);
  }

  /** Shows a trace from its start, with these tapes; a text that is no trace is refused. */
  function load(text, name, tapes) {
    let trace;
    try {
      trace = Times.timeTrace(Reading.readTrace(text), rates());
    } catch (fault) {
      if (!(fault instanceof Reading.BadTrace)) throw fault;
      return refuse(fault.message, name);
    }
    pending = [];
    Moving.play(false);
    Object.assign(Look, { trace, name, stretch: null, race: null, hit: null, focus: null, time: 0 });
    show(tapes);
  }

  /** Fills each part of the page from the trace, and draws it. */
  function show(tapes) {
    const { trace, name } = Look;
    $("empty").hidden = true;
    $("page").hidden = false;
    $("name").textContent = name;
    document.title = name ? `${name} \u2013 twin_lathe picture` : "twin_lathe picture";
    Colours.giveTo(trace);
    Tables.forget();
    Tables.note(null);
    Tables.tellHead();
    Tables.fillMeetings();
    $("meetings-box").scrollTop = 0;
    Races.fill();
    Idle.fill();
    Tables.fillLegend();
    TapeTexts.clear();
    if (tapes.length) TapeTexts.take(tapes);
    resize();
    TimeLine.fit();
    Plane.fit(false);
    Look.drawAsked();
    tellState("drawn");
  }

  /** Takes the picture away, and says why there is none. */
  function refuse(message, name) {
    Moving.play(false);
    Look.trace = null;
    $("page").hidden = true;
    $("empty").hidden = false;
    $("name").textContent = name;
    $("badges").textContent = "";
    say("fault", message);
    Tables.note(null);
    tellState("refused");
  }

  /** Takes the picture away: nothing is open any more. */
  function clear() {
    refuse("", "");
    tellState("empty");
  }

  /** Says a text as the fault or as the hint; the other one says nothing then. */
  function say(name, text) {
    for (const some of ["fault", "hint"]) $(some).textContent = some === name ? text : "";
  }

  /** What is to be seen, for tests: in attributes of the root. */
  function tellState(state) {
    const { trace } = Look, { dataset } = document.documentElement;
    dataset.state = state;
    $("save-picture").disabled = !trace;
    if (!trace) return;
    Object.assign(dataset, { moves: PATHS.map(p => trace.paths[p].moves).join(" "), meetings: trace.meetings.length,
                             records: trace.records, end: trace.end, races: trace.races.length, total: trace.total.toFixed(1) });
  }

  // ---- drawing ----

  /** Draws these parts, and always what moves with the time. Other pixels of the screen draw all anew. */
  function drawNow(parts) {
    if (Plane.sheet.ratio !== window.devicePixelRatio) {
      resize();
      for (const part of ["plane", "times"]) parts.add(part);
    }
    if (parts.has("plane")) Plane.draw();
    else if (parts.has("moved")) Plane.drawMoved();
    if (parts.has("times")) TimeLine.draw();
    Plane.drawOver();
    TimeLine.drawOver();
    Tables.tellNow();
    TapeTexts.mark();
  }
  Look.onFrame = drawNow;

  /** Gives both canvases the size of their boxes. */
  function resize() {
    Plane.sheet.resize();
    TimeLine.sheet.resize();
  }

  /** After another size of the boxes: all is drawn anew. */
  function resized() {
    if (!Look.trace) return;
    resize();
    TapeTexts.redraw();
    Plane.refit();
    Look.ask("times");
  }

  for (const name of ["plane-box", "times-box"]) new ResizeObserver(resized).observe($(name));

  /** Another screen may have more pixels a point. */
  function watchScreen() {
    const changed = () => { resized(); watchScreen(); };
    matchMedia(`(resolution: ${window.devicePixelRatio}dppx)`).addEventListener("change", changed, { once: true });
  }
  watchScreen();

  /** Takes the colours that the browser asks for, now and after each change. */
  function watchMode() {
    const dark = matchMedia("(prefers-color-scheme: dark)"), take = () => {
      Colours.take(dark.matches ? "dark" : "light");
      if (Look.trace) Tables.fillLegend();
      Look.ask("plane", "times", "over");
    };
    dark.addEventListener("change", take);
    take();
  }
  watchMode();

  // ---- buttons and fields ----

  /** Makes each button with this attribute do something with its value. */
  function onEach(attribute, does) {
    for (const button of document.querySelectorAll(`[data-${attribute}]`))
      button.addEventListener("click", () => { does(button.dataset[attribute]); markButtons(); });
  }

  /** Shows which buttons of the coordinates and of what is shown are on. */
  function markButtons() {
    const mark = (button, isOn) => { button.classList.toggle("on", isOn); button.setAttribute("aria-pressed", isOn); };
    for (const button of document.querySelectorAll("[data-coordinates]")) mark(button, button.dataset.coordinates === Look.coordinates);
    for (const button of document.querySelectorAll("[data-show]")) mark(button, Look.shown[button.dataset.show]);
  }

  /** Shows the plane in these coordinates: work, machine or cell. */
  function showIn(coordinates) {
    Look.coordinates = coordinates;
    Plane.fit(false);
    markButtons();
  }

  /** Takes how each path lies in the cell, or that nothing says it. Then the coordinates of the cell can be chosen, or no longer. */
  function takeFrames(frames) {
    Look.frames = frames;
    $("show-cell").hidden = !frames;
    if (frames && isCellWished) showIn("cell");
    if (frames || Look.coordinates !== "cell") return;
    isCellWished = true;
    if (Look.trace) showIn("work");
    else Look.coordinates = "work";
  }

  onEach("coordinates", which => {
    isCellWished = false;
    showIn(which);
  });
  onEach("fit", which => Plane.fit(which === "all"));
  onEach("zoom", by => { if (Look.trace) Plane.zoom(Number(by)); });
  onEach("show", what => { Look.shown[what] = !Look.shown[what]; Look.ask("plane", "over"); });

  /** Other rates make other times; the place in the run stays. */
  function timeAnew() {
    if (!Look.trace) return;
    const part = Look.time / Look.trace.total;
    Times.timeTrace(Look.trace, rates());
    Look.time = part * Look.trace.total;
    Tables.forget();
    Tables.tellHead();
    Tables.fillMeetings();
    Idle.fill();
    TimeLine.fit();
    Look.ask("times", "over");
    tellState("drawn");
  }
  for (const name of ["rapid", "change", "spindle"]) $(name).addEventListener("change", timeAnew);

  $("play").addEventListener("click", () => Moving.play(!Moving.isPlaying));
  $("slider").addEventListener("input", () => Moving.goTo(Number($("slider").value) * Look.trace.total));
  $("meetings").addEventListener("click", event => {
    const row = event.target.closest("tr[data-stretch]");
    if (row) Moving.toggle(Number(row.dataset.stretch), true);
  });
  $("exchange").addEventListener("click", TapeTexts.exchange);
  $("close-tapes").addEventListener("click", TapeTexts.clear);
  $("keys").addEventListener("click", () => $("help").showModal());
  for (const name of ["open", "open-first"]) $(name).addEventListener("click", () => $("file").click());

  // ---- files ----

  const MOST_BYTES = 2 ** 28;

  /** Reads files of at most 2^28 bytes each, and takes their texts; says so if one is longer or can't be read. */
  async function takeFiles(files) {
    const list = [...files], long = list.find(file => file.size > MOST_BYTES);
    if (long) return refuse(`${long.name} is too long for this page.`, long.name);
    try {
      take(await Promise.all(list.map(async file => ({ name: file.name, text: await file.text() }))));
    } catch (fault) {
      if (!(fault instanceof DOMException)) throw fault;
      refuse("A file can't be read. Is it a folder?", "");
    }
  }

  $("file").addEventListener("change", async event => {
    await takeFiles(event.target.files);
    event.target.value = "";
  });
  addEventListener("dragover", event => { event.preventDefault(); document.body.classList.add("drag"); });
  addEventListener("dragleave", event => { if (!event.relatedTarget) document.body.classList.remove("drag"); });
  addEventListener("drop", event => {
    event.preventDefault();
    document.body.classList.remove("drag");
    takeFiles(event.dataTransfer.files);
  });

  /** What `scripts/picture` put into the page. */
  function takeOwn() {
    const own = [...document.querySelectorAll("textarea.text")].map(area => ({ name: area.dataset.name, text: area.value }));
    if (own.length) take(own);
  }

  markButtons();
  tellState("empty");
  takeOwn();

  return { take, clear, showIn, takeFrames };
})();
