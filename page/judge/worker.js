"use strict";
// The judge: the calls of include/lathe.h over the library's module, in workers, so that the page stays alive while they run and the calls
// run beside each other. Each call has an instance of its own, with a memory of its own: one that breaks off leaves nothing behind.

const TEXT_ROOM = 1 << 16, LIST_ROOM = 1 << 22, TRACE_ROOM = 1 << 24;      // bytes for an answer; a longer one is asked for again with its whole length
const MOST_RECORDS = 50000;                           // a picture ends there
const REFUSED = 1, NO_MEMORY = 12;                    // the statuses of texts that are refused, and of a call that could get no memory
const SHORT = 1 << 17;                                // bytes of both tapes together: a run of these takes no time that is felt
const MOST_TURNS = 8 * MOST_RECORDS, EVENT_BYTES = 64, MET = 12;                 // of lathe_events: the turns that are asked for, an event

let module = null, newest = null;
let called = [];                                      // the exports that were called since something was answered last, for tests

/** The browser gives no memory for a call. */
class NoMemory extends Error {}

/** A new instance of the module, with a memory of its own. */
function newInstance() {
  try {
    return new WebAssembly.Instance(module, {}).exports;
  } catch (fault) {
    throw fault instanceof RangeError ? new NoMemory() : fault;
  }
}

/** Calls an export with texts, and gives its status, its bytes and how many items they are: bytes, or events of so many bytes each. */
function callRaw(name, texts, more, firstRoom, itemBytes = 1) {
  const lathe = newInstance();
  const roomFor = size => {
    const at = lathe.room(BigInt(size));
    if (at === 0n) throw new NoMemory();
    return at;
  };
  const given = texts.flatMap(bytes => {
    const at = roomFor(bytes.length);
    new Uint8Array(lathe.memory.buffer, Number(at), bytes.length).set(bytes);
    return [at, BigInt(bytes.length)];
  });
  const length = roomFor(8);
  const say = size => {
    called.push(name);
    const at = roomFor(size * itemBytes), status = lathe[name](...given, ...more, at, BigInt(size), length) & 255;
    return { status, at: Number(at), size: Number(new DataView(lathe.memory.buffer).getBigUint64(Number(length), true)) };
  };
  let said = say(firstRoom);
  if (said.size > firstRoom) said = say(said.size);
  return { status: said.status, bytes: new Uint8Array(lathe.memory.buffer, said.at, said.size * itemBytes) };
}

/** Calls an export with texts, and gives its status and its text. */
function call(name, texts, more, firstRoom) {
  const { status, bytes } = callRaw(name, texts, more, firstRoom);
  return { kind: status === NO_MEMORY ? "no memory" : "said", status, text: new TextDecoder().decode(bytes) };
}

/** What a call gives; a call that breaks off, by a trap or at the end of its stack, says why. */
function guarded(made) {
  try {
    return made();
  } catch (fault) {
    if (fault instanceof NoMemory) return { kind: "no memory", status: NO_MEMORY, text: "" };
    return { kind: "broken off", status: -1, text: String(fault) };
  }
}

const answer = (...words) => guarded(() => call(...words));

// ---- what was asked before ----

let keptTexts = [], kept = [];                        // the texts of the newest question, and what was made of them

/** Whether two texts have the same bytes. */
function isSame(one, two) {
  let at = 0;
  while (at < one.length && one[at] === two[at]) at += 1;
  return at === one.length && at === two.length;
}

const areSame = (ones, others) => ones.length === others.length && ones.every((one, k) => isSame(one, others[k]));

/** Forgets what was made of other texts than these. */
function keepOf(texts) {
  if (!areSame(texts, keptTexts)) kept = [];
  keptTexts = texts;
}

/** What is made under a name, of texts and more: what was made of the same before, if a module answered; else what is made now. */
function once(name, texts, more, make) {
  const key = `${name} ${more}`, before = kept.find(some => some.key === key && areSame(some.texts, texts));
  if (before) return before.answer;
  const made = make();
  if (made.kind === "said") kept.push({ key, texts, answer: made });
  return made;
}

/** The answer of an export, once for the same texts. */
const keptAnswer = (name, texts, more, room) => once(name, texts, more, () => answer(name, texts, more, room));

/** Lets a newer question come in. */
const pause = () => new Promise(done => setTimeout(done));

// ---- further refusals ----

const MOST_FURTHER = 8;                               // of each text
const MOST_TIME = 2000;                               // milliseconds for all of them
const NO_TAPE = new TextEncoder().encode("%\nO1\nM30\n%\n");

/** The line that a refusal names, if it is one line of this text: of path 1, of path 2 or of the settings. */
function lineOf(said, of) {
  const found = /^refused \d+ \w+(?: path ([12]))? line (\d+)\n$/.exec(said.text);
  return found && (found[1] ? Number(found[1]) - 1 : 2) === of ? Number(found[2]) : 0;
}

/** A text whose line is left empty; all others keep their numbers. */
function without(bytes, line) {
  let begin = 0;
  for (let k = 1; k < line; k++) begin = bytes.indexOf(10, begin) + 1;
  const end = bytes.indexOf(10, begin), made = new Uint8Array(bytes);
  made.fill(32, begin, end < 0 ? bytes.length : end);
  return made;
}

/** What is refused of one text by itself: it is judged, and again without the line that was refused. `texts` is given what is left. */
async function refusalsOf(texts, of, asked, lines) {
  const given = texts.map((text, k) => (k === of || k === 2 ? text : NO_TAPE)), seen = new Set();
  for (let k = 0; k <= MOST_FURTHER; k++) {
    await pause();
    if (!asked.goesOn()) return false;
    const said = answer("lathe_verify", given, [], TEXT_ROOM), line = lineOf(said, of);
    if (said.kind !== "said") return false;
    if (!line || seen.has(line)) break;
    if (k === MOST_FURTHER) return false;
    seen.add(line);
    lines.push(said.text.trimEnd());
    given[of] = texts[of] = without(given[of], line);
  }
  return true;
}

/** What else is refused of the settings and of both tapes, each by itself; whether that is all; not the one that is known. */
async function furtherOf(question, known) {
  const texts = [...question.texts], until = performance.now() + MOST_TIME, lines = [];
  const asked = { goesOn: () => question === newest && performance.now() < until };
  let isWhole = await refusalsOf(texts, 2, asked, lines);
  // (under settings that are refused no tape is judged)
  if (isWhole) for (const of of [0, 1]) isWhole = await refusalsOf(texts, of, asked, lines) && isWhole;
  return { lines: lines.filter(line => line !== known.text.trimEnd()), isWhole };
}

// ---- tapes that are written out ----

/** A tape as `lathe_plain` or `lathe_expand` writes it out, with its bytes; or the line of its refusal. */
function writtenOut(name, tape, cell) {
  const texts = name === "lathe_plain" ? [tape, cell] : [tape];
  return once(name, texts, [], () => guarded(() => {
    const { status, bytes } = callRaw(name, texts, [], 2 * tape.length + TEXT_ROOM);
    if (status === NO_MEMORY) return { kind: "no memory", status, text: "" };
    return { kind: "said", status, bytes: status === 0 ? bytes.slice() : null, text: status === 0 ? "" : new TextDecoder().decode(bytes) };
  }));
}

const MOST_OF_PLAIN = 100;

/** Settings that `plain` takes, for the run of what it wrote: the lines that the run does not take, and that so are for `plain` alone, are
 * left empty. */
function settingsOfRun(cell) {
  let left = cell;
  for (let k = 0; k < MOST_OF_PLAIN; k++) {
    const line = lineOf(answer("lathe_verify", [NO_TAPE, NO_TAPE, left], [], TEXT_ROOM), 2);
    if (!line) break;
    left = without(left, line);
  }
  return left;
}

/** Both tapes in the language that runs, and the run of what was written, if `plain` writes both out and changes one of them, or if the
 * settings have lines for it. */
function plainOf({ texts }, verdict) {
  const [left, right, cell] = texts, tapes = [left, right].map(tape => writtenOut("lathe_plain", tape, cell)), areWritten = tapes.every(tape => tape.bytes);
  const settings = areWritten && lineOf(verdict, 2) ? settingsOfRun(cell) : cell, isLess = settings !== cell;
  const isOther = areWritten && (isLess || tapes.some((tape, k) => !isSame(tape.bytes, texts[k])));
  return { tapes, settings, isLess, trace: isOther ? traceOf([tapes[0].bytes, tapes[1].bytes, settings]) : null };
}

// ---- the state at a meeting ----

/** How many records there are with each meeting of the run whose paths take turns. */
function recordsOfMeetings(texts) {
  const order = new Uint8Array(MOST_TURNS).map((_, k) => 1 + k % 2);
  const { bytes } = callRaw("lathe_events", [...texts, order], [], 2 * MOST_RECORDS, EVENT_BYTES);
  const view = new DataView(bytes.buffer, bytes.byteOffset, bytes.length), records = [];
  for (let at = 0; at < bytes.length; at += EVENT_BYTES) if (bytes[at + 9] === MET) records.push(view.getUint32(at, true));
  return { kind: "said", records: records.filter(count => count <= MOST_RECORDS) };
}

/** The state of the machine right after a meeting; before the first turn if it is 0. */
function stateAt({ texts, meeting }) {
  return guarded(() => {
    const records = meeting > 0 ? once("meetings", texts, [], () => recordsOfMeetings(texts)).records[meeting - 1] : 0;
    if (records === undefined) return { kind: "said", status: REFUSED, text: "" };
    return once("lathe_state", texts, [records], () => call("lathe_state", texts, [records], TEXT_ROOM));
  });
}

// ---- questions ----

const traceOf = texts => keptAnswer("lathe_trace", texts, [MOST_RECORDS], TRACE_ROOM);

/** What a trace says of the verdict: the texts are accepted, or it is the line of their refusal. */
function verdictOf(trace) {
  return trace.kind === "said" && trace.status !== REFUSED && trace.text ? { ...trace, status: 0, text: "accepted\n" } : trace;
}

/** Whether the verdict of these texts may wait for their run. */
const isShort = ([left, right]) => left.length + right.length <= SHORT;

/** Answers for the pair: one call reads both tapes, for the verdict, the run and the races. Of long tapes the verdict comes before, by a call
 * of its own. After a refusal comes what else is said. */
async function judgePair(question, say) {
  const { texts } = question, trace = isShort(texts) ? traceOf(texts) : null;
  const verdict = trace ? verdictOf(trace) : keptAnswer("lathe_verify", texts, [], TEXT_ROOM);
  say("verdict", verdict);
  if (verdict.kind !== "said") return;
  if (verdict.status === 0) return say("trace", trace ?? traceOf(texts));
  if (verdict.status !== REFUSED) return;
  say("plain", plainOf(question, verdict));
  say("further", await furtherOf(question, verdict));
}

/** What is asked for by a click. It ends no other question. */
const ASKED = {
  report: ({ texts }) => keptAnswer("lathe_run", texts, [MOST_RECORDS], TRACE_ROOM),
  written: ({ texts, name, of }) => writtenOut(name, texts[of], texts[2]),
  state: stateAt,
  zones: ({ texts, zones }) => keptAnswer("lathe_zones", [...texts, zones], [MOST_RECORDS], LIST_ROOM),
};

/** Gives a part of the answer to a question, with the exports that were called for it. */
function post(number, part, said) {
  postMessage({ number, part, answer: said, calls: called });
  called = [];
}

/** Answers a question, unless a newer one has come. */
async function judge(question) {
  newest = question;
  await pause();
  if (question !== newest) return;
  keepOf(question.texts);
  const say = (part, said) => post(question.number, part, said);
  if (question.part === "waits") say("waits", keptAnswer("lathe_waits", question.texts, question.outside, LIST_ROOM));
  else await judgePair(question, say);
}

/** Takes the module, once, and then questions. */
onmessage = ({ data }) => {
  if (data.module) module = data.module;
  else if (ASKED[data.part]) post(data.number, "asked", ASKED[data.part](data));
  else judge(data);
};
