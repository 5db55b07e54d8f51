"use strict";
// Reads the text of `twin_lathe trace`. Nothing here knows of times, of colours or of the page.

const Reading = (() => {
  /** The kinds of segments that cut. The others: rapid, dwell, wait, and point, which takes no time and goes nowhere. */
  const CUTS = new Set(["feed", "thread", "arc"]);
  const MOTIONS = new Set(["rapid", ...CUTS]);

  /** A text that is no trace, with the line of the text that says so, from 1. */
  class BadTrace extends Error {
    constructor(number, why) {
      super(why);
      this.number = number;
    }
  }

  const noLine = (number, text) =>
    new BadTrace(number, `Line ${number} of the text is no line of a trace: ${JSON.stringify(text.slice(0, 80))}`);

  const LENGTH = String.raw`(-?\d{1,8}\.\d{3})`, NUMBER = String.raw`(\d+(?:\.\d+)?)`;
  const POINT = new RegExp(`^(at|home|shift) X${LENGTH} Z${LENGTH}$`);
  /** The motions by their first word, which a line of the text tells at once. */
  const MOTION = new Map([
    ["rapid", new RegExp(`^rapid X${LENGTH} Z${LENGTH}$`)],
    ["feed", new RegExp(`^feed X${LENGTH} Z${LENGTH} F${NUMBER} (rev|min)$`)],
    ["thread", new RegExp(`^thread X${LENGTH} Z${LENGTH} F${NUMBER}$`)],
    ["cw", new RegExp(`^cw X${LENGTH} Z${LENGTH} (?:I${LENGTH} K${LENGTH}|R${LENGTH}) F${NUMBER} (rev|min)$`)],
    ["ccw", new RegExp(`^ccw X${LENGTH} Z${LENGTH} (?:I${LENGTH} K${LENGTH}|R${LENGTH}) F${NUMBER} (rev|min)$`)],
  ]);
  const SPEED = /^speed (G9[67]) S(\d+)$/;
  const WAY = /^spindle (G9[67])$/;
  const LIMIT = /^limit S(\d+)$/;
  const TOOL = /^tool T(\d{4})$/;
  const CODE = /^aux M\d{2,4}$/;
  const DWELL = /^dwell (\d+)$/;
  const WAIT = /^wait M(\d{2,4})$/;
  const ALARM = /^alarm \d+ \w+(?: -?\d+(?:\.\d+)?)?$/;
  const MET = /^met (\d+) M(\d{2,4}) path 1 line (\d+) path 2 line (\d+)$/;
  const RACE = /^#(\d{1,8}) after (\d{1,7}) path ([12]) line (\d{1,7}) path ([12]) line (\d{1,7})$/;

  /**
   * The trace: the segments of each path, the meetings between them, the number of records, why the run ended, and the races of the pair.
   * Lengths are in mm, X is a diameter, and both are the machine's; work coordinates are those less the shift.
   */
  function readTrace(text) {
    const lines = linesOf(text);
    readHead(lines[0]);
    const trace = { paths: { 1: newPath(1), 2: newPath(2) }, meetings: [], records: null, end: null, races: [], racesDue: null };
    for (let at = 1; at < lines.length; at++) readLine(trace, lines[at], at + 1);
    if (trace.end === null)
      throw new BadTrace(lines.length, "The text breaks off: it does not say how the run ended.");
    if (trace.races.length !== trace.racesDue)
      throw new BadTrace(lines.length, "The text breaks off: it does not have all races of the pair.");
    return trace;
  }

  /** The lines of a text. Each ends with a line feed, or a return and a line feed; the last one may lack it. */
  function linesOf(text) {
    const lines = text.replace(/\r\n/g, "\n").split("\n");
    if (lines[lines.length - 1] === "") lines.pop();
    return lines;
  }

  /** Refuses a text whose first line is not that of a trace, and says what the text seems to be. */
  function readHead(line = "") {
    if (line === "trace 2") return;
    if (/^trace \d+$/.test(line))
      throw new BadTrace(1, `This page reads the form "trace 2", and the text says "${line}". Make the text anew, by the twin_lathe of this page.`);
    if (/^path 1 moves \d+$/.test(line))
      throw new BadTrace(1, "This is the report of run or moves. It has no waits and no start points: use the text of trace.");
    if (/^(refused \d+|no file|too long|usage$|shelf fault$)/.test(line))
      throw new BadTrace(1, "There is no run to draw. The program said: " + line.slice(0, 200));
    throw noLine(1, line);
  }

  /** A path of which nothing was read: it stands at X0 Z0 and has no shift, no tool and no end. */
  function newPath(number) {
    return { number, segments: [], start: null, home: null, firstShift: { x: 0, z: 0 }, x: 0, z: 0, shiftX: 0, shiftZ: 0, tool: "",
             open: null, ended: null, alarm: null, moves: 0 };
  }

  /** Takes a line of the text into the trace: an event, a meeting, the count of records, the end, or a race. */
  function readLine(trace, line, number) {
    const path = line[1] === " " ? trace.paths[line[0]] : undefined;
    if (trace.end !== null) readRaces(trace, line, number);
    else if (path && trace.records === null) readEvent(trace, path, line, number);
    else if (line.startsWith("met ")) readMeeting(trace, line, number);
    else if (/^records \d+$/.test(line)) trace.records = +line.slice(8);
    else if (/^end (done|stopped|full|alarm .+)$/.test(line) && trace.records !== null) trace.end = line.slice(4);
    else throw noLine(number, line);
  }

  /** One event of a path. A path that waits or has ended does nothing. */
  function readEvent(trace, path, text, number) {
    const gap = text.indexOf(" ", 2), line = text.slice(2, gap), words = text.slice(gap + 1), stretch = trace.meetings.length;
    const isOver = gap < 0 || !/^\d{1,7}$/.test(line) || path.open || path.ended || path.alarm;
    if (isOver || !(readMotion(path, +line, words, stretch) || readPoint(path, +line, words)
                    || readSetting(path, +line, words, stretch) || readStop(path, +line, words, stretch)))
      throw noLine(number, text);
  }

  /** The start, the reference position or a shift of a path. The shifts of line 0 hold before its first block. */
  function readPoint(path, line, words) {
    const found = POINT.exec(words);
    if (!found) return false;
    const x = +found[2], z = +found[3];
    if (found[1] === "shift") Object.assign(path, { shiftX: x, shiftZ: z }, line === 0 ? { firstShift: { x, z } } : {});
    else if (found[1] === "home") path.home = { x, z };
    else Object.assign(path, { start: { x, z }, x, z });
    return true;
  }

  /** What a path does by a line of the text, from where it stands. Its times come later. */
  class Segment {
    constructor(path, kind, line, words, stretch) {
      this.kind = kind;
      this.path = path.number;
      this.line = line;
      this.words = words;
      this.stretch = stretch;
      this.tool = path.tool;
      this.x0 = this.x1 = path.x;
      this.z0 = this.z1 = path.z;
      this.shiftX = path.shiftX;
      this.shiftZ = path.shiftZ;
      this.feed = NaN;
      this.unit = "";
      this.arc = this.setting = this.met = null;
      this.code = "";
      this.begin = this.end = NaN;
    }
  }

  /** Adds a segment to a path, from where the path stands to there. */
  function addSegment(path, kind, line, words, stretch) {
    const segment = new Segment(path, kind, line, words, stretch);
    path.segments.push(segment);
    return segment;
  }

  /** A move, after which the path stands at its end. It answers whether the words are one. */
  function readMotion(path, line, words, stretch) {
    const word = words.slice(0, words.indexOf(" ")), found = MOTION.get(word)?.exec(words);
    if (!found) return false;
    const isArc = word === "cw" || word === "ccw", segment = addSegment(path, isArc ? "arc" : word, line, words, stretch);
    segment.x1 = path.x = +found[1];
    segment.z1 = path.z = +found[2];
    const [feed, unit] = isArc ? [found[6], found[7]] : [found[3], found[4]];
    if (feed) segment.feed = +feed;
    if (unit) segment.unit = unit;
    if (isArc) segment.arc = arcOf(segment, word === "cw", found);
    path.moves++;
    return true;
  }

  /** The arc of a move, by its radius if the words have one, else by its centre. */
  function arcOf(segment, isClockwise, [, , , i, k, radius]) {
    return i === undefined ? Shapes.arcByRadius(segment, isClockwise, +radius) : Shapes.arcByCentre(segment, isClockwise, +i, +k);
  }

  /** A dwell, a tool, a speed, or another thing that stands in the moves and goes nowhere; `spindle` is no move. */
  function readSetting(path, line, words, stretch) {
    const add = (setting, kind = "point") => { addSegment(path, kind, line, words, stretch).setting = setting; path.moves++; };
    let found;
    if ((found = DWELL.exec(words))) add({ milliseconds: +found[1] }, "dwell");
    else if ((found = SPEED.exec(words))) add({ way: found[1], speed: +found[2] });
    else if ((found = LIMIT.exec(words))) add({ limit: +found[1] });
    else if ((found = TOOL.exec(words))) { path.tool = "T" + found[1]; add({ station: found[1].slice(0, 2) }); }
    else if (CODE.test(words)) add(null);
    else if ((found = WAY.exec(words))) addSegment(path, "point", line, words, stretch).setting = { way: found[1] };
    else return false;
    return true;
  }

  /** What a path stops at: a wait, its end, an alarm. */
  function readStop(path, line, words, stretch) {
    const wait = WAIT.exec(words);
    if (!wait && words !== "end" && !ALARM.test(words)) return false;
    const segment = addSegment(path, wait ? "wait" : "point", line, words, stretch);
    if (wait) { segment.code = wait[1]; path.open = segment; }
    else if (words === "end") path.ended = segment;
    else path.alarm = segment;
    return true;
  }

  /** A meeting: both paths wait there, at this code and these lines. */
  function readMeeting(trace, line, number) {
    const found = MET.exec(line), count = trace.meetings.length + 1;
    const waits = { 1: trace.paths[1].open, 2: trace.paths[2].open };
    const isMet = found && +found[1] === count && [1, 2].every(
      p => waits[p] && waits[p].code === found[2] && waits[p].line === +found[p + 2]);
    if (!isMet || trace.records !== null) throw noLine(number, line);
    const last = p => trace.paths[p].segments.length - 1;
    const meeting = { number: count, code: found[2], lines: { 1: +found[3], 2: +found[4] }, waits,
                      last: { 1: last(1), 2: last(2) }, time: 0 };
    for (const p of [1, 2]) { waits[p].met = meeting; trace.paths[p].open = null; }
    trace.meetings.push(meeting);
  }

  /** What stands behind the end: how many races the pair has, and then a line for each. */
  function readRaces(trace, line, number) {
    if (trace.racesDue === null && /^races \d{1,4}$/.test(line)) trace.racesDue = +line.slice(6);
    else if (!(trace.races.length < trace.racesDue && readRace(trace.races, line))) throw noLine(number, line);
  }

  /** A race: behind so many meetings its writer may write the variable, while the other path has it. Each variable comes once, in order. */
  function readRace(races, line) {
    const found = RACE.exec(line), last = races.length ? races[races.length - 1].variable : 0;
    if (!found || found[3] === found[5] || +found[1] <= last) return false;
    races.push({ variable: +found[1], after: +found[2], writer: +found[3], lines: { [found[3]]: +found[4], [found[5]]: +found[6] } });
    return true;
  }

  return { readTrace, BadTrace, CUTS, MOTIONS };
})();
