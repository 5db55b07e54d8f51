"use strict";
// The time line: a lane for each path with its moves and waits, and the meetings across both. All its times are guesses.

const TimeLine = (() => {
  const { INK } = Colours;
  const LEFT = 92, RIGHT = 12, HEAD = 40, HIGH = 44, LANES = { 1: HEAD, 2: 104 };
  const FOOT = LANES[2] + HIGH;
  const BAR = { rapid: "rapidBar", dwell: "dwell", point: "point" };        // the ink of a bar that does not cut
  const sheet = new Sheet("times");
  let shown = { from: 0, to: 1 };
  let waitPattern = null, patternMode = "";

  const xOf = time => LEFT + (time - shown.from) / (shown.to - shown.from) * (sheet.width - LEFT - RIGHT);
  const timeOf = x => shown.from + (x - LEFT) / (sheet.width - LEFT - RIGHT) * (shown.to - shown.from);
  const within = time => Math.max(0, Math.min(Look.trace.total, time));

  // ---- what part of the time is shown ----

  /** Shows the whole time. */
  function fit() { show(0, Look.trace.total); }

  /** Shows a span of time, in seconds, moved into the trace. One under 0.001 s or a hundred-thousandth of it is not taken. */
  function show(from, to) {
    const total = Look.trace.total, least = Math.max(1e-3, total / 1e5);
    if (to - from < least) return;
    const width = Math.min(to - from, total), begin = Math.max(0, Math.min(from, total - width));
    shown = { from: begin, to: begin + width };
    Look.ask("times", "over");
  }

  /** Moves the time that is shown by so many points of the page. */
  function drag(dx) {
    const by = timeOf(0) - timeOf(dx);
    show(shown.from + by, shown.to + by);
  }

  /** Comes nearer by a factor; the time under x stays where it is. */
  function zoom(by, x = xOf(Look.time)) {
    const time = timeOf(Math.max(LEFT, Math.min(sheet.width - RIGHT, x)));
    show(Math.max(0, time - (time - shown.from) / by), Math.min(Look.trace.total, time + (shown.to - time) / by));
  }

  /** Goes on so that a time is in sight. */
  function follow(time) {
    if (time >= shown.from && time <= shown.to) return;
    const width = shown.to - shown.from;
    show(time - width * 0.1, time + width * 0.9);
  }

  /** Shows a stretch, with as much before and after it, if it is out of sight. */
  function seek([from, to]) {
    if (to < shown.from || from > shown.to) show(Math.max(0, 2 * from - to), Math.min(Look.trace.total, 2 * to - from) + 1e-3);
  }

  // ---- the picture ----

  /** Draws both lanes and their names, the meetings, the marked stretch and the alarms. */
  function draw() {
    const pen = sheet.clean(sheet.under);
    drawTicks(pen);
    pen.save();
    pen.beginPath();
    pen.rect(LEFT, 0, sheet.width - LEFT, sheet.height);
    pen.clip();
    if (patternMode !== Colours.mode) waitPattern = hatched(pen);
    patternMode = Colours.mode;
    for (const p of PATHS) drawLane(pen, Look.trace.paths[p]);
    drawMeetings(pen);
    if (Look.stretch !== null) veilOthers(pen);
    for (const p of PATHS) drawAlarm(pen, Look.trace.paths[p]);
    pen.restore();
    for (const p of PATHS) drawName(pen, p);
  }

  /** Draws a line at each round time, in seconds, at least 90 points apart. */
  function drawTicks(pen) {
    const step = Ticks.step((shown.to - shown.from) / Math.max(2, (sheet.width - LEFT) / 90));
    pen.font = FONT.plain;
    pen.textAlign = "center";
    pen.lineWidth = 1;
    for (const time of Ticks.all(shown.from, shown.to, step)) {
      const x = Math.round(xOf(time)) + 0.5, text = Ticks.text(time, step) + " s";
      pen.strokeStyle = INK.grid;
      pen.beginPath();
      pen.moveTo(x, 22);
      pen.lineTo(x, FOOT + 24);
      pen.stroke();
      pen.fillStyle = INK.soft;
      pen.fillText(text, Math.min(x, sheet.width - pen.measureText(text).width / 2 - 4), sheet.height - 6);
    }
  }

  /** Writes before a lane which path it is, and which part of the time it waits. */
  function drawName(pen, p) {
    const share = Math.round(100 * Look.trace.waited[p] / Look.trace.total);
    pen.textAlign = "left";
    pen.fillStyle = INK.text;
    pen.font = FONT.bold;
    pen.fillText("path " + p, 10, LANES[p] + 19);
    pen.font = FONT.plain;
    pen.fillStyle = INK.soft;
    pen.fillText(`waits \u2248 ${share} %`, 10, LANES[p] + 34);
  }

  /** Draws the bars of a path. Of several under 0.7 points that begin in one point only the first is drawn, but each wait. */
  function drawLane(pen, path) {
    const { segments } = path, y = LANES[path.number];
    pen.fillStyle = INK.lane;
    pen.fillRect(LEFT, y, sheet.width - LEFT, HIGH);
    drawEnd(pen, path, y);
    let filled = -1;
    for (let at = Math.max(0, Times.lastBegun(segments, shown.from)); at < segments.length && segments[at].begin <= shown.to; at++) {
      const segment = segments[at], x = xOf(segment.begin), width = xOf(segment.end) - x;
      const isFilled = width < 0.7 && Math.floor(x) === filled && segment.kind !== "wait";
      if (segment.end <= segment.begin || isFilled) continue;
      filled = Math.floor(x);
      drawBar(pen, segment, x, Math.max(width, 0.7), y);
    }
  }

  /** Draws how a path stands idle from its end on, while the other one goes on. */
  function drawEnd(pen, path, y) {
    const begin = Look.trace.last[path.number], seconds = Look.trace.total - begin, x = xOf(begin), width = xOf(Look.trace.total) - x;
    if (!path.ended || width < 1 || Look.trace.total < shown.from || begin > shown.to) return;
    pen.fillStyle = INK.idle;
    pen.fillRect(x, y + 8, width, HIGH - 16);
    pen.font = FONT.plain;
    const text = [`has ended, idle \u2248 ${secondsText(seconds)}`, "ended"].find(some => pen.measureText(some).width + 16 < Math.min(width, sheet.width - LEFT));
    if (text) plateText(pen, text, middleOf(x, width), y + 26, "center", INK.soft);
  }

  /** Draws the bar of a segment, from x on, so wide, with its name. The bar of a rapid is narrower, that of a wait hatched. */
  function drawBar(pen, segment, x, width, y) {
    const isWait = segment.kind === "wait", low = segment.kind === "rapid" ? 13 : 0;
    pen.fillStyle = isWait ? waitPattern : INK[BAR[segment.kind]] || Colours.of(segment);
    pen.fillRect(x, y + low, width, HIGH - 2 * low);
    if (isWait) frameWait(pen, x, width, y);
    else if (width > 3) {
      pen.fillStyle = INK.edge;
      pen.fillRect(x + width - 1, y + low, 1, HIGH - 2 * low);
    }
    if (segment.kind === "thread") drawLeads(pen, x, width, y);
    if (isWait) nameWait(pen, segment, x, width, y);
    else if (segment.kind !== "rapid") nameBar(pen, segment, x, width, y);
  }

  /** Draws the rim of the bar of a wait. */
  function frameWait(pen, x, width, y) {
    pen.strokeStyle = INK.waitRim;
    pen.lineWidth = 1;
    pen.strokeRect(x + 0.5, y + 0.5, Math.max(0, width - 1), HIGH - 1);
  }

  /** Draws strokes into the bar of a thread, if it has more than 6 points. */
  function drawLeads(pen, x, width, y) {
    if (width <= 6) return;
    pen.strokeStyle = INK.edge;
    pen.lineWidth = 1;
    pen.beginPath();
    for (let at = x + 4; at < x + width - 2; at += 5) {
      pen.moveTo(at, y + 36);
      pen.lineTo(at, y + HIGH - 3);
    }
    pen.stroke();
  }

  /** The middle of what is to be seen of a bar. */
  const middleOf = (x, width) => (Math.max(x, LEFT) + Math.min(x + width, sheet.width - RIGHT)) / 2;

  /** Writes the code and the line of a wait into its bar, or the code alone, if there is room. */
  function nameWait(pen, segment, x, width, y) {
    const place = `waits at M${segment.code}, line ${segment.line}${segment.met ? "" : ", to the end"}`;
    const texts = [`${place}, \u2248 ${secondsText(segment.end - segment.begin)}`, place, `M${segment.code}`];
    pen.font = FONT.plain;
    const text = texts.find(some => pen.measureText(some).width + 16 < Math.min(width, sheet.width - LEFT));
    if (text) plateText(pen, text, middleOf(x, width), y + 26, "center", INK.red);
  }

  /** The tape's line in a bar, and the tool if there is room. */
  function nameBar(pen, segment, x, width, y) {
    const second = Reading.CUTS.has(segment.kind) ? segment.tool : segment.kind === "dwell" ? "dwell" : segment.tool;
    pen.font = FONT.plain;
    pen.fillStyle = segment.kind === "dwell" ? INK.onDwell : INK.onBar;
    pen.textAlign = "center";
    if (width < pen.measureText(String(segment.line)).width + 6) return;
    pen.fillText(String(segment.line), middleOf(x, width), y + 18);
    if (width > pen.measureText(second).width + 8) pen.fillText(second, middleOf(x, width), y + 32);
  }

  /** A line at each meeting, with a flag if there is room for one; of lines that would lie on each other only the first. */
  function drawMeetings(pen) {
    let line = -Infinity, flags = -Infinity, texts = -Infinity;
    for (const meeting of Look.trace.meetings) {
      const x = xOf(meeting.time);
      if (meeting.time < shown.from || meeting.time > shown.to) continue;
      const flag = flagOf(pen, "M" + meeting.code, x), hasFlag = flag.left > flags + 3;
      if (!hasFlag && x - line < 5) continue;
      drawMeetingLine(pen, x, hasFlag);
      line = x;
      if (!hasFlag) continue;
      drawFlag(pen, flag);
      flags = flag.left + flag.width;
      texts = drawLines(pen, `lines ${meeting.lines[1]} | ${meeting.lines[2]}`, x, texts);
    }
  }

  /** Draws a line across both lanes; one with a flag is stronger and reaches up to it. */
  function drawMeetingLine(pen, x, hasFlag) {
    pen.strokeStyle = INK.red;
    pen.lineWidth = hasFlag ? 1.8 : 1;
    pen.globalAlpha = hasFlag ? 1 : 0.55;
    pen.beginPath();
    pen.moveTo(x, hasFlag ? 22 : LANES[1]);
    pen.lineTo(x, FOOT + (hasFlag ? 5 : 0));
    pen.stroke();
    pen.globalAlpha = 1;
  }

  /** The flag of a meeting at x: its text, and its left side and width in points. */
  function flagOf(pen, text, x) {
    pen.font = FONT.bold;
    const width = pen.measureText(text).width + 12;
    return { text, width, left: Math.max(LEFT, Math.min(x - width / 2, sheet.width - width - 2)) };
  }

  /** Draws a flag over the lanes. */
  function drawFlag(pen, { text, left, width }) {
    pen.font = FONT.bold;
    pen.fillStyle = INK.red;
    pen.fillRect(left, 4, width, 18);
    pen.fillStyle = INK.paper;
    pen.textAlign = "center";
    pen.fillText(text, left + width / 2, 17);
  }

  /** The lines of a meeting under it, unless they would touch those before. It answers how far the texts go. */
  function drawLines(pen, text, x, last) {
    pen.font = FONT.plain;
    const half = pen.measureText(text).width / 2, middle = Math.max(LEFT + half + 2, Math.min(x, sheet.width - half - 4));
    if (middle - half < last + 10) return last;
    plateText(pen, text, middle, FOOT + 18, "center", INK.red, INK.paper);
    return middle + half;
  }

  /** Draws a cross where an alarm stopped a path, with its line and its words. */
  function drawAlarm(pen, path) {
    if (!path.alarm) return;
    const x = Math.max(LEFT + 8, Math.min(sheet.width - 10, xOf(path.alarm.begin))), top = LANES[path.number], y = top + HIGH / 2;
    if (path.alarm.begin < shown.from || path.alarm.begin > shown.to) return;
    pen.strokeStyle = INK.red;
    pen.lineWidth = 3;
    pen.beginPath();
    for (const [fromX, toX] of [[-7, 7], [7, -7]]) {
      pen.moveTo(x + fromX, y - 7);
      pen.lineTo(x + toX, y + 7);
    }
    pen.stroke();
    pen.font = FONT.bold;
    const text = `line ${path.alarm.line}: ${path.alarm.words}`, isLeft = x + pen.measureText(text).width < sheet.width - 8;
    plateText(pen, text, isLeft ? x - 4 : x + 6, top - 5, isLeft ? "left" : "right", INK.red, INK.paper);
  }

  /** All but the marked stretch turns pale. */
  function veilOthers(pen) {
    const [from, to] = Times.spanOf(Look.trace, Look.stretch).map(xOf), top = HEAD - 4, high = FOOT + 5 - top;
    pen.fillStyle = INK.veil;
    pen.fillRect(LEFT, top, Math.max(0, from - LEFT), high);
    pen.fillRect(to, top, Math.max(0, sheet.width - to), high);
    pen.strokeStyle = INK.blue;
    pen.lineWidth = 2;
    pen.strokeRect(from + 1, top, Math.max(2, to - from - 2), high);
  }

  /** The pattern that fills the bar of a wait. */
  function hatched(pen) {
    const tile = document.createElement("canvas"), size = 8;
    tile.width = tile.height = size;
    const brush = tile.getContext("2d");
    brush.fillStyle = INK.wait;
    brush.fillRect(0, 0, size, size);
    brush.strokeStyle = INK.waitStroke;
    brush.lineWidth = 1.4;
    brush.beginPath();
    for (const at of [-2, 2]) {
      brush.moveTo(at, size - 2 + (at + 2));
      brush.lineTo(at + size, at);
    }
    brush.stroke();
    return pen.createPattern(tile, "repeat");
  }

  // ---- what moves with the time ----

  /** Draws a frame round the segment under the hand, and a line at the present time. */
  function drawOver() {
    const pen = sheet.clean(sheet.over), { focus } = Look, x = xOf(Look.time);
    if (focus) {
      const from = Math.max(LEFT, xOf(focus.begin)), to = Math.min(sheet.width, xOf(focus.end));
      pen.strokeStyle = INK.frame;
      pen.lineWidth = 3;
      if (to >= LEFT && from <= sheet.width) pen.strokeRect(from - 1, LANES[focus.path] - 1, Math.max(3, to - from + 2), HIGH + 2);
    }
    if (x < LEFT - 1 || x > sheet.width) return;
    pen.strokeStyle = pen.fillStyle = INK.blue;
    pen.lineWidth = 2;
    pen.beginPath();
    pen.moveTo(x, 30);
    pen.lineTo(x, FOOT + 5);
    pen.stroke();
    pen.beginPath();
    for (const [dx, y] of [[-6, 25], [6, 25], [0, 34]]) pen.lineTo(x + dx, y);
    pen.fill();
  }

  // ---- what is under the hand ----

  /** The segment at a point of the page; null if that is no lane, or nothing happens there. */
  function under(x, y) {
    const p = PATHS.find(some => y >= LANES[some] - 2 && y <= LANES[some] + HIGH + 2);
    if (!p || x < LEFT) return null;
    const { segments } = Look.trace.paths[p], time = timeOf(x);
    let at = Times.lastBegun(segments, time);
    while (at > 0 && segments[at].end <= segments[at].begin) at--;
    return at >= 0 && segments[at].end >= time ? segments[at] : null;
  }

  /** Whether a point lies above the lanes, where the hand takes the time itself. */
  const isHead = y => y < HEAD - 2;
  const isName = x => x < LEFT;

  return { sheet, fit, show, drag, zoom, follow, seek, draw, drawOver, under, isHead, isName, xOf, within, LANES, HIGH,
           timeAt: x => within(timeOf(x)), get shown() { return shown; } };
})();
