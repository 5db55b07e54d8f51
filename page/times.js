"use strict";
// Puts a guessed time on each segment of a trace. The control knows no accelerations, and the page no machine: all of this is a guess.

const Times = (() => {
  /** Speeds that stand in when the tape has none, in revolutions a minute. */
  const NO_SPEED = 1000, NO_LIMIT = 5000;
  const STEPS = 12;
  const LEAST_IDLE = 0.05;              // seconds

  /**
   * Times a trace, in seconds from its start. Rates: `rapid` in mm/min, `change` in seconds for each new tool station, `spindle` for another
   * speed of the spindle that the tape says. A meeting is when the later path is there, and the earlier one waits until then. `unknown` counts the cuts that had no spindle speed.
   */
  function timeTrace(trace, rates) {
    const clocks = { 1: newClock(), 2: newClock() };
    let unknown = 0;
    const run = (p, until) => {
      const { segments } = trace.paths[p], clock = clocks[p];
      for (; clock.next < until; clock.next++) unknown += timeSegment(segments[clock.next], clock, rates);
    };
    for (const meeting of trace.meetings) {
      for (const p of [1, 2]) run(p, meeting.last[p] + 1);
      meeting.time = Math.max(clocks[1].time, clocks[2].time);
      for (const p of [1, 2]) meeting.waits[p].end = clocks[p].time = meeting.time;
    }
    for (const p of [1, 2]) run(p, trace.paths[p].segments.length);
    const total = Math.max(clocks[1].time, clocks[2].time, 1e-3);
    for (const p of [1, 2]) if (trace.paths[p].open) trace.paths[p].open.end = total;
    const waited = { 1: waitedBy(trace, 1), 2: waitedBy(trace, 2) };
    return Object.assign(trace, { total, unknown, waited, last: { 1: clocks[1].time, 2: clocks[2].time } });
  }

  /** The clock of a path at its start: no time has gone, and no speed, limit or tool was said. */
  function newClock() {
    return { time: 0, next: 0, way: "G97", surface: 0, speed: 0, limit: NO_LIMIT, station: "00" };
  }

  /** The seconds that a path waits, with the wait that the run ends in. */
  function waitedBy(trace, p) {
    const { open } = trace.paths[p];
    return trace.meetings.reduce((sum, { waits }) => sum + waits[p].end - waits[p].begin, open ? open.end - open.begin : 0);
  }

  /** Times one segment on its path's clock. It answers 1 if a speed was missing. */
  function timeSegment(segment, clock, rates) {
    const isUnknown = lacksSpeed(segment, clock);
    segment.begin = clock.time;
    clock.time += secondsOf(segment, clock, rates);
    segment.end = clock.time;
    return isUnknown ? 1 : 0;
  }

  const isPerRevolution = segment => Reading.CUTS.has(segment.kind) && segment.unit !== "min";

  /** Whether a cut is fed by the revolution while no speed is known. */
  function lacksSpeed(segment, clock) {
    return isPerRevolution(segment) && !(clock.way === "G96" ? clock.surface > 0 : clock.speed > 0);
  }

  /** The seconds that a segment takes; what it sets is set on the clock. */
  function secondsOf(segment, clock, rates) {
    if (segment.setting) return takeSetting(segment.setting, clock, rates);
    if (segment.kind === "rapid") return 60 * Shapes.lengthOf(segment) / rates.rapid;
    if (!Reading.CUTS.has(segment.kind) || !(segment.feed > 0)) return 0;
    if (segment.unit === "min") return 60 * Shapes.lengthOf(segment) / segment.feed;
    const length = segment.kind === "thread" ? threadLength(segment) : Shapes.lengthOf(segment);
    if (lacksSpeed(segment, clock)) return 60 * length / (segment.feed * NO_SPEED);
    if (clock.way === "G96") return secondsByDiameter(segment, length, clock);
    return 60 * length / (segment.feed * clock.speed);
  }

  /** A lead counts along the longer axis. */
  function threadLength(segment) {
    return Math.max(Math.abs(segment.z1 - segment.z0), Math.abs(segment.x1 - segment.x0) / 2);
  }

  /** What a speed, a limit, a tool or a dwell does to a clock, and the seconds that it takes. */
  function takeSetting(setting, clock, rates) {
    if (setting.milliseconds !== undefined) return setting.milliseconds / 1000;
    if (setting.limit !== undefined) clock.limit = setting.limit || NO_LIMIT;
    const begun = clock.way === "G96" ? clock.surface : clock.speed;
    if (setting.way !== undefined) clock.way = setting.way;
    if (setting.speed !== undefined) {
      const isOther = setting.speed !== begun;
      if (setting.way === "G96") clock.surface = setting.speed;
      else clock.speed = setting.speed;
      return isOther ? rates.spindle ?? 0 : 0;
    }
    if (setting.station === undefined || setting.station === "00" || setting.station === clock.station) return 0;
    clock.station = setting.station;
    return rates.change;
  }

  /** Under G96 the spindle turns by the work diameter, up to the limit: taken in steps if that changes. */
  function secondsByDiameter(segment, length, clock) {
    const from = segment.x0 - segment.shiftX, to = segment.x1 - segment.shiftX;
    const steps = from === to ? 1 : STEPS;
    let minutes = 0;
    for (let step = 0; step < steps; step++) {
      const diameter = Math.abs(from + (to - from) * (step + 0.5) / steps);
      clock.speed = Math.max(1, Math.min(clock.limit, clock.surface * 1000 / (Math.PI * Math.max(diameter, 0.1))));
      minutes += length / steps / (segment.feed * clock.speed);
    }
    return 60 * minutes;
  }

  /** The place of the last segment of a list that has begun at a time; -1 if none has. */
  function lastBegun(segments, time) {
    return countUntil(segments, segment => segment.begin <= time) - 1;
  }

  /** What a path does at a time: a segment, its part that is gone, and whether it has begun; nothing if the path has no segment. */
  function standing({ segments }, time) {
    const at = lastBegun(segments, time), segment = segments[Math.max(0, at)];
    return segment && { segment, part: at < 0 ? 0 : partAt(segment, time), isBegun: at >= 0 };
  }

  /** The stretch of a time: how many meetings were until then. */
  function stretchAt(trace, time) {
    return countUntil(trace.meetings, meeting => meeting.time <= time);
  }

  /** How many of a list are so, if those that are come first. */
  function countUntil(list, isSo) {
    let low = 0, high = list.length;
    while (low < high) {
      const middle = (low + high) >> 1;
      if (isSo(list[middle])) low = middle + 1;
      else high = middle;
    }
    return low;
  }

  /** From when to when a stretch goes. */
  function spanOf(trace, stretch) {
    const { meetings } = trace;
    return [stretch === 0 ? 0 : meetings[stretch - 1].time, stretch === meetings.length ? trace.total : meetings[stretch].time];
  }

  /** The segments of a path in a stretch. */
  function segmentsIn(trace, p, stretch) {
    const { meetings } = trace, { segments } = trace.paths[p];
    return segments.slice(stretch === 0 ? 0 : meetings[stretch - 1].last[p] + 1,
                          stretch === meetings.length ? segments.length : meetings[stretch].last[p] + 1);
  }

  /** Where a path stands idle: at each wait, and from its end until the other path's. None that is too short to be told counts. */
  function idleOf(trace, p) {
    const { segments, ended } = trace.paths[p], idle = segments.filter(segment => segment.kind === "wait");
    const spans = idle.map(segment => ({ path: p, segment, begin: segment.begin, end: segment.end }));
    if (ended) spans.push({ path: p, segment: ended, begin: trace.last[p], end: trace.total });
    return spans.filter(({ begin, end }) => end - begin >= LEAST_IDLE);
  }

  /** The part of a segment's way, from 0 to 1, that is gone at a time. */
  function partAt(segment, time) {
    if (segment.end <= segment.begin) return 1;
    return Math.min(1, Math.max(0, (time - segment.begin) / (segment.end - segment.begin)));
  }

  return { timeTrace, lastBegun, standing, stretchAt, spanOf, segmentsIn, idleOf, partAt, NO_SPEED, NO_LIMIT };
})();
