"use strict";
// Goes through the time: playing, from move to move, from line to line of a tape, from meeting to meeting.

const Moving = (() => {
  let isPlaying = false, before = 0;

  /** Goes to a time, in seconds, and brings it into sight. A time outside the trace is its start or end. */
  function goTo(time) {
    Look.time = TimeLine.within(time);
    TimeLine.follow(Look.time);
    Look.ask("over");
  }

  // ---- playing ----

  /** Plays on from the present time, at the end from the start again; or stops. */
  function play(isOn) {
    if (isOn === isPlaying) return;
    isPlaying = isOn;
    $("play").textContent = isOn ? "\u2759\u2759" : "\u25b6";
    $("play").setAttribute("aria-label", isOn ? "pause" : "play");
    if (!isOn) return;
    if (Look.time >= endOfPlay()) Look.time = Look.stretch === null ? 0 : Times.spanOf(Look.trace, Look.stretch)[0];
    before = performance.now();
    requestAnimationFrame(step);
  }

  const endOfPlay = () => (Look.stretch === null ? Look.trace.total : Times.spanOf(Look.trace, Look.stretch)[1]);

  /** A frame of playing: the time goes on by the seconds since the frame before, times the chosen speed. */
  function step(now) {
    if (!isPlaying) return;
    const end = endOfPlay();
    goTo(Math.min(end, Look.time + Math.max(0, now - before) / 1000 * Number($("speed").value)));
    before = now;
    if (Look.time >= end) play(false);
    else requestAnimationFrame(step);
  }

  // ---- steps ----

  /** To the next begin of a move of either path, or to the one before. */
  function byMove(way) {
    let best = way > 0 ? Look.trace.total : 0;
    for (const p of PATHS) {
      const { segments } = Look.trace.paths[p];
      if (way > 0) {
        const next = segments[Times.lastBegun(segments, Look.time + 1e-9) + 1];
        if (next) best = Math.min(best, next.begin);
      } else {
        const last = segments[Times.lastBegun(segments, Look.time - 1e-9)];
        if (last) best = Math.max(best, last.begin);
      }
    }
    Look.focus = null;
    goTo(best);
    say(PATHS.map(p => wordsAt(p, best)).join("; "));
  }

  /** What a path does at a time, with the line of its tape. */
  function wordsAt(p, time) {
    const { segments } = Look.trace.paths[p], segment = segments[Times.lastBegun(segments, time)];
    return segment ? `path ${p} line ${segment.line}: ${segment.words}` : `path ${p} does nothing yet`;
  }

  /** To the next stretch, or to the one before, which is marked. */
  function byStretch(way) {
    const now = Look.stretch ?? Times.stretchAt(Look.trace, Look.time);
    const stretch = Look.stretch === null ? now : Math.max(0, Math.min(Look.trace.meetings.length, now + way));
    choose(stretch, true);
    say(`${$("stretch-name").textContent}, ${$("stretch-number").textContent}`);
  }

  /** To what the path does next at a line of its tape, or else to what it did there first. */
  function toLine(p, line) {
    const there = Look.trace.paths[p].segments.filter(segment => segment.line === line);
    const next = there.find(segment => segment.begin > Look.time + 1e-9) || there[0];
    if (next) focusOn(next);
  }

  /** To another line of a path: that of its next move, or of the one before. */
  function byLine(p, way) {
    const { segments } = Look.trace.paths[p];
    const isHere = Look.focus && Look.focus.path === p;
    const from = isHere ? segments.indexOf(Look.focus) : Math.max(0, Times.lastBegun(segments, Look.time));
    let at = from;
    while (segments[at + way] && segments[at].line === segments[from].line) at += way;
    if (segments[at]) focusOn(segments[at]);
  }

  /** Goes to the begin of a segment, takes it as that under the hand, and says it. */
  function focusOn(segment) {
    Look.focus = segment;
    goTo(segment.begin);
    say(`path ${segment.path} line ${segment.line}: ${segment.words}`);
  }

  /** Marks a race with the stretch behind so many meetings, if this run came there; or none. */
  function chooseRace(race) {
    choose(race && race.after <= Look.trace.meetings.length ? race.after : null, true, race);
  }

  /** Marks a stretch, or none; `isSought` brings it into sight. A race stays marked only with its own. */
  function choose(stretch, isSought, race = null) {
    Object.assign(Look, { stretch, race, hit: null });
    if (stretch !== null && isSought) {
      const span = Times.spanOf(Look.trace, stretch);
      if (Look.time < span[0] || Look.time >= span[1]) Look.time = span[0];
      TimeLine.seek(span);
    }
    Tables.markMeeting();
    Races.mark();
    Tables.tellNow();
    Look.ask("plane", "times", "over");
  }

  /** Marks a stretch; if it is marked already, none. */
  function toggle(stretch, isSought) { choose(Look.stretch === stretch ? null : stretch, isSought); }

  /** Said to who hears the page. */
  function say(text) { $("said").textContent = text; }

  return { goTo, play, byMove, byStretch, byLine, toLine, choose, chooseRace, toggle, get isPlaying() { return isPlaying; } };
})();
