"use strict";
// What one looks at: a trace, a time of it, a stretch, a segment. Whoever changes it asks for what is to be drawn anew.

const Look = (() => {
  const look = {
    trace: null,
    name: "",
    coordinates: "work",
    shown: { 1: true, 2: true, rapid: true },
    time: 0,
    stretch: null,      // the stretch that is marked, if one is
    race: null,         // the race that is marked, if one is
    hit: null,          // the moves that come too near, if such a finding is marked
    contours: [],       // what a tape says between G41 or G42 and G40, where what is drawn is the path of the nose: segments
    frames: null,       // how each path lies in the cell, if a text of zones says it: then there are coordinates of the cell
    layers: { under: [], over: [] },    // what else draws on the plane: under the tools, and with the moves
    focus: null,        // the segment under the hand
    ask,
    drawAsked,
    onFrame: null,      // draws the parts that are named
  };

  const asked = new Set();
  let frame = 0;

  /** Asks that at the next frame of the screen these be drawn: plane, times, over (what moves with the time). */
  function ask(...parts) {
    for (const part of parts) asked.add(part);
    if (!frame) frame = requestAnimationFrame(drawAsked);
  }

  /** Draws what was asked for, at once. */
  function drawAsked() {
    cancelAnimationFrame(frame);
    frame = 0;
    const parts = new Set(asked);
    asked.clear();
    if (look.trace) look.onFrame(parts);
  }

  return look;
})();

/** The element of the page with a name. */
const $ = name => document.getElementById(name);

/** A new element: what it is, its class, and its text or its parts. Nothing ever comes into the page as HTML. */
function element(tag, className, ...parts) {
  const made = document.createElement(tag);
  if (className) made.className = className;
  made.append(...parts.map(part => (part instanceof Node ? part : String(part))));
  return made;
}

/** A number of seconds as a person says it. */
function secondsText(seconds) {
  if (seconds >= 36000) return `${Math.floor(seconds / 3600)} h ${Math.floor(seconds / 60 % 60)} min`;
  if (seconds >= 600) return `${Math.floor(seconds / 60)} min ${Math.floor(seconds % 60)} s`;
  if (seconds >= 100) return `${Math.round(seconds)} s`;
  return `${seconds.toFixed(seconds < 1 && seconds > 0 ? 2 : 1)} s`;
}

/** The tool of a segment, as it is shown. */
const toolText = segment => segment.tool || "no tool";

/** The two paths' numbers. */
const PATHS = [1, 2];
