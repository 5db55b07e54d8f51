"use strict";
// Mouse, pen and fingers on a canvas, and the keys. One finger or the mouse drags, two fingers come nearer, a tap chooses. The wheel alone
// moves the page, as everywhere else on it; with Ctrl it comes nearer.

const Hands = (() => {
  const REACH = { mouse: 7, pen: 10, touch: 22 };       // points of the page
  const TWICE = 350;                                   // milliseconds
  const WHEEL = "Ctrl and the wheel: nearer, farther";

  /**
   * Watches a canvas. `hands` has: under(x, y, reach), which finds a segment; drag(dx, dy, from); zoom(by, x, y);
   * tap(x, y, segment); twice(); at(x, y), which tells where the mouse is.
   */
  function watch(canvas, hands) {
    const down = new Map();
    let hasMoved = false, tapped = 0, hover = null;
    const at = event => {
      const box = canvas.getBoundingClientRect();
      return { x: event.clientX - box.left, y: event.clientY - box.top };
    };

    canvas.addEventListener("pointerdown", event => {
      if (down.size === 0) hasMoved = false;
      else hasMoved = true;
      down.set(event.pointerId, at(event));
      canvas.setPointerCapture(event.pointerId);
    });

    canvas.addEventListener("pointermove", event => {
      if (!Look.trace) return;
      if (down.has(event.pointerId)) moveDown(event);
      else if (event.pointerType !== "touch") hoverAt(event);
    });

    /** A pointer that is down and goes on: one drags, two pinch. A mouse that moves 3 points, or a finger 8, still taps. */
    function moveDown(event) {
      const from = down.get(event.pointerId), to = at(event);
      if (Math.abs(to.x - from.x) + Math.abs(to.y - from.y) > (event.pointerType === "touch" ? 8 : 3)) hasMoved = true;
      if (!hasMoved) return;
      Tables.note(null);
      if (down.size === 1) hands.drag(to.x - from.x, to.y - from.y, from);
      if (down.size === 2) pinch(event.pointerId, from, to);
      down.set(event.pointerId, to);
    }

    /** Two fingers: the point between them leads, and their distance is the size. */
    function pinch(moved, from, to) {
      const [, other] = [...down].find(([pointer]) => pointer !== moved);
      const apart = point => Math.max(10, Math.hypot(point.x - other.x, point.y - other.y));
      const middle = point => ({ x: (point.x + other.x) / 2, y: (point.y + other.y) / 2 });
      const before = middle(from), now = middle(to);
      hands.drag(now.x - before.x, now.y - before.y, before);
      hands.zoom(apart(to) / apart(from), now.x, now.y);
    }

    /** The search for what is under the mouse runs once a frame, for the last place. */
    function hoverAt(event) {
      const isAsked = hover !== null;
      hover = event;
      if (!isAsked) requestAnimationFrame(() => {
        if (hover && Look.trace) {
          const { x, y } = at(hover);
          Tables.tellPointer(canvas, hands.at(x, y));
          focus(hover, REACH.mouse);
        }
        hover = null;
      });
    }

    /** Takes what is within reach, in points, as that under the hand, and answers it. */
    function focus(event, reach) {
      const { x, y } = at(event), segment = hands.under(x, y, reach);
      if (segment !== Look.focus) { Look.focus = segment; Look.ask("over"); }
      Tables.note(segment, event.clientX, event.clientY);
      return segment;
    }

    canvas.addEventListener("pointerup", event => {
      const wasDown = down.delete(event.pointerId);
      if (!wasDown || hasMoved || !Look.trace) return;
      const { x, y } = at(event);
      if (event.timeStamp - tapped < TWICE) { tapped = 0; return hands.twice(); }
      tapped = event.timeStamp;
      hands.tap(x, y, focus(event, REACH[event.pointerType] || REACH.mouse));
    });

    canvas.addEventListener("pointercancel", event => { down.delete(event.pointerId); hasMoved = true; });
    canvas.addEventListener("pointerleave", event => {
      hover = null;
      if (event.pointerType === "touch" || !Look.trace) return;
      Look.focus = null;
      Tables.note(null);
      Tables.tellPointer(canvas, "");
      Look.ask("over");
    });
    // (two fingers on a pad come as a wheel with Ctrl)
    canvas.addEventListener("wheel", event => {
      if (!Look.trace) return;
      if (!event.ctrlKey && !event.metaKey) return Tables.tellPointer(canvas, WHEEL);
      event.preventDefault();
      const { x, y } = at(event), by = Math.max(-200, Math.min(200, event.deltaY * (event.deltaMode ? 30 : 1)));
      hands.zoom(Math.exp(-by / 400), x, y);
    }, { passive: false });
  }

  watch($("plane"), {
    under: Plane.under,
    drag: Plane.drag,
    zoom: Plane.zoom,
    tap: (x, y, segment) => {
      if (segment) Moving.goTo(segment.begin);
      Moving.choose(segment ? segment.stretch : null, false);
    },
    twice: () => Plane.fit(false),
    at: (x, y) => Tables.placeText(Camera.placeAt(x, y)),
  });

  watch($("times"), {
    under: TimeLine.under,
    drag: (dx, dy, from) => {
      if (TimeLine.isHead(from.y)) Moving.goTo(TimeLine.timeAt(from.x + dx));
      else TimeLine.drag(dx);
    },
    zoom: (by, x) => TimeLine.zoom(by, x),
    tap: (x, y) => {
      if (TimeLine.isName(x)) return Moving.choose(null, false);
      const time = TimeLine.timeAt(x);
      Moving.goTo(time);
      if (!TimeLine.isHead(y)) Moving.toggle(Times.stretchAt(Look.trace, time), false);
    },
    twice: () => TimeLine.fit(),
    at: x => (TimeLine.isName(x) ? "" : `${TimeLine.timeAt(x).toFixed(2)} s, a guess`),
  });

  // ---- the keys ----

  const NUDGE = 60, NEARER = 1.3;

  /** What a key does, whatever has the focus. */
  const KEYS = {
    " ": () => Moving.play(!Moving.isPlaying),
    ArrowRight: () => Moving.byMove(1),
    ArrowLeft: () => Moving.byMove(-1),
    PageDown: () => Moving.byStretch(1),
    PageUp: () => Moving.byStretch(-1),
    Home: () => Moving.goTo(0),
    End: () => Moving.goTo(Look.trace.total),
    "+": () => viewInFocus().zoom(NEARER),
    "=": () => viewInFocus().zoom(NEARER),
    "-": () => viewInFocus().zoom(1 / NEARER),
    0: () => viewInFocus().fit(false),
    Escape: () => { Look.focus = null; Tables.note(null); Moving.choose(null, false); },
    "?": () => $("help").showModal(),
  };

  /** With Shift the arrows move the picture, or the part of the time that is shown. */
  const SHIFTED = {
    ArrowRight: () => viewInFocus().drag(-NUDGE, 0),
    ArrowLeft: () => viewInFocus().drag(NUDGE, 0),
    ArrowUp: () => viewInFocus().drag(0, NUDGE),
    ArrowDown: () => viewInFocus().drag(0, -NUDGE),
  };

  const viewInFocus = () => (document.activeElement === $("times") ? TimeLine : Plane);

  addEventListener("keydown", event => {
    const { target, key } = event;
    if (!Look.trace || $("help").open || event.ctrlKey || event.altKey || event.metaKey) return;
    const does = lineKey(target, key) || rowKey(target, key) || (event.shiftKey && SHIFTED[key]) || (isFree(target, key) && KEYS[key]);
    if (!does) return;
    event.preventDefault();
    does();
  });

  /** Whether a key is not needed by what has the focus: a field takes all, a button its own two, a tape those that scroll. */
  function isFree(target, key) {
    if (target.matches("input:not([type=range]), select")) return false;
    if (target.matches("button")) return key !== " " && key !== "Enter";
    if (target.matches(".tape-scroll")) return !["PageUp", "PageDown", "Home", "End"].includes(key);
    return true;
  }

  /** In a tape the arrows go from line to line, of those that its path comes to. */
  function lineKey(target, key) {
    const way = { ArrowDown: 1, ArrowUp: -1 }[key], panel = PATHS.find(p => target === $(`tape-${p}`));
    return way && panel && (() => Moving.byLine(panel, way));
  }

  /** In the table of meetings the arrows go from row to row, and Enter marks the stretch. */
  function rowKey(target, key) {
    const row = target.closest?.("tr[data-stretch]"), way = { ArrowDown: "nextElementSibling", ArrowUp: "previousElementSibling" }[key];
    if (!row) return null;
    if (key === "Enter" || key === " ") return () => Moving.toggle(Number(row.dataset.stretch), true);
    return way && (() => row[way]?.dataset.stretch !== undefined && row[way].focus());
  }

  /** After a click of the mouse a button does not keep the focus, so that the space bar plays and does not press it again. */
  addEventListener("click", event => { if (event.detail > 0) event.target.closest?.("button")?.blur(); });

  return { watch };
})();
