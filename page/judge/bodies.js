"use strict";
// The bodies of the tools at the chosen moment, and the boxes that stand in the cell, as a text of zones by moves has them. A finding leads to
// its moves: the boxes that come too near are red then, and so is all that the bodies pass in these moves.

const Bodies = (() => {
  let cell = null;                      // what the text of zones says, while the core takes it

  /** Takes a text of zones that the core takes, or none. */
  function take(text) {
    const before = cell;
    cell = text === null ? null : CellText.read(text);
    Look.hit = null;
    if (!before && !cell) return;
    Page.takeFrames(cell?.frames ?? null);
    Look.ask("plane", "over");
  }

  // ---- boxes ----

  const toolOf = segment => Number(segment.tool.slice(1, 3) || 0);

  /** The box of a body while the programmed point is in an area: in machine coordinates of the path, X a diameter. */
  function grown(segment, { x0, x1, z0, z1 }) {
    const body = CellText.bodyOf(cell, segment.path, toolOf(segment));
    return { x0: x0 + body.x0, x1: x1 + body.x1, z0: z0 + body.z0, z1: z1 + body.z1 };
  }

  /** The body of the tool of a segment, at a part of its way. */
  function bodyAt(segment, part) {
    const { z, r } = Shapes.onSegment(segment, part);
    return grown(segment, { x0: 2 * r, x1: 2 * r, z0: z, z1: z });
  }

  /** What the body of a segment may pass, as the core judges it: the ends, and of an arc its whole circle. */
  function sweptOf(segment) {
    const { x0, x1, z0, z1, arc } = segment, xs = [x0, x1], zs = [z0, z1];
    if (arc) {
      const radius = / R-?(\d+\.\d+)/.exec(segment.words), middle = radius ? { z: z0, r: x0 / 2 } : arc;
      const ends = [Math.hypot(x0 / 2 - arc.r, z0 - arc.z), Math.hypot(x1 / 2 - arc.r, z1 - arc.z)];
      const reach = radius ? 2 * Number(radius[1]) : Math.max(...ends);
      xs.push(2 * (middle.r - reach), 2 * (middle.r + reach));
      zs.push(middle.z - reach, middle.z + reach);
    }
    return grown(segment, { x0: Math.min(...xs), x1: Math.max(...xs), z0: Math.min(...zs), z1: Math.max(...zs) });
  }

  const sweptInCell = segment => CellText.inCell(cell.frames[segment.path], sweptOf(segment));

  // ---- findings ----

  const FINDING = /^(\d+) hit path ([12]) (?:line (\d+)|stands)(?: path 2 (?:line (\d+)|stands)| fixed (\d+)) tool (\d+)(?: tool (\d+))?$/;

  /** What a line of the answer finds: its stretch, and of each path that is in it the line, 0 if it stands, with its tool; or a fixed box. */
  function findingOf(text) {
    const found = FINDING.exec(text);
    if (!found) return null;
    const [stretch, path, line, other, fixed, tool, otherTool] = found.slice(1).map(word => Number(word ?? 0));
    const doers = [{ path, line, tool }, ...(fixed ? [] : [{ path: 2, line: other, tool: otherTool }])];
    return { stretch, doers, fixed: cell?.fixed[fixed - 1] ?? null, lines: Object.fromEntries(doers.map(doer => [doer.path, doer.line || null])) };
  }

  const MOST = 500;                     // moves of one line and stretch that are looked at

  /** The segments of a path that a finding may mean: those of its line, with its tool; or the place where the path stands. */
  function segmentsOf({ path, line, tool }, stretch) {
    if (!line) return [standOf(path, stretch)];
    return Times.segmentsIn(Look.trace, path, stretch).filter(segment => segment.line === line && toolOf(segment) === tool && segment.kind !== "wait").slice(0, MOST);
  }

  /** Where a path stands when a stretch begins, as a segment that goes nowhere. */
  function standOf(path, stretch) {
    const { segments } = Look.trace.paths[path], before = stretch ? Look.trace.meetings[stretch - 1].waits[path] : { ...segments[0], tool: "", end: 0 };
    const { shiftX, shiftZ, tool, end } = before, [x, z] = stretch ? [before.x1, before.z1] : [before.x0, before.z0];
    return { path, kind: "point", tool, shiftX, shiftZ, x0: x, x1: x, z0: z, z1: z, arc: null, begin: end, end };
  }

  /** The segments of a finding: the first pair whose boxes come near, or the first segment whose box comes near the fixed one. */
  function segmentsOfFinding({ stretch, doers, fixed }) {
    const [ones, others] = doers.map(doer => segmentsOf(doer, stretch));
    const boxes = new Map([...ones, ...others ?? []].map(segment => [segment, sweptInCell(segment)]));
    const areNear = (one, box) => CellText.areNear(cell.gap, boxes.get(one), box);
    if (!others) return [ones.find(one => fixed && areNear(one, fixed.box)) ?? ones[0]].filter(Boolean);
    for (const one of ones) {
      const other = others.find(some => areNear(one, boxes.get(some)));
      if (other) return [one, other];
    }
    return [ones[0], others[0]].filter(Boolean);
  }

  const STEPS = 200;

  /** The body of a path at a time, in the cell. */
  function bodyInCell(path, time) {
    const { segment, part } = Times.standing(Look.trace.paths[path], time);
    return CellText.inCell(cell.frames[path], bodyAt(segment, part));
  }

  /** The first moment of the moves of a finding, by the guess, at which the bodies are near; if there is none, when the later move begins. */
  function momentOf(segments, fixed) {
    const begin = Math.min(...segments.map(segment => segment.begin)), end = Math.max(...segments.map(segment => segment.end));
    for (let step = 0; step <= STEPS; step++) {
      const time = begin + (end - begin) * step / STEPS, [one, other] = segments.map(({ path }) => bodyInCell(path, time));
      if (CellText.areNear(cell.gap, one, other ?? fixed.box)) return time;
    }
    return Math.max(...segments.map(segment => segment.begin));
  }

  /** Goes to the moves of a finding, in coordinates of the cell, and marks them. */
  function choose(finding) {
    const segments = segmentsOfFinding(finding);
    Moving.choose(finding.stretch, true);
    if (!cell || !segments.length) return;
    Look.hit = { ...finding, segments };
    Page.showIn("cell");
    Moving.goTo(momentOf(segments, finding.fixed));
    Plane.show(roomOf([...segments.map(sweptInCell), ...(finding.fixed ? [finding.fixed.box] : [])]));
  }

  /** The room of boxes of the cell, as the plane has it. */
  function roomOf(boxes) {
    const [x0, x1, z0, z1] = [["x0", Math.min], ["x1", Math.max], ["z0", Math.min], ["z1", Math.max]].map(([edge, of]) => of(...boxes.map(box => box[edge])));
    return { r0: x0 / 2, r1: x1 / 2, z0, z1 };
  }

  // ---- drawing ----

  /** Draws a box of a path, which is in its machine coordinates; `segment` says whose it is, and which shift is in force. */
  function drawBox(pen, segment, box, ink, { alpha = 0.12, dash = [] } = {}) {
    const [x0, x1] = [Camera.xIn(segment, box.z0), Camera.xIn(segment, box.z1)], [y0, y1] = [Camera.yIn(segment, box.x0 / 2), Camera.yIn(segment, box.x1 / 2)];
    const place = [Math.min(x0, x1), Math.min(y0, y1), Math.abs(x1 - x0), Math.abs(y1 - y0)];
    pen.fillStyle = pen.strokeStyle = ink;
    pen.globalAlpha = alpha;
    pen.fillRect(...place);
    pen.globalAlpha = 1;
    pen.lineWidth = 1.3;
    pen.setLineDash(dash);
    pen.strokeRect(...place);
    pen.setLineDash([]);
  }

  /** Draws the boxes that bind a path, where its shift in force has them. */
  function drawFixed(pen, segment) {
    for (const fixed of cell.fixed.filter(({ path }) => path === segment.path)) {
      const isHit = Look.hit?.fixed === fixed;
      drawBox(pen, segment, CellText.fromCell(cell.frames[segment.path], fixed.box), isHit ? Colours.INK.red : Colours.INK.soft,
              { alpha: isHit ? 0.3 : 0.1, dash: fixed.isForRapids ? [6, 4] : [] });
    }
  }

  /** Draws the boxes in the cell, and both bodies at the chosen moment; of a finding also what the bodies pass in its moves. */
  function draw(pen) {
    if (!cell) return;
    const now = PATHS.map(p => Look.shown[p] && Times.standing(Look.trace.paths[p], Look.time)).filter(Boolean);
    for (const { segment } of now) drawFixed(pen, segment);
    for (const segment of Look.hit?.segments ?? []) drawBox(pen, segment, sweptOf(segment), Colours.INK.red, { alpha: 0.1, dash: [4, 3] });
    for (const { segment, part } of now) {
      const isHit = Boolean(Look.hit?.doers.some(({ path }) => path === segment.path));
      drawBox(pen, segment, bodyAt(segment, part), isHit ? Colours.INK.red : Colours.of(segment), { alpha: isHit ? 0.3 : 0.15 });
    }
  }
  Look.layers.over.push(draw);

  return { take, findingOf, choose, get cell() { return cell; } };
})();
