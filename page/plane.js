"use strict";
// The plane of Z and X: both turrets over the centre line. Z goes to the right; path 1 has X up, path 2 X down.

const Plane = (() => {
  const { INK } = Colours, { sheet, xOf, yOf, xIn, yIn, onPage, pointOf } = Camera;
  const LINE_WIDTH = { rapid: 1, feed: 1.7, arc: 2.6, thread: 3 };
  const PALE = 0.13;
  const MANY = 6000;            // from so many segments on a picture that is dragged is moved first, and drawn anew after
  const REST = 140;             // milliseconds
  const AT_ONCE = 1000;
  const RIM = 20;               // so far outside lines are still drawn
  let still = null, resting = 0;

  const isShown = ({ kind, path }) => Look.shown[path] && (Reading.CUTS.has(kind) || (kind === "rapid" && Look.shown.rapid));
  const isPale = segment => Look.stretch !== null && segment.stretch !== Look.stretch;

  /** The segments of both paths that are to be seen. */
  function* shownSegments() {
    for (const p of PATHS) for (const segment of Look.trace.paths[p].segments) if (isShown(segment)) yield segment;
  }

  // ---- the eye moves ----

  /** Brings all cuts into the picture, or all moves, and draws it. */
  function fit(isAll) {
    Camera.fit(isAll);
    Look.ask("plane", "over");
  }

  /** Brings a box, in mm of the plane, into the picture. */
  function show(box) {
    Camera.show(box);
    Look.ask("plane", "over");
  }

  /** After another size: the picture is as it was brought in, and drawn anew. */
  function refit() {
    Camera.refit();
    Look.ask("plane", "over");
  }

  /** Moves the picture by so many points of the page, and draws it. */
  function drag(dx, dy) {
    Camera.drag(dx, dy);
    askMoved();
  }

  /** Comes nearer by a factor, round the point under x and y, and draws it. */
  function zoom(by, x, y) {
    Camera.zoom(by, x, y);
    askMoved();
  }

  /** While a big picture is dragged its last drawing is moved about. It is drawn anew once the hand rests. */
  function askMoved() {
    const count = Look.trace.paths[1].segments.length + Look.trace.paths[2].segments.length;
    if (!still || count < MANY) return Look.ask("plane", "over");
    clearTimeout(resting);
    resting = setTimeout(() => { resting = 0; Look.ask("plane", "over"); }, REST);
    Look.ask("moved", "over");
  }

  /** Puts the last drawing to where the eye is now; nothing is drawn anew. */
  function drawMoved() {
    if (!still || resting === 0) return;
    const camera = Camera.now, pen = sheet.clean(sheet.under), by = camera.scale / still.camera.scale;
    pen.drawImage(still.copy, (still.camera.z - camera.z) * camera.scale + sheet.width / 2 * (1 - by),
                  (camera.r - still.camera.r) * camera.scale + sheet.height / 2 * (1 - by), sheet.width * by, sheet.height * by);
  }

  // ---- the picture ----

  /** Draws the grid, the segments in their groups, and starts and homes. Keeps a copy, to be moved about. */
  function draw() {
    const pen = sheet.clean(sheet.under), groups = new Map();
    PlaneGrid.draw(pen);
    let count = 0;
    for (const segment of shownSegments()) if (addSegment(lineOf(groups, segment), segment)) count++;
    for (const key of [...groups.keys()].sort()) strokeGroup(pen, groups.get(key), count > MANY);
    if (count <= MANY) drawArcEnds(pen);
    for (const drawLayer of Look.layers.under) drawLayer(pen);
    PlaneGrid.drawPlaces(pen);
    still = { camera: Camera.now, copy: sheet.copy() };
  }

  /**
   * The line to which a segment belongs: all that is drawn alike is a group, in lines of so many segments, which is fastest. Pale ones
   * come first and rapids before cuts, so that what counts lies on top.
   */
  function lineOf(groups, segment) {
    const isRapid = segment.kind === "rapid", pale = isPale(segment), colour = isRapid ? INK.rapid : Colours.of(segment);
    const key = `${pale ? 0 : 1}${isRapid ? 0 : 1} ${segment.kind} ${colour}`;
    let group = groups.get(key);
    if (!group) groups.set(key, group = { lines: [], count: 0, kind: segment.kind, colour, pale });
    if (group.count++ % AT_ONCE === 0) group.lines.push(new Path2D());
    return group.lines[group.lines.length - 1];
  }

  /** Adds what is in the picture of a segment, and says whether anything is. */
  function addSegment(line, segment) {
    if (segment.arc) return addArc(line, segment);
    return addLine(line, xIn(segment, segment.z0), yIn(segment, segment.x0 / 2), xIn(segment, segment.z1), yIn(segment, segment.x1 / 2));
  }

  /** Adds an arc as 4 to 120 lines, the more the larger it is on the page, and says whether it may be in the picture. */
  function addArc(line, segment) {
    const { sweep, radius } = segment.arc, centre = onPage(segment, segment.arc), size = radius * Camera.now.scale + RIM;
    if (centre.x < -size || centre.x > sheet.width + size || centre.y < -size || centre.y > sheet.height + size) return false;
    const pieces = Math.max(4, Math.min(120, Math.ceil(Math.abs(sweep) * Math.sqrt(radius * Camera.now.scale) * 0.9)));
    for (let piece = 0; piece <= pieces; piece++) {
      const { x, y } = onPage(segment, Shapes.onArc(segment.arc, piece / pieces));
      if (piece) line.lineTo(x, y);
      else line.moveTo(x, y);
    }
    return true;
  }

  /** The part of a line that is in the picture or nearly so: the dashes of far lines would take long. */
  function addLine(line, x0, y0, x1, y1) {
    const left = -RIM, right = sheet.width + RIM, top = -RIM, bottom = sheet.height + RIM;
    if (Math.min(x0, x1) > right || Math.max(x0, x1) < left || Math.min(y0, y1) > bottom || Math.max(y0, y1) < top) return false;
    const across = partWithin(x0, x1, left, right), down = partWithin(y0, y1, top, bottom);
    const first = Math.max(across[0], down[0]), last = Math.min(across[1], down[1]);
    if (first > last) return false;
    line.moveTo(x0 + first * (x1 - x0), y0 + first * (y1 - y0));
    line.lineTo(x0 + last * (x1 - x0), y0 + last * (y1 - y0));
    return true;
  }

  const WHOLE = [0, 1];

  /** From which part of the way to which it lies between two bounds, of which it touches the room. */
  function partWithin(from, to, least, most) {
    if (Math.min(from, to) >= least && Math.max(from, to) <= most) return WHOLE;
    const way = to - from, parts = [(least - from) / way, (most - from) / way];
    return [Math.max(0, Math.min(...parts)), Math.min(1, Math.max(...parts))];
  }

  /** Of many segments each is as thin as the screen can: that is fast, and more could not be told apart. */
  function strokeGroup(pen, group, areMany) {
    const isRapid = group.kind === "rapid", isDotted = group.kind === "thread" && !areMany;
    pen.globalAlpha = group.pale ? PALE : isRapid && areMany ? 0.45 : 1;
    pen.strokeStyle = group.colour;
    pen.lineWidth = areMany ? 1 / sheet.ratio : LINE_WIDTH[group.kind];
    pen.lineCap = isDotted ? "round" : "butt";
    pen.setLineDash(isDotted ? [0.1, 5] : isRapid && !areMany ? [5, 4] : []);
    for (const line of group.lines) pen.stroke(line);
    pen.setLineDash([]);
    pen.lineCap = "butt";
    pen.globalAlpha = 1;
  }

  /** A dot at each end of an arc. */
  function drawArcEnds(pen) {
    for (const segment of shownSegments()) {
      if (segment.kind !== "arc") continue;
      pen.globalAlpha = isPale(segment) ? PALE : 1;
      pen.fillStyle = Colours.of(segment);
      for (const { x, y } of [pointOf(segment, 0), pointOf(segment, 1)]) {
        pen.beginPath();
        pen.arc(x, y, 2.6, 0, 7);
        pen.fill();
      }
    }
    pen.globalAlpha = 1;
  }

  // ---- what moves with the time ----

  /** Draws the segment under the hand, the moves under way and the tips of the tools. */
  function drawOver() {
    const pen = sheet.clean(sheet.over);
    for (const drawLayer of Look.layers.over) drawLayer(pen);
    if (Look.focus) markSegment(pen, Look.focus, 5);
    for (const p of PATHS) {
      const now = Look.shown[p] && Times.standing(Look.trace.paths[p], Look.time);
      if (!now) continue;
      if (now.isBegun && isShown(now.segment) && now.part < 1) markSegment(pen, now.segment, 4);
      drawTool(pen, now.segment, pointOf(now.segment, now.part));
    }
  }

  /** Draws a move of a segment once more over the others, in a glow of so many points and five more. */
  function markSegment(pen, segment, width) {
    if (!Reading.MOTIONS.has(segment.kind)) return;
    const line = new Path2D();
    addSegment(line, segment);
    pen.lineCap = "round";
    pen.globalAlpha = 0.6;
    pen.strokeStyle = INK.glow;
    pen.lineWidth = width + 5;
    pen.stroke(line);
    pen.globalAlpha = 1;
    pen.strokeStyle = segment.kind === "rapid" ? INK.axis : Colours.of(segment);
    pen.lineWidth = width - 2;
    pen.stroke(line);
  }

  /** The tip of a turret's tool. If it is outside, an arrow at the rim shows where. */
  function drawTool(pen, segment, { x, y }) {
    const isFirst = Camera.sideOf(segment) > 0, name = `path ${segment.path} ${segment.tool}`.trim();
    const { top, bottom } = Camera.rim();
    const at = { x: Math.min(sheet.width - 16, Math.max(16, x)), y: Math.min(sheet.height - bottom + 10, Math.max(top - 10, y)) };
    const isOutside = at.x !== x || at.y !== y;
    const angle = isOutside ? Math.atan2(y - at.y, x - at.x) : isFirst ? Math.PI / 2 : -Math.PI / 2;
    const cos = Math.cos(angle), sin = Math.sin(angle);
    const off = (along, across) => [at.x + along * cos - across * sin, at.y + along * sin + across * cos];
    pen.fillStyle = Colours.of(segment);
    pen.strokeStyle = INK.paper;
    pen.lineWidth = 1.5;
    pen.beginPath();
    for (const corner of [off(0, 0), off(-16, 7), off(-16, -7)]) pen.lineTo(...corner);
    pen.closePath();
    pen.fill();
    pen.stroke();
    pen.font = FONT.bold;
    const width = pen.measureText(name).width, middle = off(isOutside ? -24 : -26, 0);
    const left = Math.max(5, Math.min(isOutside && x > at.x ? middle[0] - width + 6 : middle[0] - width / 2, sheet.width - width - 8));
    plateText(pen, name, left, middle[1] + (isOutside ? (isFirst ? 8 : -2) : 4), "left", Colours.of(segment));
  }

  // ---- what is under the hand ----

  /** The shown segment that is nearest to a point of the page within reach, in points; cuts before rapids. */
  function under(x, y, reach) {
    let best = null, least = reach * reach;
    for (const segment of shownSegments()) {
      const far = squareFrom(segment, x, y, reach) + (segment.kind === "rapid" ? 4 : 0) + (isPale(segment) ? 16 : 0);
      if (far < least) { least = far; best = segment; }
    }
    return best;
  }

  /** The square of the way from a segment to a point. */
  function squareFrom(segment, x, y, reach) {
    if (segment.arc) return squareFromArc(segment, x, y);
    const x0 = xIn(segment, segment.z0), x1 = xIn(segment, segment.z1);
    if (Math.min(x0, x1) > x + reach || Math.max(x0, x1) < x - reach) return Infinity;
    const y0 = yIn(segment, segment.x0 / 2), y1 = yIn(segment, segment.x1 / 2);
    if (Math.min(y0, y1) > y + reach || Math.max(y0, y1) < y - reach) return Infinity;
    const dx = x1 - x0, dy = y1 - y0, square = dx * dx + dy * dy;
    const part = square ? Math.max(0, Math.min(1, ((x - x0) * dx + (y - y0) * dy) / square)) : 0;
    return (x - x0 - part * dx) ** 2 + (y - y0 - part * dy) ** 2;
  }

  /** The square of the way from an arc to a point, in points; infinite if the point lies outside its angle. */
  function squareFromArc(segment, x, y) {
    const { arc } = segment, centre = onPage(segment, arc), full = 2 * Math.PI;
    const dx = (x - centre.x) * Camera.alongOf(segment), dy = (centre.y - y) * Camera.sideOf(segment);
    const turned = (Math.atan2(dy, dx) - arc.from) * Math.sign(arc.sweep);
    if (((turned % full) + full) % full > Math.abs(arc.sweep)) return Infinity;
    return (Math.hypot(dx, dy) - arc.radius * Camera.now.scale) ** 2;
  }

  return { sheet, fit, show, refit, drag, zoom, draw, drawMoved, drawOver, under, addSegment };
})();
