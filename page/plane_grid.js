"use strict";
// What lies under and around the cuts: the grid in diameters, the centre line, zero points, start and home.

const PlaneGrid = (() => {
  const { INK } = Colours, { sheet, xOf, yOf, onPage } = Camera;

  /** Draws the grid at round lengths, at least 70 points apart, with its numbers, the centre line and the sides. */
  function draw(pen) {
    const camera = Camera.now;
    const step = Ticks.step(70 / camera.scale), halfZ = sheet.width / 2 / camera.scale, halfR = sheet.height / 2 / camera.scale;
    const columns = Ticks.all(camera.z - halfZ, camera.z + halfZ, step).map(z => ({ z, x: Math.round(xOf(z)) + 0.5 }));
    const rows = Ticks.all(camera.r - halfR, camera.r + halfR, step).map(r => ({ r, y: Math.round(yOf(r)) + 0.5 }));
    pen.strokeStyle = INK.grid;
    pen.lineWidth = 1;
    pen.beginPath();
    for (const { x } of columns) { pen.moveTo(x, 0); pen.lineTo(x, sheet.height); }
    for (const { y } of rows) { pen.moveTo(0, y); pen.lineTo(sheet.width, y); }
    pen.stroke();
    drawAxis(pen);
    drawSides(pen);
    drawTickTexts(pen, columns, rows, step);
  }

  /** Writes Z under the picture and diameters at its left, in mm. */
  function drawTickTexts(pen, columns, rows, step) {
    const letter = Look.coordinates === "work" ? "\u2300 " : "X ";
    pen.font = FONT.plain;
    for (const { z, x } of columns)
      if (x > 60 && x < sheet.width - 16)
        plateText(pen, (Math.abs(z) < step / 1e6 ? "Z " : "") + Ticks.text(z, step), x, sheet.height - 8, "center", INK.soft);
    for (const { r, y } of rows)
      if (y > 30 && y < sheet.height - 26) plateText(pen, letter + Ticks.text(Look.coordinates === "cell" ? 2 * r : Math.abs(2 * r), step), 6, y + 4, "left", INK.soft);
  }

  /** The centre line, and which side is which path's. In machine coordinates each path has its own, so there is none. */
  function drawAxis(pen) {
    if (Look.coordinates !== "work") return;
    const y = Math.round(yOf(0)) + 0.5;
    pen.strokeStyle = INK.axis;
    pen.setLineDash([16, 4, 3, 4]);
    pen.beginPath();
    pen.moveTo(0, y);
    pen.lineTo(sheet.width, y);
    pen.stroke();
    pen.setLineDash([]);
  }

  /** Which side is which path's: beside the axis, or at the rim if that is not in the picture. Cuts lie over it. */
  function drawSides(pen) {
    const axis = yOf(0), x = 58, isBeside = Look.coordinates === "work" && axis > 40 && axis < sheet.height - 50;
    pen.font = FONT.bold;
    pen.fillStyle = INK.soft;
    pen.textAlign = "left";
    const text = path => `path ${path}: X ${Camera.sideOf({ path }) > 0 ? "up" : "down"}`;
    if (isBeside || axis > 40) pen.fillText(text(1), x, isBeside ? axis - 8 : 20);
    if (isBeside || axis < sheet.height - 50) pen.fillText(text(2), x, isBeside ? axis + 17 : sheet.height - 32);
  }

  /** Draws the starts, homes and zero points of the paths that are shown. */
  function drawPlaces(pen) {
    pen.lineWidth = 1.4;
    for (const p of PATHS) {
      if (!Look.shown[p]) continue;
      for (const place of Camera.placesOf(Look.trace.paths[p])) drawPlace(pen, place, p);
      if (Look.coordinates !== "work") drawZero(pen, p);
    }
    if (Look.coordinates === "work") drawTarget(pen, xOf(0), yOf(0));
  }

  /** Draws a start as a circle or a home as a rhomb, with its text. */
  function drawPlace(pen, place, p) {
    const { x, y } = onPage(place.segment, place), size = 6;
    pen.strokeStyle = INK.axis;
    pen.beginPath();
    if (place.name === "start") pen.arc(x, y, 4, 0, 7);
    else for (const [dx, dy] of [[0, -size], [size, 0], [0, size], [-size, 0], [0, -size]]) pen.lineTo(x + dx, y + dy);
    pen.stroke();
    pen.font = FONT.plain;
    plateText(pen, place.text, x + 11, y + (p === 1 ? -5 : 13), "left", INK.axis);
  }

  /** The zero point of a path in machine coordinates, as its first cut has it. */
  function drawZero(pen, p) {
    const path = Look.trace.paths[p], cut = path.segments.find(segment => Reading.CUTS.has(segment.kind)) || path.segments[0];
    if (!cut) return;
    const { x, y } = onPage(cut, { z: cut.shiftZ, r: cut.shiftX / 2 });
    drawTarget(pen, x, y);
    pen.font = FONT.plain;
    plateText(pen, `zero point ${p}, at the first cut`, p === 1 ? x - 12 : x + 12, y + 4, p === 1 ? "right" : "left", INK.axis);
  }

  /** Draws the sign of a zero point: a disc of four quarters. */
  function drawTarget(pen, x, y) {
    pen.strokeStyle = INK.axis;
    pen.lineWidth = 1.2;
    for (let quarter = 0; quarter < 4; quarter++) {
      pen.beginPath();
      pen.moveTo(x, y);
      pen.arc(x, y, 7, quarter * Math.PI / 2, (quarter + 1) * Math.PI / 2);
      pen.closePath();
      pen.fillStyle = quarter % 2 ? INK.paper : INK.axis;
      pen.fill();
      pen.stroke();
    }
  }

  return { draw, drawPlaces };
})();
