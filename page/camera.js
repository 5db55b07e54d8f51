"use strict";
// Where the eye of the plane is, and from there the way between the machine and the page.

const Camera = (() => {
  const sheet = new Sheet("plane");
  let camera = { z: 0, r: 0, scale: 1 };
  let fitted = null;            // what was brought into the picture, if nobody has moved it since: part or all

  // ---- from the machine to the page and back ----

  const xOf = z => (z - camera.z) * camera.scale + sheet.width / 2;
  const yOf = r => (camera.r - r) * camera.scale + sheet.height / 2;

  /** How the path of a segment lies in the cell, while the plane shows that: an origin, and which ways its X and Z go. */
  const frameOf = segment => (Look.coordinates === "cell" ? Look.frames[segment.path] : null);

  /** Which way X of a segment goes in the plane, 1 or -1, and which way its Z goes. */
  const sideOf = segment => frameOf(segment)?.side ?? (segment.path === 1 ? 1 : -1);
  const alongOf = segment => frameOf(segment)?.along ?? 1;

  /** Z and the radius of a machine point of a segment, as the plane has them: the radius with the side of its path. */
  function placedZ(segment, z) {
    const frame = frameOf(segment);
    return frame ? frame.along * z + frame.z : Look.coordinates === "work" ? z - segment.shiftZ : z;
  }
  function placedR(segment, r) {
    const frame = frameOf(segment);
    return frame ? frame.side * r + frame.x / 2 : sideOf(segment) * (Look.coordinates === "work" ? r - segment.shiftX / 2 : r);
  }

  /** A machine point of a segment on the page. */
  const xIn = (segment, z) => xOf(placedZ(segment, z));
  const yIn = (segment, r) => yOf(placedR(segment, r));
  const onPage = (segment, { z, r }) => ({ x: xIn(segment, z), y: yIn(segment, r) });

  /** Where a segment is on the page, at a part of its way. */
  const pointOf = (segment, part) => onPage(segment, Shapes.onSegment(segment, part));

  /** Z and the radius, with the side of its path, at a point of the page. */
  const placeAt = (x, y) => ({ z: camera.z + (x - sheet.width / 2) / camera.scale, r: camera.r - (y - sheet.height / 2) / camera.scale });

  // ---- where the eye is ----

  /** The room that buttons, numbers and the legend need at each side. */
  function rim() {
    return { left: 70, right: 50, top: $("tools").offsetHeight + 34, bottom: $("legend").offsetHeight + 52 };
  }

  /** Brings all cuts into the picture, or all moves, the starts and the homes. */
  function fit(isAll) {
    const box = { z0: Infinity, z1: -Infinity, r0: Infinity, r1: -Infinity };
    takeSegments(box, segment => Reading.CUTS.has(segment.kind) || (isAll && segment.kind === "rapid"));
    if (box.z0 > box.z1) takeSegments(box, segment => segment.kind === "rapid");
    if (isAll) takePlaces(box);
    if (box.z0 > box.z1 || Look.coordinates === "work") take(box, 0, 0);
    lookAt(box);
    fitted = isAll ? "all" : "part";
  }

  /** Puts the eye so that a box, in mm, fills the room between the rims. A box under 2 mm counts as one of 2 mm. */
  function lookAt(box) {
    const { left, right, top, bottom } = rim();
    const width = Math.max(50, sheet.width - left - right), height = Math.max(50, sheet.height - top - bottom);
    const scale = Math.min(width / Math.max(box.z1 - box.z0, 2), height / Math.max(box.r1 - box.r0, 2));
    camera = { scale, z: (box.z0 + box.z1 - (left - right) / scale) / 2, r: (box.r0 + box.r1 + (top - bottom) / scale) / 2 };
  }

  /** Brings a box, in mm of the plane, into the picture, if it is not wholly in it. */
  function show(box) {
    const at = { x0: xOf(box.z0), x1: xOf(box.z1), y0: yOf(box.r1), y1: yOf(box.r0) }, { left, right, top, bottom } = rim();
    const isIn = at.x0 >= left && at.x1 <= sheet.width - right && at.y0 >= top && at.y1 <= sheet.height - bottom;
    if (isIn) return;
    lookAt(box);
    fitted = null;
  }

  /** A box of another size: what was brought into the picture is so again. */
  function refit() { if (fitted) fit(fitted === "all"); }

  /** Widens a box by a point, in mm. */
  function take(box, z, r) {
    box.z0 = Math.min(box.z0, z);
    box.z1 = Math.max(box.z1, z);
    box.r0 = Math.min(box.r0, r);
    box.r1 = Math.max(box.r1, r);
  }

  /** Widens a box by both ends of each segment that is taken, and by three points of its arc. */
  function takeSegments(box, isTaken) {
    for (const p of PATHS) for (const segment of Look.trace.paths[p].segments) {
      if (!isTaken(segment)) continue;
      take(box, placedZ(segment, segment.z0), placedR(segment, segment.x0 / 2));
      take(box, placedZ(segment, segment.z1), placedR(segment, segment.x1 / 2));
      if (segment.arc) for (const part of [0.25, 0.5, 0.75]) {
        const { z, r } = Shapes.onArc(segment.arc, part);
        take(box, placedZ(segment, z), placedR(segment, r));
      }
    }
  }

  /** Widens a box by the starts and homes of both paths. */
  function takePlaces(box) {
    for (const p of PATHS) for (const place of placesOf(Look.trace.paths[p]))
      take(box, placedZ(place.segment, place.z), placedR(place.segment, place.r));
  }

  /** Moves the picture by so many points of the page. */
  function drag(dx, dy) {
    camera = { ...camera, z: camera.z - dx / camera.scale, r: camera.r + dy / camera.scale };
    fitted = null;
  }

  /** Comes nearer by a factor; the point under x and y stays where it is. */
  function zoom(by, x = sheet.width / 2, y = sheet.height / 2) {
    const z = camera.z + (x - sheet.width / 2) / camera.scale, r = camera.r - (y - sheet.height / 2) / camera.scale;
    const scale = Math.max(0.02, Math.min(20000, camera.scale * by));
    camera = { scale, z: z - (x - sheet.width / 2) / scale, r: r + (y - sheet.height / 2) / scale };
    fitted = null;
  }

  /** Start and home of a path. In work coordinates they lie elsewhere after each new offset: shown is where they lie at first. */
  function placesOf(path) {
    const { number, start, home, segments, firstShift } = path;
    const segment = { path: number, shiftX: firstShift.x, shiftZ: firstShift.z };
    const isOther = some => some.shiftX !== firstShift.x || some.shiftZ !== firstShift.z;
    const note = Look.coordinates === "work" && segments.some(isOther) ? " (by the offsets at the start)" : "";
    const place = (point, name) => ({ segment, name, z: point.z, r: point.x / 2, text: `${name} ${number}${note}` });
    if (start && home && start.x === home.x && start.z === home.z) return [place(home, "start and home")];
    return [start && place(start, "start"), home && place(home, "home")].filter(Boolean);
  }

  return { sheet, xOf, yOf, xIn, yIn, sideOf, alongOf, placedZ, placedR, onPage, pointOf, placeAt, placesOf, rim, fit, show, refit, drag, zoom, get now() { return camera; } };
})();
