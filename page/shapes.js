"use strict";
// Lines and arcs in the plane of Z and the radius (half of X). Angles grow from +Z to +X.

const Shapes = (() => {
  const FULL = 2 * Math.PI, LEAST = 1e-9;

  /** The arc of a segment that is given by its radius. Of the two that there are a negative radius means the longer. */
  function arcByRadius(segment, isClockwise, radius) {
    const r0 = segment.x0 / 2, r1 = segment.x1 / 2;
    const dz = segment.z1 - segment.z0, dr = r1 - r0, chord = Math.hypot(dz, dr);
    if (chord === 0) return { ...arcAround(segment, { z: segment.z0, r: r0 - radius }, isClockwise), sweep: 0 };
    const height = Math.sqrt(Math.max(0, radius * radius - chord * chord / 4));
    const side = isClockwise === (radius >= 0) ? 1 : -1;
    const centre = { z: (segment.z0 + segment.z1) / 2 + side * height * dr / chord,
                     r: (r0 + r1) / 2 - side * height * dz / chord };
    return arcAround(segment, centre, isClockwise);
  }

  /** The arc of a segment that is given by its centre, from its start: I along the radius, K along Z. */
  function arcByCentre(segment, isClockwise, i, k) {
    return arcAround(segment, { z: segment.z0 + k, r: segment.x0 / 2 + i }, isClockwise);
  }

  /** The arc around a centre: its radius, the angle at its start, and its sweep, below 0 if clockwise; never 0. */
  function arcAround(segment, centre, isClockwise) {
    const r0 = segment.x0 / 2, r1 = segment.x1 / 2;
    const from = Math.atan2(r0 - centre.r, segment.z0 - centre.z);
    const to = Math.atan2(r1 - centre.r, segment.z1 - centre.z);
    let sweep = (to - from) % FULL;
    if (isClockwise && sweep >= -LEAST) sweep -= FULL;
    if (!isClockwise && sweep <= LEAST) sweep += FULL;
    return { z: centre.z, r: centre.r, radius: Math.hypot(r0 - centre.r, segment.z0 - centre.z), from, sweep };
  }

  /** A point of an arc, at a part of its sweep from 0 to 1. */
  function onArc(arc, part) {
    const angle = arc.from + arc.sweep * part;
    return { z: arc.z + arc.radius * Math.cos(angle), r: arc.r + arc.radius * Math.sin(angle) };
  }

  /** A point of a segment, at a part of its way from 0 to 1. */
  function onSegment(segment, part) {
    if (segment.arc) return onArc(segment.arc, part);
    return { z: segment.z0 + (segment.z1 - segment.z0) * part,
             r: (segment.x0 + (segment.x1 - segment.x0) * part) / 2 };
  }

  /** The way of a segment in mm. */
  function lengthOf(segment) {
    if (segment.arc) return segment.arc.radius * Math.abs(segment.arc.sweep);
    return Math.hypot((segment.x1 - segment.x0) / 2, segment.z1 - segment.z0);
  }

  return { arcByRadius, arcByCentre, onArc, onSegment, lengthOf };
})();
