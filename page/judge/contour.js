"use strict";
// The contour that a tape programs between G41 or G42 and G40, beside the path of the nose that `plain` wrote out for it and that is drawn. The
// points are those of the blocks of G00 to G03 as they stand in the tape, from where the tool stands in the run before the first of them.

const Contour = (() => {
  const MOTION = /^0?[0-3]$/, AXES = "XZUW";

  // ---- what the tape says ----

  /** The words of a line, each with its letter and its number as it is written; a comment has none. */
  const wordsOf = line => [...line.replace(/\([^)]*\)?/g, "").replace(/[ \t\r]/g, "").toUpperCase().matchAll(/([A-Z])([-+]?(?:\d+\.?\d*|\.\d+))/g)].map(([, letter, number]) => [letter, number]);

  /** A length in mm. Without a point it counts 0.001 mm. */
  const lengthOf = number => Number(number) / (number.includes(".") ? 1 : 1000);

  /** The blocks from G41 or G42 up to the move with or behind G40: of each stretch its first line and its last, and its moves with their
   * lengths by letter. */
  function stretchesOf(tape) {
    const stretches = [];
    let motion = 0, open = null, isLast = false;
    tape.split("\n").forEach((line, k) => {
      const words = wordsOf(line), codes = words.filter(([letter]) => letter === "G").map(([, number]) => number);
      motion = Number(codes.findLast(code => MOTION.test(code)) ?? motion);
      if (!open && codes.some(code => code === "41" || code === "42")) {
        open = { first: k + 1, last: k + 1, moves: [] };
        stretches.push(open);
        isLast = false;
      }
      if (!open) return;
      open.last = k + 1;
      isLast ||= codes.includes("40");
      const lengths = Object.fromEntries(words.filter(([letter]) => letter !== "G").map(([letter, number]) => [letter, lengthOf(number)]));
      if (![...AXES].some(letter => letter in lengths)) return;
      open.moves.push({ motion, lengths });
      if (isLast) open = null;
    });
    return stretches;
  }

  // ---- the contour in the picture ----

  /** A move of the tape as a segment from where the tool stands, in work coordinates, by the shift that is in force. */
  function segmentOf({ path, shiftX, shiftZ }, from, { motion, lengths }) {
    const { X, Z, U, W, I = 0, K = 0, R } = lengths, to = { x: X ?? from.x + (U ?? 0), z: Z ?? from.z + (W ?? 0) };
    const segment = { path, kind: "feed", shiftX, shiftZ, arc: null, x0: from.x + shiftX, z0: from.z + shiftZ, x1: to.x + shiftX, z1: to.z + shiftZ };
    if (motion >= 2) segment.arc = R === undefined ? Shapes.arcByCentre(segment, motion === 2, I, K) : Shapes.arcByRadius(segment, motion === 2, R);
    return { segment, to };
  }

  /** The segments of a stretch: from where the tool stands before the first block of the run that stands for it. */
  function segmentsOf(path, numbers, { first, last, moves }) {
    const isOf = ({ kind, line }) => Reading.MOTIONS.has(kind) && numbers[line] >= first && numbers[line] <= last;
    const begun = Look.trace.paths[path].segments.find(isOf);
    if (!begun) return [];
    let from = { x: begun.x0 - begun.shiftX, z: begun.z0 - begun.shiftZ };
    return moves.map(move => {
      const { segment, to } = segmentOf(begun, from, move);
      from = to;
      return segment;
    });
  }

  /** Takes the tapes of both paths as they stand; without tapes there is no contour. */
  function take(tapes) {
    const before = Look.contours.length;
    Look.contours = tapes.flatMap((tape, of) => {
      const numbers = Written.numbersOf(of);
      return numbers ? stretchesOf(tape).flatMap(stretch => segmentsOf(of + 1, numbers, stretch)) : [];
    });
    if (!before && !Look.contours.length || !tapes.length) return;
    Tables.fillLegend();
    Look.ask("plane");
  }

  /** Draws the contour, thin and dashed. */
  function draw(pen) {
    const line = new Path2D();
    for (const segment of Look.contours) if (Look.shown[segment.path]) Plane.addSegment(line, segment);
    pen.strokeStyle = Colours.INK.text;
    pen.lineWidth = 1;
    pen.setLineDash([4, 3]);
    pen.stroke(line);
    pen.setLineDash([]);
  }
  Look.layers.under.push(draw);

  return { take };
})();
