"use strict";
// What a text of zones by moves says: how both paths lie in the cell, the bodies of the tools, and what stands there. The core reads the text
// too, and refuses a bad one; this is asked only of texts that the core takes. Lengths are in mm here, and X is a diameter.

const CellText = (() => {
  /** The fields of each line; a line whose first field begins a comment has none. */
  const fieldsOf = text => text.split("\n").map(line => line.split(/[ \t]+/).filter(Boolean)).filter(([name]) => name && !name.startsWith("("));

  /** The length of a field, behind its letter. Without a point it counts 0.001 mm. */
  const lengthOf = field => Number(field.slice(1)) / (field.includes(".") ? 1 : 1000);

  /** The box of four fields: the least and the greatest X, and those of Z. */
  function boxOf(fields) {
    const [x0, x1, z0, z1] = fields.map(lengthOf);
    return { x0, x1, z0, z1 };
  }

  /** A cell of which nothing was said: both paths lie in it as they are. */
  const emptyCell = () => ({ frames: { 1: { x: 0, z: 0, side: 1, along: 1 }, 2: { x: 0, z: 0, side: 1, along: 1 } },
                             gap: { x: 0, z: 0 }, bodies: new Map(), fixed: [] });

  /** What a line does to the cell, by its name. */
  const SAYS = {
    frame: (cell, [path, x, z]) => Object.assign(cell.frames[path], { x: lengthOf(x), z: lengthOf(z) }),
    mirror: (cell, [path, axis]) => Object.assign(cell.frames[path], axis ? { along: -1 } : { side: -1 }),
    gap: (cell, [x, z]) => { cell.gap = { x: lengthOf(x), z: lengthOf(z) }; },
    tool: (cell, [path, tool, ...box]) => cell.bodies.set(`${path} ${Number(tool)}`, boxOf(box)),
    fixed: (cell, [path, x0, x1, z0, z1, cut]) =>
      cell.fixed.push({ path: Number(path), number: cell.fixed.length + 1, box: boxOf([x0, x1, z0, z1]), isForRapids: cut === "cut" }),
  };

  const isByMoves = ([name, what, ...more]) => name === "by" && what === "moves" && !more.length;

  /** The cell of a text that the core takes; nothing if it is one by areas. */
  function read(text) {
    const lines = fieldsOf(text), cell = emptyCell();
    if (!lines.some(isByMoves)) return null;
    for (const [name, ...values] of lines) SAYS[name]?.(cell, values);
    return cell;
  }

  const POINT = { x0: 0, x1: 0, z0: 0, z1: 0 };

  /** The body of a tool of a path, by its number: its own, or that of tool 0, or the programmed point alone. */
  const bodyOf = (cell, path, tool) => cell.bodies.get(`${path} ${tool}`) ?? cell.bodies.get(`${path} 0`) ?? POINT;

  /** A box of a path, in its machine coordinates, as it lies in the cell. */
  function inCell({ x, z, side, along }, box) {
    const [xs, zs] = [[side * box.x0 + x, side * box.x1 + x], [along * box.z0 + z, along * box.z1 + z]];
    return { x0: Math.min(...xs), x1: Math.max(...xs), z0: Math.min(...zs), z1: Math.max(...zs) };
  }

  /** A box of the cell in the machine coordinates of a path. */
  const fromCell = ({ x, z, side, along }, box) => inCell({ x: -side * x, z: -along * z, side, along }, box);

  const LEAST = 1e-6;

  /** Whether two boxes of the cell come within the gap. */
  function areNear({ x, z }, a, b) {
    return a.x0 - b.x1 <= x + LEAST && b.x0 - a.x1 <= x + LEAST && a.z0 - b.z1 <= z + LEAST && b.z0 - a.z1 <= z + LEAST;
  }

  return { read, bodyOf, inCell, fromCell, areNear };
})();
