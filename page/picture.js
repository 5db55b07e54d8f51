"use strict";
// The picture as a file: the plane and the time line as they are looked at, with what the head says, on light paper.

/** Lets the browser save something as a file of a name, and says so. */
function download(name, content, type) {
  const link = element("a"), place = URL.createObjectURL(new Blob([content], { type }));
  link.href = place;
  link.download = name;
  link.click();
  setTimeout(() => URL.revokeObjectURL(place), 60000);
  Saved.tell(name);
}

// Which files were given to the browser just now. Where they are is the browser's affair, which asks or has a folder for them.
const Saved = (() => {
  const LASTS = 15000;          // milliseconds
  const names = new Set();
  let ending = 0;

  /** Says that a file of this name was saved, beside those of the last seconds. */
  function tell(name) {
    names.add(name);
    show();
    clearTimeout(ending);
    ending = setTimeout(() => { names.clear(); show(); }, LASTS);
  }

  function show() {
    $("saved").textContent = names.size ? `Saved in the browser's downloads: ${[...names].join(", ")}` : "";
  }

  return { tell };
})();

const Picture = (() => {
  const RATIO = 2, HEAD = 58, RIM = 12;         // pixels a point at least; points

  /** Draws the picture that is shown on a canvas of its own. */
  function make() {
    const colours = Colours.mode, ratio = Math.max(RATIO, window.devicePixelRatio || 1), parts = [Plane, TimeLine];
    Colours.take("light");
    for (const part of parts) {
      part.sheet.resize(ratio);
      part.draw();
      part.drawOver();
    }
    const canvas = together(parts.map(part => part.sheet), ratio);
    Colours.take(colours);
    for (const part of parts) part.sheet.resize();
    Look.ask("plane", "times", "over");
    Look.drawAsked();
    return canvas;
  }

  /** Puts the sheets under each other, and the head over them. */
  function together(sheets, ratio) {
    const canvas = document.createElement("canvas"), width = Math.max(...sheets.map(sheet => sheet.width)) + 2 * RIM;
    canvas.width = Math.round(width * ratio);
    canvas.height = Math.round((sheets.reduce((sum, sheet) => sum + sheet.height + RIM, HEAD)) * ratio);
    const pen = canvas.getContext("2d");
    pen.fillStyle = Colours.INK.paper;
    pen.fillRect(0, 0, canvas.width, canvas.height);
    pen.scale(ratio, ratio);
    drawHead(pen);
    let top = HEAD;
    for (const { under, over, width: wide, height } of sheets) {
      for (const layer of [under, over]) pen.drawImage(layer, RIM, top, wide, height);
      top += height + RIM;
    }
    return canvas;
  }

  /** Writes the names of the tapes, and what the badges say. */
  function drawHead(pen) {
    pen.fillStyle = Colours.INK.text;
    pen.font = FONT.bold.replace("11px", "15px");
    pen.fillText(`twin_lathe  ${Look.name}`, RIM, 24);
    pen.font = FONT.plain;
    pen.fillText([...$("badges").children].map(badge => badge.textContent).join("  \u00b7  "), RIM, 44);
  }

  /** The name of the file: that of the first text, with another end. */
  const fileName = () => `${Look.name.split(",")[0].replace(/\.\w+$/, "") || "twin_lathe"}.png`;

  /** Saves the picture. */
  function save() {
    if (Look.trace) make().toBlob(blob => download(fileName(), blob, "image/png"));
  }

  $("save-picture").addEventListener("click", save);

  return { make, save };
})();
