"use strict";
// A canvas as fine as the screen is, and a second one over it for what moves with the time.

class Sheet {
  constructor(name) {
    this.under = $(name);
    this.over = $(name + "-over");
    this.width = this.height = 0;
    this.ratio = 1;             // pixels a point
  }

  /** Takes the size of its box, in points of the page; the canvas gets as many pixels as the screen has there, or so many a point. */
  resize(ratio = window.devicePixelRatio || 1) {
    const box = this.under.getBoundingClientRect();
    this.ratio = ratio;
    this.width = box.width;
    this.height = box.height;
    for (const canvas of [this.under, this.over]) {
      canvas.width = Math.max(1, Math.round(box.width * ratio));
      canvas.height = Math.max(1, Math.round(box.height * ratio));
      canvas.getContext("2d").setTransform(ratio, 0, 0, ratio, 0, 0);
    }
  }

  /** A clean canvas to draw on, in points of the page. */
  clean(canvas) {
    const pen = canvas.getContext("2d");
    pen.clearRect(0, 0, this.width, this.height);
    pen.setLineDash([]);
    pen.globalAlpha = 1;
    pen.lineCap = "butt";
    pen.lineJoin = "round";
    return pen;
  }

  /** A copy of what is drawn. */
  copy() {
    const copy = document.createElement("canvas");
    copy.width = this.under.width;
    copy.height = this.under.height;
    copy.getContext("2d").drawImage(this.under, 0, 0);
    return copy;
  }
}

/** Ticks of a scale: a round step at least so large, and the text of a tick. */
const Ticks = {
  step(rough) {
    const power = 10 ** Math.floor(Math.log10(rough));
    return [1, 2, 5, 10].map(count => count * power).find(step => step >= rough) || 10 * power;
  },
  text(value, step) {
    const places = Math.max(0, -Math.floor(Math.log10(step) + 1e-9));
    return (Math.abs(value) < step / 1e6 ? 0 : value).toFixed(places).replace("-", "\u2212");
  },
  all(from, to, step) {
    const ticks = [];
    for (let at = Math.ceil(from / step); at * step <= to + 1e-9; at++) ticks.push(at * step);
    return ticks;
  },
};

/** A text on a plate, so that lines under it don't disturb it. `align` is that of the text. */
function plateText(pen, text, x, y, align, ink, plate = Colours.INK.plate) {
  const width = pen.measureText(text).width;
  const left = align === "left" ? x : align === "right" ? x - width : x - width / 2;
  pen.fillStyle = plate;
  pen.fillRect(left - 3, y - 10.5, width + 6, 14);
  pen.fillStyle = ink;
  pen.textAlign = "left";
  pen.fillText(text, left, y);
  return { left: left - 3, right: left + width + 3, top: y - 10.5, bottom: y + 3.5 };
}

const FACES = "'Segoe UI', 'DejaVu Sans', Arial, sans-serif";
const FONT = { plain: `11px ${FACES}`, bold: `bold 11px ${FACES}` };
