"use strict";
// The colours of the canvases: one for each tool of a path, and those of the rest, by daylight and in the dark.

const Colours = (() => {
  const TOOLS = {
    light: ["#0b6fb8", "#c2500c", "#1a7f37", "#7a3ec8", "#b81e6d", "#8a6a00", "#0f7b7b", "#4b5563"],
    dark: ["#5cb3f5", "#f59b5c", "#62cf82", "#b794f6", "#f07ab4", "#d9b64a", "#4fcaca", "#9aa7b8"],
  };
  const INKS = {
    light: { text: "#1c2430", soft: "#5b6675", grid: "#e9edf3", axis: "#39424f", rapid: "#8a94a3", red: "#c4252d", blue: "#0b5cad",
             glow: "#ffd34d", paper: "#ffffff", plate: "#ffffffe0", veil: "#ffffffc4", lane: "#f5f7fa", noTool: "#4b5563", frame: "#ffb700",
             rapidBar: "#b9c1cd", dwell: "#f2c744", onDwell: "#3b2f00", point: "#39424f", onBar: "#ffffff", edge: "#ffffff90",
             wait: "#fff4f4", waitStroke: "#dc6b70", waitRim: "#dc8a8e", idle: "#e3e8ef" },
    dark: { text: "#e3e8ef", soft: "#a3adbb", grid: "#2a323c", axis: "#b4bfcd", rapid: "#7d8998", red: "#ff8589", blue: "#79b8ff",
            glow: "#8a6d12", paper: "#1c222a", plate: "#1c222ae0", veil: "#1c222ac4", lane: "#242b34", noTool: "#9aa7b8", frame: "#ffb700",
            rapidBar: "#4a5564", dwell: "#c79c25", onDwell: "#1c1500", point: "#a3adbb", onBar: "#10151b", edge: "#1c222a90",
            wait: "#33202a", waitStroke: "#a9494f", waitRim: "#a9494f", idle: "#2f3843" },
  };
  const INK = { ...INKS.light }, tools = new Map();
  let mode = "light";

  const keyOf = segment => `${segment.path} T${segment.tool.slice(1, 3) || "00"}`;

  /** Takes the colours of a mode: light or dark. */
  function take(which) {
    mode = which;
    Object.assign(INK, INKS[which]);
    if (Look.trace) giveTo(Look.trace);
  }

  /** Gives each tool that cuts its colour, in the order in which they come. */
  function giveTo(trace) {
    tools.clear();
    for (const p of PATHS) {
      let last = null;
      for (const segment of trace.paths[p].segments) {
        if (segment.tool === last || !Reading.CUTS.has(segment.kind)) continue;
        last = segment.tool;
        const key = keyOf(segment);
        if (!tools.has(key)) tools.set(key, TOOLS[mode][tools.size] || further(tools.size));
      }
    }
  }

  const further = count => `hsl(${(count * 137) % 360} 65% ${mode === "light" ? 36 : 68}%)`;

  const of = segment => tools.get(keyOf(segment)) || INK.noTool;

  return { INK, take, giveTo, of, tools, get mode() { return mode; } };
})();
