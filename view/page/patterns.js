// How a state is drawn: by its shape and its pattern, and only besides by its colour.
const LANE = 22;

function colour(name) {
  return getComputedStyle(document.documentElement).getPropertyValue(`--${name}`).trim();
}

const GROUP_COLOURS = {
  tracks: "occupied", signals: "told", points: "points", routes: "set", "sub-routes": "locked",
  flags: "flag", requests: "set", telegrams: "bad",
};

// The colours of the page as it is shown now, and a pattern of each of them.
class Paint {
  constructor(context) {
    this.context = context;
    this.made = new Map();
    this.colours = new Map();
  }

  colour(name) {
    if (!this.colours.has(name)) this.colours.set(name, colour(name));
    return this.colours.get(name);
  }

  pattern(shape, name) {
    const key = `${shape} ${name}`;
    if (!this.made.has(key)) this.made.set(key, this.context.createPattern(tile(shape, this.colour(name)), "repeat"));
    return this.made.get(key);
  }
}

const STROKES = {
  hatch: [[0, 8, 8, 0], [-4, 4, 4, -4], [4, 12, 12, 4]],
  stripes: [[2, 0, 2, 8], [6, 0, 6, 8]],
  cross: [[0, 0, 8, 8], [8, 0, 0, 8]],
  chevrons: [[1, 0, 5, 4], [5, 4, 1, 8]],
};

function tile(shape, ink) {
  const canvas = document.createElement("canvas");
  canvas.width = canvas.height = 8;
  const context = canvas.getContext("2d");
  context.strokeStyle = context.fillStyle = ink;
  context.lineWidth = 1.6;
  if (shape === "dots") {
    context.fillRect(1, 1, 2, 2);
    context.fillRect(5, 5, 2, 2);
  }
  for (const [x, y, toX, toY] of STROKES[shape] || []) {
    context.beginPath();
    context.moveTo(x, y);
    context.lineTo(toX, toY);
    context.stroke();
  }
  return canvas;
}

// Draws a state from one place to another in the lane that begins at `top`.
function drawState(paint, shape, name, from, to, top) {
  const { context } = paint;
  const width = Math.max(to - from, 1);
  const ink = paint.colour(name);
  context.fillStyle = context.strokeStyle = ink;
  context.lineWidth = 1;
  if (shape === "line") context.fillRect(from, top + LANE - 6, width, 1);
  else if (shape === "none") dashes(context, from, to, top + LANE / 2);
  else if (shape.startsWith("low") || shape.startsWith("high")) {
    const thick = shape.endsWith("solid") ? 6 : 2;
    context.fillRect(from, shape.startsWith("low") ? top + LANE - 4 - thick : top + 4, width, thick);
  } else if (shape === "solid") context.fillRect(from, top + 4, width, LANE - 8);
  else if (shape === "both") {
    context.fillRect(from, top + 4, width, 3);
    context.fillRect(from, top + LANE - 7, width, 3);
  } else {
    if (STROKES[shape] || shape === "dots") {
      context.fillStyle = paint.pattern(shape, name);
      context.fillRect(from, top + 4, width, LANE - 8);
    }
    if (shape === "warn") dashes(context, from, to, top + LANE / 2 + 2);
    if (width > 2) context.strokeRect(from + 0.5, top + 4.5, width - 1, LANE - 9);
  }
}

function dashes(context, from, to, y) {
  context.beginPath();
  context.setLineDash([3, 3]);
  context.moveTo(from, y);
  context.lineTo(to, y);
  context.stroke();
  context.setLineDash([]);
}

// A mark at one minor cycle: a full diamond where a request was taken, a cross where it was refused, an
// empty square where it found no room, an empty diamond where nothing more is known.
function drawMark(paint, word, x, top) {
  const { context } = paint;
  const y = top + LANE / 2;
  context.strokeStyle = context.fillStyle = paint.colour(word === "taken" ? "good" : word === "refused" ? "bad" : "soft");
  context.lineWidth = 2;
  context.beginPath();
  if (word === "refused") {
    for (const [dx, dy] of [[-5, -5], [-5, 5]]) {
      context.moveTo(x + dx, y + dy);
      context.lineTo(x - dx, y - dy);
    }
    context.stroke();
  } else if (word === "full") context.strokeRect(x - 4, y - 4, 8, 8);
  else {
    for (const [dx, dy] of [[0, -6], [6, 0], [0, 6], [-6, 0], [0, -6]]) context.lineTo(x + dx, y + dy);
    if (word === "taken") context.fill();
    else context.stroke();
  }
}
