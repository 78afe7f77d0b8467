// The time chart: a lane for each identity that changes, and a cursor.
class Chart {
  constructor(run, onCursor) {
    this.run = run;
    this.onCursor = onCursor;
    this.cursor = -1;
    this.lanes = document.getElementById("lanes");
    this.labels = document.getElementById("labels");
    this.canvas = document.getElementById("canvas");
    this.axis = document.getElementById("axis");
    this.from = 0;
    this.perPixel = 1;
    this.rows = [];
    this.fill("");
    this.listen();
  }

  // The rows of the chart: a head for each group, and below it the lanes whose names have the part.
  fill(part) {
    this.rows = [];
    for (const [group, lanes] of this.run.changing()) {
      const found = lanes.filter((lane) => lane.name.toLowerCase().includes(part.toLowerCase()));
      if (found.length) this.rows.push({ group }, ...found);
    }
    this.labels.replaceChildren(...this.rows.map(label));
    this.resize();
  }

  get width() {
    return document.getElementById("drawn").clientWidth;
  }

  resize() {
    const high = Math.min(this.lanes.clientHeight, this.rows.length * LANE);
    this.paint = new Paint(sized(this.canvas, this.width, Math.max(high, 1)));
    this.axisPaint = new Paint(sized(this.axis, this.width, 26));
    this.perPixel = Math.min(this.perPixel, this.widest());
    this.move(this.from);
  }

  // As many minor cycles a pixel as show the whole run.
  widest() {
    return Math.max((this.run.last + 2) / Math.max(this.width - 8, 1), 0.02);
  }

  x(cycle) {
    return (cycle - this.from) / this.perPixel;
  }

  // The minor cycle at a place.
  cycleOf(x) {
    return Math.floor(this.from + x * this.perPixel + 0.001);
  }

  showAll() {
    this.perPixel = this.widest();
    this.move(-1);
  }

  zoom(factor, x = this.width / 2) {
    const under = this.from + x * this.perPixel;
    this.perPixel = Math.min(Math.max(this.perPixel * factor, 0.02), this.widest());
    this.move(under - x * this.perPixel);
  }

  move(from) {
    const most = this.run.last + 1 - this.width * this.perPixel * 0.9;
    this.from = Math.max(Math.min(from, most), -1);
    this.draw();
  }

  // Moves by half of what is seen, back or on.
  pan(step) {
    this.move(this.from + (step * this.width * this.perPixel) / 2);
  }

  // Sets the cursor, and moves the view so that it is seen.
  setCursor(cycle) {
    this.cursor = Math.max(-1, Math.min(cycle, this.run.last));
    const x = this.x(this.cursor);
    if (x < 0 || x > this.width - 4) this.move(this.cursor - (this.width * this.perPixel) / 3);
    else this.draw();
    this.onCursor(this.cursor);
  }

  // Draws the chart before the next picture is shown, once, however often it was asked for.
  draw() {
    if (this.asked) return;
    this.asked = true;
    requestAnimationFrame(() => {
      this.asked = false;
      this.drawNow();
    });
  }

  drawNow() {
    const { context } = this.paint;
    context.clearRect(0, 0, this.canvas.width, this.canvas.height);
    const scrolled = this.lanes.scrollTop;
    this.rows.forEach((row, number) => {
      const top = number * LANE - scrolled;
      if (top < -LANE || top > this.lanes.clientHeight) return;
      if (row.group && !row.at) {
        context.fillStyle = this.paint.colour("row");
        context.fillRect(0, top, this.width, LANE);
      } else if (row.marks) this.drawMarks(row, top);
      else this.drawLane(row, top);
    });
    this.drawCursor(context, this.canvas.clientHeight);
    this.drawAxis();
  }

  // Of marks and of states that are narrower than a pixel one a pixel is drawn.
  drawMarks(lane, top) {
    let number = lane.countTo(this.from - 10 * this.perPixel);
    while (number < lane.at.length) {
      const x = this.x(lane.at[number]);
      if (x > this.width + 10) break;
      drawMark(this.paint, lane.values[number], x, top);
      number = Math.max(number + 1, lane.countTo(this.cycleOf(x + 1)));
    }
  }

  drawLane(lane, top) {
    const end = Math.min(this.x(this.run.last + 1), this.width);
    let number = lane.countTo(this.from);
    let from = Math.max(this.x(-1), 0);
    while (from < end) {
      const to = number < lane.at.length ? Math.min(this.x(lane.at[number]), end) : end;
      if (to - from >= 1 || to === end) {
        this.drawPiece(lane, number ? lane.values[number - 1] : lane.start, from, to, top);
        from = to;
        number += 1;
      } else {
        this.drawPiece(lane, 1, from, from + 1, top);
        from += 1;
        number = lane.countTo(this.cycleOf(from));
      }
    }
  }

  drawPiece(lane, value, from, to, top) {
    const state = lane.states[value];
    const left = Math.max(from, -2);
    const right = Math.min(to, this.width + 2);
    if (right <= left) return;
    const name = GROUP_COLOURS[lane.group];
    drawState(this.paint, state.shape, name, left, right, top);
    this.write(state, left, right, top, name);
  }

  // The word of a state stands in it where there is room, on the page's own ground.
  write(state, left, right, top, name) {
    if (state.shape === "line") return;
    const { context } = this.paint;
    context.font = "11px system-ui, DejaVu Sans, sans-serif";
    const wide = context.measureText(state.word).width;
    const at = Math.max(left, 0) + 6;
    if (Math.min(right, this.width) - at < wide + 8) return;
    const solid = state.shape === "solid";
    context.fillStyle = this.paint.colour(solid ? name : "box");
    const y = top + (state.shape.startsWith("high") ? 19 : state.shape.startsWith("low") ? 10 : 15);
    context.fillRect(at - 2, y - 9, wide + 4, 11);
    context.fillStyle = this.paint.colour(solid ? "box" : "fore");
    context.fillText(state.word, at, y);
  }

  drawCursor(context, height) {
    const x = Math.round(this.x(this.cursor)) + 0.5;
    context.strokeStyle = this.paint.colour("cursor");
    context.lineWidth = 1;
    context.beginPath();
    context.moveTo(x, 0);
    context.lineTo(x, height);
    context.stroke();
  }

  drawAxis() {
    const { context } = this.axisPaint;
    context.clearRect(0, 0, this.width, 26);
    const step = roundStep(this.perPixel * 70);
    context.font = "11px system-ui, DejaVu Sans, sans-serif";
    context.fillStyle = context.strokeStyle = this.axisPaint.colour("soft");
    for (let at = Math.ceil(Math.max(this.from, 0) / step) * step; at <= this.run.last; at += step) {
      const x = this.x(at);
      if (x > this.width) break;
      context.fillRect(Math.round(x), 19, 1, 7);
      context.fillText(at.toLocaleString("en"), Math.round(x) + 3, 16);
    }
    this.drawCursor(context, 26);
  }

  listen() {
    this.lanes.addEventListener("scroll", () => this.draw());
    window.addEventListener("resize", () => this.resize());
    matchMedia("(prefers-color-scheme: dark)").addEventListener("change", () => this.resize());
    this.canvas.addEventListener("wheel", (event) => this.onWheel(event), { passive: false });
    this.canvas.addEventListener("pointerdown", (event) => this.onDown(event));
    this.axis.addEventListener("pointerdown", (event) => this.setCursor(this.cycleAt(event)));
  }

  cycleAt(event) {
    return this.cycleOf(event.offsetX);
  }

  onWheel(event) {
    if (event.ctrlKey) this.zoom(event.deltaY > 0 ? 1.25 : 0.8, event.offsetX);
    else if (event.shiftKey || event.deltaX) this.move(this.from + (event.deltaX || event.deltaY) * this.perPixel);
    else return;
    event.preventDefault();
  }

  // A press without a move sets the cursor; with one it moves the chart.
  onDown(event) {
    const begun = { x: event.clientX, y: event.clientY, from: this.from, scroll: this.lanes.scrollTop };
    let moved = false;
    this.canvas.setPointerCapture(event.pointerId);
    const onMove = (now) => {
      if (Math.abs(now.clientX - begun.x) + Math.abs(now.clientY - begun.y) > 4) moved = true;
      if (!moved) return;
      this.lanes.scrollTop = begun.scroll - (now.clientY - begun.y);
      this.move(begun.from - (now.clientX - begun.x) * this.perPixel);
    };
    const onUp = (now) => {
      this.canvas.removeEventListener("pointermove", onMove);
      if (!moved) this.setCursor(this.cycleAt(now));
    };
    this.canvas.addEventListener("pointermove", onMove);
    this.canvas.addEventListener("pointerup", onUp, { once: true });
  }
}

function label(row) {
  const line = document.createElement("div");
  if (row.group && !row.at) {
    line.className = "group";
    line.textContent = row.group;
    return line;
  }
  line.className = "name";
  line.append(row.name);
  if (row.detail) {
    const detail = document.createElement("small");
    detail.textContent = ` ${row.detail}`;
    line.append(detail);
  }
  line.title = line.textContent;
  return line;
}

// A canvas of this size, as fine as the screen is.
function sized(canvas, width, height) {
  const fine = window.devicePixelRatio || 1;
  canvas.width = Math.max(Math.round(width * fine), 1);
  canvas.height = Math.max(Math.round(height * fine), 1);
  canvas.style.width = `${width}px`;
  canvas.style.height = `${height}px`;
  const context = canvas.getContext("2d");
  context.scale(fine, fine);
  return context;
}

// 1, 2 or 5 and zeros, at least this much; past 50 as major cycles of 64.
function roundStep(least) {
  const power = 10 ** Math.floor(Math.log10(Math.max(least, 1)));
  return [1, 2, 5, 10].map((times) => times * power).find((step) => step >= least) || 1;
}
