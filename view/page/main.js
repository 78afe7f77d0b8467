// The page put together: the cursor, its keys and buttons, and the parts that follow it.
const byId = (name) => document.getElementById(name);

function begin() {
  if (data) beginRun();
  const nav = byId("nav");
  for (const section of document.querySelectorAll("section")) {
    if (section.hidden || !section.querySelector("h2")) continue;
    const link = piece("a", "", section.querySelector("h2").firstChild.textContent.trim());
    link.href = `#${section.id}`;
    nav.append(link);
  }
}

function beginRun() {
  const run = new Run();
  byId("run").hidden = false;
  const followers = [];
  if (data.routes.length) {
    byId("panel").hidden = false;
    followers.push(new Panel(run, byId("routes")));
  }
  if (data.outputs.length) {
    byId("outputs").hidden = false;
    followers.push(new Outputs(run, byId("bits")));
  }
  byId("tables").hidden = byId("tables").querySelector("table") === null;
  byId("quiet").hidden = run.stops.length > 0;
  byId("chart").hidden = run.stops.length === 0;
  const chart = new Chart(run, (cycle) => {
    byId("line").textContent = run.lineOf(cycle);
    const at = cycle < 0 ? "at the start" : `after minor cycle ${cycle}`;
    for (const place of document.querySelectorAll(".at")) place.textContent = at;
    for (const follower of followers) follower.show(cycle);
  });
  if (data.asked.length) {
    byId("asked").hidden = false;
    new Requests(byId("requests"), (cycle) => chart.setCursor(cycle));
  }
  control(chart, run);
  drawKey();
  chart.showAll();
  chart.setCursor(startOf(location.hash, run));
}

// The cursor begins at the minor cycle of the address's end, as `#258`, else at the first request or change.
function startOf(hash, run) {
  const asked = Number(hash.slice(1));
  if (hash.length > 1 && Number.isInteger(asked)) return asked;
  return data.asked.length ? data.asked[0][0] : run.stopFrom(-1, 1);
}

function control(chart, run) {
  const moves = {
    first: () => chart.setCursor(-1),
    back: () => chart.setCursor(run.stopFrom(chart.cursor, -1)),
    forth: () => chart.setCursor(run.stopFrom(chart.cursor, 1)),
    last: () => chart.setCursor(run.last),
    in: () => chart.zoom(0.5, chart.x(chart.cursor)),
    out: () => chart.zoom(2, chart.x(chart.cursor)),
    all: () => chart.showAll(),
    before: () => chart.setCursor(chart.cursor - 1),
    behind: () => chart.setCursor(chart.cursor + 1),
    left: () => chart.pan(-1),
    right: () => chart.pan(1),
  };
  for (const name of ["first", "back", "forth", "last", "in", "out", "all"]) byId(name).addEventListener("click", moves[name]);
  byId("filter").addEventListener("input", (event) => chart.fill(event.target.value));
  const keys = { Home: "first", End: "last", "+": "in", "=": "in", "-": "out", "−": "out", 0: "all", PageUp: "left", PageDown: "right" };
  document.addEventListener("keydown", (event) => {
    if (event.target.tagName === "INPUT" || event.ctrlKey || event.altKey || event.metaKey) return;
    const arrows = { ArrowLeft: event.shiftKey ? "before" : "back", ArrowRight: event.shiftKey ? "behind" : "forth" };
    const move = arrows[event.key] || keys[event.key];
    if (!move) return;
    moves[move]();
    event.preventDefault();
  });
}

// The key of the shapes.
function drawKey() {
  const shapes = [
    ["solid", "tracks", "occupied"], ["hatch", "sub-routes", "locked"], ["stripes", "routes", "route set"],
    ["cross", "routes", "route barred"], ["dots", "flags", "flag set, or a bit that goes out is 1"], ["chevrons", "signals", "told to show proceed"],
    ["warn", "signals", "lamp not proved"], ["low", "points", "controlled or driven normal"],
    ["high", "points", "controlled or driven reverse"], ["low solid", "points", "detected normal"],
    ["high solid", "points", "detected reverse"], ["none", "points", "detected nowhere, or not driven"],
    ["outline", "telegrams", "report missing"], ["cross", "telegrams", "report damaged"], ["line", "tracks", "clear, free, not set, stop, good"],
  ];
  const marks = [["taken", "request taken"], ["refused", "request refused"], ["full", "request without room"], ["asked", "request not explained"]];
  const drawn = (draw, word) => {
    const box = piece("span", "");
    const canvas = piece("canvas", "");
    draw(new Paint(sized(canvas, 64, LANE)));
    box.append(canvas, word);
    return box;
  };
  byId("shapes").replaceChildren(
    ...shapes.map(([shape, group, word]) => drawn((paint) => drawState(paint, shape, GROUP_COLOURS[group], 2, 62, 0), word)),
    ...marks.map(([mark, word]) => drawn((paint) => drawMark(paint, mark, 32, 0), word)),
  );
}

// What goes wrong here is told on the page, and to whoever reads the page's markup.
window.addEventListener("error", (event) => {
  document.body.dataset.error = event.message;
  byId("summary").append(piece("p", "warning", `The page's script failed: ${event.message}`));
});

begin();
