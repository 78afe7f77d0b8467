// The routes' panel: each route as its row of tracks in order, from its signal, at the cursor.
class Panel {
  constructor(run, place) {
    this.run = run;
    this.routes = data.routes.map((route) => this.makeRoute(route));
    place.replaceChildren(...this.routes.map((route) => route.box));
  }

  makeRoute(route) {
    const box = piece("div", "route");
    const head = piece("div", "head");
    const state = piece("span", "");
    head.append(piece("code", "", route.name), state);
    const row = piece("div", "row");
    const signal = piece("div", "signal");
    const aspect = piece("span", "");
    signal.append(piece("b", "", route.signal), aspect);
    row.append(signal);
    const cells = route.cells.map((cell) => this.makeCell(cell, row));
    box.append(head, row);
    return { route, box, state, aspect, cells };
  }

  makeCell([sub, track, lies], row) {
    const box = piece("div", "cell");
    const state = piece("span", "state");
    const name = piece("code", "", track);
    name.title = `by ${sub}`;
    box.append(name, piece("small", "", ` ${sub}`), state);
    const lieBoxes = lies.map(([points, lie]) => {
      const line = piece("span", "lie");
      box.append(line);
      return { points, lie, line };
    });
    row.append(box);
    return { sub, track, box, state, lieBoxes };
  }

  show(cycle) {
    for (const { route, box, state, aspect, cells } of this.routes) {
      const isSet = this.value(route.name, "set", cycle);
      const isBarred = this.value(route.name, "barred", cycle);
      box.classList.toggle("set", Boolean(isSet));
      state.textContent = `${isSet ? "set" : "not set"}${isBarred ? ", barred" : ""}`;
      aspect.textContent = this.aspectOf(route.signal, cycle);
      for (const cell of cells) this.showCell(cell, cycle);
    }
  }

  showCell({ sub, track, box, state, lieBoxes }, cycle) {
    const occupied = this.value(track, "occupied", cycle);
    const locked = this.value(sub, "locked", cycle);
    box.classList.toggle("occupied", Boolean(occupied));
    box.classList.toggle("locked", Boolean(locked));
    state.textContent = `${occupied ? "▉ occupied" : "clear"}, ${locked ? "locked" : "free"}`;
    for (const { points, lie, line } of lieBoxes) line.textContent = this.lieOf(points, lie, cycle);
  }

  value(name, aspect, cycle) {
    return this.run.fact(name, aspect).valueAt(cycle);
  }

  aspectOf(signal, cycle) {
    const lane = [...this.run.lanes.values()].find((one) => one.detail === "told" && one.name === signal);
    const lamp = this.value(signal, "lamp", cycle) ? "" : ", lamp not proved";
    if (!lane) return `no bit${lamp}`;
    return `${lane.valueAt(cycle) ? "▶ proceed" : "■ stop"}${lamp}`;
  }

  // How points lie against what the way needs: as controlled, and as detected.
  lieOf(points, lie, cycle) {
    const control = this.value(points, "reverse", cycle) ? "reverse" : "normal";
    const detected = this.run.fact(points, "detected").stateAt(cycle).word;
    const fits = control === lie && detected === lie ? "✓" : "✗";
    return `${fits} ${points} needs ${lie}: controlled ${control}, detected ${detected}`;
  }
}

// An element with a class and a text.
function piece(tag, name, text) {
  const made = document.createElement(tag);
  if (name) made.className = name;
  if (text !== undefined) made.textContent = text;
  return made;
}
