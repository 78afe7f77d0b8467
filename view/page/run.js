// The run as the page knows it: lanes of values over minor cycles, made of the lines that change something.
"use strict";

const data = JSON.parse(document.getElementById("data").textContent);
const SLOTS = 64;

// How many of these minor cycles, which rise, are this one or before it.
function countTo(cycles, cycle) {
  let low = 0;
  let high = cycles.length;
  while (low < high) {
    const middle = (low + high) >> 1;
    if (cycles[middle] <= cycle) low = middle + 1;
    else high = middle;
  }
  return low;
}

// Values that hold from a minor cycle on, up to the next.
class Lane {
  constructor(group, name, detail, states, start) {
    this.group = group;
    this.name = name;
    this.detail = detail;
    this.states = states;
    this.at = [];
    this.values = [];
    this.start = start;
  }

  // The value behind the last change so far.
  get now() {
    return this.at.length ? this.values[this.at.length - 1] : this.start;
  }

  // From this minor cycle on, which isn't before the last change, the value is this one.
  turn(cycle, value) {
    const last = this.at.length - 1;
    if (last >= 0 && this.at[last] === cycle) this.values[last] = value;
    else if (value !== this.now) {
      this.at.push(cycle);
      this.values.push(value);
    }
  }

  // The number of changes up to this minor cycle.
  countTo(cycle) {
    return countTo(this.at, cycle);
  }

  valueAt(cycle) {
    const count = this.countTo(cycle);
    return count ? this.values[count - 1] : this.start;
  }

  stateAt(cycle) {
    return this.states[this.valueAt(cycle)];
  }
}

// Which shape a state has, by aspect: when false, and when true.
const SHAPES = {
  reverse: ["low", "high"], lamp: ["warn", "line"], occupied: ["line", "solid"],
  set: ["line", "stripes"], barred: ["line", "cross"], locked: ["line", "hatch"],
};
const KIND_GROUPS = { P: "points", S: "signals", T: "tracks", R: "routes", U: "sub-routes", L: "flags" };
const GROUPS = ["tracks", "signals", "points", "routes", "sub-routes", "flags", "requests", "telegrams"];

class Run {
  constructor() {
    this.lanes = new Map();
    this.stops = [];
    this.kept = new Map();
    this.full = new Map();
    this.slots = new Map();
    this.last = data.shown - 1;
    this.refused = new Map(data.asked.map((one) => [one[0], one[3]]));
    this.makeLanes();
    for (const line of data.lines) this.read(line);
  }

  makeLanes() {
    for (const kind of Object.keys(KIND_GROUPS)) {
      for (const name of data.names[kind]) {
        for (const aspect of data.aspects[kind]) this.makeLane(kind, name, aspect);
      }
    }
    for (const [name, address, low, width, words] of data.outputs) {
      const drive = width === 2;
      const shapes = drive ? ["none", "low", "high", "both"] : words[1] === "proceed" ? ["line", "chevrons"] : ["line", "dots"];
      const group = drive ? "points" : words[1] === "proceed" ? "signals" : "telegrams";
      const states = words.map((word, number) => ({ word, shape: shapes[number] }));
      this.lanes.set(`out ${address} ${low}`, new Lane(group, name, drive ? "driven" : "told", states, 0));
    }
    for (const [address] of data.modules) {
      const states = [["good", "line"], ["missing", "outline"], ["damaged", "cross"]];
      const lane = new Lane("telegrams", `${address}`, "report", states.map(([word, shape]) => ({ word, shape })), 0);
      this.lanes.set(`report ${address}`, lane);
    }
  }

  // Points' two detections share a lane: nowhere, normal, reverse, both.
  makeLane(kind, name, [aspect, yes, no, inTrue, inFalse]) {
    if (aspect.startsWith("detected")) {
      const states = [["nowhere", "none"], ["normal", "low solid"], ["reverse", "high solid"], ["both", "both"]];
      const lane = new Lane("points", name, "detected", states.map(([word, shape]) => ({ word, shape })), 0);
      if (!this.lanes.has(`${name} detected`)) this.lanes.set(`${name} detected`, lane);
      return;
    }
    const shapes = kind === "L" ? ["line", "dots"] : SHAPES[aspect];
    const words = aspect === "reverse" ? ["normal", "reverse"] : [inFalse, inTrue];
    const detail = { reverse: "controlled", barred: "barred", lamp: "lamp" }[aspect] || "";
    const lane = new Lane(KIND_GROUPS[kind], name, detail, words.map((word, number) => ({ word, shape: shapes[number] })), aspect === "occupied" ? 1 : 0);
    this.lanes.set(`${name} ${aspect}`, lane);
  }

  fact(name, aspect) {
    return this.lanes.get(`${name} ${aspect}`);
  }

  read(line) {
    const fields = line.split(" ");
    if (fields[0] === "full") {
      const cycle = Number(fields[3]);
      this.mark(fields[2], cycle, "full");
      if (!this.full.has(cycle)) this.full.set(cycle, []);
      this.full.get(cycle).push(`full ${fields[1]} ${fields[2]}`);
      this.stop(cycle);
      return;
    }
    const cycle = Number(fields[0]);
    this.kept.set(cycle, line);
    this.stop(cycle);
    if (fields[1] !== "-") this.telegrams(cycle, fields[1], fields[2]);
    if (fields[3] !== "-") {
      const refused = this.refused.get(cycle);
      this.mark(fields[3].split(":")[1], cycle, refused ? "refused" : refused === false ? "taken" : "asked");
    }
    for (const change of fields.slice(4)) this.change(cycle, ...change.split(":"));
  }

  stop(cycle) {
    if (this.stops[this.stops.length - 1] !== cycle && cycle <= this.last) this.stops.push(cycle);
  }

  telegrams(cycle, sent, arrived) {
    const address = cycle % SLOTS;
    if (!this.slots.has(address)) this.slots.set(address, { at: [], sent: [], arrived: [] });
    const slot = this.slots.get(address);
    slot.at.push(cycle);
    slot.sent.push(sent);
    slot.arrived.push(arrived);
    const byte = parseInt(sent.slice(2, 4), 16);
    for (const [, of, low, width] of data.outputs) {
      if (of === address) this.lanes.get(`out ${address} ${low}`).turn(cycle, (byte >> low) & ((1 << width) - 1));
    }
    this.lanes.get(`report ${address}`).turn(cycle, arrived === "-" ? 1 : isReport(arrived, address) ? 0 : 2);
  }

  change(cycle, name, word) {
    for (const [number, [aspect, yes, no]] of data.aspects[name[0]].entries()) {
      if (word !== yes && word !== no) continue;
      const value = word === yes ? 1 : 0;
      if (number === 0 || name[0] !== "P") this.fact(name, aspect).turn(cycle, value);
      else {
        const lane = this.fact(name, "detected");
        lane.turn(cycle, (lane.now & ~number) | (value ? number : 0));
      }
    }
  }

  mark(request, cycle, word) {
    const key = `asked ${request}`;
    if (!this.lanes.has(key)) {
      const lane = new Lane("requests", request, "", [], 0);
      lane.marks = true;
      this.lanes.set(key, lane);
    }
    const lane = this.lanes.get(key);
    lane.at.push(cycle);
    lane.values.push(word);
  }

  // The trace's own line of a minor cycle: kept, or made of its number and the telegrams of its slot.
  lineOf(cycle) {
    if (cycle < 0) return "the start: no minor cycle was made yet";
    const before = (this.full.get(cycle) || []).map((line) => `${line}\n`).join("");
    return before + (this.kept.get(cycle) || this.quietLine(cycle));
  }

  quietLine(cycle) {
    const slot = this.slots.get(cycle % SLOTS);
    const number = this.exchangeAt(cycle % SLOTS, cycle);
    return number < 0 ? `${cycle} - - -` : `${cycle} ${slot.sent[number]} ${slot.arrived[number]} -`;
  }

  // Which of the telegrams told of a slot is the last up to a minor cycle; -1 where there is none.
  exchangeAt(address, cycle) {
    const slot = this.slots.get(address);
    return slot ? countTo(slot.at, cycle) - 1 : -1;
  }

  // The next stop behind or before a minor cycle.
  stopFrom(cycle, step) {
    const number = step > 0 ? countTo(this.stops, cycle) : countTo(this.stops, cycle - 1) - 1;
    if (number < 0) return -1;
    return number < this.stops.length ? this.stops[number] : this.last;
  }

  // The lanes that change, group by group.
  changing() {
    const all = [...this.lanes.values()].filter((lane) => lane.at.length && (lane.detail !== "report" || lane.values.some(Boolean)));
    return GROUPS.map((group) => [group, all.filter((lane) => lane.group === group)]).filter(([, lanes]) => lanes.length);
  }
}

function isReport(arrived, address) {
  const [first, byte, third, fourth] = arrived.match(/../g).map((two) => parseInt(two, 16));
  return first === 64 + address && third === 255 - byte && fourth === 191 - address;
}
