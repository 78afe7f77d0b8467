// Two lists: the requests that were taken, with why they were refused, and the commands that go out.
const AT_ONCE = 200;

class Requests {
  constructor(place, goTo) {
    this.goTo = goTo;
    this.shown = 0;
    const table = piece("table", "");
    const head = piece("tr", "");
    for (const title of ["Minor cycle", "Request", "", "First item that failed", "Did"]) head.append(piece("th", "", title));
    const top = piece("thead", "");
    top.append(head);
    this.body = piece("tbody", "");
    table.append(top, this.body);
    const wide = piece("div", "wide");
    wide.append(table);
    this.more = piece("button", "", "more");
    this.more.addEventListener("click", () => this.showMore());
    place.replaceChildren(wide, this.more);
    this.showMore();
  }

  showMore() {
    const rows = data.asked.slice(this.shown, this.shown + AT_ONCE);
    this.shown += rows.length;
    this.body.append(...rows.map((row) => this.row(row)));
    const left = data.asked.length - this.shown;
    this.more.hidden = left === 0;
    this.more.textContent = `${left} more`;
  }

  row([cycle, panel, request, refused, why, did]) {
    const line = piece("tr", "");
    const go = piece("button", "", String(cycle));
    go.addEventListener("click", () => this.goTo(cycle));
    const first = piece("td", "");
    first.append(go);
    const name = piece("td", "");
    name.append(piece("code", "", `${panel}:${request}`));
    const known = refused !== null;
    const word = piece("td", "");
    if (!known) word.textContent = "◇ not explained";
    else word.append(refused ? piece("span", "own refused", "✗ refused") : piece("span", "own taken", "◆ taken"));
    line.append(first, name, word, this.reasons(why, known), this.deeds(did, known));
    return line;
  }

  reasons(why, known) {
    const cell = piece("td", "");
    if (!known) cell.textContent = "what this page works out isn't what the trace tells";
    for (const guard of why) {
      const box = piece("div", "own");
      for (const text of guard) box.append(piece("div", "", text));
      cell.append(box);
    }
    return cell;
  }

  deeds(did, known) {
    const cell = piece("td", "");
    if (did.length) cell.append(piece("code", "own", did.join(", ")));
    else if (known) cell.append(piece("span", "own", "changed nothing"));
    return cell;
  }
}

class Outputs {
  constructor(run, place) {
    this.run = run;
    const rows = data.outputs.map((output) => this.makeRow(output));
    const table = piece("table", "");
    const head = piece("tr", "");
    for (const title of ["Module", "Telegram", "Bits", "Says", "Now", "Since"]) head.append(piece("th", "", title));
    const top = piece("thead", "");
    top.append(head);
    const body = piece("tbody", "");
    body.append(...rows.map((row) => row.line));
    table.append(top, body);
    this.rows = rows;
    const wide = piece("div", "wide");
    wide.append(table);
    place.replaceChildren(wide);
  }

  makeRow([name, address, low, width]) {
    const line = piece("tr", "");
    const says = width === 2 ? `${name} driven to` : name.includes(".") ? "" : `${name} told to show`;
    const now = piece("td", "");
    const since = piece("td", "");
    const telegram = piece("code", "");
    const holder = piece("td", "");
    holder.append(telegram);
    const bits = width === 2 ? `${low} and ${low + 1}` : String(low);
    line.append(piece("td", "", String(address)), holder, piece("td", "", bits), piece("td", says ? "own" : "", says || "the bit is"), now, since);
    return { lane: this.run.lanes.get(`out ${address} ${low}`), slot: address, line, telegram, now, since };
  }

  show(cycle) {
    for (const { lane, slot, telegram, now, since } of this.rows) {
      const sent = this.run.slots.get(slot);
      const last = this.run.exchangeAt(slot, cycle);
      telegram.textContent = last < 0 ? "" : sent.sent[last];
      if (last < 0) {
        now.textContent = "nothing sent yet";
        since.textContent = "";
        continue;
      }
      const count = lane.countTo(cycle);
      now.textContent = lane.stateAt(cycle).word;
      since.textContent = String(count ? lane.at[count - 1] : sent.at[0]);
    }
  }
}
