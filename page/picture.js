"use strict";
// Draws a timeline as SVG, as front/picture.py does for hb: a lane for each caller, time downward, a bar for each type that is held.

const ROW = 20, TOP = 46, MARGIN = 10, NUMBER = 44, BAR = 9, LETTER = 7.3, COLUMNS = 24;
const MARKS = { hold: "hold", free: "free", type: "type", busy: "refused", def: "def", "worn type": "refused", "worn def": "refused" };

const escaped = (text) => text.replace(/[&<>"']/g, (letter) => ({ "&": "&amp;", "<": "&lt;", ">": "&gt;", '"': "&quot;", "'": "&#x27;" })[letter]);
// As Python rounds: a half goes to the even side.
const whole = (number) => { const near = Math.round(number); return Math.abs(number % 1) === 0.5 && near % 2 ? near - 1 : near; };

function columnsOf(pins) {
  const found = new Map(), until = {};
  for (const pin of pins) {
    const ends = (until[pin.caller] ??= []);
    const free = ends.findIndex((end) => end !== null && end < pin.first);
    const column = free >= 0 ? free : Math.min(ends.length, COLUMNS - 1);
    ends[column] = pin.last;
    found.set(pin, column);
  }
  return found;
}

function kindOf(row) {
  if (row.word === "call") return row.verdict.startsWith("enter ") ? row.verdict.split(" ")[1] : "refused";
  return row.word === "free" && row.why ? "overtaken" : MARKS[row.word];
}

function markOf(row, x, y) {
  const name = kindOf(row), at = (dx, dy) => `${(x + dx).toFixed(1)} ${(y + dy).toFixed(1)}`;
  if (name === "hold" || name === "free") return `<circle class="mark ${name}" cx="${whole(x)}" cy="${whole(y)}" r="2.5"/>`;
  if (["own", "shared", "fresh"].includes(name)) return `<circle class="mark ${name}" cx="${whole(x)}" cy="${whole(y)}" r="5"/>`;
  if (name === "type") return `<rect class="mark type" x="${(x - 4.5).toFixed(1)}" y="${(y - 4.5).toFixed(1)}" width="9" height="9"/>`;
  if (name === "def") return `<path class="mark def" d="M${at(0, -5)}l5 9h-10z"/>`;
  if (name === "overtaken") return `<path class="mark overtaken" d="M${at(0, -5)}l5 5l-5 5l-5 -5z"/>`;
  return `<path class="mark refused" d="M${at(-4, -4)}l8 8m0 -8l-8 8"/>`;
}

class Picture {
  constructor(told, first, most, style) {
    Object.assign(this, { told, first, style, end: Math.min(first + most, told.depth) });
    this.rows = told.rows.map((row, number) => [number, row]).filter(([, row]) => row.level >= first && row.level < this.end);
    this.pins = told.pins.filter((pin) => this.level(pin.first) < this.end && (pin.last === null || this.level(pin.last) >= first));
    this.columns = columnsOf(this.pins);
    this.lanes = {};
    let left = told.isOneOrder ? NUMBER : 0;
    for (const caller of told.callers()) {
      this.lanes[caller] = this.lane(caller, left);
      left = this.lanes[caller].right;
    }
    this.width = Math.trunc(left + MARGIN);
    this.height = TOP + ROW * (Math.max(this.end - first, 0) + 1);
  }

  level(number) {
    return this.told.rows[number].level;
  }

  lane(caller, left) {
    const used = this.pins.filter((pin) => pin.caller === caller).map((pin) => this.columns.get(pin) + 1);
    const name = this.told.who(caller);
    const longest = Math.max(name.length, ...this.rows.filter(([, row]) => row.caller === caller).map(([, row]) => row.label.length));
    const axis = left + MARGIN + Math.max(0, ...used) * BAR + MARGIN;
    return { name, left, axis, right: axis + MARGIN + longest * LETTER + MARGIN, bar: (column) => left + MARGIN + column * BAR };
  }

  heightOf(number) {
    return TOP + ROW * (this.level(number) - this.first) + ROW / 2;
  }

  placeOf(number) {
    return [this.lanes[this.told.rows[number].caller].axis, this.heightOf(number)];
  }

  svg(title) {
    return [this.head(title), ...this.drawnLanes(), ...this.drawnPins(), ...this.drawnLinks(), ...this.drawnRows(), "</svg>"].join("\n") + "\n";
  }

  head(title) {
    return `<svg xmlns="http://www.w3.org/2000/svg" class="history" width="${this.width}" height="${this.height}" viewBox="0 0 ${this.width} ${this.height}" role="img" aria-label="${escaped(title)}">
<style>
${this.style}</style>
<defs><marker id="tip" viewBox="0 0 8 8" refX="7" refY="4" markerWidth="7" markerHeight="7" orient="auto"><path class="tip" d="M0 0L8 4L0 8z"/></marker></defs>
<rect class="ground" width="100%" height="100%"/>`;
  }

  drawnLanes() {
    const lanes = Object.values(this.lanes);
    const grounds = lanes.map((lane, number) => `<rect class="lane${number % 2}" x="${whole(lane.left)}" y="0" width="${whole(lane.right - lane.left)}" height="${this.height}"/>`);
    const axes = lanes.map((lane) => `<text class="caller" x="${whole(lane.left + MARGIN)}" y="26">${escaped(lane.name)}</text>
<line class="axis" x1="${whole(lane.axis)}" y1="${TOP}" x2="${whole(lane.axis)}" y2="${this.height - ROW / 2}"/>`);
    return [...grounds, '<g class="axes">', ...axes, "</g>"];
  }

  drawnPins() {
    const methods = [...new Set(this.told.pins.map((pin) => pin.method))];
    return this.pins.map((pin) => {
      const top = this.level(pin.first) >= this.first ? this.heightOf(pin.first) : TOP;
      const isOpen = pin.last === null || this.level(pin.last) >= this.end;
      const ends = isOpen ? this.height - ROW / 2 : this.heightOf(pin.last);
      const told = `call ${pin.call} of ${this.told.who(pin.caller)} holds the type of ${pin.method}`;
      const bar = this.lanes[pin.caller].bar(this.columns.get(pin));
      return `<rect class="pin hue${methods.indexOf(pin.method) % 6}" x="${whole(bar)}" y="${whole(top - 5)}" width="6" height="${whole(ends - top + 10)}" rx="3"><title>${escaped(told)}</title></rect>`;
    });
  }

  drawnLinks() {
    return this.told.links.filter((link) => this.level(link.row) >= this.first && this.level(link.row) < this.end)
      .map((link) => (link.kind === "refusal" ? this.refusal(link) : this.overtaking(link)));
  }

  refusal(link) {
    const pin = this.pins.find((each) => each.first === link.cause);
    const [x, y] = this.placeOf(link.row);
    const bar = this.lanes[pin.caller].bar(this.columns.get(pin));
    return `<path class="refusal" d="M${whole(x)} ${whole(y)}L${whole(bar < x ? bar + 7 : bar - 1)} ${whole(y)}" marker-end="url(#tip)"/>`;
  }

  overtaking(link) {
    if (this.level(link.cause) < this.first) return "";
    const [x1, y1, x2, y2] = [...this.placeOf(link.cause), ...this.placeOf(link.row)].map(whole);
    const middle = whole((this.placeOf(link.cause)[0] + this.placeOf(link.row)[0]) / 2);
    return `<path class="overtaking" d="M${x1} ${y1}C${middle} ${y1} ${middle} ${y2} ${x2} ${y2}" marker-end="url(#tip)"/>`;
  }

  drawnRows() {
    return this.rows.map(([number, row]) => {
      const [x, y] = this.placeOf(number);
      const count = this.told.isOneOrder ? `<text class="number" x="${NUMBER - 8}" y="${whole(y + 4)}">${number + 1}</text>\n` : "";
      return `<g class="row" id="row${number}"><title>${escaped(row.sentence)}</title>
${count}${markOf(row, x, y)}
<text class="label ${kindOf(row)}" x="${whole(x + MARGIN)}" y="${whole(y + 4)}">${escaped(row.label)}</text></g>`;
    });
  }
}
