"use strict";
// What a trace tells, row by row. front/acts.py and front/timeline.py say the same for hb, and a test compares the pictures.

const FORM = /^(\d+) (hold|free|call|type|busy|def|worn type|worn def) (?:(\d+) )?([A-Z]\w*\.[a-z_]\w*)(?: (.*))?$/;

const capital = (text) => text[0].toUpperCase() + text.slice(1);

class Timeline {
  // `names` has the callers' names, by their numbers; `sentences` what an act is where no more is known of it.
  constructor(lines, names, hasOrder, sentences) {
    this.names = names;
    this.sentences = sentences;
    this.isOneOrder = hasOrder || Object.keys(names).length <= 2;
    this.rows = lines.map((line) => FORM.exec(line)).filter(Boolean).map((found) => this.rowOf(found));
    this.depth = this.setLevels();
    this.pins = [];
    this.links = [];
    // What is held now: the row of the hold by caller, call and method; the checks that each caller has kept of a method.
    this.open = new Map();
    this.kept = new Map();
    this.retreats = new Set();
    this.called = new Map();
    this.decided = new Map();
    this.rows.forEach((row, number) => {
      if (row.word === "hold" && !this.called.has(callOf(row))) this.called.set(callOf(row), row.method);
      if (row.word === "call") this.decided.set(callOf(row), number);
    });
    this.rows.forEach((row, number) => this.follow(row, number));
    for (const [key, first] of this.open) this.pins.push({ ...parted(key), first, last: null });
    this.pins.sort((one, other) => one.first - other.first);
    for (const row of this.rows) {
      row.label = this.label(row);
      row.sentence = this.sentence(row);
    }
  }

  rowOf([line, caller, word, call, method, rest = ""]) {
    const place = / (\d+):(\d+)(?= |$)/.exec(` ${rest}`);
    const verdict = word === "call" ? rest.slice(rest.indexOf(") ") + 2) : "";
    return { line, caller, word, call, method, verdict, place: place && [Number(place[1]), Number(place[2])], body: rest.split(" ")[0], why: "" };
  }

  // How far down each row stands: by its number, or, where the scripts ran at once, by that in its own lane behind the setup.
  setLevels() {
    const setup = this.rows.filter((row) => row.caller === "0").length;
    const next = {};
    this.rows.forEach((row, number) => {
      next[row.caller] ??= row.caller === "0" ? 0 : setup;
      row.level = this.isOneOrder ? number : next[row.caller]++;
    });
    return Math.max(-1, ...this.rows.map((row) => row.level)) + 1;
  }

  who(caller) {
    return this.names[caller] ?? `script ${caller}`;
  }

  ofCall(caller, call) {
    return `call ${call} of ${this.who(caller)} (${this.called.get(`${caller} ${call}`)})`;
  }

  // Opens and closes pins, says why a row came so, and links it with its causes.
  follow(row, number) {
    const key = `${callOf(row)} ${row.method}`;
    if (row.word === "hold") this.open.set(key, number);
    if (row.word === "free") this.free(row, number, key);
    if (row.word === "busy") this.busy(row, number);
    if (row.word === "call") {
      this.retreats.delete(callOf(row));
      if (row.verdict === "enter fresh") this.fresh(row, number);
    }
  }

  free(row, number, key) {
    const call = callOf(row);
    this.pins.push({ ...parted(key), first: this.open.get(key) ?? number, last: number });
    this.open.delete(key);
    if (!(number < (this.decided.get(call) ?? -1)) || this.retreats.has(call)) return;
    this.retreats.add(call);
    const body = this.overtaking(number, call);
    const whose = body === undefined ? "" : ` of ${this.who(this.rows[body].caller)}`;
    row.why = `a newer body${whose} came before ${this.ofCall(row.caller, row.call)} was decided, which goes on with that`;
    if (body !== undefined) this.links.push({ kind: "overtaking", row: number, cause: body });
  }

  // The row of the newest body that came to a called method between the first hold of the call and this row.
  overtaking(number, call) {
    const first = this.rows.findIndex((row) => callOf(row) === call);
    const bodies = this.rows.map((row, at) => at).filter((at) => at >= first && at < number
      && this.rows[at].word === "def" && this.rows[at].method === this.called.get(call));
    return bodies.at(-1);
  }

  busy(row, number) {
    const holds = [...this.open].filter(([key]) => parted(key).method === row.method);
    for (const [, first] of holds) this.links.push({ kind: "refusal", row: number, cause: first });
    const told = holds.slice(0, 3).map(([key]) => this.ofCall(parted(key).caller, parted(key).call));
    if (holds.length > 3) told.push(`${holds.length - 3} more`);
    if (told.length) row.why = `the type of ${row.method} is in use by ${told.join(" and ")}`;
  }

  // What became of the check that the caller had kept of this method, if it had one.
  fresh(row, number) {
    const key = `${row.caller} ${row.method}`;
    const before = this.kept.get(key);
    const uses = [...this.open.keys()].map(parted).filter((pin) => pin.caller === row.caller && pin.call === row.call).map((pin) => pin.method);
    this.kept.set(key, { number, body: row.body, uses });
    const change = before && this.change(row, number, before);
    if (change) row.why = `a check was kept and agrees no more: ${this.who(change.caller)} gave ${change.method} a ${change.word === "def" ? "body" : "type"}`;
  }

  // What came between two checks that a caller made of a method, and was the cause of the second one.
  change(row, number, before) {
    const between = this.rows.slice(before.number + 1, number);
    const bodies = between.filter((other) => other.word === "def" && other.method === row.method && (before.body !== row.body || other.caller === row.caller));
    const types = between.filter((other) => other.word === "type" && before.uses.includes(other.method));
    return bodies.at(-1) ?? types[0];
  }

  label(row) {
    if (row.word === "call") return `call ${row.method}: ${row.verdict}`;
    if (row.word === "busy") return `type ${row.method}: refused, it is in use`;
    if (row.word.startsWith("worn")) return `${row.word.split(" ")[1]} ${row.method}: worn out`;
    if (row.word === "free" && row.why) return `free ${row.method}: overtaken by a newer body`;
    return `${row.word} ${row.method}` + (row.place && (row.word === "type" || row.word === "def") ? ` ${row.place.join(":")}` : "");
  }

  sentence(row) {
    const { calls, others, ill } = this.sentences;
    const plain = row.word === "call" ? calls[row.verdict] ?? ill : others[row.word];
    return row.why ? `${plain} ${capital(row.why)}.` : plain;
  }

  callers() {
    return [...new Set(this.rows.map((row) => row.caller))].sort((one, other) => one - other);
  }
}

const callOf = (row) => `${row.caller} ${row.call}`;

function parted(key) {
  const [caller, call, method] = key.split(" ");
  return { caller, call, method };
}
