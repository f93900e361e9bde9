"use strict";
// The page: an editor, the proved program as a module of WebAssembly, its report with marks, and the picture of its history.

const { module, words: explained, sentences, pictureStyle, examples } = JSON.parse(document.getElementById("data").textContent);
const byId = (id) => document.getElementById(id);
const MOST = 2000;
let told = null;
let drawn = [];
let at = 0;

// ── the program ──

async function through(bytes, stream) {
  return new Uint8Array(await new Response(new Blob([bytes]).stream().pipeThrough(stream)).arrayBuffer());
}

const fromText = (text) => Uint8Array.from(atob(text), (letter) => letter.charCodeAt(0));
const compiled = through(fromText(module), new DecompressionStream("gzip")).then((bytes) => WebAssembly.compile(bytes));

// The status and what is written, of a run in a memory of its own. It has one run, so the heap need not be tidy.
async function run(words, bytes) {
  const { exports } = await WebAssembly.instantiate(await compiled, {});
  for (const [place, part] of [[exports.hb_words, words], [exports.hb_text, bytes]]) {
    const start = Number(place(BigInt(part.length)));
    if (!start && part.length) return [3, new Uint8Array()];
    new Uint8Array(exports.memory.buffer).set(part, start);
  }
  const status = exports.hb_run();
  return [status, new Uint8Array(exports.memory.buffer, Number(exports.hb_report()), Number(exports.hb_report_length())).slice()];
}

// ── the editor ──

const TOKEN = /(#[^\n]*)|("(?:[^"\\\n]|\\.)*"?)|\b(class|setup|script|type\?|type|def|end|if|then|else|while|do|nil|true|false|self|new|not|print|str)(?![\w])|\b(Nil|Bool|Int|Str|Any|[A-Z]\w*)\b|\b(\d+)\b/g;
const KINDS = ["comment", "text", "keyword", "type", "number"];

function paint() {
  const text = byId("program").value;
  const parts = [];
  let done = 0;
  for (const found of text.matchAll(TOKEN)) {
    parts.push(escaped(text.slice(done, found.index)));
    const kind = KINDS[found.slice(1).findIndex((group) => group !== undefined)];
    parts.push(`<span class="${kind}">${escaped(found[0])}</span>`);
    done = found.index + found[0].length;
  }
  byId("paint").innerHTML = parts.join("") + escaped(text.slice(done)) + "\n";
  byId("numbers").textContent = text.split("\n").map((_, number) => number + 1).join("\n");
  scroll();
}

function scroll() {
  const { scrollTop, scrollLeft } = byId("program");
  Object.assign(byId("paint"), { scrollTop, scrollLeft });
  byId("numbers").scrollTop = scrollTop;
}

// ── the report ──

const decoded = (bytes) => new TextDecoder().decode(bytes);

// The line of a place, with a mark below it. A column counts bytes.
function marked([line, column], lines) {
  const text = lines[line - 1] ?? new Uint8Array();
  const before = [...decoded(text.slice(0, column - 1)).replaceAll("\t", "    ")].length;
  const front = String(line).padStart(4);
  return `${front} | ${decoded(text).replaceAll("\t", "    ")}\n     | ${" ".repeat(before)}^`;
}

function linesOf(bytes) {
  const lines = [];
  for (let start = 0, end; start <= bytes.length; start = end + 1) {
    end = bytes.indexOf(10, start);
    if (end < 0) end = bytes.length;
    lines.push(bytes.slice(start, end));
  }
  return lines;
}

// The words of a line that are explained: none of most lines, two where a body is ill typed.
function wordsIn(line) {
  const refused = /^text ([A-Z]\w*)(?: (?!\d)(\S+))?/.exec(line);
  if (refused) return [["text", refused[1] + (refused[2] ? ` ${refused[2]}` : "")]];
  const stopped = /^stop ([A-Z]\w*) \d+:\d+(?: ([A-Z]\w*) \d+:\d+)?/.exec(line);
  return stopped ? [["stop", stopped[1]], ...(stopped[2] ? [["reason", stopped[2]]] : [])] : [];
}

function shown(line, lines) {
  const found = wordsIn(line);
  if (!found.length) return [[line === "done" ? "good" : "", line]];
  const places = [...line.matchAll(/(\d+):(\d+)/g)].map(([, row, column]) => marked([Number(row), Number(column)], lines));
  const told = found.map(([part, word]) => [word, explained[part][word]]).filter(([, sentence]) => sentence);
  return [["bad", line], ...places.map((place) => ["", place]), ...told.map(([word, sentence]) => ["more", `  ${word}: ${sentence}`])];
}

function showReport(report, bytes) {
  const lines = linesOf(bytes);
  byId("report").replaceChildren(...report.flatMap((line) => shown(line, lines)).map(([kind, text]) => {
    const made = document.createElement("div");
    made.className = kind;
    made.textContent = text;
    return made;
  }));
}

// ── the history ──

function callersOf(text) {
  const names = { 0: "the setup" };
  const bare = text.replace(/#[^\n]*|"(?:[^"\\\n]|\\.)*"/g, "");
  [...bare.matchAll(/\bscript\s+([a-z_]\w*)/g)].forEach((found, number) => { names[number + 1] = `script ${found[1]}`; });
  return names;
}

function showHistory(lines, text) {
  told = new Timeline(lines, callersOf(text), true, sentences);
  drawn = told.rows.slice(0, MOST);
  byId("picture").innerHTML = new Picture(told, 0, MOST, pictureStyle).svg("the history of the run");
  const cursor = document.createElementNS("http://www.w3.org/2000/svg", "rect");
  for (const [name, value] of [["class", "cursor"], ["x", 0], ["width", "100%"], ["height", 20]]) cursor.setAttribute(name, value);
  document.querySelector("#picture svg").insertBefore(cursor, document.querySelector("#picture .axes"));
  byId("slider").max = Math.max(drawn.length - 1, 0);
  for (const part of ["told", "picture"]) byId(part).hidden = !drawn.length;
  document.querySelector(".move").hidden = !drawn.length;
  go(0);
}

// What stands in the tables behind the acts up to this one.
function tablesAt(last) {
  const methods = new Map();
  for (const row of told.rows.slice(0, last + 1)) {
    if (!methods.has(row.method)) methods.set(row.method, { type: null, changes: 0, body: null, holds: new Map() });
    const method = methods.get(row.method);
    if (row.word === "type") Object.assign(method, { type: row.place, changes: method.changes + 1 });
    if (row.word === "def") method.body = row.place;
    if (row.word === "hold") method.holds.set(callOf(row), told.ofCall(row.caller, row.call));
    if (row.word === "free") method.holds.delete(callOf(row));
  }
  return methods;
}

function showTables(here) {
  const rows = [...tablesAt(at)].map(([name, method]) => {
    const row = document.createElement("tr");
    row.className = name === here ? "here" : "";
    const placed = (place) => (place ? place.join(":") : "none");
    for (const text of [name, placed(method.type), method.changes, placed(method.body), [...method.holds.values()].join("; ") || "nobody"]) {
      row.append(Object.assign(document.createElement("td"), { textContent: text }));
    }
    return row;
  });
  document.querySelector("#tables tbody").replaceChildren(...rows);
}

function go(to) {
  if (!drawn.length) return;
  at = Math.min(Math.max(to, 0), drawn.length - 1);
  const row = drawn[at];
  byId("slider").value = at;
  const more = told.rows.length > drawn.length ? ` (of ${told.rows.length} acts the first ${drawn.length} are drawn)` : "";
  byId("act").textContent = `${at + 1}. ${told.who(row.caller)}: ${row.label}${more}`;
  byId("why").textContent = row.sentence;
  byId("line").hidden = !row.place;
  if (row.place) byId("line").textContent = marked(row.place, linesOf(new TextEncoder().encode(byId("program").value)));
  showTables(row.method);
  const shownRow = byId(`row${at}`);
  document.querySelector("#picture .cursor").setAttribute("y", Number(shownRow.querySelector(".label").getAttribute("y")) - 14);
  const box = byId("picture"), top = told.rows[at].level * ROW + TOP;
  if (top < box.scrollTop || top + 2 * ROW > box.scrollTop + box.clientHeight) box.scrollTop = top - box.clientHeight / 2;
}

// ── running, and the address ──

const FIELDS = ["order", "steps", "versions"];

function wordsGiven() {
  const value = (name) => byId(name).value.trim();
  const options = FIELDS.filter((name) => value(name)).map((name) => `--${name}=${value(name)}`);
  return ["run", "--trace", ...(value("order") ? [] : ["--order=1"]), ...options];
}

async function runAndShow() {
  const text = byId("program").value;
  const start = performance.now();
  try {
    const bytes = new TextEncoder().encode(text);
    const [status, out] = await run(new TextEncoder().encode(wordsGiven().join("\n")), bytes);
    const lines = decoded(out).split("\n").slice(0, -1);
    const ends = lines.indexOf("trace");
    byId("status").textContent = `status ${status}, ${(performance.now() - start).toFixed(0)} ms`;
    showReport(ends < 0 ? lines : lines.slice(0, ends), bytes);
    showHistory(ends < 0 ? [] : lines.slice(ends + 1), text);
  } catch (error) {
    byId("status").textContent = `the module stopped: ${error}`;
  }
  await note(text);
}

// The text and the options in the address, so that it can be sent to somebody.
async function note(text) {
  const state = JSON.stringify([text, ...FIELDS.map((name) => byId(name).value)]);
  const packed = await through(new TextEncoder().encode(state), new CompressionStream("deflate-raw"));
  const letters = btoa(Array.from(packed, (byte) => String.fromCharCode(byte)).join(""));
  history.replaceState(null, "", `#${letters.replaceAll("+", "-").replaceAll("/", "_").replaceAll("=", "")}`);
}

async function noted() {
  try {
    const packed = fromText(location.hash.slice(1).replaceAll("-", "+").replaceAll("_", "/"));
    const [text, ...values] = JSON.parse(decoded(await through(packed, new DecompressionStream("deflate-raw"))));
    FIELDS.forEach((name, number) => { byId(name).value = values[number] ?? ""; });
    return text;
  } catch {
    return null;
  }
}

function take(example) {
  byId("program").value = example.text;
  for (const name of FIELDS) byId(name).value = example[name] ?? "";
  paint();
  return runAndShow();
}

async function begin() {
  for (const { name } of examples) byId("examples").append(Object.assign(document.createElement("option"), { textContent: name }));
  const text = location.hash.length > 1 ? await noted() : null;
  if (text === null) return take(examples[0]);
  byId("examples").selectedIndex = -1;
  byId("program").value = text;
  paint();
  return runAndShow();
}

byId("program").addEventListener("input", paint);
byId("program").addEventListener("scroll", scroll);
byId("examples").addEventListener("change", () => take(examples[byId("examples").selectedIndex]));
byId("run").addEventListener("click", runAndShow);
document.addEventListener("keydown", (event) => {
  if (event.key === "Enter" && (event.ctrlKey || event.metaKey)) {
    event.preventDefault();
    runAndShow();
  }
});
byId("back").addEventListener("click", () => go(at - 1));
byId("on").addEventListener("click", () => go(at + 1));
byId("slider").addEventListener("input", () => go(Number(byId("slider").value)));
const KEYS = { ArrowUp: -1, ArrowDown: 1, PageUp: -10, PageDown: 10, Home: -Infinity, End: Infinity };
byId("picture").addEventListener("keydown", (event) => {
  if (!(event.key in KEYS)) return;
  event.preventDefault();
  go(at + KEYS[event.key]);
});
byId("picture").addEventListener("click", (event) => {
  const row = event.target.closest(".row");
  if (row) go(Number(row.id.slice(3)));
});
const ready = begin();
