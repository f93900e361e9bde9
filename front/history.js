"use strict";
// Goes from act to act of the picture, and shows beside it what stands in the tables there.
const { isOneOrder, rows, lines } = JSON.parse(document.getElementById("data").textContent);
const byId = (id) => document.getElementById(id);
const svg = document.querySelector("#picture svg");
const slider = byId("slider");
const cursor = document.createElementNS("http://www.w3.org/2000/svg", "rect");
const drawn = rows.filter((row) => row.drawn);
let at = 0;

// What stands in the tables behind the acts up to this one: of each method its type, its body and the calls that hold its type.
function tablesAt(last) {
  const methods = new Map();
  const called = new Map();
  for (const row of rows) {
    if (row.id > last) break;
    if (!methods.has(row.method)) methods.set(row.method, { type: null, changes: 0, body: null, holds: new Map() });
    const method = methods.get(row.method);
    const call = `${row.who}, call ${row.call}`;
    if (row.word === "type") Object.assign(method, { type: row.place, changes: method.changes + 1 });
    if (row.word === "def") method.body = row.place;
    if (row.word === "hold") {
      if (!called.has(call)) called.set(call, row.method);
      method.holds.set(call, called.get(call));
    }
    if (row.word === "free") method.holds.delete(call);
  }
  return methods;
}

function cell(text) {
  const made = document.createElement("td");
  made.textContent = text;
  return made;
}

const placed = (place) => (place ? place.join(":") : "none");

function showTables(here) {
  const body = document.querySelector("#tables tbody");
  body.replaceChildren();
  byId("tables").hidden = !isOneOrder;
  byId("alone").hidden = isOneOrder;
  if (!isOneOrder) return;
  for (const [name, method] of tablesAt(drawn[at].id)) {
    const row = document.createElement("tr");
    row.className = name === here ? "here" : "";
    const holds = [...method.holds].map(([call, of]) => `${call} (${of})`).join("; ");
    row.append(cell(name), cell(placed(method.type)), cell(String(method.changes)), cell(placed(method.body)), cell(holds || "nobody"));
    body.append(row);
  }
}

// The line of the text at which an act points, with a mark below its place.
function showLine(place) {
  byId("line").hidden = !place;
  if (!place) return;
  const [line, column] = place;
  const text = lines[line - 1].replaceAll("\t", " ");
  byId("line").textContent = `${line} | ${text}\n${" ".repeat(String(line).length)} | ${" ".repeat(column - 1)}^`;
}

function go(to) {
  if (!drawn.length) return;
  at = Math.min(Math.max(to, 0), drawn.length - 1);
  const row = drawn[at];
  slider.value = at;
  byId("act").textContent = `${isOneOrder ? `${row.id + 1}. ` : ""}${row.who}: ${row.label}`;
  byId("why").textContent = row.why;
  showLine(row.place);
  showTables(row.method);
  const shown = byId(`row${row.id}`);
  const label = shown.querySelector(".label");
  cursor.setAttribute("y", Number(label.getAttribute("y")) - 14);
  shown.scrollIntoView({ block: "nearest", inline: "nearest" });
  history.replaceState(null, "", `#${row.id + 1}`);
}

const keys = { ArrowUp: -1, ArrowLeft: -1, ArrowDown: 1, ArrowRight: 1, PageUp: -10, PageDown: 10, Home: -Infinity, End: Infinity };
document.addEventListener("keydown", (event) => {
  if (!(event.key in keys) || event.altKey || event.ctrlKey || event.metaKey) return;
  event.preventDefault();
  go(at + keys[event.key]);
});
byId("back").addEventListener("click", () => go(at - 1));
byId("on").addEventListener("click", () => go(at + 1));
slider.addEventListener("input", () => go(Number(slider.value)));
svg.addEventListener("click", (event) => {
  const row = event.target.closest(".row");
  if (row) go(drawn.findIndex(({ id }) => `row${id}` === row.id));
});

slider.max = Math.max(drawn.length - 1, 0);
for (const [name, value] of [["class", "cursor"], ["x", 0], ["width", "100%"], ["height", 20]]) cursor.setAttribute(name, value);
svg.insertBefore(cursor, svg.querySelector(".axes"));
go(drawn.findIndex(({ id }) => id === Number(location.hash.slice(1)) - 1));
