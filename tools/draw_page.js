"use strict";
const run = /*DATA*/;
const ROW = 24, TOP = 20, ROWS = 400, FOOT = 15;
const [CORE, COUNT, LEVEL, DOES, ADDRESS, KIND, LOGGED, REST, LOSES, TWIN] = [0, 1, 2, 3, 4, 5, 6, 7, 8, 9];
const by = (id) => document.getElementById(id);
const states = run.states, last = states ? states.rows.length - 1 : 0;
let first = 0, picked = null, word = "";
// With states: how far time has gone. 0 is before the first row, k behind the k-th, and one more is the end.
let time = 0;

const text = (it) => String(it).replace(/[&<>"]/g, (c) => `&#${c.charCodeAt(0)};`);
const hex = (it) => it.toString(16);
const name = (number) => `${run.nodes[number][CORE]}:${run.nodes[number][COUNT]}`;
const numbered = new Map(run.nodes.map((_, number) => [name(number), number]));

function said(number) {
  const it = run.nodes[number];
  return [it[DOES], it[LOSES], it[TWIN], it[LOGGED] ? "logged" : "", it[REST]].filter(Boolean).join("   ");
}

// The instructions, of the word alone where one is chosen, and a row for each of their levels: empty rows are left out.
function rowed() {
  const nodes = run.nodes.map((it, number) => ({ it, number }))
    .filter(({ it }) => word === "" || String(it[ADDRESS]) === word);
  const levels = [...new Set(nodes.map(({ it }) => it[LEVEL]))].sort((a, b) => a - b);
  return { nodes, row: new Map(levels.map((level, at) => [level, at])) };
}

// Where the instructions of the window stand, and how many rows there are.
function shown() {
  const { nodes, row } = rowed(), there = new Map();
  for (const { it, number } of nodes) {
    const at = row.get(it[LEVEL]) - first;
    if (at >= 0 && at < ROWS) there.set(number, { x: run.lanes[it[CORE]].line, y: TOP + at * ROW });
  }
  return { there, rows: row.size };
}

const anchor = (lane) => (lane.left ? ' text-anchor="end"' : "");
const isFuture = (number) => states && number >= time;

function arrow(edge, there, kind, colour) {
  const [from, to] = [there.get(edge[0]), there.get(edge[1])];
  if (!from || !to) return "";
  const touched = picked === edge[0] || picked === edge[1], side = to.x > from.x ? 7 : -7;
  const dim = isFuture(edge[1]) && !touched ? " future" : "";
  const look = kind + (picked !== null && kind === "edge" ? (touched ? " picked" : states ? dim : " faint") : dim);
  const paint = colour ? ` style="stroke:${colour}"` : ' marker-end="url(#head)"';
  const way = `d="M ${from.x + side} ${from.y} L ${to.x - side} ${to.y}"`;
  return `<g><title>${name(edge[0])} before ${name(edge[1])}${text(edge[2])}</title>` +
    `<path class="near" ${way}/><path class="${look}"${paint} ${way}/></g>`;
}

function dot(number, { x, y }) {
  const it = run.nodes[number], lane = run.lanes[it[CORE]];
  const state = (number === picked ? " picked" : "") + (isFuture(number) ? " future" : "");
  const kinds = (it[LOGGED] ? " ring" : "") + (it[LOSES] || it[TWIN] ? " lost" : "") + state;
  const look = `class="dot${kinds}" data-n="${number}"`;
  const shape = ["store", "amo"].includes(it[KIND])
    ? `<rect ${look} x="${x - 4.5}" y="${y - 4.5}" width="9" height="9"/>`
    : `<circle ${look} cx="${x}" cy="${y}" r="4.5"/>`;
  const rest = states ? "" : `${it[LOGGED] ? "logged " : ""}${it[REST]}`;
  const count = String(run.shared ? name(number) : it[COUNT]).padStart(run.digits[it[CORE]]);
  const parts = [["count", count], ["does", it[DOES]], ["lost", it[LOSES]], ["rest", rest]].filter((of) => of[1]);
  const spans = (lane.left ? parts.reverse() : parts)
    .map(([kind, of]) => `<tspan class="${kind}">${text(of)}</tspan>`).join("  ");
  return `${shape}<text class="told${state}" data-n="${number}" x="${lane.words}" y="${y + 4}"${anchor(lane)}>` +
    `<title>${name(number)} ${text(said(number))}</title>${spans}</text>`;
}

// The row where time stands, or else of what is picked.
function band(there, width) {
  const row = picked !== null && there.get(picked);
  return row ? `<rect class="now" id="now" x="0" y="${row.y - ROW / 2}" width="${width}" height="${ROW}"/>` : "";
}

function heads(width) {
  const many = run.lanes.length > 2;
  const texts = run.lanes.map((lane, core) =>
    `<text x="${lane.words}" y="20"${anchor(lane)}>${run.heads[core]}</text>` +
    (many ? `<text x="${lane.line}" y="20" text-anchor="middle">${core}</text>` : ""));
  by("heads").innerHTML = `<svg width="${width}" height="28">${texts.join("")}</svg>`;
}

// How each core ended, under its lane.
function feet(y) {
  return run.ends.map((lines, core) => lines.map((line, number) =>
    `<text class="end" x="${run.lanes[core].words}" y="${y + FOOT * (number + 1)}"${anchor(run.lanes[core])}>` +
    `${text(line)}</text>`).join("")).join("");
}

function draw() {
  const { there, rows } = shown(), width = run.width, isLast = first + ROWS >= rows;
  const bottom = TOP + ROW * Math.min(rows - first, ROWS);
  const height = bottom + 20 + (isLast ? FOOT * Math.max(0, ...run.ends.map((it) => it.length)) : 0);
  const lanes = run.lanes.map(({ line }) =>
    `<line class="lane" x1="${line}" y1="0" x2="${line}" y2="${bottom}"/>`);
  const bands = run.bands.map((edges, at) => {
    const told = `: vector ${at + 1} of the regulated log`, colour = run.colours[at % run.colours.length];
    return edges.map((it) => arrow([...it, told], there, "vector", colour)).join("");
  });
  const edges = run.edges.map((it) => arrow(it, there, "edge"));
  const dots = [...there].map(([number, place]) => dot(number, place));
  heads(width);
  by("picture").innerHTML = `<svg width="${width}" height="${height}"><defs>` +
    `<marker id="head" markerWidth="12" markerHeight="12" refX="11" refY="5" orient="auto" ` +
    `markerUnits="userSpaceOnUse"><path fill="context-stroke" d="M 0 0 L 11 5 L 0 10 z"/></marker></defs>` +
    `${band(there, width)}${lanes.join("")}${bands.join("")}${edges.join("")}${dots.join("")}` +
    `${isLast ? feet(bottom) : ""}</svg>`;
  by("window").textContent = `rows ${rows ? first + 1 : 0} to ${Math.min(first + ROWS, rows)} of ${rows}`;
  by("earlier").disabled = first === 0;
  by("later").disabled = isLast;
  tell();
  if (states) tellState();
}

function list(id, of) {
  by(id).innerHTML = of.map((it) => `<li data-n="${it}">${name(it)} ${text(said(it))}</li>`).join("") ||
    "<li>nothing of another core</li>";
}

function tell() {
  by("what").innerHTML = picked === null ? (states ? "No instruction" : "Click an instruction")
    : `<a href="#${name(picked)}">${name(picked)}</a> ${text(said(picked))}`;
  list("before", picked === null ? [] : run.edges.filter((it) => it[1] === picked).map((it) => it[0]));
  list("after", picked === null ? [] : run.edges.filter((it) => it[0] === picked).map((it) => it[1]));
}

// What is told of time: the cores, their registers, the memory and the program.

const badge = (core) =>
  `<span class="badge" style="background:${run.colours[core % run.colours.length]}">${core}</span>`;
const registers = !states ? [] : [...new Set(states.cores.flatMap((it) => Object.keys(it[3]).map(Number)))]
  .sort((a, b) => a - b);
const ABI = ("zero ra sp gp tp t0 t1 t2 s0 s1 a0 a1 a2 a3 a4 a5 a6 a7 " +
  "s2 s3 s4 s5 s6 s7 s8 s9 s10 s11 t3 t4 t5 t6").split(" ");

function moment() {
  if (time === 0) return "Before the first row";
  return time === last ? "At the end" : `Row ${time} of ${run.nodes.length}: just after ${name(time - 1)}`;
}

const link = (it, kind) => (numbered.has(it) ? `<span class="${kind}" data-n="${numbered.get(it)}">${it}</span>` : it);

// How a core stands: at its end, or before its next instruction that is shown, with what it waits for on its way there.
function tellCore(core) {
  const row = states.rows[time], [stop, retired, pc] = states.cores[row.cores[core]], [next, waits] = row.waits[core];
  const place = stop === "total" && states.places[pc], file = place && states.files[place[0]];
  const where = file && !file[2] ? `${text(file[0])}:${place[1] + 1}` : `pc ${hex(pc)}`;
  const sources = waits.map((it) => link(it, "wait")).join(", ");
  const wait = waits.length ? `<b class="waits">waits for ${sources}</b>` : "can go on";
  const doing = stop !== "total" ? stop : `${next ? `next ${link(next, "next")}, ` : ""}${wait}`;
  return `<div data-core="${core}">${badge(core)} ${retired} of ${run.totals[core]}, at ${where}: ${doing}</div>`;
}

// Each with whether the row changed it.
function cell(kind, at, now, before) {
  return `<td class="value${now === before ? "" : " changed"}" data-${kind}="${at}">${hex(now)}</td>`;
}

function tellState() {
  const now = states.rows[time], before = states.rows[Math.max(0, time - 1)];
  const cores = run.totals.map((_, core) => core);
  by("time").value = time;
  by("moment").textContent = moment();
  by("cores").innerHTML = cores.map(tellCore).join("");
  const of = (row, core, register) => states.cores[row.cores[core]][3][register] ?? 0;
  by("registers").innerHTML = `<tr><th></th>${cores.map((it) => `<th>${badge(it)}</th>`).join("")}</tr>` +
    registers.map((it) => `<tr><th>x${it} ${ABI[it]}</th>${cores.map((core) =>
      cell("register", `${core}:${it}`, of(now, core, it), of(before, core, it))).join("")}</tr>`).join("");
  const value = (row, address) => row.memory[address] ?? states.opening[address];
  const row = (it) => `<tr><th>${text(states.names[it])}</th>` +
    `${cell("word", hex(Number(it)), value(now, it), value(before, it))}</tr>`;
  by("memory").innerHTML = Object.keys(states.opening).map(row).join("") || "<tr><td>no word changes</td></tr>";
  tellSource(cores);
}

const margin = (file, line) => by(`line-${file}-${line}`);
let marked = [];

function tellSource(cores) {
  for (const it of marked) { margin(...it).innerHTML = ""; margin(...it).parentNode.classList.remove("here"); }
  marked = [];
  for (const core of cores) {
    const [stop, , pc] = states.cores[states.rows[time].cores[core]], place = states.places[pc];
    if (stop !== "total" || !place) continue;
    margin(...place).innerHTML += badge(core);
    margin(...place).parentNode.classList.add("here");
    marked.push(place);
    if (picked === null || run.nodes[picked][CORE] === core) into(by("source"), margin(...place).parentNode);
  }
}

function layOutStates() {
  by("time").max = last;
  by("source").innerHTML = states.files.map(([file, lines, addressed], at) => `<div class="file">${text(file)}</div>` +
    lines.map((line, number) => `<div class="line"><span class="margin" id="line-${at}-${number}"></span>` +
      `<span class="number">${addressed ? "" : number + 1}</span>${text(line)}</div>`).join("")).join("");
  by("states").hidden = by("stated").hidden = false;
  document.body.classList.add("timed");
}

// Scrolls a pane so far that a part of it is seen.
function into(pane, part) {
  const [outer, inner] = [pane.getBoundingClientRect(), part.getBoundingClientRect()], room = 2 * ROW;
  if (inner.top < outer.top + room) pane.scrollTop -= outer.top + room - inner.top;
  if (inner.bottom > outer.bottom - room) pane.scrollTop += inner.bottom - outer.bottom + room;
}

// The page's address names what is picked, once that stands for a while: browsers count such changes.
let settled = 0;
function nameInAddress() {
  clearTimeout(settled);
  settled = setTimeout(() => picked !== null && history.replaceState(null, "", `#${name(picked)}`), 200);
}

// A picked instruction comes into the window.
function pick(number) {
  picked = number;
  if (states) time = number + 1;
  if (!shown().there.has(number)) {
    if (word !== "" && String(run.nodes[number][ADDRESS]) !== word) { word = ""; by("word").value = ""; }
    first = Math.max(0, rowed().row.get(run.nodes[number][LEVEL]) - ROWS / 2);
  }
  draw();
  nameInAddress();
  if (by("now")) into(by("lanes"), by("now"));
}

// Goes to a position in time.
function go(position) {
  const to = Math.min(Math.max(position, 0), last);
  if (to > 0 && to < last) return pick(to - 1);
  [time, picked, first] = [to, null, to ? Math.max(0, rowed().row.size - ROWS) : 0];
  draw();
  by("lanes").scrollTop = to ? by("lanes").scrollHeight : 0;
}

// Goes on by an instruction of those that are shown, or back.
function step(way) {
  if (states) return go(time + way);
  const order = rowed().nodes.map(({ number }) => number), at = order.indexOf(picked);
  const from = at < 0 && way < 0 ? order.length : at;
  if (order.length) pick(order[Math.min(Math.max(from + way, 0), order.length - 1)]);
}

function page(way) {
  const { rows } = shown();
  if (way < 0 ? first > 0 : first + ROWS < rows) { first = Math.max(0, first + way * ROWS); draw(); }
}

// A link names an instruction, as #1:9.
function follow(hash) {
  if (!/^#\d+:\d+$/.test(hash)) return;
  const number = numbered.get(hash.slice(1));
  if (number === undefined) by("what").textContent = `${hash.slice(1)} isn't shown here`;
  else pick(number);
}

const KEYS = {
  ArrowDown: () => step(1), ArrowRight: () => step(1), ArrowUp: () => step(-1), ArrowLeft: () => step(-1),
  Home: () => step(-Infinity), End: () => step(Infinity),
  PageUp: () => (states ? step(-10) : page(-1)), PageDown: () => (states ? step(10) : page(1)),
  Escape: () => { if (!states) { picked = null; draw(); } },
};

document.addEventListener("keydown", (key) => {
  if (!KEYS[key.key] || key.altKey || key.ctrlKey || key.metaKey || key.target.id === "word") return;
  key.preventDefault();
  KEYS[key.key]();
});
document.addEventListener("click", (click) => {
  const of = click.target.closest && click.target.closest("[data-n]");
  if (of) pick(Number(of.dataset.n));
});
by("earlier").onclick = () => page(-1);
by("later").onclick = () => page(1);
by("word").onchange = () => { word = by("word").value; first = 0; draw(); };
const words = Object.keys(run.names).map(Number).sort((a, b) => a - b);
by("word").innerHTML = '<option value="">all</option>' +
  words.map((it) => `<option value="${it}">${text(run.names[it])}</option>`).join("");
by("note").textContent = run.note;
by("final").textContent = run.final;
if (states) {
  layOutStates();
  by("time").oninput = () => go(Number(by("time").value));
  for (const [id, to] of [["start", () => 0], ["back", () => time - 1], ["on", () => time + 1], ["end", () => last]])
    by(id).onclick = () => go(to());
}
addEventListener("hashchange", () => follow(location.hash));
draw();
follow(location.hash);
