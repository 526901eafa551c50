"use strict";
// The page's script: the axis, labels where they fit, zoom, and the events at the pointer.
const NAMES = ["place", "clock", "event", "log", "line", "bio", "parent", "kind", "device", "sectors", "happened", "writers"];
// Rows grow to fill the window, but for the panel, by at most MOST_GROWN. Of more than FEW_ARROWS
// only those of the picked fault are drawn.
const MOST = 60, TOP = 30, PANEL = 210, MOST_GROWN = 4, MARK = 6, FEW_ARROWS = 12;
const find = (name) => document.getElementById(name);
const svg = document.querySelector("svg.runs"), scroll = document.querySelector(".scroll");
const rows = find("rows").textContent.trim().split("\n").map((line) => line.split("\t"));
const texts = JSON.parse(find("texts").textContent);
const clocks = rows.map((row) => Number(row[1])), count = rows.length;
const start = clocks[0], span = clocks[count - 1] - start, share = Number(svg.dataset.share), first = Number(rows[0][0]);
const bars = [...svg.querySelectorAll("rect[data-e]")];
const boxes = new Map(bars.map((bar) => {
  const moment = [parseFloat(bar.getAttribute("x")), parseFloat(bar.getAttribute("width"))];
  return [bar, { moment, event: bar.dataset.e.split(" ").map(Number) }];
}));
const marks = bars.filter((bar) => bar.parentNode.dataset.kind === "finding" && bar.dataset.r);
const operations = new Map(bars.filter((bar) => bar.closest("[data-kind]").dataset.kind === "log" && bar.dataset.r)
  .map((bar) => [Number(bar.dataset.r.split(" ")[0]), bar]));
// the faults of which the answer is shown, in their order: word, and the places of the operation, its answer and its cause
const found = JSON.parse(find("found").textContent).map(([word, place, answer, cause], number) => ({ word, place, answer, cause, number }))
  .filter((it) => it.answer >= first && it.answer < first + count).sort((one, other) => one.answer - other.answer);
for (const mark of marks) mark.fault = found.find((it) => `${it.place} ${it.answer}` === mark.dataset.r && mark.dataset.t.startsWith(it.word + ":"));
let way = "moment", zoom = 1, picked = null, here = 0, grown = 1, fault = -1;

// where a height of the drawing lies, whose rows have grown
const tall = (height) => TOP + (height - TOP) * grown;
const top_ = (bar) => bar.y.baseVal.value, bottom = (bar) => top_(bar) + bar.height.baseVal.value;

// where a moment lies before which so many events came, as a share of the width
function at(clock, events) {
  if (way === "event") return events / count;
  return (span ? ((clock - start) / span) * (1 - share) : 0) + (events / count) * share;
}
const left = (event) => at(clocks[event], event), right = (event) => at(clocks[event], event + 1);

// the greatest number from 0 on below `end` for which `holds`, which is true up to some number
function last(end, holds) {
  let low = 0, high = end - 1;
  while (low < high) {
    const middle = Math.ceil((low + high) / 2);
    if (holds(middle)) low = middle; else high = middle - 1;
  }
  return low;
}
const eventAt = (place) => last(count, (event) => left(event) <= place);
const firstFrom = (clock) => (clocks[0] >= clock ? 0 : last(count, (event) => clocks[event] < clock) + 1);

// a round step of at least this size
function rounded(size) {
  const power = 10 ** Math.floor(Math.log10(Math.max(size, 1)));
  return [1, 2, 5, 10].map((digit) => digit * power).find((step) => step >= size);
}
const secondsOf = (clock, step) => (clock / 1e6).toFixed(Math.min(6, Math.max(0, 6 - Math.floor(Math.log10(step))))) + " s";
const make = (name, values, text) => {
  const made = document.createElementNS("http://www.w3.org/2000/svg", name);
  for (const [key, value] of Object.entries(values)) made.setAttribute(key, value);
  if (text) made.textContent = text;
  return made;
};

// the edges of what is seen, as shares of the width
function seen() {
  const width = svg.clientWidth || svg.getBoundingClientRect().width;
  return [scroll.scrollLeft / width, (scroll.scrollLeft + scroll.clientWidth) / width, width];
}

function drawTicks() {
  const [from, to, width] = seen(), begin = eventAt(from), end = eventAt(to), found = [];
  if (way === "event") {
    const step = rounded((150 / width) * count);
    for (let place = Math.ceil((begin + first) / step) * step; place - first <= end; place += step)
      found.push([left(place - first), `event ${place}, ${secondsOf(clocks[place - first], 1e4).replace(/\.?0+ s/, " s")}`]);
  } else if (span) {
    const step = rounded(((90 / width) * span) / (1 - share));
    const until = end + 1 < count ? clocks[end + 1] : clocks[end];
    for (let clock = Math.ceil(clocks[begin] / step) * step; clock <= until && found.length < 400; clock += step)
      found.push([at(clock, firstFrom(clock)), secondsOf(clock, step)]);
  }
  const kept = [];
  let edge = -1e9;
  for (const [place, text] of found) {
    const wide = text.length * 6.5 + 8;
    if (place < from || place + wide / width > to || place * width < edge) continue;
    edge = place * width + wide + 6;
    kept.push(make("line", { x1: `${place * 100}%`, x2: `${place * 100}%`, y1: 6, y2: "100%" }));
    kept.push(make("text", { x: `${place * 100}%`, dx: 4, y: 16 }, text));
  }
  find("ticks").replaceChildren(...kept);
}

// what a bar may be labelled with, the longest first
function labelsOf(bar) {
  const row = rows[bar.dataset.r.split(" ")[0] - first], kind = bar.parentNode.dataset.kind;
  if (!row) return [];
  if (kind === "device") {
    const number = bar.dataset.t.split(/[ :]/)[1];
    return [`bio ${number}`, number];
  }
  if (kind === "finding") return [];
  if (kind === "script") return [`${row[4]} ${row[10]}`, row[10]];
  return row[9] === "-" || row[7] === "flush" ? [`${row[4]} ${row[10]}`, row[4]] : [`${row[4]} ${row[10]} ${row[9]}`, `${row[4]} ${row[10]}`, row[4]];
}

function drawLabels() {
  const [from, to, width] = seen(), made = [], far = svg.classList.contains("is-far");
  for (const bar of bars) {
    if (!bar.dataset.r || (far && bar.parentNode.classList.contains("near"))) continue;
    const [x, wide] = boxes.get(bar)[way], pixels = (wide * width) / 100;
    bar.classList.toggle("thin", pixels < 3);
    if (pixels < 12 || x > to * 100 || x + wide < from * 100 || bar.height.baseVal.value * grown < 14) continue;
    const shown = Math.max(x, from * 100), room = ((Math.min(x + wide, to * 100) - shown) * width) / 100;
    const text = labelsOf(bar).find((label) => label.length * 6.4 + 6 <= room);
    const look = { held: "on-held", lost: "on-light", step: "on-light", zeroes: "on-light" }[bar.classList[0]] || "";
    if (text) made.push(make("text", { class: look, x: `${shown}%`, dx: 4, y: tall((top_(bar) + bottom(bar)) / 2) + 4 }, text));
  }
  find("labels").replaceChildren(...made);
}

// a mark is at least MARK pixels wide, and none goes past an edge
function drawMarks() {
  const width = seen()[2];
  for (const mark of marks) {
    const [x, wide] = boxes.get(mark)[way].map((share) => (share * width) / 100), pixels = Math.max(wide, MARK);
    mark.setAttribute("x", Math.min(Math.max(x + (wide - pixels) / 2, 0), width - pixels));
    mark.setAttribute("width", pixels);
  }
}

// an arrow over the rows, from an operation's bar to another's
function arrow(from, to, isPicked) {
  const width = seen()[2], [x, end] = [from, to].map((bar) => ((boxes.get(bar)[way][0] + boxes.get(bar)[way][1] / 2) * width) / 100);
  const [y, last] = [from, to].map((bar) => tall(top_(bar))), rise = Math.min(60, 14 + Math.abs(end - x) / 6);
  return make("path", { class: isPicked ? "picked" : "", "marker-end": "url(#tip)", d: `M${x} ${y}C${x} ${y - rise} ${end} ${last - rise} ${end} ${last}` });
}

// from each lost or changed write to the reads that found it: of few all, else those of what is picked
function drawArrows() {
  const reads = found.filter((it) => it.cause && it.word !== "broken-sync" && operations.has(it.cause) && operations.has(it.place));
  const place = picked && picked.dataset.r ? Number(picked.dataset.r.split(" ")[0]) : 0;
  const isPicked = (it) => it.place === place || it.cause === place;
  const shown = reads.filter((it) => reads.length <= FEW_ARROWS || isPicked(it)).slice(0, MOST);
  find("arrows").replaceChildren(...shown.map((it) => arrow(operations.get(it.cause), operations.get(it.place), isPicked(it))));
}

// the rows fill the window but for the panel, and the panel what the rows leave
function fit() {
  const base = Number(svg.dataset.height), above = scroll.getBoundingClientRect().top + window.scrollY;
  grown = Math.min(Math.max((window.innerHeight - above - PANEL - TOP) / (base - TOP), 1), MOST_GROWN);
  find("drawn").setAttribute("transform", `translate(0 ${TOP * (1 - grown)}) scale(1 ${grown})`);
  for (const it of [svg, find("cursor")]) it.setAttribute("height", tall(base));
  document.querySelector(".names").style.height = `${tall(base)}px`;
  for (const name of document.querySelectorAll(".names div")) {
    const [at, high] = name.dataset.at.split(" ").map(Number);
    name.style.top = `${tall(at)}px`;
    name.style.height = `${high * grown}px`;
  }
  find("panel").style.height = `${Math.max(PANEL, window.innerHeight - above - tall(base) - 2)}px`;
}

let asked = false;
function draw() {
  if (asked) return;
  asked = true;
  requestAnimationFrame(() => { asked = false; drawTicks(); drawMarks(); drawLabels(); drawArrows(); drawCursor(); });
}

function drawCursor() {
  find("cursor").setAttribute("x", `${left(here) * 100}%`);
  find("cursor").setAttribute("width", `${(right(here) - left(here)) * 100}%`);
}

// the layout, and whether the events lie so near to one another that bars tell little
function setClass() {
  svg.setAttribute("class", `runs is-live by-${way} ${zoom * scroll.clientWidth < count ? "is-far" : "is-near"}`);
}

function choose(name) {
  const middle = here;
  way = name;
  for (const bar of bars) {
    const [x, wide] = boxes.get(bar)[way];
    bar.setAttribute("x", `${x}%`);
    bar.setAttribute("width", `${wide}%`);
  }
  for (const it of ["moment", "event"]) find(it).classList.toggle("on", it === way);
  setClass();
  if (zoom > 1) scroll.scrollLeft = left(middle) * zoom * scroll.clientWidth - scroll.clientWidth / 2;
  draw();
}

// zooms so that the place under these pixels from the left stays there
function zoomTo(wanted, pixels = scroll.clientWidth / 2) {
  const place = (scroll.scrollLeft + pixels) / (zoom * scroll.clientWidth);
  zoom = Math.min(Math.max(wanted, 1), Math.max(1, Math.min(2000, (count * 60) / scroll.clientWidth)));
  svg.style.width = `${zoom * 100}%`;
  setClass();
  scroll.scrollLeft = place * zoom * scroll.clientWidth - pixels;
  draw();
}

const cell = (name, text) => {
  const made = document.createElement(name);
  made.textContent = text;
  return made;
};
const textOf = (row) => texts[`${row[3]} ${row[4]}`] || "";

// the panel: remarks, and the events with these numbers from 0
function show(remarks, events) {
  const table = document.createElement("table"), head = document.createElement("tr");
  const withText = Object.keys(texts).length ? ["the bundle's line"] : [];
  head.append(...NAMES.concat(withText).map((name) => cell("th", name)));
  table.append(head);
  for (const event of events) {
    const line = document.createElement("tr");
    if (event === here) line.className = "here";
    line.append(...rows[event].concat(withText.length ? [textOf(rows[event])] : []).map((text) => cell("td", text)));
    table.append(line);
  }
  find("panel").replaceChildren(...remarks.map((text) => cell("p", text)), table);
}

function pick(bar) {
  if (picked) picked.classList.remove("picked");
  picked = bar;
  if (bar) bar.classList.add("picked");
  draw();
}

// goes to a fault: its operation is picked, and at least 24 pixels wide
function go(number) {
  if (!found.length) return;
  fault = (number + found.length) % found.length;
  const it = found[fault], bar = operations.get(it.place), mark = marks.find((one) => one.fault === it);
  here = it.answer - first;
  const pixels = bar ? (boxes.get(bar)[way][1] * seen()[2]) / 100 : 24;
  zoomTo(pixels < 24 ? zoom * (24 / Math.max(pixels, 0.01)) : zoom);
  const middle = left(here) * zoom * scroll.clientWidth;
  if (middle < scroll.scrollLeft + 60 || middle > scroll.scrollLeft + scroll.clientWidth - 60) scroll.scrollLeft = middle - scroll.clientWidth / 2;
  pick(bar || mark || null);
  for (const line of document.querySelectorAll("li[data-f]")) line.classList.toggle("picked", Number(line.dataset.f) === it.number);
  const line = document.querySelector("li.picked");
  if (line) line.parentNode.scrollTop = line.offsetTop - line.parentNode.offsetTop;
  show(mark ? [mark.dataset.t] : [], bar ? eventsOf(bar) : [here]);
}
// the fault before or behind the event at the pointer, or the one before or behind the fault that was gone to
function goBy(by) {
  if (fault >= 0 && found[fault].answer - first === here) return go(fault + by);
  const behind = found.findIndex((it) => it.answer - first >= here);
  go(by > 0 ? Math.max(behind, 0) : (behind < 0 ? found.length : behind) - 1);
}

// the events of a bar, from 0: those of a bio, or all of an operation
function eventsOf(bar) {
  const known = bar.dataset.r.split(" ").map((place) => place - first).filter((it) => it >= 0 && it < count);
  if (!["log", "finding"].includes(bar.parentNode.dataset.kind) || known.length < 2) return known;
  const [, , , log, line] = rows[known[0]], found = [];
  for (let event = known[0]; event <= known[known.length - 1] && found.length < MOST; event++)
    if (rows[event][3] === log && rows[event][4] === line) found.push(event);
  return found;
}

// the event at the pointer and its neighbours, as many as the panel has room for
function around() {
  const room = Math.max(1, Math.floor((find("panel").clientHeight - 60) / 19));
  const begin = Math.max(0, Math.min(here - Math.floor(room / 2), count - room));
  return Array.from({ length: Math.min(room, count) }, (_, at) => begin + at);
}

// tells what is at a point of the window
function tell(x, y) {
  const under = document.elementsFromPoint(x, y).filter((it) => it.dataset && it.dataset.t !== undefined || it.dataset.r);
  const box = svg.getBoundingClientRect(), bar = under.find((it) => it.dataset.r);
  here = eventAt((x - box.left) / box.width);
  const known = bar ? eventsOf(bar) : [];
  if (known.length === 1) here = known[0];
  const events = known.length > 1 ? [...new Set(known)].sort((one, other) => one - other) : around();
  show(under.map((it) => it.dataset.t).filter(Boolean), events);
  drawCursor();
  return bar;
}

function step(by) {
  here = Math.min(Math.max(here + by, 0), count - 1);
  pick(null);
  const place = left(here) * zoom * scroll.clientWidth;
  if (place < scroll.scrollLeft || place > scroll.scrollLeft + scroll.clientWidth) scroll.scrollLeft = place - scroll.clientWidth / 2;
  show([], around());
  draw();
}

svg.addEventListener("pointermove", (event) => { if (!picked) tell(event.clientX, event.clientY); });
svg.addEventListener("click", (event) => {
  const bar = tell(event.clientX, event.clientY);
  if (bar && bar.fault) go(found.indexOf(bar.fault)); else pick(bar === picked ? null : bar || null);
});
for (const line of document.querySelectorAll("li[data-f]"))
  line.addEventListener("click", () => { const at = found.findIndex((it) => it.number === Number(line.dataset.f)); if (at >= 0) go(at); });
scroll.addEventListener("scroll", draw);
scroll.addEventListener("wheel", (event) => {
  if (!event.ctrlKey) return;
  event.preventDefault();
  zoomTo(zoom * (event.deltaY < 0 ? 1.3 : 1 / 1.3), event.clientX - scroll.getBoundingClientRect().left);
}, { passive: false });
window.addEventListener("resize", () => { fit(); zoomTo(zoom); });
for (const list of document.querySelectorAll("details")) list.addEventListener("toggle", () => { fit(); draw(); });
window.addEventListener("keydown", (event) => {
  const keys = { ArrowLeft: () => step(-1), ArrowRight: () => step(1), "+": () => zoomTo(zoom * 2), "-": () => zoomTo(zoom / 2), 0: () => zoomTo(1), n: () => goBy(1), p: () => goBy(-1), Escape: () => pick(null) };
  if (event.ctrlKey || event.metaKey || event.altKey || !keys[event.key]) return;
  event.preventDefault();
  keys[event.key]();
});
find("moment").addEventListener("click", () => choose("moment"));
find("event").addEventListener("click", () => choose("event"));
find("in").addEventListener("click", () => zoomTo(zoom * 2));
find("out").addEventListener("click", () => zoomTo(zoom / 2));
find("whole").addEventListener("click", () => zoomTo(1));
find("next").addEventListener("click", () => goBy(1));
find("former").addEventListener("click", () => goBy(-1));
find("faults").hidden = !found.length;
fit();
show([], around());
setClass();
if (location.hash === "#event") choose("event");
if (location.hash.startsWith("#fault")) go(Number(location.hash.slice(6)) - 1);
draw();
