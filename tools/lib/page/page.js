"use strict";

// What the tool has put into the page.
const run = JSON.parse(document.getElementById("run").textContent);
const listings = JSON.parse(document.getElementById("listings").textContent);
const entries = run.entries.map(([moment, word, from, to, packet, homes, event, text, line], i) =>
  ({ number: i + 1, moment, word, from, to, packet, homes, event, text, line }));
const packets = run.packets.map(([poster, kind, shielded, posted]) => ({ poster, kind, shielded, posted }));
const kindOfLane = new Map(run.lanes);

// The groups of entries that a filter shows or hides.
const groups = {
  posts: "sent injected got", arrivals: "handed to", hearings: "heard", losses: "gone lost", verdicts: "accepted denied origin forged",
  bindings: "made bound unbound", registrations: "home registered unregistered refused chosen prefixes", up: "up", drops: "dropped unsent",
  places: "moved advertised careof listening deafened restarted", addresses: "claimed released taken advert holds solicit answer silent claim free",
  questions: "row settled", moments: "at", idle: "idle",
};
const groupOf = new Map(Object.entries(groups).flatMap(([group, words]) => words.split(" ").map(word => [word, group])));
const ofPackets = new Set(["posts", "arrivals", "hearings", "losses"]);
const good = new Set(["accepted", "up", "home", "registered", "bound"]);
const poor = new Set(["denied", "dropped", "gone", "lost", "forged", "refused", "unsent", "restarted", "taken"]);
const verdicts = new Set(["accepted", "denied", "dropped", "forged", "refused"]);

// What is chosen; the sets have what is hidden. All of it stands in the address.
const state = { line: 1, lanes: new Set(), packets: new Set(), entries: new Set(), home: "", find: "" };
let shown = [];       // the entries that the filters let through
let placeOf = [];     // the place of an entry among them, by its number; -1 where it is hidden
let matches = [];     // the places of those that are found
let lanes = [];       // the lanes that are drawn
const shape = {};     // measures of the chart
const drawn = { first: -1, last: -1 };

const at = id => document.getElementById(id);
const escaped = text => text.replace(/[&<>"]/g, c => `&#${c.charCodeAt(0)};`);

function element(name, attributes, ...children) {
  const made = document.createElement(name);
  for (const [key, value] of Object.entries(attributes)) made.setAttribute(key, value);
  made.append(...children);
  return made;
}

// Indexes over the whole run.

const ofPacket = new Map();     // packet: the entries about it
const tokensAt = new Map();     // entry: which tokens its packet brought
const markAt = new Map();       // entry of an acceptance or its origin: the mark

function add(map, key, value) { if (map.has(key)) map.get(key).push(value); else map.set(key, [value]); }

function index() {
  for (const entry of entries) if (entry.packet >= 0) add(ofPacket, entry.packet, entry);
  for (const [line, home, careof, update] of run.marks) {
    const mark = { line, home, careof, update };
    markAt.set(line, mark);
    if (line > 1) markAt.set(line - 1, mark);
    if (home) add(tokensAt, home, `home token of ${update}`);
    if (careof) add(tokensAt, careof, `care-of token of ${update}`);
  }
}

const kindsOf = entry => entry.packet in packets ? packets[entry.packet].kind.split(/[ ()]+/).filter(Boolean) : [];
const labelOf = number => number in packets ? `${number} ${packets[number].kind}` : `${number}`;

// Filters.

const isLink = name => kindOfLane.get(name) === "link";
const isWanted = name => isLink(name) || !state.lanes.has(name);

function isShown(entry) {
  const group = groupOf.get(entry.word);
  if (state.entries.has(group) || !isWanted(entry.from) || !isWanted(entry.to)) return false;
  if (ofPackets.has(group) && state.packets.size && kindsOf(entry).some(kind => state.packets.has(kind))) return false;
  const home = run.homes.indexOf(state.home);
  return home < 0 || Math.floor(entry.homes / 2 ** home) % 2 === 1 || entry.word === "at";
}

function filter() {
  shown = entries.filter(isShown);
  placeOf = new Int32Array(entries.length + 1).fill(-1);
  shown.forEach((entry, place) => { placeOf[entry.number] = place; });
  lanes = run.lanes.map(([name]) => name).filter(name => !state.lanes.has(name));
  search();
  measure();
}

// The place of the chosen entry, or of the next one that is shown.
function placeOfChosen() {
  for (let n = state.line; n <= entries.length; n++) if (placeOf[n] >= 0) return placeOf[n];
  return shown.length - 1;
}

// Search.

const textOf = entry => `${entry.text}\n${entry.line}\n${listings[entry.packet] ?? ""}`.toLowerCase();

function search() {
  const words = state.find.toLowerCase();
  matches = [];
  drawn.first = -1;
  if (words) shown.forEach((entry, place) => { if (textOf(entry).includes(words)) matches.push(place); });
}

function tellCount() {
  const nth = matches.indexOf(placeOfChosen());
  at("count").textContent = !state.find ? "" : nth < 0 ? `${matches.length} found` : `${nth + 1} of ${matches.length}`;
  at("ahead").disabled = at("back").disabled = !matches.length;
}

function match(step) {
  if (!matches.length) return;
  const here = placeOfChosen();
  const next = step > 0 ? matches.find(place => place > here) ?? matches[0] : matches.findLast(place => place < here) ?? matches.at(-1);
  choose(shown[next].number);
}

// The address.

function readAddress() {
  const given = new URLSearchParams(location.hash.slice(1));
  const listed = name => new Set((given.get(name) ?? "").split(",").filter(Boolean));
  state.line = Math.min(Math.max(1, Math.floor(Number(given.get("line"))) || 1), Math.max(1, entries.length));
  state.lanes = listed("no-lanes");
  state.packets = listed("no-packets");
  state.entries = listed("no-entries");
  state.home = run.homes.includes(given.get("home")) ? given.get("home") : "";
  state.find = given.get("find") ?? "";
}

function writeAddress() {
  const parts = [`line=${state.line}`];
  for (const name of ["lanes", "packets", "entries"]) if (state[name].size) parts.push(`no-${name}=${[...state[name]].join(",")}`);
  if (state.home) parts.push(`home=${state.home}`);
  if (state.find) parts.push(`find=${encodeURIComponent(state.find)}`);
  history.replaceState(null, "", `#${parts.join("&")}`);
}

// The chart's measures. On a narrow page an entry has two lines: its picture, and below it what it says.

function measure() {
  const narrow = matchMedia("(max-width: 860px)").matches;
  const width = at("chart").clientWidth;
  shape.height = narrow ? 52 : 28;
  shape.middle = narrow ? 16 : 14;
  // the columns of line and moment are as wide as their longest number
  shape.number = 8 * String(entries.length).length + 22;
  shape.moment = 8 * Math.max(2, String(entries.at(-1)?.moment ?? 0).length) + 8;
  shape.left = narrow ? 2 : shape.number + shape.moment;
  shape.gutter = run.marks.length ? 34 : 8;
  const room = narrow ? width - shape.left - shape.gutter - 6 : Math.min(640, width * 0.52);
  const widest = Math.max(84, ...packets.map(packet => packet.kind.length * 6.2 + 34), ...lanes.map(name => name.length * 9 + 12));
  shape.step = Math.max(narrow ? 26 : 30, Math.min(narrow ? 110 : Math.min(widest, 104), room / Math.max(1, lanes.length)));
  shape.right = shape.left + shape.gutter + shape.step * lanes.length;
  shape.narrow = narrow;
  const x = new Map(lanes.map((name, i) => [name, shape.left + shape.gutter + shape.step * (i + 0.5)]));
  shape.x = name => x.get(name);
  at("rows").style.height = `${shown.length * shape.height + 8}px`;
  at("rows").style.minWidth = at("names").style.minWidth = `${narrow ? shape.right : shape.right + 240}px`;
  drawNames();
  drawn.first = -1;
}

function drawNames() {
  const tight = shape.step < 44;
  at("names").className = tight ? "tight" : "";
  const heads = shape.narrow ? "" : `<span class="n" style="width:${shape.number}px">line</span><span class="t" style="left:${shape.number}px;width:${shape.moment}px">ms</span>`;
  at("names").innerHTML = heads + lanes.map(name => {
    const kind = kindOfLane.get(name);
    return `<span class="name ${kind}" style="left:${shape.x(name)}px;max-width:${tight ? "none" : `${shape.step - 4}px`}" title="${escaped(`${name} ${kind}`)}">${escaped(name)}<small>${escaped(kind)}</small></span>`;
  }).join("");
}

// Pictures of entries: `y` is the middle of the row.

const lineFrom = (x1, x2, y, more = "") => `<path class="arrow" d="M${x1} ${y}H${x2}" ${more}/>`;
const crossAt = (x, y) => `<path class="cross" d="M${x - 4} ${y - 4}l8 8m0 -8l-8 8"/>`;
const shieldAt = (x, y) => `<path class="shield" d="M${x - 5} ${y - 6}h10v5q0 4 -5 7q-5 -3 -5 -7z"/>`;
const labelAt = (x, y, text) => `<text class="label" x="${x}" y="${y}">${escaped(text)}</text>`;
// A label on a plate, which hides the line behind it.
const plateAt = (x, y, text) => `<rect class="plate" x="${x - text.length * 3.3 - 4}" y="${y - 6}" width="${text.length * 6.6 + 8}" height="12"/>${labelAt(x, y + 4, text)}`;

// What stands on an arrow: the packet's number and kind, as far as there is room. In a pipe the packet in the tunnel stands alone.
function shortLabel(number, room) {
  const { kind = "" } = packets[number] ?? {};
  const inside = kind.replace(/^tunnel \((.*)\)$/, "$1");
  return room > (String(number).length + inside.length + 1) * 6.2 + 8 ? `${number} ${inside}` : `${number}`;
}

// An arrow from lane to lane; one to the same lane or to none is a short one.
function arrowOf(entry, y, how) {
  const packet = packets[entry.packet] ?? { kind: "", shielded: 0 };
  const x1 = shape.x(entry.from), x2 = shape.x(entry.to);
  if (x1 === undefined || x2 === undefined) return "";
  if (x1 === x2) return `<g class="p ${how}"><path class="arrow" d="M${x1} ${y - 6}h16v12h-14" marker-end="url(#head)"/></g>` + labelAt(x1 + 34, y + 4, shortLabel(entry.packet, 60));
  const to = x2 > x1 ? 1 : -1, middle = (x1 + x2) / 2;
  const pipe = packet.kind.startsWith("tunnel")
    ? `<rect class="pipe" x="${Math.min(x1, x2) + 5}" y="${y - 7}" width="${Math.abs(x2 - x1) - 10}" height="14" rx="7"/>` : "";
  const shield = packet.shielded ? shieldAt(x1 + to * 11, y) : "";
  const label = plateAt(middle + (packet.shielded ? to * 5 : 0), y, shortLabel(entry.packet, Math.abs(x2 - x1) - (packet.shielded ? 34 : 24)));
  return `<g class="p ${how} ${pipe && "piped"}">${pipe}${lineFrom(x1 + to * 2, x2 - to * 3, y, 'marker-end="url(#head)"')}${shield}${label}</g>`;
}

// A packet that is posted: a dot at its poster, and a stub to the link.
function postOf(entry, y) {
  const x1 = shape.x(entry.from), x2 = shape.x(entry.to);
  if (x1 === undefined) return "";
  const stub = x2 === undefined ? "" : `<path class="stub" d="M${x1} ${y}H${x2}"/>`;
  return `${stub}<circle class="dot" cx="${x1}" cy="${y}" r="4"/>`;
}

// One that is lost or gone: towards the link of its destination, where that is known.
function lossOf(entry, y) {
  const x1 = shape.x(entry.from);
  if (x1 === undefined) return "";
  const x2 = shape.x(entry.to) ?? x1 + 26;
  const end = x2 === x1 ? x1 + 26 : x2;
  return `<g class="p lost">${lineFrom(x1, end, y)}${crossAt(end, y)}${end === x1 + 26 ? "" : plateAt((x1 + end) / 2, y, shortLabel(entry.packet, Math.abs(end - x1) - 24))}</g>`;
}

// Something between a node and a link: it holds an address there, stands there, or listens.
function wireOf(entry, y) {
  const x1 = shape.x(entry.from), x2 = shape.x(entry.to);
  const held = /^(claimed|moved|listening|claim)$/.test(entry.word) ? "held" : "";
  const wire = x1 === undefined || x2 === undefined ? "" : `<path class="wire" d="M${x1} ${y}H${x2}"/>`;
  const node = x1 === undefined ? "" : `<rect class="plug ${held}" x="${x1 - 4}" y="${y - 4}" width="8" height="8" transform="rotate(45 ${x1} ${y})"/>`;
  if (x2 === undefined) return node;
  return wire + node + (entry.word === "taken" ? crossAt(x2, y) : `<circle class="plug ${held}" cx="${x2}" cy="${y}" r="3.5"/>`);
}

function adviceOf(entry, y) {
  const x1 = shape.x(entry.from), x2 = shape.x(entry.to);
  if (x2 === undefined) return "";
  return x1 === undefined || x1 === x2 ? badgeOf({ ...entry, from: entry.to }, y)
    : `<path class="wire" d="M${x1} ${y}H${x2 + (x1 < x2 ? -3 : 3)}" marker-end="url(#head)"/>`;
}

// What somebody says of itself: a badge on its lane.
function badgeOf(entry, y) {
  const x = shape.x(entry.from);
  if (x === undefined) return "";
  const how = entry.word === "origin" ? "mark-badge" : good.has(entry.word) ? "good" : poor.has(entry.word) ? "poor" : "";
  const glyph = entry.word === "up" ? `M${x} ${y + 3.5}V${y - 3}m-3 3l3 -3l3 3` : how === "good" ? `M${x - 3.5} ${y}l2.5 3l4.5 -5.5`
    : how === "poor" ? `M${x - 3} ${y - 3}l6 6m0 -6l-6 6` : how ? `M${x - 3} ${y}h6m-3 -3l-3 3l3 3` : "";
  return how ? `<circle class="badge ${how}" cx="${x}" cy="${y}" r="8"/><path class="glyph" d="${glyph}"/>`
    : `<circle class="badge" cx="${x}" cy="${y}" r="5"/>`;
}

function pictureOf(entry, y) {
  switch (entry.word) {
    case "handed": case "to": return arrowOf(entry, y, "");
    case "heard": return arrowOf(entry, y, "heard");
    case "sent": case "injected": return entry.to === "outside" ? arrowOf(entry, y, "") : postOf(entry, y);
    case "gone": case "lost": return lossOf(entry, y);
    case "claimed": case "released": case "taken": case "moved": case "listening": case "deafened": case "claim": return wireOf(entry, y);
    case "advertised": case "advert": return adviceOf(entry, y);
    case "at": case "idle": return "";
    default: return badgeOf(entry, y);
  }
}

// Two arrows back from an acceptance, beside the lanes: to the packet with its home token, and to that with its care-of token.

// From the edge of the lanes to the nearest end of what an entry draws.
function guideOf(line, x, y) {
  const { from, to } = entries[line - 1];
  const ends = [shape.x(from), shape.x(to)].filter(end => end !== undefined);
  return ends.length ? `<path class="guide" d="M${x} ${y}H${Math.min(...ends) - 10}"/>` : "";
}

function markOf(mark, offset, low, high) {
  const from = placeOf[mark.line], chosen = markAt.get(state.line) === mark;
  return [[mark.home, 11], [mark.careof, 22]].map(([line, width]) => {
    const to = line ? placeOf[line] : -1;
    if (from < 0 || to < 0 || Math.max(from, to) < low || Math.min(from, to) > high) return "";
    const y = place => Math.max(-400, Math.min((high - low + 20) * shape.height, (place - offset) * shape.height + shape.middle));
    const x = shape.left + shape.gutter - 4, y1 = y(from), y2 = y(to), turn = y2 < y1 ? -6 : 6;
    const guides = chosen ? guideOf(line, x, y2) + guideOf(mark.line, x, y1) : "";
    return `${guides}<path class="mark ${chosen ? "" : "dim"}" d="M${x} ${y1}H${x - width + 6}q-6 0 -6 ${turn}V${y2 - turn}q0 ${turn} 6 ${turn}H${x}" marker-end="url(#mark-head)"/>`;
  }).join("");
}

// Where the chosen packet is under way: on its poster's lane, from where it was posted to where it last arrived.
function underWay(offset) {
  const { packet } = entries[state.line - 1] ?? { packet: -1 };
  const about = (ofPacket.get(packet) ?? []).filter(entry => ofPackets.has(groupOf.get(entry.word)) && placeOf[entry.number] >= 0);
  const x = shape.x(packets[packet]?.poster);
  if (about.length < 2 || x === undefined) return "";
  const y = entry => (placeOf[entry.number] - offset) * shape.height + shape.middle;
  return `<path class="under-way" d="M${x} ${y(about[0])}V${y(about.at(-1))}"/>`;
}

// Rows are drawn as they come into view.

function classesOf(entry) {
  const group = groupOf.get(entry.word), chosen = entries[state.line - 1];
  const names = ["row", entry.word === "at" ? "at" : group === "posts" ? "posted" : group === "idle" || group === "addresses" ? "quiet" : ""];
  if (good.has(entry.word)) names.push("good");
  if (poor.has(entry.word)) names.push("poor");
  if (entry.word === "heard") names.push("hears");
  if (entry.number === state.line) names.push("chosen");
  else if (entry.packet >= 0 && chosen && entry.packet === chosen.packet) names.push("kin");
  if (state.find && textOf(entry).includes(state.find.toLowerCase())) names.push("found");
  return names.filter(Boolean).join(" ");
}

// A text with what is searched for marked.
function marked(text) {
  const from = state.find ? text.toLowerCase().indexOf(state.find.toLowerCase()) : -1;
  if (from < 0) return escaped(text);
  const to = from + state.find.length;
  return `${escaped(text.slice(0, from))}<mark>${escaped(text.slice(from, to))}</mark>${escaped(text.slice(to))}`;
}

// The line of the schedule stands in the first of the rows that it wrote, where there is room.
function eventOf(entry, place) {
  const wide = !shape.narrow && at("chart").clientWidth - shape.right > 360;
  if (!entry.event || !wide || (place > 0 && shown[place - 1].event === entry.event)) return "";
  return `<code class="event" title="line ${entry.event} of the schedule">${escaped(run.schedule[entry.event - 1] ?? "")}</code>`;
}

function rowOf(entry, place) {
  const again = place > 0 && shown[place - 1].moment === entry.moment ? " again" : "";
  const tokens = (tokensAt.get(entry.number) ?? []).map(text => `<span class="token">${text}</span>`).join("");
  const space = shape.narrow ? "" : `<span style="flex:none;width:${shape.right - shape.left}px"></span>`;
  return `<div class="${classesOf(entry)}" role="option" id="e${entry.number}" data-line="${entry.number}" aria-selected="${entry.number === state.line}"
    aria-setsize="${shown.length}" aria-posinset="${place + 1}" style="top:${place * shape.height}px;height:${shape.height}px">
    <span class="n" style="width:${shape.number}px">${entry.number}</span><span class="t${again}" style="width:${shape.moment}px">${entry.moment}</span>${space}<span class="say">${marked(entry.text)}${tokens}</span>${eventOf(entry, place)}</div>`;
}

// Draws what is in view, and some rows more on both sides; what stands there already only gets its classes anew.
function drawRows() {
  const chart = at("chart"), over = 8;
  const first = Math.max(0, Math.floor(chart.scrollTop / shape.height / over) * over - over);
  const last = Math.min(shown.length, Math.ceil((chart.scrollTop + chart.clientHeight) / shape.height / over) * over + over);
  if (first !== drawn.first || last !== drawn.last) drawPart(first, last);
  else chooseRows();
  at("moving").innerHTML = underWay(first) + run.marks.map(([line]) => markOf(markAt.get(line), first, first, last)).join("");
  const chosen = at(`e${state.line}`);
  if (chosen) chart.setAttribute("aria-activedescendant", chosen.id); else chart.removeAttribute("aria-activedescendant");
}

function drawPart(first, last) {
  Object.assign(drawn, { first, last });
  const part = shown.slice(first, last), height = (last - first) * shape.height;
  at("list").innerHTML = part.map((entry, i) => rowOf(entry, first + i)).join("");
  at("lines").setAttribute("width", shape.right);
  at("lines").setAttribute("height", height);
  at("lines").style.top = `${first * shape.height}px`;
  at("lane-lines").innerHTML = lanes.map(name => `<path class="lane ${kindOfLane.get(name)}" d="M${shape.x(name)} 0V${height}"/>`).join("");
  at("pictures").innerHTML = part.map((entry, i) => `<g class="${classesOf(entry)}">${pictureOf(entry, i * shape.height + shape.middle)}</g>`).join("");
}

function chooseRows() {
  const pictures = at("pictures").children;
  [...at("list").children].forEach((row, i) => {
    const entry = entries[row.dataset.line - 1], classes = classesOf(entry);
    if (row.className === classes) return;
    row.className = classes;
    row.setAttribute("aria-selected", entry.number === state.line);
    pictures[i].setAttribute("class", classes);
  });
}

// What is told of the chosen entry.

const heading = text => element("h3", {}, text);
const raw = text => element("p", { class: "raw" }, text);

function linkTo(number, text) {
  const link = element("a", { href: `#line=${number}` }, element("b", {}, String(number)), text);
  if (number === state.line) link.setAttribute("aria-current", "true");
  link.addEventListener("click", event => { event.preventDefault(); choose(number); at("about").querySelector("[aria-current]")?.focus(); });
  return element("li", {}, link);
}

function tellMark(entry) {
  const mark = markAt.get(entry.number);
  if (!mark) return [];
  const list = element("ol", { class: "origin" });
  if (mark.home) list.append(linkTo(mark.home, `brought its home token: ${labelOf(entries[mark.home - 1].packet)}`));
  if (mark.careof) list.append(linkTo(mark.careof, `brought its care-of token: ${labelOf(entries[mark.careof - 1].packet)}`));
  return [heading(`Where the tokens of update ${mark.update} came from`), list];
}

function tellPacket(entry) {
  const about = ofPacket.get(entry.packet);
  if (!about) return [];
  const packet = packets[entry.packet];
  const list = element("ol", {}, ...about.slice(0, 200).map(other => linkTo(other.number, `${other.moment} ms, ${other.text}`)));
  const title = packet ? `Packet ${entry.packet}, ${packet.kind}${packet.shielded ? ", shielded" : ""}, of ${packet.poster}` : `Packet ${entry.packet}`;
  const listing = listings[entry.packet];
  return [heading(title), list, ...(listing ? [heading("Its listing"), element("pre", { id: "listing" }, listing)] : [])];
}

// What a node knew from its last line before this one, where the run says so.
function tellKnown(entry) {
  return [...new Set([entry.from, entry.to])].flatMap(name => {
    const known = (run.known[name] ?? []).findLast(([line]) => line <= entry.number);
    return known ? [heading(`${name} knows`), element("pre", { class: "known" }, known[1])] : [];
  });
}

function tell() {
  const entry = entries[state.line - 1];
  const about = at("about");
  about.replaceChildren();
  if (!entry) { about.append(element("p", {}, "The trace has no lines.")); return; }
  about.append(element("h2", { id: "says" }, entry.text), element("p", { class: "faint" }, `at ${entry.moment} ms`), ...tellMark(entry),
    heading(`Line ${entry.number} of the trace`), raw(entry.line));
  about.querySelector(".raw").id = "line";
  if (entry.event) about.append(heading(`Line ${entry.event} of the schedule`), raw(run.schedule[entry.event - 1] ?? ""));
  about.append(...tellPacket(entry), ...tellKnown(entry));
  about.scrollTop = 0;
}

// Steps.

function bringIntoView() {
  const chart = at("chart"), head = at("names").offsetHeight;
  const top = placeOfChosen() * shape.height, room = chart.clientHeight - head;
  if (top < chart.scrollTop + shape.height) chart.scrollTop = top - shape.height * 2;
  else if (top + shape.height * 2 > chart.scrollTop + room) chart.scrollTop = top - room + shape.height * 3;
}

function show() {
  const place = placeOfChosen();
  at("place").textContent = shown.length ? `${place + 1} of ${shown.length}` : "none is shown";
  at("first").disabled = at("before").disabled = place <= 0;
  at("last").disabled = at("next").disabled = place >= shown.length - 1;
  tellCount();
  drawRows();
  tell();
}

function choose(number) {
  state.line = number;
  writeAddress();
  bringIntoView();
  show();
}

function step(by) {
  if (!shown.length) return;
  const here = placeOfChosen(), hidden = placeOf[state.line] < 0;
  choose(shown[Math.max(0, Math.min(shown.length - 1, hidden && by > 0 ? here : here + by))].number);
}

// The next entry, forward or back, of which this holds.
function stepTo(by, holds) {
  for (let place = placeOfChosen() + by; place >= 0 && place < shown.length; place += by)
    if (holds(shown[place])) return choose(shown[place].number);
}

// Choices.

function refresh() {
  filter();
  if (placeOf[state.line] < 0 && shown.length) state.line = shown[placeOfChosen()].number;
  tellChoices();
  writeAddress();
  bringIntoView();
  show();
}

function choice(set, name, text) {
  const button = element("button", { type: "button", "data-name": name, "aria-pressed": "true" }, text);
  button.addEventListener("click", event => {
    const names = [...button.parentElement.children].map(other => other.dataset.name);
    if (event.shiftKey || event.altKey) names.forEach(other => { if (other === name) state[set].delete(other); else state[set].add(other); });
    else if (state[set].has(name)) state[set].delete(name);
    else state[set].add(name);
    refresh();
  });
  button.title = "Shift and click: this one alone";
  return button;
}

function makeChoices() {
  at("lane-choices").append(...run.lanes.map(([name]) => choice("lanes", name, name)));
  const kinds = [...new Set(packets.flatMap(packet => packet.kind.split(/[ ()]+/).filter(Boolean)))];
  at("kind-choices").append(...kinds.map(name => choice("packets", name, name)));
  const words = new Set(entries.map(entry => groupOf.get(entry.word)));
  at("group-choices").append(...Object.keys(groups).filter(name => words.has(name)).map(name => choice("entries", name, name)));
  at("home").append(element("option", { value: "" }, "all"), ...run.homes.map(home => element("option", { value: home }, home)));
}

function tellChoices() {
  for (const [id, set] of [["lane-choices", "lanes"], ["kind-choices", "packets"], ["group-choices", "entries"]])
    for (const button of at(id).children) button.setAttribute("aria-pressed", String(!state[set].has(button.dataset.name)));
  at("home").value = state.home;
  at("find").value = state.find;
  at("filters").classList.toggle("on", Boolean(state.lanes.size || state.packets.size || state.entries.size || state.home));
}

function showAll() {
  Object.assign(state, { lanes: new Set(), packets: new Set(), entries: new Set(), home: "" });
  refresh();
}

// Opens one of the two parts above the chart and closes the other, or closes it.
function toggle(part) {
  const open = at(part).hidden;
  for (const [other, its] of [["filters", "choices"], ["help", "keys"]]) {
    at(its).hidden = its !== part || !open;
    at(other).setAttribute("aria-expanded", String(!at(its).hidden));
  }
  measure();
  show();
}

function changeTheme() {
  const root = document.documentElement;
  const dark = root.dataset.theme ? root.dataset.theme === "dark" : matchMedia("(prefers-color-scheme: dark)").matches;
  root.dataset.theme = dark ? "light" : "dark";
}

// Keys.

const pageOfRows = () => Math.max(1, Math.floor(at("chart").clientHeight / shape.height) - 3);
const samePacket = entry => { const { packet } = entries[state.line - 1]; return packet >= 0 && entry.packet === packet; };
const isVerdict = entry => verdicts.has(entry.word);
const keys = {
  ArrowDown: () => step(1), j: () => step(1), ArrowUp: () => step(-1), k: () => step(-1),
  PageDown: () => step(pageOfRows()), PageUp: () => step(-pageOfRows()), Home: () => step(-entries.length), End: () => step(entries.length),
  "]": () => stepTo(1, samePacket), "[": () => stepTo(-1, samePacket), v: () => stepTo(1, isVerdict), V: () => stepTo(-1, isVerdict),
  n: () => match(1), N: () => match(-1), "/": () => { at("find").focus(); at("find").select(); },
  f: () => toggle("choices"), "?": () => toggle("keys"),
};

function pressed(event) {
  if (event.ctrlKey || event.metaKey || event.altKey || event.target.closest?.("input, select, textarea")) return;
  const does = keys[event.key];
  if (!does || !entries.length) return;
  event.preventDefault();
  does();
}

function pressedInSearch(event) {
  if (event.key === "Enter") { event.preventDefault(); match(event.shiftKey ? -1 : 1); }
  else if (event.key === "Escape") { event.preventDefault(); at("chart").focus(); }
}

function searched() {
  state.find = at("find").value;
  search();
  const next = matches.find(place => place >= placeOfChosen()) ?? matches[0];
  if (next !== undefined) choose(shown[next].number);
  else { writeAddress(); show(); }
}

function listen() {
  for (const [id, does] of Object.entries({
    first: () => step(-entries.length), before: () => step(-1), next: () => step(1), last: () => step(entries.length), back: () => match(-1), ahead: () => match(1),
    filters: keys.f, help: keys["?"], theme: changeTheme, all: showAll,
  })) at(id).addEventListener("click", does);
  at("find").addEventListener("input", searched);
  at("find").addEventListener("keydown", pressedInSearch);
  at("search").addEventListener("submit", event => event.preventDefault());
  at("home").addEventListener("change", () => { state.home = at("home").value; refresh(); });
  at("chart").addEventListener("scroll", () => requestAnimationFrame(drawRows), { passive: true });
  at("list").addEventListener("click", event => {
    const row = event.target.closest(".row");
    if (row) { at("chart").focus({ preventScroll: true }); choose(Number(row.dataset.line)); }
  });
  document.addEventListener("keydown", pressed);
  addEventListener("resize", () => { measure(); bringIntoView(); show(); });
  addEventListener("hashchange", () => { readAddress(); refresh(); });
}

function begin() {
  index();
  readAddress();
  // a node that stands alone tells a moment with nearly each turn
  if (!location.hash && entries.filter(entry => entry.word === "at").length > entries.length / 2) state.entries.add("moments");
  makeChoices();
  const last = entries.at(-1);
  at("title").textContent = run.title;
  at("summary").textContent = `${entries.length} entries, ${packets.length} packets${last ? `, ${entries[0].moment} to ${last.moment} ms` : ""}`;
  listen();
  refresh();
}

begin();
