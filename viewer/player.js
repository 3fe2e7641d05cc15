"use strict";
// Shows a run that the engine took. Nothing is decided here: states, refusals, permitted steps and reasons are lines that the engine printed.
(() => {
const data = JSON.parse(document.getElementById("data").textContent);
const last = data.events.length;
const byId = (id) => document.getElementById(id);
const body = document.body, root = document.documentElement;
const still = matchMedia("(prefers-reduced-motion: reduce)");
const SPEEDS = [0.25, 0.5, 1, 2, 4, 16], STEP_TIME = 900, KEPT_EVERY = 128, ROW = 44, REST = 20, SPACING = 22;

// Elements.

const make = (name, kind, words) => {
  const found = document.createElement(name);
  if (kind) found.className = kind;
  if (words !== undefined) found.textContent = words;
  return found;
};
const draw = (name, attributes, words) => {
  const found = document.createElementNS("http://www.w3.org/2000/svg", name);
  for (const key in attributes) found.setAttribute(key, attributes[key]);
  if (words !== undefined) found.textContent = words;
  return found;
};
const empty = (element) => element.replaceChildren();

// The model.

const pools = new Map(data.pools.map((pool) => [pool.n, pool]));
const entered = new Map(), tasks = new Map();
for (const pool of data.pools) {
  pool.els.forEach((element, place) => {
    for (const edge of element.i) entered.set(pool.n + "." + edge, place);
    if (element.t) tasks.set(pool.n + "." + element.t, place);
  });
}
const nameOf = (pool, place, branch) => data.branches[pool + "." + place + "." + branch] || pools.get(pool).els[place].name;
const poolName = (pool) => { const name = pools.get(pool).name; return name[0].toUpperCase() + name.slice(1); };
const messageName = (message) => data.messages[message] || "message " + message;
const withValues = (message, values) => messageName(message) + (values && values !== "-" ? " (" + values + ")" : "");

// An event's line: a step with what it sent or consumed, a post, or what was refused.
const readEvent = (event) => {
  const words = event.l.split(" ");
  if (words[0] === "post") return { sort: "post", message: words[1], values: words[2], refused: event.r || 0 };
  if (words[0] === "fresh" || words[0] === "batch" || words[0] === "run") return { sort: words[0], refused: event.r || 0 };
  const [pool, instance, place, phase, branch] = words.slice(words[0] === "step" ? 1 : 0).map(Number);
  const traffic = words[words.length - 1];
  const told = { sort: "step", pool, instance, place, phase, branch, refused: event.r || 0, untrue: event.w || "", way: "" };
  if (/^[!?]/.test(traffic)) {
    told.way = traffic[0];
    [told.message, told.values] = [traffic.slice(1).split(":")[0], traffic.slice(traffic.indexOf(":") + 1)];
  }
  return told;
};
const read = new Map();
const eventAt = (at) => {
  if (!read.has(at)) {
    if (read.size > 4000) read.clear();
    read.set(at, readEvent(data.events[at - 1]));
  }
  return read.get(at);
};
const isBad = (event) => event.refused > 0 || event.untrue !== undefined && event.untrue !== "";
const nodeOf = (event) => {
  const key = event.pool + "." + event.place, branch = key + "." + event.branch;
  return data.nodes[branch] ? branch : key;
};

// States.

const keyOf = (line) => {
  const first = line.indexOf(" ");
  if (first < 0) return line;
  const word = line.slice(0, first);
  if (word !== "instance" && word !== "queue") return word;
  let end = line.indexOf(" ", first + 1);
  if (word === "instance") end = line.indexOf(" ", end + 1);
  return end < 0 ? line : line.slice(0, end);
};
const change = (state, lines) => {
  for (const line of lines) {
    const key = keyOf(line);
    if (key === line) state.delete(key);
    else state.set(key, line);
  }
};
const kept = [];
{
  const state = new Map(data.fresh.map((line) => [keyOf(line), line]));
  kept.push(new Map(state));
  data.events.forEach((event, at) => {
    change(state, event.c);
    if ((at + 1) % KEPT_EVERY === 0) kept.push(new Map(state));
  });
}
const linesAt = (at) => {
  const state = new Map(kept[Math.floor(at / KEPT_EVERY)]);
  for (let k = at - at % KEPT_EVERY; k < at; k++) change(state, data.events[k].c);
  return state;
};
const pairs = (words) => words === "-" ? [] : words.split(",").map((part) => part.split(":").map(Number));
const known = new Map();
const readInstance = (line) => {
  if (!known.has(line)) {
    if (known.size > 4000) known.clear();
    const words = line.split(" ");
    known.set(line, { line, pool: +words[1], instance: +words[2], id: words[1] + "." + words[2], tokens: pairs(words[4]), active: pairs(words[6]), ready: pairs(words[8]), fields: pairs(words[10]) });
  }
  return known.get(line);
};
const order = new Map(data.pools.map((pool, at) => [pool.n, at]));
const stateAt = (at) => {
  const state = { instances: [], byId: new Map(), queues: new Map(), beside: [] };
  for (const [key, line] of linesAt(at)) {
    if (key.startsWith("instance ")) state.instances.push(readInstance(line));
    else if (key.startsWith("queue ")) state.queues.set(key.slice(6), line.slice(key.length + 1).split(" "));
    else state.beside.push(line);
  }
  state.instances.sort((a, b) => order.get(a.pool) - order.get(b.pool) || a.instance - b.instance);
  for (const instance of state.instances) state.byId.set(instance.id, instance);
  return state;
};
const isDone = (instance) => !instance.tokens.length && !instance.active.length && !instance.ready.length;

// Words.

const DOES = {
  start: "begins", end: "ends", terminate: "ends, and all else of the instance with it", andSplit: "splits", andJoin: "joins", xorJoin: "goes on", task: "done",
};
const doing = (event) => {
  const element = pools.get(event.pool).els[event.place];
  if (event.phase === 1) return "begins";
  if (event.phase === 2 && event.way !== "?") return "works it out";
  const message = event.way ? withValues(event.message, event.values) : "";
  if (event.way === "?") return element.k === "startRcv" ? "begins with " + message : "gets " + message;
  if (event.way === "!") return "sends " + message;
  if (element.k === "xorSplit") return "takes " + (element.c[event.branch] === "true" ? "branch " + event.branch : element.c[event.branch]);
  return DOES[element.k] || "done";
};
const words = (number) => (data.words[number] || "refused").replace(/^[a-zA-Z]+: /, "");
const rowWords = (event) => {
  if (event.sort === "post") return (event.refused ? "Post refused: " : "Posted from outside: ") + withValues(event.message, event.values);
  if (event.sort === "fresh") return "A fresh state";
  if (event.sort !== "step") return "A " + event.sort + " refused";
  const name = pools.get(event.pool) && pools.get(event.pool).els[event.place] ? nameOf(event.pool, event.place, event.branch) : "no such element";
  if (event.refused) return name + " refused";
  return name + " \u00b7 " + (event.untrue ? "the line is not true" : doing(event));
};
// The sentence on a step, as parts: [words, kind].
const sentence = (at) => {
  if (at === 0) return [["Before the first step", "strong"], [last ? "." : ": nothing happens in this run.", ""], ...ending(at)];
  const event = eventAt(at), parts = [];
  if (event.sort === "step" && pools.has(event.pool)) parts.push([poolName(event.pool) + " " + event.instance, "strong"], [": ", ""]);
  if (event.sort === "step" && !event.refused && !event.untrue) {
    parts.push([nameOf(event.pool, event.place, event.branch), "strong"], [" " + saidOf(event) + ".", ""]);
  } else if (event.sort === "step" && event.untrue) {
    parts.push([nameOf(event.pool, event.place, event.branch), "strong"], [" would be accepted, but the line is not true: the engine's answer is " + event.untrue + ".", "bad"]);
  } else {
    const [name, ...rest] = rowWords(event).split(event.sort === "step" ? " refused" : ": ");
    parts.push([name, "strong"], [event.sort === "step" || !rest.length ? "" : ": " + rest.join(": "), ""]);
    if (event.refused) parts.push([" refused with " + event.refused + ": " + words(event.refused) + "; nothing changed.", "bad"]);
    else parts.push([".", ""]);
  }
  return [...parts, ...ending(at)];
};
const saidOf = (event) => {
  const does = doing(event);
  return does === "done" ? "is done" : does;
};
const ending = (at) => {
  if (at !== last) return [];
  if (Array.isArray(data.judged)) return [[" This event of the log is at fault (24)" + (data.further ? "; " + data.further + " further " + (data.further === 1 ? "event was" : "events were") + " not looked at." : "."), "bad"]];
  return [[(data.judged === "lawful" ? " The log is lawful." : "") + (data.left ? " Further steps would be accepted." : " No further step is accepted."), ""]];
};
const plain = (parts) => parts.map((part) => part[0]).join("");
const put = (element, parts) => element.replaceChildren(...parts.map(([text, kind]) => kind === "strong" ? make("strong", "", text) : make("span", kind, text)));

const whereWords = (instance) => {
  const parts = [];
  for (const [edge, count] of instance.tokens) {
    const key = instance.pool + "." + edge, times = count > 1 ? " \u00d7" + count : "";
    parts.push((data.within[key] ? "at " : "before ") + nameOf(instance.pool, entered.get(key)) + times);
  }
  for (const [task, count] of instance.active) parts.push("in " + nameOf(instance.pool, tasks.get(instance.pool + "." + task)) + (count > 1 ? " \u00d7" + count : ""));
  for (const [task, count] of instance.ready) parts.push("ready in " + nameOf(instance.pool, tasks.get(instance.pool + "." + task)) + (count > 1 ? " \u00d7" + count : ""));
  return parts.join(", ") || "finished";
};

// Why nothing is accepted any more.

const STUCK = new Set([13, 16, 17, 18]);
const atLast = stateAt(last);
// The fields and stores that some conditions name and that have no value in the last state.
const withoutValue = (conditions, id) => {
  const instance = atLast.byId.get(id), stores = atLast.beside.find((line) => line.startsWith("stores "));
  const have = new Set([...(instance ? instance.fields : []).map((pair) => "d" + pair[0]), ...pairs(stores ? stores.slice(7) : "-").map((pair) => "s" + pair[0])]);
  return [...new Set(conditions.join(" ").match(/[ds]\d+/g) || [])].filter((name) => !have.has(name));
};
const unmetWords = (entry, element) => {
  const missing = withoutValue(element.c, entry.p + "." + entry.i);
  if (missing.length) return "no value in " + missing.join(" and ");
  return (element.k === "xorSplit" ? element.c[entry.b] : element.c[0]) + " is not true";
};
const reasonWords = (entry) => {
  const element = pools.get(entry.p).els[entry.e], name = nameOf(entry.p, entry.e, entry.b);
  if (entry.r === 0) return "waits for " + messageName(entry.m) + ", none is queued";
  if (entry.r === 12 && element.k === "andJoin") return name + ": waits for its other entries";
  if (entry.r === 14) return name + ": " + withValues(entry.m, entry.v) + " is queued and is not for it (14)";
  if (entry.r === 13 && element.c.some((condition) => condition !== "true")) return name + ": " + unmetWords(entry, element) + " (13)";
  return name + ": " + words(entry.r) + " (" + entry.r + ")";
};
const reasonsOf = new Map(), stuck = new Set();
for (const entry of data.why) {
  const id = entry.p + "." + entry.i;
  const list = reasonsOf.get(id) || [];
  const said = reasonWords(entry);
  if (!list.some((other) => other.said === said)) list.push({ said, bad: STUCK.has(entry.r) });
  reasonsOf.set(id, list);
  if (STUCK.has(entry.r)) for (const edge of pools.get(entry.p).els[entry.e].i) stuck.add(id + "." + edge);
}

// Lines and places on the drawing.

const lengthOf = (points) => points.slice(1).reduce((sum, point, at) => sum + Math.hypot(point[0] - points[at][0], point[1] - points[at][1]), 0);
const along = (points, distance) => {
  let rest = Math.max(0, distance);
  for (let at = 1; at < points.length; at++) {
    const [x1, y1] = points[at - 1], [x2, y2] = points[at], length = Math.hypot(x2 - x1, y2 - y1);
    if (rest <= length || at === points.length - 1) {
      const part = length ? Math.min(1, rest / length) : 0;
      return [x1 + (x2 - x1) * part, y1 + (y2 - y1) * part];
    }
    rest -= length;
  }
  return points[0];
};
const middleOf = (key) => { const [x, y, w, h] = data.nodes[key]; return [x + w / 2, y + h / 2]; };
const lengths = {};
for (const key in data.edges) lengths[key] = lengthOf(data.edges[key]);

// Where the at-th token of an edge rests: one behind the other before the arrow, then in a row above.
const placeOn = (edge, at) => {
  const points = data.edges[edge];
  if (!points) {
    const [x, y] = middleOf(data.within[edge]);
    return [x + at * SPACING, y];
  }
  const room = Math.max(1, Math.floor((lengths[edge] - REST - 8) / SPACING) + 1), row = Math.floor(at / room);
  const [x, y] = along(points, lengths[edge] - REST - (at % room) * SPACING);
  return [x, y - row * SPACING];
};

// Tokens, counts and queues.

const tokens = new Map(), counts = new Map(), mores = new Map();
let chosen = "";
const colour = (instance) => "c" + instance % 8;
const setIf = (element, name, value) => { if (element.getAttribute(name) !== value) element.setAttribute(name, value); };
const classIf = (element, name, on) => { if (element.classList.contains(name) !== on) element.classList.toggle(name, on); };

const newToken = (instance, edge) => {
  const token = draw("g", { class: "token " + colour(instance.instance), "data-pool": instance.pool, "data-instance": instance.instance, "data-edge": edge });
  token.append(draw("circle", { r: 10 }), draw("text", { y: 4 }, String(instance.instance)), draw("text", { class: "times", x: 9, y: -6 }));
  token.addEventListener("click", () => choose(instance.id === chosen ? "" : instance.id));
  return token;
};
const tokensByEdge = (state) => {
  const found = new Map();
  for (const instance of state.instances) {
    for (const [edge, count] of instance.tokens) {
      const key = instance.pool + "." + edge;
      if (!found.has(key)) found.set(key, []);
      found.get(key).push([instance, edge, count]);
    }
  }
  return found;
};
const showTokens = (state, hidden, end) => {
  const used = new Set(), crowded = new Set();
  for (const [edge, held] of tokensByEdge(state)) {
    held.forEach(([instance, number, count], at) => {
      const id = instance.id + "." + number;
      used.add(id);
      if (!tokens.has(id)) { tokens.set(id, newToken(instance, number)); byId("tokens").append(tokens.get(id)); }
      const token = tokens.get(id), [x, y] = placeOn(edge, Math.min(at, 3));
      setIf(token, "transform", "translate(" + x.toFixed(1) + " " + y.toFixed(1) + ")");
      setIf(token, "data-count", String(count));
      const times = count > 1 ? "\u00d7" + count : "";
      if (token.lastChild.textContent !== times) token.lastChild.textContent = times;
      classIf(token, "hid", hidden.has(id) || held.length > 4 && at > 2);
      classIf(token, "other", chosen !== "" && chosen !== instance.id);
      classIf(token, "chosen", chosen === instance.id);
      classIf(token, "stuck", end && stuck.has(id));
    });
    if (held.length > 4) { crowded.add(edge); showMore(edge, held.length - 3); }
  }
  for (const [id, token] of tokens) if (!used.has(id)) { token.remove(); tokens.delete(id); }
  for (const [edge, more] of mores) if (!crowded.has(edge)) { more.remove(); mores.delete(edge); }
};
const showMore = (edge, count) => {
  if (!mores.has(edge)) {
    const more = draw("g", { class: "more", "data-edge": edge });
    more.append(draw("rect", { x: -16, y: -10, width: 32, height: 20, rx: 10 }), draw("text", { y: 4 }));
    mores.set(edge, more);
    byId("tokens").append(more);
  }
  const more = mores.get(edge), [x, y] = placeOn(edge, 3);
  setIf(more, "transform", "translate(" + x.toFixed(1) + " " + y.toFixed(1) + ")");
  setIf(more, "data-more", String(count));
  more.lastChild.textContent = "+" + count;
};

const countsIn = (state) => {
  const found = new Map();
  for (const instance of state.instances) {
    for (const what of ["active", "ready"]) {
      for (const [task, count] of instance[what]) {
        const node = instance.pool + "." + tasks.get(instance.pool + "." + task);
        if (!found.has(node)) found.set(node, []);
        found.get(node).push({ instance, task, what, count });
      }
    }
  }
  return found;
};
const newCount = ({ instance, task, what }) => {
  const mark = draw("g", { class: "count " + colour(instance.instance), "data-pool": instance.pool, "data-instance": instance.instance, "data-task": task, "data-what": what });
  mark.append(draw("circle", { r: 9 }), draw("text", { y: 4 }, String(instance.instance)), draw("text", { class: "times", x: 10, y: 4 }));
  return mark;
};
const showCounts = (state) => {
  const used = new Set();
  for (const [node, held] of countsIn(state)) {
    const [left, top, wide, high] = data.nodes[node], space = Math.min(34, (wide - 20) / held.length);
    held.forEach((entry, at) => {
      const id = entry.instance.id + "." + entry.task + entry.what;
      used.add(id);
      if (!counts.has(id)) { counts.set(id, newCount(entry)); byId("counts").append(counts.get(id)); }
      const mark = counts.get(id);
      setIf(mark, "transform", "translate(" + (left + 14 + at * space).toFixed(1) + " " + (top + high - 12).toFixed(1) + ")");
      setIf(mark, "data-count", String(entry.count));
      mark.lastChild.textContent = entry.count > 1 ? "\u00d7" + entry.count : "";
      classIf(mark, "other", chosen !== "" && chosen !== entry.instance.id);
    });
  }
  for (const [id, mark] of counts) if (!used.has(id)) { mark.remove(); counts.delete(id); }
};

const stations = new Map();
for (const station of document.querySelectorAll(".station")) {
  const [x, y] = data.stations[station.dataset.queue].at;
  station.append(draw("text", { class: "queue-count", x: x + 12, y: y + 4.5, "text-anchor": "middle" }));
  stations.set(station.dataset.queue, station);
}
const showStations = (state, event) => {
  for (const [message, station] of stations) {
    const count = state.queues.has(message) ? state.queues.get(message).length : 0;
    setIf(station, "data-count", String(count));
    const said = count ? String(count) : "";
    if (station.lastChild.textContent !== said) station.lastChild.textContent = said;
    classIf(station, "holds", count > 0);
    classIf(station, "used-now", Boolean(event) && !event.refused && event.message === message);
  }
};

// Rings, and the lines that a step used.

const ringOf = (key, kind) => {
  const [x, y, w, h] = data.nodes[key], room = 6, sign = document.querySelector('[data-node="' + key + '"] .sign') || document.querySelector('[data-node="' + shared(key) + '"] .sign');
  if (sign && sign.tagName === "circle") return draw("circle", { class: "ring " + kind, cx: x + w / 2, cy: y + h / 2, r: w / 2 + room });
  if (sign && sign.tagName === "path") return draw("path", { class: "ring " + kind, d: `M${x + w / 2} ${y - room - 2}L${x + w + room + 2} ${y + h / 2}L${x + w / 2} ${y + h + room + 2}L${x - room - 2} ${y + h / 2}z` });
  return draw("rect", { class: "ring " + kind, x: x - room, y: y - room, width: w + 2 * room, height: h + 2 * room, rx: 14 });
};
// Two elements may be drawn as one node, as a message end event is.
const shared = (key) => Object.keys(data.nodes).find((other) => String(data.nodes[other]) === String(data.nodes[key]) && document.querySelector('[data-node="' + other + '"]'));
const rings = new Map();
const ring = (key, kind) => {
  const id = key + kind;
  if (!rings.has(id)) rings.set(id, ringOf(key, kind));
  return rings.get(id);
};
const showRings = (at, event) => {
  const shown = [];
  const own = event && event.sort === "step" && data.nodes[nodeOf(event)] ? nodeOf(event) : "";
  for (const line of data.nexts ? data.nexts[at] : []) {
    const [pool, instance, place, , branch] = line.split(" ").map(Number), key = nodeOf({ pool, place, branch });
    if (key !== own && (!chosen || chosen === pool + "." + instance)) shown.push(ring(key, "may"));
  }
  if (own) shown.push(ring(own, isBad(event) ? "bad" : "now"));
  byId("rings").replaceChildren(...new Set(shown));
};
const glowing = (selector) => {
  const path = document.querySelector(selector);
  return path ? [draw("path", { class: "used", d: path.getAttribute("d") })] : [];
};
const showGlow = (event, moved) => {
  const found = [];
  if (event && event.sort === "step" && !isBad(event)) {
    for (const edge of [...moved.taken, ...moved.put]) found.push(...glowing('[data-line="' + event.pool + "." + edge + '"]'));
    const key = nodeOf(event);
    found.push(...glowing('[data-sub="' + key + '"]'));
    if (event.way) found.push(...glowing(`[data-${event.way === "!" ? "sends" : "receives"}="${event.message}"][data-end="${drawnKey(event)}"]`));
  }
  byId("glow").replaceChildren(...found);
};
const drawnKey = (event) => {
  const key = nodeOf(event);
  return document.querySelector('[data-node="' + key + '"]') ? key : shared(key);
};

// What the two states of an instance differ by: the edges that lost a token and those that got one.
const movedBy = (event, before, after) => {
  const found = { taken: [], put: [], gone: [] };
  if (!event || event.sort !== "step" || isBad(event)) return found;
  const id = event.pool + "." + event.instance, had = new Map(before.byId.has(id) ? before.byId.get(id).tokens : []), has = new Map(after.byId.has(id) ? after.byId.get(id).tokens : []);
  const entries = new Set(pools.get(event.pool).els[event.place].i);
  for (const [edge, count] of had) if ((has.get(edge) || 0) < count) found[entries.has(edge) ? "taken" : "gone"].push(edge);
  for (const [edge, count] of has) if ((had.get(edge) || 0) < count) found.put.push(edge);
  return found;
};

// Cards.

const cards = new Map(), FOLD = 6;
const newCard = (instance) => {
  const card = make("button", "card"), where = make("span", "where"), chips = make("span", "chips"), reasons = make("span", "reasons"), words_ = make("span", "words");
  card.type = "button";
  card.dataset.pool = instance.pool;
  card.dataset.instance = instance.instance;
  words_.append(where, chips, reasons);
  card.append(make("span", "disc " + colour(instance.instance), String(instance.instance)), words_);
  card.addEventListener("click", () => choose(instance.id === chosen ? "" : instance.id));
  return { card, where, chips, reasons, line: "", fields: "", end: false };
};
const fillChips = (held, instance, was) => {
  const before = new Map(was ? was.fields : []), said = instance.fields.map(([field, value]) => field + ":" + value + (before.get(field) === value ? "" : "!")).join(",");
  if (held.fields === said) return;
  held.fields = said;
  held.chips.replaceChildren(...instance.fields.map(([field, value]) => make("span", before.get(field) === value ? "chip" : "chip fresh", "d" + field + " = " + value)));
  held.card.dataset.fields = instance.fields.map((pair) => pair.join(":")).join(",") || "-";
};
const fillCard = (held, instance, was, end) => {
  if (held.line !== instance.line) {
    held.line = instance.line;
    held.where.textContent = whereWords(instance);
    if (!held.card.dataset.fields) held.card.dataset.fields = "-";
  }
  fillChips(held, instance, was);
  if (held.end !== end) {
    held.end = end;
    held.reasons.replaceChildren(...(end ? reasonsOf.get(instance.id) || [] : []).map((reason) => make("span", reason.bad ? "why bad" : "why", reason.said)));
  }
};
const cardOf = (instance, before, event, end) => {
  if (!cards.has(instance.id)) cards.set(instance.id, newCard(instance));
  const held = cards.get(instance.id);
  fillCard(held, instance, before && before.byId.get(instance.id), end);
  classIf(held.card, "now", Boolean(event) && event.sort === "step" && event.pool + "." + event.instance === instance.id);
  classIf(held.card, "other", chosen !== "" && chosen !== instance.id);
  classIf(held.card, "done", isDone(instance));
  setIf(held.card, "aria-pressed", String(chosen === instance.id));
  return held.card;
};
const headings = new Map();
const heading = (pool, made) => {
  const words_ = poolName(pool.n) + (pool.many ? " \u2013 " + made + " of at most " + pool.many : made ? "" : " \u2013 none yet");
  if (!headings.has(pool.n)) headings.set(pool.n, make("h3"));
  if (headings.get(pool.n).textContent !== words_) headings.get(pool.n).textContent = words_;
  return headings.get(pool.n);
};
const folded = (done) => {
  const runs = [];
  for (const { instance } of done) {
    const run = runs[runs.length - 1];
    if (run && run[1] === instance - 1) run[1] = instance;
    else runs.push([instance, instance]);
  }
  return make("p", "folded", runs.map(([from, to]) => from === to ? from : from + " to " + to).join(", ") + " finished");
};
const showCards = (state, before, event, at) => {
  const found = state.beside.map((line) => make("p", "folded", besideWords(line)));
  for (const pool of data.pools) {
    const own = state.instances.filter((instance) => instance.pool === pool.n), done = own.filter(isDone);
    found.push(heading(pool, own.length));
    const fold = done.length > FOLD, end = at === last && !data.left;
    for (const instance of own) {
      const current = event && event.sort === "step" && event.pool + "." + event.instance === instance.id;
      if (!fold || !isDone(instance) || current || instance.id === chosen) found.push(cardOf(instance, before, event, end));
    }
    if (fold) found.push(folded(done));
    for (const reason of end ? reasonsOf.get(pool.n + "." + own.length) || [] : []) found.push(make("p", reason.bad ? "folded why bad" : "folded why", reason.said));
  }
  const list = byId("cards");
  if (found.length !== list.children.length || found.some((element, place) => list.children[place] !== element)) list.replaceChildren(...found);
};
const besideWords = (line) => line.startsWith("stores ") ? "Stores: " + line.slice(7).split(",").map((part) => "s" + part.replace(":", " = ")).join(", ") : line[0].toUpperCase() + line.slice(1);

// The list of queues.

const queueRows = new Map(), SHOWN = 8;
const showQueues = (state) => {
  const names = [...new Set([...Object.keys(data.messages), ...state.queues.keys()])].sort((a, b) => a - b);
  const list = byId("queue-list");
  for (const message of names) {
    const held = state.queues.get(message) || [], said = held.join(" ");
    if (!queueRows.has(message)) queueRows.set(message, { row: make("div", "held"), said: null });
    const kept_ = queueRows.get(message);
    if (kept_.said === said) continue;
    kept_.said = said;
    kept_.row.className = held.length ? "held some" : "held";
    kept_.row.dataset.message = message;
    const inside = make("span", "", messageName(message) + (held.length ? " \u2013 " + held.length : ""));
    if (held.length) {
      const chips = make("span", "chips");
      chips.append(...held.slice(0, SHOWN).map((values) => make("span", "chip", values === "-" || values === "" ? "( )" : values)));
      if (held.length > SHOWN) chips.append(make("span", "chip", "+" + (held.length - SHOWN)));
      inside.append(chips);
    }
    kept_.row.replaceChildren(make("span", "", message), inside);
  }
  const rows = names.map((message) => queueRows.get(message).row);
  if (rows.length !== list.children.length) list.replaceChildren(...rows);
};

// The list of events.

const rowsBox = byId("rows"), rowsInner = byId("rows-inner"), rowPool = new Map();
let shownEvents = [], rowsHigh = 200, rowsTop = 0;
const listEvents = () => {
  shownEvents = [];
  for (let at = 1; at <= last; at++) if (!chosen || data.events[at - 1].l.replace(/^step /, "").startsWith(chosen.replace(".", " ") + " ")) shownEvents.push(at);
  rowsInner.style.height = shownEvents.length * ROW + "px";
  for (const row of rowPool.values()) row.remove();
  rowPool.clear();
};
const newRow = (at, place) => {
  const event = eventAt(at), bad = isBad(event), row = make("div", bad ? "row bad" : "row"), told = make("span", "told");
  const sign = bad ? "\u2715" : event.sort === "post" ? "\u2709" : event.sort === "step" ? String(event.instance) : "\u21ba";
  row.id = "event-" + at;
  row.setAttribute("role", "option");
  row.dataset.event = at;
  told.append(make("div", "does", rowWords(event)), make("div", "line", data.events[at - 1].l + (event.refused ? " refused " + event.refused : "")));
  row.append(make("span", "at", String(at)), make("span", "disc " + (bad ? "bad" : event.sort === "step" ? colour(event.instance) : "post"), sign), told);
  row.style.transform = "translateY(" + place * ROW + "px)";
  row.addEventListener("click", () => { pause(); show(at); });
  return row;
};
const firstFrom = (at) => {
  let low = 0, high = shownEvents.length;
  while (low < high) { const middle = (low + high) >> 1; if (shownEvents[middle] < at) low = middle + 1; else high = middle; }
  return low;
};
const fillRows = () => {
  const from = Math.max(0, Math.floor(rowsTop / ROW) - 1), to = Math.min(shownEvents.length, Math.ceil((rowsTop + rowsHigh) / ROW) + 1), wanted = new Set();
  for (let place = from; place < to; place++) {
    const at = shownEvents[place];
    wanted.add(at);
    if (!rowPool.has(at)) { rowPool.set(at, newRow(at, place)); rowsInner.append(rowPool.get(at)); }
    const row = rowPool.get(at);
    classIf(row, "now", at === shown);
    classIf(row, "later", at > shown);
    setIf(row, "aria-selected", String(at === shown));
  }
  for (const [at, row] of rowPool) if (!wanted.has(at)) { row.remove(); rowPool.delete(at); }
};
const followRow = (at) => {
  const place = firstFrom(at), top = place * ROW;
  if (top < rowsTop + ROW || top > rowsTop + rowsHigh - 2.5 * ROW) {
    rowsTop = Math.max(0, Math.min(top - rowsHigh / 2 + ROW / 2, shownEvents.length * ROW - rowsHigh));
    rowsBox.scrollTop = rowsTop;
  }
  setIf(rowsBox, "aria-activedescendant", at ? "event-" + at : "");
};

// Lanes.

let lanesWide = 600;
const drawLanes = () => {
  const canvas = byId("marks"), lanes = data.pools.length + 1, scale = devicePixelRatio || 1, high = 30, each = Math.min(9, high / lanes);
  canvas.width = Math.max(1, Math.round(lanesWide * scale));
  canvas.height = Math.round(high * scale);
  const pen = canvas.getContext("2d"), probe = make("span");
  body.append(probe);
  const colours = ["--queue-rim", "--refused", "--soft", ...Array.from({ length: 8 }, (_, k) => "--t" + k)].map((name) => { probe.style.color = "var(" + name + ")"; return getComputedStyle(probe).color; });
  probe.remove();
  pen.scale(scale, scale);
  const wide = lanesWide / Math.max(1, last), mark = Math.max(1, Math.min(wide - (wide > 4 ? 1.5 : 0), 22)), done = new Set();
  data.events.forEach((event, at) => {
    const step = /^(?:step )?(\d+) (\d+) /.exec(event.l), lane = step && order.has(+step[1]) ? order.get(+step[1]) + 1 : 0, bad = event.r || event.w;
    const x = at * wide, pixel = Math.floor(x) * 16 + lane;
    if (!bad && done.has(pixel)) return;
    done.add(pixel);
    pen.fillStyle = bad ? colours[1] : step ? colours[3 + step[2] % 8] : event.l === "fresh" ? colours[2] : colours[0];
    pen.fillRect(x, (high - lanes * each) / 2 + lane * each, mark, each - 2);
  });
};
const showPlace = (at) => {
  const share = last ? at / last : 0;
  byId("cursor").style.transform = "translateX(" + (share * lanesWide - (share === 1 ? 2 : 0)) + "px)";
  byId("future").style.transform = "scaleX(" + (1 - share) + ")";
  const slider = byId("slider");
  if (+slider.value !== at) slider.value = at;
  byId("place").textContent = "step " + at + " of " + last;
};

// Showing a step.

let shown = 0, playing = false, speed = 1, move = null;
const speak = (parts) => {
  if (!(playing && speed > 1)) byId("spoken").textContent = plain(parts);
};
// The new tokens of a step that is being shown moving: they come when it ends.
const comingBy = (event, before, moved) => {
  const id = event.pool + "." + event.instance, had = new Map(before.byId.has(id) ? before.byId.get(id).tokens : []);
  return new Set(moved.put.filter((edge) => !had.has(edge)).map((edge) => id + "." + edge));
};
const show = (at, moving) => {
  if (move && !moving) endMove();
  shown = Math.max(0, Math.min(last, at));
  followRow(shown);
  const state = stateAt(shown), before = shown ? stateAt(shown - 1) : null, event = shown ? eventAt(shown) : null;
  const moved = before ? movedBy(event, before, state) : { taken: [], put: [], gone: [] };
  body.dataset.at = shown;
  showTokens(state, moving ? comingBy(event, before, moved) : new Set(), shown === last && !data.left);
  showCounts(state);
  showStations(moving && event.way === "!" ? before : state, event);
  showRings(shown, event);
  showGlow(event, moved);
  showCards(state, before, event, shown);
  showQueues(state);
  fillRows();
  showPlace(shown);
  tell();
  keepAddress();
  return { event, moved };
};
const tell = () => {
  const parts = sentence(shown);
  put(byId("said"), parts);
  setIf(byId("slider"), "aria-valuetext", "step " + shown + " of " + last + ": " + plain(parts));
  speak(parts);
};

// Moving.

const letter = () => {
  const found = draw("g", { class: "letter" });
  found.append(draw("rect", { x: -9, y: -6, width: 18, height: 12, rx: 1.5 }), draw("path", { d: "M-9 -5L0 1.5L9 -5" }));
  return found;
};
const mover = (instance) => {
  const found = draw("g", { class: "token " + colour(instance) });
  found.append(draw("circle", { r: 10 }), draw("text", { y: 4 }, String(instance)));
  return found;
};
// The ways of a step: what goes into the node in its first half, and what comes out in its second.
const waysOf = ({ event, moved }) => {
  const key = nodeOf(event), middle = middleOf(key), gateway = event.pool + "." + event.place, ways = [];
  const inner = key !== gateway && data.subs[key] ? [middleOf(gateway), ...data.subs[key], middle] : [middle];
  for (const edge of moved.taken) {
    const id = event.pool + "." + edge, points = data.edges[id];
    ways.push({ element: mover(event.instance), from: 0, to: 0.5, points: points ? [...tail(points, lengths[id] - REST), ...inner] : [middle, ...inner] });
  }
  for (const edge of moved.put) {
    const id = event.pool + "." + edge, points = data.edges[id];
    ways.push({ element: mover(event.instance), from: 0.5, to: 1, points: points ? [middle, ...points.slice(0, -1), along(points, lengths[id] - REST)] : [middle, middleOf(data.within[id])] });
  }
  const station = event.way && data.stations[event.message], end = event.way ? drawnKey(event) : "";
  if (station && event.way === "?") ways.push({ element: letter(), from: 0, to: 0.5, points: [station.at, ...(station.r[end] || []), middle] });
  if (station && event.way === "!") ways.push({ element: letter(), from: 0.5, to: 1, points: [middle, ...(station.s[end] || []), station.at] });
  return ways;
};
// The part of a line from a distance on.
const tail = (points, distance) => {
  let gone = 0;
  for (let at = 1; at < points.length; at++) {
    gone += Math.hypot(points[at][0] - points[at - 1][0], points[at][1] - points[at - 1][1]);
    if (gone >= distance) return [along(points, distance), ...points.slice(at)];
  }
  return [points[points.length - 1]];
};
const fadeGone = ({ event, moved }) => {
  for (const edge of moved.gone) {
    const ghost = mover(event.instance), [x, y] = placeOn(event.pool + "." + edge, 0);
    ghost.setAttribute("transform", "translate(" + x + " " + y + ")");
    byId("movers").append(ghost);
    requestAnimationFrame(() => ghost.classList.add("fades"));
  }
};
const startMove = (at, then) => {
  const shownNow = show(at, true), { event } = shownNow;
  if (!event || event.sort !== "step" || isBad(event)) {
    move = { then, ways: [], begun: performance.now(), time: STEP_TIME / speed, frame: 0 };
  } else {
    const ways = waysOf(shownNow).map((way) => ({ ...way, length: lengthOf(way.points) }));
    for (const way of ways) byId("movers").append(way.element);
    fadeGone(shownNow);
    move = { then, ways, begun: performance.now(), time: STEP_TIME / speed, frame: 0 };
  }
  frameMove(move.begun);
};
const eased = (share) => share < 0.5 ? 2 * share * share : 1 - 2 * (1 - share) * (1 - share);
const frameMove = (now) => {
  const share = Math.min(1, (now - move.begun) / move.time);
  for (const way of move.ways) {
    const part = (share - way.from) / (way.to - way.from), [x, y] = along(way.points, way.length * eased(Math.max(0, Math.min(1, part))));
    way.element.setAttribute("transform", "translate(" + x.toFixed(1) + " " + y.toFixed(1) + ")");
    way.element.setAttribute("visibility", part < 0 || part > 1 && share < 1 ? "hidden" : "visible");
  }
  if (share < 1) move.frame = requestAnimationFrame(frameMove);
  else { const { then } = move; endMove(); show(shown); if (then) then(); }
};
const endMove = () => {
  if (!move) return;
  cancelAnimationFrame(move.frame);
  move = null;
  empty(byId("movers"));
};

// Playing.

let timer = 0;
const neighbour = (from, step) => {
  if (!chosen) return from + step;
  const place = firstFrom(from);
  const found = step > 0 ? shownEvents[shownEvents[place] === from ? place + 1 : place] : shownEvents[place - 1];
  return found === undefined ? (step > 0 ? last : 0) : found;
};
const moves = () => !still.matches && speed < 16;
const goOn = (then) => {
  const next = neighbour(shown, 1);
  if (shown >= last) return;
  if (moves() && next === shown + 1) startMove(next, then);
  else { show(next); if (then) timer = setTimeout(then, STEP_TIME / speed); }
};
const setPlaying = (on) => {
  playing = on;
  byId("play-button").setAttribute("aria-label", on ? "Pause" : "Play");
  byId("play-sign").setAttribute("d", on ? "M3 2h4v12H3zM9 2h4v12H9z" : "M4 2v12l10-6z");
};
const pause = () => {
  clearTimeout(timer);
  const was = playing;
  setPlaying(false);
  if (move) { endMove(); show(shown); }
  else if (was) speak(sentence(shown));
};
const play = () => {
  if (shown >= last) show(0);
  if (!last) return;
  setPlaying(true);
  const further = () => { if (playing) { if (shown < last) goOn(further); else pause(); } };
  further();
};
const toggle = () => playing ? pause() : play();
const stepOn = () => { pause(); goOn(null); };
const stepBack = () => { pause(); show(neighbour(shown, -1)); };
const jump = (at) => { pause(); show(at); };
const setSpeed = (value) => {
  speed = value;
  byId("speed").value = String(value);
};
const faster = (by) => setSpeed(SPEEDS[Math.max(0, Math.min(SPEEDS.length - 1, SPEEDS.indexOf(speed) + by))]);

// One instance alone, numbers, theme, address.

const choose = (id) => {
  chosen = id;
  if (id) body.dataset.instance = id;
  else delete body.dataset.instance;
  listEvents();
  rowsTop = -1e9;
  show(shown);
};
const setNumbers = (on) => {
  body.dataset.numbers = on ? "1" : "0";
  byId("numbers-button").setAttribute("aria-pressed", String(on));
  keepAddress();
};
const isDark = () => root.dataset.theme ? root.dataset.theme === "dark" : matchMedia("(prefers-color-scheme: dark)").matches;
const setTheme = (theme) => {
  root.dataset.theme = theme;
  drawLanes();
  keepAddress();
};
let keeping = 0, keptAddress = location.hash;
const keepAddress = () => {
  clearTimeout(keeping);
  keeping = setTimeout(() => {
    const parts = ["step=" + shown];
    if (chosen) parts.push("instance=" + chosen);
    if (root.dataset.theme) parts.push("theme=" + root.dataset.theme);
    if (body.dataset.numbers === "0") parts.push("numbers=0");
    keptAddress = "#" + parts.join("&");
    if (location.hash !== keptAddress && !playing) history.replaceState(null, "", keptAddress);
  }, 400);
};
const takeAddress = () => {
  const given = new URLSearchParams(location.hash.slice(1)), instance = given.get("instance") || "";
  if (/^(light|dark)$/.test(given.get("theme"))) root.dataset.theme = given.get("theme");
  setNumbers(given.get("numbers") !== "0");
  chosen = /^\d+\.\d+$/.test(instance) && pools.has(+instance.split(".")[0]) ? instance : "";
  choose(chosen);
  const at = Number(given.get("step"));
  show(Number.isInteger(at) ? at : 0);
};

// Zoom and pan.

const stage = byId("stage"), drawing = byId("drawing");
let size = [800, 600], view = null, fitted = true;
const setView = (next) => {
  view = next;
  drawing.setAttribute("viewBox", view.map((value) => value.toFixed(2)).join(" "));
};
const fit = () => {
  const [x, y, w, h] = data.view, scale = Math.min(size[0] / w, size[1] / h, 1.25), wide = size[0] / scale, high = size[1] / scale;
  fitted = true;
  setView([x + (w - wide) / 2, y + (h - high) / 2, wide, high]);
};
const zoom = (factor, at) => {
  const [x, y, w, h] = view, share = at || [0.5, 0.5], wide = Math.max(60, Math.min(data.view[2] * 8, w * factor)), high = h * wide / w;
  fitted = false;
  setView([x + (w - wide) * share[0], y + (h - high) * share[1], wide, high]);
};
let dragged = null;
stage.addEventListener("wheel", (event) => {
  event.preventDefault();
  zoom(Math.exp(Math.max(-60, Math.min(60, event.deltaY)) * 0.004), [event.offsetX / size[0], event.offsetY / size[1]]);
}, { passive: false });
stage.addEventListener("pointerdown", (event) => {
  if (event.button === 0 && event.pointerType !== "touch" && !event.target.closest(".token")) { dragged = [event.clientX, event.clientY, view]; stage.setPointerCapture(event.pointerId); }
});
stage.addEventListener("pointermove", (event) => {
  if (!dragged) return;
  const [x, y, [left, top, w, h]] = dragged;
  stage.classList.add("dragged");
  fitted = false;
  setView([left - (event.clientX - x) * w / size[0], top - (event.clientY - y) * h / size[1], w, h]);
});
for (const name of ["pointerup", "pointercancel"]) stage.addEventListener(name, () => { dragged = null; stage.classList.remove("dragged"); });

// Keys, buttons, sizes.

const KEYS = {
  " ": toggle, ArrowRight: stepOn, ArrowLeft: stepBack, Home: () => jump(0), End: () => jump(last), "[": () => faster(-1), "]": () => faster(1),
  "+": () => zoom(0.8), "=": () => zoom(0.8), "-": () => zoom(1.25), 0: fit, n: () => setNumbers(body.dataset.numbers === "0"), d: () => setTheme(isDark() ? "light" : "dark"),
  Escape: () => choose(""),
};
document.addEventListener("keydown", (event) => {
  const at = event.target, key = event.key.length === 1 ? event.key.toLowerCase() : event.key;
  if (event.ctrlKey || event.metaKey || event.altKey || at.tagName === "SELECT") return;
  if (at === rowsBox && (key === "ArrowDown" || key === "ArrowUp")) {
    event.preventDefault();
    jump(neighbour(shown, key === "ArrowDown" ? 1 : -1));
  } else if (KEYS[key] && !((key === " " || key === "Enter") && at.closest("button"))) {
    event.preventDefault();
    KEYS[key]();
  }
});
const pressed = { "first-button": () => jump(0), "back-button": stepBack, "play-button": toggle, "on-button": stepOn, "last-button": () => jump(last), "numbers-button": KEYS.n, "fit-button": fit, "theme-button": KEYS.d };
for (const id in pressed) byId(id).addEventListener("click", pressed[id]);
for (const value of SPEEDS) {
  const option = make("option", "", { 0.25: "\u00bc", 0.5: "\u00bd" }[value] || String(value));
  option.textContent += "\u00d7";
  option.value = String(value);
  byId("speed").append(option);
}
byId("speed").addEventListener("change", () => setSpeed(Number(byId("speed").value)));
let wanted = -1;
byId("slider").addEventListener("input", () => {
  if (wanted < 0) requestAnimationFrame(() => { const at = wanted; wanted = -1; jump(at); });
  wanted = Number(byId("slider").value);
});
rowsBox.addEventListener("scroll", () => { if (Math.abs(rowsBox.scrollTop - rowsTop) > 1) { rowsTop = rowsBox.scrollTop; fillRows(); } });
addEventListener("hashchange", () => { if (location.hash !== keptAddress) { pause(); takeAddress(); drawLanes(); } });
matchMedia("(prefers-color-scheme: dark)").addEventListener("change", drawLanes);
let before = null;
addEventListener("beforeprint", () => { before = view; setView(data.view); });
addEventListener("afterprint", () => { if (before) setView(before); });
const sized = new ResizeObserver((entries) => {
  for (const { target, contentRect } of entries) {
    if (target === stage) { size = [Math.max(1, contentRect.width), Math.max(1, contentRect.height)]; if (fitted) fit(); else zoom(1); }
    if (target === rowsBox) { rowsHigh = contentRect.height; followRow(shown); fillRows(); }
    if (target === byId("lanes")) { lanesWide = Math.max(1, contentRect.width); drawLanes(); showPlace(shown); }
  }
});

byId("slider").max = last;
stage.style.setProperty("--shape", data.view[2] + " / " + data.view[3]);
setSpeed(1);
fit();
takeAddress();
for (const element of [stage, rowsBox, byId("lanes")]) sized.observe(element);
})();
