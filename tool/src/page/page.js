"use strict";
// The run, as `zemawulo page` told it. Step 0 is the fresh world.
const story = JSON.parse(document.getElementById("data").textContent);
const last = story.steps.length;
const step = (k) => story.steps[k - 1];

// ---- the world after each step

function apply(world, changes) {
  const next = { ...world, newest: changes.newest, ending: changes.ending, used: changes.used };
  for (const part of ["views", "servers", "clients", "messages"]) {
    if (changes[part].length === 0) continue;
    next[part] = new Map(world[part]);
    for (const record of changes[part]) next[part].set(record.number, record);
  }
  return next;
}

const none = { newest: 0, ending: 0, used: 0, views: new Map(), servers: new Map(), clients: new Map(), messages: new Map() };
const worlds = [apply(none, story.fresh)];
for (const { changes } of story.steps) {
  const before = worlds[worlds.length - 1];
  worlds.push(changes ? apply(before, changes) : before);
}

const members = new Set();
for (const view of worlds[last].views.values()) view.members.forEach((s) => members.add(s));
const servers = [...worlds[last].servers.values()].filter((s) => members.has(s.number) || s.faulty).map((s) => s.number);
const clients = [...new Set(story.operations.map((o) => o.client))].sort((a, b) => a - b);

// ---- words

const stamp = (e) => (e ? `${e[0]}.${e[1]}` : "0.0");
const value = (e) => (e ? String(e[2]) : "empty");
const spelled = (e) => (e ? `count=${e[0]} writer=${e[1]} value=${e[2]}` : "empty");
const listed = (numbers) => (numbers.length ? numbers.join(",") : "none");
const dash = (number) => (number ? String(number) : "-");
const kindOf = (o) => (o.kind === "W" ? "write" : "read");
const counted = (n, word) => `${n} ${word}${n === 1 ? "" : "s"}`;
const isLost = (o) => o.end !== 0 && o.end === story.verdict.lost;

function endOf(o) {
  if (o.end) return `step ${o.end}`;
  return o.givenUp ? `given up at step ${o.givenUp}` : "unfinished";
}

function returnsOf(o) {
  if (o.kind !== "R" || !o.end) return "-";
  if (o.source === null) return o.entry ? "an entry of no write" : "the empty entry: no write is before it";
  const w = story.operations[o.source];
  return `the write of client ${w.client}, steps ${w.begin} to ${w.end || w.givenUp || "…"}`;
}

function whyLost() {
  const o = story.operations.find(isLost);
  if (!o) return "";
  const text = `The ${kindOf(o)} of client ${o.client}, steps ${o.begin} to ${o.end}, gave ${value(o.entry)} (stamp ${stamp(o.entry)})`;
  if (o.before === null) return text + ".";
  const w = story.operations[o.before];
  return `${text}, though ${value(w.entry)} (stamp ${stamp(w.entry)}) was filed by step ${w.end}.`;
}

// ---- elements

function element(name, attributes, ...inside) {
  const made = document.createElement(name);
  for (const [key, text] of Object.entries(attributes || {})) made.setAttribute(key, text);
  made.append(...inside);
  return made;
}

function drawn(name, attributes, text) {
  const made = document.createElementNS("http://www.w3.org/2000/svg", name);
  for (const [key, content] of Object.entries(attributes)) made.setAttribute(key, content);
  if (text !== undefined) made.textContent = text;
  return made;
}

const at = (id) => document.getElementById(id);

function jump(k, text) {
  const button = element("button", { type: "button", class: "jump" }, text);
  button.addEventListener("click", () => go(k));
  return button;
}

function table(id, heads, rows) {
  const head = element("tr", {}, ...heads.map((word) => element("th", {}, word)));
  const body = rows.map(({ cells, mark }) => element("tr", mark ? { class: mark } : {}, ...cells.map((cell) => element("td", {}, cell))));
  at(id).replaceChildren(element("thead", {}, head), element("tbody", {}, ...body));
}

// ---- what the run shows

function fact(title, strong, bad, ...more) {
  const mark = bad === null ? "" : bad ? "✗ " : "✓ ";
  const card = element("div", bad ? { class: "bad" } : {}, element("h3", {}, title), element("strong", {}, mark + strong));
  if (more.length) card.append(element("p", {}, ...more));
  at("facts").append(card);
}

function stepsFact() {
  const refused = last - story.accepted;
  const first = story.steps.findIndex((s) => s.refusal !== 0) + 1;
  const words = first ? [jump(first, `step ${first}`), `: refusal ${step(first).refusal}, ${step(first).words}`] : ["none was refused"];
  fact("Steps", `${story.accepted} accepted, ${refused} refused`, null, ...words);
}

function operationsFact() {
  const ended = story.operations.filter((o) => o.end);
  const writes = ended.filter((o) => o.kind === "W").length;
  const open = story.operations.length - ended.length;
  fact("Operations", `${ended.length} completed, ${open} unfinished`, null, `${counted(writes, "write")} and ${counted(ended.length - writes, "read")} completed`);
}

function premiseFact() {
  if (!story.broken) return fact("Premise", "holds to the end", false, "no view has more faulty servers with its key than its f");
  const words = story.why + ".";
  fact("Premise", `broken by step ${story.broken}`, true, jump(story.broken, step(story.broken).text), ": " + words);
}

function orderFact() {
  const { refusal, lost, order } = story.verdict;
  if (refusal === 0) return fact("One order", `exists, of ${order.length} operations`, false, "by the library's judge");
  if (refusal !== 13) return fact("One order", "was not judged", null, `refusal ${refusal}: a log has at most 256 operations`);
  fact("One order", `none from step ${lost} on`, true, whyLost(), " ", jump(lost, `step ${lost}`));
}

// ---- the chart

const WIDTH = Math.min(80, Math.max(15, Math.floor(1092 / Math.max(last, 1))));
const PAD = 8;
const left = (k) => PAD + (k - 1) * WIDTH;
const middle = (k) => (k === 0 ? PAD : left(k) + WIDTH / 2);
const total = Math.max(PAD * 2 + last * WIDTH, 300);

const rows = [];
const place = {};
let height = 22;

function row(name, label, tall) {
  rows.push({ label, y: height + tall / 2 });
  place[name] = height + tall / 2;
  height += tall;
}

row("premise", "premise", 30);
row("view", "newest view", 30);
height += 12;
for (const c of clients) row("c" + c, `client ${c}`, 46);
row("a", "administrator", 30);
height += 8;
for (const s of servers) row("s" + s, `server ${s}`, 34);
height += 8;

// Steps from..to with one mark each, as pieces [from, to, mark].
function pieces(mark) {
  const found = [];
  for (let k = 1; k <= last; k++) {
    const now = mark(k);
    const open = found[found.length - 1];
    if (open && open[2] === now) open[1] = k;
    else found.push([k, k, now]);
  }
  return found;
}

const LETTER = 6.3;
const texts = [];

// A text where it has room: the first that is short enough for its width.
function fitted(x, y, wide, choices, kind) {
  const found = choices.find((text) => text.length * LETTER + 8 <= wide);
  if (found === undefined) return null;
  const text = drawn("text", { x, y, class: kind || "" }, found);
  texts.push({ text, x, end: x + wide - found.length * LETTER - 8 });
  return text;
}

// A text whose piece begins left of what is seen moves along with it.
function keepTexts() {
  const seen = at("scroll").scrollLeft + 6;
  for (const { text, x, end } of texts) text.setAttribute("x", Math.max(x, Math.min(seen, end)));
}

function box(svg, from, to, y, tall, kind, choices, title) {
  const wide = (to - from + 1) * WIDTH - 2;
  const rect = drawn("rect", { x: left(from) + 1, y: y - tall / 2, width: wide, height: tall, rx: 3, class: kind });
  rect.append(drawn("title", {}, title));
  svg.append(rect);
  const text = fitted(left(from) + 6, y + 4, wide, choices, kind === "broken" || kind === "ending" ? "plain" : "");
  if (text) svg.append(text);
}

function definitions() {
  const defs = drawn("defs", {});
  const hatch = drawn("pattern", { id: "hatch", width: 6, height: 6, patternUnits: "userSpaceOnUse", patternTransform: "rotate(45)" });
  hatch.append(drawn("rect", { width: 2, height: 6, style: "fill: var(--bad); opacity: .55" }));
  const dots = drawn("pattern", { id: "dots", width: 6, height: 6, patternUnits: "userSpaceOnUse" });
  dots.append(drawn("circle", { cx: 2, cy: 2, r: 1, style: "fill: var(--dim)" }));
  const head = drawn("marker", { id: "head", viewBox: "0 0 8 8", refX: 7, refY: 4, markerWidth: 7, markerHeight: 7, orient: "auto", markerUnits: "userSpaceOnUse" });
  head.append(drawn("path", { d: "M0 0 L8 4 L0 8 Z", class: "head" }));
  defs.append(hatch, dots, head);
  return defs;
}

function ticks(svg) {
  const apart = [1, 2, 5, 10, 20, 50].find((n) => n * WIDTH >= 10 + 7 * String(last).length) || 100;
  for (let k = 1; k <= last; k++) {
    const refused = step(k).refusal !== 0;
    if (k % apart === 0 || k === 1 || refused) svg.append(drawn("text", { x: middle(k), y: 14, class: refused ? "tick flag" : "tick" }, refused ? "✗" + k : k));
  }
}

function strips(svg) {
  for (const [from, to, holds] of pieces((k) => step(k).premise)) {
    const broken = [`premise broken by step ${from}: ${story.why}`, `premise broken by step ${from}`, `✗ broken by step ${from}`, "✗ broken", "✗"];
    box(svg, from, to, place.premise, 18, holds ? "holds" : "broken", holds ? ["✓ premise holds", "✓ holds", "✓"] : broken, holds ? "the premise holds" : story.why);
  }
  for (const [from, to, mark] of pieces((k) => `${worlds[k].newest}|${worlds[k].ending ? 1 : 0}`)) {
    const [view, ending] = mark.split("|");
    const choices = ending === "1" ? [`view ${view} is being ended`, "being ended", "ends", "…"] : [`view ${view}`, view];
    box(svg, from, to, place.view, 18, ending === "1" ? "ending" : "view", choices, choices[0]);
  }
}

function operation(svg, o) {
  const to = o.end || o.givenUp || last;
  const y = place["c" + o.client];
  const lost = isLost(o);
  const what = o.known ? `${kindOf(o)} ${value(o.entry)}` : kindOf(o);
  const tail = o.end ? "" : o.givenUp ? ", given up" : ", unfinished";
  const flag = lost ? "✗ stale " : "";
  const choices = [`${flag}${what} (stamp ${stamp(o.entry)})${tail}`, `${flag}${what} (${stamp(o.entry)})${tail}`, `${flag}${what}${tail}`, `${flag}${o.kind} ${value(o.entry)}`, o.kind];
  if (!o.known) choices.splice(0, 2);
  const kind = `op ${o.kind}${o.end ? "" : " open"}${lost ? " lost" : ""}`;
  box(svg, o.begin, to, y, 24, kind, choices, `client ${o.client}: ${what}, steps ${o.begin} to ${endOf(o)}; ${spelled(o.entry)}`);
}

// From the write to the read that returned it.
function returning(svg, o) {
  if (o.kind !== "R" || !o.end || o.source === null) return;
  const w = story.operations[o.source];
  const [x1, y1] = [left((w.end || w.givenUp || last) + 1) - 3, place["c" + w.client]];
  const [x2, y2] = [left(o.end + 1) - 8, place["c" + o.client]];
  const [over, under] = y1 < y2 ? [y1 + 12, y2 - 12] : [y1 - 12, y2 - 12];
  const bend = y1 === y2 ? over - 12 : (over + under) / 2;
  const path = drawn("path", { d: `M${x1} ${over} C${x1} ${bend} ${x2} ${bend} ${x2} ${under}`, class: "returns", "marker-end": "url(#head)" });
  path.append(drawn("title", {}, `the read of client ${o.client} returns ${returnsOf(o)}`));
  svg.append(path);
}

function serverMark(k, s) {
  const { state, keys } = worlds[k].servers.get(s);
  return `${state}|${keys.join(",")}`;
}

function serverLine(svg, s) {
  const y = place["s" + s];
  for (const [from, to, mark] of pieces((k) => serverMark(k, s))) {
    const [state, keys] = mark.split("|");
    if (state === "not started") continue;
    const title = `server ${s}, steps ${from} to ${to}: ${state}, ${keys ? "key of view " + keys : "no key"}`;
    const faulty = state.startsWith("faulty");
    if (!keys && !faulty) {
      const line = drawn("line", { x1: left(from) + 1, x2: left(to + 1) - 1, y1: y + 5, y2: y + 5, class: "seg none" });
      line.append(drawn("title", {}, title));
      svg.append(line);
    } else {
      const kind = faulty ? "faulty" : state === "retired" ? "old" : "key";
      const rect = drawn("rect", { x: left(from) + 1, y: y + 1, width: (to - from + 1) * WIDTH - 2, height: 8, rx: 2, class: "seg " + kind });
      rect.append(drawn("title", {}, title));
      svg.append(rect);
    }
    const held = keys ? `key ${keys}` : "no key";
    const short = faulty ? "faulty" : state;
    const choices = state === "correct" ? [held] : [`${state}, ${held}`, `${short}, ${held}`, short, faulty ? "✗" : ""];
    const text = fitted(left(from) + 3, y - 3, (to - from + 1) * WIDTH, choices, faulty ? "flag" : "");
    if (text) svg.append(text);
  }
}

// END and START where the administrator sends them, and where it restarts.
function calls(svg) {
  const called = (k, words) => {
    svg.append(drawn("circle", { cx: middle(k), cy: place.a, r: 3, class: "head" }));
    svg.append(drawn("text", { x: middle(k) - 6, y: place.a + 4, class: "plain called" }, words));
  };
  for (let k = 1; k <= last; k++) {
    const sent = worlds[k].used > worlds[k - 1].used ? worlds[k].messages.get(worlds[k].used) : null;
    if (sent && (sent.kind === "END" || sent.kind === "START")) called(k, `${sent.kind} ${sent.view}`);
    if (step(k).refusal === 0 && step(k).text.split(" ")[0] === "restart") called(k, "restart");
  }
}

const arrows = new Map();

function arrow(svg, k) {
  const a = step(k).arrow;
  if (!a || place[a.from] === undefined || place[a.to] === undefined) return;
  const edge = (lane, down) => place[lane] + (lane[0] === "s" ? (down ? -2 : 5) : lane[0] === "c" ? (down ? 12 : 12) : 0);
  const down = place[a.from] < place[a.to];
  const path = drawn("path", {
    d: `M${middle(a.at)} ${edge(a.from, !down)} L${middle(k)} ${edge(a.to, down)}`,
    class: "arrow" + (a.lie ? " lie" : ""), "marker-end": "url(#head)",
  });
  path.append(drawn("title", {}, `message ${a.message}, ${a.kind}${a.lie ? ", false" : ""}: sent by step ${a.at}, arrives by step ${k}`));
  svg.append(path);
  arrows.set(k, path);
}

let band;
let veil;

function chart() {
  const svg = drawn("svg", { width: total, height, viewBox: `0 0 ${total} ${height}`, role: "img", "aria-label": "operations, servers and messages along the steps" });
  svg.append(definitions());
  band = drawn("rect", { y: 0, width: WIDTH, height, class: "now-band" });
  svg.append(band);
  for (const { y } of rows) svg.append(drawn("line", { x1: 0, x2: total, y1: y + 17, y2: y + 17, class: "row", opacity: 0.5 }));
  ticks(svg);
  strips(svg);
  for (const s of servers) serverLine(svg, s);
  for (const o of story.operations) operation(svg, o);
  for (let k = 1; k <= last; k++) arrow(svg, k);
  for (const o of story.operations) returning(svg, o);
  calls(svg);
  veil = drawn("rect", { y: 18, height: height - 18, class: "veil" });
  svg.append(veil);
  svg.addEventListener("click", (event) => {
    const x = event.clientX - svg.getBoundingClientRect().left;
    go(Math.ceil((x - PAD) / WIDTH));
  });
  at("scroll").append(svg);
  at("scroll").addEventListener("scroll", keepTexts);
  for (const { label, y } of rows) at("labels").append(element("span", { style: `top: ${y}px` }, label));
}

function legend() {
  const sample = (kind, words, line) => {
    const svg = drawn("svg", { width: 30, height: 12 });
    svg.append(line ? drawn("line", { x1: 0, x2: 30, y1: 6, y2: 6, class: kind }) : drawn("rect", { x: 1, y: 2, width: 28, height: 8, rx: 2, class: kind }));
    at("legend").append(element("span", {}, svg, words));
  };
  sample("seg key", "holds the key of its view");
  sample("seg old", "retired, still holds a key");
  sample("seg none", "gave its key up", true);
  sample("seg faulty", "faulty (hatched)");
  sample("arrow", "message, from its sending to its arrival", true);
  sample("arrow lie", "false answer", true);
  sample("returns", "the read returns this write", true);
}

// ---- one step

function stepList() {
  const items = [element("li", { "data-step": 0 }, element("b", {}, "0"), story.world)];
  story.steps.forEach((s, i) => {
    const notes = [];
    if (s.refusal) notes.push(`✗ refusal ${s.refusal}`);
    if (s.completed) notes.push(`✓ completes client ${s.completed}`);
    if (i + 1 === story.broken) notes.push("✗ breaks the premise");
    if (i + 1 === story.verdict.lost) notes.push("✗ no order");
    const text = [element("b", {}, String(i + 1)), s.text, element("i", {}, notes.join(", "))];
    items.push(element("li", { "data-step": i + 1, class: s.refusal ? "refused" : "" }, ...text));
  });
  at("steps").append(...items);
  at("steps").addEventListener("click", (event) => {
    const item = event.target.closest("li");
    if (item) go(Number(item.dataset.step));
  });
}

function wordsOf(k) {
  if (k === 0) return ["The fresh world: nothing was sent."];
  const s = step(k);
  if (s.refusal) return [element("span", { class: "refused" }, `✗ refused, ${s.refusal}: ${s.words}. Nothing changed.`)];
  const words = ["accepted."];
  if (s.arrow) words.push(` Message ${s.arrow.message} is ${s.arrow.kind === "answer" ? "an answer" : s.arrow.kind}${s.arrow.lie ? ", a false one" : ""}, sent by step ${s.arrow.at}.`);
  const sent = worlds[k].used - worlds[k - 1].used;
  if (sent) words.push(` It sends message ${worlds[k].used}, ${worlds[k].messages.get(worlds[k].used).kind}.`);
  const o = story.operations.find((one) => one.end === k);
  if (o) words.push(` It completes the ${kindOf(o)} of client ${o.client}: ${spelled(o.entry)}.`);
  if (k === story.verdict.lost) words.push(element("span", { class: "broken" }, " ✗ From here on no order exists: the result is stale."));
  if (k === story.broken) words.push(element("span", { class: "broken" }, ` ✗ It breaks the premise: ${story.why}.`));
  else if (!s.premise) words.push(" The premise does not hold.");
  return words;
}

function changed(k, part, number) {
  const list = k > 0 && step(k).changes ? step(k).changes[part] : [];
  return list.some((record) => record.number === number);
}

// The servers that were in a view by then, and those that are faulty.
function toldServers(world) {
  const views = [...world.views.values()];
  return servers.filter((s) => world.servers.get(s).faulty || views.some((view) => view.members.includes(s)));
}

function tables(k) {
  const world = worlds[k];
  const mark = (part, number, more) => [changed(k, part, number) ? "changed" : "", more || ""].join(" ").trim();
  table("servers", ["server", "view", "state", "keys", "entry"], toldServers(world).map((s) => {
    const r = world.servers.get(s);
    return { cells: [String(s), dash(r.view), r.state, listed(r.keys), spelled(r.entry)], mark: mark("servers", s, r.faulty ? "faulty" : "") };
  }));
  table("views", ["view", "servers", "n", "f", "r", "read", "write", "keys held by", "faulty of these", "count"], [...world.views.values()].map((v) => {
    const holders = servers.filter((s) => world.servers.get(s).keys.includes(v.number));
    const bad = holders.filter((s) => world.servers.get(s).faulty);
    return { cells: [v.number, listed(v.members), v.members.length, v.f, v.r, v.read, v.write, listed(holders), listed(bad), bad.length].map(String), mark: mark("views", v.number) };
  }));
  table("clients", ["client", "phase", "request", "operation", "entry", "largest own count"], clients.map((c) => {
    const r = world.clients.get(c);
    return { cells: [String(c), r.phase, dash(r.request), r.kind || "-", spelled(r.entry), String(r.largest)], mark: mark("clients", c) };
  }));
  table("messages", ["message", "kind", "from", "view", "answers", "entry", "taken"], [...world.messages.values()].reverse().map((m) => {
    const carries = m.kind === "READ" || m.kind === "END" ? "-" : spelled(m.entry);
    return { cells: [String(m.number), m.kind, m.from, dash(m.view), dash(m.request), carries, m.kind === "answer" ? (m.taken ? "yes" : "no") : "-"], mark: mark("messages", m.number) };
  }));
}

function operationTable() {
  const rank = (i) => story.verdict.order.indexOf(i) + 1;
  table("operations", ["client", "operation", "begins", "ends", "entry", "returns", "place in the order"], story.operations.map((o, i) => ({
    cells: [String(o.client), kindOf(o), `step ${o.begin}`, endOf(o), o.known ? spelled(o.entry) : "-", returnsOf(o) + (isLost(o) ? " ✗ stale" : ""), dash(rank(i))],
    mark: isLost(o) ? "lost" : "",
  })));
}

function lines() {
  const ended = story.operations.filter((o) => o.end).sort((a, b) => a.end - b.end);
  const numbers = (e) => (e || [0, 0, 0]).join(" ");
  return [...ended.map((o) => `${o.client} ${o.kind} ${numbers(o.entry)}`), `done ${story.accepted} ${story.stop}`];
}

let current = -1;

function follow(k) {
  const scroll = at("scroll");
  const x = middle(k);
  if (x < scroll.scrollLeft + 60 || x > scroll.scrollLeft + scroll.clientWidth - 60) scroll.scrollLeft = x - scroll.clientWidth / 2;
  const item = at("steps").children[k];
  const list = at("steps");
  if (item.offsetTop - list.offsetTop < list.scrollTop || item.offsetTop - list.offsetTop > list.scrollTop + list.clientHeight - 40) {
    list.scrollTop = item.offsetTop - list.offsetTop - list.clientHeight / 2;
  }
}

function go(wanted) {
  const k = Math.min(last, Math.max(0, wanted || 0));
  if (k === current) return;
  current = k;
  at("slider").value = k;
  at("place").textContent = `step ${k} of ${last}`;
  at("line").textContent = k === 0 ? story.world : step(k).text;
  at("words").replaceChildren(...wordsOf(k));
  document.querySelectorAll(".at").forEach((small) => { small.textContent = k === 0 ? "in the fresh world" : `after step ${k}`; });
  band.setAttribute("x", k === 0 ? -WIDTH : left(k));
  veil.setAttribute("x", left(k + 1));
  veil.setAttribute("width", Math.max(0, total - left(k + 1)));
  document.querySelectorAll(".arrow.now").forEach((path) => path.classList.remove("now"));
  if (arrows.has(k)) arrows.get(k).classList.add("now");
  [...at("steps").children].forEach((item, i) => {
    item.classList.toggle("later", i > k);
    if (i === k) item.setAttribute("aria-current", "step");
    else item.removeAttribute("aria-current");
  });
  tables(k);
  follow(k);
  history.replaceState(null, "", "#" + k);
}

const moves = { ArrowLeft: -1, ArrowRight: 1, PageUp: -10, PageDown: 10, Home: -Infinity, End: Infinity };

function listen() {
  at("slider").max = last;
  at("slider").addEventListener("input", () => go(Number(at("slider").value)));
  document.addEventListener("keydown", (event) => {
    const move = moves[event.key];
    if (move === undefined || event.ctrlKey || event.altKey || event.metaKey) return;
    event.preventDefault();
    go(move === Infinity ? last : move === -Infinity ? 0 : current + move);
  });
  const goes = { first: () => 0, back: () => current - 1, on: () => current + 1, last: () => last };
  document.querySelectorAll("[data-go]").forEach((button) => button.addEventListener("click", () => go(goes[button.dataset.go]())));
  window.addEventListener("hashchange", () => go(Number(location.hash.slice(1))));
}

at("title").textContent = story.title;
at("world").textContent = story.world;
stepsFact();
operationsFact();
premiseFact();
orderFact();
chart();
legend();
stepList();
operationTable();
at("lines").textContent = lines().join("\n");
listen();
go(location.hash.length > 1 ? Number(location.hash.slice(1)) : last);
