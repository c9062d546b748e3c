"use strict";
// The page of one relink. `facts` is what tools/page told; nothing else is loaded.
const facts = JSON.parse(document.getElementById("data").textContent);
const items = new Map(facts.items.map(item => [item.number, item]));
const parts = [...facts.functions, ...facts.objects];
const most = Math.max(1, ...parts.map(part => part.before));
let sorting = { key: "before", down: true };
let chosen = null;

const byId = id => document.getElementById(id);
const number = value => value === null ? "not told" : value.toLocaleString("en");
const hex = value => "0x" + value.toString(16).padStart(8, "0");
const percent = (part, whole) => whole ? (100 * part / whole).toFixed(1) + " %" : "";

// An element with a class and children; texts are put as texts, so that no name becomes a tag.
function make(tag, kind, ...children) {
  const element = document.createElement(tag);
  if (kind) element.className = kind;
  element.append(...children.map(child => child instanceof Node ? child : String(child)));
  return element;
}

// ---- the head

function showHead() {
  byId("title").textContent = facts.title;
  const saved = percent(facts.before - facts.after, facts.before);
  const told = [["energy before ", facts.before], [", after ", facts.after]];
  for (const [words, value] of told) byId("numbers").append(words, make("b", "", number(value)));
  byId("numbers").append(`: ${saved} saved (${facts.proof}). ${number(facts.steps)} steps; the program ${facts.ending}.`);
  if (facts.paid) byId("numbers").append(` OUT pays ${number(facts.paid[0])}.`);
  if (facts.started) byId("numbers").append(` Its start takes ${number(facts.started)} steps.`);
}

// ---- the list

function tags(numbers) {
  return numbers.map(each => {
    const item = items.get(each), tag = make("span", "tag", each);
    tag.style.background = item.colour;
    tag.dataset.hint = `${item.name}: ${number(item.size)} bytes at ${hex(item.place)}, ${item.when}`;
    return tag;
  });
}

function bar(pieces, whole) {
  const element = make("div", "bar");
  for (const [kind, value] of pieces) {
    const piece = make("i", kind);
    piece.style.width = 100 * value / whole + "%";
    element.append(piece);
  }
  return element;
}

function bars(part) {
  const cell = make("td", "bars", bar([["main", part.before]], most));
  if (part.after !== null) cell.append(bar([["main", part.after - part.fast], ["spm", part.fast]], most));
  return cell;
}

function row(part) {
  const line = make("tr", "", make("td", "name", part.name), make("td", "", part.kind),
    make("td", "number", number(part.before)), make("td", "number", number(part.after)), bars(part),
    make("td", "", ...tags(part.items)));
  line.tabIndex = 0;
  line.dataset.part = `${part.kind} ${part.key}`;
  line.dataset.hint = part.why || `${part.name}: ${percent(part.before, facts.before)} of the energy before`;
  line.addEventListener("click", () => open(part));
  line.addEventListener("keydown", event => { if (event.key === "Enter") open(part); });
  return line;
}

const sortKey = part => sorting.key === "items" ? part.items.length : part[sorting.key] ?? -1;

function compare(one, other) {
  const left = sortKey(one), right = sortKey(other);
  const order = typeof left === "string" ? left.localeCompare(right) : left - right;
  return sorting.down ? -order : order;
}

function showList() {
  const asked = byId("search").value.trim().toLowerCase();
  const shown = parts.filter(part => part.name.toLowerCase().includes(asked)).sort(compare);
  byId("parts").tBodies[0].replaceChildren(...shown.map(row));
  markChosen();
}

function footLine(name, before, after) {
  return make("tr", "", make("td", "", name), make("td", ""), make("td", "number", number(before)),
    make("td", "number", number(after)), make("td", ""), make("td", ""));
}

function showFoot() {
  byId("parts").tFoot.append(footLine(facts.rest.name, facts.rest.before, facts.rest.after),
    footLine(facts.moving.name, 0, facts.moving.after), footLine("all", facts.before, facts.after));
}

function showStaying() {
  const ran = parts.filter(part => part.why).map(part => [part.name, part.kind, part.why]);
  const ruled = facts.stays.map(one => [one.name, `object of ${one.section}`, one.why]);
  const never = facts.neverRun.map(one => [one.name, "function", one.why]);
  const lines = [...ran, ...ruled, ...never];
  byId("stays").querySelector("summary").textContent = `What stays in main memory, and why (${lines.length})`;
  byId("stays").querySelector("tbody").append(...lines.map(words => make("tr", "", ...words.map(each => make("td", "", each)))));
  byId("said").querySelector("pre").textContent = facts.said.join("\n") || "nothing";
}

// ---- details

function definitions(pairs) {
  const list = make("dl", "facts");
  for (const [name, value] of pairs) list.append(make("dt", "", name), make("dd", "", value));
  return list;
}

function energyPairs(part) {
  const pairs = [["energy before", `${number(part.before)} (${percent(part.before, facts.before)} of the run)`],
    ["energy after", part.after === null ? "not told: it is reached both in the scratchpad and at home" : number(part.after)]];
  if (part.after !== null && part.fast) pairs.push(["of it in the scratchpad", number(part.fast)]);
  return pairs;
}

function functionPairs(part) {
  if (part.key === null) return [["fetches", number(part.fetches)]];
  return [["address", `${hex(part.start)}, ${number(part.size)} bytes`], ["region", part.region || "none"],
    ["steps", number(part.steps)], ["fetches", `${number(part.fetches)}, of them ${number(part.movedFetches)} of code that moved`]];
}

const objectPairs = part => [["home", `${hex(part.home)} in ${part.section}, ${number(part.size)} bytes`],
  ["reads, writes", `${number(part.reads)}, ${number(part.writes)}`]];

function table(heads, rows) {
  return make("table", "", make("thead", "", make("tr", "", ...heads.map(head => make("th", "", head)))),
    make("tbody", "", ...rows));
}

function movedTable(numbers) {
  return table(["", "what moved", "bytes", "from and to"], numbers.map(each => {
    const item = items.get(each);
    const name = item.kind === "code" ? `${item.name}, ${item.blocks} block${item.blocks > 1 ? "s" : ""}` : item.name;
    const places = make("div", "", make("code", "", hex(item.home)), make("br"), make("code", "", hex(item.place)));
    const told = make("div", "", name, make("br"), item.when);
    return make("tr", "", ...[tags([each])[0], told, number(item.size), places].map(value => make("td", "", value)));
  }));
}

function blockTable(part) {
  return table(["block", "began", "words", "before", "after", ""], part.blocks.map(block => {
    const line = make("tr", "", make("td", "", make("code", "", hex(block.at))),
      ...[block.count, block.words, block.before, block.after].map(value => make("td", "number", number(value))),
      make("td", "", ...tags(block.item ? [block.item] : [])));
    line.dataset.hint = `${number(block.steps)} steps, ${number(block.fetches)} fetches, ${number(block.loads)} loads, ${number(block.stores)} stores`;
    return line;
  }));
}

// What of an energy after is paid in the scratchpad. Words that moved tell it by what they save.
function fastOf(part, before, after) {
  const { main_fetch: slow, spm_fetch: fast } = facts.board.price;
  if (part.kind === "function") return slow > fast ? (before - after) / (slow - fast) * fast : 0;
  return part.items.length ? after : 0;
}

// When the part's energy is spent: a column for each slice of the run. What is saved is pale.
function lane(part) {
  const table = part.kind === "function" ? "functions" : "objects", key = part.key === null ? "none" : part.key;
  const values = facts.slices.map(slice => slice[table][key] || [0, 0]);
  const high = Math.max(1, ...values.map(value => value[0]));
  return make("div", "lane", ...values.map(([before, after], k) => {
    const left = after === null ? before : Math.min(after, before);
    const column = make("span", "");
    const fast = Math.min(left, fastOf(part, before, left));
    for (const [kind, value] of [["saved", before - left], ["spm", fast], ["main", left - fast]]) {
      const piece = make("i", kind);
      piece.style.height = 100 * value / high + "%";
      column.append(piece);
    }
    const slice = facts.slices[k];
    column.dataset.hint = `steps ${number(slice.first)} to ${number(slice.last)}: ${number(before)} before, ${number(after)} after`;
    return column;
  }));
}

function open(part) {
  chosen = part;
  const own = part.kind === "function" ? functionPairs(part) : objectPairs(part);
  const content = [make("h2", "", part.name), make("p", "note", part.kind), definitions([...own, ...energyPairs(part)])];
  if (part.why) content.push(make("p", "", `Why it stays: ${part.why}.`));
  if (part.items.length) content.push(make("h3", "", "Moved"), movedTable(part.items));
  content.push(make("h3", "", "Energy over the run"), make("p", "note", "Whole column: before. Pale: what is saved."), lane(part));
  if (part.blocks?.length) content.push(make("h3", "", `Blocks that ran (${part.blocks.length})`), blockTable(part));
  byId("details").replaceChildren(...content);
  byId("details").scrollTop = 0;
  markChosen();
}

function markChosen() {
  for (const line of byId("parts").tBodies[0].rows) {
    line.classList.toggle("chosen", chosen !== null && line.dataset.part === `${chosen.kind} ${chosen.key}`);
  }
}

// ---- pictures and hints

const partOf = (kind, key) => parts.find(part => part.kind === kind && String(part.key) === String(key));

function openFromPicture(event) {
  const box = event.target.closest("[data-item], [data-function]");
  if (!box) return;
  const part = box.dataset.item ? items.get(Number(box.dataset.item)).part : ["function", box.dataset.function];
  const found = part && partOf(...part);
  if (found) open(found);
}

function showHint(event) {
  const hint = byId("hint"), told = event.target.closest("[data-hint]");
  hint.hidden = !told;
  if (!told) return;
  hint.textContent = told.dataset.hint;
  const right = event.clientX + 16 + hint.offsetWidth > innerWidth;
  hint.style.left = (right ? event.clientX - 12 - hint.offsetWidth : event.clientX + 14) + "px";
  hint.style.top = Math.min(event.clientY + 16, innerHeight - hint.offsetHeight - 4) + "px";
}

// A picture's <title>s become hints of the page, which show at once.
function takeTitles() {
  for (const title of document.querySelectorAll(".picture rect > title")) {
    title.parentNode.dataset.hint = title.textContent;
    title.remove();
  }
}

for (const head of document.querySelectorAll("th[data-sort]")) {
  head.addEventListener("click", () => {
    const key = head.dataset.sort;
    sorting = { key, down: sorting.key === key ? !sorting.down : !["name", "kind"].includes(key) };
    showList();
  });
}
byId("search").addEventListener("input", showList);
document.addEventListener("mousemove", showHint);
for (const picture of document.querySelectorAll(".picture")) picture.addEventListener("click", openFromPicture);
takeTitles();
showHead();
showList();
showFoot();
showStaying();
