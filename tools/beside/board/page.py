"""The page: one text, which loads nothing. All that comes from the input becomes text in it, never markup."""
import base64
import hashlib

STYLE = """
:root {
  color-scheme: light dark;
  --ink: #1d2327; --back: #f4f5f6; --box: #fff; --line: #c9ced2; --soft: #5c666e; --warn: #8a4b00
}
@media (prefers-color-scheme: dark) {
  :root { --ink: #e3e6e8; --back: #15191c; --box: #1e2428; --line: #3d474e; --soft: #9aa5ad; --warn: #ffb454 }
}
* { box-sizing: border-box }
body { margin: 0 auto; padding: 1rem; max-width: 90rem; background: var(--back); color: var(--ink); font: 14px/1.4 sans-serif }
h1 { margin: 0 1rem 0 0; font-size: 1.3rem } h2 { margin: 0; font-size: 1rem }
header { margin-bottom: 1rem }
dl { display: flex; flex-wrap: wrap; gap: .1rem 1.4rem; margin: .3rem 0 } dl div { display: flex; gap: .4rem }
dt { color: var(--soft) } dd { margin: 0; font-weight: bold }
p { margin: .2rem 0 } .soft { color: var(--soft) } .warn { color: var(--warn); font-weight: bold }
#connection { padding: .4rem .7rem; background: #8a4b00; color: #fff; font-weight: bold } #connection:empty { display: none }
#queries { display: grid; gap: 1rem; grid-template-columns: repeat(auto-fill, minmax(min(100%, 40rem), 1fr)) }
section { padding: .7rem; border: 1px solid var(--line); border-radius: 4px; background: var(--box); min-width: 0 }
section.alarm { grid-column: 1 / -1; border: 2px solid #b3261e } .both { display: flex; flex-wrap: wrap; gap: 1rem }
.table { overflow: auto; max-height: 24rem; flex: 0 1 auto; max-width: 100% } table { border-collapse: collapse }
th, td { padding: .1rem .6rem .1rem 0; text-align: left; vertical-align: top; white-space: nowrap; unicode-bidi: isolate }
td { max-width: 24rem; overflow: hidden; text-overflow: ellipsis } th { color: var(--soft); font-weight: normal }
.number { text-align: right; font-variant-numeric: tabular-nums }
tr.fresh td { background: #b3261e; color: #fff; padding-left: .3rem } .word { font-weight: bold }
figure { margin: 0; min-width: 0 } figcaption { color: var(--soft) } svg { width: 100%; height: 8.5rem }
.charts { flex: 1 1 18rem; min-width: 0; display: flex; flex-direction: column; gap: .6rem }
figure .span { display: flex; justify-content: space-between; margin: 0; color: var(--soft); font-size: 11px }
.axis { stroke: var(--line); fill: none }
ul { display: flex; flex-wrap: wrap; gap: .1rem 1rem; margin: 0; padding: 0; list-style: none; font-size: 12px }
li { max-width: 100%; overflow: hidden; text-overflow: ellipsis; white-space: nowrap; unicode-bidi: isolate }
li svg { width: 1.6rem; height: .7rem; margin-right: .3rem }
path.drawn { fill: none; stroke-width: 2; stroke-linecap: round; stroke-linejoin: round; vector-effect: non-scaling-stroke }
.c0, .c6 { stroke: #2f7fc1 } .c1, .c7 { stroke: #d55e00 } .c2, .c8 { stroke: #009e73 } .c3, .c9 { stroke: #b9770e }
.c4, .c10 { stroke: #c0629b } .c5, .c11 { stroke: #7a6cc8 }
.c6, .c7, .c8, .c9, .c10, .c11 { stroke-dasharray: 5 4 }
"""

SCRIPT = r"""
"use strict";
const FRESH = 30000, AGAIN = 1000, WIDTH = 420, HEIGHT = 130, SVG = "http://www.w3.org/2000/svg";
const byId = id => document.getElementById(id);
const panels = new Map();
let top_ = null, looked = {}, heard = null, isFull = false;

// ---- elements: what comes from the input is text, in a text node or in an attribute that holds text

function filled(element, attributes, children) {
  for (const [name, value] of Object.entries(attributes)) if (value !== null) element.setAttribute(name, value);
  element.append(...children);
  return element;
}
const make = (name, attributes, ...children) => filled(document.createElement(name), attributes, children);
const draw = (name, attributes, ...children) => filled(document.createElementNS(SVG, name), attributes, children);
const count = (number, one, many) => `${number} ${number === 1 ? one : many}`;
const instant = at => new Date(at).toISOString();
const clock = seconds => new Date(seconds * 1000).toTimeString().slice(0, 8);

// ---- tables

function cellOf(cell) {
  if (cell === null) return make("td", {class: "unbound"});
  const [text, whole, isNumber] = cell;
  return make("td", {title: whole, class: isNumber ? "number" : null}, text);
}

function headOf(names, ...front) {
  return make("thead", {}, make("tr", {}, ...[...front, ...names].map(name => make("th", {scope: "col"}, name))));
}

function lastReport(query) {
  const rows = query.cells.map(cells => make("tr", {}, ...cells.map(cellOf)));
  return make("table", {}, headOf(query.variables), make("tbody", {}, ...rows));
}

function newsOf(query) {
  const isAlarm = query.kind === "alarm";
  const rows = query.news.map(([number, at, cells, came]) => {
    const word = isAlarm ? [make("td", {class: "word"})] : [];
    const row = make("tr", {"data-number": number}, ...word, make("td", {title: `${at} ms`}, instant(at)), ...cells.map(cellOf));
    if (isAlarm) row.dataset.until = came * 1000 + FRESH;
    return row;
  });
  return make("table", {}, headOf(query.variables, ...(isAlarm ? [""] : []), "time"), make("tbody", {}, ...rows));
}

function age() {
  for (const row of document.querySelectorAll("tr[data-until]")) {
    const isFresh = Date.now() < Number(row.dataset.until);
    row.classList.toggle("fresh", isFresh);
    row.firstChild.textContent = isFresh ? "new" : "";
  }
}

// ---- charts

function scale(values, size) {
  const numbers = values.filter(value => value !== null).map(Number);
  const least = numbers.reduce((a, b) => Math.min(a, b), Infinity), most = numbers.reduce((a, b) => Math.max(a, b), -Infinity);
  // halves, so that the difference of two doubles is one
  const span = most / 2 - least / 2;
  return value => span > 0 ? (Number(value) / 2 - least / 2) / span * size : size / 2;
}

function pathOf(times, values, x, y) {
  let path = "", isOpen = false;
  values.forEach((value, index) => {
    if (value === null) isOpen = false;
    else {
      const at = `${x(times[index]).toFixed(1)} ${(HEIGHT - 8 - y(value)).toFixed(1)}`;
      path += isOpen ? `L${at}` : `M${at}L${at}`;
      isOpen = true;
    }
  });
  return path;
}

function extremes(lines) {
  const all = lines.flatMap(line => line.values).filter(value => value !== null);
  const pick = better => all.reduce((a, b) => better(Number(b), Number(a)) ? b : a, all[0]);
  return all.length ? [pick((a, b) => a > b), pick((a, b) => a < b)] : [];
}

function latest(line) {
  return line.values.reduceRight((found, value) => found === null ? value : found, null);
}

function legend(lines, column) {
  return make("ul", {}, ...lines.map((line, index) => make("li", {title: line.whole || null},
    draw("svg", {viewBox: "0 0 24 10", "aria-hidden": "true"}, draw("path", {class: `drawn c${index}`, d: "M1 5L23 5"})),
    `${line.label || column}  ${latest(line) ?? ""}`)));
}

function chartOf(times, {column, lines}) {
  const x = scale(times, WIDTH - 8), y = scale(lines.flatMap(line => line.values), HEIGHT - 16);
  const [most, least] = extremes(lines), range = most === undefined ? "" : most === least ? most : `${least} to ${most}`;
  const paths = lines.map((line, index) => draw("path",
    {class: `drawn c${index}`, d: pathOf(times, line.values, time => 4 + x(time), y)}, draw("title", {}, line.whole || column)));
  const picture = draw("svg", {viewBox: `0 0 ${WIDTH} ${HEIGHT}`, preserveAspectRatio: "none", role: "img", "aria-label": column},
    draw("path", {class: "axis", d: `M0 0V${HEIGHT}H${WIDTH}`}), ...paths);
  const ends = [times[0], times[times.length - 1]].map(at => make("span", {}, instant(at)));
  const span = make("p", {class: "span"}, ...ends);
  return make("figure", {"data-column": column}, make("figcaption", {}, make("b", {}, column), ` ${range}`), picture, span,
    legend(lines, column));
}

// ---- queries

function cuts(query) {
  const kept = top_.points, lines = query.charts.length ? query.charts[0].lines.length : 0;
  return [
    query.anew === null ? null : `begun anew at ${instant(query.anew)}, with other columns`,
    query.charts.length && query.reports > kept ? `the lines go back ${query.times.length} reports` : null,
    query.undrawn ? `${lines} of ${lines + query.undrawn} lines are drawn` : null,
    query.further ? `${query.charts.length} of ${query.charts.length + query.further} numeric columns are drawn` : null,
    query.doubled ? `${count(query.doubled, "row", "rows")} more of the same lines: the first of each is drawn` : null,
  ].filter(text => text !== null);
}

function sizeOf(query) {
  if (query.kind === "last") return `${query.cells.length} of ${count(query.rows, "row", "rows")}`;
  return `${query.news.length} of ${count(query.all, "row", "rows")}, the newest first`;
}

function panelOf(query) {
  const isLast = query.kind === "last", word = isLast ? "" : ` (${query.kind})`;
  const charts = query.charts.map(chart => chartOf(query.times, chart));
  const facts = query.at === null ? [] : [
    make("span", {class: "at", title: `${query.at} ms`}, instant(query.at)), " · ",
    make("span", {class: "size"}, sizeOf(query)), " · ",
    make("span", {class: "reports"}, count(query.reports, "report", "reports"))];
  const overfull = query.overfull === null ? null : `overfull at ${instant(query.overfull)}: this query is over`;
  const over = overfull === null ? [] : [make("p", {class: "warn"}, overfull)];
  return make("section", {class: query.kind, "data-query": query.name},
    make("h2", {}, query.name + word), make("p", {class: "soft"}, ...facts), ...over,
    make("div", {class: "both"}, make("div", {class: "table"}, isLast ? lastReport(query) : newsOf(query)),
      ...(charts.length ? [make("div", {class: "charts"}, ...charts)] : [])),
    ...cuts(query).map(text => make("p", {class: "cut soft"}, text)));
}

function show(query) {
  const old = panels.get(query.name), panel = panelOf(query);
  panels.set(query.name, {query, panel});
  if (old) {
    const {scrollTop, scrollLeft} = old.panel.querySelector(".table");
    old.panel.replaceWith(panel);
    panel.querySelector(".table").scrollTo(scrollLeft, scrollTop);
  } else place(panel, query);
  age();
  retitle();
}

// alarms stand above all else, and each kind in the order in which the queries came
function place(panel, query) {
  const rank = ({query}) => (query.kind === "alarm" ? 0 : 1000) + query.place;
  const behind = [...panels.values()].filter(other => rank(other) > rank({query})).sort((a, b) => rank(a) - rank(b));
  byId("queries").insertBefore(panel, behind.length ? behind[0].panel : null);
}

// ---- alarms that weren't looked at; pages of one browser share what was

const store = () => `board ${top_.run}`;

function remembered() {
  try { return JSON.parse(localStorage.getItem(store())) || {}; } catch { return looked; }
}

function alarms() {
  return [...panels.values()].filter(({query}) => query.kind === "alarm").map(({query}) => query);
}

// what pages of boards before this one have left
function forget() {
  try {
    for (const key of Object.keys(localStorage)) if (key.startsWith("board ") && key !== store()) localStorage.removeItem(key);
  } catch { /* nothing was kept */ }
}

function look() {
  if (top_ === null || document.hidden) return;
  for (const query of alarms()) looked[query.name] = query.all;
  try { localStorage.setItem(store(), JSON.stringify(looked)); } catch { /* a browser may refuse to keep anything */ }
  retitle();
}

function retitle() {
  const open = alarms().reduce((sum, query) => sum + Math.max(0, query.all - (looked[query.name] || 0)), 0);
  document.title = (open ? `(${open}) ` : "") + top_.title;
}

// ---- the top

function fact(name, value, id) {
  return make("div", {id}, make("dt", {}, name), make("dd", {}, value));
}

function refusals({refused, lacking}) {
  const most = kind => kind === "15 Late" ? ` (at most ${lacking} ms lacking)` : "";
  return refused.map(([kind, number]) => `${kind}: ${number}${most(kind)}`).join(", ") || "none";
}

function showTop(top) {
  if (top_ !== null && top_.run !== top.run) return location.reload();
  if (top_ === null) {
    top_ = top;
    forget();
  }
  top_ = top;
  looked = remembered();
  byId("title").textContent = top.title;
  byId("facts").replaceChildren(
    fact("queries", top.queries, "count"), fact("reports", top.reports, "reports"), fact("refusals", refusals(top), "refusals"),
    fact("overfull", top.overfull, "overfull"), fact("lines", top.lines, "lines"), fact("last line", "", "last"),
    fact("input", top.input, "input"));
  byId("notes").replaceChildren(...notes(top).map(text => make("p", {class: "warn"}, text)));
  since();
  retitle();
}

function notes(top) {
  const bad = top.badLine, others = count(top.others, "report", "reports");
  return [
    top.others ? `${top.queries} queries are shown, which is the most: ${others} of others aren't` : null,
    top.waiting.length ? `no report yet of ${top.waiting.join(", ")}` : null,
    top.graphs ? `${count(top.graphs, "graph", "graphs")} passed by` : null,
    bad ? `${count(top.bad, "line", "lines")} can't be shown. The last one is line ${bad.number}: ${bad.why}: ${bad.text}` : null,
  ].filter(text => text !== null);
}

function since() {
  if (top_ === null) return;
  const seconds = top_.last === null ? null : Math.max(0, Math.round(Date.now() / 1000 - top_.last));
  byId("last").lastChild.textContent = seconds === null ? "none yet" : `${clock(top_.last)}, ${seconds} s ago`;
}

// ---- the connection

function lost(text) {
  byId("connection").textContent = text;
}

function connect() {
  const source = new EventSource("/events");
  isFull = false;
  const on = (name, take) => source.addEventListener(name, message => {
    heard = Date.now();
    lost("");
    take(JSON.parse(message.data));
  });
  on("top", showTop);
  on("query", show);
  source.addEventListener("full", () => {
    isFull = true;
    lost("32 pages are open, which is the most. This one waits until another one is closed.");
  });
  source.onerror = () => {
    source.close();
    if (!isFull) lost("The board has ended, or can't be reached." +
      (heard === null ? "" : ` What stands here is of ${clock(heard / 1000)}.`) + " This page goes on trying.");
    setTimeout(connect, AGAIN);
  };
}

for (const name of ["pointermove", "pointerdown", "keydown", "wheel"]) addEventListener(name, look, {passive: true});
document.addEventListener("visibilitychange", look);
addEventListener("storage", () => { if (top_ !== null) { looked = remembered(); retitle(); } });
setInterval(() => { age(); since(); }, 1000);
connect();
"""


def digest(text):
    return f"'sha256-{base64.b64encode(hashlib.sha256(text.encode()).digest()).decode()}'"


# the page may run its own script and style, ask this server, and nothing else
POLICY = (
    f"default-src 'none'; script-src {digest(SCRIPT)}; style-src {digest(STYLE)}; connect-src 'self'; base-uri 'none'; "
    "form-action 'none'; frame-ancestors 'none'"
)
PAGE = f"""<!doctype html>
<html lang="en">
<head>
<meta charset="utf-8">
<meta name="viewport" content="width=device-width, initial-scale=1">
<title>Reports</title>
<style>{STYLE}</style>
</head>
<body>
<header>
<p id="connection" role="alert"></p>
<h1 id="title"></h1>
<dl id="facts"></dl>
<div id="notes"></div>
</header>
<main id="queries"></main>
<script>{SCRIPT}</script>
</body>
</html>
""".encode()
