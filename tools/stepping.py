"""A page to step through a run: its picture, and what each node has come to at a moment."""

import html
import json
from typing import Any, Protocol


class Drawn(Protocol):
    """What a page takes of a picture: its run, its group list, its names, and where things stand."""

    run: Any
    group: list[list[str]]
    names: list[str]

    def y(self, row: int) -> float:
        """The height of an event."""

    def title(self) -> str:
        """What the picture is of."""


PAGE = """<!doctype html>
<html lang="en">
<head>
<meta charset="utf-8">
<title>%(title)s</title>
<style>
body { margin: 0; font: 14px 'DejaVu Sans', Verdana, sans-serif; color: #111; }
header { position: sticky; top: 0; z-index: 1; background: white; border-bottom: 1px solid #999; padding: 8px 16px; }
input[type=range] { width: 40%%; vertical-align: middle; }
h1 { font-size: 16px; margin: 0 0 6px; }
#line { font-family: 'DejaVu Sans Mono', monospace; margin: 6px 0; min-height: 1.3em; white-space: pre-wrap; }
table { border-collapse: collapse; } td, th { padding: 1px 14px 1px 0; text-align: left; font-weight: normal; }
th { color: #555; } td { font-family: 'DejaVu Sans Mono', monospace; }
g[data-entry]:not([data-entry="0"]), text.entry { cursor: pointer; }
g.followed rect { stroke: #c00; stroke-width: 3; } g.followed circle { stroke: #c00; stroke-width: 3; }
</style>
</head>
<body>
<header>
<h1>%(title)s</h1>
<button id="back" title="key: arrow up">&#9664;</button>
<input id="slider" type="range" min="1" max="%(count)s" value="1">
<button id="on" title="key: arrow down">&#9654;</button>
<span id="number"></span>
<span>Arrow keys go event by event; a click on a mark goes there, and follows its entry.</span>
<div id="line"></div>
<table id="nodes"></table>
</header>
%(drawing)s
<script>
const rows = %(rows)s, names = %(names)s;
const svg = document.querySelector("svg"), slider = document.getElementById("slider");
const now = document.createElementNS("http://www.w3.org/2000/svg", "rect");
for (const [key, value] of Object.entries({ x: 0, width: "100%%", height: %(height)s, fill: "#ffd54a", "fill-opacity": 0.35 })) now.setAttribute(key, value);
svg.insertBefore(now, svg.querySelector("line, rect + *") || null);
let at = 0;
function cell(row, text, kind) { const c = document.createElement(kind || "td"); c.textContent = text; row.appendChild(c); }
function show(row, moved) {
  at = Math.max(0, Math.min(rows.length - 1, row));
  slider.value = at + 1;
  document.getElementById("number").textContent = `${at + 1} of ${rows.length}`;
  document.getElementById("line").textContent = rows[at].line;
  now.setAttribute("y", rows[at].y - %(height)s / 2);
  const table = document.getElementById("nodes");
  table.replaceChildren();
  const head = document.createElement("tr");
  for (const word of ["name", "view", "given", "last outcome"]) cell(head, word, "th");
  table.appendChild(head);
  for (const name of names) {
    let view = rows.founders[name] || "-", given = 0, last = "-";
    for (const r of rows.slice(0, at + 1)) if (r.name === name) { last = r.outcome; view = r.view || view; given = r.took || given; }
    const line = document.createElement("tr");
    for (const word of [name, view, given ? `up to ${given}` : "nothing", last]) cell(line, word);
    table.appendChild(line);
  }
  if (moved) window.scrollTo({ top: svg.getBoundingClientRect().top + window.scrollY + rows[at].y - window.innerHeight / 2 });
}
function follow(entry) {
  for (const mark of document.querySelectorAll("g[data-row]")) {
    const sends = rows[mark.dataset.row].sends === entry;
    mark.classList.toggle("followed", entry > 0 && (sends || Number(mark.dataset.entry) === entry));
  }
}
for (const mark of document.querySelectorAll("g[data-row]"))
  mark.addEventListener("click", () => {
    show(Number(mark.dataset.row), false);
    follow(Number(mark.dataset.entry) || rows[mark.dataset.row].sends);
  });
slider.addEventListener("input", () => show(slider.value - 1, true));
document.getElementById("back").addEventListener("click", () => show(at - 1, true));
document.getElementById("on").addEventListener("click", () => show(at + 1, true));
document.addEventListener("keydown", (event) => {
  const way = { ArrowDown: 1, ArrowRight: 1, ArrowUp: -1, ArrowLeft: -1 }[event.key];
  if (way && event.target !== slider) { event.preventDefault(); show(at + way, true); }
});
show(0, false);
</script>
</body>
</html>
"""


def page(picture: Drawn, drawing: str) -> str:
    """The page of a picture."""
    run = picture.run
    numbers = {(entry[2], entry[3]): int(entry[0]) for entry in picture.group if entry[1] == "data"}
    rows = []
    for event in run.events:
        took = event.outcome[0] == "took"
        sends = numbers.get((event.name, event.outcome[1]), 0) if event.act == "send" and event.outcome[0] == "queued" else 0
        rows.append(
            {
                "name": event.name,
                "line": event.line,
                "outcome": " ".join(event.outcome[:4]),
                "y": picture.y(event.row),
                "view": f"{event.view[0]}.{event.view[1]}" if event.view else "",
                "took": int(event.outcome[1]) if took else 0,
                "sends": sends,
            }
        )
    founders = {name: f"{node.bands[0][1][0]}.{node.bands[0][1][1]}" for name, node in run.nodes.items() if node.bands and node.bands[0][0] == -1}
    data = json.dumps(rows).replace("</", "<\\/")
    told = f"Object.assign({data}, {{ founders: {json.dumps(founders)} }})"
    title = html.escape(picture.title())
    return PAGE % {"title": title, "count": len(rows), "drawing": drawing, "rows": told, "names": json.dumps(picture.names), "height": 24}
