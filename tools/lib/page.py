"""The page of ac-diagram: one file of HTML with the picture of a run, that loads nothing."""
import json
from html import escape

PAGE_STYLE = """
body { margin: 0; font: 14px sans-serif; color: #222; background: #fff; display: flex; flex-direction: column; height: 100vh; }
header { padding: 8px 16px; border-bottom: 1px solid #ccc; background: #f6f6f6; }
h1 { font-size: 16px; margin: 0 0 6px; }
fieldset { display: inline-block; border: 1px solid #ccc; padding: 2px 8px; margin: 0 8px 4px 0; vertical-align: top; }
legend { color: #555; font-size: 12px; }
label { margin-right: 8px; white-space: nowrap; }
main { flex: 1; display: flex; min-height: 0; }
#picture { flex: 3; overflow: auto; }
aside { flex: 1.4; display: flex; flex-direction: column; border-left: 1px solid #ccc; min-width: 260px; }
#told { min-height: 116px; margin: 0; padding: 8px 12px; border-bottom: 1px solid #ccc; white-space: pre-wrap; font: 13px monospace; }
#source { flex: 1; overflow: auto; margin: 0; padding: 8px 0; font: 13px monospace; }
#source div { padding: 0 12px; white-space: pre; }
#source b { display: inline-block; width: 4ch; margin-right: 1ch; text-align: right; font-weight: normal; color: #888; }
#source .here { background: #ffe9a8; }
.entry { cursor: pointer; outline: none; }
.past text.halo { fill: #1f5fa8; }
.later text.halo { fill: #8a3d00; }
.beside { opacity: 0.25; }
.here text.halo, .pinned text.halo { font-weight: bold; fill: #000; }
.pinned > circle:first-child { stroke: #e8a200; stroke-width: 2.5; }
.left-out { display: none; }
"""
PAGE_SCRIPT = """
'use strict';
const entries = data.entries, marks = entries.map(e => document.getElementById('e' + e.place));
const arrows = [...document.querySelectorAll('#picture line[data-from]')];
const lines = [...document.querySelectorAll('#source div')];
const told = document.getElementById('told'), form = document.getElementById('filters');
const nothing = told.textContent;
let pinned = null;
const next = entries.map(() => []);
const before = entries.map(e => [e.previous, e.answers].filter(place => place !== null));
before.forEach((list, place) => list.forEach(other => next[other].push(place)));

function reached(place, steps) {
  const seen = new Set(), open = [place];
  while (open.length) for (const other of steps[open.pop()]) if (!seen.has(other)) { seen.add(other); open.push(other); }
  return seen;
}
function order(i, j) {
  return i === j ? 'same' : reached(j, before).has(i) ? 'before' : reached(i, before).has(j) ? 'after' : 'concurrent';
}
function line(place) {
  const at = entries[place].line;
  return at === null ? '' : '\\nline ' + at + ': ' + data.source[at - 1].trim();
}
function clear() {
  for (const mark of marks) if (mark) mark.classList.remove('past', 'later', 'beside', 'here');
  for (const arrow of arrows) arrow.classList.remove('beside');
  for (const one of lines) one.classList.remove('here');
}
function show(place) {
  clear();
  const past = reached(place, before), later = reached(place, next), e = entries[place];
  const kind = k => k === place ? 'here' : past.has(k) ? 'past' : later.has(k) ? 'later' : 'beside';
  marks.forEach((mark, k) => mark && mark.classList.add(kind(k)));
  for (const arrow of arrows) {
    const ends = [Number(arrow.dataset.from), Number(arrow.dataset.to)];
    arrow.classList.toggle('beside', !ends.every(k => k === place || past.has(k)) && !ends.every(k => k === place || later.has(k)));
  }
  if (e.line !== null) {
    lines[e.line - 1].classList.add('here');
    lines[e.line - 1].scrollIntoView({block: 'nearest'});
  }
  told.textContent = e.label + '\\n' + e.party + ', stamp ' + e.stamp + ', turn ' + e.turn
    + (e.answers === null ? '' : ', answers entry ' + e.answers) + line(place)
    + '\\n' + past.size + ' before it, ' + later.size + ' after it, '
    + (entries.length - 1 - past.size - later.size) + ' concurrent with it'
    + (pinned === null || pinned === place ? '' : '\\n' + pinned + ' ' + order(pinned, place) + ' ' + place);
}
function rest() {
  clear();
  told.textContent = nothing;
  if (pinned !== null) show(pinned);
}
function pin(place) {
  if (pinned !== null && marks[pinned]) marks[pinned].classList.remove('pinned');
  pinned = place === pinned ? null : place;
  if (pinned !== null) marks[pinned].classList.add('pinned');
  rest();
}
function filter() {
  const given = new FormData(form), words = form.elements.words.value.toLowerCase().split(' ');
  const kept = new Set(['party', 'link', 'kind'].flatMap(name => given.getAll(name).map(value => name + value)));
  const out = entries.map(e => !(kept.has('party' + e.party) && kept.has('link' + e.link) && kept.has('kind' + e.kind)
    && words.every(word => e.label.toLowerCase().includes(word))));
  marks.forEach((mark, place) => mark && mark.classList.toggle('left-out', out[place]));
  for (const arrow of arrows) arrow.classList.toggle('left-out', out[arrow.dataset.from] || out[arrow.dataset.to]);
  document.getElementById('count').textContent = out.filter(x => !x).length + ' of ' + entries.length + ' entries';
}
marks.forEach((mark, place) => {
  if (!mark) return;
  mark.addEventListener('mouseenter', () => show(place));
  mark.addEventListener('mouseleave', rest);
  mark.addEventListener('focus', () => show(place));
  mark.addEventListener('blur', rest);
  mark.addEventListener('click', () => pin(place));
  mark.addEventListener('keydown', event => { if (event.key === 'Enter') pin(place); });
});
lines.forEach((one, number) => {
  const its = entries.filter(e => e.line === number + 1);
  if (!its.length) return;
  one.addEventListener('mouseenter', () => {
    clear();
    one.classList.add('here');
    marks.forEach((mark, place) => mark && mark.classList.add(entries[place].line === number + 1 ? 'here' : 'beside'));
  });
  one.addEventListener('mouseleave', rest);
});
form.addEventListener('input', filter);
form.addEventListener('reset', () => setTimeout(filter));
form.addEventListener('submit', event => event.preventDefault());
filter();
const asked = /^#(\\d+)$/.exec(location.hash);
if (asked && marks[asked[1]]) pin(Number(asked[1]));
"""
NOTHING_TOLD = """Point at an entry: what came before it turns blue, what came after it brown, and what is concurrent with it fades.
Click on one, and then point at another: it says which came first."""


def page_data(plan, causes):
    """What the script of a page knows of each entry, and the lines of the program."""
    names, last, found = plan.names, {}, []
    for e in plan.trace.entries:
        found.append({
            "place": e.place, "label": plan.label(e), "party": names.party(e.party), "stamp": e.stamp, "turn": e.turn,
            "link": names.link(e.link), "kind": e.kind, "line": names.line(e), "previous": last.get(e.party),
            "answers": causes.answered[e.place],
        })
        last[e.party] = e.place
    return {"entries": found, "source": source_lines(names)}


def source_lines(names):
    """The lines of the program, where there is one."""
    return names.text.decode("utf-8", "replace").removesuffix("\n").split("\n") if names.text is not None else []


def choices(title, name, values):
    """The boxes of a filter."""
    box = '<label><input type="checkbox" name="{}" value="{}" checked> {}</label>'
    boxes = "".join(box.format(name, escape(value), escape(value)) for value in values)
    return f"<fieldset><legend>{title}</legend>{boxes}</fieldset>"


def page(plan, causes, title, picture):
    """One page with the picture, the filters, the program and what an entry is about."""
    data = page_data(plan, causes)
    links = [plan.names.link(link) for link in sorted({e.link for e in plan.trace.entries})]
    filters = choices("parties", "party", map(plan.names.party, plan.parties)) + choices("links", "link", links)
    filters += choices("events", "kind", dict.fromkeys(e.kind for e in plan.trace.entries))
    source = "".join(f"<div><b>{number}</b>{escape(line)}</div>" for number, line in enumerate(data["source"], 1))
    told = json.dumps(data).replace("<", "\\u003c")
    policy = "default-src 'none'; style-src 'unsafe-inline'; script-src 'unsafe-inline'"
    return f"""<!DOCTYPE html>
<html lang="en">
<head>
<meta charset="utf-8">
<meta http-equiv="Content-Security-Policy" content="{policy}">
<title>{escape(title)}</title>
<style>{PAGE_STYLE}</style>
</head>
<body>
<header><h1>{escape(title)}</h1>
<form id="filters">{filters}<fieldset><legend>words</legend><input type="search" name="words"></fieldset>
<button type="reset">all</button> <span id="count"></span></form></header>
<main><div id="picture">
{picture}</div>
<aside><p id="told">{NOTHING_TOLD}</p><div id="source">{source}</div></aside></main>
<script>const data = {told};{PAGE_SCRIPT}</script>
</body>
</html>
"""
