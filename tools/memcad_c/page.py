"""One page for a file: its source, with alarms, loop invariants and pictures of states at their lines."""

import html

from .diagnostics import Explainer
from .pictures import draw

MOST_PICTURES = 80

STYLE = """
:root { color-scheme: light dark; --back: #fff; --ink: #1b1f24; --soft: #5b6470; --line: #d8dde3; --code: #f6f7f9;
  --good: #0a7a3d; --bad: #b42318; --badback: #fdecea; --note: #175cd3; --noteback: #eef4fe; }
@media (prefers-color-scheme: dark) { :root { --back: #14171b; --ink: #e6e9ed; --soft: #9aa4b1; --line: #30363d;
  --code: #1b2026; --good: #4cc38a; --bad: #ff8f85; --badback: #3a1c1a; --note: #84adff; --noteback: #182440; } }
* { box-sizing: border-box; }
body { margin: 0 auto; max-width: 1100px; padding: 1rem; background: var(--back); color: var(--ink);
  font: 15px/1.5 system-ui, sans-serif; }
details { margin: .3rem 0; } h1 { font-size: 1.3rem; margin: .3rem 0; } h2 { font-size: 1.05rem; margin: 1.6rem 0 .5rem; }
.verdict { font-weight: 600; } .good { color: var(--good); } .bad { color: var(--bad); }
.code { border: 1px solid var(--line); border-radius: 6px; background: var(--code); overflow-x: auto; }
.row { display: flex; font: 13px/1.55 ui-monospace, monospace; }
.row span { flex: none; width: 3.2rem; padding-right: .8rem; text-align: right; color: var(--soft); user-select: none; }
.row pre { margin: 0; font: inherit; white-space: pre; }
.row.hit { background: var(--badback); }
.box { position: sticky; left: 0; margin: .3rem .6rem .5rem 3.2rem; max-width: calc(min(1100px, 100vw) - 6.5rem);
  padding: .45rem .7rem; border-left: 3px solid var(--note); border-radius: 4px; background: var(--noteback); }
.box.alarm { border-color: var(--bad); background: var(--badback); }
.box p { margin: .15rem 0; } .soft { color: var(--soft); }
.states { display: flex; flex-wrap: wrap; gap: .6rem; margin-top: .4rem; }
figure { margin: 0; padding: .4rem; border: 1px solid var(--line); border-radius: 6px; background: var(--back);
  max-width: 100%; overflow-x: auto; }
figcaption { font-size: .8rem; color: var(--soft); }
svg { display: block; max-width: none; } svg text { fill: currentColor; }
summary { cursor: pointer; } details pre { overflow-x: auto; font: 12px/1.5 ui-monospace, monospace; }
@media (max-width: 600px) { body { padding: .6rem; } .row span { width: 2.4rem; padding-right: .5rem; }
  .box { margin-left: .5rem; max-width: calc(100vw - 2.6rem); } }
"""


def escape(text):
    return html.escape(str(text), quote=True)


class Boxes:
    """What stands below each line of the source."""

    def __init__(self, result):
        self.result = result
        self.at = {}
        self.states = []

    def add(self, line, write):
        self.at.setdefault(line, []).append(write)

    def picture(self, state):
        """The number of a state's picture, or None where there are too many."""
        if state is None or len(self.states) >= MOST_PICTURES:
            return None
        self.states.append(state)
        return len(self.states) - 1


def gather(result):
    """All boxes of a result: alarms, refusals, notes, invariants."""
    boxes = Boxes(result)
    path = result.translation.path
    for it in result.diagnostics:
        if it.place.file == path:
            number = boxes.picture(it.state)
            boxes.add(
                it.place.line,
                lambda pictures, it=it, number=number: alarm_box(
                    it, figure(pictures, number, "the state here", it.state)
                ),
            )
    for it in result.translation.log.refusals:
        if it.place.file == path:
            boxes.add(
                it.place.line,
                lambda _, it=it: f'<div class="box alarm"><p><b>{escape(it.construct)}</b>: {escape(it.reason)}; {escape(it.instead)}</p></div>',
            )
    for it in result.translation.log.notes:
        if it.place.file == path:
            boxes.add(
                it.place.line, lambda _, it=it: f'<div class="box"><p class="soft">{escape(it.message)}</p></div>'
            )
    if result.answer is not None:
        add_invariants(boxes, result)
    return boxes


def add_invariants(boxes, result):
    by_line = {}
    for it in result.answer.report.invariants:
        origin = result.translation.text.origin(*it.place)
        if origin and origin.place.file == result.translation.path:
            by_line.setdefault(origin.place.line, []).append(it.state)
    for line, states in by_line.items():
        numbers = [boxes.picture(it) for it in states]
        boxes.add(line, lambda pictures, states=states, numbers=numbers: invariant_box(pictures, states, numbers))


def alarm_box(diagnostic, picture):
    notes = "".join(f'<p class="soft">{escape(it)}</p>' for it in diagnostic.notes)
    return (
        f'<div class="box alarm"><p><b>{escape(diagnostic.place.short())}: {escape(diagnostic.message)}</b> '
        f'<span class="soft">[{escape(diagnostic.rule)}]</span></p>{notes}<div class="states">{picture}</div></div>'
    )


def invariant_box(pictures, states, numbers):
    figures = "".join(
        figure(pictures, it, f"state {i + 1}", state) for i, (it, state) in enumerate(zip(numbers, states))
    )
    many = "one of these states holds" if len(states) > 1 else "this holds"
    return (
        f'<div class="box"><details{" open" if len(states) <= 4 else ""}><summary>whenever a turn of this loop begins, '
        f'{many} ({len(states)})</summary><div class="states">{figures}</div></details></div>'
    )


def figure(pictures, number, caption, state):
    if state is None:
        return ""
    svg = pictures[number] if number is not None and number < len(pictures) else None
    inner = svg or f"<code>{escape(state.text)}</code>"
    return f"<figure>{inner}<figcaption>{escape(caption)}</figcaption></figure>"


def verdict(result):
    functions = result.translation.functions
    if result.safe:
        return f'<p class="verdict good">{escape(result.name)}: proved safe ({functions} functions)</p>'
    if result.translation.log.refusals:
        return f'<p class="verdict bad">{escape(result.name)}: not translated</p>'
    what = f"{len(result.diagnostics)} errors" if result.diagnostics else result.explanation
    return f'<p class="verdict bad">{escape(result.name)}: {escape(what)}</p>'


def section(result):
    boxes = gather(result)
    explainer = Explainer(result.translation)
    pictures = draw(boxes.states, explainer.user_name, explainer.is_followed)
    hits = {it.place.line for it in result.diagnostics} | {it.place.line for it in result.translation.log.refusals}
    rows = []
    for number, line in enumerate(result.translation.source.splitlines(), 1):
        kind = "row hit" if number in hits else "row"
        rows.append(f'<div class="{kind}" id="L{number}"><span>{number}</span><pre>{escape(line) or " "}</pre></div>')
        rows += [write(pictures) for write in boxes.at.get(number, [])]
    made = [verdict(result), f'<div class="code">{"".join(rows)}</div>']
    if result.answer is not None:
        made.append(details("Definitions: what lists and trees are", result.answer.definitions or "none"))
        made.append(details("The translated program, of which 'safe' speaks", result.answer.program))
    return "".join(made)


def details(title, text):
    return f"<details><summary>{escape(title)}</summary><pre>{escape(text)}</pre></details>"


def page(results, name):
    """The text of the page."""
    body = "".join(f"<h2>{escape(it.name)}</h2>{section(it)}" if len(results) > 1 else section(it) for it in results)
    return (
        f'<!doctype html><html lang="en"><head><meta charset="utf-8"><meta name="viewport" content="width=device-width, initial-scale=1">'
        f"<title>{escape(name)}: memcad-c</title><style>{STYLE}</style></head><body><h1>{escape(name)}</h1>{body}</body></html>\n"
    )
