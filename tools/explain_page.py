"""One self-contained page: the graph, the order, the lines by type, and why each line stands there."""

import json
import os
from html import escape

from explain_dot import bad_edges, bad_types
from explain_layout import svg
from places import SHOWN, counted
from sheet_records import VARIANTS
from sheet_text import show_name

HERE = os.path.dirname(os.path.realpath(__file__))
PAGE = """<!DOCTYPE html>
<html lang="en">
<head>
<meta charset="utf-8">
<meta name="viewport" content="width=device-width, initial-scale=1">
<meta http-equiv="Content-Security-Policy"
 content="default-src 'none'; style-src 'unsafe-inline'; script-src 'unsafe-inline'">
<title>{title}</title>
<style>
{style}
</style>
</head>
<body>
<header>
<h1>{title}</h1>
<p id="answer" class="{state}">{answer}</p>
<p class="small">The lines are those that the proved program prints. The reasons, the graph and the way from a text to
its sheet are not proved.</p>
</header>
<main>
<section id="graph"><h2>Types by rounds</h2><div class="scroll">
{graph}
</div><p class="small">A line goes up from a type to its parent. Rounded: resources; dashed: virtual. A click shows
what a type inherits and gives.</p></section>
<section id="order"><h2>The order</h2>
{order}
</section>
<section id="lines"><h2>{lines_title}</h2>
<p><label>Show <input id="filter" type="search" placeholder="part of a line"></label> <span id="shown"></span></p>
{lines}
</section>
{remarks}
<section id="source"><h2>{source_title}</h2>
<pre class="scroll">{source}</pre>
</section>
</main>
<aside id="why" aria-live="polite"><h2>Why</h2><div id="reason"><p>Click a line or a type.</p></div></aside>
<script type="application/json" id="data">{data}</script>
<script>
{script}
</script>
</body>
</html>
"""


def own_file(name):
    """A file that stands beside this one."""
    with open(os.path.join(HERE, name), encoding="utf-8") as source:
        return source.read()


def for_script(value):
    """JSON that can stand within a page."""
    return json.dumps(value).replace("<", "\\u003c").replace(">", "\\u003e").replace("&", "\\u0026")


def line_numbers(places):
    """The lines of the shown text that places are on."""
    return sorted({place.line for place in places})


def line_data(why):
    """What the page's script knows of a line."""
    return {"line": why.line, "owner": why.owner, "because": why.because, "parts": why.parts,
            "types": why.types, "at": line_numbers(why.places)}


def type_data(explained):
    """What the page's script knows of the types."""
    view, out = explained.view, {}
    rounds = view.rounds() if view else {}
    for name, record in sorted(view.types.items(), key=lambda entry: show_name(entry[0])) if view else ():
        gives = [f"{'nests' if giver.nested else 'associates'} {show_name(giver.class_name)}"
                 for givers in view.gives[name].values() for giver in givers]
        flags = " ".join(["virtual"] * record.is_virtual + ["trait"] * record.is_trait + [VARIANTS[record.variant]])
        out[show_name(name)] = {"kind": flags, "round": rounds.get(name), "gives": gives,
                                "parents": [show_name(parent) for parent in dict.fromkeys(record.parents)],
                                "ancestors": sorted(show_name(other) for other in view.above[name]),
                                "at": line_numbers([record.place] if record.place else [])}
    return out


def button(at, why):
    """A line that can be clicked."""
    return f'<li><button class="line" id="line-{at}" data-line="{at}">{escape(why.line)}</button></li>'


def order_list(explained):
    """The T lines, row by row of the rounds."""
    rows = {}
    for at, why in enumerate(explained.whys):
        if why.line.startswith("T "):
            name = tuple(why.line[2:].split("."))
            rows.setdefault(explained.view.rounds().get(name), []).append(button(at, why))
    if not rows:
        return "<p>None.</p>"
    return "\n".join(f'<h3>round {number}</h3><ul class="row">{"".join(rows[number])}</ul>' for number in rows)


def line_list(explained):
    """The other lines by type; of a refused map its number and rows."""
    groups = {}
    for at, why in enumerate(explained.whys):
        if not why.line.startswith("T "):
            groups.setdefault(why.owner, []).append(button(at, why))
    out = []
    for owner, lines in groups.items():
        head = f'<h3 data-type="{escape(owner)}">{escape(owner)}</h3>' if owner else ""
        out.append(f'<div class="group">{head}<ul>{"".join(lines)}</ul></div>')
    return "\n".join(out) or "<p>None.</p>"


def source_lines(explained):
    """The text with its line numbers."""
    text = (explained.source or b"").decode("utf-8", "replace").rstrip("\n")
    return "".join(f'<span class="source" id="source-{at}"><b>{at:4}</b> {escape(line)}</span>'
                   for at, line in enumerate(text.split("\n"), 1)) if text else "The sheet can't be read."


def remarks(explained):
    """What the checks of the text say."""
    found = [problem for problem in explained.problems.sorted() if problem.severity != "note"]
    items = "".join(f"<li>{escape(explained.place_text(problem.place))} {escape(problem.severity)}: "
                    f"{escape(problem.text)}</li>" for problem in found[:SHOWN])
    items += f"<li>and {len(found) - SHOWN:,} more</li>" if len(found) > SHOWN else ""
    return f'<section id="remarks"><h2>Remarks of the checks</h2><ul>{items}</ul></section>' if items else ""


def answer(explained):
    """The answer in words."""
    if not explained.accepted:
        return " &mdash; ".join(escape(text) for why in explained.whys[:1] for text in [why.line, *why.because])
    kinds = [why.line[:1] for why in explained.whys]
    return (f"Accepted: {counted(kinds.count('T'), 'type')}, {counted(kinds.count('R'), 'synthesized resource')}, "
            f"{counted(kinds.count('E'), 'extension line')}.")


def page(explained):
    """The whole page."""
    graph = svg(explained.view, bad_edges(explained), bad_types(explained)) if explained.view else "<p>None.</p>"
    sheet = explained.syntax == "sheet"
    return PAGE.format(
        title=escape(f"Why: {explained.called}"), style=own_file("explain.css"), script=own_file("explain.js"),
        state="accepted" if explained.accepted else "refused", answer=answer(explained), graph=graph,
        order=order_list(explained), lines=line_list(explained), remarks=remarks(explained),
        lines_title="The lines by type" if explained.accepted else "The refusal and its rows",
        source_title=escape(f"The text of {explained.called}" if sheet else explained.called),
        source=source_lines(explained),
        data=for_script({"lines": [line_data(why) for why in explained.whys], "types": type_data(explained)}))
