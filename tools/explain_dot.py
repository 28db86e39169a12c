"""The types of a map by rounds, as a graph for Graphviz."""

from sheet_records import NEST_ASSOCIATE, VARIANTS
from sheet_text import show_name, show_resource

SHAPES = {"domain": "box", "resource": "ellipse", "other": "diamond"}


def quoted(text):
    """A string of the language dot."""
    return '"' + text.replace("\\", "\\\\").replace('"', '\\"') + '"'


def bad_edges(explained):
    """The parents that rows of refusal 8 name."""
    rows = [why.line.split(" ") for why in explained.whys if why.line.startswith("D ")]
    return {(subject, other) for _, kind, subject, other, _ in rows if kind in "123"}


def bad_types(explained):
    """The types that rows of refusal 9 name."""
    rows = [why.line.split(" ") for why in explained.whys if why.line.startswith("D ")]
    return {subject for _, kind, subject, _, _ in rows if kind in "456"}


def node(record, refused):
    """A type with the words that it associates."""
    name = show_name(record.name)
    given = [f"{'nests' if ann.kind == NEST_ASSOCIATE else 'associates'} {show_resource(word, dom)}"
             for ann in record.annotations if ann.associates() for word, dom in ann.resources]
    style = ["rounded"] * record.is_trait + ["dashed"] * record.is_virtual
    parts = [f"label={quoted(name + ''.join(chr(10) + text for text in given))}".replace("\n", "\\n"),
             f"shape={SHAPES.get(VARIANTS[record.variant], 'box')}"]
    parts += [f"style={quoted(','.join(style))}"] * bool(style)
    parts += ["color=red"] * (name in refused)
    return f"  {quoted(name)} [{', '.join(parts)}];"


def graph(explained):
    """The graph; a map that can't be read has none of its types."""
    out = [f"digraph {quoted(explained.called)} {{", "  rankdir=BT; node [fontname=monospace, fontsize=10];",
           "  label=" + quoted("domains are boxes, resources ellipses; virtual types are dashed; "
                               "an arrow goes to a parent") + ";"]
    view = explained.view
    if view is not None:
        rounds, bad, refused = view.rounds(), bad_edges(explained), bad_types(explained)
        for name in sorted(view.types, key=show_name):
            out.append(node(view.types[name], refused))
        for number in range(max(rounds.values(), default=-1) + 1):
            same = " ".join(quoted(show_name(name)) + ";" for name in sorted(rounds, key=show_name) if rounds[name] == number)
            out.append(f"  {{ rank=same; {quoted(f'round {number}')} [shape=plaintext]; {same} }}")
        out += [f"  {quoted(f'round {number + 1}')} -> {quoted(f'round {number}')} [style=invis];"
                for number in range(max(rounds.values(), default=0))]
        for name in sorted(view.types, key=show_name):
            for parent in dict.fromkeys(view.types[name].parents):
                edge = show_name(name), show_name(parent)
                colour = " [color=red]" if edge in bad else ""
                out.append(f"  {quoted(edge[0])} -> {quoted(edge[1])}{colour};")
    return "\n".join(out + ["}"]) + "\n"
