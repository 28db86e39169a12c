"""The types of a map laid out by rounds, as SVG.

A round is a row, the first on top. An edge that passes a round gets a point in
it, so that it goes round the types there. Within a row the order is that of the
mean of the neighbours in the row before, a few times down and up.
"""

from html import escape

from sheet_records import RESOURCE
from sheet_text import show_name

CHARACTER, HEIGHT, GAP, ROW, MARGIN, LEFT, BEND = 7.3, 26, 18, 92, 20, 70, 40


class Spot:
    """A type in its row, or a point that an edge passes; x and y are its middle."""

    def __init__(self, row, record=None):
        self.row, self.record, self.x, self.y, self.up, self.down = row, record, 0.0, 0.0, [], []
        text = show_name(record.name) if record else ""
        self.width = len(text) * CHARACTER + 16 if record else 2.0


class Layout:
    """Rows of spots and the edges between them, each a list of spots."""

    def __init__(self, view):
        rounds = view.rounds()
        self.known = max(rounds.values(), default=-1) + 1
        last = self.known  # types without a round stand in a row of their own
        self.spots = {name: Spot(rounds.get(name, last), view.types[name]) for name in sorted(view.types, key=show_name)}
        self.rows = [[] for _ in range(last + (len(rounds) < len(self.spots)))]
        for spot in self.spots.values():
            self.rows[spot.row].append(spot)
        self.edges = []
        for name, spot in self.spots.items():
            for parent in dict.fromkeys(view.types[name].parents):
                if parent in self.spots:
                    self.edges.append((name, parent, self.path(spot, self.spots[parent])))
        bent = any(spots[0].row == spots[-1].row for _, _, spots in self.edges)
        self.top = MARGIN + BEND * bent
        for turn in range(8):
            self.sweep(turn % 2 == 0)
        self.place()

    def middle(self, row):
        """The height of the middle of a row."""
        return self.top + row * ROW + HEIGHT / 2

    def path(self, spot, parent):
        """The spots of an edge, with a point in each row that it passes."""
        out = [spot]
        for row in range(spot.row - 1, parent.row, -1):
            point = Spot(row)
            self.rows[row].append(point)
            out.append(point)
        out.append(parent)
        for lower, upper in zip(out, out[1:]):
            lower.up.append(upper)
            upper.down.append(lower)
        return out

    def sweep(self, downwards):
        """Orders each row by the mean place of the neighbours in the row before."""
        rows = self.rows if downwards else self.rows[::-1]
        for before, row in zip(rows, rows[1:]):
            places = {spot: at for at, spot in enumerate(before)}
            own = {spot: at for at, spot in enumerate(row)}

            def mean(spot):
                near = [places[other] for other in (spot.up if downwards else spot.down) if other in places]
                return sum(near) / len(near) if near else own[spot]
            row.sort(key=lambda spot: (mean(spot), own[spot]))

    def place(self):
        """The middle of each spot; a row is moved to stand under its neighbours where there is room."""
        for number, row in enumerate(self.rows):
            right = LEFT
            for spot in row:
                spot.x, spot.y = right + spot.width / 2, self.middle(number)
                right += spot.width + GAP
        for _ in range(6):
            for row in [*self.rows, *self.rows[::-1]]:
                self.relax(row)

    def relax(self, row):
        """Moves each spot towards its neighbours, as far as those beside it allow."""
        for at, spot in enumerate(row):
            near = [other.x for other in spot.up + spot.down if other.row != spot.row]
            if not near:
                continue
            low = row[at - 1].x + (row[at - 1].width + spot.width) / 2 + GAP if at else LEFT + spot.width / 2
            high = row[at + 1].x - (row[at + 1].width + spot.width) / 2 - GAP if at + 1 < len(row) else float("inf")
            spot.x = max(low, min(high, sum(near) / len(near)))

    def size(self):
        """Width and height of the picture."""
        right = max((spot.x + spot.width / 2 for row in self.rows for spot in row), default=LEFT)
        return right + MARGIN, self.top + MARGIN + HEIGHT + max(len(self.rows) - 1, 0) * ROW

    def curve(self, spots):
        """An edge as a path, from the top of a type to the bottom of its parent."""
        x, y = spots[0].x, spots[0].y - HEIGHT / 2
        if spots[0].row == spots[-1].row:
            end = spots[-1].x
            return f"M{x:.1f} {y:.1f}C{x:.1f} {y - BEND:.1f} {end:.1f} {y - BEND:.1f} {end:.1f} {y:.1f}"
        out = f"M{x:.1f} {y:.1f}"
        for spot in spots[1:]:
            bottom = spot.y + (HEIGHT / 2 if spot.record else 0)
            middle = (y + bottom) / 2
            out += f"C{x:.1f} {middle:.1f} {spot.x:.1f} {middle:.1f} {spot.x:.1f} {bottom:.1f}"
            x, y = spot.x, bottom
        return out


def svg(view, bad_edges=(), bad_types=()):
    """The picture; types and edges bear their names for the page's script."""
    layout = Layout(view)
    width, height = layout.size()
    out = [f'<svg xmlns="http://www.w3.org/2000/svg" viewBox="0 0 {width:.0f} {height:.0f}" width="{width:.0f}" '
           f'height="{height:.0f}" role="img" aria-label="The types by rounds">']
    for number, row in enumerate(layout.rows):
        y = layout.middle(number)
        text = f"round {number}" if number < layout.known else "no round"
        out.append(f'<text class="round" x="6" y="{y + 4:.1f}">{text}</text>')
    for name, parent, spots in layout.edges:
        one, other = escape(show_name(name)), escape(show_name(parent))
        bad = " bad" if (one, other) in bad_edges else ""
        out.append(f'<path class="edge{bad}" data-from="{one}" data-to="{other}" d="{layout.curve(spots)}"/>')
    for name, spot in layout.spots.items():
        out.append(node(spot, bad_types))
    return "\n".join(out + ["</svg>"])


def node(spot, bad_types):
    """A type: a box, a rounded one for a resource, dashed if virtual."""
    record, name = spot.record, escape(show_name(spot.record.name))
    kinds = "type" + " resource" * (record.variant == RESOURCE) + " virtual" * record.is_virtual
    kinds += " bad" * (name in bad_types)
    radius = HEIGHT / 2 if record.variant == RESOURCE else 3
    return (f'<g class="{kinds}" data-type="{name}" tabindex="0" role="button">'
            f'<rect x="{spot.x - spot.width / 2:.1f}" y="{spot.y - HEIGHT / 2:.1f}" width="{spot.width:.1f}" '
            f'height="{HEIGHT}" rx="{radius:.0f}"/>'
            f'<text x="{spot.x:.1f}" y="{spot.y + 4:.1f}">{name}</text></g>')
