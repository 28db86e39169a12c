"""What a map contains, told from the map itself and not from any answer to it."""

import collections

from map_lines import MapView
from sheet_records import ASSOCIATE


class Features:
    """Whether a map has an inherited line, a word with different doms from two ancestors, a word with
    two makings, a parent listed twice."""

    def __init__(self, given):
        self.inherits = self.several_doms = self.two_makings = False
        self.repeated_parents = any(len(set(own.parents)) < len(own.parents) for own in given.types)
        view = MapView(given)
        for name, own in view.types.items():
            doms = collections.defaultdict(set)
            for above in view.above[name]:
                for word, givers in view.gives[above].items():
                    doms[word].add(frozenset(giver.dom for giver in givers))
            self.inherits |= bool(doms)
            self.several_doms |= any(len(sets) > 1 for sets in doms.values())
            made = collections.Counter(word for ann in own.annotations if ann.kind == ASSOCIATE
                                       for word, _ in ann.resources)
            made.update(doms.keys())
            self.two_makings |= any(count > 1 for count in made.values())
