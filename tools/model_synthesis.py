"""The model's synthesis, as the Rust does it: what is handed on, the makings, and the rows of refusal 9."""

from model_lines import Line, class_names, making
from model_order import Row
from model_reading import words_of
from sheet_records import ALIAS, ASSOCIATE, MAKE_LIST, NEST_ASSOCIATE, NO_DERIVE, RESOURCE


def intersection(left, right):
    """What two annotations share, or None."""
    if left[0] != right[0]:
        return None
    if left[0] in (MAKE_LIST, NO_DERIVE, ALIAS):
        return left if left == right else None
    if left[0] in (ASSOCIATE, NEST_ASSOCIATE):
        doms = dict(right[1])
        shared = tuple((w, d | doms[w]) for w, d in left[1] if w in doms)
        return (left[0], shared) if shared else None
    return None


def difference(left, right):
    """The part of the left annotation that the right one lacks, or None."""
    if left[0] != right[0]:
        return left
    if left[0] in (MAKE_LIST, NO_DERIVE, ALIAS):
        return None if left == right else left
    if left[0] in (ASSOCIATE, NEST_ASSOCIATE):
        words = dict(right[1])
        rest = tuple((w, d) for w, d in left[1] if w not in words)
        return (left[0], rest) if rest else None
    return left


class Inherited:
    """An inherited annotation and the direct parents that pass it."""

    def __init__(self, annotation, parents):
        self.annotation, self.parents = annotation, parents
        self.row = sum(1 << w for w in words_of(annotation))

    def apart(self, other):
        """Two associates without a common word: each is the other's rest."""
        return (self.row and other.row and not self.row & other.row
                and self.annotation[0] == other.annotation[0])


def dedup_inherited_annotations(entries):
    """The entries join a list one after the other (FORMAT 8.9)."""
    out = []
    for entry in entries:
        out = dedup_inherited_annotations_one(out, entry)
    return out


def dedup_inherited_annotations_one(existing, new):
    """The list with a newcomer: each entry that it meets is split into its rest and
    what it shares, and what is left of the newcomer stands last."""
    out = []
    for at, old in enumerate(existing):
        if old.apart(new):
            out.append(old)
            continue
        rest = difference(old.annotation, new.annotation)
        shared = intersection(old.annotation, new.annotation)
        remaining = difference(new.annotation, old.annotation)
        if rest:
            out.append(Inherited(rest, old.parents))
        if shared:
            out.append(Inherited(shared, old.parents | new.parents))
        if not remaining:
            return out + existing[at + 1:]
        new = Inherited(remaining, new.parents)
    return out + [new]


class Synthesis:
    """apply_associate_annotations: the makings, the lines and the rows.

    With `all_kinds` the inherited lists keep the annotations that are no
    associates, as in the Rust; they touch no row and no line, and copies of
    Derive and Inherit never merge, so such lists can grow without bound.
    """

    def __init__(self, types, names, all_kinds=False):
        self.types, self.all_kinds = types, all_kinds
        self.rows, self.makings, self.lines = [], {}, {}
        self.interpreted, self.passed = set(), {}
        for name in names:
            self.passed[name] = self.passes(types.types[name])
        for name in types.types:
            if name not in self.interpreted:
                self.visit(name)

    def passes(self, info):
        """What a call of inherit_annotations that succeeds returns: the own
        annotations, a NestAssociate as an Associate, then the inherited ones."""
        own = [(ASSOCIATE if kind == NEST_ASSOCIATE else kind, payload)
               for kind, payload in info.annotations]
        above = dedup_inherited_annotations(
            e for parent in info.parents for e in self.passed[parent])
        parents = frozenset([info.name])
        return [Inherited(ann, parents) for ann in own + [e.annotation for e in above]
                if self.all_kinds or ann[0] == ASSOCIATE]

    def visit(self, name):
        """The first call of inherit_annotations for a type: whether it succeeds.
        Where the call of a parent fails, that listing hands on nothing, and the
        type's own call fails as well (FORMAT 8.6)."""
        info, got, succeeds = self.types.types[name], [], True
        for parent in info.parents:
            if parent in self.interpreted or self.visit(parent):
                got += self.passed[parent]
            else:
                succeeds = False
        self.interpreted.add(name)
        before = len(self.rows)
        nobody = frozenset()
        # Its own Associates, then what it got, in the order of the dedup (FORMAT 8.6).
        for entry in ([Inherited(ann, nobody) for ann in info.annotations]
                      + dedup_inherited_annotations(got)):
            if entry.annotation[0] == ASSOCIATE:
                self.interpret_associate(info, entry)
        return succeeds and len(self.rows) == before

    def interpret_associate(self, info, entry):
        """The words of an annotation, ascending (FORMAT 8.10). Unknown classes have
        a row each. With such a row, or a row of an earlier word, it ends."""
        before = len(self.rows)
        for word, doms in entry.annotation[1]:
            classes = class_names(word, doms)
            self.rows += [Row(4, info.name, c, word) for c in classes if c not in self.types.types]
            if len(self.rows) > before:
                return
            self.create_synthetic_resource(info, entry.parents, classes, word)

    def create_synthetic_resource(self, info, parents, classes, word):
        """One making and its extension line, or a row of kind 5 or 6."""
        for c in classes:
            if self.types.types[c].variant != RESOURCE:
                self.rows.append(Row(5, info.name, c, word))
                return
        first = [p + (word,) for p in sorted(parents, key=self.types.spelling)] if parents else classes
        made = making(self.types, info, word, first, classes)
        if info.name + (word,) in self.types.types or made in self.makings:
            self.rows.append(Row(6, info.name, None, word))
            return
        self.makings[made] = None
        self.lines[Line(info.name, word, info.is_virtual, info.is_trait)] = None
