"""Records written briefly: a name is given as `f` or `d.f`."""

from sheet_records import ANNOTATIONS, ASSOCIATE, DOMAIN, NEST_ASSOCIATE, Annotation, TypeRecord


def name_of(text):
    """The words of a name."""
    return tuple(text.split("."))


def class_name(word, dom):
    """The class `r`, or `dom.r`."""
    return (word,) if dom is None else (dom, word)


def associate(*classes, kind=ASSOCIATE):
    """An associate of these classes."""
    names = [name_of(text) for text in classes]
    return Annotation(kind, [(name[-1], name[0] if len(name) == 2 else None) for name in names])


def nest(*classes):
    """A NestAssociate of these classes."""
    return associate(*classes, kind=NEST_ASSOCIATE)


def record(name, variant=DOMAIN, parents=(), annotations=(), marks=(), is_virtual=False):
    """A type that is no trait."""
    return TypeRecord(name_of(name), variant, is_virtual, False, [name_of(text) for text in parents],
                      list(annotations), list(marks))


def add(own, ann):
    """Adds an annotation unless the sheet would be refused for it."""
    words = [word for word, _ in ann.resources]
    if (len(own.annotations) < ANNOTATIONS and len(set(words)) == len(words)
            and ann.equal_part() not in [other.equal_part() for other in own.annotations]):
        own.annotations.append(ann)
