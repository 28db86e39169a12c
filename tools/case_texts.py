"""The sheets of the cases, as readable texts: see `cases`.

A case has `what` it shows; its `text`, or its `bytes`; `calls`, both if left
out; the lengths of the lent slices where they matter; and its row limit `rows`,
256 if left out.
"""

from sheetlib import Writer, sheet_of


def case(what, text, **more):
    """A case with a readable text."""
    return {"what": what, "text": text, **more}


def types(count):
    """So many types without parents, named by two words each."""
    names = [f"{a}.{b}" for a in "abcdefgh" for b in "abcdefgh"] + ["a"]
    return "".join(f"domain {name}\n" for name in names[:count])


# `q` has the one row, `3 q zz`, and every other type repeats it.
def rows(last):
    """1 + 8 + 64 + (64 + 64 + 6 * 8) rows, and those of `v`."""
    return ("domain q : zz\ndomain p :" + " q" * 8 + "\ndomain t :" + " p" * 8
            + "\ndomain u : t t" + " p" * 6 + "\ndomain v :" + " q" * last + "\n")


def fewer_rows(last):
    """1 + 8 + 48 rows, and those of `v`."""
    return "domain q : zz\ndomain p :" + " q" * 8 + "\ndomain t :" + " p" * 6 + "\ndomain v :" + " q" * last + "\n"


DOCUMENT = {
    "noTypes": case("The two words that every sheet has, and nothing else: three zero bytes.", ""),
    "eachOther": case("Each of two types is the parent of the other.", "domain a : b\ndomain b : a"),
    "undeclaredParent": case("A parent that is not declared, behind one that lists itself.",
                             "domain a : b zz\ndomain b : b"),
    "selfAlone": case("The parent `self` where no type is ready.", "domain a : self zz"),
    "selfBesideFree": case("The parent `self` where another type is ready.",
                           "domain a : self zz\ndomain c"),
    "twoWaysUp": case("Two ways up to one associate: one making, under the resources of both parents.",
                      "domain d : b c\ndomain b : a\ndomain c : a\ndomain a\n  associate file\n"
                      "resource file : resource\nresource resource"),
    "parentAndChild": case("A type associates what its parent does: an own and an inherited making, one extension line.",
                           "domain a\n  associate file\ndomain b : a\n  associate file\nresource file"),
    "types64": case("64 types pass.", types(64)),
    "types65": case("65 types give 4.", types(65)),
    "parents8": case("8 parents pass.", "domain p\ndomain a :" + " p" * 8),
    "parents9": case("9 parents give 4.", "domain p\ndomain a :" + " p" * 9),
    "nested": case("A NestAssociate makes a resource for the child, and none for its own type.",
                   "domain p\n  nest p.file\ndomain b : p\nresource p.file"),
    "worked": case("The worked example of the schedule program.",
                   "domain base\n  associate file\nresource file virtual : resource\n  mark makelist\n"
                   "resource resource"),
}

GOOD = "domain a\n  associate f\nresource f"


def sheet_in(case):
    """The sheet of a case."""
    return case["bytes"] if "bytes" in case else sheet_of(case["text"])


def fields(*pairs):
    """A sheet of fields, each a width and a value."""
    out = Writer()
    for width, value in pairs:
        out.put(width, value)
    return out.data()


HEAD = [(4, 1), (8, 2)]
TWO_WORDS = [*HEAD, (5, 1), (8, ord("a")), (5, 1), (8, ord("b"))]


def raw(what, data, **more):
    """A case whose sheet is given as bytes."""
    return {"what": what, "bytes": data, **more}


ORDER, SCHEDULE = {"calls": ["order"]}, {"calls": ["schedule"]}
AFTER_5_UNKNOWN = "domain d\nresource f\ndomain a\n  associate d zz"

REFUSALS = {
    "refusal1": raw("1: 40,961 zero bytes", bytes(40961), listing=4, diagnosis=1536),
    "refusal2": case("2: a diagnosis slice of 1,535 bytes", GOOD, listing=64, diagnosis=1535),
    "refusal3": raw("3: the empty sheet", b""),
    "refusal4": case("4: version 2", "version 2"),
    "refusal5": case("5: words `self`, `resource`", "words! self resource"),
    "refusal6": case("6: two types `a`", "domain a\ndomain a"),
    "refusal7": raw("7: a sheet that would pass, and a zero byte", sheet_of(GOOD) + b"\0"),
    "refusal8": case("8: `a` is its own parent", "domain a : a"),
    "refusal9": case("9: `a` associates `b`, which is not declared; the order-only call accepts it",
                     "domain a\n  associate b"),
    "refusal10": case("10: a listing of 0 bytes", GOOD, listing=0, diagnosis=1536),
}

LENT = {
    "fits": case("a listing that the schedule fills", GOOD, listing=16, diagnosis=1536, **SCHEDULE),
    "oneShort": case("a listing one byte short", GOOD, listing=15, diagnosis=1536, **SCHEDULE),
    "orderFits": case("a listing that the order fills", GOOD, listing=4, diagnosis=1536, **ORDER),
    "orderOneShort": case("a listing one byte short for the order", GOOD, listing=3, diagnosis=1536, **ORDER),
    "longestSheet": raw("40,960 bytes are not too many", bytes(40960), listing=4, diagnosis=1536, **ORDER),
    "first1": raw("1 before 2", bytes(40961), listing=0, diagnosis=0, **ORDER),
    "first2": raw("2 before 3", b"", listing=0, diagnosis=0, **ORDER),
    "first7": raw("7 before 5", sheet_of("words! self resource a\ndomain a\ndomain a") + b"\0", **ORDER),
    "first5": case("5 before 6", "words! self resource a\ndomain a\ndomain a", **ORDER),
    "first6": case("6 before 8", "domain a : a\ndomain a : a", **ORDER),
    "first8": case("8 before 9 and 10", "domain a : a\n  associate b", listing=0, diagnosis=1536, **SCHEDULE),
    "first9": case("9 before 10", "domain a\n  associate b", listing=0, diagnosis=1536, **SCHEDULE),
}

LIMITED = {
    "refusal17": case("17: a limit of 0 rows", GOOD, rows=0, listing=64, diagnosis=1536),
    "limit257": case("17: a limit of 257 rows", GOOD, rows=257, listing=64, diagnosis=1542),
    "first1Limit": raw("1 before 17", bytes(40961), rows=0, listing=4, diagnosis=1536),
    "first17": case("17 before 2", GOOD, rows=0, listing=64, diagnosis=0),
    "largestLimit": case("17 before 2: six times the largest limit that C can give", GOOD, rows=4294967295, listing=64,
                         diagnosis=0),
    "limit64Short": case("2: 64 rows need 384 bytes", GOOD, rows=64, listing=64, diagnosis=383),
    "limit64": case("384 bytes suffice for 64 rows", GOOD, rows=64, listing=16, diagnosis=384, **SCHEDULE),
    "limit1": case("one row of two", "domain a : b\ndomain b : a", rows=1, listing=4, diagnosis=8),
    "rows63": case("63 rows under a limit of 64", fewer_rows(6), rows=64, listing=4, diagnosis=390, **ORDER),
    "rows64": case("64 rows under a limit of 64: the flag is not set", fewer_rows(7), rows=64, listing=4, diagnosis=390),
    "rows65": case("65 rows under a limit of 64: the flag is set", fewer_rows(8), rows=64, listing=4, diagnosis=390),
    "limit1Nine": case("one row of 9 of two", AFTER_5_UNKNOWN, rows=1, listing=4, diagnosis=8, **SCHEDULE),
}

READING = {
    "wordByte": raw("length 31, then `!`, then the end: each byte is a field of its own",
                    fields(*HEAD, (5, 31), (8, ord("!"))), **ORDER),
    "wordByteMissing": raw("length 31, then `a`, then the end", fields(*HEAD, (5, 31), (8, ord("a"))), **ORDER),
    "wordBytes": case("the first and last of each range of word bytes", "words A Z a z 0 9 _", **ORDER),
    **{f"wordByte{code}": case(f"a byte beside a range of word bytes: {code}",
                               f"words! {chr(code)} resource self", **ORDER)
       for code in (0x2f, 0x3a, 0x40, 0x5b, 0x5e, 0x60, 0x7b)},
    "wordBytesBehind": case("the same behind the first byte, and the hyphen", "words _A _Z _a _z _0 _9 __ _-", **ORDER),
    **{f"wordByte{code}Behind": case(f"a byte beside the hyphen: {code}", f"words! a{chr(code)} resource self", **ORDER)
       for code in (0x2c, 0x2e)},
    "hyphenFirst": raw("a hyphen as a word's first byte: 4 at that byte, and not 3 at the end behind it",
                       fields(*HEAD, (5, 31), (8, ord("-"))), **ORDER),
    "hyphenSecond": raw("a hyphen as the second byte is taken: 3 at the end behind it",
                        fields(*HEAD, (5, 31), (8, ord("a")), (8, ord("-"))), **ORDER),
    "hyphenLeads": case("a word that begins with a hyphen", "words! -a resource self", **ORDER),
    "hyphenAlone": case("a hyphen alone is no word", "words! - resource self", **ORDER),
    "hyphenLast": case("a word may end with hyphens, and have two in a row", "words a a- a-- a--b a-b", **ORDER),
    "emptyWord": case("a word without bytes", 'words! "" resource self', **ORDER),
    "longWord": case("a word of 31 bytes", "words abcdefghijklmnopqrstuvwxyz01234", **ORDER),
    "words1": raw("one word", fields((4, 1), (8, 1)), **ORDER),
    "words200": raw("200 words are a count allowed, and the first is missing", fields((4, 1), (8, 200)), **ORDER),
    "words201": raw("201 words: a count that is not allowed decides before its missing entries",
                    fields((4, 1), (8, 201)), **ORDER),
    "types64Missing": raw("64 types, and the first is missing", fields(*TWO_WORDS, (7, 64)), **ORDER),
    "extensions32": raw("32 extensions, and the first is missing", fields(*TWO_WORDS, (7, 0), (6, 32)), **ORDER),
    "extensions33": raw("33 extensions", fields(*TWO_WORDS, (7, 0), (6, 33)), **ORDER),
    "wordNumber": case("a word field not below W", "domain @2", **ORDER),
    "variant3": case("the variant 3", "variant3 a", **ORDER),
    "kind7": case("the annotation kind 7", "domain a\n  kind7", **ORDER),
    "annotations13": raw("13 annotations", fields(*TWO_WORDS, (7, 1), (8, 0), (1, 0), (2, 0), (2, 0), (4, 0), (4, 13)), **ORDER),
    "annotations12": case("12 annotations", "domain a" + "".join(f"\n  derive {at}" for at in range(12)), **ORDER),
    "marks7": case("7 marks, tags 0 and 255 among them",
                   "resource a\n  mark makelist\n  mark derive 0\n  mark derive 255" + "\n  mark makelist" * 4, **ORDER),
    "nestInTwoWords": raw("NestAssociate in a two-word type, at the kind field",
                          fields(*TWO_WORDS, (7, 1), (8, 0), (1, 1), (8, 1), (2, 0), (2, 0), (4, 0), (4, 1), (3, 2)), **ORDER),
    "associateInTwoWords": case("an Associate in a two-word type", "domain a.b\n  associate b", **ORDER),
    "noResources": case("an associate may have 0 resources", "domain a\n  associate\n  nest"),
    "noExtensionParent": case("an extension without parents", "extend a b", **ORDER),
    "everyKind": case("every kind of annotation, 15 names in an Inherit",
                      "domain a\n  makelist\n  associate f g.f2\n  nest h\n  alias k\n  inherit" + " b c.d" * 7
                      + " b\n  derive 200\n  noderive", **ORDER),
    "noSelf": case("`self` missing", "words! a resource", **ORDER),
    "noResource": case("`resource` missing", "words! a self", **ORDER),
    "wordTwice": case("a word twice is not ascending", "words! resource self self", **ORDER),
    "prefixFirst": case("a word before its extension", "words a ab b", **ORDER),
    "fill": raw("the last bit of the fill set", sheet_of("")[:-1] + bytes([sheet_of("")[-1] | 1]), **ORDER),
    "moreBytes": raw("a byte that is not zero behind the sheet", sheet_of("") + b"\1", **ORDER),
}

TWICE = {
    "twoWordsTwice": case("a two-word name twice", "domain a.b\ndomain a.b", **ORDER),
    "keyTwice": case("a key twice among extensions", "extend a b : a\nextend a b : b", **ORDER),
    "keysDiffer": case("keys that differ in a word", "extend a b : a\nextend a.b b : a\nextend b b : a\nextend a a : a", **ORDER),
    "wordTwiceInAssociate": case("a word twice in an associate, whatever the doms", "domain a\n  associate f d.f", **ORDER),
    "wordTwiceInNest": case("a word twice in a nested one", "domain a\n  nest f f", **ORDER),
    "equalSets": case("associates of equal word sets, doms ignored", "domain a\n  associate f g\n  associate g d.f", **ORDER),
    "emptySets": case("two associates without resources", "domain a\n  associate\n  associate", **ORDER),
    "unequalSets": case("associates of unequal word sets; one kind beside the other",
                        "domain a\n  associate f g\n  associate f\n  nest f", **ORDER),
    "inheritTwice": case("equal Inherits", "domain a\n  inherit a b\n  inherit a b", **ORDER),
    "inheritsDiffer": case("Inherits compare as ordered lists with repeats",
                           "domain a\n  inherit a b\n  inherit b a\n  inherit a a b", **ORDER),
    "deriveTwice": case("equal Derives", "domain a\n  derive 1\n  derive 1", **ORDER),
    "aliasTwice": case("equal Aliases", "domain a\n  alias f\n  alias f", **ORDER),
    "makelistTwice": case("two MakeLists", "domain a\n  makelist\n  makelist", **ORDER),
    "noDeriveTwice": case("two NoDerives", "domain a\n  noderive\n  noderive", **ORDER),
    "tagsDiffer": case("Derives and Aliases that differ", "domain a\n  derive 1\n  derive 2\n  alias f\n  alias g", **ORDER),
}

ORDERS = {
    "againstNames": case("a chain against the order of names", "domain a : b\ndomain b : c\ndomain c", **ORDER),
    "nextRound": case("a type whose parent is placed in this round waits for the next one", "domain a\ndomain b : a\ndomain c", **ORDER),
    "oneWordFirst": case("one word before two", "domain b\ndomain a.b\ndomain a", **ORDER),
    "hyphenBeforeDot": case("a hyphen goes before the dot, and the dot before all other bytes of words: `a-b` before `a.c`",
                            "domain a_\ndomain a0\ndomain a.c\ndomain a-b.c\ndomain a-b\ndomain a--.c\ndomain a--\n"
                            "domain a-\ndomain a", **ORDER),
    "hyphenWithinRound": case("within a round by name, a type with a parent too",
                              "domain a.c : z\ndomain a-b : z\ndomain a : z\ndomain z", **ORDER),
    "hyphenSelf": case("rows of `self`: types in name order", "domain c\ndomain a.c : self\ndomain a-b : self", **ORDER),
    "hyphenWaiting": case("types that wait, in name order", "domain a.c : zz\ndomain a-b : zz\ndomain a : a-b a.c", **ORDER),
    "longestChain": case("the longest chain counts", "domain a : d b\ndomain b : c\ndomain c : d\ndomain d", **ORDER),
    "selfTwice": case("each listing of `self` is a row", "domain a : self self", **ORDER),
    "selfWaiting": case("also of a type that waits, types in name order", "domain b : a self\ndomain a : c self\ndomain c", **ORDER),
    "selfDeclared": case("`self` declared: a row of kind 1 where a type is ready", "domain self\ndomain a : self", **ORDER),
    "selfReplaced": case("no type ready: no row of kind 1, and `self` is looked up like any name",
                         "domain a : self b\ndomain b : a\ndomain self : a", **ORDER),
    "selfInTwoWords": case("a two-word name is not `self`", "domain c\ndomain a : self.c", **ORDER),
    "firstBadParent": case("the first bad parent is the only answer, also behind a good one",
                           "domain a : b a zz\ndomain b : zz", **ORDER),
    "repeatedParent": case("repeats repeat rows", "domain a : b b\ndomain b : zz", **ORDER),
    "throughPath": case("answers along the path", "domain a : b c\ndomain b : a\ndomain c : zz", **ORDER),
    "placedParent": case("a placed type gives no row", "domain a : b c\ndomain b\ndomain c : c b", **ORDER),
    "rows256": case("256 rows: the flag is not set", rows(7), diagnosis=1540, listing=4),
    "rows257": case("257 rows: the flag is set", rows(8), diagnosis=1540, listing=4),
}

SYNTHESIS = {
    "twoDoms": case("no dom and two doms of one word, from three ancestors: the classes and their marks go in the order of doms",
                    "domain a\n  nest y.f\ndomain b\n  nest x.f\ndomain c\n  nest f\ndomain d : a b c\n"
                    "resource f\n  mark derive 1\nresource x.f\n  mark derive 2\nresource y.f\n  mark derive 3\n  mark makelist", **SCHEDULE),
    "farDoms": case("doms of ancestors that are no direct parents",
                    "domain a\n  nest x.f\ndomain b : a\n  nest y.f\ndomain c : b\n"
                    "resource x.f\n  mark derive 2\nresource y.f\n  mark derive 3", **SCHEDULE),
    "unitedDoms": case("the union of doms is interpreted: both classes unknown", "domain a\n  nest x.f\ndomain b\n  nest y.f\ndomain c : a b", **SCHEDULE),
    "ownDoms": case("T's own doms join its children's inherited classes, and not its own",
                    "resource f\n  mark derive 1\nresource d.f\n  mark derive 2\ndomain a\n  associate f\n"
                    "domain b : a\n  associate d.f\ndomain c : b", **SCHEDULE),
    "directParents": case("P.r for direct parents alone, ascending, each once",
                          "resource f\ndomain z\n  nest f\ndomain m : z\ndomain e\ndomain t : z m e z m", **SCHEDULE),
    "ownSorted": case("own resources by ascending class name, whichever annotation gives them",
                      "resource f\nresource d.f\nresource g\ndomain a\n  associate f\n  associate d.f g", **SCHEDULE),
    "ownBeforeInherited": case("equal parents: the own resource goes before the inherited one, which the parents do not tell",
                               "resource p.f\nresource q.f\n  mark makelist\ndomain p\n  nest q.f\n"
                               "domain t : p\n  associate p.f", **SCHEDULE),
    "wordsAndDoms": case("two words, two doms and an inherited word in one type",
                         "resource f\nresource d.f\nresource g\nresource z.g\nresource h\ndomain p\n  associate h g\n"
                         "domain t : p\n  associate f\n  associate z.g d.f", **SCHEDULE),
    "threeOrders": case("three orders of one map: P.r by the names of P, `a`, `a-b`, `a.c`; the classes of the inherited one by "
                        "doms, `a` before `a-b`; own resources by the names of their classes, `a-b.f` before `a.f`",
                        "domain t : a.c a-b a\n  associate a.f\n  associate a-b.f g\ndomain a.c : a\n"
                        "domain a-b\n  nest a-b.f\ndomain a\n  nest a.f\n"
                        "resource a.f\n  mark derive 1\nresource a-b.f\n  mark derive 2\nresource g", **SCHEDULE),
    "hyphenTypes": case("items go by the names of the types: `a-b` before `a.c`",
                        "resource f\ndomain a.c\n  associate f\ndomain a-b\n  associate f\ndomain a\n  associate f", **SCHEDULE),
    "hyphenParents": case("P.r by the names of P, where a class, a chain and an extension have such names too",
                          "domain a\n  associate d-b.f-1\ndomain a-\n  associate d.f-1\ndomain a-b.c : a-\ndomain a0 : a\n"
                          "domain t : a0 a-b.c a a-\nresource d.f-1\n  mark derive 1\nresource d-b.f-1\n  mark derive 2\n"
                          "extend t f-1 : a.c a-b a", **SCHEDULE),
    "twelveOwn": case("as many own resources of one word as there can be, by ascending class name",
                      "resource f\n" + "".join(f"resource {d}.f\nresource w{d}\n" for d in "abcdeghijkl")
                      + "domain t\n  associate f" + "".join(f"\n  associate {d}.f w{d}" for d in "lkjihgedcba"), **SCHEDULE),
    "itemsByName": case("items go by the names of the types, which is not the order of the types",
                        "resource f\ndomain a : c\ndomain b : a\ndomain c\n  associate f", **SCHEDULE),
    "virtual": case("virtual: the type and all its classes", "resource f virtual\nresource g\ndomain a virtual trait\n  associate f g\ndomain b\n  associate f", **SCHEDULE),
    "repeatedMarks": case("marks class by class, also those that are repeated",
                          "resource f\n  mark makelist\n  mark makelist\nresource d.f\n  mark makelist\n"
                          "domain a\n  nest f\ndomain b\n  nest d.f\ndomain c : a b", **SCHEDULE),
    "otherKinds": case("the other kinds of annotation, and Inherit, change nothing",
                       "resource f\n  derive 9\n  mark derive 5\ndomain a\n  makelist\n  associate f\n  alias b\n  inherit zz b\n  derive 3\n  noderive\ndomain b : a", **SCHEDULE),
    "extensions": case("an extension of an undeclared type; undeclared parents and `self` in one",
                       "domain a\n  associate f\nresource f\nextend zz f : self\nextend a f : self zz.f zz.f", **SCHEDULE),
    "threeWords": case("a two-word type gives three-word names", "resource f\ndomain a.b\n  associate f\ndomain c.d : a.b", **SCHEDULE),
    "ownClass": case("a type may be its own class", "resource f virtual\n  associate f", **SCHEDULE),
    "nestAlone": case("an unknown class that is only nested", "domain p\n  nest zz", **SCHEDULE),
    "nestUnknown": case("an unknown class nested in a parent", "domain p\n  nest zz\ndomain b : p", **SCHEDULE),
    "nestAndOwn": case("P.r may be a parent though it is neither declared nor made",
                       "resource f\ndomain p trait\n  nest f\ndomain b trait : p", **SCHEDULE),
}

ROWS9 = {
    "failedParent": case("a parent call that fails passes nothing at that listing: a refused type without a row",
                         "resource f\ndomain p\n  associate f\n  associate zz\ndomain c : p", **SCHEDULE),
    "hyphenTried": case("types are tried in name order: `a-b` before `a.c`",
                        "domain a.c\n  associate zz\ndomain a-b\n  associate zz\ndomain a\n  associate zz", **SCHEDULE),
    "hyphenUnknown": case("unknown classes go by doms, `a` before `a-b`",
                          "domain p\n  nest a-b.f\ndomain q\n  nest a.f\ndomain t : p q", **SCHEDULE),
    "hyphenNoResource": case("the first class that does not fit goes by doms too",
                             "domain a.f\ndomain a-b.f\ndomain p\n  nest a-b.f\ndomain q\n  nest a.f\ndomain t : p q",
                             **SCHEDULE),
    "listedAgain": case("listed again, the parent passes everything", "resource f\ndomain p\n  associate f\n  associate zz\ndomain c : p p", **SCHEDULE),
    "failsThrough": case("the child of a failed call fails too", "resource f\ndomain p\n  associate f\n  associate zz\ndomain b : c c\ndomain c : p", **SCHEDULE),
    "rowUnrefused": case("a type that is not refused can get a row: `q` fails, so `p.f` alone stands above a.f",
                         "resource f\nresource g\nresource p.f\nresource q.g\ndomain p\n  nest f\n"
                         "domain q\n  nest f\n  associate g\ndomain a : p q\n  associate p.f", **SCHEDULE),
    "unknownEnds": case("unknown classes end the annotation, words ascending", "domain a\n  associate zz yy", **SCHEDULE),
    "after5": case("after a 5 the next word ends the annotation, though it adds no row", "domain d\nresource f\ndomain a\n  associate d f zz", **SCHEDULE),
    "after5Unknown": case("after a 5 the next word adds its unknown classes", AFTER_5_UNKNOWN, **SCHEDULE),
    "after6Unknown": case("after a 6 too", "resource d\nresource a.d\ndomain a\n  associate d zz", **SCHEDULE),
    "not6Where5": case("5 goes before 6", "domain f\nresource a.f\ndomain a\n  associate f", **SCHEDULE),
    "firstNoResource": case("5 names the first class that does not fit", "domain f\ndomain x.f\ndomain a\n  nest x.f\ndomain b\n  nest f\ndomain c : a b", **SCHEDULE),
    "otherVariant": case("the variant `other` is no resource", "other f\ndomain a\n  associate f", **SCHEDULE),
    "wordLists": case("Associates go by their word lists", "domain a\n  associate m zz\n  associate k yy", **SCHEDULE),
    "dedupOrder": case("the dedup splits an earlier entry into its rest and what it shares; a newcomer's own rest goes last",
                       "domain p\n  nest m z\ndomain q\n  nest a m\ndomain t : p q", **SCHEDULE),
    "dedupTurned": case("newcomers by listing", "domain p\n  nest m z\ndomain q\n  nest a m\ndomain t : q p", **SCHEDULE),
    "identicalOwn": case("two identical own makings", "resource f\nresource g\ndomain a\n  associate f\n  associate f g", **SCHEDULE),
    "identicalAbove": case("an own making of class P.r identical to the inherited one", "resource p.f\nresource q.f\ndomain p\n  nest q.f\ndomain t : p\n  associate p.f", **SCHEDULE),
    "marksDiffer": case("unlike marks: two makings", "resource p.f\n  mark makelist\nresource q.f\ndomain p\n  nest q.f\ndomain t : p\n  associate p.f", **SCHEDULE),
    "declaredName": case("a type of the name T.r is declared", "resource f\nresource a.f\ndomain a\n  associate f", **SCHEDULE),
}

CORNERS = {**REFUSALS, **LENT, **LIMITED, **READING, **TWICE, **ORDERS, **SYNTHESIS, **ROWS9}
