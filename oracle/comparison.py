"""A comparison of a subject with the oracle: counts, and the kinds of disagreements and partings."""

import collections

import sheetlib
from answers import agree, is_verdict, shape
from features import Features
from ordering import corners, in_order, is_item
from pairs import pair_lines
from shrinking import shrink

# What a whole run must reach.
LEAST = {
    "maps": 200000,
    "accepted by the oracle (01) with an inherited line": 80000,
    "with a word from two or more ancestors with different doms": 30000,
    "refused 9 with two or more rows": 30000,
    "subject: refused 8": 30000,
    "order of lines compared": 80000,
    "order of lines compared, an own and an inherited one with equal parents": 1000,
    "order of lines compared, two or more own ones of one word": 20000,
    "order of lines compared, types that go otherwise by name than by round": 60000,
}
LARGE = 24  # a map of more types is not shrunk, and shown by its sheet


def readable(sheet):
    """The map of a sheet, or None."""
    try:
        return sheetlib.decode(sheet)
    except sheetlib.SheetError:
        return None


def call_of(mode):
    """What the subject is asked in a mode of the oracle."""
    return "order" if mode == "order" else "schedule"


class Comparison:
    """Collects counts, disagreements and partings."""

    def __init__(self, subject, oracle, shrinks):
        self.subject, self.oracle, self.shrinks = subject, oracle, shrinks
        self.counts = collections.Counter()
        self.found = {}    # (what, shapes) -> [count, the smallest sheet and its map]

    def note(self, what, mode, answers, sheet, given):
        """Something to report, with the answers of subject and oracle."""
        key = what, mode, *map(shape, answers)
        entry = self.found.setdefault(key, [0, sheet, given])
        entry[0] += 1
        if (given is None, len(sheet)) < (entry[2] is None, len(entry[1])):
            entry[1:] = [sheet, given]

    def compare_maps(self, labels, given_maps, untouched=1):
        """Compares on maps, each with its label; with the untouched Rust on each `untouched`th."""
        sheets = [sheetlib.encode(given) for given in given_maps]
        answers = self.asked(sheets, given_maps, untouched)
        for label, given, sheet, (mine, theirs) in zip(labels, given_maps, sheets, answers):
            features = Features(given)
            self.counts["of " + label] += 1
            self.counts["maps"] += 1
            self.count(mine["schedule"], theirs["01"], features)
            self.count_order(theirs["01"], given)
            self.compare(mine, theirs, sheet, given, features)

    def compare_sheets(self, label, sheets):
        """Compares on sheets that need not be readable."""
        given_maps = [readable(sheet) for sheet in sheets]
        for sheet, given, (mine, theirs) in zip(sheets, given_maps, self.asked(sheets, given_maps)):
            self.counts["of " + label] += 1
            self.counts["sheets, listed or damaged"] += 1
            self.counts["listed or damaged: " + shape(mine["schedule"])] += 1
            self.compare(mine, theirs, sheet, given, Features(given) if given else None)

    def told(self, mode, sheets, given_maps):
        """The answers of the oracle, the lines of each in order."""
        answers = self.oracle.ask(mode, sheets)
        return answers if mode == "order" else [in_order(*answer) for answer in zip(answers, given_maps)]

    def asked(self, sheets, given_maps, untouched=1):
        """For each sheet the answers of the subject by call, and those of the oracle by mode; with
        `--duplicates row` only where one overflowed or has an Internal item."""
        out = [({}, {}) for _ in sheets]
        for call in ("order", "schedule"):
            for (mine, _), lines in zip(out, self.subject.ask(call, sheets)):
                mine[call] = lines
        for mode, step in (("order", 1), ("01", 1), ("rust", untouched)):
            for (_, theirs), lines in zip(out[::step], self.told(mode, sheets[::step], given_maps[::step])):
                theirs[mode] = lines
        for mode in ("01", "rust"):
            want = [at for at, (_, theirs) in enumerate(out)
                    if theirs.get(mode, [])[:1] == ["overflow"] or "D internal" in theirs.get(mode, [])]
            again = self.told(mode + " rows", [sheets[at] for at in want], [given_maps[at] for at in want])
            for at, lines in zip(want, again):
                out[at][1][mode + " rows"] = lines
        return out

    def compare(self, mine, theirs, sheet, given, features):
        """Counts how the answers to one sheet agree, and notes where they do not."""
        for mode, answer in theirs.items():
            own = mine[call_of(mode)]
            what = self.judge(mode, own, answer, features)
            self.counts[f"{mode}: " + ("agree" if what is None else what)] += 1
            if what is None and any(map(is_item, answer)):
                self.counts[f"{mode}: agree, with lines in order"] += 1
            if what is None and "D internal" in answer:
                self.counts[f"{mode}: agree, with Internal items"] += 1
                what = "Internal items"
            if what is not None:
                self.note(what, mode, (own, answer), sheet, given)

    @staticmethod
    def judge(mode, mine, theirs, features):
        """One answer of each side: the kind of parting, or None."""
        if is_verdict(theirs):
            # Only the text for a duplicate recurses without end.
            expected = theirs[0] != "overflow" or mode in ("01", "rust")
            return theirs[0] if expected else "disagreement"
        if agree(mode, mine, theirs):
            return None
        # What the untouched Rust accepts has one making of each T.r, and has to agree.
        if mode.startswith("rust") and shape(theirs) != "accepted" and features is not None and features.two_makings:
            return "equality by name"
        return "disagreement"

    def count(self, mine, theirs, features):
        """Counts what a map and its answers contain."""
        counts = self.counts
        counts["subject: " + shape(mine)] += 1
        if features.repeated_parents:
            counts["with repeated parents"] += 1
        if features.several_doms:
            counts["with a word from two or more ancestors with different doms"] += 1
        if shape(theirs) == "accepted":
            counts["accepted by the oracle (01)"] += 1
            if features.inherits:
                counts["accepted by the oracle (01) with an inherited line"] += 1
            if features.several_doms:
                counts["accepted by the oracle (01) with different doms"] += 1
        elif shape(mine) == "refused 9" and len(mine) > 2:
            counts["refused 9 with two or more rows"] += 1
        if mine[-1:] == ["more"]:
            counts["with more rows than 256"] += 1

    def count_order(self, theirs, given):
        """Counts what the order of the lines of an accepted map depends on."""
        if shape(theirs) == "accepted" and any(map(is_item, theirs)):
            self.counts["order of lines compared"] += 1
            self.counts.update("order of lines compared, " + what for what in corners(theirs, given))

    def relist(self, pairs):
        """Relisted sheets: the same lines in the same order, or the same refusal."""
        given_maps = [given for pair in pairs for given in pair]
        sheets = [sheetlib.encode(given) for given in given_maps]
        for mode in ("order", "01"):
            for name, answers in (("subject", self.subject.ask(mode, sheets)),
                                  ("oracle", self.told(mode, sheets, given_maps))):
                for sheet, left, right in zip(sheets[::2], answers[::2], answers[1::2]):
                    self.judge_relisted(f"{name} {mode}", left, right, sheet)

    def judge_relisted(self, mode, left, right, sheet):
        """One side's answers to two listings of a map."""
        if is_verdict(left) or is_verdict(right):
            word = "not compared"
        else:
            same = left[:1] == right[:1] if left[:1] in (["refused 8"], ["refused 9"]) else left == right
            word = "same" if same else "not same"
        self.counts[f"relisted pairs, {mode.replace(' ', ', ')}: {word}"] += 1
        if word == "not same":
            self.note("relisting", mode, (left, right), sheet, None)

    def run_pairs(self):
        """Intersection and difference alone on all pairs of kinds."""
        if not self.subject.pairs:
            print("intersection and difference: this subject has no such mode")
            return
        lines = pair_lines()
        theirs = self.oracle.pairs(lines)
        bad = 0
        for line, own, answer in zip(lines, self.subject.pairs(lines), theirs):
            if own != answer:
                bad += 1
                print(f"pair {line}: subject {own}, oracle {answer}")
        kinds = {tuple(part.split()[0] for part in line.split("|")) for line in lines}
        self.counts["pairs of annotations"] = len(lines)
        self.counts["pairs of annotations: kinds"] = len(kinds)
        self.counts["pairs of annotations: disagreement"] = bad

    def bad_like(self, key):
        """A test for sheets: whether they still show the same thing."""
        what, mode, *shapes = key

        def shows(own, answer):
            if [shape(own), shape(answer)] != shapes:
                return False
            if what == "Internal items":
                return "D internal" in answer
            return is_verdict(answer) or not agree(mode, own, answer)

        return lambda sheets: [shows(*answers) for answers in zip(
            self.subject.ask(call_of(mode), sheets), self.told(mode, sheets, list(map(readable, sheets))))]

    def report(self):
        """Prints everything; gives the number of disagreements."""
        for name, count in sorted(self.counts.items()):
            least = f" (in a whole run at least {LEAST[name]})" if name in LEAST else ""
            print(f"{count:9}  {name}{least}")
        left = self.counts["pairs of annotations: disagreement"]
        for key, (count, sheet, given) in sorted(self.found.items(), key=lambda e: e[0]):
            what, mode, mine_shape, theirs_shape = key
            left += count * (what.split()[0] in ("disagreement", "relisting", "panic", "crash"))
            print(f"\n{what}, {mode}: subject {mine_shape}, oracle {theirs_shape}: {count}")
            if what in ("timeout", "memory") or given is None or len(given.types) > LARGE:
                print("  sheet " + sheet[:400].hex() + "..." * (len(sheet) > 400))
            else:
                self.show(key, given)
        return left

    def show(self, key, given):
        """Prints a map, shrunk if it is to be, and what both sides say of it."""
        if self.shrinks:
            given = shrink(given, self.bad_like(key))
        print("".join("    " + line + "\n" for line in sheetlib.to_text(given).splitlines()), end="")
        sheets = [sheetlib.encode(given)]
        print("  subject: " + "; ".join(self.subject.ask(call_of(key[1]), sheets)[0][:12]))
        print("  oracle:  " + "; ".join(self.told(key[1], sheets, [given])[0][:12]))
