#!/usr/bin/env python3
"""Holds the writer against the crate that it ports: the same sheets through both programs, compared record by record.

usage: python3 tools/compare.py SHEET_FEED ORACLE [--list FILE COUNT]

SHEET_FEED is the program that `rt run` builds in crates/sheet_feed. ORACLE is a program around the crate's own code: it
reads the same scripts and prints for each section `bytes HEX`, `unsupported`, `malformed` or `error ..`; with the
argument `complete` it supplies what is missing at a section's end.

Compared are the bytes of finished records, and the first refused call where its number is 3 or 5: the crate has to
accept what stands before that call, and to answer `unsupported` with it. Where the two disagree, the first call that
one refuses and the other takes tells the kind, or else the kind of the bytes that differ. What stands before a first
refusal is completed, and its bytes are compared as well. Kinds that docs/DIFFERENCES.md has are counted, each with its
smallest input; any other is a failure, and the exit status is 1.

With --list, about COUNT of the compared records are written to FILE, spread over all families, each with the crate's
answer in a comment behind it: `#= ` where ours is the same, `#! ` where it differs as docs/DIFFERENCES.md says.
crates/compared replays such a list.
"""

import collections
import itertools
import sys
import time

import sheets
from sheet_sets import FAMILIES

BATCH = 10000
# Records of fewer characters, the crate's answer included, may stand in the list.
SHORT = 600
OPENS = ("open", "row", "variant-row", "record", "variant-record")
FINISH = [("finish", None, "complete")]
EQUAL, SAME_REFUSAL = "equal bytes", "the same first refusal, 3 or 5"
AGREED = (EQUAL, SAME_REFUSAL)
KNOWN = {
    "> under Minimal": "`>` in a text under Minimal",
    "indent behind a text": "an indent straight behind a text",
    "> under Minimal, and indent behind a text": "`>` in a text under Minimal, and an indent straight behind a text",
    "empty name": "an empty name is taken by the crate",
    "none in a list": "none as an item of a list is taken by the crate, writing nothing",
    "text in a row refused by the crate": "a row's text item that the crate refuses",
    "text in a row refused here": "a row's text item that the crate takes",
    "text in a row refused by both": "a row's text item that both refuse, here under 4",
    "bounds of memory": "refusal 6, 7, 8 or 9: the crate has no such bounds",
    "style": "a style that is none here",
}
ROW_TEXTS = [kind for kind in KNOWN if kind.startswith("text in a row")]


class Case:
    """A sheet, its calls, and what became of it here."""

    def __init__(self, family, settings, root):
        self.family = family
        self.settings = settings
        self.calls = sheets.record_calls(root)
        self.refused = self.number = self.bytes = None

    def section(self, count=None, more=()):
        return sheets.section(self.settings, [*self.calls[:count], *more])

    def before(self, count, plain=False):
        """The section that ends before a call, completed as the oracle does it."""
        calls = self.calls[:count]
        depth = sum(word in OPENS for word, _, _ in calls) - sum(word == "end" for word, _, _ in calls)
        waits = [("text", "", "")] if calls[-1][0] in ("field", "wrapped") else []
        settings = [] if plain else self.settings
        return sheets.section(settings, [*calls, *waits, *[("end", None, "")] * depth, *FINISH])

    def take(self, answers, held):
        self.bytes = held
        for at, (number, _) in enumerate(answers):
            if number:
                self.refused, self.number = at, number
                return


def crate_answers(oracle, sections, complete=False):
    if not sections:
        return []
    said = sheets.run(oracle, ["complete"] if complete else [], "".join(sections))
    if len(said) != len(sections):
        sys.exit(f"the oracle has {len(said)} answers to {len(sections)} sections")
    return said


def first_refused(oracle, cases):
    """For each case the first call with which the crate answers `unsupported`, and its answer before each call."""
    sections = [c.section(n) for c in cases for n in range(1, len(c.calls) + 1)]
    said = iter(crate_answers(oracle, sections, complete=True))
    for case in cases:
        here = list(itertools.islice(said, len(case.calls)))
        at = next((at for at, answer in enumerate(here) if answer == "unsupported"), None)
        # What is past the first refusal has no answer of its own, and before it all is written.
        clean = all(answer.startswith("bytes ") for answer in here[:at])
        yield at if clean else "error", ["", *here]


def indents_aside(ours, theirs, indent, raw):
    """Whether theirs is ours with indents put in straight behind texts, and nowhere else.

    Where `raw`, each `&gt;` of ours is `>` there: a mark keeps those of texts apart from those of tags.
    """
    at = 0
    marked = ours.replace(b"&gt;", b"\xff") if raw else ours
    for i, byte in enumerate(marked):
        if byte == 60 and i and marked[i - 1] != 62 and theirs[at : at + 1] == b"\n":
            at += 1
            while theirs[at : at + 1] == indent:
                at += 1
        if theirs[at : at + 1] != (b">" if byte == 255 else bytes([byte])):
            return False
        at += 1
    return at == len(theirs)


def kind_of_bytes(settings, ours, theirs):
    if ours == theirs:
        return EQUAL
    # An `&gt;` that was entered is written with `&amp;`, so each one in the output stands for `>`.
    raw = ours.replace(b"&gt;", b">") if "level minimal" in settings else ours
    if raw == theirs:
        return "> under Minimal"
    words = "".join(settings[:1]).split(" ")
    indent = bytes([int(words[2])]) if len(words) > 2 and words[0] == "style" else b""
    if indent and indents_aside(ours, theirs, indent, raw=False):
        return "indent behind a text"
    if indent and raw != ours and indents_aside(ours, theirs, indent, raw=True):
        return "> under Minimal, and indent behind a text"
    return "OTHER BYTES"


def kind_of_refusal(case, crate_at):
    """The kind of a first refusal, here or of the crate, where not both are the same call under 3 or 5."""
    at, number = case.refused, case.number
    if crate_at == "error":
        return "OTHER ERROR OF THE CRATE"
    if number == 10:
        return "style"
    if at is None or (crate_at is not None and crate_at < at):
        word, argument, place = case.calls[crate_at]
        needs = (word == "text" and argument) or argument == "$text"
        return "text in a row refused by the crate" if place == "row item" and needs else "OTHER REFUSAL OF THE CRATE"
    word, argument, place = case.calls[at] if at < len(case.calls) else FINISH[0]
    if number == 4 and place == "row item":
        return "text in a row refused by both" if crate_at == at else "text in a row refused here"
    if number == 5 and argument in ("", "@"):
        return "empty name"
    if number == 3 and word == "none" and place == "item":
        return "none in a list"
    if number in (6, 7, 8, 9):
        return "bounds of memory"
    return f"OTHER REFUSAL {number}"


def behind_texts(feed, rows):
    """For each case whether a text stands last in the record that is open before its call.

    It is asked of our bytes: there the record is completed, unindented, and the ends of records are taken off again.
    """
    made = sheets.traces(feed, [case.before(first, plain=True) for case, first in rows.items()])
    for (case, first), (_, ours) in zip(rows.items(), made, strict=True):
        opens = []
        for word, _, _ in case.calls[:first]:
            if word == "end":
                opens.pop()
            elif word in OPENS:
                opens.append(word)
        for _ in (word for word in opens if "row" not in word):
            # A record without children has no end tag.
            ours = b">" if ours.endswith(b"/>") else ours[: ours.rindex(b"</")]
        yield not ours.endswith(b">")


def kinds_of_refusals(programs, cases):
    """The kind of each case that one of the programs does not take whole."""
    feed, oracle = programs
    to_call = [c for c in cases if c.number in (3, 5)]
    at_call = crate_answers(oracle, [c.section(c.refused + n) for c in to_call for n in (0, 1)], complete=True)
    # Before the first call there is no record that could be completed.
    same = {
        case: (SAME_REFUSAL, case.refused, before)
        for case, before, there in zip(to_call, at_call[::2], at_call[1::2])
        if there == "unsupported" and (before.startswith("bytes ") or case.refused == 0)
    }
    rest = [c for c in cases if c not in same]
    for case, (at, here) in zip(rest, first_refused(oracle, rest)):
        first = min(x for x in (at, case.refused, len(case.calls)) if x is not None and x != "error")
        same[case] = (kind_of_refusal(case, at), first, here[first])
    # What is completed may want memory that there is not, and under a refused style nothing is written.
    begun = [c for c in cases if same[c][1] and same[c][0] not in ("style", "bounds of memory")]
    held = sheets.traces(feed, [c.before(same[c][1]) for c in begun])
    for case, (_, ours) in zip(begun, held, strict=True):
        kind, _, theirs = same[case]
        if not ours or kind_of_bytes(case.settings, ours, bytes.fromhex(theirs[6:])) not in (EQUAL, *KNOWN):
            same[case] = (f"OTHER BYTES before a refusal, and {kind}", None, theirs)
    rows = {case: first for case, (kind, first, _) in same.items() if kind in ROW_TEXTS}
    for case, behind in zip(rows, behind_texts(feed, rows), strict=True):
        if behind != (same[case][0] != "text in a row refused by the crate"):
            same[case] = ("OTHER: a row's text is taken straight behind a text, or refused elsewhere", None, None)
    return {case: kind for case, (kind, _, _) in same.items()}


def judge(programs, cases):
    """The kind of each case, and the crate's answer to its record."""
    feed, oracle = programs
    for case, (answers, held) in zip(cases, sheets.traces(feed, [c.section(more=FINISH) for c in cases]), strict=True):
        case.take(answers, held)
    said = crate_answers(oracle, [c.section() for c in cases])
    whole = {
        case: kind_of_bytes(case.settings, case.bytes, bytes.fromhex(answer[6:]))
        for case, answer in zip(cases, said)
        if case.refused is None and answer.startswith("bytes ")
    }
    part = kinds_of_refusals(programs, [c for c in cases if c not in whole])
    return [(whole.get(c) or part[c], answer) for c, answer in zip(cases, said)]


class Found:
    """Counts of kinds, and the smallest input of each."""

    def __init__(self):
        self.count = collections.Counter()
        self.smallest = {}

    def add(self, kind, case, said):
        self.count[kind] += 1
        if kind in AGREED:
            return
        lines = len(case.calls) + len(case.settings)
        if kind in self.smallest and self.smallest[kind][0] < lines:
            return
        size = (lines, len(case.section()))
        if kind not in self.smallest or size < self.smallest[kind]:
            self.smallest[kind] = (*size, case, said)

    def show(self, kind):
        print(f"  {KNOWN.get(kind, kind)}: {self.count[kind]}, the smallest in '{self.smallest[kind][2].family}':")
        case, said = self.smallest[kind][2:]
        for line in case.section().split("\n")[1:-1]:
            print("    " + line[:70] + ("" if len(line) <= 70 else f".. ({len(line)} characters)"))
        here = f"refusal {case.number} at call {case.refused + 1}" if case.number else case.bytes.decode()
        print(f"   here: {here[:100]!r}")
        print(f"   crate: {said[:6] + repr(bytes.fromhex(said[6:]).decode()[:100]) if said.startswith('bytes ') else said}")


def main():
    if len(sys.argv) not in (3, 6) or (len(sys.argv) == 6 and sys.argv[3] != "--list"):
        sys.exit(__doc__)
    programs = sys.argv[1:3]
    found, kept = Found(), collections.defaultdict(list)
    began = time.time()
    for family, make in FAMILIES.items():
        before = collections.Counter(found.count)
        cases = (Case(family, *x) for x in make())
        while batch := list(itertools.islice(cases, BATCH)):
            for case, (kind, said) in zip(batch, judge(programs, batch)):
                found.add(kind, case, said)
                if len(sys.argv) == 6 and kind in AGREED and len(case.section()) + len(said) < SHORT:
                    kept[family, kind].append((case, said))
        now = found.count - before
        print(f"{family}: {now.total()}, {EQUAL} {now[EQUAL]}, {SAME_REFUSAL} {now[SAME_REFUSAL]}", flush=True)
    print(f"all: {found.count.total()} in {time.time() - began:.0f} s; " + ", ".join(f"{k} {found.count[k]}" for k in AGREED))
    print(f"differing: {found.count.total() - sum(found.count[k] for k in AGREED)}")
    for kind in sorted(found.smallest, key=lambda k: (k in KNOWN, k)):
        found.show(kind)
    if len(sys.argv) == 6:
        write_list(sys.argv[4], int(sys.argv[5]), kept, found.smallest)
    bad = [k for k in found.count if k not in KNOWN and k not in AGREED]
    print("no other kind" if not bad else "NOT KNOWN: " + ", ".join(bad))
    sys.exit(bool(bad))


def listed(case, kind, said):
    """A record for the list, up to the refused call where there is one, and then the crate's answer."""
    if kind == SAME_REFUSAL:
        return case.section(case.refused + 1) + "#= unsupported\n"
    return case.section(more=FINISH) + f"{'#=' if kind in AGREED else '#!'} {said}\n"


def write_list(path, count, kept, smallest):
    """As many records of each family and kind, evenly spaced in their order, and then the smallest known differences."""
    each = -(-count // len(kept))
    with open(path, "w", encoding="ascii") as out:
        for (family, kind), cases in kept.items():
            out.write(f"# {family}: {kind}\n")
            step = max(1, len(cases) // each)
            out.writelines(listed(case, kind, said) for case, said in cases[::step][:each])
        for kind, (_, size, case, said) in smallest.items():
            if kind in KNOWN and size < SHORT:
                out.write(f"# not the same: {KNOWN[kind]}\n" + listed(case, kind, said))


if __name__ == "__main__":
    main()
