#!/usr/bin/env python3
"""Reads records of the writer with expat and with libxml2, and compares what they read with what the calls say.

usage: python3 tools/read_back.py SHEET_FEED [COUNT]

SHEET_FEED is the program that `rt run` builds in crates/sheet_feed; COUNT is 30000 if not given. Records are drawn at
random with a fixed seed, with refused calls among the others and levels that change from call to call. What a record says
is put together here from its accepted calls by docs/RULES.md, "What a record says", and never from the bytes. Drawn are
unindented records of one root, without control characters and without repeated attributes, each in a sink of its own:
these are documents of XML 1.0. expat is Python's own; libxml2 is called as a library, if the machine has it.

A third of the records has names that all editions of XML 1.0 have, and both read them. A third has colons in names: to
libxml2 they are marks of namespaces, which are no part of XML 1.0, so expat alone reads these. A third has names of the
fifth edition, which expat does not know, so libxml2 alone reads these.
"""

import ctypes
import ctypes.util
import random
import sys
import time
import xml.parsers.expat

import sheets
from sheets import row, text

BATCH = 4000
LEVELS = ["full", "partial", "minimal"]
FORMS = ["self-closed", "self-closed-with-space", "expanded"]
# What no place but idle takes, or a place refuses by its shape or its name.
REFUSED = {
    "idle": ["end", "finish", "text a", "field a"],
    "field": ["text a", "field a b", "field 1", "open a", "row", "finish", "field \\xff", "field"],
    "element": ["wrapped w", "variant-row w", "variant-record w", "open a", "finish", "text \\xc3(", "field a"],
    "content": ["variant a b", "wrapped -", "variant-record $text", "record", "finish", "text \\xff"],
    "row item": ["variant a b", "wrapped -", "variant-record $text", "record 1", "finish"],
    "text": ["wrapped w", "variant-row w", "record r", "variant-record r", "field a"],
    "item": ["row", "none", "record r", "wrapped w", "finish"],
}
KINDS = ["plain", "colons", "fifth"]
# The characters that names begin and go on with: in all editions, and in the fifth alone.
PLAIN_NAMES = ["abZ_é\u03c9\u05d0\u4e00", "a0-._é\u03c9\u0301\u4e00\u00b7"]
FIFTH_NAMES = ["\u2c00\u037f\U00010000\U000effff\u200c", "\u203f\U0001f5fa\U000effff\u200d"]
REFUSED["simple"] = REFUSED["attribute"] = REFUSED["text"]
REFUSED["complete"] = ["open a", "end", "field a", "text a"]


class Node:
    """An element: its name, attributes in their order, and children, in which neighbouring texts are one."""

    def __init__(self, name):
        self.name, self.attributes, self.children = name, [], []

    def add(self, string):
        if string and self.children and isinstance(self.children[-1], str):
            self.children[-1] += string
        elif string:
            self.children.append(string)

    def begin(self, name):
        self.children.append(Node(name))
        return self.children[-1]

    def tree(self):
        """As values that compare, without recursion: a deep tree is no problem of the reader's."""
        out, rest = [], [self]
        while rest:
            node = rest.pop()
            if isinstance(node, Node):
                out.append(("element", node.name, tuple(node.attributes)))
                rest += ["", *reversed(node.children)]
            else:
                out.append(("text", node) if node else ("end",))
        return out


class Says:
    """What a record says, call by call."""

    def __init__(self):
        self.root = None
        self.open = []  # pairs of kind and what is open: record, named row, row, list
        self.waits = None  # the place of a field or a wrapped that has no value yet

    def node(self):
        return next(what for kind, what in reversed(self.open) if kind == "record")

    def take(self, word, argument):
        if word == "open":
            self.root = Node(argument)
            self.open.append(("record", self.root))
        elif word == "field":
            self.waits = (sheets.place_of(argument), argument.removeprefix("@"))
        elif word == "end":
            self.end()
        elif word != "finish":
            place, name = self.waits or self.place_of_item()
            self.waits = None
            getattr(self, "at_" + place)(word, argument, name)

    def place_of_item(self):
        kind, what = self.open[-1]
        return {"named": ("element", what), "row": ("content", None), "list": ("item", None)}[kind]

    def end(self):
        kind, what = self.open.pop()
        if kind == "list":
            place, name, items = what
            self.write(place, name, " ".join(items))

    def write(self, place, name, string):
        if place == "attribute":
            self.node().attributes.append((name, string))
        else:
            self.node().add(string)

    def at_element(self, word, argument, name):
        if word == "row":
            self.open.append(("named", name))
            return
        node = self.node().begin(name)
        if word == "record":
            self.open.append(("record", node))
        elif word == "text" or (word == "variant" and argument != "$text"):
            node.add(argument)

    def at_content(self, word, argument, _):
        if word == "text":
            self.node().add(argument)
        elif word == "row":
            self.open.append(("row", None))
        elif word in ("record", "variant-record"):
            self.open.append(("record", self.node().begin(argument)))
        elif word == "wrapped":
            self.waits = ("simple", None) if argument == "$text" else ("element", argument)
        elif word == "variant-row":
            self.open.append(("list", ("simple", None, [])) if argument == "$text" else ("named", argument))
        elif word == "variant" and argument != "$text":
            self.node().begin(argument)

    def at_text(self, word, argument, name):
        self.at_simple(word, "" if (word, argument) == ("variant", "$text") else argument, name)

    def at_simple(self, word, argument, name, place="simple"):
        if word == "row":
            self.open.append(("list", (place, name, [])))
        else:
            self.write(place, name, "" if word == "none" else argument)

    def at_attribute(self, word, argument, name):
        self.at_simple(word, argument, name, "attribute")

    def at_item(self, word, argument, _):
        if argument:
            self.open[-1][1][2].append(argument)


class Draws:
    """Random records that mostly are taken."""

    def __init__(self, seed):
        self.draw = random.Random(seed)
        self.letters = ["", ""]

    def begin(self, kind):
        """The characters that names may begin and go on with."""
        more = {"plain": ("", ""), "colons": ("::", "::"), "fifth": FIFTH_NAMES}[kind]
        self.letters = [x + y for x, y in zip(PLAIN_NAMES, more)]

    def name(self):
        first, more = self.letters
        return self.draw.choice(first) + "".join(self.draw.choices(more, k=self.draw.choice([0, 0, 1, 2, 5])))

    def string(self):
        draw = self.draw
        letters = draw.choice(["<>'&\"\t\n\r ]ab", "ab c", "<>&;#ltamp", " \t\n\r", "é]>\u0085\u2028\ufffd\U0001f5fa a\x7f"])
        return "".join(draw.choices(letters, k=draw.choice([0, 0, 1, 1, 2, 3, 5, 8, 30])))

    def fields(self, depth):
        out, used = [], set()
        for _ in range(self.draw.choice([0, 1, 2, 3, 4])):
            key = self.draw.choice([self.name(), self.name(), "@" + self.name(), "@" + self.name(), "$text", "$value"])
            if key not in used or not key.startswith("@"):
                used.add(key)
                out.append((key, self.value(sheets.place_of(key), depth - 1)))
        return out

    def items(self, place, depth):
        return [self.value(place, depth - 1) for _ in range(self.draw.choice([0, 1, 2, 3, 5]))]

    def value(self, place, depth):
        draw = self.draw
        kinds = {"item": "ttv", "element": "ttnvrRR", "content": "tnvwwrrssRV", "row item": "tnvvwwrsRV"}
        kind = draw.choice(kinds.get(place, "tttnvr"))
        if depth <= 0 and kind in "wrsRV":
            kind = "t"
        if kind in "tnv":
            return {"t": text(self.string()), "n": ("none",), "v": ("variant", self.variant(place))}[kind]
        # A row's item that a text precedes would be refused and its end end something else, so there it is no text.
        name = "$text" if place == "content" and draw.random() < 0.2 else self.name()
        if kind in "RV":
            return ("record" if kind == "R" else "variant-record", self.name(), self.fields(depth))
        shape = {"r": "row", "w": "wrapped", "s": "variant-row"}[kind]
        within = sheets.place_within((shape, name), place)
        if kind == "r":
            return row(*self.items(within, depth))
        return (shape, name, self.value(within, depth - 1) if kind == "w" else self.items(within, depth))

    def variant(self, place):
        if self.draw.random() < 0.15:
            return "$text"
        return self.name() if place in ("content", "row item") else self.string()

    def lines(self):
        """The lines of a record with others among them, and for each call its word and argument; those refused have none."""
        calls = sheets.record_calls(("record", self.name(), self.fields(self.draw.choice([2, 3, 5, 9]))))
        lines, told = [], []
        for word, argument, place in [*calls, ("finish", None, "complete")]:
            if self.draw.random() < 0.1:
                lines.append("level " + self.draw.choice(LEVELS))
            if self.draw.random() < 0.08:
                lines.append(self.draw.choice(REFUSED[place]))
                told.append((None, None))
            lines.append(sheets.line((word, argument)))
            told.append((word, argument))
        return ["new", "style " + self.draw.choice(FORMS), *lines], told


def read_by_expat(document):
    parser = xml.parsers.expat.ParserCreate()
    parser.ordered_attributes = True
    roots, nodes = [], []

    def start(name, attributes):
        node = nodes[-1].begin(name) if nodes else Node(name)
        node.attributes += zip(attributes[::2], attributes[1::2])
        roots.append(node)
        nodes.append(node)

    parser.StartElementHandler = start
    parser.EndElementHandler = lambda _: nodes.pop()
    parser.CharacterDataHandler = lambda string: nodes[-1].add(string)
    try:
        parser.Parse(document, True)
    except xml.parsers.expat.ExpatError as error:
        return str(error)
    return roots[0].tree()


class Libxml2:
    """libxml2's reader: an event for each start, text and end."""

    OPTIONS = 1 << 11 | 1 << 6 | 1 << 5  # no network, no messages

    def __init__(self, name):
        self.lib = ctypes.CDLL(name)
        self.lib.xmlReaderForMemory.restype = ctypes.c_void_p
        for function in ("ConstName", "ConstValue"):
            getattr(self.lib, "xmlTextReader" + function).restype = ctypes.c_char_p

    def ask(self, function, reader):
        value = getattr(self.lib, "xmlTextReader" + function)(reader)
        return value.decode() if isinstance(value, bytes) else value

    def start(self, reader, nodes):
        name = self.ask("ConstName", reader)
        empty = self.ask("IsEmptyElement", reader)
        node = nodes[-1].begin(name) if nodes else Node(name)
        while self.ask("MoveToNextAttribute", reader) == 1:
            node.attributes.append((self.ask("ConstName", reader), self.ask("ConstValue", reader)))
        if not empty:
            nodes.append(node)
        return node

    def read(self, document):
        reader = ctypes.c_void_p(self.lib.xmlReaderForMemory(document, len(document), None, b"UTF-8", self.OPTIONS))
        root, nodes = None, []
        while (status := self.ask("Read", reader)) == 1:
            kind = self.ask("NodeType", reader)
            if kind == 1:
                node = self.start(reader, nodes)
                root = root or node
            elif kind == 15:
                nodes.pop()
            elif kind in (3, 13, 14):
                nodes[-1].add(self.ask("ConstValue", reader))
            else:
                status = f"a node of type {kind}"
                break
        self.lib.xmlFreeTextReader(reader)
        return root.tree() if status == 0 else f"error {status}"


def main():
    if len(sys.argv) not in (2, 3):
        sys.exit(__doc__)
    count = int(sys.argv[2]) if len(sys.argv) == 3 else 30000
    found = ctypes.util.find_library("xml2")
    libxml2 = Libxml2(found) if found else None
    began, draws = time.time(), Draws(7)
    done = {"drawn": 0, "calls": 0, "refused calls": 0, "not finished": 0, "expat": 0, "libxml2": 0}
    failed = []
    while done["drawn"] < count:
        kinds = draws.draw.choices(KINDS, k=min(BATCH, count - done["drawn"]))
        check(sys.argv[1], draws, kinds, libxml2, done, failed)
    print(", ".join(f"{n} {k}" for k, n in done.items() if k not in ("expat", "libxml2")) + f", in {time.time() - began:.0f} s")
    print(f"read as they say by expat {xml.parsers.expat.EXPAT_VERSION}: {done['expat']}")
    print(f"read as they say by {found}: {done['libxml2']}" if found else "libxml2 is not here")
    for reader, lines, document, said, read in failed[:5]:
        print(f"{reader} reads otherwise: {document!r}\n  says {said}\n  read {read}\n  " + "\n  ".join(lines))
    print(f"{len(failed)} failed")
    sys.exit(bool(failed))


def check(program, draws, kinds, libxml2, done, failed):
    """A batch of records, made and read; a reader that reads otherwise is put into failed."""
    drawn = []
    for kind in kinds:
        draws.begin(kind)
        drawn.append((kind, *draws.lines()))
    made = sheets.traces(program, ["\n".join(lines) + "\n" for _, lines, _ in drawn])
    for (kind, lines, told), (answers, document) in zip(drawn, made, strict=True):
        done["drawn"] += 1
        done["calls"] += len(answers)
        done["refused calls"] += sum(number != 0 for number, _ in answers)
        if not document:
            done["not finished"] += 1
            continue
        says = Says()
        for (word, argument), (number, _) in zip(told, answers, strict=True):
            if number == 0:
                says.take(word, argument)
        said = says.root.tree()
        readers = [("expat", read_by_expat)] if kind != "fifth" else []
        if libxml2 and kind != "colons":
            readers.append(("libxml2", libxml2.read))
        for name, read in readers:
            got = read(document)
            if got == said:
                done[name] += 1
            else:
                failed.append((name, lines, document, said, got))


if __name__ == "__main__":
    main()
