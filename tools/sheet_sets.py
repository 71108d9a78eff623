"""The sheets that compare.py compares: families of pairs of settings and a root record.

Short sheets are listed exhaustively; long ones are drawn at random with a fixed seed.
"""

import itertools
import random

from sheets import record, row, text

FORMS = ["self-closed", "self-closed-with-space", "expanded"]
INDENTS = ["", " 32 2", " 9 1", " 32 0", " 9 16"]
LEVELS = ["full", "partial", "minimal"]
SPECIAL = "<>'&\"\t\n\r "
# Where the ranges of productions 4 and 4a begin and end.
RANGES = [
    (0x3A, 0x3A), (0x41, 0x5A), (0x5F, 0x5F), (0x61, 0x7A), (0xC0, 0xD6), (0xD8, 0xF6), (0xF8, 0x2FF), (0x370, 0x37D),
    (0x37F, 0x1FFF), (0x200C, 0x200D), (0x2070, 0x218F), (0x2C00, 0x2FEF), (0x3001, 0xD7FF), (0xF900, 0xFDCF),
    (0xFDF0, 0xFFFD), (0x10000, 0xEFFFF), (0x2D, 0x2D), (0x2E, 0x2E), (0x30, 0x39), (0xB7, 0xB7), (0x300, 0x36F),
    (0x203F, 0x2040),
]  # fmt: skip
A, EMPTY, NONE, V = text("a"), text(""), ("none",), ("variant", "v")
NO_TEXT = ("variant", "$text")


def settings(form=FORMS[0], indent="", level=LEVELS[1]):
    """Only the lines that are no default."""
    out = [] if (form, indent) == (FORMS[0], "") else [f"style {form}{indent}"]
    return out if level == LEVELS[1] else [*out, f"level {level}"]


ALL_SETTINGS = [settings(*x) for x in itertools.product(FORMS, INDENTS, LEVELS)]
PLAIN = settings()
SPACED = settings(indent=INDENTS[1])


def sheet(*fields):
    return record("s", *fields)


# Every place, with a value at it: with nothing else, and behind what may change what is done there.
PLACES = {
    "element": lambda v: sheet(("k", v)),
    "element behind an attribute": lambda v: sheet(("k", A), ("@a", A), ("k", v)),
    "element behind a text": lambda v: sheet(("$text", A), ("k", v)),
    "text": lambda v: sheet(("$text", v)),
    "text behind an element": lambda v: sheet(("k", A), ("$text", v), ("k", A)),
    "content": lambda v: sheet(("$value", v)),
    "content behind an element": lambda v: sheet(("k", A), ("$value", v), ("k", A)),
    "content behind a text": lambda v: sheet(("$text", A), ("$value", v), ("k", A)),
    "attribute": lambda v: sheet(("@a", v)),
    "attribute behind children": lambda v: sheet(("@b", A), ("k", A), ("@a", v)),
    "simple": lambda v: sheet(("$value", ("wrapped", "$text", v))),
    "wrapped element": lambda v: sheet(("$value", ("wrapped", "w", v))),
    "item of a named row": lambda v: sheet(("k", row(v))),
    "later item of a named row": lambda v: sheet(("k", row(A, v, A))),
    "item of a row": lambda v: sheet(("$value", row(v))),
    "item of a row behind an element": lambda v: sheet(("$value", row(V, v, V))),
    "item of a row behind a text": lambda v: sheet(("$value", row(EMPTY, A, v, V))),
    "item of a row behind none": lambda v: sheet(("$value", row(NONE, v, V))),
    "item of a row behind nothing": lambda v: sheet(("$value", row(NO_TEXT, v, V))),
    "item of a text": lambda v: sheet(("$text", row(v, A))),
    "later item of a text": lambda v: sheet(("$text", row(A, EMPTY, v))),
    "item of an attribute": lambda v: sheet(("@a", row(v, A))),
    "later item of an attribute": lambda v: sheet(("@a", row(A, EMPTY, v))),
    "item at the simple place": lambda v: sheet(("$value", ("wrapped", "$text", row(v, v)))),
    "item of a variant row that is a text": lambda v: sheet(("$value", ("variant-row", "$text", [A, v]))),
    "item of a variant row": lambda v: sheet(("$value", ("variant-row", "w", [v, A]))),
    "field of a record": lambda v: sheet(("k", record("r", ("@a", A), ("k", v)))),
    "content of a record": lambda v: sheet(("$value", record("r", ("$value", v), ("@a", A)))),
    "content of a variant record": lambda v: sheet(("$value", ("variant-record", "r", [("$value", v), ("k", A)]))),
    "field of a record in a row": lambda v: sheet(("$value", row(record("r", ("k", v)), V))),
    "text of a record in a named row": lambda v: sheet(("k", row(record("r", ("$text", v)), EMPTY))),
}  # fmt: skip

ATOMS = [A, EMPTY, NONE, V, NO_TEXT, text(" <&>'\"\t\n\r]]>"), ("variant", ""), ("variant", "a b"), ("variant", "-a")]
ATOMS += [("variant", "<&> \"'"), ("variant", "$value"), text("$text")]
FEW = [A, EMPTY, NONE, V, NO_TEXT]
NAMES = ["w", "$text", "", "a b", "$value"]


def shallow_values():
    """Every kind of value, with every name and few values in it."""
    yield from ATOMS
    for name in NAMES:
        yield from (("wrapped", name, v) for v in ATOMS)
        yield from (("wrapped", name, row(*x)) for x in short_lists(FEW, 1))
        yield from (("variant-row", name, list(x)) for x in short_lists(FEW, 2))
        for fields in [[], [("k", A)], [("@a", A)], [("$text", A)], [("$value", V)], [("k", NONE), ("@a", EMPTY)]]:
            yield record(name, *fields)
            yield ("variant-record", name, fields)
        for inner in NAMES:
            yield ("wrapped", name, ("wrapped", inner, A))
            yield ("wrapped", name, ("variant-row", inner, [A]))
    yield from (row(*x) for x in short_lists(FEW, 2))
    yield from (row(("wrapped", n, v)) for n in NAMES for v in FEW)
    yield from (row(x, record("r", ("k", A))) for x in FEW)


def short_lists(values, length):
    for n in range(length + 1):
        yield from itertools.product(values, repeat=n)


def values_at_places():
    """Every shallow value at every place, with every setting for the first values."""
    values = list(shallow_values())
    for make in PLACES.values():
        for v in values:
            yield PLAIN, make(v)
            yield SPACED, make(v)
        for v in ATOMS + [row(), row(A, V), record("r"), ("wrapped", "w", A), ("variant-row", "w", [A, EMPTY])]:
            yield from ((s, make(v)) for s in ALL_SETTINGS)


def keys():
    """Every kind of key, alone and behind a field of another kind."""
    good = ["k", "$text", "$value", "@a"]
    for key in [*good, "", "@", "@@", "@1", "1", "a b", "@a b", "$", "$texts", "@$text", "@$value", "$text ", "k@", "é"]:
        for v in [A, EMPTY, NONE, V, NO_TEXT, row(V), record("r"), ("wrapped", "$text", A)]:
            for s in (PLAIN, SPACED):
                yield s, sheet((key, v))
                yield from ((s, sheet((other, w), (key, v))) for other in good for w in [A, EMPTY, NONE])
    yield from ((PLAIN, record(name, ("k", A))) for name in ["", "$text", "$value", "a b", "1", "@a", "k"])


# Fields that differ in what they write and whether an indent may follow.
MARKS = [("k", A), ("k", EMPTY), ("k", row()), ("k", row(EMPTY, A)), ("k", row(row(), record("r", ("k", A))))]
MARKS += [("k", record("r")), ("k", record("r", ("k", NONE))), ("k", record("r", ("$text", A), ("k", NONE)))]
MARKS += [("$text", v) for v in [A, EMPTY, NONE, NO_TEXT, row(), row(A, A)]]
MARKS += [("$value", v) for v in [A, EMPTY, NONE, NO_TEXT, V, row(), row(V), row(NONE), row(NO_TEXT, V), row(row(V), V)]]
MARKS += [("$value", ("wrapped", "$text", v)) for v in [A, EMPTY, row()]] + [("$value", ("wrapped", "w", A))]
MARKS += [("$value", ("variant-row", "$text", [A])), ("$value", ("variant-row", "w", []))]
MARKS += [("$value", ("variant-row", "w", [A, NONE])), ("$value", record("r", ("k", A))), ("@a", A)]
MARKS += [("$value", ("variant-record", "r", [("$text", A), ("$value", row())]))]


def marks():
    """Up to three fields one after another, and what indents come of it."""
    for field in MARKS:
        yield settings(indent=INDENTS[1], level="minimal"), sheet(("$text", text(">")), field)
    for fields in short_lists(MARKS, 3):
        yield SPACED, sheet(*fields)
    for fields in short_lists(MARKS, 2):
        yield PLAIN, sheet(*fields)
        yield from ((settings(f, i), sheet(*fields)) for f, i in zip(FORMS[1:], INDENTS[2:]))
        yield SPACED, sheet(("k", record("r", *fields)), ("k", A))
        yield SPACED, sheet(("$value", row(record("r", *fields), V)))
        yield SPACED, sheet(("k", row(record("r", *fields), A)))


def rows():
    """Rows in rows to depth three, of values that need no permission and of others."""
    for x in short_lists(FEW, 4):
        yield PLAIN, sheet(("$value", row(*x)))
    for atoms in ([V, NONE, NO_TEXT, EMPTY], [A, V, NONE]):
        first = [row(*x) for x in short_lists(atoms, 2)]
        second = [row(*x) for x in short_lists(atoms + first, 2)]
        third = [row(x) for x in second] + [row(*x) for v in atoms for w in second for x in ((v, w), (w, v))]
        for v in [*first, *second, *third]:
            for s in (PLAIN, SPACED):
                yield s, sheet(("$value", v))
                yield s, sheet(("k", v))
        for v in [*first, *second]:
            yield SPACED, sheet(("$text", A), ("$value", v), ("k", A))
            yield SPACED, sheet(("$value", row(v, ("wrapped", "w", v), V)))
            yield PLAIN, sheet(("@a", v), ("$text", v))


# Every place where a string is written, with the string at it.
USES = [
    lambda t: sheet(("k", text(t))),
    lambda t: sheet(("k", ("variant", t))),
    lambda t: sheet(("$text", text(t))),
    lambda t: sheet(("$text", ("variant", t))),
    lambda t: sheet(("$value", text(t))),
    lambda t: sheet(("$value", ("wrapped", "$text", ("variant", t)))),
    lambda t: sheet(("@a", text(t))),
    lambda t: sheet(("@a", ("variant", t))),
    lambda t: sheet(("$text", row(text(t), ("variant", t)))),
    lambda t: sheet(("@a", row(text(t), ("variant", t)))),
    lambda t: sheet(("$value", ("variant-row", "$text", [A, text(t)]))),
]


def strings():
    """Every byte of ASCII, and short strings of special bytes, at every use and level."""
    some = [chr(b) for b in range(128)] + ["".join(x) for x in itertools.product(SPECIAL + "a]\0;", repeat=2)]
    some += ["".join(x) for x in itertools.product("]>&<a", repeat=3)]
    some += ["&lt;", "&amp;amp;", "&#13;", "é<é", "\u0085", "\u2028", "\ufffe", "\U0010ffff", "a\r\nb", "]]>]]>"]
    for t in some:
        for level in LEVELS:
            yield from ((settings(level=level), use(t)) for use in USES)


# Every place where a name is written, with the name at it.
NAMED = [
    lambda n: record(n),
    lambda n: sheet((n, EMPTY)),
    lambda n: sheet(("@" + n, EMPTY)),
    lambda n: sheet(("$value", ("variant", n))),
    lambda n: sheet(("$value", ("wrapped", n, A))),
    lambda n: sheet(("$value", ("variant-row", n, [A]))),
    lambda n: sheet(("$value", record(n))),
    lambda n: sheet(("$value", ("variant-record", n, [("k", A)]))),
    lambda n: sheet(("k", record(n))),
    lambda n: sheet(("$value", row(("variant", n)))),
]


def names():
    """Names around the ends of each range of production 5, and all short ones of some characters."""
    ends = {c for pair in RANGES for end in pair for c in (end - 1, end, end + 1)} | set(range(0x400)) | {0x10FFFF}
    for c in sorted(c for c in ends if not 0xD800 <= c < 0xE000):
        uses = NAMED if c not in range(0x80, 0x400) else NAMED[:4]
        yield from ((PLAIN, use(n)) for n in (chr(c), "a" + chr(c), "a" + chr(c) + "b") for use in uses)
    for n in short_lists("a1-:. $@é", 3):
        yield from ((PLAIN, use("".join(n))) for use in NAMED)
    draw = random.Random(5)
    for _ in range(4000):
        n = "".join(chr(draw.choice(RANGES)[draw.random() < 0.5] + draw.choice([0, 0, 0, 0, 0, 1, -1])) for _ in range(draw.randint(1, 9)))
        if not any(0xD800 <= ord(c) < 0xE000 for c in n):
            yield PLAIN, draw.choice(NAMED)(n)


def lengths():
    """Every length up to 300 of strings, names, lists, rows and nests of up to 60 records, and long ones."""
    for n in [*range(301), 1000, 4000, 4095, 9999, 60000]:
        for use in USES if n <= 300 else USES[:4]:
            yield SPACED, use("b" * n)
            yield settings(level="full"), use("<>'&\""[n % 5] * (n if n < 301 else n // 6))
        if n <= 300:
            yield PLAIN, sheet(("n" * (n + 1), A), ("@" + "n" * (n + 1), row(*[A] * n)))
            yield SPACED, sheet(("$value", row(*[V] * n)), ("k", row(*[A] * n)))
            yield SPACED, sheet(*[("k", A)] * n)
    for n in range(60):
        nest, deep = sheet(("k", A)), row(V)
        for _ in range(n):
            nest, deep = record("r", ("k", nest)), row(deep)
        for s in ALL_SETTINGS[::3]:
            yield s, nest
            yield s, sheet(("$value", deep))


def bounds():
    """Around the sizes of the memories, and styles that are none here: the crate has no such bounds."""
    for n in range(60, 68):
        nest = sheet()
        for _ in range(n - 1):
            nest = record("r", ("k", nest))
        yield PLAIN, nest
    for n in (4094, 4095, 4096, 4097):
        yield PLAIN, sheet(("k" * n, A))
    for n in range(65536 - 20, 65536 + 2):
        yield PLAIN, sheet(("k", text("a" * n)))
    for style in ("120 2", "32 17", "10 1"):
        yield [f"style self-closed {style}"], sheet(("k", A))


class Draws:
    """Random values."""

    def __init__(self, seed):
        self.draw = random.Random(seed)

    def string(self):
        draw = self.draw
        if draw.random() < 0.15:
            return ""
        letters = draw.choice([SPECIAL + "ab]", "abc", SPECIAL, "a é]>\u2028\U0001f5fa", "".join(map(chr, range(1, 127)))])
        return "".join(draw.choices(letters, k=draw.choice([1, 2, 3, 5, 8, 40])))

    def name(self):
        draw = self.draw
        if draw.random() < 0.03:
            return draw.choice(["", "a b", "1", "@", "$text", "$value", "-", "a<", "\ufffe"])
        return draw.choice("abc_:é") + "".join(draw.choices("ab1-._:é\u0301\U00010400", k=draw.choice([0, 0, 1, 2, 6])))

    def key(self):
        return self.draw.choice([self.name(), self.name(), "@" + self.name(), "$text", "$value", "$value"])

    def fields(self, depth):
        return [(k, self.value(place_like(k), depth - 1)) for k in (self.key() for _ in range(self.draw.choice([0, 1, 2, 3, 5])))]

    def items(self, place, depth):
        return [self.value(place, depth - 1) for _ in range(self.draw.choice([0, 1, 2, 2, 3, 6]))]

    def value(self, place, depth):
        """Mostly one that the place takes."""
        draw = self.draw
        kinds = {"simple": "tttnvr", "item": "ttttv", "element": "tttnvrrRR", "content": "tnvvwwrrssRV", "row": "nvvwwrsRV"}[place]
        kind = draw.choice(kinds if draw.random() < 0.97 else "tnvwrsRV")
        if depth <= 0 and kind in "wrsRV":
            kind = "v"
        within = {"content": "row", "row": "row", "element": "element"}.get(place, "item")
        if kind == "t":
            return text(self.string())
        if kind == "n":
            return NONE
        if kind == "v":
            return ("variant", draw.choice([self.name(), self.name(), self.name(), "$text"]))
        if kind == "r":
            return row(*self.items(within, depth))
        name = "$text" if draw.random() < 0.15 and kind in "ws" and place == "content" else self.name()
        if kind == "w":
            return ("wrapped", name, self.value("simple" if name == "$text" else "element", depth - 1))
        if kind == "s":
            return ("variant-row", name, self.items("item" if name == "$text" else "element", depth))
        return ("record" if kind == "R" else "variant-record", name, self.fields(depth))


def place_like(key):
    return {"$value": "content", "$text": "simple"}.get(key, "simple" if key.startswith("@") else "element")


def drawn(count, seed=42):
    draws = Draws(seed)
    for _ in range(count):
        root = record(draws.name(), *draws.fields(draws.draw.choice([1, 2, 3, 4, 6])))
        yield draws.draw.choice([PLAIN, SPACED, draws.draw.choice(ALL_SETTINGS)]), root


FAMILIES = {
    "values at places": values_at_places,
    "keys": keys,
    "fields and indents": marks,
    "rows in rows": rows,
    "strings": strings,
    "names": names,
    "lengths": lengths,
    "bounds": bounds,
    "drawn": lambda: drawn(300000),
}
