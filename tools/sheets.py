"""Sheets for the scripts beside this one: records as trees of values, their calls, and the answers to them.

A value is a tuple that begins with its word: ("text", string), ("none",), ("variant", name), ("wrapped", name, value),
("row", values), ("variant-row", name, values), ("record", name, fields), ("variant-record", name, fields). Fields are
pairs of key and value. A call is a tuple of its word, its argument (None if the word takes none) and the place at which
it stands.
"""

import re
import subprocess

# What is written by an escape: all but printable ASCII, and a space at the end, which an editor may drop.
ESCAPED = re.compile(r"[^ -\[\]-~]| \Z")


def text(string):
    return ("text", string)


def row(*values):
    return ("row", values)


def record(name, *fields):
    return ("record", name, fields)


def place_of(key):
    """The place to which a key leads."""
    if key.startswith("@"):
        return "attribute"
    return {"$text": "text", "$value": "content"}.get(key, "element")


def place_within(value, place):
    """The place of what stands in a value that is taken at a place."""
    at_content = place in ("content", "row item")
    if value[0] == "row":
        return {"element": "element"}.get(place, "row item" if at_content else "item")
    if value[1] == "$text":
        return "simple" if value[0] == "wrapped" else "item"
    return "element"


def value_calls(value, place, calls):
    word = value[0]
    calls.append((word, value[1] if word not in ("none", "row") else None, place))
    if word == "wrapped":
        value_calls(value[2], place_within(value, place), calls)
    elif word in ("row", "variant-row"):
        within = place_within(value, place)
        for item in value[-1]:
            value_calls(item, within, calls)
        calls.append(("end", None, within))
    elif word in ("record", "variant-record"):
        field_calls(value[2], calls)


def field_calls(fields, calls):
    for key, value in fields:
        calls.append(("field", key, "field"))
        value_calls(value, place_of(key), calls)
    calls.append(("end", None, "field"))


def record_calls(root):
    """The calls of a record that stands alone, but for its finish."""
    calls = [("open", root[1], "idle")]
    field_calls(root[2], calls)
    return calls


def escape(string):
    return ESCAPED.sub(lambda m: "".join("\\x%02x" % byte for byte in m[0].encode()), string)


def line(call):
    return call[0] + " " + escape(call[1]) if call[1] else call[0]


def section(settings, calls):
    """A writer of its own: its settings, a line each, and its calls."""
    return "\n".join(["new", *settings, *map(line, calls)]) + "\n"


def run(program, arguments, script):
    """The lines of the program's answer."""
    done = subprocess.run([program, *arguments], input=script.encode(), stdout=subprocess.PIPE, check=True)
    return done.stdout.decode().split("\n")[:-1]


def traces(program, sections):
    """For each section the answers to its calls, as (0, 0) or number and offset, and what the sink then holds.

    Where the style is refused there is one answer and no bytes.
    """
    answers = []
    for said in run(program, ["trace"], "".join(sections)):
        words = said.split(" ")
        if words[0] == "accepted":
            answers.append((0, 0))
        elif words[0] == "refused":
            answers.append((int(words[1]), int(words[2])))
            if words[1] == "10":
                yield answers, None
                answers = []
        elif words[0] == "bytes":
            yield answers, bytes.fromhex(words[1])
            answers = []
