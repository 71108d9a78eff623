#!/usr/bin/env python3
"""Spells this repository's own definitions, constructors, fields and lemmas as today's Rattle does.

usage: python3 tools/respell.py        once, at the top, after the kit's port.py

Words are in snake case, types and facts in camel case. A dash stays where it joins a function to what it is taken of
(`length-laid`) or to an operator (`led-++`). Names that Rattle makes of the code, as goals and steps, keep their
dashes, and so does everything in strings, characters and comments. Must-fail edits and the code words of pages follow.
"""

import collections
import os
import re
import sys

# A word of the logic: anything but spaces, brackets, dots, commas and the like.
WORD = re.compile(r"[^\s(){}\[\],;.\"`|]+")
DEFINES = re.compile(r"\s*(?:abbrev |unfoldable )*(?:pub )?(?:record |data )?([^\s(){}\[\]:.,;]+)(?: [^:]*)? : ")
JOINED = re.compile(r"(?:length|take|drop)-\w+$|laid-laid$")
# A fact that was in lower case: the file, and its words there.
FACTS = [
    ("crates/engine/specs/Lays.antt", re.compile(r"^(abbrev pub |)wordy(?= : State| idle t| \()"), r"\1Wordy"),
    ("crates/engine/proofs/Settling.antt", re.compile(r"(Beyond, )wordy(?=\})"), r"\1Wordy"),
]


def spelled(name):
    """Today's spelling of a name."""
    if JOINED.match(name):
        return name
    parts = name.split("-")
    if name[0].isupper():
        return "".join(p[:1].upper() + p[1:] for p in parts)
    out = parts[0]
    for part in parts[1:]:
        out += ("_" if re.match(r"\w", part) else "-") + part
    return out


def files(root, *endings):
    for folder, dirs, names in os.walk(root):
        dirs[:] = sorted(d for d in dirs if d not in ("out", ".git"))
        for name in sorted(names):
            if name.endswith(endings):
                yield os.path.join(folder, name)


def read(path):
    with open(path, encoding="utf-8") as f:
        return f.read()


def made(text):
    """The names in a proof file that Rattle makes: goals, and what is imported from them."""
    out = set()
    for line in text.splitlines():
        m = re.match(r"use \S+\.(?:Goals|Given)\.\{(.*)\}", line)
        if m:
            out |= {w.split(" as ")[-1].strip() for w in m[1].split(",")} | {w.split(" as ")[0].strip() for w in m[1].split(",")}
        m = re.match(r"(?:abbrev )?(?:pub )?(\S+) : goal\.", line)
        if m:
            out.add(m[1])
    return out


def own(root):
    """What the repository defines with a dash: top names and aliases, and fields of records."""
    tops, fields = collections.Counter(), collections.Counter()
    for path in files(os.path.join(root, "crates"), ".antt"):
        text = read(path)
        skip = made(text)
        record = False
        for line in text.splitlines():
            if re.match(r"\S", line):
                record = bool(re.match(r"(?:abbrev |unfoldable )?(?:pub )?record ", line))
                head = True
            else:
                head = False
            for m in re.finditer(r"(?<!Rattle\.std)(?: as )([^\s,}]+)", line if line.startswith("use ") else ""):
                if "-" in m[1]:
                    tops[m[1]] += 1
            m = DEFINES.match(line)
            if not m or "-" not in m[1] or m[1] in skip or line.lstrip().startswith(("use ", "--")):
                continue
            (fields if record and not head else tops)[m[1]] += 1
    return tops, fields


def respell(text, tops, fields, skip, spans):
    """The text with the names of tops and fields spelled anew, within the spans."""
    out, at = [], 0
    for a, b in spans:
        out.append(text[at:a])
        part, last = text[a:b], 0
        for m in WORD.finditer(part):
            out.append(part[last : m.start()])
            word, last = m[0], m.end()
            projected = m.start() > 0 and part[m.start() - 1] == "."
            path = projected and re.search(r"Rattle\.[\w.+]*\.$|\b[A-Z]\.$", part[max(0, m.start() - 120) : m.start()])
            if word in skip or "-" not in word:
                pass
            elif projected and not path:
                word = spelled(word) if word in fields else word
            elif word in tops or word in fields:
                word = spelled(word)
            out.append(word)
        out.append(part[last:])
        at = b
    out.append(text[at:])
    return "".join(out)


def logic_spans(text):
    """A proof or spec file but for its comments and strings."""
    spans, start = [], 0
    for m in re.finditer(r"(?m)(?:^|(?<=\s))--.*$|\"(?:\\.|[^\"\\])*\"", text):
        spans.append((start, m.start()))
        start = m.end()
    return spans + [(start, len(text))]


def code_spans(text):
    """A source file but for its comments, strings and characters."""
    spans, start = [], 0
    for m in re.finditer(r"//[^\n]*|b?\"(?:\\.|[^\"\\])*\"|b?'(?:\\[^\n]*?|[^'\\\n])'(?!\w)", text):
        spans.append((start, m.start()))
        start = m.end()
    return spans + [(start, len(text))]


def page_spans(text):
    """The code words of a page, between backticks."""
    return [(m.start(1), m.end(1)) for m in re.finditer(r"`([^`\n]+)`", text)]


def edit_spans(text):
    """The texts of an edit."""
    inside = logic_spans if ".antt" in text.split("\n")[0] else code_spans
    spans = []
    for m in re.finditer(r"(?m)^(?:old|new): (.*)$", text):
        spans += [(m.start(1) + a, m.start(1) + b) for a, b in inside(m[1])]
    return spans


def main():
    root = os.getcwd()
    if not os.path.isdir(os.path.join(root, "crates")):
        sys.exit("run it at the top of the repository")
    tops, fields = own(root)
    new = collections.defaultdict(set)
    for name in list(tops) + list(fields):
        new[spelled(name)].add(name)
    for word, old in sorted(new.items()):
        if len(old) > 1:
            print("together:", word, *sorted(old))
    changed = 0
    for path in files(root, ".antt", ".rt", ".edit", ".md"):
        text = read(path)
        spans = {"antt": logic_spans, "rt": code_spans, "edit": edit_spans, "md": page_spans}[path.rsplit(".", 1)[1]](text)
        skip = made(text) if path.endswith(".antt") else set()
        words = set(WORD.findall(text))
        turned = respell(text, tops, fields, skip, spans)
        where = os.path.relpath(path, root)
        for name, pattern, to in FACTS:
            if where == name:
                turned = "\n".join(pattern.sub(to, line) for line in turned.split("\n"))
        if path.endswith(".antt"):
            for word in sorted(words & set(new)):
                if any(old in words for old in new[word]):
                    print("meets:", where, word)
        if turned != text:
            changed += 1
            with open(path, "w", encoding="utf-8") as f:
                f.write(turned)
    print(f"{len(tops)} names and {len(fields)} fields, in {changed} files")


if __name__ == "__main__":
    main()
