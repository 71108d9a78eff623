#!/usr/bin/env python3
"""Sets the public functions of two checkouts side by side, with their clauses, crate by crate.

Usage: python3 tools/sides.py OLD NEW, two folders. `-` is how a function stood in OLD, `+` how it stands in NEW; a line
without either is the same in both. docs/DESIGN-PASS.md has what it printed for the pass over the design.
"""
import glob
import re
import sys

# One member of a bound may be named by two paths; they count as the same.
SHORTER = {"R.EscapeRule.": "R.", "S.Sink.": "S.", "P.Piece.": "P."}


def shorten(text):
    for long, short in SHORTER.items():
        text = text.replace(long, short)
    return text


def implemented(line):
    """The type that an `impl` line is about, or nothing."""
    if not re.match(r"(impl|trait|pub trait)\b", line):
        return None
    rest = re.sub(r"^(impl|trait|pub trait)\b\s*(<[^>]*>)?\s*", "", line.rstrip("{ "))
    rest = rest.split(" for ")[-1]
    return re.split(r"[<\s:{]", rest)[0]


def signature(lines, start):
    """The lines of a function up to its body."""
    block = []
    for line in lines[start:]:
        text = line.strip()
        if text in ("{", "{}"):
            break
        if text.endswith(("{", "{}", ";")):
            block.append(re.sub(r"\s*(\{\}?|;)$", "", text))
            break
        block.append(text)
    return block


def clauses(block):
    """The signature as one line, and then a line for each clause."""
    out = [""]
    for text in block:
        if re.match(r"(requires|ensures)\b", text):
            out.append(text)
        else:
            out[-1] += " " + text
    return [shorten(re.sub(r",? \)", ")", re.sub(r"\( ", "(", x.strip()))) for x in out]


def public(root):
    found = {}
    for path in sorted(glob.glob(f"{root}/crates/*/src/**/*.rt", recursive=True)):
        if path.endswith("tests.rt"):
            continue
        crate = path[len(root):].split("/crates/")[1].split("/")[0]
        lines = open(path).read().split("\n")
        within = None
        for at, line in enumerate(lines):
            within = implemented(line) or (None if line.startswith("}") else within)
            name = re.match(r"\s*pub fn (\w+)", line)
            if name:
                full = f"{within}::{name.group(1)}" if within else name.group(1)
                found[crate, full] = clauses(signature(lines, at))
    return found


def main():
    old, new = public(sys.argv[1]), public(sys.argv[2])
    listed = [line.split(":")[0] for line in open(f"{sys.argv[2]}/crates.txt") if not line.startswith("#")]
    for crate in listed:
        names = dict.fromkeys([k for k in old if k[0] == crate] + [k for k in new if k[0] == crate])
        changed = [k for k in names if old.get(k) != new.get(k)]
        if not changed:
            continue
        print(f"### {crate}\n\n```text")
        for key in changed:
            was, now = old.get(key, []), new.get(key, [])
            label = key[1].split("::")[0] + ": " if "::" in key[1] else ""
            for mark, here, there in (("-", was, now), ("+", now, was)):
                for i, text in enumerate(here):
                    head = label if i == 0 else ""
                    if text not in there:
                        print(f"{mark} {head}{text}")
                    elif i == 0 and mark == "-":
                        print(f"  {head}{text}")
            print()
        print("```\n")


main()
