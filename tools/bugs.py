#!/usr/bin/env python3
"""Prints the table of planted bugs in docs/BUGS.md: every must-fail edit of code, crate by crate, as Markdown.

Usage: python3 tools/bugs.py > table, at the top of the repository. The gate tries each of them.
"""
import pathlib

ROOT = pathlib.Path(__file__).resolve().parent.parent


def read_edit(path):
    pairs = [line.split(":", 1) for line in path.read_text().splitlines() if ":" in line]
    return {key: value.strip() for key, value in pairs if key in ("file", "old", "new")}


def cell(text):
    return "`" + text.replace("|", "\\|") + "`"


def main():
    crates = [line.split(":")[0].split()[0] for line in (ROOT / "crates.txt").read_text().splitlines() if line[:1] not in ("#", "")]
    for crate in crates:
        edits = sorted((ROOT / "crates" / crate / "must-fail").glob("*.edit"))
        rows = [(path.stem, read_edit(path)) for path in edits]
        rows = [(name, edit) for name, edit in rows if edit["file"].startswith("src/")]
        if not rows:
            continue
        print(f"### {crate}\n\n| Bug | File | Stands | Planted |\n|---|---|---|---|")
        for name, edit in rows:
            print(f"| {name.replace('_', ' ')} | {edit['file'][4:]} | {cell(edit['old'])} | {cell(edit['new'])} |")
        print()


if __name__ == "__main__":
    main()
