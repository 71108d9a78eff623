#!/usr/bin/env python3
"""Tries the slips that the checker refuses before anything is proved: crates/NAME/must-fail/*.md.

Usage: python3 tools/slips.py, anywhere in the repository. A slip is a text with the lines `file:`, `old:`, `new:` and
`refused:`: in a copy of the repository the old text, which stands once in the file, becomes the new one, and the check of
the crate has to end with an error of the kind named. As must-fail/*.edit such a text would prove nothing of a contract.
"""
import pathlib
import shutil
import subprocess
import sys
import tempfile

ROOT = pathlib.Path(__file__).resolve().parent.parent


def read_slip(path):
    lines = (line.split(": ", 1) for line in path.read_text().splitlines() if ": " in line)
    return {key: value for key, value in lines if key in ("file", "old", "new", "refused")}


def refused(path, copy):
    """Whether the check refuses the slip as it says."""
    slip = read_slip(path)
    crate = copy / path.relative_to(ROOT).parent.parent
    source = crate / slip["file"]
    text = source.read_text()
    if text.count(slip["old"]) != 1:
        print(f"{path.name}: its old text stands {text.count(slip['old'])} times in {slip['file']}")
        return False
    source.write_text(text.replace(slip["old"], slip["new"]))
    said = subprocess.run(["rt", "check"], cwd=crate, capture_output=True, text=True)
    source.write_text(text)
    if said.returncode == 0 or f"error[{slip['refused']}]" not in said.stdout + said.stderr:
        print(f"{path.name}: not refused as {slip['refused']}:\n{said.stdout}{said.stderr}")
        return False
    return True


def main():
    slips = sorted(ROOT.glob("crates/*/must-fail/*.md"))
    with tempfile.TemporaryDirectory() as folder:
        copy = pathlib.Path(folder) / "copy"
        shutil.copytree(ROOT, copy, ignore=shutil.ignore_patterns(".git", "out", "target"))
        held = [refused(slip, copy) for slip in slips]
    print(f"slips: {sum(held)} refused, {len(held) - sum(held)} not")
    return 0 if slips and all(held) else 1


if __name__ == "__main__":
    sys.exit(main())
