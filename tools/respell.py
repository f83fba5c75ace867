#!/usr/bin/env python3
"""Spells the repository's own definitions and lemmas by today's rules: snake case, a dash only between two names. Run once, behind port.py.

usage: python3 tools/respell.py     at the top of the repository

names.tsv beside this script has a row for each name: old, a tab, new. The folders specs/working and their modules become Working.
"""

import pathlib
import re
import subprocess

HERE = pathlib.Path(__file__).resolve().parent
ROOT = HERE.parent
TABLE = dict(row.split("\t") for row in (HERE / "names.tsv").read_text().splitlines())
WORD = re.compile(r'[^\s(){}.;,@"«»`]+')
SPAN = re.compile(r"`[^`\n]*`")
COMMENT = {".antt": re.compile(r"(?<!\S)--(?!-).*"), ".rt": re.compile(r"//.*"), ".edit": re.compile(r"(?!)")}


def turned(text, comment=False):
    """Each whole word of the table anew; in a comment not one with a dash, which may be prose."""
    return WORD.sub(lambda m: m[0] if comment and "-" in m[0] else TABLE.get(m[0], m[0]), text)


def line_turned(line, suffix):
    note = COMMENT[suffix].search(line)
    at = note.start() if note else len(line)
    return turned(line[:at]) + turned(line[at:], comment=True)


def modules(text):
    text = re.sub(r"(?<=\.specs\.)working(?=[.\s])", "Working", text)
    return re.sub(r"(?<=^pub mod )working$", "Working", text, flags=re.M)


def main():
    for folder in sorted(ROOT.glob("crates/*/specs/working")):
        subprocess.run(["git", "mv", f"{folder}.antt", folder.with_name("Working.antt")], check=True, cwd=ROOT)
        subprocess.run(["git", "mv", folder, folder.with_name("Working")], check=True, cwd=ROOT)
    for path in sorted(p for p in ROOT.glob("crates/**/*") if p.suffix in COMMENT):
        old = path.read_text()
        new = modules("\n".join(line_turned(line, path.suffix) for line in old.split("\n")))
        if new != old:
            path.write_text(new)
    for path in [ROOT / "README.md", *sorted(ROOT.glob("docs/*.md"))]:
        old = path.read_text()
        new = SPAN.sub(lambda m: turned(m[0]).replace("specs/working", "specs/Working"), old)
        if new != old:
            path.write_text(new)


main()
