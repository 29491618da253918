#!/usr/bin/env python3
"""Spells the repository's own definitions and lemmas as the kit's style has it: words in snake case, by the rows of spelling.tsv beside this file.

usage: tools/spell_names.py        at the top of the repository, once, after the kit's own script for older repositories

It has run. A second run would turn, as the first did, the printed word P12-spare, which was put back in step_cases and in the pages.

A row is an old name, a tab and the new one. Names turn as whole words: in the .antt and .rt files and the must-fail edits of crates/, and in the
code spans of the pages. The names of Rust functions have no row and stay.
"""

import pathlib
import re

HERE = pathlib.Path(__file__).resolve().parent
TOP = HERE.parent
WORD = re.compile(r"""[^\s(){}\[\].,;:"`«»λ]+""")
SPAN = re.compile(r"`[^`\n]+`")


def table():
    rows = (HERE / "spelling.tsv").read_text(encoding="utf-8").splitlines()
    return dict(row.split("\t") for row in rows)


def main():
    rows = table()

    def turned(text):
        return WORD.sub(lambda word: rows.get(word[0], word[0]), text)

    def rewrite(path, how):
        old = path.read_text(encoding="utf-8")
        new = how(old)
        if new != old:
            path.write_text(new, encoding="utf-8")

    for path in sorted((TOP / "crates").rglob("*")):
        if path.suffix in (".antt", ".rt", ".edit") and "out" not in path.relative_to(TOP).parts:
            rewrite(path, turned)
    for path in [TOP / "README.md", *sorted((TOP / "docs").rglob("*.md"))]:
        rewrite(path, lambda text: SPAN.sub(lambda span: turned(span[0]), text))


if __name__ == "__main__":
    main()
