#!/usr/bin/env python3
"""Spells the repository's own definitions and lemmas in snake case, by respell.tsv beside this file: a row is old, tab, new, and `field` where the
name is a record's field. Run once, at the top, after the kit's port.py.

A name turns as a whole word of antt. Behind a dot a field turns, a name in camel case, and a module's name. A name that a file imports from the kit's libraries stays in
that file. In Rattle sources a name turns in clauses, `ghost use` items and comments, in pages and Rust tests within back quotes.
"""

import os
import re
import sys

HERE = os.path.dirname(os.path.realpath(__file__))
WORD = re.compile(r'[^\s(){}.;,@"«»`\[\]←¬]+')
USE = re.compile(r"^(?:ghost )?use ([^\s;{]+?)\.?(\{[^}]*\})?(?: as \S+)?;?\s*$", re.M)
CAMEL = re.compile("[a-z][a-z0-9]*[A-Z]")
ROWS = [line.rstrip("\n").split("\t") for line in open(os.path.join(HERE, "respell.tsv"), encoding="utf-8")]
NEW = {row[0]: row[1] for row in ROWS}
FIELDS = {row[0] for row in ROWS if len(row) > 2}


def own(crates):
    return re.compile(r"Rattle\.(%s)\b" % "|".join(crates))


def turn(text, crates, code=False):
    """The text with each name of the table in its new spelling. In Rattle code a name that may be a function's stays: one in snake case already."""
    ours = own(crates)
    foreign = set()
    modules = set(re.findall(r"(?m)^(?:ghost )?use [^\s;{]+? as ([^\s;{]+)", text)) | set(re.findall(r"(?m)^use \S+\.(\w+)$", text))
    for m in USE.finditer(text):
        if not ours.match(m[1]):
            foreign |= set(WORD.findall(m[2] or ""))

    def line(l, is_use):
        def word(m):
            w = m[0]
            if w not in NEW or w in foreign or code and re.fullmatch("[a-z0-9_]+", w):
                return w
            behind = re.search(r"([^\s(){};,@\"]*)\.$", l[: m.start()])
            if behind and not is_use and w not in FIELDS and not CAMEL.match(w) and behind[1] not in modules:
                return w
            return NEW[w]

        return WORD.sub(word, l)

    return "\n".join(line(l, bool(re.match(r"\s*(?:(?:old|new): )?(?:ghost )?use ", l))) for l in text.split("\n"))


def spans(text, crates):
    """Code spans of a page alone."""
    return re.sub(r"`[^`\n]*`", lambda m: "`" + turn(m[0][1:-1], crates) + "`", text)


def main():
    root = os.getcwd()
    if not any(name in NEW and CAMEL.match(name) for name in WORD.findall(open(os.path.join(root, "crates/tables/specs/Scan.antt"), encoding="utf-8").read())):
        sys.exit("respell: this tree has the new spelling already")
    crates = sorted(os.listdir(os.path.join(root, "crates")))
    count = 0
    for folder, dirs, files in os.walk(root):
        dirs[:] = sorted(d for d in dirs if d not in (".git", "out", "tools") and not (d == "target" and folder in (root, os.path.join(root, "rust"))))
        for name in sorted(files):
            path = os.path.join(folder, name)
            kind = os.path.splitext(name)[1]
            if kind not in (".antt", ".rt", ".edit", ".md", ".rs"):
                continue
            text = open(path, encoding="utf-8").read()
            if kind == ".antt":
                turned = turn(text, crates)
            elif kind in (".edit", ".rt"):
                turned = turn(text, crates, code=True)
            elif kind == ".md" or "tests" in folder:
                turned = spans(text, crates)
            else:
                continue
            if turned != text:
                open(path, "w", encoding="utf-8").write(turned)
                count += 1
    print(f"respell: {count} files")


if __name__ == "__main__":
    sys.exit(main())
