#!/usr/bin/env python3
"""respell.py [FOLDER]: respells the repository's own definitions and lemmas, by the rows (old, tab, new) of respelled.tsv beside it.

Run once, right after the toolchain's port.py: definitions, fields, constructors and lemmas then read as the library's do, words in snake case.
What turns, whole words alone: all of .antt, .rt and .edit files and of tests/equations.rs; in pages the words in code, and those of camel case
anywhere. Words with a dash stay in comments and in running text, where they may be English, but for a comment's code.
"""

import os
import re
import sys

HERE = os.path.dirname(os.path.realpath(__file__))
WORD = re.compile(r"[^\s(){}.;,@\"«»`|]+")
COMMENT = re.compile(r"(?<![^\s(){}.;,@\"«»])--[^\n]*|//[^\n]*")
SPAN = re.compile(r"```.*?```|`[^`\n]*`", re.S)
PLAIN = re.compile(r"[\w'-]+")


def main(argv):
    root = argv[0] if argv else os.path.dirname(HERE)
    with open(os.path.join(HERE, "respelled.tsv"), encoding="utf-8") as f:
        table = dict(line.rstrip("\n").split("\t") for line in f)
    camel = {old: new for old, new in table.items() if "-" not in old and re.search("[a-z0-9][A-Z]", old)}

    def code(text):
        return WORD.sub(lambda m: table.get(m[0], m[0]), text)

    def prose(text):
        text = re.sub(SPAN, lambda m: PLAIN.sub(lambda w: table.get(w[0], w[0]), m[0]), text)
        return PLAIN.sub(lambda m: camel.get(m[0], m[0]), text)

    def source(text):
        out, at = [], 0
        for m in COMMENT.finditer(text):
            out += [code(text[at : m.start()]), prose(m[0])]
            at = m.end()
        return "".join(out) + code(text[at:])

    def edit(text):
        return "".join(prose(line) if line.startswith("#") else code(line) for line in text.splitlines(keepends=True))

    turned = 0
    for folder, dirs, files in os.walk(root):
        dirs[:] = sorted(d for d in dirs if d not in (".git", "out", "target", "python", "wip"))
        for name in sorted(files):
            path = os.path.join(folder, name)
            if name.endswith((".antt", ".rt")):
                turn = source
            elif name.endswith(".edit"):
                turn = edit
            elif name == "equations.rs":
                turn = lambda text: PLAIN.sub(lambda m: table.get(m[0], m[0]), text)
            elif name.endswith(".md") and name not in ("PORT.md", "CHANGELOG.md"):
                turn = prose
            else:
                continue
            with open(path, encoding="utf-8") as f:
                old = f.read()
            new = turn(old)
            if new != old:
                turned += 1
                with open(path, "w", encoding="utf-8") as f:
                    f.write(new)
    print(f"respell: {turned} files")
    return 0


if __name__ == "__main__":
    raise SystemExit(main(sys.argv[1:]))
