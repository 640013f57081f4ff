#!/usr/bin/env python3
"""Brings the names of specs/ that the pages cite to the spelling that port.py and tools/respell.py gave them.

usage: python3 tools/respell_docs.py OLD_DECLARED NEW_DECLARED PAGE..     (each list: lines 'crate/File name', in the same order)
In a page a whole word between backticks is respelled; so is a constant's path of a must-fail edit or an operator's underscores.
"""
import re
import sys


def main():
    old = [l.split() for l in open(sys.argv[1], encoding="utf-8")]
    new = [l.split() for l in open(sys.argv[2], encoding="utf-8")]
    names = {a[1]: b[1] for a, b in zip(old, new) if a[1] != b[1]}
    word = re.compile(r"[^\s`(){}\[\],;.]+")
    for page in sys.argv[3:]:
        text = open(page, encoding="utf-8").read()
        out = []
        for k, block in enumerate(re.split(r"(```.*?```)", text, flags=re.S)):
            if block.startswith("```"):
                out.append(block)
                continue
            out.append(re.sub(r"`[^`\n]*`", lambda m: word.sub(lambda w: names.get(w.group(0), w.group(0)), m.group(0)), block))
        with open(page, "w", encoding="utf-8") as it:
            it.write("".join(out))


if __name__ == "__main__":
    main()
