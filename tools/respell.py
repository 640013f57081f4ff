#!/usr/bin/env python3
"""Brings the repository's own ghost names from camel case to snake case, after port.py has run.

usage: python3 tools/respell.py [FOLDER]     (FOLDER: the repository's top, default '.'); prints each name and its new spelling

A name in lower camel case is a definition, a field or a variable of specs/, proofs/ or a clause; functions of src/ have none. In .antt files
and in the clauses of .rt files each such word is respelled; comments too, so that they still speak of what stands there. Strings keep theirs.
"""
import os
import re
import sys

SPECIAL = {
    "isOR": "is_or", "isAND": "is_and", "privilegeSET": "privilege_set", "termSET": "term_set", "anySET": "any_set",
    # another name stands there already in snake case: a record's field, and a lemma
    "fieldIn": "field_here", "restIn": "rest_here", "inPair": "paired_text",
    "withT1T2": "with_t1_t2", "withEG": "with_e_g", "oldE": "old_e", "newE": "new_e", "oldG": "old_g", "newG": "new_g",
}
# a lemma that port.py brought to the spelling of a definition that its file imports
HERE = {"crates/print/proofs/Answering.antt": [("in_order", "is_in_order")]}
WORD = re.compile(r"(?<![\w'.-])[^\W\d_]\w*|(?<=[.-])[^\W\d_]\w*|(?<![\w'])[^\W\d_]\w*")
CAMEL = re.compile(r"^[a-z][a-z0-9]*[A-Z]\w*$")


def snake(word):
    if word in SPECIAL:
        return SPECIAL[word]
    return re.sub(r"(?<=[a-z0-9])([A-Z])", lambda m: "_" + m.group(1).lower(), word)


def respell(text, names):
    def one(m):
        word = m.group(0)
        if not CAMEL.match(word):
            return word
        new = snake(word)
        names[word] = new
        return new
    return WORD.sub(one, text)


def main():
    top = sys.argv[1] if len(sys.argv) > 1 else "."
    names, words = {}, set()
    for folder, dirs, files in os.walk(os.path.join(top, "crates")):
        dirs[:] = sorted(d for d in dirs if d not in ("out", "data", "must-fail"))
        for f in sorted(files):
            if not f.endswith((".rt", ".antt")):
                continue
            path = os.path.join(folder, f)
            with open(path, encoding="utf-8") as it:
                text = before = it.read()
            for old, new in HERE.get(os.path.relpath(path, top), []):
                text = re.sub(r"(?<![\w'.])" + old + r"(?![\w'])", new, text)
                print(f"{old} {new} (in {os.path.relpath(path, top)})")
            words |= set(re.findall(r"[^\W\d]\w*", text))
            # a byte string or a string of a .rt file keeps its text
            parts = re.split(r'(b?"(?:[^"\\\n]|\\.)*")', text) if f.endswith(".rt") else [text]
            new = "".join(p if k % 2 else respell(p, names) for k, p in enumerate(parts))
            if new != before:
                with open(path, "w", encoding="utf-8") as it:
                    it.write(new)
    for old in sorted(names):
        print(old, names[old], "(stood already)" if names[old] in words else "")


if __name__ == "__main__":
    main()
