#!/usr/bin/env python3
"""Makes park.image and park.replay of park.txt.

    samples/build.py            writes both beside this file
    samples/build.py --check    writes nothing, and fails if they are not as park.txt says

The layout is that of the scope paper (01), "Image" and "The replay program".
"""

import pathlib
import re
import sys

HERE = pathlib.Path(__file__).resolve().parent
MODES = ["Read", "Write", "Execute", "Detect", "Change"]
# The parts of a role and of a file, in the image's order.
ROLE = [f"{mode} {part}" for mode in MODES for part in ("V+", "V-")] + ["M1", "M2", "B"]
FILE = [f"{mode} {part}" for mode in MODES for part in ("T1", "E", "T2", "G")]
CODES = {"begin": 1, "end": 2, "ask": 3, "change": 4, "bypass": 5}


class Expression:
    """The text of one expression, read into bytes: an operator before its two operands."""

    def __init__(self, text):
        self.tokens = re.findall(r"\d+|\.\.|[&|()\[\]]|\S", text)
        self.text = text

    def bytes(self):
        if not self.tokens:
            return b""
        made = self.joined("|", 4, lambda: self.joined("&", 3, self.item))
        if self.tokens:
            self.wrong()
        if len(made) > 48:
            sys.exit(f"{self.text}: over 48 bytes")
        return made

    def joined(self, sign, code, operand):
        left = operand()
        while self.tokens[:1] == [sign]:
            self.take(sign)
            left = bytes([code]) + left + operand()
        return left

    def item(self):
        if self.tokens[:1] == ["("]:
            self.take("(")
            inner = self.joined("|", 4, lambda: self.joined("&", 3, self.item))
            self.take(")")
            return inner
        securon = self.number()
        if self.tokens[:1] != ["["]:
            return bytes([1, securon])
        self.take("[")
        low = self.number()
        self.take("..")
        high = self.number()
        self.take("]")
        return bytes([2, securon, low, high])

    def number(self):
        if not self.tokens or not re.fullmatch(r"0|[1-9][0-9]?", self.tokens[0]):
            self.wrong()
        return int(self.tokens.pop(0))

    def take(self, token):
        if self.tokens[:1] != [token]:
            self.wrong()
        self.tokens.pop(0)

    def wrong(self):
        sys.exit(f"{self.text}: wrong at {' '.join(self.tokens) or 'its end'}")


def stated(text):
    """An expression with its length byte."""
    made = Expression(text).bytes()
    return bytes([len(made)]) + made


class Park:
    """What park.txt says: parents, roles, files and requests, the names in order."""

    def __init__(self, text):
        self.parents = []
        self.roles = {}
        self.files = {}
        self.requests = []
        add = self.unknown
        for line in text.splitlines():
            words = line.split("#")[0].split()
            if words and line[0].isspace():
                add(words)
            elif words:
                add = self.heading(*words)

    def heading(self, word, name=None):
        """What is done with the lines that stand under a heading."""
        if word == "tree" and not name:
            return self.securon
        if word == "requests" and not name:
            return self.requests.append
        if word == "role" and name:
            return self.part_of(self.roles, name, ROLE)
        if word == "file" and name:
            return self.part_of(self.files, name, FILE)
        return self.unknown([word])

    def securon(self, words):
        number, _, *parent = words
        if int(number) != len(self.parents) or len(parent) != (number != "0"):
            self.unknown(words)
        self.parents.append(int(parent[0]) if parent else 0)

    def part_of(self, kind, name, parts):
        texts = kind.setdefault(name, {part: "" for part in parts})

        def add(words):
            part = " ".join(words[: 1 if words[0] in parts else 2])
            if part not in parts or texts[part]:
                self.unknown(words)
            texts[part] = " ".join(words[len(part.split()) :])

        return add

    def unknown(self, words):
        sys.exit(f"park.txt: {' '.join(words)}: not understood")

    def image(self):
        made = b"SPT\x01\x00" + bytes([len(self.parents), *self.parents[1:]])
        for kind in (self.roles, self.files):
            made += bytes([len(kind)])
            for texts in kind.values():
                made += b"".join(stated(text) for text in texts.values())
        return made

    def record(self, words):
        code, slot, *rest = words
        made = bytes([CODES[code], int(slot)])
        if code == "begin":
            return made + bytes([list(self.roles).index(rest[0])])
        if code == "end":
            return made
        made += bytes([list(self.files).index(rest[0]), MODES.index(rest[1])])
        if code == "ask":
            return made
        first, second = " ".join(rest[2:]).split(";")
        return made + stated(first) + stated(second)

    def replay(self):
        image = self.image()
        return len(image).to_bytes(2, "little") + image + b"".join(map(self.record, self.requests))


def main(words):
    park = Park((HERE / "park.txt").read_text())
    for name, made in (("park.image", park.image()), ("park.replay", park.replay())):
        path = HERE / name
        if words != ["--check"]:
            path.write_bytes(made)
        elif not path.exists() or path.read_bytes() != made:
            sys.exit(f"{name} is not what park.txt says: run samples/build.py")


if __name__ == "__main__":
    main(sys.argv[1:])
