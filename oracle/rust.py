"""Asks the Rust: runs OUT_DIR/axml-oracle (see build) over questions in batches and takes its answers apart.

  names_of(path)               a names file (a line `0xID NAME` each) as the words and the area that this repository lends
  ask(program, names, asked)   asked: (flags, cap, set, file, questions) each; yields an Answer for each, in order
  ITEMS                        files of named values, a line `ATTRIBUTE enum|flag NAME 0xVALUE` with tabs each: the framework's, odd ones, and some for the names of a main activity
"""
import os
import struct
import subprocess

from model import ATTRIBUTE, NODE

TEXTS, NAMES, VALUES, DUE, MAINS = 1, 2, 4, 8, 64
NONE = 0xFFFFFFFF
ITEMS = [os.path.join(os.path.dirname(os.path.abspath(__file__)), f) for f in ("attr-items.txt", "odd-items.txt", "main-items.txt")]


def names_of(path):
    words, area = [], b""
    for line in open(path):
        i, name = line.rstrip("\n").split(" ", 1)
        name = name.encode()
        words += [int(i, 16), len(area), len(name)]
        area += name
    return words, area


def padded(b):
    return struct.pack("<I", len(b)) + b + bytes(-len(b) % 4)


class Answer:
    """refusal, value, starts; nodes, attributes, notes as tuples; by flags: texts, node_names, attribute_names, values, due, mains; firsts."""

    def __init__(self, b, flags, questions):
        self.refusal, self.value, self.starts, n, a, m = struct.unpack_from("<6I", b)
        at = 24
        self.tables = b[at:at + 4 * NODE * n + 4 * ATTRIBUTE * a + 12 * m]
        self.nodes = list(struct.iter_unpack(f"<{NODE}I", b[at:at + 4 * NODE * n]))
        at += 4 * NODE * n
        self.attributes = list(struct.iter_unpack(f"<{ATTRIBUTE}I", b[at:at + 4 * ATTRIBUTE * a]))
        at += 4 * ATTRIBUTE * a
        self.notes = list(struct.iter_unpack("<3I", b[at:at + 12 * m]))
        at += 12 * m

        def text():
            nonlocal at
            k = struct.unpack_from("<I", b, at)[0]
            at += 4
            if k == NONE:
                return None
            t = b[at:at + k]
            at += k + -k % 4
            return t
        if flags & TEXTS:
            k = struct.unpack_from("<I", b, at)[0]
            at += 4
            self.texts = [text() for _ in range(k)]
        if flags & NAMES:
            self.node_names = [text() for _ in range(n)]
            self.attribute_names = [text() for _ in range(a)]
        if flags & VALUES:
            self.values = [text() for _ in range(a)]
        if flags & DUE:
            self.due = text()
        if flags & MAINS:
            k = struct.unpack_from("<I", b, at)[0]
            self.mains = list(struct.unpack_from(f"<{k}I", b, at + 4))
            at += 4 + 4 * k
        self.firsts = [struct.unpack_from("<4I", b, at + 16 * i) for i in range(questions)]
        assert at + 16 * questions == len(b)

    def reading(self):
        return self.refusal, self.value, self.starts, self.nodes, self.attributes, self.notes


def ask(program, names, asked, batch=4000):
    args = [program]
    for path in names:
        args += ["--names", path]
    asked = list(asked)
    for k in range(0, len(asked), batch):
        part = asked[k:k + batch]
        stream = bytearray()
        for flags, cap, names_set, file, questions in part:
            stream += struct.pack("<4I", flags, cap, names_set, len(questions)) + padded(file)
            for tag, name in questions:
                stream += padded(tag) + padded(name)
        out = subprocess.run(args, input=bytes(stream), stdout=subprocess.PIPE, check=True).stdout
        at = 0
        for flags, _, _, _, questions in part:
            n = struct.unpack_from("<I", out, at)[0]
            yield Answer(out[at + 4:at + 4 + n], flags, len(questions))
            at += 4 + n
        assert at == len(out)
