#!/usr/bin/env python3
"""unicode_vectors.py [DIR]: writes the vectors of crates/unicode_cases to DIR (by default that crate's data/).

Every answer is python's, and none comes from the code under test:
  the text       bytes.decode('utf-8', errors='replace'), and bytes.decode('utf-16-le') or the empty text where that raises; as UTF-8
  the state      0 where nothing was amiss, 1 where the decoder of UTF-8 met bad bytes, 2 where the decoder of UTF-16 raised; and how often the former
                 asked for a replacement, which it does once for each maximal subpart (an error handler of our own counts)
  a valid name   the productions [4] and [4a] of XML 1.0 (Fifth Edition), read from their own notation below, without ':' (Namespaces in XML 1.0)
  the same       `==` of the text and of the text before it in the file; before the first one stands the empty text

A file is records, one after the other: the length of the bytes, the length of the text and how many characters were replaced, two bytes each, the
low byte first; one byte of marks (1 UTF-16, 2 a valid name, 4 the same as the text before, 8 times the state); the bytes; the text. The seed is fixed, so a second run writes the same files.
"""
import codecs
import os
import random
import re
import sys

START = '":" | [A-Z] | "_" | [a-z] | [#xC0-#xD6] | [#xD8-#xF6] | [#xF8-#x2FF] | [#x370-#x37D] | [#x37F-#x1FFF] | [#x200C-#x200D] | ' \
    '[#x2070-#x218F] | [#x2C00-#x2FEF] | [#x3001-#xD7FF] | [#xF900-#xFDCF] | [#xFDF0-#xFFFD] | [#x10000-#xEFFFF]'
MORE = '"-" | "." | [0-9] | #xB7 | [#x0300-#x036F] | [#x203F-#x2040]'


def ranges(production):
    """a production's alternatives as pairs of numbers, but for the colon"""
    def number(s):
        return int(s[2:], 16) if s.startswith("#x") else ord(s)
    out = []
    for part in production.split(" | "):
        m = re.fullmatch(r"\[(#x[0-9A-F]+|.)-(#x[0-9A-F]+|.)\]", part)
        if m:
            out.append((number(m.group(1)), number(m.group(2))))
        elif part.startswith("#x"):
            out.append((number(part), number(part)))
        else:
            out.append((ord(part[1]), ord(part[1])))
    return [r for r in out if r != (58, 58)]


FIRST = ranges(START)
LATER = FIRST + ranges(MORE)
FIRST_SET = {v for a, b in FIRST for v in range(a, b + 1)}
LATER_SET = {v for a, b in LATER for v in range(a, b + 1)}


def text_of(wide, s):
    if not wide:
        return s.decode("utf-8", errors="replace")
    try:
        return s.decode("utf-16-le")
    except UnicodeDecodeError:
        return ""


def state_of(wide, s):
    """the state of a text, and how many characters were replaced"""
    asked = []

    def handler(error):
        asked.append((error.start, error.end))
        return "\ufffd", error.end

    if wide:
        try:
            s.decode("utf-16-le")
            return 0, 0
        except UnicodeDecodeError:
            return 2, 0
    codecs.register_error("asked", handler)
    assert s.decode("utf-8", errors="asked") == text_of(False, s)
    return (1 if asked else 0), len(asked)


def is_name(t):
    return t != "" and ord(t[0]) in FIRST_SET and all(ord(c) in LATER_SET for c in t[1:])


def write(path, texts):
    out, before = bytearray(), ""
    for wide, s in texts:
        t = text_of(wide, s)
        u = t.encode("utf-8")
        state, replaced = state_of(wide, s)
        marks = (1 if wide else 0) | (2 if is_name(t) else 0) | (4 if t == before else 0) | 8 * state
        assert len(s) <= 4096 and len(u) <= 4096
        out += len(s).to_bytes(2, "little") + len(u).to_bytes(2, "little") + replaced.to_bytes(2, "little") + bytes([marks]) + s + u
        before = t
    assert len(out) <= 262144, (path, len(out))
    with open(path, "wb") as f:
        f.write(out)
    names = sum(is_name(text_of(w, s)) for w, s in texts)
    print("%-14s %6d texts %6d names %7d bytes" % (os.path.basename(path), len(texts), names, len(out)))


def main():
    here = os.path.dirname(os.path.abspath(__file__))
    to = sys.argv[1] if len(sys.argv) > 1 else os.path.join(here, "..", "crates", "unicode_cases", "data")
    rnd = random.Random(3)
    edges = [0x00, 0x41, 0x7f, 0x80, 0x8f, 0x90, 0x9f, 0xa0, 0xbf, 0xc0, 0xc1, 0xc2, 0xdf, 0xe0, 0xe1, 0xec, 0xed, 0xee, 0xef, 0xf0, 0xf1, 0xf3, 0xf4, 0xf5, 0xff]
    scalars = [0, 0x2d, 0x2e, 0x30, 0x39, 0x3a, 0x41, 0x5f, 0x61, 0x7a, 0x7f, 0x80, 0xb7, 0xc0, 0xd7, 0x7ff, 0x800, 0xfff, 0x1000, 0xcfff, 0xd000, 0xd7ff,
               0xe000, 0xfdf0, 0xfffd, 0xfffe, 0xffff, 0x10000, 0x10302, 0x1f600, 0xeffff, 0xf0000, 0x10ffff]
    units = [0, 0x41, 0x61, 0x7a, 0x80, 0xd7ff, 0xd800, 0xd801, 0xdbff, 0xdc00, 0xdc01, 0xdfff, 0xe000, 0xfffd, 0xfffe, 0xfeff]
    name = "abcxyzABCXYZ_-.0129"

    def scalar():
        k = rnd.randrange(4)
        if k == 0:
            return chr(rnd.choice(scalars))
        if k == 1:
            a, b = rnd.choice(LATER)
            return chr(rnd.choice([a, b, rnd.randrange(a, b + 1)]))
        v = rnd.randrange(0x110000 - 0x800)
        return chr(v if v < 0xd800 else v + 0x800)

    def letters(n):
        return "".join(rnd.choice(name) for _ in range(n))

    def utf8():
        k = rnd.randrange(6)
        if k == 0:
            return letters(rnd.randrange(1, 10)).encode()
        if k == 1:
            return bytes(rnd.choice(edges) for _ in range(rnd.randrange(1, 8)))
        if k == 2:
            return bytes(rnd.randrange(256) for _ in range(rnd.randrange(1, 8)))
        s = bytearray((letters(rnd.randrange(3)) + "".join(scalar() for _ in range(rnd.randrange(1, 4)))).encode("utf-8"))
        if k == 3:
            return bytes(s)
        if k == 4:
            return bytes(s[: rnd.randrange(len(s) + 1)])
        s[rnd.randrange(len(s))] = rnd.choice(edges)
        return bytes(s)

    def utf16():
        k = rnd.randrange(5)
        if k == 0:
            return letters(rnd.randrange(1, 8)).encode("utf-16-le")
        if k == 1:
            return b"".join(rnd.choice(units).to_bytes(2, "little") for _ in range(rnd.randrange(1, 6)))
        if k == 2:
            return b"".join(rnd.randrange(65536).to_bytes(2, "little") for _ in range(rnd.randrange(1, 5)))
        s = (letters(rnd.randrange(3)) + "".join(scalar() for _ in range(rnd.randrange(1, 4)))).encode("utf-16-le")
        return s if k == 3 else s[: 2 * rnd.randrange(len(s) // 2 + 1)]

    def stretch(make, wide, n):
        """n texts, of which some repeat the one before, whole or with another last byte"""
        out = [(wide, b"")]
        while len(out) < n:
            k = rnd.randrange(8)
            s = out[-1][1]
            if k == 0:
                out.append((wide, s))
            elif k == 1 and s and not wide:
                out.append((wide, s[:-1] + bytes([rnd.choice(edges)])))
            else:
                out.append((wide, make()))
        return out

    for q in range(2):
        leads = range(128 * q, 128 * q + 128)
        write(os.path.join(to, "pairs-%d" % q), [(False, b"".join(bytes([a, b]) for b in range(256))) for a in leads])
    write(os.path.join(to, "sequences"), [(False, b"".join(bytes([a, b, 0x80, 0x80]) for b in range(256))) for a in range(0xc0, 0x100)])
    write(os.path.join(to, "utf8"), stretch(utf8, False, 10400))
    write(os.path.join(to, "utf16"), stretch(utf16, True, 10400))

    # the same text in the two encodings, and texts that differ in one value
    both = []
    for _ in range(1200):
        t = letters(rnd.randrange(3)) + "".join(scalar() for _ in range(rnd.randrange(4)))
        u = t if rnd.randrange(3) else t[:-1] + scalar()
        both += [(False, t.encode("utf-8")), (True, u.encode("utf-16-le"))]
    both += [(False, b"\xff"), (True, b"\xfd\xff"), (False, b"\xfe"), (True, b"\x00\xd8"), (False, b""), (True, b"\x41\x00\x00\xdc"), (True, b"")]
    write(os.path.join(to, "both"), both)

    # every boundary of every range of a name, and the numbers beside it: alone, after a letter, and before one; every value of ASCII likewise
    values = sorted({v for a, b in LATER for e in (a, b) for v in (e - 1, e, e + 1)} | set(range(128)))
    names = []
    for v in values:
        if not 0xd800 <= v <= 0xdfff:
            for t in (chr(v), "a" + chr(v), chr(v) + "a", "\ufffd" + chr(v)):
                names += [(False, t.encode("utf-8")), (True, t.encode("utf-16-le"))]
    write(os.path.join(to, "names"), names)


main()
