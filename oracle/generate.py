"""Structured random AXML files, the same for the same seed.

  make(seed, index) -> bytes            one file
  files(seed, first, count)             an iterator over them
  python3 generate.py SEED FIRST COUNT DIR    writes them as DIR/SEED-INDEX.axml

Most files are readings that succeed with several features at once: both pools, garbage before the pool, wrong counts,
odd offsets, styles, damaged and long texts, map ids with and without system names, every chunk type, both foreign
sorts (complete, small, cut), shifted and oversized attributes, trailing bytes, repeats by text, invalid and non-ASCII
names, unclosed and extra ends, cut files. `Maker.calm` says how rarely a feature is taken; it differs from file to file.
"""
import random
import struct
import sys

NONE = 0xFFFFFFFF
ANDROID = "http://schemas.android.com/apk/res/android"
PLAIN = ["a", "b", "c", "name", "label", "icon", "theme", "manifest", "application", "activity", "android", "invalid-element",
         "x1", "_", "_u", "a-b", "a.b", "A9", "value", "layout_width", "Z"]
BAD = ["", "1a", "a:b", "a b", "-x", ".y", "<", "a\0", "\0", "9", "a/b", "@", "[", "`", "{", "a[", "a@", "a`", "a{", "a/", "a^", ":", "android:attr/name"]
# both sides of each bound of the ranges in Namespaces in XML, first and later
EDGES = [0xB6, 0xB7, 0xB8, 0xBF, 0xC0, 0xD6, 0xD7, 0xD8, 0xF6, 0xF7, 0xF8, 0x2FF, 0x300, 0x36F, 0x370, 0x37D, 0x37E, 0x37F, 0x1FFF, 0x2000,
         0x200B, 0x200C, 0x200D, 0x200E, 0x203E, 0x203F, 0x2040, 0x2041, 0x206F, 0x2070, 0x218F, 0x2190, 0x2BFF, 0x2C00, 0x2FEF, 0x2FF0,
         0x3000, 0x3001, 0xD7FF, 0xE000, 0xF8FF, 0xF900, 0xFDCF, 0xFDD0, 0xFDEF, 0xFDF0, 0xFFFD, 0xFFFE, 0xFFFF, 0x10000, 0xEFFFF, 0xF0000, 0x10FFFF,
         0x7F, 0x80]
BROKEN_8 = [b"\xff", b"\xfe", b"a\xff", b"a\xfe", b"\xc0\x80", b"\xc1\xbf", b"\xed\xa0\x80", b"\xed\xbf\xbf", b"\xed\x9f\xbf", b"\xee\x80\x80", b"\xe2\x82",
            b"\xe2\x82a", b"\xe2a", b"\xf0\x9f\x92", b"\xf0\x9f\x92a", b"\xf0\x80", b"\xf0\x80\x80\x80", b"\xf0\x8f\xbf\xbf", b"\xf4\x90\x80\x80",
            b"\xf4\x8f\xbf\xbf",
            b"\xf5\x80\x80\x80", b"\x80", b"\xbf", b"a\x80b", b"\xe0\x80\x80", b"\xe0\x9f\xbf", b"\xe0\xa0", b"\xe0\xa0\x80", b"\xc2",
            b"a\xc2", b"\xc2\xc2\x80",
            b"\xf1\x80\x80\xe1\x80\xc2b\x80c\x80\xbfd", b"\xef\xbf\xbd", b"a\xef\xbf\xbd", b"\xed\xa0\xbd\xed\xb8\x80", b"\xe1\x80\xe2\xf0\x91\x92\xf1\xbfA"]
BROKEN_16 = [[0xD800], [0xDC00], [0x61, 0xD800], [0xDBFF, 0x61], [0xDC00, 0xD800], [0xD800, 0xD800, 0xDC00], [0x61, 0xDFFF, 0x62], [0xDBFF]]
WHOLE_16 = [[0xD800, 0xDC00], [0xDBFF, 0xDFFF], [0xD83D, 0xDE00], [0x61, 0xD800, 0xDC00], [0xFFFD], [0xFFFF], [0xE000], [0xD7FF], [0x80], [0x7F]]
TYPES = [0, 1, 2, 3, 4, 5, 6, 7, 8, 9, 0x10, 0x11, 0x12, 0x13, 0x1C, 0x1D, 0x1E, 0x1F, 0x20, 0x80, 0xFF]
FOREIGN = [0, 1, 2, 3, 0xFF, 0x105, 0x106, 0x140, 0x17E, 0x180, 0x181, 0x200, 0x206, 0x7F01, 0xFFFF]
XML = [0x100, 0x101, 0x102, 0x103, 0x104, 0x17F]
# ids that the framework has an attribute name for, and neighbours that it has none for, other kinds, other packages
NAMED = [0x01010000, 0x01010001, 0x01010002, 0x01010003, 0x01010024, 0x010100F4, 0x0101021B, 0x0101021C, 0x01010270, 0x01010003]
ODD_IDS = [0, 1, 0x01000000, 0x0100FFFF, 0x0101FFFF, 0x01020002, 0x01030000, 0x01040000, 0x7F010000, 0x7F010003, 0x02010003, 0x00010003, 0xFFFFFFFF,
           0x01010FFF, 0x01000001, 0x01000002, 0x01000003, 0x01000004, 0x01000005, 0x01000006, 0x01000007]
header = struct.Struct("<HHI").pack
u32 = struct.Struct("<I").pack


class Maker:
    def __init__(self, seed, index):
        self.r = random.Random(seed * 1_000_003 + index)
        self.random = self.r.random
        style = self.random()
        # how rarely a feature is taken: a third of the files are nearly clean, a tenth are wild
        self.calm = 12.0 if style < 0.35 else 4.0 if style < 0.9 else 1.2

    def rare(self, chance=0.15):
        return self.random() * self.calm < chance * 4

    def pick(self, items):
        return items[int(self.random() * len(items))]

    def upto(self, n):
        return int(self.random() * (n + 1))

    def number(self):
        """A word with the edges of every width well represented."""
        x = self.random()
        if x < 0.4:
            return self.upto(40)
        if x < 0.6:
            return self.pick((0, 7, 8, 9, 15, 16, 17, 0x7FFF, 0x8000, 0xFFFF, 0x10000, 0x3FFFFFFF, 0x40000000, 0x7FFFFFFF,
                              0x80000000, NONE - 28, NONE - 1, NONE))
        return self.upto(NONE)

    def noise(self, n):
        return self.r.randbytes(n)

    # -- texts: a list of (encoded string, cut or not)

    def text(self):
        x = self.random()
        if x < 0.55:
            return self.pick(PLAIN)
        if x < 0.62:
            return ANDROID
        if x < 0.74:
            return self.pick(BAD)
        if x < 0.86:
            c = chr(self.pick(EDGES))
            return self.pick((c, "a" + c, c + "a", "a" + c + "b"))
        if x < 0.93:
            return self.pick(("é", "名前", "aé", "Ångström", "a\u0301", "\U00010000x", "x\U000effff", "☃", "a☃", "ſ", "\ufffd", "a\ufffd", "\u1fff"))
        if x < 0.97:
            return self.pick(PLAIN) + str(self.upto(5))
        return self.pick("abé") * self.pick((126, 127, 128, 129, 130, 200, 254, 255, 256, 257, 300, 511))

    def utf8(self):
        t = self.pick(BROKEN_8) if self.rare(0.3) else self.text().encode("utf-8", "replace")
        chars = len(t.decode("utf-8", "replace"))
        if self.rare():
            chars = self.upto(300)

        def length(n):
            return bytes((0x80 | n >> 8, n & 0xFF)) if n > 127 or self.rare(0.1) else bytes((n,))
        many = len(t)
        if self.rare(0.05):
            many = self.pick((0, many + 1, many + 2, many + 7, max(many - 1, 0), 0x7FFF))
        return length(chars) + length(many) + t + (b"\0" if not self.rare() else self.pick((b"", b"\1", b"\xff", b"a")))

    def utf16(self):
        if self.rare(0.3):
            units = self.pick(BROKEN_16 if self.random() < 0.5 else WHOLE_16)
            t = struct.pack(f"<{len(units)}H", *units)
        else:
            t = self.text().encode("utf-16-le", "replace")
        many = len(t) // 2
        if self.rare(0.05):
            many = self.pick((0, many + 1, many + 2, many + 7, max(many - 1, 0), 0x7FFF, 0x8000, 0x18000, 0x7FFFFFFF))
        n = struct.pack("<HH", 0x8000 | many >> 16, many & 0xFFFF) if many > 0x7FFF or self.rare(0.1) else struct.pack("<H", many)
        return n + t + (b"\0\0" if not self.rare() else self.pick((b"", b"\0", b"\1\0", b"\0\1", b"ab")))

    # -- the head

    def pool(self):
        count = self.upto(3) if self.random() < 0.2 else 2 + self.upto(10)
        is_utf8 = self.random() < 0.6
        self.count = count
        one = self.utf8 if is_utf8 else self.utf16
        strings, offsets, at = [], [], 0
        for _ in range(count):
            s = strings[self.upto(len(strings) - 1)] if strings and self.random() < 0.12 else one()
            offsets.append(at)
            strings.append(s)
            at += len(s)
        data = b"".join(strings)
        if self.rare(0.2) and not is_utf8 or self.rare(0.1):
            data += self.noise(self.upto(6))
        if self.rare(0.08) and data:
            data = data[:len(data) - 1 - self.upto(3)]
        for i in range(count):
            if self.rare(0.06):
                offsets[i] = self.pick((len(data), len(data) + 1, max(len(data) - 1, 0), self.upto(len(data) + 8),
                                        self.number(), offsets[self.upto(count - 1)]))
        if self.rare(0.05):
            self.r.shuffle(offsets)
        styles = self.upto(3) if self.rare(0.1) else 0
        style_bytes = self.noise(4 * styles)
        start = 28 + 4 * count + 4 * styles
        declared = count
        if self.rare(0.1):
            declared = self.pick((0, count + 1, max(count - 1, 0), self.number()))
        if self.rare(0.06):
            start += self.pick((1, 2, 3, 4, -1, -4, 8, -8, -start, -28, self.upto(60)))
            start = max(start, 0)
        if self.rare(0.02):
            start = self.number()
        if self.rare(0.03):
            styles = self.pick((1, 2, 5, 0x3FFFFFF8, 0x3FFFFFF9, 0x3FFFFFFF, 0x40000000, 0x40000001, 0x7FFFFFFF, 0x80000000, NONE))
        size = start + len(data)
        if self.rare(0.08):
            size += self.pick((1, -1, 4, -4, 2, -2, 8, -8, -size, self.upto(40)))
        if self.rare(0.02):
            size = self.number()
        flags = 0x100 if is_utf8 else 0
        if self.rare(0.1):
            flags |= self.pick((1, 2, 0x80, 0x200, 0x10000, 0x80000000, 0xFFFFFEFF))
        if self.rare(0.02):
            flags ^= 0x100
        kind = 1
        out = b""
        if self.rare(0.15):
            content = self.noise(self.upto(24)) if self.random() < 0.6 else b""
            declared_size = 8 + len(content)
            if not content and self.random() < 0.4:
                declared_size = self.upto(8)
            if self.rare(0.03):
                declared_size += self.pick((1, 4, 8, 100, 100000))
            out = header(self.pick(FOREIGN + XML), self.pick((8, 8, 28, 0, 16)), declared_size) + content
            if self.random() < 0.5:
                kind = self.pick(FOREIGN + XML)
        elif self.rare(0.01):
            kind = self.pick(FOREIGN)
        out += header(kind, 28 if not self.rare(0.1) else self.pick((0, 8, 16, 29, 32, 0xFFFF)), size & NONE)
        out += struct.pack("<5I", declared & NONE, styles, flags, start & NONE, 0 if not self.rare(0.1) else self.pick((start, size, self.number())) & NONE)
        return out + struct.pack(f"<{count}I", *[o & NONE for o in offsets]) + style_bytes + data

    def map(self):
        x = self.random()
        count = 0 if x < 0.35 else self.upto(self.count) if x < 0.85 else self.count + self.upto(4)
        self.ids = count
        ids = [self.pick(NAMED) if self.random() < 0.55 else self.pick(ODD_IDS) for _ in range(count)]
        head = 8 if not self.rare(0.08) else self.pick((0, 4, 9, 12, 16, 28, 0xFFFF))
        size = head + 4 * count + (self.upto(3) if self.rare(0.08) else 0)
        if self.rare(0.02):
            size = self.pick((0, 4, 7, size + 4, size + 100, self.number()))
        return header(0x180 if not self.rare(0.06) else self.pick(FOREIGN + XML), head, size) + struct.pack(f"<{count}I", *ids)

    # -- the body

    def index(self):
        x = self.random()
        most = max(self.count, self.ids)
        if x < 0.93 and most:
            return self.upto(most - 1)
        return self.pick((most, most + 1, self.count, NONE, self.number()))

    def namespace(self):
        x = self.random()
        return NONE if x < 0.5 else self.index() if x < 0.95 else self.number()

    def start(self):
        count = 0 if self.random() < 0.3 else 1 + self.upto(4)
        if self.rare(0.01):
            count = 20 + self.upto(20)
        start = 20
        gap = b""
        if self.rare(0.1):
            start = self.pick((0, 10, 19, 21, 22, 24, 28, 40, 52))
            gap = self.noise(max(start - 20, 0))
        size = 20
        if self.rare(0.1):
            size = self.pick((0, 10, 12, 16, 19, 21, 24, 28, 40))
        more = max(size - 20, 0)
        body = []
        few = [self.index() for _ in range(1 + self.upto(3))]
        for _ in range(count):
            body.append(struct.pack("<IIIHBBI", self.namespace(), self.pick(few) if self.random() < 0.6 else self.index(), self.number(),
                                    8 if not self.rare() else self.upto(20), self.upto(255) if self.rare() else 0, self.pick(TYPES), self.number()))
            if more:
                body.append(self.noise(more))
        said = count
        if self.rare(0.03):
            said = self.pick((0, count + 1, max(count - 1, 0), 0xFFFF))
        body = gap + b"".join(body)
        tail = b""
        if self.rare(0.1):
            tail = self.noise(self.pick((1, 2, 4, 8, 20, 21)))
        size_said = 36 + len(body) + len(tail)
        if self.rare(0.06):
            size_said = self.pick((0, 7, 8, 15, 16, 17, 20, 35, 36, size_said - 1, size_said + 1, size_said + 4, size_said + 60, self.number()))
        return header(0x102, 16, size_said & NONE) + struct.pack("<IIIIHHHHHH", self.upto(99), NONE, self.namespace(), self.index(), start, size, said,
                                                                  self.upto(3), 0, 0) + body + tail

    def plain(self, kind):
        many = 12 if kind == 0x104 else 0 if kind == 0x17F else 8
        size = 16 + many
        if self.rare(0.1):
            size = self.pick((0, 8, 16, 20, 24, 28, 32, 36, 60, self.number()))
        out = header(kind, 16, size) + struct.pack("<II", self.upto(99), NONE)
        if many:
            out += struct.pack("<II", self.namespace(), self.index())
        return out + (b"\x08\0\0\3" if many == 12 else b"")

    def foreign(self):
        x = self.random()
        if x < 0.55:
            kind, head = self.pick(FOREIGN), self.pick((8, 8, 16, 0, 28))
        else:
            kind, head = self.pick(XML), self.pick((8, 15, 17, 0, 24, 32, 0xFFFF))
        x = self.random()
        if x < 0.6:
            content = self.noise(self.pick((0, 0, 4, 8, 8, 16, 1, 3, 24)))
            if self.random() < 0.2:
                content = self.pick((self.plain(0x103), self.start()))
            return header(kind, head, 8 + len(content)) + content
        if x < 0.8:
            return header(kind, head, self.upto(7))
        return header(kind, head, self.pick((0x1000, 0xFFFF, 100_000, 0x7FFFFFFF, NONE, 9 + self.upto(60))))

    def body(self):
        out, depth = [], 0
        many = 1 + self.upto(3 if self.random() < 0.4 else 9)
        if self.random() < 0.5:
            out.append(self.plain(0x100))
        first = True
        while many:
            x = self.random()
            if first or x < 0.5:
                out.append(self.start())
                depth += 1
                many -= 1
                first = self.rare(0.02)
                if self.random() < 0.4:
                    out.append(self.plain(0x103))
                    depth -= 1
            elif x < 0.8:
                if depth > 1 or self.rare(0.1):
                    out.append(self.plain(0x103))
                    depth -= 1
            elif x < 0.88:
                out.append(self.plain(self.pick((0x104, 0x104, 0x100, 0x101))))
            while self.rare(0.08):
                out.append(self.foreign())
            if self.rare(0.04):
                out.append(self.plain(0x17F))
        if not self.rare(0.08):
            out.extend(self.plain(0x103) for _ in range(max(depth, 0)))
            if self.random() < 0.4:
                out.append(self.plain(0x101))
        if self.rare(0.06):
            out.extend(self.plain(0x103) for _ in range(1 + self.upto(2)))
        if self.rare(0.06):
            out.append(self.start())
            if self.random() < 0.5:
                out.append(self.plain(0x103))
        if self.rare(0.1):
            out.append(self.foreign())
        if self.rare(0.06):
            i = self.upto(len(out))
            out.insert(i, self.foreign())
        return b"".join(out)

    def file(self):
        rest = self.pool() + self.map() + self.body()
        kind, head, size = 3, 8, 8 + len(rest)
        if self.rare(0.05):
            kind = self.pick((0, 1, 2, 0x180, 0xFFFF))
        if self.rare(0.01):
            head = self.pick((0, 7, 9, 16, 0xFFFF))
        if self.rare(0.05):
            size = self.number()
        f = header(kind, head, size) + rest
        x = self.random() * self.calm
        if x < 0.25:
            f = f[:self.upto(len(f))]
        elif x < 0.45:
            f = f[:len(f) - self.upto(min(len(f), 60))]
        elif x < 0.6:
            f += self.noise(1 + self.upto(30))
        elif x < 0.7:
            f = bytearray(f)
            for _ in range(1 + self.upto(3)):
                i = self.upto(len(f) - 1)
                f[i] = self.pick((0, 1, 0xFF, self.upto(255), f[i] ^ 1 << self.upto(7)))
            f = bytes(f)
        return f


def make(seed, index):
    return Maker(seed, index).file()


def files(seed, first, count):
    for i in range(first, first + count):
        yield make(seed, i)


if __name__ == "__main__":
    s, a, n = map(int, sys.argv[1:4])
    for k in range(a, a + n):
        with open(f"{sys.argv[4]}/{s}-{k}.axml", "wb") as o:
            o.write(make(s, k))
