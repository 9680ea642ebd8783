"""The files that are timed, made the same each time.

  ordinary(size)   elements as an application's manifest has them, with several attributes each, closed, up to so many bytes
  HOSTILE          name, function: files that make a reader work
  LONG             name, function: files of long names, each used often
  LONG_16          the same, of 16 MiB
  SLOW             name, function: files that are slower than they should be still
  MANY             name, function, rounds: elements of very many attributes
  REPEATING        name, function, whether names are lent: elements whose attributes repeat
  real()           (name, bytes): manifests that aapt makes of oracle/real.py's texts, the framework's own, and the longest of its other files.
                   Manifests have UTF-16 pools, whatever aapt is told; the other files have UTF-8 ones.
"""
import os
import struct
import subprocess
import sys
import tempfile
import zipfile

TOP = os.path.dirname(os.path.dirname(os.path.abspath(__file__)))
sys.path.insert(0, f"{TOP}/oracle")
sys.dont_write_bytecode = True
from needed import FRAMEWORK
from real import manifest
NONE = 0xFFFFFFFF
LIMIT = 16_777_216


def chunk(kind, header, body):
    return struct.pack("<HHI", kind, header, 8 + len(body)) + body


def node(kind, body):
    return chunk(kind, 16, struct.pack("<II", 1, NONE) + body)


def start(name, attributes=()):
    """attributes: (namespace, name, type, data)"""
    rows = b"".join(struct.pack("<IIIHBBI", ns, n, NONE, 8, 0, kind, data) for ns, n, kind, data in attributes)
    return node(0x102, struct.pack("<IIHHHHHH", NONE, name, 20, 20, len(attributes), 0, 0, 0) + rows)


def end(name):
    return node(0x103, struct.pack("<II", NONE, name))


def pool(data, offsets, utf8):
    body = struct.pack(f"<{len(offsets)}I", *offsets) + data
    return chunk(1, 28, struct.pack("<5I", len(offsets), 0, 0x100 if utf8 else 0, 28 + 4 * len(offsets), 0) + body)


def pool8(texts):
    """A UTF-8 pool of texts shorter than 128 bytes."""
    data, offsets = b"", []
    for t in texts:
        offsets.append(len(data))
        data += bytes((len(t), len(t))) + t + b"\0"
    return pool(data + bytes(-len(data) % 4), offsets, True)


def whole(parts, ids=()):
    """A file: its pool, the map, the nodes."""
    first, *rest = parts
    return chunk(3, 8, first + chunk(0x180, 8, struct.pack(f"<{len(ids)}I", *ids)) + b"".join(rest))


def ordinary(size):
    words = (b"name exported label launchMode theme android manifest application activity intent-filter action category "
             b"http://schemas.android.com/apk/res/android android.intent.action.MAIN android.intent.category.LAUNCHER "
             b"org.example.Main Visits priority").split()
    at = {w.decode(): i for i, w in enumerate(words)}
    ids = (0x01010003, 0x01010010, 0x01010001, 0x0101001D, 0x01010000)
    ns = at["http://schemas.android.com/apk/res/android"]
    group = b"".join((
        start(at["activity"], ((ns, 0, 3, at["org.example.Main"]), (ns, 1, 18, NONE), (ns, 2, 3, at["Visits"]), (ns, 3, 16, 1), (ns, 4, 1, 0x01030005))),
        start(at["intent-filter"], ((ns, at["priority"], 16, 7),)),
        start(at["action"], ((ns, 0, 3, at["android.intent.action.MAIN"]),)), end(at["action"]),
        start(at["category"], ((ns, 0, 3, at["android.intent.category.LAUNCHER"]),)), end(at["category"]),
        end(at["intent-filter"]), end(at["activity"])))
    head = pool8(words)
    opening = start(at["manifest"]) + start(at["application"], ((ns, 2, 3, at["Visits"]), (ns, 4, 1, 0x01030005)))
    closing = end(at["application"]) + end(at["manifest"])
    room = size - len(whole((head, opening, closing), ids))
    return whole((head, opening, group * (room // len(group)), closing), ids)


def foreign():
    one = pool8([b"a"])
    return whole((one, start(0), struct.pack("<HHI", 0x200, 8, 8) * 2_000_000, end(0)))


def both_sorts():
    """Foreign chunks and nodes whose header is not 16 by turns: each is a run of its own."""
    one = pool8([b"a"])
    return whole((one, start(0), struct.pack("<HHIHHI", 0x200, 8, 8, 0x102, 8, 8) * 1_000_000, end(0)))


def nested():
    return whole((pool8([b"a"]), start(0) * 279_000, end(0) * 279_000))


def pool16(texts):
    """A UTF-16 pool."""
    data, offsets = [], [0]
    for t in texts:
        n = len(t)
        data.append((struct.pack("<HH", 0x8000 | n >> 16, n & 0xFFFF) if n > 0x7FFF else struct.pack("<H", n)) + t.encode("utf-16-le") + b"\0\0")
        offsets.append(offsets[-1] + len(data[-1]))
    return pool(b"".join(data) + bytes(-offsets[-1] % 4), offsets[:-1], False)


def many_attributes(count, common="", wide=False):
    """One element with so many attributes, whose names have the same letters first."""
    names = [f"{common}n{i:04x}" for i in range(count)]
    texts = pool16(names) if wide else pool8([n.encode() for n in names])
    return whole((texts, start(0, [(NONE, i, 16, i) for i in range(count)]), end(0)))


def elements(names, wide=False, repeated=1, spaces=(NONE,)):
    """So many elements, each with an attribute of every name in every namespace; a namespace is the index of a text behind the names."""
    texts = [*names, "http://schemas.android.com/apk/res/android"]
    pooled = pool16(texts) if wide else pool8([n.encode() for n in texts])
    one = start(0, [(ns, i, 16, i) for ns in spaces for i in range(len(names))]) + end(0)
    return whole((pooled, start(0), one * repeated, end(0)))


def mixed(state, value):
    """tables/specs/Inner/Keys.antt"""
    x = (state >> 32 ^ value) * 2654435769
    y = ((state & 0xFFFFFFFF) + value & 0xFFFFFFFF) * 3266489917
    return (x >> 32 ^ y & 0xFFFFFFFF) << 32 | (y >> 32 ^ x & 0xFFFFFFFF)


def colliding(count, bits):
    """So many names whose keys, with no prefix, agree in their lowest bits: nothing in the reader is secret."""
    made, i, letters = [], 0, "abcdefghijklmnopqrstuvwxyzABCDEFGHIJKLMNOPQRSTUVWXYZ0123456789"
    while len(made) < count:
        first, state = f"n{i:x}-", 0
        for c in first:
            state = mixed(state, ord(c))
        made += [first + c for c in letters if not mixed(mixed(state, ord(c)), 0) >> 32 & (1 << bits) - 1]
        i += 1
    return made[:count]


def last_units(count, length):
    """Names of so many units that differ in the last one alone."""
    return ["a" * (length - 1) + chr(0x4E00 + i) for i in range(count)]


def long_names(letter):
    """Six names of a million units that differ in their last unit alone, on twenty elements."""
    texts = [letter * 999_999 + last for last in "abcdef"]
    one = start(0, [(NONE, i, 16, i) for i in range(1, 6)]) + end(0)
    return whole((pool16(texts), start(0), one * 20, end(0)))


def length8(n):
    return struct.pack(">H", 0x8000 | n) if n > 0x7F else bytes((n,))


def pool_of(texts, utf8):
    """A pool of texts of any length that its encoding holds: in UTF-8 32,767 bytes at most."""
    if not utf8:
        return pool16(texts)
    data, offsets = [], [0]
    for t in texts:
        raw = t.encode()
        data.append(length8(len(t)) + length8(len(raw)) + raw + b"\0")
        offsets.append(offsets[-1] + len(data[-1]))
    return pool(b"".join(data) + bytes(-offsets[-1] % 4), offsets[:-1], True)


def long_texts(count, units, letter):
    """So many names of about so many units each; they differ in their last units alone."""
    return [letter * (units - 4) + f"{i:04x}" for i in range(count)]


def in_turns(size, count, utf8=False, letter="a", tags=False, each=1, bad=False, step=1):
    """So many long names, half the file, used in turns by the rest: as attributes, so many to an element, or as elements' own names.
    bad: no name is valid, for its last unit. step: the indices that are used are so far apart, and between them stand names of one letter."""
    each_unit = len(letter.encode()) if utf8 else 2
    units = min(size // 2 // count, 32_760 if utf8 else LIMIT) // each_unit
    texts = [t + "!" if bad else t for t in long_texts(count, units, letter)]
    spread = [texts[i // step] if i % step == 0 else "a" for i in range((count - 1) * step + 1)]
    spread.append("a")
    short, head = len(spread) - 1, pool_of(spread, utf8)
    made, at, room = [], 0, size - len(whole((head, start(short), end(short))))
    while True:
        if tags:
            part = start(at % count * step) + end(short)
            at += 1
        else:
            part = start(short, [(NONE, (at + k) % count * step, 16, k) for k in range(each)]) + end(short)
            at += each
        room -= len(part)
        if room < 0:
            return whole((head, start(short), b"".join(made), end(short)))
        made.append(part)


def noted(kind, tag, bad):
    """A chunk that makes one note, and its end where it is a start: seven sorts of notes."""
    head = struct.pack("<II", NONE, tag)
    if kind == 0:
        return struct.pack("<HHI", 0x200, 8, 8)
    if kind == 1:
        return struct.pack("<HHI", 0x102, 8, 8)
    if kind == 2:
        return node(0x102, head + struct.pack("<HHHHHHIIIHBBII", 20, 24, 1, 0, 0, 0, NONE, tag, NONE, 8, 0, 16, 0, 0)) + end(tag)
    if kind == 3:
        return start(bad) + end(tag)
    if kind == 4:
        return start(tag, ((NONE, bad, 16, 0),)) + end(tag)
    if kind == 5:
        return node(0x102, head + struct.pack("<HHHHHHI", 24, 20, 0, 0, 0, 0, 0)) + end(tag)
    return node(0x102, head + struct.pack("<HHHHHHI", 20, 20, 0, 0, 0, 0, 0)) + end(tag)


def between_notes(size, count, utf8, letter):
    """So many long names, half the file, each used once between any two of 112 notes: 16 of each of seven sorts, as many as the Rust keeps."""
    units = min(size // 2 // count, 32_760 if utf8 else LIMIT) // (len(letter.encode()) if utf8 else 2)
    tag, bad = count, count + 1
    head = pool_of([*long_texts(count, units, letter), "a", "1"], utf8)
    each = b"".join(start(tag, ((NONE, i, 16, i),)) + end(tag) for i in range(count))
    return whole((head, start(tag), b"".join(each + noted(k % 7, tag, bad) for k in range(112)), end(tag)))


def overlapping(size):
    """One long text whose letters are lengths too, half the file, and strings that begin at each of its first letters: each is half of it."""
    letters = struct.pack("<HH", 0x8000 | size // 8 >> 16, 0x5000)
    data = letters * (size // 8)
    count = size // 32
    head = pool(data, [4 * i for i in range(count)], False)
    room = size - len(whole((head, start(0), end(0))))
    return whole((head, start(0), b"".join(start(i % count) + end(0) for i in range(room // 60)), end(0)))


def on_each(size, texts, utf8, order=None):
    """Elements that each have an attribute of every one of the texts, or of the indices of `order`, up to so many bytes."""
    last = len(texts)
    head = pool_of([*texts, "a"], utf8)
    one = start(last, [(NONE, i, 16, i) for i in order or range(last)]) + end(last)
    room = size - len(whole((head, start(last), end(last))))
    return whole((head, start(last), one * (room // len(one)), end(last)))


def shares(size, count, utf8):
    """Units of each of so many texts that take half the file."""
    return min(size // 2 // count // (1 if utf8 else 2), 32_760 if utf8 else LIMIT)


def differing(size, count, place, utf8=False, step=1):
    """So many long names that differ in one unit alone, the first or the middle one, all on each element; their indices are `step` apart."""
    units = shares(size, count, utf8)
    at = units // 2 if place == "middle" else 0
    texts = ["a" * at + chr(98 + i) + "a" * (units - at - 1) for i in range(count)]
    spread = [texts[i // step] if i % step == 0 else "a" for i in range((count - 1) * step + 1)]
    return on_each(size, spread, utf8, [i * step for i in range(count)])


def copied(size, count, utf8=False):
    """One long name at so many indices, all on each element."""
    return on_each(size, ["a" * shares(size, count, utf8)] * count, utf8)


def far_name(size, utf8=False):
    """A long name as the 33rd attribute of each element."""
    return on_each(size, [*(f"n{i:02}" for i in range(32)), "a" * shares(size, 1, utf8)], utf8)


def in_spaces(size, texts, utf8):
    """Elements that each have one attribute's name in every one of these namespaces."""
    name, tag = len(texts), len(texts) + 1
    head = pool_of([*texts, "n", "a"], utf8)
    one = start(tag, [(i, name, 16, i) for i in range(name)]) + end(tag)
    room = size - len(whole((head, start(tag), end(tag))))
    return whole((head, start(tag), one * (room // len(one)), end(tag)))


def long_spaces(size, count, place, utf8=False):
    """So many long namespaces that take half the file and differ in one unit alone, the first, the middle or the last one, all on each element."""
    units = shares(size, count, utf8)
    at = {"first": 0, "middle": units // 2, "last": units - 1}[place]
    return in_spaces(size, ["a" * at + chr(98 + i) + "a" * (units - at - 1) for i in range(count)], utf8)


def by_turns(size, texts, utf8, each):
    """Elements that have so many attributes each, whose names go through the texts in turns, up to so many bytes."""
    last, at, made = len(texts), 0, []
    head = pool_of([*texts, "a"], utf8)
    room = size - len(whole((head, start(last), end(last))))
    while True:
        part = start(last, [(NONE, (at + k) % last, 16, k) for k in range(each)]) + end(last)
        at, room = at + each, room - len(part)
        if room < 0:
            return whole((head, start(last), b"".join(made), end(last)))
        made.append(part)


def cyrillic(i):
    """Three letters that tell i, the one that differs most first."""
    return "".join(chr(0x430 + (i >> 5 * k) % 32) for k in range(3))


def offsets():
    data = b"\1\1a\0"
    return whole((pool(data, [0] * 4_000_000, True), start(3_999_999), end(0)))


# Sixteen attributes of an application's elements: their ids, and their names in the order of the ids.
ATTRIBUTES = ((0x01010000, "theme"), (0x01010001, "label"), (0x01010002, "icon"), (0x01010003, "name"), (0x01010006, "permission"),
              (0x0101000E, "enabled"), (0x01010010, "exported"), (0x01010011, "process"), (0x01010012, "taskAffinity"),
              (0x01010017, "excludeFromRecents"), (0x0101001C, "priority"), (0x0101001D, "launchMode"), (0x0101001E, "screenOrientation"),
              (0x0101001F, "configChanges"), (0x01010020, "description"), (0x0101022B, "windowSoftInputMode"))


def repeating(order, mapped=False, copies=1):
    """A thousand elements whose attributes have the indices of `order`, in a pool that has each of the sixteen names `copies` times."""
    texts = [name for _, name in ATTRIBUTES] * copies
    ids = [number for number, _ in ATTRIBUTES] * copies if mapped else ()
    one = start(0, [(NONE, i, 16, i) for i in order]) + end(0)
    return whole((pool16(texts), start(0), one * 1000, end(0)), ids)


SIXTEEN = tuple(range(16))
REPEATING = (("each index four times", lambda: repeating(SIXTEEN * 4), False),
             ("one index 64 times", lambda: repeating((9,) * 64), False),
             ("each name at four indices", lambda: repeating(range(64), copies=4), False),
             ("each index four times, names lent", lambda: repeating(SIXTEEN * 4, True), True),
             ("one index 64 times, names lent", lambda: repeating((9,) * 64, True), True),
             ("each system name at four indices", lambda: repeating(range(64), True, 4), True))

# name, file, rounds: 0 where a reading takes so long that one will do, and --quick leaves it out
HOSTILE = (("2,000,000 foreign chunks in a run", foreign, 11),
           ("2,000,000 foreign chunks of two sorts by turns", both_sorts, 11),
           ("279,000 levels", nested, 7),
           ("4,000,000 offsets", offsets, 11),
           ("names of a million UTF-16 units, ASCII", lambda: long_names("a"), 3),
           ("names of a million UTF-16 units, Cyrillic", lambda: long_names("\u0436"), 3),
           ("8,192 attributes of different names", lambda: many_attributes(8192), 5),
           ("8,192 attributes, UTF-16", lambda: many_attributes(8192, wide=True), 3),
           ("8,192 attributes, the first 100 letters the same", lambda: many_attributes(8192, "a" * 100), 3))

HEXED = [f"n{i:04x}" for i in range(65_535)]
MANY = (("65,535 attributes of different names", lambda: elements(HEXED), 0),
        ("12 elements of 65,535 attributes", lambda: elements(HEXED, repeated=12), 0),
        ("32,767 names in two namespaces", lambda: elements(HEXED[:32_767], spaces=(NONE, 32_767)), 0),
        ("8,192 names whose keys agree in 8 bits", lambda: elements(colliding(8_192, 8)), 5),
        ("500 names of 1,000 units that differ in the last, in 10 elements", lambda: elements(last_units(500, 1_000), True, 10), 5))

BOTH = (("", False), (", UTF-8", True))

# how a name is written: UTF-16, and in UTF-8 by one, two or three bytes a char
SCRIPTS = (("UTF-16", False, "a"), ("UTF-8", True, "a"), ("Cyrillic in UTF-8", True, "\u0436"), ("kana in UTF-8", True, "\u3042"))

# chars that are told one by one
TOLD = (("kana in UTF-16", False, "\u3042"), ("Greek in UTF-16", False, "\u03b1"), ("Thai in UTF-8", True, "\u0e01"), ("Myanmar in UTF-8", True, "\u1000"),
        ("four bytes a char in UTF-8", True, "\U00020000"), ("letters and Thai by turns in UTF-8", True, "a\u0e01"))

LONG = (("one long name in one element", lambda: in_turns(1_500_000, 1, each=30_000)),
        ("one long name, once in each element", lambda: in_turns(1_000_000, 1)),
        *((f"{n:,} long names in turns", lambda n=n: in_turns(1_000_000, n)) for n in (2, 17, 257, 1025, 4097)),
        *((f"{n:,} long names in turns, UTF-8", lambda n=n: in_turns(1_000_000, n, True)) for n in (1, 17, 257, 1025, 4097)),
        ("17 long Cyrillic names in turns", lambda: in_turns(1_000_000, 17, letter="\u0436")),
        ("one long element name", lambda: in_turns(400_000, 1, tags=True)),
        ("17 long element names in turns", lambda: in_turns(1_000_000, 17, tags=True)),
        ("one long name that is not valid", lambda: in_turns(1_000_000, 1, bad=True)),
        ("two long names 1,024 indices apart", lambda: in_turns(1_000_000, 2, step=1024)),
        ("three long names 1,024 indices apart", lambda: in_turns(1_000_000, 3, step=1024)),
        ("two long names 1,024 indices apart, UTF-8", lambda: in_turns(1_000_000, 2, True, step=1024)),
        ("two long Cyrillic names 1,024 indices apart, UTF-8", lambda: in_turns(1_000_000, 2, True, letter="\u0436", step=1024)),
        *((f"130 long names 1,024 indices apart, {script}", lambda u=u, letter=letter: in_turns(4_000_000, 130, u, letter, step=1024)) for script, u, letter in SCRIPTS),
        *((f"16 long names that differ in the {place} unit{encoding}", lambda place=place, u=u: differing(1_000_000, 16, place, u))
          for place in ("first", "middle") for encoding, u in BOTH),
        *((f"a long name at {n} indices{encoding}", lambda n=n, u=u: copied(1_000_000, n, u)) for n in (2, 16) for encoding, u in BOTH),
        *((f"a long name as the 33rd attribute{encoding}", lambda u=u: far_name(1_000_000, u)) for encoding, u in BOTH),
        *((f"17 long names in turns, {script}", lambda u=u, letter=letter: in_turns(1_000_000, 17, u, letter)) for script, u, letter in TOLD),
        *((f"17 long names between any two of 112 notes, {script}", lambda u=u, letter=letter: between_notes(1_000_000, 17, u, letter)) for script, u, letter in (*SCRIPTS, *TOLD)))

LONG_16 = (("one long name in elements of 65,535", lambda: in_turns(LIMIT, 1, each=65_535)),
           ("one long name, once in each element", lambda: in_turns(LIMIT, 1)),
           *((f"{n:,} long names in turns", lambda n=n: in_turns(LIMIT, n)) for n in (17, 257, 1025, 4097)),
           *((f"{n:,} long names in turns, UTF-8", lambda n=n: in_turns(LIMIT, n, True)) for n in (257, 1025, 4097)),
           ("17 long element names in turns", lambda: in_turns(LIMIT, 17, tags=True)),
           ("17 long names that are not valid", lambda: in_turns(LIMIT, 17, bad=True)),
           ("two long names 1,024 indices apart", lambda: in_turns(LIMIT, 2, step=1024)),
           ("three long names 1,024 indices apart", lambda: in_turns(LIMIT, 3, step=1024)),
           *((f"600 long names 1,024 indices apart, {script}", lambda u=u, letter=letter: in_turns(LIMIT, 600, u, letter, step=1024)) for script, u, letter in SCRIPTS),
           ("16 long names that differ in the first unit", lambda: differing(LIMIT, 16, "first")),
           ("16 long names that differ in the middle unit, UTF-8", lambda: differing(LIMIT, 16, "middle", True)),
           ("a long name at 2 indices", lambda: copied(LIMIT, 2)),
           ("a long name at 16 indices, UTF-8", lambda: copied(LIMIT, 16, True)),
           ("a long name as the 33rd attribute", lambda: far_name(LIMIT)))

# Read by ours in the second mode, by the Rust as ever.
SPACES = (("one long namespace", lambda: long_spaces(1_000_000, 1, "last")),
          ("two long namespaces on each element", lambda: long_spaces(1_000_000, 2, "last")),
          *((f"16 long namespaces that differ in the {place} unit{encoding}", lambda place=place, u=u: long_spaces(1_000_000, 16, place, u))
            for place in ("first", "middle", "last") for encoding, u in BOTH))

# Left slow, and so in no bar: strings that lie in each other (docs/DECISIONS.md, 33), and names of which many are compared one by one (12).
SLOW = (("strings that lie in each other", lambda: overlapping(1_000_000)),
        ("1,000 names of 250 units that differ in the first, 32 on each element", lambda: by_turns(1_000_000, [chr(0x4E00 + i) + "a" * 249 for i in range(1000)], False, 32)),
        ("names of 60 letters that differ in the first, 32 on each element, UTF-8", lambda: by_turns(1_000_000, [f"n{i:04x}" + "n" * 55 for i in range(64)], True, 32)),
        *((f"names of {n} Cyrillic letters, {each} on each element, UTF-8", lambda n=n, each=each: by_turns(1_000_000, ["\u0436" * (n - 3) + cyrillic(i) for i in range(64)], True, each))
          for n, each in ((20, 32), (60, 32), (60, 16), (60, 4))))

# Texts of oracle/real.py whose manifests have from 2 to 400 KB.
MANIFESTS = (46, 1, 5, 19, 2, 25)


def real():
    made = []
    with tempfile.TemporaryDirectory() as d:
        for number in MANIFESTS:
            with open(f"{d}/AndroidManifest.xml", "w", encoding="utf-8") as f:
                f.write('<?xml version="1.0" encoding="utf-8"?>\n' + manifest(number))
            subprocess.run(["aapt", "package", "-f", "-M", f"{d}/AndroidManifest.xml", "-I", FRAMEWORK, "-F", f"{d}/a.apk"], check=True,
                           stdout=subprocess.DEVNULL)
            with zipfile.ZipFile(f"{d}/a.apk") as z:
                made.append((f"manifest {number}", z.read("AndroidManifest.xml")))
    with zipfile.ZipFile(FRAMEWORK) as z:
        made.append(("manifest of the framework", z.read("AndroidManifest.xml")))
        others = [z.read(n) for n in z.namelist() if n.endswith(".xml") and n != "AndroidManifest.xml"]
    return sorted(made, key=lambda m: len(m[1])), max((b for b in others if b[:4] == b"\3\0\x08\0"), key=len)
