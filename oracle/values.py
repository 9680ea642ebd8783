"""Files to ask for value texts: attributes of every type, with names that have named values, through the pool and through the map.

  files(seed, count)   count files, the same for the same seed; some 70 attributes each
"""
import random
import struct

import cases
import rust

ANDROID = "http://schemas.android.com/apk/res/android"
TEXTS = ["", "a", "true", "singleTop", "\u00e4\u20ac\U0001f600", "com.example.App", "x" * 200]


def named():
    """The attributes that have items, with their values; and an id for each that has one."""
    values, ids = {}, {}
    for path in rust.ITEMS[:2]:
        for line in open(path):
            cells = line.rstrip("\n").split("\t")
            values.setdefault(cells[0], []).append(int(cells[3], 16))
    for path in cases.SETS[:1]:
        for line in open(path):
            i, name = line.rstrip("\n").split(" ", 1)
            if name.startswith("android:attr/"):
                ids[name[13:]] = int(i, 16)
    return values, ids


VALUES, IDS = named()
NAMES = list(VALUES) + ["name", "value", "exported", "versionCode", "minSdkVersion", "icon", "b"]
ALL = list(IDS.values())


def pool_of(strings, wide):
    data, offsets = b"", []
    for s in strings:
        offsets.append(len(data))
        if wide:
            u = s.encode("utf-16-le")
            data += struct.pack("<H", len(u) // 2) + u + b"\0\0"
        else:
            u, n = s.encode(), len(s.encode("utf-16-le")) // 2
            length = lambda k: bytes([k]) if k < 128 else bytes([128 | k >> 8, k & 255])
            data += length(n) + length(len(u)) + u + b"\0"
    data += bytes(-len(data) % 4)
    head = struct.pack("<HHIIIIII", 1, 28, 28 + 4 * len(strings) + len(data), len(strings), 0, 0 if wide else 0x100, 28 + 4 * len(strings), 0)
    return head + struct.pack(f"<{len(strings)}I", *offsets) + data


def data_of(r, name, kind, strings):
    """A value that says something: of its items, of the pool, of the names, or any."""
    pick = r.randrange(6)
    if pick < 2 and name in VALUES:
        n = 0
        for v in r.sample(VALUES[name], min(len(VALUES[name]), r.randrange(1, 4))):
            n |= v
        return n ^ (1 << r.randrange(32) if r.random() < 0.2 else 0)
    if kind == 3 or pick == 2:
        return r.choice([r.randrange(strings), strings, strings + 1, 0xFFFFFFFF])
    if pick == 3:
        return r.choice(ALL) if r.random() < 0.7 else 0x01000000 | r.getrandbits(24)
    if pick == 4:
        return r.choice([0, 1, 2, 5, 0x7FFFFFFF, 0x80000000, 0xFFFFFFFF, 1 << r.randrange(32)])
    return r.getrandbits(32)


def one(r, first):
    """A file of seven elements; the types of its attributes run on from `first`."""
    names = r.sample(NAMES, 12)
    mapped = r.randrange(len(names) + 1)
    # the mapped strings come first, as in real files; what stands there in the pool is sometimes another text
    strings = [n if r.random() < 0.8 else "other" for n in names[:mapped]] + names[mapped:] + ["manifest", ANDROID] + TEXTS
    ids = [IDS.get(n, 0x0101FFFF) for n in names[:mapped]]
    body, kind = b"", first
    for _ in range(7):
        attributes = b""
        chosen = r.sample(range(len(names)), 10)
        for k in chosen:
            kinds = kind % 256 if r.random() < 0.5 else r.choice([1, 2, 3, 7, 16, 17, 18, 28, 29, 30, 31])
            kind += 1
            space = len(names) + 1 if r.random() < 0.7 else 0xFFFFFFFF
            attributes += struct.pack("<IIIHBBI", space, k, 0xFFFFFFFF, 8, 0, kinds, data_of(r, names[k], kinds, len(strings)))
        body += struct.pack("<HHIIIIIHHHHHH", 0x102, 16, 36 + len(attributes), 1, 0xFFFFFFFF, 0xFFFFFFFF, len(names), 20, 20, len(chosen), 0, 0, 0) + attributes
    body += cases.END * 7
    head = pool_of(strings, r.random() < 0.6) + struct.pack(f"<HHI{len(ids)}I", 0x180, 8, 8 + 4 * len(ids), *ids) + body
    return struct.pack("<HHI", 3, 8, 8 + len(head)) + head


def files(seed, count):
    r = random.Random(seed)
    for k in range(count):
        yield one(r, 70 * k)
