"""The files that tools/test-axml-show shows, the same bytes each time: python3 tools/show_cases.py DIR writes them as DIR/NAME.axml (tools/show has them).

  manifest-46, manifest-1   real manifests: aapt's, of the texts of oracle/real.py (Debian's aapt and android-framework-res; left out where missing)
  readme                    the manifest whose page is at the top of README.md
  values                    attributes of every type of value: named values, flags with unnamed bits, references by name and by number, types without
                            plain text
  hidden                    control characters, marks of direction and all sorts of unseen characters in texts, names and namespaces
  damaged                   UTF-8 that is not, cut strings, strings outside the pool; and in damaged-16 bad UTF-16
  odd                       every kind of note but those of the head
  deep                      elements in one another, 60 levels
  long                      a text of 3,000 bytes, and lines of ten digits
"""
import os
import struct
import sys

TOP = os.path.dirname(os.path.dirname(os.path.abspath(__file__)))
sys.path.insert(0, f"{TOP}/bench")
sys.dont_write_bytecode = True
import files
from files import NONE, chunk, end, node, pool, pool8, start, whole

ANDROID = b"http://schemas.android.com/apk/res/android"


def line(number, element):
    """The start of an element, with another line number."""
    return element[:8] + struct.pack("<I", number) + element[12:]


def pool16(texts):
    """A UTF-16 pool of texts of fewer than 32,768 units, characters beyond U+FFFF too."""
    data, offsets = b"", []
    for t in texts:
        offsets.append(len(data))
        units = t.encode("utf-16-le") if isinstance(t, str) else t
        data += struct.pack("<H", len(units) // 2) + units + b"\0\0"
    return pool(data + bytes(-len(data) % 4), offsets, False)


def table(words):
    """Where each word of a pool stands."""
    return {w: i for i, w in enumerate(words)}


def readme():
    words = ["versionCode", "versionName", "name", "theme", "label", "exported", "configChanges", ANDROID.decode(), "manifest", "package",
             "org.example.visits", "5.77", "urn:own", "depot", "\u00dcbergabe", "uses-permission", "android.permission.NFC", "application", "activity",
             ".Visit", "intent-filter", "action", "android.intent.action.MAIN", "category", "android.intent.category.LAUNCHER"]
    at = table(words)
    a, ids = at[ANDROID.decode()], (0x0101021B, 0x0101021C, 0x01010003, 0x01010000, 0x01010001, 0x01010010, 0x0101001F)

    def named(element, text):
        return start(at[element], [(a, at["name"], 3, at[text])])
    manifest = [(a, at["versionCode"], 16, 560161641), (a, at["versionName"], 3, at["5.77"]), (NONE, at["package"], 3, at["org.example.visits"]),
                (at["urn:own"], at["depot"], 3, at["\u00dcbergabe"])]
    activity = [(a, at["name"], 3, at[".Visit"]), (a, at["exported"], 18, NONE), (a, at["configChanges"], 17, 0x08000090)]
    parts = [line(2, start(at["manifest"], manifest)),
             line(4, named("uses-permission", "android.permission.NFC")), end(0), chunk(0x105, 8, b""),
             line(8, start(at["application"], [(a, at["theme"], 1, 0x01030224), (a, at["label"], 1, 0x7F0B0001)])),
             line(9, start(at["activity"], activity)),
             line(10, start(at["intent-filter"])), line(11, named("action", "android.intent.action.MAIN")), end(0),
             line(12, named("category", "android.intent.category.LAUNCHER")), end(0), end(0), end(0), end(0), end(0)]
    return whole((pool16(words), *parts), ids)


def values():
    words = ["exported", "configChanges", "launchMode", "label", "theme", "icon", "minSdkVersion", "manifest", ANDROID.decode(), "urn:own", "kind", "true",
             "package", "org.example.values", "versionCode", "versionName", "1.0", "uses-permission", "name", "android.permission.NFC",
             "uses-permission-sdk-23", "activity"]
    at = table(words)
    a, own = at[ANDROID.decode()], at["urn:own"]
    ids = (0x01010010, 0x0101001F, 0x0101001D, 0x01010001, 0x01010000, 0x01010002, 0x0101020C)
    shown = [(a, at["exported"], 18, NONE), (a, at["configChanges"], 17, 0x08000090), (a, at["launchMode"], 16, 1), (a, at["label"], 1, 0x7F0B0001),
             (a, at["theme"], 1, 0x01030005), (a, at["icon"], 2, 0x01010003), (a, at["minSdkVersion"], 16, 21)]
    odd = [(a, at["configChanges"], 17, 0xB0), (NONE, at["configChanges"], 17, 0x08000000), (a, at["launchMode"], 16, 77),
           (own, at["kind"], 3, at["true"]), (a, at["exported"], 3, at["true"]), (NONE, at["kind"], 5, 0x00000801), (a, at["kind"], 4, 0x3F800000),
           (a, at["label"], 3, 9999), (own, at["label"], 0, 0), (NONE, at["label"], 16, 0xFFFFFFFF), (NONE, at["icon"], 28, 0xFF00FF00),
           (NONE, at["theme"], 2, 0x7F010001), (NONE, at["exported"], 18, 0), (own, at["theme"], 7, 0x02020003), (own, at["icon"], 255, 255)]
    first = [(own, at["package"], 3, at["true"]), (NONE, at["package"], 3, at["org.example.values"]), (a, at["versionCode"], 16, 42),
             (a, at["versionName"], 3, at["1.0"])]
    asked = [(a, at["name"], 3, at["android.permission.NFC"])]
    parts = [line(2, start(at["manifest"], first)), line(3, start(at["uses-permission"], asked)), end(0),
             line(4, start(at["uses-permission-sdk-23"], asked)), end(0), line(5, start(at["uses-permission"])), end(0),
             line(10, start(at["activity"], shown)), end(0), line(11, start(at["activity"], odd)), end(0), end(0)]
    return whole((pool8([w.encode() for w in words]), *parts), ids)


def hidden():
    texts = ["manifest", ANDROID.decode(), "label", "urn:\u202eevil\u2066", "a\u061cb", "n\ufeffm", "l\u0661",
             "".join(map(chr, range(32))), "\x7f\x80\x85\x9b\x9f\xa0\xad",
             "\u200b\u200c\u200d\u200e\u200f \u2028\u2029\u202a\u202b\u202c\u202d\u202e",
             "\u2060\u2066\u2067\u2068\u2069\u206f\ufeff\ufff9\ufffb\u034f\u3164\ufe0f", "\U000e0001\U000e0041\U000f0000\U0010ffff\U0001ffff\ue000",
             "\x1b[2J\x1b[1;1Hnothing is odd in this file\r\n", "a \"quoted\" \\ text",
             "\u63a1\u8840 \u041d\u0443\u0440\u0441 \u00dcbergabe \U0001f600", "nothing is odd\u2028in this file"]
    rows = [(1, 2, 3, k) for k in range(7, len(texts))]
    parts = [start(0, [(3, 2, 3, 3), (3, 5, 3, 3)]), *(start(4, [row]) + end(4) for row in rows), start(6) + end(6), end(0)]
    return whole((pool16(texts), *parts))


def damaged():
    texts = [b"manifest", b"na\xffme", b"name", b"\xff\xfe\xe2\x82", b"urn:\xc0", b"cut", ANDROID, b"whole \xef\xbf\xbd", b"outside"]
    data, offsets = b"", []
    for t in texts:
        offsets.append(len(data))
        data += bytes((len(t), len(t))) + t + b"\0"
    offsets[5] = len(data)  # a string whose bytes pass the end of the data
    data += bytes((9, 9)) + b"cu"
    offsets[8] = len(data) + 100
    rows = [(6, 2, 3, 3), (4, 2, 3, 5), (6, 1, 3, 8), (NONE, 2, 3, 7), (NONE, 1, 3, 0)]
    return whole((pool(data, offsets, True), start(0, rows), start(1), end(1), start(5), end(5), end(0)))


def damaged_16():
    texts = ["manifest", "label", struct.pack("<3H", 0x61, 0xD800, 0x62), ANDROID.decode()]
    return whole((pool16(texts), start(0, [(3, 1, 3, 2), (NONE, 1, 3, 1)]), start(2), end(2), end(0)))


def odd():
    words = [b"manifest", b"a b", b"name", b"urn:x"]
    late = struct.pack("<IIHHHHHH", NONE, 2, 24, 24, 1, 0, 0, 0) + b"late" + struct.pack("<IIIHBBI", NONE, 2, NONE, 8, 0, 16, 7) + b"moretrailing"
    parts = [start(0, [(NONE, 1, 16, 1), (NONE, 2, 16, 2), (NONE, 2, 16, 3)]), chunk(0x105, 8, b""), chunk(0x102, 8, b"12345678"), node(0x17F, b""),
             node(0x102, late), end(2), start(1), end(1), start(77), end(77), chunk(0x200, 8, b"1234"), start(2), end(2), start(2), start(2), end(2),
             struct.pack("<HHI", 0x103, 16, 24) + b"cut"]
    return whole((pool8(words), *parts))


def deep():
    return whole((pool8([b"manifest", b"name"]), *(start(0, [(NONE, 1, 16, k)]) for k in range(60)), end(0) * 60))


def long():
    words = ["manifest", "label", "x" * 2999 + "\u20ac", ANDROID.decode()]
    return whole((pool16(words), line(4294967295, start(0, [(3, 1, 3, 2)])), line(7, start(0)), end(0), end(0)))


CASES = {"readme": readme, "values": values, "hidden": hidden, "damaged": damaged, "damaged-16": damaged_16, "odd": odd, "deep": deep, "long": long}


def main(out):
    os.makedirs(out, exist_ok=True)
    made = {name: make() for name, make in CASES.items()}
    try:
        real = dict(files.real()[0])
        made.update({f"manifest-{n}": real[f"manifest {n}"] for n in (46, 1)})
    except OSError as why:
        print(f"show_cases.py: no real manifests: {why}", file=sys.stderr)
    for name, data in made.items():
        with open(f"{out}/{name}.axml", "wb") as f:
            f.write(data)


if __name__ == "__main__":
    if len(sys.argv) != 2:
        sys.exit("usage: python3 tools/show_cases.py DIR")
    main(sys.argv[1])
