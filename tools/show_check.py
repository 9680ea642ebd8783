"""Holds what axml-show prints to the rules: python3 tools/show_check.py PROGRAM [--generated COUNT] [FILE..]

PROGRAM is axml-show, or a build of it for this machine (bench/show makes one), which is faster. For each file, and for COUNT generated ones
(oracle/generate.py and oracle/values.py), `--json` is parsed by python3's json, held to docs/axml-show.schema.json, and compared with oracle/model.py,
which has docs/FORMAT.md as a plain program: every number of the answer, of each node, attribute and note, every text and every value; with the
framework's names and, each third time, without. Of the page every line is looked at for characters that a terminal would obey. Ends with 1 where
anything differs. docs/CASES.md says what was run.
"""
import itertools
import json
import os
import re
import subprocess
import sys
import tempfile
import unicodedata

TOP = os.path.dirname(os.path.dirname(os.path.abspath(__file__)))
sys.path.insert(0, f"{TOP}/oracle")
sys.dont_write_bytecode = True
import cases
import generate
import model
import rust
import values

SCHEMA = json.load(open(f"{TOP}/docs/axml-show.schema.json"))
CAP = 16
# whether the library tells the state of a text: from this form of the interface on
STATES = int(re.search(r"#define AXML_ABI (\d+)u", open(f"{TOP}/include/axml.h").read())[1]) >= 10
ANDROID = "http://schemas.android.com/apk/res/android"


def items():
    named = {}
    for line in open(rust.ITEMS[0]):
        attribute, kind, name, value, _ = line.rstrip("\n").split("\t")
        named.setdefault(attribute, (kind, []))[1].append((name, int(value, 16)))
    return named


LENT = {True: (cases.NAMES[1], items()), False: (model.NO_NAMES, {})}
SYSTEM = {True: {int(i, 16): name for i, name in (line.rstrip("\n").split(" ", 1) for line in open(cases.SETS[0]))}, False: {}}


def holds(schema, value, at="$"):
    """The part of JSON Schema that docs/axml-show.schema.json uses."""
    if "$ref" in schema:
        holds(SCHEMA["$defs"][schema["$ref"].rsplit("/", 1)[1]], value, at)
    kinds = {"string": str, "integer": int, "array": list, "object": dict, "boolean": bool, "null": type(None)}
    if "type" in schema:
        wanted = schema["type"] if isinstance(schema["type"], list) else [schema["type"]]
        assert any(type(value) is kinds[k] for k in wanted), (at, value)
    assert value == schema.get("const", value), (at, value)
    assert value in schema.get("enum", [value]), (at, value)
    if "minimum" in schema and value is not None:
        assert value >= schema["minimum"], (at, value)
    if isinstance(value, dict):
        assert set(schema["required"]) == set(value) == set(schema["properties"]), (at, set(value) ^ set(schema["properties"]))
        for key, part in value.items():
            holds(schema["properties"][key], part, f"{at}.{key}")
    if isinstance(value, list):
        for i, part in enumerate(value):
            holds(schema["items"], part, f"{at}[{i}]")


def damage(head, index):
    """The state of the text of an index, and how many characters were replaced in it: docs/FORMAT.md, T11."""
    if not STATES or head.system(index) is not None or index >= len(head.offsets):
        return 0, 0
    place = head.split(index)
    if place is None:
        return 3, 0
    content = head.file[place[0]:place[1]]
    try:
        content.decode("utf-8" if head.utf8 else "utf-16-le")
        return 0, 0
    except UnicodeDecodeError:
        # one U+FFFD for each bad part; those that the file has itself are as many as stand there when bad parts are left out
        own = content.decode("utf-8", "ignore").count("\ufffd") if head.utf8 else 0
        return (1, content.decode("utf-8", "replace").count("\ufffd") - own) if head.utf8 else (2, 0)


def value_text(head, pool, lent, system, attribute):
    """The text of a value, or None, its unnamed bits, and whether it is the string of its data: docs/FORMAT.md, V1 to V10."""
    _, prefix, name, kind, data, _ = attribute
    if prefix == 2:
        return ANDROID, 0, False
    sort, named = lent.get((head.text(name) or b"").decode(), ("", []))
    bits = 0
    if sort == "enum":
        return next((n for n, v in named if v == data), str(data)), 0, False
    if sort == "flag":
        left, taken = data, []
        for n, v in named:
            if v and left & v == v:
                taken.append(n)
                left &= ~v
        bits = bin(left).count("1")
        if taken:
            return "|".join(taken), bits, False
    if kind in (1, 7):
        return "@" + system.get(data, f"{data:08x}"), bits, False
    if kind == 2:
        return system.get(data, ("@" if data >> 24 == 1 else "?") + f"{data:08x}"), bits, False
    if kind == 3:
        return (pool.text(data) or b"").decode(), bits, True
    if kind == 0x10:
        return str(data - (data >> 31 << 32)), bits, False
    if kind == 0x11:
        return f"0x{data:08x}", bits, False
    if kind == 0x12:
        return "true" if data else "false", bits, False
    if 0x1C <= kind <= 0x1F:
        return f"#{data:08x}", bits, False
    return None, 0, False


def first(o, node, name):
    return next((a["number"] for a in o["nodes"][node]["attributes"] if a["prefix"] < 2 and a["name"] == name), None)


def screens(o):
    """The main screens: the rules of FORMAT, S, on the tables of a reading."""
    nodes = o["nodes"]
    below = [[] for _ in nodes]
    for n in nodes[1:]:
        below[n["parent"]].append(n)

    def children(n, *tags):
        return [c for c in below[n["number"]] if not c["invalid"] and c["name"] in tags]

    def attribute(n, name):
        return next((a for a in n["attributes"] if a["name"] == name), None)

    def says(n, name, *texts):
        a = attribute(n, name)
        return a is not None and a["text"] in texts
    found = []
    for application in children(nodes[0], "application"):
        for activity in children(application, "activity", "activity-alias"):
            starts = any(any(says(c, "name", "android.intent.action.MAIN") for c in children(f, "action"))
                         and any(says(c, "name", "android.intent.category.LAUNCHER", "android.intent.category.INFO") for c in children(f, "category"))
                         for f in children(activity, "intent-filter"))
            name = attribute(activity, "name")
            if starts and name is not None and not says(activity, "enabled", "false"):
                found.append(name["number"])
    return found


def compare(o, file, named):
    """Asserts that the object is what the rules say of the file."""
    names, lent = LENT[named]
    refusal, value, starts, nodes, attributes, notes = model.read(file, names, CAP, trusted=True, mode=2)
    assert (o["refusal"], o["value"], o["starts"], o["bytes"]) == (refusal, value, starts, len(file))
    assert (o["names_lent"], o["items_lent"]) == ((2792, 151) if named else (0, 0))
    assert [(n["kind"], n["a"], n["b"]) for n in o["notes"] if n["kind"] != 32] == [n for n in notes if n[0] != 32]
    assert len(o["nodes"]) == len(nodes) and sum(len(n["attributes"]) for n in o["nodes"]) == len(attributes)
    if refusal:
        assert o["words"] and not o["nodes"]
        return
    head, pool = (model.opened(file, n, set(), "", True) for n in (names, model.NO_NAMES))

    def text(index):
        t = head.text(index)
        return None if t is None else t.decode()
    levels, damaged = [], 0
    for i, (n, (name, fixed, parent, start, count, line)) in enumerate(zip(o["nodes"], nodes)):
        levels.append(0 if parent == 0xFFFFFFFF else levels[parent] + 1)
        assert (n["number"], n["line"], n["parent"], n["level"]) == (i, line, None if parent == 0xFFFFFFFF else parent, levels[i])
        assert (n["name_index"], n["name"], n["invalid"]) == (name, text(name), fixed == 1)
        assert (n["name_state"], n["name_replaced"]) == damage(head, name)
        damaged += n["name_state"] > 0
        assert len(n["attributes"]) == count
        for k, a in enumerate(n["attributes"], start):
            _, prefix, index, kind, data, space = attributes[k]
            shown, bits, string = value_text(head, pool, lent, SYSTEM[named], attributes[k])
            assert (a["number"], a["prefix"], a["name_index"], a["type"], a["data"], a["namespace_index"]) == (k, prefix, index, kind, data, space)
            assert a["name"] == ("android" if prefix == 2 else text(index))
            assert a["namespace"] == (text(space) if prefix == 3 else None)
            assert (a["text"], a["unnamed_bits"]) == (shown, bits), (a, shown, bits)
            past = STATES and data >= len(pool.offsets)
            states = [(0, 0) if prefix == 2 else damage(head, index), damage(head, space) if prefix == 3 else (0, 0),
                      (3, 0) if string and past else damage(pool, data) if string else (0, 0)]
            assert [(a[f"{x}_state"], a[f"{x}_replaced"]) for x in ("name", "namespace", "text")] == states, (a, states)
            damaged += sum(s > 0 for s, _ in states)
    assert o["damaged_texts"] == damaged
    glance = o["glance"]
    called = [n["name"] if not n["invalid"] else None for n in o["nodes"]]
    top = called.index("manifest") if "manifest" in called else None
    assert glance["node"] == top
    for key, name in (("package", "package"), ("version_code", "versionCode"), ("version_name", "versionName")):
        assert glance[key] == (None if top is None else first(o, top, name))
    asked = [first(o, i, "name") for i, n in enumerate(called) if n in ("uses-permission", "uses-permission-sdk-23", "uses-permission-sdk-m")]
    assert glance["permissions"] == [k for k in asked if k is not None]
    assert glance["main_screens"] == screens(o), screens(o)


def obeyed(page):
    """Characters of a page that a terminal would obey, or hide."""
    return sorted({f"U+{ord(c):04X}" for c in page.replace("\n", "") if unicodedata.category(c) in ("Cc", "Cf", "Zl", "Zp", "Co", "Cs")
                   or unicodedata.bidirectional(c) in ("LRE", "RLE", "LRO", "RLO", "PDF", "LRI", "RLI", "FSI", "PDI", "BN")})


def run(program, *words):
    p = subprocess.run([program, *words], stdout=subprocess.PIPE, stderr=subprocess.PIPE)
    return p.returncode, p.stdout


def check(program, path, number):
    with open(path, "rb") as f:
        file = f.read()
    named = number % 3 != 2
    words = [] if named else ["--no-names"]
    status, out = run(program, "--json", *words, path)
    assert all(b == 10 or 32 <= b < 127 for b in out)
    o = json.loads(out)
    holds(SCHEMA, o)
    assert o["path"] == path
    compare(o, file, named)
    assert status == (1 if o["refusal"] else 0)
    plain = ["--plain"] if number % 2 else []
    status, page = run(program, *plain, *words, path)
    assert status == (1 if o["refusal"] else 0)
    page = page.decode()
    assert not obeyed(page), obeyed(page)
    assert not plain or page.isascii()
    lines = page.split("\n")
    assert lines.pop() == ""
    if o["refusal"]:
        assert lines == ["REFUSED: " + o["words"]]
        return o
    odd = len(o["notes"]) + (o["damaged_texts"] > 0) + (o["texts_left_out"] > 0)
    said = list(itertools.takewhile(bool, lines))
    assert len(said) == 1 + odd and (odd > 0) == (said[0] != "nothing is odd in this file")
    assert all(line.startswith("  ! " + n["words"]) for line, n in zip(said[1:], o["notes"]))
    tree = list(itertools.takewhile(bool, lines[len(said) + 1:]))
    assert len(tree) == len(o["nodes"]) + sum(len(n["attributes"]) for n in o["nodes"])
    assert sum(bool(re.match(r" *\d+  ", line)) for line in tree) == len(o["nodes"])
    return o


def generated(count, folder):
    made = 0
    for file in itertools.chain(values.files(7, count // 5), generate.files(29, 0, count - count // 5)):
        path = f"{folder}/{made}.axml"
        with open(path, "wb") as f:
            f.write(file)
        yield path
        os.unlink(path)
        made += 1


def main(program, count, paths):
    read = refused = wrong = notes = attributes = mains = 0
    with tempfile.TemporaryDirectory() as folder:
        for number, path in enumerate(itertools.chain(paths, generated(count, folder))):
            try:
                o = check(program, path, number)
            except Exception as why:
                wrong += 1
                print(f"{path} ({number}): {type(why).__name__} {why}", file=sys.stderr)
                if wrong < 9 and path.startswith(folder):
                    os.rename(path, f"{tempfile.gettempdir()}/show-wrong-{number}.axml")
                    open(path, "w").close()
                continue
            read += not o["refusal"]
            refused += o["refusal"] > 0
            notes += len(o["notes"])
            mains += len(o["glance"]["main_screens"])
            attributes += sum(len(n["attributes"]) for n in o["nodes"])
    print(f"show_check: {read} files read, {refused} refused, {notes} notes, {attributes} attributes, {mains} main screens; {wrong} wrong")
    return wrong > 0


if __name__ == "__main__":
    words = sys.argv[1:]
    count = 0
    if "--generated" in words:
        at = words.index("--generated")
        count = int(words[at + 1])
        del words[at:at + 2]
    if not words:
        sys.exit(__doc__)
    sys.exit(main(os.path.abspath(words[0]), count, words[1:]))
