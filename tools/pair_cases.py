#!/usr/bin/env python3
"""Writes the stored cases of axml_first_values: python3 tools/pair_cases.py bindings/c/pairs. Run by bindings/c/pairs.c; docs/CASES.md says what they are.

The answers are those of the rules as oracle/model.py has them: what a pair is answered is its answer to the single question, and the rest is docs/FORMAT.md, M, below.
Words of 32 bits, the low byte first. A run of words is their number and the words, bytes are their number and the bytes, filled up to a whole word:
  cases, and for each: words of the names, their area as bytes, the file as bytes, words of the nodes, words of the attributes, words of the pairs, their area as
  bytes, node count, attribute count; the answer's refusal, value and count; and the words of the list afterwards.
The same seed gives the same bytes.
"""
import os
import random
import struct
import sys

sys.path.insert(0, os.path.join(os.path.dirname(os.path.dirname(os.path.abspath(__file__))), "oracle"))
sys.dont_write_bytecode = True
import cases
import generate
import model

TOP = 4294967295


def many(file, names, nodes, attributes, pairs, area, room, node_count, attribute_count):
    """The answer and the list afterwards: M1 to M5."""
    def ask(tag, name):
        return model.first_value(file, names, nodes, attributes, tag, name, node_count, attribute_count)
    refusal, value = ask(b"", b"")[:2]
    whole = len(pairs) // 4
    if refusal in (0, 12):
        outside = [k for k in range(whole) if pairs[4 * k] + pairs[4 * k + 1] > len(area) or pairs[4 * k + 2] + pairs[4 * k + 3] > len(area)]
        if outside:
            refusal, value = 20, outside[0]
        elif len(pairs) % 4:
            refusal, value = 20, whole
        elif room // 4 < whole:
            refusal, value = 21, room // 4
        else:
            words = []
            for k in range(whole):
                a, n, b, m = pairs[4 * k:4 * k + 4]
                number, _, kind, data, reference = ask(area[a:a + n], area[b:b + m])
                words += [number, kind, data, reference]
            return (0, 0, whole), words + [0] * (room - len(words))
    return (refusal, value, 0), [0] * room


def words(*w):
    return struct.pack(f"<{len(w)}I", *w)


def run(w):
    return words(len(w), *w)


def padded(b):
    return words(len(b)) + b + bytes(-len(b) % 4)


def table(width, *records):
    """Records of the words that matter here, filled up to the words of a record."""
    return [x for w in records for x in w + [0] * (width - len(w))]


def main():
    r = random.Random(7)
    out = []

    def case(names, file, nodes, attributes, pairs, area, room, node_count, attribute_count):
        answer, after = many(file, names, nodes, attributes, pairs, area, room, node_count, attribute_count)
        out.append(run(names.words) + padded(names.area) + padded(file) + run(nodes) + run(attributes) + run(pairs) + padded(area)
                   + words(node_count, attribute_count, *answer) + run(after))

    none = model.NO_NAMES
    own = model.Names([0x01010001, 0, 5, 0x01010003, 5, 17], b"labelandroid:attr/name")
    falling = model.Names([0x01010003, 0, 5, 0x01010001, 0, 5], b"label")
    # files that can be read, asked for tags and names that they have, that others have, and for none; those of a tag together, and mixed
    read = 0
    for f in generate.files(11, 0, 100000):
        if read == 60:
            break
        if len(f) > 1500:
            continue
        names = r.choice((none, own))
        right = model.read(f, names, 16, trusted=True)
        if right[0]:
            continue
        read += 1
        nodes, attributes = [x for n in right[3] for x in n], [x for a in right[4] for x in a]
        node_words, attribute_words = len(right[3][0]), len(right[4][0])
        head = model.Head(f, names, lambda *_: None, set(), "")
        tags = sorted({b"invalid-element" if n[1] else head.text(n[0]) or b"" for n in right[3]}) + [b"", b"zz"]
        called = sorted({head.text(a[2]) or b"" for a in right[4][1:]} | {b"android"}) + [b"", b"zz"]
        area, pairs = b"", []
        asked = [(r.choice(tags), r.choice(called)) for _ in range(r.choice((0, 1, 2, 5, 9)))]
        for tag, name in sorted(asked) if r.random() < 0.5 else asked:
            for t in (tag, name):
                at = area.find(t) if r.random() < 0.5 else -1
                if at < 0:
                    at = len(area)
                    area += t
                pairs += [at, len(t)]
        case(names, f, nodes, attributes, pairs, area, len(pairs) + r.randrange(4), len(right[3]), len(right[4]))
    # the order of refusals, and each number at its edge, over one file and its tables
    f = cases.whole(cases.pool([cases.utf8("a"), cases.utf8("b"), cases.utf8(""), cases.utf8("invalid-element")]), cases.id_map())
    nodes = table(node_words, [0, 0, TOP, 0, 2], [1, 0, 0, 2, 1], [0, 0, 0, 0, 3])
    attributes = table(attribute_words, [0, 2, 0, 3, 0], [0, 0, 1, 1, 7], [1, 1, 1, 257, 8])
    area = b"abandroidinvalid-element"
    end = len(area)
    good = [0, 1, 1, 1, 0, 1, 2, 7, 9, 15, 1, 1]
    for pairs in ([], good, good[:4], good + [0], good + [0, 1], good + [0, 1, 1], [end, 0, 0, 1], [0, 1, end, 0], [end + 1, 0, 0, 1], [0, 1, end + 1, 0], [0, end, 0, 1],
                  [0, end + 1, 0, 1], [0, 1, 0, end], [0, 1, 1, end], [TOP, 1, 0, 1], [1, TOP, 0, 1], [TOP, TOP, TOP, TOP], good + [0, 1, 1, end] + [5], good * 3,
                  [0, 1, 1, 1] * 41, [0, 0, 0, 0], [0, 1, 2, 0]):
        places = len(pairs) // 4
        for room in sorted({0, 1, 3, 4, max(4 * places - 1, 0), 4 * places, 4 * places + 1, 4 * places + 7}):
            case(none, f, nodes, attributes, pairs, area, room, 3, 3)
    for pairs in ([], good, good[:3], [0, end + 1, 0, 1]):
        for room in (0, 5, 12):
            case(none, f, nodes, attributes, pairs, area, room, 4, 3)
            case(none, f, nodes, attributes, pairs, area, room, 3, 2)
            case(none, f, nodes, attributes, pairs, area, room, 3, TOP)
            case(falling, f, nodes, attributes, pairs, area, room, 4, 3)
            case(own, f, nodes, attributes, pairs, area, room, 0, 0)
            for short in (f[:7], f[:8], f[:2] + b"\1" + f[3:], f[:-1]):
                case(none, short, nodes, attributes, pairs, area, room, 4, 3)
    case(none, f, nodes, attributes, good, b"", 12, 3, 3)
    with open(sys.argv[1], "wb") as to:
        to.write(words(len(out)) + b"".join(out))
    print(len(out), "cases")


main()
