"""Makes the stored cases, which a program replays with no Rust at hand, and walks them.

  python3 cases.py texts PROGRAM OUT       texts and contents of every index, refusals of the head at each byte
  python3 cases.py reads PROGRAM OUT       whole readings: tables, notes, caps, rooms
  python3 cases.py questions PROGRAM OUT   first values, text questions with odd names and buffers, valid names, complex values
  python3 cases.py check OUT               replays a file of cases with model.py and says what is in it
  python3 cases.py pack PROGRAM TEXTS QUESTIONS OUT
                                           the text questions of two files of cases, and those of every system name, for crates/text_cases
  python3 cases.py pack-replay READS QUESTIONS OUT
                                           the other cases of two files, and broken names, for crates/replay
  python3 cases.py again OUT               what pack-replay wrote, its readings answered anew by model.py, which are the Rust's but for notes 32

PROGRAM is build's OUT_DIR/axml-oracle. The same program and this folder give the same bytes.

Layout. A word is four bytes, the low one first. A text is a word n, n bytes, and zeros up to the next multiple of 4.

  word b"AXC1"; word S; S name sets; word N; N cases
  name set:  word W; W words (id, start, length each); text: the area          (set 1 is the first one, set 0 no names)
  case:      word n (a multiple of 4); n bytes, of which the first word is its kind

  kind 1, texts:    text: the file; words refusal, value, C, K; K lists: word set; C times: where, start, length, then a text,
                    or the single word 4294967295 where the index has none. The C indices are 0, 1, .. , C - 1, two past the
                    longer of pool and map. Refused: C and K are 0, and the answer holds for every index and set.
                    where, start, length: the content, 0 empty (0, 0), 1 a part of the file, 2 a part of the set's area.
  kind 2, read:     words set, cap, mode, node words, attribute words, note places; text: the file; words refusal, value, starts, nodes,
                    attributes, notes; then 6 words for each node and each attribute, 3 for each note. All else is zero.
  kind 3, text:     words W; W words; text: the area; words room, index; text: the file; words refusal, value; text: the answer;
                    words where, start, length of the content. These names may break their rule.
  kind 4, first:    word set; text: the file; word n, n node words; word n, n attribute words; texts: tag, name; words node count,
                    attribute count; words refusal, value, type, data, reference
  kind 5, name:     text; word 1 if it is a valid name, else 0
  kind 6, complex:  words data, low half and high half of the f64's bits

Layout of pack's OUT, where a place is two words, where a part of OUT begins and how many bytes it has:

  places of the list of sets and of the list of files; then the lists, and all parts
  list of sets:     places of words, area and questions of a set, 24 bytes each
  list of files:    places, numbered from 0 in the order in which the questions come to them
  question:         words number of the file, index, room, refusal, value, state, characters replaced (the model's, T11); places of text and
                    content (a part of the file or area); 44 bytes

Layout of pack-replay's OUT, with places as above:

  place of the list of sets; then all parts, the lists among them
  list of sets:     places of words, area and cases of a set, 24 bytes each
  case:             84 bytes, zeros at their end; a word, its kind, and then
    2, read:        words cap, node words, attribute words, note places, 1 if `read_listed` answers the same, else 0; words refusal, value,
                    starts, nodes, attributes, notes; places of the file and of the records of nodes, attributes, notes; word mode
    4, first:       words node count, attribute count, refusal, value, type, data, reference; places of file, node words, attribute words, tag, name
    5, name:        word 1 if it is a valid name, else 0; place of the text
    6, complex:     words data, low half and high half of the f64's bits
"""
import os
import random
import struct
import sys

import generate
import model
import rust

HERE = os.path.dirname(os.path.abspath(__file__))
SETS = [os.path.join(HERE, "system-names.txt"), os.path.join(HERE, "odd-names.txt")]
NAMES = [model.NO_NAMES] + [model.Names(*rust.names_of(p)) for p in SETS]
NONE = 0xFFFFFFFF
SEED = 20260
MOST = 65_536  # no case is longer
CAPS = (0, 1, 2, 8, 16)
AMPLE = (1 << 40, 1 << 40, 1 << 40)

S = bytes.fromhex("0300080070000000" "01001c0024000000010000000000000000010000200000000000000000000000" "01016100" "8001080008000000"
                  "020110002400000001000000ffffffffffffffff00000000140014000000000000000000" "030110001800000001000000ffffffffffffffff00000000")
START, END = S[52:88], S[88:]


def words(*w):
    return struct.pack(f"<{len(w)}I", *w)


def text(b):
    return rust.padded(b)


def write(path, cases):
    out = b"AXC1" + words(len(SETS))
    for names in NAMES[1:]:
        out += words(len(names.words), *names.words) + text(names.area)
    out += words(len(cases))
    for c in cases:
        assert len(c) % 4 == 0 and len(c) <= MOST, len(c)
        out += words(len(c)) + c
    with open(path, "wb") as f:
        f.write(out)
    print(f"{path}: {len(cases)} cases, {len(out)} bytes")


# ---- files made by hand

def pool(strings, flags=0x100, declared=None, styles=0, start=None, size=None, offsets=None, kind=1, head=28):
    data, at = b"".join(strings), []
    for i in range(len(strings)):
        at.append(sum(map(len, strings[:i])))
    at = at if offsets is None else offsets
    begin = 28 + 4 * len(at) + 4 * styles if start is None else start
    return struct.pack("<HHI5I", kind, head, begin + len(data) if size is None else size, len(at) if declared is None else declared, styles, flags,
                       begin, 0) + words(*at) + bytes(4 * styles) + data


def utf8(s):
    b = s.encode() if isinstance(s, str) else s
    return bytes((len(b), len(b))) + b + b"\0"


def utf16(s):
    return struct.pack("<H", len(s)) + s.encode("utf-16-le") + b"\0\0"


def id_map(*ids, head=8, rest=b"", kind=0x180):
    return struct.pack("<HHI", kind, head, head + 4 * len(ids) + len(rest)) + words(*ids) + rest


def start(name, *attributes, gap=b"", size=20, said=None, tail=b"", chunk=None, at=None, line=1, comment=NONE):
    """attributes: (namespace, name, type, data) each."""
    body = gap
    for ns, n, k, d in attributes:
        body += struct.pack("<IIIHBBI", ns, n, NONE, 8, 0, k, d) + bytes(max(size - 20, 0))
    whole = 36 + len(body) + len(tail)
    return struct.pack("<HHIIIIIHHHHHH", 0x102, 16, whole if chunk is None else chunk, line, comment, NONE, name, 20 + len(gap) if at is None else at, size,
                       len(attributes) if said is None else said, 0, 0, 0) + body + tail


def chunk(kind, many=8, size=None, head=16):
    return struct.pack("<HHIII", kind, head, 16 + many if size is None else size, 1, NONE) + bytes(many)


def foreign(kind, head=8, content=b"", size=None):
    return struct.pack("<HHI", kind, head, 8 + len(content) if size is None else size) + content


def whole(*parts, kind=3, head=8, size=None):
    rest = b"".join(parts)
    return struct.pack("<HHI", kind, head, 8 + len(rest) if size is None else size) + rest


def heads():
    """Heads that have every part, to be cut at each byte."""
    a = pool([utf8("a"), utf8("bé"), b"\x80\x01\x80\x01\x61\x00"], styles=2)
    b = pool([utf16("a"), utf16("名"), utf16("\U00010000")], flags=0, declared=9)
    yield "S", S[:60]
    yield "garbage, styles, ids", whole(foreign(0x180, 8, bytes(12)), a, id_map(0x01010003, 0x7F010000, 0x01000001, rest=b"\1\2"))
    yield "UTF-16, wrong count", whole(b, id_map(0x01010000, head=12), kind=0)
    yield "garbage twice", whole(foreign(3, 8, size=4), pool([utf8("a")], kind=0x104, head=0), id_map(), size=0)


def relatives():
    """File S and the files of docs/FORMAT.md, L5; then small files for single rules of the walk."""
    yield from (S, S[:7], S[:8], S[:88], S[:95], S[:103], S[:104], S + END, S + START, S[:88] + START, S + START + END)
    yield S[:88] + foreign(0x105) + END
    yield S[:88] + struct.pack("<HHIII", 0x17F, 16, 24, 1, NONE) + bytes(8) + END
    yield S[:72] + words(1) + S[76:]
    p = pool([utf8(x) for x in ("a", "b", "", "1", "http://schemas.android.com/apk/res/android", "a", "é", b"\xff", b"\xfe", "android", "invalid-element")])
    m = id_map(0x01010003)
    e, none = END, NONE
    root = start(0)

    def f(*parts):
        return whole(p, m, *parts)
    yield f(root, e, e, e)
    yield f(start(0, (none, 1, 3, 0), (4, 1, 1, 5), (none, 1, 16, 9), (4, 1, 17, 2), (2, 1, 3, 1)), e)                      # prefixes and repeats
    yield f(start(0, (none, 1, 3, 0), (none, 5, 4, 1), (none, 0, 5, 2), (3, 0, 7, 3), (none, 6, 0, 4)), e)                 # repeats by text
    yield f(start(0, (none, 7, 1, 0), (none, 8, 2, 1), (7, 7, 3, 3), (99, 8, 3, 4)), e)                                    # ff and fe are one name
    yield f(start(0, (none, 9, 1, 1), (0, 9, 1, 2), (none, 9, 1, 3)), e)                                                   # android beside the lead
    yield f(start(0, (none, 3, 1, 1), (none, 2, 1, 2), (none, 99, 1, 3), (none, 3, 1, 4), (none, 3, 1, 5)), e)             # note 10 each time, none silently
    yield f(start(3), start(99), start(2), start(10), e, e, e, e)                                                          # note 9
    yield f(start(1, gap=bytes(4)), start(1, (none, 1, 1, 1), size=24), start(1, size=24), start(1, (none, 1, 1, 1), size=10), e, e, e, e)
    yield f(start(1, (none, 1, 1, 1), tail=bytes(3)), start(1, (none, 1, 1, 1), chunk=16), start(1, (none, 1, 1, 1), chunk=0, at=0), e, e, e)
    big = f(root, start(1, (none, 1, 1, 1), (none, 6, 1, 2), gap=bytes(6), size=23, tail=bytes(5)))
    yield from (big[:len(big) - k] for k in (1, 5, 6, 29, 52, 53, 57, 58, 60, 77, 78, 79, 85, 86, 87, 93, 94, 95, 96))      # a start cut in each part
    yield f(root, start(1), start(0), e, start(6), start(7), e)                                                            # finished children are dropped
    yield f(root, start(1), e, start(6), start(7), e, e, start(1), start(0), e)
    yield f(root, e, start(1), e, start(1), e, e)
    yield f(start(0, line=NONE, comment=5), start(3, line=0, comment=6), start(99, line=7, comment=0), e, e, start(1, line=256), e, e)  # lines as they stand
    yield f(start(0, line=12), start(3, line=13), start(1, line=14), e, foreign(0x105), e, e)
    yield f(e, root, e)
    yield f(foreign(0x105), foreign(0x200, 16), foreign(0x102, 8), foreign(0x17F, 8), foreign(0x105), root, foreign(0), e)  # stretches
    yield f(foreign(0x105, size=100_000), foreign(0, size=9), bytes(1), root, e)
    yield f(root, foreign(0x105, content=bytes(5), size=5), e)
    yield f(root, foreign(0x105, size=0), foreign(0x100, 17, size=3), e, foreign(0x106, content=bytes(9)))
    yield f(root, e, foreign(0x106, content=bytes(9), size=18))
    yield f(root, chunk(0x100, size=40), chunk(0x101), chunk(0x104, 12, size=60), chunk(0x17F, 0, size=40), chunk(0x103, size=64), e)
    for k in (0x100, 0x101, 0x103, 0x104, 0x17F):
        c = f(root, chunk(k, 12 if k == 0x104 else 8 if k != 0x17F else 0))
        yield from (c[:len(c) - n] for n in (1, 4, 8, 9, 12, 13, 16, 20) if len(c) - n > len(f(root)))
    yield f(foreign(1), chunk(0x103), chunk(0x17F, 0))
    yield f()
    yield f(bytes(7))
    yield f(root[:40])
    # the same notes again and again: caps
    many = [start(3, (none, 3, 1, 1), gap=bytes(1), size=21, tail=b"\0"), foreign(0x105), chunk(0x17F, 0), foreign(0x102, 8)]
    yield f(*many, *many, *many, *many, *many, *many, *many, *many, *many, e)
    yield whole(foreign(2, 8, bytes(4)), pool([utf8("a"), utf8("b")], declared=3, offsets=[0, 4, 8, 9, NONE]), id_map(), root, foreign(0x105))


def room_files():
    p = pool([utf8("a"), utf8("b"), utf8("1")])
    yield whole(p, id_map(), start(0, (NONE, 0, 1, 1), (NONE, 1, 1, 2), (NONE, 1, 1, 3)), start(1, (NONE, 2, 1, 1), (0, 0, 1, 4)), END, start(2), END, END)
    yield whole(p, id_map(), start(0), start(0, (NONE, 0, 1, 1)), start(1), END, foreign(0x105), start(2, (NONE, 2, 3, 3), (NONE, 1, 1, 1)))
    yield whole(foreign(2, 8, bytes(4)), pool([utf8("a")], declared=3, offsets=[0, 90]), id_map(),
                start(2, (NONE, 0, 1, 1), gap=bytes(2), size=22, tail=b"\0"), END)
    g = whole(foreign(2, 8, bytes(4)), pool([utf8("a")], declared=3, offsets=[0, 90]), id_map())
    yield from (g[:n] for n in (19, 20, 21, 27, 28, 48, 49, 56, 57, 59, 60, 67, 68))
    # counts whose product or sum would wrap: no note is due, so no place is missing
    yield from (whole(struct.pack("<HHI5I", 1, 28, 40, 0, styles, 0x100, 32, 0), bytes(40)) for styles in (0x3FFFFFFF, 0x40000000, 0x40000001))
    yield whole(p, id_map(), foreign(0x105), chunk(0x17F, 0))
    c = whole(p, id_map(), start(0), start(1, (NONE, 1, 1, 1), gap=bytes(6), size=23, tail=bytes(5)))
    yield from (c[:len(c) - k] for k in (0, 1, 6, 29, 36))
    yield S
    yield S + START


def space_files():
    """Attributes of one name and several namespaces: Android's, its UTF-16, others that begin or end like it, own ones, two of one text, empty, cut, none."""
    uri = model.ANDROID.decode()
    for make, flags in ((utf8, 0x100), (utf16, 0)):
        p = pool([make("a"), make(uri), make("u"), make("u"), make(uri + "/"), make(uri[:-1]), make(""), make(uri.upper())], flags=flags)
        for spaces in ((1, 2, NONE), (2, 1, NONE), (2, 3, 1), (3, 2), (4, 1, 5), (6, 7, 2, 6), (77, NONE, 1), (1, 1, 2, 2), (6, 99, 9)):
            yield whole(p, id_map(), start(0, *((ns, 0, 16, 7 + i) for i, ns in enumerate(spaces))), END)
    p = pool([utf8("a"), utf8(b"\xff"), utf8(b"\xfe"), utf8(uri)], offsets=[0, 4, 8, 12, 900, 901])
    for spaces in ((1, 2, 3), (2, 1), (4, 5, 3), (5, 4), (0, 4, 1)):
        yield whole(p, id_map(), start(0, *((ns, 0, 16, 7 + i) for i, ns in enumerate(spaces))), END)
    # a system name is the text of its index
    yield whole(pool([utf8("a"), utf8(uri)]), id_map(0x7F000001, 0x01010003), start(0, (1, 0, 16, 7), (0, 0, 16, 8)), END)


# ---- the Rust's answers

def due_answer(a, room):
    """What follows from the order in which the Rust's records fall due: the first without a place refuses."""
    places = {ord("E"): (8, room[0] // rust.NODE), ord("A"): (9, room[1] // rust.ATTRIBUTE), ord("N"): (10, room[2])}
    used = dict.fromkeys(places, 0)
    for d in a.due:
        number, most = places[d]
        if used[d] >= most:
            return number, most, 0, [], [], []
        used[d] += 1
    return a.reading()


def told_answer(a, cap, room):
    """The same at a cap, of which the Rust has no rule: it keeps no note at 0, and a reading here is refused (docs/FORMAT.md, B2)."""
    return model.OFF if cap == 0 else due_answer(a, room)


def read_case(names_set, cap, mode, room, file, answer):
    refusal, value, starts, nodes, attributes, notes = answer
    out = words(2, names_set, cap, mode, *room) + text(file) + words(refusal, value, starts, len(nodes), len(attributes), len(notes))
    for record in (*nodes, *attributes, *notes):
        out += words(*record)
    return out


def texts_case(file, answers):
    """answers: (set, the Rust's answer) each."""
    a = answers[0][1]
    if not a.texts:
        refused = model.text(file, model.NO_NAMES, 0, 0)[:2]
        assert model.coarse(refused) == (a.refusal, a.value), file.hex()
        return words(1) + text(file) + words(*refused, 0, 0)
    out = words(1) + text(file) + words(0, 0, len(a.texts), len(answers))
    for k, a in answers:
        head = model.Head(file, NAMES[k], lambda *_: None, set(), "")
        out += words(k)
        for i, t in enumerate(a.texts):
            where, s, n = place = head.content(i)
            content = file[s:s + n] if where == 1 else NAMES[k].area[s:s + n]
            # the content is the model's; its text is the Rust's
            assert (t or b"") == (head.decoded(content) if where == 1 else content), (file.hex(), i)
            out += words(*place) + (words(NONE) if t is None else text(t))
    return out


def greedy(candidates, needs, most):
    """Candidates (size, labels, case) chosen so that each label of `needs` is met that often; small and rich ones first."""
    needs = dict(needs)
    left = list(range(len(candidates)))
    chosen = []
    while left and len(chosen) < most and any(needs.values()):
        best = max(left, key=lambda i: sum(1 + (needs[x] > 1) for x in candidates[i][1] if needs.get(x)) / (candidates[i][0] + 150))
        if not any(needs.get(x) for x in candidates[best][1]):
            break
        for x in candidates[best][1]:
            if needs.get(x):
                needs[x] -= 1
        chosen.append(best)
        left.remove(best)
    return chosen, {x: n for x, n in needs.items() if n}


def make_texts(program, path):
    r = random.Random(SEED)
    files, made = [], 0
    for name, h in heads():
        files += [h[:n] for n in range(len(h) + 1)]
    by_hand = len(files)
    files.append(S)
    labels = [x for x, rule in model.WRONG.items() if rule[0] in "HTN" and rule not in ("N10", "N11", "N9") and x != "namespaces_pool_only"]
    candidates = []
    for f in generate.files(SEED, 0, 6000):
        try:
            head = model.Head(f, NAMES[1], lambda *_: None, set(), "")
        except model.Refused:
            if r.random() < 0.9:
                continue
            head = None
        if head is not None and r.random() < 0.85:
            f = f[:head.at + r.choice((0, 0, 1, 8, 20))]
        k = r.choice((1, 1, 2))
        hits, told = set(), set()

        def seen(w, hits=None):
            try:
                h = model.Head(f, NAMES[k], lambda *_: None, hits if hits is not None else set(), w)
                return [h.text(i) for i in range(max(len(h.offsets), len(h.ids)) + 2)]
            except model.Refused as e:
                return e.number, e.value
        right = seen("", hits)
        told = {w for w in labels if seen(w) != right}
        candidates.append((len(f), told | hits, f))
    every = set().union(*(c[1] for c in candidates))
    chosen, missing = greedy(candidates, {x: 5 for x in every}, 400)
    rest = [i for i in range(len(candidates)) if i not in set(chosen)]
    r.shuffle(rest)
    chosen += rest[:max(0, 620 - len(chosen))]
    files += [candidates[i][2] for i in sorted(chosen)]
    asked = [(rust.TEXTS, 16, k, f, []) for f in files for k in (0, 1, 2)]
    answers = list(rust.ask(program, SETS, asked))
    cases = []
    for i, f in enumerate(files):
        a = answers[3 * i:3 * i + 3]
        lists = [(0, a[0]), (1, a[1])] + ([(2, a[2])] if a[2].texts not in (a[0].texts, a[1].texts) else [])
        cases.append(texts_case(f, lists))
    write(path, cases)
    print(f"by hand {by_hand}, chosen {len(chosen)}; with texts {sum(bool(answers[3 * i].texts) for i in range(len(files)))}")
    print("told by fewer than 5:", {x: n for x, n in missing.items()}, "never:", sorted(set(labels) - every))


def make_reads(program, path):
    r = random.Random(SEED + 1)
    files = list(relatives())
    candidates = []
    labels = list(model.WRONG)

    def look(f, k, cap, room, only=None, mode=1):
        hits = set()
        right = model.read(f, NAMES[k], cap, room, hits, trusted=True, mode=mode)
        told = {w for w in (only or labels) if model.read(f, NAMES[k], cap, room, set(), w, trusted=True, mode=mode) != right}
        return right, told | hits

    pool_ = [(f, k, cap) for f in files for k, cap in ((0, 8), (1, 2))]
    pool_ += [(f, r.choice((0, 0, 1, 1, 2)), r.choice(CAPS)) for f in generate.files(SEED + 1, 0, 5000)]
    for f, k, cap in pool_:
        if len(f) < 2500:
            right, told = look(f, k, cap, AMPLE)
            candidates.append((len(f), told, (f, k, cap, None)))
    # rooms: each table at 0, 1, one short and just right, alone and with the others at 0
    limited, seen = [], set()
    by_hand = list(room_files())
    for i, f in enumerate(by_hand + [c[2][0] for c in candidates[len(files) * 2::25]]):
        k, cap = (0, 16) if i < len(by_hand) else r.choice(((0, 16), (1, 8), (0, 1), (0, 2), (0, 0)))
        a = next(rust.ask(program, SETS, [(rust.DUE, cap, k, f, [])]))
        due = [a.due.count(c) for c in b"EAN"]
        ample = rust.NODE * due[0] + 3, rust.ATTRIBUTE * due[1] + 3, due[2] + 2
        rooms = [(0, 0, 0), (0, ample[1], 0), (ample[0], 0, 0), (5, 5, due[2])]
        for t in range(3):
            for places in sorted({0, 1, due[t] - 1, due[t]} - {-1}):
                room = list(ample)
                room[t] = places if t == 2 else (rust.NODE, rust.ATTRIBUTE)[t] * places + r.choice((0, 1, 5))
                rooms.append(tuple(room))
        for room in rooms:
            if (f, k, cap, room) not in seen:
                seen.add((f, k, cap, room))
                limited.append((len(f), look(f, k, cap, room)[1], (f, k, cap, room)))
        if i == len(by_hand) - 1:
            first = list(range(len(limited)))
    everything = candidates + limited
    every = set().union(*(c[1] for c in everything))
    fixed = list(range(2 * len(files)))[::2]
    needs = {x: 4 for x in every}
    for i in fixed:
        for x in candidates[i][1]:
            needs[x] = max(needs[x] - 1, 0)
    for i in first:
        for x in limited[i][1]:
            needs[x] = max(needs[x] - 1, 0)
    more, _ = greedy(candidates + limited[len(first):], needs, 200)
    chosen = [everything[i][2] for i in fixed] + [(candidates + limited[len(first):])[i][2] for i in more if i not in set(fixed)]
    chosen += [limited[i][2] for i in first]
    have = {id(c) for c in chosen}
    rest = [c[2] for c in everything if id(c[2]) not in have]
    r.shuffle(rest)
    chosen += rest[:60]
    answers = rust.ask(program, SETS, [(rust.DUE, cap, k, f, []) for f, k, cap, _ in chosen])
    cases, counted = [], dict.fromkeys(sorted(every), 0)
    for (f, k, cap, room), a in zip(chosen, answers):
        if room is None:
            due = [a.due.count(c) for c in b"EAN"]
            room = rust.NODE * due[0] + r.randrange(12), rust.ATTRIBUTE * due[1] + r.randrange(12), due[2] + r.randrange(3)
        answer = told_answer(a, cap, room)
        right, told = look(f, k, cap, room)
        # what a note 32 needs of the room the Rust does not tell
        assert model.coarse(right) == answer or model.damaged(model.read(f, NAMES[k], cap, trusted=True)), f.hex()
        for x in told:
            counted[x] = counted.get(x, 0) + 1
        cases.append(read_case(k, cap, 1, room, f, right))
    # the second mode, which the Rust does not have, and modes that are none: the model's answers
    asked = [(f, k, cap, mode, room) for f in space_files() for k, cap, mode, room in
             [(0, 8, 1, (20, 40, 2)), (0, 8, 2, (20, 40, 2)), (1, 8, 2, (20, 40, 2)), (0, 8, 2, (20, 12, 2)), (0, 8, 2, (20, 17, 2)), (0, 8, 2, (20, 18, 2))]]
    asked += [(f, 0, 8, mode, (20, 40, 2)) for f in (S, S[:3], S[:7], S[:8], b"") for mode in (0, 3, 9, NONE)]
    asked += [(f, r.choice((0, 1, 2)), 8, 2, None) for f in generate.files(SEED + 4, 0, 60) if len(f) < 2500]
    for f, k, cap, mode, room in asked:
        if room is None:
            all_ = model.read(f, NAMES[k], cap, trusted=True, mode=mode)
            room = rust.NODE * (len(all_[3]) + all_[2]) + 3, rust.ATTRIBUTE * (len(all_[4]) + 40), 112
        right, told = look(f, k, cap, room, mode=mode)
        for x in told:
            counted[x] = counted.get(x, 0) + 1
        cases.append(read_case(k, cap, mode, room, f, right))
    write(path, cases)
    wrong = {x: counted.get(x, 0) for x in labels}
    print(f"wrong readings told: {sum(n > 0 for n in wrong.values())} of {len(wrong)}; by one case only: {[x for x, n in wrong.items() if n == 1]}")
    print("not told:", [x for x, n in wrong.items() if not n])
    print("rules gone through:", {x: n for x, n in counted.items() if x not in model.WRONG})


def make_questions(program, path):
    r = random.Random(SEED + 2)
    cases = []
    # names that break their rule, and the order of refusals
    area = b"android:attr/nameab\x80c"
    good = [0x01000001, 0, 17, 0x01000002, 13, 4, 0x01FFFFFF, 17, 1]
    tables = [[], good, good[:1], good[:2], good[:4], good[:8], [0, 0, 1], [0x00FFFFFF, 0, 1], [0x02000000, 0, 1], [0x01000000, 0, 1], [0x01000001, 0, 0],
              [0x01000001, 22, 0], [0x01000001, 0, 22], [0x01000001, 0, 19], [0x01000001, 0, 20], [0x01000001, 20, 1], [0x01000001, 19, 1], [0x01000001, 21, 1],
              [0x01000001, 22, 1], [0x01000001, 1, NONE], [0x01000001, NONE, 1], [0x01000001, NONE, NONE], [0x01000001, 2**31, 2**31],
              [0x01000001, 0, 1] * 2, [0x01000002, 0, 1, 0x01000001, 0, 1], [0x01000001, 0, 1, 0x01000002, 0, 0], [0x01000001, 0, 1, 0x02000002, 0, 1, 7],
              [0x01000001, 0, 1, 0x01000002, 1, 1, 7], [0x01000001, 0, 1, 0x01000002, 1, 1, 7, 8], [0x01000001, 0, 0, 5, 6], good + [0x01FFFFFF, 0, 1],
              good[:6] + [0x01000003, 18, 1], good[:6] + [0x01000003, 18, 2]]
    named = whole(pool([utf8("a"), utf8("é"), utf8("")]), id_map(0x01000001, 0x7F000001, 0x01000002, 0x01000002))
    for table in tables:
        for f in (named, b"", S[:2] + b"\9" + S[3:]):
            for index in range(5) if f is named else (0,):
                for room in (0, 1, 3, 4, 9) if f is named and table == good else (9,):
                    names = model.Names(table, area)
                    refusal, value, t = model.text(f, names, index, room)
                    cases.append(words(3, len(table), *table) + text(area) + words(room, index) + text(f) + words(refusal, value) + text(t)
                                 + words(*model.content(f, names, index)))
    # buffers one short and just right, refusals of the head
    for f in [named, S, S[:7], S[:8], S[:51], S[:52], whole(pool([utf16("名é"), utf16("\U00010000"), b"\1\0\0\xd8\0\0"], flags=0), id_map())]:
        for index in (0, 1, 2, 3, 4, NONE):
            t = model.text(f, model.NO_NAMES, index, 99)[2]
            for room in sorted({0, max(len(t) - 1, 0), len(t), len(t) + 3}):
                refusal, value, t = model.text(f, model.NO_NAMES, index, room)
                cases.append(words(3, 0) + text(b"") + words(room, index) + text(f) + words(refusal, value) + text(t)
                             + words(*model.content(f, model.NO_NAMES, index)))
    # first values of tables that a reading made: the Rust's answers
    asked = []
    for f in list(relatives()) + list(generate.files(SEED + 2, 0, 400)):
        k = r.choice((0, 1, 2))
        if len(f) < 2500:
            right = model.read(f, NAMES[k], 16, trusted=True)
            if right[0]:
                continue
            head = model.Head(f, NAMES[k], lambda *_: None, set(), "")
            tags = sorted({b"invalid-element" if n[1] else head.text(n[0]) for n in right[3]})
            names = sorted({head.text(a[2]) for a in right[4][1:]} | {b"android"})
            pairs = {(r.choice(tags), r.choice(names)) for _ in range(3)} | {(r.choice((b"", b"zz", r.choice(tags))), r.choice((b"", b"zz", r.choice(names))))}
            asked.append((0, 16, k, f, sorted(pairs)))
    found = 0
    for (_, _, k, f, pairs), a in zip(asked, rust.ask(program, SETS, asked)):
        nodes, attributes = [x for n in a.nodes for x in n], [x for n in a.attributes for x in n]
        if found > 150 and r.random() < 0.8:
            continue
        for (tag, name), (refusal, kind, data, ref) in zip(pairs, a.firsts):
            answer = refusal, 0, kind, data, ref
            assert answer == model.first_value(f, NAMES[k], nodes, attributes, tag, name, len(a.nodes), len(a.attributes)), f.hex()
            found += not refusal
            cases.append(first_case(k, f, nodes, attributes, tag, name, len(a.nodes), len(a.attributes), answer))
    # and of tables that no reading made: the model's
    p = whole(pool([utf8("a"), utf8("b"), utf8(""), utf8("invalid-element")]), id_map())
    node, attribute = [0, 0, NONE, 0, 2, 9, 1, 0, 0, 2, 1, 9, 0, 0, 0, 0, 3, 9], [0, 2, 0, 3, 0, 0, 0, 0, 1, 1, 7, 9, 1, 1, 1, 257, 8, 0]
    odd = [(node, attribute, n, a) for n in (0, 1, 2, 3, 4, NONE) for a in (0, 1, 2, 3, 4, NONE)]
    odd += [(node[:k], attribute, 3, 3) for k in (17, 15, 12, 0)] + [(node, attribute[:k], 2, 3) for k in (17, 15, 12, 0)] + [(node + [9], attribute + [9, 9], 3, 3)]

    def at(t, i, v):
        return t[:i] + [v] + t[i + 1:]
    odd += [(at(node, i, v), attribute, 3, 3) for i, v in ((3, 1), (3, 2), (3, NONE), (4, 3), (4, 4), (4, NONE), (9, 3), (9, 4), (10, 0), (15, 1), (16, 4),
                                                           (0, 9), (0, 2), (1, 1), (1, 2), (1, NONE), (7, 1), (0, 1), (2, 7), (0, 3), (5, 0), (5, NONE))]
    odd += [(at(at(node, 15, 4), 16, 0), attribute, 3, 3), (at(at(node, 3, NONE), 4, NONE), attribute, 3, 3)]
    odd += [(node, at(attribute, i, v), 3, 3) for i, v in ((7, 2), (7, 3), (8, 9), (9, 7), (9, 2), (9, 0x101), (9, 0x107), (15, 7), (15, 1), (14, 2),
                                                           (8, 2), (6, 9), (1, 0), (10, NONE), (11, 0), (5, 9))]
    for n, a, nc, ac in odd:
        for tag, name in ((b"a", b"b"), (b"b", b"b"), (b"a", b"android"), (b"invalid-element", b"b"), (b"a", b""), (b"", b"b"), (b"z", b"b")):
            answer = model.first_value(p, model.NO_NAMES, n, a, tag, name, nc, ac)
            cases.append(first_case(0, p, n, a, tag, name, nc, ac, answer))
    for f in (S[:7], S[:8], S[:2] + b"\1" + S[3:], S[:51], S[:52]):
        cases.append(first_case(0, f, node, attribute[:3], b"a", b"b", 3, 3, model.first_value(f, model.NO_NAMES, node, attribute[:3], b"a", b"b", 3, 3)))
    # names: every byte first and later, every bound of the standard's ranges, damaged bytes as the text question reads them
    tried = [bytes((b,)) for b in range(128)] + [b"a" + bytes((b,)) for b in range(128)] + [b"", b"ab-c.d9_", b"-a", b"a:b"]
    tried += [(x + chr(c) + y).encode() for c in generate.EDGES + [0x3041, 0x4E00, 0x1F600] for x, y in (("", ""), ("a", ""), ("", "b"))]
    tried += generate.BROKEN_8 + [b"a" + b for b in generate.BROKEN_8]
    for t, v in zip(tried, valid(program, tried)):
        cases.append(words(5) + text(t) + words(v))
    datas = [0, 1, 0xFF, 0x100, 0x10F, 0x7FFFFF00, 0x80000000, 0xFFFFFF00, NONE] + [r.getrandbits(32) for _ in range(20)]
    datas = [d & ~0x30 | x << 4 for d in datas for x in range(4)]
    for d, bits in zip(datas, lines(program, "--complex", [str(d) for d in datas])):
        cases.append(words(6, d, int(bits, 16) & NONE, int(bits, 16) >> 32))
    write(path, cases)


def first_case(k, f, nodes, attributes, tag, name, node_count, attribute_count, answer):
    return words(4, k) + text(f) + words(len(nodes), *nodes) + words(len(attributes), *attributes) + text(tag) + text(name) + words(
        node_count, attribute_count, *answer)


def lines(program, what, given):
    import subprocess
    return subprocess.run([program, what], input="\n".join(given) + "\n", text=True, stdout=subprocess.PIPE, check=True).stdout.split()


def valid(program, texts):
    return map(int, lines(program, "--valid", [model.lossy(t, "").hex() for t in texts])) if program else []


# ---- the text questions, for a program that has no heap

def named_files():
    """Every id of the system names, and ids that are none but near, in maps behind a pool of three strings."""
    ids = NAMES[1].words[::3]
    next_to = {x for i in ids for x in (i - 1, i + 1)} - set(ids)
    p = pool([utf8("a"), utf8(""), utf8("é")])
    r = random.Random(SEED + 3)
    mixed = r.sample(ids, len(ids))
    for k in range(0, len(ids), 700):
        yield whole(p, id_map(*mixed[k:k + 700]))
    yield whole(p, id_map(*sorted(next_to), *(i ^ 0x1000000 for i in mixed[:100]), *(i ^ 0x3000000 for i in mixed[100:200])))


def text_questions(program, texts, questions):
    """(names, file, index, room, refusal, value, text, content as (where, start, length)) each."""
    names, cases = open_cases(texts)
    files = list(named_files())
    answers = rust.ask(program, SETS, [(rust.TEXTS, 16, 1, f, []) for f in files])
    cases += [Reader(texts_case(f, [(1, a)])) for f, a in zip(files, answers)]
    for j, c in enumerate(cases):
        assert c.word() == 1
        f = c.text()
        refusal, value, count, lists = c.words(4)
        if refusal:
            for k, i in ((0, j % 4), (1, NONE), (2, 0)):
                yield names[k], f, i, j % 10, refusal, value, b"", (0, 0, 0)
        for _ in range(lists):
            k = c.word()
            for i in range(count):
                yield question(names[k], f, i, c.words(3), c.none() or c.text())
    for c in open_cases(questions)[1]:
        if c.word() == 3:
            own = model.Names(c.words(c.word()), c.text())
            (room, i), f = c.words(2), c.text()
            (refusal, value), t = c.words(2), c.text()
            yield own, f, i, room, refusal, value, t, c.words(3)


def question(names, f, i, content, t):
    """Of an index that has a text, or NONE; with more room than it needs."""
    return (names, f, i, 9, 12, 0, b"", content) if t == NONE else (names, f, i, len(t) + 1 + i % 5, 0, 0, t, content)


class Parts:
    """The parts of a file behind its first `at` bytes, each once; a place is where a part begins and how many bytes it has."""

    def __init__(self, at):
        self.at, self.body, self.places = at, bytearray(), {}

    def place(self, b):
        if b and b not in self.places:
            self.places[b] = self.at + len(self.body)
            self.body.extend(b)
        return (self.places[b] if b else 0), len(b)


def pack(program, texts, questions, path):
    sets = {}
    for names, *q in text_questions(program, texts, questions):
        sets.setdefault((tuple(names.words), names.area), []).append(q)
    many, rows = sum(map(len, sets.values())), []
    files = list(dict.fromkeys(q[0] for qs in sets.values() for q in qs))
    number = {f: i for i, f in enumerate(files)}
    parts = Parts(16 + 24 * len(sets) + 8 * len(files) + 44 * many)
    place = parts.place
    out = words(16, 24 * len(sets), 16 + 24 * len(sets), 8 * len(files))
    begin = 16 + 24 * len(sets) + 8 * len(files)
    for (table, area), qs in sets.items():
        out += words(*place(words(*table)), *place(area), begin, 44 * len(qs))
        begin += 44 * len(qs)
        for f, i, room, refusal, value, t, (where, start, n) in qs:
            base = place(f if where == 1 else area)[0]
            assert n == 0 or where
            told = model.damage(f, model.Names(list(table), area), i, room)
            rows.append(words(number[f], i, room, refusal, value, *told, *place(t), base + start if n else 0, n))
    out += b"".join(words(*place(f)) for f in files) + b"".join(rows)
    assert len(out) == parts.at
    with open(path, "wb") as f:
        f.write(out + parts.body)
    print(f"{path}: {len(sets)} sets, {len(files)} files, {many} questions, {len(out) + len(parts.body)} bytes")


# ---- readings, first values, names and complex values, for the same

def replay_cases(reads, questions):
    """(names, kind, words, parts) each."""
    names, cases = open_cases(reads)
    for c in cases:
        assert c.word() == 2
        k, cap, mode, *room = c.words(6)
        f, answer = c.text(), c.words(6)
        yield read_row(names[k], [cap, *room], mode, f, answer, [c.words(n * many) for n, many in zip((rust.NODE, rust.ATTRIBUTE, 3), answer[3:])])
    names, cases = open_cases(questions)
    tried = {}
    for c in cases:
        kind = c.word()
        if kind == 3:
            own = model.Names(c.words(c.word()), c.text())
            c.words(2)
            tried[tuple(own.words), own.area, c.text()] = own
        elif kind == 4:
            k, f = c.word(), c.text()
            tables = [words(*c.words(c.word())) for _ in range(2)]
            asked = [c.text(), c.text()]
            yield names[k], 4, c.words(7), [f, *tables, *asked]
        elif kind == 5:
            t = c.text()
            yield names[0], 5, c.words(1), [t]
        else:
            yield names[0], 6, c.words(3), []
    # names that may break their rule, which comes before all rules of the file: the model's answers
    node, attribute = [0, 0, NONE, 0, 1, 2], [0, 0, 1, 3, 7, 0]
    broken = next(own for own in tried.values() if own.bad() is not None)
    for (_, _, f), own in tried.items():
        for cap, mode in ((8, 1), (0, 1), (8, 3), (0, 3)) if own is broken else ((8, 1),):  # a cap of 0 refuses before they do, a mode behind them
            refusal, value, starts, *tables = model.read(f, own, cap, (13, 6, 2), mode=mode)
            yield read_row(own, [cap, 13, 6, 2], mode, f, [refusal, value, starts, *map(len, tables)], [[x for row in t for x in row] for t in tables])
        asked = [b"name", "é".encode()]
        answer = model.first_value(f, own, node, attribute, *asked, 1, 1)
        yield own, 4, [1, 1, *answer], [f, words(*node), words(*attribute), *asked]


def read_row(names, lent, mode, f, answer, tables):
    """With no names, a cap of 8, the first mode and 112 places the answer is the same where no more than 8 notes of a kind were kept, and 10 is not the answer."""
    kinds = tables[2][::3]
    listed = not names.words and mode == 1 and lent[0] >= 8 and answer[0] != 10 and all(kinds.count(x) <= 8 for x in kinds)
    return names, 2, [*lent, int(listed), *answer], [f, *(words(*t) for t in tables)], [mode]


def packed_cases(path):
    """The cases that pack-replay wrote, readings answered anew by the model: where a note 32 has no part in them, the stored answer must be the same."""
    with open(path, "rb") as f:
        b = f.read()

    def part(at):
        begin, n = struct.unpack_from("<2I", b, at)
        return b[begin:begin + n]

    def unpacked(w):
        return list(struct.unpack(f"<{len(w) // 4}I", w))

    at, n = struct.unpack_from("<2I", b, 0)
    for entry in range(at, at + n, 24):
        names = model.Names(unpacked(part(entry)), part(entry + 8))
        first, size = struct.unpack_from("<2I", b, entry + 16)
        for row in range(first, first + size, 84):
            w = unpacked(b[row:row + 84])
            if w[0] == 2:
                f, (cap, *room), mode = part(row + 48), w[1:5], w[20]
                stored = tuple(w[6:9]), *(part(row + 56 + 8 * k) for k in range(3))
                answer = model.read(f, names, cap, room, mode=mode)
                if answer[0] == 10 and w[6] != 10:  # the room of a reading that had just enough
                    room[2] += sum(n[0] == 32 for n in model.read(f, names, cap, mode=mode)[5])
                    answer = model.read(f, names, cap, room, mode=mode)
                tables = [[x for record in t for x in record] for t in answer[3:]]
                if not model.damaged(model.read(f, names, cap, mode=mode)):
                    assert stored == (tuple(answer[:3]), *(words(*t) for t in tables)), f.hex()
                yield read_row(names, [cap, *room], mode, f, [*answer[:3], *map(len, answer[3:])], tables)
            elif w[0] == 4:
                yield names, 4, w[1:8], [part(row + 32 + 8 * k) for k in range(5)]
            elif w[0] == 5:
                yield names, 5, w[1:2], [part(row + 8)]
            else:
                yield names, 6, w[1:4], []


def pack_replay(path, packed):
    sets, parts, many = {}, Parts(8), {}
    for names, kind, w, held, *behind in packed:
        row = words(kind, *w, *(x for b in held for x in parts.place(b)), *(x for b in behind for x in b))
        sets.setdefault((tuple(names.words), names.area), []).append(row + bytes(84 - len(row)))
        many[kind] = many.get(kind, 0) + 1
    rows = b"".join(words(*parts.place(words(*table)), *parts.place(area), *parts.place(b"".join(rows))) for (table, area), rows in sets.items())
    out = words(*parts.place(rows)) + parts.body
    with open(path, "wb") as f:
        f.write(out)
    print(f"{path}: {len(sets)} sets, cases of each kind {many}, {len(out)} bytes")


# ---- walking a file of cases

def open_cases(path):
    """The name sets of a file of cases, and a Reader for each case."""
    r = Reader(open(path, "rb").read())
    assert r.b[:4] == b"AXC1"
    r.at = 4
    sets = [model.NO_NAMES]
    for _ in range(r.word()):
        w = r.words(r.word())
        sets.append(model.Names(w, r.text()))
    cases = []
    for _ in range(r.word()):
        n = r.word()
        cases.append(Reader(r.b[r.at:r.at + n]))
        r.at += n
    assert r.at == len(r.b)
    return sets, cases


class Reader:
    def __init__(self, b):
        self.b, self.at = b, 0

    def word(self):
        self.at += 4
        return struct.unpack_from("<I", self.b, self.at - 4)[0]

    def words(self, n):
        self.at += 4 * n
        return list(struct.unpack_from(f"<{n}I", self.b, self.at - 4 * n))

    def text(self):
        n = self.word()
        t = self.b[self.at:self.at + n]
        self.at += n + -n % 4
        assert len(t) == n
        return t

    def none(self):
        """NONE, past the word, where that is the next one; else 0."""
        if struct.unpack_from("<I", self.b, self.at)[0] != NONE:
            return 0
        return self.word()


def check(path):
    b = open(path, "rb").read()
    r = Reader(b)
    assert b[:4] == b"AXC1"
    r.at = 4
    sets = [model.NO_NAMES]
    for _ in range(r.word()):
        w = r.words(r.word())
        sets.append(model.Names(w, r.text()))
        assert sets[-1].bad() is None
    kinds, most, refusals, longest = {}, {}, {}, 0

    def top(key, n):
        most[key] = max(most.get(key, 0), n)
    for _ in range(r.word()):
        n = r.word()
        c = Reader(r.b[r.at:r.at + n])
        r.at += n
        top("case", n)
        kind = c.word()
        kinds[kind] = kinds.get(kind, 0) + 1
        if kind == 1:
            f = c.text()
            refusal, value, count, lists = c.words(4)
            if refusal:
                assert model.text(f, model.NO_NAMES, 0, 0)[:2] == (refusal, value)
            top("texts", count)
            for _ in range(lists):
                names = sets[c.word()]
                h = model.Head(f, names, lambda *_: None, set(), "")
                assert count == max(len(h.offsets), len(h.ids)) + 2
                for i in range(count):
                    assert tuple(c.words(3)) == h.content(i)
                    t = None if struct.unpack_from("<I", c.b, c.at)[0] == NONE else c.text()
                    if t is None:
                        c.word()
                    assert t == h.text(i)
                    top("text", len(t or b""))
        elif kind == 2:
            k, cap, mode, *room = c.words(6)
            f = c.text()
            refusal, value, starts, a, b_, m = c.words(6)
            rows = [tuple(c.words(rust.NODE)) for _ in range(a)], [tuple(c.words(rust.ATTRIBUTE)) for _ in range(b_)], [tuple(c.words(3)) for _ in range(m)]
            assert (refusal, value, starts, *rows) == model.read(f, sets[k], cap, tuple(room), trusted=True, mode=mode)
            for key, x in zip(("node words", "attribute words", "note places"), room):
                top(key, x)
        elif kind == 3:
            w = c.words(c.word())
            names = model.Names(w, c.text())
            room, index = c.words(2)
            f = c.text()
            refusal, value = c.words(2)
            t = c.text()
            assert (refusal, value, t) == model.text(f, names, index, room) and tuple(c.words(3)) == model.content(f, names, index)
        elif kind == 4:
            k = c.word()
            f = c.text()
            nodes = c.words(c.word())
            attributes = c.words(c.word())
            tag, name = c.text(), c.text()
            counts = c.words(2)
            answer = tuple(c.words(5))
            refusal = answer[0]
            assert answer == model.first_value(f, sets[k], nodes, attributes, tag, name, *counts)
            top("node words", len(nodes))
            top("attribute words", len(attributes))
        elif kind == 5:
            f = c.text()
            assert c.word() == int(model.valid(model.lossy(f, ""), "", set()))
        else:
            data, low, high = c.words(3)
            f = b""
            assert struct.pack("<II", low, high) == struct.pack("<d", float(data & ~0xFF) * (0.00390625, 3.051758e-5, 1.192093e-7, 4.656613e-10)[data >> 4 & 3])
        if kind < 5:
            refusals[refusal] = refusals.get(refusal, 0) + 1
        top("file", len(f))
        assert c.at == n
    assert r.at == len(b)
    print(f"{path}: {len(b)} bytes; cases of each kind {kinds}; refusals {dict(sorted(refusals.items()))}; most {most}")


if __name__ == "__main__":
    what = sys.argv[1]
    if what == "check":
        check(sys.argv[2])
    else:
        {
            "texts": make_texts, "reads": make_reads, "questions": make_questions, "pack": pack,
            "pack-replay": lambda reads, questions, path: pack_replay(path, replay_cases(reads, questions)),
            "again": lambda path: pack_replay(path, list(packed_cases(path))),
        }[what](*sys.argv[2:])
