#!/usr/bin/env python3
"""Writes the stored cases of axml_round_up_add: python3 tools/month_cases.py bindings/c/months. Run by bindings/c/months.c; docs/CASES.md says what they are.

The answers are computed here from the rules of docs/FORMAT.md, R, and from nothing else. Words of 32 bits, the low byte first; a number of 64 bits is two words:
  cases, and for each: words, the round-up's words; adds, and for each: refusal, notes, bytes (64 bits), note words, those words; then the answer's refusal and
  value (64 bits); and behind the adds the round-up's words afterwards.
The same seed gives the same bytes.
"""
import random
import struct
import sys

TOP = 4294967295
BOUNDS = [2 ** (12 + 2 * n) for n in range(5)]
LENGTHS = [0, 1, 8, 1 << 24, (1 << 24) + 1, 1 << 32, (1 << 64) - 1] + [b + d for b in BOUNDS for d in (-1, 0, 1)]


def size_class(length):
    return sum(length > b for b in BOUNDS)


def added(counts, refusal, notes, length, words):
    """The answer and the counts afterwards."""
    if len(counts) != 132:
        return (13, len(counts)), counts
    if refusal > 52:
        return (13, refusal), counts
    more = [0] * 132
    if refusal:
        more[1 + refusal] = 1
    else:
        more[0] = 1
        for i in range(min(notes, len(words) // 3)):
            if words[3 * i] <= 12:
                more[54 + 6 * words[3 * i] + size_class(length)] += 1
    after = [a + b for a, b in zip(counts, more)]
    return ((29, 0), counts) if max(after) > TOP else ((0, 0), after)


def main():
    pick = random.Random(13)
    cases = []
    for n in range(72):
        long = 132 if n % 9 else pick.choice([0, 1, 131, 133, 264])
        sort = n % 3
        counts = [0] * long
        if sort == 1:
            counts = [pick.randrange(TOP + 1) for _ in range(long)]
        elif sort == 2:
            counts = [pick.choice([TOP, TOP - 1, TOP - 2, TOP - 5, 0, 7]) if pick.random() < 0.3 else pick.randrange(1000) for _ in range(long)]
        before, adds = list(counts), []
        for _ in range(pick.randrange(1, 9)):
            refusal = 0 if pick.random() < 0.6 else pick.choice([1, 2, 3, 6, 7, 8, 9, 10, 16, 27, 29, 41, 45, 51, 52, 53, 54, 60, TOP])
            words = []
            for _ in range(pick.randrange(0, 24)):
                words += [pick.choice([*range(13), *range(13), 13, 14, 31, 32, 33, TOP]), pick.randrange(TOP + 1), pick.choice([0, 1, 12, 32])]
            words += [3] * pick.randrange(3)
            notes = pick.choice([len(words) // 3, len(words) // 3, pick.randrange(40), 0, TOP])
            length = pick.choice(LENGTHS)
            answer, counts = added(counts, refusal, notes, length, words)
            adds.append((refusal, notes, length, words, answer))
        cases.append((before, adds, counts))
    out = [len(cases)]
    wide = lambda n: [n & TOP, n >> 32]
    for before, adds, after in cases:
        out += [len(before), *before, len(adds)]
        for refusal, notes, length, words, (r, v) in adds:
            out += [refusal, notes, *wide(length), len(words), *words, r, *wide(v)]
        out += after
    open(sys.argv[1], "wb").write(struct.pack("<%dI" % len(out), *out))
    answers = [a[4][0] for c in cases for a in c[1]]
    print("%d months, %d files: %s" % (len(cases), len(answers), ", ".join("%d answer %d" % (answers.count(x), x) for x in sorted(set(answers)))))


main()
