#!/usr/bin/env python3
"""relist.py LIBRARY [--count N] [--seed S] [--program COMMAND --runs N]: listings, most of them damaged, read by the library's axml_read_listing and by a plain model.

The model goes by lines and regular expressions, where the proved reader goes by bytes: docs/FORMAT.md, L7 to L9. LIBRARY is libaxml.so as
tools/library writes it. Every number of the answer and every word of the three tables is compared, with garbage in the tables before. What is
taken is printed again from its words and compared with the text. With --program the first N listings go through the program behind axml-relist too (COMMAND
is how crates/relist/out/relist is started here): it prints the listing again, or the number and the value of its fault. Says what it did, and ends
with 1 where they disagree.
"""
import argparse, collections, ctypes, random, re, shlex, subprocess, sys

OVER = 4294967295
N = r'(0|[1-9][0-9]*)'
HEAD = ['refusal', 'value', 'cap', 'starts', 'nodes', 'attributes', 'notes']
NODE = ['node', 'name', 'fixed', 'parent', 'first', 'count', 'line']
ATTRIBUTE = ['attribute', 'owner', 'prefix', 'name', 'type', 'data', 'ns']
NOTE = ['note', 'kind', 'a', 'b']
FORMS = [[k] for k in HEAD] + [NODE, ATTRIBUTE, NOTE]
LISTED = {0, 1, 2, 3, 6, 41, 42, 43, 44, 45, 51, 52}
PATTERNS = [re.compile(' '.join('%s=%s' % (k, N) for k in form).encode()) for form in FORMS]


def numbers(form, line):
    """The numbers of a line of this form, or None."""
    got = PATTERNS[form].fullmatch(line)
    return got and [int(n) for n in got.groups()]


class Fault(Exception):
    pass


def model(text, words):
    """What the text says in tables of so many words: (numbers, cap, three lists of words), or a Fault with number and value."""
    lines = text.split(b'\n')
    whole, left = lines[:-1], lines[-1]
    at = 0

    def stray():
        # what is wrong with the line at hand, which is not the one due
        if at == len(whole):
            return 24 if left else 26
        for form in range(10):
            got = numbers(form, whole[at])
            if got is not None:
                return 25 if max(got) > OVER else 26
        return 24

    def due(form):
        got = numbers(form, whole[at]) if at < len(whole) else None
        if got is None:
            raise Fault(stray(), at + 1)
        return got

    head = []
    for form in range(7):
        n = due(form)[0]
        refused = head and head[0] != 0
        bad = (form == 0 and n not in LISTED) or (form == 1 and head[0] in (0, 2, 6) and n != 0)
        bad = bad or (form >= 3 and refused and n != 0) or (form == 6 and head[2] == 0 and n != 0)
        if bad:
            raise Fault(24, at + 1)
        if n > OVER:
            raise Fault(25, at + 1)
        head.append(n)
        at += 1
    tables = []
    for form, count, room, full in ((7, head[4], words[0], 8), (8, head[5], words[1], 9), (9, head[6], words[2], 10)):
        table, width = [], len(FORMS[form]) - 1
        for k in range(count):
            got = due(form)
            if max(got) > OVER:
                raise Fault(25, at + 1)
            if got[0] != k:
                raise Fault(26, at + 1)
            if k >= room // width:
                raise Fault(full, room // width)
            table += got[1:]
            at += 1
        tables.append(table)
    if at < len(whole) or left:
        raise Fault(stray(), at + 1)
    return head, tables


def shown(head, tables):
    out = ['%s=%d' % (k, n) for k, n in zip(HEAD, head)]
    for form, table in zip((NODE, ATTRIBUTE, NOTE), tables):
        width = len(form) - 1
        for k in range(len(table) // width):
            out.append(' '.join('%s=%d' % p for p in zip(form, [k] + table[width * k:width * k + width])))
    return ''.join(l + '\n' for l in out).encode()


class Relisted(ctypes.Structure):
    _fields_ = [('refusal', ctypes.c_uint32), ('value', ctypes.c_uint64), ('starts', ctypes.c_uint32), ('nodes', ctypes.c_uint32),
                ('attributes', ctypes.c_uint32), ('notes', ctypes.c_uint32), ('cap', ctypes.c_uint32)]


def port(library, text, words):
    tables = [(ctypes.c_uint32 * max(n, 1))(*([7] * max(n, 1))) for n in words]
    lent = []
    for table, n in zip(tables, words):
        lent += [table, ctypes.c_size_t(n)]
    r = library.axml_read_listing(text, ctypes.c_size_t(len(text)), *lent)
    return r, [list(t)[:n] for t, n in zip(tables, words)]


def agrees(library, text, words):
    """Whether both say the same, and what the model says."""
    r, tables = port(library, text, words)
    try:
        head, said = model(text, words)
    except Fault as f:
        number, value = f.args
        zero = all(not any(t) for t in tables)
        return (r.refusal, r.value, r.starts, r.nodes, r.attributes, r.notes, r.cap) == (number, value, 0, 0, 0, 0, 0) and zero, number
    same = [r.refusal, r.value, r.cap, r.starts, r.nodes, r.attributes, r.notes] == head
    same = same and tables == [s + [0] * (n - len(s)) for s, n in zip(said, words)]
    return same and shown(head, [t[:len(s)] for t, s in zip(tables, said)]) == text, 0


def printed(command, text):
    """Whether the program prints what the model says: the listing again, or the fault."""
    try:
        model(text, [1000000] * 3)
        due = text
    except Fault as f:
        due = b'fault=%d value=%d\n' % f.args
    return subprocess.run(command, input=text, stdout=subprocess.PIPE).stdout == due


# ---- listings, and what becomes of them

def number(r):
    return r.choice([0, 0, 1, 2, 3, 9, 10, 99, 100, 255, 65536, OVER - 1, OVER, r.randrange(OVER + 1)])


def made(r):
    cap = r.choice([8, 8, 8, 1, 0, 9, OVER])
    if r.random() < 0.15:
        refusal = r.choice(sorted(LISTED - {0}))
        return shown([refusal, 0 if refusal in (2, 6) else number(r), cap, 0, 0, 0, 0], [[], [], []])
    counts = [r.choice([0, 1, 1, 2, 3]), r.choice([0, 1, 2, 4]), r.choice([0, 0, 1, 2]) if cap else 0]
    tables = [[number(r) for _ in range(c * (len(f) - 1))] for c, f in zip(counts, (NODE, ATTRIBUTE, NOTE))]
    return shown([0, 0, cap, number(r)] + counts, tables)


def mutated(r, text):
    lines = text.split(b'\n')
    kind = r.randrange(16)
    i = r.randrange(len(text) + 1)
    k = r.randrange(len(lines))
    if kind == 0:
        return text[:i] + text[i + 1:]
    if kind == 1:
        return text[:i] + bytes([r.choice(b'0123456789= \n\r+-anodes\0\xff')]) + text[i:]
    if kind == 2:
        return text[:i] + bytes([r.choice(b'0123456789= \n\r+-anodes')]) + text[i + 1:]
    if kind == 3:
        return text[:i]
    if kind == 4:
        return b'\n'.join(lines[:k] + lines[k + 1:])
    if kind == 5:
        return b'\n'.join(lines[:k] + [lines[k]] + lines[k:])
    if kind == 6:
        j = r.randrange(len(lines))
        lines[k], lines[j] = lines[j], lines[k]
        return b'\n'.join(lines)
    if kind in (7, 8, 9):
        found = list(re.finditer(rb'[0-9]+', text))
        if not found:
            return text
        m = r.choice(found)
        other = [str(number(r)), '0' + m.group().decode(), '+' + m.group().decode(), str(OVER + 1), '9' * r.randrange(1, 40), '00', '', '-1', str(int(m.group()) + 1)]
        return text[:m.start()] + r.choice(other).encode() + text[m.end():]
    if kind == 10:
        return text.replace(b'\n', b'\r\n')
    if kind == 11:
        return text[:-1]
    if kind == 12:
        return text + r.choice([b'\n', b'cap=8\n', b'foo=1\n', b'x', b'node=0\n', b'nodes=4294967296\n', text])
    if kind == 13:
        fields = lines[k].split(b' ')
        r.shuffle(fields)
        lines[k] = b' '.join(fields)
        return b'\n'.join(lines)
    if kind == 14:
        lines[k] = r.choice([f for f in (b'nodes=1', b'cap=0', b'refusal=7', b'note=0 kind=1 a=2 b=3', b'value=5', b'', b' cap=8', b'cap=8 ')])
        return b'\n'.join(lines)
    return text


def main():
    p = argparse.ArgumentParser()
    p.add_argument('library')
    p.add_argument('--count', type=int, default=100000)
    p.add_argument('--seed', type=int, default=1)
    p.add_argument('--program', default='')
    p.add_argument('--runs', type=int, default=10000)
    a = p.parse_args()
    library = ctypes.CDLL(a.library)
    library.axml_read_listing.restype = Relisted
    r = random.Random(a.seed)
    seen, wrong, runs = collections.Counter(), 0, 0
    for n in range(a.count):
        text = made(r)
        for _ in range(r.choice([0, 1, 1, 1, 2, 3])):
            text = mutated(r, text)
        words = [r.choice([24, 24, 24, 18, 12, 6, 5, 0, 25]), r.choice([24, 24, 24, 20, 10, 5, 4, 0]), r.choice([12, 12, 6, 3, 2, 0])]
        same, number_said = agrees(library, text, words)
        if a.program and n < a.runs:
            runs += 1
            same = same and printed(shlex.split(a.program), text)
        seen[number_said] += 1
        if not same:
            wrong += 1
            if wrong <= 5:
                print('relist: disagreement', words, text, file=sys.stderr)
    said = ', '.join('%d %s' % (c, 'taken and printed back' if k == 0 else 'refused with %d' % k) for k, c in sorted(seen.items()))
    print('relist: seed %d, %d listings (%s), %d of them through the program: %d disagreements' % (a.seed, a.count, said, runs, wrong))
    return wrong != 0


if __name__ == '__main__':
    sys.exit(main())
