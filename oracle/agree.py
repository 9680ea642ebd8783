"""Checks that docs/FORMAT.md, as model.py says it, and the Rust agree on generated files.

  python3 agree.py PROGRAM SEED COUNT     PROGRAM is build's OUT_DIR/axml-oracle

For each file, with one of three name sets and one of five caps (at 0, which the Rust has not, 27 is expected): the whole reading, the text of every index, the names of
the kept records as text, three first values, and the reading with each table a few places short (what follows from the
order in which the Rust's records fall due). Of a head that is cut the Rust tells less (docs/DIFFERENCES.md, 10): it is asked for that alone. Prints a line; exit 1 at the first disagreement, with the file in hexadecimal.
"""
import random
import sys

import cases
import generate
import model
import rust


def main(program, seed, count):
    r = random.Random(seed)
    refused, told, firsts, rooms = {}, 0, 0, 0
    for begin in range(0, count, 4000):
        asked, rights = [], []
        for f in generate.files(seed, begin, min(4000, count - begin)):
            k, cap = r.randrange(3), r.choice(cases.CAPS)
            right = model.read(f, cases.NAMES[k], cap, trusted=True)
            pairs = []
            if not right[0]:
                head = model.Head(f, cases.NAMES[k], lambda *_: None, set(), "")
                node, attribute = r.choice(right[3]), r.choice(right[4])
                pairs = [(b"invalid-element" if node[1] else head.text(node[0]), b"android" if attribute[1] == 2 else head.text(attribute[2])),
                         (head.text(r.choice(right[3])[0]) or b"", b"android"), (b"a", b"name")]
            asked.append((rust.TEXTS | rust.NAMES | rust.DUE, cap, k, f, pairs))
            rights.append(right)
        for (_, cap, k, f, pairs), right, a in zip(asked, rights, rust.ask(program, cases.SETS, asked)):
            names = cases.NAMES[k]

            def same(what, ours, theirs):
                if ours != theirs:
                    print(f"{what} differs, names {k}, cap {cap}: {f.hex()}\nrules: {ours}\nRust:  {theirs}")
                    sys.exit(1)
            same("reading", model.as_rust(right), a.reading() if cap else model.OFF)
            refused[right[0]] = refused.get(right[0], 0) + 1
            if a.texts:
                head = model.Head(f, names, lambda *_: None, set(), "")
                same("text", [head.text(i) for i in range(len(a.texts))], a.texts)
                told += len(a.texts)
            if not right[0]:
                same("node name", [b"invalid-element" if n[1] else head.text(n[0]) for n in right[3]], a.node_names)
                same("attribute name", [b"android" if x[1] == 2 else head.text(x[2]) for x in right[4]], a.attribute_names)
                nodes, attributes = [w for n in right[3] for w in n], [w for n in right[4] for w in n]
                for (tag, name), (no, kind, data, ref) in zip(pairs, a.firsts):
                    ours = model.first_value(f, names, nodes, attributes, tag, name, len(right[3]), len(right[4]), trusted=True)
                    same("first value", ours, (no, 0, kind, data, ref))
                    firsts += not no
            due = [a.due.count(c) for c in b"EAN"]
            room = [rust.NODE * due[0] + 3, rust.ATTRIBUTE * due[1] + 3, due[2] + 1]
            t = r.randrange(3)
            room[t] = r.randrange(room[t] + 1)
            if not model.damaged(right):  # what a note 32 needs of the room the Rust does not tell
                same(f"reading with room {room}", model.coarse(model.read(f, names, cap, room, trusted=True)), cases.told_answer(a, cap, room))
                rooms += 1
    print(f"seed {seed}: {count} files agree; refusals {dict(sorted(refused.items()))}; texts {told}, first values found {firsts}, short rooms {rooms}")


if __name__ == "__main__":
    main(sys.argv[1], int(sys.argv[2]), int(sys.argv[3]))
