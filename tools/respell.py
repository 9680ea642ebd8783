#!/usr/bin/env python3
"""tools/respell.py [--dry]

Brings the repository's own definitions and lemmas to the spelling of today's Rattle, once, behind the kit's own port:
words in snake case (isAscii is is_ascii, and so in a name of several parts: isAscii-at is is_ascii-at). Types, modules,
functions of src/ and strings stay. Run at the top of the repository. It says which new names were in use before (a function of
src/ may have the name of the definition that it computes, and many have), and writes nothing where two names fall together.
"""
import os
import re
import sys

# A lemma that would have its definition's name gets _lem: the files that have such a lemma, and their names before.
LEMMAS = {
    "crates/events/proofs/Starts.antt": "after_open gap_step size_step open_step named_step",
    "crates/events/proofs/Heads.antt": "last_step",
    "crates/events/proofs/Steps.antt": "gap_step size_step open_step named_step last_step",
    "crates/head/proofs/Entering.antt": "entered_by",
    "crates/main_activities/proofs/Opening.antt": "main_open",
    "crates/main_activities/proofs/main_activities/Proof.antt": "main_open",
    "crates/claims/proofs/Small/Head.antt": "no_garbage",
    "crates/claims/proofs/Small/Bytes.antt": "turn_by",
    "crates/value_text/proofs/Looking.antt": "no_name",
    "crates/value_text/proofs/Opening.antt": "open_by",
}
WORD = re.compile(r"[A-Za-z_ℕℤα-ωΑ-Ω₀-₉][\w'₀-₉-]*", re.U)
CAMEL = re.compile(r"^[a-z][a-z0-9_]*[A-Z]")


def files(ends):
    for folder, dirs, names in os.walk("crates"):
        dirs[:] = sorted(d for d in dirs if d not in ("out", "data", ".git"))
        for n in sorted(names):
            if n.endswith(ends):
                yield os.path.join(folder, n)


def snake(part):
    if not CAMEL.match(part):
        return part
    t = re.sub(r"(?<=[a-z0-9'])([A-Z])", r"_\1", part)
    t = re.sub(r"([A-Z])([A-Z][a-z])", r"\1_\2", t)
    return t.lower()


def turned(word):
    return "-".join(snake(p) for p in word.split("-"))


def pieces(text, line_comment):
    """Parts of a text: ('code' | 'comment' | 'string', text)."""
    out, i, start = [], 0, 0
    n = len(text)
    while i < n:
        if text.startswith(line_comment, i) and (line_comment != "--" or i == 0 or text[i - 1] in " \n\t(" or True):
            if line_comment == "--" and i > 0 and text[i - 1] == "-":
                i += 1
                continue
            j = text.find("\n", i)
            j = n if j < 0 else j
            out.append(("code", text[start:i]))
            out.append(("comment", text[i:j]))
            i = start = j
        elif text[i] == '"':
            j = i + 1
            while j < n and text[j] != '"':
                j += 2 if text[j] == "\\" else 1
            out.append(("code", text[start:i]))
            out.append(("string", text[i : j + 1]))
            i = start = j + 1
        else:
            i += 1
    out.append(("code", text[start:]))
    return out


def main():
    dry = "--dry" in sys.argv
    used, code = {}, {}
    for p in files((".antt", ".rt")):
        t = open(p, encoding="utf-8").read()
        code[p] = pieces(t, "//" if p.endswith(".rt") else "--")
    names = {}
    for p, ps in code.items():
        for k, x in ps:
            if k != "code":
                continue
            for w in WORD.findall(x):
                used.setdefault(w, set()).add(p)
                new = turned(w)
                if new != w:
                    names[w] = new
    clash = False
    for w, new in sorted(names.items()):
        if new in used:
            both = used[new] & used[w]
            print(f"also used: {w} -> {new}: {len(used[w])} files, {len(used[new])} have the new name, {len(both)} both: {sorted(both)[:4]}")
    byname = {}
    for w, new in names.items():
        byname.setdefault(new, []).append(w)
    for new, ws in byname.items():
        if len(ws) > 1:
            print("fall together:", ws, "->", new)
            clash = True
    print(f"{len(names)} names")
    if dry or clash:
        return 1 if clash else 0
    for p, ps in code.items():
        lemmas = LEMMAS.get(p, "").split()

        def each(k, x):
            if k == "string":
                return x
            if k == "code" and lemmas:
                x = re.sub(r"(?<![\w.'-])(" + "|".join(lemmas) + r")(?![\w'-])", r"\1_lem", x)
            return WORD.sub(lambda m: names.get(m.group(0), m.group(0)), x)

        new = "".join(each(k, x) for k, x in ps)
        old = "".join(x for k, x in ps)
        if new != old:
            open(p, "w", encoding="utf-8").write(new)
    for p in files((".edit",)):
        t = open(p, encoding="utf-8").read()
        new = WORD.sub(lambda m: names.get(m.group(0), m.group(0)), t)
        if new != t:
            open(p, "w", encoding="utf-8").write(new)
    os.makedirs("tools", exist_ok=True)
    with open("tools/respelled.tsv", "w", encoding="utf-8") as f:
        for w, new in sorted(names.items()):
            f.write(f"{w}\t{new}\n")
    return 0


if __name__ == "__main__":
    raise SystemExit(main())
