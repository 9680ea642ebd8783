#!/usr/bin/env python3
"""change.py CHANGES DIR: makes the changes of the file CHANGES to the source below DIR.

A line `file PATH SUM` names a file and the first 16 digits of its sha256 as published; what follows is an ed script, last line first: `Na` puts the
lines up to a lone `.` behind line N, `Nc` puts them in its place. So the changes hold nothing of the source but the lines that they write.
"""
import hashlib
import os
import re
import sys


def main():
    changes, top = sys.argv[1:3]
    path, lines, rows = None, [], open(changes).read().split("\n")
    i = 0

    def done():
        if path:
            open(path, "w").write("\n".join(lines))

    while i < len(rows):
        row = rows[i]
        i += 1
        if row.startswith("file "):
            done()
            _, name, summed = row.split()
            path = os.path.join(top, name)
            data = open(path, "rb").read()
            if hashlib.sha256(data).hexdigest()[:16] != summed:
                sys.exit("change.py: %s is not the file of commit 13770539b8" % name)
            lines = data.decode().split("\n")
            continue
        m = re.fullmatch(r"(\d+)([ac])", row)
        if not m:
            continue
        new = []
        while rows[i] != ".":
            new.append(rows[i])
            i += 1
        i += 1
        at = int(m.group(1))
        if m.group(2) == "a":
            lines[at:at] = new
        else:
            lines[at - 1:at] = new
    done()


main()
