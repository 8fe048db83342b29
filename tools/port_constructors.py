#!/usr/bin/env python3
"""Spells the constructors that tools/port_names.py passed over, since several stand on one line, in snake case: textBody becomes text_body.

usage: python3 tools/port_constructors.py [FOLDER]
"""
import os
import re
import sys

NAMES = "textBody lineEnd literalBody changeBody initBody conditionPoint effectPoint overAll atEnd".split()
TABLE = {n: re.sub(r"[A-Z]", lambda m: "_" + m[0].lower(), n) for n in NAMES}
WORD = re.compile(r"(?<![\w'-])(" + "|".join(NAMES) + r")(?![\w'-])")

root = sys.argv[1] if len(sys.argv) > 1 else "."
changed = 0
for top in ("crates", "docs"):
    for folder, dirs, files in os.walk(os.path.join(root, top)):
        dirs[:] = sorted(d for d in dirs if d != "out")
        for name in sorted(files):
            if not name.endswith((".antt", ".rt", ".edit", ".md")) or name in ("PORT.md", "put-back.patch"):
                continue
            path = os.path.join(folder, name)
            with open(path, encoding="utf-8") as f:
                text = f.read()
            new = WORD.sub(lambda m: TABLE[m[1]], text)
            if new != text:
                changed += 1
                with open(path, "w", encoding="utf-8") as f:
                    f.write(new)
print(f"port_constructors: {changed} files")
