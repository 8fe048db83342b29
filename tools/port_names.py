#!/usr/bin/env python3
"""Spells this repository's own definitions and lemmas in snake case, as port.py spelled the library's: valueAt and ends-in-time become value_at and ends_in_time.

usage: python3 tools/port_names.py        at the top of the repository, once, right behind port.py

Types, modules and what begins with a capital stay, as do Rust's names, strings and what a file imports from a library under the same spelling.
Where a lemma written with dashes falls together with a definition, the lemma gets _lem. It stops before it writes where two names would still fall together.
"""
import os
import re
import sys

TOKEN = re.compile(r'--[^\n]*|"(?:[^"\\\n]|\\.)*"|[^\s(){}.;,@"«»\[\]]+|\s+|.')
DECLARED = re.compile(r"(?m)^ *(?:(?:pub|abbrev|unfoldable|ruleset|data|record) +)*([^\s(){}.;,@\"«»\[\]:=]+)(?: \{[^{}\n]*\})* :(?= |$)")
USE = re.compile(r"\buse ([^\s;{]+)\.\{([^}]*)\}|\buse ([^\s;{]+)()", re.M)
OWN = re.compile(r"Rattle\.(\w+)\.")


def files(top, endings):
    for folder, dirs, names in os.walk(top):
        dirs[:] = sorted(d for d in dirs if d != "out")
        for n in sorted(names):
            if n.endswith(endings):
                yield os.path.join(folder, n)


def read(p):
    with open(p, encoding="utf-8", newline="") as f:
        return f.read()


def snake(name):
    tail = len(name) - len(name.rstrip("'"))
    body = name[: len(name) - tail]
    body = re.sub(r"(?<=[a-z0-9])[A-Z]", lambda m: "_" + m[0].lower(), body)
    body = re.sub(r"[A-Z]", lambda m: m[0].lower(), body) if not re.search(r"[A-Z]{2}", body) else body
    return body.replace("-", "_") + name[len(name) - tail :]


def main():
    root = sys.argv[1] if len(sys.argv) > 1 else "."
    crates = sorted(os.listdir(os.path.join(root, "crates")))
    antt = list(files(os.path.join(root, "crates"), (".antt",)))
    rt = list(files(os.path.join(root, "crates"), (".rt",)))
    declared = set()
    for p in antt:
        text = "\n".join(l.split("--")[0] if l.lstrip().startswith("--") else l for l in read(p).split("\n"))
        for m in DECLARED.finditer(text):
            n = m[1]
            if re.match(r"[a-z][\w'-]*$", n):
                declared.add(n)
    table, bare = {}, {}
    met = {}
    for n in sorted(declared):
        met.setdefault(snake(n), []).append(n)
    for new, olds in met.items():
        humped = [n for n in olds if "-" not in n and n != new]
        for n in olds:
            if n == new:
                # port.py has respelled a lemma that was written with dashes: it gives way to a definition
                if humped:
                    bare[n] = n + "_lem"
            elif n in humped or len(olds) == 1:
                table[n] = new
            else:
                table[n] = new + "_lem"
    met = {}
    for n in declared:
        met.setdefault(bare.get(n, table.get(n, n)), set()).add(n)
    for new, olds in met.items():
        if len(olds) > 1:
            raise SystemExit(f"rename: {olds} would both be {new}")
    changed = 0
    for p in antt + rt:
        text = read(p)
        kept = set()
        for m in USE.finditer(text):
            path = m[1] or m[3]
            own = OWN.match(path + ".")
            if not (own and own[1] in crates):
                for it in (m[2] or "").split(","):
                    kept.add(it.split(" as ")[-1].strip())
        out, behind = [], ""
        lemmas = p.endswith(".antt") and "/proofs/" in p
        for m in TOKEN.finditer(text):
            w = m[0]
            if w.startswith("--") or w.startswith('"'):
                if w.startswith("--"):
                    w = re.sub(r"[^\s(){}.;,@\"«»\[\]`:]+", lambda k: table.get(k[0], k[0]) if k[0] not in kept and re.search("[A-Z-]", k[0]) and "-" not in k[0] else k[0], w)
                out.append(w)
                continue
            if w in kept:
                out.append(w)
            elif lemmas and w in bare and behind != ".":
                out.append(bare[w])
            else:
                out.append(table.get(w, w))
            behind = w
        new = "".join(out)
        if new != text:
            changed += 1
            with open(p, "w", encoding="utf-8", newline="") as f:
                f.write(new)
    print(f"rename: {len(table)} names, {changed} files")


main()
