#!/usr/bin/env python3
"""Turns each Proof.antt of a crate that gives tie.spec its parts in order into Invariants.antt and Answers.antt, where every part goes by name.

usage: python3 tools/port_proofs.py CRATE NAMES [--only WORD] [--keep]

NAMES is the names.json that 'rt check --generated FOLDER --old-names' writes in the crate. What is 'search rules' alone goes, since the check tries that itself.
A line that begins 'left:' names a file, or a place in one, that wants a look.
"""
import json
import os
import re
import sys

OPEN, CLOSE = "([{", ")]}"
WORD = r"[^\s(){}\[\],;.\"«»]+"
PATH = re.compile(rf"--[^\n]*|\"[^\"\n]*\"|{WORD}(?:\.{WORD})*")
LEFT = []
NOT = []


def plain(n):
    n = n.replace("-", "_").replace("'", "")
    n = n[:-4] if n.endswith("_lem") else n
    return n.lower()


def parts(text):
    """The arguments of an application, as written."""
    out, i, n = [], 0, len(text)
    while i < n:
        if text[i].isspace():
            i += 1
            continue
        if text.startswith("--", i):
            j = text.find("\n", i)
            i = n if j < 0 else j
            continue
        j, depth = i, 0
        while j < n:
            ch = text[j]
            if ch in OPEN:
                depth += 1
            elif ch in CLOSE:
                depth -= 1
            elif ch.isspace() and depth == 0:
                break
            j += 1
            if depth == 0 and ch in CLOSE and text[i] in OPEN:
                break
        out.append(text[i:j])
        i = j
    return out


def group_end(text, i):
    depth = 0
    for j in range(i, len(text)):
        if text[j] in OPEN:
            depth += 1
        elif text[j] in CLOSE:
            depth -= 1
            if depth == 0:
                return j
    raise ValueError("unclosed")


def lam(arg):
    """(binders, body) of a parenthesised λ, else None."""
    if not arg.startswith("("):
        return None
    body = arg[1:-1].strip()
    if not body.startswith("λ"):
        return None
    m = re.match(r"λ\s*((?:[^\s().]+\s*)+)\.\s", body + " ")
    if not m:
        return None
    return m[1].split(), body[m.end():].strip() if m.end() <= len(body) else ""


def dedent(body, base):
    return body


def clauses():
    """Of each function of src/, by its path from its crate: the names of its requires and of its ensures."""
    out = {}
    for crate in sorted(os.listdir("crates")):
        src = f"crates/{crate}/src"
        for folder, _, fs in os.walk(src):
            for f in fs:
                if not f.endswith(".rt"):
                    continue
                mod = os.path.relpath(os.path.join(folder, f), src)[:-3].split("/")
                mod = [x for x in mod if x not in ("lib", "main", "mod")]
                text = open(os.path.join(folder, f), encoding="utf-8").read()
                for m in re.finditer(r"(?m)^\s*(?:pub )?(?:extern \"C\" )?fn (\w+)[^{;]*?(?=\n|\{)", text):
                    end = re.search(r"(?m)^\{|^\}|^\s*(?:pub )?fn ", text[m.end():])
                    part = text[m.start(): m.end() + (end.start() if end else 0)]
                    got = [re.findall(rf"(?m)^\s+{k}\*?(?: (\w+))? \{{", part) for k in ("requires", "ensures")]
                    out["::".join([crate] + mod + [m[1]])] = got
                    MUTABLE["::".join([crate] + mod + [m[1]])] = re.findall(r"(\w+): &(?:'\w+ )?mut ", part.split("{")[0].split("ensures")[0])
    return out


CLAUSES = {}
MUTABLE = {}


def named(fn, place, seg, own):
    """seg, from .requires or STEP.ensures on, with its clause by name."""
    names = None
    if seg and seg[0] == "requires" and len(seg) > 1:
        names, k = own[0], 1
    elif len(seg) > 2 and seg[1] in ("ensures", "requires"):
        p = place
        while p:
            entry = fn.entries[p]
            if entry[2][1] == seg[0] or plain(entry[2][0]) == plain(seg[0]):
                names, k = (CLAUSES.get(entry[3] or "", [[], []])[seg[1] == "ensures"]), 2
                break
            p = entry[1]
    return seg[:k] + by_name(seg[k:], names) if names else seg


def by_name(seg, names):
    """What stands at a place of the nested pairs that clauses were once joined to."""
    if not seg or not seg[0].isdigit() or len(names) < 2 or not all(names):
        return seg
    if int(seg[0]) > 1:
        return [names[int(seg[0])]] + seg[1:] if int(seg[0]) < len(names) else seg
    at = j = 0
    while at < len(names) - 1 and j < len(seg) and seg[j] == "1":
        at += 1
        j += 1
    if at < len(names) - 1:
        if j >= len(seg) or seg[j] != "0":
            return seg
        j += 1
    return [names[at]] + seg[j:]


def split_tuple(inside):
    items, depth, at = [], 0, 0
    for k, ch in enumerate(inside):
        if ch in OPEN:
            depth += 1
        elif ch in CLOSE:
            depth -= 1
        elif ch == "," and depth == 0:
            items.append(inside[at:k])
            at = k + 1
    if inside[at:].strip():
        items.append(inside[at:])
    return items


def without_aliases(body, c):
    """let a = c in .. a.x .. is .. c.x .."""
    while True:
        m = re.search(rf"let (\S+) = {re.escape(c)}\s+in\b\s*", body)
        if not m:
            return body
        name, rest = m[1], body[m.end():]
        if re.search(rf"(λ[^.]*\s{re.escape(name)}[\s.]|let {re.escape(name)} )", rest):
            return body
        rest = re.sub(rf"(?<![^\s()\[\]{{}},;|])(?<![{{;] ){re.escape(name)}(?=[.\s)\]}},;]|$)", c, rest)
        body = body[: m.start()] + rest


def as_record(body, names):
    """A tuple at the end of a body, by the names of the clauses."""
    if len([n for n in names if n]) < 2 or not body.rstrip().endswith(")"):
        return None
    b = body.rstrip()
    depth, j = 0, len(b) - 1
    while j >= 0:
        if b[j] in CLOSE:
            depth += 1
        elif b[j] in OPEN:
            depth -= 1
            if depth == 0:
                break
        j -= 1
    before = b[:j].rstrip()
    if before and not re.search(r"\bin$", before):
        return None
    inside = b[j + 1 : -1]
    items = split_tuple(inside)
    while len(items) < len(names) and items and items[-1].strip().startswith("(") and group_end(items[-1].strip(), 0) == len(items[-1].strip()) - 1:
        more = split_tuple(items[-1].strip()[1:-1])
        if len(more) < 2:
            break
        items = items[:-1] + more
    if len(items) != len(names):
        return None
    return b[:j] + "record { " + "; ".join(f"{n} = {i.strip()}" for n, i in zip(names, items)) + " }"


def aligned(args, needs):
    """The parts that are still asked for: those of requires take two arguments, and what is left out is mostly 'search rules'."""
    best = {}

    def cost(arg, need):
        got = lam(arg)
        if not got:
            return 1
        two = len(got[0]) > 1
        want = bool(re.search(r"-requires(-\d+)?$", need[0]))
        return 0 if two == want else (50 if want or got[0][1:2] in (["κs"], ["_"]) else 2)

    def drop(arg):
        got = lam(arg)
        return 0 if got and got[1] == "search rules" and len(got[0]) == 1 else 3 if got and got[1].startswith("omega") else 8

    def go(i, j):
        if (i, j) in best:
            return best[i, j]
        if j == len(needs):
            r = (sum(drop(a) for a in args[i:]), [])
        elif i == len(args):
            r = (10**6, [])
        else:
            a = go(i + 1, j + 1)
            b = go(i + 1, j)
            take, skip = (a[0] + cost(args[i], needs[j]), [args[i]] + a[1]), (b[0] + drop(args[i]), b[1])
            r = take if take[0] <= skip[0] else skip
        best[i, j] = r
        return r

    sys.setrecursionlimit(10000)
    return go(0, 0)[1]


class Function:
    def __init__(self, info):
        self.info = info
        self.places = {}
        for name, parent, field, callee, more in info["places"]:
            self.places[name] = (parent, field[0], field[1])
        self.entries = {it[0]: it for it in info["places"]}
        self.arms = {it[0]: arm for it, arm in zip(info["places"], info["arms"]) if arm}

    def in_arm(self, place, rest):
        """What an arm of a match has under a name of its own."""
        p = place
        while p:
            best = None
            for new, step, path in self.arms.get(p, ["", 0, []])[2]:
                if new.endswith("-own") or plain(step) != plain(rest[0]):
                    continue
                if rest[1 : 1 + len(path)] == path and (best is None or len(path) > len(best[1])):
                    best = (new, path)
            if best:
                return [self.arms[p][0], best[0]] + rest[1 + len(best[1]) :]
            p = self.places[p][0]
        return None
        self.new_of = {}

    def up(self, place):
        return self.places[place][0] if place in self.places else None

    def field(self, place, f):
        if f == "pre":
            return "requires"
        if f in ("args", "requires", "ranges", "well_formed", "lifetimes", "type_inv", "utf8"):
            return f
        p = place
        while p:
            parent, old, new = self.places[p]
            if old and (plain(old) == plain(f) or new == f or plain(new) == plain(f)):
                return new
            p = parent
        return "well_formed" if plain(f) == "well_formed" else None


def rewrite(body, fn, env, where, own):
    """Paths from the records in env, by name; env grows by what a let names."""
    env, some = dict(env), {}
    base = next(iter(env.values()))
    out, at = [], 0
    for m in PATH.finditer(body):
        w = m[0]
        if w.startswith("--") or w.startswith('"'):
            continue
        seg = w.split(".")
        if seg[0] in some and len(seg) > 1:
            seg = [seg[0]] + by_name(seg[1:], some[seg[0]])
            out.append(body[at : m.start()] + ".".join(seg))
            at = m.end()
            continue
        if seg[0] not in env:
            continue
        place = env[seg[0]]
        k = 1
        while k < len(seg) and seg[k] == "before":
            place = fn.up(place) or place
            k += 1
        rest = seg[k:]
        new = [seg[0]]
        arm = fn.in_arm(place, rest) if rest else None
        if arm:
            out.append(body[at : m.start()] + ".".join([seg[0]] + arm))
            at = m.end()
            continue
        if rest:
            got = fn.field(place, rest[0])
            if got is None:
                p = base
                while p and got is None:
                    old, new_ = fn.places[p][1:]
                    if old and (plain(old) == plain(rest[0]) or plain(new_) == plain(rest[0])):
                        got, place = new_, p
                    p = fn.places[p][0]
            if got is None:
                LEFT.append(f"left: {where}: {w} at {place}")
                got = rest[0]
            tail = named(fn, place, [got] + rest[1:], own)
            tail = [x.replace("type-inv", "type_inv") for x in tail]
            if len(tail) > 1 and (got.startswith("if-") or got.startswith("loop") or got.endswith("-test")):
                tail[1] = {"taken": "true", "left": "false", "inv": "invariant"}.get(tail[1], tail[1])
            if len(tail) > 2 and tail[1] in ("auto", "new") and tail[2].isdigit():
                p = place
                while p and fn.entries[p][2][1] != tail[0]:
                    p = fn.entries[p][1]
                ps = MUTABLE.get(fn.entries[p][3], []) if p else []
                if len(ps) == 1:
                    k = 2
                    while k < len(tail) and tail[k] == "1":
                        k += 1
                    k += tail[k : k + 1] == ["0"]
                    tail = tail[:2] + ps + tail[k:]
                else:
                    LEFT.append(f"left: {where}: {w}")
            let = re.search(r"let\s+(\S+)\s*=\s*$", body[: m.start()])
            if let and re.match(r"\s+in\b", body[m.end():]):
                ns = own[0] if tail == ["requires"] else None
                if len(tail) == 2 and tail[1] in ("ensures", "requires"):
                    p = place
                    while p and not (fn.entries[p][2][1] == tail[0]):
                        p = fn.entries[p][1]
                    if p:
                        ns = CLAUSES.get(fn.entries[p][3] or "", [[], []])[tail[1] == "ensures"]
                if ns and len(ns) > 1:
                    some[let[1]] = ns
            if got.startswith("if-not-") and len(tail) == 2 and tail[1] in ("true", "false"):
                NOT.append(where)
                new = ["(ap not " + seg[0], got, tail[1] + ")"]
            else:
                new += tail
        else:
            before = body[: m.start()]
            name = re.search(r"let\s+(\S+)\s*=\s*$", before)
            if name and re.match(r"\s+in\b", body[m.end():]):
                env[name[1]] = place
        out.append(body[at : m.start()] + ".".join(new))
        at = m.end()
    out.append(body[at:])
    return "".join(out)


def scope_end(body, i):
    """Where the group ends in which the text at i stands."""
    depth = 0
    for j in range(i, len(body)):
        if body[j] in OPEN:
            depth += 1
        elif body[j] in CLOSE:
            depth -= 1
            if depth < 0:
                return j
    return len(body)


def substitute(body, table, where):
    hidden = []
    for m in re.finditer(r"λ\s*((?:[^\s().]+\s*)+)\.", body):
        for b in m[1].split():
            hidden.append((b, m.start(), scope_end(body, m.end())))
    for m in re.finditer(r"\(((?:[^\s().:]+ )+): ", body):
        for b in m[1].split():
            close = scope_end(body, m.end())
            hidden.append((b, m.start(), m.end()))
            hidden.append((b, close, scope_end(body, close + 1)))
    for m in re.finditer(r"let (\S+) [:=]", body):
        hidden.append((m[1], m.start(), scope_end(body, m.end())))
    out, at = [], 0
    for m in PATH.finditer(body):
        w = m[0]
        seg = w.split(".")
        if seg[0] not in table or any(h == seg[0] and s <= m.start() < e for h, s, e in hidden):
            continue
        label = re.match(r" = ", body[m.end():]) and re.search(r"[{;]\s*$", body[: m.start()])
        if label:
            continue
        seg[0] = table[seg[0]]
        out.append(body[at : m.start()] + ".".join(seg))
        at = m.end()
    out.append(body[at:])
    return "".join(out)


def turn(path, crate, fname, info, keep):
    text = open(path, encoding="utf-8").read()
    lines = text.split("\n")
    i = 0
    head, uses = [], []
    while i < len(lines) and (lines[i].startswith("--") or not lines[i].strip()):
        if lines[i].strip():
            head.append(lines[i])
        i += 1
    while i < len(lines) and (lines[i].startswith("use ") or not lines[i].strip()):
        if lines[i].strip() and not re.search(r"\.(Statement\.\{statement\}|Tie as tie|Tie)$", lines[i]):
            uses.append(lines[i])
        i += 1
    rest = "\n".join(lines[i:])
    m = re.search(r"(?m)^pub \S*spec\S* : \{M : Type 1\} → statement M\n(unfolding [^\n]*\n)?(\S+) =", rest)
    if not m:
        LEFT.append(f"left: {path}: no spec of the usual form")
        return False
    unfolding = (m[1] or "").strip()
    helpers, spec = rest[: m.start()].strip("\n"), rest[m.end():]
    k = spec.find("tie.spec")
    if k < 0 or re.search(r"(?m)^ *where", spec):
        LEFT.append(f"left: {path}: tie.spec is not there, or a where")
        return False
    open_at = spec.rfind("(", 0, k)
    if open_at < 0 or spec[open_at + 1 : k].strip():
        args = parts(spec[k + len("tie.spec"):])
    else:
        end = group_end(spec, open_at)
        args = parts(spec[k + len("tie.spec") : end])
        if spec[end + 1 :].strip(" )\n"):
            LEFT.append(f"left: {path}: text behind the spec")
            return False
    fn = Function(info)
    own = CLAUSES.get("::".join([crate] + fname.split(".")), [[], []])
    needs, loops = info["needs"], info["loops"]
    extra = len(args) - len(needs)
    settled = len(info["settled"])
    per = 2 if loops else 0
    if loops and info["needs"] and not any("smaller" in n[0] for n in needs):
        per = 1
    if settled and per * len(loops) < extra <= per * len(loops) + settled:
        args = args[: per * len(loops)] + aligned(args[per * len(loops):], needs)
        extra = len(args) - len(needs)
    if loops and extra == 2 * len(loops):
        per = 2
    elif extra == len(loops):
        per = 1
    else:
        LEFT.append(f"left: {path}: {len(args)} parts for {len(needs)} goals and {len(loops)} loops; settled {info['settled']}")
        return False
    inv = []
    for n, (names, vs) in enumerate(loops):
        for kind, arg in zip(("invariant", "decreases"), args[n * per : n * per + per]):
            got = lam(arg)
            unf = unfolding
            if not got:
                d = re.search(rf"(?m)^(?:abbrev )?(?:pub )?{re.escape(arg)} :[^\n]*\n(unfolding [^\n]*\n)?{re.escape(arg)} ([^=\n]*)=((?:.|\n)*?)(?=\n\n|\Z)", helpers)
                if d:
                    got = (d[2].split(), d[3].strip())
                    helpers = helpers.replace(re.search(rf"(?m)^(?:--[^\n]*\n)*(?:abbrev )?{re.escape(arg)} :(?:.|\n)*?(?=\n\n|\Z)", helpers)[0], "").strip("\n")
            if not got:
                LEFT.append(f"left: {path}: the {kind} of {names[1]} is no λ")
                return False
            binders, body = got
            changed = info["changed"][n]
            order = [("l." if not ch else "l.initial.") + v for v, ch in zip(vs, changed)] + ["l." + v for v, ch in zip(vs, changed) if ch]
            if len(binders) != len(order):
                LEFT.append(f"left: {path}: {kind} of {names[1]} has {len(binders)} binders for {order}")
                return False
            for b, o in zip(binders, order):
                want = o.split(".")[-1].replace("_", "")
                have = b.rstrip("₀'").replace("_", "")
                if b != "_" and want != have and not want.startswith(have[:1]):
                    LEFT.append(f"left: {path}: {kind}: {b} stands for {o}?")
            table = {b: o for b, o in zip(binders, order) if b != "_"}
            body = substitute(body, table, path)
            name = f"{kind}-{names[1]}"
            inv.append(f"abbrev pub {name} : goal.{name}\n" + f"{name} l ={put(body)}")
    answers = []
    for (old, new), arg, asked in zip(needs, args[per * len(loops):], info["asked_at"]):
        got, unf = lam(arg), unfolding
        if not got and re.fullmatch(r"[\w'-]+", arg):
            d = re.search(rf"(?m)^(?:--[^\n]*\n)*{re.escape(arg)} : tie\.\S+\n(unfolding [^\n]*\n)?{re.escape(arg)} ([^=\n]*)=((?:.|\n)*?)(?=\n\n|\Z)", helpers)
            if d:
                got = (d[2].split(), d[3].strip())
                unf = " ".join(x for x in ((d[1] or "").strip(), ) if x) or unfolding
                helpers = helpers.replace(d[0], "").strip("\n")
        if not got:
            b = arg[1:-1] if arg.startswith("(") else arg
            LEFT.append(f"left: {path}: {new} is no λ")
            answers.append(f"pub {new} : goal.{new}\n" + (unf + "\n" if unf else "") + f"{new} c = ({b}) c")
            continue
        binders, body = got
        if body == "search rules" and not unf and not keep:
            continue
        env = {binders[0]: asked[0]}
        if asked[0] not in fn.places:
            LEFT.append(f"left: {path}: no place {asked[0]}")
        if "κs" in body:
            LEFT.append(f"left: {path}: {new} uses κs")
        more = binders[1:]
        if re.search(r"-requires(-\d+)?$", old):
            more = more[1:]
        body = rewrite(body, fn, env, f"{path}: {new}", own)
        body = without_aliases(body, binders[0])
        if new.startswith("returns"):
            ns = own[1]
        else:
            ns = []
            q = re.match(r"(.*)-requires", new)
            for callee in {e[3] for e in info["places"] if e[3]}:
                if q and q[1].split("-")[0] == callee.split("::")[-1]:
                    ns = CLAUSES.get(callee, [[], []])[0]
        if len(ns) > 1:
            body = as_record(body, ns) or body
        answers.append(f"pub {new} : goal.{new}\n" + (unf + "\n" if unf else "") + f"{new} {' '.join([binders[0]] + more)} ={put(body)}")
    folder = os.path.dirname(path)
    helpers = re.sub(r"\n{3,}", "\n\n", helpers).strip("\n")
    if "tie." in helpers:
        LEFT.append(f"left: {path}: a helper speaks of tie")
    prefix = f"Rattle.{crate}.proofs.{fname}"
    if inv:
        t = (head if not answers else []) + uses + [f"use {prefix}.Given as goal", ""]
        write(os.path.join(folder, "Invariants.antt"), "\n".join(t) + "\n" + "\n\n".join(inv) + "\n")
    if any(w.startswith(path) for w in NOT):
        uses = with_name(with_name(uses, "mathlib.Core.Path", "ap"), "mathlib.Core.Bool", "not")
    if answers:
        t = head + uses + [f"use {prefix}.Goals as goal", ""]
        if helpers:
            t += [helpers, ""]
        write(os.path.join(folder, "Answers.antt"), "\n".join(t) + "\n" + "\n\n".join(answers) + "\n")
    elif helpers:
        LEFT.append(f"left: {path}: helpers that nothing uses")
    os.remove(path)
    if not os.listdir(folder):
        os.rmdir(folder)
    return True


def with_name(uses, module, name):
    for k, l in enumerate(uses):
        m = re.fullmatch(rf"use {re.escape(module)}\.\{{(.*)\}}", l)
        if m:
            if name in [x.strip() for x in m[1].split(",")]:
                return uses
            return uses[:k] + [f"use {module}.{{{m[1]}, {name}}}"] + uses[k + 1 :]
    return uses + [f"use {module}.{{{name}}}"]


def put(body):
    """Behind the '=': on its line, or below it, four spaces in."""
    ls = body.split("\n")
    if len(ls) == 1 and len(body) < 110:
        return " " + body
    cut = min((len(x) - len(x.lstrip()) for x in ls[1:] if x.strip()), default=0)
    cut = min(cut, 4)
    return "\n    " + "\n".join([ls[0]] + [("    " + x[cut:]) if x.strip() else x for x in ls[1:]])


def write(p, t):
    with open(p, "w", encoding="utf-8") as f:
        f.write(t)


def main():
    crate, names = sys.argv[1:3]
    keep = "--keep" in sys.argv
    only = sys.argv[sys.argv.index("--only") + 1] if "--only" in sys.argv else ""
    infos = json.load(open(names))
    CLAUSES.update(clauses())
    root = f"crates/{crate}/proofs"
    done = left = 0
    for folder, dirs, fs in os.walk(root):
        dirs.sort()
        if "Proof.antt" not in fs or only not in folder:
            continue
        fname = os.path.relpath(folder, root).replace("/", ".")
        info = infos.get(f"Rattle-{crate}-proofs.{fname}.Lts")
        path = os.path.join(folder, "Proof.antt")
        if info is None:
            LEFT.append(f"left: {path}: not among the names")
            left += 1
            continue
        try:
            ok = turn(path, crate, fname, info, keep)
        except (ValueError, KeyError, IndexError) as e:
            LEFT.append(f"left: {path}: {type(e).__name__} {e}")
            ok = False
        done += ok
        left += not ok
    print("\n".join(LEFT))
    print(f"port_proofs: {crate}: {done} turned, {left} left")


main()
