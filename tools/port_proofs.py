#!/usr/bin/env python3
"""Turns proofs that walk the code by hand (Proof.antt over `tie`) to Invariants.antt and Answers.antt, the form of today's checker.

usage: python3 tools/port_proofs.py NAMES [CRATE..]

NAMES is a folder that `rt names NAMES` wrote: for each function the old and the new name of each goal, step and point. Run once; what it cannot turn it prints.
"""
import json
import os
import re
import sys

IDENT = r"[^\s(){}\[\];,.:|=⌜⌝\"«»`\\/!?&<>+*λ→×∙←]+"
PATHRE = re.compile(r"(?<![\w.'₀-₉-])(" + IDENT + r")((?:\.(?:" + IDENT + r"))+)")


def norm(s):
    s = s.replace("-", "_")
    return s[:-4] if s.endswith("_lem") else s


def clause_names():
    """For each function its names of requires and ensures clauses, and its parameters, by its path."""
    out = {}
    for c in os.listdir("crates"):
        for folder, _, names in os.walk(f"crates/{c}/src"):
            for n in names:
                if not n.endswith(".rt"):
                    continue
                text = open(os.path.join(folder, n), encoding="utf-8").read()
                rel = os.path.relpath(os.path.join(folder, n), f"crates/{c}/src")[:-3]
                mod = [] if rel in ("lib", "main") else rel.split(os.sep)
                if mod and mod[-1] == "mod":
                    mod.pop()
                for m in re.finditer(r"^( *)(?:pub )?(?:unsafe )?(?:extern \"C\" )?fn (\w+)(.*?)\n\1\{", text, re.M | re.S):
                    cl = m.group(3)
                    out["::".join([c] + mod + [m.group(2)])] = (re.findall(r"requires (\w+) \{", cl), re.findall(r"ensures (\w+) \{", cl))
    return out


def by_clause(names, rest):
    """Positions in nested pairs, one for each clause, as the clause's name."""
    n, i, at = len(names), 0, 0
    if n < 2 or not rest or not rest[0].isdigit():
        return rest
    while i < len(rest) and rest[i] == "1" and at + 1 < n - 1 and i + 1 < len(rest) and rest[i + 1] in "01":
        at += 1
        i += 1
    if i < len(rest) and rest[i].isdigit() and at + int(rest[i]) < n:
        return [names[at + int(rest[i])]] + rest[i + 1:]
    return rest


class Function:
    def __init__(self, crate, path, data, clauses):
        self.crate, self.path, self.d, self.clauses = crate, path, data, clauses
        self.me = "::".join([crate] + [p.lstrip("+") for p in path.split(".")])
        self.step, self.callee, self.place, self.parent = {}, {}, {}, {}
        names = self.d["places_by_name"]
        for i, p in enumerate(self.d["places"]):
            old, par, (o, n), callee = p[0], p[1], p[2], p[3]
            self.place[norm(old)] = names[i] if i < len(names) else old
            self.parent[norm(old)] = norm(par) if par else None
            if o:
                self.step[norm(o)] = n
                if callee:
                    self.callee[norm(o)] = callee
        # a pattern's points, one for each part that it reads: the last is the one to name
        arms = self.d["arms"]
        for i, a in enumerate(arms):
            if a:
                point = [norm(p[0]) for p in self.d["places"]]
                same = (j for j, b in enumerate(arms) if b and b[0] == a[0] and self.ups(point[j], point[i]) is not None)
                best = max(same, key=lambda j: arms[j][1])
                self.place[norm(self.d["places"][i][0])] = names[best]
        self.loops = {norm(a): (b, vs, ch) for ((a, b), vs), ch in zip(self.d["loops"], self.d["changed"])}
        self.need = {}
        for (o, n), (po, pn) in zip(self.d["needs"], self.d["asked_at"]):
            self.need[norm(o)] = (n, norm(po), o)
        self.arm, self.own = {}, {}
        for a in self.d["arms"]:
            if a:
                for field, step, rest in a[2]:
                    if rest:
                        self.arm[(norm(step), tuple(rest))] = (a[0], field)
                    else:
                        self.own[(norm(step), ())] = field
        self.said, self.points = [], set()

    def point(self, old):
        new = self.place.get(old, old)
        self.points.add(new)
        return new

    def goal(self, old):
        k = norm(old)
        for pre in ("", "overflow_", "nonzero_", "bounds_"):
            if pre and k.startswith(pre) and k[len(pre):] in self.need:
                return self.need[k[len(pre):]]
            if not pre and k in self.need:
                return self.need[k]
        for o, v in self.need.items():
            if norm(v[0]) == k:
                return v
        return None

    def ups(self, frm, to):
        n, p = 0, frm
        while p is not None and p != to:
            p = self.parent.get(p)
            n += 1
        return n if p == to else None

    def fields(self, parts):
        """The new spelling of the fields after c."""
        if not parts:
            return parts
        head, rest = parts[0], list(parts[1:])
        if head == "pre":
            head = "requires"
        k = norm(head)
        for n in range(len(rest), 0, -1):
            got = self.arm.get((k, tuple(rest[:n])))
            if got:
                return [got[0], got[1]] + rest[n:]
        if head == "requires":
            rest = by_clause(self.clauses.get(self.me, ([], []))[0], rest)
            return [head] + rest
        new = self.step.get(k)
        if new is None:
            return [head] + rest
        if rest and rest[0] in ("rest",) and (k, ()) in self.own:
            return [new, self.own[(k, ())]] + rest
        callee = self.callee.get(k)
        if callee and rest:
            if rest[0] in ("new", "auto", "kept", "last"):
                ones = 0
                while 1 + ones < len(rest) and rest[1 + ones] == "1":
                    ones += 1
                if 1 + ones < len(rest) and rest[1 + ones] == "0":
                    params = self.d["params"].get(callee, [])
                    if ones < len(params):
                        rest = [{"kept": "auto", "last": "new"}.get(rest[0], rest[0]), params[ones]] + rest[2 + ones:]
            elif rest[0] == "ensures" and len(rest) > 1 and rest[1].isdigit():
                rest = [rest[0]] + by_clause(self.clauses.get(callee, ([], []))[1], rest[1:])
        if rest == ["kept"] or rest == ["last"]:
            rest = [{"kept": "auto", "last": "new"}[rest[0]]]
        if rest and rest[0] == "inv":
            rest[0] = "invariant"
        if rest and (new.startswith("if-") or new.endswith("-test")):
            rest[0] = {"taken": "true", "left": "false"}.get(rest[0], rest[0])
        return [new] + rest


def blocks(text):
    """The file's header comment, its use lines, and its declarations, each with the comments above it."""
    head, uses, decls, cur = [], [], [], []
    lines = text.split("\n")
    i = 0
    while i < len(lines) and lines[i].startswith("--"):
        head.append(lines[i])
        i += 1
    pending = []
    name = None

    def flush():
        if cur:
            decls.append((name, "\n".join(cur).rstrip()))
            cur.clear()

    for l in lines[i:]:
        if l.startswith("use ") or l.startswith("pub use "):
            uses.append(l)
            continue
        if l.startswith("--"):
            flush()
            name = None
            pending.append(l)
            continue
        if not l.strip():
            if name is not None:
                cur.append(l)
            continue
        if not l[0].isspace() and not l.startswith(")"):
            words = re.sub(r"^(?:(?:abbrev|unfoldable|pub)\s+)+", "", l)
            first = re.split(r"[\s(]", words)[0]
            if first == "unfolding" or first == name:
                cur.append(l)
                continue
            if first == "module":
                first = "module"
            flush()
            name = first
            cur.extend(pending)
            pending.clear()
            cur.append(l)
        else:
            cur.append(l)
    flush()
    return head, uses, decls


def balanced(text, i):
    """The end of the atom that begins at i: a path or a parenthesis, with the fields behind it."""
    if text[i] == "(":
        d = 0
        while i < len(text):
            d += text[i] == "("
            d -= text[i] == ")"
            i += 1
            if not d:
                break
    m = re.compile(r"(?:[^\s(){}\[\];,.:=∙]+)?(?:\.[^\s(){}\[\];,.:=∙]+)*").match(text, i)
    return m.end()


def inline_aliases(text, aliases):
    changed = True
    while changed:
        changed = False
        for a in aliases:
            for m in re.finditer(r"(?<![\w.'₀-₉-])" + re.escape(a) + r" (?=[\w(])", text):
                s, e = m.start(), m.end()
                end = balanced(text, e)
                atom = text[e:end]
                if text[s - 1] == "(" and end < len(text) and text[end] == ")" and not atom.startswith("("):
                    text = text[:s - 1] + atom + text[end + 1:]
                elif text[s - 1] == "(" and end < len(text) and text[end] == ")":
                    text = text[:s - 1] + atom + text[end + 1:]
                else:
                    text = text[:s] + atom + text[end:]
                changed = True
                break
    return text


def strip_before(text):
    args = {m.group(1) for m in re.finditer(r"let (" + IDENT + r") = [^\s]+\.args in", text)} | {"args"}
    text = re.sub(r"(?<![\w.'₀-₉-])(" + IDENT + r")((?:\.before)+)(?![\w-])", lambda m: m.group(0) if m.group(1) in args else m.group(1), text)
    text = re.sub(r"\)(?:\.before)+(?![\w-])", ")", text)
    text = re.sub(r"(?<![\w-])not[-_](?:true|false) _ (c\.[^\s(),]+)", r"\1", text)
    prev = None
    while prev != text:
        prev = text
        text = re.sub(r"\((" + IDENT + r")\)(?=[.\s),])", r"\1", text)
    return text


POINTS = {"-"}


def drop_point_lets(text, var):
    """`let a = c in`, where c is the point itself: a is c."""
    names = [var]
    while True:
        m = re.search(r"let (" + IDENT + r") = (" + "|".join(map(re.escape, names)) + r") in(?:\n[ \t]*| )", text)
        if not m:
            return text
        a = m.group(1)
        if a == "at":
            lemmas = "|".join(sorted(map(re.escape, POINTS), key=len, reverse=True))
            rest = re.sub(r"(?<![\w.'₀-₉-])(" + lemmas + r") at(?![\w'₀-₉-])", lambda k: f"{k.group(1)} {var}", text[m.end():])
            rest = re.sub(r"= at in(?![\w-])", f"= {var} in", rest)
            text = text[:m.end()] + rest
        after = r"(?=[.)])" if a == "at" else ""
        text = text[:m.start()] + re.sub(r"(?<![\w.'₀-₉-])" + re.escape(a) + r"(?![\w'₀-₉-])(?!\s*=[^=])" + after, var, text[m.end():])


def rename_fields(text, f, var):
    env = {var: []}
    # aliases of paths: let made = c.step.ensures in
    for m in re.finditer(r"let (" + IDENT + r") = (" + IDENT + r")((?:\." + IDENT + r")*) in\b", text):
        if m.group(2) in env:
            env[m.group(1)] = env[m.group(2)] + m.group(3).split(".")[1:]

    def one(m):
        base, parts = m.group(1), m.group(2).split(".")[1:]
        if base not in env:
            return m.group(0)
        if base == var:
            return ".".join([base] + f.fields(parts))
        old = env[base]
        full_old = f.fields(old)
        full_new = f.fields(old + parts)
        if full_new[:len(full_old)] == full_old:
            return ".".join([base] + full_new[len(full_old):])
        return ".".join([var] + full_new)

    text = PATHRE.sub(one, text)
    for a in list(env):
        if a == var:
            continue
        m = re.search(r"let " + re.escape(a) + r" = [^\s]+ in(?:\n[ \t]*| )", text)
        if m and not re.search(r"(?<![\w.'₀-₉-])" + re.escape(a) + r"(?![\w'₀-₉-])", text[m.end():]):
            text = text[:m.start()] + text[m.end():]
    return text


def helper_calls(text, f, helpers, at, var, here):
    """Arguments of lemmas over a point: the point reached by `.before` from this one."""
    for h, to in helpers.items():
        def put(m):
            n = f.ups(at, to)
            if n is None:
                f.said.append(f"{h} at {at}: {to} is not above it")
            point = f.place.get(to, to)
            f.points.add(point)
            arg = var if at == to or n is None else f"(goal.at.{here} {var}).{point}"
            return f"{h} {arg}"
        text = re.sub(r"(?<![\w.'₀-₉-])" + re.escape(h) + r" " + re.escape(var) + r"(?![\w'₀-₉.-])", put, text)
    return text


def split_tuple(body):
    b = body.strip()
    if not b.startswith("("):
        return None
    d, parts, cur = 0, [], ""
    for i, ch in enumerate(b):
        if ch in "([{":
            d += 1
        if ch in ")]}":
            d -= 1
            if d == 0 and i < len(b) - 1:
                return None
        if ch == "," and d == 1:
            parts.append(cur)
            cur = ""
        elif not (d == 1 and ch == "(" and i == 0):
            cur += ch
    cur = cur.rstrip()
    cur = cur[:-1] if cur.endswith(")") else cur
    if cur.strip():
        parts.append(cur)
    return [p.strip() for p in parts] if len(parts) > 1 else None


def clause_record(body, names):
    """A goal of several clauses is answered by a record of them."""
    # keep the lets in front
    m = re.match(r"((?:\s*let .*? in(?:\n|\s))*)", body, re.S)
    i = 0
    depth = 0
    lets_end = 0
    # the last `in` at depth 0 that closes a let
    for t in re.finditer(r"[()\[\]{}]|\blet\b|\bin\b", body):
        w = t.group(0)
        if w in "([{":
            depth += 1
        elif w in ")]}":
            depth -= 1
        elif w == "in" and depth == 0:
            lets_end = t.end()
    # a tuple that opens behind `in (`
    lets, last = body[:lets_end], body[lets_end:].strip()
    parts = split_tuple(last)
    while parts and len(parts) < len(names):
        more = split_tuple(parts[-1])
        if not more:
            break
        parts = parts[:-1] + more
    if parts and len(parts) == len(names):
        inner = "; ".join(f"{n} = {p}" for n, p in zip(names, parts))
        return f"{lets} record {{ {inner} }}"
    if last.startswith("search"):
        return body
    m = re.match(r"(rw (?:\(|\S))", last)
    if m:
        j = 3
        j = balanced(last, j) if last[3] == "(" else re.compile(r"\S+").match(last, 3).end()
        first, then = last[:j], last[j:].strip()
        if then.startswith("at "):
            inner = "; ".join(f"{n} = whole.{n}" for n in names)
            return f"{lets} let whole = {last} in record {{ {inner} }}"
        parts = split_tuple(then)
        while parts and len(parts) < len(names) and split_tuple(parts[-1]):
            parts = parts[:-1] + split_tuple(parts[-1])
        if parts and len(parts) == len(names):
            inner = "; ".join(f"{n} = {p}" for n, p in zip(names, parts))
            return f"{lets} {first} (record {{ {inner} }})"
        if then.startswith("(search"):
            return body
        then = then[1:-1] if then.startswith("(") and then.endswith(")") else then
        inner = "; ".join(f"{n} = whole.{i}" for i, n in enumerate(names))
        return f"{lets} {first} (let whole = {then} in record {{ {inner} }})"
    inner = "; ".join(f"{n} = whole.{i}" for i, n in enumerate(names))
    return f"{lets} let whole = {last} in record {{ {inner} }}"


def turn(f, folder):
    text = open(os.path.join(folder, "Proof.antt"), encoding="utf-8").read()
    if "tie." not in text:
        return False
    said = []

    def hide(m):
        said.append(m.group(2))
        return f"{m.group(1)}--\1{len(said) - 1}\1"

    text = re.sub(r"^( *)--(.*)$", hide, text, flags=re.M)
    show = lambda t: re.sub("\1(\\d+)\1", lambda m: said[int(m.group(1))], t)
    head, uses, decls = blocks(text)
    aliases, helpers, kept = [], {}, []
    for name, body in decls:
        m = re.search(r"^(?:abbrev )?" + re.escape(name or "") + r" : tie\.\S+[^→\n]*→\s*tie\.", body, re.M)
        if m:
            aliases.append(name)
            continue
        kept.append((name, body))
    POINTS.update(helpers)
    inv, ans = [], []
    dirparts = f.path
    goalmod = f"Rattle.{f.crate}.proofs.{dirparts}"
    inner = {}
    for name, body in kept:
        if name == "module":
            m = re.search(r"^module _ \((\S+) : tie\.(\S+?)(?: invariant[^)]*)?\) where", body, re.M)
            if m:
                own = re.findall(r"^ {2,}(?:abbrev )?(?:pub )?(" + IDENT + r") :\s*(tie\.)?", body, re.M)
                for n, t in own:
                    if t:
                        aliases.append(n)
                    else:
                        helpers[n] = norm(m.group(2))
                inner[body] = [n for n, t in own if t]
            continue
        m = name and re.search(r"^(?:abbrev )?(?:pub )?" + re.escape(name) + r" : tie\.(?!Need-|invariant-|decreases-)(\S+)[^→\n]*→ ", body, re.M)
        if m:
            helpers[name] = norm(m.group(1))
            continue
        if name is None or re.search(r"statement M", body):
            continue
        m = re.search(re.escape(name) + r" :\s*\((\S+) : tie\.([^\s()]+)[^()]*\)", body)
        if m:
            helpers[name] = norm(m.group(2))
    POINTS.update(helpers)
    for name, body in kept:
        if name is None or re.search(r"statement M", body):
            continue
        outside = body
        if outside in inner:
            m = re.search(r"^module _ \((\S+) : tie\.(\S+?)(?: invariant[^)]*)?\) where", body, re.M)
            var, at = m.group(1), norm(m.group(2))
            for a in inner[outside]:
                body = re.sub(r"\n  (?:--[^\n]*\n  )?abbrev " + re.escape(a) + r" : [^\n]*\n  " + re.escape(a) + r" = [^\n]*\n", "\n", body)
                body = re.sub(r"(?<![\w.'₀-₉-])" + re.escape(a) + r"(?![\w'₀-₉-])", var, body)
            body = inline_aliases(body, [a for a in aliases if a not in inner[outside]])
            body = strip_before(body)
            body = body.replace(m.group(0), f"module _ ({var} : {f.point(at)}) where")
            body = drop_point_lets(body, var)
            body = rename_fields(body, f, var)
            mine = set(re.findall(r"^  (?:abbrev )?(?:pub )?(" + IDENT + r") :", body, re.M))
            body = helper_calls(body, f, {h: t for h, t in helpers.items() if h not in mine}, at, var, f.place.get(at, at))
            ans.append(body)
            if "tie." in body:
                f.said.append("module: tie. is left")
            continue
        if not re.match(r"(invariant|decreases)-", name):
            body = inline_aliases(body, aliases)
        body = strip_before(body)
        sig = re.search(r"^(?:abbrev )?(?:pub )?" + re.escape(name) + r" :\s*tie\.(\S+)(.*)$", body, re.M)
        if sig and re.match(r"(invariant|decreases)-", sig.group(1)):
            kind, loop = sig.group(1).split("-", 1)
            got = f.loops.get(norm(loop))
            eq = re.search(r"^" + re.escape(name) + r"((?: [^\s=]+)*?) =(.*)\Z", body, re.M | re.S)
            if not got or not eq:
                f.said.append(f"{name}: no loop {loop}")
                continue
            new, vs, ch = got
            params, rhs = eq.group(1).split(), eq.group(2)
            want = [("l.initial." if c else "l.") + v for v, c in zip(vs, ch)] + ["l." + v for v, c in zip(vs, ch) if c]
            if len(params) != len(want):
                f.said.append(f"{name}: {len(params)} parameters, {len(want)} variables: {vs} {ch}")
            to = dict(zip(params, want))
            names = "|".join(sorted(map(re.escape, params), key=len, reverse=True))
            rhs = re.sub(r"(?<![\w.'₀-₉-])(" + names + r")(?![\w'₀-₉-])", lambda m: to[m.group(1)], rhs)
            unf = "".join(l + "\n" for l in body.split("\n") if l.startswith("unfolding"))
            comments = "".join(l + "\n" for l in body.split("\n") if l.startswith("--"))
            inv.append(f"{comments}abbrev pub {kind}-{new} : goal.{kind}-{new}\n{unf}{kind}-{new} l ={rhs.rstrip()}")
            continue
        if sig and sig.group(1).startswith("Need-"):
            got = f.goal(sig.group(1)[5:])
            if not got:
                f.said.append(f"{name}: no goal {sig.group(1)}: needs {[n[0] for n in f.need.values()]} settled {f.d['settled']}")
                continue
            new, at, old = got
            eq = re.search(r"^" + re.escape(name) + r"((?: [^\s=]+)*?) =(.*)\Z", body, re.M | re.S)
            if not eq:
                f.said.append(f"{name}: form")
                continue
            params, rhs = eq.group(1).split(), eq.group(2)
            if params and params[-1] == "κs":
                params.pop()
            var = params[0] if params else "c"
            if len(params) > 1:
                f.said.append(f"{name}: parameters {params}")
            rhs = drop_point_lets(rhs, var)
            rhs = rename_fields(rhs, f, var)
            rhs = helper_calls(rhs, f, helpers, at, var, new)
            asked = f.d["asked"].get(old)
            if asked and len(asked) > 1:
                rhs = "\n    " + clause_record(rhs, asked).strip()
            unf = "".join(l + "\n" for l in body.split("\n") if l.startswith("unfolding"))
            comments = "".join(l + "\n" for l in body.split("\n") if l.startswith("--"))
            ans.append(f"{comments}pub {new} : goal.{new}\n{unf}{new}{''.join(' ' + p for p in (params or []))} ={rhs.rstrip()}")
            continue
        if name in helpers and (m := re.search(r"^((?:abbrev )?(?:pub )?" + re.escape(name) + r") : tie\.(\S+)[^→\n]*→ ", body, re.M)):
            at = helpers[name]
            body = body.replace(m.group(0), f"{m.group(1)} : {f.point(at)} → ", 1)
            e = re.search(r"^" + re.escape(name) + r" (\S+)", body, re.M)
            var = e.group(1) if e else "c"
            body = drop_point_lets(body, var)
            body = rename_fields(body, f, var)
            body = helper_calls(body, f, {h: t for h, t in helpers.items() if h != name}, at, var, f.place.get(at, at))
            ans.append(body)
            continue
        if name in helpers:
            m = re.search(re.escape(name) + r" :\s*\((\S+) : tie\.([^\s()]+)([^()]*)\)", body)
            var, at = m.group(1), helpers[name]
            place = f.place.get(at)
            if place is None:
                f.said.append(f"{name}: no point {m.group(2)}: {list(f.place.values())}")
                place = m.group(2)
            body = body[:m.start()] + body[m.start():].replace(m.group(0), f"{name} : ({var} : {f.point(at)})", 1)
            body = drop_point_lets(body, var)
            body = rename_fields(body, f, var)
            body = helper_calls(body, f, {h: t for h, t in helpers.items() if h != name}, at, var, f.place.get(at, at))
            ans.append(body)
            continue
        if "tie." in body:
            f.said.append(f"{name}: left as it is, with tie: {body[:80]!r}")
        ans.append(body)
    spec = re.search(r"tie\.spec(.*)\)\s*\Z", text.rstrip(), re.S)
    if spec:
        args, d, cur = [], 0, ""
        for ch in spec.group(1):
            d += ch == "("
            d -= ch == ")"
            if d < 0:
                break
            if ch.isspace() and d == 0:
                if cur:
                    args.append(cur)
                cur = ""
            else:
                cur += ch
        if cur:
            args.append(cur)
        args = [a for a in args if not re.match(r"(invariant|decreases)-", a)]
        needs = f.d["needs"]
        for i, a in enumerate(args):
            if a.startswith("(λ") and "search rules" not in a:
                m = re.match(r"\(λ (\S+?)(?: κs)?\. (.*)\)\Z", a, re.S)
                if len(args) != len(needs):
                    f.said.append(f"argument {i} of {len(args)}, {len(needs)} needs: {a}")
                elif m:
                    old, new = needs[i]
                    var, rhs = m.group(1), " " + strip_before(inline_aliases(m.group(2), aliases))
                    at = norm(f.d["asked_at"][i][0])
                    rhs = helper_calls(rename_fields(drop_point_lets(rhs, var), f, var), f, helpers, at, var, new)
                    asked = f.d["asked"].get(old)
                    if asked and len(asked) > 1:
                        rhs = " " + clause_record(rhs, asked).strip()
                    ans.append(f"pub {new} : goal.{new}\n{new} {var} ={rhs}")
    uses = [u for u in uses if "Statement" not in u and ".Tie as tie" not in u]
    if any(re.search(r"Rattle\..*\{(?:.*, )?rules(?:,.*)?\}", u) for u in uses) and "use borrow.Author.Rules.{rules}" in uses:
        uses = [re.sub(r"(?<![\w])rules(?=[,}])", "rules as set_rules", u) if u.startswith("use Rattle.") else u for u in uses]
        ans = [re.sub(r"(?<![\w.'-])(?<!search )(?<!search \()rules(?![\w'-])(?! =)", "set_rules", a) for a in ans]

    def needed(us, texts):
        whole = "\n".join(texts)
        out = []
        for u in us:
            m = re.match(r"(.*?)\.\{(.*)\}$", u)
            if m:
                keep = [n.strip() for n in m.group(2).split(",")]
                def used(n):
                    w = n.split(" as ")[-1].strip()
                    if "◌" in w:
                        core = w.replace("◌", "")
                        return core in whole or not core
                    return re.search(r"(?<![\w'₀-₉-])" + re.escape(w) + r"(?![\w'₀-₉-])", whole)
                keep = [n for n in keep if used(n)]
                if keep:
                    out.append(f"{m.group(1)}.{{{', '.join(keep)}}}")
            else:
                w = u.split(" as ")[-1].split(".")[-1].strip()
                if re.search(r"(?<![\w'₀-₉-])" + re.escape(w) + r"(?![\w'₀-₉-])", whole):
                    out.append(u)
        return out

    if inv:
        cited = lambda n: any(re.search(r"(?<![\w.'₀-₉-])" + re.escape(n) + r"(?![\w'₀-₉-])", x) for x in inv)
        local = [b for n, b in kept if n and n not in helpers and "tie." not in b and cited(n)]
        names = [n for n, b in kept if b in local]
        public = lambda m: (m.group(1) or "") + "pub " + m.group(3)
        moved = [re.sub(r"^(abbrev |unfoldable )?(pub )?(" + re.escape(n) + r" [:({])", public, b, count=1, flags=re.M) for n, b in kept if b in local]
        ans = [a for a in ans if a not in local]
        us = needed(uses, inv + moved)
        open(os.path.join(folder, "Invariants.antt"), "w", encoding="utf-8").write(
            show("\n".join(head + us + [f"use {goalmod}.Given as goal"]) + "\n\n" + "\n\n".join(moved + inv) + "\n"))
        if names:
            uses.append(f"use {goalmod}.Invariants.{{{', '.join(names)}}}")
    if ans:
        us = needed(uses, ans)
        points = sorted(p for p in f.points if any(re.search(r"(?<![\w.'₀-₉-])" + re.escape(p) + r"(?![\w'₀-₉-])", a) for a in ans))
        if points:
            us.append(f"use {goalmod}.Goals.{{{', '.join(points)}}}")
        open(os.path.join(folder, "Answers.antt"), "w", encoding="utf-8").write(
            show("\n".join(head + us + [f"use {goalmod}.Goals as goal"]) + "\n\n" + "\n\n".join(ans) + "\n"))
    os.remove(os.path.join(folder, "Proof.antt"))
    return True


def main():
    names, only = sys.argv[1], sys.argv[2:]
    clauses = clause_names()
    for c in sorted(os.listdir("crates")):
        if only and c not in only:
            continue
        p = os.path.join(names, "crates", c, "names.json")
        if not os.path.exists(p):
            print(f"{c}: no names")
            continue
        data = json.load(open(p, encoding="utf-8"))
        top = f"crates/{c}/proofs"
        for folder, _, fs in os.walk(top):
            if "Proof.antt" not in fs:
                continue
            path = os.path.relpath(folder, top).replace(os.sep, ".")
            d = data.get(f"Rattle-{c}-proofs.{path}.Lts")
            if d is None:
                print(f"{c}/{path}: not in names")
                continue
            f = Function(c, path, d, clauses)
            try:
                turn(f, folder)
            except Exception as e:
                print(f"{c}/{path}: {type(e).__name__} {e}")
            for s in f.said:
                print(f"{c}/{path}: {s}")


main()
