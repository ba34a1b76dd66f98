#!/usr/bin/env python3
"""Brings the names of this repository's own definitions, lemmas and record fields to the spelling of today's library: snake case for all but types and modules.

usage: python3 tools/port_names.py [--map] [ROOT]      run once, after port.py; --map only prints old and new names

A name that would fall together with a function of src/ gets `_of` after it (a definition) or `_lem` (a lemma), as the library's own guide says.
"""
import os
import re
import sys

KEYWORDS = r"(?:(?:abbrev|unfoldable|opaque|instance|pub|ruleset|data|record|irrelevant)[ \t]+)*"
DECL = re.compile(r"^([ \t]*)(" + KEYWORDS + r")([^\s(){}\[\],;.:|=⌜⌝«»◌]+)((?:[ \t]*[({][^=\n]*?)?)[ \t]*:(?=\s)", re.M)
USE = re.compile(r"^\s*(?:pub |ghost )*use ([^\s{;]+?)\.\{([^}]*)\}", re.M)
TOKEN = re.compile(r"[^\s(){}\[\];,.:|=⌜⌝\"«»`\\/!?&<>+*]+")
WORDS = {"let", "in", "use", "module", "where", "elim", "λ", "record", "fn", "if", "file", "old", "new", "--"}
# words of the language and of what the checker makes, in proof files of functions
MADE = re.compile(r"^(invariant-|decreases-|loop-|returns|overflow|nonzero|bounds)")

# where a field or a constant keeps the plain name, and the other of two that fall together gets the ending
CHOSEN = {
    "lastSet": "last_set", "last_set": "last_set_lem", "root-inverse": "root_inverse", "rootInverse": "root_inverse_of",
    "size-inverse": "size_inverse", "sizeInverse": "size_inverse_of", "message-bits": "message_bits", "messageBits": "message_bits_of",
}


def files(root, kinds):
    for folder, dirs, names in os.walk(os.path.join(root, "crates")):
        dirs[:] = sorted(d for d in dirs if d not in ("out",))
        for n in sorted(names):
            if n.endswith(kinds):
                yield os.path.join(folder, n)


def read(p):
    with open(p, encoding="utf-8") as f:
        return f.read()


def write(p, text):
    with open(p, "w", encoding="utf-8") as f:
        f.write(text)


def snake(name):
    s = name.replace("′", "'")
    s = re.sub(r"(?<=[a-z0-9])([A-Z]+)", lambda m: "".join("_" + ch.lower() for ch in m.group(1)), s)
    s = re.sub(r"(?<=[a-z0-9])ℤ", "_ℤ", s)
    s = re.sub(r"(?<=[\w₀-₉'])-(?=[\w₀-₉'])", "_", s)
    return s


def old_style(name):
    if name in WORDS or not re.match(r"[a-zα-ω]", name) or name.startswith("--"):
        return False
    return bool(re.search(r"[a-z0-9][A-Z]|[a-z0-9]ℤ|[\w₀-₉']-[\w₀-₉']|′", name))


def declared(text):
    for m in DECL.finditer(text):
        yield m.group(3)


def rust_functions(root):
    out = set()
    for p in files(root, ".rt"):
        out |= set(re.findall(r"\bfn\s+(\w+)", read(p)))
    return out


def is_of_function(p):
    part = p.split(os.sep)
    return "proofs" in part and part.index("proofs") < len(part) - 2


def name_map(root):
    fns = rust_functions(root)
    specs, lemmas, taken = set(), set(), set()
    for p in files(root, ".antt"):
        if is_of_function(p):
            continue
        into = specs if f"{os.sep}specs{os.sep}" in p else lemmas
        names = set(declared(read(p)))
        into |= {n for n in names if old_style(n)}
        taken |= {n for n in names if not old_style(n)}
    table = {}
    for n in specs | lemmas:
        s = snake(n)
        if s in fns or s in taken:
            s += "_lem" if n not in specs else "_value" if s.endswith("_of") else "_of"
        table[n] = s
    for n in lemmas | specs:
        if "-" in n and any(table[m] == table[n] for m in table if m != n):
            table[n] += "_lem"
    return table | CHOSEN


def local_map(text, table):
    out = {}
    for m in DECL.finditer(text):
        n = m.group(3)
        if not old_style(n) or n in table:
            continue
        rest = text[m.end():m.end() + 60]
        if re.match(r"\s*(tie|goal)\.(Need-|invariant-|decreases-)", rest) or MADE.match(n):
            continue
        out[n] = snake(n)
    return out


def own_crates(root):
    return set(os.listdir(os.path.join(root, "crates")))


def foreign(text, crates):
    """The names that a file takes from the library, which keep their spelling."""
    out = set()
    for m in USE.finditer(text):
        part = m.group(1).split(".")
        if part[0] == "Rattle" and len(part) > 1 and part[1] in crates:
            continue
        out |= {n.strip().split(" as ")[-1] for n in m.group(2).split(",")}
    return out


def turned(text, table):
    return TOKEN.sub(lambda m: table.get(m.group(0), m.group(0)), text)


def main():
    args = [a for a in sys.argv[1:] if a != "--map"]
    root = args[0] if args else "."
    table = name_map(root)
    if "--map" in sys.argv:
        for k in sorted(table):
            print(k, table[k])
        return
    crates = own_crates(root)
    for p in files(root, (".antt", ".rt", ".edit")):
        text = read(p)
        kept = foreign(text, crates)
        own = {n: s for n, s in table.items() if n not in kept}
        if p.endswith(".antt") and is_of_function(p):
            own.update(local_map(text, table))
        new = turned(text, own)
        if new != text:
            write(p, new)
    docs = [os.path.join(root, "README.md")]
    for folder, dirs, names in os.walk(os.path.join(root, "docs")):
        docs += [os.path.join(folder, n) for n in names if n.endswith(".md")]
    for p in docs:
        text = read(p)
        new = re.sub(r"`[^`\n]+`", lambda m: turned(m.group(0), table), text)
        if new != text:
            write(p, new)


if __name__ == "__main__":
    main()
