#!/usr/bin/env python3
"""Brings the names of the repository's own definitions and lemmas to snake case, as docs/PORT.md says. Run once, at the top.

A dash and a capital inside a name become an underscore; types, facts and modules keep their capitals. Names of src/ stay: where a definition comes to
have the name of a Rust item of a file, that file imports it with a prime. A lemma that would come to have its function's name gets `_lem`.
"""
import collections
import glob
import re

SIG = re.compile(r"^(\s*)(?:abbrev |unfoldable )?(?:pub )?(?:abbrev |unfoldable )?(data |record |mod |module |constructor )?([^\s:(){}=,]+)\s*(.*?):(?!=)\s")
TOK = re.compile(r"[^\s(){}\[\].,;:\"`|&!<>+*/=@#?\\^%]+")
STRING = re.compile(r'(b?"(?:\\.|[^"\\])*")')
OURS = {p.split("/")[1] for p in glob.glob("crates/*")}


def texts(pattern):
    return sorted(p for p in glob.glob(pattern, recursive=True) if "/out/" not in p)


def read(p):
    return open(p, encoding="utf-8").read()


def write(p, t):
    open(p, "w", encoding="utf-8").write(t)


def snake(n):
    if n.startswith("TK-"):
        return n.replace("-", "_")
    if n[0].islower():
        n = re.sub(r"(?<=[a-z0-9])([A-Z])(?![A-Z0-9])", lambda m: "_" + m.group(1).lower(), n)
    return n.replace("-", "_")


def defined():
    """The names that specs/ and the lemma files of proofs/ declare, with their files."""
    names = collections.defaultdict(set)
    for p in texts("crates/*/specs/*.antt") + texts("crates/*/proofs/*.antt"):
        for l in read(p).split("\n"):
            m = SIG.match(l)
            if m and not l.lstrip().startswith("--"):
                names[m.group(3)].add(p)
    return names


def of_library():
    """The names that files import from elsewhere."""
    found = collections.defaultdict(set)
    for p in texts("crates/**/*.antt") + texts("crates/**/*.rt"):
        for m in re.finditer(r"^(?:ghost )?use ([^\s{]+)\.\{([^}]*)\}", read(p), re.M):
            path = m.group(1).split(".")
            if not (path[0] == "Rattle" and len(path) > 1 and path[1] in OURS):
                for n in re.split(r",\s*", m.group(2)):
                    found[n.split(" as ")[0].strip()].add(p)
    return found


def plan():
    names, library = defined(), of_library()
    to = {n: snake(n) for n in names if snake(n) != n}
    by = collections.defaultdict(list)
    for a, b in to.items():
        by[b].append(a)
    for b, olds in by.items():
        here = olds + ([b] if b in names else [])
        if len(here) > 1:
            # the function keeps the name, and what was spelled with a dash, or was a word already, is its lemma
            keeps = sorted(here, key=lambda n: (n.lower() == n, "-" in n))[0]
            for n in here:
                if n != keeps:
                    to[n] = b + "_lem"
    return names, library, to


def turned(t, to, skip=()):
    return TOK.sub(lambda m: m.group(0) if m.group(0) in skip else to.get(m.group(0), m.group(0)), t)


def rust(t, to, skip):
    """A Rust file: strings stay; a definition whose new name the code has already is imported with a prime."""
    code = "\n".join(l for l in t.split("\n") if not l.startswith(("ghost use", "//")))
    has = {m.group(0) for m in TOK.finditer(re.sub(r"^\s*(requires|ensures).*$", "", code, flags=re.M))}
    mine = {}
    for a, b in to.items():
        if a not in skip and re.search(r"(?<![^\s{,])" + re.escape(a) + r"(?=[,}])", t):
            mine[a] = b + "'" if b in has else b
    out = []
    for l in t.split("\n"):
        if l.startswith("ghost use"):
            m = re.match(r"(ghost use [^{]*\{)([^}]*)(\};.*)$", l)
            if m:
                items = []
                for it in m.group(2).split(","):
                    it = it.strip()
                    name, _, alias = it.partition(" as ")
                    if name in skip:
                        items.append(it)
                    elif alias:
                        items.append(to.get(name, name) + " as " + alias)
                    elif name in mine and mine[name] != to[name]:
                        items.append(to[name] + " as " + mine[name])
                    else:
                        items.append(to.get(name, name))
                l = m.group(1) + ", ".join(items) + m.group(3)
        else:
            parts = STRING.split(l)
            l = "".join(p if i % 2 else turned(p, {**to, **mine}, skip) for i, p in enumerate(parts))
        out.append(l)
    return "\n".join(out)


def main():
    names, library, to = plan()
    both = {n for n in to if n in library}
    for p in texts("crates/**/*.antt") + texts("crates/**/*.rt") + texts("crates/**/*.edit"):
        t = read(p)
        skip = {n for n in both if p in library[n]}
        new = rust(t, to, skip) if p.endswith(".rt") else turned(t, to, skip)
        if new != t:
            write(p, new)
    for p in ["README.md"] + texts("docs/**/*.md"):
        t = read(p)
        new = re.sub(r"`[^`\n]+`", lambda m: turned(m.group(0), to), t)
        if new != t:
            write(p, new)
    for a, b in sorted(to.items()):
        print(a, b, "ALSO IN A LIBRARY" if a in both else "", "LEMMA" if b.endswith("_lem") else "")


if __name__ == "__main__":
    main()
