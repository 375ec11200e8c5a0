#!/usr/bin/env python3
"""Holds each statement of one repository's specs/ beside another's specs/ and proofs/:    stands.py OLD NEW [--moved]

A statement is a declaration's type with the parameters of its module; `pub` before it says only who may name it, and is not compared. Of an
abbrev, an unfoldable, a record and a data the body is compared too. It prints what is missing and whose body differs, and counts. With --moved it prints
what stands in proofs/ of NEW instead, by crate and file.
"""
import glob
import os
import re
import sys

DECL = re.compile(r"^(\s*)(?:pub )?((?:abbrev |unfoldable )?(?:pub )?)([^\s:(){}=,]+)\s*:\s(.*)$")
DATA = re.compile(r"^(\s*)(?:pub )?(record|data) ([^\s:(){}=,]+)(.*)$")


def flat(text):
    return re.sub(r"\s+", " ", re.sub(r"\bpub ", "", text)).strip()


def declared(path):
    """The declarations of a file, by name: kind, type, parameters of the module, and body."""
    found, module = {}, (-1, "")
    lines = open(path, encoding="utf-8").read().split("\n")
    at = 0
    while at < len(lines):
        line = lines[at]
        opened = re.match(r"^(\s*)module _ (.*) where\s*$", line)
        if opened:
            module = (len(opened.group(1)), flat(opened.group(2)))
        elif line.strip() and not line.startswith(" "):
            module = (-1, "")
        kept = DATA.match(line)
        if kept:
            body, end = [], at + 1
            while end < len(lines) and (not lines[end].strip() or lines[end].startswith(kept.group(1) + "  ")):
                body.append(re.sub(r"(^|\s)--.*$", "", lines[end]))
                end += 1
            found.setdefault(kept.group(3), []).append((kept.group(2), flat(kept.group(4)), module[1] if len(kept.group(1)) > module[0] >= 0 else "", flat(" ".join(body))))
            at = end
            continue
        stated = DECL.match(line)
        if stated and not line.lstrip().startswith("--") and not re.match(r"^\s*(?:pub )?(?:use|mod|module)\b", line):
            depth, kind, name, type_ = len(stated.group(1)), stated.group(2), stated.group(3), stated.group(4)
            end = at + 1
            while end < len(lines) and lines[end].strip() and len(lines[end]) - len(lines[end].lstrip()) > depth and not re.match(r"^\s*(unfolding\b|" + re.escape(name) + r"[\s{])", lines[end]):
                type_ += " " + lines[end].strip()
                end += 1
            body = ""
            while end < len(lines) and lines[end].strip() and not lines[end].lstrip().startswith("--") and not DECL.match(lines[end]):
                body += " " + lines[end].strip()
                end += 1
            computes = "abbrev" in kind or "unfoldable" in kind
            found.setdefault(name, []).append(("definition" if computes else "theorem", flat(type_), module[1] if depth > module[0] >= 0 else "", flat(body)))
        at += 1
    return found


def main(old, new, moved_only):
    count = missing = differ = moved = 0
    last = ""
    for path in sorted(glob.glob(f"{old}/crates/*/specs/*.antt")):
        crate, file = path.split("/crates/")[1].split("/")[0], os.path.basename(path)[:-5]
        here = {}
        for it in sorted(glob.glob(f"{new}/crates/{crate}/specs/*.antt") + glob.glob(f"{new}/crates/{crate}/proofs/*.antt")):
            for name, all_ in declared(it).items():
                here.setdefault(name, []).extend((each, it) for each in all_)
        for name, all_ in declared(path).items():
            for kind, type_, module, body in all_:
                count += 1
                hits = [(each, it) for each, it in here.get(name, []) if each[1] == type_ and each[2] == module]
                if not hits:
                    missing += 1
                    print(f"MISSING {crate}/{file} {name} : {type_}")
                elif kind != "theorem" and not any(each[3] == body for each, _ in hits):
                    differ += 1
                    print(f"DIFFERS {crate}/{file} {name}: {body[:200]} / {hits[0][0][3][:200]}")
                elif not any("/specs/" in it for _, it in hits):
                    moved += 1
                    if moved_only:
                        to = os.path.basename(hits[0][1])[:-5]
                        title = f"{crate}: specs/{file} to proofs/{to}"
                        if title != last:
                            print(f"\n{title}")
                            last = title
                        print(f"    {'' if kind == 'theorem' else kind + ' '}{module + ' ⊢ ' if module else ''}{name} : {type_}")
    if not moved_only:
        print(f"{count} statements, {missing} missing, {differ} with another body, {moved} in proofs/")


if __name__ == "__main__":
    main(sys.argv[1], sys.argv[2], "--moved" in sys.argv[3:])
