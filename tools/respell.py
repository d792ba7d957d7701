#!/usr/bin/env python3
"""Respells the definitions and lemmas of this repository: words in snake case, types and facts in upper camel case.

usage: python3 tools/respell.py      at the top of the repository, once, after the kit's port.py

A name is respelled where a file of specs/ or proofs/ defines it with a dash in it, or a `use` line gives it by `as`. The names
that Rattle makes for a function's goals keep their dashes, and so do the library's. Comments and strings are left alone.
"""
import os
import re

TOKEN = re.compile(r"[^\s(){}.,;«»\[\]]+")
DEFINED = re.compile(r"\s*(?:(?:abbrev|pub|unfoldable|data|record)\s+)*((?:[^\s(){}.,;«»:]+\s+)*[^\s(){}.,;«»:]+)\s*(?:\{[^}]*\}\s*|\([^)]*\)\s*)*:(?:\s|$)")
ALIAS = re.compile(r"\bas ([^\s,};]+)")
QUIET = re.compile(r"//[^\n]*|\"(?:[^\"\\]|\\.)*\"|b?'(?:[^'\\]|\\.)'")


def files(ending):
    for folder, dirs, names in os.walk("crates"):
        dirs[:] = sorted(d for d in dirs if d != "out")
        for name in sorted(names):
            if name.endswith(ending):
                yield os.path.join(folder, name)


def read(path):
    with open(path, encoding="utf-8") as f:
        return f.read()


def respelled(name):
    parts = name.split("-")
    if name[0].isupper():
        return "".join(p[:1].upper() + p[1:] for p in parts)
    return "_".join(parts)


def defined():
    found = set()
    for path in files(".antt"):
        for line in read(path).split("\n"):
            if line.startswith("--"):
                continue
            hit = DEFINED.match(line)
            if hit and not re.search(r":\s*goal\.", line):
                found.update(hit.group(1).split())
            if line.startswith("use "):
                found.update(ALIAS.findall(line))
    for path in files(".rt"):
        for line in read(path).split("\n"):
            if line.startswith("ghost use "):
                found.update(ALIAS.findall(line))
    return {n: respelled(n) for n in found if re.fullmatch(r"[A-Za-z][A-Za-z0-9]*'?(-[A-Za-z0-9]+'?)+", n)}


def turned(text, names):
    return TOKEN.sub(lambda m: names.get(m.group(0), m.group(0)), text)


def turned_source(text, names):
    out, at = [], 0
    for quiet in QUIET.finditer(text):
        out.append(turned(text[at:quiet.start()], names))
        out.append(quiet.group(0))
        at = quiet.end()
    return "".join(out) + turned(text[at:], names)


def turned_proof(text, names):
    lines = []
    for line in text.split("\n"):
        code, dashes, comment = line.partition("-- ") if re.search(r"(^|\s)-- ", line) else (line, "", "")
        lines.append(turned(code, names) + dashes + comment)
    return "\n".join(lines)


def main():
    names = defined()
    twice = {}
    for old, new in sorted(names.items()):
        if new in twice:
            raise SystemExit(f"respell: {old} and {twice[new]} would both be {new}")
        twice[new] = old
    count = 0
    for ending, turn in ((".antt", turned_proof), (".rt", turned_source)):
        for path in files(ending):
            old = read(path)
            new = turn(old, names)
            if new != old:
                count += 1
                with open(path, "w", encoding="utf-8") as f:
                    f.write(new)
    print(f"respell: {len(names)} names, {count} files")


main()
