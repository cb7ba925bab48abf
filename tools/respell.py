#!/usr/bin/env python3
"""Respells the definitions and lemmas of this repository: words in snake case, types in camel case.

usage: python3 tools/respell.py [TOP]      rewrites the .antt and .rt files below TOP/crates, the tree that port.py left

A name is the repository's own if a file of specs/ or proofs/ brings it in: a definition, a lemma, a field, a
constructor, a parameter or a variable. Names of the library keep their spelling, and so do those that the check makes
of a function's code (they are answers to a goal, or come from a module Goals or Given). In source files only clauses
and ghost items have such names. Comments and strings stay. In README.md and docs/ the names between backquotes follow.
"""

import os
import re
import sys

# names that would fall together with another name, or with a word of the library
OTHERWISE = {
    "Gate-list": "IsGateList",  # beside the struct GateList
    "stretch-from": "stretch_after",  # beside the function stretch_from, in one file
}

TOKEN = re.compile(r"(?<![\w'′-])[A-Za-z_][\w'′]*(?:-[\w'′]+)+(?![\w'′-])")
FOREIGN = re.compile(r"\buse\s+((?:Rattle\.(?:std|core)|native|mathlib|lib|borrow|Prim)\b[\w.·'-]*)\.\{([^}]*)\}")
MADE = re.compile(r"\buse\s+Rattle\.[\w.+'-]*\.(?:Goals|Given)\.\{([^}]*)\}")
GOAL = re.compile(r"(?m)^\s*(?:abbrev\s+|unfoldable\s+|pub\s+)*([A-Za-z_][\w'-]*)\s*:\s*(?:\{[^}]*\}\s*→\s*)?goal\.")
AFTER_GOAL = re.compile(r"\bgoal\.([\w'-]+(?:\.[\w'-]+)*)")


def files(top):
    for folder, dirs, names in os.walk(os.path.join(top, "crates")):
        dirs[:] = sorted(d for d in dirs if d != "out")
        for n in sorted(names):
            if n.endswith((".antt", ".rt")):
                yield os.path.join(folder, n)


def pages(top):
    yield os.path.join(top, "README.md")
    docs = os.path.join(top, "docs")
    yield from (os.path.join(docs, n) for n in sorted(os.listdir(docs)) if n.endswith(".md"))


def pieces(text, source):
    """The text as (is_code, part): comments and strings are not code."""
    what = r"//[^\n]*|\"(?:\\.|[^\"\\])*\"" if source else r"--[^\n]*"
    at = 0
    for m in re.finditer(what, text):
        yield True, text[at : m.start()]
        yield False, m.group()
        at = m.end()
    yield True, text[at:]


def code(path, text):
    return "".join(p for is_code, p in pieces(text, path.endswith(".rt")) if is_code)


def camel(name):
    return "".join(w[:1].upper() + w[1:] for w in name.split("-"))


def respelled(name):
    if name in OTHERWISE:
        return OTHERWISE[name]
    return camel(name) if name[0].isupper() else name.replace("-", "_")


def own_names(texts):
    foreign, made, seen = set(), set(), set()
    for path, text in texts.items():
        for m in FOREIGN.finditer(text):
            foreign |= {w.split(" as ")[0].strip() for w in m.group(2).split(",")}
        if not path.endswith(".antt"):
            continue
        for m in MADE.finditer(text):
            made |= {w.split(" as ")[0].strip() for w in m.group(1).split(",")}
        made |= set(GOAL.findall(text))
        for m in AFTER_GOAL.finditer(text):
            made |= set(m.group(1).split("."))
        for m in TOKEN.finditer(text):
            if text[m.start() - 1 : m.start()] != ".":
                seen.add(m.group())
    return {n for n in seen if n not in foreign and n not in made}


def turned(text, own):
    return TOKEN.sub(lambda m: respelled(m.group()) if m.group() in own else m.group(), text)


def main(top):
    texts = {}
    for path in files(top):
        with open(path, encoding="utf-8") as f:
            texts[path] = f.read()
    bare = {path: code(path, text) for path, text in texts.items()}
    own = own_names(bare)
    for path, text in texts.items():
        out = "".join(turned(p, own) if is_code else p for is_code, p in pieces(text, path.endswith(".rt")))
        if out != text:
            with open(path, "w", encoding="utf-8") as f:
                f.write(out)
    for path in pages(top):
        with open(path, encoding="utf-8") as f:
            text = f.read()
        out = re.sub(r"`[^`\n]*`", lambda q: turned(q.group(), own), text)
        if out != text:
            with open(path, "w", encoding="utf-8") as f:
                f.write(out)
    print(f"respell: {len(own)} names")


if __name__ == "__main__":
    main(sys.argv[1] if len(sys.argv) > 1 else ".")
