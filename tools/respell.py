#!/usr/bin/env python3
"""Spells this repository's own definitions and lemmas in snake case, as the library does.

usage: tools/respell.py        once, at the top, after port.py and before any edit by hand

A name is the repository's own where a file of specs/ or proofs/ declares it: at the top of a
file, as a field, a parameter or by `let`. Types, modules and constructors in camel case stay, and
so does each name that a file takes from the library, that Rattle makes of the code, or that stands
in src/. Where a lemma would then have its definition's name, it gets `_lem` after it. It prints
each name that changed, and ends with status 1 where two names would still fall together.
"""
import collections
import glob
import re
import sys

WORD = r"[^\W\d_◌][\w'·]*(?:-[\w'·]+)*"
TOKEN = re.compile(rf"(?<![\w'·-]){WORD}(?![\w'·-])")
USE = re.compile(r"^(?:ghost )?use ([^\s;{]+?)\.?(?:\{([^}]*)\})?(?: as (\S+))?;?$", re.M)
# What port.py spelled by the form of an older word.
GARBLED = {"get_d_tabulate": "get_or_tabulate"}


def read(path):
    with open(path, encoding="utf-8") as file:
        return file.read()


def snake(name):
    name = re.sub(r"(?<=[a-z0-9])[A-Z]", lambda m: "_" + m[0].lower(), name)
    return GARBLED.get(name, re.sub(r"(?<=_)[A-Z]$", lambda m: m[0].lower(), name.replace("-", "_")))


def without_comments(text):
    return re.sub(r"--.*", "", text)


def own_path(path):
    return path.startswith("Rattle.") and path.split(".")[1] in CRATES


def imports(text):
    """The names that a file takes from elsewhere than this repository, and those from it."""
    foreign, own = set(), set()
    for path, names, alias in USE.findall(text):
        for name in names.split(","):
            for part in name.split(" as "):
                (own if own_path(path) else foreign).add(part.strip())
        if alias:
            foreign.add(alias)
    return foreign, own


def declared(text):
    """Names that a file of specs/ or proofs/ declares, and those that it binds inside."""
    text = without_comments(text)
    top = set(re.findall(rf"^ *(?:(?:abbrev|unfoldable|pub|irreducible) )*({WORD})(?: \{{[^{{}}]*\}})* :(?= )", text, re.M))
    inner = set(re.findall(rf"\blet ({WORD})", text))
    for group in re.findall(rf"[({{]((?:{WORD} )+):", text):
        inner.update(group.split())
    for group in re.findall(rf"λ ((?:{WORD} )*{WORD})\.", text):
        inner.update(group.split())
    # fields of a record, and what the left side of a clause binds
    for block in re.findall(r"^ *(?:pub )?record .*\n((?:[ \t]+.*\n|\n)*)", text, re.M):
        top.update(re.findall(rf"^ +({WORD}) :", block, re.M))
    for line in re.findall(r"^[^\s].* = ?.*$|^[^\s].* =$", text, re.M):
        inner.update(TOKEN.findall(line.split(" = ")[0].split(" =")[0]))
    return top, inner


CRATES = set(p.split("/")[1] for p in glob.glob("crates/*/src"))
antt = sorted(p for p in glob.glob("crates/**/*.antt", recursive=True) if "/out/" not in p)
rt = sorted(p for p in glob.glob("crates/*/src/**/*.rt", recursive=True))
edits = sorted(glob.glob("crates/*/must-fail/*.edit"))
texts = {p: read(p) for p in antt + rt + edits}

# A proof of a function names what Rattle makes of the code: there only what lemma files and
# definitions declare is the repository's.
by_function = {p for p in antt if re.search(r"/(Proof|Answers|Invariants)\.antt$", p)}
lemmas = [p for p in antt if p not in by_function]

tops, foreign = set(), set()
inner = {}
for p in antt:
    foreign |= imports(texts[p])[0]
for p in lemmas:
    top, inner[p] = declared(texts[p])
    tops |= top


def changes(name):
    plain = name[:1].islower() or re.fullmatch(r"[A-Z]\d*(-[\w']+)+", name)
    return bool(plain) and (snake(name) != name) and not name.startswith("Need-")


# parts of a path: modules, folders and functions keep their names
modules = {part for p in antt for part in p[:-5].split("/")}
functions = set(re.findall(r"\bfn (\w+)", "\n".join(texts[p] for p in rt)))
everywhere = {n: snake(n) for n in tops if changes(n) and n not in foreign and n not in modules and n not in functions}
kept = sorted(n for n in tops if changes(n) and n not in everywhere)

def fallen():
    """Each new name that would stand for two or more of the old ones."""
    new = collections.defaultdict(set)
    for old, to in everywhere.items():
        new[to].add(old)
    for to in new:
        if to in tops and to not in everywhere:
            new[to].add(to)
    return {to: olds for to, olds in new.items() if len(olds) > 1}


# A lemma that falls together with a definition, whose old name is in camel case or in src/.
named = set(TOKEN.findall("\n".join(m[0] for p in rt for m in re.finditer(r"^ghost use .*?;", texts[p], re.M | re.S))))
for to, olds in fallen().items():
    defined = [old for old in olds if re.search(r"[a-z0-9][A-Z]", old) or old in named] or [to]
    everywhere.update({old: to + "_lem" for old in olds if old not in defined})

bad = 0
new = fallen()
for to, olds in sorted(new.items()):
    print("fall together:", to, "from", " ".join(sorted(olds)))
    bad = 1

for p in antt + rt + edits:
    text = texts[p]
    names = dict(everywhere)
    if p in inner:
        here = imports(text)[0]
        names.update({n: snake(n) for n in inner[p] if changes(n) and n not in here and n not in foreign})
    words = set(TOKEN.findall(text))
    for old in sorted(words & set(names)):
        to = names[old]
        if to in words and to not in names.values() or (to in imports(text)[0]):
            print("look:", p, old, "meets", to)
    turned = lambda m: names.get(m[0], m[0])
    if p in by_function:
        # behind a dot stand labels that Rattle makes
        out = re.sub(rf"(?<![.\w'·-]){WORD}(?![\w'·-])", turned, text)
        out = re.sub(r"(?<=\.)\{[^}]*\}", lambda m: TOKEN.sub(turned, m[0]), out)
    elif p.endswith(".antt"):
        out = TOKEN.sub(turned, text)
    elif p.endswith(".rt"):
        # clauses, ghost uses and comments; not the code
        def clause(m):
            return TOKEN.sub(turned, m[0])
        out, at = [], 0
        for m in re.finditer(r"^ *(?:requires|ensures|ghost use)\b", text, re.M):
            if m.start() < at:
                continue
            if "ghost use" in m[0]:
                end = text.index(";", m.start()) + 1
            else:
                i = text.index("{", m.start())
                deep, end = 0, i
                while True:
                    deep += (text[end] == "{") - (text[end] == "}")
                    end += 1
                    if not deep:
                        break
            out.append(re.sub(r"//.*", lambda c: TOKEN.sub(turned, c[0]), text[at:m.start()]))
            out.append(TOKEN.sub(turned, text[m.start():end]))
            at = end
        out.append(re.sub(r"//.*", lambda c: TOKEN.sub(turned, c[0]), text[at:]))
        out = "".join(out)
    else:
        # an edit of a definition or of a clause
        out, antt_file = [], False
        for line in text.splitlines(keepends=True):
            if line.startswith("file: "):
                antt_file = line.strip().endswith(".antt")
            out.append(TOKEN.sub(turned, line) if antt_file and re.match(r"(old|new): ", line) else line)
        out = "".join(out)
    if out != text:
        with open(p, "w", encoding="utf-8") as file:
            file.write(out)

for old in sorted(everywhere):
    print(f"{old}\t{everywhere[old]}")
print("kept:", " ".join(kept))
sys.exit(bad)
