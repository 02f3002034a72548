#!/usr/bin/env python3
"""Respells the repository's own definitions and lemmas as Rattle does: words in snake case. It was run once, at the top, after port.py.

usage: respell.py [--check | --anyway]

It renames what is declared in specs/ and proofs/, aliases of imports, and names with a middle dot; in .rt files only inside `ghost use` items and
clauses. Names that come from Rattle's own libraries and the functions of src/ keep their spelling. Where two names of one file would become one, it
says so and writes nothing, but with --anyway.
"""

import os
import re
import sys

NAME = r"[^\s(){}\[\]:,;.=⌜⌝⟦⟧`\"]+"
DECLARED = re.compile(rf"(?m)^[ ]*(?:(?:pub|abbrev|unfoldable|unfolding|record|data|ruleset|module) )*({NAME})(?: \([^()\n]*\)| \{{[^{{}}\n]*\}})* :(?: |$)")
GATHERED = re.compile(rf"(?m)^[ ]*(?:pub )?(?:ruleset|syntax|module) ({NAME})")
USE = re.compile(r"(?ms)^(?:ghost )?(?:pub |unfoldable )*use ([^;{\n]+?)\.?(?:\{([^}]*)\})?(?: as (\S+?))?;?$")
TOKEN = re.compile(r"[^\s(){}\[\]:,;.⌜⌝⟦⟧`\"λ]+|λ")


def files(root):
    for folder, dirs, names in os.walk(os.path.join(root, "crates")):
        dirs[:] = sorted(d for d in dirs if d != "out")
        for name in sorted(names):
            if name.endswith((".antt", ".rt")):
                yield os.path.join(folder, name)


# What would fall together with a definition or another name: a record, and lemmas about a function of their own name.
OTHER = {
    "Change-of": "ChangeOf",
    "entry-put": "entry_put_lem",
    "page-written": "page_written_lem",
    "first-named": "first_named_lem",
    "lowest-damaged": "lowest_damaged_lem",
    "part-put": "part_put_lem",
    "is-due": "is_due_lem",
    "Filled·told": "told_filled",
    "Listed·told": "told_listed",
    "Signed·told": "told_signed",
    "Filling·told": "told_filling",
    "Step·told": "told_step",
    "Repair·told": "told_repair",
}


def snake(name):
    if name in OTHER:
        return OTHER[name]
    name = name.replace("·", "_").replace("-", "_")
    if re.match(r"[A-Z][a-z]*_[a-z]", name) and "_" in name:
        name = name[0].lower() + name[1:]
    return re.sub(r"(?<=[a-z0-9])([A-Z])(?=[a-z])", lambda m: "_" + m[1].lower(), name) if name[:1].islower() else name


def own(module):
    return module.startswith("Rattle.") and not module.startswith(("Rattle.std.", "Rattle.core.", "Rattle.io.", "Rattle.libc."))


def clauses(text):
    """The spans of a .rt file that are antt: `ghost use` items, and the braces of clauses."""
    spans = [m.span() for m in re.finditer(r"(?ms)^ghost use [^;]*;", text)]
    for m in re.finditer(r"(?m)^ *(?:requires|ensures)\*?(?: \w+)? \{", text):
        deep, at = 0, m.end() - 1
        while True:
            deep += (text[at] == "{") - (text[at] == "}")
            at += 1
            if not deep:
                break
        spans.append((m.end() - 1, at))
    return sorted(spans)


def gather(texts):
    names, theirs = set(), set()
    for path, text in texts.items():
        for m in USE.finditer(text):
            for item in (m[2] or "").split(","):
                words = item.split()
                if not words:
                    continue
                if len(words) == 3:
                    names.add(words[2])
                if not own(m[1]):
                    theirs.add(words[0])
            if m[3]:
                names.add(m[3])
        if path.endswith(".antt"):
            for m in list(DECLARED.finditer(text)) + list(GATHERED.finditer(text)):
                end = text.find("\n", m.end())
                if ": tie." not in text[m.start() : end if end >= 0 else None] or m[1].endswith("-spec"):
                    names.add(m[1])
    return {n for n in names - theirs if "◌" not in n and n[0] != "#" and snake(n) != n and not n.startswith("c.")}


def turn(text, names):
    return TOKEN.sub(lambda m: snake(m[0]) if m[0] in names else m[0], text)


def modules(text):
    """An alias of a module of generated contracts is in camel case, as modules are."""
    for alias in set(re.findall(r"(?m)^use \S+\.Reads as (\S+)$", text)):
        camel = "".join(w.capitalize() for w in re.split(r"[-_]", alias))
        text = re.sub(rf"(?m)(?<=\.Reads as ){re.escape(alias)}$", camel, text)
        text = re.sub(rf"(?<![\w.·-]){re.escape(alias)}(?=\.(?:Post|Pre|Ghost)\b)", camel, text)
    return text


def main():
    root = "."
    old = {p: open(p, encoding="utf-8").read() for p in files(root)}
    texts = {p: modules(t) if p.endswith(".antt") else t for p, t in old.items()}
    names = gather(texts)
    out, bad = {}, 0
    for path, text in texts.items():
        if path.endswith(".antt"):
            new = turn(text, names)
            parts = [text]
        else:
            new, at, parts = "", 0, []
            for a, b in clauses(text):
                new += text[at:a] + turn(text[a:b], names)
                parts.append(text[a:b])
                at = b
            new += text[at:]
        tokens = {t for p in parts for t in TOKEN.findall(p)}
        seen = {}
        for t in sorted(tokens):
            to = snake(t) if t in names else t
            if to in seen and seen[to] != t:
                print(f"{path}: {seen[to]} and {t} would both be {to}")
                bad += 1
            seen[to] = t
        if new != old[path]:
            out[path] = new
    if "--check" in sys.argv:
        print(len(names), "names,", len(out), "files,", bad, "collisions")
        print(" ".join(sorted(f"{n}>{snake(n)}" for n in names if not re.fullmatch(r"[a-z0-9-]+", n))))
        return
    if bad and "--anyway" not in sys.argv:
        raise SystemExit(1)
    for path, text in out.items():
        with open(path, "w", encoding="utf-8") as f:
            f.write(text)


main()
