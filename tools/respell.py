#!/usr/bin/env python3
"""Brings the repository's own definitions and lemmas to today's spelling: words in snake case, types in upper camel case.

usage: python3 tools/respell.py [--dry]     at the top of the repository, once, after the kit's own script

A definition or a field of specs/ is snake case, a type or a fact upper camel case. In a lemma's name a dash stays only where it joins two
names, as in `bit-and`; a plain word is joined by `_`. Names that the check makes, as `returns-then-i-lt64`, are left alone. Functions of
src/, strings, inputs and outputs keep their names. A new name that would fall together with another one is told, and nothing is written.
"""

import os
import re
import sys

# A variable that is a tactic's name today.
WORDS = {"ground": "applies"}
# A definition and the function of src/ that it describes may have one name.
TOGETHER = {"joined_rule", "side_of_kind"}
NAME = r"[^\W\d][\w'⁺]*(?:-[\w'⁺]+)*"
TOKEN = re.compile(NAME)
DECLARED = re.compile(r"^\s*(?:(?:abbrev|unfoldable)\s+)?(?:pub\s+)?(?:(?:abbrev|unfoldable)\s+)?(?:pub\s+)?(?:(data|record)\s+)?(" + NAME + r")((?:\s*\{[^}]*\}|\s+\([^)]*\))*)\s*:(?!:)\s*(.*)$")
BOUND = re.compile(r"\blet (" + NAME + r")|\(((?:" + NAME + r"\s)+):|λ ([^.]*)\.| as (" + NAME + r")")
# Words that a lemma's dash may join beside the repository's own: operations of the library.
OPERATIONS = "and or xor not append length take drop get set map reverse cond true false none some zero suc placed".split()


def files(root):
    for folder, dirs, names in os.walk(os.path.join(root, "crates")):
        dirs[:] = sorted(d for d in dirs if d != "out")
        for n in sorted(names):
            if n.endswith((".antt", ".rt", ".edit")):
                yield os.path.join(folder, n)


def is_type(rest, following):
    text = rest
    for line in following:
        if ":" in text and "Type" in text or "=" in line or not line.startswith((" ", "\t")):
            break
        text += " " + line.strip()
    return bool(re.search(r"(?:^|→\s*)Type \S+(?: where)?\s*$", text.strip()))


def camel(name):
    return "".join(p[:1].upper() + p[1:] for p in re.split(r"[-_]", name))


def lemma(name, known):
    words = name.split("-")
    parts, i = [], 0
    while i < len(words):
        for j in range(len(words), i, -1):
            if "_".join(words[i:j]) in known:
                break
        else:
            j = i + 1
        parts.append("_".join(words[i:j]))
        i = j
    text = parts[0]
    for a, b in zip(parts, parts[1:]):
        text += ("-" if a in known and b in known else "_") + b
    return text


def gather(root):
    specs, lemmas, types, locals_, code = set(), set(), set(), set(), set()
    for p in files(root):
        with open(p, encoding="utf-8") as f:
            text = f.read()
        if p.endswith(".rt"):
            code |= set(re.findall(r"\bfn (\w+)", text))
        if not p.endswith(".antt"):
            continue
        lines = text.split("\n")
        for n, line in enumerate(lines):
            if line.lstrip().startswith("--"):
                continue
            for m in BOUND.finditer(line):
                locals_ |= set(TOKEN.findall(" ".join(g for g in m.groups() if g)))
            m = DECLARED.match(line)
            if not m or m.group(4).startswith("goal"):
                continue
            name = m.group(2)
            if m.group(1) or is_type(m.group(4), lines[n + 1 :]):
                types.add(name)
            elif "/specs/" in p:
                specs.add(name)
            else:
                lemmas.add(name)
    return specs, lemmas, types, locals_, code


def table(root):
    specs, lemmas, types, locals_, code = gather(root)
    made = {n: camel(n) for n in types if "-" in n}
    made |= {n: n.replace("-", "_") for n in specs if "-" in n and n not in made}
    known = {n.replace("-", "_") for n in specs} | code | set(OPERATIONS)
    made |= {n: lemma(n, known) for n in lemmas if "-" in n and n not in made}
    for n in locals_:
        if "-" in n and n not in made:
            made[n] = camel(n) if n[:1].isupper() else n.replace("-", "_")
    return {n: w for n, w in made.items() if n != w} | WORDS


def spoken(path, text):
    """The names of a file, without its comments, the functions of src/, members and folders of proofs."""
    mark = "//" if path.endswith(".rt") else "--"
    text = "\n".join(l.split(mark)[0] for l in text.split("\n"))
    return set(TOKEN.findall(re.sub(r"\bfn \w+|\w+\(|\.\w+|\w+\.", " ", text) if path.endswith(".rt") else re.sub(r"\.\w+", " ", text)))


def clashes(root, made):
    seen = {}
    for p in files(root):
        with open(p, encoding="utf-8") as f:
            tokens = spoken(p, f.read())
        for old, new in made.items():
            if old in tokens and new in tokens and new not in TOGETHER:
                seen.setdefault((old, new), []).append(os.path.relpath(p, root))
    twice = {}
    for old, new in made.items():
        twice.setdefault(new, []).append(old)
    return seen, {n: o for n, o in twice.items() if len(o) > 1}


def respelled(path, text, made):
    def word(m):
        return made.get(m.group(0), m.group(0))

    out = []
    for line in text.split("\n"):
        mark = "//" if path.endswith(".rt") else "--"
        cut = line.find(mark)
        if cut >= 0 and (cut == 0 or line[cut - 1] in " \t"):
            code, rest = line[:cut], line[cut:]
        else:
            code, rest = line, ""
        # Strings keep their text.
        parts = re.split(r'("(?:[^"\\]|\\.)*")', code) if path.endswith((".rt", ".edit")) else [code]
        out.append("".join(s if s.startswith('"') else TOKEN.sub(word, s) for s in parts) + rest)
    return "\n".join(out)


def main(argv):
    root = os.path.dirname(os.path.dirname(os.path.abspath(__file__)))
    made = table(root)
    seen, twice = clashes(root, made)
    for (old, new), where in sorted(seen.items()):
        print(f"falls together: {old} -> {new} stands already in {', '.join(where[:4])}")
    for new, olds in sorted(twice.items()):
        print(f"falls together: {', '.join(olds)} -> {new}")
    if "--dry" in argv:
        for old, new in sorted(made.items()):
            print(f"{old}\t{new}")
        return 0
    if seen or twice:
        return 1
    changed = 0
    for p in files(root):
        with open(p, encoding="utf-8") as f:
            text = f.read()
        new = respelled(p, text, made)
        if new != text:
            changed += 1
            with open(p, "w", encoding="utf-8") as f:
                f.write(new)
    print(f"{len(made)} names respelled in {changed} files")
    return 0


if __name__ == "__main__":
    raise SystemExit(main(sys.argv[1:]))
