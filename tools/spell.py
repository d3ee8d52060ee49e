#!/usr/bin/env python3
"""Brings this repository's own definitions and lemmas to the spelling of today's Rattle: words in snake case.

usage: tools/spell.py         at the top, once, after port.py

A name is this repository's own where a file of specs/ or of proofs/ (but for a function's own proof) declares it. Types, modules and
the names of Rattle source keep their spelling. Comments and pages are turned between backquotes alone. What falls together with
another name is listed, and then nothing is written.
"""

import os
import re
import sys

NAME = r"[^\W\d][\w'′₀-₉]*(?:-[\w'′₀-₉ℕℤ]+)*"
WORD = re.compile(NAME)
DECLARED = re.compile(r"^\s*(?:(?:abbrev|unfoldable|pub) )*((?:" + NAME + r" )+):(?: |$)")
USED = re.compile(r"^(?:pub )?(?:ghost )?use ([\w.◌]+?)\.\{([^}]*)\}")


def files(ends, top="crates"):
    for folder, dirs, names in os.walk(top):
        dirs[:] = sorted(d for d in dirs if d != "out")
        for f in sorted(names):
            if f.endswith(ends):
                yield os.path.join(folder, f)


# fields of records that have the name of a definition elsewhere, and keep it
FIELDS = {"down_to"}


def text(path):
    with open(path, encoding="utf-8") as f:
        return f.read()


def snake(name):
    if name[0].isupper():
        return name.replace("′", "'")
    name = name.replace("-", "_").replace("′", "'")
    return re.sub(r"(?<=[a-z0-9])([A-Z]+)", lambda m: "_" + m.group(1).lower(), name)


def own():
    """Each declared name, and the names that are imported from elsewhere."""
    crates = set(os.listdir("crates"))
    declared, foreign = {}, {}
    for p in files(".antt"):
        for line in text(p).splitlines():
            m = None if line.lstrip().startswith("let ") else DECLARED.match(line)
            if m and not p.endswith("/Proof.antt"):
                for n in m.group(1).split():
                    if n not in declared or "/specs/" in p:
                        declared[n] = p
            u = USED.match(line)
            if u:
                parts = u.group(1).split(".")
                if not (parts[0] == "Rattle" and len(parts) > 1 and parts[1] in crates):
                    for n in u.group(2).split(","):
                        foreign.setdefault(n.strip().split(" as ")[-1], p)
    return declared, foreign


def turning(declared, foreign):
    """Old name to new. Of names that fall together the definition of specs/ has the plain one, and a lemma gets _lem."""
    names, bad, groups = {}, [], {}
    for n in declared:
        groups.setdefault(snake(n), []).append(n)
    for b, group in sorted(groups.items()):
        if group == [b]:
            continue
        defined = [n for n in group if "/specs/" in declared[n]]
        if b in FIELDS:
            names |= {n: b for n in defined}
            group = [n for n in group if n not in defined] + defined[:1]
            defined = defined[:1]
        plain = defined[0] if defined else (b if b in group else group[0])
        bad += [f"{n} and {plain} would both become {b}" for n in defined[1:]]
        bad += [f"{n} is imported from elsewhere in {foreign[n]}, declared in {declared[n]}" for n in group if n in foreign and n != b]
        names[plain] = b
        for n in group:
            if n != plain:
                names[n] = b + "_lem"
    return {a: b for a, b in names.items() if a != b}, bad


def turned(line, names):
    """A name in snake case that a definition takes over is a lemma's alone: never a field, a folder or a function."""
    return WORD.sub(lambda m: m.group(0) if m.start() and line[m.start() - 1] == "." and snake(m.group(0)) == m.group(0) else names.get(m.group(0), m.group(0)), line)


def quoted(line, names):
    return re.sub(r"`[^`]*`", lambda m: turned(m.group(0), names), line)


def source(path, names):
    """Code is turned whole, comments between backquotes; a function's own proof keeps what it declares itself."""
    mark = "//" if path.endswith(".rt") else "--"
    if path.endswith(".rt"):
        names = {a: b for a, b in names.items() if snake(a) != a}
    if path.endswith("/Proof.antt"):
        mine = {n for l in text(path).splitlines() if DECLARED.match(l) for n in DECLARED.match(l).group(1).split()}
        names = {a: b for a, b in names.items() if a not in mine}
    out = []
    for line in text(path).split("\n"):
        at = line.find(mark)
        code, rest = (line, "") if at < 0 or '"' in line[:at] else (line[:at], line[at:])
        out.append((turned(code, names) if '"' not in code else code) + quoted(rest, names))
    return "\n".join(out)


def edit(path, names):
    return "\n".join(turned(l, names) if l.startswith(("old:", "new:")) else l for l in text(path).split("\n"))


def main():
    declared, foreign = own()
    names, bad = turning(declared, foreign)
    for b in bad:
        print(b)
    if bad:
        return 1
    for a, b in sorted(names.items()):
        if b.endswith("_lem"):
            print(f"{a} becomes {b} ({declared[a]})")
    known = {names.get(n, n) for n in declared}
    older = {w: snake(w) for p in [*files(".md", "docs"), "README.md", *files(".edit")] for w in WORD.findall(text(p)) if snake(w) != w and snake(w) in known}
    pages = [p for p in ["README.md", *files(".md", "docs"), *files(".md", "model")] if not p.endswith("PORT.md")]
    for p, turn in [(p, source) for p in files((".antt", ".rt"))] + [(p, edit) for p in files(".edit")]:
        new = turn(p, older | names if turn is edit else names)
        if new != text(p):
            with open(p, "w", encoding="utf-8") as f:
                f.write(new)
    for p in pages:
        new = "\n".join(quoted(l, older | names) for l in text(p).split("\n"))
        if new != text(p):
            with open(p, "w", encoding="utf-8") as f:
                f.write(new)
    print(f"{len(names)} names turned")
    return 0


if __name__ == "__main__":
    raise SystemExit(main())
