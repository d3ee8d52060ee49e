#!/usr/bin/env python3
"""Says what is lent in today's words: in a clause `lent x` becomes x.now of a & and x.old of a &mut, `left x` becomes x.new.

usage: tools/lent.py         at the top, once, after tools/spell.py

The definitions that took a lent reference take its lists: PLACES says which word of each argument a clause hands over.
"""

import os
import re

# for each definition the words of its arguments that were lent: b before the call, a after it, 2 both, - no lent argument
PLACES = {
    "before": "-bb",
    "found": "-bbb-",
    "Leaves": "--a",
    "LeavesWhole": "--aa",
    "LeavesAll": "---a",
    "Moves": "--a",
    "Takes": "--b2aaa-",
    "Finishes": "--2aab-",
    "Ends/line": "---2aab-",
    "Ends": "--aa",
    "Gives": "--2aa-",
    "Lays": "--2-",
    "Saves": "--a",
    "Fills": "--a",
    "Steps": "--aa",
    "Hands": "--a",
}


def arguments(text, at):
    """The spans of the arguments that follow a definition's name: words, or what stands in brackets."""
    spans = []
    while at < len(text) and text[at] == " ":
        start = at + 1
        end, depth = start, 0
        while end < len(text) and (depth or text[end] not in " )}],"):
            depth += text[end] in "([{"
            depth -= text[end] in ")]}"
            end += 1
        if end == start or text[start:end] in ("×", "→", "≡", "}"):
            break
        spans.append((start, end))
        at = end
    return spans


def clause(text, mutable, crate):
    now = lambda x: f"{x}.old" if mutable[x] else f"{x}.now"
    after = lambda x: f"{x}.new" if mutable[x] else f"{x}.now"
    names = "|".join(map(re.escape, mutable)) or "$^"
    for name, places in PLACES.items():
        if "/" in name:
            name, of = name.split("/")
            if of != crate:
                continue
        elif name + "/" + crate in PLACES:
            continue
        out, done = "", 0
        for m in re.finditer(r"(?<![\w.])" + name + r"(?= )", text):
            for (s, e), p in zip(arguments(text, m.end()), places):
                x = text[s:e]
                if p != "-" and x in mutable:
                    out += text[done:s] + {"b": now(x), "a": after(x), "2": f"{now(x)} {after(x)}"}[p]
                    done = e
        text = out + text[done:]
    text = re.sub(r"\(lent (" + names + r")\)", lambda m: now(m.group(1)), text)
    text = re.sub(r"(?<![\w.])lent (" + names + r")(?![\w.])", lambda m: now(m.group(1)), text)
    text = re.sub(r"\(left (" + names + r")\)", lambda m: after(m.group(1)), text)
    return re.sub(r"(?<![\w.])left (" + names + r")(?![\w.])", lambda m: after(m.group(1)), text)


def source(path):
    crate = path.split(os.sep)[1]
    out, mutable = [], {}
    for line in open(path, encoding="utf-8").read().split("\n"):
        if re.match(r"\s*(pub )?fn ", line):
            mutable = {}
        for x, kind in re.findall(r"(\w+): &(?:'\w+ )?(mut )?", line):
            mutable[x] = bool(kind)
        if re.match(r"\s*(requires|ensures)\b", line):
            line = clause(line, mutable, crate)
        if "Rattle.word.specs.Lent." in line:
            continue
        out.append(line)
    with open(path, "w", encoding="utf-8") as f:
        f.write("\n".join(out))


def main():
    for crate in sorted(os.listdir("crates")):
        for f in ("lib.rt", "main.rt"):
            p = os.path.join("crates", crate, "src", f)
            if os.path.exists(p):
                source(p)


if __name__ == "__main__":
    main()
