#!/usr/bin/env python3
"""Brings the repository's own definitions and lemmas to snake case, once, behind the kit's port.py.

usage: tools/respell.py            at the top of the repository, on the tree that port.py left
       tools/respell.py --list     prints the old and the new name of each, and changes nothing

It was run once, for the second commit that docs/PORT.md names, and refuses a tree that has that page: today's proof files
hold names of goals, which it would respell too.

A name of specs/ or of a lemma file that holds a capital behind a small letter, or a dash, becomes
words joined by `_`. Types, modules, functions of src/ and what the kit makes keep their names. A name
that a file has from the kit stays in that file.
"""
import os
import re
import sys

OWN = sorted(os.listdir("crates"))
WORD = re.compile(r"[^\s(){}\[\].,;\"λ⌜⌝]+")
MARKS = {"unfoldable", "abbrev", "pub", "data", "record", "mutual", "unfolding", "use", "ghost", "where", "mod"}


def texts(ending):
    for folder, below, files in os.walk("crates"):
        below[:] = sorted(d for d in below if d != "out")
        for f in sorted(files):
            if f.endswith(ending):
                yield os.path.join(folder, f)


def lemma_files():
    return [p for p in texts(".antt") if not p.endswith(("/Proof.antt", "/Lib.antt"))]


def bare(text):
    """The text without comments and string literals' contents."""
    text = re.sub(r"(?m)--.*$", "", text)
    return re.sub(r'"(\\.|[^"\\])*"', '""', text)


def declared(text, with_goals=True):
    """The names that a file declares: definitions, constructors and fields."""
    names = set()
    for line in bare(text).split("\n"):
        if line.startswith("use "):
            continue
        found = re.match(r"^ *((?:[^\s(){}:]+ )+): (.*)", line)
        if found:
            if not with_goals and found.group(2).startswith(("tie.", "goal.", "{M : Type 1} →")):
                continue
            names.update(w for w in found.group(1).split() if w not in MARKS)
    return names


# A lemma beside the definition that it speaks of, where both would get one name.
BESIDE = {"before-slash", "check-pointer", "element-text", "entry-text", "hex-digit", "hex-value", "literal-of", "name-of", "onto-members", "onto-nodes", "refused-at", "refused-patch", "repeats-members", "siblings-of"}


def snake(name):
    if name in BESIDE:
        return name.replace("-", "_") + "_lem"
    return re.sub(r"(?<=[a-z0-9'])([A-Z])", lambda m: "_" + m.group(1).lower(), name).replace("-", "_")


def due(name):
    return bool(re.match(r"^[a-z][\w'₀-₉-]*$", name)) and snake(name) != name


def imports(text):
    """What a file imports, as pairs of the module and the name there."""
    found = []
    for line in text.split("\n"):
        m = re.match(r"^(?:ghost )?use ([^{]*)\.\{(.*)\};?$", line.strip())
        if m:
            found += [(m.group(1), n.strip().split(" as ")[-1]) for n in m.group(2).split(",")]
    return found


def own(module):
    parts = module.split(".")
    return len(parts) > 2 and parts[0] == "Rattle" and parts[1] in OWN and parts[2] in ("specs", "proofs") and "Tie" not in parts


def foreign(text):
    return {n for module, n in imports(text) if not own(module)}


def turned(text, table):
    """Each word of the table in its new spelling, strings aside."""
    pieces = re.split(r'("(?:\\.|[^"\\\n])*")', text)
    return "".join(p if k % 2 else WORD.sub(lambda m: table.get(m.group(0), m.group(0)), p) for k, p in enumerate(pieces))


def members(table, fields):
    """A field or a constructor stands behind a dot; anything else of a walk through code keeps its name there."""
    return {k: v for k, v in table.items() if k in fields}


def names_and_fields():
    names, fields = {}, set()
    for p in lemma_files():
        text = open(p, encoding="utf-8").read()
        for n in declared(text):
            if due(n):
                names[n] = snake(n)
        inside = False
        for line in bare(text).split("\n"):
            if re.match(r"^ *(pub )?(data|record) ", line):
                inside = True
            elif line and not line.startswith("  "):
                inside = False
            found = re.match(r"^ +((?:[^\s(){}:]+ )+): ", line)
            if inside and found:
                fields.update(w for w in found.group(1).split() if w not in MARKS)
    return names, fields


def walk(text, table, fields):
    """A function's proof: only what it imports of the repository, declares itself, or projects is respelled."""
    local = declared(text, with_goals=False)
    goals = declared(text) - local
    known = {n for module, n in imports(text) if own(module)} | local
    here = {k: v for k, v in table.items() if k in known and k not in goals}
    here |= {n: snake(n) for n in local if due(n) and n not in goals}
    behind = members(table, fields)
    free = foreign(text)
    out, last = [], 0
    for m in WORD.finditer(text):
        w = m.group(0)
        dotted = m.start() > 0 and text[m.start() - 1] == "."
        new = w
        if dotted and w in behind:
            new = behind[w]
        elif not dotted and w not in free and (w in here or w in behind and w not in goals):
            new = here.get(w) or behind[w]
        out.append(text[last : m.start()] + new)
        last = m.end()
    return "".join(out) + text[last:]


def respell(path, table, fields):
    text = open(path, encoding="utf-8").read()
    if path.endswith("/Proof.antt"):
        new = walk(text, table, fields)
    elif path.endswith(".rt"):
        known = {n for module, n in imports(text) if own(module)}
        lines = text.split("\n")
        clause = re.compile(r"^\s*(ghost|requires|ensures|also)\b")
        here = {k: v for k, v in table.items() if k in known or k in fields}
        new = "\n".join(turned(l, here) if clause.match(l) or l.startswith("        ") else l for l in lines)
    else:
        free = foreign(text)
        new = turned(text, {k: v for k, v in table.items() if k not in free})
    if new != text:
        with open(path, "w", encoding="utf-8") as out:
            out.write(new)
        return True
    return False


def main():
    if os.path.exists("docs/PORT.md"):
        sys.exit("respell: docs/PORT.md is here, so this tree is respelled already")
    table, fields = names_and_fields()
    taken = {}
    for old, new in sorted(table.items()):
        taken.setdefault(new, []).append(old)
    plain = set()
    for p in lemma_files():
        plain |= declared(open(p, encoding="utf-8").read())
    for new, olds in sorted(taken.items()):
        if len(olds) > 1 or new in plain:
            print("falls together:", new, olds, "declared" if new in plain else "")
    if sys.argv[1:] == ["--list"]:
        for old, new in sorted(table.items()):
            print(old, new)
        return
    count = sum(respell(p, table, fields) for p in [*texts(".antt"), *texts(".rt")])
    print(len(table), "names,", count, "files")


main()
