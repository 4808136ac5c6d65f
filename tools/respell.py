#!/usr/bin/env python3
"""Brings the repository's own definitions and lemmas to today's spelling: snake case, with a dash only between two names.

usage: tools/respell.py [ROOT]     once, right after the toolchain's port.py, in the folder ROOT (this folder)

A name is taken from a line of specs/ or proofs/ that declares it. It is changed wherever it stands as a whole word in an
.antt file, and in the ghost lines and clauses of an .rt file. Code and must-fail edits are left alone. A second run would
turn names that are right by now, so there is none where docs/PORT.md tells of the first.
"""

import os
import re
import sys

# Names of the library that a lemma may be about: 'length-around' is a lemma on both, 'put_ahead' on neither.
LIBRARY = {"length", "take", "drop", "set", "append", "filter", "map", "cond", "has", "true", "false", "refl"}
# Names that would fall together with another one.
CHOSEN = {
    "is_free": "is_free-true",
    "is-no": "is_no-true",
}
WORD = r"[^\W\d](?:[\w'-]*[\w'])?"
DECLARED = re.compile(r"^\s*(?:(?:abbrev|unfoldable|pub|data|record)\s+)*(" + WORD + r")\s*(?::\s|\(.*\)\s*:\s)")


def files(root, ending):
    for folder, dirs, names in os.walk(os.path.join(root, "crates")):
        dirs[:] = sorted(d for d in dirs if d != "out")
        for name in sorted(names):
            if name.endswith(ending):
                yield os.path.join(folder, name)


def declared(root):
    """Each name that a file right in specs/ or proofs/ declares, and whether specs/ does."""
    found = {}
    for path in files(root, ".antt"):
        kind = os.path.basename(os.path.dirname(path))
        if kind not in ("specs", "proofs"):
            continue
        with open(path, encoding="utf-8") as f:
            for line in f:
                m = DECLARED.match(line)
                if m and not line.lstrip().startswith(("--", "use ", "let ", "mod ")) and (line[0] != " " or line.startswith("  ") and line[2] != " "):
                    found[m.group(1)] = found.get(m.group(1), False) or kind == "specs"
    return found


def snake(name):
    return re.sub(r"(?<=[a-z0-9])([A-Z])", lambda m: "_" + m.group(1).lower(), name) if name[0].islower() else name


def respelled(name, about):
    """`name` in snake case: a dash stays between two parts that are names themselves."""
    parts = name.split("-")
    out = snake(parts[0])
    for i in range(1, len(parts)):
        left, right = "_".join(snake(p) for p in parts[:i]), snake(parts[i])
        out += ("-" if left in about and right in about else "_") + right
    return out


def renamings(root):
    names = declared(root)
    about = LIBRARY | {snake(n) for n, specs in names.items() if specs and "-" not in n and n[0].islower()}
    turned = {}
    for name in sorted(names):
        new = CHOSEN.get(name) or respelled(name, about)
        if new != name:
            turned[name] = new
    return names, turned


def words(turned):
    return re.compile(r"(?<![\w'-])(" + "|".join(re.escape(n) for n in sorted(turned, key=len, reverse=True)) + r")(?![\w'-])")


def ghost_parts(text):
    """The spans of an .rt file that are ghost: `ghost ..;` and the braces after `requires`, `ensures` and `ghost`."""
    for m in re.finditer(r"(?m)^[ \t]*(?:(?:pub )?ghost |requires|ensures)", text):
        i, depth = m.end(), 0
        while i < len(text):
            c = text[i]
            if c == "{":
                depth += 1
            elif c == "}":
                depth -= 1
                if depth == 0:
                    break
            elif c == ";" and depth == 0:
                break
            i += 1
        yield m.start(), i + 1


def turn(path, find, turned, ghost_only):
    with open(path, encoding="utf-8") as f:
        text = f.read()
    put = lambda m: turned[m.group(1)]
    if ghost_only:
        out, last = [], 0
        for a, b in ghost_parts(text):
            if a < last:
                continue
            out += [text[last:a], find.sub(put, text[a:b])]
            last = b
        new = "".join(out) + text[last:]
    else:
        new = find.sub(put, text)
    if new != text:
        with open(path, "w", encoding="utf-8") as f:
            f.write(new)
    return new != text


def main():
    root = sys.argv[1] if len(sys.argv) > 1 else "."
    if os.path.exists(os.path.join(root, "docs", "PORT.md")):
        sys.exit("respell: docs/PORT.md is there, so this was run already; nothing was changed")
    names, turned = renamings(root)
    # Two names that become one, or one that becomes another that stands somewhere already.
    stands = set()
    for path in files(root, ".antt"):
        with open(path, encoding="utf-8") as f:
            stands |= set(re.findall(r"(?<![\w'-])" + WORD, f.read()))
    meets = {}
    for old, new in turned.items():
        meets.setdefault(new, []).append(old)
    for new, olds in sorted(meets.items()):
        if len(olds) > 1 or (new in stands and new not in turned):
            print(f"falls together: {', '.join(olds)} -> {new}" + (" (stands already)" if new in stands else ""))
    find = words(turned)
    n = sum(turn(p, find, turned, False) for p in files(root, ".antt")) + sum(turn(p, find, turned, True) for p in files(root, ".rt"))
    print(f"{len(turned)} names, {n} files")
    for old, new in sorted(turned.items()):
        print(f"  {old} {new}")


main()
