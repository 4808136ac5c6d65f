"""Lists what functions repeat: each clause that stands in three or more functions of crates/*/src, and each pair of
parameters that three or more take. The crate `limits`, which holds tests, is left out.

    python3 tools/repeats.py [FOLDER]
"""

import collections
import itertools
import pathlib
import re
import sys

FUNCTION = re.compile(r"\bfn (\w+)[^{;(]*\(")
CLAUSE = re.compile(r"\s*(->[^{;]*?)?\s*(where[^{;]*?)?\s*(ensures|requires)(\s+\w+)?\s*\{")


def closing(text, at, pair):
    """The place behind the bracket that closes the one open before `at`."""
    depth = 1
    while depth and at < len(text):
        depth += {pair[0]: 1, pair[1]: -1}.get(text[at], 0)
        at += 1
    return at


def functions(text):
    """Each function's name, the parameters beside self, and the facts of its clauses."""
    for match in FUNCTION.finditer(text):
        at = closing(text, match.end(), "()")
        words = re.split(r",(?![^<\[(]*[>\])])", text[match.end() : at - 1])
        parameters = {" ".join(w.split()) for w in words if w.strip() and "self" not in w}
        facts = set()
        while clause := CLAUSE.match(text, at):
            at = closing(text, clause.end(), "{}")
            fact = " ".join(text[clause.end() : at - 1].split())
            facts |= {(clause.group(3), part) for part in fact.split(" × ")}
        yield match.group(1), parameters, facts


def main(root):
    facts, pairs = collections.defaultdict(set), collections.defaultdict(set)
    for path in sorted(pathlib.Path(root).glob("crates/*/src/**/*.rt")):
        if "limits" in path.parts:
            continue
        for name, parameters, clauses in functions(path.read_text(encoding="utf-8")):
            where = f"{name} in {path.relative_to(root)}"
            for clause in clauses:
                facts[clause].add(where)
            for pair in itertools.combinations(sorted(parameters), 2):
                pairs[pair].add(where)
    for title, found in (("clauses", facts), ("parameters", pairs)):
        rows = [(what, places) for what, places in found.items() if len(places) > 2]
        print(f"{title}: {len(rows)}")
        for what, places in sorted(rows, key=lambda row: (-len(row[1]), row[0])):
            print(f"  {len(places)} {' | '.join(what)}: {'; '.join(sorted(places))}")


if __name__ == "__main__":
    main(sys.argv[1] if len(sys.argv) > 1 else ".")
