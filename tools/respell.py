#!/usr/bin/env python3
"""Brings the repository's own antt names to the library's spelling, once, on files that port.py has turned.

usage: python3 tools/respell.py        at the top of the repository

A name that this repository defines (a definition, a lemma, a field, a constructor, a bound variable) and that has a
dash becomes one in upper camel case where it begins with a capital and is a type, and one in snake case otherwise.
A lemma named after a fact keeps the fact's capital. Names of the library, and names that the check makes, stay.
Functions of src/, strings and comments are not touched.
"""

import os
import re
import sys

TOKEN = r"[^\s(){}\[\].,;:\"|@]+"
WORD = re.compile(TOKEN)
OTHERS = ("Rattle.std.", "mathlib.", "borrow.", "denote.", "Prim.", "prog.", "lib.", "native.")
# Names that stand already as a module, a label or a ghost field, where nothing imports both
STANDS = {"ReachedTimes", "StepAnswers", "sibling_tree", "yes_no", "all_dealt", "few_tags", "few_terms", "no_empty_block", "no_later_block", "operands_stand", "some_term", "tag_stands", "turn_earlier"}
# Names that would fall together with a variant
OTHERWISE = {"All-settled": "EveryBlockSettled", "Not-opened": "RefusedOpening"}
# Names that the check makes: the steps of a proof and the parts of a goal
MADE = re.compile(r"^(?:loop|invariant|decreases|returns|overflow|bounds|offset|in|then|else|if|match|branch|prove|slice_bounds|the|while|case|arm)-")


def files(top):
    for folder, dirs, names in os.walk(os.path.join(top, "crates")):
        dirs[:] = sorted(d for d in dirs if d != "out")
        for name in sorted(names):
            if name.endswith((".antt", ".rt")):
                yield os.path.join(folder, name)


def parts(text, path):
    """The text in pieces: code (True) and comments or strings (False)."""
    mark = "--" if path.endswith(".antt") else "//"
    for line in text.splitlines(keepends=True):
        cut = re.search(r"(?:^|(?<=\s))" + mark, line)
        code, rest = (line[: cut.start()], line[cut.start() :]) if cut else (line, "")
        for i, piece in enumerate(re.split(r'("(?:[^"\\]|\\.)*")', code)):
            yield (i % 2 == 0, piece)
        yield (False, rest)


def code_of(text, path):
    return "".join(p for is_code, p in parts(text, path) if is_code)


def imported(code):
    """Names that a file takes from the library."""
    got = set()
    for m in re.finditer(r"\buse\s+([\w.'«»+-]+?)\.\{([^}]*)\}", code):
        if m.group(1).startswith(OTHERS):
            got.update(w for part in m.group(2).split(",") for w in part.split())
    return got


def defined(code, path):
    """Names that a file of specs/ or proofs/ binds: those of signatures and of types, and the others."""
    got, bound = set(), set()
    in_proof = re.search(r"/proofs/.*/(Answers|Invariants|Proof)\.antt$", path)
    # a signature; an answer's own goals are named by the check
    for m in re.finditer(r"(?m)^\s*(?:unfoldable\s+|abbrev\s+|pub\s+|mutual\s+)*(" + TOKEN + r")\s*:(?=\s)(.*)$", code):
        if in_proof and re.match(r"\s*goal\.", m.group(2)):
            continue
        got.add(m.group(1))
    for m in re.finditer(r"\b(?:data|record|ruleset)\s+(?:pub\s+)?(" + TOKEN + r")", code):
        got.add(m.group(1))
    signed, got = got, bound
    # bound variables: (x y : T), {x : T}, λ x y., λ (a, b)., let x
    for m in re.finditer(r"[({]([^(){}:;.]+?)\s*:(?=\s)", code):
        got.update(m.group(1).split())
    for m in re.finditer(r"λ\s+([^.]*?)\.(?=\s)", code):
        got.update(w for w in WORD.findall(m.group(1)))
    for m in re.finditer(r"\blet\s+(" + TOKEN + r")\s*[:=]", code):
        got.add(m.group(1))
    # the left sides of clauses and the patterns of elim
    if not in_proof:
        for m in re.finditer(r"(?m)^(?!\s*(?:use|pub|module)\b)([^=\n]*?)\s=(?=\s|$)", code):
            got.update(w for w in WORD.findall(m.group(1)))
    for m in re.finditer(r"\|?([^|↦\n]*)↦", code):
        got.update(w for w in WORD.findall(m.group(1)))
    dashed = lambda names: {w for w in names if "-" in w and re.match(r"[A-Za-z]", w)}
    return dashed(signed), {w for w in dashed(bound) if not MADE.match(w)}


def types(code):
    """Names whose signature ends in Type, and records and data."""
    got = set()
    for m in re.finditer(r"\b(?:data|record)\s+(?:pub\s+)?(" + TOKEN + r")", code):
        got.add(m.group(1))
    for m in re.finditer(r"(?m)^\s*(?:unfoldable\s+|abbrev\s+|pub\s+)*(" + TOKEN + r")\s*:\s([^\n]*)$", code):
        if re.search(r"Type\s*(?:\d|\{\d\})?\s*$", m.group(2).strip()):
            got.add(m.group(1))
    return got


def respelled(name, is_type):
    if name[0].isupper() and is_type:
        return "".join(w[:1].upper() + w[1:] for w in re.split(r"[-_]", name))
    return name.replace("-", "_")


def main():
    texts = {p: open(p, encoding="utf-8").read() for p in files(".")}
    codes = {p: code_of(t, p) for p, t in texts.items()}
    library = set().union(*(imported(c) for c in codes.values()))
    own, kinds = set(), set()
    for p, c in codes.items():
        if p.endswith(".antt"):
            own |= set().union(*defined(c, p))
            kinds |= types(c)
    own -= library
    new = {w: OTHERWISE.get(w) or respelled(w, w in kinds) for w in own}
    # a definition that would have the name of a function of src/ ends in _lem, in the files that define or import it
    functions = {f for p, c in codes.items() if p.endswith(".rt") for f in re.findall(r"\bfn (\w+)", c)}
    lem = {w for w in new if new[w] in functions}

    def named(w, code, before):
        if w in lem and not before.endswith(".") and re.search(r"(?m)^(?:abbrev |pub |unfoldable )*" + re.escape(w) + r"\s*:|\buse [^\n]*\{[^}\n]*(?<![\w-])" + re.escape(w) + r"(?![\w-])", code):
            return new[w] + "_lem"
        return new.get(w, w)

    every = {w for c in codes.values() for w in WORD.findall(c)}
    clash = sorted(w for w in new if new[w] in every and w not in lem and new[w] not in STANDS) + sorted(w for w in new for v in new if v < w and new[v] == new[w])
    for w in clash:
        print(f"clash: {w} would become {new[w]}, which stands already", file=sys.stderr)
    if "--list" in sys.argv:
        for w in sorted(new):
            print(w, new[w])
        left = sorted(w for w in every if "-" in w and re.match(r"[A-Za-z]", w) and w not in new)
        print("LEFT", *left, sep="\n")
        return 1 if clash else 0
    if clash:
        return 1
    for p, t in texts.items():
        made = "".join(WORD.sub(lambda m: named(m.group(), codes[p], s[: m.start()]), s) if is_code else s for is_code, s in parts(t, p))
        if made != t:
            with open(p, "w", encoding="utf-8") as f:
                f.write(made)
    print(f"respelled {len(new)} names")
    return 0


if __name__ == "__main__":
    raise SystemExit(main())
