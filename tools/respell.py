#!/usr/bin/env python3
"""Respells this repository's own definitions and lemmas: words in snake case, types in camel case.

usage: python3 tools/respell.py           turns crates/, docs/ and README.md by the table tools/respelled.txt. Run it once, behind port.py:
                                          a second run would turn all_digits and same_bool again
       python3 tools/respell.py table DIR..  prints the table for the trees DIR..

Only names that specs/ and proofs/ declare are turned. Functions of src/, strings, inputs and outputs keep their names,
and so do the goals, invariants and measures that proofs answer. A dash stays where it joins two names of functions,
and a lemma that would have its function's name gets _lem.
"""

import collections
import os
import re
import sys

HERE = os.path.dirname(os.path.realpath(__file__))
TOKEN = re.compile(r"(?<![\w'\-])[A-Za-z_][\w'*+\-]*")
LETTER = re.compile(r"[a-z0-9'][A-Z]")
FIELDS = set()
# names given at imports, and fields that have no dash
ALIASES = dict(w.split() for w in """
theUnit the_unit
theUnits the_units
theSaving the_saving
theStage the_stage
theOpening the_opening
lineItems line_items
deliveredOf delivered_of
nearestTo nearest_to
numeralOf numeral_of
dayFor day_for
""".strip().splitlines())
STD = set("length take drop append push map get_or slice_index set reverse sum pad trim zip cond and or not true false some none ok err".split())


def files(root, ends):
    for d, ds, fs in os.walk(os.path.join(root, "crates")):
        ds[:] = sorted(x for x in ds if x != "out")
        for f in sorted(fs):
            if f.endswith(ends):
                yield os.path.join(d, f)


def snake(name):
    return re.sub(r"(?<=[a-z0-9'])([A-Z])", lambda m: "_" + m.group(1).lower(), name)


def camel(name):
    return "".join(p[:1].upper() + p[1:] for p in name.split("-"))


def declared(root):
    own, goals, foreign, functions, fields = collections.defaultdict(set), set(), set(), set(), set()
    for p in files(root, ".antt"):
        text = open(p, encoding="utf-8").read()
        for line in text.splitlines():
            use = re.match(r"\s*(?:pub )?use ([\w.·+\-]+)\.\{(.*)\}", line)
            if use:
                if not os.path.isdir(os.path.join(root, "crates", re.split(r"[.·]", use.group(1) + ".x.x")[1])):
                    foreign.update(w.strip() for w in use.group(2).split(","))
                continue
            if line.lstrip().startswith("--") or line.startswith("use"):
                continue
            m = re.match(r"\s*(?:(?:abbrev|unfoldable|pub|record|data|law|ruleset)\s+)*([A-Za-z_][\w'*+\-]*)(?:\s[^=]*?)?\s:\s(.*)", line + " ")
            if not m or re.match(r"\s*let\b", line):
                continue
            name, kind = m.group(1), m.group(2)
            if kind.startswith(("goal.", "goal·", "need.", "need·")) or re.match(r"(invariant|decreases)-", name):
                goals.add(name)
            else:
                own[name].add(p)
                if line[0].isspace():
                    fields.add(name)
                if "/specs/" in p and not line[0].isspace() and "-" not in name:
                    functions.add(snake(name))
    return own, goals, foreign, functions, fields


def table(roots):
    own, goals, foreign, functions, fields = collections.defaultdict(set), set(), set(), set(STD), set()
    for r in roots:
        o, g, f, k, i = declared(r)
        for n, ps in o.items():
            own[n] |= ps
        fields |= i
        goals |= g
        foreign |= f
        functions |= k
    turned = {}
    names = [n for n in own if n not in goals and n not in foreign]
    # first the words without a dash, then those with one
    for n in sorted(names, key=lambda n: ("-" in n, n)):
        if n[0].isupper():
            new = camel(n) if "-" in n else n
        else:
            parts = snake(n).split("-")
            new = parts[0]
            for i in range(1, len(parts)):
                rest = any("_".join(parts[i:j]) in functions for j in range(i + 1, len(parts) + 1))
                new += ("-" if new in functions and rest else "_") + parts[i]
        if new != n:
            taken = set(own) | foreign | goals | set(turned.values())
            if new in taken:
                # a lemma that would have its function's name gets _lem
                if "-" in n:
                    new = snake(n).replace("-", "_") + "_lem"
                elif new in own and new not in goals | foreign | set(turned.values()) and new + "_lem" not in taken:
                    turned[new] = new + "_lem"
                else:
                    print(f"LEFT: {n}", file=sys.stderr)
                    continue
                print(f"falls together: {n}, as {new}", file=sys.stderr)
            turned[n] = new
    return turned, fields


def turn_words(text, turned):
    def turn(m):
        word = m.group(0)
        # behind a point a word with a dash is a step of the code, where no record of ours has such a field
        if "-" in word and m.start() and text[m.start() - 1] == "." and word not in FIELDS:
            return word
        return turned.get(word, word)

    return TOKEN.sub(turn, text)


def turn_antt(text, turned):
    lone = {k: v for k, v in turned.items() if "-" not in k and LETTER.search(k)}
    out = []
    for line in text.splitlines(keepends=True):
        code, dash, note = line.partition("--") if re.search(r"(^|\s)--(\s|$)", line) else (line, "", "")
        out.append(turn_words(code, turned) + dash + turn_words(note, lone))
    return "".join(out)


def turn_rt(text, turned):
    lone = {k: v for k, v in turned.items() if "-" not in k and LETTER.search(k)}
    out = []
    for line in text.splitlines(keepends=True):
        if line.lstrip().startswith("//"):
            out.append(turn_words(line, lone))
            continue
        # strings and signs keep their text
        parts = re.split(r'("(?:[^"\\]|\\.)*")', line)
        for i in range(0, len(parts), 2):
            ghostly = re.search(r"[≡≢λ→×⊎∷]|ghost|requires|ensures|invariant", line)
            parts[i] = turn_words(parts[i], turned if ghostly else lone)
        out.append("".join(parts))
    return "".join(out)


def turn_page(text, turned):
    lone = {k: v for k, v in turned.items() if "-" in k or LETTER.search(k)}
    # port.py turned some names of the definitions before, and no page: those have a hump in the middle
    return re.sub(r"`[^`\n]+`", lambda m: TOKEN.sub(lambda w: snake(w.group(0)) if w.group(0)[0].islower() else w.group(0), turn_words(m.group(0), lone)), text)


def own_name(text):
    """std's relation over all elements goes by its own name, and the comments say a .B message again."""
    if "AllByRecursion as All" in text:
        text = text.replace("AllByRecursion as All", "AllByRecursion")
        text = "".join(l if re.match(r"\s*(ghost )?use |\s*(--|//)", l) else re.sub(r"(?<![\w'\-.])All(?![\w'\-])", "AllByRecursion", l) for l in text.splitlines(keepends=True))
    return re.sub(r"\b(an?)\.([ABE]) ", r"\1 .\2 ", text)


def rewrite(path, turn, turned):
    old = open(path, encoding="utf-8").read()
    new = turn(old, turned)
    if path.endswith((".antt", ".rt")):
        new = own_name(TOKEN.sub(lambda m: ALIASES.get(m.group(0), m.group(0)), new))
    if new != old:
        open(path, "w", encoding="utf-8").write(new)
        return 1
    return 0


def main(argv):
    if argv[:1] == ["table"]:
        turned, fields = table(argv[1:])
        for old, new in sorted(turned.items()):
            print(old, new, *(["field"] if old in fields else []))
        return
    turned = {}
    for line in open(os.path.join(HERE, "respelled.txt"), encoding="utf-8"):
        old, new, *field = line.split()
        turned[old] = new
        if field:
            FIELDS.add(old)
    root, n = os.getcwd(), 0
    for p in files(root, ".antt"):
        n += rewrite(p, turn_antt, turned)
    for p in files(root, ".rt"):
        n += rewrite(p, turn_rt, turned)
    for p in files(root, ".edit"):
        n += rewrite(p, turn_rt, turned)
    for d in (root, os.path.join(root, "docs")):
        for f in sorted(os.listdir(d)):
            if f.endswith(".md"):
                n += rewrite(os.path.join(d, f), turn_page, turned)
    print(f"respell: {len(turned)} names, {n} files")


main(sys.argv[1:])
