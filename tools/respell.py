#!/usr/bin/env python3
"""Spells the repository's own names as Rattle does: definitions, lemmas, fields and constructors in snake case.

usage: python3 tools/respell.py    at the top of the repository, once, after the kit's port.py

Only names that a file of specs/ or a lemma file of proofs/ declares are respelled: in .antt files, in the clauses and imports of .rt files,
and between backticks in comments. Names that start with a capital, names of functions in src/ and names of the library stay. A lemma that
would then have the name of a definition ends in _lem.
"""

import glob
import os
import re

PLACE = re.compile(r"(?<![\w'◌·#«-])([A-Za-zΣμ][\w'₀-₉-]*)(?![\w'◌·»₀-₉-])")
DECLARED = re.compile(r"^\s*(?:(?:abbrev|unfoldable|pattern|pub)\s+)*([A-Za-zΣμ][\w'₀-₉-]*)(?:\s+[a-zΣμ][\w'₀-₉-]*)*\s+:\s")
BOUND = re.compile(r"[({]([\w'₀-₉ -]+) : ")
ALIAS = re.compile(r" as ([A-Za-z][\w'-]*)(?=[,}])")
NEEDS = re.compile(r"[a-zA-Z0-9]-[A-Za-z0-9]|[a-z0-9][A-Z]|^get_d_")
# a name with a dash before a symbol, as of a lemma on an operator
SYMBOL = re.compile(r"(?<![\w'◌·#«-])([a-z]+[A-Z]\w*)(?=-[^\w\s'])")


def snake(name):
    if name.startswith("Σ-"):
        return "Σ-" + snake(name[2:])
    name = name.replace("getD", "get_or").replace("get_d", "get_or").replace("-", "_")
    name = re.sub(r"([A-Z]+)([A-Z][a-z])", r"\1_\2", name)
    name = re.sub(r"([a-z0-9])([A-Z])", r"\1_\2", name)
    # a single capital is a letter of the office's document and stays; words are in lower case
    return "_".join(p if re.fullmatch(r"[A-Z]['₀-₉]*", p) else p.lower() for p in name.split("_"))


def files():
    return sorted(p for p in glob.glob("crates/*/**/*", recursive=True) if p.endswith((".antt", ".rt")) and "/out/" not in p)


def lemma_file(path):
    return re.fullmatch(r"crates/\w+/(specs|proofs)/\w+\.antt", path)


def declared(text):
    """The names that a file declares."""
    found = set()
    for line in text.split("\n"):
        if not line.lstrip().startswith("--") and DECLARED.match(line):
            found |= set(line.split(" : ")[0].split()) - {"abbrev", "unfoldable", "pattern", "pub"}
    return found


def bound(text):
    """The names that a file binds, or takes under another name."""
    lines = [line for line in text.split("\n") if not line.lstrip().startswith("--")]
    return {n for line in lines for names in BOUND.findall(line) for n in names.split()} | {n for line in lines for n in ALIAS.findall(line)}


def tables(texts):
    """What each name becomes, and the lemmas that make way for a definition."""
    names, specs, lemmas = set(), set(), set()
    for path, text in texts.items():
        if lemma_file(path):
            names |= {n for n in declared(text) | bound(text) if NEEDS.search(n) and not re.match(r"[A-Z][a-z]", n)}
            (specs if "/specs/" in path else lemmas).update(declared(text))
        elif path.endswith(".rt"):
            names |= {n for n in ALIAS.findall(text) if NEEDS.search(n) and not re.match(r"[A-Z][a-z]", n)}
    table, taken = {n: snake(n) for n in sorted(names)}, {}
    for old, new in table.items():
        taken.setdefault(new, []).append(old)
    behind = set()
    for new, olds in sorted(taken.items()):
        if len(olds) > 1 or new in specs:
            table |= {n: new + "_lem" for n in olds if "-" in n}
            print(f"fall together: {' '.join(olds)} -> {', '.join(table[n] for n in olds)}")
        if new in lemmas and new not in specs and any("-" not in n for n in olds):
            behind.add(new)
            print(f"fall together: {' '.join(olds)} -> {new}, and the lemma {new} -> {new}_lem")
    return table, behind


def of_the_library(text):
    """The names that a file takes from the library."""
    own = "|".join(sorted(os.listdir("crates")))
    lines = [line for line in text.split("\n") if re.match(r"(?:pub )?use (?!Rattle\.(?:" + own + r")\.)", line)]
    return {n.split(" as ")[-1].strip() for line in lines for names in re.findall(r"\{(.*)\}", line) for n in names.split(",")}


def turned(path, text, table, behind):
    # in the proof of a function, a name with a dash that the file declares is that of a goal
    own = of_the_library(text) | (set() if lemma_file(path) else {n for n in declared(text) if "-" in n})
    lines = []
    for line in text.split("\n"):
        definitions = re.match(r"\s*(?:ghost )?(?:pub )?use .*\.specs\.", line)

        def turn(it):
            word = it.group(1)
            if word in own:
                return word
            if word in behind and path.endswith(".antt") and not definitions and it.string[it.start() - 1 : it.start()] != ".":
                return word + "_lem" if it.string[it.end() : it.end() + 1] != "." else word
            return table.get(word, word)

        code, mark, comment = line.partition("-- " if path.endswith(".antt") else "// ")
        code = SYMBOL.sub(lambda it: snake(it.group(1)), code)
        lines.append(PLACE.sub(turn, code) + mark + re.sub(r"`[^`]*`", lambda it: PLACE.sub(turn, it.group(0)), comment))
    return "\n".join(lines)


def main():
    texts = {p: open(p, encoding="utf-8").read() for p in files()}
    table, behind = tables(texts)
    for path, text in texts.items():
        new = turned(path, text, table, behind)
        if new != text:
            open(path, "w", encoding="utf-8").write(new)
    print(f"{len(table)} names respelled")


if __name__ == "__main__":
    main()
