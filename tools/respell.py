#!/usr/bin/env python3
"""Brings the definitions and lemmas of this repository to the spelling of today's Rattle.

Words, fields, constructors and lemmas are in snake case, types and facts in camel case. It is run once, at the top of
the repository, after the kit's own script for older repositories. It turns each of the repository's own names that has
a dash, wherever it stands as a word of its own: in specs/, in proofs/, in the clauses of src/, and between backquotes
in README.md and docs/. A step of a proof that is spelled like such a name is turned with it; that is today's spelling
of the step too, since both are named after the same function. Functions of src/, strings, inputs and outputs keep their
names, and names that the kit's script has turned already are not turned in the documents. With --look it changes
nothing, and prints each old name beside its new one.
"""
import glob
import os
import re
import sys

DECLARED = re.compile(r"^(?:(?:pub|abbrev|unfoldable|data|record)\s+)*([^\s:(){}=,;]+)(?:\s+[({][^:]*:[^=]*)?\s*:\s*(.*)$")
INNER = re.compile(r"^\s+(?:pub\s+)?([A-Za-z][^\s:(){}=,;.]*)\s*:\s")
GOAL = re.compile(r"^(?:abbrev\s+)?(?:pub\s+)?(?:abbrev\s+)?(?:pub\s+)?(\S+)\s*:\s*(?:goal|given|need)\.")


def shared(path):
    """Whether a file holds definitions or lemmas, and not a function's invariants or answers."""
    return os.path.basename(path) not in ("Answers.antt", "Invariants.antt", "Proof.antt", "Lib.antt")


def collected():
    """The repository's own names that have a dash, and whether each is a type."""
    names = {}
    for path in sorted(glob.glob("crates/*/specs/**/*.antt", recursive=True) + glob.glob("crates/*/proofs/**/*.antt", recursive=True)):
        for line in open(path, encoding="utf-8"):
            line = line.rstrip("\n")
            if line.lstrip().startswith(("--", "use ", "mod ", "pub mod ")) or GOAL.match(line):
                continue
            found = DECLARED.match(line) if line[:1] not in (" ", "") else None
            if found:
                name, signature = found.group(1), found.group(2)
            else:
                inner = INNER.match(line)
                if not inner or (not shared(path) and "record {" in line):
                    continue
                name, signature = inner.group(1), ""
            if "-" not in name or name.startswith("-"):
                continue
            is_type = bool(re.search(r"(^|→\s*|\s)Type 0$", signature.strip())) or bool(re.match(r"^(pub )?(data|record) ", line))
            names[name] = names.get(name, False) or is_type
    return names


def respelled(name, is_type):
    """The name in today's spelling."""
    if is_type and name[0].isupper():
        return "".join(part[0].upper() + part[1:] for part in name.split("-"))
    return name.replace("-", "_")


def made_names():
    """Names of the kit's library that are imported somewhere: they stay."""
    kept = set()
    for path in glob.glob("crates/**/*.antt", recursive=True) + glob.glob("crates/**/*.rt", recursive=True):
        for line in open(path, encoding="utf-8"):
            use = re.match(r"^\s*(?:ghost )?use (Rattle\.std|native|mathlib|Prim|lib)\b[^{]*\{(.*)\}", line)
            if use:
                kept.update(part.strip().split(" as ")[0] for part in use.group(2).split(","))
    return kept


def pattern(names):
    inner = "|".join(re.escape(n) for n in sorted(names, key=len, reverse=True))
    return re.compile(r"(?<![\w\-'])(" + inner + r")(?![\w\-'])")


def turn_file(path, names, regex, whole):
    text = open(path, encoding="utf-8").read()
    put = lambda m: names[m.group(1)]
    if whole:
        new = regex.sub(put, text)
    else:
        lines = []
        for line in text.split("\n"):
            ghostly = re.match(r"^\s*(ghost |requires|ensures)", line)
            lines.append(regex.sub(put, line) if ghostly else line)
        new = "\n".join(lines)
    if new != text:
        open(path, "w", encoding="utf-8").write(new)


def turn_page(path, names, regex):
    text = open(path, encoding="utf-8").read()
    new = re.sub(r"`[^`\n]*`", lambda m: regex.sub(lambda k: names[k.group(1)], m.group(0)), text)
    if new != text:
        open(path, "w", encoding="utf-8").write(new)


def main():
    kept = made_names()
    declared = collected()
    names = {n: respelled(n, t) for n, t in declared.items() if n not in kept}
    if "--look" in sys.argv:
        for old in sorted(declared):
            if old in kept:
                print("kept, the library has the name:", old)
        for old, new in sorted(names.items()):
            print(old, "->", new)
        return
    regex = pattern(names)
    for path in sorted(glob.glob("crates/*/specs/**/*.antt", recursive=True) + glob.glob("crates/*/proofs/**/*.antt", recursive=True)):
        turn_file(path, names, regex, True)
    for path in sorted(glob.glob("crates/*/src/**/*.rt", recursive=True)):
        turn_file(path, names, regex, False)
    for path in ["README.md"] + sorted(glob.glob("docs/*.md")):
        turn_page(path, names, regex)


if __name__ == "__main__":
    main()
