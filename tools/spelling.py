"""Respells this repository's definitions, lemmas and fields as today's Rattle spells its own.

Usage: spelling.py [--list]

Types are in camel case and all else in snake case. A dash stays where it stands beside an operator, and where it
joins the names of two definitions. Names of the kit, of functions in src/, of crates and of files stay as they are.
Every name is respelled alike wherever it stands: in specs/, proofs/, must-fail/ and the clauses of src/, and as code
in README.md and docs/. With --list nothing is written, and the names are printed.
"""

import collections
import pathlib
import re
import sys

TOP = pathlib.Path(__file__).resolve().parent.parent
DECLARED = re.compile(r"^ *(?:(?:abbrev|unfoldable|pub|data|record|mutual) +)*([^\s:(){},;]+) (?:[({].*)?:(?!:)", re.M)
# what a proof answers is named by Rattle
ANSWER = re.compile(r"^ *(?:(?:abbrev|unfoldable|pub) +)*([^\s:(){},;]+) : (?:\([^)]*\) → )?(?:goal|tie)\.(?:Need-)?([^\s]+)", re.M)
DEFINED = re.compile(r"^(?:abbrev |unfoldable |pub |data |record )*([^\s:(){},;]+) (?:[({].*)?:(?!:)", re.M)
FIELD = re.compile(r"^ +pub ([^\s:(){},;]+) :", re.M)
IMPORTED = re.compile(r"use ([\w.\[\]ω]+)\.\{([^}]*)\}")
TOKEN = re.compile(r"[^\s(){}\[\];,.:`\"→×λ]+")
WORD = re.compile(r"^[A-Za-z0-9₀₁₂ω𝟘φρℤ']+$")
# Lemmas that an earlier script respelled as the function that they are about is now.
LEMMAS = ("all_small", "entry_length", "remainder_of", "joined_in", "same_set", "too_long")
# Symbols of the scheme keep their capital.
SYMBOLS = ("N", "F2", "Fq")


def texts(*patterns):
    for pattern in patterns:
        for path in sorted(TOP.glob(pattern)):
            if "out" not in path.relative_to(TOP).parts:
                yield path, path.read_text(encoding="utf-8")


def own_names():
    declared, functions, kit, answers = collections.Counter(), set(), set(), set()
    for path, text in texts("crates/*/specs/**/*.antt", "crates/*/proofs/**/*.antt"):
        answers |= {name for name, goal in ANSWER.findall(text) if re.sub("^need-", "", name) == goal}
        for name in DECLARED.findall(text):
            declared[name] += 1
        if "specs" in path.parts:
            functions |= set(DEFINED.findall(text))
        for module, names in IMPORTED.findall(text):
            if not module.startswith("Rattle.") or module.startswith("Rattle.std."):
                kit |= {name.strip().split(" as ")[0] for name in names.split(",")}
    for _, text in texts("crates/*/src/**/*.rt"):
        for module, names in IMPORTED.findall(text):
            if module.startswith("Rattle.std."):
                kit |= {name.strip() for name in names.split(",")}
    return declared, functions, kit | answers


def snake(word):
    word = re.sub(r"(?<=[a-z0-9])([A-Z])", lambda m: "_" + m.group(1).lower(), word)
    return re.sub(r"(?<=[a-z])(ℤ)", r"_\1", word)


def camel(word):
    return word[:1].upper() + word[1:]


def respelled(name, functions):
    if name.startswith("◌") or name.startswith("+multiply"):
        return name
    parts = name.split("-")
    if name[0].isupper() and not any(name.startswith(symbol + "-") and name[len(symbol) + 1].islower() for symbol in SYMBOLS):
        return "".join(camel(part) for part in parts)
    if name[0].isupper():
        return "_".join(parts)
    if len(parts) == 1:
        return snake(name)
    if not all(WORD.match(part) for part in parts):
        # beside an operator: a dash joins it to a name that has a law of its own, and a plain word goes with `_`
        joined = parts[0]
        for before, part in zip(parts, parts[1:]):
            plain = WORD.match(part) and not part == "zero" and not part == "one"
            joined += ("_" if plain and before else "-") + part
        return joined
    if name.endswith("-spec"):
        return "_".join(parts)
    for cut in range(1, len(parts)):
        left, right = "-".join(parts[:cut]), "-".join(parts[cut:])
        if left in functions and right in functions:
            return "_".join(map(snake, parts[:cut])) + "-" + "_".join(map(snake, parts[cut:]))
    return "_".join(map(snake, parts))


def spelling():
    declared, functions, kit = own_names()
    table = {}
    for name in declared:
        if name not in kit:
            new = respelled(name, functions)
            if new != name:
                table[name] = new
    # a lemma that would have the name of its function ends in `_lem`
    taken = collections.Counter(table.get(name, name) for name in declared)
    for name, new in sorted(table.items()):
        if (taken[new] > 1 or new in kit) and "-" in name:
            table[name] = new + "_lem"
    return table


def fields():
    return {name for _, text in texts("crates/*/specs/**/*.antt", "crates/*/proofs/**/*.antt") for name in FIELD.findall(text)}


def lemmas_of(text):
    """Which of LEMMAS this file declares or imports from a file of lemmas."""
    imported = {name.strip() for module, names in IMPORTED.findall(text) if ".proofs." in module for name in names.split(",")}
    return {name: name + "_lem" for name in LEMMAS if name in imported or name in DECLARED.findall(text)}


def apply(table, lemmas, projected, text):
    def one(match):
        token = match.group(0)
        # what stands behind a dot is a field, or a name that Rattle made
        if text[match.start() - 1] == "." and text[match.start() - 2] not in " \n" and token not in projected:
            return token
        return lemmas.get(token, table.get(token, token))

    return TOKEN.sub(one, text)


def main():
    table = spelling()
    if "--list" in sys.argv:
        for name in sorted(table):
            print(name, table[name], sep="\t")
        return
    projected = fields()
    for path, text in list(texts("crates/*/specs/**/*.antt", "crates/*/proofs/**/*.antt", "crates/*/src/**/*.rt", "crates/*/must-fail/*.edit")):
        new = apply(table, lemmas_of(text) if path.suffix == ".antt" else {}, projected, text)
        if new != text:
            path.write_text(new, encoding="utf-8")
    for path, text in texts("README.md", "docs/*.md"):
        new = re.sub(r"`[^`\n]+`", lambda quoted: apply(table, {}, projected, quoted.group(0)), text)
        if new != text:
            path.write_text(new, encoding="utf-8")


if __name__ == "__main__":
    main()
