#!/usr/bin/env python3
"""Spells the definitions and lemmas of this repository as today's Rattle spells names: words in snake case, with a dash behind a
definition's name or beside a fact's.

usage: tools/respell.py [--list]      at the top, once, behind port.py; --list prints what would be turned and changes nothing

A lemma whose name would be that of a definition gets `_lem` behind it; lines that begin 'look:' name them.

It turns the names that files of specs/ and law files of proofs/ declare, wherever they stand in .antt and .rt files and in must-fail edits; types,
modules, the functions of src/, exported names and all other text stay.
"""
import os
import re
import sys

NAME = r"[^][\s(){}.;,@\"«»]+"
DECLARED = re.compile(rf"(?m)^[ \t]*(?:(?:abbrev|unfoldable|pub|let|in) )*({NAME})(?: \{{[^{{}}\n]*\}})* :(?=\s)")
FUNCTION = re.compile(rf"(?m)^[ \t]*(?:abbrev|unfoldable) (?:pub )?({NAME})(?: \{{[^{{}}\n]*\}})* :(?=\s)")
FIELD = re.compile(rf"(?m)^[ \t]+pub ({NAME}) :(?=\s)")
CAMEL = re.compile(r"(?<=[a-z0-9])(?=[A-Z])")
# names of the library that a lemma's name may begin or end with
LIBRARY = set("length take drop map append replicate set filter reverse get_or sum all any min max cond paste slice not and or add sub mul".split())


def files(root, ends):
    for folder, dirs, names in os.walk(os.path.join(root, "crates")):
        dirs[:] = sorted(d for d in dirs if d not in ("out", ".git"))
        for n in sorted(names):
            if n.endswith(ends):
                yield os.path.join(folder, n)


def read(path):
    with open(path, encoding="utf-8") as f:
        return f.read()


def is_law(path):
    parts = path.split(os.sep)
    at = parts.index("crates")
    return path.endswith(".antt") and (parts[at + 2] == "specs" or (parts[at + 2] == "proofs" and len(parts) == at + 4))


def snake(word):
    if not word[:1].islower():
        return word
    return "_".join(w.lower() for w in CAMEL.split(word))


def turned(name, definitions):
    if not re.match(r"[a-z]", name) or re.search(r"[%◌]", name):
        return name
    parts = [snake(p) for p in name.split("-")]
    out = parts[0]
    for before, after in zip(parts, parts[1:]):
        joins = before in definitions or out in definitions or not before[:1].islower() or not after[:1].islower()
        out += ("-" if joins else "_") + after
    return out


def main(argv):
    root = os.getcwd()
    texts = {p: read(p) for p in files(root, (".antt", ".rt", ".edit"))}
    declared, functions = set(), set()
    for path, text in texts.items():
        if is_law(path):
            declared.update(DECLARED.findall(text))
            functions.update(FUNCTION.findall(text) if f"{os.sep}specs{os.sep}" in path else [])
            declared.update(FIELD.findall(text))
    # declarations that stand together, as in `pub a : ..` within modules, are found by their line; a name with no upper case and no dash stays
    definitions = {snake(d) for d in functions if "-" not in d} | LIBRARY
    table = {d: turned(d, definitions) for d in declared}
    # names that a function's proof or a `where` declares in camel case go with them
    for text in texts.values():
        for word in re.findall(rf"(?<![^][\s(){{}};,.@«»]){NAME}", text):
            if word not in table and re.fullmatch(r"[a-z][a-z0-9]*(?:[A-Z][A-Za-z0-9]*)+['′₀-₉]*", word):
                table[word] = turned(word, definitions)
    crates = os.listdir(os.path.join(root, "crates"))
    library = set()
    for text in texts.values():
        for path, items in re.findall(r"(?m)^(?:ghost )?use ([^\s{;]+)\.\{([^}]*)\}", text):
            if not re.match(rf"Rattle\.(?:{'|'.join(crates)})\.", path):
                library.update(items.replace(",", " ").split())
    for o in sorted(set(table) & library):
        if table[o] != o:
            print(f"look: {o} is a name of the library too, and stays")
    table = {o: n for o, n in table.items() if o != n and o not in library}
    heads = rf"(?<![^\s(){{}}\[\];,@«»]){NAME}"
    code = [set(re.findall(heads, re.sub(r"(?m)--.*$", "", text))) for path, text in texts.items() if path.endswith(".antt")]
    camel = {n for o, n in table.items() if "-" not in o}
    for o, n in sorted(table.items()):
        meets = n in camel or any(o in words and n in words for words in code)
        meets = meets or any(m == n for other, m in table.items() if other != o)
        if "-" in o and meets:
            table[o] = n + "_lem"
            print(f"look: {o} would be {n}, which is there, and is {table[o]}")
    table.update(GIVEN)
    if "--list" in argv:
        for o, n in sorted(table.items()):
            print(f"{o}\t{n}")
        return 0
    word = re.compile(NAME)
    for path, text in texts.items():
        own = {**table, **next((v for k, v in IN_FILE.items() if path.endswith(os.path.join("crates", k))), {})}
        new = word.sub(lambda m: own.get(m[0], m[0]), text)
        if new != text:
            with open(path, "w", encoding="utf-8") as f:
                f.write(new)
    return 0


# names given by hand: two facts, which are types, and lemmas that would have a definition's name
GIVEN = {
    "wellFormed": "WellFormed",
    "fillable": "Fillable",
    "delete-form": "delete_form_lem",
    "flag-byte": "flag_byte_lem",
    "kind-byte": "kind_byte_lem",
    "kind-form": "kind_form_lem",
    "sequence-of": "sequence_of_lem",
}
# the same, of lemmas that port.py turned already: each with the file that declares it
IN_FILE = {
    "edit/proofs/Theorems.antt": {"answer_back": "answer_back_lem"},
    "reader/proofs/Decodes.antt": {"from_start": "from_start_lem"},
    "reader/proofs/Theorems.antt": {"read_back": "read_back_lem"},
    "place/proofs/ByHeads.antt": {"seen_as": "seen_as_lem"},
    "shift/proofs/Theorems.antt": {"shifted_back": "shifted_back_lem"},
    "utf8/proofs/Settled.antt": {"step_back": "step_back_lem"},
    "writer/proofs/Theorems.antt": {"written_back": "written_back_lem"},
    "apply/proofs/Theorems.antt": {"answer_back": "answer_back_lem"},
    "joins/proofs/SplitLocal.antt": {"last_row": "last_row_lem"},
    "marking/proofs/Orders.antt": {"in_order": "in_order_lem"},
    "recording/proofs/Cutting.antt": {"cut_by": "cut_by_lem"},
    "recording/proofs/Walks.antt": {"cut_by": "cut_by_lem"},
    "step/proofs/EditLeaves.antt": {"in_order": "in_order_lem"},
    "steps/proofs/Laws.antt": {"from_row": "from_row_lem"},
}

if __name__ == "__main__":
    raise SystemExit(main(sys.argv[1:]))
