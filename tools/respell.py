#!/usr/bin/env python3
"""Brings the definitions and lemmas of specs/ and proofs/ to today's spelling: words in snake case, facts and types in camel case.

usage: python3 tools/respell.py [--names]     at the top of the checkout, once, right after the kit's port.py
--names prints each old name with its new one and writes nothing.

A name is respelled where it is declared in crates/*/specs/*.antt or crates/*/proofs/*.antt, where an import gives it by 'as', or where it is the old
spelling of a label of src/. Names of the library, of Rust items and of generated goals stay. Comments and strings are left alone.
"""

import collections
import glob
import re
import sys

NAME = r"[^\s(){}\[\].,;:λ\"]+"
TOKEN = re.compile(r"(?:calls\.)?[^\s(){}\[\].,;:\"]+")

# where the rule gives no good word, or two names would fall together
CHOSEN = {
    "means-all": "CommandsMean",
    "nth-getD": "nth_get_or",
    "cellBytes": "cell_bytes",
    "withCell": "with_cell",
    "asArg": "as_arg_piece",
    "asCom": "as_com_piece",
    "asDecl": "as_decl_piece",
    "asExpr": "as_expr_piece",
    "asProc": "as_proc_piece",
    "zA": "size_a",
    "zB": "size_b",
    # a function or a label of the same file has the plain word
    "cells-after": "cells_after_call",
    "numberBytes": "bytes_of_number",
    "isBit": "bit_of",
    "shift-at": "shift_in",
    "location-in": "location_bound",
    "first-value": "initial_value",
}

# names that are respelled in these files alone: a definition of which port.py turned only a part, and constructors without a dash
CALLS = {"Lay": "lay", "Open": "open_to", "Grade": "grade", "Keep": "keep", "Undo": "undo", "Show": "show"}
IN_FILES = [
    (r"crates/byte_store/specs/.*", {"bytes_after": "bytes_after_call"}),
    (r"crates/byte_store/src/.*", {"bytes-after": "bytes_after_call"}),
    (r"crates/history/(specs|proofs)/.*", CALLS),
    (r"crates/piece/(specs|proofs)/.*", {"calls." + old: "calls." + new for old, new in CALLS.items()}),
]

# relations in small letters, respelled in the files that take them from the module of meanings
MEANING = {"means": "CommandMeans", "value": "IsValue"}
MEANING_FILE = "crates/language/specs/Meaning.antt"
MEANING_USE = re.compile(r"use Rattle[.·]language[.·]specs(?:\.specs)?\.Meaning\.\{([^}]*)\}")


def without_comments(text, mark):
    return re.sub(re.escape(mark) + r"[^\n]*", "", text)


def camel(name):
    return "".join(w[:1].upper() + w[1:] for w in re.split(r"[-_]", name))


def snake(name):
    words = re.sub(r"(?<=[a-z0-9])(?=[A-Z])", "_", name) if name[:1].islower() else name
    return words.replace("-", "_").lower()


def is_ours(name):
    return "-" in name or (name[:1].islower() and re.search("[A-Z]", name))


SIGNATURE = re.compile(
    r"^(\s*)(?:(?:pub|abbrev|unfoldable)\s+)*(data|record)?\s*(?:pub\s+)?(" + NAME + r")((?:\s*\((?:[^()]|\([^()]*\))*\)|\s*\{[^}]*\})*)\s+:(?:\s+(.*))?$"
)


def declarations(text):
    """Each declared name, and whether it is a type."""
    lines = without_comments(text, "--").split("\n")
    for i, line in enumerate(lines):
        m = SIGNATURE.match(line)
        if not m:
            continue
        type_of, j = m[5] or "", i + 1
        while j < len(lines) and lines[j].strip():
            deep = len(lines[j]) - len(lines[j].lstrip())
            if deep <= len(m[1]) or re.match(r"\s*" + NAME + r"\s+:\s", lines[j]):
                break
            type_of += " " + lines[j].strip()
            j += 1
        yield m[3], bool(m[2] or re.search(r"(Type \d|Effect)\s*(where)?\s*$", type_of.strip()))


def collect():
    types, terms, aliases, taken = set(), set(), set(), set()
    for f in sorted(glob.glob("crates/*/specs/*.antt") + glob.glob("crates/*/proofs/*.antt")):
        text = open(f, encoding="utf-8").read()
        for name, is_type in declarations(text):
            (types if is_type else terms).add(name)
    for f in sources():
        text = without_comments(open(f, encoding="utf-8").read(), "--" if f.endswith(".antt") else "//")
        for m in re.finditer(r"use\s+([\w.·]+)\.\{([^}]*)\}", text):
            ours = re.match(r"Rattle[.·]", m[1]) and not re.match(r"Rattle[.·]std", m[1])
            for it in m[2].split(","):
                words = it.split()
                if len(words) == 3 and words[1] == "as":
                    aliases.add(words[2])
                if words and not ours:
                    taken.add(words[0])
    return types, terms, aliases, taken


def labels():
    out = {}
    for f in glob.glob("crates/*/src/*.rt"):
        for m in re.finditer(r"\b(?:requires|ensures|ghost|invariant)\*?\s+([a-z]\w*)\s*[:{=]", open(f, encoding="utf-8").read()):
            out[m[1].replace("_", "-")] = m[1]
    return out


def sources():
    return sorted(f for f in glob.glob("crates/*/specs/**/*.antt", recursive=True) + glob.glob("crates/*/proofs/**/*.antt", recursive=True) + glob.glob("crates/*/src/*.rt"))


def mapping():
    types, terms, aliases, taken = collect()
    said = labels()
    out = {}
    for name in sorted(types | terms | aliases):
        if name in taken or not is_ours(name) or not re.fullmatch(r"[A-Za-z][\w'-]*", name):
            continue
        if name in CHOSEN:
            out[name] = CHOSEN[name]
        elif name in types and name not in terms:
            out[name] = camel(name)
        elif name[:1].isupper():
            out[name] = camel(name)
        else:
            out[name] = snake(name)
    for old, new in said.items():
        if "-" in old and old not in out and old not in taken:
            out[old] = new
    return out


def respelled(text, mark, names):
    out = []
    for line in text.split("\n"):
        code, sep, rest = line.partition(mark)
        if mark == "//" and '"' in code:
            out.append(line)
            continue
        out.append(TOKEN.sub(lambda m: names.get(m[0], m[0]), code) + sep + rest)
    return "\n".join(out)


def names_of(f, text, names):
    mine = dict(names)
    for files, words in IN_FILES:
        if re.fullmatch(files, f):
            mine.update(words)
    brought = set()
    for m in MEANING_USE.finditer(text):
        brought |= {w.strip() for w in m[1].split(",")}
    for old, new in MEANING.items():
        if f == MEANING_FILE or old in brought:
            mine[old] = new
    return mine


def main():
    names = mapping()
    if "--names" in sys.argv:
        for old, new in sorted(names.items()):
            print(old, new)
        return
    changed = 0
    for f in sources():
        with open(f, encoding="utf-8") as it:
            text = it.read()
        mark = "--" if f.endswith(".antt") else "//"
        mine = names_of(f, text, names)
        before = set(TOKEN.findall(without_comments(text, mark)))
        after = collections.defaultdict(set)
        for t in before:
            after[mine.get(t, t)].add(t)
        for new, olds in sorted(after.items()):
            if len(olds) > 1:
                print(f"look: {f}: {' and '.join(sorted(olds))} fall together as {new}")
        new = respelled(text, mark, mine)
        if new != text:
            with open(f, "w", encoding="utf-8") as it:
                it.write(new)
            changed += 1
    print(f"respell: {len(names)} names, {changed} files")


if __name__ == "__main__":
    main()
