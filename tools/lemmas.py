#!/usr/bin/env python3
"""Compares the statements of the lemmas in proofs/ of two checkouts, crate by crate and name by name.

    python3 tools/lemmas.py OLD_FOLDER NEW_FOLDER [--names]

A statement is a signature `name : type` of a file right below proofs/, with the parameters of the modules that it
stands in; the files of single functions, in folders below proofs/, are left out.
"""
import collections
import glob
import os
import re
import sys


def statements(folder):
    found = collections.defaultdict(list)
    for path in sorted(glob.glob(os.path.join(folder, 'crates', '*', 'proofs', '*.antt'))):
        crate = path.split(os.sep + 'crates' + os.sep)[1].split(os.sep)[0]
        modules = []
        lines = open(path, encoding='utf-8').read().split('\n')
        i = 0
        while i < len(lines):
            line = lines[i]
            indent = len(line) - len(line.lstrip())
            if line.strip():
                modules = [(depth, text) for depth, text in modules if depth < indent]
            module = re.match(r' *module _ (.*) where$', line)
            lemma = re.match(r' *(?:(?:abbrev|unfoldable) )?(?:pub )?([^\s:()]+) : (.*)$', line)
            if module:
                modules.append((indent, module.group(1)))
            elif lemma and not line.lstrip().startswith(('--', 'let', 'use', 'record', 'in ')):
                parts = [lemma.group(2)]
                while i + 1 < len(lines) and re.match(r' +(→|×) ', lines[i + 1]):
                    i += 1
                    parts.append(lines[i].strip())
                text = ' '.join([text for _, text in modules] + [':'] + parts)
                found[(crate, lemma.group(1))].append(re.sub(r'\s+', ' ', text))
            i += 1
    return found


def main():
    old, new = statements(sys.argv[1]), statements(sys.argv[2])
    same = [key for key in old if key in new and sorted(old[key]) == sorted(new[key])]
    changed = [key for key in old if key in new and sorted(old[key]) != sorted(new[key])]
    gone = [key for key in old if key not in new]
    added = [key for key in new if key not in old]
    print(f'lemmas {len(old)} -> {len(new)}: the same {len(same)}, changed {len(changed)}, gone {len(gone)}, new {len(added)}')
    for key in changed:
        print(f'changed: {key[0]} {key[1]}')
        if '--names' not in sys.argv:
            for text in old[key]:
                if text not in new[key]:
                    print('    - ' + text)
            for text in new[key]:
                if text not in old[key]:
                    print('    + ' + text)
    for key in gone:
        print(f'gone: {key[0]} {key[1]}')
    for key in added:
        print(f'new: {key[0]} {key[1]}')


main()
