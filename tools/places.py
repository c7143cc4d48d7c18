#!/usr/bin/env python3
"""Lists the places of docs/DESIGN-PASS.md in the sources of a checkout, point by point.

    python3 tools/places.py [FOLDER] [--count]

FOLDER is the checkout (this one, if none is given). Files of tests (tests.rt) are left out, and comments.
A place is a line, or a function or a pair of parameters where the point speaks of these.
"""
import collections
import glob
import os
import re
import sys

BY_LINE = {
    '1a a Result or Option is taken apart by hand to hand on, exchange or drop its error': (
        r'Ok\(\(\)\) => (\{\}|Ok\(\(\)\))|Ok\((\w+)\) => (Ok\(\2\)|\2,)|Err\(\w+\) => (return )?(Err|Answer)'
        r'|None => (return )?(Err|None)|_ => return Err\(|let Ok\(.*\) = .* else \{|= \S*kind\(.*\) else \{'),
    '1b an enum with a refusal beside its answers, a flag or a mark beside a value': (
        r'^ +Refused\(|^ +(pub(\(crate\))? )?\w+: (bool|Mark),'),
    '1c a number for a kind, or for none': r'kind: u8,|kind: [0-9]|node!\(raw [0-9]|^ *_ => 0,|enter\((&mut \w+, )?[01],',
    '3a loops that count or walk by hand': r'^ *while (?!let)',
    '3b loops over numbers, and items with their numbers': r'^ *for (\w+|_|\(\w+, \w+\)) in .*(\.\.|enumerate)',
    '3c a loop or a test that is a method of the library': r'if a < b \{|if !\w+\.graded|if place < \w+\.len\(\)|if points < 1|count == 0 \|\||units == 0 \{|if l >= counted',
    '4a equality, conversion and order by hand': (
        r'fn (same_\w+|agree|is_like|type_of|first_value|declared_type|from_number|number|number_bytes|number_in|encode|decode|holding'
        r'|of|refusal|refuse|refused|into_fault|larger|smaller|truth_of|whole_of)\('),
    '4b answers printed by hand': r'println!.*(fault\.|dead|: kind|graded\.|\{shift\}|\{truth\})',
    '6a an array or a lent slice with a number beside it that says how much of it is used': (
        r'^ +(pub(\(crate\))? )?(laid|top|depth|height|from|count|left|end): (usize|u16|u32),'),
    '6b links by numbers': r'^ +(pub(\(crate\))? )?(next|head|position|location|seen): (usize|u16),',
    '7 a match on which step to run': r'match (self\.phase|\(frame\.state, kind\)|kind|operator|call|part\.kind\(\)|view\(part\)) \{',
}


def sources(folder):
    for path in sorted(glob.glob(os.path.join(folder, 'crates', '*', 'src', '*.rt'))):
        if not path.endswith('tests.rt'):
            text = open(path, encoding='utf-8').read()
            yield os.path.relpath(path, os.path.join(folder, 'crates')), text


def functions(text):
    pattern = (r'(?m)^ *(?:pub(?:\(crate\))? )?fn (\w+)(?:<[^(]*>)?\((.*?)\)(?: ->[^\n{]*)?\s*'
               r'(.*?)(?=^ *\{|;$|^ *\}$)')
    for match in re.finditer(pattern, text, re.S):
        yield match.group(1), match.group(2), match.group(3)


def main():
    words = [word for word in sys.argv[1:] if not word.startswith('--')]
    folder = words[0] if words else os.path.join(os.path.dirname(os.path.abspath(__file__)), '..')
    count = '--count' in sys.argv
    for name, pattern in BY_LINE.items():
        places = []
        for path, text in sources(folder):
            for number, line in enumerate(text.split('\n'), 1):
                if not line.strip().startswith('//') and re.search(pattern, line):
                    places.append(f'{path}:{number}: {line.strip()}')
        show(name, places, count)
    required = collections.defaultdict(list)
    together = collections.defaultdict(list)
    for path, text in sources(folder):
        crate = path.split('/')[0]
        for name, parameters, clauses in functions(text):
            names = re.findall(r'(?:^|,)\s*(?:mut )?(\w+):', parameters)
            for i, first in enumerate(names):
                for second in names[i + 1:]:
                    together[(crate, first, second)].append(name)
            for fact in re.findall(r'requires (?:\w+ )?\{ (.*?) \}\n', clauses + '\n'):
                fact = re.sub(r'\b(old|now|new|entry)\b', '_', fact)
                required[(crate, fact)].append(name)
    show('5a a fact required by three or more functions',
         [f'{crate}: {fact}: {", ".join(names)}' for (crate, fact), names in sorted(required.items()) if len(names) > 2], count)
    show('5b a pair of parameters that three or more functions of a crate take',
         [f'{crate}: {a}, {b}: {len(names)}' for (crate, a, b), names in sorted(together.items()) if len(names) > 2], count)


def show(name, places, count):
    print(f'{name}: {len(places)}')
    if not count:
        for place in places:
            print('    ' + place)


main()
