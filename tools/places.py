#!/usr/bin/env python3
"""Lists the places of src/ that docs/DESIGN-PASS.md counts, a section for each count; the last lines have the counts alone.

    tools/places.py [TREE]     TREE: a checkout (default: this one)
"""
import collections
import os
import re
import sys

tree = sys.argv[1] if len(sys.argv) > 1 else os.path.join(os.path.dirname(__file__), '..')
os.chdir(tree)
counts = []


def files(folder, ending):
    found = []
    for top, _, names in os.walk('crates'):
        if f'/{folder}' in top and '/out/' not in top:
            found += [os.path.join(top, name) for name in names if name.endswith(ending)]
    return sorted(found)


def section(name, places):
    print('==', name)
    for place in places:
        print(place)
    counts.append((name, len(places)))


sources = {path: open(path, encoding='utf-8').read().split('\n') for path in files('src', '.rt')}


def lines_with(pattern):
    return [f'{path}:{i + 1}: {line.strip()}' for path, text in sources.items()
            for i, line in enumerate(text) if re.search(pattern, line) and not line.strip().startswith('//')]


class Function:
    """A function of src/: its parameters, its clauses and its body, as text."""

    def __init__(self, path, line, name, head, body):
        self.place = f'{path}:{line}: {name}'
        clauses = re.split(r'\n\s*(?=(?:requires|ensures)\b)', '\n' + head)
        signature = ' '.join(clauses[0].split())
        self.clauses = [' '.join(clause.split()) for clause in clauses[1:]]
        inner = signature[signature.index('(') + 1:]
        self.params = re.findall(r'(?:mut )?\b([a-z_0-9]+): ', inner.split(') ->')[0]) + re.findall(r'&?(?:mut )?\bself\b', inner)
        self.body = body

    def shape(self):
        return ' '.join(re.sub(r'[A-Za-z_0-9]+', 'x', self.body).split())


def functions():
    start = re.compile(r'^(\s*)(?:pub(?:\(crate\))? )?(?:extern "C" )?(?:const )?fn (\w+)')
    for path, text in sources.items():
        i = 0
        while i < len(text):
            found = start.match(text[i])
            if not found:
                i += 1
                continue
            first, indent = i, found.group(1)
            while not (text[i].strip() == '{' or text[i].endswith(' {') or text[i].endswith('}') and ' { ' in text[i]
                       and 'ensures' not in text[i] and 'requires' not in text[i] or text[i].endswith(';')):
                i += 1
            head = '\n'.join(text[first:i + 1])
            last = i
            if text[i].endswith('{'):
                while text[last] != indent + '}':
                    last += 1
            body = '\n'.join(line for line in text[i + 1:last] if not line.strip().startswith('//'))
            yield Function(path, first + 1, found.group(2), head, body)
            i = last + 1


def enums_that_hold():
    found = []
    for path, text in sources.items():
        name = None
        for i, line in enumerate(text):
            if re.match(r'\s*(pub(\(crate\))? )?enum ', line):
                name, held = f'{path}:{i + 1}: {line.strip(" {")}', False
            elif name and re.match(r'\s+[A-Z][A-Za-z]*\(', line):
                held = True
            elif name and line.strip() == '}':
                found += [name] if held else []
                name = None
    return found


every = list(functions())
section('1 enums that hold a value', enums_that_hold())
section('1 refusals by a number', lines_with(r'Refused\(|refusal\) -> u8|0 < refusal'))
section('1 kinds by a number', lines_with(
    r'_KIND: u8|^pub\(crate\) const [A-Z_]+: (usize|u32) = (\d|65536|131072);|\b(kind|row|place|column|grade): (u8|u32|usize)\b'))
twins = collections.defaultdict(list)
for f in every:
    if f.body.count('\n') >= 2:
        twins[f.shape()].append(f.place)
section('2 functions of one shape', [place for group in twins.values() if len(group) > 1 for place in group])
shapes = collections.defaultdict(list)
for path, text in sources.items():
    for found in re.finditer(r'^pub(?:\(crate\))? struct (\w+) \{\n(.*?)^\}', '\n'.join(text), re.M | re.S):
        fields = re.findall(r'^\s*(?:pub(?:\(crate\))? )?(\w+):', found.group(2), re.M)
        shapes[tuple(fields)].append(f'{path}: {found.group(1)}')
section('2 types of one shape', [place for group in shapes.values() if len(group) > 1 for place in group])
section('3 loops by hand', lines_with(r'^\s*while '))
by_hand = r': (wide|same_\w+|is_block|larger|added|longer|one_more|is_digit|is_mark|digits_of|digits|say_\w+|flag_of|put_(pair|digits|decimal))$'
section('4 done by hand', [f.place for f in every if re.search(by_hand, f.place)])
section('5 eight parameters or more', [f'{f.place} {len(f.params)}' for f in every if len(f.params) >= 8])
clauses = collections.Counter(clause for f in every for clause in f.clauses)
section('5 a clause of three or more', [f'{n} {clause}' for clause, n in sorted(clauses.items()) if n >= 3])
rows = {'even', 'odd', 'proposed', 'priorities', 'lengths'}
section('6 arrays beside one another', [f.place for f in every if len(rows & set(f.params)) >= 2])
section('6 a buffer and a length', lines_with(r'space\[\.\.length\]|: \[\w+; 128\],'))
section('7 a switch', lines_with(r'\b(prints|second|by_number): bool|match (word|mark|row|letter) \{'))
section('8 files of answers', files('proofs', 'Answers.antt'))
print()
for name, n in counts:
    print(f'{name:<28} {n}')
