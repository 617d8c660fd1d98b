#!/usr/bin/env python3
"""Counts, in crates/*/src, the places that read like an older Rattle: docs/DESIGN-PASS.md has the counts and what became of each.

    tools/places.py [FOLDER]        the counts, a row for each point
    tools/places.py --list [FOLDER] each place, by point, crate and name

FOLDER is the top of a checkout; without it, this one. It reads text alone: a place that it finds is one to look at, and each that is
left on purpose has its reason in a comment beside it.
"""
import collections
import pathlib
import re
import sys

ENUM = re.compile(r'^(?:pub )?enum (\w+)(?:<[^>]*>)?\s*\{(.*?)^\}', re.M | re.S)
STRUCT = re.compile(r'^(?:pub )?struct (\w+)(?:<[^>]*>)?\s*\{(.*?)^\}', re.M | re.S)
FN = re.compile(r'^( *)(?:pub )?(?:extern "C" )?fn (\w+)[^(]*\((.*?)\)(.*?)^\1\{(.*?)^\1\}', re.M | re.S)


def bare(text):
    return re.sub(r'//[^\n]*', '', text)


def split(text):
    """The parts of a list at its commas, those in brackets left whole."""
    parts, depth, part = [], 0, ''
    for c in text:
        depth += c in '([{<'
        depth -= c in ')]}>'
        if c == ',' and depth == 0:
            parts.append(part)
            part = ''
        else:
            part += c
    return [p.strip() for p in parts + [part] if p.strip()]


def shaped(body):
    """What an enum of the shape of Option or Result is shaped like, else ''."""
    parts = [re.sub(r'^\s*#\[[^\]]*\]\s*', '', p) for p in split(bare(body))]
    if any(re.match(r'Refused\s*\(\s*u8\s*\)', p) for p in parts):
        return 'a refusal by its number'
    if len(parts) == 2 and sum('(' in p or '{' in p for p in parts) == 1:
        return 'Option'
    return ''


def places(top):
    found = collections.defaultdict(list)
    shapes = collections.defaultdict(list)
    travel = collections.defaultdict(list)
    facts = collections.defaultdict(list)
    for file in sorted(pathlib.Path(top).glob('crates/*/src/**/*.rt')):
        crate = file.parts[file.parts.index('crates') + 1]
        text = file.read_text(encoding='utf-8')
        code = bare(text)
        for name, body in ENUM.findall(code):
            if shaped(body):
                found['1 enums of the shape of Option or Result'].append(f'{crate} {name}: {shaped(body)}')
        for name, body in STRUCT.findall(code):
            if re.search(r'\bwent: \w*Went\b', body):
                found['1 flags with a value beside them'].append(f'{crate} {name}')
            if re.search(r'\bbytes: \[', body) and re.search(r'\blen: usize|\bcount: usize', body):
                found['6 buffers with a length beside them'].append(f'{crate} {name}')
        for m in re.finditer(r'\bRefused\((\d+)\)', code):
            found['1 refusals by a number'].append(f'{crate} {m[0]}')
        for m in re.finditer(r'^\s*(?:\'\w+: )?while [^\n]*', code, re.M):
            end = code.find('\n' + re.match(r'\s*', m[0].lstrip('\n'))[0] + '}', m.end())
            step = re.search(r'\b(\w+) (\+|-)= 1;', code[m.end():end])
            kind = '3 loops that count an index by hand' if step and re.search(rf'\b{step[1]}\b', m[0]) else '3 other while loops'
            found[kind].append(f'{crate} {m[0].strip()}')
        for m in re.finditer(r'\(\w+(?:\.\w+)?(?: / 256)* % 256\) as u8', code):
            found['4 bytes of a number by hand'].append(f'{crate} {m[0]}')
        for m in re.finditer(r'as u(?:16|32|64)\) \* (?:256|0x1_0000)\b[^\n]*|256 \* \(', code):
            found['4 a number of bytes by hand'].append(f'{crate} {m[0]}')
        for m in re.finditer(r'fn (least|same|is_mac|of)\(', code):
            found['4 comparison and conversion by hand'].append(f'{crate} {m[1]}')
        for m in re.finditer(r'std::num::wrapping_\w+', code):
            found['4 free functions where a number has a method'].append(f'{crate} {m[0]}')
        for _, name, given, clauses, body in FN.findall(code):
            tokens = re.findall(r'\w+|[^\w\s]', body)
            shape = ' '.join('N' if re.match(r'\d', t) else 'w' if re.match(r'\w', t) and t not in ('if', 'else', 'match', 'let', 'return', 'while', 'for', 'mut') else t for t in tokens)
            if len(tokens) >= 25:
                shapes[shape].append(f'{crate} {name}')
            names = [p for p in (re.sub(r'\s+', ' ', p) for p in split(given)) if ':' in p]
            for a in range(len(names)):
                for b in range(a + 1, len(names)):
                    travel[(names[a], names[b])].append(f'{crate} {name}')
            for fact in re.findall(r'requires[^{]*\{([^}]*)\}', clauses):
                facts[' '.join(fact.split())].append(f'{crate} {name}')
        for m in re.finditer(r'\b(?:fn|dyn Fn|impl Fn)\w*\(\w', code):
            if m[0].startswith('fn('):
                found['7 tables of functions'].append(f'{crate} {m[0]}')
    for shape, names in shapes.items():
        if len(names) > 1:
            found['2 functions of the same shape'].append(', '.join(names))
    for pair, names in travel.items():
        if len(names) > 2:
            found['5 pairs of parameters of three functions or more'].append(f'{pair[0]}, {pair[1]}: {len(names)}')
    for fact, names in facts.items():
        if len(names) > 2:
            found['5 requirements of three functions or more'].append(f'{fact}: {", ".join(names)}')
    for file in sorted(pathlib.Path(top).glob('crates/*/proofs/**/Answers.antt')):
        found['8 files of answers'].append(str(file.relative_to(top)))
    return found


def main():
    words = [w for w in sys.argv[1:] if w != '--list']
    top = words[0] if words else pathlib.Path(__file__).resolve().parent.parent
    found = places(top)
    for point in sorted(found):
        print(f'{len(found[point]):5}  {point}')
        if '--list' in sys.argv:
            for place in found[point]:
                print(f'           {place}')


main()
