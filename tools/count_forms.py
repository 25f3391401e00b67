#!/usr/bin/env python3
"""Counts forms of code that a design pass looks at, in the src/ of all crates of the tree that it is run in (its top).

Prints, in this order: enums with their cases; functions of one name in several places; loops; conversions, equality
and printing by functions of the repository's own; facts that stand in three clauses or more; pairs of parameters that
stand together in three functions or more of a crate; arrays of a fixed size; flags, closures and objects; answers of
proofs. It goes by text, so each list is for reading.
"""
import collections
import glob
import itertools
import re

FILES = sorted(glob.glob('crates/*/src/*.rt'))


def text(name):
    return open(name).read()


def code(name):
    """The file without comments."""
    return re.sub(r'//[^\n]*', '', text(name))


def crate(name):
    return name.split('/')[1]


def heading(title, count):
    print(f'\n== {title}: {count}')


def enums():
    found = [(f, m.group(1), re.findall(r'(?m)^    (\w+)', m.group(2)))
             for f in FILES for m in re.finditer(r'(?m)^(?:pub(?:\(crate\))? )?enum (\w+) \{(.*?)\n?\}', code(f), re.S)]
    heading('enums', len(found))
    for f, name, cases in found:
        print(f'  {f}: {name} {" ".join(cases)}')


def names():
    where = collections.defaultdict(list)
    for f in FILES:
        for m in re.finditer(r'\bfn (\w+)', code(f)):
            where[m.group(1)].append(f)
    twice = {n: fs for n, fs in where.items() if len(fs) > 1}
    heading('function names that stand more than once', len(twice))
    for n, fs in sorted(twice.items()):
        print(f'  {n}: {", ".join(sorted(set(fs)))}')


def loops():
    found = [(f, i, line.strip()) for f in FILES for i, line in enumerate(code(f).split('\n'), 1)
             if re.match(r'\s*(for|while|loop)\b', line)]
    counted = [x for x in found if re.match(r'(while|for \w+ in .*\.\.)', x[2])]
    heading('loops', len(found))
    heading('of these over a range or a while', len(counted))
    for f, i, line in counted:
        print(f'  {f}:{i}: {line}')


def by_hand():
    words = r'\bfn (number|is_zero|is_zeros|is_none|is_heavy|is_light|is_blank|size|spacing|place_of|print_\w+|tell|keeps_limits|clipped|further_of)\b'
    found = [(f, m.group(1)) for f in FILES for m in re.finditer(words, code(f))]
    heading('functions that convert, compare, choose or print', len(found))
    for f, n in found:
        print(f'  {f}: {n}')
    heading('derives of more than Clone, Copy and Drop',
            sum(len(re.findall(r'derive\([^)]*(?:Debug|PartialEq)', text(f))) for f in FILES))
    heading('impls of From, TryFrom, Display and Error',
            sum(len(re.findall(r'(?m)^impl[^\n]*\b(?:From<|TryFrom<|Display|Error) ?[^\n]* for', text(f))) for f in FILES))


def clauses():
    facts = collections.Counter(re.sub(r'^\s*(requires|ensures)\*?\s*\w*\s*', '', line)
                                for f in FILES for line in text(f).split('\n') if re.match(r'\s*(requires|ensures)\b', line))
    often = [(n, c) for c, n in facts.items() if n >= 3]
    heading('facts that stand in three clauses or more', len(often))
    heading('clauses with such a fact', sum(n for n, _ in often))
    for n, c in sorted(often, reverse=True):
        print(f'  {n} {c}')
    joined = [line for f in FILES for line in text(f).split('\n') if re.match(r'\s*(requires|ensures)\b.*×', line)]
    heading('clauses of joined facts', len(joined))


def parameters():
    pairs = collections.defaultdict(set)
    for f in FILES:
        for m in re.finditer(r'\bfn (\w+)(?:<[^(]*>)?\(([^)]*)\)', code(f)):
            ps = [p.strip() for p in re.split(r',(?![^<(\[]*[>)\]])', m.group(2)) if ':' in p]
            ps = [re.sub(r'\s+', ' ', p) for p in ps]
            for a, b in itertools.combinations(ps, 2):
                pairs[crate(f), a, b].add((f, m.group(1)))
    often = {k: v for k, v in pairs.items() if len(v) >= 3}
    heading('pairs of parameters in three functions or more of a crate', len(often))
    for (c, a, b), v in sorted(often.items()):
        print(f'  {c}: {a} | {b}: {len(v)}')


def arrays():
    found = [(f, i, line.strip()) for f in FILES for i, line in enumerate(code(f).split('\n'), 1)
             if re.search(r'\[[^\[\]]*; *[0-9_A-Z]+\w*\]', line) and not re.match(r'\s*(requires|ensures|ghost)', line)]
    heading('arrays of a fixed size', len(found))
    for f, i, line in found:
        print(f'  {f}:{i}: {line}')


def steps():
    found = [(f, i, line.strip()) for f in FILES for i, line in enumerate(code(f).split('\n'), 1)
             if re.search(r'\b\w+: bool\b|\bFn(Mut|Once)?\(|\bdyn\b|\|[a-z_, &()]*\| ', line) and 'ghost' not in line]
    heading('flags as parameters or fields, closures and objects', len(found))
    for f, i, line in found:
        print(f'  {f}:{i}: {line}')


def proofs():
    files = [f for f in glob.glob('crates/*/proofs/**/*.antt', recursive=True)]
    answers = sum(len(re.findall(r'(?m)^pub \S+ : goal\.', text(f))) for f in files)
    lines = sum(text(f).count('\n') for f in files)
    heading('answers', answers)
    heading('lines in proofs/', lines)
    heading('lines in specs/', sum(text(f).count('\n') for f in glob.glob('crates/*/specs/*.antt')))
    heading('lines in src/', sum(text(f).count('\n') for f in FILES))


for count in (enums, names, loops, by_hand, clauses, parameters, arrays, steps, proofs):
    count()
