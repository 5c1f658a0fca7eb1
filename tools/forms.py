#!/usr/bin/env python3
"""Lists the places of older forms in the sources, by kind: `tools/forms.py [KIND ..] [--lines]`.

Run at the top of a checkout. With --lines each place is printed, else only the counts.
docs/DESIGN-PASS.md says what each kind is about."""
import collections
import glob
import re
import sys


def sources():
    for path in sorted(glob.glob('crates/*/src/**/*.rt', recursive=True)):
        yield path, open(path, encoding='utf-8').read()


def matching(pattern, skip_ghost=True):
    found = []
    for path, text in sources():
        for number, line in enumerate(text.split('\n'), 1):
            stripped = line.strip()
            if stripped.startswith('//') or skip_ghost and re.match(r'(ghost|requires|ensures)\b', stripped):
                continue
            if re.search(pattern, line):
                found.append(f'{path}:{number}: {stripped[:110]}')
    return found


def functions():
    """(path, line, name, parameters, clauses, body) of each function with a body."""
    for path, text in sources():
        for m in re.finditer(r'^( *)(pub(\(crate\))? )?(const )?fn (\w+)', text, re.M):
            indent = m.group(1)
            depth, i = 0, m.end()
            while i < len(text) and text[i] != '(':
                i += 1
            first = i
            while i < len(text):
                depth += {'(': 1, ')': -1}.get(text[i], 0)
                i += 1
                if depth == 0:
                    break
            parameters = re.findall(r'(?:mut )?(\w+): ', text[first + 1:i - 1])
            opened = re.compile(rf'^{indent}\{{$|(?<!requires)(?<!ensures) \{{$', re.M).search(text, i)
            ended = re.compile(r';$', re.M).search(text, i)
            close = re.compile(rf'^{indent}\}}$', re.M).search(text, i)
            bare = ended and (not opened or ended.start() < opened.start())
            head = text[i:ended.end() if bare else opened.start()]
            clauses = re.findall(r'(?:requires|ensures)\*?[^{]*\{(.*)\}', head)
            body = '' if bare else text[opened.end():close.start()]
            yield path, text.count('\n', 0, m.start()) + 1, m.group(5), parameters, clauses, body


WORDS = set('''if else match for in while loop let mut return fn pub self Self as true false Some None Ok Err const impl
break continue ref move'''.split())


def skeleton(body):
    out = []
    for token in re.findall(r"b?'[^']*'|b?\"[^\"]*\"|\w+|[^\w\s]", body):
        if re.match(r'\w', token) and token not in WORDS and not token.startswith(('b"', "b'")):
            token = 'n' if token[0].isdigit() else 'x'
        elif token[0] in '"\'' or token.startswith(('b"', "b'")):
            token = 's'
        if token != ',' or not out or out[-1] != ',':
            out.append(token)
    return out


def twins():
    groups = collections.defaultdict(list)
    for path, line, name, _, _, body in functions():
        shape = skeleton(body)
        if len(shape) >= 12:
            groups[tuple(shape)].append(f'{path}:{line}: {name}')
    return [f'{len(g)} of one shape: ' + '; '.join(g) for g in groups.values() if len(g) > 1]


def travelling():
    pairs = collections.defaultdict(list)
    for path, line, name, parameters, _, _ in functions():
        kept = [p for p in parameters if p not in ('self', 'rt')]
        crate = path.split('/')[1]
        for i, a in enumerate(kept):
            for b in kept[i + 1:]:
                pairs[crate, a, b].append(name)
    return [f'{c}: {a}, {b} in {len(n)}: ' + ' '.join(n) for (c, a, b), n in sorted(pairs.items()) if len(n) >= 3]


def repeated_facts():
    where = collections.defaultdict(set)
    for path, line, name, _, clauses, _ in functions():
        crate = path.split('/')[1]
        for clause in clauses:
            for part in re.split(r' → | × | ⊎ ', clause):
                part = re.sub(r'\b(now|old|new|result)\b', '_', part.strip().strip('()'))
                if part.count(' ') >= 2:
                    where[crate, part].add((path, name))
    return [f'{c}: {len(n)} functions: {p}' for (c, p), n in sorted(where.items()) if len(n) >= 3]


KINDS = {
    '1 enums of our own': lambda: matching(r'^\s*(pub(\(crate\))? )?enum '),
    '1 numbers for kinds and refusals': lambda: matching(
        r'fn (number|refusal|form_number|section)\(.*-> u(8|16|32)|record\.form ==|match record\.form|places_of\(records, \d'),
    '1 yes or no for done or not done': lambda: matching(r'fn (insert|put|add)\b.*-> bool'),
    '1 Option and Result taken apart by hand': lambda: matching(
        r'^\s*(Ok|Err|Some|None)\b.*=>|let (Ok|Some)\(.*\) = .* else|if let (Ok|Some|Err)'),
    '2 functions of one shape': twins,
    '3 loops over a range, and while': lambda: matching(r'^\s*(for .* in .*\.\.|while )'),
    '4 order, equality, conversion and printing by hand': lambda: matching(
        r'fn (comes_before|eq|cmp|partial_cmp|clone|from|form_number|put_\w+|print_bound|word|boundary|digit)\('),
    '4 types that derive no equality': lambda: no_equality(),
    '5 facts in three or more contracts': repeated_facts,
    '5 parameters that travel together': travelling,
    '6 arrays in structs, and counts beside a buffer': lambda: matching(
        r'^    (pub(\(crate\))? )?\w+: \[+[\w; ]+\]+,$|\bcount: usize'),
    '7 a match that picks what to run': lambda: matching(r'^\s*[\w:]+(\([^)]*\))? => [\w.:]+\(.*\),?$'),
    '8 answers and lemmas in proofs': lambda: proofs(),
}


def no_equality():
    found = []
    for path, text in sources():
        for m in re.finditer(r'^(?:#\[derive\(([^)]*)\)\]\n)?(pub(?:\(crate\))? )?(struct|enum) (\w+)', text, re.M):
            if 'PartialEq' not in (m.group(1) or ''):
                found.append(f'{path}: {m.group(4)}')
    return found


def proofs():
    found = []
    for path in sorted(glob.glob('crates/*/proofs/**/*.antt', recursive=True) + glob.glob('crates/*/specs/*.antt')):
        if '/out/' in path:
            continue
        for number, line in enumerate(open(path, encoding='utf-8'), 1):
            if re.match(r'(abbrev )?pub [^\s]+ :', line) and '/proofs/' in path:
                found.append(f'{path}:{number}: {line.strip()[:100]}')
    return found


def main():
    wanted = [a for a in sys.argv[1:] if not a.startswith('--')]
    for kind, places in KINDS.items():
        if wanted and not any(kind.startswith(w) for w in wanted):
            continue
        found = places()
        print(f'{kind}: {len(found)}')
        if '--lines' in sys.argv:
            for place in found:
                print('    ' + place)


main()
