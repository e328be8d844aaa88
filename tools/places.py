#!/usr/bin/env python3
"""Counts, in the src/ of every crate, the places that docs/DESIGN-PASS.md speaks of, and lists them.

    python3 tools/places.py             in the files as they stand
    python3 tools/places.py COMMIT      as they stood at a commit

A row is a place to look at, not yet one to change: the page says which are kept, and why.
"""
import re
import subprocess
import sys
from collections import defaultdict


def sources(commit):
    if commit:
        names = subprocess.run(['git', 'ls-tree', '-r', '--name-only', commit], capture_output=True, text=True, check=True).stdout
    else:
        names = subprocess.run(['git', 'ls-files', '-co', '--exclude-standard'], capture_output=True, text=True, check=True).stdout
    for name in sorted(names.split()):
        if re.fullmatch(r'crates/\w+/src/.*\.rt', name):
            if commit:
                yield name, subprocess.run(['git', 'show', f'{commit}:{name}'], capture_output=True, text=True, check=True).stdout
            else:
                yield name, open(name).read()


# what a line, or two, says
LINES = {
    '1 a number for a kind or a refusal': r'const [A-Z_]+: u8 =|fn number\(.*-> u8$|Refusal::.* => \d+,$',
    '1 an option that holds an error, or an error made by hand of an option': r'if let Some\(\w+\) = .*\{\n\s*return Err|else \{\n\s*return Err\(Fail|Err\(\w+\) => Err\(',
    '1 a let-else or a match where ? or unwrap says it': r'let Some.*else \{\n\s*return None;|None => unreachable|>= \w+\.len\(\) \{\n\s*return None;\n\s*\}\n\s*(let \w+ = \w+\[|Some\(\w+\[)',
    '1 an own error that let-else or a test of an option returns': r'let .* else \{\n\s*return Err\((?!Fail)',
    '1 a flag with a value beside it': r'\(bool,|^\s*(pub )?\w+: bool,',
    '3 a loop over numbers that index, or that counts by hand': r'^\s*(\'\w+: )?(for \w+ in \d+\.\.|while )|\w+ = \w+\.saturating_add\(1\)',
    '4 printing field by field': r'println!\(rt; "[^"]*\{\w+\}[^"]*\{\w+\}',
    '4 a type with fewer derives than Debug and Eq': r'derive\(Clone, Copy\)\]',
    '4 a conversion, an order or an equality by hand': r'^impl .*(From|Ord|PartialEq|Clone)\b.* for|fn (eq|cmp|clone)\(|else \{\n\s*None\n?\s*\}|\{ Some\(\w+\) \} else \{ None \}|n < low',
    '5 the methods of a type in another file than the type': r'^mod methods;',
    '6 bytes taken one by one, or a slice cut by a test': r'\[\w+ \+ \d\]|\[0?\.\.\w+\]',
    '6 a buffer with its length beside it': r'\[Member\], count: usize|&members, head\.count',
    '7 a switch on which step to run, or a table of functions': r'\bfn\(|dyn |match step',
    'other: a runtime that is named in full below main': r'rt: &HostRuntime',
}


def functions(text):
    """Name, parameters, contract and body of each function."""
    for m in re.finditer(r'^([ ]*)(?:pub(?:\(crate\))? )?fn (\w+)(?:<[^\n]*?>)?\(', text, re.M):
        depth, end = 1, m.end()
        while depth:
            depth += {'(': 1, ')': -1}.get(text[end], 0)
            end += 1
        start = re.search(r'\{\n', text[end:])
        stop = re.search(r'^' + m.group(1) + r'\}$', text[end:], re.M)
        if start and stop:
            yield m.group(2), text[m.end():end - 1], text[end:end + start.start()], text[end + start.end():end + stop.start()]


def main():
    commit = sys.argv[1] if len(sys.argv) > 1 else None
    files = list(sources(commit))
    for what, pattern in LINES.items():
        found = [(name, text.count('\n', 0, m.start()) + 1, m.group(0).strip().split('\n')[0]) for name, text in files for m in re.finditer(pattern, text, re.M)]
        print(f'{len(found):3}  {what}')
        for name, line, said in found:
            print(f'       {name}:{line}: {said[:90]}')

    # functions whose bodies are the same but for names and numbers, or to the letter
    shapes = defaultdict(list)
    for name, text in files:
        for function, _, _, body in functions(text):
            lines = [l.strip() for l in body.split('\n') if l.strip() and not l.strip().startswith('//')]
            if len(lines) >= 3:
                shapes[re.sub(r"[A-Za-z_]\w*|\d[\d_]*", '·', '\n'.join(lines))].append(f'{name}: {function}')
    twins = [v for v in shapes.values() if len(v) > 1]
    print(f'{len(twins):3}  2 functions of one shape')
    for v in twins:
        print('      ', ', '.join(v))

    # what is required or said of the result in three contracts or more, and parameters that travel together
    facts, pairs = defaultdict(set), defaultdict(set)
    for name, text in files:
        if name.endswith('tests.rt'):
            continue
        for function, parameters, contract, _ in functions(text):
            for c in re.findall(r'(?:requires|ensures)(?: \w+)? \{ (.*) \}', contract):
                f = re.sub(r'\([^()]*\)|\b(\d+|count|member|at|result|self\.\w+\.\w+|index)\b', '·', c)
                if re.search('[<≤]', f) and '≡' not in f:
                    facts[f].add(f'{name}: {function}')
            p = [a.strip() for a in parameters.split(',') if ':' in a and not a.strip().startswith('rt:')]
            for i in range(len(p)):
                for j in range(i + 1, len(p)):
                    pairs[p[i], p[j]].add(f'{name}: {function}')
    for what, found in (('5 a fact in the contracts of three functions or more', facts), ('5 parameters that travel together through three functions or more', pairs)):
        often = {k: v for k, v in found.items() if len(v) >= 3}
        print(f'{len(often):3}  {what}')
        for k, v in often.items():
            print(f'       {k if isinstance(k, str) else ", ".join(k)}: {len(v)} functions')


if __name__ == '__main__':
    main()
