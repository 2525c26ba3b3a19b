#!/usr/bin/env python3
"""Counts in crates/*/src the places that docs/DESIGN-PASS.md speaks of, of a commit or of the files as they lie here.

    python3 tools/places.py [COMMIT]           in the repository's folder: a line for each kind, and how many
    python3 tools/places.py --list KIND [COMMIT]   the places themselves

Crate ctrack_c, which is written from ctrack, is left out. A kind is a pattern that a line matches, but for two:
    twin    functions of at least 20 words whose text, contract and body, is that of another but for names and numbers
    fact    a `requires` that stands in three functions or more
"""
import re, subprocess, sys

LINES = {
    '1 enum': r'^(pub )?enum ',
    '1 flag': r'^ *(pub )?(code|ok|fits|known|there|found|more|saves|any|stored|listed|lost): (u32|bool),',
    '1 number': r'code: [0-9]+|refus(e|al)\([0-9]+\)|^ *return [0-9]+;|(code|refusal|fault) (!=|==) 0',
    '3 loop': r'^ *(while|loop) ',
    '3 index': r'^ *\w+ \+= 1;',
    '4 cast': r' as (u8|u16|u32|u64|usize|i32|i64)\b',
    '4 name': r'^ *([a-z_0-9]+): \1,$',
    '4 helper': r'^(pub )?fn (wide|widened|one_if|flag_if|least|lesser|earlier_of|later_of|at_least_one|span|size_of|signed|bits_of|within_i32|as_i32|as_u32|as_usize|data_bytes|count_of|steps_of|length_of|scaled|raised|low_byte|lifted)\b',
    '5 list': r'events: &(mut )?\[i64\],',
    '6 array': r'^ *(pub )?[a-z_]+: \[[A-Za-z0-9]+; \w+\],',
    '6 flat': r'windows: &?(mut )?\[i64',
    '7 switch': r'match (op|letter)\b|if op == ',
    '7 closure': r'\b(Fn|FnMut|FnOnce)\(',
}


def files(commit):
    names = subprocess.run(['git', 'ls-tree', '-r', '--name-only', commit, 'crates'] if commit else ['git', 'ls-files', 'crates'], check=True, capture_output=True, text=True).stdout.split()
    for name in names:
        if re.match(r'crates/(?!ctrack_c/)\w+/src/.*\.rt$', name):
            yield name, subprocess.run(['git', 'show', f'{commit}:{name}'], check=True, capture_output=True, text=True).stdout if commit else open(name).read()


def shape(text):
    """The text with every name and number as the place where it first stands."""
    seen = {}
    return re.sub(r'[A-Za-z_]\w*|[0-9]+', lambda m: m[0] if m[0] in ('fn', 'pub', 'mut', 'if', 'else', 'while', 'for', 'let', 'return', 'match', 'ensures', 'requires', 'as', 'in') else str(seen.setdefault(m[0], len(seen))), text)


def places(commit):
    found, shapes, facts = {kind: [] for kind in LINES}, {}, {}
    for name, text in files(commit):
        text = re.sub(r'(?m)//.*$', '', text)
        for i, line in enumerate(text.split('\n'), 1):
            for kind, pattern in LINES.items():
                if re.search(pattern, line):
                    found[kind].append(f'{name}:{i}')
            if line.strip().startswith('requires'):
                facts.setdefault(' '.join(line.split()), []).append(f'{name}:{i}')
        for m in re.finditer(r'^( *)(?:pub )?fn (\w+).*?^\1\}', text, re.S | re.M):
            if len(m[0].split()) >= 20:
                shapes.setdefault(shape(' '.join(m[0].split())), []).append(f'{name}:{m[2]}')
    found['2 twin'] = [p for ps in shapes.values() if len(ps) > 1 for p in ps]
    found['5 fact'] = [f'{fact}   ({len(ps)} times)' for fact, ps in facts.items() if len(ps) >= 3]
    return found


def main():
    args = sys.argv[1:]
    listed = args[1] if args[:1] == ['--list'] else None
    commit = (args[2:] if listed else args)[:1]
    for kind, ps in sorted(places(commit[0] if commit else None).items()):
        if listed is None:
            print(f'{kind:12}{len(ps):5}')
        elif listed in kind:
            print('\n'.join(ps))


if __name__ == '__main__':
    main()
