#!/usr/bin/env python3
"""Writes the crate ctrack_c from crates/ctrack/src/lib.rt: under C's names each of its public functions, with the same contract, as a static library.

    python3 tools/ctrack_c.py            in the repository's folder: writes crates/ctrack_c/src/lib.rt
    python3 tools/ctrack_c.py --check    writes nothing, and fails where the file is not what it would write
"""
import re, sys

FROM, TO = 'crates/ctrack/src/lib.rt', 'crates/ctrack_c/src/lib.rt'
HEAD = '''// The functions of `ctrack` under C's names, as a static library. Each hands on what it is handed to the function of its name and promises
// what that promises; what a function does is said there. Written by tools/ctrack_c.py.
#![tactic(auto)]

'''
WORD = r"(?<![\w'\-.])%s(?![\w'\-])"
WIDE = 100  # of code
WAY = 'pub extern "C" fn '


def head(name, params, result):
    """A function's head, over several lines where one is too short."""
    line = f'{name}({", ".join(params)}) -> {result}'
    return WAY + (line if len(WAY + line) <= WIDE else '\n'.join([f'{name}('] + [f'    {p},' for p in params] + [f') -> {result}']))


def handed(name, args):
    """The call of ctrack's function: a line, or its arguments on a line of their own, or each on one."""
    line = f'    ctrack::{name}({", ".join(args)})'
    if len(line) <= WIDE:
        return line
    inner = f'        {", ".join(args)},'
    return '\n'.join([f'    ctrack::{name}('] + ([inner] if len(inner) <= WIDE else [f'        {a},' for a in args]) + ['    )'])


def written():
    text = open(FROM).read()
    found = re.findall(r'((?:^//[^\n]*\n)*)^pub fn (\w+)\((.*?)\) -> (\w+)\n    (ensures .*?)\n\{\n', text, re.S | re.M)
    if len(found) != len(re.findall(r'^pub fn ', text, re.M)):
        sys.exit('ctrack_c: a public function of ctrack is not read')
    out, said = [], ''
    for comment, name, params, result, clauses in found:
        ps = [' '.join(p.split()) for p in re.split(r',(?![^\[]*\])', params) if p.strip()]
        out += [l for l in comment.split('\n') if l.startswith('// ---- ')]
        out.append(f'#[unsafe(no_mangle)]\n{head(name, ps, result)}\n    {clauses}\n{{\n{handed(name, [p.split(":")[0] for p in ps])}\n}}\n')
        said += f'{clauses} ({", ".join(ps)}) {result} '
    used = lambda n: re.search(WORD % re.escape(n), said) or n.startswith('◌') and n.strip('◌') in said
    ghosts, uses = [], []
    for module, names in re.findall(r'^ghost use ([^;{]*)\.\{([^}]*)\};', text, re.M):
        names = [n for n in re.split(r',\s*', names) if used(n.split(' as ')[-1])]
        ghosts += [f'ghost use {module}.{{{", ".join(names)}}};'] * bool(names)
    for module, one, many in re.findall(r'^use (\w+)::(?:(\w+)|\{([^}]*)\});', text, re.M):
        names = [n for n in re.split(r',\s*', one or many) if used(n)]
        uses += [f'use {module}::{names[0]};' if len(names) == 1 else f'use {module}::{{{", ".join(names)}}};'] * bool(names)
    return HEAD + '\n'.join(ghosts + [''] + uses + [''] + out)


def main():
    text = written()
    try:
        same = open(TO).read() == text
    except FileNotFoundError:
        same = False
    if sys.argv[1:] == ['--check']:
        if not same:
            sys.exit(f'ctrack_c: {TO} is not what tools/ctrack_c.py writes')
    elif not same:
        open(TO, 'w').write(text)


if __name__ == '__main__':
    main()
