#!/usr/bin/env python3
"""The names of docs/RULES.md and docs/CUT.md, and what the latter quotes, held against the sources.

    python3 tools/rules.py --check     in the repository's folder: fails where a file is not there, a name is not declared in it, or a quoted line does not stand in the sources

A reference is `crate/specs/File:name`, `crate/proofs/File:name`, `crate/src:name` or `oracle/file.rs:name`, each in backquotes, in a table. A quotation is a block of `antt`; each of its lines is a line of crate passage.
"""
import glob, os, re, sys

PAGES = ['docs/RULES.md', 'docs/CUT.md']
QUOTED = 'crates/passage/*/*.antt'
REFERENCE = re.compile(r'`([a-z_]+)/(specs/\w+|proofs/\w+|src|\w+\.rs):([^`\s]+)`')


def sources(home, place):
    """The files that a reference may mean."""
    if home == 'oracle':
        return [f'oracle/{place}']
    if place == 'src':
        folder = f'crates/{home}/src'
        return [f'{folder}/{f}' for f in sorted(os.listdir(folder))] if os.path.isdir(folder) else []
    return [f'crates/{home}/{place}.antt']


def declares(path, name):
    """Whether the file declares the name: a function, or in antt a definition, a record, one of its fields or a theorem."""
    if not os.path.isfile(path):
        return False
    word = re.escape(name)
    shape = rf'^\s*(?:pub )?fn {word}\b' if not path.endswith('.antt') else rf'^\s*(?:unfoldable |abbrev )?pub (?:record )?{word}(?= |$)'
    return re.search(shape, open(path).read(), re.M) is not None


def wrong(page, text, written):
    """What the page says that the sources do not."""
    names = REFERENCE.findall(''.join(re.findall(r'^\|.*$', text, re.M)))
    missing = [f'{page}: not declared: {home}/{place}:{name}' for home, place, name in names if not any(declares(path, name) for path in sources(home, place))]
    quoted = [line.strip() for block in re.findall(r'^```antt\n(.*?)^```', text, re.M | re.S) for line in block.splitlines()]
    missing += [f'{page}: not in {QUOTED}: {line}' for line in quoted if line not in written]
    return missing if names else [f'{page}: no reference']


def main():
    if sys.argv[1:] != ['--check']:
        print(__doc__)
        return 2
    written = {line.strip() for path in glob.glob(QUOTED) for line in open(path)}
    faults = [fault for page in PAGES for fault in wrong(page, open(page).read(), written)]
    for fault in faults:
        print(fault)
    return 1 if faults else 0


if __name__ == '__main__':
    sys.exit(main())
