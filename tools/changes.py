#!/usr/bin/env python3
"""What a change moved and what stayed, from two commits: the table of its section in docs/CHANGES.md.

    python3 tools/changes.py BEFORE [AFTER]      in the repository's folder; without AFTER, the files as they lie here
    python3 tools/changes.py --all BEFORE ..     every name, where a cell would give a long list's count for each crate
    python3 tools/changes.py --check             fails where the last table of docs/CHANGES.md is not what the command above it prints

    definitions    what specs/ declares: a name's type and clauses, with the parameters of the modules around it
    contracts      what src/ promises of a function: its parameters, answer, `requires` and `ensures`
    types          what src/ declares besides: structs, enums and constants
    code           a function's body
    theorems       what proofs/ passes on: a name's statement, with the parameters of the modules around it; of a word that statements use, its clauses too
    proofs         files of proofs/
    edits          files of must-fail/

Comments, layout, imports and what is passed on (`pub`) do not count. A name that went to another file of its crate with the text that it had has stayed.
"""
import re, shutil, subprocess, sys

PAGE = 'docs/CHANGES.md'
KINDS = ['definitions', 'contracts', 'types', 'code', 'theorems', 'proofs', 'edits']
LONG = 24  # names that a cell lists


def files(commit):
    """The files under crates/ of a commit, or of the folder: path and text."""
    if commit is None:
        paths = subprocess.run(['git', 'ls-files', '-co', '--exclude-standard', 'crates'], check=True, capture_output=True, text=True).stdout.split()
        return {p: open(p).read() for p in paths if wanted(p)}
    paths = subprocess.run(['git', 'ls-tree', '-r', '--name-only', commit, 'crates'], check=True, capture_output=True, text=True).stdout.split()
    paths = [p for p in paths if wanted(p)]
    asked = ''.join(f'{commit}:{p}\n' for p in paths).encode()
    out, found = subprocess.run(['git', 'cat-file', '--batch'], input=asked, check=True, capture_output=True).stdout, {}
    for p in paths:
        head, _, out = out.partition(b'\n')
        size = int(head.split()[2])
        found[p], out = out[:size].decode(), out[size + 1:]
    return found


def wanted(path):
    return re.match(r'crates/\w+/(specs|src|proofs|must-fail)/.*\.(antt|rt|edit)$', path) and not path.endswith('/Lib.antt')


def plain(lines):
    return ' '.join(' '.join(lines).split())


def logic(text):
    """The declarations of a file of definitions or proofs: name, whether it is passed on, whether it is a word for what its clauses say, statement, clauses."""
    found, modules, at = [], [], None
    lines = [line for line in re.sub(r'(?m)(^|(?<=\s))--.*$', '', text).split('\n') if line.strip() and not line.startswith('use ')]
    i = 0
    while i < len(lines):
        line, i = lines[i], i + 1
        depth = len(line) - len(line.lstrip())
        while modules and depth < len(modules) * 2:
            modules.pop()
        if depth > len(modules) * 2:  # goes on with what stands above
            at[2 if not at[4] else 3].append(line)
            continue
        words = line.split()
        if words[0] == 'module':
            head = [line]
            while not head[-1].rstrip().endswith('where'):
                head.append(lines[i])
                i += 1
            modules.append(plain(head))
            continue
        public, body = 'pub' in words[:2], [w for w in words if w not in ('abbrev', 'unfoldable', 'pub')] if words[0] in ('abbrev', 'unfoldable', 'pub') else words
        name = body[1] if body[0] in ('record', 'data') else body[0] if body[1:2] == [':'] else None
        if name and body[0] != 'mod':
            at = [name, public, modules + [' '.join(body)], [], False, words[0] in ('abbrev', 'unfoldable')]
            found.append(at)
        elif at:  # a clause, or what it unfolds
            at[4] = True
            if words[0] != 'unfolding':
                at[3].append(line)
    return [(name, public, word, plain(statement), plain(clauses)) for name, public, statement, clauses, _, word in found]


def source(text):
    """The functions of a file of code: name, what is promised, body; and the types and constants: name, text."""
    text = re.sub(r'(?m)^(ghost |pub )?use [^;]*;', '', re.sub(r'(?m)(^|(?<=\s))//.*$', '', text))
    text = '\n'.join(line for line in text.split('\n') if line.strip())
    functions, types, of = [], [], ''
    for m in re.finditer(r'^impl (\w+) \{|^( *)(?:pub )?(?:extern "C" )?fn (\w+)(.*?)(?: |^\2)\{\n(.*?)^\2\}|^(?:pub )?(struct|enum|const) (\w+)(.*?)(?:^\}|;$)', text, re.S | re.M):
        if m[1]:
            of = m[1] + '::'
        elif m[3]:
            functions.append(((of if m[2] else '') + m[3], plain([m[4]]), plain([m[5]])))
        else:
            types.append((m[7], plain([m[6], m[8]])))
    return functions, types


def told(commit):
    """Of each kind what there is: where it stands and its name, and its text."""
    all = {kind: {} for kind in KINDS}
    for path, text in files(commit).items():
        _, crate, part, rest = path.split('/', 3)
        place = (crate, re.sub(r'\.\w+$|^lib\.rt$', '', rest))
        if part == 'specs':
            for name, _, _, statement, clauses in logic(text):
                all['definitions'][place + (name,)] = statement + ' = ' + clauses
        elif part == 'proofs':
            all['proofs'][place + ('',)] = text
            if not re.search(r'/(Proof|Invariants|Answers)\.antt$', rest):  # of one function
                for name, public, word, statement, clauses in logic(text):
                    if public:
                        all['theorems'][place + (name,)] = statement + (' = ' + clauses if word else '')
        elif part == 'src':
            functions, types = source(text)
            for name, promise, body in functions:
                all['contracts'][place + (name,)], all['code'][place + (name,)] = promise, body
            for name, body in types:
                all['types'][place + (name,)] = body
        else:
            all['edits'][place + ('',)] = text
    return all


def compared(before, after):
    """New, changed, gone, and how many stayed; a name that went to another file of its crate has stayed."""
    new, gone = set(after) - set(before), set(before) - set(after)
    went = {}
    for key in gone:
        went.setdefault((key[0], key[2], before[key]), []).append(key)
    moved = [(key, went[key[0], key[2], after[key]]) for key in sorted(new) if key[2] and went.get((key[0], key[2], after[key]))]
    for key, old in moved:
        new.discard(key)
        gone.discard(old.pop())
    changed = {key for key in set(before) & set(after) if before[key] != after[key]}
    return new, changed, gone, len(after) - len(new) - len(changed)


def cell(keys, whole):
    """Names by crate and file; of a long list how many in each crate."""
    if not keys:
        return '0'
    if len(keys) > LONG and not whole:
        crates = [key[0] for key in keys]
        return f'{len(keys)}: ' + ', '.join(f'{crate} {crates.count(crate)}' for crate in sorted(set(crates)))
    groups = {}
    for crate, file, name in sorted(keys):
        groups.setdefault(crate + ('/' + file if file else ''), []).append(name)
    said = [f'{place}: ' + ', '.join(f'`{n}`' for n in names) if any(names) else f'`{place}`' for place, names in groups.items()]
    return f'{len(keys)}: ' + ('; ' if any(any(names) for names in groups.values()) else ', ').join(said)


def table(first, last, whole):
    before, after = told(first), told(last)
    rows = ['| | new | changed | gone | stayed |', '|---|---|---|---|---|']
    for kind in KINDS:
        new, changed, gone, stayed = compared(before[kind], after[kind])
        rows.append(f'| {kind} | ' + ' | '.join(cell(keys, whole) for keys in (new, changed, gone)) + f' | {stayed:,} |')
    return '\n'.join(rows)


def check():
    commands = list(re.finditer(r'^    python3 tools/changes\.py (\w+) (\w+)\n\n((?:\|.*\n)*)', open(PAGE).read(), re.M))
    first, last, written = commands[-1].groups()
    known = lambda commit: subprocess.run(['git', 'cat-file', '-e', commit + '^{commit}'], capture_output=True).returncode == 0
    if not (shutil.which('git') and known(first) and known(last)):
        print(f'changes: no git, or {first} and {last} are not in this clone: the table of {PAGE} is not made again')
    elif table(first, last, False) + '\n' != written:
        sys.exit(f'changes: the last table of {PAGE} is not what `tools/changes.py {first} {last}` prints')


def main():
    words = [w for w in sys.argv[1:] if w != '--all']
    if words == ['--check']:
        return check()
    if not 1 <= len(words) <= 2:
        sys.exit(__doc__)
    print(table(words[0], words[1] if len(words) == 2 else None, '--all' in sys.argv))


main()
