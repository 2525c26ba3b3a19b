#!/usr/bin/env python3
"""The theorems over each public call: every function that crate `track` passes on, of lib.rt and of lent.rt, and every method of a type that it passes on.

    python3 tools/theorems.py            in the repository's folder: writes the table of docs/PROOFS.md, between its two marks
    python3 tools/theorems.py --check    writes nothing, and fails where the table is not what it would write

Both fail where a call has no theorem of a column, or where the theorem speaks of another definition than the `ensures` in the call's source:
    contract   the definitions that the `ensures` names
    refused    a field of a record of Refused or RefusedLent, whose statement names them; a call whose answer has no number is never refused
    once       a field of a record of Once, over the contract of this very function
    sound      a field of a record of Sound or SoundLent, whose statement names them; a call that hands back a number alone leaves nothing, and bytes that it
               leaves are tested by no call
    series     a call over a track, a table, a budget or a list is one of the calls of a series (specs/Series)
"""
import os, re, sys

PAGE, START, END = 'docs/PROOFS.md', '<!-- written by tools/theorems.py -->', '<!-- tools/theorems.py ends -->'
PROOFS = 'crates/track/proofs'
WORD = r"[^\s(){}⟨⟩,;:.λ→×≡]+"
OWN = {'NoteParam': 'OfParam', 'Layers': 'OfLayers', 'Event': 'OfEvents', 'Track': 'OfTrack'}  # the record of a type's methods
PLAIN = {'code', 'value', 'bytes', 'yes'}  # fields of an answer that leaves nothing


def read(path):
    return open(path).read()


def files(folder, end):
    return [os.path.join(folder, f) for f in sorted(os.listdir(folder)) if f.endswith(end)] if os.path.isdir(folder) else []


def kebab(name):
    return re.sub(r'(?<=[a-z])(?=[A-Z])', '-', name).replace('_', '-').lower()


class Call:
    """A public call: where it stands, its parameters, its answer's type, and its `ensures`."""
    def __init__(self, lent, path, of, name, text, uses):
        self.lent, self.of, self.name = lent, of, name
        _, self.crate, _, self.file = path.split('/')
        space = '    ' if of else ''
        m = re.search(rf'^{space}pub fn {name}\((.*?)\)(?: -> (\S[^\n]*?))?\s*\n(.*?)\n{space}\{{$', text, re.S | re.M)
        self.params, self.result, self.ensures = m[1], m[2], m[3]
        if 'requires' in self.ensures:
            sys.exit(f'theorems: {self.title()} has a `requires`')
        handed = set(re.findall(r'(\w+):', self.params))
        words = dict.fromkeys(re.findall(rf'(?<!\S)\(*({WORD})', self.ensures))
        self.names = {w: uses[w] for w in words if w in uses and w not in handed}  # with the crate that defines each

    def title(self):
        return ('lent::' if self.lent else '') + (self.of + '::' if self.of else '') + self.name

    def field(self):
        return kebab(self.name)


def calls():
    """In the order of the sources."""
    found = []
    used = lambda text: {n.strip(): c for c, names in re.findall(r'^ghost use Rattle\.(?!std\b)(\w+)[^{]*\{(.*?)\};', text, re.S | re.M) for n in names.split(',')}
    for file in ('lib', 'lent'):
        text = read(f'crates/track/src/{file}.rt')
        for crate, name in [(c, n) for c, names in re.findall(r'^pub use (\w+)::(.*?);', text, re.S | re.M) for n in re.findall(r'\w+', names)]:
            for path in files(f'crates/{crate}/src', '.rt'):
                source = read(path)
                if re.search(rf'^pub fn {name}\(', source, re.M):
                    found.append(Call(file == 'lent', path, None, name, source, used(source)))
                for body in re.findall(rf'^impl {name} \{{\n(.*?)^\}}', source, re.S | re.M):
                    for method in re.findall(r'^    pub fn (\w+)\(', body, re.M):
                        found.append(Call(file == 'lent', path, name, method, body, used(source)))
        for name in re.findall(r'^pub fn (\w+)\(', text, re.M):
            found.append(Call(file == 'lent', f'crates/track/src/{file}.rt', None, name, text, used(text)))
    return found


class Definitions:
    """The definitions of specs/ and of the theorems' files, each with the text of what it is defined as."""
    def __init__(self):
        self.body, self.records, self.specs = {}, {}, set()
        for crate in sorted(os.listdir('crates')):
            for path in files(f'crates/{crate}/specs', '.antt') + (files(PROOFS, '.antt') if crate == 'track' else []):
                text = re.sub(r'--[^\n]*', '', read(path))
                for name, rest in re.findall(rf'^ *(?:abbrev|unfoldable) pub ({WORD}) :[^\n]*\n((?:.*?)(?=\n\n|\Z))', text, re.S | re.M):
                    self.add(name, rest, '/specs/' in path)
                for name, rest in re.findall(rf'^ *pub record ({WORD}) [^\n]*where\n(.*?)(?=\n\n|\Z)', text, re.S | re.M):
                    self.records[crate, name] = re.sub(rf'^ *pub {WORD} :', '', rest, flags=re.M)
                    self.add(name, self.records[crate, name], '/specs/' in path)

    def add(self, name, rest, spec):
        self.body[name] = self.body.get(name, '') + ' ' + rest
        if spec:
            self.specs.add(name)

    def named(self, text):
        return {w for w in re.findall(WORD, text) if w in self.body}

    def opened(self, text):
        """What a statement names, where it names a record or a word of the theorems' files by what these name in turn."""
        seen, todo = set(), list(self.named(text))
        while todo:
            name = todo.pop()
            if name not in seen:
                seen.add(name)
                if name not in self.specs or name[0].isupper():
                    todo.extend(self.named(self.body[name]))
        return seen


class Theorems:
    """The fields of the records of a file, with their statements, and its theorems that stand alone."""
    def __init__(self, name):
        self.name = name
        text = re.sub(r'--[^\n]*', '', read(f'{PROOFS}/{name}.antt'))
        self.fields, self.written = {}, {}  # a name's words are joined by - or by _
        for record, body in re.findall(r'^ *pub record (Of\w+)[^\n]*where\n(.*?)(?=\n\n|\Z)', text, re.S | re.M):
            for field, statement in re.findall(rf'^ *pub ({WORD}) :(.*?)(?=\n *pub |\Z)', body, re.S | re.M):
                self.add(record, field, statement)
        for theorem, statement in re.findall(rf'^pub ({WORD}) :(.*?)(?=\n(?:unfolding|{WORD} .*=))', text, re.S | re.M):
            self.add(None, theorem, statement)

    def add(self, record, name, statement):
        self.fields[record, kebab(name)] = statement
        self.written[record, kebab(name)] = name

    def find(self, call, fields):
        """The first of these fields that stands in a record that this call's own theorem may stand in."""
        if call.lent:
            order = ['OfLent']
        elif call.of in OWN:
            order = [OWN[call.of], 'OfMakers']
        elif call.of:
            order = ['OfRecords', 'OfMakers', None]
        else:
            order = ['OfTrack', 'OfList', 'OfWrites', 'OfReserving', 'OfRecords']
        for record in order:
            for field in fields:
                if (record, field) in self.fields:
                    return record, field
        return None

    def words(self, found):
        record, field = found[0], self.written[found]
        return f'{self.name}: `{kebab(record)}.{field}`' if record else f'{self.name}: `{field}`'


def main():
    os.chdir(os.path.dirname(os.path.dirname(os.path.abspath(__file__))))
    known = Definitions()
    proofs = {n: Theorems(n) for n in ('Refused', 'RefusedLent', 'Once', 'Sound', 'SoundLent')}
    series = set(re.findall(rf'^  ({WORD}) : .*\bCall$', read('crates/track/specs/Series.antt'), re.M))
    faults, rows = [], []

    def field_of(call, kinds, fields, named, left=False):
        """Where the theorem stands, if its statement names what the `ensures` names; of what is `left`, the number may stand in what it names."""
        for kind in kinds:
            found = proofs[kind].find(call, fields)
            if found:
                has = known.opened(proofs[kind].fields[found])
                if left:
                    has |= {m for n in has & known.specs for m in known.named(known.body[n])}
                for name in sorted(named - has):
                    faults.append(f'{call.title()}: {proofs[kind].words(found)} does not name `{name}`, which its `ensures` names')
                return proofs[kind].words(found)
        return None

    for call in calls():
        # a record of specs/ in an `ensures` stands for what its fields name
        named = set()
        for n, crate in call.names.items():
            named |= known.named(known.records[crate, n]) if (crate, n) in known.records else {n}
        answer = re.search(rf'pub struct {re.escape(call.result or "")} \{{\n(.*?)\n\}}', '\n'.join(read(p) for c in os.listdir('crates') for p in files(f'crates/{c}/src', '.rt')), re.S)
        parts = set(re.findall(r'pub (\w+):', answer[1])) if answer else set()
        # the number of a refusal says of no call that it was refused
        numbered = 'code' in parts or call.result == 'u32' and call.of != 'Refusal' or 'said' in call.names
        whole = [call.field(), kebab(call.of or '') + '-' + call.field()] + (['of-cycle'] if 'said' in call.names else [])
        refused = field_of(call, ('Refused', 'RefusedLent'), whole[:1] if call.of in OWN or not call.of else whole, named)
        if not refused:
            if numbered:
                faults.append(f'{call.title()}: no theorem says that a refused call leaves everything')
            refused = 'never refused'
        once = field_of(call, ('Once',), whole[1:2] + whole[:1] if call.of not in OWN else whole[:1], set())
        if not once:
            faults.append(f'{call.title()}: no theorem says that one outcome alone satisfies its contract')
        else:
            module = '' if call.file == 'lib.rt' or call.crate == 'track' else call.file[:-len('.rt')] + '.'
            path = f'{"own" if call.crate == "track" else call.crate}.{module}{call.of + "." if call.of else ""}{call.name}'
            statement = ' '.join(proofs['Once'].fields[proofs['Once'].find(call, whole[1:2] + whole[:1] if call.of not in OWN else whole[:1])].split())
            if statement != f'Once 𝓤 𝓛 {path}.ended ({path}.clauses 𝓛 mem run) ({path}.spec 𝓛 mem run)':
                faults.append(f'{call.title()}: {once} is not over the contract of {path}')
        sound = field_of(call, ('Sound', 'SoundLent'), whole[:2] if call.of != 'Track' else whole[1:2], named, True)
        if not sound:
            if re.search(r'&mut (?!\[u8\])', call.params) or (answer and not parts <= PLAIN):
                faults.append(f'{call.title()}: no theorem says that what it leaves passes the tests again')
            sound = f'leaves {"an output of bytes" if "&mut [u8]" in call.params else "nothing"}, answers `{call.result}`'
        if not call.of and not call.lent and re.search(r'Track|Budget|&mut|&\[i64\]', call.params) and call.field() not in series:
            faults.append(f'{call.title()}: no call of a series')
        rows.append(f'| `{call.title()}` | {call.crate}/src/{call.file}: {", ".join(f"`{n}`" for n in call.names)} | {refused} | {once} | {sound} |')
    table = '\n'.join(['| Call | Contract | Refused | Once | Sound |', '|---|---|---|---|---|'] + rows)
    page = read(PAGE)
    if START not in page or END not in page:
        sys.exit(f'theorems: {PAGE} has not both marks')
    before, rest = page.split(START)
    new = f'{before}{START}\n\n{len(rows)} calls.\n\n{table}\n\n{END}{rest.split(END)[1]}'
    if faults:
        sys.exit('\n'.join(f'theorems: {f}' for f in faults))
    if sys.argv[1:] == ['--check']:
        if new != page:
            sys.exit(f'theorems: the table of {PAGE} is not what tools/theorems.py writes')
    else:
        open(PAGE, 'w').write(new)


main()
