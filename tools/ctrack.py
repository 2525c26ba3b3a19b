#!/usr/bin/env python3
"""Writes the crate ctrack from the table below: its functions and their contracts, from those of the calls by value that they
export, and what the contracts say.

    python3 tools/ctrack.py            in the repository's folder: writes crates/ctrack/src/lib.rt and specs/Lent.antt
    python3 tools/ctrack.py --check    writes nothing, and fails where one of the two is not what it would write

A function stands as `dollavir_track_new` stands there, `pub fn` or `pub extern "C" fn`, exported or not. tools/header.py makes the header of them.
"""
import os, re, sys

# The calls that are exported: `crate::function` by its own name, or `crate::function=NAME`.
TABLE = """
New records: a track, a budget, an unused cycle, an option, a sine, a cycle over time
    state::Track::new=track_new budget::Budget::new=budget_new cycles::Cycle::none=cycle_none values::WriteOption::new=write_option_new
    tables::OnNoteSine::new=on_note_sine_new reserved::OnCycleTime::new=cycle_time_new
A number in a range
    numbers::value_range
The track's own numbers
    state::set_timepos state::set_channel state::set_cc_on_time_freq state::set_pb_on_time_freq
A target's option
    drawing::get_write_opt drawing::set_delay drawing::set_random drawing::set_range drawing::clear_range drawing::set_repeat
Writes at the track's time
    drawing::write_on_time drawing::write_cc_on_time drawing::write_pb_on_time drawing::write_sine
What is reserved for a target
    loans::remove_reserve loans::set_on_note loans::set_on_note_wave loans::set_on_note_sine loans::set_on_cycle
    reserving::remove_cc_on reserving::set_cc_on_note reserving::set_cc_on_note_wave reserving::set_pb_on_note_wave
    reserving::remove_pb_on_note_wave reserving::remove_cc_on_note reserving::remove_cc_on_note_wave
Writes at notes and cycles
    noting::write_cc_on_note waving::write_cc_on_note_wave lending::write_cc_on_cycle
A controller's value
    track::current_cc_value
The event list
    eventlist::remove_pitch_bend_in_range sorting::events_sort notes::split_note_off notes::normalize cutting::play_from cutting::full_cut
A file's track chunk
    chunks::write_chunk reader::read_chunk
The rehearsal player's profile
    profile::check_profile profile::fit_profile
The track's parameters and layers
    playing::calc_v_on_time playing::calc_t_on_time playing::calc_qlen_on_time playing::calc_o_on_time playing::calc_l_on_time
    playing::calc_v_on_note playing::calc_t_on_note playing::calc_qlen_on_note playing::calc_o_on_note playing::calc_l_on_note
    playing::set_v_sub playing::set_v_sub_random playing::set_v_sub_on_time playing::set_v_sub_on_cycle playing::set_v_sub_on_note
    playing::apply_v_sub playing::set_param_on_time playing::set_param_on_cycle playing::set_param_on_note playing::clear_param_reserve
    playing::set_param_random playing::set_param_range playing::clear_param_range playing::set_param_delay playing::set_param_max
    playing::clear_param_max playing::set_param_repeat
Events
    events::Event::note=event_note events::Event::voice=event_voice events::Event::cc=event_cc events::Event::pitch_bend=event_pitch_bend
    events::Event::pitch_bend_range=event_pitch_bend_range events::Event::meta=event_meta events::Event::direct_smf=event_direct_smf
    events::Event::sysex_raw=event_sysex_raw events::Event::estimated_midi_bytes=event_bytes
A note parameter of its own
    params::NoteParam::new=param_new params::NoteParam::clear_reserve=param_clear_reserve params::NoteParam::has_reserve=param_has_reserve
    params::NoteParam::set_on_time=param_set_on_time params::NoteParam::set_on_cycle=param_set_on_cycle params::NoteParam::set_on_note=param_set_on_note
    params::NoteParam::calc_on_time=param_calc_on_time params::NoteParam::calc_on_note=param_calc_on_note params::NoteParam::apply_limit=param_apply_limit
    params::NoteParam::max_or=param_max_or params::NoteParam::set_random=param_set_random params::NoteParam::set_range=param_set_range
    params::NoteParam::clear_range=param_clear_range params::NoteParam::set_delay=param_set_delay params::NoteParam::set_max=param_set_max
    params::NoteParam::clear_max=param_clear_max params::NoteParam::set_repeat=param_set_repeat
Velocity layers of their own
    layers::Layers::new=layers_new layers::Layers::set_v_sub=layers_set_v_sub layers::Layers::set_v_sub_random=layers_set_v_sub_random
    layers::Layers::set_v_sub_on_time=layers_set_v_sub_on_time layers::Layers::set_v_sub_on_cycle=layers_set_v_sub_on_cycle
    layers::Layers::set_v_sub_on_note=layers_set_v_sub_on_note layers::Layers::apply_v_sub=layers_apply_v_sub
A cycle over time of its own
    ctrack::cycle_time_calc
"""
# The setters of a controller or a bend: what is called of a target, and what is handed to it besides the track and the cycles.
BY_TARGET = {
    'remove_cc_on': ('remove_reserve', ['drawing::cc_target(number)']),
    'set_cc_on_note': ('set_on_note', ['drawing::cc_target(number)', 'list']),
    'set_cc_on_note_wave': ('set_on_note_wave', ['drawing::cc_target(number)', 'NORMAL', 'list']),
    'set_pb_on_note_wave': ('set_on_note_wave', ['drawing::pb_target(big)', 'NORMAL', 'list']),
    'remove_pb_on_note_wave': ('remove_reserve', ['BENDS']),
}

# What a call by value answers: where it stands, the record that is said of it, and what that says.
ANSWERS = {
    'TrackAnswer': ('state', 'TrackLeft', 'a call that is defined to answer a: it answers the number r and leaves the track t'),
    'TrackValue': ('playing', 'ValueLeft', 'the same with the value v'),
    'TrackVelocity': ('playing', 'VelocityLeft', 'the same of a velocity'),
    'OptionAnswer': ('drawing', 'OptionTold', 'the option of a target: the number r, the option o'),
    'Outcome': ('writing', 'Written', 'a write whose outcome is a and which leaves the numbers l in the list: the number r, the count n, the budget b, the numbers m'),
    'Noted': ('noting', 'NoteWritten', 'the same of the write for a note, which leaves the track t besides'),
    'Kept': ('reserving', 'Reserved', 'a setter that is defined to leave a: the number r, the track t, the records cs of the lent cycle table'),
    'Cycled': ('cycling', 'CycleWritten', 'the write of the cycles: besides, the records cs of the lent cycle table'),
    'CcValue': ('cutting', 'CcTold', 'a controller\'s value'),
    'Taken': ('eventlist', 'ListLeft', 'a call on the list alone: the number r, the count n, the numbers m'),
    'ProfileAnswer': ('profile', 'ProfileTold', 'the check of a list: the number r, and k, 1 for yes and 0 for no'),
    'Chunk': ('chunks', 'ChunkLeft', 'a call that writes into an output: the number r, the bytes n, every byte m of the output'),
    'ParamAnswer': ('params', 'ParamLeft', 'a parameter that is lent by itself: the number r, the parameter p'),
    'ParamValue': ('params', 'ParamTaken', 'the same with the value v'),
    'Told': ('params', 'ParamTold', 'a value alone'),
    'LayersAnswer': ('layers', 'LayersLeft', 'layers that are lent by themselves: the number r, the layers l'),
    'Velocity': ('layers', 'LayersSum', 'the same with the velocity v'),
    'Size': ('events', 'SizeTold', 'the bytes n of an event'),
    'CycleTold': ('ctrack', 'TimeTold', 'a cycle over time: k is 1 where it has the value v, else 0'),
}
LISTED = {**dict.fromkeys(('Outcome', 'Noted', 'Cycled', 'Taken'), 'ℤ'), 'Chunk': 'ℕ'}  # they leave a list besides, or an output: of what
OUTPUT = ('split_note_off', 'write_chunk')  # they leave it in `out`
LETTER = {'track': 't', 'value': 'v', 'budget': 'b', 'count': 'n', 'option': 'o', 'cycles': 'cs', 'param': 'p', 'layers': 'l', 'bytes': 'n', 'found': 'k', 'yes': 'k'}
HOME = {**{k: v[0] for k, v in ANSWERS.items()}, 'Answer': 'lending', 'Track': 'state', 'Budget': 'budget', 'Cycle': 'cycles', 'WriteOption': 'values', 'OnNoteSine': 'tables',
        'NoteParam': 'params', 'Layers': 'layers', 'Event': 'events', 'Made': 'events', 'OnCycleTime': 'reserved', 'BudgetAnswer': 'budget', 'SineAnswer': 'tables',
        'CycleTimeAnswer': 'reserved'}
WORD = r"(?<![\w'\-.])%s(?![\w'\-])"
LENT = ('track', 'param', 'layers', 'event', 'cycle', 'budget', 'count')  # by value to the call, by reference here
# The answers that several calls give: what leaves them where the last parameters point, what its contract says of them, and what is said of it.
LEAVES = {
    'TrackAnswer': ('leave_track', 'TrackLeft answer result track.new', 'The track goes where it was lent.'),
    'TrackValue': ('leave_value', 'ValueLeft answer result value.new track.new', 'The same with a value.'),
    'Outcome': ('leave_outcome', '(result ≡ answer.code) × (count.new ≡ answer.count) × (budget.new ≡ answer.budget)', 'A write\'s count and budget.'),
    'Taken': ('leave_count', '(result ≡ answer.code) × (count.new ≡ answer.count)', 'A list\'s count.'),
    'ParamAnswer': ('leave_param', 'ParamLeft answer result param.new', 'A parameter that is lent by itself.'),
    'ParamValue': ('leave_param_value', 'ParamTaken answer result value.new param.new', 'The same with a value.'),
    'Told': ('leave_told', 'ParamTold answer result value.new', 'A value alone.'),
    'LayersAnswer': ('leave_layers', 'LayersLeft answer result layers.new', 'Layers that are lent by themselves.'),
}


def left_of(answer):
    return 'output' if LISTED.get(answer) == 'ℕ' else 'events'


def snake(name):
    return re.sub(r'(?<=.)([A-Z])', r'_\1', name).lower()


def fields(name):
    return re.findall(r'pub (\w+): ([^,]+),', re.search(r'pub struct %s \{(.*?)\n\}' % name, code_of(HOME[name]), re.S)[1])


def denot(t):
    return {'u32': 'ℕ', 'usize': 'ℕ', 'i32': 'ℤ', 'i64': 'ℤ'}.get(t, re.sub(r'\[(\w+); \w+\]', r'List \1', t))


def code_of(crate):
    return open(f'crates/{crate}/src/lib.rt').read()


def wrapped(text):
    lines, line = [], '//'
    for word in text.split():
        if len(line) + len(word) > 117:
            lines.append(line); line = '//'
        line += ' ' + word
    return '\n'.join(lines + [line])


def split_commas(s):
    out, depth, cur = [], 0, ''
    for ch in s:
        depth += (ch in '([{<') - (ch in ')]}>')
        if ch == ',' and depth == 0:
            out.append(cur.strip()); cur = ''
        else:
            cur += ch
    return [x for x in out + [cur.strip()] if x]


class Call:
    """A function or a method by value: its comment, its parameters as (name, kind, type), its result, and its contract."""
    def __init__(self, crate, name):
        owner, _, short = name.rpartition('::')
        text = code_of(crate)
        if owner:
            text = '\n'.join(b for b in re.findall(r'^impl %s \{\n(.*?)^\}' % owner, text, re.S | re.M))
        self.crate, self.name, self.owner = crate, short, owner
        m = re.search(r'((?: *//[^\n]*\n)*)(?: *#\[[^\n]*\n)* *(?:pub )?fn %s\((.*?)\)(?: -> (\w+|\[\w+; \w+\]))?\s*\n(.*?)\n *\{\n' % short, text, re.S)
        self.comment = ' '.join(l.strip().removeprefix('//').strip() for l in m[1].strip().split('\n'))
        self.result, self.params = m[3], []
        for p in split_commas(m[2]):
            if p in ('self', 'mut self'):
                self.params.append(('self', 'val', owner)); continue
            n, t = [x.strip().removeprefix('mut ') for x in p.split(':')]
            for kind, pat in (('table', r'&mut \[(\w+)\]'), ('slice', r'&\[(\w+)\]'), ('ref', r'&mut (\w+)'), ('val', r'(\w+|\[\w+; \w+\])')):
                k = re.fullmatch(pat, t)
                if k:
                    self.params.append((n, kind, k[1])); break
        assert 'requires' not in m[4], f'{name} has a requires'
        self.ensures = re.sub(r'\s+', ' ', re.fullmatch(r'\s*ensures \{ (.*) \}', m[4], re.S)[1]).replace('«', '').replace('»', '')


WIDE = 100  # of code


class Export:
    """An exported call: its parameters as (name, type), what it hands to the call by value, what it puts where, and its contract."""
    def __init__(self, ref):
        self.ref, _, name = ref.partition('=')
        crate, function = self.ref.split('::', 1)
        self.g = Call(crate, function)
        self.name = 'dollavir_' + (name or self.g.name)
        self.by_target = BY_TARGET.get(self.g.name) if crate == 'reserving' else None
        self.answer = {'loans': 'Kept', 'lending': 'Cycled'}.get(crate, self.g.result)   # what the definition says
        self.result = 'TrackAnswer' if self.answer == 'Kept' else self.g.result          # what the call in the body answers
        self.whole = self.answer not in ANSWERS and self.answer != 'u32' or name == 'track_new'
        self.fields = {} if self.whole or self.answer == 'u32' else dict(fields(self.answer))
        self.signature()
        self.says()

    def signature(self):
        """A record, and a number that the answer has too, is lent; what else the answer has is left where the last parameters point."""
        taken = self.g.params
        if self.by_target:
            taken = [('track', 'val', 'Track'), ('cycles', 'table', 'Cycle')] + [p for p in taken if p[0] not in ('track', 'size', 'cycles')]
        self.params, self.args = [], []
        for n, kind, t in taken:
            n = {'self': snake(t).replace('note_param', 'param'), 'is_big': 'big', 'length': 'len'}.get(n, n)
            lent = kind == 'val' and n in LENT and (t[0].isupper() or n in self.fields) and not self.whole and self.g.name != 'split_note_off'
            way = '&mut ' if n in self.fields else '&'
            self.params.append((n, way + t if lent else {'table': f'&mut [{t}]', 'slice': f'&[{t}]', 'ref': f'&mut {t}'}.get(kind, t)))
            self.args.append('*' * lent + n)
        here = dict(self.params)
        other = {'count': 'out_count', 'value': 'limited'}
        self.out = {f: other[f] if f in here and not here[f].startswith('&') else f for f in self.fields}
        self.params += [(self.out[f], f'&mut {t}') for f, t in self.fields.items() if f != 'code' and self.out[f] not in here]
        given = [n for n, kind, _ in taken if kind in ('ref', 'table')]
        self.stores = [f for f in self.fields if f != 'code' and f not in given]

    def says(self):
        """The definitions of the answer and of the list that is left."""
        e, self.left = self.g.ensures, None
        drawn = re.fullmatch(r'Drawn \((.*)\) result events\.new', e)
        reserved = re.fullmatch(r'Reserved \((.*)\) result cycles\.new', e)
        cycled = re.fullmatch(r'\(result ≡ answer_of \((.*?)\)\) × \(cycles\.new .*\(events\.new ≡ (.*)\)', e)
        both = re.fullmatch(r'\(result ≡ (.*)\) × \((?:events|out)\.new ≡ (.*)\)', e)
        if drawn:
            is_, self.left = f'draw_answer ({drawn[1]})', f'draw_left ({drawn[1]})'
        elif reserved:
            is_ = reserved[1]
        elif cycled or both:
            is_, self.left = (cycled or both).groups()
        else:
            is_ = re.fullmatch(r'result ≡ (.*)', e)[1]
        if self.by_target:
            is_ = is_.replace(' size cycles', ' (length cycles.old) cycles.old')
        self.is_, self.left = self.lent(is_), self.left and self.lent(self.left)

    def lent(self, text):
        """A definition's text, with what is by value there read where it is lent here."""
        for a, b in (('is_big', 'big'), ('self', self.params[0][0] if self.params else '')) + (('length', 'len'),) * any(n == 'length' for n, _, _ in self.g.params):
            text = re.sub(WORD % a, b, text)
        ways = {n: 'old' if t.startswith('&mut') else 'now' for n, t in self.params if t.startswith('&') and '[' not in t}
        return re.sub(WORD % r'(\w+)', lambda m: f'{m[1]}.{ways[m[1]]}' if m[1] in ways and not re.match(r'\.(old|now|new)\b', text[m.end():]) else m[1], text)

    def cites(self):
        """The definitions that the contract cites: module and name."""
        text, own, out = f'{self.is_} {self.left or ""}', [n for n, _ in self.params], []
        used = lambda n: re.search(WORD % re.escape(n), text)
        for module, names in re.findall(r'ghost use (Rattle\.(?!std\b)[^;{]*)\.\{([^}]*)\};', code_of(self.g.crate)):
            out += [(module, n) for n in re.split(r',\s*', names) if used(n) and n not in own]
        return out + [('Rattle.drawing.specs.Calls', n) for n in ('draw_answer', 'draw_left') if used(n)]

    # ---- the function
    def contract(self, alias):
        text = lambda x: re.sub(WORD % r'(\w+)', lambda m: alias.get((self.name, m[1]), m[1]), x)
        if self.whole:
            return f'result ≡ {text(self.is_)}'
        if self.answer == 'u32':
            return f'(result ≡ {text(self.is_)}) × (events.new ≡ {text(self.left)})'
        now = ['result'] + [f'{self.out[f]}.new' for f in self.fields if f != 'code']
        if self.left:
            now.append(f'{"out" if self.g.name in OUTPUT else "events"}.new')
        parts = [f'({text(x)})' for x in (self.is_, self.left) if x] + [' '.join(now)]
        one = f'{ANSWERS[self.answer][1]} {" ".join(parts)}'
        return one if len(one) + 9 * len(re.findall(r'\.(?:old|new|now)\b', one)) < 150 else ANSWERS[self.answer][1] + ' ' + '\n        '.join(parts)

    def comment(self):
        c = self.g.comment
        for n in ('value', 'option', 'bytes', 'limited'):
            if dict(self.params).get(n, '').startswith('&mut'):
                c = re.sub(r' (Refuses [\d, ]+\.)', rf' Leaves it in `{n}`, {"with nothing set" if n == "option" else "0"} where it refuses. \1', c)
        if self.g.name == 'write_chunk':
            c = c.replace('Answers how many bytes the chunk has;', 'Leaves in `bytes` how many bytes the chunk has, 0 where it refuses;')
        if self.g.name == 'read_chunk':
            c = c.replace('Answers how many events the list has.', 'Leaves in `count` how many events the list has.').replace('Then the list is left as it is, and the count handed back.', 'Then the list and the count are left as they are.')
        if self.g.name == 'check_profile':
            c = c.replace('Tells whether the rehearsal player accepts the list: 1 where', 'Leaves in `yes` whether the rehearsal player accepts the list: 1 where').replace('else 0.', 'else 0, as where it refuses.')
        if self.g.name == 'fit_profile':
            c = c.replace('Answers the new count;', 'Leaves the new count in `count`;').replace('then the list is left as it is', 'then the list and the count are left as they are')
        if self.g.name == 'split_note_off':
            c = c.replace('and answers how many they are', 'and leaves their number in `out_count`').replace('then all of `out` is left as it is', 'then all of `out` is left as it is, and `out_count` is `count`')
        return wrapped(c)

    def body(self):
        g, args = self.g, self.args
        call = f'{g.owner or g.crate}::{g.name}'.removeprefix('ctrack::')
        if not self.whole and g.params[0][0] == 'self':
            call, args = f'{self.params[0][0]}.{g.name}', args[1:]
        if self.by_target:
            call, args = f'loans::{self.by_target[0]}', ['*track', 'cycles'] + self.by_target[1]
        if self.whole or self.answer == 'u32':
            return f'    {call}({", ".join(args)})'
        call = f'{call}({", ".join(args)})'
        if self.result in LEAVES:
            to = ', '.join(self.out[f] for f in self.stores)
            leave = LEAVES[self.result][0]
            one = f'    {leave}({call}, {to})'
            return one if len(f'{call}, {to}') <= 60 else f'{bound(call)}\n    {leave}(r, {to})'
        return '\n'.join([bound(call)] + [f'    *{self.out[f]} = r.{f};' for f in self.stores] + ['    r.code'])

    def text(self, alias, way):
        return (f'{self.comment()}\n{way} {listed(self.name, self.params, self.answer if self.whole else "u32", way)}\n'
                f'    ensures {{ {self.contract(alias)} }}\n{{\n{self.body()}\n}}\n')


def bound(call):
    """What a call answers, named: on a line, or its arguments on one of their own."""
    line = f'    let r = {call};'
    name, _, args = call.partition('(')
    return line if len(line) <= WIDE else f'    let r = {name}(\n        {args[:-1]},\n    );'


def listed(name, params, result, way):
    """A function's head, over several lines where one is too short."""
    ps = [f'{n}: {t}' for n, t in params]
    head = f'{name}({", ".join(ps)}) -> {result}'
    return head if len(way.split('\n')[-1]) + 1 + len(head) <= WIDE else '\n'.join([f'{name}('] + [f'    {p},' for p in ps] + [f') -> {result}'])


def exports():
    sections = []
    for line in TABLE.strip().split('\n'):
        if line[0] != ' ':
            sections.append((line, []))
        else:
            sections[-1][1].extend(Export(ref) for ref in line.split())
    return sections


# ---- the files

HEAD = '''// The calls as a C program makes them, by the names of docs/API.md after `dollavir_`. A record that a call changes is lent by `&mut`, one
// that it reads by `&`; what a call answers besides its number goes to where its last parameters point. The number is that of
// document 01's table. Refused, all that is lent stays as it is, and a value that is answered is 0. Written by tools/ctrack.py.
#![tactic(auto)]

'''
OWN_CITES = {'Rattle.sines.specs.Kinds': ['number_of', 'sine_type'], 'Rattle.reserved.specs.Cycle': ['said', 'calc_of'], 'Rattle.ctrack.specs.Kinds': ['told_of']}
OWN = '''// The code of the bends, for whichever of the two a target is.
const BENDS: i32 = 129;

// What a cycle over time answers, in numbers: `found` is 1 where it has a value, else 0.
#[derive(Clone, Copy)]
pub struct CycleTold {
    pub code: u32,
    pub found: u32,
    pub value: i32,
}

fn cycle_told(answer: Result<Option<i32>, Refusal>) -> CycleTold
    ensures { result ≡ told_of (said answer) }
{
    match answer {
        Ok(Some(value)) => CycleTold {
            code: 0,
            found: 1,
            value,
        },
        Ok(None) => CycleTold {
            code: 0,
            found: 0,
            value: 0,
        },
        Err(refusal) => CycleTold {
            code: refusal.number(),
            found: 0,
            value: 0,
        },
    }
}

// The value of a cycle at `timepos`, and in `found` whether it has one: none before the start, and none of a cycle without values or with a length of 0 or less. Refuses 4.
fn cycle_time_calc(cycle: OnCycleTime, timepos: i64) -> CycleTold
    ensures { result ≡ told_of (calc_of cycle timepos) }
{
    cycle_told(cycle.calc(timepos))
}
'''
SINE_TYPE = '''// ---- the kind of a sine
// The kind of a sine that a number names, as `write_sine` takes it: 1 and 2 the quarters up and down, any other number the full
// turn, which is 0. Refuses nothing.
{way} dollavir_sine_type(v: i32) -> u32
    ensures { result ≡ number_of (sine_type v) }
{
    SineType::from_i(i64::from(v)) as u32
}
'''


def ghost_uses(modules):
    return [f'ghost use {m}.{{{", ".join(names)}}};' for m, names in modules.items()]


def written():
    """The two files: path and text."""
    path = 'crates/ctrack/src/lib.rt'
    stands = open(path).read()
    way = re.search(r'((?:#\[unsafe\(no_mangle\)\]\n)?pub (?:extern "C" )?fn) dollavir_track_new\(', stands)[1]
    sections = exports()
    every = [x for _, xs in sections for x in xs]
    lent = [x for x in every if x.fields]
    # a name that two crates define is said with its crate's, but for the first
    cited, uses, alias = {}, {}, {}
    for x in every:
        for module, n in x.cites():
            cited.setdefault(n, {}).setdefault(module, []).append(x)
    for n, modules in cited.items():
        for i, (module, xs) in enumerate(modules.items()):
            short = n if i == 0 else re.match(r'Rattle\.(\w+)', module)[1] + '_' + n
            uses.setdefault(module, []).append(n if short == n else f'{n} as {short}')
            alias.update({(x.name, n): short for x in xs})
    records = dict.fromkeys(ANSWERS[x.answer][1] for x in lent)
    types = set(re.findall(r'[A-Z]\w*', ' '.join(t for x in every for _, t in x.params)))
    types |= {x.g.owner for x in every if x.whole and x.g.owner} | {x.result for x in every if x.whole and x.result[0].isupper()} | set(LEAVES)
    out = [HEAD + 'ghost use Rattle.std.specs.Prelude.{◌≡◌, length};']
    for module, names in OWN_CITES.items():
        uses[module] = list(dict.fromkeys(uses.get(module, []) + names))
    out += ghost_uses(uses) + ghost_uses({'Rattle.ctrack.specs.Lent': records}) + ['']
    brought = {}
    for t in sorted(types) + ['Refusal', 'SineType', 'NORMAL']:
        home = {'Refusal': 'numbers', 'SineType': 'sines', 'NORMAL': 'tables'}.get(t) or HOME[t]
        if home != 'ctrack':
            brought.setdefault(home, set()).add(t)
    out += [f'use {home}::{sorted(ts)[0]};' if len(ts) == 1 else f'use {home}::{{{", ".join(sorted(ts))}}};' for home, ts in sorted(brought.items())]
    out += ['', '// What a call by value answers, left where it was lent or is asked for; the number is answered.']
    for a, (name, says, about) in LEAVES.items():
        ps = [(f, t) for f, t in fields(a) if f != 'code']
        out.append(f'// {about}\nfn ' + listed(name, [('answer', a)] + [(f, f'&mut {t}') for f, t in ps], 'u32', 'fn') + f'\n    ensures {{ {says} }}\n{{\n'
                   + ''.join(f'    *{f} = answer.{f};\n' for f, _ in ps) + '    answer.code\n}\n')
    out.append(OWN)
    for title, xs in sections:
        out += [f'// ---- {title[0].lower() + title[1:]}'] + [x.text(alias, way) for x in xs]
    # what the contracts say
    spec = ['-- What a call that is lent its records promises: of what the call by value is defined to answer and to leave, its number and all that',
            '-- is lent, as it is afterwards. A call\'s own definition stands with the call by value. Written by tools/ctrack.py.',
            'use Rattle.std.specs.Prelude.{◌≡◌, List, ℕ, ℤ}']
    answers = list(dict.fromkeys(x.answer for x in lent))
    for t in dict.fromkeys(t for a in answers for t in [a] + re.findall(r'[A-Z]\w+', ' '.join(denot(t) for _, t in fields(a)).replace('List ', ''))):
        spec.append(f'use Rattle.{HOME[t]}.specs.declared.{t}.{{{t}}}')
    for a in answers:
        (_, name, about), besides = ANSWERS[a], a in LISTED
        parts = [(f, t) for f, t in fields(a) if f != 'code']
        of = LISTED.get(a)
        args = f'(a : {a})' + f' (l : List {of})' * besides + ' (r : ℕ)' + ''.join(f' ({LETTER[f]} : {denot(t)})' for f, t in parts) + f' (m : List {of})' * besides
        spec += ['', f'-- {about}', f'pub record {name} {args} : Type 0 where', '  pub code : r ≡ a.code'] + [f'  pub {f} : {LETTER[f]} ≡ a.{f}' for f, _ in parts] + [f'  pub {left_of(a)} : m ≡ l'] * besides
    return {path: '\n'.join(out + [SINE_TYPE.replace('{way}', way)]), 'crates/ctrack/specs/Lent.antt': '\n'.join(spec) + '\n'}


def main():
    stale = {path: text for path, text in written().items() if open(path).read() != text}
    if sys.argv[1:] == ['--check']:
        if stale:
            sys.exit(f'ctrack: {" and ".join(stale)} are not what tools/ctrack.py writes')
    else:
        for path, text in stale.items():
            open(path, 'w').write(text)


if __name__ == '__main__':
    main()
