#!/usr/bin/env python3
"""What a client of the library is told, from the sources: the functions `dollavir_X` of crates/ctrack, which are exported by these names, and the records in their types.

    python3 tools/header.py            in the repository's folder: writes
        include/dollavir.h             types, prototypes, and the size, alignment and every offset of each type as _Static_assert
        include/dollavir.rs            the same for a Rust client, to be included in a module of its own
        crates/ctrack/proofs/Places.antt   the same numbers as theorems about the layout that the compiler uses
    python3 tools/header.py --check    writes nothing, and fails where one of the three is not what it would write
"""
import os, re, sys

CRATE = 'ctrack'
C = {'u8': 'uint8_t', 'u32': 'uint32_t', 'u64': 'uint64_t', 'usize': 'size_t', 'i32': 'int32_t', 'i64': 'int64_t'}
BYTES = {'u8': 1, 'u32': 4, 'i32': 4, 'u64': 8, 'i64': 8, 'usize': 8}
LIMIT = 'LIST_LIMIT'  # of `counted`; a client has it under the same name
STRUCT = r'#\[repr\(C\)\]\n(?:#\[derive\([^)]*\)\]\n)?'  # what stands before a record
LAYOUT = 2  # one more whenever a record's size or a field's place changes


def source(crate):
    folder = f'crates/{crate}/src'
    return '\n'.join(open(f'{folder}/{f}').read() for f in sorted(os.listdir(folder)) if f.endswith('.rt'))


def constant(name, crate):
    return re.search(r'const %s: usize = (\d+);' % name, source(crate))[1]


def homes_of(text):
    """Of each name that the file brings in the crate that it comes from."""
    return {s: c for c, names in re.findall(r'^(?:pub )?use (\w+)::([^;]*);', text, re.M) for s in re.findall(r'\w+', names)}


class Library:
    """The exported functions, as (name, comment, parameters, result), the title that some stand under, and the structs that their
    types reach, inner ones first."""
    def __init__(self):
        text = source(CRATE)
        shape = r'((?:^//[^\n]*\n)+)(?:#\[unsafe\(no_mangle\)\]\n)?pub (?:extern "C" )?fn (dollavir_\w+)\((.*?)\)(?: -> (\w+))?\s*\n'
        self.functions, self.titles = [], {}
        for comment, name, params, result in re.findall(shape, text, re.S | re.M):
            lines = [l.removeprefix('//').strip() for l in comment.strip().split('\n') if not l.startswith('// ----')]
            self.titles[name] = [l.removeprefix('// ---- ') for l in comment.split('\n') if l.startswith('// ----')]
            ps = [tuple(x.strip() for x in p.split(':')) for p in re.split(r',(?![^\[]*\])', params) if p.strip()]
            self.functions.append((name, ' '.join(lines), ps, result))
        self.homes = homes_of(text)
        self.structs, self.limit = {}, int(constant(LIMIT, 'counted'))
        for _, _, ps, result in self.functions:
            for t in [t for _, t in ps] + [result]:
                for s in re.findall(r'\b[A-Z]\w*', t or ''):
                    self.reach(s, self.homes.get(s, CRATE))

    def reach(self, name, crate):
        if name in self.structs:
            return
        text = source(crate)
        m = re.search(STRUCT + r'pub struct %s \{\n(.*?)\n\}' % name, text, re.S)
        if not m:
            sys.exit(f'{crate}: no #[repr(C)] struct {name}')
        homes = homes_of(text)
        fields = []
        for f, t in re.findall(r'pub (\w+): ([^,]+),', m[1]):
            a = re.fullmatch(r'\[(\w+); (\w+)\]', t)
            of, n = (a[1], a[2]) if a else (t, None)
            if n and not n.isdigit() and n != LIMIT:
                n = constant(n, homes.get(n, crate))
            if of[0].isupper():
                self.reach(of, homes.get(of, crate))
            fields.append((f, of, n))
        about = re.search(r'((?:^//[^\n]*\n)*)' + STRUCT + 'pub struct %s ' % name, text, re.M)[1]
        self.structs[name] = (crate, fields, ' '.join(l.removeprefix('//').strip() for l in about.strip().split('\n')))

    def bytes_of(self, t):
        return (BYTES[t], BYTES[t]) if t in BYTES else self.layout(t)[:2]

    def layout(self, name):
        """Size, alignment, and the offset of each field, as C lays a struct out."""
        end, most, places = 0, 1, []
        for f, t, n in self.structs[name][1]:
            size, align = self.bytes_of(t)
            end = -(-end // align) * align
            places.append(end)
            end, most = end + size * (self.limit if n == LIMIT else int(n or 1)), max(most, align)
        return -(-end // most) * most, most, places


def wrapped(text, start, width=110):
    lines, line = [], start
    for word in text.split():
        if len(line) + 1 + len(word) > width:
            lines.append(line); line = start
        line += (' ' if line and not line.endswith(' ') else '') + word
    return lines + [line]


def snake(name):
    return 'dollavir_' + re.sub(r'(?<=.)([A-Z])', r'_\1', name).lower()


def numbers(lib):
    return ['0 done', '1 the list is not a whole number of records, its count is above it, or the cycle table has not sixteen', '2 a target or controller argument is none',
            f'3 an argument list has more than {lib.limit} numbers', '4 a number is against its range or rule, or a resulting event time is more than 2^42 from 0',
            '5 a layer above 15', '6 no place in a reservation table', '7 the list that is left holds more events than the buffer',
            '10 the list is not sorted, its first time is below 0, or a gap (the first from time 0) is above 268,435,455',
            '11 a kind that is not written, or a field outside its MIDI width, which is 0 to 16,383 for a bend', '12 the output is too short',
            '13 not a track chunk, or its length is not that of the bytes behind it',
            '14 an event that is cut short or faulty', '15 no end of track behind the last event, or bytes behind it',
            '17 events on more than one channel', '18 a time below 0']


ABOUT = ['What a function answers as a 32-bit number is one of this table; where it is not 0, all that is lent is as it was:']
ASKED = ('A pointer must be valid, aligned and not null, also where its length is 0, and what two parameters point at must not overlap. '
         'A slice is a pointer and the number of its elements. The event list has eight numbers a record: kind, time, channel, v1, v2, v3, offset, length. '
         'What a function does not read it does not test: dollavir_write_cc_on_note and dollavir_write_cc_on_cycle only append, and ask no event of the list.')
LIMIT_IS = 'How many numbers a list may have.'
LAYOUT_IS = 'The layout\'s number: 1 had lists of 96. A host compiled for another must be compiled again; the size of a track is asserted below.'


def c_type(t):
    return C.get(t) or snake(t)


def c_length(n):
    return n if n.isdigit() else f'DOLLAVIR_{n}'


def c_header(lib):
    out = ['/* The calls of Dollavir from C. Made by tools/header.py from crates/ctrack/src; not edited by hand.', ' *'] + [f' * {l}' for l in ABOUT] + [f' *   {l}' for l in numbers(lib)]
    out += wrapped(ASKED, ' *') + [' */', '#ifndef DOLLAVIR_H', '#define DOLLAVIR_H', '', '#include <stddef.h>', '#include <stdint.h>', '', '#ifdef __cplusplus', 'extern "C" {', '#endif', '']
    out += comment(LIMIT_IS) + [f'#define DOLLAVIR_{LIMIT} {lib.limit}'] + comment(LAYOUT_IS) + [f'#define DOLLAVIR_LAYOUT {LAYOUT}', '']
    for name, (_, fields, about) in lib.structs.items():
        out += comment(about)
        out += ['typedef struct {'] + [f'    {c_type(t)} {f}{f"[{c_length(n)}]" if n else ""};' for f, t, n in fields] + [f'}} {snake(name)};', '']
    out += ['#if defined(__STDC_VERSION__) && __STDC_VERSION__ >= 201112L', '_Static_assert(sizeof(size_t) == 8, "size_t");']
    for name, (_, fields, _) in lib.structs.items():
        size, align, places = lib.layout(name)
        out.append(f'_Static_assert(sizeof({snake(name)}) == {size} && _Alignof({snake(name)}) == {align}, "{snake(name)}");')
        out += [f'_Static_assert(offsetof({snake(name)}, {f}) == {o}, "{snake(name)}.{f}");' for (f, _, _), o in zip(fields, places)]
    out += ['#endif', '']
    for name, about, ps, result in lib.functions:
        args = []
        for n, t in ps:
            m = re.fullmatch(r'&(mut )?(?:\[(\w+)\]|(\w+))', t)
            if not m:
                args.append(f'{c_type(t)} {n}'); continue
            args.append(f'{"" if m[1] else "const "}{c_type(m[2] or m[3])} *{n}')
            if m[2]:
                args.append(f'size_t {n}_length')
        listed = ', '.join(a.replace(' ', '\0') for a in args) or 'void'  # no line ends inside a parameter
        lines = [l.replace('\0', ' ') for l in wrapped(f'{c_type(result) if result else "void"} {name}({listed});', '')]
        out += [f'/* ---- {t} ---- */\n' for t in lib.titles.get(name, [])] + comment(about) + [lines[0]] + ['    ' + l for l in lines[1:]] + ['']
    return '\n'.join(out + ['#ifdef __cplusplus', '}', '#endif', '', '#endif', ''])


def comment(text):
    if not text:
        return []
    lines = wrapped(text, '   ', 114)
    return ['/* ' + lines[0].strip()] + lines[1:-1] + [lines[-1] + ' */'] if len(lines) > 1 else [f'/* {lines[0].strip()} */']


def rust(lib):
    out = ['// The calls of Dollavir for a Rust client that links the library. Made by tools/header.py from crates/ctrack/src; not edited by hand.']
    out += ['// ' + l for l in ABOUT] + ['//   ' + l for l in numbers(lib)] + wrapped(ASKED, '//') + ['']
    out += wrapped(LIMIT_IS, '//', 114) + [f'pub const {LIMIT}: usize = {lib.limit};'] + wrapped(LAYOUT_IS, '//', 114) + [f'pub const LAYOUT: u32 = {LAYOUT};', '']
    for name, (_, fields, about) in lib.structs.items():
        out += wrapped(about, '//', 114) * bool(about) + ['#[repr(C)]', '#[derive(Clone, Copy, Debug, PartialEq, Eq)]', f'pub struct {name} {{']
        out += [f'    pub {f}: {f"[{t}; {n}]" if n else t},' for f, t, n in fields] + ['}', '']
    out += ['const _: () = assert!(core::mem::size_of::<usize>() == 8);']
    for name, (_, fields, _) in lib.structs.items():
        size, align, places = lib.layout(name)
        out.append(f'const _: () = assert!(core::mem::size_of::<{name}>() == {size} && core::mem::align_of::<{name}>() == {align});')
        out += [f'const _: () = assert!(core::mem::offset_of!({name}, {f}) == {o});' for (f, _, _), o in zip(fields, places)]
    out += ['', 'extern "C" {']
    for name, about, ps, result in lib.functions:
        args = []
        for n, t in ps:
            m = re.fullmatch(r'&(mut )?(?:\[(\w+)\]|(\w+))', t)
            if not m:
                args.append(f'{n}: {t}'); continue
            args.append(f'{n}: *{"mut" if m[1] else "const"} {m[2] or m[3]}')
            if m[2]:
                args.append(f'{n}_length: usize')
        out += [f'    // ---- {t}\n' for t in lib.titles.get(name, [])] + wrapped(about, '    //', 114) + [f'    pub fn {name}({", ".join(args)})' + (f' -> {result}' if result else '') + ';', '']
    return '\n'.join(out[:-1] + ['}', ''])


TYPES = ['(ty_int w)', 'ty_bool', '(ty_float f)', 'ty_ptr', '(ty_ref κ μ τ)', '(ty_array τ n)', 'ty_unit', '(ty_enum ν τss)', '(ty_param n)', '(ty_const n)', '(ty_array_p τ n)', '(ty_named ν τs)']


def theorems(lib):
    out = ['-- Where the fields of each record lie that the library is handed or hands out, as the machine has them: its size, its alignment, and the place',
           '-- of each field. include/dollavir.h asserts the same numbers of the same records. Made by tools/header.py.',
           'use mathlib.Core.Path.{◌≡◌, refl}', 'use mathlib.Core.List.{List, [], ◌∷◌}', 'use Prim.Native.Nat.{ℕ, zero, ◌+◌}',
           'use mir.Syntax.{Ty, Tys, tnil, tcons, ty_int, ty_bool, ty_float, ty_ptr, ty_ref, ty_array, ty_unit, ty_struct, ty_enum, ty_param, ty_const, ty_array_p, ty_named}', 'use prog.Memory.{size, align, up}']
    for name, (crate, _, _) in lib.structs.items():
        out.append(f"use Rattle.{crate}.proofs.{name}.TheLaws as {name}'")
    out += ['', '-- the place of each field, where the first may stand at k', 'abbrev pub places : ℕ → Tys → List ℕ', 'places k tnil = []',
            'places k (tcons τ τs) = up (align τ) k ∷ places (up (align τ) k + size τ) τs', '',
            '-- a struct\'s size, alignment and places', 'abbrev pub lies : Ty → List ℕ', 'lies (ty_struct ν τs) = size (ty_struct ν τs) ∷ align (ty_struct ν τs) ∷ places zero τs']
    out += [f'lies {t} = []' for t in TYPES]
    for name in lib.structs:
        size, align, places = lib.layout(name)
        low = snake(name).removeprefix('dollavir_').replace('_', '-')
        out += ['', f"pub {low}-lies : lies {name}'.mir ≡ " + ' ∷ '.join(map(str, [size, align] + places)) + ' ∷ []', f'{low}-lies = refl']
    return '\n'.join(out) + '\n'


def main():
    lib = Library()
    both = {snake(s) for s in lib.structs} & {f[0] for f in lib.functions}
    if both:
        sys.exit(f'a type and a function have one name: {both}')
    files = {'include/dollavir.h': c_header(lib), 'include/dollavir.rs': rust(lib), f'crates/{CRATE}/proofs/Places.antt': theorems(lib)}
    stale = [f for f, text in files.items() if not os.path.exists(f) or open(f).read() != text]
    if sys.argv[1:] == ['--check']:
        for f in stale:
            print(f'{f} is not what tools/header.py makes')
        sys.exit(1 if stale else 0)
    os.makedirs('include', exist_ok=True)
    for f in stale:
        open(f, 'w').write(files[f]); print('wrote', f)


if __name__ == '__main__':
    main()
