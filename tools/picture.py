#!/usr/bin/env python3
"""Draws docs/crates.svg, the crates with an arrow to each that one leans on, and docs/call.svg, the way of one call.

    python3 tools/picture.py            writes both
    python3 tools/picture.py --check    says whether both are what it would write

The crates and arrows are those of crates.txt; an arrow that others imply is left out. The call's steps stand below (WAY): a step whose crate
or function is not there stops the program, so that the picture cannot outlive the code.
"""
import os, re, sys

TOP = os.path.dirname(os.path.dirname(os.path.abspath(__file__)))
WIDE, HIGH, ACROSS, UP = 92, 26, 14, 62  # a box, and the room between boxes and between rows
COLOURS = [
    ('#e8eef7', 'laws, numbers, lists', {'laws', 'numbers', 'budget', 'events', 'eventlist', 'counted', 'shapes', 'sines', 'values', 'text', 'quantities', 'payments'}),
    ('#e9f5ea', 'what is done to the list', {'sorting', 'notes', 'cutting', 'chunks', 'passage'}),
    ('#fdf3df', 'parameters, reservations, curves', {'reserved', 'params', 'layers', 'offers', 'writing', 'cycles', 'tables'}),
    ('#f9e4e4', "the track and a product's calls",
     {'state', 'playing', 'drawing', 'noting', 'waving', 'reserving', 'cycling', 'lending', 'loans', 'track', 'ctrack', 'ctrack_c', 'marked', 'series'}),
    ('#eeeeee', 'programs: tape, comparison, benchmark', set()),
]
# crate, function, what it does for `write_cc_on_time`
WAY = [
    ('drawing', 'write_cc_on_time', 'the public call: a controller is a target'),
    ('drawing', 'asked', '1, 2, 3, 4 in this order: list, target, numbers, and what was handed in but the events'),
    ('state', 'track_ok', 'every range and rule of a track (4)'),
    ('drawing', 'write_of', 'takes the track apart once: time, channel, frequency, option'),
    ('writing', 'write_curve', 'the triples as a list of offers, and their length'),
    ('eventlist', 'survey', 'every event may be stored (4), and where the first stands that the window takes'),
    ('writing', 'lacks_room', '7 is asked before anything changes'),
    ('eventlist', 'clear_windows', "the target's events within the window go, and what is kept moves once"),
    ('offers', 'next_triple', 'one piece of the curve after the other'),
    ('shapes', 'curve_value', "a step's value, in f32 as in the Rust"),
    ('offers', 'take_offer', 'an equal value is dropped, a new one is written'),
    ('values', 'one_value', 'random, range, delay, clamp'),
    ('budget', 'reserve_event', '8 bytes, or the flag and no event'),
    ('eventlist', 'append', 'behind the others'),
]


def crates():
    """Each crate with those that it leans on and no other of them reaches."""
    named = {}
    for line in open(os.path.join(TOP, 'crates.txt')):
        if line.strip() and not line.startswith('#'):
            name, rest = line.split(':')
            named[name.split()[0]] = rest.split()
    below = {}
    for name, direct in named.items():  # the lowest stand first
        below[name] = set(direct).union(*(below[d] for d in direct))
    return {name: [d for d in direct if not any(d in below[e] for e in direct)] for name, direct in named.items()}


def rows_of(arrows):
    """Rows from the lowest up, of crates and, where an arrow passes a row, of its bends (above, below, row)."""
    level = {}
    for name, direct in arrows.items():
        level[name] = 1 + max((level[d] for d in direct), default=-1)
    rows, lines = [[] for _ in range(max(level.values()) + 1)], []
    for name in arrows:
        rows[level[name]].append(name)
    for name, direct in arrows.items():
        for d in direct:
            chain = [name] + [(name, d, k) for k in range(level[name] - 1, level[d], -1)] + [d]
            for bend in chain[1:-1]:
                rows[bend[2]].append(bend)
            lines.append(chain)
    return rows, lines


def place(rows, lines):
    """Where the middle of each box and bend stands: each near the mean of what it is tied to, none over another."""
    tied = {}
    for chain in lines:
        for a, b in zip(chain, chain[1:]):
            tied.setdefault(a, []).append(b)
            tied.setdefault(b, []).append(a)
    width = lambda v: WIDE + ACROSS if isinstance(v, str) else ACROSS
    at = {}
    for row in rows:
        for i, v in enumerate(row):
            at[v] = (i - len(row) / 2) * (WIDE + ACROSS)
    for turn in range(200):
        for row in rows if turn % 2 else reversed(rows):
            wish = {v: sum(at[t] for t in tied.get(v, [v])) / len(tied.get(v, [v])) for v in row}
            row.sort(key=lambda v: (wish[v], str(v)))
            left = None
            for v in row:  # as near to the wish as the one before lets it
                left = wish[v] if left is None else max(wish[v], left + (width(v) + last) / 2)
                at[v], last = left, width(v)
            off = sum(at[v] - wish[v] for v in row) / len(row)
            for v in row:
                at[v] -= off
    least = min(at.values())
    return {v: x - least + WIDE for v, x in at.items()}


def svg(width, height, body):
    return (f'<svg xmlns="http://www.w3.org/2000/svg" viewBox="0 0 {width:.0f} {height:.0f}" font-family="sans-serif" font-size="13">\n'
            f'<rect width="{width:.0f}" height="{height:.0f}" fill="white"/>\n' + '\n'.join(body) + '\n</svg>\n')


def colour(name):
    return next((c for c, _, group in COLOURS if name in group), COLOURS[-1][0])


def box(x, y, wide, name, fill):
    return (f'<rect x="{x - wide / 2:.0f}" y="{y - HIGH / 2:.0f}" width="{wide}" height="{HIGH}" rx="5" fill="{fill}" stroke="#555"/>'
            f'<text x="{x:.0f}" y="{y + 4:.0f}" text-anchor="middle">{name}</text>')


def picture_of_crates():
    rows, lines = rows_of(crates())
    at = place(rows, lines)
    level = {v: k for k, row in enumerate(rows) for v in row}
    high = len(rows) * UP + 40
    y = lambda v: high - 40 - level[v] * UP
    body = []
    for chain in lines:
        points = [(at[chain[0]], y(chain[0]) + HIGH / 2)] + [(at[v], y(v)) for v in chain[1:-1]] + [(at[chain[-1]], y(chain[-1]) - HIGH / 2)]
        path = ' '.join(f'{px:.0f},{py:.0f}' for px, py in points)
        body.append(f'<polyline points="{path}" fill="none" stroke="#999"/>')
    for row in rows:
        for v in row:
            if isinstance(v, str):
                body.append(box(at[v], y(v), WIDE, v, colour(v)))
    for k, (fill, words, _) in enumerate(COLOURS):
        body.append(f'<rect x="12" y="{12 + 20 * k}" width="14" height="14" fill="{fill}" stroke="#555"/><text x="32" y="{24 + 20 * k}">{words}</text>')
    return svg(max(at.values()) + WIDE, high, body)


def picture_of_call():
    body, y = [], 30
    for k, (crate, function, words) in enumerate(WAY):
        source = ''.join(open(os.path.join(TOP, 'crates', crate, 'src', f)).read() for f in os.listdir(os.path.join(TOP, 'crates', crate, 'src')))
        if not re.search(rf'\bfn {function}\b', source):
            sys.exit(f'picture: crate {crate} has no function {function}')
        if k:
            body.append(f'<line x1="150" y1="{y - 42 + HIGH / 2:.0f}" x2="150" y2="{y - HIGH / 2:.0f}" stroke="#999"/>')
        body.append(box(150, y, 240, f'{crate}::{function}', colour(crate)) + f'<text x="290" y="{y + 4}">{words}</text>')
        y += 42
    return svg(800, y, body)


def main():
    stale = []
    for name, text in (('crates.svg', picture_of_crates()), ('call.svg', picture_of_call())):
        path = os.path.join(TOP, 'docs', name)
        if sys.argv[1:] == ['--check']:
            if not os.path.exists(path) or open(path).read() != text:
                stale.append(name)
        else:
            open(path, 'w').write(text)
    if stale:
        sys.exit(f'picture: docs/{" and docs/".join(stale)} are not what tools/picture.py writes')


main()
