#!/usr/bin/env python3
"""Draws docs/cut.svg, the volume of examples/passage: above in the song, with the cut marked, and below in the passage.

    python3 tools/passage.py            writes it
    python3 tools/passage.py --check    says whether it is what it would write

The song's events and the cut are those of examples/passage.calls.txt, the passage's are those that the program printed, the last line of
examples/passage.calls.out. Where the passage did not answer what the song answered, each at its time, the program stops.
"""
import os, sys

TOP = os.path.dirname(os.path.dirname(os.path.abspath(__file__)))
PLACE, APPEND, ASK, CUT, TIMEPOS = 'docs/cut.svg', 301, 305, 310, 802
CONTROLLER, VOLUME, BAR = 2, 7, 384
WIDTH, HEIGHT, LEFT, RIGHT = 720, 330, 34, 690  # the picture, and where times begin and end in it
FLOORS, HIGH, LOW, MOST = (146, 294), 96, 50, 120  # the two axes, the room above each, and the values at its ends
LINE, MARK, FAINT = '#2c5f8a', '#c0392b', '#dddddd'


def read(name):
    return open(os.path.join(TOP, 'examples', name)).read().splitlines()


def calls_of(lines):
    """Each call of the text: its number and its arguments, without its name."""
    rows = [line.split('#')[0].split() for line in lines]
    return [(int(row[0]), [int(word) for word in row[1:] if not word[0].isalpha()]) for row in rows if row]


def answers_of(calls, lines):
    """What was asked before the cut and after it: controller, time and answer, in the order of the calls. Each call printed one line."""
    halves, now = [[]], 0
    for (op, arguments), line in zip(calls, lines):
        if line.split()[:2] != [str(op), '0']:
            sys.exit(f'passage: call {op} was refused, or another line was printed for it: {line}')
        if op == TIMEPOS:
            now = arguments[0]
        elif op == ASK:
            halves[-1].append((arguments[0], now, int(line.split()[2])))
        elif op == CUT:
            halves.append([])
        elif op == 901:
            break
    return halves


def shown(line):
    """The events of a section E: kind, time, channel and three values each, then the length of its data and so many bytes."""
    words, events = [int(word) for word in line.split()[1:]], []
    at = 1
    while at < len(words):
        events.append(words[at:at + 6])
        at += 7 + words[at + 6]
    if len(events) != words[0]:
        sys.exit('passage: the last line is not a list of events')
    return events


def steps_of(events):
    """When the volume is set, and to what, in the order of time."""
    return sorted(((e[1], e[4]) for e in events if e[0] == CONTROLLER and e[3] == VOLUME), key=lambda step: step[0])


def text(x, y, words, more=''):
    return f'<text x="{x:.0f}" y="{y:.0f}"{more}>{words}</text>'


def line(x1, y1, x2, y2, more):
    return f'<line x1="{x1:.0f}" y1="{y1:.0f}" x2="{x2:.0f}" y2="{y2:.0f}" {more}/>'


def curve(steps, end, floor, x, folded):
    """The axis with its bars, the volume as a line of steps, and each value where it is set."""
    y = lambda value: floor - HIGH * (value - LOW) / (MOST - LOW)
    body = [line(x(0), floor, x(end), floor, 'stroke="#555"')]
    for bar in range(0, end + 1, BAR):
        body += [line(x(bar), floor, x(bar), floor + 5, 'stroke="#555"'), text(x(bar), floor + 18, bar, ' text-anchor="middle" fill="#555"')]
    points = [(x(time), y(value)) for k, (start, value) in enumerate(steps) for time in (start, (steps[k + 1:] + [(end, 0)])[0][0])]
    path = ' '.join(f'{px:.0f},{py:.0f}' for px, py in points)
    body.append(f'<polyline points="{path}" fill="none" stroke="{LINE}" stroke-width="2"/>')
    for time, value in steps:
        fill = MARK if folded and time == 0 else LINE
        body.append(f'<circle cx="{x(time):.0f}" cy="{y(value):.0f}" r="3" fill="{fill}"/>' + text(x(time) + 5, y(value) - 6, value))
    return body


def picture(song, passage, cut, asked):
    last = max(e[1] for e in song)
    end = (last // BAR + 1) * BAR
    x = lambda time: LEFT + (RIGHT - LEFT) * time / end
    body = [line(x(time), floor - HIGH, x(time), floor, f'stroke="{FAINT}"') for floor in FLOORS for time in asked]
    body += [line(x(cut), floor - HIGH - 20, x(cut), floor, f'stroke="{MARK}" stroke-dasharray="5 4"') for floor in FLOORS]
    body.append(text(x(cut), 22, f'cut at {cut}', f' text-anchor="middle" fill="{MARK}"'))
    body += curve(steps_of(song), end, FLOORS[0], x, False)
    body += curve(steps_of(passage), end - cut, FLOORS[1], lambda time: x(cut + time), True)
    body.append(text(LEFT, 22, 'Volume in the song', ' font-weight="bold"'))
    body.append(text(LEFT, 214, 'Volume in the passage', ' font-weight="bold"'))
    body.append(text(LEFT, 236, f'Its time is the song\'s less {cut}.'))
    body.append(text(LEFT, 256, 'What stood at the cut is set at 0.', f' fill="{MARK}"'))
    body.append(text(LEFT, 276, 'Thin lines: where both were asked, and answered the same.', ' fill="#555"'))
    return (f'<svg xmlns="http://www.w3.org/2000/svg" viewBox="0 0 {WIDTH} {HEIGHT}" width="{WIDTH}" height="{HEIGHT}" font-family="sans-serif" font-size="13">\n'
            f'<rect width="{WIDTH}" height="{HEIGHT}" fill="white"/>\n' + '\n'.join(body) + '\n</svg>\n')


def main():
    calls, printed = calls_of(read('passage.calls.txt')), read('passage.calls.out')
    halves = answers_of(calls, printed)
    cuts = [arguments[0] for op, arguments in calls if op == CUT]
    if len(cuts) != 1 or len(halves) != 2 or not halves[0]:
        sys.exit('passage: the script has to ask, cut once, and ask again')
    cut = cuts[0]
    for before, after in zip(*halves):
        if (before[0], before[1] - cut, before[2]) != after:
            sys.exit(f'passage: controller {before[0]} is {before[2]} in the song at {before[1]}, but of the passage was answered: controller {after[0]} is {after[2]} at {after[1]}')
    if len(halves[0]) != len(halves[1]):
        sys.exit('passage: song and passage are not asked the same')
    song = [arguments for op, arguments in calls if op == APPEND]
    drawn = picture(song, shown(printed[-1]), cut, sorted({time for _, time, _ in halves[0]}))
    path = os.path.join(TOP, PLACE)
    if sys.argv[1:] != ['--check']:
        open(path, 'w').write(drawn)
    elif not os.path.exists(path) or open(path).read() != drawn:
        sys.exit(f'passage: {PLACE} is not what tools/passage.py writes')


main()
