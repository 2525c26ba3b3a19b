#!/usr/bin/env python3
"""Holds what the library reads of MIDI files that other people's programs wrote against what those were handed, and against what other people's readers read. tools/writers runs it.

    python3 tools/writers.py SEED COUNT FOLDER PROGRAM ..     PROGRAM .. is tools/writers.c, built; FOLDER gets the files

mido, csvmidi and libsmf are handed COUNT random songs each, every one from a seed of its own, and abc2midi the tunes of tools/writers.abc. What each writer showed is counted: of running status how many bytes fewer its tracks have
than their messages with every status.
"""
import ctypes, ctypes.util, itertools, os, random, re, shutil, subprocess, sys
import readers
from readers import NOTE_ON, NOTE_OFF, CONTROLLER, BEND, PROGRAM, Missing, apart

EXCLUSIVE, PACKET, META, END = 0xF0, 0xF7, 0xFF, b'\xff\x2f\x00'
TEXTS = {1: 'Text_t', 2: 'Copyright_t', 3: 'Title_t', 4: 'Instrument_name_t', 5: 'Lyric_t', 6: 'Marker_t', 7: 'Cue_point_t'}
LYRIC, TEMPO, OWN, UNKNOWN = 0x05, 0x51, 0x7F, 0x60
LONGEST = (1 << 28) - 1
TUNES = os.path.join(os.path.dirname(os.path.abspath(__file__)), 'writers.abc')


# A song is its timebase and its tracks, a track its messages, each a gap and the bytes that a file has for it with its status; the last is the end of track.

def quantity(n):
    """In its shortest form."""
    groups = [n & 127]
    while n := n >> 7:
        groups.insert(0, n & 127 | 128)
    return bytes(groups)


def sized(*head, data):
    return bytes(head) + quantity(len(data)) + bytes(data)


def payload(said):
    """What stands behind the length of a Meta event or of system exclusive."""
    body = said[2:] if said[0] == META else said[1:]
    while body[0] > 127:
        body = body[1:]
    return body[1:]


def song(chance, can):
    return chance.choice((1, 96, 480, 32767, chance.randint(1, 32767))), [track(chance, *can) for _ in range(chance.choice((1, 1, 2, 3, 5)))]


def track(chance, packets, latest, longest):
    """Of a writer that has packets of system exclusive or not, times up to the latest and Meta events up to the longest."""
    events, time, status = [], 0, 0x90
    for _ in range(chance.randrange(chance.choice((4, 40, 120)))):
        what = chance.random()
        if what < 0.5:
            said = [voice(chance, status)]
        elif what < 0.75:
            said = [voice(chance, status := chance.randrange(0x80, 0xF0))]
        elif what < 0.9:
            said = [meta(chance, longest)]
        else:
            said = split(chance) if packets and chance.random() < 0.6 else [sized(EXCLUSIVE, data=[*some(chance, 128), PACKET])]
        for one in said:
            wait = min(gap(chance), latest - time)
            time += wait
            events.append((wait, one))
    return events + [(min(gap(chance), latest - time), END)]


def some(chance, below):
    return [chance.randrange(below) for _ in range(chance.choice((0, 1, 5, 126, 127, 200)))]


def voice(chance, status):
    """A channel's message. A value is at an end of its range as often as between."""
    return bytes([status] + [chance.choice((0, 127, chance.randrange(128), chance.randrange(128))) for _ in range(1 if status >> 4 in (0xC, 0xD) else 2)])


def meta(chance, longest):
    """Tempo and lyrics above all, other texts, and data of any kind."""
    kind = chance.choice((TEMPO, TEMPO, LYRIC, LYRIC, OWN, UNKNOWN, *TEXTS))
    data = some(chance, 26 if kind in TEXTS else 256)[:longest]
    return sized(META, kind, data=[7, chance.randrange(256), 0] if kind == TEMPO else [97 + letter for letter in data] if kind in TEXTS else data)


def split(chance):
    """System exclusive in parts, the last of them ended; or bytes of any kind that are sent as they are."""
    if chance.random() < 0.4:
        return [sized(PACKET, data=some(chance, 256))]
    parts = [sized(PACKET, data=some(chance, 128)) for _ in range(chance.randrange(3))]
    return [sized(EXCLUSIVE, data=some(chance, 128)), *parts, sized(PACKET, data=[*some(chance, 128), PACKET])]


def gap(chance):
    """Half are none or small; the others are the last of a length in bytes, the first of the next, or some of that length."""
    past = 1 << 7 * chance.randint(1, 4)
    return chance.choice((0, 0, 0, 0, 0, chance.randrange(256), past - 1, min(past, LONGEST), chance.randrange(past), chance.randrange(past)))


def timed(events):
    return zip(itertools.accumulate(wait for wait, _ in events), (said for _, said in events))


# Each writer is opened once, and is then a function from a path, a timebase and tracks.

def mido():
    try:
        import mido
        from mido.midifiles.meta import build_meta_message
    except ImportError:
        raise Missing('mido')

    def made(wait, said):
        if said[0] == META:
            # It is not told the gap, which it forgets where it does not know the type.
            message = build_meta_message(said[1], payload(said))
            message.time = wait
            return message
        return mido.Message.from_bytes(bytes([EXCLUSIVE]) + payload(said) if said[0] == EXCLUSIVE else said, time=wait)

    def write(path, timebase, tracks):
        file = mido.MidiFile(type=int(len(tracks) > 1), ticks_per_beat=timebase)
        file.tracks.extend(mido.MidiTrack(made(*event) for event in events) for events in tracks)
        file.save(path)
    write.can = False, 1 << 40, 200
    return write


def csvmidi():
    if not shutil.which('csvmidi'):
        raise Missing('csvmidi')
    names = {0x8: 'Note_off_c', 0x9: 'Note_on_c', 0xA: 'Poly_aftertouch_c', 0xB: 'Control_c', 0xC: 'Program_c', 0xD: 'Channel_aftertouch_c'}

    def line(said):
        status, *data = said
        if status < 0xE0:
            return names[status >> 4], status & 15, *data
        if status < 0xF0:
            return 'Pitch_bend_c', status & 15, data[0] + 128 * data[1]
        if said == END:
            return 'End_track',
        body = payload(said)
        if status != META:
            return 'System_exclusive' if status == EXCLUSIVE else 'System_exclusive_packet', len(body), *body
        if data[0] in TEXTS:
            return TEXTS[data[0]], f'"{body.decode()}"'
        if data[0] == TEMPO:
            return 'Tempo', int.from_bytes(body, 'big')
        return *(('Sequencer_specific',) if data[0] == OWN else ('Unknown_meta_event', data[0])), len(body), *body

    def write(path, timebase, tracks):
        lines = [(0, 0, 'Header', int(len(tracks) > 1), len(tracks), timebase)]
        for number, events in enumerate(tracks, 1):
            lines += [(number, 0, 'Start_track')] + [(number, time, *line(said)) for time, said in timed(events)]
        text = ''.join(', '.join(map(str, said)) + '\n' for said in [*lines, (0, 0, 'End_of_file')])
        subprocess.run(['csvmidi', '-z', '-', path], input=text, text=True, check=True)
    write.can = True, (1 << 31) - 1, 200
    return write


def libsmf():
    name = ctypes.util.find_library('smf')
    if not name:
        raise Missing('libsmf')
    library, thing, number = ctypes.CDLL(name), ctypes.c_void_p, ctypes.c_int
    for call, answer, *asked in (('new', thing), ('set_ppqn', number, thing, number), ('track_new', thing), ('add_track', None, thing, thing), ('event_new_from_pointer', thing, ctypes.c_char_p, number),
                                 ('track_add_event_delta_pulses', None, thing, thing, number), ('save', number, thing, ctypes.c_char_p), ('delete', None, thing)):
        function = getattr(library, f'smf_{call}')
        function.restype, function.argtypes = answer, asked

    def write(path, timebase, tracks):
        made = library.smf_new()
        library.smf_set_ppqn(made, timebase)
        for events in tracks:
            library.smf_add_track(made, track := library.smf_track_new())
            for wait, said in events:
                # It puts the length of system exclusive itself.
                said = bytes([EXCLUSIVE]) + payload(said) if said[0] == EXCLUSIVE else said
                library.smf_track_add_event_delta_pulses(track, library.smf_event_new_from_pointer(said, len(said)), wait)
        if library.smf_save(made, path.encode()):
            raise ValueError('not saved')
        library.smf_delete(made)
    # What it has written it reads, with the limits that it has as a reader.
    write.can = False, (1 << 31) - 1, 127
    return write


def random_files(writer, seed, count, folder):
    write = writer()
    for number in range(count):
        path = f'{folder}/{writer.__name__}-{number}.mid'
        timebase, tracks = song(random.Random(f'{writer.__name__} {seed + number}'), write.can)
        write(path, timebase, tracks)
        yield path, tracks


def tunes(folder):
    """abc2midi is handed no messages: those that mido reads, where it is at hand, are counted."""
    if not shutil.which('abc2midi'):
        raise Missing('abc2midi')
    for number in sayings():
        path = f'{folder}/abc2midi-{number}.mid'
        subprocess.run(['abc2midi', TUNES, number, '-o', path, '-quiet'], stdout=subprocess.DEVNULL, check=True)
        yield path, None


def sayings():
    """Of each tune its number, and what its tracks are said to hold."""
    tunes = {}
    with open(TUNES) as text:
        for line in text:
            if line.startswith('X:'):
                tunes[number := line[2:].strip()] = {}
            elif tunes and (said := re.match(r'% (\d+) (.*)', line)):
                tunes[number][int(said[1])] = said[2]
    return tunes


def saying(events):
    """A list in the words of such a line."""
    words = {0: lambda a, b: f'{a}', 2: lambda a, b: f'c{a}={b}', 3: lambda a, b: f'b{a}', 5: lambda a, b: f'p{a}'}
    return ' '.join(words[kind](*values[:2]) for _, kind, _, *values in events if kind in words)


def raw(path):
    try:
        import mido
    except ImportError:
        return None
    return [[(m.time, bytes(m.bytes())) for m in track] for track in mido.MidiFile(path).tracks]


# ---- what the library reads

def kept(events):
    """What it is to read of a track that is in a reader's words: a NoteOn of velocity 0 is an end, and an end has no velocity."""
    records = {NOTE_ON: lambda a, b: (0, a, 0, b) if b else (1, a, 0, 0), NOTE_OFF: lambda a, b: (1, a, 0, 0), CONTROLLER: lambda a, b: (2, a, b, 0), BEND: lambda a: (3, a, 0, 0), PROGRAM: lambda a: (5, a, 0, 0)}
    for time, name, *said in events:
        if name in records:
            kind, *values = records[name](*said[1:])
            yield time, kind, said[0], *values


def lists(program, paths):
    """Of each file format, tracks and timebase, and of each track the number, the number of writing it again, and the list."""
    run = subprocess.run(program, input=''.join(f'{path}\n' for path in paths), stdout=subprocess.PIPE, text=True, check=True)
    files, lines = [], iter(run.stdout.splitlines())
    for line in lines:
        word, *said = line.split(' ', 4)
        if word == 'file':
            files.append((tuple(map(int, said[:3])), []))
        else:
            code, count, written = map(int, said)
            files[-1][1].append((code, written, [tuple(map(int, next(lines).split())) for _ in range(count)]))
    return files


def other(tracks, heard):
    """The first difference between tracks in a reader's words and those that the library read, as a line, or nothing."""
    if len(tracks) != len(heard):
        return f'{len(tracks)} tracks, the library reads {len(heard)}'
    for number, (events, (code, _, records)) in enumerate(zip(tracks, heard), 1):
        line = f'refused {code}' if code else apart(kept(events), records)
        if line:
            return f'track {number}: {line}'


def fits(reader, tracks):
    """Whether a reader is asked. mido 1.2.10 loses the gap before a Meta event of a type that it does not know. libsmf 1.3 counts time in 32 signed bits, stops the process at a packet of system exclusive, and takes the
    length of a Meta event for one byte."""
    if reader == 'mido':
        return not any(wait and said[:2] == bytes([META, UNKNOWN]) for events in tracks for wait, said in events)
    if reader == 'libsmf':
        return all(sum(wait for wait, _ in events) < 1 << 31 and not any(said[0] == PACKET or said[0] == META and said[2] > 127 for _, said in events) for events in tracks)
    return True


def feature(said):
    if said[0] >= 0xF0:
        return {META: 'Meta', PACKET: 'F7', EXCLUSIVE: 'SysEx' if said[-1] == PACKET else 'SysEx that goes on'}[said[0]]
    names = {0x8: NOTE_OFF, 0x9: NOTE_ON if said[-1] else 'NoteOn of velocity 0', 0xA: 'aftertouch of a note', 0xB: CONTROLLER, 0xC: PROGRAM, 0xD: 'aftertouch of a channel', 0xE: BEND}
    return names[said[0] >> 4]


def tally(files):
    """What a writer showed, and how many bytes its statuses are short of all."""
    shown, fewer = dict.fromkeys((NOTE_ON, 'NoteOn of velocity 0', NOTE_OFF, CONTROLLER, PROGRAM, BEND, 'aftertouch of a note', 'aftertouch of a channel', 'Meta', 'SysEx', 'SysEx that goes on', 'F7'), 0), 0
    for path, tracks in files:
        fewer -= os.path.getsize(path) - 14
        for events in tracks:
            fewer += 8 + sum(len(quantity(wait)) + len(said) for wait, said in events)
            for _, said in events[:-1]:
                shown[feature(said)] += 1
    return ', '.join(f'{name} {n}' for name, n in shown.items() if n) + f'; running status {fewer}'


def handed(path, tracks, read):
    """Where a file is read otherwise than its writer was told, or is not written again as it should be: as a line, or nothing."""
    for number, (code, written, records) in enumerate(read, 1):
        times = [0] + [record[0] for record in records]
        long = any(late - early > LONGEST for early, late in zip(times, times[1:]))
        if code or written != (10 if long else 0):
            return f'track {number}: refused {code}, written again {written}'
    if tracks is not None:
        return other([[(time, *readers.message(*said)) for time, said in timed(events)] for events in tracks], read)
    for number, said in sayings()[re.search(r'-(\d+)\.mid$', path)[1]].items():
        if saying(read[number - 1][2]) != said:
            return f'track {number}: said {said}, read {saying(read[number - 1][2])}'


def heard(path, about, read, by):
    """Where another reader reads a file otherwise, as a line, or nothing."""
    try:
        head, tracks = by(path)
    except Exception as fault:
        return f'is not read: {type(fault).__name__}: {fault}'
    return f'format, tracks and timebase {head}, the library has {about}' if head != about else other(tracks, read)


def hold(name, files, program, at_hand):
    """The first difference of one writer's files, as a line; or nothing, and it is printed what was held."""
    songs = [(path, tracks, *both) for (path, tracks), both in zip(files, lists(program, [path for path, _ in files]))]
    for path, tracks, _, read in songs:
        if line := handed(path, tracks, read):
            return f'{path}: {line}'
    counts = []
    for reader, by in at_hand.items():
        asked = [song for song in songs if song[1] is None or fits(reader, song[1])]
        for path, _, about, read in asked:
            if line := heard(path, about, read, by):
                return f'{path}: {reader}: {line}'
        counts.append(f'{reader} {len(asked)}')
    read = [one for _, _, _, tracks in songs for one in tracks]
    counted = [(path, tracks or raw(path)) for path, tracks in files]
    print(f'{name}: {len(files)} files, {len(read)} tracks: {tally(counted) if all(tracks for _, tracks in counted) else "not counted without mido"}')
    told = f'as {name} was handed them' if files and files[0][1] else f'with notes, programs, controllers and bends in order as {sum(map(len, sayings().values()))} tracks are said to have them'
    print(f'  the library reads {sum(len(events) for _, _, events in read)} events {told}, and as others that read files of them: {", ".join(counts) or "none at hand"}; '
          f'{sum(written == 0 for _, written, _ in read)} lists are written and read again, {sum(written == 10 for _, written, _ in read)} have a gap that is too long')


def main(seed, count, folder, program):
    at_hand, absent = {}, []
    for name, reader in (('midicsv', readers.midicsv), ('mido', lambda: readers.mido(clip=True)), ('libsmf', readers.libsmf)):
        try:
            at_hand[name] = reader()
        except Missing:
            pass
    for writer in (mido, csvmidi, libsmf, tunes):
        try:
            files = list(tunes(folder) if writer is tunes else random_files(writer, seed, count, folder))
        except Missing as name:
            absent.append(str(name))
            continue
        if line := hold('abc2midi' if writer is tunes else writer.__name__, files, program, at_hand):
            print(line)
            return 1
    if absent:
        print(f'not at hand: {", ".join(absent)}' + ('; nothing was written (Debian: python3-mido, midicsv, libsmf0, abcmidi)' if len(absent) == 4 else ''))
    return 0


if __name__ == '__main__':
    sys.exit(main(int(sys.argv[1]), int(sys.argv[2]), sys.argv[3], sys.argv[4:]))
