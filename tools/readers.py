#!/usr/bin/env python3
"""Holds what real readers of MIDI files read against the lists that the files were written of. tools/readers runs it.

    python3 tools/readers.py FOLDER     FOLDER/lists and FOLDER/N.mid as tools/readers.c makes them

A reader gives the format, the number of tracks and the timebase of a file, and of each track all events in order: each its time from the start, its kind, its channel and what
the message holds. That must be one track, the list, and then an end of track at the last event's time, and no more. What differs is printed with the file, the event and both sides.
tools/writers.py reads with the same readers.
"""
import ctypes, ctypes.util, itertools, shutil, subprocess, sys

NOTE_ON, NOTE_OFF, CONTROLLER, BEND, PROGRAM, END = 'NoteOn', 'NoteOff', 'controller', 'bend', 'program', 'end of track'


class Missing(Exception):
    """A reader that is not at hand."""


def lists(folder):
    """Each list as its number, its timebase, and what a reader is to read."""
    with open(f'{folder}/lists') as text:
        for line in text:
            number, timebase, count = map(int, line.split()[1:])
            yield number, timebase, listed([tuple(map(int, next(text).split())) for _ in range(count)])


def listed(records):
    """What is written of each record, and the end behind them. A note's length and a NoteOff's velocity have no place in the chunk."""
    messages = {0: lambda v1, v2, v3: (NOTE_ON, v1, v3), 1: lambda v1, v2, v3: (NOTE_OFF, v1, 0), 2: lambda v1, v2, v3: (CONTROLLER, v1, v2),
                3: lambda v1, v2, v3: (BEND, v1), 5: lambda v1, v2, v3: (PROGRAM, v1)}
    events = []
    for time, kind, channel, *values in records:
        name, *said = messages[kind](*values)
        events.append((time, name, channel, *said))
    return events + [(records[-1][0] if records else 0, END)]


def message(status, *data):
    """A channel's message in a reader's words, or the status alone of what is no list's."""
    said = {0x8: lambda a, b: (NOTE_OFF, a, b), 0x9: lambda a, b: (NOTE_ON, a, b), 0xB: lambda a, b: (CONTROLLER, a, b), 0xC: lambda a: (PROGRAM, a), 0xE: lambda a, b: (BEND, b * 128 + a)}
    if status >> 4 not in said:
        return f'{status:02X}',
    name, *values = said[status >> 4](*data)
    return name, status & 15, *values


# Each reader is opened once, and is then a function from a path to (format, tracks, timebase) and the events of each track. A NoteOn of velocity 0 is one in all three.

def midicsv():
    if not shutil.which('midicsv'):
        raise Missing('midicsv')
    names = {'Note_on_c': NOTE_ON, 'Note_off_c': NOTE_OFF, 'Control_c': CONTROLLER, 'Pitch_bend_c': BEND, 'Program_c': PROGRAM, 'End_track': END}

    def read(path):
        run = subprocess.run(['midicsv', path], capture_output=True, encoding='latin-1')
        if run.returncode or run.stderr:
            raise ValueError(run.stderr.strip() or f'status {run.returncode}')
        first, *lines, last = [line.split(', ') for line in run.stdout.split('\n')[:-1]]
        if last != ['0', '0', 'End_of_file']:
            raise ValueError(f'ends with {last}')
        tracks = []
        for track, time, name, *said in lines:
            if name == 'Start_track':
                tracks.append([])
            elif int(track) != len(tracks):
                raise ValueError(f'{name} of track {track} in track {len(tracks)}')
            else:
                tracks[-1].append((int(time), names[name], *map(int, said)) if name in names else (int(time), name))
        return tuple(map(int, first[3:])), tracks
    return read


def mido(clip=False):
    """With `clip`, data bytes above 127 are read as 127: without, mido reads no system exclusive that has any."""
    try:
        import mido
    except ImportError:
        raise Missing('mido')
    said = {'note_on': lambda m: (NOTE_ON, m.channel, m.note, m.velocity), 'note_off': lambda m: (NOTE_OFF, m.channel, m.note, m.velocity),
            'control_change': lambda m: (CONTROLLER, m.channel, m.control, m.value), 'pitchwheel': lambda m: (BEND, m.channel, m.pitch + 8192),
            'program_change': lambda m: (PROGRAM, m.channel, m.program), 'end_of_track': lambda m: (END,)}

    def read(path):
        song = mido.MidiFile(path, clip=clip)
        times = [itertools.accumulate(m.time for m in track) for track in song.tracks]
        tracks = [[(time, *said.get(m.type, lambda m: (m.type,))(m)) for time, m in zip(*both)] for both in zip(times, song.tracks)]
        return (song.type, len(song.tracks), song.ticks_per_beat), tracks
    return read


class Song(ctypes.Structure):
    """The head of libsmf's `smf_t`."""
    _fields_ = [(n, ctypes.c_int) for n in ('format', 'ppqn', 'frames_per_second', 'resolution', 'number_of_tracks')]


class Heard(ctypes.Structure):
    """libsmf's `smf_event_t`."""
    _fields_ = [('track', ctypes.c_void_p), ('event_number', ctypes.c_int), ('delta_time_pulses', ctypes.c_int), ('time_pulses', ctypes.c_int), ('time_seconds', ctypes.c_double),
                ('track_number', ctypes.c_int), ('midi_buffer', ctypes.POINTER(ctypes.c_ubyte)), ('midi_buffer_length', ctypes.c_int), ('user_pointer', ctypes.c_void_p)]


def libsmf():
    name = ctypes.util.find_library('smf')
    if not name:
        raise Missing('libsmf')
    library = ctypes.CDLL(name)
    library.smf_load.restype, library.smf_load.argtypes = ctypes.POINTER(Song), [ctypes.c_char_p]
    library.smf_get_next_event.restype, library.smf_get_next_event.argtypes = ctypes.POINTER(Heard), [ctypes.POINTER(Song)]
    library.smf_delete.restype, library.smf_delete.argtypes = None, [ctypes.POINTER(Song)]

    def event(heard):
        said = heard.midi_buffer[:heard.midi_buffer_length]
        return heard.time_pulses, *((END,) if said == [0xFF, 0x2F, 0] else message(*said))

    def read(path):
        song = library.smf_load(path.encode())
        if not song:
            raise ValueError('not loaded')
        about = song.contents.format, song.contents.number_of_tracks, song.contents.ppqn
        tracks = [[] for _ in range(about[1])]
        while heard := library.smf_get_next_event(song):
            tracks[heard.contents.track_number - 1].append(event(heard.contents))
        library.smf_delete(song)
        return about, tracks
    # It counts time in 32 signed bits, and stops the process where they do not do.
    read.last = 2 ** 31 - 1
    return read


def apart(written, read):
    """The first place at which two lists differ, as a line, or nothing."""
    for place, (one, other) in enumerate(itertools.zip_longest(written, read, fillvalue='nothing')):
        if one != other:
            return f'event {place}: written {one}, read {other}'


def differs(path, about, events, read):
    """The first thing that is read otherwise than it is listed, as a line, or nothing."""
    try:
        head, tracks = read(path)
    except Exception as fault:
        return f'is not read: {type(fault).__name__}: {fault}'
    if head != about:
        return f'format, tracks and timebase: written {about}, read {head}'
    return apart(events, tracks[0])


def whole(path):
    """Behind the header stands one chunk, as long as it says, and nothing behind it: no reader asks that."""
    with open(path, 'rb') as file:
        data = file.read()
    return data[14:18] == b'MTrk' and len(data) == 22 + int.from_bytes(data[18:22], 'big')


def tally(songs):
    """What the lists hold, for whoever asks whether enough of it was read."""
    kinds, gaps, silent = dict.fromkeys((NOTE_ON, NOTE_OFF, CONTROLLER, BEND, PROGRAM), 0), [0] * 4, 0
    for _, _, events in songs:
        last = 0
        for time, kind, *said in events[:-1]:
            kinds[kind] += 1
            gaps[(max(time - last, 1).bit_length() + 6) // 7 - 1] += 1
            silent += kind == NOTE_ON and said[2] == 0
            last = time
    return ', '.join(f'{kind} {n}' for kind, n in kinds.items()) + f'; {silent} NoteOn of velocity 0; gaps of one to four bytes {" ".join(map(str, gaps))}'


def main(folder):
    songs = list(lists(folder))
    print(f'{len(songs)} lists: {tally(songs)}')
    for number, _, _ in songs:
        if not whole(f'{folder}/{number}.mid'):
            print(f'{folder}/{number}.mid: not a header and one chunk as long as it says')
            return 1
    absent = []
    for reader in (midicsv, mido, libsmf):
        try:
            read = reader()
        except Missing as name:
            absent.append(str(name))
            continue
        fit = [song for song in songs if song[2][-1][0] <= getattr(read, 'last', song[2][-1][0])]
        for number, timebase, events in fit:
            line = differs(f'{folder}/{number}.mid', (0, 1, timebase), events, read)
            if line:
                print(f'{folder}/{number}.mid: {reader.__name__}: {line}')
                return 1
        print(f'{reader.__name__} reads {len(fit)} of {len(songs)} files, {sum(len(events) for _, _, events in fit)} events with their ends, each as it is listed')
    if absent:
        print(f'not at hand: {", ".join(absent)}' + ('; nothing was read (Debian: midicsv, python3-mido, libsmf0)' if len(absent) == 3 else ''))
    return 0


if __name__ == '__main__':
    sys.exit(main(sys.argv[1]))
