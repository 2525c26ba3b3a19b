// Every call of some families at its limits: lent what is spoilt, handed each argument past its range, as it should be, and with no room; full lists, read at their end; tables of sixteen; track chunks, each kind and each gap; chunks that are read, and lists that are checked and fitted for the rehearsal player, each sentence of their rule. Random scripts meet all of this too,
// but some of it seldom: the stored samples begin with these calls.

use crate::chunks::GAPS;
use crate::desk::Record;
use crate::make::{is_inner, Maker};
use crate::reads::{arguments, framed, SHORT};
use crate::rules::{LIST_LIMIT, PLACES};
use crate::script::Step;
use crate::smf;
use crate::table::{Arg, Call, CALLS};

/// A number of the desk that is spoilt, for calls that are lent one of `letters`: the call of family 9, its arguments, and those that mend it.
struct Spoilt {
    letters: &'static str,
    op: i64,
    bad: &'static [i64],
    good: &'static [i64],
}

const SPOILT: &[Spoilt] = &[
    Spoilt { letters: "EA", op: 905, bad: &[1, 0], good: &[0, 0] },
    Spoilt { letters: "EA", op: 905, bad: &[0, 7], good: &[0, 0] },
    Spoilt { letters: "E", op: 906, bad: &[0, 1, (1 << 42) + 1], good: &[0, 1, 0] },
    Spoilt { letters: "T", op: 907, bad: &[1, (1 << 40) + 1], good: &[1, 96] },
    Spoilt { letters: "P", op: 908, bad: &[0, 3, (1 << 20) + 1], good: &[0, 3, 0] },
    Spoilt { letters: "B", op: 903, bad: &[1, 80_000, 67_108_865, 0], good: &[1, 80_000, 0, 0] },
    Spoilt { letters: "C", op: 914, bad: &[0, 2, (1 << 41) + 1], good: &[0, 2, 0] },
];

/// The calls that enter each of the four tables.
const SETTERS: [&[i64]; 4] = [&[703, 714], &[704, 712, 715], &[705], &[706]];

/// A full list, and calls that read its last numbers: the call that sets it, its arguments before the list, and what is called before it.
struct Full {
    op: i64,
    front: &'static [i64],
    before: &'static [i64],
    reads: &'static [&'static [i64]],
}

/// The place of a full list's last number, and how many triples it has.
const LAST: i64 = LIST_LIMIT as i64 - 1;
const TRIPLES: i64 = LIST_LIMIT as i64 / 3;

const FULL: &[Full] = &[
    Full { op: 404, front: &[0, 0], before: &[], reads: &[&[407, 0, TRIPLES - 1, 5], &[407, 0, TRIPLES, 5]] },
    Full { op: 405, front: &[0, 0], before: &[], reads: &[&[407, 0, LAST - 2, 5], &[407, 0, LAST, 5]] },
    Full { op: 406, front: &[0], before: &[417, 0, 1], reads: &[&[908, 0, 2, LAST - 1], &[408, 0, 5], &[408, 0, 5], &[408, 0, 5]] },
    Full { op: 418, front: &[0, 1, LAST - 1], before: &[], reads: &[] },
    Full { op: 513, front: &[0], before: &[], reads: &[&[907, 1, TRIPLES - 1], &[516, 100], &[907, 1, TRIPLES], &[516, 100]] },
    Full { op: 514, front: &[0], before: &[], reads: &[&[907, 1, LAST - 2], &[516, 100], &[907, 1, LAST], &[516, 100]] },
    Full { op: 519, front: &[0], before: &[], reads: &[&[908, 0, 2, LAST - 1], &[502, 5], &[502, 5], &[502, 5]] },
    Full { op: 703, front: &[7, 16], before: &[702, 7, 1], reads: &[&[911, 0, 1, LAST - 1], &[707, 0], &[707, 0], &[707, 0]] },
    Full { op: 703, front: &[7, 16], before: &[], reads: &[&[911, 0, 1, LAST - 1], &[707, 0], &[707, 0], &[707, 0]] },
    Full { op: 704, front: &[7, 0, 16], before: &[], reads: &[&[907, 1, TRIPLES], &[708, 0]] },
    Full { op: 704, front: &[7, 2, 16], before: &[], reads: &[&[907, 1, TRIPLES + 8], &[708, 0]] },
    Full { op: 706, front: &[7, 1, 16], before: &[], reads: &[&[914, 0, 3, LAST - 2], &[709, 3, 16]] },
];

/// An event of each kind that is written; what is not written of it is past every width.
const WRITTEN: [Record; 5] = [
    [0, 0, 0, 60, -48, 100, 0, 0],
    [1, 0, 1, 60, 9000, -1, 0, 0],
    [2, 0, 9, 7, 100, 300, 0, 0],
    [3, 0, 14, 8192, -5, 128, 0, 0],
    [5, 0, 15, 40, 1 << 20, -1, 0, 0],
];

/// An event of each kind that is not.
const UNWRITTEN: [Record; 4] = [[4, 0, 0, 12, 0, 0, 0, 0], [6, 0, 0, 81, 0, 0, 10, 3], [7, 0, 0, 0, 0, 0, 0, 0], [8, 0, 0, 0, 0, 0, 256, 0]];

/// The end of track, without a gap before it.
const END: [u8; 4] = [0, 0xff, 0x2f, 0];

/// Bodies of chunks without their end of track: what is read of each, what is not.
const BODIES: &[&[u8]] = &[
    // Nothing; a note, its end by velocity 0 under running status, its end under a status of its own.
    &[],
    &[0, 0x90, 60, 100, 96, 60, 0, 0, 0x80, 60, 64],
    // The longest gap, a gap and a length in four bytes, and in five.
    &[0xff, 0xff, 0xff, 0x7f, 0xb0, 7, 100],
    &[0x80, 0x80, 0x80, 1, 0xff, 1, 0x80, 0x80, 0x80, 1, 65],
    &[0x80, 0x80, 0x80, 0x80, 1, 0xb0, 7, 100],
    &[0, 0xff, 1, 0x80, 0x80, 0x80, 0x80, 0],
    // Running status: none yet; of aftertouch, of one byte and of two; none behind Meta, system exclusive and its rest.
    &[0, 60, 100],
    &[1, 0xd0, 64, 1, 65, 1, 0x90, 60, 100],
    &[1, 0xa0, 60, 64, 1, 60, 65, 1, 0x90, 60, 100],
    &[0, 0x90, 60, 100, 0, 0xff, 1, 1, 65, 0, 60, 0],
    &[0, 0x90, 60, 100, 0, 0xf0, 1, 0xf7, 0, 60, 0],
    &[0, 0x90, 60, 100, 0, 0xf7, 1, 0xf7, 0, 60, 0],
    // Times of what is stepped over; an end of track inside a text; system exclusive in three parts.
    &[5, 0xff, 3, 0, 6, 0xf0, 0, 7, 0xf7, 0, 8, 0xc0, 40],
    &[0, 0xff, 1, 4, 0, 0xff, 0x2f, 0, 1, 0xe0, 127, 127],
    &[0, 0xf0, 2, 67, 18, 10, 0xf7, 1, 0, 10, 0xf7, 2, 1, 0xf7, 1, 0xe0, 1, 0],
    // A text that ends the input, and one longer than that; types 127 and 128; ends of track with a length, twice, and in a longer form.
    &[0, 0xff, 1, 4],
    &[0, 0xff, 1, 5],
    &[0, 0xff, 127, 0],
    &[0, 0xff, 128, 0],
    &[0, 0xff, 0x2f, 1, 0],
    &[0, 0xff, 0x2f, 0],
    &[0, 0xff, 0x2f, 0x80, 0],
];

/// The desk is a script's first one again after it.
pub fn script(seed: u64, families: &[i64]) -> Vec<Step> {
    let mut maker = Maker::new(seed, families);
    for call in CALLS.iter().filter(|call| families.contains(&(call.op / 100))) {
        maker.begin(call, 64);
        if !is_inner(call.op) {
            maker.lent_spoilt(call);
            maker.past_ranges(call);
        }
        maker.sound(call);
        maker.sound(call);
        if call.takes('E') || call.takes('A') {
            maker.begin(call, 1);
            maker.sound(call);
            maker.sound(call);
        }
    }
    maker.full_lists(families);
    if families.contains(&7) {
        maker.full_tables();
    }
    if families.contains(&3) {
        maker.every_chunk();
        maker.every_read();
        maker.every_profile();
    }
    maker.emit(902, &[96, 0, 64]);
    maker.steps
}

/// So many numbers, in triples that rise with every second one: as curves, full lists then write less than a desk has room for.
fn rising(count: usize) -> Vec<i64> {
    (0..count as i64).map(|at| if at % 3 == 2 { 1 } else { at / 6 + 1 }).collect()
}

impl Maker {
    /// A desk with what the call may meet: one note, and one reservation of each kind.
    fn begin(&mut self, call: &Call, room: i64) {
        self.emit(902, &[96, 0, room]);
        if call.takes('E') || call.takes('A') {
            self.emit(904, &[0, 0, 0, 60, 48, 100, 0, 0]);
        }
        if call.op / 100 == 7 {
            for (setters, target) in SETTERS.into_iter().zip([7, 10, 11, 12]) {
                self.set(setters[0], target);
            }
        }
    }

    /// The call as it should be.
    fn sound(&mut self, call: &Call) {
        if let Some(args) = self.arguments(call, None) {
            self.emit(call.op, &args);
        }
    }

    fn lent_spoilt(&mut self, call: &Call) {
        for spoilt in SPOILT.iter().filter(|spoilt| spoilt.letters.chars().any(|letter| call.takes(letter))) {
            self.emit(spoilt.op, spoilt.bad);
            self.focus = Some(0);
            self.sound(call);
            self.focus = None;
            self.emit(spoilt.op, spoilt.good);
        }
    }

    /// Each argument past its range, one after the other.
    fn past_ranges(&mut self, call: &Call) {
        for (at, arg) in call.args.iter().enumerate() {
            if *arg == Arg::Chunk {
                continue;
            }
            if arg.is_list() {
                self.list_limits(call, at);
            } else {
                let args = self.arguments(call, Some(at));
                self.emit(call.op, &args.unwrap());
            }
        }
    }

    /// A list with one number too many, and with as many as it may have: the last but one past its range, the last past a length's range, and, where it is a length, all in range.
    fn list_limits(&mut self, call: &Call, at: usize) {
        let mut args = self.by_kind(call, None);
        args.truncate(at);
        let [value, length] = [22, 20].map(|bits| (1 << bits) + 1);
        let (last, curve) = (LIST_LIMIT - 1, call.args[at] == Arg::Curve);
        let lists = [(LIST_LIMIT + 1, 0, 1), (LIST_LIMIT, last - 1, value), (LIST_LIMIT, last, length), (LIST_LIMIT, last, 2)];
        for &(count, at, number) in &lists[..if curve { 4 } else { 3 }] {
            let mut list = rising(count);
            list[at] = number;
            self.emit(call.op, &[&args[..], &[count as i64], &list].concat());
        }
    }

    fn full_lists(&mut self, families: &[i64]) {
        for list in FULL.iter().filter(|list| families.contains(&(list.op / 100))) {
            self.emit(902, &[96, 0, 128]);
            if let [op, args @ ..] = list.before {
                self.emit(*op, args);
            }
            self.emit(list.op, &[list.front, &[LIST_LIMIT as i64], &rising(LIST_LIMIT)].concat());
            for read in list.reads {
                self.emit(read[0], &read[1..]);
            }
        }
    }

    /// Sixteen reservations of each kind, a seventeenth by each call that enters the table, and one that stands set again.
    fn full_tables(&mut self) {
        for setters in SETTERS {
            self.emit(902, &[96, 0, 64]);
            for target in 0..PLACES as i64 {
                self.set(setters[0], target);
            }
            for &op in setters {
                self.set(op, PLACES as i64);
                self.set(op, 3);
            }
        }
    }

    /// Each kind with its fields at both ends of their widths and one past them, each gap as the first and behind an event, each kind that is not written, and faults of different numbers one behind the other.
    fn every_chunk(&mut self) {
        self.chunk_of(&[]);
        self.chunk_of(&WRITTEN);
        for event in WRITTEN {
            for &(field, groups) in smf::fields(event[0]) {
                for value in [0, (1 << (7 * groups)) - 1, -1, 1 << (7 * groups)] {
                    self.chunk_of(&[with(event, field, value)]);
                }
            }
        }
        let [note, end, ..] = WRITTEN;
        for gap in GAPS.into_iter().chain([-1]) {
            self.chunk_of(&[with(note, 1, gap)]);
            self.chunk_of(&[with(note, 1, 5), with(end, 1, 5 + gap)]);
        }
        for event in UNWRITTEN {
            self.chunk_of(&[note, event]);
        }
        let (early, loud, nowhere) = (with(note, 1, -1), with(note, 5, 128), with(note, 2, 16));
        for list in [[early, loud, end], [loud, early, end], [early, end, nowhere], [loud, end, nowhere], [nowhere, loud, early]] {
            self.chunk_of(&list);
        }
    }

    /// The bodies above, each message with its data bytes at both ends and past them, each status that is of no channel, heads that are none, every cut of a short chunk, and lists with too little room and with what may not be stored.
    fn every_read(&mut self) {
        self.emit(902, &[96, 0, 3]);
        for event in &WRITTEN[..2] {
            self.emit(904, event);
        }
        for body in BODIES {
            self.read_body(body);
        }
        for says in 8..=14 {
            let status = says * 16 + says;
            for [a, b] in [[0, 0], [127, 127], [128, 0], [0, 128]] {
                self.read_body(&[1, status, a, b]);
            }
            self.read_body(&[1, status, 5]);
        }
        for status in 0xf0..=0xff {
            self.read_body(&[1, status, 1, 0]);
        }
        let empty = framed(&END);
        for at in 0..8 {
            let mut wrong = empty.clone();
            wrong[at] += 1;
            self.emit(312, &arguments(&wrong));
            self.emit(312, &arguments(&empty[..at]));
        }
        self.emit(312, &arguments(&[&empty[..], &[0]].concat()));
        for at in 0..=SHORT.len() {
            self.emit(312, &arguments(&framed(&SHORT[..at])));
        }
        self.emit(906, &[1, 2, 16]);
        self.emit(312, &arguments(&framed(&SHORT)));
        for room in [2, 0] {
            self.emit(902, &[96, 0, room]);
            for body in [&SHORT[..], &SHORT[..20], &END] {
                self.emit(312, &arguments(&framed(body)));
            }
        }
    }

    /// Each kind, controller numbers and bends at the ends of what the player accepts, twins, channels, times, and refusals one before the other: each list is checked, fitted and checked again.
    fn every_profile(&mut self) {
        let [note, end, volume, bend, voice] = WRITTEN.map(|event| with(with(event, 1, 5), 2, 3));
        let [range, meta, sysex, direct] = UNWRITTEN.map(|event| with(event, 1, 5));
        let range = with(range, 2, 3);
        let (loud, late) = (with(volume, 4, 99), with(volume, 1, 6));
        self.profile_of(&[note, end, volume, bend, range, voice, meta, sysex, direct]);
        for number in [0, 1, 2, 6, 7, 8, 9, 10, 11, 12, 63, 64, 65, 127] {
            self.profile_of(&[with(volume, 3, number)]);
        }
        for value in [-1, 0, 16_383, 16_384, 32_639] {
            self.profile_of(&[with(bend, 3, value), note]);
        }
        for list in [[volume, note, loud], [loud, note, volume], [volume, note, volume], [volume, late, with(volume, 3, 10)]] {
            self.profile_of(&list);
        }
        for list in [[late, volume, loud], [volume, late, loud], [volume, with(note, 3, 7), with(bend, 3, 7)]] {
            self.profile_of(&list);
        }
        for event in [note, end, volume, with(volume, 3, 2), bend, with(bend, 3, 16_384), range, voice, meta, sysex, direct] {
            self.profile_of(&[event, with(event, 2, 4)]);
            self.profile_of(&[with(event, 1, -1), with(event, 2, 3)]);
        }
        self.profile_of(&[with(volume, 2, 4), loud]);
        for time in [-(1 << 42), -1, 0, 1 << 42] {
            self.profile_of(&[with(meta, 1, time), note]);
            self.profile_of(&[note, with(note, 1, time)]);
        }
        let (other, early, nowhere) = (with(note, 2, 4), with(note, 1, -1), with(note, 2, 16));
        for list in [[note, other, early], [early, other, nowhere], [early, note, nowhere]] {
            self.profile_of(&list);
        }
    }

    fn profile_of(&mut self, list: &[Record]) {
        self.emit(902, &[96, 0, list.len() as i64 + 1]);
        for event in list {
            self.emit(904, event);
        }
        for op in [313, 314, 313] {
            self.emit(op, &[]);
        }
    }

    /// A body with an end of track behind it.
    fn read_body(&mut self, body: &[u8]) {
        self.emit(312, &arguments(&framed(&[body, &END].concat())));
    }

    /// A list with an output as long as its chunk, a byte longer and a byte shorter; where it has none, with no output, one shorter than any chunk, and one that would do.
    fn chunk_of(&mut self, list: &[Record]) {
        self.emit(902, &[96, 0, 8]);
        for event in list {
            self.emit(904, event);
        }
        for room in self.chunk_length().map_or([0, 11, 64], |exact| [exact, exact + 1, exact - 1]) {
            self.emit(311, &[room]);
        }
    }
}

/// The event with another number in one field.
fn with(mut event: Record, field: usize, number: i64) -> Record {
    event[field] = number;
    event
}
