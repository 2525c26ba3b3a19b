// The calls of Dollavir for a Rust client that links the library. Made by tools/header.py from crates/ctrack/src; not edited by hand.
// What a function answers as a 32-bit number is one of this table; where it is not 0, all that is lent is as it was:
//   0 done
//   1 the list is not a whole number of records, its count is above it, or the cycle table has not sixteen
//   2 a target or controller argument is none
//   3 an argument list has more than 192 numbers
//   4 a number is against its range or rule, or a resulting event time is more than 2^42 from 0
//   5 a layer above 15
//   6 no place in a reservation table
//   7 the list that is left holds more events than the buffer
//   10 the list is not sorted, its first time is below 0, or a gap (the first from time 0) is above 268,435,455
//   11 a kind that is not written, or a field outside its MIDI width, which is 0 to 16,383 for a bend
//   12 the output is too short
//   13 not a track chunk, or its length is not that of the bytes behind it
//   14 an event that is cut short or faulty
//   15 no end of track behind the last event, or bytes behind it
//   17 events on more than one channel
//   18 a time below 0
// A pointer must be valid, aligned and not null, also where its length is 0, and what two parameters point at
// must not overlap. A slice is a pointer and the number of its elements. The event list has eight numbers a
// record: kind, time, channel, v1, v2, v3, offset, length. What a function does not read it does not test:
// dollavir_write_cc_on_note and dollavir_write_cc_on_cycle only append, and ask no event of the list.

// How many numbers a list may have.
pub const LIST_LIMIT: usize = 192;
// The layout's number: 1 had lists of 96. A host compiled for another must be compiled again; the size of a track
// is asserted below.
pub const LAYOUT: u32 = 2;

#[repr(C)]
#[derive(Clone, Copy, Debug, PartialEq, Eq)]
pub struct Numbers {
    pub count: usize,
    pub items: [i32; LIST_LIMIT],
}

// What is reserved for the notes to come: nothing, a curve over time, a cycle over time, or a list of which each
// note takes the next value. What a kind has no use for is zero.
#[repr(C)]
#[derive(Clone, Copy, Debug, PartialEq, Eq)]
pub struct Reserve {
    pub kind: u32,
    pub cycling: u32,
    pub start: i64,
    pub length: i32,
    pub index: usize,
    pub values: Numbers,
}

// A flag is 0 or 1: where `ranged` is 0 there is no range, where `maxed` is 0 no maximum.
#[repr(C)]
#[derive(Clone, Copy, Debug, PartialEq, Eq)]
pub struct NoteParam {
    pub reserve: Reserve,
    pub random: i32,
    pub ranged: u32,
    pub low: i32,
    pub high: i32,
    pub delay: i32,
    pub maxed: u32,
    pub max: i32,
    pub repeat: u32,
}

#[repr(C)]
#[derive(Clone, Copy, Debug, PartialEq, Eq)]
pub struct Layer {
    pub value: i32,
    pub random: i32,
    pub reserve: Reserve,
}

#[repr(C)]
#[derive(Clone, Copy, Debug, PartialEq, Eq)]
pub struct Layers {
    pub count: usize,
    pub items: [Layer; 16],
}

// What is set for a target and outlasts a write. `ranged` and `repeat` are 0 or 1.
#[repr(C)]
#[derive(Clone, Copy, Debug, PartialEq, Eq)]
pub struct WriteOption {
    pub delay: i32,
    pub random: i32,
    pub ranged: u32,
    pub low: i32,
    pub high: i32,
    pub repeat: u32,
}

// The values of a target's notes, one after the other; `index` is the next. `cycling` is 0 or 1.
#[repr(C)]
#[derive(Clone, Copy, Debug, PartialEq, Eq)]
pub struct OnNoteValues {
    pub target: i32,
    pub index: usize,
    pub cycling: u32,
    pub values: Numbers,
}

// A table of lists for notes.
#[repr(C)]
#[derive(Clone, Copy, Debug, PartialEq, Eq)]
pub struct NoteTable {
    pub count: usize,
    pub items: [OnNoteValues; 16],
}

// A curve for each note of a target.
#[repr(C)]
#[derive(Clone, Copy, Debug, PartialEq, Eq)]
pub struct OnNoteWave {
    pub target: i32,
    pub mode: u32,
    pub values: Numbers,
}

// A table of waves for notes.
#[repr(C)]
#[derive(Clone, Copy, Debug, PartialEq, Eq)]
pub struct WaveTable {
    pub count: usize,
    pub items: [OnNoteWave; 16],
}

// A sine for each note of a target. `shape` is 0 for a full turn, 1 and 2 for the quarter up and down.
#[repr(C)]
#[derive(Clone, Copy, Debug, PartialEq, Eq)]
pub struct OnNoteSine {
    pub target: i32,
    pub shape: u32,
    pub low: i32,
    pub high: i32,
    pub length: i32,
    pub times: i32,
}

// A table of sines for notes.
#[repr(C)]
#[derive(Clone, Copy, Debug, PartialEq, Eq)]
pub struct SineTable {
    pub count: usize,
    pub items: [OnNoteSine; 16],
}

// `ccfreq` and `pbfreq` are the Rust's `cc_on_time_freq` and `pb_on_time_freq`, `step` its `qlen_is_step`, 0 or
// 1; v, q, t, o, l are the note parameters of velocity, gate, timing, octave and length. `cycles` counts the
// records of the lent cycle table.
#[repr(C)]
#[derive(Clone, Copy, Debug, PartialEq, Eq)]
pub struct Track {
    pub timebase: i32,
    pub timepos: i64,
    pub channel: i32,
    pub ccfreq: i32,
    pub pbfreq: i32,
    pub velocity: i32,
    pub timing: i32,
    pub octave: i32,
    pub qlen: i32,
    pub step: u32,
    pub v: NoteParam,
    pub q: NoteParam,
    pub t: NoteParam,
    pub o: NoteParam,
    pub l: NoteParam,
    pub layers: Layers,
    pub options: [WriteOption; 129],
    pub notes: NoteTable,
    pub waves: WaveTable,
    pub sines: SineTable,
    pub cycles: usize,
}

// The track as a call leaves it.
#[repr(C)]
#[derive(Clone, Copy, Debug, PartialEq, Eq)]
pub struct TrackAnswer {
    pub code: u32,
    pub track: Track,
}

// `used` may exceed `maximum`; `over` is 1 once a write did not fit, else 0.
#[repr(C)]
#[derive(Clone, Copy, Debug, PartialEq, Eq)]
pub struct Budget {
    pub seed: u32,
    pub maximum: u32,
    pub used: u32,
    pub over: u32,
}

// What `Budget::new` answers: 0 and the budget, or the refusal's number and a budget of zeros.
#[repr(C)]
#[derive(Clone, Copy, Debug, PartialEq, Eq)]
pub struct BudgetAnswer {
    pub code: u32,
    pub budget: Budget,
}

// A target's cycle: its values in turn, the one at `index` next, at the time `next` and at every `length` from
// there.
#[repr(C)]
#[derive(Clone, Copy, Debug, PartialEq, Eq)]
pub struct Cycle {
    pub target: i32,
    pub length: i32,
    pub next: i64,
    pub index: usize,
    pub values: Numbers,
}

// What `OnNoteSine::new` answers: 0 and the sine, or the refusal's number and a sine of zeros.
#[repr(C)]
#[derive(Clone, Copy, Debug, PartialEq, Eq)]
pub struct SineAnswer {
    pub code: u32,
    pub sine: OnNoteSine,
}

// A value for every `length` steps from `start` on, round and round.
#[repr(C)]
#[derive(Clone, Copy, Debug, PartialEq, Eq)]
pub struct OnCycleTime {
    pub start: i64,
    pub length: i32,
    pub values: Numbers,
}

// What `OnCycleTime::new` answers: 0 and the cycle, or the refusal's number and a cycle of zeros.
#[repr(C)]
#[derive(Clone, Copy, Debug, PartialEq, Eq)]
pub struct CycleTimeAnswer {
    pub code: u32,
    pub cycle: OnCycleTime,
}

#[repr(C)]
#[derive(Clone, Copy, Debug, PartialEq, Eq)]
pub struct Event {
    pub kind: i64,
    pub time: i64,
    pub channel: i64,
    pub v1: i64,
    pub v2: i64,
    pub v3: i64,
    pub offset: i64,
    pub len: i64,
}

// What a constructor answers: 0 and the event, or the refusal's number and the event of zeros.
#[repr(C)]
#[derive(Clone, Copy, Debug, PartialEq, Eq)]
pub struct Made {
    pub code: u32,
    pub event: Event,
}

const _: () = assert!(core::mem::size_of::<usize>() == 8);
const _: () = assert!(core::mem::size_of::<Numbers>() == 776 && core::mem::align_of::<Numbers>() == 8);
const _: () = assert!(core::mem::offset_of!(Numbers, count) == 0);
const _: () = assert!(core::mem::offset_of!(Numbers, items) == 8);
const _: () = assert!(core::mem::size_of::<Reserve>() == 808 && core::mem::align_of::<Reserve>() == 8);
const _: () = assert!(core::mem::offset_of!(Reserve, kind) == 0);
const _: () = assert!(core::mem::offset_of!(Reserve, cycling) == 4);
const _: () = assert!(core::mem::offset_of!(Reserve, start) == 8);
const _: () = assert!(core::mem::offset_of!(Reserve, length) == 16);
const _: () = assert!(core::mem::offset_of!(Reserve, index) == 24);
const _: () = assert!(core::mem::offset_of!(Reserve, values) == 32);
const _: () = assert!(core::mem::size_of::<NoteParam>() == 840 && core::mem::align_of::<NoteParam>() == 8);
const _: () = assert!(core::mem::offset_of!(NoteParam, reserve) == 0);
const _: () = assert!(core::mem::offset_of!(NoteParam, random) == 808);
const _: () = assert!(core::mem::offset_of!(NoteParam, ranged) == 812);
const _: () = assert!(core::mem::offset_of!(NoteParam, low) == 816);
const _: () = assert!(core::mem::offset_of!(NoteParam, high) == 820);
const _: () = assert!(core::mem::offset_of!(NoteParam, delay) == 824);
const _: () = assert!(core::mem::offset_of!(NoteParam, maxed) == 828);
const _: () = assert!(core::mem::offset_of!(NoteParam, max) == 832);
const _: () = assert!(core::mem::offset_of!(NoteParam, repeat) == 836);
const _: () = assert!(core::mem::size_of::<Layer>() == 816 && core::mem::align_of::<Layer>() == 8);
const _: () = assert!(core::mem::offset_of!(Layer, value) == 0);
const _: () = assert!(core::mem::offset_of!(Layer, random) == 4);
const _: () = assert!(core::mem::offset_of!(Layer, reserve) == 8);
const _: () = assert!(core::mem::size_of::<Layers>() == 13064 && core::mem::align_of::<Layers>() == 8);
const _: () = assert!(core::mem::offset_of!(Layers, count) == 0);
const _: () = assert!(core::mem::offset_of!(Layers, items) == 8);
const _: () = assert!(core::mem::size_of::<WriteOption>() == 24 && core::mem::align_of::<WriteOption>() == 4);
const _: () = assert!(core::mem::offset_of!(WriteOption, delay) == 0);
const _: () = assert!(core::mem::offset_of!(WriteOption, random) == 4);
const _: () = assert!(core::mem::offset_of!(WriteOption, ranged) == 8);
const _: () = assert!(core::mem::offset_of!(WriteOption, low) == 12);
const _: () = assert!(core::mem::offset_of!(WriteOption, high) == 16);
const _: () = assert!(core::mem::offset_of!(WriteOption, repeat) == 20);
const _: () = assert!(core::mem::size_of::<OnNoteValues>() == 800 && core::mem::align_of::<OnNoteValues>() == 8);
const _: () = assert!(core::mem::offset_of!(OnNoteValues, target) == 0);
const _: () = assert!(core::mem::offset_of!(OnNoteValues, index) == 8);
const _: () = assert!(core::mem::offset_of!(OnNoteValues, cycling) == 16);
const _: () = assert!(core::mem::offset_of!(OnNoteValues, values) == 24);
const _: () = assert!(core::mem::size_of::<NoteTable>() == 12808 && core::mem::align_of::<NoteTable>() == 8);
const _: () = assert!(core::mem::offset_of!(NoteTable, count) == 0);
const _: () = assert!(core::mem::offset_of!(NoteTable, items) == 8);
const _: () = assert!(core::mem::size_of::<OnNoteWave>() == 784 && core::mem::align_of::<OnNoteWave>() == 8);
const _: () = assert!(core::mem::offset_of!(OnNoteWave, target) == 0);
const _: () = assert!(core::mem::offset_of!(OnNoteWave, mode) == 4);
const _: () = assert!(core::mem::offset_of!(OnNoteWave, values) == 8);
const _: () = assert!(core::mem::size_of::<WaveTable>() == 12552 && core::mem::align_of::<WaveTable>() == 8);
const _: () = assert!(core::mem::offset_of!(WaveTable, count) == 0);
const _: () = assert!(core::mem::offset_of!(WaveTable, items) == 8);
const _: () = assert!(core::mem::size_of::<OnNoteSine>() == 24 && core::mem::align_of::<OnNoteSine>() == 4);
const _: () = assert!(core::mem::offset_of!(OnNoteSine, target) == 0);
const _: () = assert!(core::mem::offset_of!(OnNoteSine, shape) == 4);
const _: () = assert!(core::mem::offset_of!(OnNoteSine, low) == 8);
const _: () = assert!(core::mem::offset_of!(OnNoteSine, high) == 12);
const _: () = assert!(core::mem::offset_of!(OnNoteSine, length) == 16);
const _: () = assert!(core::mem::offset_of!(OnNoteSine, times) == 20);
const _: () = assert!(core::mem::size_of::<SineTable>() == 392 && core::mem::align_of::<SineTable>() == 8);
const _: () = assert!(core::mem::offset_of!(SineTable, count) == 0);
const _: () = assert!(core::mem::offset_of!(SineTable, items) == 8);
const _: () = assert!(core::mem::size_of::<Track>() == 46168 && core::mem::align_of::<Track>() == 8);
const _: () = assert!(core::mem::offset_of!(Track, timebase) == 0);
const _: () = assert!(core::mem::offset_of!(Track, timepos) == 8);
const _: () = assert!(core::mem::offset_of!(Track, channel) == 16);
const _: () = assert!(core::mem::offset_of!(Track, ccfreq) == 20);
const _: () = assert!(core::mem::offset_of!(Track, pbfreq) == 24);
const _: () = assert!(core::mem::offset_of!(Track, velocity) == 28);
const _: () = assert!(core::mem::offset_of!(Track, timing) == 32);
const _: () = assert!(core::mem::offset_of!(Track, octave) == 36);
const _: () = assert!(core::mem::offset_of!(Track, qlen) == 40);
const _: () = assert!(core::mem::offset_of!(Track, step) == 44);
const _: () = assert!(core::mem::offset_of!(Track, v) == 48);
const _: () = assert!(core::mem::offset_of!(Track, q) == 888);
const _: () = assert!(core::mem::offset_of!(Track, t) == 1728);
const _: () = assert!(core::mem::offset_of!(Track, o) == 2568);
const _: () = assert!(core::mem::offset_of!(Track, l) == 3408);
const _: () = assert!(core::mem::offset_of!(Track, layers) == 4248);
const _: () = assert!(core::mem::offset_of!(Track, options) == 17312);
const _: () = assert!(core::mem::offset_of!(Track, notes) == 20408);
const _: () = assert!(core::mem::offset_of!(Track, waves) == 33216);
const _: () = assert!(core::mem::offset_of!(Track, sines) == 45768);
const _: () = assert!(core::mem::offset_of!(Track, cycles) == 46160);
const _: () = assert!(core::mem::size_of::<TrackAnswer>() == 46176 && core::mem::align_of::<TrackAnswer>() == 8);
const _: () = assert!(core::mem::offset_of!(TrackAnswer, code) == 0);
const _: () = assert!(core::mem::offset_of!(TrackAnswer, track) == 8);
const _: () = assert!(core::mem::size_of::<Budget>() == 16 && core::mem::align_of::<Budget>() == 4);
const _: () = assert!(core::mem::offset_of!(Budget, seed) == 0);
const _: () = assert!(core::mem::offset_of!(Budget, maximum) == 4);
const _: () = assert!(core::mem::offset_of!(Budget, used) == 8);
const _: () = assert!(core::mem::offset_of!(Budget, over) == 12);
const _: () = assert!(core::mem::size_of::<BudgetAnswer>() == 20 && core::mem::align_of::<BudgetAnswer>() == 4);
const _: () = assert!(core::mem::offset_of!(BudgetAnswer, code) == 0);
const _: () = assert!(core::mem::offset_of!(BudgetAnswer, budget) == 4);
const _: () = assert!(core::mem::size_of::<Cycle>() == 800 && core::mem::align_of::<Cycle>() == 8);
const _: () = assert!(core::mem::offset_of!(Cycle, target) == 0);
const _: () = assert!(core::mem::offset_of!(Cycle, length) == 4);
const _: () = assert!(core::mem::offset_of!(Cycle, next) == 8);
const _: () = assert!(core::mem::offset_of!(Cycle, index) == 16);
const _: () = assert!(core::mem::offset_of!(Cycle, values) == 24);
const _: () = assert!(core::mem::size_of::<SineAnswer>() == 28 && core::mem::align_of::<SineAnswer>() == 4);
const _: () = assert!(core::mem::offset_of!(SineAnswer, code) == 0);
const _: () = assert!(core::mem::offset_of!(SineAnswer, sine) == 4);
const _: () = assert!(core::mem::size_of::<OnCycleTime>() == 792 && core::mem::align_of::<OnCycleTime>() == 8);
const _: () = assert!(core::mem::offset_of!(OnCycleTime, start) == 0);
const _: () = assert!(core::mem::offset_of!(OnCycleTime, length) == 8);
const _: () = assert!(core::mem::offset_of!(OnCycleTime, values) == 16);
const _: () = assert!(core::mem::size_of::<CycleTimeAnswer>() == 800 && core::mem::align_of::<CycleTimeAnswer>() == 8);
const _: () = assert!(core::mem::offset_of!(CycleTimeAnswer, code) == 0);
const _: () = assert!(core::mem::offset_of!(CycleTimeAnswer, cycle) == 8);
const _: () = assert!(core::mem::size_of::<Event>() == 64 && core::mem::align_of::<Event>() == 8);
const _: () = assert!(core::mem::offset_of!(Event, kind) == 0);
const _: () = assert!(core::mem::offset_of!(Event, time) == 8);
const _: () = assert!(core::mem::offset_of!(Event, channel) == 16);
const _: () = assert!(core::mem::offset_of!(Event, v1) == 24);
const _: () = assert!(core::mem::offset_of!(Event, v2) == 32);
const _: () = assert!(core::mem::offset_of!(Event, v3) == 40);
const _: () = assert!(core::mem::offset_of!(Event, offset) == 48);
const _: () = assert!(core::mem::offset_of!(Event, len) == 56);
const _: () = assert!(core::mem::size_of::<Made>() == 72 && core::mem::align_of::<Made>() == 8);
const _: () = assert!(core::mem::offset_of!(Made, code) == 0);
const _: () = assert!(core::mem::offset_of!(Made, event) == 8);

extern "C" {
    // ---- new records: a track, a budget, an unused cycle, an option, a sine, a cycle over time

    // A track at time 0 with nothing set; the channel is clamped to 0..15. Refuses 4, and then hands back a track
    // of timebase 0, which no call takes.
    pub fn dollavir_track_new(timebase: i32, channel: i32) -> TrackAnswer;

    // Nothing used yet, the flag clear. Refuses 4, and then hands back a budget of zeros.
    pub fn dollavir_budget_new(seed: u32, maximum: u32) -> BudgetAnswer;

    // What an unused place of a table of cycles holds.
    pub fn dollavir_cycle_none() -> Cycle;

    // No delay, no random, no range, no repeat.
    pub fn dollavir_write_option_new() -> WriteOption;

    // A sine for a target's notes. Refuses 2, 4, and then hands back a sine of zeros.
    pub fn dollavir_on_note_sine_new(target: i32, shape: u32, low: i32, high: i32, len: i32, times: i32) -> SineAnswer;

    // A cycle over time of its own. Refuses 3, 4, and then hands back a cycle of zeros.
    pub fn dollavir_cycle_time_new(start: i64, len: i32, values: *const i32, values_length: usize) -> CycleTimeAnswer;

    // ---- a number in a range

    // Below `low` gives `low`, otherwise above `high` gives `high`, whichever of the two is the greater.
    pub fn dollavir_value_range(low: i64, v: i64, high: i64) -> i64;

    // ---- the track's own numbers

    // Where the track stands: the time of what is written next. Refuses 4.
    pub fn dollavir_set_timepos(track: *mut Track, timepos: i64) -> u32;

    // The channel of what is written next; outside 0..15 it is not clamped here. Refuses 4.
    pub fn dollavir_set_channel(track: *mut Track, channel: i32) -> u32;

    // How many steps apart a controller's curve is written. Refuses 4.
    pub fn dollavir_set_cc_on_time_freq(track: *mut Track, freq: i32) -> u32;

    // The same of a bend's curve. Refuses 4.
    pub fn dollavir_set_pb_on_time_freq(track: *mut Track, freq: i32) -> u32;

    // ---- a target's option

    // What is set for a target. Leaves it in `option`, with nothing set where it refuses. Refuses 2, 4.
    pub fn dollavir_get_write_opt(track: *const Track, target: i32, option: *mut WriteOption) -> u32;

    // How many steps later a target's events stand. Refuses 2, 4.
    pub fn dollavir_set_delay(track: *mut Track, target: i32, delay: i32) -> u32;

    // How far random moves a target's values; 0 or less is off. Refuses 2, 4.
    pub fn dollavir_set_random(track: *mut Track, target: i32, random: i32) -> u32;

    // The range to which a target's values are limited. Refuses 2, 4.
    pub fn dollavir_set_range(track: *mut Track, target: i32, low: i32, high: i32) -> u32;

    // A target's values are limited no more. Refuses 2, 4.
    pub fn dollavir_clear_range(track: *mut Track, target: i32) -> u32;

    // Whether a target's lists for notes go round, 0 or 1; it reaches the list that is stored too. Refuses 2, 4.
    pub fn dollavir_set_repeat(track: *mut Track, target: i32, on: u32) -> u32;

    // ---- writes at the track's time

    // Writes a curve at the track's time: `list` is triples of a low, a high and a length. Answers the new count
    // and the budget; the target's events within the curve's length are taken out, the new ones stand behind the
    // others. Refuses 1, 2, 3, 4, 7.
    pub fn dollavir_write_on_time(track: *const Track, target: i32, list: *const i32, list_length: usize, budget: *mut Budget, events: *mut i64, events_length: usize, count: *mut usize, store: *const u8, store_length: usize) -> u32;

    // `write_on_time` of a controller by its number. Refuses 1, 2, 3, 4, 7.
    pub fn dollavir_write_cc_on_time(track: *const Track, number: i32, list: *const i32, list_length: usize, budget: *mut Budget, events: *mut i64, events_length: usize, count: *mut usize, store: *const u8, store_length: usize) -> u32;

    // `write_on_time` of the bend. Refuses 1, 3, 4, 7.
    pub fn dollavir_write_pb_on_time(track: *const Track, big: i32, list: *const i32, list_length: usize, budget: *mut Budget, events: *mut i64, events_length: usize, count: *mut usize, store: *const u8, store_length: usize) -> u32;

    // Writes a sine at the track's time, `times` turns of `len` steps from `low` to `high`; `shape` is 0 for a
    // full turn, 1 and 2 for the quarter up and down. Answers and leaves as `write_on_time`; a length of 0 or
    // less changes nothing, times of 0 or less count once. Refuses 1, 2, 4, 7.
    pub fn dollavir_write_sine(track: *const Track, target: i32, shape: u32, low: i32, high: i32, len: i32, times: i32, budget: *mut Budget, events: *mut i64, events_length: usize, count: *mut usize, store: *const u8, store_length: usize) -> u32;

    // ---- what is reserved for a target

    // Takes out the reservations of a target, of all four kinds. Answers the track. Refuses 1, 2, 4.
    pub fn dollavir_remove_reserve(track: *mut Track, cycles: *mut Cycle, cycles_length: usize, target: i32) -> u32;

    // Reserves a list of numbers for a target, one for each note, in place of what is reserved for it. Answers
    // the track. Refuses 1, 2, 3, 4, 6.
    pub fn dollavir_set_on_note(track: *mut Track, cycles: *mut Cycle, cycles_length: usize, target: i32, list: *const i32, list_length: usize) -> u32;

    // Reserves a wave for a target: `list` is triples of a low, a high and a length. Answers the track. Refuses
    // 1, 2, 3, 4, 6.
    pub fn dollavir_set_on_note_wave(track: *mut Track, cycles: *mut Cycle, cycles_length: usize, target: i32, mode: u32, list: *const i32, list_length: usize) -> u32;

    // Reserves a sine for a target, which it must name. Answers the track. Refuses 1, 2, 4, 6.
    pub fn dollavir_set_on_note_sine(track: *mut Track, cycles: *mut Cycle, cycles_length: usize, target: i32, sine: OnNoteSine) -> u32;

    // Reserves a cycle of `list` for a target, one number every `len` steps from the track's time on; it comes
    // last in the table. A length of 0 or less, or no number, only takes the target's reservations out. Answers
    // the track. Refuses 1, 2, 3, 4, 6.
    pub fn dollavir_set_on_cycle(track: *mut Track, cycles: *mut Cycle, cycles_length: usize, target: i32, len: i32, list: *const i32, list_length: usize) -> u32;

    // The older calls. `remove_reserve` of a controller. Refuses 1, 2, 4.
    pub fn dollavir_remove_cc_on(track: *mut Track, cycles: *mut Cycle, cycles_length: usize, number: i32) -> u32;

    // `set_on_note` of a controller. Refuses 1, 2, 3, 4, 6.
    pub fn dollavir_set_cc_on_note(track: *mut Track, cycles: *mut Cycle, cycles_length: usize, number: i32, list: *const i32, list_length: usize) -> u32;

    // `set_on_note_wave` of a controller, the wave used as it is. Refuses 1, 2, 3, 4, 6.
    pub fn dollavir_set_cc_on_note_wave(track: *mut Track, cycles: *mut Cycle, cycles_length: usize, number: i32, list: *const i32, list_length: usize) -> u32;

    // `set_on_note_wave` of a bend by its argument, the wave used as it is. Refuses 1, 3, 4, 6.
    pub fn dollavir_set_pb_on_note_wave(track: *mut Track, cycles: *mut Cycle, cycles_length: usize, big: i32, list: *const i32, list_length: usize) -> u32;

    // `remove_reserve` of both bends. Refuses 1, 4.
    pub fn dollavir_remove_pb_on_note_wave(track: *mut Track, cycles: *mut Cycle, cycles_length: usize) -> u32;

    // No list for notes stays reserved for a controller; what is of another kind stays. Refuses 2, 4.
    pub fn dollavir_remove_cc_on_note(track: *mut Track, number: i32) -> u32;

    // No wave and no sine stays reserved for a controller; what is of another kind stays. Refuses 2, 4.
    pub fn dollavir_remove_cc_on_note_wave(track: *mut Track, number: i32) -> u32;

    // ---- writes at notes and cycles

    // Writes what a track's lists have for a note that starts at `start`: the events stand behind the list's own,
    // and each list that wrote is one further. Answers the count, the budget and the track afterwards. A write
    // that does not fit sets the flag and ends the call; else lists that are used up and do not go round are
    // taken out. Refuses 1, 4, 7; then all is left as it is.
    pub fn dollavir_write_cc_on_note(track: *mut Track, start: i64, budget: *mut Budget, events: *mut i64, events_length: usize, count: *mut usize) -> u32;

    // Writes the waves and then the sines that are reserved for the track's notes, over a note from `start` to
    // the track's time; they stop once the flag is set. Answers the count of events and the budget after them,
    // and leaves the events in the list; the track stays as it is. Refuses 1, 4, 7; then list, count and budget
    // are those that were handed in.
    pub fn dollavir_write_cc_on_note_wave(track: *const Track, start: i64, budget: *mut Budget, events: *mut i64, events_length: usize, count: *mut usize, store: *const u8, store_length: usize) -> u32;

    // Makes the writes of the track's cycles that are due up to `until`, as `cycling::write_cc_on_cycle` does,
    // over a cycle table and a budget that are lent: the records are advanced in place. Answers the new count.
    // Refuses 1, 4, 7; then all that was lent is left.
    pub fn dollavir_write_cc_on_cycle(track: *const Track, cycles: *mut Cycle, cycles_length: usize, until: i64, budget: *mut Budget, events: *mut i64, events_length: usize, count: *mut usize) -> u32;

    // ---- a controller's value

    // The value of controller `number` on the track's channel at its time: that of the last such event in list
    // order at or before it, or the controller's default. Leaves it in `value`, 0 where it refuses. Refuses 1, 2,
    // 4.
    pub fn dollavir_current_cc_value(track: *const Track, number: i32, events: *const i64, events_length: usize, count: usize, store: *const u8, store_length: usize, value: *mut i64) -> u32;

    // ---- the event list

    // Takes out the bends from `start` to `end`, that time included. Answers the new count; the others keep their
    // order, and the places that fall vacant are zeroed. Refuses 1, 4; then the list is left as it is.
    pub fn dollavir_remove_pitch_bend_in_range(events: *mut i64, events_length: usize, count: *mut usize, start: i64, end: i64, store: *const u8, store_length: usize) -> u32;

    // Sorts the list by time; events of one time keep their order. Answers 0, or refuses 1, 4; then the list is
    // left as it is.
    pub fn dollavir_events_sort(events: *mut i64, events_length: usize, count: usize, store: *const u8, store_length: usize) -> u32;

    // Puts the list's events at the front of `out`, after each note its end, and leaves their number in
    // `out_count`. Beyond them `out` is left as it is. Refuses 1, 4, 7; then all of `out` is left as it is, and
    // `out_count` is `count`.
    pub fn dollavir_split_note_off(events: *const i64, events_length: usize, count: usize, out: *mut i64, out_length: usize, store: *const u8, store_length: usize, out_count: *mut usize) -> u32;

    // Puts after each note of the list its end, and answers the new count. Refuses 1, 4, 7; then the list is left
    // as it is.
    pub fn dollavir_normalize(events: *mut i64, events_length: usize, count: *mut usize, store: *const u8, store_length: usize) -> u32;

    // Cuts off what is before `cut`: the events that are kept count their time from it, and after them stand, at
    // time 0, the controllers and the program as they were by the last of each in list order. Answers the new
    // count; the places that fall vacant are zeroed. Refuses 1, 4; then the list is left as it is.
    pub fn dollavir_play_from(events: *mut i64, events_length: usize, count: *mut usize, cut: i64, store: *const u8, store_length: usize) -> u32;

    // The cut with its bends: those from `cut` on are kept, and what is folded stands first, the bend too. Of
    // each controller, of the program and of the bend the latest event before `cut` counts, whatever the list's
    // order, and of equal times the later in the list; the channel is that of the latest controller or program. A
    // negative value of the latest unsets, but a bend counts whatever its value, on its own channel. Answers the
    // new count; the places that fall vacant are zeroed. Refuses 1, 4; then the list is left as it is.
    pub fn dollavir_full_cut(events: *mut i64, events_length: usize, count: *mut usize, cut: i64, store: *const u8, store_length: usize) -> u32;

    // ---- a file's track chunk

    // Writes the events as a track chunk of Standard MIDI Files 1.0 at the start of `out`, with full status on
    // every event and the end of track last. Leaves in `bytes` how many bytes the chunk has, 0 where it refuses;
    // what stands in `out` behind them is left. Refuses 1, 4; 10 a list that is not in order, whose first time is
    // below 0 or that has a gap above 268,435,455; 11 a kind that is not written, or a field outside its width;
    // 12 an output that is too short. Then all of `out` is left as it is.
    pub fn dollavir_write_chunk(events: *const i64, events_length: usize, count: usize, store: *const u8, store_length: usize, out: *mut u8, out_length: usize, bytes: *mut usize) -> u32;

    // Reads a track chunk of Standard MIDI Files 1.0 into the list, which then holds the chunk's events in order
    // and nothing else: NoteOn, NoteOff, controllers, programs and bends, with running status; Meta, system
    // exclusive and aftertouch are stepped over, and their times count. A note's end is a NoteOff of velocity 0.
    // Leaves in `count` how many events the list has. Refuses 1; 13 bytes that are no track chunk, or not as many
    // as it says; 14 an event that is cut short or faulty; 15 no end of track, or bytes behind it; 7; 4 an event
    // later than 2^42. Then the list and the count are left as they are.
    pub fn dollavir_read_chunk(chunk: *const u8, chunk_length: usize, events: *mut i64, events_length: usize, count: *mut usize) -> u32;

    // ---- the rehearsal player's profile

    // Leaves in `yes` whether the rehearsal player accepts the list: 1 where its controllers are 1, 7, 10, 11 and
    // 64 only, at most one of each at a time, its bends 0 to 16,383, all its events but Meta, SysEx and DirectSMF
    // on one channel, and its times from 0 on and never falling; else 0, as where it refuses. Refuses 1, 4.
    pub fn dollavir_check_profile(events: *const i64, events_length: usize, count: usize, store: *const u8, store_length: usize, yes: *mut u32) -> u32;

    // Fits the list to the rehearsal player: sorts it by time, events of one time in their order, and drops
    // controllers but 1, 7, 10, 11 and 64, bends outside 0 to 16,383, and of a controller's events at one time
    // all but the last. Leaves the new count in `count`; the places that fall vacant are zeroed. Refuses 1, 4,
    // then 17 more than one channel (Meta, SysEx and DirectSMF not counted), then 18 a time below 0, each asked
    // of the list handed in; then the list and the count are left as they are.
    pub fn dollavir_fit_profile(events: *mut i64, events_length: usize, count: *mut usize, store: *const u8, store_length: usize) -> u32;

    // ---- the track's parameters and layers

    // A note's velocity at the track's time, of the curve or cycle that is reserved, or the default; a curve that
    // is over goes. Leaves it in `value`, 0 where it refuses. Refuses 4.
    pub fn dollavir_calc_v_on_time(track: *mut Track, def: i32, value: *mut i32) -> u32;

    // The same of a note's timing. Leaves it in `value`, 0 where it refuses. Refuses 4.
    pub fn dollavir_calc_t_on_time(track: *mut Track, def: i32, value: *mut i32) -> u32;

    // The same of a note's gate. Leaves it in `value`, 0 where it refuses. Refuses 4.
    pub fn dollavir_calc_qlen_on_time(track: *mut Track, def: i32, value: *mut i32) -> u32;

    // The same of a note's octave. Leaves it in `value`, 0 where it refuses. Refuses 4.
    pub fn dollavir_calc_o_on_time(track: *mut Track, def: i32, value: *mut i32) -> u32;

    // The same of a note's length. Leaves it in `value`, 0 where it refuses. Refuses 4.
    pub fn dollavir_calc_l_on_time(track: *mut Track, def: i32, value: *mut i32) -> u32;

    // A note's velocity, the next of the list that is reserved, or the default; a list that is spent goes. While
    // the list is there, the value is the track's velocity too. Leaves it in `value`, 0 where it refuses. Refuses
    // 4.
    pub fn dollavir_calc_v_on_note(track: *mut Track, def: i32, value: *mut i32) -> u32;

    // The same of a note's timing. Leaves it in `value`, 0 where it refuses. Refuses 4.
    pub fn dollavir_calc_t_on_note(track: *mut Track, def: i32, value: *mut i32) -> u32;

    // The same of a note's gate, which is no longer one in steps then. Leaves it in `value`, 0 where it refuses.
    // Refuses 4.
    pub fn dollavir_calc_qlen_on_note(track: *mut Track, def: i32, value: *mut i32) -> u32;

    // The same of a note's octave. Leaves it in `value`, 0 where it refuses. Refuses 4.
    pub fn dollavir_calc_o_on_note(track: *mut Track, def: i32, value: *mut i32) -> u32;

    // The same of a note's length, which the track does not keep. Leaves it in `value`, 0 where it refuses.
    // Refuses 4.
    pub fn dollavir_calc_l_on_note(track: *mut Track, def: i32, value: *mut i32) -> u32;

    // A layer's value; nothing stays reserved for it. Refuses 4, 5.
    pub fn dollavir_set_v_sub(track: *mut Track, index: usize, velocity: i32) -> u32;

    // A layer's random width. Refuses 4, 5.
    pub fn dollavir_set_v_sub_random(track: *mut Track, index: usize, random: i32) -> u32;

    // Reserves a curve for a layer, from the track's time and the velocity parameter's delay on. Refuses 3, 4, 5.
    pub fn dollavir_set_v_sub_on_time(track: *mut Track, index: usize, values: *const i32, values_length: usize) -> u32;

    // Reserves a cycle for a layer, its length and then its values; nothing, where there is no value. Refuses 3,
    // 4, 5.
    pub fn dollavir_set_v_sub_on_cycle(track: *mut Track, index: usize, args: *const i32, args_length: usize) -> u32;

    // Reserves a value of a layer for each of the next notes, round and round where the velocity parameter's
    // repeat stands. Refuses 3, 4, 5.
    pub fn dollavir_set_v_sub_on_note(track: *mut Track, index: usize, values: *const i32, values_length: usize) -> u32;

    // A note's velocity at the track's time: the given one and what every layer adds to it. The layers come back
    // advanced. Leaves it in `value`, 0 where it refuses. Refuses 4.
    pub fn dollavir_apply_v_sub(track: *mut Track, velocity: i32, value: *mut i64) -> u32;

    // The setters of a parameter, `which` by its number; any other number refuses 4. Reserves a curve, low, high
    // and length by threes, from the track's time and the parameter's delay on. Refuses 3, 4.
    pub fn dollavir_set_param_on_time(track: *mut Track, which: u32, values: *const i32, values_length: usize) -> u32;

    // Reserves a cycle, its length and then its values, from there on; nothing, where there is no value. Refuses
    // 3, 4.
    pub fn dollavir_set_param_on_cycle(track: *mut Track, which: u32, args: *const i32, args_length: usize) -> u32;

    // Reserves a value for each of the next notes, round and round where repeat stands. Refuses 3, 4.
    pub fn dollavir_set_param_on_note(track: *mut Track, which: u32, values: *const i32, values_length: usize) -> u32;

    // Nothing stays reserved. Refuses 4.
    pub fn dollavir_clear_param_reserve(track: *mut Track, which: u32) -> u32;

    // The random width of a value. Refuses 4.
    pub fn dollavir_set_param_random(track: *mut Track, which: u32, random: i32) -> u32;

    // The range of a value. Refuses 4.
    pub fn dollavir_set_param_range(track: *mut Track, which: u32, low: i32, high: i32) -> u32;

    // No range. Refuses 4.
    pub fn dollavir_clear_param_range(track: *mut Track, which: u32) -> u32;

    // The delay of what is reserved from now on. Refuses 4.
    pub fn dollavir_set_param_delay(track: *mut Track, which: u32, delay: i32) -> u32;

    // The maximum of a value. Refuses 4.
    pub fn dollavir_set_param_max(track: *mut Track, which: u32, max: i32) -> u32;

    // No maximum. Refuses 4.
    pub fn dollavir_clear_param_max(track: *mut Track, which: u32) -> u32;

    // Whether a list that is reserved from now on goes round: 0 or 1. Refuses 4.
    pub fn dollavir_set_param_repeat(track: *mut Track, which: u32, repeat: u32) -> u32;

    // ---- events

    // A note of a length and a velocity. Refuses 4.
    pub fn dollavir_event_note(time: i64, channel: i64, number: i64, len: i64, vel: i64) -> Made;

    // A program. Refuses 4.
    pub fn dollavir_event_voice(time: i64, channel: i64, value: i64) -> Made;

    // A controller's value. Refuses 2 a number that is no controller's, then 4.
    pub fn dollavir_event_cc(time: i64, channel: i64, number: i64, value: i64) -> Made;

    // A bend. Refuses 4.
    pub fn dollavir_event_pitch_bend(time: i64, channel: i64, value: i64) -> Made;

    // A bend's range. Refuses 4.
    pub fn dollavir_event_pitch_bend_range(time: i64, channel: i64, value: i64) -> Made;

    // A meta event, its data the `len` bytes of `store` from `offset` on. Refuses 4.
    pub fn dollavir_event_meta(time: i64, v1: i64, v2: i64, v3: i64, offset: i64, len: i64, store: *const u8, store_length: usize) -> Made;

    // Bytes of `store` that are written as they stand. Refuses 4.
    pub fn dollavir_event_direct_smf(time: i64, offset: i64, len: i64, store: *const u8, store_length: usize) -> Made;

    // A system exclusive message of bytes of `store`. Refuses 4.
    pub fn dollavir_event_sysex_raw(time: i64, offset: i64, len: i64, store: *const u8, store_length: usize) -> Made;

    // The bytes that an event counts in the budget. Refuses 4 an event that may not be stored beside `store`.
    pub fn dollavir_event_bytes(event: *const Event, store: *const u8, store_length: usize, bytes: *mut usize) -> u32;

    // ---- a note parameter of its own

    // Nothing reserved, no option set.
    pub fn dollavir_param_new() -> NoteParam;

    // Nothing stays reserved. Refuses 4.
    pub fn dollavir_param_clear_reserve(param: *mut NoteParam) -> u32;

    // 1 where something is reserved, else 0. Leaves it in `value`, 0 where it refuses. Refuses 4.
    pub fn dollavir_param_has_reserve(param: *const NoteParam, value: *mut i32) -> u32;

    // Reserves a curve, low, high and length by threes, from `timepos` and the delay on. Refuses 3, 4.
    pub fn dollavir_param_set_on_time(param: *mut NoteParam, timepos: i64, values: *const i32, values_length: usize) -> u32;

    // Reserves a cycle, its length and then its values, from `timepos` and the delay on; nothing, where there is
    // no value. Refuses 3, 4.
    pub fn dollavir_param_set_on_cycle(param: *mut NoteParam, timepos: i64, args: *const i32, args_length: usize) -> u32;

    // Reserves a value for each of the next notes, round and round where repeat stands. Refuses 3, 4.
    pub fn dollavir_param_set_on_note(param: *mut NoteParam, values: *const i32, values_length: usize) -> u32;

    // The value of the reserved curve or cycle at `timepos`, or the default; a curve that is over goes. Leaves it
    // in `value`, 0 where it refuses. Refuses 4.
    pub fn dollavir_param_calc_on_time(param: *mut NoteParam, timepos: i64, def: i32, value: *mut i32) -> u32;

    // The next value of the reserved list, or the default; a list that is spent goes. Leaves it in `value`, 0
    // where it refuses. Refuses 4.
    pub fn dollavir_param_calc_on_note(param: *mut NoteParam, def: i32, value: *mut i32) -> u32;

    // A value limited by the range and then by the maximum, where there is one. Leaves it in `limited`, 0 where
    // it refuses. Refuses 4.
    pub fn dollavir_param_apply_limit(param: *const NoteParam, value: i32, limited: *mut i32) -> u32;

    // The maximum, or the default where there is none. Leaves it in `value`, 0 where it refuses. Refuses 4.
    pub fn dollavir_param_max_or(param: *const NoteParam, def: i32, value: *mut i32) -> u32;

    // The random width of a value. Refuses 4.
    pub fn dollavir_param_set_random(param: *mut NoteParam, random: i32) -> u32;

    // The range of a value. Refuses 4.
    pub fn dollavir_param_set_range(param: *mut NoteParam, low: i32, high: i32) -> u32;

    // No range. Refuses 4.
    pub fn dollavir_param_clear_range(param: *mut NoteParam) -> u32;

    // The delay of what is reserved from now on. Refuses 4.
    pub fn dollavir_param_set_delay(param: *mut NoteParam, delay: i32) -> u32;

    // The maximum of a value. Refuses 4.
    pub fn dollavir_param_set_max(param: *mut NoteParam, max: i32) -> u32;

    // No maximum. Refuses 4.
    pub fn dollavir_param_clear_max(param: *mut NoteParam) -> u32;

    // Whether a list that is reserved from now on goes round: 0 or 1. Refuses 4.
    pub fn dollavir_param_set_repeat(param: *mut NoteParam, repeat: u32) -> u32;

    // ---- velocity layers of their own

    // One layer, with nothing set.
    pub fn dollavir_layers_new() -> Layers;

    // A layer's value; nothing stays reserved for it. Refuses 4, 5.
    pub fn dollavir_layers_set_v_sub(layers: *mut Layers, index: usize, velocity: i32) -> u32;

    // A layer's random width. Refuses 4, 5.
    pub fn dollavir_layers_set_v_sub_random(layers: *mut Layers, index: usize, random: i32) -> u32;

    // Reserves a curve for a layer, from `timepos` and the velocity parameter's delay on. Refuses 3, 4, 5.
    pub fn dollavir_layers_set_v_sub_on_time(layers: *mut Layers, index: usize, timepos: i64, delay: i32, values: *const i32, values_length: usize) -> u32;

    // Reserves a cycle for a layer, its length and then its values, from `timepos` and the velocity parameter's
    // delay on; nothing, where there is no value. Refuses 3, 4, 5.
    pub fn dollavir_layers_set_v_sub_on_cycle(layers: *mut Layers, index: usize, timepos: i64, delay: i32, args: *const i32, args_length: usize) -> u32;

    // Reserves a value of a layer for each of the next notes, round and round where the velocity parameter's
    // repeat stands. Refuses 3, 4, 5.
    pub fn dollavir_layers_set_v_sub_on_note(layers: *mut Layers, index: usize, repeat: u32, values: *const i32, values_length: usize) -> u32;

    // A note's velocity at `timepos`: the given one and what every layer adds to it. The layers come back
    // advanced. Leaves it in `value`, 0 where it refuses. Refuses 4.
    pub fn dollavir_layers_apply_v_sub(layers: *mut Layers, timepos: i64, velocity: i32, value: *mut i64) -> u32;

    // ---- a cycle over time of its own

    // The value of a cycle at `timepos`, and in `found` whether it has one: none before the start, and none of a
    // cycle without values or with a length of 0 or less. Leaves it in `value`, 0 where it refuses. Refuses 4.
    pub fn dollavir_cycle_time_calc(cycle: *const OnCycleTime, timepos: i64, found: *mut u32, value: *mut i32) -> u32;

    // ---- the kind of a sine

    // The kind of a sine that a number names, as `write_sine` takes it: 1 and 2 the quarters up and down, any
    // other number the full turn, which is 0. Refuses nothing.
    pub fn dollavir_sine_type(v: i32) -> u32;
}
