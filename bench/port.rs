// The port's records as they lie in memory, and its functions by their plain names (crates/benches). A slice goes as its address and its length.

#[allow(dead_code)]
#[path = "../include/dollavir.rs"]
mod dollavir;

use dollavir::LIST_LIMIT;

#[derive(Clone, Copy, Debug, PartialEq)]
#[repr(C)]
pub struct Numbers {
    pub count: usize,
    pub items: [i32; LIST_LIMIT],
}

#[derive(Clone, Copy, Debug, PartialEq)]
#[repr(C)]
pub struct Reserve {
    pub kind: u32,
    pub cycling: u32,
    pub start: i64,
    pub length: i32,
    pub index: usize,
    pub values: Numbers,
}

#[derive(Clone, Copy, Debug, PartialEq)]
#[repr(C)]
pub struct NoteParam {
    pub reserve: Reserve,
    pub random: i32,
    pub ranged: u32,
    pub low: i32,
    pub high: i32,
    pub delay: i32,
    pub maxed: u32,
    pub max: i32,
    pub repeat: u32,
}

#[derive(Clone, Copy, Debug, PartialEq)]
#[repr(C)]
pub struct Layer {
    pub value: i32,
    pub random: i32,
    pub reserve: Reserve,
}

#[derive(Clone, Copy, Debug, PartialEq)]
#[repr(C)]
pub struct WriteOption {
    pub delay: i32,
    pub random: i32,
    pub ranged: u32,
    pub low: i32,
    pub high: i32,
    pub repeat: u32,
}

#[derive(Clone, Copy, Debug, PartialEq)]
#[repr(C)]
pub struct OnNoteValues {
    pub target: i32,
    pub index: usize,
    pub cycling: u32,
    pub values: Numbers,
}

#[derive(Clone, Copy, Debug, PartialEq)]
#[repr(C)]
pub struct OnNoteWave {
    pub target: i32,
    pub mode: u32,
    pub values: Numbers,
}

#[derive(Clone, Copy, Debug, PartialEq)]
#[repr(C)]
pub struct OnNoteSine {
    pub target: i32,
    pub shape: u32,
    pub low: i32,
    pub high: i32,
    pub length: i32,
    pub times: i32,
}

#[derive(Clone, Copy, Debug, PartialEq)]
#[repr(C)]
pub struct Cycle {
    pub target: i32,
    pub length: i32,
    pub next: i64,
    pub index: usize,
    pub values: Numbers,
}

/// So many of the places, counted.
#[derive(Clone, Copy, Debug, PartialEq)]
#[repr(C)]
pub struct Table<T> {
    pub count: usize,
    pub items: [T; 16],
}

#[derive(Clone, Copy, Debug, PartialEq)]
#[repr(C)]
pub struct Track {
    pub timebase: i32,
    pub timepos: i64,
    pub channel: i32,
    pub ccfreq: i32,
    pub pbfreq: i32,
    pub velocity: i32,
    pub timing: i32,
    pub octave: i32,
    pub qlen: i32,
    pub step: u32,
    pub params: [NoteParam; 5],
    pub layers: Table<Layer>,
    pub options: [WriteOption; 129],
    pub notes: Table<OnNoteValues>,
    pub waves: Table<OnNoteWave>,
    pub sines: Table<OnNoteSine>,
    pub cycles: usize,
}

#[derive(Clone, Copy, Debug, PartialEq)]
#[repr(C)]
pub struct Budget {
    pub seed: u32,
    pub maximum: u32,
    pub used: u32,
    pub over: u32,
}

#[repr(C)]
pub struct TrackAnswer {
    pub code: u32,
    pub track: Track,
}

#[repr(C)]
pub struct TrackValue {
    pub code: u32,
    pub value: i32,
    pub track: Track,
}

#[repr(C)]
pub struct TrackVelocity {
    pub code: u32,
    pub value: i64,
    pub track: Track,
}

#[repr(C)]
pub struct CcValue {
    pub code: u32,
    pub value: i64,
}

#[repr(C)]
pub struct Outcome {
    pub code: u32,
    pub count: usize,
    pub budget: Budget,
}

#[repr(C)]
pub struct Noted {
    pub code: u32,
    pub count: usize,
    pub budget: Budget,
    pub track: Track,
}

#[repr(C)]
pub struct Kept {
    pub code: u32,
    pub track: Track,
    pub cycles: [Cycle; 16],
}

#[repr(C)]
pub struct Cycled {
    pub code: u32,
    pub count: usize,
    pub budget: Budget,
    pub cycles: [Cycle; 16],
}

pub const NO_CYCLE: Cycle = Cycle { target: 0, length: 0, next: 0, index: 0, values: Numbers { count: 0, items: [0; LIST_LIMIT] } };

#[link(name = "benches", kind = "static")]
extern "C" {
    pub fn bench_remove_pitch_bend_in_range(
        events: *mut i64,
        numbers: usize,
        count: usize,
        start: i64,
        end: i64,
        store: *const u8,
        bytes: usize,
    ) -> usize;
    pub fn bench_play_from(events: *mut i64, numbers: usize, count: usize, cut: i64, store: *const u8, bytes: usize) -> usize;
    pub fn bench_full_cut(events: *mut i64, numbers: usize, count: usize, cut: i64, store: *const u8, bytes: usize) -> usize;
    pub fn bench_normalize(events: *mut i64, numbers: usize, count: usize, store: *const u8, bytes: usize) -> usize;
    pub fn bench_events_sort(events: *mut i64, numbers: usize, count: usize, store: *const u8, bytes: usize) -> usize;
    pub fn bench_curve_value(low: i32, high: i32, j: u64, len: u64) -> i64;

    pub fn bench_new(timebase: i32, channel: i32) -> TrackAnswer;
    pub fn bench_hand_on(track: Track) -> TrackAnswer;
    pub fn bench_set_timepos(track: Track, timepos: i64) -> TrackAnswer;
    pub fn bench_set_frequencies(track: Track, controllers: i32, bends: i32) -> TrackAnswer;
    pub fn bench_set_delay(track: Track, target: i32, delay: i32) -> TrackAnswer;
    pub fn bench_set_random(track: Track, target: i32, random: i32) -> TrackAnswer;
    pub fn bench_set_repeat(track: Track, target: i32, on: u32) -> TrackAnswer;
    pub fn bench_set_param_on_note(track: Track, which: u32, values: *const i32, count: usize) -> TrackAnswer;
    pub fn bench_set_on_note(track: Track, table: Table<Cycle>, target: i32, list: *const i32, count: usize) -> Kept;
    pub fn bench_set_on_note_wave(track: Track, table: Table<Cycle>, target: i32, mode: u32, list: *const i32, count: usize) -> Kept;
    pub fn bench_set_on_note_sine(track: Track, table: Table<Cycle>, target: i32, sine: OnNoteSine) -> Kept;
    pub fn bench_set_on_cycle(track: Track, table: Table<Cycle>, target: i32, length: i32, list: *const i32, count: usize) -> Kept;
    pub fn bench_calc_v_on_note(track: Track, def: i32) -> TrackValue;
    pub fn bench_calc_t_on_note(track: Track, def: i32) -> TrackValue;
    pub fn bench_calc_qlen_on_note(track: Track, def: i32) -> TrackValue;
    pub fn bench_write_cc_on_note(track: Track, start: i64, budget: Budget, events: *mut i64, numbers: usize, count: usize) -> Noted;
    pub fn bench_write_cc_on_note_wave(
        track: Track,
        start: i64,
        budget: Budget,
        events: *mut i64,
        numbers: usize,
        count: usize,
        store: *const u8,
        bytes: usize,
    ) -> Outcome;
    pub fn bench_write_cc_on_time(
        track: Track,
        number: i32,
        list: *const i32,
        length: usize,
        budget: Budget,
        events: *mut i64,
        numbers: usize,
        count: usize,
        store: *const u8,
        bytes: usize,
    ) -> Outcome;
    pub fn bench_write_sine(
        track: Track,
        sine: OnNoteSine,
        budget: Budget,
        events: *mut i64,
        numbers: usize,
        count: usize,
        store: *const u8,
        bytes: usize,
    ) -> Outcome;
    pub fn bench_write_cc_on_cycle(
        track: Track,
        table: Table<Cycle>,
        until: i64,
        budget: Budget,
        events: *mut i64,
        numbers: usize,
        count: usize,
    ) -> Cycled;
    pub fn bench_set_param_on_cycle(track: Track, which: u32, args: *const i32, count: usize) -> TrackAnswer;
    pub fn bench_set_v_sub_on_cycle(track: Track, layer: usize, args: *const i32, count: usize) -> TrackAnswer;
    pub fn bench_apply_v_sub(track: Track, velocity: i32) -> TrackVelocity;
    pub fn bench_calc_v_on_time(track: Track, def: i32) -> TrackValue;
    pub fn bench_remove_reserve(track: Track, table: Table<Cycle>, target: i32) -> Kept;
    pub fn bench_remove_cc_on_note_wave(track: Track, number: i32) -> TrackAnswer;
    pub fn bench_current_cc_value(
        track: Track,
        number: i32,
        events: *const i64,
        numbers: usize,
        count: usize,
        store: *const u8,
        bytes: usize,
    ) -> CcValue;
}
