// The desk that a script works at: the original's track, and beside it what the port is lent apart from the track: the list of records, the budget and the
// byte store. Records stand here as eight numbers, so that a script can spoil them; the track is given Rust events for the length of one call.

use crate::original::*;
use std::collections::BTreeSet;

/// kind time channel v1 v2 v3 offset length
pub type Record = [i64; 8];

pub const STORE: usize = 256;
/// The key of both bends in the table of options.
pub const BENDS: i64 = 128;

#[derive(Clone, Copy)]
pub struct Budget {
    pub seed: i64,
    pub maximum: i64,
    pub used: i64,
    pub flag: i64,
}

pub struct Desk {
    /// Its own list of events is empty between calls.
    pub track: Track,
    pub timebase: i64,
    /// The options that were ever set: the Rust keeps them in a private map.
    pub keys: BTreeSet<i64>,
    pub list: Vec<Record>,
    pub room: usize,
    pub budget: Budget,
    /// How the list is lent: records too many in the count, numbers too many in the buffer.
    pub lent: (i64, i64),
    pub full: bool,
}

impl Desk {
    pub fn new(timebase: i64, channel: i64, room: i64) -> Desk {
        Desk {
            track: Track::new(timebase as isize, channel as isize),
            timebase,
            keys: BTreeSet::new(),
            list: vec![],
            room: room as usize,
            budget: Budget { seed: 1, maximum: 80000, used: 0, flag: 0 },
            lent: (0, 0),
            full: false,
        }
    }

    /// The desk that every script begins with.
    pub fn first() -> Desk {
        Desk::new(96, 0, 64)
    }

    pub fn param(&mut self, which: i64) -> &mut NoteParam {
        let track = &mut self.track;
        [&mut track.v_opt, &mut track.q_opt, &mut track.t_opt, &mut track.o_opt, &mut track.l_opt]
            .into_iter()
            .nth(which as usize)
            .expect("a parameter 0 to 4")
    }

    pub fn params(&self) -> [&NoteParam; 5] {
        let track = &self.track;
        [&track.v_opt, &track.q_opt, &track.t_opt, &track.o_opt, &track.l_opt]
    }

    pub fn option(&self, key: i64) -> WriteOption {
        self.track.get_write_opt(target_of(if key == BENDS { 129 } else { key }))
    }

    pub fn change_option(&mut self, code: i64, change: impl FnOnce(&mut WriteOption)) {
        self.keys.insert(key_of(code));
        self.track.update_write_opt(target_of(code), change);
    }

    /// Lends track and budget to one call of the original.
    pub fn write<R>(&mut self, call: impl FnOnce(&mut Track, &mut WriteCtx) -> R) -> R {
        let mut seed = self.budget.seed as u32;
        let mut ctx = WriteCtx {
            timebase: self.timebase as isize,
            rand_seed: &mut seed,
            max_event_bytes: self.budget.maximum as usize,
            event_bytes: self.budget.used as usize,
            event_limit_exceeded: self.budget.flag != 0,
        };
        let answer = call(&mut self.track, &mut ctx);
        self.budget.used = ctx.event_bytes as i64;
        self.budget.flag = i64::from(ctx.event_limit_exceeded);
        self.budget.seed = i64::from(seed);
        answer
    }
}

/// The byte store: seven is odd, so no two places hold the same byte.
pub fn byte(at: usize) -> u8 {
    ((at * 7 + 3) % STORE) as u8
}

fn place_of(byte: u8) -> i64 {
    (0..STORE).find(|&at| self::byte(at) == byte).unwrap() as i64
}

pub fn stretch(offset: i64, length: i64) -> Vec<u8> {
    (offset..offset + length).map(|at| byte(at as usize)).collect()
}

pub fn is_stretch(offset: i64, length: i64) -> bool {
    let size = STORE as i64;
    (0..=size).contains(&offset) && (0..=size).contains(&length) && offset + length <= size
}

/// A code as the Rust's target. A spoilt code stays visible as a controller that there is not.
pub fn target_of(code: i64) -> WriteTarget {
    match code {
        128 => WriteTarget::PitchBend(0),
        129 => WriteTarget::PitchBend(1),
        _ => WriteTarget::CC(code as isize),
    }
}

pub fn code_of(target: WriteTarget) -> i64 {
    match target {
        WriteTarget::CC(number) => number as i64,
        WriteTarget::PitchBend(0) => 128,
        WriteTarget::PitchBend(_) => 129,
    }
}

/// What a target's option and reservation are kept under: both bends are one.
pub fn key_of(code: i64) -> i64 {
    if code == 129 {
        BENDS
    } else {
        code
    }
}

const KINDS: [EventType; 9] = [
    EventType::NoteOn,
    EventType::NoteOff,
    EventType::ControllChange,
    EventType::PitchBend,
    EventType::PitchBendRange,
    EventType::Voice,
    EventType::Meta,
    EventType::SysEx,
    EventType::DirectSMF,
];

pub fn has_data(kind: i64) -> bool {
    (6..=8).contains(&kind)
}

/// A sound record as the Rust's event.
pub fn event_of(record: &Record) -> Event {
    let [kind, time, channel, v1, v2, v3, offset, length] = *record;
    Event {
        etype: KINDS[kind as usize].clone(),
        time: time as isize,
        channel: channel as isize,
        v1: v1 as isize,
        v2: v2 as isize,
        v3: v3 as isize,
        data: has_data(kind).then(|| stretch(offset, length)),
    }
}

/// A Rust event as a record: its data, never changed, is found again in the store by its first byte.
pub fn record_of(event: &Event) -> Record {
    let kind = KINDS.iter().position(|kind| *kind == event.etype).unwrap();
    let data = event.data.as_deref().unwrap_or(&[]);
    let offset = data.first().map_or(0, |&first| place_of(first));
    [kind as i64, event.time as i64, event.channel as i64, event.v1 as i64, event.v2 as i64, event.v3 as i64, offset, data.len() as i64]
}

pub fn events_of(list: &[Record]) -> Vec<Event> {
    list.iter().map(event_of).collect()
}

pub fn records_of(events: &[Event]) -> Vec<Record> {
    events.iter().map(record_of).collect()
}

pub fn numbers(list: &[isize]) -> impl Iterator<Item = i64> + '_ {
    list.iter().map(|&x| x as i64)
}

pub fn isizes(list: &[i64]) -> Vec<isize> {
    list.iter().map(|&x| x as isize).collect()
}
