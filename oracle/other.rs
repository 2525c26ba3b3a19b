// The desk that the linked port works at: what a C caller would hold and lend, and nothing of the original. Family 9 puts numbers into it as they stand; its sections
// are those of show.rs, read from the port's own records.

use crate::calls::Reply;
use crate::desk::{byte, key_of, Desk, Record, STORE};
use crate::dollavir::*;
use crate::show;

/// A position that is past every list: the port's have no sign, and this stands for one below 0.
const NOWHERE: usize = u32::MAX as usize;
/// One record more than the table has, so that seventeen can be lent.
pub const LENDABLE: usize = 17;
pub const WIDTH: usize = 8;

pub struct Other {
    pub track: Track,
    pub cycles: [Cycle; LENDABLE],
    pub budget: Budget,
    /// The records of the room, and as many numbers behind them as can be lent too many.
    pub events: Vec<i64>,
    pub room: usize,
    pub count: usize,
    pub lent: (i64, i64),
    /// The second buffer, of `split_note_off`.
    pub out: Vec<i64>,
    pub store: [u8; STORE],
}

impl Other {
    pub fn new(timebase: i64, channel: i64, room: i64) -> Other {
        let made = unsafe { dollavir_track_new(timebase as i32, channel as i32) };
        assert!(made.code == 0, "a desk whose track is refused");
        assert!(made.track.options.iter().all(|&it| it == unsafe { dollavir_write_option_new() }), "a new track's options are not new ones");
        let lent = unsafe { dollavir_budget_new(1, 80000) };
        assert!(lent.code == 0, "a desk whose budget is refused");
        assert!(made.track.layers == unsafe { dollavir_layers_new() }, "a new track's layers are not new ones");
        let room = room as usize;
        Other {
            track: made.track,
            cycles: [unsafe { dollavir_cycle_none() }; LENDABLE],
            budget: lent.budget,
            events: vec![0; (room + 1) * WIDTH],
            room,
            count: 0,
            lent: (0, 0),
            out: vec![0; room * WIDTH],
            store: std::array::from_fn(byte),
        }
    }

    /// The desk that every script begins with.
    pub fn first() -> Other {
        Other::new(96, 0, 64)
    }

    /// Becomes the same, in place.
    pub fn copy(&mut self, from: &Other) {
        self.events.clone_from(&from.events);
        self.out.clone_from(&from.out);
        (self.track, self.cycles, self.budget) = (from.track, from.cycles, from.budget);
        (self.room, self.count, self.lent) = (from.room, from.count, from.lent);
    }

    pub fn param(&mut self, which: i64) -> &mut NoteParam {
        let track = &mut self.track;
        [&mut track.v, &mut track.q, &mut track.t, &mut track.o, &mut track.l].into_iter().nth(which as usize).expect("a parameter 0 to 4")
    }

    pub fn params(&self) -> [&NoteParam; 5] {
        let track = &self.track;
        [&track.v, &track.q, &track.t, &track.o, &track.l]
    }

    /// How many numbers of the list are lent, and the count that is handed in with them.
    pub fn lending(&self) -> (usize, usize) {
        let (extra, odd) = (self.lent.0 as usize, self.lent.1 as usize);
        (self.room * WIDTH + odd, if extra > 0 { self.room + extra } else { self.count })
    }

    /// What the original's desk holds after a call that the library does not export.
    pub fn hand_over(&mut self, desk: &Desk) {
        self.budget = budget_of([desk.budget.seed, desk.budget.maximum, desk.budget.used, desk.budget.flag]);
        self.count = desk.list.len();
        self.events[..self.count * WIDTH].copy_from_slice(&desk.list.concat());
    }

    /// Family 9.
    pub fn poke(&mut self, op: i64, a: &[i64]) {
        match op {
            902 => *self = Other::new(a[0], a[1], a[2]),
            903 => self.budget = budget_of([a[0], a[1], a[2], a[3]]),
            904 if self.count < self.room => {
                self.events[self.count * WIDTH..][..WIDTH].copy_from_slice(a);
                self.count += 1;
            }
            905 => self.lent = (a[0], a[1]),
            906 => self.events[a[0] as usize * WIDTH + a[1] as usize] = a[2],
            907 => self.put_number(a[0], a[1]),
            908..=914 => self.put_entry(op, a[0] as usize, a[1] as usize, a[2]),
            _ => (),
        }
    }

    fn put_number(&mut self, k: i64, value: i64) {
        let (track, word) = (&mut self.track, value as i32);
        match k {
            0 => track.timebase = word,
            1 => track.timepos = value,
            2 => track.channel = word,
            3 => track.ccfreq = word,
            4 => track.pbfreq = word,
            5 => track.velocity = word,
            6 => track.timing = word,
            7 => track.octave = word,
            8 => track.qlen = word,
            _ => track.step = value as u32,
        }
    }

    fn put_entry(&mut self, op: i64, at: usize, k: usize, value: i64) {
        let (track, word, place) = (&mut self.track, value as i32, usize::try_from(value).unwrap_or(NOWHERE));
        match (op, k) {
            (908, _) => put_param(self.param(at as i64), k, value),
            (909, 0) => track.layers.items[at].value = word,
            (909, _) => track.layers.items[at].random = word,
            (910, 0) => track.options[at].delay = word,
            (910, 1) => track.options[at].random = word,
            (910, 2) => track.options[at].low = word,
            (910, 3) => track.options[at].high = word,
            (910, _) => track.options[at].repeat = value as u32,
            (911, 0) => track.notes.items[at].target = word,
            (911, 1) => track.notes.items[at].index = place,
            (911, _) => track.notes.items[at].values.items[k - 2] = word,
            (912, 0) => track.waves.items[at].target = word,
            (912, _) => track.waves.items[at].values.items[k - 1] = word,
            (913, 0) => track.sines.items[at].target = word,
            (913, 1) => track.sines.items[at].low = word,
            (913, 2) => track.sines.items[at].high = word,
            (913, 3) => track.sines.items[at].length = word,
            (913, _) => track.sines.items[at].times = word,
            (_, 0) => self.cycles[at].target = word,
            (_, 1) => self.cycles[at].length = word,
            (_, 2) => self.cycles[at].next = value,
            (_, 3) => self.cycles[at].index = place,
            _ => self.cycles[at].values.items[k - 4] = word,
        }
    }

    /// The numbers of one section; `reply` is what the call answered, the second list or the output.
    pub fn section(&self, op: i64, args: &[i64], reply: &Reply, letter: char) -> Vec<i64> {
        let track = &self.track;
        match letter {
            'E' => show::list(&records(&self.events, self.count)),
            'R' => show::list(&reply.result),
            'K' => show::output(&reply.bytes),
            'B' => [self.budget.seed, self.budget.maximum, self.budget.used, self.budget.over].map(i64::from).to_vec(),
            'T' => numbers(track),
            'O' => options(track),
            'P' if op / 100 == 4 => param(self.params()[args[0] as usize]),
            'P' => self.params().into_iter().flat_map(param).collect(),
            'L' => layers(&track.layers),
            'N' => counted(track.notes.count, &track.notes.items, |out, it| {
                out.extend([i64::from(it.target), position(it.index), i64::from(it.cycling)]);
                put(out, &it.values);
            }),
            'W' => counted(track.waves.count, &track.waves.items, |out, it| {
                out.extend([i64::from(it.target), i64::from(it.mode)]);
                put(out, &it.values);
            }),
            'S' => counted(track.sines.count, &track.sines.items, |out, it| {
                out.extend([i64::from(it.target), i64::from(it.shape)]);
                out.extend([it.low, it.high, it.length, it.times].map(i64::from));
            }),
            _ => counted(track.cycles, &self.cycles, |out, it| {
                out.extend([i64::from(it.target), i64::from(it.length), it.next, position(it.index)]);
                put(out, &it.values);
            }),
        }
    }
}

pub fn records(events: &[i64], count: usize) -> Vec<Record> {
    events.chunks_exact(WIDTH).take(count).map(|record| record.try_into().unwrap()).collect()
}

fn budget_of(numbers: [i64; 4]) -> Budget {
    let [seed, maximum, used, over] = numbers.map(|x| x as u32);
    Budget { seed, maximum, used, over }
}

fn put_param(param: &mut NoteParam, k: usize, value: i64) {
    let word = value as i32;
    match k {
        0 => param.reserve.start = value,
        1 => param.reserve.length = word,
        2 => param.reserve.index = usize::try_from(value).unwrap_or(NOWHERE),
        3 => param.random = word,
        4 => param.low = word,
        5 => param.high = word,
        6 => param.delay = word,
        7 => param.max = word,
        _ => param.reserve.values.items[k - 8] = word,
    }
}

fn position(index: usize) -> i64 {
    if index == NOWHERE {
        -1
    } else {
        index as i64
    }
}

fn put(out: &mut Vec<i64>, list: &Numbers) {
    out.push(list.count as i64);
    out.extend(list.items[..list.count].iter().map(|&x| i64::from(x)));
}

fn counted<T>(count: usize, items: &[T], entry: impl Fn(&mut Vec<i64>, &T)) -> Vec<i64> {
    let mut out = vec![count as i64];
    for item in &items[..count] {
        entry(&mut out, item);
    }
    out
}

fn numbers(track: &Track) -> Vec<i64> {
    let words = [track.channel, track.ccfreq, track.pbfreq, track.velocity, track.timing, track.octave, track.qlen].map(i64::from);
    let mut out = vec![i64::from(track.timebase), track.timepos];
    out.extend(words);
    out.push(i64::from(track.step));
    out
}

fn options(track: &Track) -> Vec<i64> {
    let mut out = vec![0];
    for (key, it) in track.options.iter().enumerate() {
        if it.delay == 0 && it.random == 0 && it.ranged == 0 && it.repeat == 0 {
            continue;
        }
        out[0] += 1;
        out.extend([key_of(key as i64), i64::from(it.delay), i64::from(it.random), i64::from(it.ranged)]);
        out.extend([i64::from(it.low), i64::from(it.high), i64::from(it.repeat)]);
    }
    out
}

fn put_reserve(out: &mut Vec<i64>, it: &Reserve) {
    out.extend([i64::from(it.kind), it.start, i64::from(it.length), position(it.index), i64::from(it.cycling)]);
    put(out, &it.values);
}

fn param(it: &NoteParam) -> Vec<i64> {
    let mut out = vec![];
    put_reserve(&mut out, &it.reserve);
    out.extend([i64::from(it.random), i64::from(it.ranged), i64::from(it.low), i64::from(it.high)]);
    out.extend([i64::from(it.delay), i64::from(it.maxed), i64::from(it.max), i64::from(it.repeat)]);
    out
}

fn layers(layers: &Layers) -> Vec<i64> {
    counted(layers.count, &layers.items, |out, it| {
        out.extend([i64::from(it.value), i64::from(it.random)]);
        put_reserve(out, &it.reserve);
    })
}
