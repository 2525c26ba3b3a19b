// Random numbers that a seed determines, and the numbers that scripts hand in: mostly small ones that work together, often the limits of document 01, and now
// and then one past a limit.

use crate::rules::{FORMER_LIMIT, LIST_LIMIT};
use crate::table::Arg;

pub struct Dice(u64);

impl Dice {
    pub fn new(seed: u64) -> Dice {
        let mut dice = Dice(seed.wrapping_add(1).wrapping_mul(0x9e37_79b9_7f4a_7c15) | 1);
        for _ in 0..8 {
            dice.next();
        }
        dice
    }

    fn next(&mut self) -> u64 {
        self.0 ^= self.0 << 13;
        self.0 ^= self.0 >> 7;
        self.0 ^= self.0 << 17;
        self.0.wrapping_mul(0x2545_f491_4f6c_dd1d) >> 11
    }

    /// Both ends included.
    pub fn pick(&mut self, low: i64, high: i64) -> i64 {
        low + (self.next() % (high - low + 1) as u64) as i64
    }

    pub fn one_in(&mut self, n: i64) -> bool {
        self.pick(1, n) == 1
    }

    pub fn of<T: Copy>(&mut self, choices: &[T]) -> T {
        choices[self.pick(0, choices.len() as i64 - 1) as usize]
    }

    /// Within plus or minus `limit`, of any size; often one of the ends.
    fn reach(&mut self, limit: i64) -> i64 {
        let size = self.pick(0, 63 - i64::from(limit.leading_zeros()));
        let far = self.pick(-(1 << size), 1 << size).clamp(-limit, limit);
        self.of(&[far, far, limit, -limit, limit - 1, 1 - limit])
    }

    fn past(&mut self, limit: i64, most: i64) -> i64 {
        let size = self.of(&[limit + 1, limit + 1, limit * 2, most]);
        self.of(&[size, -size])
    }

    /// A time near the others of the script.
    pub fn near(&mut self) -> i64 {
        match self.pick(0, 9) {
            0 => self.pick(-400, 0),
            1 => self.pick(0, 4000),
            2 => self.of(&[0, -1, 1, 96]),
            _ => self.pick(0, 300),
        }
    }

    pub fn target(&mut self) -> i64 {
        match self.pick(0, 5) {
            0 => self.pick(0, 129),
            1 => self.of(&[128, 129]),
            _ => self.of(&[0, 7, 10, 11, 127]),
        }
    }

    /// A number in the argument's range. None for an argument that is chosen with its neighbours, or is a list.
    pub fn good(&mut self, arg: Arg) -> i64 {
        let often = !self.one_in(8);
        match arg {
            Arg::Time if often => self.near(),
            Arg::Time => self.reach(1 << 40),
            Arg::Start if often => self.near(),
            Arg::Start => self.reach(1 << 41),
            Arg::Stamp if often => self.near(),
            Arg::Stamp => self.reach(1 << 42),
            Arg::Channel => self.pick(0, 15),
            Arg::Timebase => self.of(&[1, 31, 32, 63, 64, 96, 480, 32767]),
            Arg::Target => self.target(),
            Arg::Controller if often => self.of(&[0, 7, 10, 11, 127]),
            Arg::Controller => self.pick(0, 127),
            Arg::Short if often => self.pick(-2, 30),
            Arg::Short => self.reach(1 << 20),
            Arg::Long if often => self.pick(-20, 140),
            Arg::Long => self.reach(1 << 22),
            Arg::Random if often => self.pick(-1, 40),
            Arg::Random => self.of(&[1 << 20, (1 << 20) - 1, 0, 1, -1, i32::MIN as i64]),
            Arg::Peak if often => self.pick(-200, 200),
            Arg::Peak => self.of(&[16383, -16383, 16382, 8191, -8192, 0]),
            Arg::Bytes if often => self.pick(0, 400),
            Arg::Bytes => self.of(&[0, 7, 8, 80_000, 67_108_863, 67_108_864]),
            Arg::Layer if often => self.pick(0, 4),
            Arg::Layer => self.pick(0, 15),
            Arg::Places => 16,
            Arg::Word if often => self.pick(-200, 200),
            Arg::Word => self.of(&[i32::MIN as i64, i32::MAX as i64, 1 << 22, -(1 << 22), 32639, 32640, 16383]),
            Arg::Choice(most) => self.pick(0, most),
            _ => panic!("{arg:?} is not chosen alone"),
        }
    }

    /// A number of the argument's type that document 01 refuses, where there is one.
    pub fn bad(&mut self, arg: Arg) -> Option<i64> {
        let word = i32::MAX as i64;
        let bad = match arg {
            Arg::Time => self.past(1 << 40, i64::MAX),
            Arg::Start => self.past(1 << 41, i64::MAX),
            Arg::Stamp => self.past(1 << 42, i64::MAX),
            Arg::Channel => self.of(&[-1, 16, i32::MIN as i64, word]),
            Arg::Timebase => self.of(&[0, -1, 32768, word]),
            Arg::Target => self.of(&[-1, 130, i32::MIN as i64, word]),
            Arg::Controller => self.of(&[-1, 128, 129, i32::MIN as i64, word]),
            Arg::Short => self.past(1 << 20, word),
            Arg::Long => self.past(1 << 22, word),
            Arg::Random => self.of(&[(1 << 20) + 1, word]),
            Arg::Peak => self.past(16383, word),
            Arg::Bytes => self.of(&[67_108_865, 1 << 31, u32::MAX as i64]),
            Arg::Layer => self.of(&[16, 17, 255, u32::MAX as i64]),
            Arg::Places => self.of(&[15, 17]),
            _ => return None,
        };
        Some(bad)
    }

    /// A list for the argument, in range, mostly a short one; one in twelve is longer than the former limit. `backwards` allows lengths below 0.
    pub fn list(&mut self, arg: Arg, backwards: bool) -> Vec<i64> {
        let (most, former) = (LIST_LIMIT as i64, FORMER_LIMIT as i64);
        let count = match self.pick(0, 23) {
            0 => most,
            1 => 0,
            2 => self.pick(0, most),
            3 => self.pick(former, former + 1),
            _ => self.pick(1, 9),
        };
        let wide = self.one_in(6);
        let wild = self.one_in(10);
        let long = self.one_in(12);
        (0..count)
            .map(|at| match arg {
                Arg::Curve if at % 3 == 2 && long && self.one_in(3) => self.reach(1 << 20).max(if backwards { i64::MIN } else { 0 }),
                Arg::Curve if at % 3 == 2 => self.pick(if backwards { -2 } else { 0 }, 24),
                Arg::Cycle if at == 0 && long => self.reach(1 << 20),
                Arg::Cycle if at == 0 => self.pick(-1, 40),
                _ if wild => self.reach(1 << 22),
                _ if wide => self.pick(-9000, 9000),
                _ => self.pick(-10, 140),
            })
            .collect()
    }

    /// Spoils a list: one number past its range, or too many numbers.
    pub fn spoil(&mut self, arg: Arg, mut list: Vec<i64>) -> Vec<i64> {
        if list.is_empty() || self.one_in(3) {
            let count = self.of(&[LIST_LIMIT + 1, LIST_LIMIT + 1, LIST_LIMIT + 2, 2 * LIST_LIMIT, 2 * LIST_LIMIT + 1, 4 * LIST_LIMIT]);
            list.resize(count, 1);
            return list;
        }
        let at = self.pick(0, list.len() as i64 - 1) as usize;
        let short = arg == Arg::Curve && at % 3 == 2 || arg == Arg::Cycle && at == 0;
        list[at] = self.past(if short { 1 << 20 } else { 1 << 22 }, i32::MAX as i64);
        list
    }

    /// A stretch of the byte store.
    pub fn stretch(&mut self) -> (i64, i64) {
        let offset = self.of(&[0, 1, 100, 255, 256]);
        let length = self.pick(0, 20).min(256 - offset);
        (offset, if self.one_in(20) { 256 - offset } else { length })
    }

    pub fn stretch_outside(&mut self) -> (i64, i64) {
        self.of(&[(0, 257), (1, 256), (256, 1), (257, 0), (300, 5), (4_000_000_000, 4_000_000_000)])
    }

    /// A sound record.
    pub fn record(&mut self) -> [i64; 8] {
        let kind = self.of(&[0, 0, 1, 2, 2, 2, 2, 3, 3, 3, 4, 5, 5, 6, 7, 8]);
        let time = self.good(Arg::Stamp);
        let channel = if self.one_in(3) { self.pick(0, 15) } else { self.pick(0, 1) };
        let v1 = if kind == 2 { self.good(Arg::Controller) } else { self.good(Arg::Word) };
        let (v2, v3) = (self.good(Arg::Word), self.good(Arg::Word));
        let (offset, length) = if kind >= 6 { self.stretch() } else { (0, 0) };
        [kind, time, channel, v1, v2, v3, offset, length]
    }

    /// A number that spoils a field of a sound record, and the field.
    pub fn record_fault(&mut self, record: &[i64; 8]) -> (usize, i64) {
        let (kind, field) = (record[0], self.pick(0, 7) as usize);
        let bad = match field {
            0 => self.of(&[-1, 9, 1 << 40]),
            1 => self.past(1 << 42, 1 << 60),
            2 => self.of(&[-1, 16, 1 << 33]),
            3 if kind == 2 => self.of(&[-1, 128, 1 << 32]),
            3..=5 => self.of(&[1 << 31, -(1 << 31) - 1, 1 << 50]),
            6 if kind >= 6 => self.of(&[-1, 257, 1 << 40]),
            6 => self.of(&[-1, 1, 1 << 40]),
            _ if kind >= 6 => self.of(&[-1, 257, 1 << 40]),
            _ => self.of(&[-1, 1, 5]),
        };
        (field, bad)
    }
}
