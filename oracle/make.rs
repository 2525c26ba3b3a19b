// Random scripts. The maker keeps a desk of its own beside the script, so that it knows what stands in the list and the tables: it can name what is there, spoil one number,
// make calls that meet it, and put it back. A call that the original could not bear is never made; what scripts leave out, docs/COMPARING.md says.

use crate::calls::{self, Reply};
use crate::desk::*;
use crate::dice::Dice;
use crate::rules::{FORMER_LIMIT, LIST_LIMIT};
use crate::script::Step;
use crate::sine::Quarter;
use crate::table::{Arg, Call, CALLS};

/// The records of a long list of family 3.
const MANY_RECORDS: i64 = 4096;

/// The most records that a list has.
pub const MOST_RECORDS: i64 = 10_240;

/// The most writes that one cycle call makes.
pub const CYCLE_WRITES: i64 = 10_000;

pub struct Maker {
    pub dice: Dice,
    pub desk: Desk,
    quarter: Quarter,
    families: Vec<i64>,
    pub steps: Vec<Step>,
    /// The parameter that calls of family 4 name, where one is spoilt.
    pub focus: Option<i64>,
}

/// `all`, or numbers separated by commas.
pub fn families(text: &str) -> Vec<i64> {
    match text {
        "all" => (1..=8).collect(),
        _ => text.split(',').map(|word| word.parse().unwrap_or_else(|_| panic!("no family: {word}"))).collect(),
    }
}

pub fn script(seed: u64, count: usize, families: &[i64]) -> Vec<Step> {
    let mut maker = Maker::new(seed, families);
    maker.new_desk();
    while maker.steps.len() < count {
        match maker.dice.pick(0, 99) {
            0..=1 => maker.new_desk(),
            2..=8 if maker.has(&[2, 6, 7]) => maker.budget(),
            9..=11 if maker.has(&[3, 6, 7]) => maker.records(),
            12..=17 => maker.spoil(),
            18..=20 => maker.other_numbers(),
            21 if maker.has(&[7]) && maker.dice.one_in(4) => maker.fill(),
            22 if maker.has(&[6]) && maker.has(&[7]) && maker.dice.one_in(30) => maker.plenty(),
            23 if maker.has(&[7]) && maker.dice.one_in(8) => maker.many_writes(),
            24 if maker.has(&[4, 5, 7]) && maker.dice.one_in(20) => maker.walk(),
            25 if maker.has(&[3]) => maker.written_list(),
            26 if maker.has(&[3]) => maker.profiled_list(),
            _ => maker.any_call(|_| true),
        }
    }
    maker.steps.truncate(count);
    maker.steps
}

/// Not in the Rust's interface: handed only sound state and arguments.
pub fn is_inner(op: i64) -> bool {
    matches!(op, 202..=204 | 301..=303 | 606)
}

fn weight(op: i64) -> usize {
    match op {
        407 | 408 | 502 | 504 | 506 | 508 | 510 | 516 | 608 => 3,
        607 | 707..=709 => 6,
        // A chunk that is read takes the place of the list.
        312 | 801 => 1,
        _ => 2,
    }
}

impl Maker {
    pub fn new(seed: u64, families: &[i64]) -> Maker {
        let (dice, desk, quarter) = (Dice::new(seed), Desk::first(), Quarter::new());
        Maker { dice, desk, quarter, families: families.to_vec(), steps: vec![], focus: None }
    }

    pub fn has(&self, families: &[i64]) -> bool {
        families.iter().any(|family| self.families.contains(family))
    }

    pub fn emit(&mut self, op: i64, args: &[i64]) {
        self.answered(op, args);
    }

    /// The same, for one who asks what the call answers.
    pub fn answered(&mut self, op: i64, args: &[i64]) -> Reply {
        let step = Step { op, args: args.to_vec() };
        let reply = calls::make(&mut self.desk, &self.quarter, &step);
        self.steps.push(step);
        reply
    }

    fn new_desk(&mut self) {
        let (timebase, channel) = (self.dice.good(Arg::Timebase), self.dice.pick(-2, 18));
        let room = self.dice.of(&[0, 1, 2, 8, 64, 64, 64, 200, 200, 512, 512, 512, 512]);
        if self.has(&[8]) && self.dice.one_in(3) {
            return self.emit(801, &[timebase, channel]);
        }
        if self.has(&[3]) && self.dice.one_in(50) {
            self.emit(902, &[timebase, channel, MANY_RECORDS]);
            return self.many_records();
        }
        self.emit(902, &[timebase, channel, room]);
    }

    /// A list of thousands: as wild as a short one, in order, nearly in order, falling, at few times or at many, and sometimes full.
    fn many_records(&mut self) {
        let some = self.dice.pick(1000, 3000);
        let count = self.dice.of(&[some, some, some, MANY_RECORDS - 1, MANY_RECORDS]);
        let order = self.dice.pick(0, 5);
        let middle = self.dice.near();
        for at in 0..count {
            let mut record = self.dice.record();
            record[1] = match order {
                0 => record[1],
                1 => at,
                2 => at * 10 + self.dice.pick(0, 30),
                3 => count - at,
                4 => self.dice.pick(-1, 2),
                _ => self.dice.pick(-count, count),
            };
            if order > 0 {
                record[1] += middle;
            }
            self.emit(904, &record);
        }
    }

    /// Much, little or nothing left; also more used than there is.
    fn budget(&mut self) {
        let dice = &mut self.dice;
        let seed = dice.pick(2, 4_294_967_295);
        let seed = dice.of(&[0, 1, 4_294_967_295, seed, seed, seed]);
        let few = dice.pick(0, 40) * 8 + dice.of(&[0, 0, 7, 1]);
        let maximum = dice.of(&[0, 7, few, few, 4000, 80000, 80000, 80000, 67_108_864]);
        let left = dice.of(&[0, 7, 8, 15, 16, few, few, 4000, 40000]).min(maximum);
        let used = dice.of(&[maximum - left, maximum - left, maximum - left, maximum, maximum + 1, 67_108_864]).min(67_108_864);
        let flag = i64::from(dice.one_in(8));
        self.emit(903, &[seed, maximum, used, flag]);
    }

    /// The whole budget free, and lengths at their limit: some millions of steps, so this is rare.
    fn plenty(&mut self) {
        self.emit(903, &[1, 67_108_864, 0, 0]);
        let target = self.dice.target();
        let frequency = self.dice.of(&[1, 1 << 12, 1 << 20]);
        for call in [802, 804, 805] {
            if self.has(&[8]) {
                self.emit(call, &[frequency]);
            }
        }
        match self.dice.pick(0, 2) {
            0 => self.emit(607, &[target, 6, 0, 127, 1 << 20, -5, 5, 1 << 20]),
            1 => self.emit(608, &[target, 0, 0, 100, 1 << 20, 2]),
            _ => {
                self.emit(706, &[target, 1, 16, 2, 3, 4]);
                self.emit(709, &[1 << 40, 16]);
            }
        }
        self.budget();
    }

    /// A cycle call at its limit, from both sides: writes due, bytes free and room for about as many as one call makes, or for many more. Made again, it goes on where it stood.
    fn many_writes(&mut self) {
        let (timebase, channel) = (self.dice.good(Arg::Timebase), self.dice.pick(0, 15));
        let (rooms, most) = ([0, 1, 2].map(|more| CYCLE_WRITES + more), MOST_RECORDS);
        let room = self.dice.of(&[rooms[0], rooms[1], rooms[2], most, most, most]);
        self.emit(902, &[timebase, channel, room]);
        for _ in 0..self.dice.pick(0, 2) {
            let record = self.dice.record();
            self.emit(904, &record);
        }
        let near = CYCLE_WRITES + self.dice.pick(-2, 1);
        let fitting = self.dice.of(&[near, near, 8_388_608]);
        self.emit(903, &[1, fitting * 8, 0, 0]);
        let until = self.dice.near();
        let (due, rest) = (self.dice.pick(1, CYCLE_WRITES), self.dice.pick(-1, 1));
        let (first, second) = self.dice.of(&[(due, CYCLE_WRITES - due + rest), (CYCLE_WRITES + rest, 1), (due, 3 * CYCLE_WRITES)]);
        for (place, due) in [first, second, 1].into_iter().enumerate() {
            let (place, length) = (place as i64, self.dice.pick(1, 30));
            self.set(706, 20 + place);
            self.emit(914, &[place, 1, length]);
            self.emit(914, &[place, 2, until + length * (1 - due)]);
        }
        for _ in 0..self.dice.pick(2, 4) {
            self.emit(709, &[until, 16]);
        }
        self.any_call(|call| call.op / 100 == 7);
        self.new_desk();
    }

    fn records(&mut self) {
        for _ in 0..self.dice.pick(1, 10) {
            let record = self.dice.record();
            self.emit(904, &record);
        }
    }

    /// A list as a chunk's scripts have them: those that come about here can seldom be written. It stays for what follows, where it is sound.
    fn written_list(&mut self) {
        if self.chunks().faults.contains(&4) {
            self.emit(902, &[96, 0, 64]);
        }
    }

    /// One call that `wanted` allows, of the families asked for; nothing where there is none.
    pub fn any_call(&mut self, wanted: impl Fn(&Call) -> bool) {
        let fits = CALLS.iter().filter(|call| self.families.contains(&(call.op / 100)) && call.op < 900 && wanted(call));
        let lots: Vec<&Call> = fits.flat_map(|call| vec![call; weight(call.op)]).collect();
        if lots.is_empty() {
            return;
        }
        let call = self.dice.of(&lots);
        let fault = self.dice.one_in(12) && !is_inner(call.op);
        let spoilt = match call.op {
            _ if !fault => None,
            // A record's field is chosen with what is wrong there.
            109 | 301 => Some(0),
            _ => Some(self.dice.pick(0, call.args.len().max(1) as i64 - 1) as usize),
        };
        if let Some(args) = self.arguments(call, spoilt) {
            self.emit(call.op, &args);
        }
    }

    /// Sound arguments, or with one of them past its range; nothing where none can be named.
    pub fn arguments(&mut self, call: &Call, spoilt: Option<usize>) -> Option<Vec<i64>> {
        let dice = &mut self.dice;
        match call.op {
            109 | 301 => {
                let mut record = dice.record();
                if spoilt.is_some() {
                    let (field, bad) = dice.record_fault(&record);
                    record[field] = bad;
                }
                Some(record.to_vec())
            }
            202 => {
                let seed = dice.pick(2, 4_294_967_295);
                Some(vec![dice.of(&[0, 1, 4_294_967_295, seed, seed]), dice.good(Arg::Long), dice.good(Arg::Random)])
            }
            205 => {
                let seed = dice.pick(2, 4_294_967_295);
                let maximum = if spoilt.is_some() { dice.bad(Arg::Bytes).unwrap() } else { dice.good(Arg::Bytes) };
                Some(vec![dice.of(&[0, 1, 4_294_967_295, seed]), maximum])
            }
            203 => {
                let kind = dice.pick(0, 8);
                Some(vec![kind, if has_data(kind) { dice.stretch().1 } else { 0 }])
            }
            302 if self.desk.list.is_empty() => None,
            302 => Some(vec![dice.pick(0, self.desk.list.len() as i64 - 1)]),
            311 => Some(vec![self.room()]),
            312 => Some(self.read_arguments()),
            _ => Some(self.by_kind(call, spoilt)),
        }
    }

    /// Each argument by what it is, the spoilt one past its range.
    pub fn by_kind(&mut self, call: &Call, spoilt: Option<usize>) -> Vec<i64> {
        let dice = &mut self.dice;
        let mut args = vec![];
        for (at, &arg) in call.args.iter().enumerate() {
            if arg.is_list() {
                let expand = call.op == 704 && args[1] == 1;
                let list = dice.list(arg, !expand || spoilt.is_some());
                let list = if Some(at) == spoilt { dice.spoil(arg, list) } else { list };
                args.push(list.len() as i64);
                args.extend(list);
            } else if arg == Arg::Offset {
                let (offset, length) = if [Some(at), Some(at + 1)].contains(&spoilt) { dice.stretch_outside() } else { dice.stretch() };
                args.extend([offset, length]);
            } else if arg != Arg::Length {
                let bad = if Some(at) == spoilt { dice.bad(arg) } else { None };
                let good = dice.good(arg);
                args.push(bad.unwrap_or(good));
            }
        }
        if let (4, Some(param)) = (call.op / 100, self.focus) {
            args[0] = if call.op == 418 { args[0] } else { param };
        }
        args
    }

    /// Sixteen reservations of one kind and a seventeenth, one that stands set again, one that only removes, and writes over all of them; one time in four all lists are full.
    fn fill(&mut self) {
        let op = self.dice.of(&[703, 704, 705, 706]);
        let first = self.dice.pick(0, 113);
        let full = self.dice.one_in(4);
        let kept = self.dice.pick(first, first + 15);
        for target in (first..=first + 16).chain([kept]) {
            if full {
                self.set_numbers(op, target, LIST_LIMIT as i64);
            } else {
                self.set(op, target);
            }
        }
        let removes: [&[i64]; 4] = [&[0, 16, 1, 5], &[-3, 16, 1, 5], &[5, 16, 0], &[0, 16, 0]];
        let removing = self.dice.of(&removes);
        self.emit(706, &[&[first + 16], removing].concat());
        for _ in 0..self.dice.pick(1, 5) {
            self.any_call(|call| matches!(call.op, 701..=716 | 802));
        }
    }

    /// A long list that is read number by number, from its first to past its last: a parameter's, a layer's or a target's, and every second one goes round.
    fn walk(&mut self) {
        let family = self.dice.of(&[4, 5, 5, 7]);
        if !self.has(&[family]) {
            return;
        }
        let (count, which) = (self.dice.pick(FORMER_LIMIT as i64, LIST_LIMIT as i64), self.dice.pick(0, 4));
        let list: Vec<i64> = [count].into_iter().chain((0..count).map(|_| self.dice.pick(0, 127))).collect();
        let (repeat, set, front, read, args): ([i64; 2], i64, &[i64], i64, &[i64]) = match family {
            4 => ([417, which], 406, &[which], 408, &[which, 5]),
            5 => ([527, 0], 515, &[which], 516, &[100]),
            _ => ([702, which], 703, &[which, 16], 707, &[0]),
        };
        self.emit(902, &[96, 0, 512]);
        let round = self.dice.pick(0, 1);
        self.emit(repeat[0], &[repeat[1], round]);
        self.emit(set, &[front, &list].concat());
        for _ in 0..count + 2 {
            self.emit(read, args);
        }
    }

    /// Reserves a short list, or a sine.
    pub fn set(&mut self, op: i64, target: i64) {
        let count = self.dice.pick(1, 2) * 3;
        self.set_numbers(op, target, count);
    }

    fn set_numbers(&mut self, op: i64, target: i64, count: i64) {
        let list: Vec<i64> = (0..count).map(|_| self.dice.pick(0, 20)).collect();
        let mut args = vec![target];
        match op {
            704 => args.push(self.dice.pick(0, 2)),
            705 => {
                let shape = self.dice.pick(0, 2);
                return self.emit(op, &[target, shape, 0, 90, 12, 1, 16]);
            }
            706 => args.push(self.dice.pick(1, 30)),
            _ => (),
        }
        args.extend([16, list.len() as i64]);
        args.extend(list);
        self.emit(op, &args);
    }

    /// Numbers that no call sets, or not to their limits: starts and next times at 2^41, positions anywhere in their lists.
    fn other_numbers(&mut self) {
        let time = self.dice.good(Arg::Start);
        match self.dice.pick(0, 5) {
            0 if self.has(&[3, 5, 6, 7, 8]) => {
                let args = [1, self.dice.good(Arg::Time)];
                self.emit(907, &args);
            }
            1 if self.has(&[5, 8]) => {
                let (k, value) = (self.dice.pick(5, 9), self.dice.good(Arg::Long));
                self.emit(907, &[k, if k == 9 { value & 1 } else { value }]);
            }
            2 if self.has(&[4, 5]) => {
                let which = self.dice.pick(0, 4);
                let param = self.desk.params()[which as usize];
                if let Some(values) = &param.on_note {
                    let at = self.dice.pick(0, values.len() as i64);
                    self.emit(908, &[which, 2, at]);
                } else if param.has_reserve() {
                    self.emit(908, &[which, 0, time]);
                }
            }
            3 if !self.desk.track.cc_on_cycle.is_empty() => {
                let place = self.dice.pick(0, self.desk.track.cc_on_cycle.len() as i64 - 1);
                self.emit(914, &[place, 2, time]);
            }
            4 if !self.desk.track.cc_on_note.is_empty() => {
                let place = self.dice.pick(0, self.desk.track.cc_on_note.len() as i64 - 1);
                let at = self.dice.pick(0, self.desk.track.cc_on_note[place as usize].data.len() as i64);
                self.emit(911, &[place, 1, at]);
            }
            _ => (),
        }
    }
}
