// Cycle calls (709) at the edge of what one call may write: at most 10,000 writes over all records together, and at most one more than fit into the budget's free bytes. A table of
// cases, each with its name, and each there for every seed. The seed chooses the rest: targets, values, lengths, positions, times, options, and what stands in the list. A case makes its
// call until nothing is due.

use crate::desk::key_of;
use crate::make::{Maker, CYCLE_WRITES, MOST_RECORDS};
use crate::rules::{LIST_LIMIT, PLACES};
use crate::script::Step;
use crate::table::Arg;

struct Case {
    name: String,
    /// How many writes of each record are due.
    due: Vec<i64>,
    free: Free,
    flag: bool,
    room: Room,
    look: Look,
}

/// What the budget has left.
#[derive(Clone, Copy)]
enum Free {
    Plenty,
    /// So many events fit, and there are up to seven bytes more.
    Events(i64),
    /// Below 0: so many are used above the maximum.
    Bytes(i64),
}

/// What the list has room for, beside what stands in it.
#[derive(Clone, Copy)]
enum Room {
    Plenty,
    /// What the first call writes.
    Exact,
    OneShort,
}

/// What the records of a case are like; of what it does not say, the seed chooses.
#[derive(Clone, Copy, PartialEq)]
enum Look {
    Any,
    NoOption,
    Delay,
    Random,
    Range,
    Target(i64),
    /// How many, and the position among them.
    Values(i64, i64),
    Length(i64),
    Until(i64),
    /// The last write that is due stands at `until` itself.
    LastAtUntil,
    /// The first write that is not due stands one step after `until`.
    NextAfterUntil,
}

/// Writes that are due, with bytes and room in plenty.
const DUE: &[(&str, &[i64])] = &[
    ("one record, 9,999: one less than a call makes", &[9_999]),
    ("one record, 10,000: as many as a call makes", &[10_000]),
    ("one record, 10,001: one more than a call makes", &[10_001]),
    ("one record, 20,001: three calls", &[20_001]),
    ("two records, 1 + 9,999: as many as a call makes", &[1, 9_999]),
    ("two records, 0 + 9,999: one less, in the first", &[0, 9_999]),
    ("two records, 1 + 9,998: one less, in the second", &[1, 9_998]),
    ("two records, 2 + 9,999: one more, in the first", &[2, 9_999]),
    ("two records, 1 + 10,000: one more, in the second", &[1, 10_000]),
    ("two records, 5,000 + 5,000: as many as a call makes", &[5_000, 5_000]),
    ("two records, 4,999 + 5,000: one less, in the first", &[4_999, 5_000]),
    ("two records, 5,000 + 4,999: one less, in the second", &[5_000, 4_999]),
    ("two records, 5,001 + 5,000: one more, in the first", &[5_001, 5_000]),
    ("two records, 5,000 + 5,001: one more, in the second", &[5_000, 5_001]),
    ("two records, 9,999 + 1: as many as a call makes", &[9_999, 1]),
    ("two records, 9,998 + 1: one less, in the first", &[9_998, 1]),
    ("two records, 9,999 + 0: one less, in the second", &[9_999, 0]),
    ("two records, 10,000 + 1: one more, in the first", &[10_000, 1]),
    ("two records, 9,999 + 2: one more, in the second", &[9_999, 2]),
    ("sixteen records, 700 each: the first call ends within the fifteenth", &[700; PLACES]),
    ("sixteen records, 625 each: as many as a call makes", &[625; PLACES]),
    ("sixteen records, 626 each: the first call ends within the last", &[626; PLACES]),
];

/// The values of a full list.
const LONGEST: i64 = LIST_LIMIT as i64;

/// What the one record is like that has one write more than a call makes.
const LOOKS: &[(&str, Look)] = &[
    ("no option", Look::NoOption),
    ("a delay", Look::Delay),
    ("random: the seed moves with each write", Look::Random),
    ("a range", Look::Range),
    ("the small bend", Look::Target(128)),
    ("the wide bend", Look::Target(129)),
    ("one value", Look::Values(1, 0)),
    ("two values, from the first on", Look::Values(2, 0)),
    ("two values, from the last on", Look::Values(2, 1)),
    ("three values, from the first on", Look::Values(3, 0)),
    ("three values, from the middle one on", Look::Values(3, 1)),
    ("three values, from the last on", Look::Values(3, 2)),
    ("as many values as a list has, from the first on", Look::Values(LONGEST, 0)),
    ("as many values as a list has, at the first again after 10,000 writes", Look::Values(LONGEST, LONGEST - CYCLE_WRITES % LONGEST)),
    ("as many values as a list has, from the last on", Look::Values(LONGEST, LONGEST - 1)),
    ("length 1", Look::Length(1)),
    ("length 2", Look::Length(2)),
    ("length 2^20", Look::Length(1 << 20)),
    ("next times below 0 only", Look::Until(-1)),
    ("next times below 0, the last one at 0 or before", Look::Until(0)),
    ("next times from below 0 to above", Look::Until(5_000)),
    ("until at 2^40", Look::Until(1 << 40)),
    ("until at -2^40", Look::Until(-(1 << 40))),
    ("the last write at until", Look::LastAtUntil),
    ("the next write one step after until", Look::NextAfterUntil),
];

/// Records that the budget's cases are tried over.
struct Shape {
    name: &'static str,
    /// What is due of each where the budget ends within some writes.
    few: &'static [i64],
    /// Two writes more than a call makes.
    many: &'static [i64],
    /// The records that the budget ends in: a name and the place.
    ends: &'static [(&'static str, usize)],
}

const SHAPES: &[Shape] = &[
    Shape { name: "one record", few: &[6], many: &[10_002], ends: &[("the record", 0)] },
    Shape { name: "two records", few: &[4, 5], many: &[5_001, 5_001], ends: &[("the first", 0), ("the last", 1)] },
    Shape {
        name: "sixteen records",
        few: &[3; PLACES],
        many: &[627, 625, 625, 625, 625, 625, 625, 625, 625, 625, 625, 625, 625, 625, 625, 625],
        ends: &[("the first", 0), ("the middle one", 7), ("the last", PLACES - 1)],
    },
];

/// Bytes left, and the flag that the call finds.
const BYTES: &[(&str, Free, bool)] = &[
    ("no byte free", Free::Bytes(0), false),
    ("7 bytes free", Free::Bytes(7), false),
    ("8 bytes free", Free::Bytes(8), false),
    ("15 bytes free", Free::Bytes(15), false),
    ("one byte used above the maximum", Free::Bytes(-1), false),
    ("80,000 bytes used above the maximum", Free::Bytes(-80_000), false),
    ("the flag set, and plenty free", Free::Plenty, true),
    ("the flag set, and no byte free", Free::Bytes(0), true),
];

/// What the records are like whose last three writes are lost.
const LOST: [(&str, Look); 2] = [("random: a lost write moves the seed", Look::Random), ("no option: no write moves the seed", Look::NoOption)];

/// Events that fit where two more are due than a call makes.
const FITTING: [(&str, i64); 4] =
    [("9,998 events fit", 9_998), ("9,999 events fit", 9_999), ("10,000 events fit", 10_000), ("10,001 events fit", 10_001)];

const ROOMS: [(&str, Room); 3] =
    [("room for what is written", Room::Exact), ("room for one record less", Room::OneShort), ("room in plenty", Room::Plenty)];

/// The writes that are due of a third record, behind two that share a call.
const THIRD: i64 = 3;

pub fn script(seed: u64) -> Vec<Step> {
    made(seed).0
}

/// The number of each case's first call, counted from 1, and its name.
pub fn names(seed: u64) -> Vec<(usize, String)> {
    made(seed).1
}

fn made(seed: u64) -> (Vec<Step>, Vec<(usize, String)>) {
    let (mut maker, mut names) = (Maker::new(seed, &[3, 6, 7]), vec![]);
    for case in cases() {
        names.push((maker.steps.len() + 1, case.name.clone()));
        maker.edge(&case);
    }
    (maker.steps, names)
}

fn cases() -> Vec<Case> {
    let mut all: Vec<Case> = DUE.iter().map(|&(name, due)| Case::new(name, due)).collect();
    for &(name, due) in DUE.iter().filter(|(_, due)| due.len() == 2) {
        all.push(Case::new(&format!("{name}; a third is due behind them"), &[due, &[THIRD]].concat()));
    }
    all.extend(LOOKS.iter().map(|&(name, look)| Case { look, ..Case::new(&format!("10,001 writes: {name}"), &[CYCLE_WRITES + 1]) }));
    for shape in SHAPES {
        all.extend(shape.budget_ends());
        all.extend(BYTES.iter().map(|&(name, free, flag)| Case { free, flag, ..shape.case(name, shape.few) }));
        let free = Free::Events(shape.few.iter().sum::<i64>() - 3);
        all.extend(LOST.iter().map(|&(name, look)| Case { look, free, ..shape.case(name, shape.few) }));
        all.extend(FITTING.iter().map(|&(name, events)| Case { free: Free::Events(events), ..shape.case(name, shape.many) }));
        all.extend(shape.rooms());
    }
    all
}

impl Case {
    fn new(name: &str, due: &[i64]) -> Case {
        Case { name: name.to_string(), due: due.to_vec(), free: Free::Plenty, flag: false, room: Room::Plenty, look: Look::Any }
    }

    /// How many records more than those that stand in it the list has room for; `free` bytes are left.
    fn room(&self, free: i64) -> i64 {
        let due: i64 = self.due.iter().sum();
        let written = due.min(CYCLE_WRITES).min(free.max(0) / 8);
        match self.room {
            Room::Plenty if due < CYCLE_WRITES / 100 => CYCLE_WRITES / 100,
            Room::Plenty => MOST_RECORDS - OLDER,
            Room::Exact => written,
            Room::OneShort => written - 1,
        }
    }
}

impl Shape {
    fn case(&self, name: &str, due: &[i64]) -> Case {
        Case::new(&format!("{}: {name}", self.name), due)
    }

    /// The call's last write, which is lost where the budget ends: within a record, and at its last write from both sides.
    fn budget_ends(&self) -> Vec<Case> {
        let mut all = vec![];
        for &(record, at) in self.ends {
            let (before, last): (i64, i64) = (self.few[..at].iter().sum(), self.few[..=at].iter().sum());
            for (name, write) in [
                ("within", before + self.few[at] / 2),
                ("one write before the last of", last - 1),
                ("at the last write of", last),
                ("one write after the last of", last + 1),
            ] {
                all.push(Case { free: Free::Events(write - 1), ..self.case(&format!("the limit {name} {record}"), self.few) });
            }
        }
        all
    }

    /// Rooms for a call's writes, and for fewer: a write that is lost needs none.
    fn rooms(&self) -> Vec<Case> {
        let mut all = vec![];
        for (name, room) in ROOMS {
            all.push(Case { room, ..self.case(&format!("10,000 writes, {name}"), self.many) });
            let (fits, name) = (self.few.iter().sum::<i64>() / 2, format!("the budget ends, {name}"));
            all.push(Case { room, free: Free::Events(fits), ..self.case(&name, self.few) });
        }
        all.push(Case { room: Room::Exact, free: Free::Bytes(0), ..self.case("no byte free, a full list", self.few) });
        all
    }
}

/// The most events that stand in the list before the first call.
const OLDER: i64 = 3;

impl Maker {
    /// A desk, the case's calls until nothing is due and one more, and two that are refused.
    fn edge(&mut self, case: &Case) {
        let (timebase, channel) = (self.dice.good(Arg::Timebase), self.dice.pick(0, 15));
        let (free, older) = (self.bytes_free(case.free), self.dice.pick(1, OLDER));
        let targets = self.cycle_targets(case);
        let until = self.cycle_until(case.look);
        self.emit(902, &[timebase, channel, older + case.room(free)]);
        self.budget_of(free, case.flag);
        self.older_events(older, channel, targets[0]);
        for (place, (&target, &due)) in targets.iter().zip(&case.due).enumerate() {
            self.cycle_record(case.look, place as i64, target);
            self.cycle_due(case.look, place as i64, due, until);
            self.cycle_options(case.look, target);
        }
        self.until_nothing_is_due(until, &targets);
        let outside = self.dice.of(&[1, -1]) * ((1 << 40) + 1);
        self.emit(709, &[until, PLACES as i64 - 1]);
        self.emit(709, &[outside, PLACES as i64]);
    }

    fn bytes_free(&mut self, free: Free) -> i64 {
        match free {
            Free::Plenty => self.dice.of(&[400_000, 1 << 24, 67_000_000]),
            Free::Events(count) => count * 8 + self.dice.pick(0, 7),
            Free::Bytes(bytes) => bytes,
        }
    }

    fn budget_of(&mut self, free: i64, flag: bool) {
        let (seed, some) = (self.dice.pick(0, u32::MAX as i64), self.dice.pick(0, 1000));
        self.emit(903, &[seed, some + free.max(0), some - free.min(0), i64::from(flag)]);
    }

    /// Events of any kind, and one of the first record's target.
    fn older_events(&mut self, count: i64, channel: i64, target: i64) {
        for _ in 1..count {
            let record = self.dice.record();
            self.emit(904, &record);
        }
        let (kind, time) = (if target < 128 { 2 } else { 3 }, self.dice.near());
        self.emit(904, &[kind, time, channel, target, 64, 0, 0, 0]);
    }

    /// Controllers in a row; in every second case one of them is a bend instead.
    fn cycle_targets(&mut self, case: &Case) -> Vec<i64> {
        let (first, count) = (self.dice.pick(0, 112), case.due.len() as i64);
        let (place, bend) = (self.dice.pick(0, 2 * count - 1), self.dice.of(&[128, 129]));
        let (place, bend) = if let Look::Target(code) = case.look { (0, code) } else { (place, bend) };
        (0..count).map(|at| if at == place { bend } else { first + at }).collect()
    }

    fn cycle_until(&mut self, look: Look) -> i64 {
        let near = self.dice.near();
        match look {
            Look::Until(until) => until,
            _ => self.dice.of(&[near, near + 10_000, near + 1_000_000, near - 1_000_000]),
        }
    }

    fn cycle_record(&mut self, look: Look, place: i64, target: i64) {
        let some = self.dice.pick(2, 30);
        let length = match look {
            Look::Length(length) => length,
            Look::NextAfterUntil => some,
            _ => self.dice.of(&[1, some, some]),
        };
        let count = self.dice.of(&[1, 2, 3, 3, 5]);
        let (count, index) = if let Look::Values(count, index) = look { (count, index) } else { (count, self.dice.pick(0, count - 1)) };
        let most = if target == 129 { 9_000 } else { 140 };
        let values: Vec<i64> = (0..count).map(|_| self.dice.pick(-10, most)).collect();
        self.emit(706, &[&[target, length, PLACES as i64, count], &values[..]].concat());
        self.emit(914, &[place, 3, index]);
    }

    /// Puts the next time where so many writes are due.
    fn cycle_due(&mut self, look: Look, place: i64, due: i64, until: i64) {
        let length = self.desk.track.cc_on_cycle[place as usize].len as i64;
        let some = self.dice.pick(0, length - 1);
        let before = match look {
            Look::LastAtUntil => 0,
            Look::NextAfterUntil => length - 1,
            _ => self.dice.of(&[0, length - 1, some]),
        };
        self.emit(914, &[place, 2, until - before - length * (due - 1)]);
    }

    fn cycle_options(&mut self, look: Look, target: i64) {
        let (far, delay, random) = (self.dice.of(&[1 << 20, -(1 << 20)]), self.dice.pick(-200, 200), self.dice.pick(1, 40));
        let delay = self.dice.of(&[far, 1, -1, delay]);
        let range = [self.dice.pick(-10, 60), self.dice.pick(40, 140)];
        for (this, op, numbers) in [(Look::Delay, 602, &[delay][..]), (Look::Random, 603, &[random]), (Look::Range, 604, &range)] {
            if look == this || look != Look::NoOption && self.dice.one_in(5) {
                self.emit(op, &[&[target], numbers].concat());
            }
        }
    }

    /// The call again and again, and once more where it has nothing to write. Where the list has no room for it (7), the events of its targets are taken out; a call that still writes nothing is the last.
    fn until_nothing_is_due(&mut self, until: i64, targets: &[i64]) {
        loop {
            let due = self.writes_due(until);
            self.emit(709, &[until, PLACES as i64]);
            let stands = self.writes_due(until) == due;
            if due == 0 || stands && !self.take_out(targets) {
                return;
            }
        }
    }

    fn writes_due(&self, until: i64) -> i64 {
        let due = |next: i64, length: i64| (until - next).div_euclid(length) + 1;
        self.desk.track.cc_on_cycle.iter().map(|it| due(it.next_time as i64, it.len as i64).max(0)).sum()
    }

    /// The targets' events out of the list; answers whether there were any.
    fn take_out(&mut self, targets: &[i64]) -> bool {
        let before = self.desk.list.len();
        for &target in targets {
            self.emit(303, &[key_of(target), -(1 << 40), 1 << 40]);
        }
        self.desk.list.len() < before
    }
}
