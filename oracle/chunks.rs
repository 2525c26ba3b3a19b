// Track chunks (311) of lists at the edges of what a chunk holds: gaps at the ends of a quantity's one to four bytes, fields at the ends of their widths, every kind that is written, on every channel, and outputs as
// long as the chunk, a byte shorter, longer, and far too short. Half of the lists have a fault, or two of different numbers in either order, so that it shows in which order they are asked. A script begins with two long lists, whose chunks' lengths take three bytes and two. Lists
// like the others stand in random scripts too.

use crate::desk::Record;
use crate::make::{Maker, MOST_RECORDS};
use crate::rules::record_ok;
use crate::script::Step;
use crate::smf::{self, LONGEST};
use std::collections::BTreeMap;
use std::io::{Result, Write};

/// The most events of a list, which is as many as it has room for; and those of the long lists that a script begins with.
const MOST: i64 = 40;
const LONG: [i64; 2] = [MOST_RECORDS, 200];
/// The longest output that a script lends.
const LONGEST_OUTPUT: i64 = 81_920;
/// The ends of what one to four bytes hold, and the first gap past them.
pub const GAPS: [i64; 10] = [0, 1, 127, 128, 16_383, 16_384, 2_097_151, 2_097_152, LONGEST, LONGEST + 1];
/// What a field may hold that is not written.
const ANY: [i64; 9] = [-1, 0, 1, 127, 128, 16_383, 16_384, i32::MIN as i64, i32::MAX as i64];
/// What is wrong in a list, as refusals in the order of their places in it; half of the lists have none.
const FAULTS: [&[i64]; 12] = [&[4], &[10], &[10], &[11], &[11], &[11], &[10, 11], &[11, 10], &[4, 10], &[10, 4], &[4, 11], &[11, 4]];

/// A list, what is wrong with it, and the numbers that its calls gave.
pub struct Tried {
    list: Vec<Record>,
    pub faults: &'static [i64],
    codes: Vec<i64>,
}

#[derive(Default)]
struct Figures {
    lists: usize,
    codes: BTreeMap<i64, usize>,
    /// The gaps at each of those ends.
    gaps: [usize; GAPS.len()],
    /// Of lists that were written, the events of each kind; and the NoteOns of velocity 0 among them.
    kinds: BTreeMap<i64, usize>,
    silent: usize,
    /// The lists with two faults, by their numbers in the order of their places.
    two: BTreeMap<&'static [i64], usize>,
}

pub fn script(seed: u64, count: usize) -> Vec<Step> {
    made(seed, count).0
}

/// Prints what the script of this seed holds.
pub fn print(seed: u64, count: usize, out: &mut impl Write) -> Result<()> {
    let it = made(seed, count).1;
    let row = |counts: &BTreeMap<i64, usize>| counts.iter().map(|(key, count)| format!("{key}: {count}")).collect::<Vec<_>>().join(", ");
    let gaps: Vec<String> = GAPS.iter().zip(it.gaps).map(|(gap, count)| format!("{gap}: {count}")).collect();
    let two: Vec<String> = it.two.iter().map(|(faults, count)| format!("{} before {}: {count}", faults[0], faults[1])).collect();
    writeln!(out, "seed {seed}: {} lists, {} calls; by number {}", it.lists, it.codes.values().sum::<usize>(), row(&it.codes))?;
    writeln!(out, "gaps of {}", gaps.join(", "))?;
    writeln!(out, "written events by kind {}; NoteOn of velocity 0: {}", row(&it.kinds), it.silent)?;
    writeln!(out, "lists with two faults {}; {}", it.two.values().sum::<usize>(), two.join(", "))
}

fn made(seed: u64, count: usize) -> (Vec<Step>, Figures) {
    let (mut maker, mut figures) = (Maker::new(seed, &[3]), Figures::default());
    for count in LONG.into_iter().take(count) {
        figures.count(&maker.long_chunk(count));
    }
    while figures.lists < count {
        figures.count(&maker.chunks());
    }
    (maker.steps, figures)
}

impl Maker {
    /// One list on a new desk, and one or two calls. One in twelve lists is lent wrongly first.
    pub fn chunks(&mut self) -> Tried {
        let faults = if self.dice.one_in(2) { self.dice.of(&FAULTS) } else { &[] };
        let list = self.list_with(faults);
        self.emit(902, &[96, 0, MOST]);
        for event in &list {
            self.emit(904, event);
        }
        let mut codes = vec![];
        if self.dice.one_in(12) {
            let lent = self.dice.of(&[[1, 0], [7, 0], [0, 1], [0, 7]]);
            self.emit(905, &lent);
            codes.push(self.chunk());
            self.emit(905, &[0, 0]);
        }
        for _ in 0..self.dice.pick(1, 2) {
            codes.push(self.chunk());
        }
        Tried { list, faults, codes }
    }

    /// A list whose gaps all take four bytes, with an output as long as its chunk and a byte shorter.
    fn long_chunk(&mut self, count: i64) -> Tried {
        let (mut time, mut list) = (0, vec![]);
        self.emit(902, &[96, 0, count]);
        for _ in 0..count {
            time += self.dice.of(&GAPS[7..9]);
            let mut event = self.written();
            event[1] = time;
            self.emit(904, &event);
            list.push(event);
        }
        let exact = self.chunk_length().expect("a list that is written");
        let codes = [exact - 1, exact].map(|room| self.answered(311, &[room]).code);
        Tried { list, faults: &[], codes: codes.to_vec() }
    }

    fn chunk(&mut self) -> i64 {
        let room = if self.dice.one_in(200) { LONGEST_OUTPUT } else { self.room() };
        self.answered(311, &[room]).code
    }

    /// The length of the list's chunk, where it has one.
    pub fn chunk_length(&self) -> Option<i64> {
        let list = &self.desk.list;
        let chunk = list.iter().all(record_ok).then(|| smf::chunk(list))?;
        chunk.ok().map(|chunk| chunk.len() as i64)
    }

    /// A length for the output: about that of the list's chunk, or of as many events where it has none.
    pub fn room(&mut self) -> i64 {
        let exact = self.chunk_length().unwrap_or(12 + 4 * self.desk.list.len() as i64);
        let (shorter, longer) = (self.dice.pick(0, exact), exact + self.dice.pick(2, 40));
        let enough = self.dice.of(&[exact, exact, exact, exact + 1, longer]);
        let less = self.dice.of(&[exact - 1, exact - 1, exact - 1, shorter, 0, 7, 8, 11, 12]);
        self.dice.of(&[enough, enough, enough, less, less])
    }

    /// A sorted list of what is written, but for these faults in the order of their places.
    pub fn list_with(&mut self, faults: &[i64]) -> Vec<Record> {
        let some = self.dice.pick(0, MOST);
        let count = self.dice.of(&[some, some, some, some, 1, 2, MOST]).max(faults.len() as i64);
        let mut places: Vec<usize> = vec![];
        while places.len() < faults.len() {
            let place = self.dice.pick(0, count - 1) as usize;
            if !places.contains(&place) {
                places.push(place);
            }
        }
        places.sort_unstable();
        let fault = |at: usize| places.iter().position(|&place| place == at).map(|which| faults[which]);
        let (mut time, mut list) = (0, vec![]);
        for at in 0..count as usize {
            time += if fault(at) == Some(10) { self.wrong_gap() } else { self.gap() };
            let mut event = self.written();
            event[1] = time;
            match fault(at) {
                Some(4) => self.make_unsound(&mut event),
                Some(11) => self.make_unwritten(&mut event),
                _ => (),
            }
            list.push(event);
        }
        list
    }

    fn gap(&mut self) -> i64 {
        let (bits, small) = (self.dice.pick(0, 27), self.dice.pick(0, 400));
        let any = self.dice.pick(0, 1 << bits);
        let end = self.dice.of(&GAPS[..GAPS.len() - 1]);
        self.dice.of(&[end, end, end, small, any])
    }

    /// Below 0, or past four bytes; some of them would do in 28 or 32 bits.
    fn wrong_gap(&mut self) -> i64 {
        let below = self.dice.of(&[-1, -1, -2, -128, -(1 << 28), -(1 << 32), -(1 << 40)]);
        let past = self.dice.of(&[LONGEST + 1, LONGEST + 1, LONGEST + 2, 1 << 31, 1 << 32, (1 << 32) + 5, 1 << 40]);
        self.dice.of(&[below, past])
    }

    /// An event that is written. What is not written of it is anything.
    fn written(&mut self) -> Record {
        let kind = self.dice.of(&[0, 0, 1, 2, 3, 5]);
        let mut event = [kind, 0, self.dice.pick(0, 15), 0, 0, 0, 0, 0];
        for field in &mut event[3..6] {
            *field = self.dice.of(&ANY);
        }
        for &(field, groups) in smf::fields(kind) {
            let most = (1 << (7 * groups)) - 1;
            let any = self.dice.pick(0, most);
            event[field] = self.dice.of(&[0, most, 1, 127, 128.min(most), any, any]);
        }
        event
    }

    /// A number out of its range, or data outside the store: 4.
    fn make_unsound(&mut self, event: &mut Record) {
        if self.dice.one_in(4) {
            let (kind, (offset, length)) = (self.dice.pick(6, 8), self.dice.stretch_outside());
            (event[0], event[6], event[7]) = (kind, offset, length);
            return;
        }
        let (field, bad) = self.dice.record_fault(event);
        event[field] = bad;
    }

    /// Another kind, with data that is sound, or a written field outside its width: 11. A controller's number outside would be 4.
    fn make_unwritten(&mut self, event: &mut Record) {
        if self.dice.one_in(3) {
            let kind = self.dice.of(&[4, 6, 7, 8]);
            let (offset, length) = if kind >= 6 { self.dice.stretch() } else { (0, 0) };
            (event[0], event[6], event[7]) = (kind, offset, length);
            return;
        }
        let fields = smf::fields(event[0]);
        let (field, groups) = if event[0] == 2 { fields[1] } else { self.dice.of(fields) };
        let past = 1 << (7 * groups);
        event[field] =
            self.dice.of(&[-1, -1, past, past, past + 1, 2 * past, 16_383.max(past), 128 * past, 32_639, i32::MIN as i64, i32::MAX as i64]);
    }
}

impl Figures {
    fn count(&mut self, tried: &Tried) {
        self.lists += 1;
        for &code in &tried.codes {
            *self.codes.entry(code).or_default() += 1;
        }
        for gap in smf::gaps(&tried.list) {
            if let Some(end) = GAPS.iter().position(|&end| end == gap) {
                self.gaps[end] += 1;
            }
        }
        if tried.codes.contains(&0) {
            for event in &tried.list {
                *self.kinds.entry(event[0]).or_default() += 1;
                self.silent += usize::from(event[0] == 0 && event[5] == 0);
            }
        }
        if tried.faults.len() == 2 {
            *self.two.entry(tried.faults).or_default() += 1;
        }
    }
}
