// Bad input that stands on the desk: one number of the list, the budget, the track or a table is spoilt, a few calls that are lent it are made, and it is mended. Calls that
// are not lent it are not made meanwhile, so that nothing depends on how far a program looks beyond what it was lent.

use crate::desk::*;
use crate::dice::Dice;
use crate::make::{is_inner, Maker};
use crate::original::*;
use crate::poke;
use crate::script::Step;
use crate::table::{Arg, Call, CALLS};

/// Scripts show every number, and a digest has room for this much.
const SHOWN: i64 = 1 << 60;

/// A place of a table and what would be wrong there: number, value.
type Fault = (i64, i64);

impl Maker {
    /// Nothing is spoilt that no call of the families would meet.
    pub fn spoil(&mut self) {
        match self.dice.pick(0, 11) {
            0 if self.meets("EA") => self.spoil_lending(),
            1..=2 if self.meets("EA") => self.spoil_record(),
            3 if self.meets("B") => self.spoil_budget(),
            4..=5 if self.meets("T") => self.spoil_track(),
            6..=11 => self.spoil_entry(),
            _ => (),
        }
    }

    fn meets(&self, letters: &str) -> bool {
        CALLS.iter().any(|call| self.has(&[call.op / 100]) && is_lent(call, letters))
    }

    /// Up to three calls that are lent one of these.
    fn meet(&mut self, letters: &str) {
        for _ in 0..self.dice.pick(1, 3) {
            self.any_call(|call| is_lent(call, letters));
        }
    }

    fn spoil_lending(&mut self) {
        let lent = self.dice.of(&[[1, 0], [7, 0], [100, 0], [0, 1], [0, 7], [1, 3]]);
        self.emit(905, &lent);
        self.meet("EA");
        self.emit(905, &[0, 0]);
    }

    fn spoil_record(&mut self) {
        if self.desk.list.is_empty() {
            return;
        }
        let place = self.dice.pick(0, self.desk.list.len() as i64 - 1);
        let record = self.desk.list[place as usize];
        let (field, bad) = self.dice.record_fault(&record);
        self.emit(906, &[place, field as i64, bad]);
        self.meet("EA");
        // Where a chunk was read in its place, there is nothing to mend.
        if self.desk.list.get(place as usize).is_some_and(|met| met[field] == bad) {
            self.emit(906, &[place, field as i64, record[field]]);
        }
    }

    fn spoil_budget(&mut self) {
        let Budget { seed, maximum, used, flag } = self.desk.budget;
        let past = self.dice.of(&[67_108_865, 1 << 27, 4_294_967_295]);
        let bad = self.dice.of(&[[seed, past, used, flag], [seed, maximum, past, flag], [seed, maximum, used, 2], [seed, maximum, used, 255]]);
        self.emit(903, &bad);
        self.meet("B");
        self.emit(903, &[seed, maximum, used, flag]);
    }

    fn spoil_track(&mut self) {
        let numbers = [Arg::Timebase, Arg::Time, Arg::Channel, Arg::Short, Arg::Short, Arg::Long, Arg::Long, Arg::Long, Arg::Long];
        let k = self.dice.pick(0, 8);
        let bad = bad(&mut self.dice, numbers[k as usize]);
        let before = poke::number(&mut self.desk, k, bad);
        self.steps.push(Step { op: 907, args: vec![k, bad] });
        self.meet("T");
        self.emit(907, &[k, before]);
    }

    fn spoil_entry(&mut self) {
        let op = self.dice.pick(908, 914);
        let letters = match op {
            908 if self.meets("P") && !self.dice.one_in(3) => "P",
            914 => "C",
            _ => "T",
        };
        let track = &self.desk.track;
        let entries =
            [5, track.v_sub.len(), 129, track.cc_on_note.len(), track.cc_on_note_wave.len(), track.cc_on_note_sine.len(), track.cc_on_cycle.len()];
        let count = entries[(op - 908) as usize] as i64;
        // Families below 4 take of a track its plain numbers alone, and family 4 has the parameters; both know of no tables.
        let known: &[i64] = if op == 908 { &[4, 5, 6, 7, 8] } else { &[5, 6, 7, 8] };
        if count == 0 || !self.meets(letters) || !self.has(known) {
            return;
        }
        let place = self.dice.pick(0, count - 1);
        let faults = faults(&mut self.dice, &self.desk, op, place);
        let (k, bad) = self.dice.of(&faults);
        let before = poke::entry(&mut self.desk, op, place, k as usize, bad);
        self.steps.push(Step { op, args: vec![place, k, bad] });
        self.focus = (op == 908).then_some(place);
        self.meet(letters);
        self.focus = None;
        self.emit(op, &[place, k, before]);
    }
}

fn is_lent(call: &Call, letters: &str) -> bool {
    !is_inner(call.op) && letters.chars().any(|letter| call.takes(letter))
}

fn bad(dice: &mut Dice, arg: Arg) -> i64 {
    dice.bad(arg).unwrap().clamp(-SHOWN, SHOWN)
}

/// What can be wrong with this entry, one fault for each of its numbers.
fn faults(dice: &mut Dice, desk: &Desk, op: i64, place: i64) -> Vec<Fault> {
    let (track, at) = (&desk.track, place as usize);
    let mut faults = vec![];
    let mut add = |dice: &mut Dice, k: i64, arg: Arg| faults.push((k, bad(dice, arg)));
    match op {
        908 => return param_faults(dice, desk.params()[at]),
        909 => {
            add(dice, 0, Arg::Long);
            add(dice, 1, Arg::Random);
        }
        910 => {
            add(dice, 0, Arg::Short);
            add(dice, 1, Arg::Random);
            if desk.option(place).range.is_some() {
                add(dice, 2, Arg::Long);
                add(dice, 3, Arg::Long);
            }
        }
        911 => {
            let it = &track.cc_on_note[at];
            add(dice, 0, Arg::Target);
            faults.push((1, dice.of(&[-1, it.data.len() as i64 + 1])));
            faults.extend(value_fault(dice, 2, &it.data, |_| Arg::Long));
            faults.extend(track.cc_on_note_wave.first().map(|other| (0, code_of(other.target))));
        }
        912 => {
            let it = &track.cc_on_note_wave[at];
            add(dice, 0, Arg::Target);
            faults.extend(value_fault(dice, 1, &it.data, third));
            if it.mode == WaveMode::Expand && it.data.len() >= 3 {
                faults.push((3, -1));
            }
            faults.extend(track.cc_on_note_sine.first().map(|other| (0, code_of(other.target))));
        }
        913 => {
            for (k, arg) in [Arg::Target, Arg::Peak, Arg::Peak, Arg::Short, Arg::Short].into_iter().enumerate() {
                add(dice, k as i64, arg);
            }
        }
        _ => {
            let it = &track.cc_on_cycle[at];
            add(dice, 0, Arg::Target);
            add(dice, 1, Arg::Short);
            faults.push((1, dice.of(&[0, -1])));
            faults.push((2, bad(dice, Arg::Start)));
            faults.push((3, dice.of(&[-1, it.data.len() as i64])));
            faults.extend(value_fault(dice, 4, &it.data, |_| Arg::Long));
            faults.extend(track.cc_on_note.first().map(|other| (0, code_of(other.target))));
        }
    }
    faults
}

fn third(at: usize) -> Arg {
    if at % 3 == 2 {
        Arg::Short
    } else {
        Arg::Long
    }
}

/// One value of a stored list past its range, where the list has one; `k` is the number of its first.
fn value_fault(dice: &mut Dice, k: i64, list: &[isize], arg: impl Fn(usize) -> Arg) -> Option<Fault> {
    if list.is_empty() {
        return None;
    }
    let at = dice.pick(0, list.len() as i64 - 1);
    Some((k + at, bad(dice, arg(at as usize))))
}

fn param_faults(dice: &mut Dice, param: &NoteParam) -> Vec<Fault> {
    let mut faults = vec![(3, bad(dice, Arg::Random)), (6, bad(dice, Arg::Short))];
    if param.range.is_some() {
        faults.extend([(4, bad(dice, Arg::Long)), (5, bad(dice, Arg::Long))]);
    }
    if param.max != isize::MAX {
        faults.push((7, bad(dice, Arg::Long)));
    }
    if let Some(cycle) = &param.on_cycle {
        faults.extend([(0, bad(dice, Arg::Start)), (1, bad(dice, Arg::Short))]);
        faults.extend(value_fault(dice, 8, &cycle.values, |_| Arg::Long));
    } else if let Some(values) = &param.on_time {
        faults.push((0, bad(dice, Arg::Start)));
        faults.extend(value_fault(dice, 8, values, third));
    } else if let Some(values) = &param.on_note {
        faults.push((2, dice.of(&[-1, values.len() as i64 + 1])));
        faults.extend(value_fault(dice, 8, values, |_| Arg::Long));
    }
    faults
}
