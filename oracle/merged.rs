// Full cuts (310) of lists that are not sorted: voices that were appended to a list one after the other, as an arranger does who cuts before sorting. Few times, few controllers and few channels, so that
// events of equal times, of one controller and of several channels meet. What a cut left stays, and the next voices come behind it; each list that is cut falls in time somewhere.

use crate::cut::{former_cut, full_cut};
use crate::desk::events_of;
use crate::make::Maker;
use crate::original::*;
use crate::script::Step;
use std::io::{Result, Write};

/// The records that a list has room for, and how many cuts are made before a new one is begun: emptying it is what costs most.
const ROOM: i64 = 64;
const CUTS: usize = 40;

/// How many cuts a script holds, and what those are like that show something.
#[derive(Default)]
struct Figures {
    cuts: usize,
    /// The list that is left is not the one by list order.
    other: usize,
    /// So it is in the folded controllers' numbers or values, the program, the channel of one of them, or the bend.
    controllers: usize,
    program: usize,
    channel: usize,
    bend: usize,
    /// The event that counts for a controller, the program, the channel or the bend has others of its time.
    equal: usize,
    /// A latest value is negative.
    unset: usize,
}

pub fn script(seed: u64, count: usize) -> Vec<Step> {
    made(seed, count).0
}

/// Prints what the script of this seed holds.
pub fn print(seed: u64, count: usize, out: &mut impl Write) -> Result<()> {
    let it = made(seed, count).1;
    writeln!(out, "seed {seed}: {} full cuts of lists that are not sorted; {} other than by list order", it.cuts, it.other)?;
    writeln!(out, "other in controllers {}, program {}, channel {}, bend {}", it.controllers, it.program, it.channel, it.bend)?;
    writeln!(out, "with equal times where it counts {}, with a negative latest value {}", it.equal, it.unset)
}

fn made(seed: u64, count: usize) -> (Vec<Step>, Figures) {
    let (mut maker, mut figures) = (Maker::new(seed, &[3]), Figures::default());
    while figures.cuts < count {
        maker.merged(&mut figures);
    }
    (maker.steps, figures)
}

impl Maker {
    /// One list and its cut.
    fn merged(&mut self, figures: &mut Figures) {
        if figures.cuts % CUTS == 0 || self.desk.list.len() as i64 > ROOM / 2 {
            self.emit(902, &[96, 0, ROOM]);
        }
        let mut voices = self.voices();
        while !falls(&[self.desk.list.clone(), voices.clone()].concat()) {
            voices = self.voices();
        }
        for record in &voices {
            self.emit(904, record);
        }
        let times: Vec<i64> = self.desk.list.iter().map(|record| record[1]).collect();
        let (first, last) = (*times.iter().min().unwrap(), *times.iter().max().unwrap());
        let within = self.dice.pick(first, last + 1);
        let cut = self.dice.of(&[within, within, within, within, last + 1, last, first]).clamp(-(1 << 40), 1 << 40);
        figures.count(&events_of(&self.desk.list), cut as isize);
        self.emit(310, &[cut]);
    }

    /// Two to four voices one behind the other, each rising, falling or as it comes, at times that they share.
    fn voices(&mut self) -> Vec<[i64; 8]> {
        let start = self.dice.of(&[0, 0, 0, 100, -20, -(1 << 42), (1 << 40) - 10]);
        let span = self.dice.of(&[1, 3, 8, 40]);
        let numbers = [7, self.dice.of(&[0, 10, 11, 127])];
        let channels = [self.dice.pick(0, 15), self.dice.pick(0, 15), 0];
        let mut records = vec![];
        for _ in 0..self.dice.pick(2, 4) {
            let mut voice: Vec<[i64; 8]> = (0..self.dice.pick(1, 5)).map(|_| self.folded(&numbers, &channels)).collect();
            for record in &mut voice {
                record[1] = start + self.dice.pick(0, span);
            }
            match self.dice.pick(0, 3) {
                0 => voice.sort_by_key(|record| -record[1]),
                1 => (),
                _ => voice.sort_by_key(|record| record[1]),
            }
            records.extend(voice);
        }
        records
    }

    /// Mostly what a cut folds, with a negative value now and then; else any event.
    fn folded(&mut self, numbers: &[i64], channels: &[i64]) -> [i64; 8] {
        let any = self.dice.record();
        if self.dice.one_in(8) {
            return any;
        }
        let value = if self.dice.one_in(6) { self.dice.of(&[-1, -5, i32::MIN as i64]) } else { self.dice.pick(0, 127) };
        let kind = self.dice.of(&[2, 2, 2, 5, 3]);
        let rest = if kind == 3 && self.dice.one_in(4) { [any[4], any[5]] } else { [0, 0] };
        match kind {
            2 => [2, 0, self.dice.of(channels), self.dice.of(numbers), value, 0, 0, 0],
            _ => [kind, 0, self.dice.of(channels), value, rest[0], rest[1], 0, 0],
        }
    }
}

fn falls(records: &[[i64; 8]]) -> bool {
    records.windows(2).any(|pair| pair[1][1] < pair[0][1])
}

impl Figures {
    fn count(&mut self, events: &[Event], cut: isize) {
        // Without what is kept, so that what is folded is left alone.
        let before: Vec<Event> =
            events.iter().filter(|event| event.time < cut && !matches!(event.etype, EventType::Meta | EventType::SysEx)).cloned().collect();
        let (now, former) = (full_cut(&before, cut), former_cut(&before, cut));
        let of = |list: &[Event], kind: EventType| -> Vec<(isize, isize)> {
            list.iter().filter(|event| event.etype == kind).map(|event| (event.v1, event.v2)).collect()
        };
        let channel = |list: &[Event]| list.iter().find(|event| event.etype != EventType::PitchBend).map(|event| event.channel);
        let bend =
            |list: &[Event]| list.iter().find(|event| event.etype == EventType::PitchBend).map(|event| (event.channel, event.v1, event.v2, event.v3));
        let parts = [
            of(&now, EventType::ControllChange) != of(&former, EventType::ControllChange),
            of(&now, EventType::Voice) != of(&former, EventType::Voice),
            channel(&now).is_some() && channel(&former).is_some() && channel(&now) != channel(&former),
            bend(&now) != bend(&former),
        ];
        self.cuts += 1;
        self.other += usize::from(parts.contains(&true));
        for (place, part) in [&mut self.controllers, &mut self.program, &mut self.channel, &mut self.bend].into_iter().zip(parts) {
            *place += usize::from(part);
        }
        let (mut equal, mut unset) = (false, false);
        let mut look = |wanted: &dyn Fn(&Event) -> bool, value: &dyn Fn(&Event) -> isize| {
            let heard: Vec<_> = before.iter().filter(|event| wanted(event)).collect();
            let Some(latest) = heard.iter().max_by_key(|event| event.time) else { return };
            equal |= heard.iter().filter(|event| event.time == latest.time).count() > 1;
            unset |= value(latest) < 0;
        };
        for number in 0..128 {
            look(&|event| event.etype == EventType::ControllChange && event.v1 == number, &|event| event.v2);
        }
        look(&|event| event.etype == EventType::Voice, &|event| event.v1);
        look(&|event| matches!(event.etype, EventType::ControllChange | EventType::Voice), &|_| 0);
        look(&|event| event.etype == EventType::PitchBend, &|_| 0);
        self.equal += usize::from(equal);
        self.unset += usize::from(unset);
    }
}
