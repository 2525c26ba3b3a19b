// The rehearsal player's profile (document 02, request j)), which the original does not have: the rule from its sentences, each asked of the whole list, with sets, maps and a stable sort of Rust's own; and lists to ask it of.
// A list of most kinds is one that passes with one thing done to it, so that each sentence decides alone. Refusals 1 and 4 are asked before (rules.rs).

use crate::desk::{has_data, Record};
use crate::dice::Dice;
use crate::make::Maker;
use crate::rules::record_ok;
use crate::script::Step;
use crate::table::Arg;
use std::collections::{BTreeMap, BTreeSet};
use std::io::{Result as Written, Write};
use std::ops::RangeInclusive;

/// The controllers that the player accepts, and its bends.
pub const HEEDED: [i64; 5] = [1, 7, 10, 11, 64];
pub const BENDS: RangeInclusive<i64> = 0..=16_383;

/// The channels of a list: Meta, SysEx and DirectSMF events don't count.
fn channels(list: &[Record]) -> BTreeSet<i64> {
    list.iter().filter(|event| !has_data(event[0])).map(|event| event[2]).collect()
}

/// The places of each controller at each time.
fn controllers(list: &[Record]) -> BTreeMap<(i64, i64), Vec<usize>> {
    let mut places: BTreeMap<(i64, i64), Vec<usize>> = BTreeMap::new();
    for (place, event) in list.iter().enumerate().filter(|(_, event)| event[0] == 2) {
        places.entry((event[1], event[3])).or_default().push(place);
    }
    places
}

fn bend_ok(event: &Record) -> bool {
    event[0] != 3 || BENDS.contains(&event[3])
}

/// Whether the player accepts the list.
pub fn passes(list: &[Record]) -> bool {
    let (controllers, times) = (controllers(list), list.iter().map(|event| event[1]).collect::<Vec<_>>());
    let mut rising = times.clone();
    rising.sort_unstable();
    let numbers = controllers.keys().all(|(_, number)| HEEDED.contains(number));
    let one_channel = channels(list).len() <= 1;
    let one_each = controllers.values().all(|places| places.len() == 1);
    let bends = list.iter().all(bend_ok);
    numbers && one_channel && one_each && bends && times.iter().all(|&time| time >= 0) && times == rising
}

/// The list that is made of it, or the number that refuses it.
pub fn fit(list: &[Record]) -> Result<Vec<Record>, i64> {
    if channels(list).len() > 1 {
        return Err(17);
    }
    if list.iter().any(|event| event[1] < 0) {
        return Err(18);
    }
    let mut sorted = list.to_vec();
    sorted.sort_by_key(|event| event[1]);
    let heeded = controllers(&sorted).into_iter().filter(|((_, number), _)| HEEDED.contains(number));
    let last: BTreeSet<usize> = heeded.map(|(_, places)| places[places.len() - 1]).collect();
    let kept = sorted.iter().enumerate().filter(|(place, event)| bend_ok(event) && (event[0] != 2 || last.contains(place)));
    Ok(kept.map(|(_, event)| *event).collect())
}

/// Numbers beside those of the player's controllers, and bends at the ends of its range, of the port's clamp and of what a record holds.
const AROUND: [i64; 14] = [0, 1, 2, 6, 7, 8, 9, 10, 11, 12, 63, 64, 65, 127];
const BEND_EDGES: [i64; 10] = [-1, 0, 1, 16_382, 16_383, 16_384, 16_385, 32_639, i32::MIN as i64, i32::MAX as i64];
/// The latest time of an event.
const FAR: i64 = 1 << 42;
/// The most events of a list, and of a long one, with how many times it has.
const MOST: i64 = 14;
const LONG: (i64, i64) = (2_000, 40);
/// One list in so many of a script is a long one.
const LONG_ONES: usize = 100;

/// A kind of lists.
pub struct Kind {
    pub name: &'static str,
    pub make: fn(&mut Dice) -> Vec<Record>,
    /// Its count or its length is wrong.
    pub lent_wrongly: bool,
}

const fn kind(name: &'static str, make: fn(&mut Dice) -> Vec<Record>) -> Kind {
    Kind { name, make, lent_wrongly: false }
}

pub const KINDS: &[Kind] = &[
    kind("passing", passing),
    kind("twins", twins),
    kind("controllers", numbers),
    kind("bends", bends),
    kind("channels", two_channels),
    kind("data's channels", channels_of_data),
    kind("times below 0", early),
    kind("times at 2^42", far),
    kind("falling times", falling),
    kind("all kinds, one channel", one_channel),
    kind("anything", anything),
    kind("unsound", unsound),
    Kind { name: "lent wrongly", make: mixed, lent_wrongly: true },
    kind("empty", |_| vec![]),
    kind("long", long),
];

/// An event that the player accepts by itself, at time 0.
fn accepted(dice: &mut Dice, channel: i64) -> Record {
    let kind = dice.of(&[0, 0, 1, 2, 2, 2, 2, 3, 3, 4, 5, 6, 7, 8]);
    let (any, bend) = (dice.good(Arg::Word), dice.pick(0, 16_383));
    let v1 = match kind {
        2 => dice.of(&HEEDED),
        3 => dice.of(&[0, 1, 8_192, 16_382, 16_383, bend]),
        _ => any,
    };
    let (offset, length) = if has_data(kind) { dice.stretch() } else { (0, 0) };
    [kind, 0, if has_data(kind) { dice.pick(0, 15) } else { channel }, v1, dice.good(Arg::Word), dice.good(Arg::Word), offset, length]
}

fn control(time: i64, channel: i64, number: i64, value: i64) -> Record {
    [2, time, channel, number, value, 0, 0, 0]
}

/// A list that passes.
fn passing(dice: &mut Dice) -> Vec<Record> {
    passing_on(dice).0
}

/// The same, and its channel.
fn passing_on(dice: &mut Dice) -> (Vec<Record>, i64) {
    let channel = dice.pick(0, 15);
    let (mut time, mut list, mut met) = (dice.of(&[0, 0, 0, 1, 96, FAR - 50]), vec![], BTreeSet::new());
    for _ in 0..dice.pick(0, MOST) {
        time = (time + dice.of(&[0, 0, 0, 1, 2, 96])).min(FAR);
        let mut event = accepted(dice, channel);
        event[1] = time;
        if event[0] != 2 || met.insert((time, event[3])) {
            list.push(event);
        }
    }
    (list, channel)
}

/// Puts the event somewhere into the list, at the time of a neighbour.
fn put(dice: &mut Dice, list: &mut Vec<Record>, mut event: Record) -> usize {
    let place = dice.pick(0, list.len() as i64) as usize;
    event[1] = list.get(place).or(list.last()).map_or(0, |neighbour| neighbour[1]);
    list.insert(place, event);
    place
}

fn shuffle(dice: &mut Dice, list: &mut [Record]) {
    for at in (1..list.len()).rev() {
        list.swap(at, dice.pick(0, at as i64) as usize);
    }
}

/// Several of one or two controllers at one or two times, other events between them; values that differ and that don't. Half of the lists are sorted.
fn twins(dice: &mut Dice) -> Vec<Record> {
    let (start, channel) = (dice.of(&[0, 0, 5, FAR - 100]), dice.pick(0, 15));
    let times = [start, start + dice.of(&[0, 1, 96])];
    let numbers = [dice.of(&HEEDED), dice.of(&HEEDED)];
    let mut list: Vec<Record> = (0..dice.pick(2, MOST))
        .map(|_| {
            let mut event = accepted(dice, channel);
            if !dice.one_in(4) {
                event = control(0, channel, dice.of(&numbers), dice.of(&[5, 5, 6, 7, -1]));
            }
            event[1] = dice.of(&times);
            event
        })
        .collect();
    if dice.one_in(2) {
        list.sort_by_key(|event| event[1]);
    }
    list
}

fn numbers(dice: &mut Dice) -> Vec<Record> {
    let (mut list, channel) = passing_on(dice);
    for _ in 0..dice.pick(1, 3) {
        let event = control(0, channel, dice.of(&AROUND), dice.pick(0, 127));
        put(dice, &mut list, event);
    }
    list
}

fn bends(dice: &mut Dice) -> Vec<Record> {
    let (mut list, channel) = passing_on(dice);
    for _ in 0..dice.pick(1, 3) {
        let event = [3, 0, channel, dice.of(&BEND_EDGES), 0, 0, 0, 0];
        put(dice, &mut list, event);
    }
    list
}

/// An event of any kind that has a channel; half of them would be dropped, as an early twin where one stands behind it.
fn with_channel(dice: &mut Dice, channel: i64) -> Record {
    let (heeded, other) = (dice.of(&HEEDED), dice.of(&[0, 2, 6, 8, 9, 12, 63, 65, 127]));
    let kept = [[0, 60], [1, 60], [2, heeded], [3, 8_192], [4, 12], [5, 40]];
    let (kept, dropped) = (dice.of(&kept), dice.of(&[[2, other], [3, 16_384], [3, -1], [2, heeded]]));
    let [kind, v1] = dice.of(&[kept, dropped]);
    [kind, 0, channel, v1, 1, 0, 0, 0]
}

/// One event is on a channel of its own; at times it is before 0 too.
fn two_channels(dice: &mut Dice) -> Vec<Record> {
    let (mut list, channel) = passing_on(dice);
    let other = (channel + dice.pick(1, 15)) % 16;
    let event = with_channel(dice, other);
    let place = put(dice, &mut list, event);
    if event[0] == 2 && dice.one_in(2) {
        // Its twin stands behind it.
        let twin = control(list[place][1], channel, event[3], 2);
        list.insert(place + 1, twin);
    }
    if dice.one_in(6) {
        list[place][1] = -1;
    }
    list
}

/// Meta, SysEx and DirectSMF on channels of their own, in front of all others and among them, or alone.
fn channels_of_data(dice: &mut Dice) -> Vec<Record> {
    let mut list = if dice.one_in(4) { vec![] } else { passing(dice) };
    for _ in 0..dice.pick(1, 4) {
        let (offset, length) = dice.stretch();
        let event = [dice.pick(6, 8), 0, dice.pick(0, 15), dice.good(Arg::Word), 0, 0, offset, length];
        if dice.one_in(2) {
            put(dice, &mut list, event);
        } else {
            list.insert(0, event);
        }
    }
    list
}

/// One time, or some, below 0, half the time a Meta's alone; a few of these lists are on two channels too.
fn early(dice: &mut Dice) -> Vec<Record> {
    let (mut list, channel) = passing_on(dice);
    let time = dice.of(&[-1, -1, -2, -96, -FAR, 1 - FAR]);
    let event = if dice.one_in(2) { [dice.of(&[6, 6, 7, 8]), 0, dice.pick(0, 15), 0, 0, 0, 0, 0] } else { with_channel(dice, channel) };
    let place = put(dice, &mut list, event);
    list[place][1] = time;
    if dice.one_in(2) {
        list.sort_by_key(|event| event[1]);
    }
    if dice.one_in(8) {
        let event = with_channel(dice, (channel + 1) % 16);
        put(dice, &mut list, event);
    }
    list
}

/// Few times at both ends of what an event may have; those below 0 seldom.
fn far(dice: &mut Dice) -> Vec<Record> {
    let (low, channel) = (dice.one_in(4), dice.pick(0, 15));
    (0..dice.pick(1, MOST))
        .map(|_| {
            let mut event = accepted(dice, channel);
            event[1] = dice.of(&[FAR, FAR, FAR - 1, 0, 1, if low { -FAR } else { FAR }]);
            event
        })
        .collect()
}

/// Times that fall once, or all the way, or as they come, with equal ones among them.
fn falling(dice: &mut Dice) -> Vec<Record> {
    let (channel, span) = (dice.pick(0, 15), dice.of(&[1, 2, 4, 8]));
    let mut list: Vec<Record> = (0..dice.pick(2, MOST))
        .map(|_| {
            let mut event = if dice.one_in(8) { with_channel(dice, channel) } else { accepted(dice, channel) };
            event[1] = dice.pick(0, span);
            event
        })
        .collect();
    match dice.pick(0, 3) {
        0 => list.sort_by_key(|event| -event[1]),
        1 => {
            list.sort_by_key(|event| event[1]);
            let at = dice.pick(0, list.len() as i64 - 1) as usize;
            list.rotate_left(at);
        }
        2 => {
            list.sort_by_key(|event| event[1]);
            let at = dice.pick(1, list.len() as i64 - 1) as usize;
            list.swap(at - 1, at);
        }
        _ => (),
    }
    list
}

/// Events of all nine kinds with anything in their fields, on one channel from 0 on.
fn one_channel(dice: &mut Dice) -> Vec<Record> {
    let channel = dice.pick(0, 15);
    (0..dice.pick(0, 3 * MOST))
        .map(|_| {
            let mut event = dice.record();
            let any = dice.pick(0, 15);
            event[1] = event[1].abs();
            event[2] = if has_data(event[0]) { any } else { channel };
            event
        })
        .collect()
}

fn anything(dice: &mut Dice) -> Vec<Record> {
    (0..dice.pick(0, MOST)).map(|_| dice.record()).collect()
}

/// A list of one of the other kinds.
fn mixed(dice: &mut Dice) -> Vec<Record> {
    let make = dice.of(&[passing, twins, numbers, two_channels, early, falling, anything, unsound]);
    make(dice)
}

/// A list of one of the kinds above with a number in one place that no event has there.
fn unsound(dice: &mut Dice) -> Vec<Record> {
    let make = dice.of(&[passing, twins, numbers, bends, two_channels, channels_of_data, early, falling, anything]);
    let mut list = make(dice);
    if list.is_empty() {
        list.push(accepted(dice, 0));
    }
    let place = dice.pick(0, list.len() as i64 - 1) as usize;
    let (field, bad) = dice.record_fault(&list[place]);
    list[place][field] = bad;
    list
}

/// Many events at few times, sorted, shuffled, or sorted but for some. One in four has only what the player accepts, and no twins.
fn long(dice: &mut Dice) -> Vec<Record> {
    let (channel, order, clean) = (dice.pick(0, 15), dice.pick(0, 3), dice.one_in(4));
    let mut list: Vec<Record> = (0..LONG.0)
        .map(|at| {
            let mut event = if clean || !dice.one_in(3) { accepted(dice, channel) } else { with_channel(dice, channel) };
            event[1] = at * LONG.1 / LONG.0;
            event
        })
        .collect();
    let mut met = BTreeSet::new();
    list.retain(|event| !clean || event[0] != 2 || met.insert((event[1], event[3])));
    match order {
        0 => shuffle(dice, &mut list),
        1 => {
            for _ in 0..dice.pick(1, 5) {
                let [a, b] = [(); 2].map(|_| dice.pick(0, list.len() as i64 - 1) as usize);
                list.swap(a, b);
            }
        }
        _ => (),
    }
    list
}

/// What a run met: of each kind, how many lists, and by what the check answered and by the fitting's number, how many.
#[derive(Default)]
pub struct Figures(BTreeMap<&'static str, (usize, BTreeMap<&'static str, usize>, BTreeMap<i64, usize>)>);

impl Figures {
    /// A list of this kind with the check's number and answer, and the fitting's number.
    pub fn count(&mut self, kind: &'static str, check: (i64, bool), fit: i64) {
        let (lists, checks, fits) = self.0.entry(kind).or_default();
        let answer = match check {
            (0, true) => "yes",
            (0, false) => "no",
            (1, _) => "1",
            _ => "4",
        };
        *lists += 1;
        *checks.entry(answer).or_default() += 1;
        *fits.entry(fit).or_default() += 1;
    }

    /// A line for each kind, in the order of the kinds, and one for all.
    pub fn lines(&self) -> Vec<String> {
        let (mut lines, mut all) = (vec![], (0, BTreeMap::new(), BTreeMap::new()));
        for (lists, checks, fits) in KINDS.iter().filter_map(|kind| self.0.get(kind.name)) {
            all.0 += lists;
            checks.iter().for_each(|(answer, count)| *all.1.entry(*answer).or_default() += count);
            fits.iter().for_each(|(code, count)| *all.2.entry(*code).or_default() += count);
        }
        let named = KINDS.iter().filter_map(|kind| self.0.get(kind.name).map(|figures| (kind.name, figures)));
        for (name, (lists, checks, fits)) in named.chain([("all", &all)]) {
            let checks: Vec<String> = checks.iter().map(|(answer, count)| format!("{answer} {count}")).collect();
            let fits: Vec<String> = fits.iter().map(|(code, count)| format!("{code}: {count}")).collect();
            lines.push(format!("{name}: {lists} lists; check {}; fit by number {}", checks.join(", "), fits.join(", ")));
        }
        lines
    }
}

pub fn script(seed: u64, count: usize) -> Vec<Step> {
    made(seed, count).0
}

/// Prints what the script of this seed holds.
pub fn print(seed: u64, count: usize, out: &mut impl Write) -> Written<()> {
    for line in made(seed, count).1.lines() {
        writeln!(out, "{line}")?;
    }
    Ok(())
}

/// So many lists of each kind; long ones only one in so many, and one at least.
fn made(seed: u64, count: usize) -> (Vec<Step>, Figures) {
    let (mut maker, mut figures) = (Maker::new(seed, &[3]), Figures::default());
    for at in 0..count {
        for kind in KINDS.iter().filter(|kind| kind.name != "long" || at % LONG_ONES == 0) {
            let list = (kind.make)(&mut maker.dice);
            maker.profiled(kind, &list, &mut figures);
        }
    }
    (maker.steps, figures)
}

impl Maker {
    /// A list on a new desk, which is checked, fitted, checked and fitted again. One that is lent wrongly is so in the first two calls.
    fn profiled(&mut self, kind: &Kind, list: &[Record], figures: &mut Figures) {
        let room = list.len() as i64 + self.dice.of(&[0, 0, 1, 3]);
        self.emit(902, &[96, 0, room]);
        for event in list {
            self.emit(904, event);
        }
        if kind.lent_wrongly {
            let lent = self.dice.of(&[[1, 0], [7, 0], [0, 1], [0, 7]]);
            self.emit(905, &lent);
        }
        let check = self.answered(313, &[]);
        let fit = self.answered(314, &[]);
        figures.count(kind.name, (check.code, check.answers == [1]), fit.code);
        if kind.lent_wrongly {
            self.emit(905, &[0, 0]);
        }
        self.emit(313, &[]);
        self.emit(314, &[]);
    }

    /// A sound list of one of the kinds, which stays for what follows: those that come about in random scripts can seldom be fitted.
    pub fn profiled_list(&mut self) {
        let make = self.dice.of(&[passing, twins, numbers, bends, two_channels, channels_of_data, early, falling, one_channel]);
        let list = make(&mut self.dice);
        assert!(list.iter().all(record_ok), "a kind of lists whose events are not sound");
        self.emit(902, &[96, 0, 64]);
        for event in &list {
            self.emit(904, event);
        }
        for _ in 0..self.dice.pick(1, 3) {
            let op = self.dice.of(&[313, 314]);
            self.emit(op, &[]);
        }
    }
}
