// A passage that was cut out plays as it plays in the song: random lists, the linked library's full cut of each, and a player that plays both and is asked what it has, from the cut to the last event.
// The player knows nothing of how a cut is made (docs/COMPARING.md has its rule). It also holds what the passage plays against what the song plays from the cut on, and a cut of the
// passage against one cut of the song. The passage is then normalized and fitted to the rehearsal player, and played beside the song once more. Where something differs it drops events for as long as something still does, and prints the list that is left.

use crate::desk::Record;
use crate::dice::Dice;
use crate::library;
use crate::other::{records, Other, WIDTH};
use crate::profile::{BENDS, HEEDED};
use crate::script::Step;
use std::collections::BTreeMap;

const KIND: usize = 0;
const TIME: usize = 1;
const CHANNEL: usize = 2;
const V1: usize = 3;
const NOTE: i64 = 0;
const CONTROLLER: i64 = 2;
const BEND: i64 = 3;
const PROGRAM: i64 = 5;
const META: i64 = 6;
const SYSEX: i64 = 7;
const SOUNDS: [i64; 4] = [NOTE, CONTROLLER, BEND, PROGRAM];
const SILENT: [i64; 2] = [META, SYSEX];

const FULL_CUT: i64 = 310;
const NORMALIZE: i64 = 307;
const CHECK: i64 = 313;
const FIT: i64 = 314;

/// The most events of a list, which is as many as it has room for.
const MOST: i64 = 40;
/// The room of a passage that is normalized: every event may be a note that gets its end.
const ENDED: i64 = 2 * MOST;
/// The calls and numbers that leave a passage unfitted: an end past an event's range, no room, more than one channel, an end below 0.
const UNFITTED: [(i64, i64); 4] = [(NORMALIZE, 4), (NORMALIZE, 7), (FIT, 17), (FIT, 18)];
/// Cuts lie within plus or minus this, times of events within four times as much.
const FAR: i64 = 1 << 40;

/// What a player keeps a value of, in the order in which a passage begins with them.
#[derive(Clone, Copy, PartialEq, Eq, PartialOrd, Ord, Debug)]
enum Part {
    Controller(i64),
    Program,
    Bend,
}

/// What is set, and to what. All else stands at the player's defaults.
type State = BTreeMap<Part, i64>;

/// Plays a list's events in the order of their times, those of one time in list order, and keeps what was said last.
struct Player<'a> {
    /// What it has not played yet.
    rest: &'a [Record],
    /// The one channel that it listens to; without one it listens to all.
    channel: Option<i64>,
    state: State,
}

/// A list in the order in which it is played.
fn in_time(list: &[Record]) -> Vec<Record> {
    let mut played = list.to_vec();
    played.sort_by_key(|event| event[TIME]);
    played
}

/// What an event says, of which part. A controller or program with a negative value unsets; a bend always has a value.
fn said(event: &Record) -> Option<(Part, Option<i64>)> {
    let [kind, _, _, v1, v2, ..] = *event;
    match kind {
        CONTROLLER => Some((Part::Controller(v1), Some(v2).filter(|&value| value >= 0))),
        PROGRAM => Some((Part::Program, Some(v1).filter(|&value| value >= 0))),
        BEND => Some((Part::Bend, Some(v1))),
        _ => None,
    }
}

impl<'a> Player<'a> {
    fn new(played: &'a [Record], channel: Option<i64>) -> Player<'a> {
        Player { rest: played, channel, state: State::new() }
    }

    /// Plays on, up to a time and what is at it.
    fn play(&mut self, until: i64) -> &State {
        while let [event, rest @ ..] = self.rest {
            if event[TIME] > until {
                break;
            }
            self.rest = rest;
            if self.channel.is_none_or(|channel| channel == event[CHANNEL]) {
                match said(event) {
                    Some((part, Some(value))) => self.state.insert(part, value),
                    Some((part, None)) => self.state.remove(&part),
                    None => None,
                };
            }
        }
        &self.state
    }
}

/// A list, a cut, and how far behind it the passage is cut again.
#[derive(Clone)]
struct Case {
    song: Vec<Record>,
    cut: i64,
    again: i64,
}

#[derive(Default)]
struct Figures {
    lists: usize,
    refused: usize,
    unsorted: usize,
    folded: usize,
    /// Of those with something folded: controllers and programs before the cut are on one channel, and bends are, so that all sixteen channels are asked.
    one_channel: usize,
    /// So it is before both cuts.
    before_both: usize,
    states: usize,
    fitted: usize,
    /// Of those fitted: with fewer events than before; all bends in range, so that the bend is asked; all sixteen channels asked.
    thinned: usize,
    bends: usize,
    each_channel: usize,
    /// By the rows of UNFITTED.
    unfitted: [usize; UNFITTED.len()],
    rehearsed: usize,
}

impl Figures {
    fn print(&self, seed: u64) {
        let Figures { lists, refused, unsorted, folded, one_channel, before_both, states, fitted, thinned, bends, each_channel, unfitted, rehearsed } =
            self;
        println!("seed {seed}: {lists} lists, {refused} of them refused, each other passage plays as its song; {states} states compared");
        println!("not sorted {unsorted}, with something folded {folded}; of these with one channel before the cut {one_channel}, before both cuts {before_both}");
        println!("{fitted} passages normalized and fitted, each plays as its song what the rehearsal player heeds; {rehearsed} states compared");
        println!("with events dropped {thinned}, all bends in range {bends}, one channel before the cut {each_channel}");
        let [late, room, channels, early] = unfitted;
        println!("{} passages not fitted: normalize 4 {late}, 7 {room}; fit 17 {channels}, 18 {early}", unfitted.iter().sum::<usize>());
    }
}

/// Tries so many lists; answers whether every passage played as its song.
pub fn run(seed: u64, count: usize) -> bool {
    let (mut dice, mut desk, mut figures) = (Dice::new(seed), Other::new(96, 0, ENDED), Figures::default());
    for at in 0..count {
        let case = Case::random(&mut dice);
        if case.tried(&mut desk, &mut figures).is_err() {
            println!("seed {seed}: list {at} of {count} does not play as its song; the least of it that does not:");
            println!("{}", case.smallest(&mut desk));
            return false;
        }
    }
    figures.print(seed);
    true
}

fn step(op: i64, args: &[i64]) -> Step {
    Step { op, args: args.to_vec() }
}

impl Case {
    /// Times are few, so that many are equal and some are at the cut; two controllers in three are the same three.
    fn random(dice: &mut Dice) -> Case {
        let start = dice.of(&[0, 0, 0, 0, -20, -20, 1000, 1000, -4 * FAR, FAR - 20, 4 * FAR - 40]);
        let span = dice.of(&[1, 4, 12, 12, 40]);
        let near = |dice: &mut Dice| (start + dice.pick(-1, span + 1)).clamp(-FAR, FAR);
        let (first, second) = (near(dice), near(dice));
        let cut = if dice.one_in(6) { dice.of(&[-1, 0, -FAR, FAR]) } else { first };
        let again = dice.of(&[0, 1, second - cut, second - cut, second - cut]).clamp(0, FAR.min(FAR - cut));
        // One channel for all; before the cut one for controllers and programs and one for bends; or any of three.
        let (way, channels) = (dice.pick(0, 2), [dice.pick(0, 15), dice.pick(0, 15), 0]);
        let numbers = [7, 64, dice.pick(0, 127)];
        let mut song: Vec<Record> = (0..dice.pick(0, MOST))
            .map(|_| {
                let mut event = event(dice, &numbers);
                event[TIME] = start + dice.pick(0, span);
                event[CHANNEL] = match (way, event[KIND]) {
                    (0, _) => channels[0],
                    (1, CONTROLLER | PROGRAM) if event[TIME] < cut => channels[0],
                    (1, BEND) if event[TIME] < cut => channels[1],
                    _ => dice.of(&channels),
                };
                event
            })
            .collect();
        if dice.one_in(3) {
            song = in_time(&song);
        }
        Case { song, cut, again }
    }

    /// The calls that make the list in so much room, those behind them, as tools/script reads them, and what differs then.
    fn shown(&self, room: i64, calls: &[Step], what: &str) -> String {
        let made = std::iter::once(step(902, &[96, 0, room])).chain(self.song.iter().map(|event| step(301, event)));
        let text: String = made.chain(calls.iter().cloned()).map(|call| call.text() + "\n").collect();
        text + what
    }

    /// What differs without as many events as can go one by one while something still does.
    fn smallest(&self, desk: &mut Other) -> String {
        let (mut least, mut at) = (self.clone(), 0);
        while at < least.song.len() {
            let mut fewer = least.clone();
            fewer.song.remove(at);
            match fewer.tried(desk, &mut Figures::default()) {
                Ok(()) => at += 1,
                Err(_) => (least, at) = (fewer, 0),
            }
        }
        least.tried(desk, &mut Figures::default()).expect_err("a list that differs")
    }

    fn tried(&self, desk: &mut Other, figures: &mut Figures) -> Result<(), String> {
        let cuts = [step(FULL_CUT, &[self.cut]), step(FULL_CUT, &[self.again])];
        let fitting = [step(FULL_CUT, &[self.cut]), step(NORMALIZE, &[]), step(FIT, &[]), step(CHECK, &[])];
        match self.cut_out(desk, figures).map_err(|what| self.shown(MOST, &cuts, &what))? {
            Some(passage) => self.rehearsed(desk, &passage, figures).map_err(|what| self.shown(ENDED, &fitting, &what)),
            None => Ok(()),
        }
    }

    /// The passage, which plays as the song and so does a cut of it; none where the cut is refused as it has to be.
    fn cut_out(&self, desk: &mut Other, figures: &mut Figures) -> Result<Option<Vec<Record>>, String> {
        let Case { song, cut, again } = self;
        figures.lists += 1;
        figures.unsorted += usize::from(!song.is_sorted_by_key(|event| event[TIME]));
        let passage = match full_cut(desk, song, *cut) {
            Ok(_) if self.too_far() => return Err("a time past its range is not refused".to_string()),
            Ok(passage) => passage,
            Err(4) if self.too_far() => {
                figures.refused += 1;
                return Ok(None);
            }
            Err(code) => return Err(format!("the cut is refused with {code}")),
        };
        let one = on_one_channel(song, *cut);
        figures.states += same_states(&moved(song, *cut), "the song", &passage, "the passage", one)?;
        let folded = plays_on(song, *cut, &passage)?;
        figures.folded += usize::from(folded);
        figures.one_channel += usize::from(folded && one);

        let one = on_one_channel(song, cut + again);
        figures.before_both += usize::from(folded && one);
        let refused = |code| format!("the second cut is refused with {code}");
        let twice = full_cut(desk, &passage, *again).map_err(refused)?;
        let once = full_cut(desk, song, cut + again).map_err(refused)?;
        figures.states += same_states(&once, "one cut", &twice, "a cut of the passage", one)?;
        let others = |list: &[Record]| of(list, &[NOTE, META, SYSEX]);
        same("notes, Meta and SysEx of one cut and of a cut of the passage", &others(&once), &others(&twice))?;
        Ok(Some(passage))
    }

    /// The passage, normalized and then fitted, passes the library's check, and plays as the song what the rehearsal player heeds: the five controllers, the program and, where every bend of the passage is in
    /// range, the bend. Other controllers are not heard of it at all.
    fn rehearsed(&self, desk: &mut Other, passage: &[Record], figures: &mut Figures) -> Result<(), String> {
        let (mut fitted, mut long) = (passage.to_vec(), 0);
        for op in [NORMALIZE, FIT] {
            long = fitted.len();
            fitted = match left(desk, ENDED, &fitted, &step(op, &[])) {
                Ok(list) => list,
                Err(code) => {
                    let row = UNFITTED.iter().position(|&row| row == (op, code)).ok_or_else(|| format!("call {op} is refused with {code}"))?;
                    figures.unfitted[row] += 1;
                    return Ok(());
                }
            };
        }
        let check = library::make(desk, &step(CHECK, &[]));
        if (check.code, &check.answers[..]) != (0, &[1]) {
            return Err(format!("the check of what was fitted answers {} and {:?}: {fitted:?}", check.code, check.answers));
        }

        let (one, bends) = (on_one_channel(&self.song, self.cut), of(passage, &[BEND]).iter().all(|event| BENDS.contains(&event[V1])));
        figures.fitted += 1;
        figures.thinned += usize::from(fitted.len() < long);
        figures.bends += usize::from(bends);
        figures.each_channel += usize::from(one);
        let mut song = moved(&self.song, self.cut);
        song.retain(|event| event[KIND] != CONTROLLER || HEEDED.contains(&event[V1]));
        for list in [&mut song, &mut fitted] {
            list.retain(|event| bends || event[KIND] != BEND);
        }
        figures.rehearsed += same_states(&song, "the song", &fitted, "the passage, normalized and fitted", one)?;
        Ok(())
    }

    /// Whether an event that travels would get a time that no event may have.
    fn too_far(&self) -> bool {
        let travels = |event: &Record| SOUNDS.contains(&event[KIND]) || SILENT.contains(&event[KIND]);
        self.song.iter().any(|event| travels(event) && event[TIME] - self.cut > 4 * FAR)
    }
}

/// Any event, mostly a controller, program or bend; one value in four is 0 or below. Time and channel are still to be set.
fn event(dice: &mut Dice, numbers: &[i64]) -> Record {
    let kind = dice.of(&[0, 0, 1, 2, 2, 2, 2, 2, 3, 3, 4, 5, 5, 6, 7, 8]);
    let low = dice.of(&[0, 0, -1, -5, i32::MIN as i64]);
    let value = if dice.one_in(4) { low } else { dice.pick(0, 127) };
    match kind {
        CONTROLLER => [kind, 0, 0, if dice.one_in(3) { dice.pick(0, 127) } else { dice.of(numbers) }, value, 0, 0, 0],
        BEND => [kind, 0, 0, if dice.one_in(2) { value } else { dice.pick(0, 16383) }, dice.pick(0, 1), dice.pick(0, 1), 0, 0],
        META.. => [kind, 0, 0, value, dice.pick(-1, 1), dice.pick(-1, 1), dice.pick(0, 100), dice.pick(1, 9)],
        _ => [kind, 0, 0, value, dice.pick(-1, 127), dice.pick(-1, 127), 0, 0],
    }
}

/// What a call of the library leaves of a list in so much room, or the number that refuses it.
fn left(desk: &mut Other, room: i64, list: &[Record], call: &Step) -> Result<Vec<Record>, i64> {
    (desk.room, desk.count) = (room as usize, list.len());
    desk.events[..list.len() * WIDTH].copy_from_slice(&list.concat());
    let reply = library::make(desk, call);
    if reply.code == 0 {
        Ok(records(&desk.events, desk.count))
    } else {
        Err(reply.code)
    }
}

fn full_cut(desk: &mut Other, list: &[Record], cut: i64) -> Result<Vec<Record>, i64> {
    left(desk, MOST, list, &step(FULL_CUT, &[cut]))
}

fn of(list: &[Record], kinds: &[i64]) -> Vec<Record> {
    list.iter().filter(|event| kinds.contains(&event[KIND])).copied().collect()
}

fn moved(list: &[Record], by: i64) -> Vec<Record> {
    let mut list = list.to_vec();
    for event in &mut list {
        event[TIME] -= by;
    }
    list
}

/// Whether the controllers and programs before a time are all on one channel, and the bends before it too.
fn on_one_channel(list: &[Record], before: i64) -> bool {
    [&[CONTROLLER, PROGRAM][..], &[BEND]].iter().all(|kinds| {
        let early = of(list, kinds).into_iter().filter(|event| event[TIME] < before);
        let channels: Vec<i64> = early.map(|event| event[CHANNEL]).collect();
        channels.windows(2).all(|pair| pair[0] == pair[1])
    })
}

/// Players of two lists have the same at 0, at 1, and at each time from 0 on at which either list has an event, and just before it: a player of all channels, and if asked one of each. Answers how many
/// states were compared.
fn same_states(first: &[Record], its: &str, second: &[Record], other: &str, each: bool) -> Result<usize, String> {
    let mut times: Vec<i64> = [0, 1].into_iter().chain([first, second].concat().iter().flat_map(|event| [event[TIME] - 1, event[TIME]])).collect();
    times.retain(|&time| time >= 0);
    times.sort();
    times.dedup();
    let (first, second) = (in_time(first), in_time(second));
    let listeners: Vec<Option<i64>> = std::iter::once(None).chain((0..16).filter(|_| each).map(Some)).collect();
    for &channel in &listeners {
        let (mut one, mut two) = (Player::new(&first, channel), Player::new(&second, channel));
        for &time in &times {
            let (one, two) = (one.play(time), two.play(time));
            if one != two {
                let who = channel.map_or("all channels".to_string(), |channel| format!("channel {channel}"));
                return Err(format!("a player of {who} has at {time} of the passage\nin {its}: {one:?}\nin {other}: {two:?}"));
            }
        }
    }
    Ok(listeners.len() * times.len())
}

/// The passage plays first what was set before the cut, each part once, and then exactly what the song plays from the cut on, earlier by the cut. Meta and SysEx stand in the list's order, those before the cut
/// at 0, and nothing else is there. Answers whether something was set.
fn plays_on(song: &[Record], cut: i64, passage: &[Record]) -> Result<bool, String> {
    let mut after = of(&in_time(&moved(song, cut)), &SOUNDS);
    after.retain(|event| event[TIME] >= 0);
    let played = of(&in_time(passage), &SOUNDS);
    let (set, rest) = played.split_at(played.len().saturating_sub(after.len()));
    same("what is played from the cut on, in the song and in the passage", &after, rest)?;

    let parts: Vec<Option<Part>> = set.iter().map(|event| said(event).map(|(part, _)| part)).collect();
    let stands = Player::new(&in_time(song), None).play(cut - 1).clone();
    let sets = Player::new(set, None).play(0).clone();
    let at_once = set.iter().all(|event| event[TIME] == 0);
    if !at_once || sets != stands || parts != stands.keys().copied().map(Some).collect::<Vec<_>>() {
        return Err(format!("before the cut is set: {stands:?}\nthe passage begins with: {set:?}"));
    }

    let mut kept = of(&moved(song, cut), &SILENT);
    for event in &mut kept {
        event[TIME] = event[TIME].max(0);
    }
    let silent: Vec<Record> = passage.iter().filter(|event| !SOUNDS.contains(&event[KIND])).copied().collect();
    same("Meta and SysEx of the song and what else is in the passage", &kept, &silent)?;
    Ok(!set.is_empty())
}

fn same(what: &str, first: &[Record], second: &[Record]) -> Result<(), String> {
    if first == second {
        return Ok(());
    }
    Err(format!("{what}:\n{first:?}\n{second:?}"))
}
