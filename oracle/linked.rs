// The original and the linked port in one process: a random script, each of its calls made on both, and everything compared after it. The port is asked through its C
// interface alone, as a product links it. docs/COMPARING.md says what is compared, and what was.
//
//     linked SEED COUNT FAMILIES [SEEDS]      so many scripts, their seeds rising; ends at the first difference
//     linked SEED edges                       one script of cycle calls at their edge
//     linked SEED merged COUNT                one script of full cuts of lists that are not sorted
//     linked SEED chunks COUNT                one script of track chunks at the edges of what one holds
//     linked SEED reads COUNT                 so many chunks read, good and damaged, and lists written and read back
//     linked SEED profile COUNT               so many lists of each kind checked and fitted for the rehearsal player
//     linked SEED passage COUNT               so many lists and their full cuts, played: of the port alone
//     linked bench                            times of some calls on both sides

#![allow(dead_code)]

#[path = "../include/dollavir.rs"]
mod dollavir;
#[path = "../target/oracle/original.rs"]
mod original;

mod calls;
mod chunks;
mod cut;
mod desk;
mod dice;
mod edges;
mod fitted;
mod fuzz;
mod library;
mod make;
mod merged;
mod other;
mod passage;
mod poke;
mod private;
mod profile;
mod quarter;
mod reads;
mod rules;
mod script;
mod show;
mod sine;
mod smf;
mod spoil;
mod stand_ins;
mod table;
mod timing;
mod wild;

use calls::Reply;
use desk::Desk;
use dice::Dice;
use other::{Other, WIDTH};
use script::Step;
use std::collections::BTreeMap;

/// After so many calls everything that both sides hold is compared, not only what the call's family shows.
const WHOLE: usize = 32;
const ALL: &str = "EBTOPLNWSC";
/// One call in so many that were made is made once more with a wrong number that only C can hold.
const WILD: i64 = 8;

/// What the two sides disagree on: what it is, the original's numbers and the port's.
struct Difference {
    what: String,
    original: Vec<i64>,
    port: Vec<i64>,
}

fn same(what: &str, original: &[i64], port: &[i64]) -> Result<(), Difference> {
    if original == port {
        return Ok(());
    }
    Err(Difference { what: what.to_string(), original: original.to_vec(), port: port.to_vec() })
}

/// What a call had to leave as it was.
fn kept<T: PartialEq + ?Sized>(what: &str, before: &T, after: &T) -> Result<(), Difference> {
    if before == after {
        return Ok(());
    }
    Err(Difference { what: format!("{what}, which had to be as it was"), original: vec![], port: vec![] })
}

#[derive(Default)]
struct Tally {
    steps: usize,
    by_hand: usize,
    other_forms: usize,
    wild: usize,
    families: BTreeMap<i64, usize>,
    codes: BTreeMap<i64, usize>,
    calls: BTreeMap<i64, usize>,
}

struct Pair {
    desk: Desk,
    port: Other,
    /// The port's desk as the call found it.
    before: Other,
    quarter: sine::Quarter,
    dice: Dice,
}

impl Pair {
    fn new(seed: u64) -> Pair {
        Pair { desk: Desk::first(), port: Other::first(), before: Other::first(), quarter: sine::Quarter::new(), dice: Dice::new(seed) }
    }

    fn step(&mut self, step: &Step, tally: &mut Tally) -> Result<(), Difference> {
        tally.steps += 1;
        let whole = tally.steps % WHOLE == 0;
        if step.op / 100 == 9 {
            calls::make(&mut self.desk, &self.quarter, step);
            self.port.poke(step.op, &step.args);
        } else if !library::exports(step) {
            calls::make(&mut self.desk, &self.quarter, step);
            self.port.hand_over(&self.desk);
            tally.by_hand += 1;
        } else {
            self.call(step, tally)?;
        }
        if whole {
            self.sections(ALL, &Step { op: 915, args: vec![] }, &Reply::default(), &Reply::default())?;
        }
        Ok(())
    }

    fn call(&mut self, step: &Step, tally: &mut Tally) -> Result<(), Difference> {
        self.before.copy(&self.port);
        let sound = rules::track_ok(&self.desk);
        let original = calls::make(&mut self.desk, &self.quarter, step);
        let port = library::make(&mut self.port, step);
        for (counts, key) in [(&mut tally.families, step.op / 100), (&mut tally.codes, original.code), (&mut tally.calls, step.op)] {
            *counts.entry(key).or_default() += 1;
        }
        same("the number", &[original.code], &[port.code])?;
        same("the answers", &original.answers, &port.answers)?;
        self.sections(show::sections(step), step, &original, &port)?;
        if original.code == 0 {
            self.not_lent(step)?;
            self.places()?;
        } else {
            nothing_changed(&self.before, &self.port)?;
        }
        tally.other_forms += usize::from(self.whole_track(step, original.code, sound)?) + usize::from(self.layers_alone(step, &port)?);
        if original.code == 0 && self.dice.one_in(WILD) {
            tally.wild += usize::from(self.wild(step)?);
        }
        Ok(())
    }

    /// A call that was made once more, on what it found with a number in it that only a C caller can put there: 4, and nothing changes.
    fn wild(&mut self, step: &Step) -> Result<bool, Difference> {
        let mut desk = Other::first();
        desk.copy(&self.before);
        let call = table::find(step.op).expect("a call of the table");
        let Some(what) = wild::put(&mut self.dice, &mut desk, call, &step.args) else { return Ok(false) };
        let mut after = Other::first();
        after.copy(&desk);
        let reply = library::make(&mut after, step);
        same(&format!("the number, with {what} put wrong"), &[4], &[reply.code])?;
        nothing_changed(&desk, &after)?;
        Ok(true)
    }

    fn sections(&self, letters: &str, step: &Step, original: &Reply, port: &Reply) -> Result<(), Difference> {
        for letter in letters.chars() {
            let theirs = show::section(&self.desk, step, original, letter);
            let ours = self.port.section(step.op, &step.args, port, letter);
            same(&format!("section {letter}"), &theirs, &ours)?;
        }
        Ok(())
    }

    /// A call that was made left what it is not lent, or only to read.
    fn not_lent(&self, step: &Step) -> Result<(), Difference> {
        let (before, after, family) = (&self.before, &self.port, step.op / 100);
        if matches!(family, 1 | 2 | 3) || matches!(step.op, 418 | 601 | 607..=611 | 708 | 709) {
            kept("the track", &before.track, &after.track)?;
        }
        if family != 7 || matches!(step.op, 702 | 707 | 708 | 711 | 713) {
            kept("the cycle table", &before.cycles, &after.cycles)?;
        }
        if !matches!(step.op, 205 | 607..=610 | 707..=709) {
            kept("the budget", &before.budget, &after.budget)?;
        }
        if matches!(step.op, 305 | 306 | 311 | 313) {
            kept("the list", &before.events, &after.events)?;
        }
        kept("the record past the cycle table", &before.cycles[16], &after.cycles[16])
    }

    /// Of the list: places that fell vacant are zeroed, and what stands behind both counts is as it was.
    fn places(&self) -> Result<(), Difference> {
        let (before, after) = (&self.before, &self.port);
        let (left, most) = (after.count * WIDTH, before.count.max(after.count) * WIDTH);
        if let Some(&number) = after.events[left..most].iter().find(|&&number| number != 0) {
            same("a vacant place", &[0], &[number])?;
        }
        kept("the list behind both counts", &before.events[most..], &after.events[most..])
    }

    /// A parameter's setter once more, as the track's own call: it refuses by the same rules with the track in the parameter's place, and leaves the same parameter.
    fn whole_track(&self, step: &Step, code: i64, sound: bool) -> Result<bool, Difference> {
        let mut track = self.before.track;
        let timed = matches!(step.op, 404 | 405);
        if timed {
            track.timepos = step.args[1];
        }
        let given = track;
        let Some(answered) = library::of_whole_track(&mut track, step) else { return Ok(false) };
        let expected = if code == 0 && !sound { 4 } else { code };
        same("the number of the track's own call", &[expected], &[answered])?;
        let mut left = if expected == 0 { self.port.track } else { given };
        left.timepos = given.timepos;
        kept("the track after its own call", &left, &track)?;
        Ok(true)
    }

    /// A call on the track's layers once more, on the layers alone.
    fn layers_alone(&self, step: &Step, port: &Reply) -> Result<bool, Difference> {
        if port.code == 4 {
            return Ok(false);
        }
        let mut layers = self.before.track.layers;
        let Some(alone) = library::of_layers(&mut layers, &self.before.track, step) else { return Ok(false) };
        same("the number of the layers' own call", &[port.code], &[alone.code])?;
        same("the answer of the layers' own call", &port.answers, &alone.answers)?;
        kept("the layers after their own call", &self.port.track.layers, &layers)?;
        Ok(true)
    }
}

/// A refused call left everything that it was lent, behind the count too.
fn nothing_changed(before: &Other, after: &Other) -> Result<(), Difference> {
    kept("the track", &before.track, &after.track)?;
    kept("the cycle table", &before.cycles, &after.cycles)?;
    kept("the budget", &before.budget, &after.budget)?;
    kept("the list", &before.events, &after.events)?;
    kept("the second list", &before.out, &after.out)
}

/// Runs one script; answers whether the two sides agreed.
fn compare(seed: u64, steps: &[Step], tally: &mut Tally) -> bool {
    let (mut pair, count) = (Pair::new(seed), steps.len());
    for (at, step) in steps.iter().enumerate() {
        if let Err(Difference { what, original, port }) = pair.step(step, tally) {
            println!("seed {seed}: call {at} of {count} differs in {what}");
            println!("call:     {}", step.text());
            if let Some(first) = (0..original.len().max(port.len())).find(|&k| original.get(k) != port.get(k)) {
                println!("from number {first} on:");
            }
            println!("original: {original:?}");
            println!("port:     {port:?}");
            let text: String = steps[..=at].iter().map(|step| step.text() + "\n").collect();
            std::fs::write("target/oracle/differing.txt", text).expect("a place for the calls");
            println!("the calls up to it are in target/oracle/differing.txt");
            return false;
        }
    }
    true
}

fn print(tally: &Tally) {
    let row = |counts: &BTreeMap<i64, usize>| counts.iter().map(|(key, count)| format!("{key}: {count}")).collect::<Vec<_>>().join(", ");
    let made: usize = tally.families.values().sum();
    println!(
        "{made} calls on both sides, no difference, in scripts of {} (the others fill and spoil the desks; {} not exported)",
        tally.steps, tally.by_hand
    );
    println!("by family: {}", row(&tally.families));
    println!("by number: {}", row(&tally.codes));
    println!("{} calls also in their other form, {} also with a number that only C can hold, refused with 4", tally.other_forms, tally.wild);
    if let Some((count, op)) = tally.calls.iter().map(|(op, count)| (count, op)).min() {
        println!("{} calls, the rarest of them {op}, made {count} times", tally.calls.len());
    }
}

fn main() {
    let words: Vec<String> = std::env::args().skip(1).collect();
    let words: Vec<&str> = words.iter().map(String::as_str).collect();
    let number = |word: &str| word.parse::<u64>().unwrap_or_else(|_| panic!("no number: {word}"));
    let random = |count: &str, families: &str| {
        let (count, families) = (number(count) as usize, make::families(families));
        move |seed| make::script(seed, count, &families)
    };
    match words[..] {
        ["bench"] => timing::print(),
        [seed, "edges"] => compare_all(number(seed), 1, edges::script),
        [seed, "merged", count] => compare_all(number(seed), 1, |seed| merged::script(seed, number(count) as usize)),
        [seed, "chunks", count] => compare_all(number(seed), 1, |seed| chunks::script(seed, number(count) as usize)),
        [seed, "reads", count] => std::process::exit(i32::from(!fuzz::run(number(seed), number(count) as usize))),
        [seed, "profile", count] => std::process::exit(i32::from(!fitted::run(number(seed), number(count) as usize))),
        [seed, "passage", count] => std::process::exit(i32::from(!passage::run(number(seed), number(count) as usize))),
        [seed, count, families] => compare_all(number(seed), 1, random(count, families)),
        [seed, count, families, seeds] => compare_all(number(seed), number(seeds), random(count, families)),
        _ => {
            eprintln!("linked SEED COUNT FAMILIES [SEEDS] | SEED edges | SEED merged COUNT | SEED chunks COUNT | SEED reads COUNT | SEED profile COUNT | SEED passage COUNT | bench");
            std::process::exit(2);
        }
    }
}

/// Runs the scripts of so many seeds from the first on, and prints what was compared; ends at the first difference.
fn compare_all(first: u64, seeds: u64, script: impl Fn(u64) -> Vec<Step>) {
    let mut tally = Tally::default();
    for seed in first..first + seeds {
        if !compare(seed, &script(seed), &mut tally) {
            std::process::exit(1);
        }
    }
    print(&tally);
}
