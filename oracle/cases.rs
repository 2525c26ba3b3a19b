// Document 01's cases, "Both sides of a line", with request c)'s limit for lists, and request a)'s of the full cut, asked of the original, requests b)'s and e)'s of the track chunk, asked of smf.rs, and request j)'s of the rehearsal player, asked of profile.rs: each is a short script in text, and lines that its last call must print in full mode. And the sines,
// whose values document 01 takes from a table of its own: how far the original's stand from it.

use crate::calls;
use crate::desk::{records_of, Desk};
use crate::dice::Dice;
use crate::original::*;
use crate::rules::{FORMER_LIMIT, LIST_LIMIT};
use crate::script::from_text;
use crate::show;
use crate::sine::{write_sine, Quarter};
use std::io::{Result, Write};

struct Case {
    says: &'static str,
    script: String,
    prints: &'static [&'static str],
}

fn case(says: &'static str, script: &str, prints: &'static [&'static str]) -> Case {
    Case { says, script: script.replace("; ", "\n"), prints }
}

/// A list of so many ones.
fn ones(count: usize) -> String {
    format!("{count}{}", " 1".repeat(count))
}

fn cases() -> Vec<Case> {
    let sixteen: String = (0..16).map(|target| format!("703 {target} 16 1 5; ")).collect();
    let two = "904 2 0 0 7 90 0 0 0; 904 2 10 0 7 100 0 0 0";
    let first_voice = "904 2 6 3 7 100 0 0 0; 904 5 6 3 41 0 0 0 0; 904 3 7 3 9000 0 0 0 0; 904 2 8 4 10 64 0 0 0";
    let merged = format!("{first_voice}; 904 2 0 1 7 90 0 0 0; 904 5 0 1 40 0 0 0 0; 904 3 2 2 8192 0 0 0 0");
    let five = [1, 7, 10, 11, 64].map(|number| format!("904 2 5 3 {number} 0 0 0 0")).join("; ");
    vec![
        case("Seed 1 steps to 270369; value 64, random 10 gives 68", "202 1 64 10", &["202 0 68 270369"]),
        case("Seed 0 stays 0; value 64, random 10 gives 59", "202 0 64 10", &["202 0 59 0"]),
        case("Bend 0 with 64: 8192", "606 128 0 64", &["E 1 3 0 0 8192 0 0 0"]),
        case("Bend 0 with 255: 32,639", "606 128 0 255", &["E 1 3 0 0 32639 0 0 0"]),
        case("Bend 1 with -8192: 0", "606 129 0 -8192", &["E 1 3 0 0 0 0 0 0"]),
        case("Bend 1 with 0: 8192", "606 129 0 0", &["E 1 3 0 0 8192 0 0 0"]),
        case("Curve (0,127,96) at 48: 63, as a parameter's value", "404 0 0 3 0 127 96; 407 0 48 5", &["407 0 63"]),
        case("Curve (0,-127,96) at 48: -63, as a parameter's value", "404 0 0 3 0 -127 96; 407 0 48 5", &["407 0 -63"]),
        case("Curve (0,127,96) at 48: 63, written", "804 48; 607 7 3 0 127 96", &["E 2 2 0 0 7 0 0 0 2 48 0 7 63 0 0"]),
        case("Curve (0,-127,96) at 48: -63, written on the wide bend", "805 48; 607 129 3 0 -127 96", &["E 2 3 0 0 8192 0 0 0 3 48 0 8129 0 0 0"]),
        case(
            "Curve (0,100,12), frequency 4, maximum 88: 0, 33, 66 at 0, 4, 8, flag clear",
            "903 1 88 0 0; 804 4; 607 7 3 0 100 12",
            &["607 0", "E 3 2 0 0 7 0 0 0 2 4 0 7 33 0 0 2 8 0 7 66 0 0", "B 1 88 24 0"],
        ),
        case(
            "Maximum 87: same events, flag set",
            "903 1 87 0 0; 804 4; 607 7 3 0 100 12",
            &["607 0", "E 3 2 0 0 7 0 0 0 2 4 0 7 33 0 0 2 8 0 7 66 0 0", "B 1 87 24 1"],
        ),
        case(
            "Expand lengths 3,3,4 to 7: 2,2,3",
            "804 1; 603 7 1; 704 7 1 16 9 10 10 3 20 20 3 30 30 4; 802 7; 708 0",
            &["708 0", "E 7 2 0 0 7 10 0 0 2 1 0 7 10 0 0 2 2 0 7 20 0 0 2 3 0 7 20 0 0 2 4 0 7 30 0 0 2 5 0 7 30 0 0 2 6 0 7 30 0 0"],
        ),
        case(
            "Lengths 8,0 to 15: 15,0",
            "804 7; 603 7 1; 704 7 1 16 6 10 10 8 20 20 0; 802 15; 708 0",
            &["708 0", "E 3 2 0 0 7 10 0 0 2 7 0 7 10 0 0 2 14 0 7 10 0 0"],
        ),
        case(
            "Cycle 24 with 10,20,30 from 0, until 100: 0, 24, 48, 72, 96 with 10,20,30,10,20",
            "706 7 24 16 3 10 20 30; 709 100 16",
            &["709 0", "E 5 2 0 0 7 10 0 0 2 24 0 7 20 0 0 2 48 0 7 30 0 0 2 72 0 7 10 0 0 2 96 0 7 20 0 0", "C 1 7 24 120 2 3 10 20 30"],
        ),
        case(
            "Maximum 16: two written, the one at 48 lost, next 72",
            "903 1 16 0 0; 706 7 24 16 3 10 20 30; 709 100 16",
            &["709 0", "E 2 2 0 0 7 10 0 0 2 24 0 7 20 0 0", "B 1 16 16 1", "C 1 7 24 72 0 3 10 20 30"],
        ),
        case("CC7=90 at 0, CC7=100 at 10, cut at 10: list order 100, 90", &format!("{two}; 309 10"), &["E 2 2 0 0 7 100 0 0 2 0 0 7 90 0 0"]),
        case("Full cut: 90, 100", &format!("{two}; 310 10"), &["E 2 2 0 0 7 90 0 0 2 0 0 7 100 0 0"]),
        case(
            "02, a): CC7=90 at 5 behind CC7=100 at 3, full cut at 10: 90",
            "904 2 3 0 7 100 0 0 0; 904 2 5 0 7 90 0 0 0; 310 10",
            &["E 1 2 0 0 7 90 0 0"],
        ),
        case(
            "02, a): a second voice behind the first, full cut at 10: the latest volume, program and bend, on the channel of the latest controller or program",
            &format!("{merged}; 310 10"),
            &["E 4 2 0 4 7 100 0 0 2 0 4 10 64 0 0 5 0 4 41 0 0 0 3 0 3 9000 0 0 0"],
        ),
        case(
            "02, a): the same list, cut by list order as in the original",
            &format!("{merged}; 309 10"),
            &["E 3 2 0 1 7 90 0 0 2 0 1 10 64 0 0 5 0 1 40 0 0 0"],
        ),
        case(
            "02, a): of equal times the later in the list; a negative latest value unsets and still gives the channel",
            "904 2 5 0 7 1 0 0 0; 904 2 5 0 7 2 0 0 0; 904 2 4 0 7 3 0 0 0; 904 2 6 5 10 -1 0 0 0; 904 2 1 2 10 64 0 0 0; 310 10",
            &["E 1 2 0 5 7 2 0 0"],
        ),
        case("02, b): the chunk of an empty list", "311 12", &["311 0 12", "K 12 77 84 114 107 0 0 0 4 0 255 47 0"]),
        case("02, b): one byte less gives 12, and the output is as it was", "311 11", &["311 12", "K 11 1 6 11 16 21 26 31 36 41 46 51"]),
        case(
            "02, b): a note of one quarter, 00 90 3C 64 60 80 3C 00, whose end has velocity 64; the byte behind the chunk is as it was",
            "904 0 0 0 60 96 100 0 0; 904 1 96 0 60 0 64 0 0; 311 21",
            &["311 0 20", "K 21 77 84 114 107 0 0 0 12 0 144 60 100 96 128 60 0 0 255 47 0 101"],
        ),
        case(
            "02, b): gaps 81 00, 81 80 00 and FF FF FF 7F, program CF 28, bend E0 00 40, controller B3 07 7F",
            "904 5 128 15 40 0 0 0 0; 904 3 16512 0 8192 0 0 0 0; 904 2 268451967 3 7 127 0 0 0; 311 29",
            &["311 0 29", "K 29 77 84 114 107 0 0 0 21 129 0 207 40 129 128 0 224 0 64 255 255 255 127 179 7 127 0 255 47 0"],
        ),
        case("02, b): a bend of 16,384 in front of a time that falls, and no output: 10", "904 3 1 0 16384 0 0 0 0; 904 3 0 0 0 0 0 0 0; 311 0", &["311 10", "K 0"]),
        case("02, b): a bend of 16,384, and no output: 11", "904 3 1 0 16384 0 0 0 0; 311 0", &["311 11", "K 0"]),
        case(
            "02, e): 00 90 3C 64 60 3C 00 00 FF 2F 00: a note, and its end by velocity 0 under running status",
            "312 19 77 84 114 107 0 0 0 11 0 144 60 100 96 60 0 0 255 47 0",
            &["312 0 2", "E 2 0 0 0 60 0 100 0 1 96 0 60 0 0 0"],
        ),
        case(
            "02, e): text, system exclusive and both kinds of aftertouch are stepped over, and their gaps of 1, 2, 128 and 5 count: a bend E3 00 40 at 136 + 4",
            "312 37 77 84 114 107 0 0 0 29 1 255 1 2 65 66 2 240 1 247 129 0 163 60 64 5 211 9 4 227 0 64 96 255 47 128 128 128 0",
            &["312 0 1", "E 1 3 140 3 8192 0 0 0"],
        ),
        case("02, e): an empty chunk takes the place of what was there", "904 0 0 0 60 48 100 0 0; 904 2 5 0 7 1 0 0 0; 312 12 77 84 114 107 0 0 0 4 0 255 47 0", &["312 0 0", "E 0"]),
        case("02, e): one byte behind the chunk gives 13, and the list is as it was", "904 0 0 0 60 48 100 0 0; 312 13 77 84 114 107 0 0 0 4 0 255 47 0 0", &["312 13", "E 1 0 0 0 60 48 100 0"]),
        case("02, e): one that the length counts gives 15", "312 13 77 84 114 107 0 0 0 5 0 255 47 0 0", &["312 15", "E 0"]),
        case("02, e): no status runs behind a text: 14", "312 23 77 84 114 107 0 0 0 15 0 144 60 100 0 255 1 0 0 60 0 0 255 47 0", &["312 14", "E 0"]),
        case("02, e): two events, room for one, and no end of track: 15", "902 96 0 1; 312 15 77 84 114 107 0 0 0 7 0 144 60 100 0 60 0", &["312 15", "E 0"]),
        case("02, e): with an end of track: 7", "902 96 0 1; 312 19 77 84 114 107 0 0 0 11 0 144 60 100 0 60 0 0 255 47 0", &["312 7", "E 0"]),
        case(
            "02, j): controllers 1, 7, 10, 11 and 64 at one time, bends 0 and 16,383, a Meta on another channel: passes",
            &format!("{five}; 904 3 5 3 0 0 0 0 0; 904 3 5 3 16383 0 0 0 0; 904 6 5 9 81 0 0 0 3; 313"),
            &["313 0 1"],
        ),
        case("02, j): fitting it changes nothing", &format!("{five}; 314"), &["314 0 5", "E 5 2 5 3 1 0 0 0 2 5 3 7 0 0 0 2 5 3 10 0 0 0 2 5 3 11 0 0 0 2 5 3 64 0 0 0"]),
        case("02, j): an empty list passes", "313", &["313 0 1"]),
        case("02, j): controller 2 does not", "904 2 0 0 2 0 0 0 0; 313", &["313 0 0"]),
        case("02, j): nor a bend of 16,384", "904 3 0 0 16384 0 0 0 0; 313", &["313 0 0"]),
        case("02, j): nor a time that falls", "904 0 1 0 60 48 100 0 0; 904 0 0 0 60 48 100 0 0; 313", &["313 0 0"]),
        case("02, j): nor one controller twice at one time, a note between", "904 2 4 0 7 90 0 0 0; 904 0 4 0 60 48 100 0 0; 904 2 4 0 7 90 0 0 0; 313", &["313 0 0"]),
        case(
            "02, j): of volume at 4 the last by the sort stays, of volume at 5 the only one; controller 2 and the bend of 16,384 go, the note stays",
            "904 2 5 0 7 50 0 0 0; 904 2 4 0 7 41 0 0 0; 904 0 4 0 60 48 100 0 0; 904 2 4 0 2 1 0 0 0; 904 3 4 0 16384 0 0 0 0; 904 2 4 0 7 42 0 0 0; 314",
            &["314 0 3", "E 3 0 4 0 60 48 100 0 2 4 0 7 42 0 0 2 5 0 7 50 0 0"],
        ),
        case("02, j): a second channel, of a controller that would go, and a time below 0: 17", "904 0 -1 0 60 48 100 0 0; 904 2 0 1 2 0 0 0 0; 314", &["314 17"]),
        case("02, j): a Meta's channel does not count, but its time does: 18", "904 6 -1 9 81 0 0 0 3; 904 0 0 0 60 48 100 0 0; 314", &["314 18"]),
        case("02, j): a bend range has a channel: 17", "904 4 0 1 12 0 0 0 0; 904 0 0 0 60 48 100 0 0; 314", &["314 17"]),
        case("192 numbers accepted", &format!("607 7 {}", ones(LIST_LIMIT)), &["607 0"]),
        case("193 give 3", &format!("607 7 {}", ones(LIST_LIMIT + 1)), &["607 3"]),
        case("96 numbers accepted as before", &format!("607 7 {}", ones(FORMER_LIMIT)), &["607 0"]),
        case("97, which gave 3, accepted too", &format!("607 7 {}", ones(FORMER_LIMIT + 1)), &["607 0"]),
        case("Sixteen targets kept, a seventeenth gives 6", &format!("{sixteen}703 16 16 1 5"), &["703 6"]),
        case("A kept one set again gives 0", &format!("{sixteen}703 3 16 1 5"), &["703 0"]),
        case(
            "The tape's example: a curve and a cycle",
            "607 7 3 0 100 12; 706 11 24 16 3 10 20 30; 709 30 16",
            &["E 5 2 0 0 7 0 0 0 2 4 0 7 33 0 0 2 8 0 7 66 0 0 2 0 0 11 10 0 0 2 24 0 11 20 0 0", "B 1 80000 40 0"],
        ),
    ]
}

/// What the last call of a script prints, in full mode.
fn last_print(script: &str) -> String {
    let (mut desk, quarter) = (Desk::first(), Quarter::new());
    desk.full = true;
    let prints = from_text(script).into_iter().map(|step| {
        let reply = calls::make(&mut desk, &quarter, &step);
        show::line(&desk, &step, &reply)
    });
    prints.last().unwrap()
}

/// Prints each case; answers whether all came out.
pub fn print(out: &mut impl Write) -> Result<bool> {
    let (cases, mut right) = (cases(), 0);
    for case in &cases {
        let print = last_print(&case.script);
        let missing: Vec<_> = case.prints.iter().filter(|line| !print.lines().any(|printed| printed == **line)).collect();
        if missing.is_empty() {
            right += 1;
            writeln!(out, "as 01 says: {}", case.says)?;
        } else {
            writeln!(out, "NOT as 01 says: {}\n  wanted {missing:?} in\n{print}", case.says)?;
        }
    }
    writeln!(out, "{right} of {} as document 01 says", cases.len())?;
    Ok(right == cases.len())
}

/// A track that is about to write a sine on the wide bend, over bends that its window may reach.
fn sine_track(frequency: isize, random: isize) -> Track {
    let mut track = Track::new(96, 3);
    track.pb_on_time_freq = frequency;
    track.timepos = 50;
    track.events = (0..8).map(|at| Event::pitch_bend(40 * at, 0, at)).collect();
    track.update_write_opt(WriteTarget::PitchBend(1), |option| option.random = random);
    track
}

/// The events that `write` leaves on such a track, and the budget's three numbers.
fn sine_written(frequency: isize, random: isize, bytes: usize, write: impl FnOnce(&mut Track, &mut WriteCtx)) -> (Vec<Event>, [usize; 3]) {
    let (mut track, mut seed) = (sine_track(frequency, random), 1);
    let mut ctx = WriteCtx { timebase: 96, rand_seed: &mut seed, max_event_bytes: bytes, event_bytes: 0, event_limit_exceeded: false };
    write(&mut track, &mut ctx);
    let budget = [ctx.event_bytes, usize::from(ctx.event_limit_exceeded)];
    (track.events, [budget[0], budget[1], seed as usize])
}

/// Writes random sines with the original and by the rule. With random 1, which adds nothing and drops nothing, each value of the original shows: none may be more than 1 away, and times and budget
/// are equal. Where all values are equal, so is everything with random off. Answers whether it is so.
pub fn sines(seed: u64, count: u64, out: &mut impl Write) -> Result<bool> {
    let (mut dice, quarter) = (Dice::new(seed), Quarter::new());
    let (mut steps, mut apart, mut most, mut whole, mut wrong) = (0, 0, 0, 0, 0);
    let mut smallest: Option<(isize, String)> = None;
    for _ in 0..count {
        let [low, high] = [(); 2].map(|_| if dice.one_in(6) { dice.of(&[-16383, 16383, -8192, 0]) } else { dice.pick(-8192, 16383) } as isize);
        let bits = dice.pick(1, 20);
        let (len, times) = (dice.pick(1, 1 << bits) as isize, dice.pick(-1, 3) as isize);
        let sine = OnNoteSine { target: WriteTarget::PitchBend(1), stype: SineType::from_i(dice.pick(0, 2) as isize), low, high, len, times };
        let frequency = (len / dice.pick(100, 2000) as isize).max(1);
        let bytes = dice.of(&[1 << 26, 1 << 26, 800, 8 * len as usize]);
        let both = |random| {
            let theirs = sine_written(frequency, random, bytes, |track, ctx| track.write_sine(sine.target, sine.stype, low, high, len, times, ctx));
            let ours = sine_written(frequency, random, bytes, |track, ctx| write_sine(&quarter, track, ctx, &sine));
            (theirs, ours)
        };
        let (theirs, ours) = both(1);
        let distances: Vec<isize> = theirs.0.iter().zip(&ours.0).map(|(a, b)| (a.v1 - b.v1).abs()).collect();
        let same_times = theirs.0.len() == ours.0.len() && theirs.0.iter().zip(&ours.0).all(|(a, b)| a.time == b.time);
        wrong += u64::from(!same_times || theirs.1 != ours.1);
        steps += distances.len();
        apart += distances.iter().filter(|&&distance| distance > 0).count();
        most = most.max(*distances.iter().max().unwrap_or(&0));
        if let Some(at) = distances.iter().position(|&distance| distance > 0) {
            let size = len + (high - low).abs();
            if smallest.as_ref().is_none_or(|(least, _)| size < *least) {
                let (a, b, step) = (theirs.0[at].v1 - 8192, ours.0[at].v1 - 8192, theirs.0[at].time - 50);
                smallest = Some((size, format!("{:?} {low} to {high}, length {len}, step {step}: the original {a}, the rule {b}", sine.stype)));
            }
        }
        // Below -8192 the clamp hides a value, but not whether it is dropped.
        if low.min(high) >= -8192 && distances.iter().all(|&distance| distance == 0) {
            let (theirs, ours) = both(0);
            let equal = records_of(&theirs.0) == records_of(&ours.0) && theirs.1 == ours.1;
            whole += 1;
            wrong += u64::from(!equal);
        }
    }
    writeln!(out, "{count} sines, {steps} values: largest distance {most}, {apart} not equal; {whole} compared with dropping; {wrong} with other times, budget or drops")?;
    if let Some((_, input)) = smallest {
        writeln!(out, "the smallest that differs: {input}")?;
    }
    Ok(most <= 1 && wrong == 0)
}
