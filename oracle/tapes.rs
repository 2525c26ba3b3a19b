// Tapes for the comparison: first every limit from both sides, then random ones. Of those most are good (swells, cycles, cuts, frequencies, budgets of every kind); the
// others are a good tape cut off at each of its bytes, or one with a single fault.
//
// A stream of tapes is for each its length, four bytes, little end first, and its bytes. It may end inside a tape or a length: then a line says so.

use crate::dice::Dice;
use crate::rules::{FORMER_LIMIT, LIST_LIMIT};
use crate::table::Arg;
use crate::tape::{width, BYTES};
use std::io::{Read, Result, Write};
use std::process::{Command, Stdio};

type Tape = Vec<u8>;

fn record(mark: &str, numbers: &[i64]) -> Tape {
    let words = numbers.iter().flat_map(|&number| (number as i32).to_le_bytes());
    mark.bytes().chain(words).collect()
}

/// OT or CY: what stands before the count, and the list.
fn listed(mark: &str, front: &[i64], list: &[i64]) -> Tape {
    record(mark, &[front, &[list.len() as i64], list].concat())
}

fn begun() -> Tape {
    [record("TK", &[96, 0]), record("MX", &[80000, 1])].concat()
}

/// A tape that begins well and goes on with these records.
fn with(records: &[Tape]) -> Tape {
    [begun(), records.concat()].concat()
}

/// A rising curve that writes one event a step.
fn rise(count: i64) -> Tape {
    with(&[record("FQ", &[1, 0]), listed("OT", &[7], &[0, 4_000_000, count])])
}

/// Document 01's own tape.
pub fn document() -> Tape {
    with(&[listed("OT", &[7], &[0, 100, 12]), listed("CY", &[11, 24], &[10, 20, 30]), record("RC", &[30])])
}

/// Every record once.
fn each_record() -> Tape {
    let curve = listed("OT", &[129], &[-8192, 8191, 6, 0, 0, 3]);
    let cycle = listed("CY", &[10, 5], &[1, 2, 3]);
    with(&[record("TP", &[48]), record("FQ", &[2, 3]), curve, cycle, record("RC", &[70]), record("PF", &[50])])
}

fn prefixes(tape: &Tape) -> impl Iterator<Item = Tape> + '_ {
    (0..=tape.len()).map(|end| tape[..end].to_vec())
}

/// Filled to exactly so many bytes: with records of ten and of six bytes every even length of more than 20 can be met, and a last byte alone is a fault.
fn filled(bytes: usize) -> Tape {
    let mut tape = begun();
    while tape.len() + 6 <= bytes {
        tape.extend(record("TP", &[tape.len() as i64]));
    }
    let rest = bytes - tape.len();
    if rest == 4 {
        tape.truncate(tape.len() - 6);
        tape.extend(record("FQ", &[4, 0]));
    } else {
        tape.extend(vec![b'T'; rest]);
    }
    tape
}

/// So many numbers that differ from their neighbours, each fit for a value and for a length.
fn some(count: usize) -> Vec<i64> {
    (0..count as i64).map(|at| at * 7 % 20).collect()
}

/// Numbers in a list at its limits: at the former one and at today's, from both sides.
const COUNTS: [usize; 4] = [FORMER_LIMIT, FORMER_LIMIT + 1, LIST_LIMIT, LIST_LIMIT + 1];

/// Lists at their limits: all numbers there, which a cycle writes one by one; the last value past its range, and a curve's last length; the last number missing; all missing.
pub fn lists() -> Vec<Tape> {
    let mut tapes = vec![];
    for count in COUNTS {
        let until = count as i64 - 1;
        let (value, length) = ((count - 2, (1 << 22) + 1), (count / 3 * 3 - 1, (1 << 20) + 1));
        for (mark, front, play, faults) in
            [("OT", &[7][..], record("TP", &[until]), &[value, length][..]), ("CY", &[7, 1], record("RC", &[until]), &[value])]
        {
            let list = listed(mark, front, &some(count));
            tapes.push(with(&[list.clone(), play]));
            for &(at, past) in faults {
                let mut numbers = some(count);
                numbers[at] = past;
                tapes.push(with(&[listed(mark, front, &numbers)]));
            }
            tapes.extend([4, 4 * count].map(|missing| with(&[list[..list.len() - missing].to_vec()])));
        }
    }
    tapes
}

/// Every limit of "The tape program" from both sides, and of the numbers that its records hand in.
fn limits() -> Vec<Tape> {
    let mut tapes: Vec<Tape> = vec![document(), vec![], vec![0; 64], vec![0; BYTES], vec![0; BYTES + 1], vec![0xff; 200]];
    tapes.extend(prefixes(&document()));
    tapes.extend(prefixes(&each_record()));
    tapes.extend([BYTES - 4, BYTES - 2, BYTES - 1, BYTES, BYTES + 1, BYTES + 2, 2 * BYTES].map(filled));
    for count in 511..=513 {
        tapes.push(rise(count));
        tapes.push(with(&[listed("CY", &[7, 1], &[5]), record("RC", &[count - 1])]));
        tapes.push(with(&vec![listed("OT", &[7], &[5, 5, 1]); count as usize]));
    }
    // The list full, and taken up again by a cut or by a curve that clears its window.
    tapes.push([rise(512), listed("OT", &[7], &[1, 2, 3]), record("PF", &[300]), listed("OT", &[11], &[3, 2, 1])].concat());
    let (most, former) = (LIST_LIMIT as i64, FORMER_LIMIT as i64);
    let around = [former - 1, former, former + 1, former + 2, most - 1, most, most + 1];
    for mark in ["OT", "CY"] {
        let front: &[i64] = if mark == "OT" { &[] } else { &[6] };
        for target in [-1, 0, 127, 128, 129, 130, i64::from(i32::MIN), i64::from(i32::MAX)] {
            for count in [-1, 0, 1].into_iter().chain(around).chain([i64::from(i32::MIN), i64::from(i32::MAX)]) {
                for there in [0, count - 1, count, count + 1] {
                    let numbers = vec![3; there.clamp(0, most + 2) as usize];
                    let head = record(mark, &[&[target], front, &[count]].concat());
                    tapes.push(with(&[head, record("", &numbers), record("RC", &[3])]));
                }
            }
        }
    }
    for limit in [1 << 20, 1 << 22] {
        for value in [-limit - 1, -limit, limit, limit + 1] {
            tapes.extend([[0, 0, value], [value, 0, 1], [0, value, 1]].map(|list| with(&[listed("OT", &[7], &list)])));
            tapes.extend([with(&[listed("CY", &[7, value], &[1])]), with(&[listed("CY", &[7, 1], &[value])])]);
            tapes.extend([with(&[record("FQ", &[value, 4])]), with(&[record("FQ", &[4, value])]), with(&[record("FQ", &[value, value])])]);
        }
    }
    for timebase in [-1, 0, 1, 31, 32, 33, 32767, 32768] {
        for channel in [-1, 0, 15, 16, i64::from(i32::MIN), i64::from(i32::MAX)] {
            let bend = listed("OT", &[128], &[0, 127, 9]);
            tapes.push([record("TK", &[timebase, channel]), record("MX", &[100, -1]), bend].concat());
        }
    }
    for maximum in [-1, 0, 7, 8, 15, 16, 39, 40, 41, 67_108_863, 67_108_864, 67_108_865, i64::from(i32::MIN), i64::from(i32::MAX)] {
        for seed in [0, 1, -1, i64::from(i32::MIN)] {
            let track = record("TK", &[96, 0]);
            tapes.push([track, record("MX", &[maximum, seed]), document()[20..].to_vec(), record("RC", &[200])].concat());
        }
    }
    // Sixteen targets kept, a seventeenth, a kept one again, one that only removes; both bends are one target.
    let kept: Vec<Tape> = (0..16).map(|target| listed("CY", &[target, 9], &[target])).collect();
    for last in [16, 15, 128, 129] {
        tapes.push(with(&[kept.concat(), listed("CY", &[last, 5], &[1]), record("RC", &[20])]));
        tapes.push(with(&[kept.concat(), listed("CY", &[last, 0], &[1]), listed("CY", &[last, 5], &[]), record("RC", &[20])]));
    }
    tapes.push(with(&[kept[..15].concat(), listed("CY", &[128, 5], &[1]), listed("CY", &[129, 7], &[2]), record("RC", &[20])]));
    // Sixteen full lists kept: 32 writes of each fill the list of events, and with 33 there is no room. With four full curves and some short records the tape is full too.
    let full: Tape = (0..16).flat_map(|target| listed("CY", &[target, 1], &some(LIST_LIMIT))).collect();
    tapes.extend([31, 32].map(|until| with(&[full.clone(), record("RC", &[15]), record("RC", &[until])])));
    let curves = [vec![listed("OT", &[7], &some(LIST_LIMIT)); 4], vec![record("FQ", &[2, 2]); 2]].concat().concat();
    tapes.extend([120, 121].map(|more| with(&[full.clone(), curves.clone(), vec![record("TP", &[9]); more].concat()])));
    // TK and MX missing, late, repeated, exchanged.
    let (track, budget) = (record("TK", &[96, 0]), record("MX", &[800, 7]));
    let curve = listed("OT", &[7], &[0, 9, 9]);
    for row in [
        vec![&track],
        vec![&budget],
        vec![&track, &track],
        vec![&budget, &track],
        vec![&track, &curve],
        vec![&curve, &track, &budget],
        vec![&track, &budget, &track],
        vec![&track, &budget, &budget],
        vec![&track, &curve, &budget],
        vec![&track, &budget, &curve, &track],
        vec![&track, &budget, &curve, &budget, &curve],
    ] {
        tapes.push(row.into_iter().flatten().copied().collect());
    }
    // A record out of its turn is a fault before its target and count are asked.
    tapes.push(record("OT", &[500, 500]));
    tapes.push([track.clone(), record("CY", &[500, 1, 500])].concat());
    // Times at the ends of their words, and cuts that push events past their range.
    let (low, high) = (i64::from(i32::MIN), i64::from(i32::MAX));
    for time in [low, low + 1, high - 1, high] {
        tapes.push(with(&[record("TP", &[time]), curve.clone(), listed("CY", &[1, 1 << 20], &[1]), record("RC", &[high]), record("PF", &[time])]));
        tapes.push(with(&[record("TP", &[time]), curve.clone(), listed("CY", &[1, 3], &[1]), record("RC", &[time]), record("PF", &[low])]));
    }
    for cuts in [2047, 2048, 2049, 2050, 2100] {
        tapes.push(with(&[record("TP", &[0]), curve.clone(), vec![record("PF", &[low]); cuts].concat()]));
    }
    tapes.extend(lists());
    tapes
}

fn word(number: i64) -> i64 {
    number.clamp(i64::from(i32::MIN), i64::from(i32::MAX))
}

/// A good record to follow TK and MX.
fn good_record(dice: &mut Dice) -> Tape {
    match dice.pick(0, 15) {
        0..=2 => record("TP", &[word(dice.good(Arg::Time))]),
        3 => record("FQ", &[dice.good(Arg::Short), dice.good(Arg::Short)]),
        4..=8 => {
            let target = dice.target();
            let list = dice.list(Arg::Curve, true);
            listed("OT", &[target], &list)
        }
        9..=11 => {
            let front = [dice.target(), dice.pick(-1, 40)];
            let list = dice.list(Arg::Values, true);
            listed("CY", &front, &list)
        }
        12..=14 => record("RC", &[word(dice.near())]),
        _ => record("PF", &[word(dice.good(Arg::Time))]),
    }
}

fn good_records(dice: &mut Dice) -> Vec<Tape> {
    let track = record("TK", &[dice.good(Arg::Timebase), dice.pick(-3, 20)]);
    let maximum = match dice.pick(0, 5) {
        0 => dice.pick(0, 200),
        1 => dice.of(&[0, 7, 8, 4096, 67_108_864]),
        _ => dice.pick(1000, 100_000),
    };
    let seed = dice.of(&[0, 1, -1, 12345, i64::from(i32::MIN)]);
    let most = if dice.one_in(20) { 60 } else { 12 };
    let count = dice.pick(0, most);
    let mut records = vec![track, record("MX", &[maximum, seed])];
    records.extend((0..count).map(|_| good_record(dice)));
    records
}

/// Spoils one record.
fn spoil(dice: &mut Dice, records: &mut Vec<Tape>) {
    let at = dice.pick(0, records.len() as i64 - 1) as usize;
    match dice.pick(0, 7) {
        0 => records[at][..2].copy_from_slice(dice.of(&[b"tk", b"OX", b"\0\0", b"TM", b"\xff\xff", b"YC", b"PR"])),
        1 => {
            let bytes = dice.pick(1, records[at].len() as i64) as usize;
            records[at].truncate(bytes);
        }
        2 => {
            records.remove(at);
        }
        3 => records.insert(at, records[at.min(1)].clone()),
        4 => records.swap(0, at),
        _ => {
            // One of the numbers before a list, past some range.
            let widest = width(&records[at][..2]).unwrap() as i64;
            let place = 2 + 4 * dice.pick(0, widest - 1) as usize;
            let [former, new, most, over] = COUNTS.map(|count| count as i32);
            let past = [-1, 130, former, new, most, over, 32768, (1 << 20) + 1, (1 << 22) + 1, 67_108_865, i32::MAX, i32::MIN];
            records[at][place..place + 4].copy_from_slice(&dice.of(&past).to_le_bytes());
        }
    }
}

/// Ends the tape inside the longest of its lists: one number missing, all of them, or some bytes. Without a list it stays as it is.
fn shorten(dice: &mut Dice, records: &mut Vec<Tape>) {
    let lists = (0..records.len()).filter(|&at| matches!(&records[at][..2], b"OT" | b"CY"));
    let Some(at) = lists.max_by_key(|&at| records[at].len()) else {
        return;
    };
    records.truncate(at + 1);
    let head = 2 + 4 * width(&records[at][..2]).unwrap();
    let there = dice.pick(head as i64, records[at].len() as i64) as usize;
    let there = dice.of(&[there, head, (records[at].len() - 4).max(head)]);
    records[at].truncate(there);
}

/// `count` tapes, or the limits if they are more.
pub fn tapes(seed: u64, count: usize) -> Vec<Tape> {
    let mut dice = Dice::new(seed);
    let mut tapes = limits();
    let least = tapes.len();
    while tapes.len() < count {
        let mut records = good_records(&mut dice);
        match dice.pick(0, 19) {
            0 if records.concat().len() < 128 && dice.one_in(12) => tapes.extend(prefixes(&records.concat())),
            0..=6 => {
                spoil(&mut dice, &mut records);
                tapes.push(records.concat());
            }
            7 => {
                let flips = dice.pick(1, 3);
                let mut tape = records.concat();
                for _ in 0..flips {
                    let at = dice.pick(0, tape.len() as i64 - 1) as usize;
                    tape[at] = dice.pick(0, 255) as u8;
                }
                tapes.push(tape);
            }
            8 => {
                shorten(&mut dice, &mut records);
                tapes.push(records.concat());
            }
            _ => tapes.push(records.concat()),
        }
    }
    tapes.truncate(count.max(least));
    tapes
}

pub fn write(tapes: &[Tape], output: &mut impl Write) -> Result<()> {
    for tape in tapes {
        output.write_all(&(tape.len() as u32).to_le_bytes())?;
        output.write_all(tape)?;
    }
    Ok(())
}

/// Where a stream ends inside a tape or inside a length: the line that is printed of it, after what its whole tapes print.
fn ending(inside: &str, there: usize, long: usize) -> String {
    format!("the stream ends inside a {inside}: {there} bytes of {long}\n")
}

/// A stream's whole tapes, and the line of its end, which is empty where it ends between two tapes.
pub fn read(input: &mut impl Read) -> Result<(Vec<Tape>, String)> {
    let mut bytes = vec![];
    input.read_to_end(&mut bytes)?;
    let (mut rest, mut tapes) = (&bytes[..], vec![]);
    while !rest.is_empty() {
        let Some((length, behind)) = rest.split_at_checked(4) else {
            return Ok((tapes, ending("length", rest.len(), 4)));
        };
        let length = u32::from_le_bytes(length.try_into().unwrap()) as usize;
        let Some((tape, next)) = behind.split_at_checked(length) else {
            return Ok((tapes, ending("tape", behind.len(), length)));
        };
        tapes.push(tape.to_vec());
        rest = next;
    }
    Ok((tapes, String::new()))
}

/// Runs a program once for each tape, which it is handed on standard input, two at a time, and answers what each printed.
pub fn each(program: &[&str], tapes: &[Tape]) -> Vec<Vec<u8>> {
    let half = tapes.len().div_ceil(2).max(1);
    let run = |tape: &Tape| {
        let mut child =
            Command::new(program[0]).args(&program[1..]).stdin(Stdio::piped()).stdout(Stdio::piped()).spawn().expect("the program starts");
        // A program that does not read all of a tape closes it: what it printed counts.
        let _ = child.stdin.take().unwrap().write_all(tape);
        child.wait_with_output().expect("the program ends").stdout
    };
    std::thread::scope(|scope| {
        let halves: Vec<_> = tapes.chunks(half).map(|part| scope.spawn(move || part.iter().map(run).collect::<Vec<_>>())).collect();
        halves.into_iter().flat_map(|part| part.join().unwrap()).collect()
    })
}
