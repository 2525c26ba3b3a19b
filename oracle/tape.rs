// A tape, played on the original: document 01, "The tape program". Each record becomes the call of a script that it names (calls.rs), so that the refusals are those
// of rules.rs; what belongs to the tape alone stands here: marks, numbers of four bytes, their order, and what is printed.

use crate::calls;
use crate::desk::{Budget, Desk};
use crate::rules;
use crate::script::Step;
use crate::sine::Quarter;
use crate::table;

pub const BYTES: usize = 16_384;
const ROOM: i64 = 512;
const FAULT: i64 = 8;
/// How many cycle records are lent.
const PLACES: i64 = rules::PLACES as i64;

/// The numbers behind a mark, before a list. `None`: there is no such mark.
pub fn width(mark: &[u8]) -> Option<usize> {
    match mark {
        b"TK" | b"MX" | b"FQ" | b"OT" => Some(2),
        b"TP" | b"RC" | b"PF" => Some(1),
        b"CY" => Some(3),
        _ => None,
    }
}

fn numbers(bytes: &[u8]) -> Vec<i64> {
    bytes.chunks_exact(4).map(|word| i64::from(i32::from_le_bytes(word.try_into().unwrap()))).collect()
}

/// A record, and the bytes behind it.
struct Record<'a> {
    mark: &'a [u8],
    /// With a list, its count stands before it.
    args: Vec<i64>,
    rest: &'a [u8],
}

/// The record that a tape goes on with, where `begun` of TK and MX were read, or the number that refuses it.
fn read(tape: &[u8], begun: usize) -> Result<Record<'_>, i64> {
    let (mark, behind) = tape.split_at_checked(2).ok_or(FAULT)?;
    let (head, rest) = behind.split_at_checked(4 * width(mark).ok_or(FAULT)?).ok_or(FAULT)?;
    let order = [&b"TK"[..], b"MX"].iter().position(|&first| first == mark).unwrap_or(2);
    if order != begun {
        return Err(FAULT);
    }
    let mut args = numbers(head);
    if !matches!(mark, b"OT" | b"CY") {
        return Ok(Record { mark, args, rest });
    }
    if !(0..=129).contains(&args[0]) {
        return Err(2);
    }
    let count = usize::try_from(args[args.len() - 1]).ok().filter(|&count| count <= rules::LIST_LIMIT).ok_or(3)?;
    let (list, rest) = rest.split_at_checked(4 * count).ok_or(FAULT)?;
    args.extend(numbers(list));
    Ok(Record { mark, args, rest })
}

fn call(desk: &mut Desk, quarter: &Quarter, op: i64, args: &[i64]) -> i64 {
    calls::make(desk, quarter, &Step { op, args: args.to_vec() }).code
}

/// Both frequencies are asked before either is set.
fn frequencies(desk: &mut Desk, quarter: &Quarter, args: &[i64]) -> i64 {
    let steps = [804, 805].iter().zip(args).map(|(&op, &arg)| Step { op, args: vec![arg] });
    let refusal = steps.map(|step| rules::refusal(desk, table::find(step.op).unwrap(), &step)).find(|&code| code != 0);
    refusal.unwrap_or_else(|| call(desk, quarter, 804, &args[..1]) + call(desk, quarter, 805, &args[1..]))
}

/// Carries out a record; answers the number of document 01's table.
fn carry_out(desk: &mut Desk, quarter: &Quarter, record: &Record) -> i64 {
    let args = &record.args;
    match record.mark {
        b"TK" => call(desk, quarter, 801, args),
        b"MX" => {
            let budget = Budget { seed: i64::from(args[1] as u32), maximum: args[0], used: 0, flag: 0 };
            desk.budget = budget;
            if rules::budget_ok(&budget) {
                0
            } else {
                4
            }
        }
        b"TP" => call(desk, quarter, 802, args),
        b"FQ" => frequencies(desk, quarter, args),
        b"OT" => call(desk, quarter, 607, args),
        b"CY" => call(desk, quarter, 706, &[&args[..2], &[PLACES], &args[2..]].concat()),
        b"RC" => call(desk, quarter, 709, &[args[0], PLACES]),
        _ => call(desk, quarter, 309, args),
    }
}

fn printed(desk: &Desk) -> String {
    let budget = &desk.budget;
    let first = format!("events {} bytes {} over {} seed {}\n", desk.list.len(), budget.used, budget.flag, budget.seed);
    let lines = desk.list.iter().map(|[kind, time, channel, v1, v2, v3, ..]| format!("{time} {kind} {channel} {v1} {v2} {v3}\n"));
    std::iter::once(first).chain(lines).collect()
}

/// What the tape program prints.
pub fn play(tape: &[u8], quarter: &Quarter) -> String {
    if tape.len() > BYTES {
        return format!("refused {FAULT} at 0\n");
    }
    let mut desk = Desk::new(96, 0, ROOM);
    let (mut rest, mut at) = (tape, 0);
    while !rest.is_empty() || at < 2 {
        let code = match read(rest, at.min(2)) {
            Err(code) => code,
            Ok(record) => {
                rest = record.rest;
                carry_out(&mut desk, quarter, &record)
            }
        };
        if code != 0 {
            return format!("refused {code} at {at}\n");
        }
        at += 1;
    }
    printed(&desk)
}
