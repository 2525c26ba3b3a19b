// What is printed after a call: the sections of docs/COMPARING.md, each a row of numbers, as they stand or as a digest. Numbers that the Rust leaves behind where nothing
// uses them are shown as 0. The layers' lists and the positions in them are private in the Rust: they are read from its Debug text, for the family that shows them.

use crate::calls::{type_number, Reply, MODES};
use crate::desk::*;
use crate::original::*;
use crate::script::Step;
use std::fmt::Write;

pub fn line(desk: &Desk, step: &Step, reply: &Reply) -> String {
    let mut text = format!("{} {}", step.op, reply.code);
    for answer in &reply.answers {
        write!(text, " {answer}").unwrap();
    }
    for letter in sections(step).chars() {
        let numbers = section(desk, step, reply, letter);
        if desk.full {
            write!(text, "\n{letter}").unwrap();
            for number in numbers {
                write!(text, " {number}").unwrap();
            }
        } else {
            write!(text, " {letter} {}", digest(&numbers)).unwrap();
        }
    }
    text
}

/// The numbers of one section after the call.
pub fn section(desk: &Desk, step: &Step, reply: &Reply, letter: char) -> Vec<i64> {
    match letter {
        'E' => list(&desk.list),
        'R' => list(&reply.result),
        'K' => output(&reply.bytes),
        'B' => vec![desk.budget.seed, desk.budget.maximum, desk.budget.used, desk.budget.flag],
        'T' => track(desk),
        'O' => options(desk),
        'P' if step.op / 100 == 4 => param(desk.params()[step.args[0] as usize]),
        'P' => desk.params().into_iter().flat_map(param).collect(),
        'L' => layers(&desk.track),
        'N' => notes(&desk.track),
        'W' => waves(&desk.track),
        'S' => sines(&desk.track),
        _ => cycles(&desk.track),
    }
}

/// The letters of the sections that a call shows.
pub fn sections(step: &Step) -> &'static str {
    match step.op {
        306 => "ER",
        311 => "EK",
        418 => "",
        915 => "EBTOPLNWSC",
        op => match op / 100 {
            2 => "B",
            3 => "E",
            4 => "P",
            5 => "TPL",
            6 => "EBO",
            7 => "EBTONWSC",
            8 => "T",
            _ => "",
        },
    }
}

pub fn digest(numbers: &[i64]) -> u32 {
    numbers.iter().fold(2166136261, |h: u32, &x| {
        let u = (x as i128 + (1 << 62)) as u64;
        let h = (h ^ u as u32).wrapping_mul(16777619);
        (h ^ (u >> 32) as u32).wrapping_mul(16777619)
    })
}

pub fn list(records: &[Record]) -> Vec<i64> {
    let mut out = vec![records.len() as i64];
    for record in records {
        out.extend(&record[..6]);
        out.push(record[7]);
        if is_stretch(record[6], record[7]) {
            out.extend(stretch(record[6], record[7]).into_iter().map(i64::from));
        }
    }
    out
}

pub fn output(bytes: &[u8]) -> Vec<i64> {
    std::iter::once(bytes.len() as i64).chain(bytes.iter().map(|&byte| i64::from(byte))).collect()
}

fn track(desk: &Desk) -> Vec<i64> {
    let t = &desk.track;
    let shown = [t.timepos, t.channel, t.cc_on_time_freq, t.pb_on_time_freq, t.velocity, t.timing, t.octave, t.qlen];
    let step = isize::from(t.qlen_is_step);
    std::iter::once(desk.timebase).chain(numbers(&shown)).chain([step as i64]).collect()
}

/// ranged low high
fn range(range: Option<(isize, isize)>) -> [i64; 3] {
    range.map_or([0, 0, 0], |(low, high)| [1, low as i64, high as i64])
}

fn options(desk: &Desk) -> Vec<i64> {
    let mut out = vec![0];
    for &key in &desk.keys {
        let it = desk.option(key);
        if it.delay == 0 && it.random == 0 && it.range.is_none() && !it.repeat {
            continue;
        }
        out[0] += 1;
        out.extend([key, it.delay as i64, it.random as i64]);
        out.extend(range(it.range));
        out.push(i64::from(it.repeat));
    }
    out
}

fn put(out: &mut Vec<i64>, list: &[isize]) {
    out.push(list.len() as i64);
    out.extend(numbers(list));
}

fn param(param: &NoteParam) -> Vec<i64> {
    let mut out = vec![];
    if let Some(cycle) = &param.on_cycle {
        out.extend([2, cycle.start_time as i64, cycle.len as i64, 0, 0]);
        put(&mut out, &cycle.values);
    } else if let Some(values) = &param.on_time {
        out.extend([1, param.on_time_start as i64, 0, 0, 0]);
        put(&mut out, values);
    } else if let Some(values) = &param.on_note {
        out.extend([3, 0, 0, param.on_note_index as i64, i64::from(param.on_note_is_cycle)]);
        put(&mut out, values);
    } else {
        out.extend([0; 6]);
    }
    out.push(param.random as i64);
    out.extend(range(param.range));
    out.push(param.delay as i64);
    out.extend(if param.max == isize::MAX { [0, 0] } else { [1, param.max as i64] });
    out.push(i64::from(param.repeat));
    out
}

fn notes(track: &Track) -> Vec<i64> {
    let mut out = vec![track.cc_on_note.len() as i64];
    for it in &track.cc_on_note {
        out.extend([code_of(it.target), it.index as i64, i64::from(it.is_cycle)]);
        put(&mut out, &it.data);
    }
    out
}

fn waves(track: &Track) -> Vec<i64> {
    let mut out = vec![track.cc_on_note_wave.len() as i64];
    for it in &track.cc_on_note_wave {
        let mode = MODES.iter().position(|mode| *mode == it.mode).unwrap();
        out.extend([code_of(it.target), mode as i64]);
        put(&mut out, &it.data);
    }
    out
}

fn sines(track: &Track) -> Vec<i64> {
    let mut out = vec![track.cc_on_note_sine.len() as i64];
    for it in &track.cc_on_note_sine {
        out.extend([code_of(it.target), type_number(it.stype)]);
        out.extend(numbers(&[it.low, it.high, it.len, it.times]));
    }
    out
}

fn cycles(track: &Track) -> Vec<i64> {
    let mut out = vec![track.cc_on_cycle.len() as i64];
    for it in &track.cc_on_cycle {
        out.extend([code_of(it.target), it.len as i64, it.next_time as i64, it.index as i64]);
        put(&mut out, &it.data);
    }
    out
}

fn layers(track: &Track) -> Vec<i64> {
    let text = format!("{track:?}");
    let part = |from: &str, to: &str| text.split(from).nth(1).unwrap().split(to).next().unwrap().to_string();
    let [times, notes, cycles] = [
        entries(&part(", v_sub_on_time: [", "], v_sub_on_note: [")),
        entries(&part("], v_sub_on_note: [", "], v_sub_on_cycle: [")),
        entries(&part("], v_sub_on_cycle: [", "], qlen: ")),
    ];
    let mut out = vec![track.v_sub.len() as i64];
    for layer in 0..track.v_sub.len() {
        out.extend(numbers(&[track.v_sub[layer], track.v_sub_rand[layer]]));
        let (kind, entry) = if let Some(entry) = &cycles[layer] {
            (2, entry)
        } else if let Some(entry) = &times[layer] {
            (1, entry)
        } else if let Some(entry) = &notes[layer] {
            (3, entry)
        } else {
            out.extend([0; 6]);
            continue;
        };
        let cycling = i64::from(entry.contains("is_cycle: true"));
        out.extend([kind, field(entry, "start_time: "), field(entry, "len: "), field(entry, "index: "), cycling]);
        let values: Vec<isize> = list_field(entry);
        put(&mut out, &values);
    }
    out
}

/// The entries of a Debug list of options: the text of each that is there. Commas inside braces belong to an entry.
fn entries(text: &str) -> Vec<Option<String>> {
    let (mut out, mut depth, mut entry) = (vec![], 0, String::new());
    for c in text.chars().chain([',']) {
        match c {
            '(' | '{' | '[' => depth += 1,
            ')' | '}' | ']' => depth -= 1,
            ',' if depth == 0 => {
                out.push(Some(std::mem::take(&mut entry)).filter(|text| text.trim() != "None"));
                continue;
            }
            _ => (),
        }
        entry.push(c);
    }
    out
}

/// A number of an entry, 0 where it has none of that name.
fn field(entry: &str, name: &str) -> i64 {
    let after = entry.split(name).nth(1).unwrap_or("0");
    let end = after.find(|c: char| c != '-' && !c.is_ascii_digit()).unwrap_or(after.len());
    after[..end].parse().unwrap()
}

fn list_field(entry: &str) -> Vec<isize> {
    let inside = entry.split("values: [").nth(1).unwrap().split(']').next().unwrap();
    inside.split(", ").filter(|word| !word.is_empty()).map(|word| word.parse().unwrap()).collect()
}
