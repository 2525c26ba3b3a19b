// Some calls of the linked port beside the original's, timed in one process. Both sides make the call once first, and what it writes is compared. A figure is the median of
// batches that take turns; docs/PERFORMANCE.md says what was seen. The original has no track chunk of such a list: an ordinary writer with no tests stands in its place, and of one that is read an ordinary reader, which tests what it reads. Nor has it the rehearsal player's profile: an ordinary check and an ordinary fitting in place, with the same tests of the list, stand there.

use crate::desk::{byte, records_of, Record, STORE};
use crate::dice::Dice;
use crate::dollavir;
use crate::fuzz::without_running;
use crate::original::*;
use crate::other::{records, Other, WIDTH};
use crate::profile;
use crate::smf;
use std::time::Instant;

const BATCHES: usize = 101;
const CALLS: usize = 200;
const BYTES: usize = 67_108_864;

/// A track of the original's, with the budget that its calls are lent.
struct Theirs {
    track: Track,
    seed: u32,
}

impl Theirs {
    /// One call on an empty list, the whole budget free.
    fn write(&mut self, call: impl FnOnce(&mut Track, &mut WriteCtx)) {
        self.track.events.clear();
        let mut ctx = WriteCtx { timebase: 96, rand_seed: &mut self.seed, max_event_bytes: BYTES, event_bytes: 0, event_limit_exceeded: false };
        call(&mut self.track, &mut ctx);
    }
}

/// A call on either side. Those that write begin with an empty list and the whole budget free.
fn line(name: &str, mut theirs: Theirs, mut ours: Other, their: impl Fn(&mut Theirs), our: impl Fn(&mut Other) -> u32) {
    timed(
        name,
        CALLS,
        &mut theirs,
        &mut ours,
        their,
        |it| {
            it.count = 0;
            it.budget = dollavir::Budget { seed: 1, maximum: BYTES as u32, used: 0, over: 0 };
            assert!(our(it) == 0, "{name}: refused");
        },
        |theirs, ours| records_of(&theirs.track.events) == records(&ours.events, ours.count),
    );
}

/// Times so many calls a batch and prints the row; `same` holds what the two sides left against each other after each batch.
fn timed<T, O>(name: &str, calls: usize, theirs: &mut T, ours: &mut O, their: impl Fn(&mut T), our: impl Fn(&mut O), same: impl Fn(&T, &O) -> bool) {
    timed_from(name, calls, theirs, ours, |_, _| (), their, our, same);
}

/// The same, both sides made `ready` before each batch, which is not timed.
#[allow(clippy::too_many_arguments)]
fn timed_from<T, O>(
    name: &str,
    calls: usize,
    theirs: &mut T,
    ours: &mut O,
    ready: impl Fn(&mut T, &mut O),
    their: impl Fn(&mut T),
    our: impl Fn(&mut O),
    same: impl Fn(&T, &O) -> bool,
) {
    let mut times = [vec![], vec![]];
    for batch in 0..=BATCHES {
        ready(theirs, ours);
        let start = Instant::now();
        for _ in 0..calls {
            their(theirs);
        }
        let middle = Instant::now();
        for _ in 0..calls {
            our(ours);
        }
        let end = Instant::now();
        assert!(same(theirs, ours), "{name}: the two sides do not leave the same");
        // The first batch warms both sides up.
        if batch > 0 {
            times[0].push(middle - start);
            times[1].push(end - middle);
        }
    }
    let [theirs, ours] = times.map(|mut times| {
        times.sort();
        times[BATCHES / 2].as_secs_f64() * 1e6 / calls as f64
    });
    println!("| {name} | {theirs:.3} | {ours:.3} | {:.1} |", ours / theirs);
}

fn both() -> (Theirs, Other) {
    let (mut theirs, mut ours) = (Theirs { track: Track::new(96, 0), seed: 1 }, Other::new(96, 0, 512));
    theirs.track.cc_on_time_freq = 4;
    (theirs.track.pb_on_time_freq, ours.track.ccfreq, ours.track.pbfreq) = (4, 4, 4);
    (theirs, ours)
}

const VALUES: [i32; 4] = [10, 20, 30, 40];
const LIST: [isize; 4] = [10, 20, 30, 40];

pub fn print() {
    println!("| call | the Rust, us | linked, us | ratio |");
    println!("|---|---|---|---|");
    setter();
    reservation();
    note();
    curve(96);
    curve(1920);
    cycle(5);
    cycle(500);
    for events in [100, 1_000, 10_000] {
        chunk(events);
    }
    for events in [1_000, 100_000] {
        read("each with its status", &smf::chunk(&voice(events)).expect("a list that is written"), events);
        read("running status", &without_running(&notes(events)), events);
    }
    profiles();
}

/// The rows of the rehearsal player's profile.
pub fn profiles() {
    for events in [1_000, 100_000] {
        for (what, at_once) in [("few at a time", 3), ("many at a time", 50)] {
            check(&format!("check_profile, {events} events, {what}"), &fitting(events, at_once, false));
        }
        for (order, shuffled) in [("sorted", false), ("shuffled", true)] {
            for (what, at_once) in [("few twins", 3), ("many twins", 50)] {
                fit(&format!("fit_profile, {events} events, {order}, {what}"), &player(events, at_once, shuffled));
            }
        }
    }
}

fn setter() {
    let (theirs, ours) = both();
    line(
        "set_v_sub",
        theirs,
        ours,
        |it| it.track.set_v_sub(2, std::hint::black_box(7)),
        |it| unsafe { dollavir::dollavir_set_v_sub(&mut it.track, 2, 7) },
    );
}

fn reservation() {
    let (theirs, ours) = both();
    line(
        "set_on_cycle, four values",
        theirs,
        ours,
        |it| it.track.set_on_cycle(WriteTarget::CC(1), 48, LIST.to_vec()),
        |it| unsafe { dollavir::dollavir_set_on_cycle(&mut it.track, it.cycles.as_mut_ptr(), 16, 1, 48, VALUES.as_ptr(), 4) },
    );
}

/// Four lists that go round.
fn note() {
    let (mut theirs, mut ours) = both();
    for target in 0..4 {
        theirs.track.set_repeat(WriteTarget::CC(target), true);
        theirs.track.set_on_note(WriteTarget::CC(target), LIST.to_vec());
        unsafe {
            dollavir::dollavir_set_repeat(&mut ours.track, target as i32, 1);
            dollavir::dollavir_set_on_note(&mut ours.track, ours.cycles.as_mut_ptr(), 16, target as i32, VALUES.as_ptr(), 4);
        }
    }
    line(
        "write_cc_on_note, four lists",
        theirs,
        ours,
        |it| it.write(|track, ctx| track.write_cc_on_note(0, ctx)),
        |it| unsafe {
            let long = it.room * 8;
            dollavir::dollavir_write_cc_on_note(&mut it.track, 0, &mut it.budget, it.events.as_mut_ptr(), long, &mut it.count)
        },
    );
}

/// A value every four steps.
fn curve(length: i32) {
    let (theirs, ours) = both();
    let list = [0, 4000, length];
    line(
        &format!("write_on_time, {} writes", length / 4),
        theirs,
        ours,
        |it| it.write(|track, ctx| track.write_on_time(WriteTarget::PitchBend(1), list.map(|x| x as isize).to_vec(), ctx)),
        |it| unsafe {
            let (long, store) = (it.room * 8, it.store.as_ptr());
            dollavir::dollavir_write_on_time(
                &it.track,
                129,
                list.as_ptr(),
                3,
                &mut it.budget,
                it.events.as_mut_ptr(),
                long,
                &mut it.count,
                store,
                it.store.len(),
            )
        },
    );
}

fn cycle(writes: i64) {
    let (mut theirs, mut ours) = both();
    theirs.track.set_on_cycle(WriteTarget::CC(1), 4, LIST.to_vec());
    unsafe { dollavir::dollavir_set_on_cycle(&mut ours.track, ours.cycles.as_mut_ptr(), 16, 1, 4, VALUES.as_ptr(), 4) };
    line(
        &format!("write_cc_on_cycle, {writes} writes"),
        theirs,
        ours,
        |it| {
            it.write(|track, ctx| {
                let until = track.cc_on_cycle[0].next_time + 4 * (writes as isize - 1);
                track.write_cc_on_cycle(until, ctx);
            })
        },
        |it| unsafe {
            let (long, until) = (it.room * 8, it.cycles[0].next + 4 * (writes - 1));
            dollavir::dollavir_write_cc_on_cycle(
                &it.track,
                it.cycles.as_mut_ptr(),
                16,
                until,
                &mut it.budget,
                it.events.as_mut_ptr(),
                long,
                &mut it.count,
            )
        },
    );
}

/// A list such as a voice has: notes and their ends, a controller or a bend between them, now and then a program; many at one time, the others some steps apart.
fn voice(events: usize) -> Vec<Record> {
    let (mut dice, mut time) = (Dice::new(1), 0);
    (0..events)
        .map(|_| {
            time += dice.of(&[0, 0, 0, 6, 12, 24, 48, 192]);
            let (kind, channel) = (dice.of(&[0, 0, 0, 0, 0, 0, 0, 1, 1, 1, 1, 1, 1, 1, 2, 2, 2, 2, 3, 5]), dice.pick(0, 3));
            let (note, value) = (dice.pick(36, 96), dice.pick(1, 127));
            match kind {
                0 => [0, time, channel, note, 48, value, 0, 0],
                1 => [1, time, channel, note, 0, 0, 0, 0],
                2 => [2, time, channel, dice.of(&[1, 7, 10, 11, 64]), value, 0, 0, 0],
                3 => [3, time, channel, dice.pick(0, 16_383), 0, 0, 0, 0],
                _ => [5, time, channel, value, 0, 0, 0, 0],
            }
        })
        .collect()
}

/// A track chunk as it is usually written: nothing is tested, and the buffer has room for all of it.
fn plain_chunk(events: &[Record], out: &mut Vec<u8>) {
    out.clear();
    out.reserve(12 + 7 * events.len());
    out.extend_from_slice(b"MTrk\0\0\0\0");
    let mut before = 0;
    for &[kind, time, channel, v1, v2, v3, ..] in events {
        let gap = (time - before) as u32;
        before = time;
        for shift in [21, 14, 7] {
            if gap >> shift != 0 {
                out.push((gap >> shift) as u8 | 0x80);
            }
        }
        out.push(gap as u8 & 0x7f);
        let channel = channel as u8;
        match kind {
            0 => out.extend_from_slice(&[0x90 | channel, v1 as u8, v3 as u8]),
            1 => out.extend_from_slice(&[0x80 | channel, v1 as u8, 0]),
            2 => out.extend_from_slice(&[0xb0 | channel, v1 as u8, v2 as u8]),
            3 => out.extend_from_slice(&[0xe0 | channel, v1 as u8 & 0x7f, (v1 >> 7) as u8]),
            _ => out.extend_from_slice(&[0xc0 | channel, v1 as u8]),
        }
    }
    out.extend_from_slice(&[0, 0xff, 0x2f, 0]);
    let body = (out.len() - 8) as u32;
    out[4..8].copy_from_slice(&body.to_be_bytes());
}

/// A chunk of a list that is lent with a buffer for its longest: both sides write into what stands there already.
fn chunk(events: usize) {
    let (list, store) = (voice(events), Other::first().store);
    let (numbers, longest) = (list.concat(), 12 + 7 * events);
    timed(
        &format!("write_chunk, {events} events"),
        if events > 1_000 { CALLS / 10 } else { CALLS },
        &mut vec![],
        &mut (vec![0; longest], 0),
        |out| plain_chunk(std::hint::black_box(&list), out),
        |(out, written)| {
            let (long, room) = (numbers.len(), out.len());
            let code = unsafe {
                dollavir::dollavir_write_chunk(numbers.as_ptr(), long, events, store.as_ptr(), store.len(), out.as_mut_ptr(), room, written)
            };
            assert!(code == 0, "write_chunk: refused");
        },
        |plain, (out, written)| plain[..] == out[..*written],
    );
}

/// Notes of one channel, each ended by one of velocity 0, so that one status runs through.
fn notes(events: usize) -> Vec<Record> {
    let (mut dice, mut time, mut note) = (Dice::new(2), 0, 60);
    (0..events)
        .map(|at| {
            time += dice.of(&[0, 6, 12, 24, 48, 192]);
            if at % 2 == 0 {
                note = dice.pick(36, 96);
            }
            [0, time, 0, note, 0, if at % 2 == 0 { dice.pick(1, 127) } else { 0 }, 0, 0]
        })
        .collect()
}

/// A quantity as it is usually read.
fn plain_quantity(bytes: &[u8], at: &mut usize) -> Result<u32, &'static str> {
    let mut value = 0;
    for _ in 0..4 {
        let byte = *bytes.get(*at).ok_or("cut short")?;
        *at += 1;
        value = value << 7 | u32::from(byte & 0x7f);
        if byte & 0x80 == 0 {
            return Ok(value);
        }
    }
    Err("a quantity of more than four bytes")
}

/// A track chunk as it is usually read: once through, into a list that grows.
fn plain_read(chunk: &[u8], events: &mut Vec<Record>) -> Result<(), &'static str> {
    events.clear();
    if chunk.len() < 8 || &chunk[..4] != b"MTrk" {
        return Err("no track chunk");
    }
    let body = &chunk[8..];
    if u32::from_be_bytes([chunk[4], chunk[5], chunk[6], chunk[7]]) as usize != body.len() {
        return Err("a wrong length");
    }
    let (mut at, mut time, mut status) = (0, 0, 0);
    loop {
        time += i64::from(plain_quantity(body, &mut at)?);
        let byte = *body.get(at).ok_or("cut short")?;
        if byte >= 0x80 {
            status = byte;
            at += 1;
        }
        match status {
            0x80..=0xef => {
                let long = if matches!(status & 0xf0, 0xc0 | 0xd0) { 1 } else { 2 };
                let data = body.get(at..at + long).ok_or("cut short")?;
                at += long;
                if data.iter().any(|&byte| byte >= 0x80) {
                    return Err("a status among data");
                }
                let (channel, a, b) = (i64::from(status & 0x0f), i64::from(data[0]), data.get(1).map_or(0, |&byte| i64::from(byte)));
                match status & 0xf0 {
                    0x90 if b > 0 => events.push([0, time, channel, a, 0, b, 0, 0]),
                    0x80 | 0x90 => events.push([1, time, channel, a, 0, 0, 0, 0]),
                    0xb0 => events.push([2, time, channel, a, b, 0, 0, 0]),
                    0xc0 => events.push([5, time, channel, a, 0, 0, 0, 0]),
                    0xe0 => events.push([3, time, channel, a | b << 7, 0, 0, 0, 0]),
                    _ => (),
                }
            }
            0xff => {
                let kind = *body.get(at).ok_or("cut short")?;
                at += 1;
                let length = plain_quantity(body, &mut at)? as usize;
                if kind == 0x2f {
                    return if length == 0 && at == body.len() { Ok(()) } else { Err("a wrong end of track") };
                }
                body.get(at..at + length).ok_or("cut short")?;
                (at, status) = (at + length, 0);
            }
            0xf0 | 0xf7 => {
                let length = plain_quantity(body, &mut at)? as usize;
                body.get(at..at + length).ok_or("cut short")?;
                (at, status) = (at + length, 0);
            }
            _ => return Err("no status"),
        }
    }
}

/// A chunk of so many events, read into a list that has room for them and holds those of the call before.
fn read(what: &str, chunk: &[u8], events: usize) {
    timed(
        &format!("read_chunk, {events} events, {what}"),
        if events > 1_000 { 2 } else { CALLS },
        &mut vec![],
        &mut (vec![0; WIDTH * events], 0),
        |list| plain_read(std::hint::black_box(chunk), list).expect("a chunk that is read"),
        |(list, count)| {
            let code = unsafe { dollavir::dollavir_read_chunk(chunk.as_ptr(), chunk.len(), list.as_mut_ptr(), list.len(), count) };
            assert!(code == 0, "read_chunk: refused");
        },
        |plain, (list, count)| *plain == records(list, *count),
    );
}

/// What a rehearsal player is sent before it is fitted: notes, their ends, its controllers and bends on one channel, so many at one time. The more at a time, the more of a controller's events have a later one.
fn player(events: usize, at_once: i64, shuffled: bool) -> Vec<Record> {
    let mut dice = Dice::new(3);
    let mut list: Vec<Record> = (0..events as i64)
        .map(|at| {
            let (time, note, value) = (at / at_once * 6, dice.pick(36, 96), dice.pick(1, 127));
            match dice.pick(0, 9) {
                0..=2 => [0, time, 0, note, 48, value, 0, 0],
                3..=5 => [1, time, 0, note, 0, 0, 0, 0],
                6 => [3, time, 0, dice.pick(0, 16_500), 0, 0, 0, 0],
                _ => [2, time, 0, dice.of(&[1, 7, 7, 10, 11, 64, 91]), value, 0, 0, 0],
            }
        })
        .collect();
    for at in (1..events).rev().filter(|_| shuffled) {
        list.swap(at, dice.pick(0, at as i64) as usize);
    }
    list
}

/// What is left of such a list, and as many more notes as were dropped.
fn fitting(events: usize, at_once: i64, shuffled: bool) -> Vec<Record> {
    let mut list = profile::fit(&player(events, at_once, shuffled)).expect("a list of one channel");
    let dropped = events - list.len();
    let last = list[list.len() - 1][1];
    list.extend((0..dropped as i64).map(|at| [0, last + at / at_once * 6, 0, 60, 48, 100, 0, 0]));
    list
}

/// What an ordinary program asks of an event before it goes on with it.
fn plain_sound(event: &[i64], store: usize) -> bool {
    let word = |x: i64| x == i64::from(x as i32);
    let [kind, time, channel, v1, v2, v3, offset, length] = *event else { return false };
    let data = match kind {
        6..=8 => offset >= 0 && length >= 0 && offset <= store as i64 && length <= store as i64 - offset,
        _ => offset == 0 && length == 0,
    };
    (0..=8).contains(&kind)
        && time.unsigned_abs() <= 1 << 42
        && (0..=15).contains(&channel)
        && word(v1)
        && word(v2)
        && word(v3)
        && (kind != 2 || (0..=127).contains(&v1))
        && data
}

fn plain_heeded(number: i64) -> bool {
    matches!(number, 1 | 7 | 10 | 11 | 64)
}

/// The check as it is usually written: once through, with a bit for each controller met at the present time.
fn plain_check(numbers: &[i64], count: usize, store: usize) -> Result<bool, u32> {
    if numbers.len() % WIDTH != 0 || count > numbers.len() / WIDTH {
        return Err(1);
    }
    let (mut yes, mut channel, mut now, mut met) = (true, None, 0, 0_u128);
    for event in numbers.chunks_exact(WIDTH).take(count) {
        if !plain_sound(event, store) {
            return Err(4);
        }
        let (kind, time, v1) = (event[0], event[1], event[3]);
        yes &= time >= now;
        if time != now {
            (now, met) = (time, 0);
        }
        yes &= kind > 5 || *channel.get_or_insert(event[2]) == event[2];
        match kind {
            2 => {
                let bit = 1 << v1;
                yes &= plain_heeded(v1) && met & bit == 0;
                met |= bit;
            }
            3 => yes &= (0..=16_383).contains(&v1),
            _ => (),
        }
    }
    Ok(yes)
}

/// The fitting as it is usually written: one look, a stable sort where times fall, and for each time the last place of each controller.
fn plain_fit(numbers: &mut [i64], count: usize, store: usize) -> Result<usize, u32> {
    if numbers.len() % WIDTH != 0 || count > numbers.len() / WIDTH {
        return Err(1);
    }
    let list = &mut numbers.as_chunks_mut::<WIDTH>().0[..count];
    let (mut channel, mut single, mut timely, mut rising, mut before) = (None, true, true, true, i64::MIN);
    for event in list.iter() {
        if !plain_sound(event, store) {
            return Err(4);
        }
        single &= event[0] > 5 || *channel.get_or_insert(event[2]) == event[2];
        timely &= event[1] >= 0;
        rising &= event[1] >= before;
        before = event[1];
    }
    if !single {
        return Err(17);
    }
    if !timely {
        return Err(18);
    }
    if !rising {
        list.sort_by_key(|event| event[1]);
    }
    let (mut left, mut start, mut last) = (0, 0, [0; 128]);
    while start < count {
        let mut end = start;
        while end < count && list[end][1] == list[start][1] {
            if list[end][0] == 2 {
                last[list[end][3] as usize] = end;
            }
            end += 1;
        }
        for at in start..end {
            let (kind, v1) = (list[at][0], list[at][3]);
            let kept = match kind {
                2 => plain_heeded(v1) && last[v1 as usize] == at,
                3 => (0..=16_383).contains(&v1),
                _ => true,
            };
            if kept {
                list[left] = list[at];
                left += 1;
            }
        }
        start = end;
    }
    list[left..].fill([0; WIDTH]);
    Ok(left)
}

/// A list that passes.
fn check(name: &str, list: &[Record]) {
    let (numbers, store): (Vec<i64>, [u8; STORE]) = (list.concat(), std::array::from_fn(byte));
    timed(
        name,
        if list.len() > 1_000 { 2 } else { CALLS },
        &mut false,
        &mut 0,
        |yes| *yes = plain_check(std::hint::black_box(&numbers), list.len(), store.len()).expect("a sound list"),
        |yes| {
            let code = unsafe { dollavir::dollavir_check_profile(numbers.as_ptr(), numbers.len(), list.len(), store.as_ptr(), store.len(), yes) };
            assert!(code == 0, "{name}: refused");
        },
        |plain, yes| *plain && *yes == 1,
    );
}

/// A list that each call finds as it was: as many copies as a batch has calls are made before it.
fn fit(name: &str, list: &[Record]) {
    let (numbers, store): (Vec<i64>, [u8; STORE]) = (list.concat(), std::array::from_fn(byte));
    let calls = if list.len() > 1_000 { 2 } else { CALLS / 10 };
    let copies = || (vec![(numbers.clone(), list.len()); calls], 0);
    timed_from(
        name,
        calls,
        &mut copies(),
        &mut copies(),
        |theirs, ours| {
            for side in [theirs, ours] {
                side.1 = 0;
                for (copy, count) in &mut side.0 {
                    copy.copy_from_slice(&numbers);
                    *count = list.len();
                }
            }
        },
        |(copies, next)| {
            let (copy, count) = &mut copies[*next];
            *count = plain_fit(std::hint::black_box(copy), *count, store.len()).expect("a list that is fitted");
            *next += 1;
        },
        |(copies, next)| {
            let (copy, count) = &mut copies[*next];
            let code = unsafe { dollavir::dollavir_fit_profile(copy.as_mut_ptr(), copy.len(), count, store.as_ptr(), store.len()) };
            assert!(code == 0, "{name}: refused");
            *next += 1;
        },
        |theirs, ours| theirs == ours,
    );
}
