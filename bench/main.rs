// The original and the port on the same lists and tracks, in one process. A line for each case: the medians of repeated runs, and ours by theirs. What both sides leave in the first
// run is compared. docs/PERFORMANCE.md says how the lists are made and what the figures were. All of it runs in a thread whose stack is the least that a product gives.
// With `curves SEED COUNT` or `sines SEED COUNT` nothing is timed: values are compared.

#[path = "../oracle/cut.rs"]
#[allow(dead_code)]
mod cut;
#[path = "../target/bench/original.rs"]
mod original;
mod port;
#[path = "../oracle/quarter.rs"]
mod quarter;
mod sines;
mod stack;
#[path = "../oracle/stand_ins.rs"]
mod stand_ins;
mod tracks;

use original::*;
use port::*;

/// Steps between two events of a list in order.
const STEP: isize = 10;
/// A list of more events is a long one.
const LONG: usize = 10_000;
const STORE: [u8; 16] = [0xf0; 16];

struct Dice(u64);

impl Dice {
    fn below(&mut self, n: usize) -> usize {
        self.0 ^= self.0 << 13;
        self.0 ^= self.0 >> 7;
        self.0 ^= self.0 << 17;
        (self.0 >> 16) as usize % n
    }
}

#[derive(Clone, Copy)]
enum Order {
    Rising,
    Nearly,
    Random,
}

/// Notes, controllers, bends, programs and now and then one with data, at the times of the order.
fn list(count: usize, order: Order) -> Vec<Event> {
    let mut dice = Dice(88172645463325252);
    let mut times: Vec<isize> = (0..count as isize).map(|at| at * STEP).collect();
    match order {
        Order::Rising => (),
        Order::Nearly => {
            for _ in 0..=count / 100 {
                let at = dice.below(count);
                times.swap(at, (at + dice.below(20)).min(count - 1));
            }
        }
        Order::Random => times.iter_mut().for_each(|time| *time = dice.below(count * STEP as usize) as isize),
    }
    let mut events = vec![];
    for time in times {
        let (channel, a, b) = (dice.below(16) as isize, dice.below(128) as isize, dice.below(128) as isize);
        events.push(match dice.below(20) {
            0..=6 => Event::note(time, channel, a, b, 100),
            7..=12 => Event::cc(time, channel, a, b),
            13..=17 => Event::pitch_bend(time, channel, a * 64),
            18 => Event::voice(time, channel, a),
            _ => Event::sysex_raw(time, STORE[..dice.below(16)].to_vec()),
        });
    }
    events
}

const KINDS: [EventType; 9] = [
    EventType::NoteOn,
    EventType::NoteOff,
    EventType::ControllChange,
    EventType::PitchBend,
    EventType::PitchBendRange,
    EventType::Voice,
    EventType::Meta,
    EventType::SysEx,
    EventType::DirectSMF,
];

fn kind(event: &Event) -> i64 {
    KINDS.iter().position(|kind| *kind == event.etype).unwrap() as i64
}

/// The same list as numbers, with room for so many times as many events.
fn numbers(events: &[Event], times: usize) -> Vec<i64> {
    let mut out = vec![];
    for e in events {
        let length = e.data.as_ref().map_or(0, Vec::len);
        out.extend([kind(e), e.time as i64, e.channel as i64, e.v1 as i64, e.v2 as i64, e.v3 as i64, 0, length as i64]);
    }
    out.resize(events.len() * 8 * times, 0);
    out
}

fn track(events: &[Event]) -> original::Track {
    let mut track = original::Track::new(96, 0);
    track.events = events.to_vec();
    track
}

fn same(events: &[Event], list: &[i64], count: usize) -> bool {
    let records = list.chunks_exact(8).take(count);
    events.len() == count
        && events.iter().zip(records).all(|(e, r)| [kind(e), e.time as i64, e.channel as i64, e.v1 as i64, e.v2 as i64, e.v3 as i64] == r[..6])
}

extern "C" {
    fn clock_gettime(clock: i32, time: *mut [i64; 2]) -> i32;
}

const MONOTONIC: i32 = 1;
const OF_THIS_THREAD: i32 = 3;

/// Microseconds. A long run is given the time that its own thread was run, since other work would come between; that clock is too slow to ask for a short one.
fn clock(long: bool) -> f64 {
    let mut time = [0; 2];
    assert_eq!(unsafe { clock_gettime(if long { OF_THIS_THREAD } else { MONOTONIC }, &mut time) }, 0);
    time[0] as f64 * 1e6 + time[1] as f64 / 1e3
}

fn median(mut times: Vec<f64>) -> f64 {
    times.sort_by(f64::total_cmp);
    times[times.len() / 2]
}

/// One case: a fresh copy of the list for each run, which is not timed; the two sides take turns. The port's list has room for `times` as many events as it holds.
fn case(name: &str, events: &[Event], times: usize, theirs: impl Fn(&mut original::Track), ours: impl Fn(&mut [i64], usize) -> usize) {
    beside(name, events, times, theirs, ours, |track, list, count| same(&track.events, list, count));
}

/// The same where the port's list is not the original's: `right` says of the first run whether it is what it should be.
fn beside(
    name: &str,
    events: &[Event],
    times: usize,
    theirs: impl Fn(&mut original::Track),
    ours: impl Fn(&mut [i64], usize) -> usize,
    right: impl Fn(&original::Track, &[i64], usize) -> bool,
) {
    let written = numbers(events, times);
    let long = events.len() > LONG;
    let runs = if long { 31 } else { 1001 };
    let (mut original, mut port) = (vec![], vec![]);
    for run in 0..runs {
        let mut track = track(events);
        let begun = clock(long);
        theirs(&mut track);
        original.push(clock(long) - begun);

        let mut list = written.clone();
        let begun = clock(long);
        let count = ours(&mut list, events.len());
        port.push(clock(long) - begun);
        assert!(run > 0 || right(&track, &list, count), "{name}: the lists differ");
    }
    let (original, port) = (median(original), median(port));
    println!("| {name} | {} | {original:.1} | {port:.1} | {:.2} |", events.len(), port / original);
}

/// Within plus or minus 2^bits: of any size, or at an end.
fn reach(dice: &mut Dice, bits: u32) -> isize {
    let limit = 1 << bits;
    let size = 1 << dice.below(bits as usize + 1);
    let far = dice.below(2 * size as usize + 1) as isize - size;
    [far, far, far, far, limit, -limit, limit - 1, 1 - limit][dice.below(8)]
}

/// 0 to `most`: of any size, or at an end.
fn up_to(dice: &mut Dice, most: isize) -> isize {
    let size = 1 + (most as usize >> dice.below(21));
    let some = dice.below(size) as isize;
    let any = dice.below(most as usize + 1) as isize;
    [some, any, any, most - some, most, most / 2, 0, most / 3][dice.below(8)]
}

/// Values of the port beside those of the original's own curves, as a note parameter reads them; answers whether all are equal.
fn curves(seed: u64, count: u64) -> bool {
    let mut dice = Dice(seed.wrapping_mul(0x9e37_79b9_7f4a_7c15) | 1);
    let mut param = original::NoteParam::new();
    let (mut equal, mut first) = (0, None);
    for _ in 0..count {
        let (low, high) = (reach(&mut dice, 22), reach(&mut dice, 22));
        let len = up_to(&mut dice, (1 << 20) - 1) + 1;
        let j = up_to(&mut dice, len - 1);
        param.set_on_time(0, vec![low, high, len]);
        let theirs = param.calc_on_time(j, isize::MAX) as i64;
        let ours = unsafe { bench_curve_value(low as i32, high as i32, j as u64, len as u64) };
        if theirs == ours {
            equal += 1;
        } else if first.is_none() {
            first = Some((low, high, len, j, theirs, ours));
        }
    }
    println!("curve values, seed {seed}: {equal} of {count} equal");
    if let Some((low, high, len, j, theirs, ours)) = first {
        println!("the first that differs: ({low}, {high}, {len}) at {j}: {theirs} in the original, {ours} in the port");
    }
    equal == count
}

fn main() {
    let words: Vec<String> = std::env::args().skip(1).collect();
    let words: Vec<&str> = words.iter().map(String::as_str).collect();
    let well = match words[..] {
        [] => stack::within(|| {
            speeds();
            tracks::speeds();
            tracks::depths();
            true
        }),
        ["curves", seed, count] => curves(seed.parse().unwrap(), count.parse().unwrap()),
        ["sines", seed, count] => sines::compare(seed.parse().unwrap(), count.parse().unwrap()),
        _ => panic!("no such mode: {words:?}"),
    };
    std::process::exit(i32::from(!well));
}

fn speeds() {
    let (store, bytes) = (STORE.as_ptr(), STORE.len());
    println!("| call | events | the Rust, us | ours, us | ratio |\n|---|---|---|---|---|");
    for count in [1_000, 100_000] {
        let rising = list(count, Order::Rising);
        let end = count as isize * STEP;
        // A tenth of the list's time, in its middle.
        let (from, to) = (end * 9 / 20, end * 11 / 20);
        case(
            "remove_pitch_bend_in_range, a tenth",
            &rising,
            1,
            |track| track.remove_pitch_bend_in_range(from, to),
            |list, n| unsafe { bench_remove_pitch_bend_in_range(list.as_mut_ptr(), list.len(), n, from as i64, to as i64, store, bytes) },
        );
        for (order, events) in [("", &rising), (", of a list in no order", &list(count, Order::Random))] {
            case(
                &format!("play_from, the middle{order}"),
                events,
                1,
                |track| track.play_from(end / 2),
                |list, n| unsafe { bench_play_from(list.as_mut_ptr(), list.len(), n, end as i64 / 2, store, bytes) },
            );
            // The original has no full cut: its plain one of the same list stands beside it.
            beside(
                &format!("full_cut, the middle{order}, beside the Rust's play_from"),
                events,
                1,
                |track| track.play_from(end / 2),
                |list, n| unsafe { bench_full_cut(list.as_mut_ptr(), list.len(), n, end as i64 / 2, store, bytes) },
                |_, list, n| same(&cut::full_cut(events, end / 2), list, n),
            );
        }
        case(
            "normalize",
            &rising,
            2,
            |track| track.normalize(),
            |list, n| unsafe { bench_normalize(list.as_mut_ptr(), list.len(), n, store, bytes) },
        );
        for (name, order) in
            [("events_sort, random", Order::Random), ("events_sort, nearly in order", Order::Nearly), ("events_sort, in order", Order::Rising)]
        {
            case(
                name,
                &list(count, order),
                1,
                |track| track.events_sort(),
                |list, n| unsafe { bench_events_sort(list.as_mut_ptr(), list.len(), n, store, bytes) },
            );
        }
    }
}
