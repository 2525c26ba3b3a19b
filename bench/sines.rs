// Each step of many sines on the wide bend, with random 1, which adds nothing and drops nothing: the original's `write_sine` with its own f32, the port's with its table, and
// document 01's rule once more in whole numbers. The port has to say what the rule says, and the original at most 1 beside it.

use crate::original::{SineType, Track, WriteCtx, WriteTarget};
use crate::port::*;
use crate::quarter::Quarter;
use crate::Dice;

/// A length that every shape is tried with, below it and up to it.
const SHORT: i32 = 600;
const LIMIT: i32 = 16_383;
/// The wide bend writes a value above this, and what is not above 0 by its clamp.
const MIDDLE: i64 = 8192;

#[derive(Default)]
struct Seen {
    sines: u64,
    steps: u64,
    hidden: u64,
    apart: u64,
    most: i64,
    wrong: u64,
    first: Option<String>,
}

struct Sides {
    quarter: Quarter,
    track: crate::port::Track,
    list: Vec<i64>,
    seen: Seen,
}

impl Sides {
    fn new() -> Sides {
        let blank = unsafe { bench_set_frequencies(bench_new(96, 0).track, 1, 1) };
        let answer = unsafe { bench_set_random(blank.track, 129, 1) };
        assert_eq!(answer.code, 0);
        Sides { quarter: Quarter::new(), track: answer.track, list: vec![0; 8 << 20], seen: Seen::default() }
    }

    fn ours(&mut self, shape: u32, low: i32, high: i32, length: i32) -> usize {
        let sine = OnNoteSine { target: 129, shape, low, high, length, times: 1 };
        let budget = Budget { seed: 1, maximum: 1 << 26, used: 0, over: 0 };
        let done = unsafe { bench_write_sine(self.track, sine, budget, self.list.as_mut_ptr(), self.list.len(), 0, [].as_ptr(), 0) };
        assert_eq!(done.code, 0);
        done.count
    }

    fn compare(&mut self, shape: u32, low: i32, high: i32, length: i32) {
        let theirs = original(shape, low, high, length);
        let count = self.ours(shape, low, high, length);
        let seen = &mut self.seen;
        seen.sines += 1;
        seen.wrong += u64::from(count != theirs.events.len() || count != length as usize);
        for (step, (event, record)) in theirs.events.iter().zip(self.list.chunks_exact(8)).enumerate() {
            let rule = self.quarter.value(SineType::from_i(shape as isize), low as isize, high as isize, step as isize, length as isize) as i64;
            let (their, our) = (event.v1 as i64 - MIDDLE, record[3] - MIDDLE);
            seen.steps += 1;
            seen.hidden += u64::from(rule < -MIDDLE);
            let distance = (their - our).abs();
            let good = record[1] == step as i64 && event.time as i64 == step as i64 && our == rule.max(-MIDDLE) && distance <= 1;
            seen.wrong += u64::from(!good);
            seen.apart += u64::from(distance > 0);
            seen.most = seen.most.max(distance);
            if (distance > 0 || !good) && seen.first.is_none() {
                seen.first = Some(format!(
                    "shape {shape}, {low} to {high}, length {length}, step {step}: {their} in the original, {our} in the port, {rule} by the rule"
                ));
            }
        }
    }

    /// A pair of ends both ways, and both negated: what the clamp hides of one shows in another.
    fn each_way(&mut self, low: i32, high: i32, length: i32) {
        for shape in 0..3 {
            for (low, high) in [(low, high), (high, low), (-low, -high), (-high, -low)] {
                self.compare(shape, low, high, length);
            }
        }
    }
}

fn original(shape: u32, low: i32, high: i32, length: i32) -> Track {
    let mut track = Track::new(96, 0);
    track.pb_on_time_freq = 1;
    let target = WriteTarget::PitchBend(1);
    track.update_write_opt(target, |option| option.random = 1);
    let mut seed = 1;
    let mut ctx = WriteCtx { timebase: 96, rand_seed: &mut seed, max_event_bytes: 1 << 26, event_bytes: 0, event_limit_exceeded: false };
    track.write_sine(target, SineType::from_i(shape as isize), low as isize, high as isize, length as isize, 1, &mut ctx);
    track
}

/// All lengths up to 600 between set ends and random ones, and then so many random ends of random lengths up to 2^20; answers whether all is as it should be.
pub fn compare(seed: u64, count: u64) -> bool {
    let mut dice = Dice(seed.wrapping_mul(0x9e37_79b9_7f4a_7c15) | 1);
    let mut any = |most: i32| dice.below(2 * most as usize + 1) as i32 - most;
    let mut sides = Sides::new();
    for length in 1..=SHORT {
        for (low, high) in [(0, 127), (0, LIMIT), (-LIMIT, LIMIT), (any(LIMIT), any(LIMIT))] {
            sides.each_way(low, high, length);
        }
    }
    for turn in 0..count {
        // Of any size, and now and then the greatest.
        let length = if turn % 16 == 0 { 1 << 20 } else { 1 + any(1 << (1 + turn % 20)).abs().min((1 << 20) - 1) };
        sides.each_way(any(LIMIT), any(LIMIT), length);
    }
    let Seen { sines, steps, hidden, apart, most, wrong, first } = sides.seen;
    println!("sines, seed {seed}: {sines} sines, {steps} steps: largest distance {most}, {apart} not equal; {hidden} below the clamp; {wrong} wrong");
    if let Some(input) = first {
        println!("the first that differs: {input}");
    }
    wrong == 0
}
