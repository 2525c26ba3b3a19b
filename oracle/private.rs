// What the original keeps to itself, reached through its public calls, so that it is still the original that answers.

use crate::original::*;

fn no_bytes(seed: &mut u32) -> WriteCtx<'_> {
    WriteCtx { timebase: 96, rand_seed: seed, max_event_bytes: 0, event_bytes: 0, event_limit_exceeded: false }
}

/// `push_value_event`: an on-note list of one value, written at `time`. Answers whether it was written.
pub fn push(track: &mut Track, target: WriteTarget, time: isize, value: isize, ctx: &mut WriteCtx) -> bool {
    let one = OnNoteValues { target, data: vec![value], index: 0, is_cycle: false };
    let kept = std::mem::replace(&mut track.cc_on_note, vec![one]);
    let before = track.events.len();
    track.write_cc_on_note(time, ctx);
    track.cc_on_note = kept;
    track.events.len() > before
}

/// `remove_events_in_range` of `total` steps from the track's time and the option's delay: a curve over no bytes, which clears its window and writes nothing.
pub fn clear_window(track: &mut Track, target: WriteTarget, total: isize) {
    track.write_on_time(target, vec![0, 0, total], &mut no_bytes(&mut 1));
}

/// `calc_rand_value`: the value of a wide bend with that option, shifted by steps of 30,000 until the clamp leaves it alone. Answers the value and the new seed.
pub fn random(seed: u32, value: isize, n: isize) -> (isize, u32) {
    let target = WriteTarget::PitchBend(1);
    let (mut low, mut high) = (-200isize, 200);
    loop {
        let middle = (low + high).div_euclid(2);
        let shift = middle * 30000;
        let mut next = seed;
        let mut track = Track::new(96, 0);
        track.update_write_opt(target, |option| option.random = n);
        let mut ctx = WriteCtx { max_event_bytes: 8, ..no_bytes(&mut next) };
        push(&mut track, target, 0, value - shift, &mut ctx);
        match track.events[0].v1 {
            0 => high = middle,
            32639 => low = middle + 1,
            shown => return (shown - 8192 + shift, next),
        }
    }
}

/// `safe_iteration_limit`, by document 01: it shows in the original only through how far a curve goes.
pub fn step_budget(maximum: usize, used: usize) -> usize {
    maximum.saturating_sub(used) / 8 + 1
}
