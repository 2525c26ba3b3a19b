// A swell of expression over four beats, a modulation that goes round under it, and the last two beats cut out, through the linked library. Prints the number that a wrong target is
// refused with, then the events in the tape program's form: time, kind, channel and three values. swell.c is the same in C.

#[allow(dead_code)]
#[path = "../../include/dollavir.rs"]
mod dollavir;

use dollavir::*;

const ROOM: usize = 64;
const WIDTH: usize = 8;
const EXPRESSION: i32 = 11;
const MODULATION: i32 = 1;

fn must(call: &str, code: u32) {
    assert!(code == 0, "{call}: refused {code}");
}

fn main() {
    // No event here has data: nothing of the store is lent.
    let store: &[u8] = &[];
    let mut events = [0; ROOM * WIDTH];
    let (list, long, bytes, mut count) = (events.as_mut_ptr(), events.len(), store.as_ptr(), 0);

    // Safe: every pointer is to something that lives to the end, is long as it says, and is lent once in a call.
    unsafe {
        let made = dollavir_track_new(96, 0);
        must("track_new", made.code);
        let mut track = made.track;
        let mut cycles = [dollavir_cycle_none(); 16];
        let lent = dollavir_budget_new(1, 80000);
        must("budget_new", lent.code);
        let mut budget = lent.budget;

        // From 40 up to 110 in two beats and down again in two more, a value every 48 steps.
        let swell = [40, 110, 192, 110, 40, 193];
        must("set_cc_on_time_freq", dollavir_set_cc_on_time_freq(&mut track, 48));
        must("write_on_time", dollavir_write_on_time(&track, EXPRESSION, swell.as_ptr(), swell.len(), &mut budget, list, long, &mut count, bytes, 0));

        let round = [0, 40, 80, 40];
        let code = dollavir_set_on_cycle(&mut track, cycles.as_mut_ptr(), cycles.len(), 130, 96, round.as_ptr(), round.len());
        println!("target 130 refused {code}");
        must("set_on_cycle", dollavir_set_on_cycle(&mut track, cycles.as_mut_ptr(), cycles.len(), MODULATION, 96, round.as_ptr(), round.len()));
        must("write_cc_on_cycle", dollavir_write_cc_on_cycle(&track, cycles.as_mut_ptr(), cycles.len(), 384, &mut budget, list, long, &mut count));

        // What stood before the cut is put at its time, ahead of everything, so that the passage starts as loud as it was.
        must("full_cut", dollavir_full_cut(list, long, &mut count, 192, bytes, 0));
        must("events_sort", dollavir_events_sort(list, long, count, bytes, 0));
        println!("events {count} bytes {} over {} seed {}", budget.used, budget.over, budget.seed);
    }
    for e in events.chunks_exact(WIDTH).take(count) {
        println!("{} {} {} {} {} {}", e[1], e[0], e[2], e[3], e[4], e[5]);
    }
}
