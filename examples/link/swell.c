// A swell of expression over four beats, a modulation that goes round under it, and the last two beats cut out, through the linked library. Prints the number that a wrong target is
// refused with, then the events in the tape program's form: time, kind, channel and three values. swell.rs is the same in Rust.
#include <inttypes.h>
#include <stdio.h>
#include <stdlib.h>
#include "dollavir.h"

enum { PLACES = 16, ROOM = 64, WIDTH = 8, EXPRESSION = 11, MODULATION = 1 };

// Some tens of thousands of bytes, so not on a stack.
static dollavir_track track;
static dollavir_cycle cycles[PLACES];
static int64_t events[ROOM * WIDTH];
// No event here has data: nothing of the store is lent.
static const uint8_t store[1];

static void must(const char *call, uint32_t code) {
    if (code != 0) {
        printf("%s: refused %" PRIu32 "\n", call, code);
        exit(1);
    }
}

int main(void) {
    dollavir_track_answer made = dollavir_track_new(96, 0);
    must("track_new", made.code);
    track = made.track;
    for (int i = 0; i < PLACES; i++) {
        cycles[i] = dollavir_cycle_none();
    }
    dollavir_budget_answer lent = dollavir_budget_new(1, 80000);
    must("budget_new", lent.code);
    dollavir_budget budget = lent.budget;
    size_t count = 0;

    // From 40 up to 110 in two beats and down again in two more, a value every 48 steps.
    const int32_t swell[] = {40, 110, 192, 110, 40, 193};
    must("set_cc_on_time_freq", dollavir_set_cc_on_time_freq(&track, 48));
    must("write_on_time", dollavir_write_on_time(&track, EXPRESSION, swell, 6, &budget, events, ROOM * WIDTH, &count, store, 0));

    const int32_t round[] = {0, 40, 80, 40};
    uint32_t code = dollavir_set_on_cycle(&track, cycles, PLACES, 130, 96, round, 4);
    printf("target 130 refused %" PRIu32 "\n", code);
    must("set_on_cycle", dollavir_set_on_cycle(&track, cycles, PLACES, MODULATION, 96, round, 4));
    must("write_cc_on_cycle", dollavir_write_cc_on_cycle(&track, cycles, PLACES, 384, &budget, events, ROOM * WIDTH, &count));

    // What stood before the cut is put at its time, ahead of everything, so that the passage starts as loud as it was.
    must("full_cut", dollavir_full_cut(events, ROOM * WIDTH, &count, 192, store, 0));
    must("events_sort", dollavir_events_sort(events, ROOM * WIDTH, count, store, 0));

    printf("events %zu bytes %" PRIu32 " over %" PRIu32 " seed %" PRIu32 "\n", count, budget.used, budget.over, budget.seed);
    for (size_t i = 0; i < count; i++) {
        const int64_t *e = events + i * WIDTH;
        printf("%" PRId64 " %" PRId64 " %" PRId64 " %" PRId64 " %" PRId64 " %" PRId64 "\n", e[1], e[0], e[2], e[3], e[4], e[5]);
    }
    return 0;
}
