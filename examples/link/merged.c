// Two voices of a choir in one list, the second appended behind the first, and the last two of four beats cut out of it before it is sorted, through the linked library. Prints the
// passage's events in the tape program's form: time, kind, channel and three values.
#include <inttypes.h>
#include <stdio.h>
#include <stdlib.h>
#include <string.h>
#include "dollavir.h"

enum { NOTE_ON = 0, CONTROLLER = 2, BEND = 3, PROGRAM = 5, VOLUME = 7, ROOM = 32, WIDTH = 8 };

static int64_t events[ROOM * WIDTH];
// No event here has data: nothing of the store is lent.
static const uint8_t store[1];

static void must(const char *call, uint32_t code) {
    if (code != 0) {
        printf("%s: refused %" PRIu32 "\n", call, code);
        exit(1);
    }
}

// A record: kind, time, channel, three values, and no data.
static const int64_t first[][WIDTH] = {
    {PROGRAM, 0, 0, 52, 0, 0, 0, 0},      {CONTROLLER, 0, 0, VOLUME, 90, 0, 0, 0}, {CONTROLLER, 144, 0, VOLUME, 100, 0, 0, 0},
    {BEND, 168, 0, 9000, 0, 0, 0, 0},     {BEND, 200, 0, 8192, 0, 0, 0, 0},        {NOTE_ON, 192, 0, 60, 96, 100, 0, 0},
};
static const int64_t second[][WIDTH] = {
    {CONTROLLER, 48, 0, VOLUME, 80, 0, 0, 0},
    {BEND, 96, 0, 7000, 0, 0, 0, 0},
    {NOTE_ON, 192, 0, 64, 96, 100, 0, 0},
};

int main(void) {
    memcpy(events, first, sizeof first);
    memcpy(events + sizeof first / sizeof *events, second, sizeof second);
    size_t count = (sizeof first + sizeof second) / (WIDTH * sizeof *events);

    // The volume and the bend that stood at 192 are those of the first voice, though the second voice's stand behind them in the list.
    must("full_cut", dollavir_full_cut(events, ROOM * WIDTH, &count, 192, store, 0));
    must("normalize", dollavir_normalize(events, ROOM * WIDTH, &count, store, 0));
    must("events_sort", dollavir_events_sort(events, ROOM * WIDTH, count, store, 0));

    printf("events %zu\n", count);
    for (size_t i = 0; i < count; i++) {
        const int64_t *e = events + i * WIDTH;
        printf("%" PRId64 " %" PRId64 " %" PRId64 " %" PRId64 " %" PRId64 " %" PRId64 "\n", e[1], e[0], e[2], e[3], e[4], e[5]);
    }
    return 0;
}
