// From a track to a file, through the linked library: a swell of volume under two notes with a bend is written as a chunk, and the chunk with a header before it is a Standard MIDI File. One track, format 0: the chunk
// is the whole song. Writes the file to the path of its first argument, where there is one, and prints what a buffer that is a byte too short is refused with, then the file's bytes, sixteen a line.
#include <inttypes.h>
#include <stdio.h>
#include <stdlib.h>
#include <string.h>
#include "dollavir.h"

enum { VOLUME = 7, ROOM = 64, WIDTH = 8, HEADER = 14, PAINT = 0xa5 };
// A chunk's marks and its end take twelve bytes, an event at most four of time and three of message.
enum { CHUNK = 12 + 7 * ROOM };

// Some tens of thousands of bytes, so not on a stack.
static dollavir_track track;
static int64_t events[ROOM * WIDTH];
static size_t count;
// No event here has data: nothing of the store is lent.
static const uint8_t store[1];
static uint8_t file[HEADER + CHUNK];
static uint8_t painted[CHUNK];

static void must(const char *call, uint32_t code) {
    if (code != 0) {
        fprintf(stderr, "%s: refused %" PRIu32 "\n", call, code);
        exit(1);
    }
}

// Puts an event behind the list. Eight numbers make a record, in the order of the event's fields.
static void add(const char *call, dollavir_made made) {
    must(call, made.code);
    if (count == ROOM) {
        fprintf(stderr, "%s: no room\n", call);
        exit(1);
    }
    memcpy(events + count++ * WIDTH, &made.event, sizeof made.event);
}

// Format 0, one track, and how many steps a quarter note has: each two bytes, the high one first.
static void header(uint8_t *to, int32_t timebase) {
    const uint8_t bytes[HEADER] = {'M', 'T', 'h', 'd', 0, 0, 0, 6, 0, 0, 0, 1, (uint8_t)(timebase >> 8), (uint8_t)timebase};
    memcpy(to, bytes, HEADER);
}

static void save(const char *path, size_t bytes) {
    FILE *to = fopen(path, "wb");
    if (to == NULL || fwrite(file, 1, bytes, to) != bytes || fclose(to) != 0) {
        perror(path);
        exit(1);
    }
}

int main(int arguments, char **argument) {
    dollavir_track_answer made = dollavir_track_new(96, 0);
    must("track_new", made.code);
    track = made.track;
    dollavir_budget_answer lent = dollavir_budget_new(1, 80000);
    must("budget_new", lent.code);
    dollavir_budget budget = lent.budget;

    // From 40 up to 100 in two beats and down again in two more, a value every 48 steps.
    const int32_t swell[] = {40, 100, 192, 100, 40, 193};
    must("set_cc_on_time_freq", dollavir_set_cc_on_time_freq(&track, 48));
    must("write_cc_on_time", dollavir_write_cc_on_time(&track, VOLUME, swell, 6, &budget, events, ROOM * WIDTH, &count, store, 0));

    // A choir sings two beats and then four. Its bend is back when the second note begins: of events at one time the first in the list is played first.
    add("event_voice", dollavir_event_voice(0, 0, 52));
    add("event_pitch_bend", dollavir_event_pitch_bend(168, 0, 9000));
    add("event_pitch_bend", dollavir_event_pitch_bend(192, 0, 8192));
    add("event_note", dollavir_event_note(0, 0, 60, 192, 100));
    add("event_note", dollavir_event_note(192, 0, 64, 384, 90));

    // A note's end is made behind the note, so the list is sorted after that, and written last.
    must("normalize", dollavir_normalize(events, ROOM * WIDTH, &count, store, 0));
    must("events_sort", dollavir_events_sort(events, ROOM * WIDTH, count, store, 0));
    size_t bytes;
    must("write_chunk", dollavir_write_chunk(events, ROOM * WIDTH, count, store, 0, file + HEADER, CHUNK, &bytes));
    header(file, track.timebase);

    // A byte less than the chunk takes is refused, and not one is written.
    memset(painted, PAINT, sizeof painted);
    size_t none, changed = 0;
    uint32_t code = dollavir_write_chunk(events, ROOM * WIDTH, count, store, 0, painted, bytes - 1, &none);
    for (size_t i = 0; i < sizeof painted; i++) {
        changed += painted[i] != PAINT;
    }
    printf("a byte less refused %" PRIu32 " bytes %zu changed %zu\n", code, none, changed);

    bytes += HEADER;
    if (arguments > 1) {
        save(argument[1], bytes);
    }
    printf("events %zu bytes %zu\n", count, bytes);
    for (size_t i = 0; i < bytes; i++) {
        printf("%02x%c", file[i], i % 16 == 15 || i + 1 == bytes ? '\n' : ' ');
    }
    return 0;
}
