// A passage for the rehearsal player, through the linked library: the second bar is cut out of a song, its notes get their ends, it is fitted to what the player accepts, and written as a file of one track. The song has a
// controller that the player does not know, a volume that was drawn twice at one time, and one at the very time of the cut. Prints what two channels are refused with, whether the player accepts what the calls leave in this
// order and in two others, the passage in the tape program's form (time, kind, channel and three values), and the bytes of the file, sixteen a line.
#include <inttypes.h>
#include <stdio.h>
#include <stdlib.h>
#include <string.h>
#include "dollavir.h"

enum { NOTE_ON = 0, CONTROLLER = 2, BEND = 3, PROGRAM = 5, VOLUME = 7, PAN = 10, EXPRESSION = 11, PEDAL = 64, REVERB = 91 };
enum { WIDTH = 8, CHANNEL = 2, BAR = 384, HEADER = 14 };

// A record: kind, time, channel, three values, and no data.
static const int64_t song[][WIDTH] = {
    {PROGRAM, 0, 0, 52, 0, 0, 0, 0},
    {CONTROLLER, 0, 0, VOLUME, 80, 0, 0, 0},
    {CONTROLLER, 0, 0, PAN, 40, 0, 0, 0},
    {CONTROLLER, 0, 0, REVERB, 60, 0, 0, 0},
    {CONTROLLER, 192, 0, EXPRESSION, 110, 0, 0, 0},
    {CONTROLLER, 336, 0, PEDAL, 127, 0, 0, 0},
    {BEND, 360, 0, 8704, 0, 0, 0, 0},
    {CONTROLLER, BAR, 0, VOLUME, 96, 0, 0, 0},
    {BEND, 408, 0, 8192, 0, 0, 0, 0},
    {CONTROLLER, 480, 0, VOLUME, 100, 0, 0, 0},
    {CONTROLLER, 480, 0, VOLUME, 104, 0, 0, 0},
    {CONTROLLER, 576, 0, PEDAL, 0, 0, 0, 0},
    {NOTE_ON, 0, 0, 60, 384, 90, 0, 0},
    {NOTE_ON, BAR, 0, 62, 192, 90, 0, 0},
    {NOTE_ON, 576, 0, 64, 192, 80, 0, 0},
    {CONTROLLER, 480, 0, REVERB, 90, 0, 0, 0},
};
// A cut makes no list longer, and a note has one end.
enum { SONG = sizeof song / sizeof *song, ROOM = 2 * SONG, CHUNK = 12 + 7 * ROOM };
// Format 0, one track, 96 steps a quarter note.
static const uint8_t header[HEADER] = {'M', 'T', 'h', 'd', 0, 0, 0, 6, 0, 0, 0, 1, 0, 96};

static int64_t events[ROOM * WIDTH], before[ROOM * WIDTH];
static size_t count;
// No event here has data: nothing of the store is lent.
static const uint8_t store[1];
static uint8_t file[HEADER + CHUNK];

static void must(const char *call, uint32_t code) {
    if (code != 0) {
        fprintf(stderr, "%s: refused %" PRIu32 "\n", call, code);
        exit(1);
    }
}

static void begin(void) {
    memset(events, 0, sizeof events);
    memcpy(events, song, sizeof song);
    count = SONG;
}

static void cut(void) { must("full_cut", dollavir_full_cut(events, ROOM * WIDTH, &count, BAR, store, 0)); }
static void end_notes(void) { must("normalize", dollavir_normalize(events, ROOM * WIDTH, &count, store, 0)); }
static void fit(void) { must("fit_profile", dollavir_fit_profile(events, ROOM * WIDTH, &count, store, 0)); }

static void ask(const char *what) {
    uint32_t yes;
    must("check_profile", dollavir_check_profile(events, ROOM * WIDTH, count, store, 0, &yes));
    printf("%s: events %zu, %s\n", what, count, yes ? "accepted" : "not accepted");
}

int main(void) {
    // One event on a second channel, though it would be dropped: nothing is fitted.
    begin();
    events[(SONG - 1) * WIDTH + CHANNEL] = 1;
    memcpy(before, events, sizeof events);
    uint32_t code = dollavir_fit_profile(events, ROOM * WIDTH, &count, store, 0);
    printf("two channels refused %" PRIu32 " events %zu, list %s\n", code, count, memcmp(before, events, sizeof events) == 0 ? "as it was" : "changed");

    // Fitted before the cut: the volume that is folded and the one at the cut stand at one time.
    begin();
    fit();
    ask("fitted");
    cut();
    ask("fitted, cut");

    // Fitted before the notes have their ends: those stand behind their notes, out of time.
    begin();
    cut();
    fit();
    ask("cut, fitted");
    end_notes();
    ask("cut, fitted, normalized");

    // The right order.
    begin();
    ask("the song");
    cut();
    end_notes();
    fit();
    ask("cut, normalized, fitted");
    for (const int64_t *e = events; e < events + count * WIDTH; e += WIDTH) {
        printf("%" PRId64 " %" PRId64 " %" PRId64 " %" PRId64 " %" PRId64 " %" PRId64 "\n", e[1], e[0], e[2], e[3], e[4], e[5]);
    }

    memcpy(file, header, HEADER);
    size_t bytes;
    must("write_chunk", dollavir_write_chunk(events, ROOM * WIDTH, count, store, 0, file + HEADER, CHUNK, &bytes));
    bytes += HEADER;
    printf("file bytes %zu\n", bytes);
    for (size_t i = 0; i < bytes; i++) {
        printf("%02x%c", file[i], i % 16 == 15 || i + 1 == bytes ? '\n' : ' ');
    }
    return 0;
}
