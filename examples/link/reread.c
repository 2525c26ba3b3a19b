// From a file to a track and back, through the linked library: a song of two tracks as another program writes it is gone through chunk by chunk, each track is read, the third and fourth beat are cut out of the second one, and
// written behind the song's own first track, which has the tempo. A read list has notes of length 0 and their ends as events of their own, and a cut drops ends: so each note is first given its length. Prints the lists in
// the tape program's form (time, kind, channel and three values), what a chunk with one byte changed is refused with, and the bytes of the new file, sixteen a line.
#include <inttypes.h>
#include <stdbool.h>
#include <stdio.h>
#include <stdlib.h>
#include <string.h>
#include "dollavir.h"

enum { NOTE_ON = 0, NOTE_OFF = 1, WIDTH = 8, CUT = 192, HEADER = 14, HEAD = 8 };
// The order of the numbers in the record of a note.
enum { KIND, TIME, CHANNEL, NOTE, LENGTH };

static const uint8_t song[] = {
    'M', 'T', 'h', 'd', 0, 0, 0, 6, 0, 1, 0, 2, 0, 96,                 // format 1, two tracks, 96 steps a quarter note
    'M', 'T', 'r', 'k', 0, 0, 0, 28,                                   // the track of the tempo
    0, 0xff, 0x03, 5, 'C', 'h', 'o', 'i', 'r',                         // its name
    0, 0xff, 0x51, 3, 0x09, 0x27, 0xc0,                                // 600,000 microseconds a quarter note
    0, 0xff, 0x58, 4, 4, 2, 24, 8,                                     // four quarters a bar
    0, 0xff, 0x2f, 0,                                                  // its end
    'l', 'o', 'o', 'k', 0, 0, 0, 2, 1, 2,                              // a chunk that is no track
    'M', 'T', 'r', 'k', 0, 0, 0, 71,                                   // the track of the notes
    0, 0xc0, 52,                                                       // at 0 program 52
    0, 0xb0, 7, 80, 0, 10, 40,                                         // volume 80; under the same status the place of the sound
    0, 0x90, 60, 100, 48, 64, 90,                                      // note 60, and at 48 note 64
    48, 0xf0, 5, 0x7e, 0x7f, 9, 1, 0xf7,                               // at 96 system exclusive
    0, 0xb0, 7, 100,                                                   // volume 100
    24, 0xd0, 64,                                                      // at 120 aftertouch of the channel
    24, 0xe0, 0, 80,                                                   // at 144 bend 10240
    48, 0x90, 60, 0, 0, 60, 95,                                        // at 192 note 60 with velocity 0, which ends it, and note 60 again
    0, 0xff, 0x05, 2, 'l', 'a',                                        // a syllable
    48, 0xa0, 60, 48,                                                  // at 240 aftertouch of note 60
    0, 0x80, 64, 64,                                                   // the end of note 64
    0, 0x90, 60, 80,                                                   // note 60 once more, while it sounds
    48, 60, 0, 96, 60, 0,                                              // at 288 and at 384 its two ends
    0, 0xff, 0x2f, 0,                                                  // the end
};
// A chunk of n bytes has at most (n - 12) / 2 events, and no chunk here is longer than the song.
enum { ROOM = (sizeof song - 12) / 2, CHUNK = 12 + 7 * ROOM };

static int64_t events[ROOM * WIDTH], before[ROOM * WIDTH];
static size_t count;
static bool ended[ROOM];
// No event here has data: nothing of the store is lent.
static const uint8_t store[1];
static uint8_t changed[sizeof song], file[sizeof song + CHUNK];

static void must(const char *call, uint32_t code) {
    if (code != 0) {
        fprintf(stderr, "%s: refused %" PRIu32 "\n", call, code);
        exit(1);
    }
}

static void list(const char *what) {
    printf("%s events %zu\n", what, count);
    for (const int64_t *e = events; e < events + count * WIDTH; e += WIDTH) {
        printf("%" PRId64 " %" PRId64 " %" PRId64 " %" PRId64 " %" PRId64 " %" PRId64 "\n", e[1], e[0], e[2], e[3], e[4], e[5]);
    }
}

// The bytes of the chunk at the front of so many, or 0 where they end before it does: a file's lengths are anyone's.
static size_t chunk_at(const uint8_t *at, size_t rest) {
    if (rest < HEAD) {
        return 0;
    }
    size_t body = (size_t)at[4] << 24 | (size_t)at[5] << 16 | (size_t)at[6] << 8 | at[7];
    return rest - HEAD < body ? 0 : HEAD + body;
}

// Gives each note its length and takes the ends out: an end is that of the note of its channel and pitch that has sounded longest. A note that nothing ends keeps length 0, an end of no note is dropped.
static void pair(void) {
    size_t kept = 0;
    for (const int64_t *e = events; e < events + count * WIDTH; e += WIDTH) {
        if (e[KIND] != NOTE_OFF) {
            ended[kept] = e[KIND] != NOTE_ON;
            memmove(events + kept++ * WIDTH, e, WIDTH * sizeof *e);
            continue;
        }
        for (size_t i = 0; i < kept; i++) {
            int64_t *note = events + i * WIDTH;
            if (!ended[i] && note[CHANNEL] == e[CHANNEL] && note[NOTE] == e[NOTE]) {
                note[LENGTH] = e[TIME] - note[TIME];
                ended[i] = true;
                break;
            }
        }
    }
    count = kept;
}

int main(void) {
    const uint8_t *first = NULL, *last = NULL;
    size_t used, first_bytes = 0, last_bytes = 0;
    for (size_t at = 0; at < sizeof song; at += used) {
        used = chunk_at(song + at, sizeof song - at);
        if (used == 0) {
            fputs("the song ends within a chunk\n", stderr);
            return 1;
        }
        if (memcmp(song + at, "MTrk", 4) != 0) {
            continue;
        }
        must("read_chunk", dollavir_read_chunk(song + at, used, events, ROOM * WIDTH, &count));
        list("track");
        last = song + at, last_bytes = used;
        if (first == NULL) {
            first = last, first_bytes = used;
        }
    }

    // The value of the first volume becomes one that no value can be: the list and the count stay.
    memcpy(changed, last, last_bytes);
    changed[HEAD + 6] |= 0x80;
    memcpy(before, events, sizeof events);
    uint32_t code = dollavir_read_chunk(changed, last_bytes, events, ROOM * WIDTH, &count);
    printf("a byte changed refused %" PRIu32 " events %zu, list %s\n", code, count, memcmp(before, events, sizeof events) == 0 ? "as it was" : "changed");

    // Lengths before the cut, ends after it.
    pair();
    must("full_cut", dollavir_full_cut(events, ROOM * WIDTH, &count, CUT, store, 0));
    must("normalize", dollavir_normalize(events, ROOM * WIDTH, &count, store, 0));
    must("events_sort", dollavir_events_sort(events, ROOM * WIDTH, count, store, 0));
    list("passage");

    // The song's own header and first track, and the passage for the second.
    memcpy(file, song, HEADER);
    memcpy(file + HEADER, first, first_bytes);
    size_t bytes;
    must("write_chunk", dollavir_write_chunk(events, ROOM * WIDTH, count, store, 0, file + HEADER + first_bytes, CHUNK, &bytes));
    bytes += HEADER + first_bytes;
    printf("file bytes %zu\n", bytes);
    for (size_t i = 0; i < bytes; i++) {
        printf("%02x%c", file[i], i % 16 == 15 || i + 1 == bytes ? '\n' : ' ');
    }
    return 0;
}
