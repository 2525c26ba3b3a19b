// Random lists and their files for tools/readers: `readers SEED COUNT FOLDER` makes COUNT lists from SEED on, writes each with the linked library as a Standard MIDI File FOLDER/N.mid of one track, and prints the lists: a line
// `list N TIMEBASE COUNT`, then each event's time, kind, channel and three values. The lists are sorted and hold every kind that is written, on every channel, with gaps at and around each length of a quantity, and what the
// chunk has no place for (a note's length, a NoteOff's velocity, unused fields) is any number.
#include <inttypes.h>
#include <stdio.h>
#include <stdlib.h>
#include "dollavir.h"

enum { NOTE_ON, NOTE_OFF, CONTROLLER, BEND, PROGRAM = 5, WIDTH = 8, ROOM = 300, HEADER = 14, CHUNK = 12 + 7 * ROOM };

static int64_t events[ROOM * WIDTH];
static uint8_t file[HEADER + CHUNK];
// No event here has data: nothing of the store is lent.
static const uint8_t store[1];
static uint64_t seed;

// A whole number from 0 up to, and not, `below`, by Marsaglia's xorshift and its high half.
static int64_t below(int64_t below) {
    seed ^= seed << 13;
    seed ^= seed >> 7;
    seed ^= seed << 17;
    return (int64_t)((seed >> 32) % (uint64_t)below);
}

// Each end of a range as often as what is between.
static int64_t upto(int64_t top) {
    int64_t which = below(4);
    return which == 0 ? 0 : which == 1 ? top : below(top + 1);
}

// Any number of 32 signed bits.
static int64_t word(void) {
    return (int32_t)below(INT64_C(1) << 32);
}

// Half of the gaps are none or small; the others are the last of a length in bytes, the first of the next, or some of that length.
static int64_t gap(void) {
    if (below(2) == 0) {
        return below(3) == 0 ? below(256) : 0;
    }
    int64_t past = INT64_C(1) << 7 * (1 + below(4));
    switch (below(3)) {
    case 0: return past - 1;
    case 1: return past == INT64_C(1) << 28 ? past - 2 : past;
    default: return below(past);
    }
}

static void event(int64_t *e, int64_t time) {
    static const int64_t kinds[] = {NOTE_ON, NOTE_OFF, CONTROLLER, BEND, PROGRAM};
    e[0] = kinds[below(5)];
    e[1] = time;
    e[2] = below(16);
    e[3] = upto(e[0] == BEND ? 16383 : 127);
    e[4] = e[0] == CONTROLLER ? upto(127) : word();
    e[5] = e[0] == NOTE_ON ? upto(127) : word();
    e[6] = e[7] = 0;
}

static void save(const char *folder, int number, size_t bytes) {
    char path[4096];
    snprintf(path, sizeof path, "%s/%d.mid", folder, number);
    FILE *to = fopen(path, "wb");
    if (to == NULL || fwrite(file, 1, bytes, to) != bytes || fclose(to) != 0) {
        perror(path);
        exit(2);
    }
}

int main(int arguments, char **argument) {
    if (arguments != 4) {
        fputs("readers SEED COUNT FOLDER\n", stderr);
        return 2;
    }
    int lists = atoi(argument[2]);
    for (int number = 0; number < lists; number++) {
        // Each list has a seed of its own, which is never 0.
        seed = (strtoull(argument[1], NULL, 10) + (uint64_t)number) * UINT64_C(0x9e3779b97f4a7c15) | 1;
        for (int i = 0; i < 8; i++) {
            below(1);
        }
        size_t count = (size_t)below(below(10) == 0 ? ROOM + 1 : 24);
        int64_t time = 0, timebase = 1 + upto(32766);
        for (size_t i = 0; i < count; i++) {
            time += gap();
            event(events + i * WIDTH, time);
        }
        size_t bytes;
        uint32_t code = dollavir_write_chunk(events, ROOM * WIDTH, count, store, 0, file + HEADER, 12 + 7 * count, &bytes);
        if (code != 0) {
            fprintf(stderr, "list %d: refused %" PRIu32 "\n", number, code);
            return 1;
        }
        const uint8_t header[HEADER] = {'M', 'T', 'h', 'd', 0, 0, 0, 6, 0, 0, 0, 1, (uint8_t)(timebase >> 8), (uint8_t)timebase};
        for (int i = 0; i < HEADER; i++) {
            file[i] = header[i];
        }
        save(argument[3], number, HEADER + bytes);
        printf("list %d %" PRId64 " %zu\n", number, timebase, count);
        for (const int64_t *e = events; e < events + count * WIDTH; e += WIDTH) {
            printf("%" PRId64 " %" PRId64 " %" PRId64 " %" PRId64 " %" PRId64 " %" PRId64 "\n", e[1], e[0], e[2], e[3], e[4], e[5]);
        }
    }
    return 0;
}
