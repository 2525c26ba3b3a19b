// What the linked library reads of MIDI files for tools/writers: `writers` goes through the files whose paths stand on its input, a line each, chunk by chunk, and reads each track into a list that has room for as many events as a
// chunk of its length can hold and no more. It prints a line `file FORMAT TRACKS TIMEBASE PATH`, and for each track `track CODE COUNT WRITTEN`, then each event's time, kind, channel and three values. Chunks that are no
// tracks are passed over. WRITTEN is the number that write_chunk answers for the list: where it is 0 the chunk was read again, and gave the same numbers.
#include <inttypes.h>
#include <stdio.h>
#include <stdlib.h>
#include <string.h>
#include "dollavir.h"

enum { WIDTH = 8, HEAD = 8, HEADER = 14, EMPTY = 12, LONGEST = 7, SHORTEST = 2 };

// No event here has data: nothing of the store is lent.
static const uint8_t store[1];

static void stop(const char *path, const char *what) {
    fprintf(stderr, "%s: %s\n", path, what);
    exit(1);
}

// Room for so many, and never none: a pointer that is lent may not be null.
static void *room(const char *path, size_t count, size_t size) {
    void *made = calloc(count + 1, size);
    if (made == NULL) {
        stop(path, "no memory");
    }
    return made;
}

static size_t number(const uint8_t *at, int bytes) {
    size_t n = 0;
    for (int i = 0; i < bytes; i++) {
        n = n << 8 | at[i];
    }
    return n;
}

static uint8_t *whole(const char *path, size_t *bytes) {
    FILE *from = fopen(path, "rb");
    if (from == NULL || fseek(from, 0, SEEK_END) != 0) {
        stop(path, "is not opened");
    }
    *bytes = (size_t)ftell(from);
    rewind(from);
    uint8_t *file = room(path, *bytes, 1);
    if (fread(file, 1, *bytes, from) != *bytes) {
        stop(path, "is not read");
    }
    fclose(from);
    return file;
}

// Writes the list and reads what was written: the number of the write, which is not always done, since what was stepped over may have stood in a gap that is too long without it.
static uint32_t again(const char *path, const int64_t *events, size_t length, size_t count) {
    size_t bytes, told = 0;
    uint8_t *out = room(path, EMPTY + LONGEST * count, 1);
    int64_t *back = room(path, length, sizeof *back);
    uint32_t code = dollavir_write_chunk(events, length, count, store, 0, out, EMPTY + LONGEST * count, &bytes);
    if (code == 0 && (dollavir_read_chunk(out, bytes, back, length, &told) != 0 || told != count || memcmp(back, events, length * sizeof *back) != 0)) {
        stop(path, "what is written of its list is read as another");
    }
    free(out);
    free(back);
    return code;
}

static void track(const char *path, const uint8_t *chunk, size_t bytes) {
    // A gap of one byte and one of data under running status: no event is shorter.
    size_t length = bytes < EMPTY ? 0 : (bytes - EMPTY) / SHORTEST * WIDTH, count = 0;
    int64_t *events = room(path, length, sizeof *events);
    uint32_t code = dollavir_read_chunk(chunk, bytes, events, length, &count);
    printf("track %" PRIu32 " %zu %" PRIu32 "\n", code, count, again(path, events, length, count));
    for (const int64_t *e = events; e < events + count * WIDTH; e += WIDTH) {
        printf("%" PRId64 " %" PRId64 " %" PRId64 " %" PRId64 " %" PRId64 " %" PRId64 "\n", e[1], e[0], e[2], e[3], e[4], e[5]);
    }
    free(events);
}

int main(void) {
    char path[4096];
    while (fgets(path, sizeof path, stdin) != NULL) {
        path[strcspn(path, "\n")] = 0;
        size_t bytes;
        uint8_t *file = whole(path, &bytes);
        if (bytes < HEADER || memcmp(file, "MThd", 4) != 0) {
            stop(path, "is no MIDI file");
        }
        printf("file %zu %zu %zu %s\n", number(file + 8, 2), number(file + 10, 2), number(file + 12, 2), path);
        for (size_t at = 0, used; at < bytes; at += used) {
            if (bytes - at < HEAD || bytes - at - HEAD < number(file + at + 4, 4)) {
                stop(path, "ends within a chunk");
            }
            used = HEAD + number(file + at + 4, 4);
            if (memcmp(file + at, "MTrk", 4) == 0) {
                track(path, file + at, used);
            }
        }
        free(file);
    }
    return 0;
}
