// How much stack the library's calls take: each is made in a thread of its own, whose stack was painted before, and the deepest byte that lost its paint is looked for. What a thread takes that
// calls nothing is left out; a call that takes no more than that shows 0. `tools/link stack` builds and runs it; docs/LINKING.md has what was seen.
#define _XOPEN_SOURCE 700
#include <pthread.h>
#include <stdint.h>
#include <stdio.h>
#include <stdlib.h>
#include <string.h>
#include "dollavir.h"

enum { STACK = 4 << 20, PAINT = 0xa5, PLACES = 16, ROOM = 65536, WIDTH = 8 };

static dollavir_track track;
static dollavir_track_answer made;
static dollavir_cycle cycles[PLACES];
static dollavir_budget budget;
static int64_t events[ROOM * WIDTH], out[ROOM * WIDTH];
static size_t count, out_count, bytes;
static uint8_t chunk[12 + 7 * ROOM];
static const uint8_t store[1];
static const int32_t list[] = {0, 100, 24, 100, 0, 24};
static uint32_t code;
static unsigned char *stack;

static void nothing(void) {}
static void track_new(void) { made = dollavir_track_new(96, 0); code = made.code; }
static void set_timepos(void) { code = dollavir_set_timepos(&track, 0); }
static void set_param_on_note(void) { code = dollavir_set_param_on_note(&track, 0, list, 6); }
static void set_param_on_time(void) { code = dollavir_set_param_on_time(&track, 0, list, 6); }
static void calc_v_on_note(void) { int32_t value; code = dollavir_calc_v_on_note(&track, 100, &value); }
static void calc_v_on_time(void) { int32_t value; code = dollavir_calc_v_on_time(&track, 100, &value); }
static void set_v_sub(void) { code = dollavir_set_v_sub(&track, 3, 1); }
static void set_v_sub_on_cycle(void) { code = dollavir_set_v_sub_on_cycle(&track, 3, list, 6); }
static void apply_v_sub(void) { int64_t value; code = dollavir_apply_v_sub(&track, 100, &value); }
static void get_write_opt(void) { dollavir_write_option option; code = dollavir_get_write_opt(&track, 7, &option); }
static void set_range(void) { code = dollavir_set_range(&track, 7, 0, 100); }
static void set_on_note(void) { code = dollavir_set_on_note(&track, cycles, PLACES, 7, list, 6); }
static void set_on_note_wave(void) { code = dollavir_set_on_note_wave(&track, cycles, PLACES, 10, 1, list, 6); }
static void set_cc_on_note_wave(void) { code = dollavir_set_cc_on_note_wave(&track, cycles, PLACES, 10, list, 6); }
static void set_pb_on_note_wave(void) { code = dollavir_set_pb_on_note_wave(&track, cycles, PLACES, 1, list, 6); }
static void set_on_note_sine(void) {
    dollavir_on_note_sine sine = {.target = 12, .shape = 0, .low = 0, .high = 100, .length = 24, .times = 1};
    code = dollavir_set_on_note_sine(&track, cycles, PLACES, 12, sine);
}
static void remove_reserve(void) { code = dollavir_remove_reserve(&track, cycles, PLACES, 12); }
static void remove_cc_on(void) { code = dollavir_remove_cc_on(&track, cycles, PLACES, 12); }
static void remove_cc_on_note(void) { code = dollavir_remove_cc_on_note(&track, 12); }
static void set_repeat(void) { code = dollavir_set_repeat(&track, 7, 1); }
static void set_on_cycle(void) { code = dollavir_set_on_cycle(&track, cycles, PLACES, 1, 24, list, 6); }
static void write_on_time(void) { code = dollavir_write_on_time(&track, 11, list, 6, &budget, events, ROOM * WIDTH, &count, store, 0); }
static void write_sine(void) { code = dollavir_write_sine(&track, 129, 0, -8000, 8000, 96, 4, &budget, events, ROOM * WIDTH, &count, store, 0); }
static void write_cc_on_note(void) { code = dollavir_write_cc_on_note(&track, 0, &budget, events, ROOM * WIDTH, &count); }
static void write_cc_on_note_wave(void) { code = dollavir_write_cc_on_note_wave(&track, -24, &budget, events, ROOM * WIDTH, &count, store, 0); }
static void write_cc_on_cycle(void) { code = dollavir_write_cc_on_cycle(&track, cycles, PLACES, 24000, &budget, events, ROOM * WIDTH, &count); }
static void current_cc_value(void) { int64_t value; code = dollavir_current_cc_value(&track, 7, events, ROOM * WIDTH, count, store, 0, &value); }
static void events_sort(void) { code = dollavir_events_sort(events, ROOM * WIDTH, count, store, 0); }
static void split_note_off(void) { code = dollavir_split_note_off(events, ROOM * WIDTH, count, out, ROOM * WIDTH, store, 0, &out_count); }
static void normalize(void) { code = dollavir_normalize(events, ROOM * WIDTH, &count, store, 0); }
static void play_from(void) { code = dollavir_play_from(events, ROOM * WIDTH, &count, 10, store, 0); }
static void write_chunk(void) { code = dollavir_write_chunk(events, ROOM * WIDTH, count, store, 0, chunk, sizeof chunk, &bytes); }
static void read_chunk(void) { code = dollavir_read_chunk(chunk, bytes, events, ROOM * WIDTH, &count); }
static void check_profile(void) { uint32_t yes; code = dollavir_check_profile(events, ROOM * WIDTH, count, store, 0, &yes); }
static void fit_profile(void) { code = dollavir_fit_profile(events, ROOM * WIDTH, &count, store, 0); }
static void full_cut(void) { code = dollavir_full_cut(events, ROOM * WIDTH, &count, 10, store, 0); }

// Controllers at scattered times, as many as there is room for: the sort's worst case is near.
static void scatter(void) {
    uint32_t x = 1;
    for (count = 0; count < ROOM; count++) {
        int64_t *e = events + count * WIDTH;
        x = x * 1664525 + 1013904223;
        e[0] = 2;
        e[1] = x >> 12;
        e[2] = 0;
        e[3] = 7;
        e[4] = x >> 25;
    }
}

static void *run(void *call) {
    void (*make)(void);
    memcpy(&make, call, sizeof make);
    make();
    return NULL;
}

// How deep a thread went that made the call.
static size_t depth(void (*call)(void)) {
    pthread_attr_t how;
    pthread_t thread;
    size_t at = 0;
    memset(stack, PAINT, STACK);
    if (pthread_attr_init(&how) || pthread_attr_setstack(&how, stack, STACK) || pthread_create(&thread, &how, run, &call) || pthread_join(thread, NULL)) {
        puts("no thread");
        exit(1);
    }
    while (at < STACK && stack[at] == PAINT) {
        at++;
    }
    return STACK - at;
}

struct call {
    const char *name;
    void (*make)(void);
};

static size_t idle, most;

static void measure(const struct call *calls) {
    for (; calls->name != NULL; calls++) {
        size_t deep = depth(calls->make), took = deep > idle ? deep - idle : 0;
        printf("%s: %zu bytes%s\n", calls->name, took, code ? ", refused" : "");
        most = took > most ? took : most;
    }
}

#define CALL(name) {#name, name}

int main(void) {
    static const struct call making[] = {CALL(track_new), {NULL, NULL}};
    static const struct call of_track[] = {
        CALL(set_timepos),
        CALL(set_param_on_note),
        CALL(set_param_on_time),
        CALL(calc_v_on_note),
        CALL(calc_v_on_time),
        CALL(set_v_sub),
        CALL(set_v_sub_on_cycle),
        CALL(apply_v_sub),
        CALL(get_write_opt),
        CALL(set_range),
        CALL(set_repeat),
        CALL(set_on_note),
        CALL(set_on_note_wave),
        CALL(set_cc_on_note_wave),
        CALL(set_pb_on_note_wave),
        CALL(set_on_note_sine),
        CALL(remove_reserve),
        CALL(remove_cc_on),
        CALL(remove_cc_on_note),
        CALL(set_on_cycle),
        CALL(write_on_time),
        CALL(write_sine),
        CALL(write_cc_on_note),
        CALL(write_cc_on_note_wave),
        CALL(write_cc_on_cycle),
        CALL(current_cc_value),
        {NULL, NULL},
    };
    static const struct call of_list[] = {
        CALL(split_note_off), CALL(normalize), CALL(events_sort), CALL(write_chunk), CALL(read_chunk), CALL(play_from), CALL(full_cut), {NULL, NULL},
    };
    // A list that is not sorted is fitted, and one that is accepted is checked to its end.
    static const struct call of_profile[] = {CALL(fit_profile), CALL(check_profile), {NULL, NULL}};
    stack = aligned_alloc(4096, STACK);
    if (stack == NULL) {
        return 1;
    }
    idle = depth(nothing);
    budget = dollavir_budget_new(1, 67108864).budget;
    for (int i = 0; i < PLACES; i++) {
        cycles[i] = dollavir_cycle_none();
    }
    measure(making);
    track = made.track;
    measure(of_track);
    scatter();
    measure(of_list);
    scatter();
    measure(of_profile);
    printf("the most: %zu bytes\n", most);
    return 0;
}
