/* The calls of Dollavir from C. Made by tools/header.py from crates/ctrack/src; not edited by hand.
 *
 * What a function answers as a 32-bit number is one of this table; where it is not 0, all that is lent is as it was:
 *   0 done
 *   1 the list is not a whole number of records, its count is above it, or the cycle table has not sixteen
 *   2 a target or controller argument is none
 *   3 an argument list has more than 192 numbers
 *   4 a number is against its range or rule, or a resulting event time is more than 2^42 from 0
 *   5 a layer above 15
 *   6 no place in a reservation table
 *   7 the list that is left holds more events than the buffer
 *   10 the list is not sorted, its first time is below 0, or a gap (the first from time 0) is above 268,435,455
 *   11 a kind that is not written, or a field outside its MIDI width, which is 0 to 16,383 for a bend
 *   12 the output is too short
 *   13 not a track chunk, or its length is not that of the bytes behind it
 *   14 an event that is cut short or faulty
 *   15 no end of track behind the last event, or bytes behind it
 *   17 events on more than one channel
 *   18 a time below 0
 * A pointer must be valid, aligned and not null, also where its length is 0, and what two parameters point at
 * must not overlap. A slice is a pointer and the number of its elements. The event list has eight numbers a
 * record: kind, time, channel, v1, v2, v3, offset, length. What a function does not read it does not test:
 * dollavir_write_cc_on_note and dollavir_write_cc_on_cycle only append, and ask no event of the list.
 */
#ifndef DOLLAVIR_H
#define DOLLAVIR_H

#include <stddef.h>
#include <stdint.h>

#ifdef __cplusplus
extern "C" {
#endif

/* How many numbers a list may have. */
#define DOLLAVIR_LIST_LIMIT 192
/* The layout's number: 1 had lists of 96. A host compiled for another must be compiled again; the size of a track
   is asserted below. */
#define DOLLAVIR_LAYOUT 2

typedef struct {
    size_t count;
    int32_t items[DOLLAVIR_LIST_LIMIT];
} dollavir_numbers;

/* What is reserved for the notes to come: nothing, a curve over time, a cycle over time, or a list of which each
   note takes the next value. What a kind has no use for is zero. */
typedef struct {
    uint32_t kind;
    uint32_t cycling;
    int64_t start;
    int32_t length;
    size_t index;
    dollavir_numbers values;
} dollavir_reserve;

/* A flag is 0 or 1: where `ranged` is 0 there is no range, where `maxed` is 0 no maximum. */
typedef struct {
    dollavir_reserve reserve;
    int32_t random;
    uint32_t ranged;
    int32_t low;
    int32_t high;
    int32_t delay;
    uint32_t maxed;
    int32_t max;
    uint32_t repeat;
} dollavir_note_param;

typedef struct {
    int32_t value;
    int32_t random;
    dollavir_reserve reserve;
} dollavir_layer;

typedef struct {
    size_t count;
    dollavir_layer items[16];
} dollavir_layers;

/* What is set for a target and outlasts a write. `ranged` and `repeat` are 0 or 1. */
typedef struct {
    int32_t delay;
    int32_t random;
    uint32_t ranged;
    int32_t low;
    int32_t high;
    uint32_t repeat;
} dollavir_write_option;

/* The values of a target's notes, one after the other; `index` is the next. `cycling` is 0 or 1. */
typedef struct {
    int32_t target;
    size_t index;
    uint32_t cycling;
    dollavir_numbers values;
} dollavir_on_note_values;

/* A table of lists for notes. */
typedef struct {
    size_t count;
    dollavir_on_note_values items[16];
} dollavir_note_table;

/* A curve for each note of a target. */
typedef struct {
    int32_t target;
    uint32_t mode;
    dollavir_numbers values;
} dollavir_on_note_wave;

/* A table of waves for notes. */
typedef struct {
    size_t count;
    dollavir_on_note_wave items[16];
} dollavir_wave_table;

/* A sine for each note of a target. `shape` is 0 for a full turn, 1 and 2 for the quarter up and down. */
typedef struct {
    int32_t target;
    uint32_t shape;
    int32_t low;
    int32_t high;
    int32_t length;
    int32_t times;
} dollavir_on_note_sine;

/* A table of sines for notes. */
typedef struct {
    size_t count;
    dollavir_on_note_sine items[16];
} dollavir_sine_table;

/* `ccfreq` and `pbfreq` are the Rust's `cc_on_time_freq` and `pb_on_time_freq`, `step` its `qlen_is_step`, 0 or
   1; v, q, t, o, l are the note parameters of velocity, gate, timing, octave and length. `cycles` counts the
   records of the lent cycle table. */
typedef struct {
    int32_t timebase;
    int64_t timepos;
    int32_t channel;
    int32_t ccfreq;
    int32_t pbfreq;
    int32_t velocity;
    int32_t timing;
    int32_t octave;
    int32_t qlen;
    uint32_t step;
    dollavir_note_param v;
    dollavir_note_param q;
    dollavir_note_param t;
    dollavir_note_param o;
    dollavir_note_param l;
    dollavir_layers layers;
    dollavir_write_option options[129];
    dollavir_note_table notes;
    dollavir_wave_table waves;
    dollavir_sine_table sines;
    size_t cycles;
} dollavir_track;

/* The track as a call leaves it. */
typedef struct {
    uint32_t code;
    dollavir_track track;
} dollavir_track_answer;

/* `used` may exceed `maximum`; `over` is 1 once a write did not fit, else 0. */
typedef struct {
    uint32_t seed;
    uint32_t maximum;
    uint32_t used;
    uint32_t over;
} dollavir_budget;

/* What `Budget::new` answers: 0 and the budget, or the refusal's number and a budget of zeros. */
typedef struct {
    uint32_t code;
    dollavir_budget budget;
} dollavir_budget_answer;

/* A target's cycle: its values in turn, the one at `index` next, at the time `next` and at every `length` from
   there. */
typedef struct {
    int32_t target;
    int32_t length;
    int64_t next;
    size_t index;
    dollavir_numbers values;
} dollavir_cycle;

/* What `OnNoteSine::new` answers: 0 and the sine, or the refusal's number and a sine of zeros. */
typedef struct {
    uint32_t code;
    dollavir_on_note_sine sine;
} dollavir_sine_answer;

/* A value for every `length` steps from `start` on, round and round. */
typedef struct {
    int64_t start;
    int32_t length;
    dollavir_numbers values;
} dollavir_on_cycle_time;

/* What `OnCycleTime::new` answers: 0 and the cycle, or the refusal's number and a cycle of zeros. */
typedef struct {
    uint32_t code;
    dollavir_on_cycle_time cycle;
} dollavir_cycle_time_answer;

typedef struct {
    int64_t kind;
    int64_t time;
    int64_t channel;
    int64_t v1;
    int64_t v2;
    int64_t v3;
    int64_t offset;
    int64_t len;
} dollavir_event;

/* What a constructor answers: 0 and the event, or the refusal's number and the event of zeros. */
typedef struct {
    uint32_t code;
    dollavir_event event;
} dollavir_made;

#if defined(__STDC_VERSION__) && __STDC_VERSION__ >= 201112L
_Static_assert(sizeof(size_t) == 8, "size_t");
_Static_assert(sizeof(dollavir_numbers) == 776 && _Alignof(dollavir_numbers) == 8, "dollavir_numbers");
_Static_assert(offsetof(dollavir_numbers, count) == 0, "dollavir_numbers.count");
_Static_assert(offsetof(dollavir_numbers, items) == 8, "dollavir_numbers.items");
_Static_assert(sizeof(dollavir_reserve) == 808 && _Alignof(dollavir_reserve) == 8, "dollavir_reserve");
_Static_assert(offsetof(dollavir_reserve, kind) == 0, "dollavir_reserve.kind");
_Static_assert(offsetof(dollavir_reserve, cycling) == 4, "dollavir_reserve.cycling");
_Static_assert(offsetof(dollavir_reserve, start) == 8, "dollavir_reserve.start");
_Static_assert(offsetof(dollavir_reserve, length) == 16, "dollavir_reserve.length");
_Static_assert(offsetof(dollavir_reserve, index) == 24, "dollavir_reserve.index");
_Static_assert(offsetof(dollavir_reserve, values) == 32, "dollavir_reserve.values");
_Static_assert(sizeof(dollavir_note_param) == 840 && _Alignof(dollavir_note_param) == 8, "dollavir_note_param");
_Static_assert(offsetof(dollavir_note_param, reserve) == 0, "dollavir_note_param.reserve");
_Static_assert(offsetof(dollavir_note_param, random) == 808, "dollavir_note_param.random");
_Static_assert(offsetof(dollavir_note_param, ranged) == 812, "dollavir_note_param.ranged");
_Static_assert(offsetof(dollavir_note_param, low) == 816, "dollavir_note_param.low");
_Static_assert(offsetof(dollavir_note_param, high) == 820, "dollavir_note_param.high");
_Static_assert(offsetof(dollavir_note_param, delay) == 824, "dollavir_note_param.delay");
_Static_assert(offsetof(dollavir_note_param, maxed) == 828, "dollavir_note_param.maxed");
_Static_assert(offsetof(dollavir_note_param, max) == 832, "dollavir_note_param.max");
_Static_assert(offsetof(dollavir_note_param, repeat) == 836, "dollavir_note_param.repeat");
_Static_assert(sizeof(dollavir_layer) == 816 && _Alignof(dollavir_layer) == 8, "dollavir_layer");
_Static_assert(offsetof(dollavir_layer, value) == 0, "dollavir_layer.value");
_Static_assert(offsetof(dollavir_layer, random) == 4, "dollavir_layer.random");
_Static_assert(offsetof(dollavir_layer, reserve) == 8, "dollavir_layer.reserve");
_Static_assert(sizeof(dollavir_layers) == 13064 && _Alignof(dollavir_layers) == 8, "dollavir_layers");
_Static_assert(offsetof(dollavir_layers, count) == 0, "dollavir_layers.count");
_Static_assert(offsetof(dollavir_layers, items) == 8, "dollavir_layers.items");
_Static_assert(sizeof(dollavir_write_option) == 24 && _Alignof(dollavir_write_option) == 4, "dollavir_write_option");
_Static_assert(offsetof(dollavir_write_option, delay) == 0, "dollavir_write_option.delay");
_Static_assert(offsetof(dollavir_write_option, random) == 4, "dollavir_write_option.random");
_Static_assert(offsetof(dollavir_write_option, ranged) == 8, "dollavir_write_option.ranged");
_Static_assert(offsetof(dollavir_write_option, low) == 12, "dollavir_write_option.low");
_Static_assert(offsetof(dollavir_write_option, high) == 16, "dollavir_write_option.high");
_Static_assert(offsetof(dollavir_write_option, repeat) == 20, "dollavir_write_option.repeat");
_Static_assert(sizeof(dollavir_on_note_values) == 800 && _Alignof(dollavir_on_note_values) == 8, "dollavir_on_note_values");
_Static_assert(offsetof(dollavir_on_note_values, target) == 0, "dollavir_on_note_values.target");
_Static_assert(offsetof(dollavir_on_note_values, index) == 8, "dollavir_on_note_values.index");
_Static_assert(offsetof(dollavir_on_note_values, cycling) == 16, "dollavir_on_note_values.cycling");
_Static_assert(offsetof(dollavir_on_note_values, values) == 24, "dollavir_on_note_values.values");
_Static_assert(sizeof(dollavir_note_table) == 12808 && _Alignof(dollavir_note_table) == 8, "dollavir_note_table");
_Static_assert(offsetof(dollavir_note_table, count) == 0, "dollavir_note_table.count");
_Static_assert(offsetof(dollavir_note_table, items) == 8, "dollavir_note_table.items");
_Static_assert(sizeof(dollavir_on_note_wave) == 784 && _Alignof(dollavir_on_note_wave) == 8, "dollavir_on_note_wave");
_Static_assert(offsetof(dollavir_on_note_wave, target) == 0, "dollavir_on_note_wave.target");
_Static_assert(offsetof(dollavir_on_note_wave, mode) == 4, "dollavir_on_note_wave.mode");
_Static_assert(offsetof(dollavir_on_note_wave, values) == 8, "dollavir_on_note_wave.values");
_Static_assert(sizeof(dollavir_wave_table) == 12552 && _Alignof(dollavir_wave_table) == 8, "dollavir_wave_table");
_Static_assert(offsetof(dollavir_wave_table, count) == 0, "dollavir_wave_table.count");
_Static_assert(offsetof(dollavir_wave_table, items) == 8, "dollavir_wave_table.items");
_Static_assert(sizeof(dollavir_on_note_sine) == 24 && _Alignof(dollavir_on_note_sine) == 4, "dollavir_on_note_sine");
_Static_assert(offsetof(dollavir_on_note_sine, target) == 0, "dollavir_on_note_sine.target");
_Static_assert(offsetof(dollavir_on_note_sine, shape) == 4, "dollavir_on_note_sine.shape");
_Static_assert(offsetof(dollavir_on_note_sine, low) == 8, "dollavir_on_note_sine.low");
_Static_assert(offsetof(dollavir_on_note_sine, high) == 12, "dollavir_on_note_sine.high");
_Static_assert(offsetof(dollavir_on_note_sine, length) == 16, "dollavir_on_note_sine.length");
_Static_assert(offsetof(dollavir_on_note_sine, times) == 20, "dollavir_on_note_sine.times");
_Static_assert(sizeof(dollavir_sine_table) == 392 && _Alignof(dollavir_sine_table) == 8, "dollavir_sine_table");
_Static_assert(offsetof(dollavir_sine_table, count) == 0, "dollavir_sine_table.count");
_Static_assert(offsetof(dollavir_sine_table, items) == 8, "dollavir_sine_table.items");
_Static_assert(sizeof(dollavir_track) == 46168 && _Alignof(dollavir_track) == 8, "dollavir_track");
_Static_assert(offsetof(dollavir_track, timebase) == 0, "dollavir_track.timebase");
_Static_assert(offsetof(dollavir_track, timepos) == 8, "dollavir_track.timepos");
_Static_assert(offsetof(dollavir_track, channel) == 16, "dollavir_track.channel");
_Static_assert(offsetof(dollavir_track, ccfreq) == 20, "dollavir_track.ccfreq");
_Static_assert(offsetof(dollavir_track, pbfreq) == 24, "dollavir_track.pbfreq");
_Static_assert(offsetof(dollavir_track, velocity) == 28, "dollavir_track.velocity");
_Static_assert(offsetof(dollavir_track, timing) == 32, "dollavir_track.timing");
_Static_assert(offsetof(dollavir_track, octave) == 36, "dollavir_track.octave");
_Static_assert(offsetof(dollavir_track, qlen) == 40, "dollavir_track.qlen");
_Static_assert(offsetof(dollavir_track, step) == 44, "dollavir_track.step");
_Static_assert(offsetof(dollavir_track, v) == 48, "dollavir_track.v");
_Static_assert(offsetof(dollavir_track, q) == 888, "dollavir_track.q");
_Static_assert(offsetof(dollavir_track, t) == 1728, "dollavir_track.t");
_Static_assert(offsetof(dollavir_track, o) == 2568, "dollavir_track.o");
_Static_assert(offsetof(dollavir_track, l) == 3408, "dollavir_track.l");
_Static_assert(offsetof(dollavir_track, layers) == 4248, "dollavir_track.layers");
_Static_assert(offsetof(dollavir_track, options) == 17312, "dollavir_track.options");
_Static_assert(offsetof(dollavir_track, notes) == 20408, "dollavir_track.notes");
_Static_assert(offsetof(dollavir_track, waves) == 33216, "dollavir_track.waves");
_Static_assert(offsetof(dollavir_track, sines) == 45768, "dollavir_track.sines");
_Static_assert(offsetof(dollavir_track, cycles) == 46160, "dollavir_track.cycles");
_Static_assert(sizeof(dollavir_track_answer) == 46176 && _Alignof(dollavir_track_answer) == 8, "dollavir_track_answer");
_Static_assert(offsetof(dollavir_track_answer, code) == 0, "dollavir_track_answer.code");
_Static_assert(offsetof(dollavir_track_answer, track) == 8, "dollavir_track_answer.track");
_Static_assert(sizeof(dollavir_budget) == 16 && _Alignof(dollavir_budget) == 4, "dollavir_budget");
_Static_assert(offsetof(dollavir_budget, seed) == 0, "dollavir_budget.seed");
_Static_assert(offsetof(dollavir_budget, maximum) == 4, "dollavir_budget.maximum");
_Static_assert(offsetof(dollavir_budget, used) == 8, "dollavir_budget.used");
_Static_assert(offsetof(dollavir_budget, over) == 12, "dollavir_budget.over");
_Static_assert(sizeof(dollavir_budget_answer) == 20 && _Alignof(dollavir_budget_answer) == 4, "dollavir_budget_answer");
_Static_assert(offsetof(dollavir_budget_answer, code) == 0, "dollavir_budget_answer.code");
_Static_assert(offsetof(dollavir_budget_answer, budget) == 4, "dollavir_budget_answer.budget");
_Static_assert(sizeof(dollavir_cycle) == 800 && _Alignof(dollavir_cycle) == 8, "dollavir_cycle");
_Static_assert(offsetof(dollavir_cycle, target) == 0, "dollavir_cycle.target");
_Static_assert(offsetof(dollavir_cycle, length) == 4, "dollavir_cycle.length");
_Static_assert(offsetof(dollavir_cycle, next) == 8, "dollavir_cycle.next");
_Static_assert(offsetof(dollavir_cycle, index) == 16, "dollavir_cycle.index");
_Static_assert(offsetof(dollavir_cycle, values) == 24, "dollavir_cycle.values");
_Static_assert(sizeof(dollavir_sine_answer) == 28 && _Alignof(dollavir_sine_answer) == 4, "dollavir_sine_answer");
_Static_assert(offsetof(dollavir_sine_answer, code) == 0, "dollavir_sine_answer.code");
_Static_assert(offsetof(dollavir_sine_answer, sine) == 4, "dollavir_sine_answer.sine");
_Static_assert(sizeof(dollavir_on_cycle_time) == 792 && _Alignof(dollavir_on_cycle_time) == 8, "dollavir_on_cycle_time");
_Static_assert(offsetof(dollavir_on_cycle_time, start) == 0, "dollavir_on_cycle_time.start");
_Static_assert(offsetof(dollavir_on_cycle_time, length) == 8, "dollavir_on_cycle_time.length");
_Static_assert(offsetof(dollavir_on_cycle_time, values) == 16, "dollavir_on_cycle_time.values");
_Static_assert(sizeof(dollavir_cycle_time_answer) == 800 && _Alignof(dollavir_cycle_time_answer) == 8, "dollavir_cycle_time_answer");
_Static_assert(offsetof(dollavir_cycle_time_answer, code) == 0, "dollavir_cycle_time_answer.code");
_Static_assert(offsetof(dollavir_cycle_time_answer, cycle) == 8, "dollavir_cycle_time_answer.cycle");
_Static_assert(sizeof(dollavir_event) == 64 && _Alignof(dollavir_event) == 8, "dollavir_event");
_Static_assert(offsetof(dollavir_event, kind) == 0, "dollavir_event.kind");
_Static_assert(offsetof(dollavir_event, time) == 8, "dollavir_event.time");
_Static_assert(offsetof(dollavir_event, channel) == 16, "dollavir_event.channel");
_Static_assert(offsetof(dollavir_event, v1) == 24, "dollavir_event.v1");
_Static_assert(offsetof(dollavir_event, v2) == 32, "dollavir_event.v2");
_Static_assert(offsetof(dollavir_event, v3) == 40, "dollavir_event.v3");
_Static_assert(offsetof(dollavir_event, offset) == 48, "dollavir_event.offset");
_Static_assert(offsetof(dollavir_event, len) == 56, "dollavir_event.len");
_Static_assert(sizeof(dollavir_made) == 72 && _Alignof(dollavir_made) == 8, "dollavir_made");
_Static_assert(offsetof(dollavir_made, code) == 0, "dollavir_made.code");
_Static_assert(offsetof(dollavir_made, event) == 8, "dollavir_made.event");
#endif

/* ---- new records: a track, a budget, an unused cycle, an option, a sine, a cycle over time ---- */

/* A track at time 0 with nothing set; the channel is clamped to 0..15. Refuses 4, and then hands back a track of
   timebase 0, which no call takes. */
dollavir_track_answer dollavir_track_new(int32_t timebase, int32_t channel);

/* Nothing used yet, the flag clear. Refuses 4, and then hands back a budget of zeros. */
dollavir_budget_answer dollavir_budget_new(uint32_t seed, uint32_t maximum);

/* What an unused place of a table of cycles holds. */
dollavir_cycle dollavir_cycle_none(void);

/* No delay, no random, no range, no repeat. */
dollavir_write_option dollavir_write_option_new(void);

/* A sine for a target's notes. Refuses 2, 4, and then hands back a sine of zeros. */
dollavir_sine_answer dollavir_on_note_sine_new(int32_t target, uint32_t shape, int32_t low, int32_t high,
    int32_t len, int32_t times);

/* A cycle over time of its own. Refuses 3, 4, and then hands back a cycle of zeros. */
dollavir_cycle_time_answer dollavir_cycle_time_new(int64_t start, int32_t len, const int32_t *values,
    size_t values_length);

/* ---- a number in a range ---- */

/* Below `low` gives `low`, otherwise above `high` gives `high`, whichever of the two is the greater. */
int64_t dollavir_value_range(int64_t low, int64_t v, int64_t high);

/* ---- the track's own numbers ---- */

/* Where the track stands: the time of what is written next. Refuses 4. */
uint32_t dollavir_set_timepos(dollavir_track *track, int64_t timepos);

/* The channel of what is written next; outside 0..15 it is not clamped here. Refuses 4. */
uint32_t dollavir_set_channel(dollavir_track *track, int32_t channel);

/* How many steps apart a controller's curve is written. Refuses 4. */
uint32_t dollavir_set_cc_on_time_freq(dollavir_track *track, int32_t freq);

/* The same of a bend's curve. Refuses 4. */
uint32_t dollavir_set_pb_on_time_freq(dollavir_track *track, int32_t freq);

/* ---- a target's option ---- */

/* What is set for a target. Leaves it in `option`, with nothing set where it refuses. Refuses 2, 4. */
uint32_t dollavir_get_write_opt(const dollavir_track *track, int32_t target, dollavir_write_option *option);

/* How many steps later a target's events stand. Refuses 2, 4. */
uint32_t dollavir_set_delay(dollavir_track *track, int32_t target, int32_t delay);

/* How far random moves a target's values; 0 or less is off. Refuses 2, 4. */
uint32_t dollavir_set_random(dollavir_track *track, int32_t target, int32_t random);

/* The range to which a target's values are limited. Refuses 2, 4. */
uint32_t dollavir_set_range(dollavir_track *track, int32_t target, int32_t low, int32_t high);

/* A target's values are limited no more. Refuses 2, 4. */
uint32_t dollavir_clear_range(dollavir_track *track, int32_t target);

/* Whether a target's lists for notes go round, 0 or 1; it reaches the list that is stored too. Refuses 2, 4. */
uint32_t dollavir_set_repeat(dollavir_track *track, int32_t target, uint32_t on);

/* ---- writes at the track's time ---- */

/* Writes a curve at the track's time: `list` is triples of a low, a high and a length. Answers the new count and
   the budget; the target's events within the curve's length are taken out, the new ones stand behind the others.
   Refuses 1, 2, 3, 4, 7. */
uint32_t dollavir_write_on_time(const dollavir_track *track, int32_t target, const int32_t *list,
    size_t list_length, dollavir_budget *budget, int64_t *events, size_t events_length, size_t *count,
    const uint8_t *store, size_t store_length);

/* `write_on_time` of a controller by its number. Refuses 1, 2, 3, 4, 7. */
uint32_t dollavir_write_cc_on_time(const dollavir_track *track, int32_t number, const int32_t *list,
    size_t list_length, dollavir_budget *budget, int64_t *events, size_t events_length, size_t *count,
    const uint8_t *store, size_t store_length);

/* `write_on_time` of the bend. Refuses 1, 3, 4, 7. */
uint32_t dollavir_write_pb_on_time(const dollavir_track *track, int32_t big, const int32_t *list,
    size_t list_length, dollavir_budget *budget, int64_t *events, size_t events_length, size_t *count,
    const uint8_t *store, size_t store_length);

/* Writes a sine at the track's time, `times` turns of `len` steps from `low` to `high`; `shape` is 0 for a full
   turn, 1 and 2 for the quarter up and down. Answers and leaves as `write_on_time`; a length of 0 or less changes
   nothing, times of 0 or less count once. Refuses 1, 2, 4, 7. */
uint32_t dollavir_write_sine(const dollavir_track *track, int32_t target, uint32_t shape, int32_t low,
    int32_t high, int32_t len, int32_t times, dollavir_budget *budget, int64_t *events, size_t events_length,
    size_t *count, const uint8_t *store, size_t store_length);

/* ---- what is reserved for a target ---- */

/* Takes out the reservations of a target, of all four kinds. Answers the track. Refuses 1, 2, 4. */
uint32_t dollavir_remove_reserve(dollavir_track *track, dollavir_cycle *cycles, size_t cycles_length,
    int32_t target);

/* Reserves a list of numbers for a target, one for each note, in place of what is reserved for it. Answers the
   track. Refuses 1, 2, 3, 4, 6. */
uint32_t dollavir_set_on_note(dollavir_track *track, dollavir_cycle *cycles, size_t cycles_length,
    int32_t target, const int32_t *list, size_t list_length);

/* Reserves a wave for a target: `list` is triples of a low, a high and a length. Answers the track. Refuses 1, 2,
   3, 4, 6. */
uint32_t dollavir_set_on_note_wave(dollavir_track *track, dollavir_cycle *cycles, size_t cycles_length,
    int32_t target, uint32_t mode, const int32_t *list, size_t list_length);

/* Reserves a sine for a target, which it must name. Answers the track. Refuses 1, 2, 4, 6. */
uint32_t dollavir_set_on_note_sine(dollavir_track *track, dollavir_cycle *cycles, size_t cycles_length,
    int32_t target, dollavir_on_note_sine sine);

/* Reserves a cycle of `list` for a target, one number every `len` steps from the track's time on; it comes last
   in the table. A length of 0 or less, or no number, only takes the target's reservations out. Answers the track.
   Refuses 1, 2, 3, 4, 6. */
uint32_t dollavir_set_on_cycle(dollavir_track *track, dollavir_cycle *cycles, size_t cycles_length,
    int32_t target, int32_t len, const int32_t *list, size_t list_length);

/* The older calls. `remove_reserve` of a controller. Refuses 1, 2, 4. */
uint32_t dollavir_remove_cc_on(dollavir_track *track, dollavir_cycle *cycles, size_t cycles_length,
    int32_t number);

/* `set_on_note` of a controller. Refuses 1, 2, 3, 4, 6. */
uint32_t dollavir_set_cc_on_note(dollavir_track *track, dollavir_cycle *cycles, size_t cycles_length,
    int32_t number, const int32_t *list, size_t list_length);

/* `set_on_note_wave` of a controller, the wave used as it is. Refuses 1, 2, 3, 4, 6. */
uint32_t dollavir_set_cc_on_note_wave(dollavir_track *track, dollavir_cycle *cycles, size_t cycles_length,
    int32_t number, const int32_t *list, size_t list_length);

/* `set_on_note_wave` of a bend by its argument, the wave used as it is. Refuses 1, 3, 4, 6. */
uint32_t dollavir_set_pb_on_note_wave(dollavir_track *track, dollavir_cycle *cycles, size_t cycles_length,
    int32_t big, const int32_t *list, size_t list_length);

/* `remove_reserve` of both bends. Refuses 1, 4. */
uint32_t dollavir_remove_pb_on_note_wave(dollavir_track *track, dollavir_cycle *cycles, size_t cycles_length);

/* No list for notes stays reserved for a controller; what is of another kind stays. Refuses 2, 4. */
uint32_t dollavir_remove_cc_on_note(dollavir_track *track, int32_t number);

/* No wave and no sine stays reserved for a controller; what is of another kind stays. Refuses 2, 4. */
uint32_t dollavir_remove_cc_on_note_wave(dollavir_track *track, int32_t number);

/* ---- writes at notes and cycles ---- */

/* Writes what a track's lists have for a note that starts at `start`: the events stand behind the list's own, and
   each list that wrote is one further. Answers the count, the budget and the track afterwards. A write that does
   not fit sets the flag and ends the call; else lists that are used up and do not go round are taken out. Refuses
   1, 4, 7; then all is left as it is. */
uint32_t dollavir_write_cc_on_note(dollavir_track *track, int64_t start, dollavir_budget *budget,
    int64_t *events, size_t events_length, size_t *count);

/* Writes the waves and then the sines that are reserved for the track's notes, over a note from `start` to the
   track's time; they stop once the flag is set. Answers the count of events and the budget after them, and leaves
   the events in the list; the track stays as it is. Refuses 1, 4, 7; then list, count and budget are those that
   were handed in. */
uint32_t dollavir_write_cc_on_note_wave(const dollavir_track *track, int64_t start, dollavir_budget *budget,
    int64_t *events, size_t events_length, size_t *count, const uint8_t *store, size_t store_length);

/* Makes the writes of the track's cycles that are due up to `until`, as `cycling::write_cc_on_cycle` does, over a
   cycle table and a budget that are lent: the records are advanced in place. Answers the new count. Refuses 1, 4,
   7; then all that was lent is left. */
uint32_t dollavir_write_cc_on_cycle(const dollavir_track *track, dollavir_cycle *cycles, size_t cycles_length,
    int64_t until, dollavir_budget *budget, int64_t *events, size_t events_length, size_t *count);

/* ---- a controller's value ---- */

/* The value of controller `number` on the track's channel at its time: that of the last such event in list order
   at or before it, or the controller's default. Leaves it in `value`, 0 where it refuses. Refuses 1, 2, 4. */
uint32_t dollavir_current_cc_value(const dollavir_track *track, int32_t number, const int64_t *events,
    size_t events_length, size_t count, const uint8_t *store, size_t store_length, int64_t *value);

/* ---- the event list ---- */

/* Takes out the bends from `start` to `end`, that time included. Answers the new count; the others keep their
   order, and the places that fall vacant are zeroed. Refuses 1, 4; then the list is left as it is. */
uint32_t dollavir_remove_pitch_bend_in_range(int64_t *events, size_t events_length, size_t *count,
    int64_t start, int64_t end, const uint8_t *store, size_t store_length);

/* Sorts the list by time; events of one time keep their order. Answers 0, or refuses 1, 4; then the list is left
   as it is. */
uint32_t dollavir_events_sort(int64_t *events, size_t events_length, size_t count, const uint8_t *store,
    size_t store_length);

/* Puts the list's events at the front of `out`, after each note its end, and leaves their number in `out_count`.
   Beyond them `out` is left as it is. Refuses 1, 4, 7; then all of `out` is left as it is, and `out_count` is
   `count`. */
uint32_t dollavir_split_note_off(const int64_t *events, size_t events_length, size_t count, int64_t *out,
    size_t out_length, const uint8_t *store, size_t store_length, size_t *out_count);

/* Puts after each note of the list its end, and answers the new count. Refuses 1, 4, 7; then the list is left as
   it is. */
uint32_t dollavir_normalize(int64_t *events, size_t events_length, size_t *count, const uint8_t *store,
    size_t store_length);

/* Cuts off what is before `cut`: the events that are kept count their time from it, and after them stand, at time
   0, the controllers and the program as they were by the last of each in list order. Answers the new count; the
   places that fall vacant are zeroed. Refuses 1, 4; then the list is left as it is. */
uint32_t dollavir_play_from(int64_t *events, size_t events_length, size_t *count, int64_t cut,
    const uint8_t *store, size_t store_length);

/* The cut with its bends: those from `cut` on are kept, and what is folded stands first, the bend too. Of each
   controller, of the program and of the bend the latest event before `cut` counts, whatever the list's order, and
   of equal times the later in the list; the channel is that of the latest controller or program. A negative value
   of the latest unsets, but a bend counts whatever its value, on its own channel. Answers the new count; the
   places that fall vacant are zeroed. Refuses 1, 4; then the list is left as it is. */
uint32_t dollavir_full_cut(int64_t *events, size_t events_length, size_t *count, int64_t cut,
    const uint8_t *store, size_t store_length);

/* ---- a file's track chunk ---- */

/* Writes the events as a track chunk of Standard MIDI Files 1.0 at the start of `out`, with full status on every
   event and the end of track last. Leaves in `bytes` how many bytes the chunk has, 0 where it refuses; what
   stands in `out` behind them is left. Refuses 1, 4; 10 a list that is not in order, whose first time is below 0
   or that has a gap above 268,435,455; 11 a kind that is not written, or a field outside its width; 12 an output
   that is too short. Then all of `out` is left as it is. */
uint32_t dollavir_write_chunk(const int64_t *events, size_t events_length, size_t count, const uint8_t *store,
    size_t store_length, uint8_t *out, size_t out_length, size_t *bytes);

/* Reads a track chunk of Standard MIDI Files 1.0 into the list, which then holds the chunk's events in order and
   nothing else: NoteOn, NoteOff, controllers, programs and bends, with running status; Meta, system exclusive and
   aftertouch are stepped over, and their times count. A note's end is a NoteOff of velocity 0. Leaves in `count`
   how many events the list has. Refuses 1; 13 bytes that are no track chunk, or not as many as it says; 14 an
   event that is cut short or faulty; 15 no end of track, or bytes behind it; 7; 4 an event later than 2^42. Then
   the list and the count are left as they are. */
uint32_t dollavir_read_chunk(const uint8_t *chunk, size_t chunk_length, int64_t *events, size_t events_length,
    size_t *count);

/* ---- the rehearsal player's profile ---- */

/* Leaves in `yes` whether the rehearsal player accepts the list: 1 where its controllers are 1, 7, 10, 11 and 64
   only, at most one of each at a time, its bends 0 to 16,383, all its events but Meta, SysEx and DirectSMF on one
   channel, and its times from 0 on and never falling; else 0, as where it refuses. Refuses 1, 4. */
uint32_t dollavir_check_profile(const int64_t *events, size_t events_length, size_t count,
    const uint8_t *store, size_t store_length, uint32_t *yes);

/* Fits the list to the rehearsal player: sorts it by time, events of one time in their order, and drops
   controllers but 1, 7, 10, 11 and 64, bends outside 0 to 16,383, and of a controller's events at one time all
   but the last. Leaves the new count in `count`; the places that fall vacant are zeroed. Refuses 1, 4, then 17
   more than one channel (Meta, SysEx and DirectSMF not counted), then 18 a time below 0, each asked of the list
   handed in; then the list and the count are left as they are. */
uint32_t dollavir_fit_profile(int64_t *events, size_t events_length, size_t *count, const uint8_t *store,
    size_t store_length);

/* ---- the track's parameters and layers ---- */

/* A note's velocity at the track's time, of the curve or cycle that is reserved, or the default; a curve that is
   over goes. Leaves it in `value`, 0 where it refuses. Refuses 4. */
uint32_t dollavir_calc_v_on_time(dollavir_track *track, int32_t def, int32_t *value);

/* The same of a note's timing. Leaves it in `value`, 0 where it refuses. Refuses 4. */
uint32_t dollavir_calc_t_on_time(dollavir_track *track, int32_t def, int32_t *value);

/* The same of a note's gate. Leaves it in `value`, 0 where it refuses. Refuses 4. */
uint32_t dollavir_calc_qlen_on_time(dollavir_track *track, int32_t def, int32_t *value);

/* The same of a note's octave. Leaves it in `value`, 0 where it refuses. Refuses 4. */
uint32_t dollavir_calc_o_on_time(dollavir_track *track, int32_t def, int32_t *value);

/* The same of a note's length. Leaves it in `value`, 0 where it refuses. Refuses 4. */
uint32_t dollavir_calc_l_on_time(dollavir_track *track, int32_t def, int32_t *value);

/* A note's velocity, the next of the list that is reserved, or the default; a list that is spent goes. While the
   list is there, the value is the track's velocity too. Leaves it in `value`, 0 where it refuses. Refuses 4. */
uint32_t dollavir_calc_v_on_note(dollavir_track *track, int32_t def, int32_t *value);

/* The same of a note's timing. Leaves it in `value`, 0 where it refuses. Refuses 4. */
uint32_t dollavir_calc_t_on_note(dollavir_track *track, int32_t def, int32_t *value);

/* The same of a note's gate, which is no longer one in steps then. Leaves it in `value`, 0 where it refuses.
   Refuses 4. */
uint32_t dollavir_calc_qlen_on_note(dollavir_track *track, int32_t def, int32_t *value);

/* The same of a note's octave. Leaves it in `value`, 0 where it refuses. Refuses 4. */
uint32_t dollavir_calc_o_on_note(dollavir_track *track, int32_t def, int32_t *value);

/* The same of a note's length, which the track does not keep. Leaves it in `value`, 0 where it refuses. Refuses
   4. */
uint32_t dollavir_calc_l_on_note(dollavir_track *track, int32_t def, int32_t *value);

/* A layer's value; nothing stays reserved for it. Refuses 4, 5. */
uint32_t dollavir_set_v_sub(dollavir_track *track, size_t index, int32_t velocity);

/* A layer's random width. Refuses 4, 5. */
uint32_t dollavir_set_v_sub_random(dollavir_track *track, size_t index, int32_t random);

/* Reserves a curve for a layer, from the track's time and the velocity parameter's delay on. Refuses 3, 4, 5. */
uint32_t dollavir_set_v_sub_on_time(dollavir_track *track, size_t index, const int32_t *values,
    size_t values_length);

/* Reserves a cycle for a layer, its length and then its values; nothing, where there is no value. Refuses 3, 4,
   5. */
uint32_t dollavir_set_v_sub_on_cycle(dollavir_track *track, size_t index, const int32_t *args,
    size_t args_length);

/* Reserves a value of a layer for each of the next notes, round and round where the velocity parameter's repeat
   stands. Refuses 3, 4, 5. */
uint32_t dollavir_set_v_sub_on_note(dollavir_track *track, size_t index, const int32_t *values,
    size_t values_length);

/* A note's velocity at the track's time: the given one and what every layer adds to it. The layers come back
   advanced. Leaves it in `value`, 0 where it refuses. Refuses 4. */
uint32_t dollavir_apply_v_sub(dollavir_track *track, int32_t velocity, int64_t *value);

/* The setters of a parameter, `which` by its number; any other number refuses 4. Reserves a curve, low, high and
   length by threes, from the track's time and the parameter's delay on. Refuses 3, 4. */
uint32_t dollavir_set_param_on_time(dollavir_track *track, uint32_t which, const int32_t *values,
    size_t values_length);

/* Reserves a cycle, its length and then its values, from there on; nothing, where there is no value. Refuses 3,
   4. */
uint32_t dollavir_set_param_on_cycle(dollavir_track *track, uint32_t which, const int32_t *args,
    size_t args_length);

/* Reserves a value for each of the next notes, round and round where repeat stands. Refuses 3, 4. */
uint32_t dollavir_set_param_on_note(dollavir_track *track, uint32_t which, const int32_t *values,
    size_t values_length);

/* Nothing stays reserved. Refuses 4. */
uint32_t dollavir_clear_param_reserve(dollavir_track *track, uint32_t which);

/* The random width of a value. Refuses 4. */
uint32_t dollavir_set_param_random(dollavir_track *track, uint32_t which, int32_t random);

/* The range of a value. Refuses 4. */
uint32_t dollavir_set_param_range(dollavir_track *track, uint32_t which, int32_t low, int32_t high);

/* No range. Refuses 4. */
uint32_t dollavir_clear_param_range(dollavir_track *track, uint32_t which);

/* The delay of what is reserved from now on. Refuses 4. */
uint32_t dollavir_set_param_delay(dollavir_track *track, uint32_t which, int32_t delay);

/* The maximum of a value. Refuses 4. */
uint32_t dollavir_set_param_max(dollavir_track *track, uint32_t which, int32_t max);

/* No maximum. Refuses 4. */
uint32_t dollavir_clear_param_max(dollavir_track *track, uint32_t which);

/* Whether a list that is reserved from now on goes round: 0 or 1. Refuses 4. */
uint32_t dollavir_set_param_repeat(dollavir_track *track, uint32_t which, uint32_t repeat);

/* ---- events ---- */

/* A note of a length and a velocity. Refuses 4. */
dollavir_made dollavir_event_note(int64_t time, int64_t channel, int64_t number, int64_t len, int64_t vel);

/* A program. Refuses 4. */
dollavir_made dollavir_event_voice(int64_t time, int64_t channel, int64_t value);

/* A controller's value. Refuses 2 a number that is no controller's, then 4. */
dollavir_made dollavir_event_cc(int64_t time, int64_t channel, int64_t number, int64_t value);

/* A bend. Refuses 4. */
dollavir_made dollavir_event_pitch_bend(int64_t time, int64_t channel, int64_t value);

/* A bend's range. Refuses 4. */
dollavir_made dollavir_event_pitch_bend_range(int64_t time, int64_t channel, int64_t value);

/* A meta event, its data the `len` bytes of `store` from `offset` on. Refuses 4. */
dollavir_made dollavir_event_meta(int64_t time, int64_t v1, int64_t v2, int64_t v3, int64_t offset,
    int64_t len, const uint8_t *store, size_t store_length);

/* Bytes of `store` that are written as they stand. Refuses 4. */
dollavir_made dollavir_event_direct_smf(int64_t time, int64_t offset, int64_t len, const uint8_t *store,
    size_t store_length);

/* A system exclusive message of bytes of `store`. Refuses 4. */
dollavir_made dollavir_event_sysex_raw(int64_t time, int64_t offset, int64_t len, const uint8_t *store,
    size_t store_length);

/* The bytes that an event counts in the budget. Refuses 4 an event that may not be stored beside `store`. */
uint32_t dollavir_event_bytes(const dollavir_event *event, const uint8_t *store, size_t store_length,
    size_t *bytes);

/* ---- a note parameter of its own ---- */

/* Nothing reserved, no option set. */
dollavir_note_param dollavir_param_new(void);

/* Nothing stays reserved. Refuses 4. */
uint32_t dollavir_param_clear_reserve(dollavir_note_param *param);

/* 1 where something is reserved, else 0. Leaves it in `value`, 0 where it refuses. Refuses 4. */
uint32_t dollavir_param_has_reserve(const dollavir_note_param *param, int32_t *value);

/* Reserves a curve, low, high and length by threes, from `timepos` and the delay on. Refuses 3, 4. */
uint32_t dollavir_param_set_on_time(dollavir_note_param *param, int64_t timepos, const int32_t *values,
    size_t values_length);

/* Reserves a cycle, its length and then its values, from `timepos` and the delay on; nothing, where there is no
   value. Refuses 3, 4. */
uint32_t dollavir_param_set_on_cycle(dollavir_note_param *param, int64_t timepos, const int32_t *args,
    size_t args_length);

/* Reserves a value for each of the next notes, round and round where repeat stands. Refuses 3, 4. */
uint32_t dollavir_param_set_on_note(dollavir_note_param *param, const int32_t *values, size_t values_length);

/* The value of the reserved curve or cycle at `timepos`, or the default; a curve that is over goes. Leaves it in
   `value`, 0 where it refuses. Refuses 4. */
uint32_t dollavir_param_calc_on_time(dollavir_note_param *param, int64_t timepos, int32_t def,
    int32_t *value);

/* The next value of the reserved list, or the default; a list that is spent goes. Leaves it in `value`, 0 where
   it refuses. Refuses 4. */
uint32_t dollavir_param_calc_on_note(dollavir_note_param *param, int32_t def, int32_t *value);

/* A value limited by the range and then by the maximum, where there is one. Leaves it in `limited`, 0 where it
   refuses. Refuses 4. */
uint32_t dollavir_param_apply_limit(const dollavir_note_param *param, int32_t value, int32_t *limited);

/* The maximum, or the default where there is none. Leaves it in `value`, 0 where it refuses. Refuses 4. */
uint32_t dollavir_param_max_or(const dollavir_note_param *param, int32_t def, int32_t *value);

/* The random width of a value. Refuses 4. */
uint32_t dollavir_param_set_random(dollavir_note_param *param, int32_t random);

/* The range of a value. Refuses 4. */
uint32_t dollavir_param_set_range(dollavir_note_param *param, int32_t low, int32_t high);

/* No range. Refuses 4. */
uint32_t dollavir_param_clear_range(dollavir_note_param *param);

/* The delay of what is reserved from now on. Refuses 4. */
uint32_t dollavir_param_set_delay(dollavir_note_param *param, int32_t delay);

/* The maximum of a value. Refuses 4. */
uint32_t dollavir_param_set_max(dollavir_note_param *param, int32_t max);

/* No maximum. Refuses 4. */
uint32_t dollavir_param_clear_max(dollavir_note_param *param);

/* Whether a list that is reserved from now on goes round: 0 or 1. Refuses 4. */
uint32_t dollavir_param_set_repeat(dollavir_note_param *param, uint32_t repeat);

/* ---- velocity layers of their own ---- */

/* One layer, with nothing set. */
dollavir_layers dollavir_layers_new(void);

/* A layer's value; nothing stays reserved for it. Refuses 4, 5. */
uint32_t dollavir_layers_set_v_sub(dollavir_layers *layers, size_t index, int32_t velocity);

/* A layer's random width. Refuses 4, 5. */
uint32_t dollavir_layers_set_v_sub_random(dollavir_layers *layers, size_t index, int32_t random);

/* Reserves a curve for a layer, from `timepos` and the velocity parameter's delay on. Refuses 3, 4, 5. */
uint32_t dollavir_layers_set_v_sub_on_time(dollavir_layers *layers, size_t index, int64_t timepos,
    int32_t delay, const int32_t *values, size_t values_length);

/* Reserves a cycle for a layer, its length and then its values, from `timepos` and the velocity parameter's delay
   on; nothing, where there is no value. Refuses 3, 4, 5. */
uint32_t dollavir_layers_set_v_sub_on_cycle(dollavir_layers *layers, size_t index, int64_t timepos,
    int32_t delay, const int32_t *args, size_t args_length);

/* Reserves a value of a layer for each of the next notes, round and round where the velocity parameter's repeat
   stands. Refuses 3, 4, 5. */
uint32_t dollavir_layers_set_v_sub_on_note(dollavir_layers *layers, size_t index, uint32_t repeat,
    const int32_t *values, size_t values_length);

/* A note's velocity at `timepos`: the given one and what every layer adds to it. The layers come back advanced.
   Leaves it in `value`, 0 where it refuses. Refuses 4. */
uint32_t dollavir_layers_apply_v_sub(dollavir_layers *layers, int64_t timepos, int32_t velocity,
    int64_t *value);

/* ---- a cycle over time of its own ---- */

/* The value of a cycle at `timepos`, and in `found` whether it has one: none before the start, and none of a
   cycle without values or with a length of 0 or less. Leaves it in `value`, 0 where it refuses. Refuses 4. */
uint32_t dollavir_cycle_time_calc(const dollavir_on_cycle_time *cycle, int64_t timepos, uint32_t *found,
    int32_t *value);

/* ---- the kind of a sine ---- */

/* The kind of a sine that a number names, as `write_sine` takes it: 1 and 2 the quarters up and down, any other
   number the full turn, which is 0. Refuses nothing. */
uint32_t dollavir_sine_type(int32_t v);

#ifdef __cplusplus
}
#endif

#endif
