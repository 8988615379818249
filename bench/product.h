// The library that is measured: the only place that names its functions.
#ifndef PRODUCT_H
#define PRODUCT_H
#include "../include/sapwoodle.h"
#include "capture.h"
#include "hex.h"
#include "model.h"
#include "worn.h"

void *memcpy(void *, const void *, size_t);

// A state as delivered, of the part that `product_deliver` was last asked for.
static uint8_t delivered[SAPWOODLE_STATE_LENGTH];

static void product_deliver(uint8_t part, uint8_t *array, uint8_t *id) {
    sapwoodle_deliver(part, delivered, sizeof delivered, array, model_size(part), id, model_id_size(part));
}

// The events on such a state and what is stored. Answers the cycles begun.
static size_t product_run(uint8_t part, uint8_t enable, const uint8_t *lent, size_t lent_length, uint8_t lock, uint8_t *state,
                          uint8_t *array, uint8_t *id, const uint8_t *events, size_t n, uint8_t *answers) {
    size_t cycles = 0, place = 0;
    memcpy(state, delivered, sizeof delivered);
    sapwoodle_run(part, enable, lent, lent_length, lock, state, sizeof delivered, array, model_size(part), id, model_id_size(part),
                  events, n, answers, n, &cycles, &place);
    return cycles;
}

// The same with the counts of a part's groups and the worst of them, which go on.
static size_t product_wear_run(uint8_t part, uint8_t enable, const uint8_t *lent, size_t lent_length, uint8_t lock, uint8_t *state,
                               uint8_t *array, uint8_t *id, uint32_t *counts, struct worst *worst, const uint8_t *events, size_t n,
                               uint8_t *answers) {
    size_t cycles = 0, place = 0;
    memcpy(state, delivered, sizeof delivered);
    sapwoodle_wear_run(part, enable, lent, lent_length, lock, state, sizeof delivered, array, model_size(part), id, model_id_size(part),
                       counts, model_groups(part), &worst->group, &worst->count, events, n, answers, n, &cycles, &place);
    return cycles;
}

static unsigned product_worst(uint8_t part, const uint32_t *counts, struct worst *worst) {
    return sapwoodle_worst(part, counts, model_groups(part), &worst->group, &worst->count);
}

// One page written through the driver, with the counts and the worst of them.
static unsigned product_wear_write(uint8_t part, uint8_t *state, uint8_t *array, uint8_t *id, uint8_t *data, size_t n, uint32_t *counts,
                                   struct worst *worst) {
    size_t place = 0, polls = 0, bytes = 0, cycles = 0, clocks = 0;
    return sapwoodle_wear_bench_run(part, 0, SAPWOODLE_WRITE, 0, n, 10, 0, 1, state, sizeof delivered, array, model_size(part), id,
                                    model_id_size(part), data, n, counts, model_groups(part), &worst->group, &worst->count, &place, &polls,
                                    &bytes, &cycles, &clocks);
}

// How a run answers to so many counts.
static unsigned product_counts(uint8_t part, uint8_t *array, uint8_t *id, uint32_t *counts, size_t length, struct worst *worst,
                               const uint8_t *events, size_t n, uint8_t *answers) {
    uint8_t state[SAPWOODLE_STATE_LENGTH];
    size_t cycles = 0, place = 0;
    product_deliver(part, array, id);
    memcpy(state, delivered, sizeof state);
    return sapwoodle_wear_run(part, 0, answers, 0, 0, state, sizeof state, array, model_size(part), id, model_id_size(part), counts, length,
                              &worst->group, &worst->count, events, n, answers, n, &cycles, &place);
}

// How a step and a run answer to a page and a flag; 255 where they differ.
static unsigned product_lent(uint8_t part, const uint8_t *lent, size_t length, uint8_t lock, uint8_t *array, uint8_t *id) {
    uint8_t state[SAPWOODLE_STATE_LENGTH], level = 0;
    size_t cycles = 0, place = 0;
    product_deliver(part, array, id);
    memcpy(state, delivered, sizeof state);
    unsigned a = sapwoodle_step(part, 0, lent, length, lock, state, sizeof state, array, model_size(part), id, model_id_size(part),
                                SAPWOODLE_RESET, &level, &cycles);
    unsigned b = sapwoodle_run(part, 0, lent, length, lock, state, sizeof state, array, model_size(part), id, model_id_size(part), &level, 0,
                               &level, 0, &cycles, &place);
    return a == b ? a : 255;
}

static struct hex_answer product_hex_read(uint8_t part, const uint8_t *text, size_t n, uint8_t *array) {
    struct hex_answer a = {0, 0, 0, 0};
    a.number = sapwoodle_hex_read(part, text, n, array, model_size(part), &a.line, &a.records, &a.named);
    return a;
}

// Answers the length of the text; 0 where it is refused.
static size_t product_hex_write(uint8_t part, const uint8_t *array, uint8_t *out, size_t room) {
    size_t written = 0;
    sapwoodle_hex_write(part, array, model_size(part), out, room, &written);
    return written;
}

// A capture on a state as delivered.
static struct seen product_capture(uint8_t part, uint8_t enable, uint8_t *state, uint8_t *array, uint8_t *id, uint8_t bus, const uint8_t *samples,
                                   size_t n) {
    struct seen s = {0, 0, 0, 0, 0, 0, 0};
    uint8_t level = 0;
    size_t place = 0;
    memcpy(state, delivered, sizeof delivered);
    sapwoodle_capture_run(part, enable, state, sizeof delivered, array, model_size(part), id, model_id_size(part), bus, samples, n, &s.events,
                          &s.clocks, &s.ends, &s.cycles, &level, &s.sample, &s.clock, &place);
    s.level = level;
    return s;
}

static void product_tally(uint8_t bus, const uint8_t *samples, size_t n, unsigned counts[4]) {
    size_t place = 0;
    sapwoodle_capture_tally(bus, samples, n, &counts[0], &counts[1], &counts[2], &counts[3], &place);
}

// A chip as delivered but for its lock, with what is stored of it and its counts.
static unsigned product_save_worn(uint8_t part, unsigned locked, const struct store *from, uint8_t *out, size_t room, size_t *written) {
    uint8_t state[SAPWOODLE_STATE_LENGTH];
    memcpy(state, delivered, sizeof state);
    state[4] = (uint8_t)locked;
    return sapwoodle_save_worn(part, state, sizeof state, from->array, from->array_length, from->id, from->id_length, from->counts,
                               from->counts_length, out, room, written);
}

static unsigned product_load_worn(const uint8_t *image, size_t n, uint8_t enable, uint8_t *state, size_t state_length, const struct store *to,
                                  uint8_t *part, struct worst *worst) {
    return sapwoodle_load_worn(image, n, enable, state, state_length, to->array, to->array_length, to->id, to->id_length, to->counts,
                               to->counts_length, part, &worst->group, &worst->count);
}

static unsigned product_from_plain(const uint8_t *image, size_t n, uint8_t *out, size_t room, size_t *written) {
    return sapwoodle_to_worn(image, n, out, room, written);
}

static unsigned product_to_plain(const uint8_t *image, size_t n, uint8_t *out, size_t room, size_t *written) {
    return sapwoodle_to_plain(image, n, out, room, written);
}

#endif
