// A plain C run of the model over a capture, and a plain tally, by the rules of document 02, §3: what the product's speed is compared with.
#ifndef CAPTURE_H
#define CAPTURE_H
#include "model.h"

struct seen {
    size_t events, clocks, ends, cycles;
    // The first clock that differs: 2 for none, else the line's level; the sample at which it rises, and its number.
    unsigned level;
    size_t sample, clock;
};

struct seen capture_run(unsigned part, unsigned enable, struct model *m, uint8_t *array, uint8_t *id, int bus, const uint8_t *samples, size_t n);

// Starts, Stops, bytes, unacknowledged bytes, each staying at the top.
void capture_tally(int bus, const uint8_t *samples, size_t n, unsigned counts[4]);

#endif
