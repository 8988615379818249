// A plain C model of a chip: what the product's speed is compared with.
#ifndef MODEL_H
#define MODEL_H

// The toolchain has no C headers.
typedef __UINT8_TYPE__ uint8_t;
typedef __UINT16_TYPE__ uint16_t;
typedef __UINT32_TYPE__ uint32_t;
typedef __UINT64_TYPE__ uint64_t;
typedef __SIZE_TYPE__ size_t;

enum phase { IDLE, SELECT, ADDRESS_HIGH, ADDRESS_LOW, DATA, LOCK, LOCK_TAKEN, SEND, WRITING, LOCKING };

struct model {
    uint16_t counter;
    uint8_t phase;
    // The transfer or cycle is of the identification page.
    uint8_t ident;
    // Bits of the current byte; with eight the acknowledge is next.
    uint8_t bits;
    uint8_t shift;
    // The address bits above the last address byte.
    uint8_t high;
    // A data byte was acknowledged; of a lock byte, that its bit 1 was set.
    uint8_t acked;
    uint8_t pin_high;
    uint8_t inhibited;
    uint8_t locked;
    // A bit for each place of the page that has a latch.
    uint64_t latched;
    uint8_t latch[64];
};

// The most worn group, the lowest on a tie.
struct worst {
    size_t group;
    uint32_t count;
};

size_t model_size(unsigned part);
size_t model_id_size(unsigned part);
int model_has_pin(unsigned part);
// How many error-correction groups the array has.
size_t model_groups(unsigned part);

// A part as delivered.
void model_deliver(unsigned part, struct model *m, uint8_t *array, uint8_t *id);

// A list of events: a level for each (0 low, 1 released, 2 none). Answers the cycles begun. A reset in a cycle finds the lent page and the
// flag, or with a null pointer the old contents and no lock.
size_t model_run(unsigned part, unsigned enable, const uint8_t *lent, int lock, struct model *m, uint8_t *array, uint8_t *id,
                 const uint8_t *events, size_t n, uint8_t *answers);

// The same, and each group of the array that a write cycle touches counts one more when that cycle ends or is cut, staying at the top.
size_t model_wear_run(unsigned part, unsigned enable, const uint8_t *lent, int lock, struct model *m, uint8_t *array, uint8_t *id,
                      uint32_t *counts, const uint8_t *events, size_t n, uint8_t *answers);

// What a walk along the counts finds.
struct worst model_worst(const uint32_t *counts, size_t n);

#endif
