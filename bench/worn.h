// Plain C that saves and loads a chip with its counts of wear and converts its image, by the rules of document 02, §7: what the product's speed is
// compared with.
#ifndef WORN_H
#define WORN_H
#include "model.h"

// What is stored of a chip beside its lock, with the lengths of what is lent for it.
struct store {
    uint8_t *array;
    size_t array_length;
    uint8_t *id;
    size_t id_length;
    uint32_t *counts;
    size_t counts_length;
};

// The length of a part's image, without counts and with them.
size_t image_plain(unsigned part);
size_t image_worn(unsigned part);

// Each answers 0, or the number of the refusal; `written` gets the length of the image, of a refused call 0.
unsigned worn_save(unsigned part, unsigned locked, const struct store *from, uint8_t *out, size_t room, size_t *written);
// `held`: there is a state buffer of the right length.
unsigned worn_load(const uint8_t *image, size_t n, unsigned enable, int held, unsigned *locked, const struct store *to);
unsigned worn_from_plain(const uint8_t *image, size_t n, uint8_t *out, size_t room, size_t *written);
unsigned worn_to_plain(const uint8_t *image, size_t n, uint8_t *out, size_t room, size_t *written);

#endif
