// A plain C reader and writer of Intel HEX by the rules of document 02, §2: what the product's speed is compared with.
#ifndef HEX_H
#define HEX_H
#include "model.h"

struct hex_answer {
    // 0, or the number of the refusal.
    unsigned number;
    size_t line;
    size_t records;
    size_t named;
};

struct hex_answer hex_read(const uint8_t *text, size_t n, uint8_t *array, size_t size);

// Answers the length of the text.
size_t hex_write(const uint8_t *array, size_t size, uint8_t *out);

#endif
