#include "worn.h"

void *memcpy(void *, const void *, size_t);
void *memset(void *, int, size_t);
int memcmp(const void *, const void *, size_t);

enum { VERSION_AT = 4, PART_AT = 5, LOCK_AT = 6, HEAD = 7 };

size_t image_plain(unsigned part) { return HEAD + model_size(part) + model_id_size(part); }
size_t image_worn(unsigned part) { return image_plain(part) + 4 * model_groups(part); }

static int lent_right(unsigned part, const struct store *s) {
    return s->array_length == model_size(part) && s->id_length == model_id_size(part) && s->counts_length == model_groups(part);
}

// Whether the bytes are an image of the part, of a version whose images of it are so long.
static int formed(const uint8_t *image, size_t n, unsigned part, unsigned version, size_t length) {
    const uint8_t mark[] = {'E', 'P', 'R', 0, (uint8_t)version};
    return n == length && memcmp(image, mark, sizeof mark) == 0 && image[LOCK_AT] <= (model_id_size(part) != 0);
}

// ---- counts, high byte first

static void put_counts(uint8_t *out, const uint32_t *counts, size_t groups) {
    for (size_t i = 0; i < groups; i++, out += 4) {
        uint32_t count = counts[i];
        out[0] = (uint8_t)(count >> 24);
        out[1] = (uint8_t)(count >> 16);
        out[2] = (uint8_t)(count >> 8);
        out[3] = (uint8_t)count;
    }
}

static void take_counts(uint32_t *counts, const uint8_t *bytes, size_t groups) {
    for (size_t i = 0; i < groups; i++, bytes += 4)
        counts[i] = (uint32_t)bytes[0] << 24 | (uint32_t)bytes[1] << 16 | (uint32_t)bytes[2] << 8 | bytes[3];
}

static int all_zero(const uint8_t *bytes, size_t n) {
    for (size_t i = 0; i < n; i++)
        if (bytes[i] != 0) return 0;
    return 1;
}

// ---- a chip

unsigned worn_save(unsigned part, unsigned locked, const struct store *from, uint8_t *out, size_t room, size_t *written) {
    *written = 0;
    if (part > 5) return 1;
    if (!lent_right(part, from)) return 3;
    if (room < image_worn(part)) return 6;
    const uint8_t head[HEAD] = {'E', 'P', 'R', 0, 2, (uint8_t)part, (uint8_t)locked};
    memcpy(out, head, sizeof head);
    memcpy(out + HEAD, from->array, from->array_length);
    memcpy(out + HEAD + from->array_length, from->id, from->id_length);
    put_counts(out + image_plain(part), from->counts, from->counts_length);
    *written = image_worn(part);
    return 0;
}

unsigned worn_load(const uint8_t *image, size_t n, unsigned enable, int held, unsigned *locked, const struct store *to) {
    if (n <= PART_AT) return 12;
    unsigned part = image[PART_AT];
    if (part > 5) return 1;
    if (enable > (part < 2 ? 0 : 7)) return 2;
    if (!lent_right(part, to)) return 3;
    if (!held) return 4;
    int worn = formed(image, n, part, 2, image_worn(part));
    if (!worn && !formed(image, n, part, 1, image_plain(part))) return 12;
    memcpy(to->array, image + HEAD, to->array_length);
    memcpy(to->id, image + HEAD + to->array_length, to->id_length);
    if (worn)
        take_counts(to->counts, image + image_plain(part), to->counts_length);
    else
        memset(to->counts, 0, to->counts_length * sizeof *to->counts);
    *locked = image[LOCK_AT];
    return 0;
}

// ---- one version as the other

unsigned worn_from_plain(const uint8_t *image, size_t n, uint8_t *out, size_t room, size_t *written) {
    *written = 0;
    if (n <= PART_AT) return 12;
    unsigned part = image[PART_AT];
    if (part > 5) return 1;
    if (room < image_worn(part)) return 6;
    if (!formed(image, n, part, 1, image_plain(part))) return 12;
    memcpy(out, image, n);
    memset(out + n, 0, image_worn(part) - n);
    out[VERSION_AT] = 2;
    *written = image_worn(part);
    return 0;
}

unsigned worn_to_plain(const uint8_t *image, size_t n, uint8_t *out, size_t room, size_t *written) {
    *written = 0;
    if (n <= PART_AT) return 12;
    unsigned part = image[PART_AT];
    if (part > 5) return 1;
    size_t length = image_plain(part);
    if (room < length) return 6;
    if (!formed(image, n, part, 2, image_worn(part))) return 12;
    if (!all_zero(image + length, n - length)) return 21;
    memcpy(out, image, length);
    out[VERSION_AT] = 1;
    *written = length;
    return 0;
}
