#include "hex.h"

void *memcpy(void *, const void *, size_t);
void *memset(void *, int, size_t);

enum { MOST = 32768 };

// ---- reading

// The value of a digit of either case; 16 for any other byte.
static unsigned digit(uint8_t c) {
    if (c >= '0' && c <= '9') return c - '0';
    if (c >= 'A' && c <= 'F') return c - 'A' + 10;
    if (c >= 'a' && c <= 'f') return c - 'a' + 10;
    return 16;
}

// Two digits as a byte; 256 and more where there are no two.
static unsigned pair(const uint8_t *d) {
    unsigned high = digit(d[0]), low = digit(d[1]);
    return high < 16 && low < 16 ? high << 4 | low : 256;
}

struct page {
    // What the array will hold, and which bytes of it are named.
    uint8_t bytes[MOST];
    uint8_t named[MOST];
    size_t count;
};

enum found { TAKEN, ENDS };

// A line without its end. Answers a refusal's number, or `TAKEN` or `ENDS`.
static unsigned take_line(const uint8_t *line, size_t n, struct page *p, size_t size) {
    if (n < 11 || line[0] != ':') return 16;
    unsigned count = pair(line + 1), high = pair(line + 3), low = pair(line + 5), kind = pair(line + 7);
    if (count > 255 || high > 255 || low > 255 || kind > 255 || n != 2 * count + 11) return 16;
    unsigned sum = count + high + low + kind, check = pair(line + n - 2);
    if (check > 255) return 16;
    if (kind != 0) return count == 0 && high == 0 && low == 0 && kind == 1 && check == 255 ? ENDS : 16;
    size_t at = high << 8 | low;
    int inside = at + count <= size, free = 1;
    const uint8_t *digits = line + 9;
    for (unsigned i = 0; i < count; i++) {
        unsigned x = pair(digits + 2 * i);
        if (x > 255) return 16;
        sum += x;
        if (inside) {
            free &= !p->named[at + i];
            p->named[at + i] = 1;
            p->bytes[at + i] = (uint8_t)x;
        }
    }
    if ((sum + check) & 255) return 17;
    if (!inside || !free) return 18;
    p->count += count;
    return TAKEN;
}

struct hex_answer hex_read(const uint8_t *text, size_t n, uint8_t *array, size_t size) {
    struct page p;
    memset(p.bytes, 255, size);
    memset(p.named, 0, size);
    p.count = 0;
    size_t at = 0, line = 0;
    while (at < n) {
        size_t end = at;
        while (end < n && text[end] != '\n') end++;
        size_t stop = end < n && end > at && text[end - 1] == '\r' ? end - 1 : end;
        size_t next = end < n ? end + 1 : end;
        unsigned found = take_line(text + at, stop - at, &p, size);
        line++;
        if (found == ENDS) {
            if (next < n) return (struct hex_answer){19, line + 1, 0, 0};
            memcpy(array, p.bytes, size);
            return (struct hex_answer){0, 0, line - 1, p.count};
        }
        if (found != TAKEN) return (struct hex_answer){found, line, 0, 0};
        at = next;
    }
    return (struct hex_answer){19, line + 1, 0, 0};
}

// ---- writing

static uint8_t *put(uint8_t *out, unsigned x) {
    static const char digits[] = "0123456789ABCDEF";
    out[0] = (uint8_t)digits[x >> 4];
    out[1] = (uint8_t)digits[x & 15];
    return out + 2;
}

size_t hex_write(const uint8_t *array, size_t size, uint8_t *out) {
    uint8_t *to = out;
    for (size_t at = 0; at < size; at += 16) {
        unsigned sum = 16 + (unsigned)(at >> 8) + (unsigned)(at & 255);
        *to++ = ':';
        to = put(to, 16);
        to = put(to, (unsigned)(at >> 8));
        to = put(to, (unsigned)(at & 255));
        to = put(to, 0);
        for (unsigned i = 0; i < 16; i++) {
            sum += array[at + i];
            to = put(to, array[at + i]);
        }
        to = put(to, -sum & 255);
        *to++ = '\n';
    }
    memcpy(to, ":00000001FF\n", 12);
    return (size_t)(to - out) + 12;
}
