// In one file with the model, so that its step is no call.
#include "capture.h"
#include "model.c"

struct reader {
    const uint8_t *samples;
    size_t n, next;
    int bus;
};

// The next event's code, and the sample that makes it; -1 where there is none.
static int next_event(struct reader *r, size_t *at) {
    const uint8_t *s = r->samples;
    for (size_t i = r->next; i < r->n;) {
        uint8_t before = s[i - 1], now = s[i];
        size_t here = i++;
        if (before == now || !(now & 1)) continue;
        if (before & 1) {
            *at = here;
            r->next = i;
            return now >> 1 ? STOP : START;
        }
        if (r->bus) {
            while (i < r->n && s[i] == now) i++;
            if (i < r->n && (s[i] & 1)) continue;
        }
        *at = here;
        r->next = i;
        return now >> 1;
    }
    r->next = r->n;
    return -1;
}

// Whether a byte follows that is acknowledged.
static int acknowledged(struct reader r) {
    size_t at;
    for (int k = 0; k < 8; k++)
        if ((unsigned)next_event(&r, &at) > 1) return 0;
    return next_event(&r, &at) == 0;
}

struct seen capture_run(unsigned part, unsigned enable, struct model *m, uint8_t *array, uint8_t *id, int bus, const uint8_t *samples, size_t n) {
    const struct part *p = &parts[part];
    struct reader r = {samples, n, 1, bus};
    struct seen seen = {0, 0, 0, 0, 2, 0, 0};
    unsigned place = 0;
    size_t at = 0;
    for (int code; (code = next_event(&r, &at)) >= 0; seen.events++) {
        if (code == START) {
            if (busy(m) && acknowledged(r)) {
                ended(m, p, array, id);
                seen.ends++;
            }
            started(m);
            place = 0;
        } else if (code == STOP) {
            seen.cycles += stopped(m);
            place = 0;
        } else {
            int looked = m->phase == SEND ? m->bits < 8 : place == 8;
            int level = clocked(m, p, enable, array, id, (uint8_t)code);
            if (looked && level != code && seen.level == 2) {
                seen.level = (unsigned)code;
                seen.sample = at;
                seen.clock = seen.clocks;
            }
            seen.clocks++;
            place = place < 8 ? place + 1 : 0;
        }
    }
    return seen;
}

static void up(unsigned *count) {
    if (*count != 0xFFFFFFFF) ++*count;
}

void capture_tally(int bus, const uint8_t *samples, size_t n, unsigned counts[4]) {
    struct reader r = {samples, n, 1, bus};
    unsigned place = 0;
    size_t at;
    for (int code; (code = next_event(&r, &at)) >= 0;) {
        if (code > 1) {
            up(&counts[code - 2]);
            place = 0;
        } else if (place < 8) {
            place++;
        } else {
            up(&counts[2]);
            if (code) up(&counts[3]);
            place = 0;
        }
    }
}
