// A plain C model of the six parts: document 01, 'How the chip goes', rules 1 to 9, and document 02, §5 and §6. It refuses nothing: events,
// buffers, counts and state are taken as they are given.
#include "model.h"

struct part {
    uint16_t size;
    uint16_t page;
    // Two address bytes and an enable; else one, and A10..A8 in the select code.
    uint8_t wide;
    uint8_t ident;
    uint8_t pin;
    // The address bit that chooses between identification page and lock.
    uint16_t lock;
    // Bytes of an error-correction group.
    uint8_t group;
};

static const struct part parts[6] = {
    {2048, 16, 0, 1, 0, 128, 1},  {2048, 16, 0, 1, 1, 128, 1},   {8192, 32, 1, 0, 1, 1024, 4},
    {8192, 32, 1, 1, 1, 1024, 4}, {32768, 64, 1, 0, 1, 1024, 4}, {32768, 64, 1, 1, 1, 1024, 4},
};

enum event { CLOCK_0, CLOCK_1, START, STOP, END, PIN_LOW, PIN_HIGH, PIN_FLOAT, RESET };

size_t model_size(unsigned part) { return parts[part].size; }
size_t model_id_size(unsigned part) { return parts[part].ident ? parts[part].page : 0; }
int model_has_pin(unsigned part) { return parts[part].pin; }
size_t model_groups(unsigned part) { return parts[part].size / parts[part].group; }

void model_deliver(unsigned part, struct model *m, uint8_t *array, uint8_t *id) {
    for (size_t i = 0; i < model_size(part); i++) array[i] = 0xFF;
    for (size_t i = 0; i < model_id_size(part); i++) id[i] = 0xFF;
    if (part == 1) {
        id[0] = 0x20;
        id[1] = 0xE0;
        id[2] = 0x0B;
    }
    *m = (struct model){0};
}

// The next place in the counter's page.
static uint16_t rolled(const struct part *p, uint16_t c) { return (uint16_t)((c & ~(p->page - 1)) | ((c + 1) & (p->page - 1))); }

// The place before it.
static uint16_t before(const struct part *p, uint16_t c) { return (uint16_t)((c & ~(p->page - 1)) | ((c - 1) & (p->page - 1))); }

static void go(struct model *m, enum phase phase) {
    m->phase = (uint8_t)phase;
    m->bits = 0;
    m->shift = 0;
}

static int release(struct model *m) {
    go(m, IDLE);
    return 1;
}

static int acknowledge(struct model *m, enum phase phase) {
    go(m, phase);
    return 0;
}

// Rule 4: after a refused data byte the latches are dropped.
static int refuse(struct model *m) {
    m->latched = 0;
    return release(m);
}

// Rule 1.
static int selected(struct model *m, const struct part *p, unsigned enable, uint8_t byte) {
    if (p->wide && (byte >> 1 & 7) != enable) return release(m);
    if (byte >> 4 == 10) m->ident = 0;
    else if (byte >> 4 == 11 && p->ident) m->ident = 1;
    else return release(m);
    if (byte & 1) return acknowledge(m, SEND);
    m->high = m->ident ? 0 : byte >> 1 & 7;
    return acknowledge(m, p->wide ? ADDRESS_HIGH : ADDRESS_LOW);
}

// Rule 2.
static int addressed(struct model *m, const struct part *p, uint8_t byte) {
    unsigned address = m->high * 256u + byte;
    m->latched = 0;
    m->acked = 0;
    if (!m->ident) {
        m->counter = (uint16_t)(address & (p->size - 1));
        return acknowledge(m, DATA);
    }
    m->counter = (uint16_t)(address & (p->page - 1));
    return acknowledge(m, address & p->lock ? LOCK : DATA);
}

// Rules 3 and 4.
static int filled(struct model *m, const struct part *p, uint8_t byte) {
    if (m->inhibited || (m->ident && m->locked)) return refuse(m);
    unsigned place = m->counter & (p->page - 1);
    m->latch[place] = byte;
    m->latched |= (uint64_t)1 << place;
    m->counter = rolled(p, m->counter);
    m->acked = 1;
    return acknowledge(m, DATA);
}

// What a whole received byte does, at its ninth clock.
static int taken(struct model *m, const struct part *p, unsigned enable, uint8_t byte) {
    switch (m->phase) {
    case SELECT: return selected(m, p, enable, byte);
    case ADDRESS_HIGH: m->high = byte; return acknowledge(m, ADDRESS_LOW);
    case ADDRESS_LOW: return addressed(m, p, byte);
    case DATA: return filled(m, p, byte);
    case LOCK:
        if (m->inhibited || m->locked) return refuse(m);
        m->acked = byte >> 1 & 1;
        return acknowledge(m, LOCK_TAKEN);
    default: return refuse(m);
    }
}

// Rule 8.
static int sent(struct model *m, const struct part *p, const uint8_t *array, const uint8_t *id, uint8_t bit) {
    if (m->bits == 8) {
        m->bits = 0;
        if (bit) m->phase = IDLE;
        return 1;
    }
    uint8_t byte = m->ident ? id[m->counter & (p->page - 1)] : array[m->counter];
    int level = byte >> (7 - m->bits) & 1;
    if (++m->bits == 8) m->counter = (uint16_t)((m->counter + 1) & ((m->ident ? p->page : p->size) - 1));
    return level;
}

static int clocked(struct model *m, const struct part *p, unsigned enable, const uint8_t *array, const uint8_t *id, uint8_t bit) {
    switch (m->phase) {
    case IDLE:
    case WRITING:
    case LOCKING: return 1;
    case SEND: return sent(m, p, array, id, bit);
    default:
        if (m->bits == 8) return taken(m, p, enable, m->shift);
        m->shift = (uint8_t)(m->shift << 1 | bit);
        m->bits++;
        return 1;
    }
}

static int busy(const struct model *m) { return m->phase >= WRITING; }

static int in_transfer(const struct model *m) { return m->phase != IDLE && !busy(m); }

static void started(struct model *m) {
    if (busy(m)) return;
    m->latched = 0;
    m->inhibited = m->pin_high;
    go(m, SELECT);
}

// Rule 6: answers the cycles begun.
static unsigned stopped(struct model *m) {
    if (busy(m)) return 0;
    if ((m->phase == DATA || m->phase == LOCK_TAKEN) && m->acked && m->bits == 0 && !m->inhibited) {
        go(m, m->phase == DATA ? WRITING : LOCKING);
        return 1;
    }
    m->latched = 0;
    go(m, IDLE);
    return 0;
}

// The page that is being written.
static uint8_t *written(struct model *m, const struct part *p, uint8_t *array, uint8_t *id) {
    return m->ident ? id : array + (m->counter & ~(p->page - 1));
}

// Rule 7.
static void ended(struct model *m, const struct part *p, uint8_t *array, uint8_t *id) {
    if (!busy(m)) return;
    if (m->phase == LOCKING) {
        m->locked = 1;
    } else {
        uint8_t *page = written(m, p, array, id);
        for (unsigned i = 0; i < p->page; i++)
            if (m->latched >> i & 1) page[i] = m->latch[i];
        if (!m->ident) m->counter = (uint16_t)((before(p, m->counter) + 1) & (p->size - 1));
    }
    m->latched = 0;
    go(m, IDLE);
}

static void pinned(struct model *m, uint8_t high) {
    m->pin_high = high;
    if (high && in_transfer(m)) m->inhibited = 1;
}

// §5: each group with a latched byte comes up as the lent page has it.
static void spoiled(struct model *m, const struct part *p, uint8_t *page, const uint8_t *lent) {
    uint64_t group = ((uint64_t)1 << p->group) - 1;
    for (unsigned i = 0; i < p->page; i += p->group)
        if (m->latched >> i & group)
            for (unsigned k = i; k < i + p->group; k++) page[k] = lent[k];
}

// Rule 9, and §5 where it cuts a cycle.
static void reset(struct model *m, const struct part *p, uint8_t *array, uint8_t *id, const uint8_t *lent, int lock) {
    if (lent && m->phase == WRITING) spoiled(m, p, written(m, p, array, id), lent);
    if (lent && m->phase == LOCKING) m->locked = lock != 0;
    m->counter = 0;
    m->inhibited = 0;
    m->latched = 0;
    go(m, IDLE);
}

// §6: an end or a cut of a write cycle of the array.
static void worn(const struct model *m, const struct part *p, uint32_t *counts) {
    if (m->phase != WRITING || m->ident) return;
    uint64_t group = ((uint64_t)1 << p->group) - 1;
    uint32_t *count = counts + (m->counter & ~(p->page - 1)) / p->group;
    for (unsigned i = 0; i < p->page; i += p->group, count++)
        if (m->latched >> i & group && *count != 0xFFFFFFFF) ++*count;
}

// In each caller by itself, so that a run without counts, a null pointer, pays nothing for them.
static inline __attribute__((always_inline)) size_t run(unsigned part, unsigned enable, const uint8_t *lent, int lock, struct model *m,
                                                        uint8_t *array, uint8_t *id, uint32_t *counts, const uint8_t *events, size_t n,
                                                        uint8_t *answers) {
    const struct part *p = &parts[part];
    size_t cycles = 0;
    for (size_t i = 0; i < n; i++) {
        uint8_t level = 2;
        switch (events[i]) {
        case CLOCK_0:
        case CLOCK_1: level = (uint8_t)clocked(m, p, enable, array, id, events[i]); break;
        case START: started(m); break;
        case STOP: cycles += stopped(m); break;
        case END:
            if (counts) worn(m, p, counts);
            ended(m, p, array, id);
            break;
        case PIN_LOW:
        case PIN_FLOAT: pinned(m, 0); break;
        case PIN_HIGH: pinned(m, 1); break;
        case RESET:
            if (counts) worn(m, p, counts);
            reset(m, p, array, id, lent, lock);
            break;
        default: break;
        }
        answers[i] = level;
    }
    return cycles;
}

size_t model_run(unsigned part, unsigned enable, const uint8_t *lent, int lock, struct model *m, uint8_t *array, uint8_t *id,
                 const uint8_t *events, size_t n, uint8_t *answers) {
    return run(part, enable, lent, lock, m, array, id, 0, events, n, answers);
}

size_t model_wear_run(unsigned part, unsigned enable, const uint8_t *lent, int lock, struct model *m, uint8_t *array, uint8_t *id,
                      uint32_t *counts, const uint8_t *events, size_t n, uint8_t *answers) {
    return run(part, enable, lent, lock, m, array, id, counts, events, n, answers);
}

struct worst model_worst(const uint32_t *counts, size_t n) {
    struct worst w = {0, 0};
    for (size_t i = 0; i < n; i++)
        if (w.count < counts[i]) w = (struct worst){i, counts[i]};
    return w;
}
