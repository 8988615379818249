// The product and the plain C model in one process: first the same events to both, with power lost in cycles and pages lent for that, every
// level, every stored byte, the lock, the counter and the cycles compared, and with counts of wear every count too, the same Intel HEX texts to
// both readers, the same captures and the same images with counts to both; then the events, bytes of text, samples and bytes of images per second
// of each. Prints a line for each workload, and ends with 1 where they differ.
#include "capture.h"
#include "hex.h"
#include "product.h"
#include "worn.h"

typedef long time_type;
struct timespec {
    time_type seconds;
    long nanoseconds;
};
int clock_gettime(int, struct timespec *);
int printf(const char *, ...);
int memcmp(const void *, const void *, size_t);

enum { ROOM = 32768, REPEATS = 40, GROUPS = 8192 };

static uint8_t events[ROOM];

struct world {
    struct model chip;
    uint8_t array[32768];
    uint8_t id[64];
    uint8_t answers[ROOM];
    size_t cycles;
    uint32_t counts[GROUPS];
};
static struct world plain, product;
static uint8_t state[SAPWOODLE_STATE_LENGTH];

// What is given for a loss of power: a page and a flag, or no page and flag 0.
static uint8_t lent[64];
static size_t lent_length;
static unsigned lock;

// ---- events

static uint64_t seed = 1;

static unsigned random_below(unsigned n) {
    seed ^= seed << 13;
    seed ^= seed >> 7;
    seed ^= seed << 17;
    return (unsigned)((seed >> 20) % n);
}

struct list {
    size_t n;
    size_t end;
};

static void put(struct list *l, uint8_t event) {
    if (l->n < l->end) events[l->n++] = event;
}

static void put_byte(struct list *l, unsigned byte, uint8_t ninth) {
    for (int k = 7; k >= 0; k--) put(l, byte >> k & 1);
    put(l, ninth);
}

static void put_address(struct list *l, unsigned part, unsigned enable, unsigned address) {
    put(l, 2);
    put_byte(l, 0xA0 | (part < 2 ? address >> 8 & 7 : enable) << 1, 1);
    if (part >= 2) put_byte(l, address >> 8, 1);
    put_byte(l, address & 0xFF, 1);
}

static unsigned page_of(unsigned part) { return part < 2 ? 16 : part < 4 ? 32 : 64; }

// Whole pages written, one after the other.
static size_t page_writes(unsigned part) {
    struct list l = {0, ROOM};
    unsigned page = page_of(part);
    for (unsigned address = 0; l.n + 9 * (page + 3) + 3 <= ROOM; address += page) {
        put_address(&l, part, 0, address);
        for (unsigned i = 0; i < page; i++) put_byte(&l, random_below(256), 1);
        put(&l, 3);
        put(&l, 4);
    }
    return l.n;
}

// The same, but power is lost in each cycle.
static size_t cuts(unsigned part) {
    size_t n = page_writes(part);
    for (size_t i = 0; i < n; i++)
        if (events[i] == 4) events[i] = 8;
    return n;
}

// One long read.
static size_t long_read(unsigned part) {
    struct list l = {0, ROOM};
    put_address(&l, part, 0, 0);
    put(&l, 2);
    put_byte(&l, 0xA1, 1);
    while (l.n + 10 <= ROOM) put_byte(&l, 0xFF, l.n + 19 > ROOM);
    put(&l, 3);
    return l.n;
}

// A byte written, a hundred polls in its cycle and one after it.
static size_t polling(unsigned part) {
    struct list l = {0, ROOM};
    for (unsigned address = 0; l.n + 1100 <= ROOM; address++) {
        put_address(&l, part, 0, address);
        put_byte(&l, random_below(256), 1);
        put(&l, 3);
        for (int poll = 0; poll <= 100; poll++) {
            if (poll == 100) put(&l, 4);
            put(&l, 2);
            put_byte(&l, 0xA0, 1);
        }
        put(&l, 3);
    }
    return l.n;
}

// Transfers of every kind, cut and disturbed at random: what the comparison runs on. Some cycles are cut by a reset.
static size_t disturbed(unsigned part, unsigned enable, unsigned often, int resets) {
    static const uint8_t loose[] = {0, 1, 2, 3, 4, 8, 5, 6, 7};
    unsigned kinds = model_has_pin(part) ? 9 : 6;
    struct list l = {0, ROOM};
    while (l.n < ROOM) {
        unsigned read = random_below(3) == 0, ident = random_below(3) == 0, locks = ident && random_below(3) == 0;
        unsigned bytes = locks ? 1 : random_below(random_below(2) ? 8 : 2 * page_of(part) + 2);
        unsigned code = (ident ? 0xB0 : 0xA0) | (random_below(8) ? enable : random_below(8)) << 1;
        size_t begin = l.n;
        if (random_below(4)) {
            put(&l, 2);
            put_byte(&l, code, 1);
            if (part >= 2) put_byte(&l, random_below(256) | (locks ? 4 : 0), 1);
            put_byte(&l, random_below(256) | (locks ? 128 : 0), 1);
        }
        if (read) {
            put(&l, 2);
            put_byte(&l, code | 1, 1);
        }
        for (unsigned i = 0; i < bytes; i++) put_byte(&l, read ? 0xFF : random_below(256), read ? i + 1 == bytes : 1);
        if (random_below(4)) put(&l, 3);
        if (random_below(3)) put(&l, resets && random_below(2) ? 8 : 4);
        for (size_t i = begin; i < l.n; i++)
            if (random_below(often) == 0) events[i] = loose[random_below(kinds)];
    }
    return l.n;
}

// ---- runs

static void fresh(unsigned part) {
    model_deliver(part, &plain.chip, plain.array, plain.id);
    product_deliver((uint8_t)part, product.array, product.id);
}

static void lend(unsigned part, int whether) {
    lent_length = whether ? page_of(part) : 0;
    lock = whether ? random_below(3) : 0;
    for (unsigned i = 0; i < sizeof lent; i++) lent[i] = (uint8_t)random_below(256);
}

static void run_plain(unsigned part, unsigned enable, size_t n) {
    plain.cycles = model_run(part, enable, lent_length ? lent : 0, (int)lock, &plain.chip, plain.array, plain.id, events, n, plain.answers);
}

static void run_product(unsigned part, unsigned enable, size_t n) {
    product.cycles = product_run((uint8_t)part, (uint8_t)enable, lent, lent_length, (uint8_t)lock, state, product.array, product.id, events,
                                 n, product.answers);
}

// How many of the resets cut a write cycle, and how many a locking cycle: that the comparison had some of each.
static size_t cut_writes, cut_locks;

static void count_cuts(unsigned part, unsigned enable, size_t n) {
    static struct world w;
    model_deliver(part, &w.chip, w.array, w.id);
    for (size_t i = 0; i < n; i++) {
        if (events[i] == 8 && w.chip.phase == WRITING) cut_writes++;
        if (events[i] == 8 && w.chip.phase == LOCKING) cut_locks++;
        model_run(part, enable, lent_length ? lent : 0, (int)lock, &w.chip, w.array, w.id, events + i, 1, w.answers);
    }
}

// Whether both runs answered and left the same.
static int agree(unsigned part, unsigned enable, size_t n, const char *what) {
    for (size_t i = 0; i < n; i++)
        if (plain.answers[i] != product.answers[i]) {
            printf("differ %s part %u enable %u at %zu: plain %u product %u\n", what, part, enable, i, plain.answers[i],
                   product.answers[i]);
            return 0;
        }
    if (plain.cycles == product.cycles && plain.chip.locked == state[4] && plain.chip.counter == state[0] * 256 + state[1] &&
        memcmp(plain.array, product.array, model_size(part)) == 0 && memcmp(plain.id, product.id, model_id_size(part)) == 0)
        return 1;
    printf("differ %s part %u enable %u: stored bytes, lock, counter or cycles\n", what, part, enable);
    return 0;
}

static int same(unsigned part, unsigned enable, size_t n, const char *what) {
    fresh(part);
    run_plain(part, enable, n);
    run_product(part, enable, n);
    return agree(part, enable, n, what);
}

// Refusal 3: a page of another length, or a flag without one.
static int same_refused(unsigned part) {
    static const uint8_t flags[] = {0, 1, 2, 255};
    static uint8_t room[65];
    for (unsigned length = 0; length <= sizeof room; length++)
        for (unsigned k = 0; k < sizeof flags; k++) {
            unsigned wanted = (length == 0 && flags[k] == 0) || length == page_of(part) ? 0 : 3;
            if (product_lent((uint8_t)part, room, length, flags[k], product.array, product.id) == wanted) continue;
            printf("differ part %u, a page of %u bytes, flag %u: not %u\n", part, length, flags[k], wanted);
            return 0;
        }
    return 1;
}

// ---- wear

static void worn_plain(unsigned part, unsigned enable, size_t n) {
    plain.cycles = model_wear_run(part, enable, lent_length ? lent : 0, (int)lock, &plain.chip, plain.array, plain.id, plain.counts, events, n,
                                  plain.answers);
}

// Beside the product's counts.
static struct worst held;

static void worn_product(unsigned part, unsigned enable, size_t n) {
    product.cycles = product_wear_run((uint8_t)part, (uint8_t)enable, lent, lent_length, (uint8_t)lock, state, product.array, product.id,
                                      product.counts, &held, events, n, product.answers);
}

// Most counts 0, the others anywhere; some at the top or a little below it, so that they come there. From a seed of their own: the events stay
// those of a comparison without counts.
static void random_counts(uint32_t *counts) {
    static uint64_t own = 1;
    uint64_t others = seed;
    seed = own;
    for (unsigned i = 0; i < GROUPS; i++) {
        counts[i] = 0;
        if (random_below(4) == 0) counts[i] = random_below(2) ? 0xFFFFFFFF - random_below(4) : random_below(0x80000000);
    }
    own = seed;
    seed = others;
}

// How many counts a run raised, and how many came to the top: that the comparison had some of each.
static size_t raised, topped;

static void count_raised(const uint32_t *before, const uint32_t *after) {
    for (unsigned i = 0; i < GROUPS; i++) {
        if (after[i] != before[i]) raised++;
        if (after[i] != before[i] && after[i] == 0xFFFFFFFF) topped++;
    }
}

// How many runs brought another group to the top place, and how many worsts that the counts do not bear out were refused.
static size_t overtaken, unborne;

// The counts have just been walked by plain C: the product is given what it found, and has to answer what it finds next.
static int same_worst(unsigned part, const char *what, struct worst before) {
    struct worst found = model_worst(product.counts, model_groups(part)), told = {9, 9};
    unsigned number = product_worst((uint8_t)part, product.counts, &told);
    if (found.group != before.group) overtaken++;
    if (number == 0 && held.group == found.group && held.count == found.count && told.group == found.group && told.count == found.count) return 1;
    printf("differ %s part %u: worst %zu with %u, walk %zu with %u, told %zu with %u\n", what, part, held.group, held.count, found.group,
           found.count, told.group, told.count);
    return 0;
}

// Any other group or count is refused with 4, and changes nothing.
static int same_unborne(unsigned part, const char *what, size_t n) {
    static uint32_t before[GROUPS];
    struct worst right = held, wrong = held;
    size_t groups = model_groups(part);
    switch (random_below(5)) {
    case 0: wrong.group = random_below((uint32_t)groups); break;
    case 1: wrong.count = random_below(2) ? wrong.count + 1 : wrong.count - 1; break;
    case 2: wrong.group = random_below((uint32_t)groups), wrong.count = product.counts[wrong.group]; break;
    case 3: wrong.group = groups + random_below(3); break;
    default: wrong = (struct worst){random_below((uint32_t)groups), random_below(2) ? 0 : random_below(0x80000000)}; break;
    }
    unsigned wanted = wrong.group == right.group && wrong.count == right.count ? 0 : 4;
    if (wanted == 0) return 1;
    memcpy(before, product.counts, sizeof before);
    struct worst given = wrong;
    unsigned number = product_counts((uint8_t)part, product.array, product.id, product.counts, groups, &given, events, n, product.answers);
    unborne++;
    if (number == wanted && given.group == wrong.group && given.count == wrong.count && memcmp(before, product.counts, sizeof before) == 0) return 1;
    printf("differ %s part %u: worst %zu with %u answered %u, or something changed\n", what, part, wrong.group, wrong.count, number);
    return 0;
}

static int same_worn(unsigned part, unsigned enable, size_t n, const char *what) {
    static uint32_t before[GROUPS];
    random_counts(before);
    memcpy(plain.counts, before, sizeof before);
    memcpy(product.counts, before, sizeof before);
    fresh(part);
    held = model_worst(before, model_groups(part));
    struct worst was = held;
    worn_plain(part, enable, n);
    worn_product(part, enable, n);
    if (!agree(part, enable, n, what) || !same_worst(part, what, was)) return 0;
    count_raised(before, plain.counts);
    for (unsigned i = 0; i < GROUPS; i++)
        if (plain.counts[i] != product.counts[i]) {
            printf("differ %s part %u enable %u group %u: plain %u product %u, before %u\n", what, part, enable, i, plain.counts[i],
                   product.counts[i], before[i]);
            return 0;
        }
    return same_unborne(part, what, n);
}

// Refusal 3: counts of another length. A refused call leaves them. The part's last list of events is still there.
static int same_lengths(unsigned part) {
    static uint32_t room[2 * GROUPS], before[2 * GROUPS];
    size_t groups = model_groups(part);
    const size_t lengths[] = {0, 1, groups - 1, groups, groups + 1, model_size(part) / 4, GROUPS, 2 * GROUPS};
    for (unsigned k = 0; k < sizeof lengths / sizeof *lengths; k++) {
        unsigned wanted = lengths[k] == groups ? 0 : 3;
        random_counts(before);
        memcpy(room, before, sizeof before);
        struct worst worst = model_worst(room, lengths[k]);
        unsigned number = product_counts((uint8_t)part, product.array, product.id, room, lengths[k], &worst, events, ROOM, product.answers);
        if (number == wanted && (wanted == 0 || memcmp(room, before, sizeof room) == 0)) continue;
        printf("differ part %u, %zu counts: %u and not %u, or a count changed\n", part, lengths[k], number, wanted);
        return 0;
    }
    return 1;
}

// ---- Intel HEX

static uint8_t text[SAPWOODLE_HEX_MOST], spoiled[SAPWOODLE_HEX_MOST + 64];

static void random_array(uint8_t *array, size_t size) {
    for (size_t i = 0; i < size; i++) array[i] = (uint8_t)random_below(256);
}

// A text of the part's array, some of its bytes changed, put in or left out: what the comparison runs on.
static size_t spoil(size_t n, unsigned changes) {
    static const uint8_t often[] = "0123456789ABCDEFabcdef:\r\n x";
    memcpy(spoiled, text, n);
    for (unsigned k = 0; k < changes; k++) {
        size_t at = random_below((unsigned)n);
        uint8_t byte = random_below(8) ? often[random_below(sizeof often - 1)] : (uint8_t)random_below(256);
        switch (random_below(3)) {
        case 0: spoiled[at] = byte; break;
        case 1:
            for (size_t i = n; i > at; i--) spoiled[i] = spoiled[i - 1];
            spoiled[at] = byte;
            n++;
            break;
        default:
            for (size_t i = at; i + 1 < n; i++) spoiled[i] = spoiled[i + 1];
            n--;
        }
    }
    return n;
}

static int same_read(unsigned part, const uint8_t *from, size_t n) {
    size_t size = model_size(part);
    random_array(plain.array, size);
    memcpy(product.array, plain.array, size);
    struct hex_answer a = hex_read(from, n, plain.array, size), b = product_hex_read((uint8_t)part, from, n, product.array);
    if (a.number == b.number && a.line == b.line && a.records == b.records && a.named == b.named &&
        memcmp(plain.array, product.array, size) == 0)
        return 1;
    printf("differ hex_read part %u: plain %u line %zu, product %u line %zu\n", part, a.number, a.line, b.number, b.line);
    return 0;
}

// Answers the length of the text, or 0 where the two differ.
static size_t same_written(unsigned part) {
    static uint8_t other[SAPWOODLE_HEX_MOST];
    size_t size = model_size(part);
    random_array(plain.array, size);
    size_t n = hex_write(plain.array, size, text), k = product_hex_write((uint8_t)part, plain.array, other, sizeof other);
    if (n == k && memcmp(text, other, n) == 0) return n;
    printf("differ hex_write part %u: plain %zu bytes, product %zu\n", part, n, k);
    return 0;
}

static size_t same_texts(unsigned part) {
    size_t n = same_written(part), compared = 0;
    if (n == 0 || !same_read(part, text, n)) return 0;
    for (unsigned k = 0; k < 200; k++) {
        // Mostly within the first lines, so that what is behind them is read too.
        size_t m = spoil(k % 4 ? n : 44 + random_below(400), 1 + random_below(3));
        if (!same_read(part, spoiled, m)) return 0;
        compared += m;
    }
    return compared + 2 * n;
}

static void read_plain(unsigned part, unsigned enable, size_t n) {
    (void)enable;
    plain.cycles = hex_read(text, n, plain.array, model_size(part)).records;
}

static void read_product(unsigned part, unsigned enable, size_t n) {
    (void)enable;
    product.cycles = product_hex_read((uint8_t)part, text, n, product.array).records;
}

static void write_plain(unsigned part, unsigned enable, size_t n) {
    (void)enable;
    (void)n;
    plain.cycles = hex_write(plain.array, model_size(part), text);
}

static void write_product(unsigned part, unsigned enable, size_t n) {
    (void)enable;
    (void)n;
    product.cycles = product_hex_write((uint8_t)part, plain.array, text, sizeof text);
}

// ---- captures

// Ten samples to a clock.
enum { SAMPLES = 12 * ROOM };

static uint8_t wires[SAMPLES];
static size_t drawn;

static void show(uint8_t sample, int times) {
    while (times-- > 0 && drawn < SAMPLES) wires[drawn++] = sample;
}

// The events on two wires: data change while the clock is low, and the clock rises once more before a Stop, and before a Start in a transfer.
static size_t draw(size_t n) {
    uint8_t data = 2, rest = 1;
    drawn = 0;
    show(3, 4);
    for (size_t i = 0; i < n && drawn + 16 < SAMPLES; i++) {
        unsigned code = events[i], level = plain.answers[i];
        if (code > 3 || (code == 2 && rest)) {
            if (code == 2) show(1, 4);
        } else {
            uint8_t to = code == 0 || code == 3 || (code == 1 && level == 0) ? 0 : 2;
            show(data, 3);
            show(to, 3);
            show(to | 1, 4);
            if (code > 1) show(3 - to, 4);
            data = code == 3 ? 2 : code == 2 ? 0 : to;
        }
        if (code == 2) data = 0;
        if (code == 2 || code == 3) rest = code == 3;
    }
    return drawn;
}

static int same_seen(unsigned part, unsigned enable, int bus, size_t n) {
    fresh(part);
    struct seen a = capture_run(part, enable, &plain.chip, plain.array, plain.id, bus, wires, n);
    struct seen b = product_capture((uint8_t)part, (uint8_t)enable, state, product.array, product.id, (uint8_t)bus, wires, n);
    unsigned t[4] = {1, 2, 3, 0xFFFFFF00}, u[4] = {1, 2, 3, 0xFFFFFF00};
    capture_tally(bus, wires, n, t);
    product_tally((uint8_t)bus, wires, n, u);
    if (memcmp(&a, &b, sizeof a) == 0 && memcmp(t, u, sizeof t) == 0 && memcmp(plain.array, product.array, model_size(part)) == 0 &&
        memcmp(plain.id, product.id, model_id_size(part)) == 0)
        return 1;
    printf("differ capture part %u enable %u bus %d: plain cycles %zu ends %zu clock %zu, product cycles %zu ends %zu clock %zu\n", part, enable, bus,
           a.cycles, a.ends, a.clock, b.cycles, b.ends, b.clock);
    return 0;
}

// Wires of transfers that are cut and disturbed at random, some of their samples turned, left out or put twice.
static size_t same_captures(unsigned part) {
    size_t compared = 0;
    for (unsigned k = 0; k < 40; k++) {
        unsigned enable = part < 2 ? 0 : random_below(8);
        size_t n = disturbed(part, enable, k % 4 == 0 ? 1000000 : 1u << (k % 12), 0);
        fresh(part);
        run_plain(part, enable, n);
        n = draw(n);
        for (unsigned j = random_below(40); k % 3 && j > 0; j--) wires[random_below((unsigned)n)] = (uint8_t)random_below(4);
        if (!same_seen(part, enable, 1, n) || !same_seen(part, enable, 0, n)) return 0;
        compared += 2 * n;
    }
    return compared;
}

static void seen_plain(unsigned part, unsigned enable, size_t n) {
    plain.cycles = capture_run(part, enable, &plain.chip, plain.array, plain.id, 1, wires, n).cycles;
}

static void seen_product(unsigned part, unsigned enable, size_t n) {
    product.cycles = product_capture((uint8_t)part, (uint8_t)enable, state, product.array, product.id, 1, wires, n).cycles;
}

static void tally_plain(unsigned part, unsigned enable, size_t n) {
    unsigned counts[4] = {part, enable, 0, 0};
    capture_tally(1, wires, n, counts);
    plain.cycles = counts[2];
}

static void tally_product(unsigned part, unsigned enable, size_t n) {
    unsigned counts[4] = {part, enable, 0, 0};
    product_tally(1, wires, n, counts);
    product.cycles = counts[2];
}

// ---- images with counts

// An image with room for some bytes more, and what is made of it by each.
enum { IMAGE_ROOM = SAPWOODLE_WORN_MOST + 8 };
static uint8_t image[IMAGE_ROOM], image_by_plain[IMAGE_ROOM], image_by_product[IMAGE_ROOM];

// How often each number was answered: that the comparison had some of each.
static size_t answered[256];

static struct store store_of(struct world *w, unsigned part) {
    return (struct store){w->array, model_size(part), w->id, model_id_size(part), w->counts, model_groups(part)};
}

// The same bytes and counts for both, of which the part's are lent.
static void random_store(int worn) {
    random_array(plain.array, sizeof plain.array);
    random_array(plain.id, sizeof plain.id);
    random_counts(plain.counts);
    if (!worn)
        for (unsigned i = 0; i < GROUPS; i++) plain.counts[i] = 0;
    memcpy(product.array, plain.array, sizeof plain.array);
    memcpy(product.id, plain.id, sizeof plain.id);
    memcpy(product.counts, plain.counts, sizeof plain.counts);
}

// Mostly the length itself, else one a little off it.
static size_t about(size_t length) { return random_below(4) ? length : length + random_below(5) - 2; }

// Whether both answered and wrote the same, and nothing else in their room.
static int same_made(const char *what, unsigned part, unsigned a, unsigned b, size_t n, size_t k) {
    answered[a]++;
    if (a == b && n == k && memcmp(image_by_plain, image_by_product, IMAGE_ROOM) == 0) return 1;
    printf("differ %s part %u: plain %u with %zu bytes, product %u with %zu\n", what, part, a, n, b, k);
    return 0;
}

static void random_room(void) {
    random_array(image_by_plain, IMAGE_ROOM);
    memcpy(image_by_product, image_by_plain, IMAGE_ROOM);
}

static int same_saved(unsigned part, int worn) {
    size_t n = 9, k = 8, room = about(image_worn(part));
    struct store s = store_of(&plain, part);
    unsigned locked = model_id_size(part) ? random_below(2) : 0, named = random_below(16) ? part : 6 + random_below(250);
    random_store(worn);
    random_room();
    if (random_below(8) == 0) s.array_length = about(s.array_length);
    if (random_below(8) == 0) s.counts_length = about(s.counts_length);
    unsigned a = worn_save(named, locked, &s, image_by_plain, room, &n);
    unsigned b = product_save_worn((uint8_t)named, locked, &s, image_by_product, room, &k);
    return same_made("worn_save", part, a, b, n, k);
}

static int same_loaded(unsigned part, size_t n) {
    struct store s = store_of(&plain, part), p = store_of(&product, part);
    static uint8_t before[SAPWOODLE_STATE_LENGTH + 2], room[SAPWOODLE_STATE_LENGTH + 2];
    unsigned enable = random_below(8) ? 0 : random_below(9), locked = 0;
    size_t state_length = random_below(4) ? SAPWOODLE_STATE_LENGTH : about(SAPWOODLE_STATE_LENGTH);
    uint8_t named = 99;
    struct worst worst = {77, 7};
    random_store(1);
    random_array(before, sizeof before);
    memcpy(room, before, sizeof before);
    if (random_below(8) == 0) s.id_length = p.id_length = 1 + random_below(64);
    if (random_below(8) == 0) s.counts_length = p.counts_length = about(model_groups(part) - 2);
    unsigned b = product_load_worn(image, n, (uint8_t)enable, room, state_length, &p, &named, &worst);
    unsigned a = worn_load(image, n, enable, state_length == SAPWOODLE_STATE_LENGTH, &locked, &s);
    // The part that the image names may be another of the same lengths, without a pin.
    if (a == 0) {
        memcpy(before, delivered, sizeof delivered);
        before[2] = model_has_pin(image[5]) ? 3 : 0;
        before[4] = (uint8_t)locked;
    }
    answered[a]++;
    struct worst found = a == 0 ? model_worst(plain.counts, s.counts_length) : (struct worst){77, 7};
    if (a == b && worst.group == found.group && worst.count == found.count && named == (n > 5 ? image[5] : 0) && memcmp(before, room, sizeof room) == 0 &&
        memcmp(plain.array, product.array, sizeof plain.array) == 0 && memcmp(plain.id, product.id, sizeof plain.id) == 0 &&
        memcmp(plain.counts, product.counts, sizeof plain.counts) == 0)
        return 1;
    printf("differ worn_load part %u, %zu bytes: plain %u, product %u\n", part, n, a, b);
    return 0;
}

typedef unsigned (*converter)(const uint8_t *, size_t, uint8_t *, size_t, size_t *);

static int same_converted(const char *what, unsigned part, size_t n, size_t length, converter by_plain, converter by_product) {
    size_t k = 9, l = 8, room = about(length);
    random_room();
    unsigned a = by_plain(image, n, image_by_plain, room, &k), b = by_product(image, n, image_by_product, room, &l);
    return same_made(what, part, a, b, k, l);
}

static int same_image(unsigned part, size_t n) {
    return same_loaded(part, n) && same_converted("to_worn", part, n, image_worn(part), worn_from_plain, product_from_plain) &&
           same_converted("to_plain", part, n, image_plain(part), worn_to_plain, product_to_plain);
}

// An image of either version; answers its length.
static size_t make_image(unsigned part, unsigned version, int worn) {
    struct store s = store_of(&plain, part);
    size_t n = 0;
    random_store(worn);
    random_array(image, sizeof image);
    worn_save(part, model_id_size(part) ? random_below(2) : 0, &s, image, sizeof image, &n);
    image[4] = (uint8_t)version;
    return version == 1 ? image_plain(part) : n;
}

// Something about it is wrong: a byte of its head, another length, or a count.
static size_t spoil_image(size_t n) {
    static const uint8_t often[] = {0, 1, 2, 3, 5, 6, 'E', 'P', 'R'};
    switch (random_below(4)) {
    case 0: return random_below(2) ? about(n) : random_below(9);
    case 1: image[n - 1 - random_below(4)]++; return n;
    default: image[random_below(7)] = random_below(2) ? often[random_below(sizeof often)] : (uint8_t)random_below(256); return n;
    }
}

// Answers how many images were compared, 0 where something differs.
static size_t same_images(unsigned part) {
    size_t compared = 0;
    fresh(part);
    for (unsigned k = 0; k < 120; k++) {
        if (!same_saved(part, k % 3 != 0)) return 0;
        size_t n = make_image(part, 1 + k % 2, k % 3 != 0);
        if (!same_image(part, n)) return 0;
        n = spoil_image(n);
        if (!same_image(part, n)) return 0;
        compared += 3;
    }
    return compared;
}

static void save_plain(unsigned part, unsigned enable, size_t n) {
    struct store s = store_of(&plain, part);
    (void)n;
    worn_save(part, enable, &s, image, sizeof image, &plain.cycles);
}

static void save_product(unsigned part, unsigned enable, size_t n) {
    struct store s = store_of(&plain, part);
    (void)n;
    product_save_worn((uint8_t)part, enable, &s, image, sizeof image, &product.cycles);
}

static void load_plain(unsigned part, unsigned enable, size_t n) {
    struct store s = store_of(&plain, part);
    unsigned locked = 0;
    plain.cycles = worn_load(image, n, enable, 1, &locked, &s);
    // The product answers the worst too.
    struct worst w = model_worst(s.counts, s.counts_length);
    plain.cycles += w.group + w.count;
}

static void load_product(unsigned part, unsigned enable, size_t n) {
    struct store s = store_of(&product, part);
    uint8_t named = 0;
    product.cycles = product_load_worn(image, n, (uint8_t)enable, state, sizeof state, &s, &named, &held);
}

// ---- the worst: the walk that finds it, the look that a call without events pays, and a page written through the driver

static void walk_plain(unsigned part, unsigned enable, size_t n) {
    (void)part;
    struct worst w = model_worst(product.counts, n);
    plain.cycles = w.group + w.count + enable;
}

static void walk_product(unsigned part, unsigned enable, size_t n) {
    struct worst w = {0, 0};
    (void)n;
    product.cycles = product_worst((uint8_t)part, product.counts, &w) + w.group + enable;
}

static void look_product(unsigned part, unsigned enable, size_t n) {
    (void)n;
    worn_product(part, enable, 0);
}

static uint8_t page[64];

static void write_driven(unsigned part, unsigned enable, size_t n) {
    (void)enable;
    (void)n;
    product.cycles = product_wear_write((uint8_t)part, state, product.array, product.id, page, part < 2 ? 16 : part < 4 ? 32 : 64, product.counts, &held);
}

// ---- times

typedef void (*runner)(unsigned, unsigned, size_t);

static double seconds_of(runner run, unsigned part, size_t n, int rounds) {
    struct timespec a, b;
    clock_gettime(1, &a);
    for (int k = 0; k < rounds; k++) {
        plain.chip = (struct model){0};
        run(part, 0, n);
    }
    clock_gettime(1, &b);
    return (double)(b.seconds - a.seconds) + 1e-9 * (double)(b.nanoseconds - a.nanoseconds);
}

// The time of one runner in that of another, which is named.
static void measure_beside(const char *name, const char *unit, unsigned part, size_t n, const char *other, runner by_plain, runner by_product) {
    int rounds = 1;
    while (seconds_of(by_plain, part, n, rounds) < 0.003) rounds *= 2;
    double best_plain = 1e9, best_product = 1e9;
    for (int k = 0; k < REPEATS; k++) {
        double a = seconds_of(by_plain, part, n, rounds), b = seconds_of(by_product, part, n, rounds);
        if (a < best_plain) best_plain = a;
        if (b < best_product) best_product = b;
    }
    double all = (double)n * rounds;
    printf("workload=%s part=%u %s=%zu %s_per_second=%.0f product_per_second=%.0f ratio=%.2f\n", name, part, unit, n, other,
           all / best_plain, all / best_product, best_product / best_plain);
}

static void measure(const char *name, const char *unit, unsigned part, size_t n, runner by_plain, runner by_product) {
    measure_beside(name, unit, part, n, "plain", by_plain, by_product);
}

int main(int argc, char **argv) {
    unsigned part = argc > 1 ? (unsigned)(argv[1][0] - '0') : 5;
    static size_t (*const make[4])(unsigned) = {page_writes, long_read, polling, cuts};
    static const char *const name[4] = {"page_writes", "long_read", "polling", "cuts"};
    size_t compared = 0;
    for (unsigned p = 0; p < 6; p++) {
        for (int w = 0; w < 4; w++) {
            size_t n = make[w](p);
            lend(p, w == 3);
            if (!same(p, 0, n, name[w]) || !same_worn(p, 0, n, name[w])) return 1;
            compared += n;
        }
        for (unsigned k = 0; k < 80; k++) {
            unsigned enable = p < 2 ? 0 : random_below(8);
            size_t n = disturbed(p, enable, k % 4 == 0 ? 1000000 : 1u << (k % 12), 1);
            lend(p, k % 3 != 0);
            if (!same(p, enable, n, "disturbed") || !same_worn(p, enable, n, "disturbed")) return 1;
            if (lent_length) count_cuts(p, enable, n);
            compared += n;
        }
        if (!same_refused(p) || !same_lengths(p)) return 1;
    }
    lend(part, 0);
    printf("compared events=%zu cut_writes=%zu cut_locks=%zu parts=6 same=yes\n", compared, cut_writes, cut_locks);
    printf("compared wear_events=%zu counts_raised=%zu to_the_top=%zu overtaken=%zu unborne=%zu parts=6 same=yes\n", compared, raised, topped, overtaken,
           unborne);
    size_t texts = 0;
    for (unsigned p = 0; p < 6; p++) {
        size_t n = same_texts(p);
        if (n == 0) return 1;
        texts += n;
    }
    printf("compared hex_bytes=%zu parts=6 same=yes\n", texts);
    size_t samples = 0;
    for (unsigned p = 0; p < 6; p++) {
        size_t n = same_captures(p);
        if (n == 0) return 1;
        samples += n;
    }
    printf("compared samples=%zu parts=6 same=yes\n", samples);
    size_t images = 0;
    for (unsigned p = 0; p < 6; p++) {
        size_t n = same_images(p);
        if (n == 0) return 1;
        images += n;
    }
    printf("compared images=%zu done=%zu refused_1=%zu refused_2=%zu refused_3=%zu refused_4=%zu refused_6=%zu refused_12=%zu refused_21=%zu parts=6 same=yes\n",
           images, answered[0], answered[1], answered[2], answered[3], answered[4], answered[6], answered[12], answered[21]);
    if (part > 5) return 1;
    for (int w = 0; w < 4; w++) {
        size_t n = make[w](part);
        lend(part, w == 3);
        fresh(part);
        measure(name[w], "events", part, n, run_plain, run_product);
    }
    lend(part, 0);
    size_t n = same_written(part);
    measure("hex_read", "bytes", part, n, read_plain, read_product);
    measure("hex_write", "bytes", part, n, write_plain, write_product);
    static const char *const seen[3] = {"capture_writes", "capture_read", "capture_polls"};
    static const char *const tallied[3] = {"tally_writes", "tally_read", "tally_polls"};
    for (int w = 0; w < 3; w++) {
        size_t k = make[w](part);
        fresh(part);
        run_plain(part, 0, k);
        k = draw(k);
        fresh(part);
        measure(seen[w], "samples", part, k, seen_plain, seen_product);
        measure(tallied[w], "samples", part, k, tally_plain, tally_product);
    }
    static const char *const worn[3] = {"wear_writes", "wear_read", "wear_polls"};
    for (int w = 0; w < 3; w++) {
        size_t k = make[w](part);
        fresh(part);
        held = model_worst(product.counts, model_groups(part));
        measure(worn[w], "events", part, k, worn_plain, worn_product);
        measure_beside(worn[w], "events", part, k, "run", run_product, worn_product);
    }
    size_t groups = model_groups(part);
    fresh(part);
    random_counts(product.counts);
    held = model_worst(product.counts, groups);
    measure("worst_walk", "counts", part, groups, walk_plain, walk_product);
    measure_beside("worst_look", "counts", part, groups, "walk", walk_product, look_product);
    memcpy(state, delivered, sizeof delivered);
    measure_beside("worst_write", "counts", part, groups, "look", look_product, write_driven);
    size_t length = make_image(part, 2, 1);
    fresh(part);
    measure("worn_save", "bytes", part, length, save_plain, save_product);
    measure("worn_load", "bytes", part, length, load_plain, load_product);
    return 0;
}
