// The most worn group, shown after each write as a station's screen shows it: a box rewrites two counters through the driver, and the worst of its
// 2,048 groups stands beside their counts. Nobody walks the counts: they are lent to the library and not looked at here.
#include "../include/sapwoodle.h"

int printf(const char *, ...);

enum { PART = 2, ARRAY = 8192, GROUPS = 2048, GROUP = 4 };

static unsigned char state[SAPWOODLE_STATE_LENGTH], array[ARRAY], id[1];
static unsigned int counts[GROUPS];

// The worst of the counts, none of which is worn yet.
static unsigned long group = 0;
static unsigned int count = 0;

// One byte through the driver, its cycle ended before the first poll. Answers the refusal, 0 for none.
static unsigned written(unsigned long address, unsigned char byte) {
    unsigned long place, polls, bytes, cycles, clocks;
    return sapwoodle_wear_bench_run(PART, 0, SAPWOODLE_WRITE, address, 1, 10, 0, 1, state, sizeof state, array, ARRAY, id, 0, &byte, 1, counts,
        GROUPS, &group, &count, &place, &polls, &bytes, &cycles, &clocks);
}

static void show(unsigned long address) {
    printf("written %04lXh: most group %lu, %04lXh..%04lXh: %u\n", address, group, group * GROUP, group * GROUP + GROUP - 1, count);
}

int main(void) {
    // A tie at the first write of the lower counter: the lower group is shown. Then the higher one overtakes it.
    static const unsigned long addresses[] = {0x0042, 0x0041, 0x0012, 0x0011, 0x0012, 0x0041, 0x0042, 0x2000};
    sapwoodle_deliver(PART, state, sizeof state, array, ARRAY, id, 0);
    for (unsigned i = 0; i < sizeof addresses / sizeof *addresses; i++) {
        unsigned refused = written(addresses[i], (unsigned char)i);
        if (refused) printf("written %04lXh: refused %u\n", addresses[i], refused);
        show(addresses[i]);
    }
    // A worst that the counts do not bear out, as of a screen that lost its note.
    group = 0;
    count = 0;
    printf("refused %u: the stored worst group is not what the counts say; begin again with sapwoodle_worst\n", written(0x0041, 0));
    if (sapwoodle_worst(PART, counts, GROUPS, &group, &count)) return 1;
    printf("begun again: most group %lu, %04lXh..%04lXh: %u\n", group, group * GROUP, group * GROUP + GROUP - 1, count);
    return 0;
}
