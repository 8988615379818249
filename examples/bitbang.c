/* A driver and a chip on two wires, as on a bench: one side sets SCL and SDA and reads SDA, the other watches the wires and pulls SDA.
 * Neither knows of the other but by the wires, so either can be replaced by the reader's own.
 *
 * It writes a page and reads it back through the wires, then shows what a late Stop does, which bytes come up spoiled where power is lost in a
 * write cycle, and which byte went unanswered where the straps are wrong and where the line fails. examples/run builds and runs it. */
#include "../include/sapwoodle.h"

/* The toolchain has the C library, but no headers of it. */
int printf(const char *format, ...);
int memcmp(const void *a, const void *b, unsigned long n);
void *memcpy(void *to, const void *from, unsigned long n);
void exit(int status);

#define PART 2 /* M24C64 */
#define ENABLE 0
#define ARRAY 8192
#define PAGE 32
#define POLLS_BUSY 3 /* the chip stays busy until its third poll */

static void must(int holds, const char *what)
{
    if (!holds) {
        printf("wrong: %s\n", what);
        exit(1);
    }
}

/* ---- the chip's side of the wires */

static unsigned char state[SAPWOODLE_STATE_LENGTH];
static unsigned char array[ARRAY];
static unsigned char id[1]; /* this part has no identification page: of length 0 */
static unsigned long cycles;
static int pulls; /* the chip pulls SDA low */
static unsigned char page[PAGE]; /* what a loss of power in a write cycle leaves */
static unsigned long lent; /* how much of it is lent: a page, or nothing */

static unsigned char event(unsigned char code)
{
    unsigned char level;
    unsigned long begun;
    must(sapwoodle_step(PART, ENABLE, page, lent, 0, state, sizeof state, array, sizeof array, id, 0, code, &level, &begun) == 0, "an event refused");
    cycles += begun;
    return level;
}

/* The level of the clock to come: a step of a copy. A clock stores nothing, so the array needs no copy. */
static unsigned char next_level(void)
{
    unsigned char copy[SAPWOODLE_STATE_LENGTH], level;
    unsigned long begun;
    memcpy(copy, state, sizeof copy);
    must(sapwoodle_step(PART, ENABLE, page, lent, 0, copy, sizeof copy, array, sizeof array, id, 0, SAPWOODLE_CLOCK_1, &level, &begun) == 0,
        "a look ahead refused");
    return level;
}

/* A write cycle ends while the bus is quiet, before the Start of a poll. */
static void start_seen(void)
{
    static int polls;
    int busy = state[5] >= 15;
    polls = busy ? polls + 1 : 0;
    if (busy && polls == POLLS_BUSY)
        event(SAPWOODLE_ENDS);
    event(SAPWOODLE_START);
}

/* Both wires after any change. SDA that moves while SCL is high is a Start or a Stop; any other pulse of SCL is a clock, with the
 * level that SDA had when SCL rose. The chip moves SDA only while SCL is low. */
static void chip_sees(int scl, int sda)
{
    static int scl_was = 1, sda_was = 1, level_at_rise, is_clock;
    if (scl && scl_was && sda != sda_was) {
        if (sda)
            event(SAPWOODLE_STOP);
        else
            start_seen();
        is_clock = 0;
    } else if (scl && !scl_was) {
        level_at_rise = sda;
        is_clock = 1;
    } else if (!scl && scl_was) {
        if (is_clock)
            must(event(level_at_rise ? SAPWOODLE_CLOCK_1 : SAPWOODLE_CLOCK_0) == !pulls, "the level that was on the wire");
        pulls = !next_level();
    }
    scl_was = scl;
    sda_was = sda;
}

/* ---- the wires: open drain, so a wire is high where nobody pulls it low */

static int scl = 1, sda = 1; /* what the master lets go */

static int wire_sda(void) { return sda && !pulls; }

static void set_scl(int level)
{
    scl = level;
    chip_sees(scl, wire_sda());
}

static void set_sda(int level)
{
    sda = level;
    chip_sees(scl, wire_sda());
}

/* ---- the master's side */

static unsigned long clocks;
static long lost = -1; /* the byte on the bus whose acknowledge the line loses; -1 for none */

static void start(void)
{
    if (!scl) {
        set_sda(1);
        set_scl(1);
    }
    set_sda(0);
    set_scl(0);
}

static void stop(void)
{
    set_sda(0);
    set_scl(1);
    set_sda(1);
}

static int clock_pulse(int level)
{
    int read;
    set_sda(level);
    set_scl(1);
    read = wire_sda();
    if ((long)clocks == 9 * lost + 8)
        read = 1;
    set_scl(0);
    clocks++;
    return read;
}

/* What a bench should look at first. */
static void tell(unsigned char answer, unsigned long place)
{
    if (answer == 10)
        printf("refused 10, data byte %lu: Write Control, or the lock\n", place);
    else if (answer == 11)
        printf("refused 11: busy for longer than the budget of polls\n");
    else
        printf("refused %d, %s, page %lu: %s\n", answer, answer == 9 ? "select" : answer == 14 ? "first address byte" : "second address byte",
            place, answer == 9 ? "the enable straps" : "the line");
}

/* A driver, event after event, until it has no more to send. It selects by an enable. */
static unsigned char drive(unsigned char enable, unsigned char what, unsigned long address, unsigned char *data, unsigned long n)
{
    unsigned char driver[SAPWOODLE_DRIVER_LENGTH], code, answer, level = 1;
    unsigned long place, polls, bytes;
    clocks = 0;
    cycles = 0;
    must(sapwoodle_driver_begin(PART, enable, what, address, n, 10, driver, sizeof driver) == 0, "a request refused");
    for (;;) {
        answer = sapwoodle_driver_next(driver, sizeof driver, level, data, n, &code, &place, &polls, &bytes);
        if (code == SAPWOODLE_START)
            start();
        else if (code == SAPWOODLE_STOP)
            stop();
        else if (code != SAPWOODLE_NO_EVENT)
            level = (unsigned char)clock_pulse(code);
        else
            break;
    }
    printf("%s %lu bytes at %04lXh: %s, bytes %lu, polls %lu, cycles %lu, clocks %lu\n", what == SAPWOODLE_WRITE ? "write" : "read", n,
        address, answer ? "refused" : "done", bytes, polls, cycles, clocks);
    if (answer)
        tell(answer, place);
    return answer;
}

/* A byte by hand; answers the acknowledge. */
static int send(unsigned char byte)
{
    int i;
    for (i = 7; i >= 0; i--)
        clock_pulse(byte >> i & 1);
    return clock_pulse(1);
}

/* A byte at an address, by hand: every byte is acknowledged. Then the Stop, late by so many clocks. */
static void write_byte(unsigned long address, unsigned char byte, int late)
{
    cycles = 0;
    start();
    must(send(0xA0) == 0 && send((unsigned char)(address >> 8)) == 0 && send((unsigned char)address) == 0 && send(byte) == 0,
        "a byte not acknowledged");
    while (late--)
        clock_pulse(1);
    stop();
}

static unsigned long one_byte(int late)
{
    write_byte(0x0005, 0x5A, late);
    event(SAPWOODLE_ENDS);
    printf("5Ah at 0005h, every byte acknowledged, Stop %s: cycles %lu, the byte is %02Xh\n", cycles ? "in place" : "one clock late",
        cycles, array[5]);
    return cycles;
}

/* AAh at 0025h, and power is lost in its cycle, with a page lent or not; answers how many bytes came up otherwise. */
static unsigned long lose_power(unsigned long length)
{
    unsigned char before[ARRAY];
    unsigned long at, spoiled = 0;
    memcpy(before, array, sizeof before);
    lent = length;
    write_byte(0x0025, 0xAA, 0);
    must(cycles == 1, "a cycle runs");
    event(SAPWOODLE_RESET);
    lent = 0;
    printf("AAh at 0025h, power lost in the cycle, %s:", length ? "a page lent" : "the old contents");
    for (at = 0; at < sizeof array; at++)
        if (array[at] != before[at]) {
            printf(" %04lXh is %02Xh", at, array[at]);
            spoiled++;
        }
    printf("%s\n", spoiled ? "" : " no byte spoiled");
    return spoiled;
}

int main(void)
{
    unsigned char data[PAGE], back[PAGE] = { 0 };
    int i;
    for (i = 0; i < PAGE; i++) {
        data[i] = (unsigned char)(7 * i);
        page[i] = (unsigned char)(0xD0 + i);
    }
    must(sapwoodle_deliver(PART, state, sizeof state, array, sizeof array, id, 0) == 0, "a delivery refused");

    must(drive(ENABLE, SAPWOODLE_WRITE, 0x0040, data, PAGE) == 0 && cycles == 1, "one cycle for the page");
    must(drive(ENABLE, SAPWOODLE_READ, 0x0040, back, PAGE) == 0 && memcmp(data, back, PAGE) == 0, "what was read is what was written");

    must(one_byte(1) == 0 && array[5] == 0xFF, "a late Stop begins no cycle");
    must(one_byte(0) == 1 && array[5] == 0x5A, "a Stop in place begins one");

    must(lose_power(0) == 0, "the old contents");
    must(lose_power(PAGE) == 4 && memcmp(array + 0x0024, page + 4, 4) == 0, "the group comes up as the page that was lent");

    must(drive(ENABLE + 1, SAPWOODLE_WRITE, 0x0040, data, PAGE) == 9, "the straps are not what the driver was told");
    for (lost = 1; lost <= 3; lost++)
        must(drive(ENABLE, SAPWOODLE_WRITE, 0x0040, data, PAGE) == (lost == 1 ? 14 : lost == 2 ? 15 : 10), "the byte that the line lost");
    return 0;
}
