/* A driver of the usual shape, as firmware has it, over the controller of controller.h: the first half of this file could stand in a box. The second
 * half tries it on every part, and then shows what its typical bugs do: a page crossed without a cut, no polling, a late Stop; and what the
 * driver tells where Write Control is high or the chip is busy for longer than the budget. examples/run builds and runs it. */
#include "controller.h"

/* The toolchain has the C library, but no headers of it. */
int printf(const char *format, ...);
int memcmp(const void *a, const void *b, unsigned long n);
void *memset(void *to, int byte, unsigned long n);
void exit(int status);

/* ---- the driver */

enum told { DONE, SELECT_REFUSED, ADDRESS_REFUSED, DATA_REFUSED, STILL_BUSY };
enum bug { NO_CUT = 1, NO_POLLING = 2 };

struct eeprom {
    struct controller *bus;
    unsigned char select; /* seven bits: 50h and the straps */
    unsigned char address_bytes; /* with one, A10 to A8 go in the select */
    unsigned page;
    unsigned budget; /* polls for a page */
    int bugs;
    unsigned long polls; /* in all */
    unsigned long done; /* leading bytes of the last call whose pages are done */
    unsigned long place; /* which byte of it was not acknowledged, where that was a data byte */
};

static unsigned char select_of(const struct eeprom *e, unsigned long address)
{
    return e->address_bytes == 1 ? (unsigned char)(e->select | (address >> 8 & 7)) : e->select;
}

/* The address bytes in front of a frame; answers how many. */
static unsigned long put_address(const struct eeprom *e, unsigned long address, unsigned char *frame)
{
    if (e->address_bytes == 2)
        *frame++ = (unsigned char)(address >> 8);
    *frame = (unsigned char)address;
    return e->address_bytes;
}

/* While a cycle runs the chip answers no select. */
static enum told poll(struct eeprom *e, unsigned char select)
{
    unsigned n;
    for (n = 0; n < e->budget; n++) {
        e->polls++;
        if (controller_write(e->bus, select, 0, 0, CONTROLLER_STOP) == 0)
            return DONE;
    }
    return STILL_BUSY;
}

static enum told write_page(struct eeprom *e, unsigned long address, const unsigned char *bytes, unsigned long n)
{
    unsigned char frame[2 + SAPWOODLE_PAGE_MOST], select = select_of(e, address);
    unsigned long i, head = put_address(e, address, frame);
    long sent;
    for (i = 0; i < n; i++)
        frame[head + i] = bytes[i];
    sent = controller_write(e->bus, select, frame, head + n, CONTROLLER_STOP);
    if (sent < 0)
        return SELECT_REFUSED;
    if ((unsigned long)sent < head)
        return ADDRESS_REFUSED;
    if ((unsigned long)sent < head + n) {
        e->place = e->done + (unsigned long)sent - head;
        return DATA_REFUSED;
    }
    return e->bugs & NO_POLLING ? DONE : poll(e, select);
}

/* A page write turns back at the page end, so a write is cut there. */
static unsigned long piece(const struct eeprom *e, unsigned long address, unsigned long n)
{
    unsigned long room = e->bugs & NO_CUT ? SAPWOODLE_PAGE_MOST : e->page - address % e->page;
    return n < room ? n : room;
}

static enum told eeprom_write(struct eeprom *e, unsigned long address, const unsigned char *bytes, unsigned long n)
{
    e->done = 0;
    while (e->done < n) {
        unsigned long k = piece(e, address + e->done, n - e->done);
        enum told told = write_page(e, address + e->done, bytes + e->done, k);
        if (told != DONE)
            return told;
        e->done += k;
    }
    return DONE;
}

static enum told eeprom_read(struct eeprom *e, unsigned long address, unsigned char *bytes, unsigned long n)
{
    unsigned char frame[2], select = select_of(e, address);
    unsigned long head = put_address(e, address, frame);
    long sent = controller_write(e->bus, select, frame, head, CONTROLLER_AGAIN);
    e->done = 0;
    if (sent != (long)head)
        return sent < 0 ? SELECT_REFUSED : ADDRESS_REFUSED;
    if (controller_read(e->bus, select, bytes, n, CONTROLLER_STOP) != (long)n)
        return SELECT_REFUSED;
    e->done = n;
    return DONE;
}

/* ---- the trials */

#define BUDGET 8
#define POLLS_BUSY 2 /* each cycle leaves two polls unanswered, and the third finds it ended */

static const char *const names[] = { "M24C16-DFCU", "M24C16-DRE", "M24C64", "M24C64-D", "M24256-B", "M24256-D" };
static const unsigned pages[] = { 16, 16, 32, 32, 64, 64 };
static const char *const tells[] = { "done", "select not acknowledged", "address byte not acknowledged", "data byte not acknowledged", "still busy" };

static struct controller bus;
static struct eeprom rom;
static unsigned char expected[SAPWOODLE_ARRAY_MOST], back[SAPWOODLE_ARRAY_MOST];
static const unsigned char four[] = { 0x11, 0x22, 0x33, 0x44 };

static void must(int holds, const char *what)
{
    if (!holds) {
        printf("wrong: %s\n", what);
        exit(1);
    }
}

/* A chip as delivered, its straps other ones for each part that has them, and a driver that was told so. */
static void fresh(unsigned char part, int bugs)
{
    unsigned char enable = part < 2 ? 0 : part;
    must(controller_open(&bus, part, enable) == 0, "a part refused");
    bus.busy_polls = POLLS_BUSY;
    rom.bus = &bus;
    rom.select = 0x50 | enable;
    rom.address_bytes = part < 2 ? 1 : 2;
    rom.page = pages[part];
    rom.budget = BUDGET;
    rom.bugs = bugs;
    rom.polls = 0;
}

static void show(unsigned long address)
{
    printf(" %04lXh %02Xh", address, bus.array[address]);
}

/* One write with a pattern of its own: the whole array is as it should be, with one cycle for each page. Answers the pages. */
static unsigned long try_write(unsigned seed, unsigned long address, unsigned long n)
{
    unsigned long i, cycles = bus.cycles, k = (address + n - 1) / rom.page - address / rom.page + 1;
    for (i = 0; i < n; i++)
        expected[address + i] = (unsigned char)((i * 7 + (i >> 8) * 31 + seed) ^ 0x5A);
    must(eeprom_write(&rom, address, expected + address, n) == DONE && rom.done == n, "a write is done");
    must(bus.cycles - cycles == k, "one cycle for each page");
    must(memcmp(bus.array, expected, bus.array_length) == 0, "each byte of the array");
    return k;
}

static void try_driver(unsigned char part)
{
    unsigned long k, size;
    fresh(part, 0);
    size = bus.array_length;
    memset(expected, 0xFF, sizeof expected);
    k = try_write(1, rom.page - 3, 3 * rom.page + 5);
    k += try_write(2, 250, 12); /* on parts 0 and 1 another select from 0100h on */
    k += try_write(3, size - 1, 1);
    k += try_write(4, 0, size);
    must(rom.polls == k * (POLLS_BUSY + 1), "the polls of each page");
    must(eeprom_read(&rom, 0, back, size) == DONE && memcmp(back, expected, size) == 0, "what was read is what was written");
    must(eeprom_read(&rom, 250, back, 12) == DONE && memcmp(back, expected + 250, 12) == 0, "a read from the middle");
    must(bus.refused == 0, "no event refused");
    printf("part %d, %s, at %02Xh\n", part, names[part], rom.select);
    printf("  driver: 4 writes, pages %lu, cycles %lu, polls %lu; all %lu bytes read as written\n", k, bus.cycles, rom.polls, size);
}

/* Bug: four bytes from two before a page end, in one transfer. All are acknowledged, and two land where nobody wanted them. */
static void no_cut(unsigned char part)
{
    unsigned long start = pages[part], end = 2 * start;
    fresh(part, NO_CUT);
    must(eeprom_write(&rom, end - 2, four, 4) == DONE && bus.cycles == 1, "the driver sees nothing wrong");
    printf("  bug, page crossed without a cut: 11h 22h 33h 44h at %04lXh told done:", end - 2);
    show(end - 2);
    show(end - 1);
    show(start);
    show(start + 1);
    printf(", but");
    show(end);
    show(end + 1);
    printf("\n");
    must(bus.array[start] == 0x33 && bus.array[start + 1] == 0x44, "they turned back to the page start");
    must(bus.array[end] == 0xFF && bus.array[end + 1] == 0xFF, "the next page has none");
}

/* Bug: the second page follows at once. The chip is in its cycle and answers nothing. */
static void no_polling(unsigned char part)
{
    unsigned long end = 2 * pages[part];
    fresh(part, NO_POLLING);
    must(eeprom_write(&rom, end - 2, four, 4) == SELECT_REFUSED && rom.done == 2 && bus.cycles == 1, "the second page finds it busy");
    printf("  bug, no polling: %s, bytes %lu of 4, cycles %lu;", tells[SELECT_REFUSED], rom.done, bus.cycles);
    must(poll(&rom, select_of(&rom, end)) == DONE, "the cycle ends");
    show(end - 2);
    show(end - 1);
    printf(", but");
    show(end);
    show(end + 1);
    printf("\n");
    must(bus.array[end - 1] == 0x22 && bus.array[end] == 0xFF, "the first page is there, the second is lost");
}

/* Bug: of the controller, one clock between the last acknowledge and the Stop. The first poll is answered: nothing looks wrong. */
static void late_stop(unsigned char part)
{
    fresh(part, 0);
    bus.late_stop_clocks = 1;
    must(eeprom_write(&rom, 0x40, four, 4) == DONE && rom.done == 4 && rom.polls == 1, "every byte is acknowledged");
    printf("  bug, Stop one clock late: told done, bytes %lu of 4 acknowledged, cycles %lu;", rom.done, bus.cycles);
    show(0x40);
    printf("\n");
    memset(expected, 0xFF, sizeof expected);
    must(bus.cycles == 0 && memcmp(bus.array, expected, bus.array_length) == 0, "nothing was stored");
}

/* Write Control high from before the Start: select and address are acknowledged, data bytes are not. */
static void protected_chip(unsigned char part)
{
    enum told told;
    fresh(part, 0);
    must(controller_pin(&bus, CONTROLLER_HIGH) == (part != 0), "part 0 alone has no pin");
    told = eeprom_write(&rom, 0x40, four, 4);
    if (part)
        printf("  Write Control high: %s, byte %lu, cycles %lu\n", tells[told], rom.place, bus.cycles);
    else
        printf("  Write Control: no such pin, told %s, cycles %lu\n", tells[told], bus.cycles);
    must(part ? told == DATA_REFUSED && bus.cycles == 0 : told == DONE && bus.cycles == 1, "a high pin protects");
    must(!part || (rom.done == 0 && rom.place == 0), "from the first data byte on");
    must(bus.refused == 0, "a pin that is not there is no fault");
    must(!part || (controller_pin(&bus, CONTROLLER_LOW) && eeprom_write(&rom, 0x40, four, 4) == DONE), "a low pin does not");
}

/* A cycle that ends when the caller says so, here by a count of his own. */
static int after_polls(void *context, unsigned long polls)
{
    return polls >= *(const unsigned long *)context;
}

static void long_cycle(unsigned char part)
{
    unsigned long unanswered = BUDGET;
    fresh(part, 0);
    bus.cycle_ends = after_polls;
    bus.context = &unanswered;
    must(eeprom_write(&rom, 0x40, four, 4) == STILL_BUSY && rom.polls == BUDGET && rom.done == 0, "the budget is used up");
    printf("  busy for %lu polls, budget %d: %s, bytes %lu of 4, polls %lu", unanswered, BUDGET, tells[STILL_BUSY], rom.done, rom.polls);
    must(poll(&rom, select_of(&rom, 0x40)) == DONE && rom.polls == BUDGET + 1 && bus.array[0x43] == 0x44, "one poll more finds it ended");
    printf("; one more is answered\n");
}

/* What the controller itself answers where there is nothing to do, or nobody. */
static void edges(void)
{
    unsigned char byte = 0x5A;
    must(controller_open(&bus, 6, 0) == 1 && controller_open(&bus, 0, 1) == 2 && controller_open(&bus, 2, 8) == 2, "no such part, no such enable");
    fresh(2, 0);
    must(controller_read(&bus, rom.select, &byte, 0, CONTROLLER_STOP) == CONTROLLER_NOT_SENT && bus.clocks == 0, "a read of no bytes");
    must(controller_read(&bus, rom.select ^ 1, &byte, 1, CONTROLLER_STOP) == CONTROLLER_NO_SELECT && byte == 0x5A, "other straps");
    must(controller_write(&bus, rom.select, 0, 0, CONTROLLER_STOP) == 0 && bus.clocks == 18, "a poll");
    must(controller_read(&bus, rom.select, &byte, 1, CONTROLLER_AGAIN) == 1 && bus.state[5] == 0, "the chip has let go of the line");
    must(controller_write(&bus, rom.select, four, 4, CONTROLLER_AGAIN) == 4 && bus.cycles == 0, "no Stop, no cycle");
    controller_pin(&bus, CONTROLLER_HIGH);
    bus.clocks = 0;
    bus.late_stop_clocks = 1; /* so that a Stop shows */
    must(controller_write(&bus, rom.select, four, 4, CONTROLLER_AGAIN) == 2 && bus.clocks == 9 * 4 + 1, "a Stop after the refused byte");
}

int main(void)
{
    unsigned char part;
    edges();
    for (part = 0; part < 6; part++) {
        try_driver(part);
        no_cut(part);
        no_polling(part);
        late_stop(part);
        protected_chip(part);
        long_cycle(part);
    }
    return 0;
}
