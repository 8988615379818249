/* An I2C controller over the model: controller.h says what each call does. Each transfer is made of bus events, one sapwoodle_step each. */
#include "controller.h"

/* One event; answers the chip's level. No page is lent: nothing here loses power. A refused event has no level, which is not 0 either: it
 * counts as not acknowledged. */
static unsigned char event(struct controller *c, unsigned char code)
{
    static const unsigned char none = 0;
    unsigned char level, refused;
    unsigned long begun;
    refused = sapwoodle_step(c->part, c->enable, &none, 0, 0, c->state, sizeof c->state, c->array, c->array_length, c->id, c->id_length, code,
        &level, &begun);
    if (refused && !c->refused)
        c->refused = refused;
    if (begun) {
        c->cycles += begun;
        c->busy = 1;
        c->polls = 0;
    }
    return level;
}

static unsigned char clock_pulse(struct controller *c, int level)
{
    c->clocks++;
    return event(c, level ? SAPWOODLE_CLOCK_1 : SAPWOODLE_CLOCK_0);
}

/* The model has no time: somebody must say when a cycle ends. Here that is before a Start, never inside a poll, whose acknowledge the chip
 * would still owe (rule 7: it then waits for a Start). */
static int cycle_ends(const struct controller *c)
{
    return c->cycle_ends ? c->cycle_ends(c->context, c->polls) : c->polls >= c->busy_polls;
}

static void start(struct controller *c)
{
    if (c->busy && cycle_ends(c)) {
        event(c, SAPWOODLE_ENDS);
        c->busy = 0;
    }
    if (c->busy)
        c->polls++;
    event(c, SAPWOODLE_START);
}

/* Rule 6: only directly after the acknowledge of a data byte does it begin a cycle. One clock between them, and the bytes are dropped. */
static void stop(struct controller *c)
{
    unsigned long late;
    for (late = c->late_stop_clocks; late > 0; late--)
        clock_pulse(c, 1);
    event(c, SAPWOODLE_STOP);
}

/* A byte, highest bit first; answers whether it was acknowledged. The sender releases the line for the ninth clock. */
static int send_byte(struct controller *c, unsigned char byte)
{
    int i;
    for (i = 7; i >= 0; i--)
        clock_pulse(c, byte >> i & 1);
    return clock_pulse(c, 1) == 0;
}

/* A byte from the chip. The controller's 0 on the ninth clock asks for one more, its 1 ends (rule 8). */
static unsigned char receive_byte(struct controller *c, int last)
{
    unsigned byte = 0;
    int i;
    for (i = 0; i < 8; i++)
        byte = byte << 1 | (clock_pulse(c, 1) != 0);
    clock_pulse(c, last);
    return (unsigned char)byte;
}

unsigned char controller_open(struct controller *c, unsigned char part, unsigned char enable)
{
    unsigned char refused;
    c->busy_polls = 0;
    c->cycle_ends = 0;
    c->context = 0;
    c->late_stop_clocks = 0;
    c->cycles = 0;
    c->clocks = 0;
    c->polls = 0;
    c->refused = 0;
    c->part = part;
    c->enable = enable;
    c->busy = 0;
    c->array_length = sapwoodle_array_length(part);
    c->id_length = sapwoodle_id_length(part);
    refused = sapwoodle_deliver(part, c->state, sizeof c->state, c->array, c->array_length, c->id, c->id_length);
    if (refused)
        return refused;
    /* A delivery knows no enable, an event does; and the end of a cycle, where none runs, does nothing. */
    event(c, SAPWOODLE_ENDS);
    return c->refused;
}

long controller_write(struct controller *c, unsigned char address7, const unsigned char *bytes, unsigned long n, enum controller_end end)
{
    unsigned long sent = 0;
    int acknowledged;
    start(c);
    if (!send_byte(c, (unsigned char)(address7 << 1))) {
        stop(c);
        return CONTROLLER_NO_SELECT;
    }
    for (acknowledged = 1; acknowledged && sent < n; sent += (unsigned long)acknowledged)
        acknowledged = send_byte(c, bytes[sent]);
    if (end == CONTROLLER_STOP || !acknowledged)
        stop(c);
    return (long)sent;
}

long controller_read(struct controller *c, unsigned char address7, unsigned char *bytes, unsigned long n, enum controller_end end)
{
    unsigned long i;
    if (n == 0)
        return CONTROLLER_NOT_SENT;
    start(c);
    if (!send_byte(c, (unsigned char)(address7 << 1 | 1))) {
        stop(c);
        return CONTROLLER_NO_SELECT;
    }
    for (i = 0; i < n; i++)
        bytes[i] = receive_byte(c, i + 1 == n);
    if (end == CONTROLLER_STOP)
        stop(c);
    return (long)n;
}

int controller_pin(struct controller *c, enum controller_level level)
{
    unsigned char before = c->refused, without;
    if ((unsigned)level > CONTROLLER_FLOATING)
        return 0;
    c->refused = 0;
    event(c, (unsigned char)(SAPWOODLE_PIN_LOW + level));
    /* 5 is a pin event without a pin: an answer here, not a fault. */
    without = c->refused;
    c->refused = before || without == 5 ? before : without;
    return without == 0;
}
