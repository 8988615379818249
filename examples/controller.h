/* An I2C controller over the model, to be put under a driver of your own: where the driver calls its controller, let it call these.
 *
 *     static struct controller bus;              33 KB: not for a small stack
 *     controller_open(&bus, 2, 0);               an M24C64 as delivered, its straps all low
 *     bus.busy_polls = 3;                        each cycle leaves three selects unanswered
 *     controller_write(&bus, 0x50, frame, n, CONTROLLER_STOP);
 *
 * Compile controller.c with your driver and link target/staticlib/libsapwoodle.a. It allocates and prints nothing. */
#ifndef CONTROLLER_H
#define CONTROLLER_H

#include "../include/sapwoodle.h"

#ifdef __cplusplus
extern "C" {
#endif

/* How a transfer ends. AGAIN leaves the bus with the controller: the Start of the next call is a repeated one. */
enum controller_end { CONTROLLER_STOP, CONTROLLER_AGAIN };

enum controller_level { CONTROLLER_LOW, CONTROLLER_HIGH, CONTROLLER_FLOATING };

enum {
    CONTROLLER_NO_SELECT = -1, /* the select was not acknowledged */
    CONTROLLER_NOT_SENT = -2 /* nothing was sent: a read of no bytes, after which the chip would hold the line and no Stop could be made */
};

struct controller {
    /* Yours to set at any time; 0 after controller_open. */
    unsigned long busy_polls; /* a cycle ends before the Start that follows so many unanswered ones: d - 1 for the d of sapwoodle_bench_run */
    int (*cycle_ends)(void *context, unsigned long polls); /* in place of that count: asked before each Start while the chip is busy, with the
                                                              Starts unanswered so far; not 0 ends the cycle. May go by a clock of your own */
    void *context;
    unsigned long late_stop_clocks; /* a fault: so many clocks, data released, stand before each Stop. Nine are one more byte, FFh */

    /* Yours to look at, and the first two to set back to 0. */
    unsigned long cycles; /* begun */
    unsigned long clocks;
    unsigned long polls; /* Starts unanswered in the cycle that runs, or in the last one */
    unsigned char refused; /* the first refusal of the library, by its number; 0 unless these bytes were written over */

    /* The chip. The array and the identification page may be looked at and filled between calls. */
    unsigned char part, enable, busy;
    unsigned long array_length, id_length;
    unsigned char state[SAPWOODLE_STATE_LENGTH];
    unsigned char array[SAPWOODLE_ARRAY_MOST];
    unsigned char id[SAPWOODLE_ID_MOST];
};

/* A part as delivered, at rest. Answers 0; 1 for a number that is no part, 2 for an enable that the part cannot have. */
unsigned char controller_open(struct controller *c, unsigned char part, unsigned char enable);

/* Start, the select with write, bytes. Answers how many bytes were acknowledged, the select not counted: n if all were, else the index of the
 * first that was not; or CONTROLLER_NO_SELECT. A write of no bytes is the usual poll: 0 if the chip answers. `bytes` is not looked at then.
 *
 * After a byte that is not acknowledged it sends nothing more but a Stop, whatever `end` says: most controllers do so by themselves, and the
 * drivers of the others. A driver that wants to go on begins anew. */
long controller_write(struct controller *c, unsigned char address7, const unsigned char *bytes, unsigned long n, enum controller_end end);

/* Start, the select with read, n bytes, the last unacknowledged. Answers n; or CONTROLLER_NO_SELECT after a Stop, or CONTROLLER_NOT_SENT,
 * and `bytes` is as before. */
long controller_read(struct controller *c, unsigned char address7, unsigned char *bytes, unsigned long n, enum controller_end end);

/* Write Control. Answers 1, or 0 where the part has no such pin (part 0) or the level is none of the three: nothing changes then. */
int controller_pin(struct controller *c, enum controller_level level);

#ifdef __cplusplus
}
#endif

#endif
