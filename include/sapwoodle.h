/* Sapwoodle: the M24C serial EEPROM as a library. Static, for C on x86-64 Linux:
 *
 *     examples/run                    proves it, writes target/staticlib/libsapwoodle.a, and runs the examples with it
 *
 * It has no state of its own, allocates nothing, calls nothing but memcpy and memset, and every function ends.
 *
 * Every function takes any numbers and any bytes. Bytes and counts are lent as a pointer and how many; no two buffers of a call may overlap,
 * and the pointers for results must point to a variable each. A call answers 0, or the number of its refusal:
 *
 *      1  part above 5                                   8  budget or d outside its limits
 *      2  enable wrong for the part                      9  select not acknowledged
 *      3  array or identification buffer not exactly    10  data byte not acknowledged
 *         the part's length (0 without such a page);    11  polls used up
 *         page for a loss of power not a page long;     12  image length, mark, version or lock byte wrong
 *         counts not one for each group of the part     13  more than 32,768 events
 *      4  state or driver: another length, bytes that   14  first address byte not acknowledged
 *         hold none, or one that is out of range        15  second address byte not acknowledged
 *      5  event above 8, or a pin event without a pin   16  HEX: malformed record
 *      6  answer or output buffer too short             17  HEX: wrong sum
 *      7  address plus length beyond the array or       18  HEX: overlap, or beyond the array
 *         page; no such page                            19  HEX: no end record, or text after it
 *                                                       20  capture: a sample above 3
 *                                                       21  image: counts would be lost
 *
 * Where several of 1 to 8, 12, 13, 20 and 21 apply, the first of 1 2 3 4 20 13 5 6 7 8 12 21 is answered; of 16 to 19, which come after these, the one of the
 * earliest record, and within it the lowest. A call refused with one of these changes no lent byte or count; its results are the ones said below for
 * a refused call.
 *
 * unsigned char has 8 bits here, unsigned int 32, unsigned long 64: uint8_t, uint32_t, size_t and uint64_t fit. */
#ifndef SAPWOODLE_H
#define SAPWOODLE_H

#ifdef __cplusplus
extern "C" {
#endif

/* ---- the parts
 *
 *     part                array   page   identification page   Write Control   enable
 *     0 M24C16-DFCU       2,048     16                    16   no              0
 *     1 M24C16-DRE        2,048     16                    16   yes             0
 *     2 M24C64            8,192     32                     0   yes             0 to 7
 *     3 M24C64-D          8,192     32                    32   yes             0 to 7
 *     4 M24256-B         32,768     64                     0   yes             0 to 7
 *     5 M24256-D         32,768     64                    64   yes             0 to 7
 *
 * What a chip stores stands in two buffers that the caller lends to each call: the array, and the identification page (`id`). On a part
 * without such a page its length is 0, and nothing is read or written there: `id` may then point to any byte of the caller's, but is
 * not NULL. */
#define SAPWOODLE_ARRAY_MOST 32768
#define SAPWOODLE_ID_MOST 64
#define SAPWOODLE_PAGE_MOST 64

/* ---- events, and the levels that answer them */
enum {
    SAPWOODLE_CLOCK_0 = 0, /* a clock with the master's level 0 */
    SAPWOODLE_CLOCK_1 = 1,
    SAPWOODLE_START = 2,
    SAPWOODLE_STOP = 3,
    SAPWOODLE_ENDS = 4, /* the internal write cycle ends */
    SAPWOODLE_PIN_LOW = 5, /* Write Control */
    SAPWOODLE_PIN_HIGH = 6,
    SAPWOODLE_PIN_FLOATING = 7,
    SAPWOODLE_RESET = 8,
    SAPWOODLE_NO_LEVEL = 2 /* the chip answers a clock with 0, it pulls low, or 1, it releases; any other event with this */
};

/* ---- the state of a chip: 137 bytes. Every state has exactly one form, and the caller may keep, copy and compare it.
 *
 *     0, 1   the counter, high byte first
 *     2      Write Control: 0 no pin, 1 low, 2 high, 3 floating
 *     3      1 where this transfer is inhibited, else 0
 *     4      1 where the identification page is locked, else 0
 *     5      what the chip is doing
 *              0      standby, or released until the next Start
 *              1      receives a select code
 *              2, 3   the first of two address bytes, for the array, for the identification page
 *              4, 5   the last address byte, likewise
 *              6, 7   array data; 7 once a byte was acknowledged
 *              8, 9   identification data, likewise
 *              10     a lock byte
 *              11, 12 a lock byte was acknowledged; 12 where its bit 1 was set
 *              13, 14 sends from the array, from the identification page
 *              15, 16 in a write cycle of the array, of the identification page
 *              17     in a locking cycle
 *     6      the address byte before the last, in 4 and 5; else 0
 *     7      bits of a byte still to come before the acknowledge, 0 to 8
 *     8      the bits received of it
 *     9      64 latches, one for each place of a page, of two bytes each, high byte first: a byte that is latched, or 256 and more
 *            for none
 *
 * Bytes of another form, and states that no chip of the part can be in, are refused with 4. */
#define SAPWOODLE_STATE_LENGTH 137

/* A part as delivered: every byte FFh (but for the identification code of part 1), counter 0, unlocked, standby, pin floating.
 * Refused with 1, 3, 4. */
unsigned char sapwoodle_deliver(unsigned char part,
    unsigned char *state, unsigned long state_length,
    unsigned char *array, unsigned long array_length,
    unsigned char *id, unsigned long id_length);

/* ---- power lost in a write cycle
 *
 * A chip corrects errors by groups of bytes: four aligned ones on parts 2 to 5, single bytes on 0 and 1. A reset in a write cycle leaves each
 * group with a latched byte holding the bytes of `page`, by their places in the page, latched or not; every other byte is as before, and the
 * bytes that were to be written are lost. A reset in a locking cycle leaves the lock as the flag `lock` says: 0 no, 1 and more yes. Any other
 * reset changes nothing stored and uses neither. One page and flag serve all resets of a call; another call may lend another.
 *
 *     part 2, AAh at 0025h, a reset in its cycle: 0024h to 0027h hold page[4] to page[7], also 0025h; 0020h to 0023h
 *     and all from 0028h on are as before
 *
 *     unsigned char page[32] = { .. };
 *     sapwoodle_step(2, 0, page, sizeof page, 0, state, sizeof state, array, sizeof array, id, 0, SAPWOODLE_RESET, &level, &cycles);
 *
 * The page is a page long, 16, 32 or 64 bytes by the part, or the call is refused with 3, whether there is a reset or not. With no page and
 * flag 0 a reset in a cycle finds the old contents and no lock: `page_length` is 0 then, and `page` may point to any byte of the caller's,
 * but is not NULL. A flag without a page is refused with 3. The page is only read. The state does not hold it: 137 bytes as before. */

/* One event. `level` gets the chip's answer, `cycles` the write cycles that the event began, 0 or 1; of a refused call no level and 0. A
 * cycle that is cut was counted at its Stop. Refused with 1 to 5. */
unsigned char sapwoodle_step(unsigned char part, unsigned char enable,
    const unsigned char *page, unsigned long page_length, unsigned char lock,
    unsigned char *state, unsigned long state_length,
    unsigned char *array, unsigned long array_length,
    unsigned char *id, unsigned long id_length,
    unsigned char event,
    unsigned char *level, unsigned long *cycles);

/* Events, one byte each. `answers` gets a level for each, and keeps its further bytes; `cycles` the cycles begun, and `place` where the
 * first wrong event stands if the answer is 5. Of any other refused call both are 0. Refused with 1 to 6, 13. */
unsigned char sapwoodle_run(unsigned char part, unsigned char enable,
    const unsigned char *page, unsigned long page_length, unsigned char lock,
    unsigned char *state, unsigned long state_length,
    unsigned char *array, unsigned long array_length,
    unsigned char *id, unsigned long id_length,
    const unsigned char *events, unsigned long events_length,
    unsigned char *answers, unsigned long answers_length,
    unsigned long *cycles, unsigned long *place);

/* ---- the image: what a chip stores and its lock as one string of bytes
 *
 *     0  'E' 'P' 'R'     3  00h 01h     5  part     6  lock, 0 or 1     7  the array, then the identification page */
#define SAPWOODLE_IMAGE_MOST (7 + SAPWOODLE_ARRAY_MOST + SAPWOODLE_ID_MOST)

/* The bytes as they stand, without what is latched or under way. `written` gets the length of the image, of a refused call 0; further
 * bytes of `out` keep their values. Refused with 1, 3, 4, 6. */
unsigned char sapwoodle_save(unsigned char part,
    const unsigned char *state, unsigned long state_length,
    const unsigned char *array, unsigned long array_length,
    const unsigned char *id, unsigned long id_length,
    unsigned char *out, unsigned long out_length,
    unsigned long *written);

/* A chip in standby as after reset, its pin floating. `part` gets the image's part byte, refused or not; 0 where it has none.
 * Refused with 1, 2, 3, 4, 12; an image too short to hold its part byte is 12 at once. */
unsigned char sapwoodle_load(const unsigned char *image, unsigned long image_length, unsigned char enable,
    unsigned char *state, unsigned long state_length,
    unsigned char *array, unsigned long array_length,
    unsigned char *id, unsigned long id_length,
    unsigned char *part);

/* ---- Intel HEX: the array alone as text. A HEX file says nothing of the identification page, the lock or the part.
 *
 * Read: data records (type 00) of 0 to 255 bytes in any order, then the end record `:00000001FF`; either case of hex; lines end with LF or CR LF, the
 * last may have no end. Any other type is refused with 16. Written: records of 16 bytes in ascending order, upper case, LF. */
#define SAPWOODLE_HEX_MOST 90124 /* the longest text that is written: 44 bytes for each 16 of the array, and 12 */

/* The array that a text names; bytes that no record names are FFh. `records` gets how many data records there were, `named` how many bytes they
 * name: fewer than the array has, where there is a hole. Of a refused call both are 0. `line` gets the line of a record refused with 16 to 19,
 * counted from 1 (of 19, the one behind the last line that was read), else 0. Refused with 1, 3, 16 to 19. */
unsigned char sapwoodle_hex_read(unsigned char part,
    const unsigned char *text, unsigned long text_length,
    unsigned char *array, unsigned long array_length,
    unsigned long *line, unsigned long *records, unsigned long *named);

/* The array as text. `written` gets its length, of a refused call 0; further bytes of `out` keep their values. Refused with 1, 3, 6. */
unsigned char sapwoodle_hex_write(unsigned char part,
    const unsigned char *array, unsigned long array_length,
    unsigned char *out, unsigned long out_length,
    unsigned long *written);

/* ---- what a logic analyser saw: captures of SCL and SDA, one byte a sample, bit 0 clock and bit 1 data */
enum {
    SAPWOODLE_LETTER = 0, /* every rise of the clock is a clock */
    SAPWOODLE_BUS = 1 /* a rise is a clock where data then stay still until the clock falls: not the one that makes way for a Start or Stop. What
                         a master on two wires makes; by the letter each of its Stops comes one clock late */
};

/* The model over a capture, on a state as above, in any number of samples. Where a cycle runs it ends before the first Start whose first byte the capture
 * shows acknowledged. `events` and `clocks` get how many the capture has, `ends` how many ends of cycles were put in, `cycles` the cycles begun. `level`
 * gets the line's level at the first clock that differs from the model's, among data bits that the model sends and ninth clocks of other bytes, or 2
 * where none does; `sample` then where that clock rises and `clock` its number, both counted from 0. A long capture may be cut behind a Stop: the next
 * piece begins with the sample that the last one ended with, and events, clocks and cycles add up. A sample that repeats the one before it may be left out.
 * `at` gets the first sample above 3, where the call is refused with 20. Refused with 1 to 4, 20; all else is 0 then, and `level` 2. */
unsigned char sapwoodle_capture_run(unsigned char part, unsigned char enable,
    unsigned char *state, unsigned long state_length,
    unsigned char *array, unsigned long array_length,
    unsigned char *id, unsigned long id_length,
    unsigned char bus,
    const unsigned char *samples, unsigned long samples_length,
    unsigned long *events, unsigned long *clocks, unsigned long *ends, unsigned long *cycles,
    unsigned char *level, unsigned long *sample, unsigned long *clock, unsigned long *at);

/* The events of a capture, by their codes 0 to 3. `length` gets how many, of a refused call 0; further bytes of `out` keep their values. There are at
 * most as many as samples. Refused with 20, 6. */
unsigned char sapwoodle_capture_events(unsigned char bus,
    const unsigned char *samples, unsigned long samples_length,
    unsigned char *out, unsigned long out_length,
    unsigned long *length, unsigned long *at);

/* The four counts go on by the Starts, Stops, bytes and unacknowledged bytes that a capture shows; a byte is nine clocks, unacknowledged if the ninth is 1.
 * Each stays at 4,294,967,295. Refused with 20, and nothing is counted. */
unsigned char sapwoodle_capture_tally(unsigned char bus,
    const unsigned char *samples, unsigned long samples_length,
    unsigned int *starts, unsigned int *stops, unsigned int *bytes, unsigned int *unacknowledged,
    unsigned long *at);

/* ---- the driver: it is asked for one event at a time, and told the level of the last clock */
enum {
    SAPWOODLE_WRITE = 0, /* what a request asks for; another number is refused with 7 */
    SAPWOODLE_READ = 1,
    SAPWOODLE_WRITE_ID = 2, /* the identification page */
    SAPWOODLE_READ_ID = 3,
    SAPWOODLE_NO_EVENT = 255 /* the driver has finished */
};

/* Its state: 35 bytes. Every state has exactly one form, and the caller may keep and copy it.
 *
 *     0, 1   part and enable of the request
 *     2      1 for the identification page, 0 for the array
 *     3      1 for a read, 0 for a write
 *     4      what it is doing: 0 before a Start, or done; 1 to 7 inside a byte; 8 to 14 after the ninth clock of it (select, first
 *            of two address bytes, last address byte, data, select of a poll, second select of a read, byte read); 15 after the Stop of
 *            a page; refused 16 at a select, 17 at a data byte, 18 with its polls used up, 19 at the first of two address bytes, 20 at
 *            the last address byte
 *     5      clocks sent of the byte, in 1 to 7; else 0
 *     6      bits told of a byte that is read
 *     7      seven numbers of four bytes each, high byte first: address, length and budget of the request, bytes sent or got, bytes seen
 *            to be done, polls for this page, polls in all */
#define SAPWOODLE_DRIVER_LENGTH 35

/* A driver for a request: `length` bytes at an address of the array, or at a location of the identification page. `budget` is the
 * polls allowed for a page, 1 to 1,000; a read needs none. Refused with 1, 2, 4, 7, 8. */
unsigned char sapwoodle_driver_begin(unsigned char part, unsigned char enable, unsigned char what,
    unsigned long address, unsigned long length, unsigned long budget,
    unsigned char *driver, unsigned long driver_length);

/* One step. `level` is that of the last clock, 0 or 1 (more counts as 1); only that of an acknowledge and of a bit that is read matters.
 * `data` is the same buffer at each step, of exactly the length asked for: the bytes to write, or where the bytes read go.
 *
 * `event` gets a clock, a Start or a Stop to send; or SAPWOODLE_NO_EVENT, and then the answer is 0, done, or the refusal that ended the
 * driver, `place` which byte that was, `polls` the polls spent and `bytes` the leading bytes that were seen to be written, or were read.
 * With an event all three are 0. A finished driver answers the same again. Refused with 9, 10, 11, 14, 15 after its Stop was sent, and
 * with 4.
 *
 * `place`: of 9, 14 and 15 the page of the address that the driver was sending, counted from 0 (page 2 of part 2 is 0040h to 005Fh;
 * the identification page is 0); of 10 the index of the data byte among all that were asked for, from 0; else 0. 9 is a select, of a
 * write or either one of a read: look at the enable straps first, or the chip is busy. A chip of the part that has kept its power gives
 * neither 14 nor 15, whatever its straps: look at the line. Parts 0 and 1 have one address byte, the first. */
unsigned char sapwoodle_driver_next(unsigned char *driver, unsigned long driver_length,
    unsigned char level,
    unsigned char *data, unsigned long data_length,
    unsigned char *event, unsigned long *place, unsigned long *polls, unsigned long *bytes);

/* ---- driver and chip together, to the end
 *
 * `chip_enable` is the chip's own enable, `enable` the one that the driver selects. Each write cycle ends just before its poll number `d`,
 * 1 to 65,535. `data` has the bytes to write, exactly `length`; or room for the bytes read, and keeps its further bytes.
 * `place`, `polls` and `bytes` as above, `cycles` the write cycles begun, `clocks` the clocks sent; of a call refused with 1 to 8 all 0.
 * Refused with 1 to 4, 6, 7, 8 before anything changes; with 9 to 11 by the driver, and then the chip is as the driver left it. */
unsigned char sapwoodle_bench_run(unsigned char part, unsigned char enable, unsigned char what,
    unsigned long address, unsigned long length, unsigned long budget,
    unsigned char chip_enable, unsigned long d,
    unsigned char *state, unsigned long state_length,
    unsigned char *array, unsigned long array_length,
    unsigned char *id, unsigned long id_length,
    unsigned char *data, unsigned long data_length,
    unsigned long *place, unsigned long *polls, unsigned long *bytes, unsigned long *cycles, unsigned long *clocks);

/* ---- wear: for each group of the array how many completed or cut write cycles touched it
 *
 * Groups are those above: four bytes on parts 2 to 5, single bytes on 0 and 1; group n begins at address n times a group's bytes. The caller lends
 * a count for each, 0 at first, and keeps them beside the state, which knows nothing of them. A cycle counts where it ends or a reset cuts it, once
 * for each group that it latched a byte of, also where the byte is the old one; a cycle of the identification page and a locking cycle count for
 * none, and so does a cycle that is still under way. Each count stays at 4,294,967,295.
 *
 *     part 2, AAh at 0025h and 55h at 0026h in one page write: when its cycle ends, counts[9] is one more
 *
 * Beside the counts the caller keeps the most worn group of them, the lowest on a tie: its number `group` and its count `count`, 0 and 0 while all
 * counts are 0. It goes into each call that raises counts and comes back as the worst of the counts that are left, so that nobody walks them to show
 * it. Each such call looks once whether the counts bear it out, and refuses another with 4: the stored worst group is not what the counts say; begin
 * again with sapwoodle_worst. A refused call leaves it.
 *
 *     unsigned int counts[2048] = { 0 }, count = 0;
 *     unsigned long group = 0;
 *     sapwoodle_wear_run(2, 0, page, 0, 0, state, sizeof state, array, sizeof array, id, 0, counts, 2048, &group, &count, events, n, answers, n,
 *         &cycles, &place);
 */
#define SAPWOODLE_GROUPS_MOST 8192

/* How many counts a part has: 2,048, and 8,192 of parts 4 and 5; 0 for a number that is no part. */
unsigned long sapwoodle_groups(unsigned char part);

/* `group` gets the group with most, the lowest on a tie, and `count` its count, found by a walk along the counts: for who begins, or joined two heaps;
 * where all are 0, and of a refused call, 0 each. Refused with 1, 3. */
unsigned char sapwoodle_worst(unsigned char part,
    const unsigned int *counts, unsigned long counts_length,
    unsigned long *group, unsigned int *count);

/* As sapwoodle_run, and the counts go on by the cycles that end or are cut, and the worst of them with them. Refused with 1 to 6, 13; with 4 also where
 * the counts do not bear the worst out. */
unsigned char sapwoodle_wear_run(unsigned char part, unsigned char enable,
    const unsigned char *page, unsigned long page_length, unsigned char lock,
    unsigned char *state, unsigned long state_length,
    unsigned char *array, unsigned long array_length,
    unsigned char *id, unsigned long id_length,
    unsigned int *counts, unsigned long counts_length,
    unsigned long *group, unsigned int *count,
    const unsigned char *events, unsigned long events_length,
    unsigned char *answers, unsigned long answers_length,
    unsigned long *cycles, unsigned long *place);

/* `total` gets the sum of the counts, `group` the group with most, the lowest on a tie, and `count` its count; where all are 0, and of a refused
 * call, 0 each. Refused with 1, 3. */
unsigned char sapwoodle_wear_report(unsigned char part,
    const unsigned int *counts, unsigned long counts_length,
    unsigned long *total, unsigned long *group, unsigned int *count);

/* The counts of two heaps of traces together, into the first. Refused with 1, 3, for either of them. sapwoodle_worst finds the worst of both. */
unsigned char sapwoodle_wear_join(unsigned char part,
    unsigned int *counts, unsigned long counts_length,
    const unsigned int *more, unsigned long more_length);

/* As sapwoodle_bench_run, and the counts go on by the cycles that end in it, also where the driver is refused with 9 to 11, 14, 15, and the worst of them
 * with them. Refused with 1 to 4, 6, 7, 8 before anything changes; with 4 also where the counts do not bear the worst out. */
unsigned char sapwoodle_wear_bench_run(unsigned char part, unsigned char enable, unsigned char what,
    unsigned long address, unsigned long length, unsigned long budget,
    unsigned char chip_enable, unsigned long d,
    unsigned char *state, unsigned long state_length,
    unsigned char *array, unsigned long array_length,
    unsigned char *id, unsigned long id_length,
    unsigned char *data, unsigned long data_length,
    unsigned int *counts, unsigned long counts_length,
    unsigned long *group, unsigned int *count,
    unsigned long *place, unsigned long *polls, unsigned long *bytes, unsigned long *cycles, unsigned long *clocks);

/* ---- the image with counts of wear: version 2. It is version 1 but for that number, and behind the identification page for each group, from
 * group 0 on, its count, four bytes, high byte first. The lengths are exact
 *
 *     0  'E' 'P' 'R'     3  00h 02h     5  part     6  lock, 0 or 1     7  the array, then the identification page, then the counts
 *
 *     part     version 1     version 2
 *     0, 1         2,071        10,263
 *     2            8,199        16,391
 *     3            8,231        16,423
 *     4           32,775        65,543
 *     5           32,839        65,607
 *
 * sapwoodle_load takes version 1 alone: version 2 is 12 there. */
#define SAPWOODLE_WORN_MOST (SAPWOODLE_IMAGE_MOST + 4 * SAPWOODLE_GROUPS_MOST)

/* The bytes and the counts as they stand, without what is latched or under way: a cycle that is saved so counts for nothing. `written` gets the length
 * of the image, of a refused call 0; further bytes of `out` keep their values. Refused with 1, 3, 4, 6. */
unsigned char sapwoodle_save_worn(unsigned char part,
    const unsigned char *state, unsigned long state_length,
    const unsigned char *array, unsigned long array_length,
    const unsigned char *id, unsigned long id_length,
    const unsigned int *counts, unsigned long counts_length,
    unsigned char *out, unsigned long out_length,
    unsigned long *written);

/* As sapwoodle_load, from an image of either version, and the counts with it: of version 1 each is 0. Any number is a count. `group` and `count` get the
 * worst of them; of a refused call they keep their values, as the counts do. Refused with 1, 2, 3, 4, 12; an image too short to hold its part byte is 12
 * at once. */
unsigned char sapwoodle_load_worn(const unsigned char *image, unsigned long image_length, unsigned char enable,
    unsigned char *state, unsigned long state_length,
    unsigned char *array, unsigned long array_length,
    unsigned char *id, unsigned long id_length,
    unsigned int *counts, unsigned long counts_length,
    unsigned char *part,
    unsigned long *group, unsigned int *count);

/* An image of version 1 as one of version 2, with all counts 0. `written` gets its length, of a refused call 0; further bytes of `out` keep their values.
 * Refused with 1, 6, 12, an image of version 2 with 12 too; one too short to hold its part byte is 12 at once. */
unsigned char sapwoodle_to_worn(const unsigned char *image, unsigned long image_length,
    unsigned char *out, unsigned long out_length,
    unsigned long *written);

/* An image of version 2 as one of version 1, likewise: refused with 21 where a count is not 0, which version 1 cannot hold. Refused with 1, 6, 12, 21. */
unsigned char sapwoodle_to_plain(const unsigned char *image, unsigned long image_length,
    unsigned char *out, unsigned long out_length,
    unsigned long *written);

/* ---- the trace program: a typed trace in, what the program prints out, `refused N` too. `length` gets the number of bytes written, at
 * most 32,800. Refused with 6 where `out` is too short for them: it is then as before, and `length` gets 0. */
unsigned char sapwoodle_trace(const unsigned char *text, unsigned long text_length,
    unsigned char *out, unsigned long out_length,
    unsigned long *length);

/* ---- lengths: of the array and the identification page of a part, 0 for a number that is no part; and the two above */
unsigned long sapwoodle_array_length(unsigned char part);
unsigned long sapwoodle_id_length(unsigned char part);
unsigned long sapwoodle_state_length(void);
unsigned long sapwoodle_driver_length(void);

#ifdef __cplusplus
}
#endif

#endif
