/* Calls on functions under test, each compared with a second implementation of the same functions (a judge). What a function
 * is lent and told stands in a row of a table; the harness knows no function by itself. */
#ifndef HARNESS_H
#define HARNESS_H

#include <stddef.h>
#include <stdint.h>
#include "sweep.h"

/* The buffers that a caller can lend. */
enum buffer {
    TABLES,
    PAGES,
    BYTES,     /* the data of a write, the buffer of a read */
    REGISTERS,
    SPARE,     /* the spare page of a compaction */
    SECOND,    /* second tables: the older ones that are converted */
    BUFFERS
};

enum {
    MOST_NUMBERS = 5,    /* that a call is told */
    MOST_FUNCTIONS = 64, /* of a table */
    ANSWERS = 32,        /* an answer's number is below it */
    ROOM_BYTES = 40960   /* the longest buffer */
};

struct slice {
    uint8_t *at;
    size_t length;
};

/* One call: the place of its function in the table, the numbers it is told, and the buffers it is lent. */
struct call {
    unsigned name;
    uint32_t n[MOST_NUMBERS];
    struct slice lent[BUFFERS];
};

/* The caller's buffers, with the lengths that the next call is told. */
struct buffers {
    uint8_t of[BUFFERS][ROOM_BYTES];
    size_t length[BUFFERS];
};
void copy_buffers(struct buffers *to, const struct buffers *from);

struct cursor; /* the rest of a list of calls (lists.h) */

/* A number of a call: its width in bits, and how a list chooses it. */
struct number {
    unsigned bits;
    uint32_t (*choose)(const struct buffers *world, const struct call *so_far, struct cursor *cursor);
};

enum lending { NOT_LENT, READ_ONLY, CHANGED };

/* A row: one function under test. */
struct function {
    const char *name;
    sweep_answer (*run)(const struct call *call);
    enum lending lends[BUFFERS];
    struct number numbers[MOST_NUMBERS]; /* those of 0 bits are not told */

    /* Sets to 1 the places of a buffer whose bytes an accepted call leaves free: buffers as the judge left them. They are not
     * compared, and the judge goes on with the store's. */
    void (*leaves)(const struct call *after, enum buffer buffer, uint8_t *free);
    int copies;    /* whether its second and third counts are copies and files marked */
    int unchecked; /* whether it can give another number than 1 on tables that are not well formed, format apart */

    /* Gives buffers other lengths and contents before the call of a list. */
    void (*prepare)(struct buffers *world, const struct call *call, struct cursor *cursor);
};

/* Does a call on the functions under test; a test may put its own in the place of it. */
typedef sweep_answer (*caller)(const struct call *call);

/* The second implementation: n has MOST_NUMBERS numbers, lent all BUFFERS (those not lent are of length 0). */
typedef sweep_answer (*second_implementation)(uint32_t name, const uint32_t *n, const struct slice *lent);

/* What has been run: calls and the numbers they gave, copies, files marked. */
struct totals {
    uint64_t calls[MOST_FUNCTIONS][ANSWERS];
    uint64_t copies, marked;
};

struct suite {
    const struct function *functions;
    unsigned count;
    second_implementation judge;
    struct totals totals;
};
void show_totals(const struct suite *suite);

/* Does a call on the functions under test and on the judge, and compares the answers and every byte. At a difference it says
 * which and aborts. The turn says where the buffers stand. */
sweep_answer do_call(struct suite *suite, caller how, struct buffers *world, const struct call *call, unsigned turn);

#endif
