/* Calls on functions under test, each compared with a second implementation.
 *
 * The archive is not compiled with sanitizers, so that they see only the C code here. What the archive touches is held by the
 * memory itself: before a call each buffer is put against a page without access, in turn with its end and with its start (the
 * bytes on the other side are looked at after the call), or into a piece of malloc of the very length; what the call only
 * reads is made read-only; and the rooms of buffers that it is not lent have no access. */
#define _DEFAULT_SOURCE
#include <stdio.h>
#include <stdlib.h>
#include <string.h>
#include <sys/mman.h>
#include "harness.h"

static const char *const buffer_names[BUFFERS] = {"tables",    "pages",      "data or buffer",
                                                  "registers", "spare page", "second tables"};

static void fail(const char *text)
{
    fprintf(stderr, "boundary: %s\n", text);
    abort();
}

void copy_buffers(struct buffers *to, const struct buffers *from)
{
    for (int b = 0; b < BUFFERS; b++) {
        to->length[b] = from->length[b];
        memcpy(to->of[b], from->of[b], from->length[b]);
    }
}

/* Rooms, one for each buffer */

enum { PAGE = 4096, CLOSED = PROT_NONE, READABLE = PROT_READ, OPEN = PROT_READ | PROT_WRITE };

static struct room {
    uint8_t *start; /* between two pages without access */
    uint8_t *piece; /* of malloc, for the call that uses it */
    int access;
} rooms[BUFFERS];

static void make_room(struct room *room)
{
    uint8_t *all = mmap(0, ROOM_BYTES + 2 * PAGE, PROT_NONE, MAP_PRIVATE | MAP_ANONYMOUS, -1, 0);
    if (all == MAP_FAILED)
        fail("no memory");
    room->start = all + PAGE;
    room->access = CLOSED;
}

static void allow(struct room *room, int access)
{
    if (!room->start)
        make_room(room);
    if (room->access != access && mprotect(room->start, ROOM_BYTES, access))
        fail("mprotect");
    room->access = access;
}

/* The place in which a call gets its buffers. */
enum placing { AGAINST_END, AGAINST_START, IN_MALLOC, PLACINGS };

/* The bytes of a room beside a buffer, on the side where no page without access is. */
enum { RIM = 64, RIM_FILL = 0xC3 };

static uint8_t *rim(const struct room *room, enum placing placing, struct slice placed)
{
    if (placing == AGAINST_END && placed.at - room->start >= RIM)
        return placed.at - RIM;
    if (placing == AGAINST_START && ROOM_BYTES - placed.length >= RIM)
        return placed.at + placed.length;
    return 0;
}

static int rim_holds(const struct room *room, enum placing placing, struct slice placed)
{
    const uint8_t *side = rim(room, placing, placed);
    for (int i = 0; side && i < RIM; i++)
        if (side[i] != RIM_FILL)
            return 0;
    return 1;
}

/* A piece of malloc: any alignment, and the end exact. */
static uint8_t *new_piece(struct room *room, size_t length)
{
    size_t odd = length % 3;
    room->piece = malloc(length + odd + (length + odd == 0));
    if (!room->piece)
        fail("no memory");
    return room->piece + odd;
}

static struct slice put(struct room *room, enum placing placing, struct slice from)
{
    struct slice placed = {room->start, from.length};
    if (placing == AGAINST_END)
        placed.at = room->start + ROOM_BYTES - from.length;
    if (placing == IN_MALLOC)
        placed.at = new_piece(room, from.length);
    if (from.length)
        memcpy(placed.at, from.at, from.length);
    if (rim(room, placing, placed))
        memset(rim(room, placing, placed), RIM_FILL, RIM);
    return placed;
}

/* Gives the call its buffer, or none, and the room the access that the call may have. */
static struct slice lend(struct room *room, enum placing placing, struct slice from, enum lending lending)
{
    struct slice placed = {0, 0};
    allow(room, lending == NOT_LENT || placing == IN_MALLOC ? CLOSED : OPEN);
    if (lending != NOT_LENT)
        placed = put(room, placing, from);
    if (lending == READ_ONLY && placing != IN_MALLOC)
        allow(room, READABLE);
    return placed;
}

static void clear(struct room *room)
{
    free(room->piece);
    room->piece = 0;
}

/* Comparing */

static void differ(const struct suite *suite, const struct call *call, const char *what, const char *which)
{
    const struct function *function = &suite->functions[call->name];
    fprintf(stderr, "boundary: %s(", function->name);
    for (int i = 0; i < MOST_NUMBERS && function->numbers[i].bits; i++)
        fprintf(stderr, "%s%lu", i ? ", " : "", (unsigned long)call->n[i]);
    for (int b = 0; b < BUFFERS; b++)
        if (function->lends[b] != NOT_LENT)
            fprintf(stderr, "; %s %lu bytes", buffer_names[b], (unsigned long)call->lent[b].length);
    fprintf(stderr, "): %s%s\n", what, which);
    abort();
}

static void compare_answers(const struct suite *suite, const struct call *before, sweep_answer found, sweep_answer wanted)
{
    if (found.number != wanted.number || found.first != wanted.first || found.second != wanted.second ||
        found.third != wanted.third)
        differ(suite, before, "the answers differ", "");
    if (found.number >= ANSWERS)
        differ(suite, before, "a number is out of range", "");
}

/* Compares what is not left free, and takes over what is. */
static int same_but_free(const struct function *function, const struct call *after, enum buffer buffer, struct slice found)
{
    static uint8_t free[ROOM_BYTES];
    uint8_t *wanted = after->lent[buffer].at;
    memset(free, 0, found.length);
    function->leaves(after, buffer, free);
    for (size_t i = 0; i < found.length; i++) {
        if (!free[i] && found.at[i] != wanted[i])
            return 0;
        wanted[i] = found.at[i];
    }
    return 1;
}

static void compare_buffers(const struct suite *suite, const struct call *placed, const struct call *after, int accepted,
                            enum placing placing)
{
    const struct function *function = &suite->functions[placed->name];
    for (enum buffer b = TABLES; b < BUFFERS; b++) {
        struct slice found = placed->lent[b];
        if (function->lends[b] == NOT_LENT)
            continue;
        int same = function->leaves && accepted ? same_but_free(function, after, b, found)
                                                : !memcmp(found.at, after->lent[b].at, found.length);
        if (!same)
            differ(suite, placed, "they differ: ", buffer_names[b]);
        if (!rim_holds(&rooms[b], placing, found))
            differ(suite, placed, "bytes were changed beside: ", buffer_names[b]);
    }
}

/* Totals */

static void count(struct suite *suite, const struct call *call, sweep_answer answer)
{
    suite->totals.calls[call->name][answer.number]++;
    if (suite->functions[call->name].copies) {
        suite->totals.copies += answer.second;
        suite->totals.marked += answer.third;
    }
}

void show_totals(const struct suite *suite)
{
    const struct totals *totals = &suite->totals;
    for (unsigned name = 0; name < suite->count; name++) {
        printf("%s:", suite->functions[name].name);
        for (int number = 0; number < ANSWERS; number++)
            if (totals->calls[name][number])
                printf(" %d: %llu", number, (unsigned long long)totals->calls[name][number]);
        printf("\n");
    }
    printf("copies %llu, files marked %llu\n", (unsigned long long)totals->copies, (unsigned long long)totals->marked);
}

/* One call */

/* The call on a caller's buffers, its numbers cut to their widths. */
static struct call call_on(const struct function *function, const struct call *call, struct buffers *buffers)
{
    struct call on = {call->name, {0}, {{0, 0}}};
    for (int i = 0; i < MOST_NUMBERS; i++)
        on.n[i] = call->n[i] & (uint32_t)((UINT64_C(1) << function->numbers[i].bits) - 1);
    for (int b = 0; b < BUFFERS; b++) {
        on.lent[b].at = buffers->of[b];
        on.lent[b].length = function->lends[b] == NOT_LENT ? 0 : buffers->length[b];
        if (on.lent[b].length > ROOM_BYTES)
            fail("a buffer is too long for its room");
    }
    return on;
}

sweep_answer do_call(struct suite *suite, caller how, struct buffers *world, const struct call *call, unsigned turn)
{
    static struct buffers judged;
    const struct function *function = &suite->functions[call->name];
    enum placing placing = (enum placing)(turn % PLACINGS);
    struct call before = call_on(function, call, world), after = call_on(function, &before, &judged), placed = before;
    for (int b = 0; b < BUFFERS; b++) {
        placed.lent[b] = lend(&rooms[b], placing, before.lent[b], function->lends[b]);
        after.lent[b].length = before.lent[b].length;
        memcpy(judged.of[b], world->of[b], before.lent[b].length);
    }

    sweep_answer found = how(&placed);
    sweep_answer wanted = suite->judge(call->name, before.n, after.lent);
    compare_answers(suite, &before, found, wanted);
    compare_buffers(suite, &placed, &after, found.number == SWEEP_OK, placing);

    for (int b = 0; b < BUFFERS; b++) {
        clear(&rooms[b]);
        memcpy(world->of[b], judged.of[b], after.lent[b].length);
    }
    count(suite, call, found);
    return found;
}
