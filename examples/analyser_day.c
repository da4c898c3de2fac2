/* An analyser's day with the sweep store: format, store a sweep, take the reference copy, recalibrate, read both, handle a
 * full store and a marked file by name, and delete an old sweep in the full store. What it prints is in analyser_day.out.
 *     cc -std=c99 -Wall -Wextra -Wpedantic analyser_day.c $(pkg-config --cflags --libs sweep) */
#include <stdio.h>
#include <string.h>
#include "sweep.h"

enum { BLOCKS = 8, SWEEP_BYTES = 1500 }; /* a sweep takes three pages of 512 bytes */
enum { WORK = 0, REFERENCE = 1, EVENING = 2 }; /* set 0 is written to; the two others are copies of it */
enum { ANTENNA = 0, CABLE = 1 }; /* files have numbers; the firmware decides what they mean */

/* The store lives in memory that the firmware owns. */
static uint8_t tables[SWEEP_TABLES_BYTES], pages[BLOCKS * SWEEP_PAGE_BYTES];
#define STORE tables, sizeof tables, pages, sizeof pages

static void print_free(void)
{
    printf("%u of %d blocks free\n", (unsigned)sweep_free(STORE).first, BLOCKS);
}

/* Stores a sweep of the given length whose points all have one level. */
static uint32_t store_sweep(uint32_t file, uint8_t level, size_t length)
{
    static uint8_t sweep[SWEEP_BYTES];
    memset(sweep, level, sizeof sweep);
    sweep_answer done = sweep_write(STORE, WORK, file, 0, sweep, length);
    switch (done.number) {
    case SWEEP_OK:
        printf("file %u: level %u stored, %u new blocks, %u copies\n", (unsigned)file, level, (unsigned)done.first,
               (unsigned)done.second);
        if (done.third > 0)
            printf("file %u: out of sync in %u copies, for want of blocks\n", (unsigned)file, (unsigned)done.third);
        break;
    case SWEEP_FULL:
        printf("file %u: the store is full, nothing was changed\n", (unsigned)file);
        break;
    default:
        printf("file %u: not stored, number %u\n", (unsigned)file, (unsigned)done.number);
    }
    return done.number;
}

/* Reads a sweep's first points, which lie in one page: the maps looked at are 1 where the set's own map has that page, and one
 * more for each parent gone to. A marked file gives number 6. */
static uint32_t print_sweep(uint32_t set, uint32_t file)
{
    uint8_t points[4];
    sweep_answer got = sweep_read(STORE, set, file, 0, points, sizeof points);
    if (got.number == SWEEP_OK && got.first > 0)
        printf("set %u file %u: level %u, maps looked at: %u\n", (unsigned)set, (unsigned)file, points[0], (unsigned)got.second);
    else if (got.number == SWEEP_MARKED)
        printf("set %u file %u: out of sync, cannot be read\n", (unsigned)set, (unsigned)file);
    else
        printf("set %u file %u: number %u, %u bytes\n", (unsigned)set, (unsigned)file, (unsigned)got.number,
               (unsigned)got.first);
    return got.number;
}

/* Deletes a sweep. The first copy that still needs its pages takes over the blocks, also in a full store. */
static uint32_t delete_sweep(uint32_t file)
{
    sweep_answer done = sweep_delete(STORE, WORK, file);
    if (done.number == SWEEP_OK)
        printf("file %u: deleted, %u copies, %u out of sync\n", (unsigned)file, (unsigned)done.second, (unsigned)done.third);
    else
        printf("file %u: not deleted, number %u\n", (unsigned)file, (unsigned)done.number);
    return done.number;
}

int main(void)
{
    if (sweep_format(STORE).number != SWEEP_OK || sweep_create(STORE, WORK, ANTENNA).number != SWEEP_OK)
        return 1;
    store_sweep(ANTENNA, 40, SWEEP_BYTES); /* morning: the first sweep */
    if (sweep_make(STORE, WORK, REFERENCE, 0).number != SWEEP_OK) /* 0: read-only */
        return 1;
    print_free(); /* the copy has cost no block */

    store_sweep(ANTENNA, 43, SWEEP_BYTES); /* recalibrate: the reference gets its own pages now */
    print_sweep(WORK, ANTENNA);
    print_sweep(REFERENCE, ANTENNA);
    print_free();

    if (sweep_create(STORE, WORK, CABLE).number != SWEEP_OK)
        return 1;
    if (store_sweep(CABLE, 20, SWEEP_BYTES) == SWEEP_FULL) { /* three pages do not fit */
        printf("file %d: the first 1024 bytes instead\n", CABLE);
        store_sweep(CABLE, 20, 1024);
    }
    print_free();

    if (sweep_make(STORE, WORK, EVENING, 0).number != SWEEP_OK)
        return 1;
    store_sweep(CABLE, 23, 1024); /* the store is full: the write is done and the copy's file is marked */
    if (print_sweep(EVENING, CABLE) == SWEEP_MARKED) {
        printf("set %d is made anew\n", EVENING); /* a marked file in a read-only set goes with its set */
        if (sweep_remove(STORE, EVENING).number != SWEEP_OK || sweep_make(STORE, WORK, EVENING, 0).number != SWEEP_OK)
            return 1;
    }
    print_sweep(EVENING, CABLE);
    print_sweep(REFERENCE, ANTENNA); /* the morning's reference still stands */

    print_free();
    if (delete_sweep(CABLE) != SWEEP_OK) /* no block is free, and none is needed: the evening's copy takes the blocks over */
        return 1;
    print_sweep(EVENING, CABLE);
    print_free();
    return 0;
}
