/* How much room a write can take. Pages 7 and 8 of a sweep are written in set 1, of which two copies were made, with many and with
 * few blocks free, by groups of eight pages and narrow. Before each write the program asks whether the blocks free are enough that no
 * file is marked. What it prints is in room.out.
 *     cc -std=c99 -Wall -Wextra -Wpedantic room.c $(pkg-config --cflags --libs sweep) */
#include <stdio.h>
#include <string.h>
#include "sweep.h"

enum { PAGES = 16, BLOCKS_MOST = 50, CHILDREN = 2, OFFSET = 7 * SWEEP_PAGE_BYTES, LENGTH = 2 * SWEEP_PAGE_BYTES };

static uint8_t tables[SWEEP_TABLES_BYTES], pages[BLOCKS_MOST * SWEEP_PAGE_BYTES];
static size_t pages_length;
#define STORE tables, sizeof tables, pages, pages_length

typedef sweep_answer way(uint8_t *, size_t, uint8_t *, size_t, uint32_t, uint32_t, uint32_t, const uint8_t *, size_t);

/* The pages that a write of so many bytes at the offset touches: k. The end may be 32,768 at most. */
static uint32_t touched_pages(uint32_t offset, uint32_t length)
{
    return length == 0 ? 0 : (offset + length - 1) / SWEEP_PAGE_BYTES + 1 - offset / SWEEP_PAGE_BYTES;
}

/* k + k x c: with so many blocks free, a write of either kind in a set with so many children is not refused with SWEEP_FULL and marks
 * no file. No call tells the children; the caller made them. */
static uint32_t room_for(uint32_t touched, uint32_t children)
{
    return touched + touched * children;
}

/* A store with so many blocks free: a sweep in set 0, set 1 made from set 0, sets 2 and 3 from set 1. */
static int make_store(unsigned free_blocks)
{
    static uint8_t sweep[PAGES * SWEEP_PAGE_BYTES];
    pages_length = (size_t)(PAGES + free_blocks) * SWEEP_PAGE_BYTES;
    memset(sweep, 40, sizeof sweep);
    return sweep_format(STORE).number == SWEEP_OK && sweep_create(STORE, 0, 0).number == SWEEP_OK &&
           sweep_write(STORE, 0, 0, 0, sweep, sizeof sweep).number == SWEEP_OK && sweep_make(STORE, 0, 1, 1).number == SWEEP_OK &&
           sweep_make(STORE, 1, 2, 0).number == SWEEP_OK && sweep_make(STORE, 1, 3, 0).number == SWEEP_OK;
}

/* The write, in one of the two ways, on a new store. */
static void try_write(const char *name, way *write, unsigned free_blocks)
{
    uint8_t data[LENGTH];
    memset(data, 43, sizeof data);
    if (!make_store(free_blocks)) {
        printf("no store could be made\n");
        return;
    }
    uint32_t had = sweep_free(STORE).first;
    int enough = had >= room_for(touched_pages(OFFSET, LENGTH), CHILDREN);
    sweep_answer done = write(STORE, 1, 0, OFFSET, data, sizeof data);
    printf("%u free, %s, %s: %u; %u, %u, %u, then %u free\n", (unsigned)had, enough ? "enough" : "not enough", name, (unsigned)done.number,
           (unsigned)done.first, (unsigned)done.second, (unsigned)done.third, (unsigned)sweep_free(STORE).first);
}

int main(void)
{
    static const unsigned rooms[] = {34, 6, 5, 1};
    printf("%u pages are touched, %u children: %u blocks are enough\n", (unsigned)touched_pages(OFFSET, LENGTH), (unsigned)CHILDREN,
           (unsigned)room_for(touched_pages(OFFSET, LENGTH), CHILDREN));
    for (size_t i = 0; i < sizeof rooms / sizeof rooms[0]; i++) {
        try_write("by eights", sweep_write, rooms[i]);
        try_write("narrow", sweep_write_narrow, rooms[i]);
    }
    return 0;
}
