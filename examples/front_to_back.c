/* A sweep of 16 pages rewritten while a reference copy keeps the old one, by groups of eight pages and by narrow writes: from front
 * to back, a page a call, with room enough; then two pages far apart, with little room. What it prints is in front_to_back.out.
 *     cc -std=c99 -Wall -Wextra -Wpedantic front_to_back.c $(pkg-config --cflags --libs sweep) */
#include <stdio.h>
#include <string.h>
#include "sweep.h"

enum { PAGES = 16, BLOCKS_MANY = 40, BLOCKS_FEW = 20, OLD = 40, NEW = 43 };

static uint8_t tables[SWEEP_TABLES_BYTES], pages[BLOCKS_MANY * SWEEP_PAGE_BYTES];
static size_t pages_length;
#define STORE tables, sizeof tables, pages, pages_length

typedef sweep_answer way(uint8_t *, size_t, uint8_t *, size_t, uint32_t, uint32_t, uint32_t, const uint8_t *, size_t);

/* A store of so many blocks with the old sweep in set 0 and a read-only copy of it, set 1. */
static int make_store(unsigned blocks)
{
    static uint8_t sweep[PAGES * SWEEP_PAGE_BYTES];
    pages_length = (size_t)blocks * SWEEP_PAGE_BYTES;
    memset(sweep, OLD, sizeof sweep);
    return sweep_format(STORE).number == SWEEP_OK && sweep_create(STORE, 0, 0).number == SWEEP_OK &&
           sweep_write(STORE, 0, 0, 0, sweep, sizeof sweep).number == SWEEP_OK && sweep_make(STORE, 0, 1, 0).number == SWEEP_OK;
}

/* Does the copy still read the old sweep? A marked file cannot be read. */
static const char *copy_now(void)
{
    static uint8_t sweep[PAGES * SWEEP_PAGE_BYTES];
    sweep_answer got = sweep_read(STORE, 1, 0, 0, sweep, sizeof sweep);
    if (got.number == SWEEP_MARKED)
        return "out of sync";
    for (size_t i = 0; i < sizeof sweep; i++)
        if (sweep[i] != OLD)
            return "wrong";
    return "as it was";
}

/* Rewrites every page whose number is a multiple of step, a page a call, and prints how many copies each call made. */
static void rewrite(const char *name, way *write, unsigned blocks, uint32_t step)
{
    uint8_t page[SWEEP_PAGE_BYTES];
    unsigned marked = 0;
    memset(page, NEW, sizeof page);
    if (!make_store(blocks)) {
        printf("no store could be made\n");
        return;
    }
    printf("%u blocks free, %s:", (unsigned)sweep_free(STORE).first, name);
    for (uint32_t p = 0; p < PAGES; p += step) {
        sweep_answer done = write(STORE, 0, 0, p * SWEEP_PAGE_BYTES, page, sizeof page);
        if (done.number != SWEEP_OK) {
            printf(" refused with %u\n", (unsigned)done.number);
            return;
        }
        printf(" %u", (unsigned)done.second);
        marked += done.third;
    }
    printf("; %u marked, the copy %s\n", marked, copy_now());
}

int main(void)
{
    rewrite("by eights", sweep_write, BLOCKS_MANY, 1);
    rewrite("narrow", sweep_write_narrow, BLOCKS_MANY, 1);
    /* the extra copies of page 0's write leave no block for the page where the next group begins */
    rewrite("by eights", sweep_write, BLOCKS_FEW, SWEEP_GROUP_PAGES);
    rewrite("narrow", sweep_write_narrow, BLOCKS_FEW, SWEEP_GROUP_PAGES);
    return 0;
}
