/* Pulling the blocks together. Three sweeps are written in turn, a page a call, so that their blocks interleave; a copy keeps them
 * while two are measured anew and two are deleted. Then the store is compacted, with a spare page of another length first. The program
 * lists the store before and after, as the session program does, and reads every file of every set. What it prints is in
 * compaction.out.
 *     cc -std=c99 -Wall -Wextra -Wpedantic compaction.c $(pkg-config --cflags --libs sweep) */
#include <stdio.h>
#include <string.h>
#include "sweep.h"

enum { BLOCKS = 16, PAGES = 3, SWEEP_BYTES = PAGES * SWEEP_PAGE_BYTES };
enum { WORK = 0, REFERENCE = 1 }; /* the sets */

static uint8_t tables[SWEEP_TABLES_BYTES], pages[BLOCKS * SWEEP_PAGE_BYTES];
#define STORE tables, sizeof tables, pages, sizeof pages

/* Compacts the store. The spare page is wanted only while the call runs: any 512 bytes that nobody else uses. */
static sweep_answer compact(void)
{
    uint8_t spare[SWEEP_PAGE_BYTES];
    memset(spare, 0, sizeof spare); /* what it holds does not matter */
    return sweep_compact(STORE, spare, sizeof spare);
}

static uint32_t used_blocks(void) { return BLOCKS - sweep_free(STORE).first; }

/* Where the search for a free block begins: 12 bits of the header. */
static unsigned next_start(void) { return (unsigned)(tables[1] & 7) << 9 | (unsigned)tables[2] << 1 | tables[3] >> 7; }

/* Making the store */

/* A page of each of these files of the working set, then the next page of each: so the files' blocks interleave. */
static uint32_t write_in_turn(uint32_t first, uint32_t last, uint32_t step, uint8_t level)
{
    uint8_t page[SWEEP_PAGE_BYTES];
    uint32_t refused = 0;
    for (uint32_t at = 0; at < SWEEP_BYTES; at += SWEEP_PAGE_BYTES)
        for (uint32_t file = first; file <= last; file += step) {
            memset(page, level + (int)(16 * file + at / SWEEP_PAGE_BYTES), sizeof page);
            refused += sweep_write_narrow(STORE, WORK, file, at, page, sizeof page).number != SWEEP_OK;
        }
    return refused;
}

static uint32_t make_store(void)
{
    uint32_t refused = sweep_format(STORE).number != SWEEP_OK;
    for (uint32_t file = 0; file < 3; file++)
        refused += sweep_create(STORE, WORK, file).number != SWEEP_OK;
    refused += write_in_turn(0, 2, 1, 1); /* file 0 in blocks 0, 3, 6; file 1 in 1, 4, 7; file 2 in 2, 5, 8 */
    refused += sweep_make(STORE, WORK, REFERENCE, 0).number != SWEEP_OK;
    refused += write_in_turn(0, 2, 2, 101); /* files 0 and 2: the copy gets file 0 in 9, 11, 13 and file 2 in 10, 12, 14 */
    refused += sweep_delete(STORE, WORK, 2).number != SWEEP_OK; /* frees 2, 5, 8: the copy has its own */
    refused += sweep_delete(STORE, WORK, 1).number != SWEEP_OK; /* the copy takes over 1, 4, 7 */
    return refused;
}

/* Listing */

static const uint8_t *record_of(unsigned set, unsigned file)
{
    return tables + 572 + 132 * (SWEEP_FILES * set + file); /* docs/MANUAL.md, "The tables" */
}

/* The block of a page, or how a listing marks a page that is not stored in this map: -2 for a hole of a copy, else -1. */
static int block_of(unsigned set, unsigned file, unsigned page)
{
    const uint8_t *entry = record_of(set, file) + 4 + 2 * page;
    unsigned kind = entry[0] >> 6;
    if (kind == 2)
        return (entry[0] & 63) << 8 | entry[1];
    return kind == 1 && set != 0 ? -2 : -1;
}

static void list_file(unsigned set, unsigned file)
{
    unsigned state = record_of(set, file)[0] >> 6;
    if (state == 0)
        return;
    printf("file %u %u %u %u\n", set, file, state, (unsigned)sweep_size(STORE, set, file).first);
    for (unsigned page = 0; state != 3 && page < SWEEP_FILE_PAGES; page++) {
        int block = block_of(set, file, page), before = page ? block_of(set, file, page - 1) : 0;
        if (page == 0 || block != (before < 0 ? before : before + 1))
            printf("ext %u %d\n", page, block);
    }
    if (state != 3)
        printf("ext 64 -1\n");
}

/* Sets by number, which here is also the order of the tree. */
static void list(const char *when)
{
    printf("%s: %u of %u blocks used, next start %u\n", when, (unsigned)used_blocks(), (unsigned)BLOCKS, next_start());
    for (unsigned set = 0; set < SWEEP_SETS; set++) {
        const uint8_t *record = tables + 516 + 7 * set;
        if (record[0] >> 7 == 0)
            continue;
        printf("set %u %u %u %u\n", set, record[0] >> 3 & 7, (record[0] & 7) << 1 | record[1] >> 7, record[0] >> 6 & 1);
        for (unsigned file = 0; file < SWEEP_FILES; file++)
            list_file(set, file);
    }
}

/* What readers see: of every file of every set the answer of a read and the bytes. */
struct seen {
    sweep_answer answer[SWEEP_SETS][SWEEP_FILES];
    uint8_t bytes[SWEEP_SETS][SWEEP_FILES][SWEEP_BYTES];
};

static void read_all(struct seen *seen)
{
    memset(seen, 0, sizeof *seen);
    for (unsigned set = 0; set < SWEEP_SETS; set++)
        for (unsigned file = 0; file < SWEEP_FILES; file++)
            seen->answer[set][file] = sweep_read(STORE, set, file, 0, seen->bytes[set][file], SWEEP_BYTES);
}

/* A spare page that is too short: number 16, and every byte stays, the spare page's too. */
static void refuse_a_short_spare_page(void)
{
    static uint8_t tables_before[sizeof tables], pages_before[sizeof pages], spare[SWEEP_PAGE_BYTES], spare_before[sizeof spare];
    memset(spare, 77, sizeof spare);
    memcpy(spare_before, spare, sizeof spare);
    memcpy(tables_before, tables, sizeof tables);
    memcpy(pages_before, pages, sizeof pages);
    sweep_answer done = sweep_compact(STORE, spare, SWEEP_PAGE_BYTES - 1);
    int same = !memcmp(tables, tables_before, sizeof tables) && !memcmp(pages, pages_before, sizeof pages) &&
               !memcmp(spare, spare_before, sizeof spare);
    printf("a spare page of 511 bytes: %u, %s\n", (unsigned)done.number, same ? "nothing changed" : "something changed");
}

/* Compacts again: the tables and the pages of used blocks stay as they are. */
static void compact_again(void)
{
    static uint8_t tables_before[sizeof tables], pages_before[sizeof pages];
    memcpy(tables_before, tables, sizeof tables);
    memcpy(pages_before, pages, sizeof pages);
    sweep_answer done = compact();
    int same = !memcmp(tables, tables_before, sizeof tables) && !memcmp(pages, pages_before, used_blocks() * SWEEP_PAGE_BYTES);
    printf("compacted again: %u, tables and used pages %s\n", (unsigned)done.number, same ? "as they were" : "not as they were");
}

int main(void)
{
    static struct seen before, after;
    printf("three sweeps in turn, a copy, two sweeps anew, two deleted: %u refused\n", (unsigned)make_store());
    list("before");
    read_all(&before);
    refuse_a_short_spare_page();
    printf("compacted: %u\n", (unsigned)compact().number);
    list("after");
    read_all(&after);
    printf("every file of every set reads %s\n", memcmp(&before, &after, sizeof before) ? "not as before" : "as before");
    compact_again();
    return 0;
}
