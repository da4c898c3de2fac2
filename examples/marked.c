/* Marked files give their room back. A new sweep is stored while reference copies keep the old one, in a store that is nearly full: a
 * reference for which no block is left is marked, and its blocks are free at that moment, for the next reference or for the next call.
 * Then an image from before that, in which a marked file still has its blocks, is taken into today's form, from either of the two older
 * lengths. What it prints is in marked.out.
 *     cc -std=c99 -Wall -Wextra -Wpedantic marked.c $(pkg-config --cflags --libs sweep) */
#include <stdio.h>
#include <string.h>
#include "sweep.h"

enum { BLOCKS = 8, PAGES = 3, SWEEP_BYTES = PAGES * SWEEP_PAGE_BYTES, OLD = 40, NEW = 43 };
enum { WORK = 0, FIRST = 1, SECOND = 2 };     /* the sets: the references are copies of set 0 */
enum { ANTENNA = 0, CABLE = 1, ADAPTER = 2 }; /* the files */

static uint8_t tables[SWEEP_TABLES_BYTES], pages[BLOCKS * SWEEP_PAGE_BYTES];
#define STORE tables, sizeof tables, pages, sizeof pages

static unsigned free_blocks(void) { return (unsigned)sweep_free(STORE).first; }

/* Stores so many pages of one level at the front of a file of the working set. */
static sweep_answer store_pages(uint32_t file, uint8_t level, uint32_t count)
{
    uint8_t data[SWEEP_BYTES];
    memset(data, level, sizeof data);
    return sweep_write(STORE, WORK, file, 0, data, count * SWEEP_PAGE_BYTES);
}

static void print_answer(const char *what, sweep_answer done)
{
    printf("%s: %u; %u, %u, %u, then %u of %d blocks free\n", what, (unsigned)done.number, (unsigned)done.first, (unsigned)done.second,
           (unsigned)done.third, free_blocks(), BLOCKS);
}

/* A reference that was marked has nothing left: number 6 is all that it gives. */
static void print_reference(const char *what, uint32_t set)
{
    uint8_t sweep[SWEEP_BYTES];
    sweep_answer got = sweep_read(STORE, set, ANTENNA, 0, sweep, sizeof sweep);
    if (got.number == SWEEP_MARKED)
        printf("%s: out of sync\n", what);
    else
        printf("%s: level %u\n", what, got.first == SWEEP_BYTES && sweep[0] == sweep[SWEEP_BYTES - 1] ? sweep[0] : 0);
}

/* A sweep in the working set, so many references of it, and a second sweep of so many pages that the references do not have. */
static int make_store(uint32_t references, uint32_t cable_pages)
{
    int bad = sweep_format(STORE).number != SWEEP_OK || sweep_create(STORE, WORK, ANTENNA).number != SWEEP_OK;
    bad = bad || store_pages(ANTENNA, OLD, PAGES).number != SWEEP_OK;
    for (uint32_t set = FIRST; set < FIRST + references; set++)
        bad = bad || sweep_make(STORE, WORK, set, 1).number != SWEEP_OK;
    bad = bad || sweep_create(STORE, WORK, CABLE).number != SWEEP_OK || store_pages(CABLE, 20, cable_pages).number != SWEEP_OK;
    return bad;
}

/* With so many blocks free no reference is marked: the pages, and a copy of each for each reference. */
static unsigned enough(uint32_t references) { return PAGES + PAGES * (unsigned)references; }

/* One reference: its copies of pages 0 and 1 take the last blocks; for page 2 there is none. The reference is marked, and both blocks are
 * free again. */
static void one_reference(void)
{
    printf("one reference, %u of %d blocks free; %u would be enough for a new sweep\n", free_blocks(), BLOCKS, enough(1));
    print_answer("a new sweep", store_pages(ANTENNA, NEW, PAGES));
    print_reference("the reference", FIRST);
    if (sweep_create(STORE, WORK, ADAPTER).number == SWEEP_OK)
        print_answer("two pages more", store_pages(ADAPTER, 30, 2)); /* in the blocks that came free */
    print_answer("the marked file deleted", sweep_delete(STORE, FIRST, ANTENNA)); /* it had none left */
}

/* Two references: both get page 0, the first gets page 1. Then the second is marked, and the first takes its block for page 2. */
static void two_references(void)
{
    printf("two references, %u of %d blocks free; %u would be enough for a new sweep\n", free_blocks(), BLOCKS, enough(2));
    print_answer("a new sweep", store_pages(ANTENNA, NEW, PAGES));
    print_reference("the first reference", FIRST);
    print_reference("the second reference", SECOND);
}

/* Images: the tables, of one of the two lengths, and the pages behind them */

enum { IMAGE_BYTES = sizeof tables + sizeof pages };

/* Takes an image of any age into memory, in today's form. 0: it is no store, and tables and pages are as they were. Today's tables come
 * out as they are. */
static int take_image(const uint8_t *image, size_t length)
{
    static const size_t lengths[] = {SWEEP_TABLES_BYTES, SWEEP_OLD_TABLES_BYTES};
    for (int i = 0; i < 2; i++) {
        if (length != lengths[i] + sizeof pages)
            continue;
        if (sweep_convert(image, lengths[i], image + lengths[i], sizeof pages, tables, sizeof tables).number != SWEEP_OK)
            return 0;
        memcpy(pages, image + lengths[i], sizeof pages);
        return 1;
    }
    return 0;
}

/* Older images, so that there is something to take; a firmware finds them in its memory. Places in the tables are in docs/MANUAL.md, "The
 * tables". */
enum { BITMAP_AT = 4, SETS_AT = 516, FILES_AT = 572, RECORD_BYTES = 132 };

/* As it was before marking freed blocks: the reference's antenna, which is marked, has its size, and pages 0 and 1 in blocks 6 and 7. */
static void make_image(uint8_t *image)
{
    uint8_t *record = image + FILES_AT + RECORD_BYTES * (SWEEP_FILES * FIRST + ANTENNA);
    memcpy(image, tables, sizeof tables);
    memcpy(image + sizeof tables, pages, sizeof pages);
    record[0] |= SWEEP_BYTES >> 10;
    record[1] = SWEEP_BYTES >> 2 & 255;
    for (unsigned page = 0; page < 2; page++) {
        record[4 + 2 * page] = 0x80; /* stored */
        record[5 + 2 * page] = (uint8_t)(6 + page);
        image[BITMAP_AT] |= (uint8_t)(0x80 >> (6 + page));
    }
}

/* The same as it was earlier still: set records of 3 bytes, without terms. */
static void take_terms_away(uint8_t *image)
{
    for (size_t set = 0; set < SWEEP_SETS; set++)
        memmove(image + SETS_AT + 3 * set, image + SETS_AT + 7 * set, 3);
    memmove(image + SETS_AT + 3 * SWEEP_SETS, image + FILES_AT, IMAGE_BYTES - FILES_AT);
}

static unsigned used_blocks(const uint8_t *image)
{
    unsigned used = 0;
    for (unsigned block = 0; block < BLOCKS; block++)
        used += image[BITMAP_AT + block / 8] >> (7 - block % 8) & 1;
    return used;
}

static const char *current_on(uint32_t day) { return sweep_current(STORE, FIRST, day).first ? "current" : "not current"; }

static void show_older(const uint8_t *image, size_t length)
{
    printf("older tables of %u bytes, %u blocks used, as they are: %u\n", (unsigned)length, used_blocks(image),
           (unsigned)sweep_check(image, length, pages, sizeof pages).number);
    if (take_image(image, length + sizeof pages))
        printf("the image is taken: %u of %d blocks free, day 394 %s, day 395 %s\n", free_blocks(), BLOCKS, current_on(394), current_on(395));
}

static void older_images(void)
{
    static uint8_t image[IMAGE_BYTES];
    make_image(image);
    show_older(image, SWEEP_TABLES_BYTES); /* the term stays: days 30 to 394 */
    make_image(image);
    take_terms_away(image);
    show_older(image, SWEEP_OLD_TABLES_BYTES); /* the term is the longest there is */

    memcpy(image, tables, sizeof tables); /* today's */
    memcpy(image + sizeof tables, pages, sizeof pages);
    if (take_image(image, sizeof image))
        printf("the image is taken: %s\n", memcmp(image, tables, sizeof tables) ? "not as it was" : "every byte as it was");
    image[3] ^= 1; /* a bit that is zero */
    if (!take_image(image, sizeof image))
        printf("the image is no store\n");
}

int main(void)
{
    if (make_store(1, 3))
        return 1;
    one_reference();
    if (make_store(2, 2))
        return 1;
    two_references();
    if (make_store(1, 3) || sweep_set_term(STORE, FIRST, 1998, 1, 31, 12).number != SWEEP_OK)
        return 1;
    store_pages(ANTENNA, NEW, PAGES);
    older_images();
    return 0;
}
