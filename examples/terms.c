/* Reference terms, and a store from before them. A reference copy gets a term of some months from a date; then the bench asks whether
 * it is current on a day. Then an image of the older length, as a store in the field has it, is converted. What it prints is in
 * terms.out.
 *     cc -std=c99 -Wall -Wextra -Wpedantic terms.c $(pkg-config --cflags --libs sweep) */
#include <stdio.h>
#include <string.h>
#include <time.h>
#include "sweep.h"

enum { BLOCKS = 8, SWEEP_BYTES = 1000 };
enum { WORK = 0, REFERENCE = 1, ANTENNA = 0 }; /* the sets, and the file */

static uint8_t tables[SWEEP_TABLES_BYTES], pages[BLOCKS * SWEEP_PAGE_BYTES];
#define STORE tables, sizeof tables, pages, sizeof pages

/* The day number of a time in seconds from 1970-01-01: days since 1998-01-01, in UTC. */
static uint32_t day_number(time_t seconds)
{
    return (uint32_t)(seconds / 86400 - (time_t)SWEEP_UNIX_DAY_0);
}

static void set_term(uint32_t year, uint32_t month, uint32_t day, uint32_t months)
{
    sweep_answer done = sweep_set_term(STORE, REFERENCE, year, month, day, months);
    printf("%u months from %u-%02u-%02u: %u\n", (unsigned)months, (unsigned)year, (unsigned)month, (unsigned)day,
           (unsigned)done.number);
}

static int is_current(uint32_t day)
{
    return sweep_current(STORE, REFERENCE, day).first == 1;
}

static void print_day(uint32_t day)
{
    printf("day %u: %s\n", (unsigned)day, is_current(day) ? "current" : "not current");
}

/* A sweep in the working set, kept by a read-only copy while the working set goes on. */
static sweep_answer make_reference(void)
{
    static uint8_t sweep[SWEEP_BYTES];
    sweep_answer done = sweep_format(STORE);
    if (done.number == SWEEP_OK)
        done = sweep_create(STORE, WORK, ANTENNA);
    memset(sweep, 40, sizeof sweep);
    if (done.number == SWEEP_OK)
        done = sweep_write(STORE, WORK, ANTENNA, 0, sweep, sizeof sweep);
    if (done.number == SWEEP_OK)
        done = sweep_make(STORE, WORK, REFERENCE, 0);
    memset(sweep, 43, sizeof sweep);
    if (done.number == SWEEP_OK)
        done = sweep_write(STORE, WORK, ANTENNA, 0, sweep, sizeof sweep);
    return done;
}

/* Reading does not depend on the term. */
static void print_reference(void)
{
    uint8_t sweep[SWEEP_BYTES];
    sweep_answer got = sweep_read(STORE, REFERENCE, ANTENNA, 0, sweep, sizeof sweep);
    int kept = got.number == SWEEP_OK && sweep[0] == 40 && sweep[SWEEP_BYTES - 1] == 40;
    printf("the reference has %u bytes%s\n", (unsigned)got.first, kept ? ", whatever the day" : ", and not its own");
}

/* The tables as a store of before the terms has them, so that there is something to convert: set records of 3 bytes, not 7. The
 * firmware finds such an image in its memory. */
static void as_in_the_field(uint8_t *old)
{
    enum { SETS_AT = 516, OLD_FILES_AT = SETS_AT + 3 * SWEEP_SETS, FILES_AT = SETS_AT + 7 * SWEEP_SETS };
    memcpy(old, tables, SETS_AT); /* header and bitmap */
    for (size_t set = 0; set < SWEEP_SETS; set++)
        memcpy(old + SETS_AT + 3 * set, tables + SETS_AT + 7 * set, 3);
    memcpy(old + OLD_FILES_AT, tables + FILES_AT, SWEEP_OLD_TABLES_BYTES - OLD_FILES_AT);
}

/* An image of the older length: no other call takes it, and the converter takes it only if it is well formed. */
static void convert(void)
{
    static uint8_t old[SWEEP_OLD_TABLES_BYTES], before[SWEEP_TABLES_BYTES];
    as_in_the_field(old);
    printf("an image of %u bytes, as it is: %u\n", (unsigned)sizeof old,
           (unsigned)sweep_check(old, sizeof old, pages, sizeof pages).number);

    memset(tables, 0xE7, sizeof tables); /* the second buffer; what it holds does not matter */
    memcpy(before, tables, sizeof before);
    old[3] ^= 1;
    sweep_answer done = sweep_convert(old, sizeof old, pages, sizeof pages, tables, sizeof tables);
    printf("the same image, a bit turned over: %u, %s\n", (unsigned)done.number,
           memcmp(tables, before, sizeof tables) ? "something written" : "nothing written");

    old[3] ^= 1;
    done = sweep_convert(old, sizeof old, pages, sizeof pages, tables, sizeof tables);
    printf("the same image, converted: %u\n", (unsigned)done.number);
}

int main(void)
{
    printf("a sweep and its reference: %u\n", (unsigned)make_reference().number);

    set_term(1998, 1, 31, 12); /* days 30 to 394: the end day, 1999-01-31, is 395 */
    print_day(29);
    print_day(30);
    print_day(394);
    print_day(395);
    uint32_t today = day_number(897912000); /* noon; a firmware takes time(NULL) */
    printf("1998-06-15 is day %u: %s\n", (unsigned)today, is_current(today) ? "current" : "not current");
    print_reference();

    set_term(1999, 2, 29, 12); /* refused: the term stays */
    set_term(1998, 4, 31, 12);
    set_term(1998, 1, 31, 0);
    set_term(1998, 4, 31, 0); /* the date is looked at first */

    set_term(1998, 1, 31, 1); /* February has no 31st: the end day is 1998-02-28, 58 */
    print_day(57);
    print_day(58);

    convert();
    print_reference();
    print_day(58); /* the older image told no term: the default, days 0 to 36,524 */
    print_day(36524);
    print_day(36525);
    return 0;
}
