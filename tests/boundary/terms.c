/* Terms and conversions at their edges, with what must come of each written here; all calls are compared with the judge too.
 *   dates        terms from dates at the edges, dates that there are not, month counts out of range, and every date from 1997 to 2098
 *                with months and days out of range among them
 *   days         each term asked at its edges, and on days that are none
 *   conversions  a store with terms as it was before them, converted; then with wrong lengths of each buffer, and with each bit of
 *                header, bitmap, set records and the first two file records turned over; the same store with its terms, which come
 *                out as they are; and tables of before the terms under every other call. (Older tables with marked files: marking.c)
 * Exit status: 0 all well, 1 not. */
#include <stdio.h>
#include <string.h>
#include "edges.h"

/* A store of four sets: 1 and 2, the first read-only, from set 0, and 4 from 2; a sweep that 2 has written to, and a term. */
enum { BLOCKS = 8, ROOT = 0, READ_ONLY_SET = 1, COPY = 2, UNUSED = 3, DEEP = 4 };

static void make_store(void)
{
    memset(&world, 0x5A, sizeof world);
    world.length[TABLES] = SWEEP_TABLES_BYTES;
    world.length[PAGES] = BLOCKS * SWEEP_PAGE_BYTES;
    world.length[BYTES] = 1000;
    world.length[REGISTERS] = SWEEP_PANEL_REGISTERS;
    world.length[SPARE] = world.length[SECOND] = 0;
    uint32_t all = CALL(FORMAT).number + DO(CREATE, ROOT, 0).number + DO(WRITE, ROOT, 0, 0).number;
    all += DO(MAKE, ROOT, READ_ONLY_SET, 0).number + DO(MAKE, ROOT, COPY, 1).number + DO(MAKE, COPY, DEEP, 0).number;
    memset(world.of[BYTES], 0x21, world.length[BYTES]);
    all += DO(WRITE_NARROW, COPY, 0, 300).number + DO(SET_TERM, COPY, 2000, 2, 29, 12).number + CALL(PANEL_RESET).number;
    expect("the calls that make the store", all, 0);
}

/* Dates */

struct term {
    uint32_t year, month, day, months, number, first, end;
};
enum { WIDE = 65536 };
static const uint32_t MOST = 0xFFFFFFFF;

/* Days counted by hand and by Python's datetime. */
static const struct term terms[] = {
    {1998, 1, 1, 1, 0, 0, 31}, {1998, 1, 1, 12, 0, 0, 365}, {1998, 1, 1, 120, 0, 0, 3652},
    /* the last day where the later month has no such day */
    {1998, 1, 31, 1, 0, 30, 58}, {1998, 1, 31, 12, 0, 30, 395}, {1999, 1, 31, 1, 0, 395, 423}, {2000, 1, 31, 1, 0, 760, 789},
    {2010, 8, 31, 1, 0, 4625, 4655}, {2010, 8, 31, 6, 0, 4625, 4806}, {1998, 4, 30, 1, 0, 119, 149},
    /* leap days as dates and as ends; past December */
    {2000, 2, 29, 1, 0, 789, 818}, {2000, 2, 29, 12, 0, 789, 1154}, {2000, 2, 29, 48, 0, 789, 2250},
    {1999, 2, 28, 12, 0, 423, 788}, {1998, 12, 31, 2, 0, 364, 423}, {1999, 12, 31, 2, 0, 729, 789},
    {2000, 12, 31, 120, 0, 1095, 4747}, {2095, 11, 30, 3, 0, 35762, 35853}, {2096, 1, 30, 1, 0, 35823, 35853},
    {2096, 2, 29, 1, 0, 35853, 35882}, {2096, 2, 29, 12, 0, 35853, 36218},
    /* the last years: ends that are cut, and ends that just need not be */
    {2096, 2, 29, 120, 0, 35853, 36525}, {2087, 12, 31, 120, 0, 32871, 36524}, {2088, 1, 1, 120, 0, 32872, 36525},
    {2088, 1, 2, 120, 0, 32873, 36525}, {2097, 1, 31, 1, 0, 36190, 36218}, {2097, 10, 31, 1, 0, 36463, 36493},
    {2097, 11, 30, 1, 0, 36493, 36523}, {2097, 12, 1, 1, 0, 36494, 36525}, {2097, 12, 31, 1, 0, 36524, 36525},
    {2097, 12, 31, 120, 0, 36524, 36525},
    /* no such date, or not in these years; some would do by their low bits */
    {1999, 4, 31, 1, 14, 0, 0}, {1998, 6, 31, 1, 14, 0, 0}, {2097, 9, 31, 1, 14, 0, 0}, {2000, 11, 31, 1, 14, 0, 0},
    {1999, 2, 29, 1, 14, 0, 0}, {2097, 2, 29, 1, 14, 0, 0}, {2000, 2, 30, 1, 14, 0, 0}, {2096, 2, 31, 1, 14, 0, 0},
    {1997, 12, 31, 1, 14, 0, 0}, {2098, 1, 1, 1, 14, 0, 0}, {0, 1, 1, 1, 14, 0, 0}, {2100, 2, 28, 1, 14, 0, 0},
    {2000, 0, 1, 1, 14, 0, 0}, {2000, 13, 1, 1, 14, 0, 0}, {2000, 1, 0, 1, 14, 0, 0}, {2000, 1, 32, 1, 14, 0, 0},
    {MOST, 1, 1, 1, 14, 0, 0}, {2000, MOST, 1, 1, 14, 0, 0}, {2000, 1, MOST, 1, 14, 0, 0}, {MOST, MOST, MOST, MOST, 14, 0, 0},
    {2000 + WIDE, 1, 1, 1, 14, 0, 0}, {2000, 256 + 1, 1, 1, 14, 0, 0}, {2000, 1, 256 + 1, 1, 14, 0, 0},
    /* the months; the date goes before them */
    {2000, 1, 1, 0, 15, 0, 0}, {2000, 1, 1, 121, 15, 0, 0}, {2000, 1, 1, 256 + 1, 15, 0, 0}, {2000, 1, 1, WIDE + 1, 15, 0, 0},
    {2000, 1, 1, MOST, 15, 0, 0}, {2097, 12, 31, 0, 15, 0, 0}, {1999, 4, 31, 0, 14, 0, 0}, {1999, 4, 31, 121, 14, 0, 0},
    {2098, 1, 1, 0, 14, 0, 0},
};
enum { TERMS = sizeof terms / sizeof *terms };

/* The four bytes of the set's term are the only ones that the call changes, and only if it is accepted. */
static void try_term(uint32_t set, const struct term *term)
{
    static uint8_t before[SWEEP_TABLES_BYTES];
    memcpy(before, world.of[TABLES], sizeof before);
    expect("the number of a term", DO(SET_TERM, set, term->year, term->month, term->day, term->months).number, term->number);
    if (term->number == SWEEP_OK)
        put_term(before, set, term->first, term->end);
    expect("tables that a term leaves other than these", memcmp(before, world.of[TABLES], sizeof before) != 0, 0);
}

/* The set is asked whether it is current at the edges of its term, and on days that none has. */
static void try_days(uint32_t set, uint32_t first, uint32_t end)
{
    const uint32_t days[] = {0, first - 1, first, first + 1, end - 1, end, end + 1, 36524, 36525, 36526, 65535, WIDE, WIDE + first,
                             0x80000000, 0x80000000 + first, MOST};
    for (size_t i = 0; i < sizeof days / sizeof *days; i++) {
        sweep_answer given = DO(CURRENT, set, days[i]);
        expect("the number of a day", given.number, SWEEP_OK);
        expect("whether a set is current", given.first, first <= days[i] && days[i] < end);
    }
}

static void try_dates(void)
{
    static const uint32_t sets[] = {ROOT, READ_ONLY_SET, COPY, DEEP};
    for (int i = 0; i < TERMS; i++) {
        uint32_t set = sets[i % 4];
        try_term(set, &terms[i]);
        if (terms[i].number == SWEEP_OK)
            try_days(set, terms[i].first, terms[i].end);
    }
    /* a set that is not used, before any date and count of months */
    static const uint32_t none[] = {UNUSED, 7, 8, 256, 0x80000000, 0xFFFFFFFF};
    for (int i = 0; i < 6; i++) {
        expect("a term of no set", DO(SET_TERM, none[i], 2000, 1, 1, 12).number, SWEEP_NO_SET);
        expect("a term of no set and no date", DO(SET_TERM, none[i], 2000, 4, 31, 0).number, SWEEP_NO_SET);
        expect("a day of no set", DO(CURRENT, none[i], 0).number, SWEEP_NO_SET);
    }
}

static void try_every_date(void)
{
    uint32_t months = 0, dates = 0;
    for (uint32_t year = 1997; year <= 2098; year++)
        for (uint32_t month = 0; month <= 13; month++)
            for (uint32_t day = 0; day <= 32; day++)
                dates += DO(SET_TERM, COPY, year, month, day, 1 + months++ % SWEEP_MOST_MONTHS).number == SWEEP_OK;
    expect("the dates that there are", dates, SWEEP_END_DAY);
}

/* Terms that are and are not well formed, of used and unused sets: every call on the store says 1. */
static void try_tables(void)
{
    static const struct {
        uint32_t set, first, end, number;
    } tables[] = {
        {ROOT, 0, 1, 0}, {COPY, 36524, 36525, 0}, {READ_ONLY_SET, 0, 36525, 0}, {UNUSED, 0, 0, 0}, {ROOT, 0, 0, 1},
        {COPY, 5, 5, 1}, {COPY, 6, 5, 1}, {READ_ONLY_SET, 36525, 36525, 1}, {ROOT, 0, 36526, 1}, {DEEP, 36525, 36526, 1},
        {COPY, 0, 65535, 1}, {UNUSED, 0, 1, 1}, {UNUSED, 1, 0, 1}, {UNUSED, 0, 36525, 1}, {7, 0, 36525, 1},
    };
    for (size_t i = 0; i < sizeof tables / sizeof *tables; i++) {
        make_store();
        put_term(world.of[TABLES], tables[i].set, tables[i].first, tables[i].end);
        expect("the check of a term", CALL(CHECK).number, tables[i].number);
        expect("the first part of the check, whatever a term is", CALL(CHECK_BLOCKS).number, SWEEP_OK);
        expect("a day, the tables being so", DO(CURRENT, COPY, 0).number, tables[i].number);
        expect("a term, the tables being so", DO(SET_TERM, COPY, 2000, 1, 1, 1).number, tables[i].number);
    }
}

/* Conversions */

enum { OLD = SWEEP_OLD_TABLES_BYTES, NEW = SWEEP_TABLES_BYTES };

/* What the old tables become, where they are well formed; its own way. */
static void widened(uint8_t *tables, const uint8_t *old)
{
    size_t to = 0;
    for (size_t from = 0; from < OLD; from++) {
        tables[to++] = old[from];
        if (from >= SETS_AT && from < OLD_FILES_AT && from % 3 == 2) { /* the last byte of a set record */
            int used = old[from - 2] >= 128;
            tables[to++] = 0;
            tables[to++] = 0;
            tables[to++] = used ? SWEEP_END_DAY / 256 : 0;
            tables[to++] = used ? SWEEP_END_DAY % 256 : 0;
        }
    }
}

/* The store in the field: its tables of before the terms in the second buffer. The new buffer holds anything. */
static void make_old_store(void)
{
    make_store();
    narrow(world.of[SECOND], world.of[TABLES]);
    world.length[SECOND] = OLD;
    memset(world.of[TABLES], 0xE7, ROOM_BYTES);
}

static void expect_conversion(const char *what, uint32_t number)
{
    static uint8_t wanted[ROOM_BYTES];
    memcpy(wanted, world.of[TABLES], world.length[TABLES]);
    if (number == SWEEP_OK)
        widened(wanted, world.of[SECOND]);
    expect(what, CALL(CONVERT).number, number);
    expect("the new buffer is another than it should be", memcmp(wanted, world.of[TABLES], world.length[TABLES]) != 0, 0);
}

static void try_lengths(void)
{
    static const uint32_t old[] = {0, 1, SETS_AT, OLD_FILES_AT, OLD - 1, OLD + 1, NEW, 32768}; /* NEW: these bytes are none of that length */
    static const uint32_t new[] = {0, 1, SETS_AT, FILES_AT, OLD, NEW - 1, NEW + 1, 32768};
    static const uint32_t pages[] = {0, 1, SWEEP_PAGE_BYTES, (BLOCKS - 1) * SWEEP_PAGE_BYTES, BLOCKS * SWEEP_PAGE_BYTES - 1,
                                     BLOCKS * SWEEP_PAGE_BYTES + 1, (BLOCKS + 1) * SWEEP_PAGE_BYTES};
    make_old_store();
    for (int i = 0; i < 8; i++) {
        world.length[SECOND] = old[i];
        expect_conversion("old tables of another length", SWEEP_BAD_TABLES);
        world.length[SECOND] = OLD;
        world.length[TABLES] = new[i];
        expect_conversion("new tables of another length", SWEEP_BAD_TABLES);
        world.length[TABLES] = NEW;
    }
    for (int i = 0; i < 7; i++) {
        world.length[PAGES] = pages[i];
        expect_conversion("pages of another length", SWEEP_BAD_TABLES);
    }
    world.length[PAGES] = BLOCKS * SWEEP_PAGE_BYTES;
    expect_conversion("a conversion", SWEEP_OK);
}

/* Tables with terms, some of them not the default ones: they keep them, and all else. With a term that is not well formed they are refused. */
static void try_long_tables(void)
{
    static const uint32_t lengths[] = {0, 1, SETS_AT, FILES_AT, NEW - 1, NEW + 1, OLD, 32768};
    static uint8_t kept[NEW];
    make_store();
    expect("a term of a read-only set", DO(SET_TERM, READ_ONLY_SET, 2097, 12, 31, 120).number, SWEEP_OK);
    memcpy(kept, world.of[TABLES], NEW);
    memcpy(world.of[SECOND], kept, NEW);
    for (int i = 0; i < 8; i++) {
        world.length[SECOND] = lengths[i];
        expect("long tables of another length", CALL(CONVERT).number, SWEEP_BAD_TABLES);
    }
    world.length[SECOND] = NEW;
    memset(world.of[TABLES], 0xE7, ROOM_BYTES);
    expect("tables with terms, converted", CALL(CONVERT).number, SWEEP_OK);
    expect("tables that did not come out as they are", memcmp(kept, world.of[TABLES], NEW) != 0, 0);
    put_term(world.of[SECOND], READ_ONLY_SET, 5, 5);
    expect("tables with an empty term", CALL(CONVERT).number, SWEEP_BAD_TABLES);
    put_term(world.of[SECOND], READ_ONLY_SET, 0, SWEEP_END_DAY + 1);
    expect("tables with a term that ends too late", CALL(CONVERT).number, SWEEP_BAD_TABLES);
    expect("a refusal wrote something", memcmp(kept, world.of[TABLES], NEW) != 0, 0);
}

/* Each bit of header, bitmap and set records turned over, and some of the file records. What the check says of the tables with the
 * default terms, the converter says too. */
static void try_bits(void)
{
    static struct buffers made;
    make_old_store();
    copy_buffers(&made, &world);
    for (size_t bit = 0; bit < 8 * (OLD_FILES_AT + 2 * FILE_BYTES); bit++) {
        copy_buffers(&world, &made);
        world.of[SECOND][bit / 8] ^= (uint8_t)(1 << bit % 8);
        widened(world.of[TABLES], world.of[SECOND]);
        uint32_t number = CALL(CHECK).number;
        memset(world.of[TABLES], 0xE7, NEW);
        expect_conversion("a conversion with a bit turned over", number);
    }
}

/* The converted store is the store, but for the terms: what is read is the same. Set 4 was made before set 2 was written to. */
static void try_reading(void)
{
    static const uint32_t sets[] = {ROOT, READ_ONLY_SET, COPY, DEEP}, sizes[] = {1000, 1000, 1300, 1000};
    static uint8_t before[4][1500];
    make_store();
    world.length[BYTES] = 1500;
    for (int i = 0; i < 4; i++) {
        expect("a read before", DO(READ, sets[i], 0, 0).first, sizes[i]);
        memcpy(before[i], world.of[BYTES], 1500);
    }
    narrow(world.of[SECOND], world.of[TABLES]);
    world.length[SECOND] = OLD;
    memset(world.of[TABLES], 0, NEW);
    expect_conversion("a conversion into zeros", SWEEP_OK);
    expect("the check of a converted store", CALL(CHECK).number, SWEEP_OK);
    for (int i = 0; i < 4; i++) {
        expect("a read after", DO(READ, sets[i], 0, 0).first, sizes[i]);
        expect("bytes read are others", memcmp(before[i], world.of[BYTES], sizes[i]) != 0, 0);
        try_days(sets[i], 0, SWEEP_END_DAY);
    }
}

/* Every other call on tables of before the terms. */
static void try_old_tables(void)
{
    make_store();
    narrow(world.of[TABLES], world.of[TABLES]);
    world.length[TABLES] = OLD;
    for (unsigned name = 0; name < CALLS; name++)
        if (exported.functions[name].lends[TABLES] != NOT_LENT && name != CONVERT && name != PANEL_WRITE)
            expect(exported.functions[name].name, CALL(name).number, SWEEP_BAD_TABLES);
    static const uint32_t commands[] = {SWEEP_PANEL_CREATE, SWEEP_PANEL_DELETE, SWEEP_PANEL_MAKE_READ_ONLY, SWEEP_PANEL_MAKE_WRITEABLE,
                                        SWEEP_PANEL_REMOVE};
    for (size_t i = 0; i < sizeof commands / sizeof *commands; i++) {
        expect("a reset of the registers", CALL(PANEL_RESET).number, SWEEP_OK);
        expect("a write of the command register", DO(PANEL_WRITE, SWEEP_PANEL_COMMAND, commands[i]).number, SWEEP_OK);
        expect("the number register", world.of[REGISTERS][SWEEP_PANEL_NUMBER], SWEEP_BAD_TABLES);
    }
}

int main(void)
{
    make_store();
    try_dates();
    try_every_date();
    try_tables();
    try_lengths();
    try_long_tables();
    try_bits();
    try_reading();
    try_old_tables();
    const struct totals *all = &exported.totals;
    printf("terms: %llu terms set, %llu refused with 14, %llu with 15; %llu days asked; %llu conversions, %llu refused\n",
           (unsigned long long)all->calls[SET_TERM][0], (unsigned long long)all->calls[SET_TERM][SWEEP_NO_DATE],
           (unsigned long long)all->calls[SET_TERM][SWEEP_BAD_MONTHS], (unsigned long long)all->calls[CURRENT][0],
           (unsigned long long)all->calls[CONVERT][0], (unsigned long long)all->calls[CONVERT][1]);
    return wrong;
}
