/*
 * Times the exported calls of the sweep store beside their hand-written twin (twin.c), in one run.
 *
 *   bench                     the table of times, then the stack that each call uses
 *   bench stack               the stack alone
 *   bench only CALL           the times of one call alone
 *   bench list                the cases, numbered
 *   bench loop N store|twin COUNT   runs case N so often and prints nothing: for a profiler
 *
 * Method. All cases are gone through several times. Each time a case is run in short batches, store and twin in turn, the copy
 * of the tables (memcpy of 17,468 bytes) among them; the best batch of each counts. A call that changes nothing, or registers
 * alone, is repeated in a row under one reading of the clock. A call that changes the tables is timed by itself: tables and
 * registers are put back before it, outside the time, and the cost of reading the clock is taken off. Pages are not put back:
 * what they hold decides nothing. Before the timing each case is done once by both, and answer, tables, pages, read buffer and
 * registers must be the same; of a compaction the pages of used blocks, as it leaves the others and the spare page free.
 */
#define _GNU_SOURCE
#include "twin.h"

#include <stdbool.h>
#include <stdio.h>
#include <stdlib.h>
#include <string.h>
#include <time.h>
#include <ucontext.h>
#include <x86intrin.h>

enum { TABLES = SWEEP_TABLES_BYTES, PAGE = SWEEP_PAGE_BYTES, MAX_BLOCKS = SWEEP_BLOCKS_MAX, FILE_BYTES = SWEEP_FILE_BYTES_MAX };
enum { REGISTERS = SWEEP_PANEL_REGISTERS, OLD_TABLES = SWEEP_OLD_TABLES_BYTES };
enum { BITMAP = 4, SETS_AT = 516, SET_BYTES = 7, OLD_SET_BYTES = 3, FILES_AT = 572, OLD_FILES_AT = 540, RECORD = 132 };
enum { PASSES = 5, ROUNDS = 300 };

/* ---- the two implementations ---- */

struct calls {
    const char *name;
    sweep_answer (*format)(uint8_t *, size_t, uint8_t *, size_t);
    sweep_answer (*create)(uint8_t *, size_t, uint8_t *, size_t, uint32_t, uint32_t);
    sweep_answer (*write)(uint8_t *, size_t, uint8_t *, size_t, uint32_t, uint32_t, uint32_t, const uint8_t *, size_t);
    sweep_answer (*write_narrow)(uint8_t *, size_t, uint8_t *, size_t, uint32_t, uint32_t, uint32_t, const uint8_t *, size_t);
    sweep_answer (*read)(const uint8_t *, size_t, const uint8_t *, size_t, uint32_t, uint32_t, uint32_t, uint8_t *, size_t);
    sweep_answer (*truncate)(uint8_t *, size_t, uint8_t *, size_t, uint32_t, uint32_t, uint32_t);
    sweep_answer (*delete)(uint8_t *, size_t, uint8_t *, size_t, uint32_t, uint32_t);
    sweep_answer (*make)(uint8_t *, size_t, uint8_t *, size_t, uint32_t, uint32_t, uint32_t);
    sweep_answer (*remove)(uint8_t *, size_t, uint8_t *, size_t, uint32_t);
    sweep_answer (*size)(const uint8_t *, size_t, const uint8_t *, size_t, uint32_t, uint32_t);
    sweep_answer (*free)(const uint8_t *, size_t, const uint8_t *, size_t);
    sweep_answer (*check_blocks)(const uint8_t *, size_t);
    sweep_answer (*check)(const uint8_t *, size_t, const uint8_t *, size_t);
    sweep_answer (*panel_reset)(uint8_t *, size_t);
    sweep_answer (*panel_read)(const uint8_t *, size_t, uint32_t);
    sweep_answer (*panel_write)(uint8_t *, size_t, uint8_t *, size_t, uint8_t *, size_t, uint32_t, uint8_t);
    sweep_answer (*panel_line)(const uint8_t *, size_t);
    sweep_answer (*set_term)(uint8_t *, size_t, uint8_t *, size_t, uint32_t, uint32_t, uint32_t, uint32_t, uint32_t);
    sweep_answer (*current)(const uint8_t *, size_t, const uint8_t *, size_t, uint32_t, uint32_t);
    sweep_answer (*convert)(const uint8_t *, size_t, const uint8_t *, size_t, uint8_t *, size_t);
    sweep_answer (*compact)(uint8_t *, size_t, uint8_t *, size_t, uint8_t *, size_t);
};

#define ALL(prefix)                                                                                                    \
    prefix##_format, prefix##_create, prefix##_write, prefix##_write_narrow, prefix##_read, prefix##_truncate,         \
        prefix##_delete, prefix##_make, prefix##_remove, prefix##_size, prefix##_free, prefix##_check_blocks,          \
        prefix##_check, prefix##_panel_reset, prefix##_panel_read, prefix##_panel_write, prefix##_panel_line,          \
        prefix##_set_term, prefix##_current, prefix##_convert, prefix##_compact
static const struct calls store = { "store", ALL(sweep) };
static const struct calls twin = { "twin", ALL(twin) };

/* ---- the buffers ---- */

static _Alignas(4096) uint8_t tables[TABLES];          /* what the calls are given */
static _Alignas(4096) uint8_t kept[TABLES];            /* the tables before the call */
static _Alignas(4096) uint8_t old[TABLES];             /* older tables of either length, only read */
static size_t old_length;
static _Alignas(64) uint8_t registers[REGISTERS], registers_kept[REGISTERS];
static _Alignas(4096) uint8_t pages[MAX_BLOCKS * PAGE];
static _Alignas(4096) uint8_t pages_kept[MAX_BLOCKS * PAGE];
static _Alignas(4096) uint8_t data[FILE_BYTES];
static _Alignas(4096) uint8_t buffer[FILE_BYTES];
static _Alignas(4096) uint8_t spare[PAGE];
static _Alignas(4096) uint8_t other[MAX_BLOCKS * PAGE];
static size_t length; /* of the pages */

static uint64_t random_state;
static unsigned below(unsigned n)
{
    random_state ^= random_state << 13;
    random_state ^= random_state >> 7;
    random_state ^= random_state << 17;
    return (unsigned)(random_state >> 20) % n;
}

static void fail(const char *what)
{
    fprintf(stderr, "bench: %s\n", what);
    exit(1);
}

static void must(sweep_answer a)
{
    if (a.number != 0)
        fail("a store could not be built");
}

#define LENT tables, TABLES, pages, length
#define PANEL registers, REGISTERS

/* Tables and registers as they were before the call. */
static void put_back(void)
{
    memcpy(tables, kept, TABLES);
    memcpy(registers, registers_kept, REGISTERS);
}

/* ---- the stores ---- */

static void empty(unsigned blocks)
{
    memset(registers, 0, REGISTERS);
    random_state = 88172645463325252u;
    length = (size_t)blocks * PAGE;
    must(twin_format(LENT));
}

/* The 16 files of set 0, so many pages each, written from front to back. */
static void root_files(unsigned file_pages)
{
    for (unsigned f = 0; f < 16; f++) {
        must(twin_create(LENT, 0, f));
        must(twin_write_narrow(LENT, 0, f, 0, data, (size_t)file_pages * PAGE));
    }
}

/* One write to some file of a set: one time in four all its pages, else 1 to 4 of them; at most so many. */
static void some_write(unsigned set, unsigned file_pages, unsigned most)
{
    unsigned all = below(4) == 0, run = all ? file_pages : 1 + below(4), at = all ? 0 : below(file_pages), f = below(16);
    run = run < most ? run : most;
    run = run < file_pages - at ? run : file_pages - at;
    must(twin_write_narrow(LENT, set, f, at * PAGE, data, (size_t)run * PAGE));
}

static unsigned free_now(void)
{
    sweep_answer a = twin_free(LENT);
    must(a);
    return a.first;
}

/* 8 sets of 16 files, three levels of copies, half full: a quarter of the blocks in set 0, a quarter in its copies, where
 * some files are written anew from front to back and some in a few pages. */
static void typical(unsigned blocks)
{
    static const uint8_t parent[8] = { 0, 0, 0, 0, 1, 1, 2, 4 };
    empty(blocks);
    root_files(blocks / 64);
    for (unsigned s = 1; s < 8; s++)
        must(twin_make(LENT, parent[s], s, 1));
    for (unsigned free = free_now(); free > blocks / 2; free = free_now())
        some_write(3 + below(5), blocks / 64, free - blocks / 2);
}

/* 8 sets of 16 files, three of them of level 5, all blocks used; pages are unmapped from level 5 up to set 0. Each set is
 * written to as soon as it is made, so that there is no child to copy for. */
static void deep(unsigned blocks)
{
    static const uint8_t parent[8] = { 0, 0, 1, 2, 3, 4, 4, 4 };
    empty(blocks);
    root_files(blocks / 64);
    for (unsigned s = 1, left = free_now(); s < 8; s++) {
        must(twin_make(LENT, parent[s], s, 1));
        left -= left / (8 - s);
        for (unsigned free = free_now(); free > left; free = free_now())
            some_write(s, blocks / 64, free - left);
    }
}

static void put16(size_t at, unsigned v)
{
    tables[at] = (uint8_t)(v >> 8);
    tables[at + 1] = (uint8_t)v;
}

static void put_head(unsigned s, unsigned f, uint32_t state, uint32_t size)
{
    size_t at = FILES_AT + (s * 16 + f) * RECORD;
    put16(at, state << 14 | size >> 2);
    put16(at + 2, (size & 3) << 14);
}

static void put_entry(unsigned s, unsigned f, unsigned page, unsigned entry)
{
    put16(FILES_AT + (s * 16 + f) * RECORD + 4 + page * 2, entry);
}

static void put_stored(unsigned s, unsigned f, unsigned page, unsigned block)
{
    put_entry(s, f, page, 0x8000 | block);
    tables[BITMAP + block / 8] |= (uint8_t)(0x80 >> block % 8);
}

/* The sets of `deep`, with own files and no entries yet. */
static void own_files(unsigned blocks, unsigned size)
{
    static const uint8_t parent[8] = { 0, 0, 1, 2, 3, 4, 4, 4 };
    empty(blocks);
    for (unsigned s = 1; s < 8; s++)
        must(twin_make(LENT, parent[s], s, 1));
    for (unsigned s = 0; s < 8; s++)
        for (unsigned f = 0; f < 16; f++)
            put_head(s, f, 1, size);
}

/* Every block used, in no order, by entries in no order; the other entries are holes or unmapped, in no order. */
static void scattered(unsigned blocks)
{
    static uint16_t place[8192], block[MAX_BLOCKS];
    own_files(blocks, FILE_BYTES);
    for (unsigned i = 0; i < 8192; i++) {
        unsigned j = below(i + 1);
        place[i] = place[j];
        place[j] = (uint16_t)i;
    }
    for (unsigned i = 0; i < blocks; i++) {
        unsigned j = below(i + 1);
        block[i] = block[j];
        block[j] = (uint16_t)i;
    }
    for (unsigned i = 0; i < 8192; i++) {
        unsigned s = place[i] / 1024, f = place[i] / 64 % 16, page = place[i] % 64;
        if (i < blocks)
            put_stored(s, f, page, block[i]);
        else
            put_entry(s, f, page, s == 0 || below(2) ? 0x4000 : 0);
    }
}

/* Every block used, by entries that stand as far apart as can be, holes between them: the i-th names the block that is told. */
static void spread(unsigned blocks, unsigned (*block)(unsigned i, unsigned blocks))
{
    enum { ENTRIES = 8 * 16 * 64 };
    own_files(blocks, FILE_BYTES);
    for (unsigned i = 0; i < ENTRIES; i++)
        put_entry(i / 1024, i / 64 % 16, i % 64, 0x4000);
    for (unsigned i = 0; i < blocks; i++) {
        unsigned at = i * (ENTRIES / blocks);
        put_stored(at / 1024, at / 64 % 16, at % 64, block(i, blocks));
    }
}

static unsigned next_block(unsigned i, unsigned blocks) { return (i + 1) % blocks; }
static unsigned from_last(unsigned i, unsigned blocks) { return blocks - 1 - i; }
static void turned(unsigned blocks) { spread(blocks, next_block); }
static void reversed(unsigned blocks) { spread(blocks, from_last); }

/* The typical store as a compaction leaves it. */
static void in_order(unsigned blocks)
{
    typical(blocks);
    must(twin_compact(LENT, spare, PAGE));
}

/* After a year: the 16 files of set 0 written in turn, a page a call; two copies made, some files written anew in turn; then every
 * third file is deleted, in set 0 and in the second copy. */
static void in_scraps(unsigned blocks)
{
    enum { COPY = 1, TRIAL = 2 };
    empty(blocks);
    for (unsigned f = 0; f < 16; f++)
        must(twin_create(LENT, 0, f));
    for (unsigned page = 0; page < blocks / 64; page++)
        for (unsigned f = 0; f < 16; f++)
            must(twin_write_narrow(LENT, 0, f, page * PAGE, data, PAGE));
    must(twin_make(LENT, 0, COPY, 0));
    must(twin_make(LENT, 0, TRIAL, 1));
    for (unsigned page = 0; page < blocks / 64; page++)
        for (unsigned f = 0; f < 16; f += 2)
            must(twin_write_narrow(LENT, f % 4 ? 0 : TRIAL, f, page * PAGE, data, PAGE));
    for (unsigned f = 0; f < 16; f += 3) {
        must(twin_delete(LENT, 0, f));
        must(twin_delete(LENT, TRIAL, f));
    }
}

/* Own files of 1 byte each (of none where the blocks do not suffice): 63 pages past the size, which resolve to a hole from
 * every set, some of them holes there and some unmapped, in no order. */
static void sizes(unsigned blocks)
{
    own_files(blocks, 0);
    for (unsigned i = 0; i < 128; i++) {
        unsigned s = i / 16, f = i % 16;
        for (unsigned page = 0; page < 64; page++)
            put_entry(s, f, page, s == 0 || below(2) ? 0x4000 : 0);
        if (i < blocks) {
            put_head(s, f, 1, 1);
            put_stored(s, f, 0, i);
        } else {
            put_entry(s, f, 0, 0x4000);
        }
    }
}

/* File 0 of set 0 alone, empty or of 64 pages, and the children of set 0. */
static void one_file(unsigned blocks, unsigned file_pages, unsigned children)
{
    empty(blocks);
    must(twin_create(LENT, 0, 0));
    if (file_pages > 0)
        must(twin_write_narrow(LENT, 0, 0, 0, data, (size_t)file_pages * PAGE));
    for (unsigned s = 1; s <= children; s++)
        must(twin_make(LENT, 0, s, 0));
}

static void lean(unsigned blocks) { one_file(blocks, 0, 0); }
static void short_file(unsigned blocks) { one_file(blocks, 2, 0); }
static void full_file(unsigned blocks) { one_file(blocks, 64, 0); }
static void one_child(unsigned blocks) { one_file(blocks, 64, 1); }
static void seven_children(unsigned blocks) { one_file(blocks, 64, 7); }

/* Other files of the used sets are written, one after the other, until only so many blocks are free. No set reads them through another. */
static void fill_up(unsigned sets, unsigned left)
{
    for (unsigned i = 0, free = free_now(); i < sets * 15 && free > left; i++, free = free_now()) {
        unsigned s = i / 15, f = 1 + i % 15, n = free - left < 64 ? free - left : 64;
        must(twin_create(LENT, s, f));
        must(twin_write_narrow(LENT, s, f, 0, data, (size_t)n * PAGE));
    }
    if (free_now() != left)
        fail("a store could not be filled");
}

/* File 0 of set 0 with 64 pages, and children of set 0 that have `held` pages of it in blocks of their own, from page 8 on, and read
 * the others through set 0; so many blocks are free. */
static void crowded(unsigned blocks, unsigned children, unsigned held, unsigned left)
{
    one_file(blocks, 64, 0);
    for (unsigned s = 1; s <= children; s++) {
        must(twin_make(LENT, 0, s, 1));
        must(twin_write_narrow(LENT, s, 0, 8 * PAGE, data, (size_t)held * PAGE));
    }
    fill_up(children + 1, left);
}

static void one_crowded(unsigned blocks) { crowded(blocks, 1, 0, 32); }
static void seven_crowded(unsigned blocks) { crowded(blocks, 7, 0, 64); }
static void seven_full(unsigned blocks) { crowded(blocks, 7, 8, 0); }

/* Set 1 has half of file 0 in blocks of its own and reads the other half through set 0; five children of set 1 read all of it through
 * set 1; 64 blocks are free. */
static void middle_crowded(unsigned blocks)
{
    one_file(blocks, 64, 0);
    must(twin_make(LENT, 0, 1, 1));
    must(twin_write_narrow(LENT, 1, 0, 0, data, 32 * PAGE));
    for (unsigned s = 2; s <= 6; s++)
        must(twin_make(LENT, 1, s, 1));
    fill_up(7, 64);
}

/* File 0 of set 0 with 64 pages, and a chain of copies down to level 5 that have nothing of their own. */
static void chain(unsigned blocks)
{
    one_file(blocks, 64, 0);
    for (unsigned s = 1; s <= 5; s++)
        must(twin_make(LENT, s - 1, s, 1));
}

/* Such stores, with the front panel's registers set for a command; else they are 0. */
#define FOR_COMMAND(name, build, set, file, other)                                                                     \
    static void name(unsigned blocks)                                                                                  \
    {                                                                                                                  \
        build(blocks);                                                                                                 \
        memcpy(registers + SWEEP_PANEL_SET, (const uint8_t[]){ set, file, other }, 3);                                 \
    }
FOR_COMMAND(file_1, full_file, 0, 1, 0)
FOR_COMMAND(set_1, full_file, 0, 0, 1)
FOR_COMMAND(child_1, one_child, 1, 0, 0)
FOR_COMMAND(child_7, typical, 7, 0, 0)

/* An empty store, with registers that hold something: the line is on. */
static void line_on(unsigned blocks)
{
    empty(blocks);
    for (unsigned i = 0; i < REGISTERS; i++)
        registers[i] = (uint8_t)(i * 7 + 1);
}

/* Stores from before marking freed blocks: all files of the sets from `first` on are marked, and keep what they had. */
static void mark_from(unsigned first)
{
    for (unsigned i = first * 16; i < 128; i++)
        tables[FILES_AT + i * RECORD] |= 0xc0;
}

/* The typical store, half of its sets with marked files; and the scattered one, with marked files in all sets but set 0. */
static void half_marked(unsigned blocks)
{
    typical(blocks);
    mark_from(4);
}

static void all_marked(unsigned blocks)
{
    scattered(blocks);
    mark_from(1);
}

/* Such stores as they were before the terms, and as they were when marked files kept what they had; the tables that are written to
 * hold something else. */
static void age(void)
{
    memcpy(old, tables, SETS_AT);
    for (unsigned s = 0; s < 8; s++)
        memcpy(old + SETS_AT + s * OLD_SET_BYTES, tables + SETS_AT + s * SET_BYTES, OLD_SET_BYTES);
    memcpy(old + OLD_FILES_AT, tables + FILES_AT, OLD_TABLES - OLD_FILES_AT);
    memset(tables, 0xee, TABLES);
    old_length = OLD_TABLES;
}

static void put_aside(void)
{
    memcpy(old, tables, TABLES);
    memset(tables, 0xee, TABLES);
    old_length = TABLES;
}
#define OLD(name, build, how)                                                                                          \
    static void name(unsigned blocks)                                                                                  \
    {                                                                                                                  \
        build(blocks);                                                                                                 \
        how();                                                                                                         \
    }
OLD(old_empty, empty, age)
OLD(old_file, full_file, age)
OLD(old_typical, typical, age)
OLD(old_deep, deep, age)
OLD(old_scattered, scattered, age)
OLD(old_half_marked, half_marked, age)
OLD(old_all_marked, all_marked, age)
OLD(long_empty, empty, put_aside)
OLD(long_file, full_file, put_aside)
OLD(long_typical, typical, put_aside)
OLD(long_deep, deep, put_aside)
OLD(long_scattered, scattered, put_aside)
OLD(long_half_marked, half_marked, put_aside)
OLD(long_all_marked, all_marked, put_aside)

/* The stores with marked files as a conversion leaves them. */
static void clear_marked(void)
{
    put_aside();
    must(twin_convert(old, old_length, pages, length, tables, TABLES));
}
OLD(cleared_half, half_marked, clear_marked)
OLD(cleared_all, all_marked, clear_marked)

/* ---- the cases ---- */

/* Each of the two is called from a place of its own: one call instruction with two targets is slower for one of them, by as
 * much as a call takes that only looks at registers. */
#define CASE(name, call)                                                                                               \
    static sweep_answer name(const struct calls *c) { return c == &store ? store.call : twin.call; }
CASE(check, check(LENT))
CASE(check_blocks, check_blocks(tables, TABLES))
CASE(free_of, free(LENT))
CASE(size_root, size(LENT, 0, 3))
CASE(size_far, size(LENT, 7, 3))
CASE(read_1, read(LENT, 7, 3, 100, buffer, 1))
CASE(read_512, read(LENT, 7, 3, 0, buffer, 512))
CASE(read_all, read(LENT, 7, 3, 0, buffer, FILE_BYTES))
#define WRITES(which, set, file, offset, length)                                                                       \
    CASE(write_##which, write(LENT, set, file, offset, data, length))                                                  \
    CASE(narrow_##which, write_narrow(LENT, set, file, offset, data, length))
WRITES(1, 0, 0, 700, 1)
WRITES(512, 0, 0, 512, 512)
WRITES(all, 0, 0, 0, FILE_BYTES)
WRITES(far, 7, 3, 100, 1)
WRITES(5, 5, 0, 700, 1)
CASE(truncate_to_100, truncate(LENT, 0, 0, 100))
CASE(truncate_to_0, truncate(LENT, 0, 0, 0))
CASE(truncate_up, truncate(LENT, 0, 0, 5000))
CASE(delete_it, delete(LENT, 0, 0))
CASE(read_5, read(LENT, 5, 0, 0, buffer, FILE_BYTES))
CASE(truncate_5, truncate(LENT, 5, 0, 100))
CASE(delete_4, delete(LENT, 4, 0))
CASE(delete_1, delete(LENT, 1, 0))
CASE(make_1, make(LENT, 0, 1, 1))
CASE(remove_1, remove(LENT, 1))
CASE(remove_7, remove(LENT, 7))
CASE(create_1, create(LENT, 0, 1))
CASE(format_it, format(LENT))
CASE(panel_reset, panel_reset(PANEL))
CASE(panel_read, panel_read(PANEL, SWEEP_PANEL_OTHER))
CASE(panel_line, panel_line(PANEL))
CASE(panel_mask, panel_write(PANEL, LENT, SWEEP_PANEL_MASK, 0x5a))
CASE(panel_clear, panel_write(PANEL, LENT, SWEEP_PANEL_CAUSE, 0xff))
CASE(panel_nothing, panel_write(PANEL, LENT, SWEEP_PANEL_COMMAND, 0x11))
#define COMMAND(name, value) CASE(name, panel_write(PANEL, LENT, SWEEP_PANEL_COMMAND, value))
COMMAND(panel_create, SWEEP_PANEL_CREATE)
COMMAND(panel_delete, SWEEP_PANEL_DELETE)
COMMAND(panel_make, SWEEP_PANEL_MAKE_WRITEABLE)
COMMAND(panel_remove, SWEEP_PANEL_REMOVE)

CASE(term_root, set_term(LENT, 0, 1998, 1, 31, 12))
CASE(term_far, set_term(LENT, 7, 2026, 11, 30, 15))
CASE(term_none, set_term(LENT, 0, 2026, 11, 31, 12))
CASE(current_root, current(LENT, 0, 10547))
CASE(current_far, current(LENT, 7, 10547))
CASE(convert_it, convert(old, old_length, pages, length, tables, TABLES))
CASE(compact_it, compact(LENT, spare, PAGE))

/* File 0 of set 0 rewritten from front to back, a page a call; gives the counts of all, and the first number that is not 0. */
#define REWRITE(name, call)                                                                                            \
    static sweep_answer name(const struct calls *c)                                                                    \
    {                                                                                                                  \
        sweep_answer all = { 0 };                                                                                      \
        for (unsigned at = 0; at < FILE_BYTES; at += PAGE) {                                                           \
            sweep_answer a = c->call(LENT, 0, 0, at, data + at, PAGE);                                                 \
            all.number = all.number ? all.number : a.number;                                                           \
            all.first += a.first, all.second += a.second, all.third += a.third;                                        \
        }                                                                                                              \
        return all;                                                                                                    \
    }
REWRITE(rewrite_grouped, write)
REWRITE(rewrite_narrow, write_narrow)

struct bench_case {
    const char *call, *what, *store;
    sweep_answer (*run)(const struct calls *);
    void (*build)(unsigned);
    bool changes;
    unsigned number;       /* the number that it gives */
    unsigned blocks[2];
    double expert[2];      /* memcpys of the tables that a C expert takes; 0 where none is given */
};

static const struct bench_case cases[] = {
    { "check", "whole check", "empty", check, empty, false, 0, { 64, 4096 }, { 2.7, 2.7 } },
    { "check", "whole check", "typical", check, typical, false, 0, { 64, 4096 }, { 7, 24 } },
    { "check", "whole check", "full, deep", check, deep, false, 0, { 64, 4096 }, { 11, 21 } },
    { "check", "whole check", "scattered", check, scattered, false, 0, { 64, 4096 }, { 0, 0 } },
    { "check", "whole check", "sizes", check, sizes, false, 0, { 64, 4096 }, { 32, 32 } },
    { "check", "whole check", "half marked", check, cleared_half, false, 0, { 64, 4096 }, { 0, 0 } },
    { "check", "whole check", "all marked", check, cleared_all, false, 0, { 64, 4096 }, { 0, 0 } },
    { "check", "first part", "empty", check_blocks, empty, false, 0, { 64, 4096 }, { 0, 0 } },
    { "check", "first part", "typical", check_blocks, typical, false, 0, { 64, 4096 }, { 0, 0 } },
    { "check", "first part", "full, deep", check_blocks, deep, false, 0, { 64, 4096 }, { 0, 0 } },
    { "check", "first part", "scattered", check_blocks, scattered, false, 0, { 64, 4096 }, { 0, 0 } },
    { "check", "first part", "sizes", check_blocks, sizes, false, 0, { 64, 4096 }, { 0, 0 } },
    { "check", "first part", "half marked", check_blocks, cleared_half, false, 0, { 64, 4096 }, { 0, 0 } },
    { "check", "first part", "all marked", check_blocks, cleared_all, false, 0, { 64, 4096 }, { 0, 0 } },
    { "free", "", "empty", free_of, empty, false, 0, { 64, 4096 }, { 0, 0 } },
    { "free", "", "typical", free_of, typical, false, 0, { 64, 4096 }, { 0, 0 } },
    { "free", "", "full, deep", free_of, deep, false, 0, { 64, 4096 }, { 0, 0 } },
    { "size", "set 0", "typical", size_root, typical, false, 0, { 64, 4096 }, { 0, 0 } },
    { "size", "set 7", "full, deep", size_far, deep, false, 0, { 64, 4096 }, { 0, 0 } },
    { "read", "1 byte", "typical", read_1, typical, false, 0, { 64, 4096 }, { 0, 0 } },
    { "read", "512 bytes", "typical", read_512, typical, false, 0, { 64, 4096 }, { 0, 0 } },
    { "read", "all", "typical", read_all, typical, false, 0, { 64, 4096 }, { 0, 0 } },
    { "read", "all", "full, deep", read_all, deep, false, 0, { 64, 4096 }, { 0, 0 } },
    { "read", "32 KiB", "scattered", read_all, scattered, false, 0, { 64, 4096 }, { 0, 0 } },
    { "read", "32 KiB, level 5", "chain", read_5, chain, false, 0, { 64, 4096 }, { 0, 0 } },
    { "write", "1 byte, new page", "one file", write_1, lean, true, 0, { 64, 4096 }, { 5, 5 } },
    { "write", "1 byte, stored page", "one file", write_1, short_file, true, 0, { 64, 4096 }, { 5, 5 } },
    { "write", "512 bytes", "one file", write_512, lean, true, 0, { 64, 4096 }, { 0, 0 } },
    { "write", "32 KiB", "one file", write_all, lean, true, 0, { 64, 4096 }, { 12, 12 } },
    { "write", "32 KiB, 64 copies", "one child", write_all, one_child, true, 0, { 1024, 4096 }, { 0, 0 } },
    { "write", "32 KiB, 448 copies", "seven children", write_all, seven_children, true, 0, { 1024, 4096 }, { 77, 77 } },
    { "write", "32 KiB, marks", "one child", write_all, one_child, true, 0, { 64, 0 }, { 0, 0 } },
    { "write", "32 KiB, frees 32", "one crowded", write_all, one_crowded, true, 0, { 128, 1024 }, { 0, 0 } },
    { "write", "32 KiB, taken again", "seven crowded", write_all, seven_crowded, true, 0, { 128, 4096 }, { 0, 0 } },
    { "write", "1 byte, taken again", "seven full", write_1, seven_full, true, 0, { 128, 4096 }, { 0, 0 } },
    { "write", "1 byte, 8 copies", "one child", write_1, one_child, true, 0, { 1024, 4096 }, { 0, 0 } },
    { "write", "1 byte, 56 copies", "seven children", write_1, seven_children, true, 0, { 1024, 4096 }, { 0, 0 } },
    { "write", "1 byte, 3 children", "typical", write_1, typical, true, 0, { 4096, 0 }, { 0, 0 } },
    { "write", "1 byte, set 7", "typical", write_far, typical, true, 0, { 64, 4096 }, { 0, 0 } },
    { "write", "1 byte, level 5", "chain", write_5, chain, true, 0, { 1024, 4096 }, { 0, 0 } },
    { "narrow", "1 byte, new page", "one file", narrow_1, lean, true, 0, { 64, 4096 }, { 5, 5 } },
    { "narrow", "1 byte, stored page", "one file", narrow_1, short_file, true, 0, { 64, 4096 }, { 5, 5 } },
    { "narrow", "512 bytes", "one file", narrow_512, lean, true, 0, { 64, 4096 }, { 0, 0 } },
    { "narrow", "32 KiB", "one file", narrow_all, lean, true, 0, { 64, 4096 }, { 12, 12 } },
    { "narrow", "32 KiB, 64 copies", "one child", narrow_all, one_child, true, 0, { 1024, 4096 }, { 0, 0 } },
    { "narrow", "32 KiB, 448 copies", "seven children", narrow_all, seven_children, true, 0, { 1024, 4096 }, { 77, 77 } },
    { "narrow", "32 KiB, marks", "one child", narrow_all, one_child, true, 0, { 64, 0 }, { 0, 0 } },
    { "narrow", "32 KiB, frees 32", "one crowded", narrow_all, one_crowded, true, 0, { 128, 1024 }, { 0, 0 } },
    { "narrow", "32 KiB, taken again", "seven crowded", narrow_all, seven_crowded, true, 0, { 128, 4096 }, { 0, 0 } },
    { "narrow", "1 byte, taken again", "seven full", narrow_1, seven_full, true, 0, { 128, 4096 }, { 0, 0 } },
    { "narrow", "1 byte, 1 copy", "one child", narrow_1, one_child, true, 0, { 1024, 4096 }, { 0, 0 } },
    { "narrow", "1 byte, 7 copies", "seven children", narrow_1, seven_children, true, 0, { 1024, 4096 }, { 0, 0 } },
    { "narrow", "1 byte, 3 children", "typical", narrow_1, typical, true, 0, { 4096, 0 }, { 0, 0 } },
    { "narrow", "1 byte, set 7", "typical", narrow_far, typical, true, 0, { 64, 4096 }, { 0, 0 } },
    { "narrow", "1 byte, level 5", "chain", narrow_5, chain, true, 0, { 1024, 4096 }, { 0, 0 } },
    { "rewrite", "64 writes, by eights", "one file", rewrite_grouped, full_file, true, 0, { 64, 4096 }, { 0, 0 } },
    { "rewrite", "64 writes, narrow", "one file", rewrite_narrow, full_file, true, 0, { 64, 4096 }, { 0, 0 } },
    { "rewrite", "64 writes, by eights", "one child", rewrite_grouped, one_child, true, 0, { 1024, 4096 }, { 0, 0 } },
    { "rewrite", "64 writes, narrow", "one child", rewrite_narrow, one_child, true, 0, { 1024, 4096 }, { 0, 0 } },
    { "rewrite", "64 writes, by eights", "seven children", rewrite_grouped, seven_children, true, 0, { 1024, 4096 }, { 0, 0 } },
    { "rewrite", "64 writes, narrow", "seven children", rewrite_narrow, seven_children, true, 0, { 1024, 4096 }, { 0, 0 } },
    { "truncate", "32 KiB to 100", "one file", truncate_to_100, full_file, true, 0, { 64, 4096 }, { 0, 0 } },
    { "truncate", "1 copy, 63 handed", "one child", truncate_to_100, one_child, true, 0, { 1024, 4096 }, { 0, 0 } },
    { "truncate", "64 handed", "one child", truncate_to_0, one_child, true, 0, { 64, 4096 }, { 0, 0 } },
    { "truncate", "384 copies", "seven children", truncate_to_0, seven_children, true, 0, { 1024, 4096 }, { 0, 0 } },
    { "truncate", "handed, taken again", "seven crowded", truncate_to_0, seven_crowded, true, 0, { 128, 4096 }, { 0, 0 } },
    { "truncate", "up", "one file", truncate_up, short_file, true, 0, { 64, 4096 }, { 0, 0 } },
    { "truncate", "level 5", "chain", truncate_5, chain, true, 0, { 1024, 4096 }, { 0, 0 } },
    { "delete", "", "one file", delete_it, full_file, true, 0, { 64, 4096 }, { 0, 0 } },
    { "delete", "64 handed", "one child", delete_it, one_child, true, 0, { 64, 4096 }, { 0, 0 } },
    { "delete", "384 copies", "seven children", delete_it, seven_children, true, 0, { 1024, 4096 }, { 0, 0 } },
    { "delete", "64 handed, marks", "seven children", delete_it, seven_children, true, 0, { 64, 0 }, { 0, 0 } },
    { "delete", "handed, taken again", "seven crowded", delete_it, seven_crowded, true, 0, { 128, 4096 }, { 0, 0 } },
    { "delete", "set 1, taken again", "middle crowded", delete_1, middle_crowded, true, 0, { 256, 4096 }, { 0, 0 } },
    { "delete", "level 4, 64 copies", "chain", delete_4, chain, true, 0, { 1024, 4096 }, { 0, 0 } },
    { "delete", "", "typical", delete_it, typical, true, 0, { 64, 4096 }, { 0, 0 } },
    { "make", "", "one file", make_1, full_file, true, 0, { 64, 4096 }, { 3, 3 } },
    { "remove", "", "one child", remove_1, one_child, true, 0, { 64, 4096 }, { 3, 3 } },
    { "remove", "set 7", "typical", remove_7, typical, true, 0, { 64, 4096 }, { 0, 0 } },
    { "create", "", "one file", create_1, full_file, true, 0, { 64, 4096 }, { 3, 3 } },
    { "format", "", "empty", format_it, empty, true, 0, { 64, 4096 }, { 0, 0 } },
    { "panel", "reset", "-", panel_reset, line_on, false, 0, { 64, 0 }, { 0, 0 } },
    { "panel", "read", "-", panel_read, line_on, false, 0, { 64, 0 }, { 0, 0 } },
    { "panel", "line", "-", panel_line, line_on, false, 0, { 64, 0 }, { 0, 0 } },
    { "panel", "write: mask", "-", panel_mask, line_on, false, 0, { 64, 0 }, { 0, 0 } },
    { "panel", "write: cause", "-", panel_clear, line_on, false, 0, { 64, 0 }, { 0, 0 } },
    { "panel", "write: no command", "-", panel_nothing, line_on, false, 0, { 64, 0 }, { 0, 0 } },
    { "panel", "make", "one file", panel_make, set_1, true, 0, { 64, 4096 }, { 0, 0 } },
    { "panel", "remove", "one child", panel_remove, child_1, true, 0, { 64, 4096 }, { 0, 0 } },
    { "panel", "remove, set 7", "typical", panel_remove, child_7, true, 0, { 64, 4096 }, { 0, 0 } },
    { "panel", "create", "one file", panel_create, file_1, true, 0, { 64, 4096 }, { 0, 0 } },
    { "panel", "create, refused", "one file", panel_create, full_file, false, 0, { 64, 4096 }, { 0, 0 } },
    { "panel", "delete", "one file", panel_delete, full_file, true, 0, { 64, 4096 }, { 0, 0 } },
    { "panel", "delete, 64 handed", "one child", panel_delete, one_child, true, 0, { 64, 4096 }, { 0, 0 } },
    { "panel", "delete, 384 copies", "seven children", panel_delete, seven_children, true, 0, { 1024, 4096 }, { 0, 0 } },
    { "panel", "delete, marks", "seven children", panel_delete, seven_children, true, 0, { 64, 0 }, { 0, 0 } },
    { "panel", "delete", "typical", panel_delete, typical, true, 0, { 64, 4096 }, { 0, 0 } },
    { "set_term", "12 months", "one file", term_root, full_file, true, 0, { 64, 4096 }, { 0, 0 } },
    { "set_term", "15 months, set 7", "typical", term_far, typical, true, 0, { 64, 4096 }, { 0, 0 } },
    { "set_term", "15 months, set 7", "full, deep", term_far, deep, true, 0, { 64, 4096 }, { 0, 0 } },
    { "set_term", "no date, refused", "one file", term_none, full_file, false, SWEEP_NO_DATE, { 64, 4096 }, { 0, 0 } },
    { "current", "set 0", "one file", current_root, full_file, false, 0, { 64, 4096 }, { 0, 0 } },
    { "current", "set 7", "typical", current_far, typical, false, 0, { 64, 4096 }, { 0, 0 } },
    { "current", "set 7", "full, deep", current_far, deep, false, 0, { 64, 4096 }, { 0, 0 } },
    { "convert", "17,436 bytes", "empty", convert_it, old_empty, true, 0, { 64, 4096 }, { 0, 0 } },
    { "convert", "17,436 bytes", "one file", convert_it, old_file, true, 0, { 64, 4096 }, { 0, 0 } },
    { "convert", "17,436 bytes", "typical", convert_it, old_typical, true, 0, { 64, 4096 }, { 0, 0 } },
    { "convert", "17,436 bytes", "full, deep", convert_it, old_deep, true, 0, { 64, 4096 }, { 0, 0 } },
    { "convert", "17,436 bytes", "scattered", convert_it, old_scattered, true, 0, { 64, 4096 }, { 0, 0 } },
    { "convert", "17,436 bytes", "half marked", convert_it, old_half_marked, true, 0, { 64, 4096 }, { 0, 0 } },
    { "convert", "17,436 bytes", "all marked", convert_it, old_all_marked, true, 0, { 64, 4096 }, { 0, 0 } },
    { "convert", "17,468 bytes", "empty", convert_it, long_empty, true, 0, { 64, 4096 }, { 0, 0 } },
    { "convert", "17,468 bytes", "one file", convert_it, long_file, true, 0, { 64, 4096 }, { 0, 0 } },
    { "convert", "17,468 bytes", "typical", convert_it, long_typical, true, 0, { 64, 4096 }, { 0, 0 } },
    { "convert", "17,468 bytes", "full, deep", convert_it, long_deep, true, 0, { 64, 4096 }, { 0, 0 } },
    { "convert", "17,468 bytes", "scattered", convert_it, long_scattered, true, 0, { 64, 4096 }, { 0, 0 } },
    { "convert", "17,468 bytes", "half marked", convert_it, long_half_marked, true, 0, { 64, 4096 }, { 0, 0 } },
    { "convert", "17,468 bytes", "all marked", convert_it, long_all_marked, true, 0, { 64, 4096 }, { 0, 0 } },
    { "compact", "nothing stored", "empty", compact_it, empty, true, 0, { 64, 4096 }, { 0, 0 } },
    { "compact", "nothing to move", "in order", compact_it, in_order, true, 0, { 64, 4096 }, { 0, 0 } },
    { "compact", "", "typical", compact_it, typical, true, 0, { 64, 4096 }, { 0, 0 } },
    { "compact", "", "in scraps", compact_it, in_scraps, true, 0, { 1024, 4096 }, { 0, 0 } },
    { "compact", "", "turned by one", compact_it, turned, true, 0, { 64, 4096 }, { 0, 0 } },
    { "compact", "", "reversed", compact_it, reversed, true, 0, { 64, 4096 }, { 0, 0 } },
    { "compact", "", "scattered", compact_it, scattered, true, 0, { 64, 4096 }, { 0, 0 } },
};
enum { CASES = sizeof cases / sizeof cases[0] };

static void build(const struct bench_case *k, unsigned blocks)
{
    k->build(blocks);
    memcpy(kept, tables, TABLES);
    memcpy(registers_kept, registers, REGISTERS);
    if (k->changes)
        memcpy(pages_kept, pages, length);
}

/* The bytes of the pages that are compared: all, or after a compaction those of the used blocks, which are the first. */
static size_t compared(const struct bench_case *k)
{
    return k->run == compact_it ? length - (size_t)free_now() * PAGE : length;
}

/* Both do the case once; answer and every byte that is not left free must be the same. */
static void compare(const struct bench_case *k)
{
    static uint8_t after[TABLES], read[FILE_BYTES], panel[REGISTERS];
    memset(buffer, 0xaa, FILE_BYTES);
    sweep_answer a = k->run(&store);
    memcpy(after, tables, TABLES);
    memcpy(other, pages, length);
    memcpy(read, buffer, FILE_BYTES);
    memcpy(panel, registers, REGISTERS);
    put_back();
    if (k->changes)
        memcpy(pages, pages_kept, length);
    memset(buffer, 0xaa, FILE_BYTES);
    sweep_answer b = k->run(&twin);
    if (a.number != k->number || a.number != b.number || a.first != b.first || a.second != b.second || a.third != b.third)
        fail("store and twin give different answers");
    if (memcmp(after, tables, TABLES) || memcmp(other, pages, compared(k)) || memcmp(read, buffer, FILE_BYTES) ||
        memcmp(panel, registers, REGISTERS))
        fail("store and twin leave different bytes");
    if (k->changes && registers[SWEEP_PANEL_NUMBER] != 0)
        fail("a command of the front panel was refused");
    put_back();
}

/* ---- time ---- */

static inline uint64_t begin_time(void)
{
    _mm_mfence();
    _mm_lfence();
    uint64_t t = __rdtsc();
    _mm_lfence();
    return t;
}

static inline uint64_t end_time(void)
{
    unsigned aux;
    uint64_t t = __rdtscp(&aux);
    _mm_lfence();
    return t;
}

static double tick; /* nanoseconds */
static double clock_cost;

static void learn_clock(void)
{
    struct timespec a, b;
    clock_gettime(CLOCK_MONOTONIC, &a);
    uint64_t x = __rdtsc();
    double ns;
    do {
        clock_gettime(CLOCK_MONOTONIC, &b);
        ns = (double)(b.tv_sec - a.tv_sec) * 1e9 + (double)(b.tv_nsec - a.tv_nsec);
    } while (ns < 2e8);
    tick = ns / (double)(__rdtsc() - x);
    clock_cost = 1e9;
    for (unsigned i = 0; i < 100000; i++) {
        uint64_t t = begin_time();
        double d = (double)(end_time() - t);
        clock_cost = d < clock_cost ? d : clock_cost;
    }
}

/* Ticks of one run of the case, in a batch of n. */
static double batch(const struct bench_case *k, const struct calls *c, unsigned n)
{
    if (!k->changes) {
        uint64_t t = begin_time();
        for (unsigned i = 0; i < n; i++)
            k->run(c);
        return ((double)(end_time() - t) - clock_cost) / n;
    }
    double sum = 0;
    for (unsigned i = 0; i < n; i++) {
        put_back();
        uint64_t t = begin_time();
        k->run(c);
        sum += (double)(end_time() - t) - clock_cost;
    }
    return sum / n;
}

static double copy_batch(unsigned n)
{
    uint64_t t = begin_time();
    for (unsigned i = 0; i < n; i++) {
        memcpy(other, kept, TABLES);
        __asm__ volatile("" ::: "memory");
    }
    return ((double)(end_time() - t) - clock_cost) / n;
}

static double least(double a, double b) { return a < b ? a : b; }

struct times {
    double store, twin, copy; /* ticks */
};

/* Batches last about 100 microseconds. */
static unsigned batch_size(double one)
{
    double n = 100000 / (one * tick);
    return n < 1 ? 1 : n > 2000 ? 2000 : (unsigned)n;
}

static void measure(const struct bench_case *k, struct times *m)
{
    unsigned n = batch_size(least(batch(k, &store, 3), batch(k, &store, 3)));
    unsigned c = batch_size(least(copy_batch(100), copy_batch(100)));
    for (unsigned r = 0; r < ROUNDS; r++) {
        m->store = least(m->store, batch(k, &store, n));
        m->twin = least(m->twin, batch(k, &twin, n));
        m->copy = least(m->copy, copy_batch(c));
    }
    put_back();
}

static bool wanted(unsigned i, const char *only)
{
    return cases[i / 2].blocks[i % 2] && (!only || !strcmp(only, cases[i / 2].call));
}

static void print_row(const struct bench_case *k, unsigned j, struct times m, double copy)
{
    double ratio = m.store / m.twin, copies = m.store / copy;
    printf("%-9s %-20s %-15s %6u %9.0f %9.0f %8.1f %5.2f%c ", k->call, k->what, k->store, k->blocks[j], m.store * tick,
           m.twin * tick, copies, ratio, ratio > 1.3 ? '*' : ' ');
    if (k->expert[j] > 0)
        printf("%5.1f%c\n", k->expert[j], copies > 4 * k->expert[j] ? '*' : ' ');
    else
        printf("%5s\n", "-");
}

/* The rows of one call, or of all. */
static void print_times(const char *only)
{
    static struct times best[2 * CASES];
    double copy = 1e18;
    for (unsigned pass = 0; pass < PASSES; pass++)
        for (unsigned i = 0; i < 2 * CASES; i++) {
            if (!wanted(i, only))
                continue;
            build(&cases[i / 2], cases[i / 2].blocks[i % 2]);
            if (pass == 0) {
                compare(&cases[i / 2]);
                best[i] = (struct times){ 1e18, 1e18, 1e18 };
            }
            measure(&cases[i / 2], &best[i]);
            copy = least(copy, best[i].copy);
        }
    printf("memcpy of the tables: %.0f ns\n\n", copy * tick);
    printf("%-9s %-20s %-15s %6s %9s %9s %8s %6s %7s\n", "call", "case", "store", "blocks", "ns", "twin ns", "memcpys",
           "ratio", "expert");
    unsigned slow = 0, far = 0, all = 0;
    for (unsigned i = 0; i < 2 * CASES; i++) {
        if (!wanted(i, only))
            continue;
        print_row(&cases[i / 2], i % 2, best[i], copy);
        double expert = cases[i / 2].expert[i % 2];
        slow += best[i].store > 1.3 * best[i].twin;
        far += expert > 0 && best[i].store > 4 * expert * copy;
        all++;
    }
    printf("\n%u rows; %u with a ratio above 1.3 (*), %u above 4 times the expert's memcpys (*)\n", all, slow, far);
}

/* ---- stack ---- */

static _Alignas(64) uint8_t stack[65536];
static const uint8_t *top;
static ucontext_t back, painted;
static const struct bench_case *painted_case;
static const struct calls *painted_calls;

static __attribute__((noinline)) void on_painted_stack(void)
{
    register const uint8_t *sp __asm__("rsp");
    top = sp;
    __asm__ volatile("" ::: "memory");
    painted_case->run(painted_calls);
    __asm__ volatile("" ::: "memory");
}

/* The bytes that a call writes below the stack pointer of its caller, the case's own small frame included. */
static size_t stack_of(const struct bench_case *k, const struct calls *c)
{
    volatile size_t most = 0;
    for (volatile unsigned paint = 0x55; paint <= 0xaa; paint += 0x55) {
        put_back();
        memset(stack, (int)paint, sizeof stack);
        getcontext(&painted);
        painted.uc_stack.ss_sp = stack;
        painted.uc_stack.ss_size = sizeof stack;
        painted.uc_link = &back;
        painted_case = k;
        painted_calls = c;
        makecontext(&painted, on_painted_stack, 0);
        swapcontext(&back, &painted);
        size_t i = 0;
        while (stack[i] == paint)
            i++;
        size_t used = (size_t)(top - (stack + i));
        most = used > most ? used : most;
    }
    put_back();
    return most;
}

static void print_stack(void)
{
    printf("stack, the most bytes over all cases of a call\n%-9s %7s %7s\n", "call", "store", "twin");
    for (unsigned i = 0; i < CASES; i++) {
        size_t most[2] = { 0, 0 };
        if ((i > 0 && !strcmp(cases[i].call, cases[i - 1].call)) || !strcmp(cases[i].call, "rewrite")) /* many calls */
            continue;
        for (unsigned n = i; n < CASES && !strcmp(cases[n].call, cases[i].call); n++)
            for (unsigned j = 0; j < 2 && cases[n].blocks[j]; j++) {
                build(&cases[n], cases[n].blocks[j]);
                size_t a = stack_of(&cases[n], &store), b = stack_of(&cases[n], &twin);
                most[0] = a > most[0] ? a : most[0];
                most[1] = b > most[1] ? b : most[1];
            }
        printf("%-9s %7zu %7zu\n", cases[i].call, most[0], most[1]);
    }
}

int main(int argc, char **argv)
{
    for (unsigned i = 0; i < FILE_BYTES; i++)
        data[i] = (uint8_t)(i * 7 + 1);
    if (argc == 1) {
        learn_clock();
        print_times(NULL);
        printf("\n");
        print_stack();
        return 0;
    }
    if (argc == 2 && !strcmp(argv[1], "stack")) {
        print_stack();
        return 0;
    }
    if (argc == 3 && !strcmp(argv[1], "only")) {
        learn_clock();
        print_times(argv[2]);
        return 0;
    }
    if (argc == 2 && !strcmp(argv[1], "list")) {
        for (unsigned i = 0; i < 2 * CASES; i++)
            if (cases[i / 2].blocks[i % 2])
                printf("%u %s %s, %s, %u\n", i, cases[i / 2].call, cases[i / 2].what, cases[i / 2].store,
                       cases[i / 2].blocks[i % 2]);
        return 0;
    }
    if (argc == 5 && !strcmp(argv[1], "loop")) {
        unsigned i = (unsigned)atoi(argv[2]);
        if (i >= 2 * CASES || !cases[i / 2].blocks[i % 2])
            fail("no such case");
        build(&cases[i / 2], cases[i / 2].blocks[i % 2]);
        for (long n = atol(argv[4]); n > 0; n--) {
            if (cases[i / 2].changes)
                put_back();
            cases[i / 2].run(!strcmp(argv[3], "twin") ? &twin : &store);
        }
        return 0;
    }
    fprintf(stderr, "usage: bench [stack | only CALL | list | loop N store|twin COUNT]\n");
    return 2;
}
