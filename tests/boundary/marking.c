/* Markings at their edges, and tables in which marked files hold something, with what must come of each written or worked out here;
 * all calls are compared with the judge too.
 *   scenes         files marked in nearly full stores: what each call gives (scenes.c), each with the buffers in every place; and that
 *                  every marked file is left with its state alone
 *   marked files that hold something   each bit of the size, a hole and a stored entry in each of the 64 pages of a marked file: the first
 *                  part of the check passes, every other call answers 1, and the converter takes the tables, of either length, and
 *                  clears the file; with something else wrong it does not
 *   conversions    a store with terms and marked files, loaded in 256 ways, of either length; with wrong lengths of each buffer; what is
 *                  read before and after; stores of 4,096 blocks of which marked files hold some or all
 * Exit status: 0 all well, 1 not. */
#include <stdio.h>
#include <string.h>
#include "edges.h"
#include "scenes.h"

enum { OLD = SWEEP_OLD_TABLES_BYTES, NEW = SWEEP_TABLES_BYTES, PAGE = SWEEP_PAGE_BYTES, PLACES = 3 };

static uint8_t *record_of(uint8_t *tables, uint32_t set, uint32_t file)
{
    return tables + record_at(NEW, SWEEP_FILES * set + file);
}

/* A marked file's record: state 3, and nothing else. */
static int is_bare(const uint8_t *record)
{
    int bare = record[0] == MARKED << 6;
    for (int i = 1; i < FILE_BYTES; i++)
        bare &= record[i] == 0;
    return bare;
}

/* Scenes */

static void look_at(const struct scene *scene, const struct step *step, sweep_answer given, const struct buffers *after)
{
    char what[120];
    snprintf(what, sizeof what, "%s, step %d, %s", scene->name, (int)(step - scene->steps) + 1, exported.functions[step->name].name);
    expect(what, given.number, step->gives.number);
    expect(what, given.first, step->gives.first);
    expect(what, given.second, step->gives.second);
    expect(what, given.third, step->gives.third);
    for (uint32_t place = 0; place < RECORDS; place++) {
        const uint8_t *record = after->of[TABLES] + record_at(NEW, place);
        if (state_in(record) == MARKED)
            expect("a marked file that is not bare", !is_bare(record), 0);
    }
}

static void try_scenes(void)
{
    for (int i = 0; i < scene_count; i++)
        for (unsigned turn = 0; turn < PLACES; turn++)
            run_scene(&scenes[i], &world, call_plainly, turn, look_at);
}

/* A store with terms, in which file 0 of set 1 is marked, and with it those of sets 2 and 3, which were made from it. Set 4 was made from
 * set 0 after that. Files 1 and 2 are in order in all sets that have them. */
enum { BLOCKS = 16, ROOT = 0, FIRST = 1, SECOND_SET = 2, THIRD = 3, LATER = 4 };

static void write_page(uint32_t set, uint32_t file, uint32_t page, uint32_t marked)
{
    world.length[BYTES] = PAGE;
    memset(world.of[BYTES], (int)(16 * set + 4 * file + page), PAGE);
    sweep_answer given = DO(WRITE_NARROW, set, file, PAGE * page);
    expect("a write", given.number, SWEEP_OK);
    expect("files marked", given.third, marked);
}

static void make_store(void)
{
    memset(&world, 0x5A, sizeof world);
    memset(world.length, 0, sizeof world.length);
    world.length[TABLES] = NEW;
    world.length[PAGES] = BLOCKS * PAGE;
    world.length[REGISTERS] = SWEEP_PANEL_REGISTERS;
    uint32_t all = CALL(FORMAT).number + DO(CREATE, ROOT, 0).number + DO(CREATE, ROOT, 1).number + CALL(PANEL_RESET).number;
    write_page(ROOT, 0, 0, 0);
    write_page(ROOT, 1, 1, 0);
    all += DO(MAKE, ROOT, FIRST, 1).number + DO(MAKE, FIRST, SECOND_SET, 1).number + DO(MAKE, FIRST, THIRD, 0).number;
    write_page(SECOND_SET, 0, 7, 0);
    all += DO(CREATE, SECOND_SET, 2).number;
    for (uint32_t page = 0; page < BLOCKS - 3; page++)
        write_page(SECOND_SET, 2, page, 0);
    write_page(ROOT, 0, 0, 3); /* no block is free: sets 1, 2 and 3 lose the file, and one block comes free */
    all += DO(MAKE, ROOT, LATER, 0).number;
    all += DO(TRUNCATE, SECOND_SET, 2, PAGE * 5).number; /* frees 8 */
    all += DO(SET_TERM, ROOT, 1998, 1, 31, 1).number + DO(SET_TERM, THIRD, 2096, 2, 29, 12).number;
    expect("the calls that make the store", all, 0);
    expect("free blocks", CALL(FREE).first, 9);
}

/* What a conversion must give, worked out: the terms, then the marked files. */

static void widened(uint8_t *tables, const uint8_t *older, size_t length)
{
    memcpy(tables, older, SETS_AT);
    memcpy(tables + FILES_AT, older + length - (NEW - FILES_AT), NEW - FILES_AT);
    for (uint32_t set = 0; set < SWEEP_SETS; set++) {
        size_t bytes = length == OLD ? OLD_SET_BYTES : SET_BYTES;
        memcpy(tables + SETS_AT + SET_BYTES * set, older + SETS_AT + bytes * set, bytes);
        if (length == OLD)
            put_term(tables, set, 0, set_is_used(tables, set) ? SWEEP_END_DAY : 0);
    }
}

/* Gives how many blocks this frees. */
static uint32_t cleared(uint8_t *tables)
{
    uint32_t freed = 0;
    for (uint32_t place = 0; place < RECORDS; place++) {
        uint8_t *record = tables + record_at(NEW, place);
        for (uint32_t page = 0; state_in(record) == MARKED && page < SWEEP_FILE_PAGES; page++)
            if (kind_in(record, page) == STORED) {
                put_bit(tables, block_in(record, page), 0);
                freed++;
            }
        if (state_in(record) == MARKED)
            memcpy(record, (const uint8_t[FILE_BYTES]){MARKED << 6}, FILE_BYTES);
    }
    return freed;
}

/* Converts these tables, as they are or as they were before the terms, in every place of the buffers, over bytes that they are not. */
static void expect_conversion(const char *what, const uint8_t *tables, size_t length, uint32_t number)
{
    static uint8_t wanted[NEW], anything[NEW];
    memset(anything, 0xE7, NEW);
    world.length[SECOND] = length;
    world.length[TABLES] = NEW;
    if (length == OLD)
        narrow(world.of[SECOND], tables);
    else
        memcpy(world.of[SECOND], tables, NEW);
    widened(wanted, world.of[SECOND], length);
    if (number == SWEEP_OK)
        cleared(wanted);
    for (int place = 0; place < PLACES; place++) {
        memcpy(world.of[TABLES], anything, NEW);
        expect(what, CALL(CONVERT).number, number);
        expect("the new buffer is another than it should be", memcmp(number ? anything : wanted, world.of[TABLES], NEW) != 0, 0);
    }
}

/* Marked files that hold something */

static void expect_refused_by_all(const char *what, uint32_t first_part)
{
    expect(what, CALL(CHECK_BLOCKS).number, first_part);
    world.length[SPARE] = PAGE;
    world.length[BYTES] = 1;
    for (unsigned name = 0; name < CALLS; name++)
        if (name != FORMAT && !exported.functions[name].unchecked)
            expect(exported.functions[name].name, CALL(name).number, SWEEP_BAD_TABLES);
    expect("a reset of the registers", CALL(PANEL_RESET).number, SWEEP_OK);
    expect("a write of the command register", DO(PANEL_WRITE, SWEEP_PANEL_COMMAND, SWEEP_PANEL_DELETE).number, SWEEP_OK);
    expect("the number register", world.of[REGISTERS][SWEEP_PANEL_NUMBER], SWEEP_BAD_TABLES);
}

/* The tables as they stand are refused by every call, and converted or not. */
static void try_tables(const char *what, uint32_t first_part, uint32_t conversion)
{
    static uint8_t tables[NEW];
    memcpy(tables, world.of[TABLES], NEW);
    expect_refused_by_all(what, first_part);
    expect_conversion(what, tables, NEW, conversion);
    expect_conversion(what, tables, OLD, conversion);
    memcpy(world.of[TABLES], tables, NEW);
}

static struct buffers kept;

static uint32_t free_block(const uint8_t *tables)
{
    uint32_t block = 0;
    while (bit_of(tables, block))
        block++;
    return block;
}

/* One thing in the record of one marked file. */
static void try_record(uint32_t set)
{
    uint8_t *record = record_of(world.of[TABLES], set, 0);
    for (uint32_t size = 1; size <= SWEEP_FILE_BYTES_MAX; size *= 2) {
        copy_buffers(&world, &kept);
        put_size(record, size);
        try_tables("a marked file with a size", SWEEP_OK, SWEEP_OK);
    }
    for (uint32_t page = 0; page < SWEEP_FILE_PAGES; page++) {
        copy_buffers(&world, &kept);
        put_entry(record, page, HOLE, 0);
        try_tables("a marked file with a hole", SWEEP_OK, SWEEP_OK);
        uint32_t block = free_block(world.of[TABLES]);
        put_entry(record, page, STORED, block);
        put_bit(world.of[TABLES], block, 1);
        try_tables("a marked file with a stored entry", SWEEP_OK, SWEEP_OK);
    }
}

/* What older tables may not have either. */
static void try_what_was_never_right(void)
{
    uint8_t *record = record_of(world.of[TABLES], FIRST, 0), *tables = world.of[TABLES];
    uint32_t block = free_block(tables);
    put_entry(record, 3, STORED, block);
    try_tables("a marked file with a block whose bit is 0", SWEEP_BAD_TABLES, SWEEP_BAD_TABLES);
    put_bit(tables, block, 1);
    put_entry(record_of(tables, SECOND_SET, 0), 63, STORED, block);
    try_tables("two marked files with one block", SWEEP_BAD_TABLES, SWEEP_BAD_TABLES);
    copy_buffers(&world, &kept);
    put_entry(record, 0, STORED, 0);
    try_tables("a marked file with a block of a live one", SWEEP_BAD_TABLES, SWEEP_BAD_TABLES);
    copy_buffers(&world, &kept);
    put_entry(record, 0, STORED, BLOCKS);
    put_bit(tables, BLOCKS, 1);
    try_tables("a marked file with a block that there is not", SWEEP_BAD_TABLES, SWEEP_BAD_TABLES);
    copy_buffers(&world, &kept);
    put_entry(record, 0, 3, 0);
    try_tables("a marked file with an entry of kind 3", SWEEP_BAD_TABLES, SWEEP_BAD_TABLES);
    copy_buffers(&world, &kept);
    put_entry(record, 0, HOLE, 1);
    try_tables("a marked file with a hole that has a block", SWEEP_BAD_TABLES, SWEEP_BAD_TABLES);
    copy_buffers(&world, &kept);
    put_size(record, SWEEP_FILE_BYTES_MAX + 1);
    try_tables("a marked file with too large a size", SWEEP_OK, SWEEP_BAD_TABLES);
    copy_buffers(&world, &kept);
    record[3] = 1;
    try_tables("a marked file with a zero field that is not zero", SWEEP_OK, SWEEP_BAD_TABLES);
    copy_buffers(&world, &kept);
    record_of(tables, LATER, 0)[0] = MARKED << 6; /* was virgin; a marked file in set 0 cannot be: */
    expect("a marked file in set 4", CALL(CHECK).number, SWEEP_OK);
    record_of(tables, ROOT, 0)[0] |= MARKED << 6;
    try_tables("a marked file in set 0", SWEEP_OK, SWEEP_BAD_TABLES);
}

static void try_marked_files_that_hold_something(void)
{
    make_store();
    copy_buffers(&kept, &world);
    try_record(FIRST);
    try_record(THIRD);
    copy_buffers(&world, &kept);
    try_what_was_never_right();
}

/* Conversions */

/* The marked files get what the byte says, each something else. */
static void load(uint8_t *tables, uint8_t byte)
{
    for (uint32_t place = 0; place < RECORDS; place++)
        if (state_in(tables + record_at(NEW, place)) == MARKED)
            load_record(tables, tables + record_at(NEW, place), (uint8_t)(byte + 85 * place));
}

static void expect_same_reading(const struct buffers *before)
{
    static const uint32_t files[][2] = {{ROOT, 0}, {ROOT, 1}, {FIRST, 1}, {SECOND_SET, 1}, {SECOND_SET, 2}, {THIRD, 1}, {LATER, 0}, {LATER, 1}};
    static struct buffers after;
    copy_buffers(&after, &world);
    for (size_t i = 0; i < sizeof files / sizeof *files; i++) {
        uint8_t bytes[2][3 * PAGE];
        sweep_answer given[2];
        for (int time = 0; time < 2; time++) {
            copy_buffers(&world, time ? &after : before);
            world.length[BYTES] = sizeof bytes[time];
            memset(world.of[BYTES], 0, sizeof bytes[time]);
            given[time] = DO(READ, files[i][0], files[i][1], 0);
            memcpy(bytes[time], world.of[BYTES], sizeof bytes[time]);
        }
        expect("a read", given[0].number, SWEEP_OK);
        expect("what a read gives is something else", memcmp(&given[0], &given[1], sizeof given[0]) || memcmp(bytes[0], bytes[1], sizeof bytes[0]), 0);
    }
    copy_buffers(&world, &after);
}

static void try_loads(void)
{
    static uint8_t tables[NEW];
    make_store();
    copy_buffers(&kept, &world);
    for (int byte = 0; byte < 256; byte++) {
        memcpy(tables, kept.of[TABLES], NEW);
        load(tables, (uint8_t)byte);
        for (size_t length = OLD; length <= NEW; length += NEW - OLD) {
            copy_buffers(&world, &kept);
            expect_conversion("a conversion of loaded files", tables, length, SWEEP_OK);
            expect("the check of a converted store", CALL(CHECK).number, SWEEP_OK);
            expect("free blocks of a converted store", CALL(FREE).first, 9);
            expect("a term of a converted store", DO(CURRENT, THIRD, 36217).first, 1);
            expect("another term of a converted store", DO(CURRENT, THIRD, 36218).first, length == OLD);
            if (byte % 16 == 5)
                expect_same_reading(&kept);
        }
    }
}

/* What comes out is taken as it is, again and again. */
static void try_again(void)
{
    static uint8_t tables[NEW];
    make_store();
    memcpy(tables, world.of[TABLES], NEW);
    expect_conversion("tables that are new already", tables, NEW, SWEEP_OK);
    expect("tables that did not come out as they are", memcmp(tables, world.of[TABLES], NEW) != 0, 0);
}

static void try_lengths(void)
{
    static const size_t older[] = {0, 1, SETS_AT, OLD - 1, OLD + 1, NEW - 1, NEW + 1, 32768};
    static const size_t newer[] = {0, 1, FILES_AT, OLD, NEW - 1, NEW + 1, 32768};
    static const size_t pages[] = {0, PAGE, BLOCKS * PAGE - 1, BLOCKS * PAGE + 1, (BLOCKS + 1) * PAGE, (BLOCKS - 1) * PAGE};
    make_store();
    memcpy(world.of[SECOND], world.of[TABLES], NEW);
    load(world.of[SECOND], 0x7F);
    for (int time = 0; time < 2; time++) {
        size_t right = time ? OLD : NEW;
        if (time)
            narrow(world.of[SECOND], world.of[SECOND]);
        for (size_t i = 0; i < sizeof older / sizeof *older; i++) {
            world.length[SECOND] = older[i];
            expect("older tables of another length", CALL(CONVERT).number, SWEEP_BAD_TABLES);
        }
        world.length[SECOND] = time ? NEW : OLD;
        expect("older tables of the other length", CALL(CONVERT).number, SWEEP_BAD_TABLES);
        world.length[SECOND] = right;
        for (size_t i = 0; i < sizeof newer / sizeof *newer; i++) {
            world.length[TABLES] = newer[i];
            expect("a second buffer of another length", CALL(CONVERT).number, SWEEP_BAD_TABLES);
        }
        world.length[TABLES] = NEW;
        for (size_t i = 0; i < sizeof pages / sizeof *pages; i++) {
            world.length[PAGES] = pages[i];
            expect("pages of another length", CALL(CONVERT).number, SWEEP_BAD_TABLES);
        }
        world.length[PAGES] = BLOCKS * PAGE;
        expect("right lengths", CALL(CONVERT).number, SWEEP_OK);
    }
}

/* Large stores, whose pages do not fit into the rooms of the harness: both are called on plain buffers */

static struct {
    uint8_t tables[NEW], older[NEW], made[NEW], judged[NEW], pages[SWEEP_PAGES_BYTES_MAX];
} large;

/* Eight sets of sixteen files; those of the sets from `first` on are marked. All blocks are named, by entries so far apart, the last block
 * first; other pages are holes. */
static void make_large(uint32_t first, uint32_t step)
{
    expect("a large format", sweep_format(large.tables, NEW, large.pages, sizeof large.pages).number, SWEEP_OK);
    for (uint32_t set = 1; set < SWEEP_SETS; set++)
        expect("a large making", sweep_make(large.tables, NEW, large.pages, sizeof large.pages, set / 2, set, 1).number, SWEEP_OK);
    for (uint32_t place = 0; place < RECORDS; place++) {
        uint8_t *record = large.tables + record_at(NEW, place);
        record[0] = (uint8_t)((place / SWEEP_FILES < first ? OWN : MARKED) << 6);
        put_size(record, SWEEP_FILE_BYTES_MAX);
        for (uint32_t page = 0; page < SWEEP_FILE_PAGES; page++)
            put_entry(record, page, HOLE, 0);
    }
    for (uint32_t i = 0; i < SWEEP_BLOCKS_MAX; i++) {
        uint32_t entry = i * step + (step == 1 ? first * SWEEP_FILES * SWEEP_FILE_PAGES : 0);
        put_entry(large.tables + record_at(NEW, entry / SWEEP_FILE_PAGES), entry % SWEEP_FILE_PAGES, STORED, SWEEP_BLOCKS_MAX - 1 - i);
        put_bit(large.tables, i, 1);
    }
}

static void try_large(uint32_t first, uint32_t step, uint32_t held)
{
    static const uint32_t none[MOST_NUMBERS];
    static uint8_t nothing[1], wanted[NEW];
    make_large(first, step);
    for (size_t length = OLD; length <= NEW; length += NEW - OLD) {
        if (length == OLD)
            narrow(large.older, large.tables);
        else
            memcpy(large.older, large.tables, NEW);
        widened(wanted, large.older, length);
        expect("blocks held by marked files", cleared(wanted), held);
        const struct slice lent[BUFFERS] = {
            [TABLES] = {large.judged, NEW}, [PAGES] = {large.pages, sizeof large.pages}, [BYTES] = {nothing, 0},
            [REGISTERS] = {nothing, 0}, [SPARE] = {nothing, 0}, [SECOND] = {large.older, length},
        };
        sweep_answer given = sweep_convert(large.older, length, large.pages, sizeof large.pages, large.made, NEW);
        expect("a large conversion", given.number, SWEEP_OK);
        expect("a large conversion of the judge", exported.judge(CONVERT, none, lent).number, SWEEP_OK);
        expect("large tables are others than they should be", memcmp(large.made, wanted, NEW) || memcmp(large.judged, wanted, NEW), 0);
        expect("free blocks of a large store", sweep_free(large.made, NEW, large.pages, sizeof large.pages).first, held);
    }
}

int main(void)
{
    try_scenes();
    try_marked_files_that_hold_something();
    try_loads();
    try_again();
    try_lengths();
    try_large(1, 1, SWEEP_BLOCKS_MAX);     /* all blocks, in 64 files of 64 pages */
    try_large(1, 2, SWEEP_BLOCKS_MAX - 512); /* every second page of all files: 512 of set 0 */
    try_large(4, 2, SWEEP_BLOCKS_MAX / 2);
    try_large(7, 2, SWEEP_BLOCKS_MAX / 8);
    const struct totals *all = &exported.totals;
    printf("marking: %d scenes, %llu files marked, %llu copies; %llu conversions of small stores, %llu refused\n", scene_count,
           (unsigned long long)all->marked, (unsigned long long)all->copies, (unsigned long long)all->calls[CONVERT][0],
           (unsigned long long)all->calls[CONVERT][1]);
    return wrong;
}
