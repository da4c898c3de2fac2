/* Compactions at their edges, with what must come of each worked out here; all calls are compared with the judge too.
 *   spare pages   every length from 0 to 1,024: other than 512 bytes are refused with 16, after 1, and nothing changes
 *   small stores  nothing stored, all blocks stored, nothing to move, files written in turn, marked files, sets whose numbers do
 *                 not follow the tree: the block of each stored page written here, every file read before and after, compacted
 *                 again, and with other bytes in the spare page and the pages of free blocks
 *   large stores  4,096 blocks, all or some of them used, turned, reversed, exchanged in pairs, shuffled
 * Exit status: 0 all well, 1 not. */
#include <stdio.h>
#include <string.h>
#include "edges.h"

enum { PAGE = SWEEP_PAGE_BYTES, ENTRIES = SWEEP_SETS * SWEEP_FILES * SWEEP_FILE_PAGES, FULL = SWEEP_BLOCKS_MAX };
enum { SPARE_MOST = 1025 };

/* What a compaction leaves, worked out: the tables, and the pages of used blocks */

static struct {
    uint8_t tables[SWEEP_TABLES_BYTES], pages[SWEEP_PAGES_BYTES_MAX];
    uint32_t used;
} wanted;

/* The record and the page of an entry at a place in the order of set, file and page. */
static uint8_t *record_of(uint8_t *tables, uint32_t place)
{
    return tables + record_at(SWEEP_TABLES_BYTES, place / SWEEP_FILE_PAGES);
}

static uint32_t page_of(uint32_t place) { return place % SWEEP_FILE_PAGES; }

/* The block that the entry names; none: FULL. */
static uint32_t block_named(uint8_t *tables, uint32_t place)
{
    const uint8_t *record = record_of(tables, place);
    return kind_in(record, page_of(place)) == STORED ? block_in(record, page_of(place)) : FULL;
}

static void put_header(uint8_t *tables, uint32_t blocks, uint32_t next_start)
{
    uint32_t header = blocks << 19 | next_start << 7;
    for (int i = 0; i < 4; i++)
        tables[i] = (uint8_t)(header >> (24 - 8 * i));
}

static void work_out(uint8_t *tables, const uint8_t *pages, uint32_t blocks)
{
    memcpy(wanted.tables, tables, SWEEP_TABLES_BYTES);
    memset(wanted.tables + BITMAP_AT, 0, SETS_AT - BITMAP_AT);
    wanted.used = 0;
    for (uint32_t place = 0; place < ENTRIES; place++) {
        uint32_t block = block_named(tables, place);
        if (block == FULL)
            continue;
        memcpy(wanted.pages + PAGE * wanted.used, pages + PAGE * block, PAGE);
        put_entry(record_of(wanted.tables, place), page_of(place), STORED, wanted.used);
        put_bit(wanted.tables, wanted.used++, 1);
    }
    put_header(wanted.tables, blocks, wanted.used % blocks);
}

static void expect_wanted(const char *what, const uint8_t *tables, const uint8_t *pages)
{
    expect(what, memcmp(tables, wanted.tables, SWEEP_TABLES_BYTES) != 0, 0);
    expect(what, memcmp(pages, wanted.pages, PAGE * wanted.used) != 0, 0);
}

/* Small stores */

static struct buffers kept;

static void make_empty(uint32_t blocks)
{
    memset(&world, 0x5A, sizeof world);
    memset(world.length, 0, sizeof world.length);
    world.length[TABLES] = SWEEP_TABLES_BYTES;
    world.length[PAGES] = PAGE * blocks;
    world.length[SPARE] = PAGE;
    expect("a format", CALL(FORMAT).number, SWEEP_OK);
}

static void create(uint32_t set, uint32_t file) { expect("a create", DO(CREATE, set, file).number, SWEEP_OK); }
static void drop(uint32_t set, uint32_t file) { expect("a delete", DO(DELETE, set, file).number, SWEEP_OK); }
static void copy(uint32_t parent, uint32_t set) { expect("a making", DO(MAKE, parent, set, 1).number, SWEEP_OK); }

/* Writes one page, each time with other bytes. */
static sweep_answer put(uint32_t set, uint32_t file, uint32_t page)
{
    static uint8_t fill;
    world.length[BYTES] = PAGE;
    for (size_t i = 0; i < PAGE; i++)
        world.of[BYTES][i] = (uint8_t)(fill + i);
    fill += 7;
    sweep_answer given = DO(WRITE_NARROW, set, file, PAGE * page);
    expect("a write", given.number, SWEEP_OK);
    return given;
}

/* Three pages of each of so many files, in turn. */
static void put_in_turn(uint32_t files)
{
    for (uint32_t page = 0; page < 3; page++)
        for (uint32_t file = 0; file < files; file++)
            put(0, file, page);
}

/* A stored page. */
struct stored {
    uint32_t set, file, page;
};

/* What every file of every set gives to a reader, of its first pages and of its last. */
struct seen {
    sweep_answer answer[SWEEP_SETS][SWEEP_FILES][2];
    uint8_t bytes[SWEEP_SETS][SWEEP_FILES][2][8 * PAGE];
};

static void read_all(struct seen *seen)
{
    memset(seen, 0, sizeof *seen);
    for (uint32_t set = 0; set < SWEEP_SETS; set++)
        for (uint32_t file = 0; file < SWEEP_FILES; file++)
            for (uint32_t part = 0; part < 2; part++) {
                world.length[BYTES] = sizeof seen->bytes[set][file][part];
                memset(world.of[BYTES], 0, world.length[BYTES]);
                seen->answer[set][file][part] = DO(READ, set, file, part * (SWEEP_FILE_BYTES_MAX - 8 * PAGE));
                memcpy(seen->bytes[set][file][part], world.of[BYTES], world.length[BYTES]);
            }
}

/* Compacts; the spare page and the pages of free blocks hold such bytes before it. */
static void compact_with(const char *what, uint8_t fill)
{
    uint32_t free_before = CALL(FREE).first;
    for (uint32_t block = 0; block < world.length[PAGES] / PAGE; block++)
        if (!bit_of(world.of[TABLES], block))
            memset(world.of[PAGES] + PAGE * block, fill, PAGE);
    memset(world.of[SPARE], fill, PAGE);
    sweep_answer given = CALL(COMPACT);
    expect(what, given.number, SWEEP_OK);
    expect("counts of a compaction", given.first + given.second + given.third, 0);
    expect_wanted(what, world.of[TABLES], world.of[PAGES]);
    expect("the check of a compacted store", CALL(CHECK).number, SWEEP_OK);
    expect("the free blocks", CALL(FREE).first, free_before);
}

/* The store has these stored pages, which are in block 0, 1, .. afterwards. */
static void try_store(const char *what, const struct stored *pages, uint32_t used, uint32_t next_start)
{
    static struct seen before, after;
    uint32_t blocks = (uint32_t)(world.length[PAGES] / PAGE);
    work_out(world.of[TABLES], world.of[PAGES], blocks);
    read_all(&before);
    copy_buffers(&kept, &world);
    compact_with(what, 0xFF);
    compact_with("a second compaction", 0x11);
    copy_buffers(&world, &kept);
    compact_with(what, 0);
    read_all(&after);
    expect("what readers see is something else", memcmp(&before, &after, sizeof before) != 0, 0);

    expect("used blocks", wanted.used, used);
    for (uint32_t i = 0; i < used; i++) {
        uint32_t place = (pages[i].set * SWEEP_FILES + pages[i].file) * SWEEP_FILE_PAGES + pages[i].page;
        expect("the block of a page", block_named(world.of[TABLES], place), i);
    }
    put_header(wanted.tables, blocks, next_start);
    expect("the header", memcmp(world.of[TABLES], wanted.tables, 4) != 0, 0);
}
#define PAGES_OF(...) (const struct stored[]){__VA_ARGS__}
#define TRY(what, next_start, ...) \
    try_store(what, PAGES_OF(__VA_ARGS__), sizeof(PAGES_OF(__VA_ARGS__)) / sizeof(struct stored), next_start)

static void try_nothing_stored(void)
{
    make_empty(8);
    try_store("a store without files", 0, 0, 0);
    create(0, 0);
    put(0, 0, 0);
    put(0, 0, 1);
    drop(0, 0);
    try_store("an empty store, the next start at 2", 0, 0, 0);
}

static void try_all_stored(void)
{
    make_empty(6);
    create(0, 0);
    create(0, 1);
    put_in_turn(2);
    TRY("a full store", 0, {0, 0, 0}, {0, 0, 1}, {0, 0, 2}, {0, 1, 0}, {0, 1, 1}, {0, 1, 2});
    make_empty(1);
    create(0, 15);
    put(0, 15, 63);
    TRY("a full store of one block", 0, {0, 15, 63});
}

/* Only next start changes. */
static void try_nothing_to_move(void)
{
    make_empty(8);
    create(0, 0);
    create(0, 1);
    put_in_turn(1);
    put(0, 1, 0);
    drop(0, 1);
    copy_buffers(&kept, &world);
    TRY("blocks in order", 3, {0, 0, 0}, {0, 0, 1}, {0, 0, 2});
    expect("next start stays", memcmp(world.of[TABLES], kept.of[TABLES], 4) == 0, 0);
    expect("tables behind the header", memcmp(world.of[TABLES] + 4, kept.of[TABLES] + 4, SWEEP_TABLES_BYTES - 4) != 0, 0);
}

/* The copy gets files 0 and 2 in blocks of its own, and takes over file 1; the blocks of file 2 are freed. */
static void try_files_in_turn(void)
{
    make_empty(16);
    for (uint32_t file = 0; file < 3; file++)
        create(0, file);
    put_in_turn(3);
    expect("a read-only copy", DO(MAKE, 0, 1, 0).number, SWEEP_OK);
    for (uint32_t page = 0; page < 3; page++) {
        put(0, 0, page);
        put(0, 2, page);
    }
    drop(0, 2);
    drop(0, 1);
    TRY("files in turn", 12, {0, 0, 0}, {0, 0, 1}, {0, 0, 2}, {1, 0, 0}, {1, 0, 1}, {1, 0, 2}, {1, 1, 0}, {1, 1, 1}, {1, 1, 2},
        {1, 2, 0}, {1, 2, 1}, {1, 2, 2});
}

/* By set, then file, then page, whenever they were written. */
static void try_order(void)
{
    make_empty(10);
    create(0, 15);
    create(0, 3);
    create(0, 1);
    put(0, 15, 0);
    put(0, 3, 63);
    put(0, 3, 0);
    put(0, 1, 7);
    copy(0, 1);
    create(1, 0);
    put(1, 0, 2);
    TRY("by file and page", 5, {0, 1, 7}, {0, 3, 0}, {0, 3, 63}, {0, 15, 0}, {1, 0, 2});
}

/* The tree is 0, 5, 2, 1, 3, and so were the blocks taken: sets go by their numbers. */
static void try_sets(void)
{
    static const uint32_t made[][2] = {{0, 5}, {5, 2}, {2, 1}, {0, 3}};
    make_empty(8);
    create(0, 0);
    put(0, 0, 0);
    for (int i = 0; i < 4; i++) {
        copy(made[i][0], made[i][1]);
        put(made[i][1], 0, 0);
    }
    TRY("sets by number", 5, {0, 0, 0}, {1, 0, 0}, {2, 0, 0}, {3, 0, 0}, {5, 0, 0});
}

/* Marking gives the block of set 1's file back: it has none that could move. */
static void try_marked(void)
{
    make_empty(4);
    create(0, 0);
    create(0, 1);
    put(0, 0, 0);
    put(0, 0, 1);
    copy(0, 1);
    put(1, 0, 0);
    put(0, 1, 0);
    expect("a file marked", put(0, 0, 1).third, 1);
    expect("its block is free", CALL(FREE).first, 1);
    drop(0, 0);
    TRY("a marked file", 1, {0, 1, 0});
    expect("a read of a marked file", DO(READ, 1, 0, 0).number, SWEEP_MARKED);
    drop(1, 0);
    expect("free blocks without it", CALL(FREE).first, 3);
    TRY("the store without it", 1, {0, 1, 0});
}

/* A spare page of this length, on a store in order or with a zero field that is not zero. A refusal leaves every byte, which the
 * harness compares; the spare page is looked at here too, also behind its end. */
static void try_spare_page(size_t length, uint8_t broken)
{
    static uint8_t spare[SPARE_MOST];
    copy_buffers(&world, &kept);
    memset(world.of[SPARE], (int)length, sizeof spare);
    memcpy(spare, world.of[SPARE], sizeof spare);
    world.length[SPARE] = length;
    world.of[TABLES][FILES_AT + 3] ^= broken;
    uint32_t number = broken ? SWEEP_BAD_TABLES : length == PAGE ? SWEEP_OK : SWEEP_BAD_SPARE;
    expect("a compaction with such a spare page", CALL(COMPACT).number, number);
    if (number != SWEEP_OK)
        expect("a refusal changed the spare page", memcmp(spare, world.of[SPARE], sizeof spare) != 0, 0);
}

static void try_spare_pages(void)
{
    make_empty(6);
    create(0, 0);
    create(0, 1);
    put_in_turn(2);
    drop(0, 0);
    copy_buffers(&kept, &world);
    for (size_t length = 0; length < SPARE_MOST; length++) {
        try_spare_page(length, 0);
        try_spare_page(length, 1);
    }
    copy_buffers(&world, &kept);
    world.length[PAGES] -= PAGE;
    expect("pages of another length", CALL(COMPACT).number, SWEEP_BAD_TABLES);
    copy_buffers(&world, &kept);
    world.length[TABLES]--;
    expect("tables of another length", CALL(COMPACT).number, SWEEP_BAD_TABLES);
}

/* Large stores, whose pages do not fit into the rooms of the harness: both are called on plain buffers */

struct large {
    uint8_t tables[SWEEP_TABLES_BYTES], pages[SWEEP_PAGES_BYTES_MAX], spare[PAGE];
};
static struct large store, judged;
static unsigned large_stores;
#define STORE store.tables, sizeof store.tables, store.pages, sizeof store.pages

/* The block that the i-th stored entry names. */
typedef uint32_t names(uint32_t i, uint32_t step);

static uint32_t turned(uint32_t i, uint32_t step) { return (i + step) % FULL; }
static uint32_t reversed(uint32_t i, uint32_t step) { return FULL - 1 - i * step; }
static uint32_t paired(uint32_t i, uint32_t step) { return i ^ step; }

/* In an order that the seed chooses. */
static uint32_t shuffled(uint32_t i, uint32_t seed)
{
    static uint32_t order[FULL], state;
    if (i == 0) {
        state = seed;
        for (uint32_t n = 0; n < FULL; n++) {
            state = state * 1664525u + 1013904223u;
            uint32_t other = (state >> 8) % (n + 1);
            order[n] = order[other];
            order[other] = n;
        }
    }
    return order[i];
}

/* Eight sets of sixteen files of 64 pages; every second page is stored, as long as there are blocks, and the others are holes. */
static void make_large(names *block, uint32_t step, uint32_t used)
{
    expect("a large format", sweep_format(STORE).number, SWEEP_OK);
    for (uint32_t set = 1; set < SWEEP_SETS; set++)
        expect("a large making", sweep_make(STORE, set / 2, set, 1).number, SWEEP_OK);
    for (uint32_t place = 0; place < ENTRIES; place += SWEEP_FILE_PAGES)
        memcpy(record_of(store.tables, place), (const uint8_t[]){0x60, 0, 0, 0}, HEAD_BYTES); /* own, of 32,768 bytes */
    for (uint32_t place = 0; place < ENTRIES; place++)
        put_entry(record_of(store.tables, place), page_of(place), HOLE, 0);
    for (uint32_t i = 0; i < used; i++) {
        put_entry(record_of(store.tables, 2 * i), page_of(2 * i), STORED, block(i, step));
        put_bit(store.tables, block(i, step), 1);
    }
    for (uint32_t i = 0; i < SWEEP_PAGES_BYTES_MAX; i++)
        store.pages[i] = (uint8_t)(i / PAGE >> 8 * (i % 2)); /* the block's number */
}

static void try_large(const char *what, names *block, uint32_t step, uint32_t used)
{
    static const uint32_t none[MOST_NUMBERS];
    static uint8_t nothing[1];
    make_large(block, step, used);
    work_out(store.tables, store.pages, FULL);
    expect("used blocks of a large store", wanted.used, used);
    memcpy(&judged, &store, sizeof judged);
    const struct slice lent[BUFFERS] = {
        [TABLES] = {judged.tables, sizeof judged.tables}, [PAGES] = {judged.pages, sizeof judged.pages},
        [BYTES] = {nothing, 0}, [REGISTERS] = {nothing, 0}, [SPARE] = {judged.spare, PAGE}, [SECOND] = {nothing, 0},
    };
    for (int time = 0; time < 2; time++) { /* twice is once */
        expect(what, sweep_compact(STORE, store.spare, PAGE).number, SWEEP_OK);
        expect_wanted(what, store.tables, store.pages);
    }
    expect(what, exported.judge(COMPACT, none, lent).number, SWEEP_OK);
    expect_wanted(what, judged.tables, judged.pages);
    large_stores++;
}

static void try_large_stores(void)
{
    static const uint32_t steps[] = {1, 2, 511, 512, 513, 1024, 2048, 3584, 4095};
    for (size_t i = 0; i < sizeof steps / sizeof *steps; i++)
        try_large("a full store turned", turned, steps[i], FULL);
    for (uint32_t step = 1; step < FULL; step *= 2)
        try_large("a full store with pairs exchanged", paired, step, FULL);
    try_large("a full store in order", turned, 0, FULL);
    try_large("a full store reversed", reversed, 1, FULL);
    try_large("the upper half, reversed", reversed, 1, FULL / 2);
    try_large("every second block, reversed", reversed, 2, FULL / 2);
    try_large("a block short of full, turned", turned, 1, FULL - 1);
    try_large("the last block alone", reversed, 1, 1);
    for (uint32_t seed = 1; seed <= 6; seed++)
        try_large("a store shuffled", shuffled, seed, seed % 2 ? FULL : 500 * seed);
}

int main(void)
{
    try_spare_pages();
    try_nothing_stored();
    try_all_stored();
    try_nothing_to_move();
    try_files_in_turn();
    try_order();
    try_sets();
    try_marked();
    try_large_stores();
    const uint64_t *all = exported.totals.calls[COMPACT];
    printf("compaction: %llu compactions of small stores, %llu refused with 1, %llu with 16; %u stores of %u blocks, twice\n",
           (unsigned long long)all[SWEEP_OK], (unsigned long long)all[SWEEP_BAD_TABLES], (unsigned long long)all[SWEEP_BAD_SPARE],
           large_stores, (unsigned)FULL);
    return wrong;
}
