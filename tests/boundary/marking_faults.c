/* Faults of marking, and of the check and the converter with marked files. A call that marks files is done once more, from the tables and pages
 * before it, by a plain store that has one fault; the same store without a fault is no fault. */
#include <string.h>
#include "faults.h"

enum { PAGE = SWEEP_PAGE_BYTES, NONE = 8, NO_BLOCK = SWEEP_BLOCKS_MAX };

/* The plain store: one call on tables that are well formed, which is accepted. */

enum fault_of_marking {
    NO_FAULT,
    FREED_AT_THE_END,      /* the blocks come free when all copies are made */
    JUDGED_ONCE,           /* after the first copy that finds none free no other finds one */
    DEPENDENTS_KEEP,       /* a dependent is marked and keeps its record and blocks */
    DEPENDENTS_LOSE,       /* a dependent is cleared, but its blocks stay used */
    DEPENDENTS_LIVE_ON,    /* a dependent is not marked */
    SIZE_KEPT,             /* a marked file keeps its size, */
    ENTRIES_KEPT,          /* its entries, */
    HOLES_KEPT,            /* its holes, */
    HANDED_OVER_KEPT,      /* the blocks that it took over in this call, as used ones */
    FREED_TWICE,           /* the call frees a block that it handed over and that marking freed */
    TRIED_AGAIN,           /* the copy is made for the child just marked */
    EXTRA_PAGES_BARRED,    /* no extra page where something was marked */
    COPIES_NOT_COUNTED,    /* copies made for a child that is marked later are not counted */
    NEXT_START_GOES_BACK   /* to a block that came free */
};

static struct {
    enum fault_of_marking fault;
    uint8_t *tables, *pages;
    uint32_t set, file, blocks, next;
    sweep_answer counts;
    uint32_t later[SWEEP_BLOCKS_MAX], freed_later;           /* blocks that come free when all copies are made */
    uint32_t handed[SWEEP_FILE_PAGES], copied[SWEEP_SETS];   /* the blocks handed over, by page; copies made, by set */
    int none_left;
} plain;

static uint8_t *record(uint32_t set) { return plain.tables + record_at(SWEEP_TABLES_BYTES, SWEEP_FILES * set + plain.file); }
static uint32_t size_in(uint32_t set) { return (uint32_t)(record(set)[0] & 63) << 10 | (uint32_t)record(set)[1] << 2 | record(set)[2] >> 6; }
static uint8_t *page_of(uint32_t block) { return plain.pages + PAGE * block; }

/* A link of a set record: parent 15, first child 11, next sibling 7. */
static uint32_t link_of(uint32_t set, int shift)
{
    const uint8_t *at = plain.tables + SETS_AT + SET_BYTES * set;
    return ((uint32_t)at[0] << 16 | (uint32_t)at[1] << 8 | at[2]) >> shift & 15;
}
#define CHILDREN(child, set) uint32_t child = link_of(set, 11); child != NONE; child = link_of(child, 7)

static int is_live(uint32_t set) { return state_in(record(set)) == OWN || state_in(record(set)) == VIRGIN; }

static int depends(uint32_t set)
{
    int some = 0;
    for (uint32_t page = 0; page < SWEEP_FILE_PAGES; page++)
        some |= kind_in(record(set), page) == UNMAPPED;
    return some && is_live(set);
}

/* The record in whose map the page stands. */
static uint8_t *found(uint32_t page)
{
    uint32_t set = plain.set;
    while (kind_in(record(set), page) == UNMAPPED)
        set = link_of(set, 15);
    return record(set);
}

static void settle(uint32_t set)
{
    uint32_t from = set;
    while (state_in(record(from)) == VIRGIN)
        from = link_of(from, 15);
    uint32_t size = size_in(from);
    if (from != set) {
        record(set)[0] = OWN << 6;
        put_size(record(set), size);
    }
}

static uint32_t take(void)
{
    for (uint32_t i = 0; i < plain.blocks && !plain.none_left; i++) {
        uint32_t block = (plain.next + i) % plain.blocks;
        if (bit_of(plain.tables, block))
            continue;
        put_bit(plain.tables, block, 1);
        plain.next = (block + 1) % plain.blocks;
        return block;
    }
    return NO_BLOCK;
}

static void free_block(uint32_t block)
{
    if (plain.fault == FREED_AT_THE_END)
        plain.later[plain.freed_later++] = block;
    else
        put_bit(plain.tables, block, 0);
    if (plain.fault == NEXT_START_GOES_BACK && block < plain.next)
        plain.next = block;
}

static void clear(uint32_t set, int dependent)
{
    uint8_t before[FILE_BYTES], *now = record(set);
    uint32_t size = size_in(set);
    memcpy(before, now, FILE_BYTES);
    memset(now, 0, FILE_BYTES);
    now[0] = MARKED << 6;
    if (plain.fault == SIZE_KEPT)
        put_size(now, size);
    for (uint32_t page = 0; page < SWEEP_FILE_PAGES; page++) {
        uint32_t kind = kind_in(before, page), block = block_in(before, page);
        if (plain.fault == ENTRIES_KEPT || (plain.fault == HOLES_KEPT && kind == HOLE))
            put_entry(now, page, kind, block);
        if (kind == STORED && !(dependent && plain.fault == DEPENDENTS_LOSE) &&
            !(plain.fault == HANDED_OVER_KEPT && plain.handed[page] == block))
            free_block(block);
    }
}

static void mark(uint32_t set, int dependent)
{
    if (dependent && plain.fault == DEPENDENTS_LIVE_ON)
        return;
    if (dependent && plain.fault == DEPENDENTS_KEEP)
        record(set)[0] |= MARKED << 6;
    else
        clear(set, dependent);
    plain.counts.third++;
    if (plain.fault == COPIES_NOT_COUNTED)
        plain.counts.second -= plain.copied[set];
    for (CHILDREN(child, set))
        if (depends(child))
            mark(child, 1);
}

/* A copy of the block for the child; whether there was a block for it. */
static int copy(uint32_t child, uint32_t page, uint32_t from)
{
    uint32_t block = take();
    if (block == NO_BLOCK)
        return 0;
    memcpy(page_of(block), page_of(from), PAGE);
    put_entry(record(child), page, STORED, block);
    plain.counts.second++;
    plain.copied[child]++;
    return 1;
}

/* Step 4 for one page. One that is dropped whole may be handed over; an extra page marks nothing. */
static void give(uint32_t page, int dropped, int extra)
{
    const uint8_t *holder = found(page);
    uint32_t kind = kind_in(holder, page), block = block_in(holder, page);
    int gift = dropped && kind == STORED && holder == record(plain.set);
    for (CHILDREN(child, plain.set)) {
        if (!is_live(child) || kind_in(record(child), page) != UNMAPPED)
            continue;
        if (kind == HOLE || gift) {
            put_entry(record(child), page, kind, block);
            if (gift) {
                put_entry(record(plain.set), page, HOLE, 0);
                plain.handed[page] = block;
            }
            gift = 0;
        } else if (!copy(child, page, block) && !extra) {
            mark(child, 0);
            plain.none_left = plain.fault == JUDGED_ONCE;
            if (plain.fault == TRIED_AGAIN)
                copy(child, page, block);
        }
    }
}

static void give_pages(uint32_t from, uint32_t to, uint32_t dropped_from)
{
    settle(plain.set);
    for (CHILDREN(child, plain.set))
        settle(child);
    for (uint32_t page = from; page < to; page++)
        give(page, page >= dropped_from, 0);
}

/* The blocks of these pages that are in the map still are free; or of the map as it was, but for those of live heirs. */
static void drop_pages(uint32_t from, uint32_t to)
{
    for (uint32_t page = from; page < to; page++) {
        if (kind_in(record(plain.set), page) == STORED)
            put_bit(plain.tables, block_in(record(plain.set), page), 0);
        int heir = plain.fault != FREED_TWICE || plain.handed[page] == NO_BLOCK;
        for (CHILDREN(child, plain.set))
            heir |= kind_in(record(child), page) == STORED && block_in(record(child), page) == plain.handed[page];
        if (!heir)
            put_bit(plain.tables, plain.handed[page], 0);
        put_entry(record(plain.set), page, HOLE, 0);
    }
}

/* The block of its own that a page gets, with the old bytes. It is in no map yet. */
static uint32_t take_own(void)
{
    plain.counts.first++;
    return take();
}

static void enter(uint32_t page, uint32_t block)
{
    const uint8_t *holder = found(page);
    if (kind_in(holder, page) == STORED)
        memcpy(page_of(block), page_of(block_in(holder, page)), PAGE);
    else
        memset(page_of(block), 0, PAGE);
    put_entry(record(plain.set), page, STORED, block);
}

static void write(uint32_t offset, struct slice data, uint32_t group)
{
    uint32_t own[SWEEP_FILE_PAGES], end = offset + (uint32_t)data.length, first = offset / PAGE, last = (end - 1) / PAGE;
    settle(plain.set);
    for (uint32_t page = first; page <= last; page++)
        own[page] = kind_in(record(plain.set), page) == STORED ? NO_BLOCK : take_own();
    give_pages(first, last + 1, NO_BLOCK);
    for (uint32_t page = first / group * group; page < SWEEP_FILE_PAGES && page / group <= last / group; page++)
        if ((page < first || page > last) && !(plain.fault == EXTRA_PAGES_BARRED && plain.counts.third))
            give(page, 0, 1);
    for (uint32_t page = first; page <= last; page++)
        if (own[page] != NO_BLOCK)
            enter(page, own[page]);
    for (uint32_t at = offset; at < end; at++)
        page_of(block_in(record(plain.set), at / PAGE))[at % PAGE] = data.at[at - offset];
    if (size_in(plain.set) < end)
        put_size(record(plain.set), end);
}

static void truncate(uint32_t size)
{
    uint32_t first = size / PAGE, whole = (size + PAGE - 1) / PAGE, own = NO_BLOCK;
    settle(plain.set);
    uint32_t to = (size_in(plain.set) + PAGE - 1) / PAGE;
    if (first < whole && kind_in(found(first), first) == STORED && kind_in(record(plain.set), first) != STORED)
        own = take_own();
    give_pages(first, to, whole);
    if (own != NO_BLOCK)
        enter(first, own);
    if (first < whole && kind_in(record(plain.set), first) == STORED)
        memset(page_of(block_in(record(plain.set), first)) + size % PAGE, 0, PAGE - size % PAGE);
    drop_pages(whole, to);
    put_size(record(plain.set), size);
}

static void delete(void)
{
    give_pages(0, SWEEP_FILE_PAGES, 0);
    drop_pages(0, SWEEP_FILE_PAGES);
    memset(record(plain.set), 0, FILE_BYTES);
}

static void put_next_start(uint8_t *tables, uint32_t next)
{
    tables[1] = (uint8_t)((tables[1] & 0xF8) | next >> 9);
    tables[2] = (uint8_t)(next >> 1);
    tables[3] = (uint8_t)(next << 7);
}

/* A call that marked files, once more. */
static void once_more(struct done *done, enum fault_of_marking fault)
{
    if (!(TOOK(WRITE) || TOOK(WRITE_NARROW) || TOOK(TRUNCATE) || TOOK(DELETE)) || done->answer.third == 0)
        return;
    memset(&plain, 0, sizeof plain);
    memcpy(START(TABLES), done->tables, LENT(TABLES).length);
    memcpy(START(PAGES), done->pages, LENT(PAGES).length);
    plain.fault = fault;
    plain.tables = START(TABLES);
    plain.pages = START(PAGES);
    plain.set = done->call->n[0];
    plain.file = done->call->n[1];
    plain.blocks = (uint32_t)(LENT(PAGES).length / PAGE);
    plain.next = (uint32_t)(plain.tables[1] & 7) << 9 | (uint32_t)plain.tables[2] << 1 | plain.tables[3] >> 7;
    for (uint32_t page = 0; page < SWEEP_FILE_PAGES; page++)
        plain.handed[page] = NO_BLOCK;
    if (IS(DELETE))
        delete();
    else if (IS(TRUNCATE))
        truncate(done->call->n[2]);
    else
        write(done->call->n[2], LENT(BYTES), IS(WRITE) ? SWEEP_GROUP_PAGES : 1);
    for (uint32_t i = 0; i < plain.freed_later; i++)
        put_bit(plain.tables, plain.later[i], 0);
    put_next_start(plain.tables, plain.next);
    done->answer = plain.counts;
}

static void mark_rightly(struct done *done) { once_more(done, NO_FAULT); }
static void free_at_the_end(struct done *done) { once_more(done, FREED_AT_THE_END); }
static void judge_free_blocks_once(struct done *done) { once_more(done, JUDGED_ONCE); }
static void let_dependents_keep_blocks(struct done *done) { once_more(done, DEPENDENTS_KEEP); }
static void lose_blocks_of_dependents(struct done *done) { once_more(done, DEPENDENTS_LOSE); }
static void mark_no_dependents(struct done *done) { once_more(done, DEPENDENTS_LIVE_ON); }
static void keep_the_size(struct done *done) { once_more(done, SIZE_KEPT); }
static void keep_the_entries(struct done *done) { once_more(done, ENTRIES_KEPT); }
static void keep_the_holes(struct done *done) { once_more(done, HOLES_KEPT); }
static void keep_blocks_handed_over(struct done *done) { once_more(done, HANDED_OVER_KEPT); }
static void free_twice(struct done *done) { once_more(done, FREED_TWICE); }
static void try_the_copy_again(struct done *done) { once_more(done, TRIED_AGAIN); }
static void bar_extra_pages(struct done *done) { once_more(done, EXTRA_PAGES_BARRED); }
static void forget_copies_of_marked_files(struct done *done) { once_more(done, COPIES_NOT_COUNTED); }
static void let_next_start_go_back(struct done *done) { once_more(done, NEXT_START_GOES_BACK); }

/* The check */

/* What the converter takes passes: a marked file may hold something. */
static void check_no_marked_files(struct done *done)
{
    static uint8_t tables[SWEEP_TABLES_BYTES];
    if (IS(CHECK) && LENT(TABLES).length == SWEEP_TABLES_BYTES)
        done->answer = sweep_convert(START(TABLES), LENT(TABLES).length, START(PAGES), LENT(PAGES).length, tables, sizeof tables);
}

/* A delete of a marked file frees what stood in its record; there is nothing, so it frees a block of another. */
static void free_a_block_with_a_marked_file(struct done *done)
{
    if (TOOK(DELETE) && state_in(done->tables + record_at(SWEEP_TABLES_BYTES, SWEEP_FILES * done->call->n[0] + done->call->n[1])) == MARKED)
        put_bit(START(TABLES), 0, !bit_of(START(TABLES), 0));
}

/* The converter */

#define IS_LONG (LENT(SECOND).length == SWEEP_TABLES_BYTES)
#define OLDER(place) (START(SECOND) + record_at(LENT(SECOND).length, place))
#define NEWER(place) (START(TABLES) + record_at(SWEEP_TABLES_BYTES, place))

/* What a conversion does to the entries of each marked file. */
typedef void per_entry(struct done *done, uint32_t place, uint32_t page);
static void for_marked_entries(struct done *done, per_entry *does)
{
    for (uint32_t place = 0; TOOK(CONVERT) && place < RECORDS; place++)
        for (uint32_t page = 0; state_in(OLDER(place)) == MARKED && page < SWEEP_FILE_PAGES; page++)
            does(done, place, page);
}

static void keep_bit(struct done *done, uint32_t place, uint32_t page)
{
    if (kind_in(OLDER(place), page) == STORED)
        put_bit(START(TABLES), block_in(OLDER(place), page), 1);
}

static void keep_hole(struct done *done, uint32_t place, uint32_t page)
{
    if (kind_in(OLDER(place), page) == HOLE)
        put_entry(NEWER(place), page, HOLE, 0);
}

static void keep_all(struct done *done, uint32_t place, uint32_t page)
{
    memcpy(NEWER(place), OLDER(place), FILE_BYTES);
    keep_bit(done, place, page);
}

static void keep_size(struct done *done, uint32_t place, uint32_t page)
{
    (void)page;
    memcpy(NEWER(place), OLDER(place), HEAD_BYTES);
}

static void convert_and_keep_blocks(struct done *done) { for_marked_entries(done, keep_bit); }
static void convert_and_keep_holes(struct done *done) { for_marked_entries(done, keep_hole); }
static void convert_and_keep_records(struct done *done) { for_marked_entries(done, keep_all); }
static void convert_and_keep_sizes(struct done *done) { for_marked_entries(done, keep_size); }

static void refuse_to_convert(struct done *done)
{
    done->answer.number = SWEEP_BAD_TABLES;
    memcpy(START(TABLES), done->tables, SWEEP_TABLES_BYTES);
}

static void refuse_long_older_tables(struct done *done) { if (TOOK(CONVERT) && IS_LONG) refuse_to_convert(done); }

static void refuse_marked_files_that_hold_something(struct done *done)
{
    if (TOOK(CONVERT) && IS_LONG && sweep_check(START(SECOND), LENT(SECOND).length, START(PAGES), LENT(PAGES).length).number)
        refuse_to_convert(done);
}

static void lose_terms(struct done *done)
{
    for (uint32_t set = 0; TOOK(CONVERT) && IS_LONG && set < SWEEP_SETS; set++)
        if (set_is_used(START(TABLES), set))
            put_term(START(TABLES), set, 0, SWEEP_END_DAY);
}

/* The terms of long tables are not looked at. */
static void convert_with_any_terms(struct done *done)
{
    static uint8_t older[SWEEP_TABLES_BYTES];
    if (!REFUSED(CONVERT) || !IS_LONG)
        return;
    memcpy(older, START(SECOND), sizeof older);
    for (uint32_t set = 0; set < SWEEP_SETS; set++)
        put_term(older, set, 0, set_is_used(older, set) ? SWEEP_END_DAY : 0);
    done->answer = sweep_convert(older, sizeof older, START(PAGES), LENT(PAGES).length, START(TABLES), LENT(TABLES).length);
}

static void convert_with_another_next_start(struct done *done) { if (TOOK(CONVERT)) put_next_start(START(TABLES), 0); }

const struct fault marking_faults[] = {
    ALLOWED(mark_rightly), FAULT(free_at_the_end), FAULT(judge_free_blocks_once), FAULT(let_dependents_keep_blocks),
    FAULT(lose_blocks_of_dependents), FAULT(mark_no_dependents), FAULT(keep_the_size), FAULT(keep_the_entries),
    FAULT(keep_the_holes), FAULT(keep_blocks_handed_over), FAULT(free_twice), FAULT(try_the_copy_again), FAULT(bar_extra_pages),
    FAULT(forget_copies_of_marked_files), FAULT(let_next_start_go_back), FAULT(check_no_marked_files),
    FAULT(free_a_block_with_a_marked_file), FAULT(convert_and_keep_blocks), FAULT(convert_and_keep_holes),
    FAULT(convert_and_keep_records), FAULT(convert_and_keep_sizes), FAULT(refuse_long_older_tables),
    FAULT(refuse_marked_files_that_hold_something), FAULT(lose_terms), FAULT(convert_with_any_terms),
    FAULT(convert_with_another_next_start),
};
const int marking_fault_count = sizeof marking_faults / sizeof *marking_faults;
