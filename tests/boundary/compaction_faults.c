/* Faults of a compaction, which the harness has to notice; and what an accepted one may do to the bytes that it leaves free. */
#include <string.h>
#include "faults.h"

#define USED used_blocks(START(TABLES))
#define BLOCKS (LENT(PAGES).length / SWEEP_PAGE_BYTES)
#define PAGE(block) (START(PAGES) + SWEEP_PAGE_BYTES * (block))
#define BAD_SPARE (IS(COMPACT) && done->answer.number == SWEEP_BAD_SPARE)

/* Memory */

static void look_past_spare(struct done *done) { if (IS(COMPACT)) look(END(SPARE)); }
static void look_before_spare(struct done *done) { if (IS(COMPACT)) look(START(SPARE) - 1); }
static void change_past_spare(struct done *done) { if (TOOK(COMPACT)) change_past(LENT(SPARE)); }
static void change_before_spare(struct done *done) { if (TOOK(COMPACT)) change_before(LENT(SPARE)); }

/* An address kept from an earlier call. */
static void look_at_spare_in_free(struct done *done)
{
    static const uint8_t *kept;
    if (IS(COMPACT) && LENT(SPARE).length)
        kept = START(SPARE);
    if (IS(FREE) && kept)
        look(kept);
}

/* Pages */

static void change_the_first_used_page(struct done *done) { if (TOOK(COMPACT) && USED) PAGE(0)[0] ^= 1; }
static void change_the_last_used_byte(struct done *done) { if (TOOK(COMPACT) && USED) PAGE(USED)[-1] ^= 1; }

static void double_a_page(struct done *done)
{
    if (TOOK(COMPACT) && USED > 1)
        memcpy(PAGE(USED - 1), PAGE(0), SWEEP_PAGE_BYTES);
}

static void lose_a_page_to_the_spare(struct done *done)
{
    if (TOOK(COMPACT) && USED)
        memcpy(PAGE(USED - 1), START(SPARE), SWEEP_PAGE_BYTES);
}

/* Tables */

static void put_next_start(uint8_t *tables, size_t next)
{
    tables[1] = (uint8_t)((tables[1] & 0xF8) | next >> 9);
    tables[2] = (uint8_t)(next >> 1);
    tables[3] = (uint8_t)(next << 7);
}

static void turn_over(uint8_t *tables, size_t block) { tables[BITMAP_AT + block / 8] ^= (uint8_t)(0x80 >> block % 8); }

static void keep_next_start(struct done *done) { if (TOOK(COMPACT)) memcpy(START(TABLES), done->tables, BITMAP_AT); }
static void put_next_start_at_0(struct done *done) { if (TOOK(COMPACT)) put_next_start(START(TABLES), 0); }
static void reduce_no_next_start(struct done *done) { if (TOOK(COMPACT)) put_next_start(START(TABLES), USED); }
static void keep_a_bit(struct done *done) { if (TOOK(COMPACT) && USED < BLOCKS) turn_over(START(TABLES), USED); }
static void lose_a_bit(struct done *done) { if (TOOK(COMPACT) && USED) turn_over(START(TABLES), USED - 1); }
static void keep_bits(struct done *done) { if (TOOK(COMPACT)) memcpy(START(TABLES) + BITMAP_AT, done->tables + BITMAP_AT, 512); }
static void change_an_entry(struct done *done) { if (TOOK(COMPACT)) START(TABLES)[FILES_AT + 5] ^= 1; }
static void change_a_term(struct done *done) { if (TOOK(COMPACT)) START(TABLES)[SETS_AT + TERM_AT + 1] ^= 1; }
static void change_the_last_entry(struct done *done) { if (TOOK(COMPACT)) START(TABLES)[SWEEP_TABLES_BYTES - 1] ^= 1; }

/* Answers and refusals */

static void count_the_blocks(struct done *done) { if (TOOK(COMPACT)) done->answer.first = (uint32_t)USED; }
static void give_another_number(struct done *done) { if (BAD_SPARE) done->answer.number = SWEEP_BAD_MONTHS; }
static void change_the_spare_page_though_refused(struct done *done) { if (BAD_SPARE && LENT(SPARE).length) START(SPARE)[0] ^= 1; }
static void change_a_page_though_refused(struct done *done) { if (REFUSED(COMPACT) && LENT(PAGES).length) PAGE(0)[0] ^= 1; }
static void put_next_start_though_refused(struct done *done) { if (BAD_SPARE) put_next_start(START(TABLES), USED % BLOCKS); }

static void look_at_the_spare_page_first(struct done *done)
{
    if (REFUSED(COMPACT) && LENT(SPARE).length != SWEEP_PAGE_BYTES)
        done->answer.number = SWEEP_BAD_SPARE;
}

static void take_any_spare_page(struct done *done)
{
    static uint8_t spare[SWEEP_PAGE_BYTES];
    if (BAD_SPARE)
        done->answer = sweep_compact(START(TABLES), LENT(TABLES).length, START(PAGES), LENT(PAGES).length, spare, sizeof spare);
}

/* What is left free */

static void change_the_free_pages(struct done *done)
{
    if (TOOK(COMPACT))
        memset(PAGE(USED), 0xEE, SWEEP_PAGE_BYTES * (BLOCKS - USED));
}

static void change_the_spare_page(struct done *done) { if (TOOK(COMPACT)) memset(START(SPARE), 0xEE, SWEEP_PAGE_BYTES); }

const struct fault compaction_faults[] = {
    FAULT(look_past_spare), FAULT(look_before_spare), FAULT(change_past_spare), FAULT(change_before_spare),
    FAULT(look_at_spare_in_free), FAULT(change_the_first_used_page), FAULT(change_the_last_used_byte), FAULT(double_a_page),
    FAULT(lose_a_page_to_the_spare), FAULT(keep_next_start), FAULT(put_next_start_at_0), FAULT(reduce_no_next_start),
    FAULT(keep_a_bit), FAULT(lose_a_bit), FAULT(keep_bits), FAULT(change_an_entry), FAULT(change_a_term),
    FAULT(change_the_last_entry), FAULT(count_the_blocks), FAULT(give_another_number),
    FAULT(change_the_spare_page_though_refused), FAULT(change_a_page_though_refused), FAULT(put_next_start_though_refused),
    FAULT(look_at_the_spare_page_first), FAULT(take_any_spare_page), ALLOWED(change_the_free_pages),
    ALLOWED(change_the_spare_page),
};
const int compaction_fault_count = sizeof compaction_faults / sizeof *compaction_faults;
