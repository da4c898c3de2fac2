/* The exported functions, each a row for the harness. To test one more: its place in calls.h, its line of RUN and its row here,
 * how often lists have it (lists.c), and its rows in the second implementation (oracle/README.md). */
#include <string.h>
#include "calls.h"
#include "lists.h"

/* The second implementation. */
extern sweep_answer judge(uint32_t name, const uint32_t *n, const struct slice *lent);

/* How each is called: its arguments in the order of sweep.h. */

#define SLICE(buffer) call->lent[buffer].at, call->lent[buffer].length
#define STORE SLICE(TABLES), SLICE(PAGES)
#define N(place) call->n[place]
#define RUN(name, expression) \
    static sweep_answer run_##name(const struct call *call) { return expression; }

RUN(format, sweep_format(STORE))
RUN(create, sweep_create(STORE, N(0), N(1)))
RUN(write, sweep_write(STORE, N(0), N(1), N(2), SLICE(BYTES)))
RUN(read, sweep_read(STORE, N(0), N(1), N(2), SLICE(BYTES)))
RUN(truncate, sweep_truncate(STORE, N(0), N(1), N(2)))
RUN(delete, sweep_delete(STORE, N(0), N(1)))
RUN(make, sweep_make(STORE, N(0), N(1), N(2)))
RUN(remove, sweep_remove(STORE, N(0)))
RUN(size, sweep_size(STORE, N(0), N(1)))
RUN(free, sweep_free(STORE))
RUN(check_blocks, sweep_check_blocks(SLICE(TABLES)))
RUN(check, sweep_check(STORE))
RUN(write_narrow, sweep_write_narrow(STORE, N(0), N(1), N(2), SLICE(BYTES)))
RUN(panel_reset, sweep_panel_reset(SLICE(REGISTERS)))
RUN(panel_read, sweep_panel_read(SLICE(REGISTERS), N(0)))
RUN(panel_write, sweep_panel_write(SLICE(REGISTERS), STORE, N(0), (uint8_t)N(1)))
RUN(panel_line, sweep_panel_line(SLICE(REGISTERS)))
RUN(set_term, sweep_set_term(STORE, N(0), N(1), N(2), N(3), N(4)))
RUN(current, sweep_current(STORE, N(0), N(1)))
RUN(convert, sweep_convert(SLICE(SECOND), SLICE(PAGES), SLICE(TABLES)))
RUN(compact, sweep_compact(STORE, SLICE(SPARE)))

/* What an accepted compaction leaves free: the pages of free blocks, which are the last ones, and the spare page. */
static void free_after_compaction(const struct call *after, enum buffer buffer, uint8_t *free)
{
    size_t used = used_blocks(after->lent[TABLES].at) * SWEEP_PAGE_BYTES;
    if (buffer == PAGES)
        memset(free + used, 1, after->lent[PAGES].length - used);
    if (buffer == SPARE)
        memset(free, 1, after->lent[SPARE].length);
}

/* The rows */

#define STORE_CHANGED [TABLES] = CHANGED, [PAGES] = CHANGED
#define STORE_READ [TABLES] = READ_ONLY, [PAGES] = READ_ONLY
#define SET {32, used_set}
#define A_FILE {32, present_file}
#define A_PLACE {32, place_in_file}
#define A_REGISTER {32, panel_offset}

static const struct function functions[CALLS] = {
    [FORMAT] = {.name = "format", .run = run_format, .lends = {STORE_CHANGED}, .prepare = pages_for_format},
    [CREATE] = {.name = "create", .run = run_create, .lends = {STORE_CHANGED}, .numbers = {SET, {32, absent_file}}},
    [WRITE] = {.name = "write", .run = run_write, .lends = {STORE_CHANGED, [BYTES] = READ_ONLY},
               .numbers = {SET, A_FILE, A_PLACE}, .copies = 1, .prepare = data_to_write},
    [READ] = {.name = "read", .run = run_read, .lends = {STORE_READ, [BYTES] = CHANGED}, .numbers = {SET, A_FILE, A_PLACE},
              .prepare = buffer_to_read},
    [TRUNCATE] = {.name = "truncate", .run = run_truncate, .lends = {STORE_CHANGED}, .numbers = {SET, A_FILE, A_PLACE},
                  .copies = 1},
    [DELETE] = {.name = "delete", .run = run_delete, .lends = {STORE_CHANGED}, .numbers = {SET, A_FILE}, .copies = 1},
    [MAKE] = {.name = "make", .run = run_make, .lends = {STORE_CHANGED}, .numbers = {SET, {32, unused_set}, {32, yes_or_no}}},
    [REMOVE] = {.name = "remove", .run = run_remove, .lends = {STORE_CHANGED}, .numbers = {SET}},
    [SIZE] = {.name = "size", .run = run_size, .lends = {STORE_READ}, .numbers = {SET, A_FILE}},
    [FREE] = {.name = "free", .run = run_free, .lends = {STORE_READ}},
    [CHECK_BLOCKS] = {.name = "check_blocks", .run = run_check_blocks, .lends = {[TABLES] = READ_ONLY}, .unchecked = 1},
    [CHECK] = {.name = "check", .run = run_check, .lends = {STORE_READ}},
    [WRITE_NARROW] = {.name = "write_narrow", .run = run_write_narrow, .lends = {STORE_CHANGED, [BYTES] = READ_ONLY},
                      .numbers = {SET, A_FILE, A_PLACE}, .copies = 1, .prepare = data_to_write},
    [PANEL_RESET] = {.name = "panel_reset", .run = run_panel_reset, .lends = {[REGISTERS] = CHANGED}, .unchecked = 1},
    [PANEL_READ] = {.name = "panel_read", .run = run_panel_read, .lends = {[REGISTERS] = READ_ONLY}, .numbers = {A_REGISTER},
                    .unchecked = 1},
    [PANEL_WRITE] = {.name = "panel_write", .run = run_panel_write, .lends = {STORE_CHANGED, [REGISTERS] = CHANGED},
                     .numbers = {A_REGISTER, {8, panel_value}}, .unchecked = 1},
    [PANEL_LINE] = {.name = "panel_line", .run = run_panel_line, .lends = {[REGISTERS] = READ_ONLY}, .unchecked = 1},
    [SET_TERM] = {.name = "set_term", .run = run_set_term, .lends = {STORE_CHANGED},
                  .numbers = {SET, {32, year_of_date}, {32, month_of_date}, {32, day_of_date}, {32, count_of_months}}},
    [CURRENT] = {.name = "current", .run = run_current, .lends = {STORE_READ}, .numbers = {SET, {32, day_near_term}}},
    /* the second tables are the older ones, of either length; what the new buffer holds does not matter */
    [CONVERT] = {.name = "convert", .run = run_convert,
                 .lends = {[TABLES] = CHANGED, [PAGES] = READ_ONLY, [SECOND] = READ_ONLY}, .unchecked = 1, .prepare = old_tables},
    [COMPACT] = {.name = "compact", .run = run_compact, .lends = {STORE_CHANGED, [SPARE] = CHANGED},
                 .leaves = free_after_compaction, .prepare = spare_page},
};

struct suite exported = {functions, CALLS, judge, {{{0}}, 0, 0}};

int is_command(uint32_t value)
{
    return value == SWEEP_PANEL_CREATE || (value >= SWEEP_PANEL_DELETE && value <= SWEEP_PANEL_REMOVE);
}

int set_is_used(const uint8_t *tables, uint32_t set)
{
    return tables[SETS_AT + SET_BYTES * set] >> 7;
}

static const uint8_t *term_of(const uint8_t *tables, uint32_t set)
{
    return tables + SETS_AT + SET_BYTES * set + TERM_AT;
}

uint32_t first_day(const uint8_t *tables, uint32_t set)
{
    return (uint32_t)term_of(tables, set)[0] << 8 | term_of(tables, set)[1];
}

uint32_t end_day(const uint8_t *tables, uint32_t set)
{
    return (uint32_t)term_of(tables, set)[2] << 8 | term_of(tables, set)[3];
}

void put_term(uint8_t *tables, uint32_t set, uint32_t first, uint32_t end)
{
    const uint8_t days[] = {(uint8_t)(first >> 8), (uint8_t)first, (uint8_t)(end >> 8), (uint8_t)end};
    memcpy(tables + SETS_AT + SET_BYTES * set + TERM_AT, days, sizeof days);
}

size_t record_at(size_t tables_length, uint32_t place)
{
    return tables_length - FILE_BYTES * (RECORDS - (size_t)place);
}

uint32_t state_in(const uint8_t *record)
{
    return record[0] >> 6;
}

void put_size(uint8_t *record, uint32_t size)
{
    record[0] = (uint8_t)((record[0] & 0xC0) | size >> 10);
    record[1] = (uint8_t)(size >> 2);
    record[2] = (uint8_t)((record[2] & 0x3F) | size << 6);
}

uint32_t kind_in(const uint8_t *record, uint32_t page)
{
    return record[HEAD_BYTES + ENTRY_BYTES * page] >> 6;
}

uint32_t block_in(const uint8_t *record, uint32_t page)
{
    const uint8_t *entry = record + HEAD_BYTES + ENTRY_BYTES * page;
    return (uint32_t)(entry[0] & 63) << 8 | entry[1];
}

void put_entry(uint8_t *record, uint32_t page, uint32_t kind, uint32_t block)
{
    uint8_t *entry = record + HEAD_BYTES + ENTRY_BYTES * page;
    entry[0] = (uint8_t)(kind << 6 | block >> 8);
    entry[1] = (uint8_t)block;
}

int bit_of(const uint8_t *tables, uint32_t block)
{
    return tables[BITMAP_AT + block / 8] >> (7 - block % 8) & 1;
}

void put_bit(uint8_t *tables, uint32_t block, int bit)
{
    uint8_t one = (uint8_t)(0x80 >> block % 8), *byte = &tables[BITMAP_AT + block / 8];
    *byte = (uint8_t)(bit ? *byte | one : *byte & ~one);
}

size_t used_blocks(const uint8_t *tables)
{
    size_t used = 0;
    for (uint32_t block = 0; block < SWEEP_BLOCKS_MAX; block++)
        used += (size_t)bit_of(tables, block);
    return used;
}

void narrow(uint8_t *old, const uint8_t *tables)
{
    memmove(old, tables, SETS_AT);
    for (size_t set = 0; set < SWEEP_SETS; set++)
        memmove(old + SETS_AT + OLD_SET_BYTES * set, tables + SETS_AT + SET_BYTES * set, OLD_SET_BYTES);
    memmove(old + OLD_FILES_AT, tables + FILES_AT, SWEEP_TABLES_BYTES - FILES_AT);
}

void load_record(uint8_t *tables, uint8_t *record, uint8_t byte)
{
    static const uint32_t sizes[] = {0, 1, 700, SWEEP_FILE_BYTES_MAX}, blocks[] = {0, 1, 2, 5}, holes[] = {0, 1, 2, 0};
    uint32_t count = ((uint32_t)tables[0] << 5 | tables[1] >> 3) % (SWEEP_BLOCKS_MAX + 1), page = byte % SWEEP_FILE_PAGES;
    uint32_t stored = blocks[byte >> 4 & 3], empty = holes[byte >> 6];
    put_size(record, sizes[byte >> 2 & 3]);
    for (uint32_t block = 0; block < count && stored > 0; block++)
        if (!bit_of(tables, block)) {
            put_bit(tables, block, 1);
            put_entry(record, page++ % SWEEP_FILE_PAGES, STORED, block);
            stored--;
        }
    for (; empty > 0; empty--)
        put_entry(record, page++ % SWEEP_FILE_PAGES, HOLE, 0);
}

sweep_answer call_plainly(const struct call *call)
{
    return functions[call->name].run(call);
}
