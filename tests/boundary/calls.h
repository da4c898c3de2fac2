/* The exported functions, each a row for the harness. */
#ifndef CALLS_H
#define CALLS_H

#include "harness.h"

/* The places of their rows; the judge has the same (oracle/src/names.rs). */
enum { FORMAT, CREATE, WRITE, READ, TRUNCATE, DELETE, MAKE, REMOVE, SIZE, FREE, CHECK_BLOCKS, CHECK, WRITE_NARROW,
       PANEL_RESET, PANEL_READ, PANEL_WRITE, PANEL_LINE, SET_TERM, CURRENT, CONVERT, COMPACT, CALLS };

/* Places in the tables: the bitmap from BITMAP_AT on; set records from SETS_AT on, each with its term, first day and end day, TERM_AT bytes behind its start; then
 * file records. Before the terms set records ended there. */
enum { BITMAP_AT = 4, SETS_AT = 516, SET_BYTES = 7, TERM_AT = 3, FILES_AT = 572, FILE_BYTES = 132 };
enum { OLD_SET_BYTES = TERM_AT, OLD_FILES_AT = 540 };

/* A file record: its head, which begins with the state in two bits and the size in 16, then its entries, each a kind in two bits and a block. */
enum { RECORDS = SWEEP_SETS * SWEEP_FILES, HEAD_BYTES = 4, ENTRY_BYTES = 2 };
enum { ABSENT, OWN, VIRGIN, MARKED };
enum { UNMAPPED, HOLE, STORED };

/* The exported functions with the second implementation (judge/). */
extern struct suite exported;

/* Whether a value written to the command register of the front panel is a command. */
int is_command(uint32_t value);

/* What the tables say, whatever they hold: whether a set, from 0 to 7, is used, and the days of its term. */
int set_is_used(const uint8_t *tables, uint32_t set);
uint32_t first_day(const uint8_t *tables, uint32_t set);
uint32_t end_day(const uint8_t *tables, uint32_t set);
void put_term(uint8_t *tables, uint32_t set, uint32_t first, uint32_t end);

/* The ones of the bitmap: the used blocks, where the tables are well formed. */
size_t used_blocks(const uint8_t *tables);

/* Of tables of either length, the present one or that of before the terms: where a file record begins, which is the first byte of its head
 * (places 0 to 127: 16 x set + file; they stand last); its state; its size, which is put beside its state. */
size_t record_at(size_t tables_length, uint32_t place);
uint32_t state_in(const uint8_t *record);
void put_size(uint8_t *record, uint32_t size);

/* An entry of a record, and a bit of the bitmap. */
uint32_t kind_in(const uint8_t *record, uint32_t page);
uint32_t block_in(const uint8_t *record, uint32_t page);
void put_entry(uint8_t *record, uint32_t page, uint32_t kind, uint32_t block);
int bit_of(const uint8_t *tables, uint32_t block);
void put_bit(uint8_t *tables, uint32_t block, int bit);

/* The tables as they were before the terms: what a store in the field has. The two may begin at the same byte. */
void narrow(uint8_t *old, const uint8_t *tables);

/* Gives a marked file what it could keep before marking freed blocks, as the byte says: a size, holes, blocks that are free. Tables of either length. */
void load_record(uint8_t *tables, uint8_t *record, uint8_t byte);

/* Does a call on the exported functions. */
sweep_answer call_plainly(const struct call *call);

#endif
