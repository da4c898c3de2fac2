/*
 * The sweep store: sets of files in a small block store, copied by sharing blocks (copy on write).
 *
 * The caller lends two buffers to each call on the store (sweep_check_blocks wants the first alone), and the store keeps nothing
 * between calls:
 *   tables  SWEEP_TABLES_BYTES bytes: header, bitmap, set records, file records;
 *   pages   the blocks, SWEEP_PAGE_BYTES bytes each, at least one and at most SWEEP_BLOCKS_MAX.
 * The calls of the front panel are lent a third, its registers, SWEEP_PANEL_REGISTERS bytes; three of the four want it alone.
 * sweep_convert is lent older tables too: SWEEP_OLD_TABLES_BYTES bytes, from before sets had terms, or SWEEP_TABLES_BYTES, from before
 * marking freed blocks. No other call takes the shorter ones, or the longer ones where a marked file still holds something.
 * sweep_compact is lent a spare page too, SWEEP_PAGE_BYTES bytes.
 * sweep_format makes a store of as many blocks as the pages buffer holds; every later call wants the same length.
 *
 * Rules for callers
 *   - A slice is a pointer and its length in bytes; that many bytes must be there. A pointer must not be null, also where
 *     the length is 0.
 *   - The buffers of one call (tables, pages, data or read buffer, registers, older tables, spare page) do not overlap.
 *   - While a call runs nobody else writes to its buffers, and nobody else reads those that it may change (the ones
 *     without const).
 *   - Nothing else is asked: the buffers may hold any bytes and the numbers may be any. Each call tests for itself what it
 *     was given. A call that is refused gives one of the numbers 1 to 16 and zero counts, and every byte stays as it was.
 */
#ifndef SWEEP_H
#define SWEEP_H

#include <stddef.h>
#include <stdint.h>

#ifdef __cplusplus
extern "C" {
#endif

/* Version of the package (CHANGELOG.md says what changed): as text, and as three numbers for #if */
#define SWEEP_VERSION "0.1.0"
#define SWEEP_VERSION_MAJOR 0
#define SWEEP_VERSION_MINOR 1
#define SWEEP_VERSION_PATCH 0

/* Sizes */
#define SWEEP_TABLES_BYTES 17468u   /* the tables */
#define SWEEP_OLD_TABLES_BYTES 17436u /* the tables before sets had terms: the shorter of the two lengths that sweep_convert takes */
#define SWEEP_PAGE_BYTES 512u       /* a page, and a block */
#define SWEEP_BLOCKS_MAX 4096u      /* blocks of a store */
#define SWEEP_PAGES_BYTES_MAX 2097152u /* the pages buffer: SWEEP_BLOCKS_MAX blocks */
#define SWEEP_SETS 8u               /* sets, numbered 0 to 7; 0 is the root */
#define SWEEP_FILES 16u             /* files of a set, numbered 0 to 15 */
#define SWEEP_FILE_PAGES 64u        /* pages of a file */
#define SWEEP_FILE_BYTES_MAX 32768u /* bytes of a file */
#define SWEEP_GROUP_PAGES 8u        /* pages of a group, by which sweep_write copies: 0 to 7, 8 to 15, ... */
#define SWEEP_LEVEL_MAX 5u          /* level of a set: the root has 0, a copy its parent's plus one */
#define SWEEP_PANEL_REGISTERS 16u   /* registers of the front panel, a byte each, at offsets 0 to 15 */

/* Terms: days are numbered from SWEEP_FIRST_YEAR-01-01, day 0, to SWEEP_LAST_YEAR-12-31, day SWEEP_END_DAY - 1 */
#define SWEEP_FIRST_YEAR 1998u      /* years of a date that a term can begin with */
#define SWEEP_LAST_YEAR 2097u
#define SWEEP_END_DAY 36525u        /* the latest end of a term: the day after the last */
#define SWEEP_MOST_MONTHS 120u      /* months of a term that is set, at least 1 */
#define SWEEP_UNIX_DAY_0 10227u     /* day 0 in days from 1970-01-01 */

/* The number that a call gives: the lowest that applies */
enum sweep_number {
    SWEEP_OK = 0,           /* accepted */
    SWEEP_BAD_TABLES = 1,   /* tables not well formed, tables or pages of wrong length; check_blocks: its rules; format: lengths */
    SWEEP_NO_SET = 2,       /* a set number over 7, or a set that must be used is not */
    SWEEP_BAD_FILE = 3,     /* a file number over 15 */
    SWEEP_READ_ONLY = 4,    /* create, write, truncate, delete in a read-only set */
    SWEEP_ABSENT = 5,       /* the file is absent */
    SWEEP_MARKED = 6,       /* read, size, write, truncate of a file marked out of sync */
    SWEEP_TOO_LONG = 7,     /* the write's end or the new size is over SWEEP_FILE_BYTES_MAX */
    SWEEP_FULL = 8,         /* the call needs more own blocks than are free */
    SWEEP_PRESENT = 9,      /* create of a present file; make under a used number */
    SWEEP_TOO_DEEP = 10,    /* make from a set of level SWEEP_LEVEL_MAX */
    SWEEP_HAS_CHILDREN = 11, /* remove of a set with children */
    SWEEP_ROOT = 12,        /* remove of set 0 */
    SWEEP_NO_REGISTER = 13, /* front panel: an offset over 15, or registers of another length; before all others */
    SWEEP_NO_DATE = 14,     /* set_term: there is no such date, or it lies outside 1998-01-01 to 2097-12-31 */
    SWEEP_BAD_MONTHS = 15,  /* set_term: the month count is 0 or over SWEEP_MOST_MONTHS */
    SWEEP_BAD_SPARE = 16    /* compact: the spare page has another length than SWEEP_PAGE_BYTES */
};

/* What every call gives: a number of enum sweep_number, and three counts, all 0 unless the call says otherwise */
typedef struct sweep_answer {
    uint32_t number;
    uint32_t first;
    uint32_t second;
    uint32_t third;
} sweep_answer;

/* Makes set 0 alone, without files, all blocks free, every page zero. What the buffers held does not matter. Set 0's term is the
 * longest there is, 0 to SWEEP_END_DAY. */
sweep_answer sweep_format(uint8_t *tables, size_t tables_length, uint8_t *pages, size_t pages_length);

/* Makes an empty file. */
sweep_answer sweep_create(uint8_t *tables, size_t tables_length, uint8_t *pages, size_t pages_length,
                          uint32_t set, uint32_t file);

/* MARKED FILES: a file is marked, which means out of sync, where a call in its parent set needs a copy of a page for it and no block is
 * free at that copy's turn. Marked with it are the files of its number in the sets below that still read a page through it, and so on
 * down. Each of them gives its blocks back at that moment, those that it got earlier in the same call too, and is left with size 0 and
 * all entries unmapped: what it held is lost. A later copy of the same call may take these blocks. The copy that found none is not tried
 * again. A read, size, write or truncate of a marked file is refused with SWEEP_MARKED. It stays marked until it is deleted or its set
 * removed; its delete frees no block, for it has none. Tables in which a marked file has a size, or an entry that is not unmapped, are
 * not well formed. Stores from before marking freed blocks may have such files: see sweep_convert. */

/* Writes data at offset; a gap before it reads as zeros. Touched are the pages that hold a byte of data. First each child set that
 * still reads a touched page through this set gets that page as it was: a stored one as a copy, a hole as a hole. Where no block is
 * free for a copy, the child's file is marked, and its blocks are free. Then the other pages of each touched group of SWEEP_GROUP_PAGES
 * pages go to the children that still read them through this set, in the same way, but a copy is made only if a block is free: this
 * marks nothing, and later writes of those pages need no copy for these children. SWEEP_FULL does not see such extra copies.
 * With k touched pages and c children of the set: it takes at most k own blocks and makes at most (k + 14) x c copies. Both together are
 * never more than free + freed: the blocks free before the call, and those that its markings freed, a block as often as it was freed.
 * Free afterwards are free + freed less both. With k + k x c blocks free it is not refused with SWEEP_FULL and marks no file.
 * Counts: own blocks taken, copies with the extra ones and with those made for a file that it marked later, files newly marked. */
sweep_answer sweep_write(uint8_t *tables, size_t tables_length, uint8_t *pages, size_t pages_length,
                         uint32_t set, uint32_t file, uint32_t offset, const uint8_t *data, size_t data_length);

/* A narrow write: the same without the extra copies, so that no block is taken that this write does not need. (Only sweep_write goes
 * by groups.) With k touched pages and c children of the set it takes at most k + k x c blocks in all, never more than free + freed as
 * above; with k + k x c free it is not refused with SWEEP_FULL and marks no file.
 * Counts: own blocks taken, copies, files newly marked. */
sweep_answer sweep_write_narrow(uint8_t *tables, size_t tables_length, uint8_t *pages, size_t pages_length,
                                uint32_t set, uint32_t file, uint32_t offset, const uint8_t *data, size_t data_length);

/* Reads from offset as many bytes as the buffer and the file have, into the buffer's front; touches no others.
 * Counts: bytes read, maps looked at, 0. Maps looked at: for each page holding a byte read, one for the file's own map and one
 * for each parent map gone to, ending at the first that has the page, stored or as a hole. So 1 to SWEEP_LEVEL_MAX + 1 for each
 * such page, and 0 where no byte is read. */
sweep_answer sweep_read(const uint8_t *tables, size_t tables_length, const uint8_t *pages, size_t pages_length,
                        uint32_t set, uint32_t file, uint32_t offset, uint8_t *buffer, size_t buffer_length);

/* Cuts the file to size bytes, or fills it up with zeros. Of a page that is cut off whole, a block of the file's own map goes to the
 * first child that needs it, which counts as no copy; other children that need it get copies. So does every child that needs
 * a page which the file reads through its parent, or the page in which the cut ends. Where no block is free for a copy, that child's
 * file is marked, and its blocks are free, those that it took over in this call too. Blocks that no child needs are freed, after all
 * copies are made.
 * Counts: own blocks taken, copies, files newly marked. */
sweep_answer sweep_truncate(uint8_t *tables, size_t tables_length, uint8_t *pages, size_t pages_length,
                            uint32_t set, uint32_t file, uint32_t size);

/* Deletes the file. Each block of its own map goes to the first child that needs it, which counts as no copy; other children that
 * need it get copies, and so does every child that needs a page which the file reads through its parent. Where no block is free for a
 * copy, that child's file is marked, and its blocks are free, those that it took over in this call too. Blocks that no child needs are
 * freed, after all copies are made. A marked file is made absent, and nothing is freed or copied.
 * Counts: 0, copies, files newly marked. */
sweep_answer sweep_delete(uint8_t *tables, size_t tables_length, uint8_t *pages, size_t pages_length,
                          uint32_t set, uint32_t file);

/* Makes set a copy of parent; writeable 0 makes it read-only, any other value writeable. What is marked in parent is marked in the
 * copy. Its term is the longest there is, 0 to SWEEP_END_DAY, whatever its parent's. */
sweep_answer sweep_make(uint8_t *tables, size_t tables_length, uint8_t *pages, size_t pages_length,
                        uint32_t parent, uint32_t set, uint32_t writeable);

/* Removes a set that has no children, and frees its blocks. Its term is gone with it. */
sweep_answer sweep_remove(uint8_t *tables, size_t tables_length, uint8_t *pages, size_t pages_length,
                          uint32_t set);

/* Counts: the file's size, 0, 0. */
sweep_answer sweep_size(const uint8_t *tables, size_t tables_length, const uint8_t *pages, size_t pages_length,
                        uint32_t set, uint32_t file);

/* Counts: the free blocks, 0, 0. */
sweep_answer sweep_free(const uint8_t *tables, size_t tables_length, const uint8_t *pages, size_t pages_length);

/* The first part of the check that every other call on the store but format begins with, a command of the front panel too, on the
 * tables alone. SWEEP_OK: their length is right; the block count is 1 to SWEEP_BLOCKS_MAX and next start below it; no entry of any
 * file record, used or not, has kind 3, or a block unless it is stored; a bit of the bitmap is 1 exactly when one stored entry
 * names its block; no block is named twice, or is at or over the block count. Else SWEEP_BAD_TABLES. Nothing else counts: zero
 * fields, set records, states and sizes may be wrong, so SWEEP_OK does not say that the store can be used. sweep_check says that. */
sweep_answer sweep_check_blocks(const uint8_t *tables, size_t tables_length);

/* The whole check: SWEEP_OK where the tables are well formed and the pages have the length that the tables tell; else
 * SWEEP_BAD_TABLES. What the pages hold does not matter. */
sweep_answer sweep_check(const uint8_t *tables, size_t tables_length, const uint8_t *pages, size_t pages_length);

/* TERMS: every used set has a first day and an end day. It is current from the first day up to, but without, the end day. Days are
 * numbered by the Gregorian calendar: 1998-01-01 is day 0, 2097-12-31 day 36,524. The first day is below the end day, and the end day
 * at most SWEEP_END_DAY; tables that break this are not well formed. A term only says whether a reference is still to be trusted: but
 * for the check of the tables nothing but sweep_current looks at it, so a set that is not current is read and written as before. The store has no clock; the caller
 * knows the day. */

/* Sets the term of a used set, set 0 and read-only ones too. The first day is the date; year, month and day are as people count
 * them, 1 to 12 and 1 to 31. The end day is the same day so many months later, or that month's last day if it has no such day (from
 * January 31, one month: February 28 or 29), and SWEEP_END_DAY where that lies later. Changes no page, and nothing but these two days
 * of the tables.
 * SWEEP_NO_DATE is looked at before SWEEP_BAD_MONTHS. */
sweep_answer sweep_set_term(uint8_t *tables, size_t tables_length, uint8_t *pages, size_t pages_length,
                            uint32_t set, uint32_t year, uint32_t month, uint32_t day, uint32_t months);

/* Is the set current on a day? Counts: 1 where first day <= day < end day, else 0; 0; 0. The day is a number, not a date: the days
 * since 1998-01-01. From a time_t that counts seconds from 1970-01-01 (POSIX) it is seconds / 86400 - SWEEP_UNIX_DAY_0, the day in UTC;
 * for the day of a place add that place's seconds first. Any number is taken; from SWEEP_END_DAY on no set is current. Nor is any
 * before 1998, as the difference then goes round to such a number. */
sweep_answer sweep_current(const uint8_t *tables, size_t tables_length, const uint8_t *pages, size_t pages_length,
                           uint32_t set, uint32_t day);

/* Takes an older store into the present layout and rules. Lend it the older tables, of one of two lengths, the store's pages, and a
 * second buffer for the new tables, SWEEP_TABLES_BYTES, which may hold anything and must not overlap the older ones. The older tables:
 *   SWEEP_OLD_TABLES_BYTES  from before sets had terms: each used set gets the term 0 to SWEEP_END_DAY;
 *   SWEEP_TABLES_BYTES      from before marking freed blocks: each set keeps its term.
 * Where they are well formed by the rules of their time, which let a marked file keep its size and blocks, the pages' length included, the
 * second buffer gets the same store with its marked files cleared: size 0, all entries unmapped, the bits of the blocks that they held 0,
 * so that sweep_free tells more by as many. All else is as it was, next start too; tables that are well formed already come out byte for
 * byte. From then on lend the new tables with the same pages, whose bytes stay; the older tables are not needed any more. Else
 * SWEEP_BAD_TABLES, also for any other length of the two tables, and not a byte of the second buffer is written: so it is safe to try it
 * on any image. Older tables and pages are only read.
 * A firmware that finds an older image, of either length, converts it once, when it starts, and saves the new one. Converting every image
 * at the start does no harm. */
sweep_answer sweep_convert(const uint8_t *old, size_t old_length, const uint8_t *pages, size_t pages_length,
                           uint8_t *tables, size_t tables_length);

/* Pulls the used blocks together. They are renumbered from 0 up, by set number, then file, then page, and their pages move to suit: the
 * first stored page of the lowest set that has one is then in block 0, the next in block 1, and so on. So the stored pages of a file
 * stand one behind the other, and all free blocks behind all used ones. Next start becomes the number of used blocks modulo the block
 * count. (A marked file has no block that could move.) Lend it a spare page of SWEEP_PAGE_BYTES, which may hold anything; pages are
 * exchanged through it.
 * What a caller sees of the store stays: sets, files, states, sizes, contents, terms, the maps that a read looks at, how many blocks
 * are free. What changes is the block numbers in the tables, which a listing shows, the bitmap and next start: so later calls take
 * other blocks. Afterwards the pages of free blocks and the spare page may hold anything.
 * A refusal leaves the spare page too. A second compaction changes no byte of the tables and of the used pages. */
sweep_answer sweep_compact(uint8_t *tables, size_t tables_length, uint8_t *pages, size_t pages_length,
                           uint8_t *spare, size_t spare_length);

/* THE FRONT PANEL: sixteen byte-wide registers, which the caller keeps and lends. Only the four calls below write them from a reset
 * on. The register at each offset, and whether a write changes it: */
enum sweep_panel_register {
    SWEEP_PANEL_COMMAND = 0, /* a value written is run, not kept (enum sweep_panel_command); reads as 0 */
    SWEEP_PANEL_NUMBER = 1,  /* the number that the last command run gave (enum sweep_number); ignores writes */
    SWEEP_PANEL_CAUSE = 2,   /* bits of enum sweep_panel_cause; writing ones clears those bits */
    SWEEP_PANEL_MASK = 3,    /* which bits of the cause raise the line; writable */
    SWEEP_PANEL_SET = 4,     /* the set, of a making the parent; writable */
    SWEEP_PANEL_FILE = 5,    /* the file; writable */
    SWEEP_PANEL_OTHER = 6,   /* the set that is made; writable */
    SWEEP_PANEL_FIRST = 7,   /* the last command's three counts, 255 where one is over 255; ignore writes */
    SWEEP_PANEL_SECOND = 8,
    SWEEP_PANEL_THIRD = 9    /* 10 to 15 are 0 from a reset on and ignore writes */
};

/* What a value written to SWEEP_PANEL_COMMAND runs, and the registers that it takes its numbers from. It ignores the others.
 * Any other value runs nothing and adds SWEEP_PANEL_REFUSED to the cause. */
enum sweep_panel_command {
    SWEEP_PANEL_CREATE = 1,         /* sweep_create: set, file */
    SWEEP_PANEL_DELETE = 4,         /* sweep_delete: set, file */
    SWEEP_PANEL_MAKE_READ_ONLY = 5, /* sweep_make: set, other */
    SWEEP_PANEL_MAKE_WRITEABLE = 6, /* sweep_make: set, other */
    SWEEP_PANEL_REMOVE = 7          /* sweep_remove: set */
};

/* What a command adds to the cause. */
enum sweep_panel_cause {
    SWEEP_PANEL_ACCEPTED = 1, /* it was accepted */
    SWEEP_PANEL_REFUSED = 2,  /* it was refused, or the value was no command */
    SWEEP_PANEL_MARKED = 4    /* its third count is not 0: files were marked out of sync */
};

/* Sets every register to 0, whatever it held. */
sweep_answer sweep_panel_reset(uint8_t *registers, size_t registers_length);

/* Counts: the value of the register, 0, 0. */
sweep_answer sweep_panel_read(const uint8_t *registers, size_t registers_length, uint32_t offset);

/* Writes a register. Only a command looks at tables and pages, and only one that is accepted changes them. Gives SWEEP_OK and zero
 * counts at every offset up to 15, also where the command is refused or the value is none: what a command gave is in the registers
 * 1, 2 and 7 to 9. */
sweep_answer sweep_panel_write(uint8_t *registers, size_t registers_length, uint8_t *tables, size_t tables_length,
                               uint8_t *pages, size_t pages_length, uint32_t offset, uint8_t value);

/* The interrupt line. Counts: 1 where cause and mask share a one, else 0; 0; 0. */
sweep_answer sweep_panel_line(const uint8_t *registers, size_t registers_length);

#ifdef __cplusplus
}
#endif

#endif
