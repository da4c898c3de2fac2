/* Lists of calls on the exported functions, read off any bytes. */
#ifndef LISTS_H
#define LISTS_H

#include "harness.h"

/* The rest of a list; where nothing is left, zeros come. */
struct cursor {
    const uint8_t *at, *end;
};

/* Reads a list off the bytes and does it after a format, a create and a reset of the registers. */
void run_list(const uint8_t *data, size_t length, caller how);

/* Choose a number of a call: mostly one with which the call can be accepted, sometimes one out of range. A file is one of the
 * set that is the call's first number. */
typedef uint32_t chooses(const struct buffers *world, const struct call *so_far, struct cursor *cursor);
chooses used_set, unused_set, present_file, absent_file, place_in_file, yes_or_no, panel_offset, panel_value;
chooses year_of_date, month_of_date, day_of_date, count_of_months, day_near_term;

/* Give buffers lengths and contents. */
typedef void prepares(struct buffers *world, const struct call *call, struct cursor *cursor);
prepares pages_for_format, data_to_write, buffer_to_read, old_tables, spare_page;

#endif
