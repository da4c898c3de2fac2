/* The calls of the twin: those of include/sweep.h under another prefix. */
#ifndef TWIN_H
#define TWIN_H

#include "../include/sweep.h"

sweep_answer twin_format(uint8_t *tables, size_t tables_length, uint8_t *pages, size_t pages_length);
sweep_answer twin_create(uint8_t *tables, size_t tables_length, uint8_t *pages, size_t pages_length, uint32_t set,
                         uint32_t file);
sweep_answer twin_write(uint8_t *tables, size_t tables_length, uint8_t *pages, size_t pages_length, uint32_t set,
                        uint32_t file, uint32_t offset, const uint8_t *data, size_t data_length);
sweep_answer twin_write_narrow(uint8_t *tables, size_t tables_length, uint8_t *pages, size_t pages_length, uint32_t set,
                               uint32_t file, uint32_t offset, const uint8_t *data, size_t data_length);
sweep_answer twin_read(const uint8_t *tables, size_t tables_length, const uint8_t *pages, size_t pages_length,
                       uint32_t set, uint32_t file, uint32_t offset, uint8_t *buffer, size_t buffer_length);
sweep_answer twin_truncate(uint8_t *tables, size_t tables_length, uint8_t *pages, size_t pages_length, uint32_t set,
                           uint32_t file, uint32_t size);
sweep_answer twin_delete(uint8_t *tables, size_t tables_length, uint8_t *pages, size_t pages_length, uint32_t set,
                         uint32_t file);
sweep_answer twin_make(uint8_t *tables, size_t tables_length, uint8_t *pages, size_t pages_length, uint32_t parent,
                       uint32_t set, uint32_t writeable);
sweep_answer twin_remove(uint8_t *tables, size_t tables_length, uint8_t *pages, size_t pages_length, uint32_t set);
sweep_answer twin_size(const uint8_t *tables, size_t tables_length, const uint8_t *pages, size_t pages_length,
                       uint32_t set, uint32_t file);
sweep_answer twin_free(const uint8_t *tables, size_t tables_length, const uint8_t *pages, size_t pages_length);
sweep_answer twin_check_blocks(const uint8_t *tables, size_t tables_length);
sweep_answer twin_check(const uint8_t *tables, size_t tables_length, const uint8_t *pages, size_t pages_length);
sweep_answer twin_panel_reset(uint8_t *registers, size_t registers_length);
sweep_answer twin_panel_read(const uint8_t *registers, size_t registers_length, uint32_t offset);
sweep_answer twin_panel_write(uint8_t *registers, size_t registers_length, uint8_t *tables, size_t tables_length,
                              uint8_t *pages, size_t pages_length, uint32_t offset, uint8_t value);
sweep_answer twin_panel_line(const uint8_t *registers, size_t registers_length);
sweep_answer twin_set_term(uint8_t *tables, size_t tables_length, uint8_t *pages, size_t pages_length, uint32_t set,
                           uint32_t year, uint32_t month, uint32_t day, uint32_t months);
sweep_answer twin_current(const uint8_t *tables, size_t tables_length, const uint8_t *pages, size_t pages_length,
                          uint32_t set, uint32_t day);
sweep_answer twin_convert(const uint8_t *old, size_t old_length, const uint8_t *pages, size_t pages_length, uint8_t *tables,
                          size_t tables_length);
sweep_answer twin_compact(uint8_t *tables, size_t tables_length, uint8_t *pages, size_t pages_length, uint8_t *spare,
                          size_t spare_length);

#endif
