/* A front panel driven by interrupts. The panel processor sees sixteen registers: it sets the mask, writes set, file and other,
 * then a command. Where the line is on, the handler reads cause, number and counts, and clears the cause by writing ones. The
 * sweep itself is stored by a direct call. What it prints is in front_panel.out.
 *     cc -std=c99 -Wall -Wextra -Wpedantic front_panel.c $(pkg-config --cflags --libs sweep) */
#include <stdio.h>
#include <string.h>
#include "sweep.h"

enum { BLOCKS = 2, SWEEP_BYTES = 1024 }; /* one sweep fills the store */
enum { WORK = 0, REFERENCE = 1, EVENING = 2, ANTENNA = 0 }; /* the sets, and the file */
enum { NO_COMMAND = 2 }; /* a write of a session; the panel has none */

static uint8_t tables[SWEEP_TABLES_BYTES], pages[BLOCKS * SWEEP_PAGE_BYTES];
#define STORE tables, sizeof tables, pages, sizeof pages

/* The firmware keeps the registers; from the reset on only the panel's calls write them. */
static uint8_t registers[SWEEP_PANEL_REGISTERS];
#define PANEL registers, sizeof registers

static uint8_t panel_read(uint32_t offset)
{
    return (uint8_t)sweep_panel_read(PANEL, offset).first;
}

static void panel_write(uint32_t offset, uint8_t value)
{
    sweep_panel_write(PANEL, STORE, offset, value);
}

static int line_is_on(void)
{
    return sweep_panel_line(PANEL).first == 1;
}

/* The handler: prints what it sees, and clears the bits of the cause that it has seen. The line falls. */
static void panel_interrupt(void)
{
    uint8_t cause = panel_read(SWEEP_PANEL_CAUSE);
    printf("interrupt, cause %u:", cause);
    if (cause & SWEEP_PANEL_ACCEPTED)
        printf(" accepted");
    if (cause & SWEEP_PANEL_REFUSED)
        printf(" refused");
    if (cause & SWEEP_PANEL_MARKED)
        printf(" marked");
    printf("; number %u, counts %u, %u, %u", panel_read(SWEEP_PANEL_NUMBER), panel_read(SWEEP_PANEL_FIRST),
           panel_read(SWEEP_PANEL_SECOND), panel_read(SWEEP_PANEL_THIRD));
    panel_write(SWEEP_PANEL_CAUSE, cause);
    printf("; cause now %u, line %s\n", panel_read(SWEEP_PANEL_CAUSE), line_is_on() ? "on" : "off");
}

/* Writes a command. The write is accepted also where the command is refused: the registers tell. */
static void command(const char *name, uint8_t value)
{
    panel_write(SWEEP_PANEL_COMMAND, value);
    printf("%s: ", name);
    if (line_is_on())
        panel_interrupt();
    else
        printf("no interrupt, cause %u\n", panel_read(SWEEP_PANEL_CAUSE));
}

static void print_file(uint32_t set)
{
    sweep_answer got = sweep_size(STORE, set, ANTENNA);
    if (got.number == SWEEP_MARKED)
        printf("set %u: the file is out of sync\n", (unsigned)set);
    else
        printf("set %u: number %u, %u bytes\n", (unsigned)set, (unsigned)got.number, (unsigned)got.first);
}

int main(void)
{
    static uint8_t sweep[SWEEP_BYTES];
    memset(sweep, 40, sizeof sweep);
    if (sweep_format(STORE).number != SWEEP_OK || sweep_panel_reset(PANEL).number != SWEEP_OK)
        return 1;
    panel_write(SWEEP_PANEL_MASK, SWEEP_PANEL_ACCEPTED | SWEEP_PANEL_REFUSED | SWEEP_PANEL_MARKED);

    panel_write(SWEEP_PANEL_SET, WORK);
    panel_write(SWEEP_PANEL_FILE, ANTENNA);
    command("create", SWEEP_PANEL_CREATE);
    if (sweep_write(STORE, WORK, ANTENNA, 0, sweep, sizeof sweep).number != SWEEP_OK)
        return 1;
    printf("sweep stored, %u blocks free\n", (unsigned)sweep_free(STORE).first);

    panel_write(SWEEP_PANEL_OTHER, REFERENCE); /* set and file stay: a command changes neither */
    command("make", SWEEP_PANEL_MAKE_READ_ONLY);

    /* from now on only what went wrong interrupts; the cause still collects the rest */
    panel_write(SWEEP_PANEL_MASK, SWEEP_PANEL_REFUSED | SWEEP_PANEL_MARKED);
    panel_write(SWEEP_PANEL_OTHER, EVENING);
    command("make", SWEEP_PANEL_MAKE_READ_ONLY);
    command("create again", SWEEP_PANEL_CREATE);
    command("no command", NO_COMMAND); /* the number is still that of the last command run */

    /* no block is free: the reference takes the sweep's blocks over, the evening's copy gets none and is marked */
    command("delete", SWEEP_PANEL_DELETE);
    print_file(REFERENCE);
    print_file(EVENING);
    return 0;
}
