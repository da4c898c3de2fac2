/* The two parts of the check, rule by rule: stores in which one rule is broken, and no other where that can be; the judge makes
 * them. A rule of the first part: both checks refuse. A rule of the second part: sweep_check_blocks accepts, sweep_check
 * refuses. Either way every other call on the store but a format refuses with 1, a compaction whatever the length of its spare
 * page, and so does a command of the front panel, in its register. Then the converter gets the same tables, as they are and without
 * their terms: it refuses them, unless the rule is the one on marked files, which is none of their time, or, without their terms, only
 * terms broke it. All calls are compared with the judge too.
 * Exit status: 0 all well, 1 not. */
#include <stdbool.h>
#include <stdio.h>
#include <string.h>
#include "calls.h"

enum { STORES_OF_EACH_RULE = 40 };

/* What is known of a store in which a rule is broken. */
struct broken {
    char name[64];       /* of the rule */
    uint32_t first_part; /* whether the rule is one of the first part */
    uint32_t alone;      /* whether no other rule is broken */
    size_t tables_length, pages_length;
};

/* Makes such a store in the two buffers, tables and pages: the seed chooses it. False where there is no such rule; they are
 * numbered from 0 on (judge/). */
extern bool break_rule(uint32_t rule, uint64_t seed, const struct slice *buffers, struct broken *made);

static int wrong;

static struct buffers now; /* what a call leaves of a store */

static uint32_t number_of(const struct buffers *world, const struct call *call, unsigned turn)
{
    copy_buffers(&now, world);
    return do_call(&exported, call_plainly, &now, call, turn).number;
}

static void expect(const struct buffers *world, const char *rule, unsigned name, uint32_t number, unsigned turn)
{
    const struct call call = {name, {0}, {{0, 0}}};
    uint32_t given = number_of(world, &call, turn);
    if (given == number)
        return;
    printf("parts: %s is broken: %s gave %u, not %u\n", rule, exported.functions[name].name, given, number);
    wrong = 1;
}

/* The write of a command is accepted; the registers, which were all 0, tell the command's number and the cause. */
static void expect_of_command(const struct buffers *world, const char *rule, uint32_t command, uint32_t number, unsigned turn)
{
    const struct call call = {PANEL_WRITE, {SWEEP_PANEL_COMMAND, command}, {{0, 0}}};
    uint32_t given = number_of(world, &call, turn);
    unsigned told = now.of[REGISTERS][SWEEP_PANEL_NUMBER], cause = now.of[REGISTERS][SWEEP_PANEL_CAUSE];
    if (given == SWEEP_OK && told == number && cause == SWEEP_PANEL_REFUSED)
        return;
    printf("parts: %s is broken: panel command %u gave %u, number %u, not %u, cause %u, not %u\n", rule, command, given, told,
           number, cause, (unsigned)SWEEP_PANEL_REFUSED);
    wrong = 1;
}

/* The rules on terms, which tables of before them cannot break. That an unused set is all zero holds of its term too. */
static int is_about_terms(const struct buffers *world, const char *rule)
{
    if (!strcmp(rule, "first-day-not-below-end") || !strcmp(rule, "end-day-over"))
        return 1;
    int others = strcmp(rule, "unused-set-not-zero") != 0;
    for (uint32_t set = 0; set < SWEEP_SETS; set++)
        for (int i = 0; !set_is_used(world->of[TABLES], set) && i < TERM_AT; i++)
            others |= world->of[TABLES][SETS_AT + SET_BYTES * set + (uint32_t)i];
    return !others;
}

/* The rule of document 02, Ask 10, which older tables need not meet. */
static int is_about_marked_files(const char *rule)
{
    return !strcmp(rule, "marked-size") || !strcmp(rule, "marked-mapped");
}

/* The store converted into its own tables: of before the terms, or as it is; the older ones are short where the tables' length is wrong. */
static void expect_of_conversion(struct buffers *world, const struct broken *made, int before_terms, unsigned turn)
{
    const struct call call = {CONVERT, {0}, {{0, 0}}};
    int right = made->tables_length == SWEEP_TABLES_BYTES;
    int taken = is_about_marked_files(made->name) || (before_terms && is_about_terms(world, made->name));
    uint32_t number = right && taken ? SWEEP_OK : SWEEP_BAD_TABLES;
    if (before_terms)
        narrow(world->of[SECOND], world->of[TABLES]);
    else
        memcpy(world->of[SECOND], world->of[TABLES], SWEEP_TABLES_BYTES);
    world->length[SECOND] = (before_terms ? SWEEP_OLD_TABLES_BYTES : SWEEP_TABLES_BYTES) - (size_t)!right;
    world->length[TABLES] = SWEEP_TABLES_BYTES;
    uint32_t given = number_of(world, &call, turn);
    world->length[SECOND] = 0;
    if (given == number)
        return;
    printf("parts: %s is broken: convert%s gave %u, not %u\n", made->name, before_terms ? " of before the terms" : "", given, number);
    wrong = 1;
}

static void try_store(struct buffers *world, const struct broken *made, unsigned turn)
{
    expect(world, made->name, CHECK_BLOCKS, made->first_part ? SWEEP_BAD_TABLES : SWEEP_OK, turn);
    for (unsigned name = 0; name < CALLS; name++)
        if (name != FORMAT && !exported.functions[name].unchecked)
            expect(world, made->name, name, SWEEP_BAD_TABLES, turn);
    for (uint32_t value = 0; value <= 8; value++) {
        uint32_t number = is_command(value) ? SWEEP_BAD_TABLES : SWEEP_OK;
        expect_of_command(world, made->name, value, number, turn);
    }
    expect_of_conversion(world, made, 1, turn);
    expect_of_conversion(world, made, 0, turn);
}

int main(void)
{
    static struct buffers world;
    const struct slice buffers[] = {{world.of[TABLES], ROOM_BYTES}, {world.of[PAGES], ROOM_BYTES}};
    static struct broken made;
    unsigned first[2] = {0, 0}, second[2] = {0, 0}; /* rules broken with others in some store, and those always broken alone */
    world.length[REGISTERS] = SWEEP_PANEL_REGISTERS;
    for (uint32_t rule = 0; break_rule(rule, 0, buffers, &made); rule++) {
        int alone = 1;
        for (unsigned seed = 0; seed < STORES_OF_EACH_RULE; seed++) {
            break_rule(rule, seed, buffers, &made);
            world.length[TABLES] = made.tables_length;
            world.length[PAGES] = made.pages_length;
            world.length[SPARE] = seed % 2 ? SWEEP_PAGE_BYTES : seed;
            alone = alone && made.alone;
            try_store(&world, &made, seed);
        }
        (made.first_part ? first : second)[alone]++;
    }
    printf("parts: rules broken in %d stores each: of the first part %u alone, %u with others; of the second %u and %u\n",
           STORES_OF_EACH_RULE, first[1], first[0], second[1], second[0]);
    /* not broken alone: block-count, whose pages do not fit into a buffer, and set-0-not-used and set-0-state, which break another rule:
     * a virgin or marked file of set 0 has unmapped entries, or else other entries than it may have */
    return wrong || first[1] == 0 || second[1] == 0 || first[0] > 1 || second[0] > 2;
}
