/* Shows that the harness notices what it is there for: each fault is done after a right call, in a process of its own that has
 * to end badly. What a right store may do is done in the same way, and the process has to end well. The faults of compactions are
 * in compaction_faults.c, those of marking and of marked files in marking_faults.c. Exit status: 0 all noticed that have to be, and nothing else, 1 not. Built without sanitizers, so that
 * they have no part in it. */
#define _DEFAULT_SOURCE
#include <stdio.h>
#include <stdlib.h>
#include <string.h>
#include <sys/wait.h>
#include <unistd.h>
#include "calls.h"
#include "faults.h"
#include "lists.h"
#include "scenes.h"

static volatile uint8_t sink;
void look(const uint8_t *at) { sink = *at; }
void touch(uint8_t *at) { *(volatile uint8_t *)at = *at; }

static int ends_a_page(const uint8_t *at) { return ((uintptr_t)at & 4095) == 0; }

void change_before(struct slice lent)
{
    if (ends_a_page(lent.at + lent.length) && !ends_a_page(lent.at))
        lent.at[-1] ^= 1;
}

void change_past(struct slice lent)
{
    if (ends_a_page(lent.at) && !ends_a_page(lent.at + lent.length))
        lent.at[lent.length] ^= 1;
}

static void look_past_tables(struct done *done) { if (START(TABLES)) look(END(TABLES)); }
static void look_before_tables(struct done *done) { if (START(TABLES)) look(START(TABLES) - 1); }
static void look_past_pages(struct done *done) { if (START(PAGES)) look(END(PAGES)); }
static void look_before_pages(struct done *done) { if (START(PAGES)) look(START(PAGES) - 1); }
static void look_past_bytes(struct done *done) { if (START(BYTES)) look(END(BYTES)); }
static void look_before_bytes(struct done *done) { if (START(BYTES)) look(START(BYTES) - 1); }
static void touch_tables_in_free(struct done *done) { if (IS(FREE)) touch(START(TABLES)); }
static void touch_pages_in_read(struct done *done) { if (IS(READ)) touch(START(PAGES)); }
static void touch_data_in_write(struct done *done) { if (IS(WRITE) || IS(WRITE_NARROW)) touch(START(BYTES)); }
static void count_one_more_copy(struct done *done) { if (IS(WRITE)) done->answer.second++; }
static void count_one_copy_less(struct done *done) { if (IS(WRITE) && done->answer.second > 1) done->answer.second--; }
static void count_a_narrow_copy_more(struct done *done) { if (IS(WRITE_NARROW)) done->answer.second++; }
static void count_no_marks(struct done *done) { done->answer.third = 0; }
static void give_another_number(struct done *done) { if (done->answer.number == SWEEP_FULL) done->answer.number = 0; }
static void look_at_no_map(struct done *done) { if (IS(READ)) done->answer.second = 0; }
static void look_at_one_map_more(struct done *done) { if (IS(READ)) done->answer.second++; }
static void look_at_one_map_less(struct done *done) { if (IS(READ) && done->answer.second > 1) done->answer.second--; }
static void refuse_every_first_part(struct done *done) { if (IS(CHECK_BLOCKS)) done->answer.number = SWEEP_BAD_TABLES; }

static void check_the_first_part_alone(struct done *done)
{
    if (IS(CHECK))
        done->answer = sweep_check_blocks(START(TABLES), LENT(TABLES).length);
}

/* Another call is done (call_made): the write of the other kind, the making of the other kind, the command that the four low
 * bits of a value are. */
static void exchange_writes(struct done *done) { (void)done; }
static void exchange_makings(struct done *done) { (void)done; }
static void cut_the_command(struct done *done) { (void)done; }

static void change_a_bit(struct done *done) { if (IS(TRUNCATE)) START(TABLES)[5] ^= 1; }
static void change_beside_tables(struct done *done) { if (IS(DELETE)) change_before(LENT(TABLES)); }
static void change_beside_pages(struct done *done) { if (IS(DELETE)) change_past(LENT(PAGES)); }
static void change_a_page(struct done *done) { if (IS(DELETE)) START(PAGES)[0] ^= 1; }

static void change_the_buffers_end(struct done *done)
{
    if (IS(READ) && done->answer.first < LENT(BYTES).length)
        END(BYTES)[-1] ^= 1;
}

/* The front panel: its registers before the call, and after it where the call was accepted. */
static uint8_t before[SWEEP_PANEL_REGISTERS];
#define REG(which) START(REGISTERS)[SWEEP_PANEL_##which]
#define TOLD(place) (done->call->n[place])
#define PANEL(which) (IS(which) && done->answer.number == SWEEP_OK)
#define WROTE(offset) (PANEL(PANEL_WRITE) && TOLD(0) == (offset))
#define RAN (WROTE(SWEEP_PANEL_COMMAND) && is_command(TOLD(1)))

static void look_past_registers(struct done *done) { if (START(REGISTERS)) look(END(REGISTERS)); }
static void look_before_registers(struct done *done) { if (START(REGISTERS)) look(START(REGISTERS) - 1); }
static void change_before_registers(struct done *done) { if (IS(PANEL_WRITE)) change_before(LENT(REGISTERS)); }
static void change_past_registers(struct done *done) { if (IS(PANEL_RESET)) change_past(LENT(REGISTERS)); }
static void touch_registers_in_read(struct done *done) { if (PANEL(PANEL_READ)) touch(&REG(COMMAND)); }
static void touch_registers_in_line(struct done *done) { if (PANEL(PANEL_LINE)) touch(&REG(MASK)); }
static void answer_the_commands_number(struct done *done) { if (RAN) done->answer.number = REG(NUMBER); }
static void answer_the_commands_copies(struct done *done) { if (RAN) done->answer.second = REG(SECOND); }
static void show_a_copy_more(struct done *done) { if (RAN && REG(SECOND)) REG(SECOND)++; }
static void show_marks_without_any(struct done *done) { if (RAN && !REG(THIRD)) REG(CAUSE) |= SWEEP_PANEL_MARKED; }
static void show_no_marks(struct done *done) { if (RAN && REG(THIRD)) REG(CAUSE) &= (uint8_t)~SWEEP_PANEL_MARKED; }
static void show_every_command_accepted(struct done *done) { if (RAN) REG(CAUSE) |= SWEEP_PANEL_ACCEPTED; }
static void keep_the_cause(struct done *done) { if (WROTE(SWEEP_PANEL_CAUSE)) REG(CAUSE) = before[SWEEP_PANEL_CAUSE]; }
static void clear_the_whole_cause(struct done *done) { if (WROTE(SWEEP_PANEL_CAUSE)) REG(CAUSE) &= (uint8_t)~TOLD(1); }
static void keep_the_command(struct done *done) { if (WROTE(SWEEP_PANEL_COMMAND)) REG(COMMAND) = (uint8_t)TOLD(1); }
static void read_the_command(struct done *done) { if (PANEL(PANEL_READ) && TOLD(0) == 0) done->answer.first = REG(COMMAND); }
static void write_a_zero_register(struct done *done) { if (WROTE(12)) START(REGISTERS)[12] = (uint8_t)TOLD(1); }
static void write_the_number(struct done *done) { if (WROTE(SWEEP_PANEL_NUMBER)) REG(NUMBER) = (uint8_t)TOLD(1); }
static void change_register_15(struct done *done) { if (RAN) START(REGISTERS)[15] ^= 1; }
static void turn_the_line_over(struct done *done) { if (PANEL(PANEL_LINE)) done->answer.first ^= 1; }

/* The cause has this command's bits alone. */
static void forget_the_cause(struct done *done)
{
    if (RAN)
        REG(CAUSE) = REG(NUMBER) ? SWEEP_PANEL_REFUSED : (uint8_t)(SWEEP_PANEL_ACCEPTED | (REG(THIRD) ? SWEEP_PANEL_MARKED : 0));
}

static void clear_the_number_without_a_command(struct done *done)
{
    if (WROTE(SWEEP_PANEL_COMMAND) && !RAN)
        REG(NUMBER) = 0;
}

static void keep_the_counts_of_the_command_before(struct done *done)
{
    if (RAN && REG(NUMBER))
        memcpy(&REG(FIRST), &before[SWEEP_PANEL_FIRST], 3);
}

static void reset_all_but_the_mask(struct done *done) { if (PANEL(PANEL_RESET)) REG(MASK) = before[SWEEP_PANEL_MASK]; }

static void change_tables_for_a_register(struct done *done)
{
    if (WROTE(SWEEP_PANEL_SET) && LENT(TABLES).length > 5)
        START(TABLES)[5] ^= 1;
}

/* Number 1 before 13. */
static void check_tables_before_registers(struct done *done)
{
    if (IS(PANEL_WRITE) && done->answer.number == SWEEP_NO_REGISTER)
        if (sweep_check(START(TABLES), LENT(TABLES).length, START(PAGES), LENT(PAGES).length).number == SWEEP_BAD_TABLES)
            done->answer.number = SWEEP_BAD_TABLES;
}

/* Terms and the converter */
#define LONG_ENOUGH (LENT(TABLES).length == SWEEP_TABLES_BYTES)
#define HAS_TERM(set) (LONG_ENOUGH && (set) < SWEEP_SETS && set_is_used(START(TABLES), set))

static void look_past_old_tables(struct done *done) { if (IS(CONVERT)) look(END(SECOND)); }
static void look_before_old_tables(struct done *done) { if (IS(CONVERT)) look(START(SECOND) - 1); }
static void touch_old_tables(struct done *done) { if (TOOK(CONVERT)) touch(START(SECOND)); }
static void touch_pages_in_convert(struct done *done) { if (TOOK(CONVERT)) touch(START(PAGES)); }
static void touch_tables_in_current(struct done *done) { if (TOOK(CURRENT)) touch(START(TABLES)); }
static void change_before_new_tables(struct done *done) { if (IS(CONVERT)) change_before(LENT(TABLES)); }
static void change_past_new_tables(struct done *done) { if (IS(CONVERT)) change_past(LENT(TABLES)); }
static void change_a_page_with_the_term(struct done *done) { if (TOOK(SET_TERM)) START(PAGES)[0] ^= 1; }

/* Other calls are done (call_made): with the first of the next month, where the day is the one after the month's last, as in
 * 31 April; with month and day exchanged; with numbers cut to 16 bits; with 12 months, where they are out of range; with a
 * month less. */
static void take_the_day_after_the_last(struct done *done) { (void)done; }
static void exchange_month_and_day(struct done *done) { (void)done; }
static void cut_the_year(struct done *done) { (void)done; }
static void cut_the_day_number(struct done *done) { (void)done; }
static void take_any_months(struct done *done) { (void)done; }
static void count_months_from_one(struct done *done) { (void)done; }

static void look_at_months_before_the_date(struct done *done)
{
    if (IS(SET_TERM) && done->answer.number == SWEEP_NO_DATE && TOLD(4) - 1 >= SWEEP_MOST_MONTHS)
        done->answer.number = SWEEP_BAD_MONTHS;
}

static void look_at_the_date_before_the_set(struct done *done)
{
    if (IS(SET_TERM) && done->answer.number == SWEEP_NO_SET && (TOLD(2) - 1 >= 12 || TOLD(3) - 1 >= 31))
        done->answer.number = SWEEP_NO_DATE;
}

static void refuse_terms_of_read_only_sets(struct done *done)
{
    if (TOOK(SET_TERM) && !(START(TABLES)[SETS_AT + SET_BYTES * TOLD(0)] >> 6 & 1))
        done->answer.number = SWEEP_READ_ONLY;
}

static void set_a_term_though_refused(struct done *done)
{
    if (REFUSED(SET_TERM) && HAS_TERM(TOLD(0)))
        put_term(START(TABLES), TOLD(0), 0, 1);
}

static void set_terms_of_unused_sets(struct done *done)
{
    if (IS(SET_TERM) && done->answer.number == SWEEP_NO_SET && TOLD(0) < SWEEP_SETS)
        done->answer.number = SWEEP_OK;
}

/* The end is not cut, but a day more. */
static void cut_no_end(struct done *done)
{
    if (TOOK(SET_TERM) && end_day(START(TABLES), TOLD(0)) == SWEEP_END_DAY)
        put_term(START(TABLES), TOLD(0), first_day(START(TABLES), TOLD(0)), SWEEP_END_DAY + 1);
}

/* The 28th where the later month has no such day. */
static void end_on_the_28th(struct done *done)
{
    if (!TOOK(SET_TERM) || TOLD(3) <= 28 || end_day(START(TABLES), TOLD(0)) == SWEEP_END_DAY)
        return;
    uint32_t first = first_day(START(TABLES), TOLD(0)), end = end_day(START(TABLES), TOLD(0));
    sweep_set_term(START(TABLES), LENT(TABLES).length, START(PAGES), LENT(PAGES).length, TOLD(0), TOLD(1), TOLD(2), 28, TOLD(4));
    uint32_t on_28th = end_day(START(TABLES), TOLD(0));
    put_term(START(TABLES), TOLD(0), first, end - on_28th == TOLD(3) - 28 ? end : on_28th);
}

static void count_the_end_day(struct done *done)
{
    if (TOOK(CURRENT) && TOLD(1) == end_day(START(TABLES), TOLD(0)))
        done->answer.first = 1;
}

static void leave_out_the_first_day(struct done *done)
{
    if (TOOK(CURRENT) && TOLD(1) == first_day(START(TABLES), TOLD(0)))
        done->answer.first = 0;
}

static void refuse_days_that_are_no_dates(struct done *done)
{
    if (TOOK(CURRENT) && TOLD(1) >= SWEEP_END_DAY)
        done->answer.number = SWEEP_NO_DATE;
}

static void make_with_the_parents_term(struct done *done)
{
    if (TOOK(MAKE))
        put_term(START(TABLES), TOLD(1), first_day(START(TABLES), TOLD(0)), end_day(START(TABLES), TOLD(0)));
}

static void keep_the_term_of_a_removed_set(struct done *done)
{
    if (TOOK(REMOVE))
        put_term(START(TABLES), TOLD(0), first_day(done->tables, TOLD(0)), end_day(done->tables, TOLD(0)));
}

static void format_without_a_term(struct done *done) { if (TOOK(FORMAT)) put_term(START(TABLES), 0, 0, 0); }

/* The check of tables in which some terms are as they should be: what a check says that does not look at these. */
static void check_with(struct done *done, int used)
{
    static uint8_t tables[SWEEP_TABLES_BYTES];
    if (!IS(CHECK) || !LONG_ENOUGH)
        return;
    memcpy(tables, START(TABLES), sizeof tables);
    for (uint32_t set = 0; set < SWEEP_SETS; set++)
        if (set_is_used(tables, set) == used)
            put_term(tables, set, 0, used ? SWEEP_END_DAY : 0);
    done->answer = sweep_check(tables, sizeof tables, START(PAGES), LENT(PAGES).length);
}

static void check_no_terms(struct done *done) { check_with(done, 1); }
static void check_no_terms_of_unused_sets(struct done *done) { check_with(done, 0); }

/* The check and the count of free blocks take tables of before the terms. */
static void take_old_tables(struct done *done)
{
    static uint8_t tables[SWEEP_TABLES_BYTES];
    if (!IS(CHECK) && !IS(FREE))
        return;
    sweep_answer made = sweep_convert(START(TABLES), LENT(TABLES).length, START(PAGES), LENT(PAGES).length, tables, sizeof tables);
    if (made.number == SWEEP_OK)
        done->answer = IS(FREE) ? sweep_free(tables, sizeof tables, START(PAGES), LENT(PAGES).length) : made;
}

/* The converter writes as it goes, and finds what is wrong too late. */
static void convert_before_checking(struct done *done)
{
    if (REFUSED(CONVERT) && LONG_ENOUGH && LENT(SECOND).length == SWEEP_OLD_TABLES_BYTES)
        memcpy(START(TABLES), START(SECOND), SETS_AT);
}

static void convert_with_terms_in_unused_sets(struct done *done)
{
    for (uint32_t set = 0; TOOK(CONVERT) && set < SWEEP_SETS; set++)
        put_term(START(TABLES), set, 0, SWEEP_END_DAY);
}

static void convert_without_terms(struct done *done)
{
    for (uint32_t set = 0; TOOK(CONVERT) && set < SWEEP_SETS; set++)
        put_term(START(TABLES), set, 0, 0);
}

/* The terms that the new buffer held stay. */
static void convert_and_keep_terms(struct done *done)
{
    for (uint32_t set = 0; TOOK(CONVERT) && set < SWEEP_SETS; set++)
        put_term(START(TABLES), set, first_day(done->tables, set), end_day(done->tables, set));
}

/* The pages' length is not looked at. */
static void convert_without_pages(struct done *done)
{
    static uint8_t pages[ROOM_BYTES];
    if (!REFUSED(CONVERT) || !LONG_ENOUGH || LENT(SECOND).length != SWEEP_OLD_TABLES_BYTES)
        return;
    size_t length = ((size_t)START(SECOND)[0] << 5 | START(SECOND)[1] >> 3) * SWEEP_PAGE_BYTES;
    if (length <= ROOM_BYTES)
        done->answer = sweep_convert(START(SECOND), LENT(SECOND).length, pages, length, START(TABLES), LENT(TABLES).length);
}

static const struct fault faults[] = {
    {"nothing", 0, 0}, FAULT(look_past_tables), FAULT(look_before_tables), FAULT(look_past_pages), FAULT(look_before_pages),
    FAULT(look_past_bytes), FAULT(look_before_bytes), FAULT(touch_tables_in_free), FAULT(touch_pages_in_read),
    FAULT(touch_data_in_write), FAULT(count_one_more_copy), FAULT(count_one_copy_less),
    FAULT(count_a_narrow_copy_more), FAULT(exchange_writes), FAULT(count_no_marks), FAULT(give_another_number),
    FAULT(refuse_every_first_part), FAULT(check_the_first_part_alone), FAULT(look_at_no_map), FAULT(look_at_one_map_more),
    FAULT(look_at_one_map_less), FAULT(change_beside_tables),
    FAULT(change_beside_pages), FAULT(change_a_bit), FAULT(change_a_page), FAULT(change_the_buffers_end),
    FAULT(look_past_registers), FAULT(look_before_registers), FAULT(change_before_registers), FAULT(change_past_registers),
    FAULT(touch_registers_in_read), FAULT(touch_registers_in_line), FAULT(answer_the_commands_number),
    FAULT(answer_the_commands_copies), FAULT(show_a_copy_more), FAULT(show_marks_without_any), FAULT(show_no_marks),
    FAULT(show_every_command_accepted), FAULT(keep_the_cause), FAULT(clear_the_whole_cause), FAULT(forget_the_cause),
    FAULT(keep_the_command), FAULT(read_the_command), FAULT(write_a_zero_register), FAULT(write_the_number),
    FAULT(change_register_15), FAULT(turn_the_line_over), FAULT(clear_the_number_without_a_command),
    FAULT(keep_the_counts_of_the_command_before), FAULT(reset_all_but_the_mask), FAULT(change_tables_for_a_register),
    FAULT(check_tables_before_registers), FAULT(exchange_makings), FAULT(cut_the_command),
    FAULT(look_past_old_tables), FAULT(look_before_old_tables), FAULT(touch_old_tables), FAULT(touch_pages_in_convert),
    FAULT(touch_tables_in_current), FAULT(change_before_new_tables), FAULT(change_past_new_tables),
    FAULT(change_a_page_with_the_term), FAULT(take_the_day_after_the_last), FAULT(exchange_month_and_day), FAULT(cut_the_year),
    FAULT(cut_the_day_number), FAULT(take_any_months), FAULT(count_months_from_one), FAULT(look_at_months_before_the_date),
    FAULT(look_at_the_date_before_the_set), FAULT(refuse_terms_of_read_only_sets), FAULT(set_a_term_though_refused),
    FAULT(set_terms_of_unused_sets), FAULT(cut_no_end), FAULT(end_on_the_28th), FAULT(count_the_end_day),
    FAULT(leave_out_the_first_day), FAULT(refuse_days_that_are_no_dates), FAULT(make_with_the_parents_term),
    FAULT(keep_the_term_of_a_removed_set), FAULT(format_without_a_term), FAULT(check_no_terms),
    FAULT(check_no_terms_of_unused_sets), FAULT(take_old_tables), FAULT(convert_before_checking),
    FAULT(convert_with_terms_in_unused_sets), FAULT(convert_without_terms), FAULT(convert_and_keep_terms),
    FAULT(convert_without_pages),
};
enum { FAULTS = sizeof faults / sizeof *faults };
static void (*fault)(struct done *done);

/* The day after a month's last, in a common year. */
static uint32_t day_past(uint32_t month)
{
    return month == 2 ? 29 : month == 4 || month == 6 || month == 9 || month == 11 ? 31 : 32;
}

static void change_a_term_told(uint32_t *n)
{
    uint32_t month = n[2];
    if (fault == take_the_day_after_the_last && month - 1 < 12 && n[3] == day_past(month) && (month != 2 || n[1] % 4 != 0)) {
        n[1] += month == 12;
        n[2] = month % 12 + 1;
        n[3] = 1;
    }
    if (fault == exchange_month_and_day) {
        n[2] = n[3];
        n[3] = month;
    }
    if (fault == cut_the_year)
        n[1] &= 0xFFFF;
    if (fault == take_any_months && n[4] - 1 >= SWEEP_MOST_MONTHS)
        n[4] = 12;
    if (fault == count_months_from_one)
        n[4]--;
}

static struct call call_made(const struct call *call)
{
    struct call made = *call;
    if (call->name == SET_TERM)
        change_a_term_told(made.n);
    if (call->name == CURRENT && fault == cut_the_day_number)
        made.n[1] &= 0xFFFF;
    uint32_t *value = call->name == PANEL_WRITE && call->n[0] == SWEEP_PANEL_COMMAND ? &made.n[1] : 0;
    if (fault == exchange_writes && (call->name == WRITE || call->name == WRITE_NARROW))
        made.name = WRITE + WRITE_NARROW - call->name;
    if (fault == exchange_makings && value && (*value == SWEEP_PANEL_MAKE_READ_ONLY || *value == SWEEP_PANEL_MAKE_WRITEABLE))
        *value = SWEEP_PANEL_MAKE_READ_ONLY + SWEEP_PANEL_MAKE_WRITEABLE - *value;
    if (fault == cut_the_command && value)
        *value &= 15;
    return made;
}

/* What a call was lent, before it. */
static uint8_t tables_before[SWEEP_TABLES_BYTES], pages_before[ROOM_BYTES];

static sweep_answer call_with_fault(const struct call *call)
{
    const struct call made = call_made(call);
    if (call->lent[REGISTERS].length == sizeof before)
        memcpy(before, call->lent[REGISTERS].at, sizeof before);
    if (call->lent[TABLES].length == sizeof tables_before)
        memcpy(tables_before, call->lent[TABLES].at, sizeof tables_before);
    memcpy(pages_before, call->lent[PAGES].at, call->lent[PAGES].length);
    struct done done = {call, call_plainly(&made), tables_before, pages_before};
    if (fault)
        fault(&done);
    return done.answer;
}

static void run_lists(void (*does)(struct done *done))
{
    static struct buffers world;
    uint8_t data[900];
    uint32_t state = 12345;
    fault = does;
    for (int list = 0; list < 400; list++) {
        for (size_t i = 0; i < sizeof data; i++) {
            state = state * 1664525u + 1013904223u;
            data[i] = (uint8_t)(state >> 20);
        }
        run_list(data, sizeof data, call_with_fault);
    }
    for (int i = 0; i < scene_count; i++)
        run_scene(&scenes[i], &world, call_with_fault, (unsigned)i, 0);
}

/* Runs lists with each fault in a process of its own. Gives how many were not told from a right store, or taken for a fault where
 * they are none, or -1. */
static int missed(const struct fault *list, int count)
{
    int missed = 0;
    for (int i = 0; i < count; i++) {
        pid_t child = fork();
        if (child == 0) {
            if (!freopen("/dev/null", "w", stderr))
                _exit(2);
            run_lists(list[i].does);
            _exit(0);
        }
        int status = 0;
        if (child < 0 || waitpid(child, &status, 0) != child)
            return -1;
        int noticed = WIFSIGNALED(status);
        if (noticed != list[i].noticed) {
            printf("selftest: %s was %s\n", list[i].name, noticed ? "taken for a fault" : "not noticed");
            missed++;
        }
    }
    return missed;
}

static int to_notice(const struct fault *list, int count)
{
    int all = 0;
    for (int i = 0; i < count; i++)
        all += list[i].noticed;
    return all;
}

int main(void)
{
    const struct {
        const struct fault *list;
        int count;
    } lists[] = {{faults, FAULTS}, {compaction_faults, compaction_fault_count}, {marking_faults, marking_fault_count}};
    int all = 0, noticed = 0, wrong = 0;
    for (int i = 0; i < 3; i++) {
        int more = missed(lists[i].list, lists[i].count);
        if (more < 0)
            return 2;
        wrong += more;
        all += lists[i].count;
        noticed += to_notice(lists[i].list, lists[i].count);
    }
    printf("selftest: %d faults and %d that are none, %d of all told wrongly\n", noticed, all - noticed, wrong);
    return wrong != 0;
}
