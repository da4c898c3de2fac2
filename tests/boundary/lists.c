/* Lists of calls on the exported functions, read off any bytes. */
#include <string.h>
#include "calls.h"
#include "lists.h"

static uint8_t next(struct cursor *cursor)
{
    return cursor->at < cursor->end ? *cursor->at++ : 0;
}

static uint32_t pick(const uint32_t *list, size_t size, uint8_t byte)
{
    return list[byte % size];
}
#define PICK(list, byte) pick(list, sizeof list / sizeof *list, byte)

static const uint32_t numbers_out_of_range[] = {7, 8, 15, 16, 255, 0x7FFFFFFF, 0x80000000, 0xFFFFFFFF};

/* What the tables say, whatever they hold: whether a set is used, and whether a file is present. */
static int is_used(const struct buffers *world, uint32_t set)
{
    return set < SWEEP_SETS && set_is_used(world->of[TABLES], set);
}

static int is_present(const struct buffers *world, uint32_t set, uint32_t file)
{
    return set < SWEEP_SETS && state_in(world->of[TABLES] + record_at(SWEEP_TABLES_BYTES, SWEEP_FILES * set + file)) != ABSENT;
}

/* Numbers */

/* Mostly a set that is used, or one that is not, as asked; sometimes any, sometimes a number out of range. */
static uint32_t some_set(const struct buffers *world, struct cursor *cursor, int used)
{
    uint8_t byte = next(cursor);
    for (uint32_t step = 0; byte < 240 && step < SWEEP_SETS; step++)
        if (is_used(world, (byte + step) % SWEEP_SETS) == used)
            return (byte + step) % SWEEP_SETS;
    return byte < 248 ? byte % SWEEP_SETS : PICK(numbers_out_of_range, byte);
}

/* Mostly a file of the set that is present, or one of three that is not, as asked. */
static uint32_t some_file(const struct buffers *world, struct cursor *cursor, uint32_t set, int present)
{
    uint8_t byte = next(cursor);
    uint32_t few = present ? SWEEP_FILES : 3;
    for (uint32_t step = 0; byte < 240 && step < few; step++)
        if (!!is_present(world, set, (byte + step) % few) == present)
            return (byte + step) % few;
    return byte < 248 ? byte % SWEEP_FILES : PICK(numbers_out_of_range, byte);
}

uint32_t used_set(const struct buffers *world, const struct call *so_far, struct cursor *cursor)
{
    (void)so_far;
    return some_set(world, cursor, 1);
}

uint32_t unused_set(const struct buffers *world, const struct call *so_far, struct cursor *cursor)
{
    (void)so_far;
    return some_set(world, cursor, 0);
}

uint32_t present_file(const struct buffers *world, const struct call *so_far, struct cursor *cursor)
{
    return some_file(world, cursor, so_far->n[0], 1);
}

uint32_t absent_file(const struct buffers *world, const struct call *so_far, struct cursor *cursor)
{
    return some_file(world, cursor, so_far->n[0], 0);
}

/* Mostly near the edge of one of the first pages. */
uint32_t place_in_file(const struct buffers *world, const struct call *so_far, struct cursor *cursor)
{
    static const uint32_t out_of_range[] = {32767, 32768, 32769, 65535, 65536, 0x7FFFFFFF, 0xFFFFFE00, 0xFFFFFFFF};
    static const uint32_t within[] = {0, 0, 0, 1, 100, 511, 256, 300};
    (void)world;
    (void)so_far;
    uint8_t byte = next(cursor);
    if (byte >= 248)
        return PICK(out_of_range, byte);
    uint32_t page = byte < 200 ? byte % 10 : byte % SWEEP_FILE_PAGES;
    return page * SWEEP_PAGE_BYTES + PICK(within, next(cursor));
}

uint32_t yes_or_no(const struct buffers *world, const struct call *so_far, struct cursor *cursor)
{
    (void)world;
    (void)so_far;
    return next(cursor) % 3 * 0x7FFFFFFFu;
}

/* Mostly a register that a write can change; sometimes any, sometimes one that is not there. */
uint32_t panel_offset(const struct buffers *world, const struct call *so_far, struct cursor *cursor)
{
    static const uint32_t out_of_range[] = {16, 17, 255, 256, 0x80000000, 0xFFFFFFFF};
    static const uint32_t often[] = {0, 2, 3, 4, 5, 6};
    (void)world;
    (void)so_far;
    uint8_t byte = next(cursor);
    if (byte >= 248)
        return PICK(out_of_range, byte);
    return byte < 144 ? PICK(often, byte) : byte % SWEEP_PANEL_REGISTERS;
}

/* The commands, makings more often. */
static const uint32_t commands[] = {SWEEP_PANEL_CREATE,         SWEEP_PANEL_DELETE,         SWEEP_PANEL_MAKE_READ_ONLY,
                                    SWEEP_PANEL_MAKE_WRITEABLE, SWEEP_PANEL_MAKE_WRITEABLE, SWEEP_PANEL_REMOVE};

/* Mostly a value that the register is for; the command's offset also gets values that are no command. Sometimes any byte. */
uint32_t panel_value(const struct buffers *world, const struct call *so_far, struct cursor *cursor)
{
    static const uint32_t no_commands[] = {0, 2, 3, 8, 0x11, 0x41, 255};
    static const uint32_t bits[] = {0, 1, 2, 3, 4, 5, 6, 7, 0xF8, 0xFF};
    uint8_t byte = next(cursor);
    if (byte >= 224)
        return next(cursor);
    switch (so_far->n[0]) {
    case SWEEP_PANEL_COMMAND:
        return byte < 176 ? PICK(commands, byte) : PICK(no_commands, byte);
    case SWEEP_PANEL_CAUSE:
    case SWEEP_PANEL_MASK:
        return PICK(bits, byte);
    case SWEEP_PANEL_SET:
        return some_set(world, cursor, 1);
    case SWEEP_PANEL_FILE:
        return byte % 3;
    case SWEEP_PANEL_OTHER:
        return some_set(world, cursor, 0);
    default:
        return byte;
    }
}

/* The numbers of a date: mostly one of these years, and often near the end of a month, so that some do not exist. */
uint32_t year_of_date(const struct buffers *world, const struct call *so_far, struct cursor *cursor)
{
    static const uint32_t out_of_range[] = {1997, 2098, 0, 98, 65536 + 1998, 0x80000000 + 2000, 0xFFFFFFFF};
    static const uint32_t edges[] = {1998, 1999, 2000, 2001, 2096, 2097};
    (void)world;
    (void)so_far;
    uint8_t byte = next(cursor);
    if (byte >= 240)
        return PICK(out_of_range, byte);
    return byte < 96 ? PICK(edges, byte) : SWEEP_FIRST_YEAR + (uint32_t)next(cursor) % 100;
}

uint32_t month_of_date(const struct buffers *world, const struct call *so_far, struct cursor *cursor)
{
    static const uint32_t out_of_range[] = {0, 13, 256 + 1, 65536 + 2, 0xFFFFFFFF};
    (void)world;
    (void)so_far;
    uint8_t byte = next(cursor);
    if (byte >= 240)
        return PICK(out_of_range, byte);
    return byte < 64 ? 2 : 1 + byte % 12u;
}

uint32_t day_of_date(const struct buffers *world, const struct call *so_far, struct cursor *cursor)
{
    static const uint32_t out_of_range[] = {0, 32, 256 + 1, 65536 + 2, 0xFFFFFFFF};
    static const uint32_t edges[] = {1, 28, 29, 30, 31};
    (void)world;
    (void)so_far;
    uint8_t byte = next(cursor);
    if (byte >= 240)
        return PICK(out_of_range, byte);
    return byte < 160 ? PICK(edges, byte) : 1 + byte % 31u;
}

uint32_t count_of_months(const struct buffers *world, const struct call *so_far, struct cursor *cursor)
{
    static const uint32_t out_of_range[] = {0, 121, 255, 256 + 12, 65536 + 1, 0x80000000, 0xFFFFFFFF};
    static const uint32_t edges[] = {1, 2, 11, 12, 13, 119, 120};
    (void)world;
    (void)so_far;
    uint8_t byte = next(cursor);
    if (byte >= 224)
        return PICK(out_of_range, byte);
    return byte < 128 ? PICK(edges, byte) : 1 + (byte - 128u) % SWEEP_MOST_MONTHS;
}

/* Mostly at the edges of the set's term; sometimes one on which no set is current. */
uint32_t day_near_term(const struct buffers *world, const struct call *so_far, struct cursor *cursor)
{
    static const uint32_t others[] = {0, 1, 36524, 36525, 36526, 65535, 65536, 0x80000000, 0xFFFFFFFF};
    uint32_t set = so_far->n[0] % SWEEP_SETS, first = first_day(world->of[TABLES], set), end = end_day(world->of[TABLES], set);
    const uint32_t edges[] = {first - 1, first, first + 1, end - 1, end, end + 1, first + 65536, (first + end) / 2};
    uint8_t byte = next(cursor);
    return byte < 192 ? PICK(edges, byte) : PICK(others, byte);
}

/* Buffers */

static size_t some_length(struct cursor *cursor)
{
    static const uint32_t lengths[] = {0,    1,    2,    100,  511,  512,  513,   1024,  1025,  1500, 2048,
                                       2560, 3072, 4095, 4096, 8192, 16384, 32767, 32768, 32769, 40000};
    uint8_t byte = next(cursor);
    return byte < 128 ? PICK(lengths, byte % 13) : PICK(lengths, byte);
}

static void fill(uint8_t *bytes, size_t length, uint8_t from)
{
    for (size_t i = 0; i < length; i++)
        bytes[i] = from ? (uint8_t)(from + i * 31 + i / 512) : 0;
}

void data_to_write(struct buffers *world, const struct call *call, struct cursor *cursor)
{
    (void)call;
    world->length[BYTES] = some_length(cursor);
    fill(world->of[BYTES], world->length[BYTES], next(cursor));
}

void buffer_to_read(struct buffers *world, const struct call *call, struct cursor *cursor)
{
    (void)call;
    world->length[BYTES] = some_length(cursor);
    fill(world->of[BYTES], world->length[BYTES], 0xB7);
}

/* Gives the store the pages of a format that comes; mostly few blocks, so that it is soon full. */
static void choose_pages(struct buffers *world, struct cursor *cursor)
{
    static const uint32_t blocks[] = {1, 2, 3, 4, 5, 6, 8, 10, 12, 16, 20, 24, 32, 48, 64, 80};
    world->length[PAGES] = PICK(blocks, next(cursor)) * SWEEP_PAGE_BYTES;
    memset(world->of[PAGES], 0xA5, ROOM_BYTES);
}

/* The same, sometimes with a length that no store has. */
void pages_for_format(struct buffers *world, const struct call *call, struct cursor *cursor)
{
    static const uint32_t out_of_range[] = {0, 1, 511, 513, 1000, 40959};
    (void)call;
    choose_pages(world, cursor);
    uint8_t byte = next(cursor);
    if (byte >= 192)
        world->length[PAGES] = PICK(out_of_range, byte);
}

/* Changes from outside */

/* Turns one bit of tables over: mostly of header, bitmap, sets and the files that are used most. */
static void damage(uint8_t *tables, size_t length, struct cursor *cursor)
{
    size_t at = (size_t)next(cursor) << 8;
    at |= next(cursor);
    tables[at < 0x8000 ? at % 1000 : at % length] ^= (uint8_t)(1 << next(cursor) % 8);
}

static void damage_tables(struct buffers *world, struct cursor *cursor)
{
    damage(world->of[TABLES], SWEEP_TABLES_BYTES, cursor);
}

/* Puts days into a set record, used or not: a term that is well formed, or one that is not. */
static void change_a_term(struct buffers *world, struct cursor *cursor)
{
    static const uint32_t days[][2] = {{0, 1}, {0, 36525}, {36524, 36525}, {100, 465}, {0, 0}, {7, 7}, {8, 7}, {36525, 36525},
                                       {0, 36526}, {36525, 36526}, {0, 65535}, {65535, 0}};
    uint32_t set = next(cursor) % SWEEP_SETS;
    const uint32_t *term = days[next(cursor) % (sizeof days / sizeof *days)];
    put_term(world->of[TABLES], set, term[0], term[1]);
}

/* Puts the tables of before the terms in the place of the tables, with their length: no call but the converter takes them. */
static void give_old_tables(struct buffers *world, struct cursor *cursor)
{
    (void)cursor;
    narrow(world->of[TABLES], world->of[TABLES]);
    world->length[TABLES] = SWEEP_OLD_TABLES_BYTES;
}

/* Gives marked files what they could keep before marking freed blocks, one byte of the list for each. */
static void load_marked(uint8_t *tables, size_t length, struct cursor *cursor)
{
    for (uint32_t place = 0; place < RECORDS; place++)
        if (state_in(tables + record_at(length, place)) == MARKED)
            load_record(tables, tables + record_at(length, place), next(cursor));
}

/* Such tables in the place of the tables: no call but the converter takes them, unless the bytes were 0. */
static void load_tables(struct buffers *world, struct cursor *cursor)
{
    size_t length = world->length[TABLES] == SWEEP_OLD_TABLES_BYTES ? SWEEP_OLD_TABLES_BYTES : SWEEP_TABLES_BYTES;
    load_marked(world->of[TABLES], length, cursor);
}

static void change_a_page(struct buffers *world, struct cursor *cursor)
{
    size_t at = (size_t)next(cursor) << 8;
    at |= next(cursor);
    world->of[PAGES][at % ROOM_BYTES] = next(cursor);
}

/* Gives tables or pages a length that is not theirs. */
static void choose_lengths(struct buffers *world, struct cursor *cursor)
{
    enum { ALL = SWEEP_TABLES_BYTES };
    static const uint32_t tables[] = {0, 1, SWEEP_OLD_TABLES_BYTES, SETS_AT, ALL - 1, ALL, ALL + 1, 32768};
    size_t *length = &world->length[PAGES];
    uint8_t byte = next(cursor);
    size_t step = byte & 4 && (byte & 2 || *length >= SWEEP_PAGE_BYTES) ? SWEEP_PAGE_BYTES : 1;
    if (byte & 1)
        world->length[TABLES] = PICK(tables, byte >> 1);
    else if (byte & 2)
        *length += step;
    else if (*length)
        *length -= step;
    if (*length > ROOM_BYTES)
        *length = ROOM_BYTES;
}

/* Puts bytes into one register or into all, also such as no reset and no write leaves there. */
static void change_registers(struct buffers *world, struct cursor *cursor)
{
    uint8_t byte = next(cursor);
    if (byte < 128)
        world->of[REGISTERS][byte % SWEEP_PANEL_REGISTERS] = next(cursor);
    else
        fill(world->of[REGISTERS], SWEEP_PANEL_REGISTERS, byte);
}

/* Gives the registers a length that is not theirs. */
static void choose_registers(struct buffers *world, struct cursor *cursor)
{
    static const uint32_t lengths[] = {0, 1, 15, 17, 32};
    world->length[REGISTERS] = PICK(lengths, next(cursor));
}

/* For the converter: the store's tables, as they are or as they were before the terms, mostly with marked files that hold something. Tables
 * that are old already stay so. */
static void older_tables(struct buffers *world, uint8_t byte, struct cursor *cursor)
{
    enum { OLD = SWEEP_OLD_TABLES_BYTES, NEW = SWEEP_TABLES_BYTES };
    size_t length = world->length[TABLES] == OLD || byte % 2 ? OLD : NEW;
    if (world->length[TABLES] != OLD && length == OLD)
        narrow(world->of[SECOND], world->of[TABLES]);
    else
        memcpy(world->of[SECOND], world->of[TABLES], length);
    world->length[SECOND] = length;
    if (byte / 2 % 4)
        load_marked(world->of[SECOND], length, cursor);
}

/* Sometimes the new buffer holds other bytes, and sometimes something is wrong: a bit of the older tables, the length of the older
 * ones, the new ones or the pages. */
void old_tables(struct buffers *world, const struct call *call, struct cursor *cursor)
{
    enum { OLD = SWEEP_OLD_TABLES_BYTES, NEW = SWEEP_TABLES_BYTES };
    static const uint32_t old_lengths[] = {NEW, OLD, 0, SETS_AT, OLD - 1, OLD + 1, NEW - 1, NEW + 1, 32768};
    static const uint32_t new_lengths[] = {OLD, 0, 1, FILES_AT, NEW - 1, NEW + 1, OLD, 32768};
    (void)call;
    uint8_t byte = next(cursor);
    older_tables(world, byte, cursor);
    world->length[TABLES] = NEW;
    if (byte >= 88 && byte < 136)
        fill(world->of[TABLES], NEW, byte);
    if (byte >= 120 && byte < 168)
        damage(world->of[SECOND], world->length[SECOND], cursor);
    if (byte >= 168 && byte < 196)
        world->length[SECOND] = PICK(old_lengths, byte);
    if (byte >= 196 && byte < 224)
        world->length[TABLES] = PICK(new_lengths, byte);
    if (byte >= 224)
        choose_lengths(world, cursor);
}

/* For a compaction: any bytes, mostly as many as a page has. */
void spare_page(struct buffers *world, const struct call *call, struct cursor *cursor)
{
    static const uint32_t lengths[] = {0, 511, 513, 1024, 1};
    (void)call;
    uint8_t byte = next(cursor);
    world->length[SPARE] = byte < 216 ? SWEEP_PAGE_BYTES : PICK(lengths, byte);
    fill(world->of[SPARE], world->length[SPARE], byte);
}

typedef void changes(struct buffers *world, struct cursor *cursor);

/* Lists */

/* What a byte of a list asks for: a change from outside, or a call. Each has so many of the values of a byte; those behind the
 * last are those from 128 less on. New rows stand at the end: in corpus.txt only the values that a new row takes change their
 * meaning. */
struct kind {
    unsigned slots;
    unsigned name;   /* of a call, or COMMAND */
    changes *change; /* or 0 */
};
enum { COMMAND = CALLS }; /* a command of the front panel, with the registers that it takes */
static const struct kind kinds[] = {
    {36, WRITE_NARROW, 0}, {12, CREATE, 0}, {16, MAKE, 0},         {8, DELETE, 0},         {16, TRUNCATE, 0},
    {8, REMOVE, 0}, {12, READ, 0},         {4, SIZE, 0},          {4, FREE, 0},           {5, 0, damage_tables},
    {4, 0, change_a_page}, {2, 0, choose_lengths}, {1, FORMAT, 0},        {4, CHECK_BLOCKS, 0},   {4, CHECK, 0},
    {36, WRITE, 0}, {10, PANEL_WRITE, 0}, {4, PANEL_READ, 0}, {3, PANEL_LINE, 0}, {1, PANEL_RESET, 0},
    {16, COMMAND, 0}, {2, 0, change_registers}, {1, 0, choose_registers}, {14, SET_TERM, 0}, {8, CURRENT, 0}, {8, CONVERT, 0},
    {3, 0, change_a_term}, {2, 0, give_old_tables}, {8, COMPACT, 0}, {4, 0, load_tables},
};
enum { KINDS = sizeof kinds / sizeof *kinds };

static const struct kind *some_kind(struct cursor *cursor)
{
    unsigned all = 0, kind = 0;
    for (unsigned i = 0; i < KINDS; i++)
        all += kinds[i].slots;
    unsigned byte = next(cursor), rest = byte < all ? byte : byte - 128;
    while (rest >= kinds[kind].slots)
        rest -= kinds[kind++].slots;
    return &kinds[kind];
}

/* Does a call. After a 13 the registers have their length again. */
static sweep_answer try_call(struct buffers *world, const struct call *call, caller how, unsigned turn)
{
    sweep_answer answer = do_call(&exported, how, world, call, turn);
    if (answer.number == SWEEP_NO_REGISTER)
        world->length[REGISTERS] = SWEEP_PANEL_REGISTERS;
    return answer;
}

/* Chooses a call's numbers and buffers, and does it. */
static sweep_answer one_call(struct buffers *world, unsigned name, struct cursor *cursor, caller how, unsigned turn)
{
    const struct function *function = &exported.functions[name];
    struct call call = {name, {0}, {{0, 0}}};
    for (int i = 0; i < MOST_NUMBERS && function->numbers[i].bits; i++)
        call.n[i] = function->numbers[i].choose(world, &call, cursor);
    if (function->prepare)
        function->prepare(world, &call, cursor);
    return try_call(world, &call, how, turn);
}

/* A command of the front panel that can be accepted: its set, file and other are written to their registers before it. */
static void one_command(struct buffers *world, struct cursor *cursor, caller how, unsigned turn)
{
    uint32_t command = PICK(commands, next(cursor)), set = some_set(world, cursor, 1);
    uint32_t file = some_file(world, cursor, set, command != SWEEP_PANEL_CREATE), other = some_set(world, cursor, 0);
    const uint32_t writes[][2] = {{SWEEP_PANEL_SET, set}, {SWEEP_PANEL_FILE, file}, {SWEEP_PANEL_OTHER, other},
                                  {SWEEP_PANEL_COMMAND, command}};
    for (int i = 0; i < 4; i++) {
        const struct call call = {PANEL_WRITE, {writes[i][0], writes[i][1]}, {{0, 0}}};
        try_call(world, &call, how, turn);
    }
}

/* A format of 1 to 80 blocks, then set 0 gets file 0; and a reset of registers that hold any bytes. */
static void begin(struct buffers *world, struct cursor *cursor, caller how)
{
    const struct call format = {FORMAT, {0}, {{0, 0}}}, create = {CREATE, {0}, {{0, 0}}}, reset = {PANEL_RESET, {0}, {{0, 0}}};
    memset(world->length, 0, sizeof world->length);
    memset(world->of[TABLES], 0x5A, ROOM_BYTES);
    memset(world->of[REGISTERS], 0x5A, ROOM_BYTES);
    world->length[TABLES] = SWEEP_TABLES_BYTES;
    world->length[REGISTERS] = SWEEP_PANEL_REGISTERS;
    choose_pages(world, cursor);
    do_call(&exported, how, world, &format, 0);
    do_call(&exported, how, world, &create, 1);
    do_call(&exported, how, world, &reset, 2);
}

void run_list(const uint8_t *data, size_t length, caller how)
{
    static struct buffers world, kept;
    struct cursor cursor = {data, data + length};
    begin(&world, &cursor, how);
    copy_buffers(&kept, &world);
    for (unsigned turn = 2; cursor.at < cursor.end; turn++) {
        const struct kind *kind = some_kind(&cursor);
        if (kind->change) {
            kind->change(&world, &cursor);
            continue;
        }
        if (kind->name == COMMAND) { /* accepted writes, whatever the tables hold: the store is not put back, and not kept */
            one_command(&world, &cursor, how, turn);
            continue;
        }
        sweep_answer answer = one_call(&world, kind->name, &cursor, how, turn);
        /* a store that was damaged, or told with wrong lengths, is put back */
        if (answer.number == SWEEP_BAD_TABLES)
            copy_buffers(&world, &kept);
        else if (!exported.functions[kind->name].unchecked)
            copy_buffers(&kept, &world);
    }
}
