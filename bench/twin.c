/*
 * The hand-written C twin of the sweep store: the calls of include/sweep.h under the prefix twin_, written from the
 * scope document and the layout of the tables, with the same checks. It is there to be measured beside the exported
 * calls (bench/run) and is held to the second implementation by bench/run --check-twin.
 *
 * Plain C for gcc -O2: 64-bit words, four entries at a time, no vector intrinsics, no allocation.
 */
#include "twin.h"

#include <stdbool.h>
#include <string.h>

enum {
    SETS = 8, FILES = 16, PAGES = 64, NONE = 8, LEVELS = 5, PAGE = 512, MAX_SIZE = 32768, MAX_BLOCKS = 4096,
    TABLES = 17468, BITMAP = 4, RECORDS = 516, SET_BYTES = 7, HEADS = 572, RECORD = 132, SET_FILES = FILES * RECORD,
    OLD_TABLES = 17436, OLD_SET_BYTES = 3, OLD_HEADS = 540 /* before sets had terms */
};
enum { END_DAY = 36525 }; /* the default term is the word of days 0 and END_DAY */
enum { ABSENT, OWN, VIRGIN, MARKED };
enum { UNMAPPED = 0x0000, HOLE = 0x4000, STORED = 0x8000, BLOCK = 0x3fff };

/* ---- words, most significant byte first ---- */

static inline uint64_t load64(const uint8_t *p)
{
    uint64_t x;
    memcpy(&x, p, 8);
    return __builtin_bswap64(x);
}

static inline void store64(uint8_t *p, uint64_t x)
{
    x = __builtin_bswap64(x);
    memcpy(p, &x, 8);
}

static inline uint32_t load32(const uint8_t *p)
{
    uint32_t x;
    memcpy(&x, p, 4);
    return __builtin_bswap32(x);
}

static inline void store32(uint8_t *p, uint32_t x)
{
    x = __builtin_bswap32(x);
    memcpy(p, &x, 4);
}

static inline unsigned load16(const uint8_t *p) { return (unsigned)p[0] << 8 | p[1]; }

static inline void store16(uint8_t *p, unsigned x)
{
    p[0] = (uint8_t)(x >> 8);
    p[1] = (uint8_t)x;
}

static inline uint32_t load24(const uint8_t *p) { return (uint32_t)p[0] << 16 | (uint32_t)p[1] << 8 | p[2]; }

static inline void store24(uint8_t *p, uint32_t x)
{
    p[0] = (uint8_t)(x >> 16);
    p[1] = (uint8_t)(x >> 8);
    p[2] = (uint8_t)x;
}

static inline unsigned ones(uint64_t x)
{
    x -= x >> 1 & 0x5555555555555555u;
    x = (x & 0x3333333333333333u) + (x >> 2 & 0x3333333333333333u);
    x = (x + (x >> 4)) & 0x0f0f0f0f0f0f0f0fu;
    return (unsigned)(x * 0x0101010101010101u >> 56);
}

/* A word as it stands in memory, for tests that do not depend on the order of its bytes. */
static inline uint64_t raw64(const uint8_t *p)
{
    uint64_t x;
    memcpy(&x, p, 8);
    return x;
}

/* Are the n words of 64 bits from p on all zero? n is a constant multiple of 8. */
static inline bool zero_words(const uint8_t *p, size_t n)
{
    uint64_t a = 0, b = 0, c = 0, d = 0;
    for (size_t i = 0; i < n; i += 8) {
        a |= raw64(p + i * 8) | raw64(p + i * 8 + 32);
        b |= raw64(p + i * 8 + 8) | raw64(p + i * 8 + 40);
        c |= raw64(p + i * 8 + 16) | raw64(p + i * 8 + 48);
        d |= raw64(p + i * 8 + 24) | raw64(p + i * 8 + 56);
    }
    return (a | b | c | d) == 0;
}

/* memcpy and memset of the library: gcc -O2 would put slower string instructions in their place for 512 bytes. */
__attribute__((noipa)) static void copy_bytes(uint8_t *to, const uint8_t *from, size_t n) { memcpy(to, from, n); }
__attribute__((noipa)) static void zero_bytes(uint8_t *to, size_t n) { memset(to, 0, n); }

/* ---- what the check finds out, for the calls that follow it ---- */

struct store {
    unsigned blocks;  /* B */
    unsigned used;    /* used sets, a bit each */
    unsigned count;   /* how many they are */
    uint8_t order[SETS]; /* the used sets, each after its parent */
    uint8_t above[SETS]; /* the place of the parent in that order */
    bool marked_keep;    /* older tables: a marked file may have a size and entries */
    uint8_t parent[SETS], level[SETS], first[SETS], next[SETS], writeable[SETS];
};

static inline size_t set_at(unsigned set) { return RECORDS + set * SET_BYTES; }
static inline size_t record_at(unsigned set, unsigned file) { return HEADS + (set * FILES + file) * RECORD; }
static inline unsigned state_of(uint32_t head) { return head >> 30; }
static inline unsigned size_of(uint32_t head) { return head >> 14 & 0xffff; }
static inline uint32_t head_of(unsigned state, unsigned size) { return state << 30 | size << 14; }
static inline bool live(unsigned state) { return state - 1 < 2; }

/* ---- the well-formed check ---- */

/* The tables as they are; as they were when marked files kept what they had; and, before that, when sets had no terms. */
struct layout {
    size_t tables, heads;
    unsigned set_bytes;
    bool marked_keep;
};
static const struct layout now = { TABLES, HEADS, SET_BYTES, false };
static const struct layout marked_kept = { TABLES, HEADS, SET_BYTES, true };
static const struct layout before_terms = { OLD_TABLES, OLD_HEADS, OLD_SET_BYTES, true };

/* The set records: zero fields, terms, the root, and a walk over the chains from it, which must meet each used set once. */
static bool check_sets(const uint8_t *t, const struct layout l, struct store *x)
{
    x->used = 0;
    for (unsigned s = 0; s < SETS; s++) {
        const uint8_t *r = t + RECORDS + s * l.set_bytes;
        uint64_t record = l.set_bytes == SET_BYTES ? load64(r) >> 8 : (uint64_t)load24(r) << 32;
        if (record == 0)
            continue;
        uint32_t w = (uint32_t)(record >> 32), first = (uint32_t)record >> 16, end = record & 0xffff;
        if (w >> 23 == 0 || w & 0x7f || (l.set_bytes == SET_BYTES && (first >= end || end > END_DAY)))
            return false;
        x->used |= 1u << s;
        x->writeable[s] = w >> 22 & 1;
        x->level[s] = w >> 19 & 7;
        x->parent[s] = w >> 15 & 15;
        x->first[s] = w >> 11 & 15;
        x->next[s] = w >> 7 & 15;
    }
    if ((load24(t + RECORDS) & 0xff8780) != 0xc40400)
        return false;
    unsigned met = 1, n = 1;
    x->order[0] = 0;
    for (unsigned i = 0; i < n; i++) {
        unsigned s = x->order[i];
        for (unsigned c = x->first[s]; c != NONE; c = x->next[c]) {
            if (c > NONE || !((x->used & ~met) >> c & 1))
                return false;
            if (x->parent[c] != s || x->level[c] != x->level[s] + 1 || x->level[c] > LEVELS)
                return false;
            met |= 1u << c;
            x->above[n] = (uint8_t)i;
            x->order[n++] = (uint8_t)c;
        }
    }
    x->count = n;
    return met == x->used;
}

/* What the pass over the entries collects. */
struct pass {
    uint64_t named[MAX_BLOCKS / 64]; /* the blocks named, the first in the most significant bit */
    uint64_t twice;                  /* blocks named before */
    uint64_t bad;                    /* bits that must be zero */
};

/* Pages as a mask of 64 bits: page p is bit 16 (p % 4) + 15 - p / 4. */
struct masks {
    uint64_t stored, unmapped;
};

#define LANES(x) ((uint64_t)(x) * 0x0001000100010001u)

/* The pages from page k on, which is below 64. */
static inline uint64_t pages_from(unsigned k)
{
    uint64_t bit = LANES(0x8000u >> k / 4);
    return (bit - LANES(1)) | bit << k % 4 * 16;
}

static inline void name_blocks(struct pass *k, unsigned word, uint64_t bits)
{
    uint64_t old = k->named[word];
    k->twice |= old & bits;
    k->named[word] = old | bits;
}

/* The byte of a map where the entry of each bit of a mask begins. */
#define COLUMN(q) \
    120 + q, 112 + q, 104 + q, 96 + q, 88 + q, 80 + q, 72 + q, 64 + q, 56 + q, 48 + q, 40 + q, 32 + q, 24 + q, 16 + q, 8 + q, q
static const uint8_t place[PAGES] = { COLUMN(0), COLUMN(2), COLUMN(4), COLUMN(6) };

/* The blocks of the stored entries of a map. First the words of four entries that name four blocks in a row, then the
 * other entries one by one. */
static inline void name_map(struct pass *k, const uint8_t *map, uint64_t stored)
{
    uint64_t whole = stored & stored >> 32;
    whole &= whole >> 16;
    for (unsigned words = whole & 0xffff; words; words &= words - 1) {
        unsigned i = 15 - (unsigned)__builtin_ctz(words), b;
        uint64_t w = load64(map + i * 8);
        b = w >> 48 & 0xfff;
        if ((w >> 16) + 0x000100010001u == (w & 0xffffffffffffu) && b % 64 <= 60) {
            name_blocks(k, b / 64, 15ull << 60 >> b % 64);
            stored &= ~LANES(0x8000u >> i);
        }
    }
    for (; stored; stored &= stored - 1) {
        unsigned b = load16(map + place[__builtin_ctzll(stored)]) & 0xfff;
        name_blocks(k, b / 64, 1ull << 63 >> b % 64);
    }
}

/* The 64 entries of a map. The four entries of a word stand in it with their two bytes exchanged: the kind in bits 7 and 6. */
static inline struct masks pass_map(struct pass *k, const uint8_t *map)
{
    uint64_t even = 0, odd = 0;
    uint16_t bad = 0;
    for (unsigned i = 0; i < PAGES; i++) {
        uint16_t e;
        memcpy(&e, map + i * 2, 2);
        /* a stored entry: kind 2 and a block below 4,096; another: no block */
        uint16_t stored = (uint16_t)((int16_t)(uint16_t)(e << 8) >> 15);
        bad |= e & (0xff3f ^ (stored & 0xff4f));
    }
    k->bad |= bad;
    /* the kinds, 2 bits each, of the words 0, 2, .. and of the words 1, 3, .. */
#pragma GCC unroll 8
    for (int i = 7; i >= 0; i--) {
        even = even >> 2 | (raw64(map + i * 16) & LANES(0x00c0)) << 8;
        odd = odd >> 2 | (raw64(map + i * 16 + 8) & LANES(0x00c0)) << 8;
    }
    uint64_t stored = (even & LANES(0xaaaa)) | (odd & LANES(0xaaaa)) >> 1;
    uint64_t hole = (even & LANES(0x5555)) << 1 | (odd & LANES(0x5555));
    if (stored)
        name_map(k, map, stored);
    return (struct masks){ stored, ~(stored | hole) };
}

/* In an own file, no page wholly past the size resolves to stored. */
static inline bool past_clear(uint32_t head, uint64_t stored)
{
    unsigned whole = (size_of(head) + PAGE - 1) / PAGE;
    return whole >= PAGES || !(stored & pages_from(whole));
}

/* An own or marked file's head: zero field and size. */
static inline bool head_formed(uint32_t head)
{
    return state_of(head) & 1 && !(head & 0x3fff) && size_of(head) <= MAX_SIZE;
}

/* The files of one number, parents first: their records, and what their pages resolve to. */
static bool check_number(const uint8_t *heads, const struct store *x, unsigned file, const struct masks *masks)
{
    uint64_t resolved[SETS]; /* the pages that resolve to stored, in the order of the sets */
    unsigned alive = 0;      /* where the file is own or virgin */
    const uint8_t *files = heads + file * RECORD;
    uint32_t head = load32(files);
    if (head == 0) {
        if (~masks[file].unmapped)
            return false;
    } else {
        if (!head_formed(head) || state_of(head) != OWN)
            return false;
        struct masks m = masks[file];
        if (m.unmapped || !past_clear(head, m.stored))
            return false;
        resolved[0] = m.stored;
        alive = 1;
    }
    for (unsigned i = 1; i < x->count; i++) {
        const uint8_t *r = files + x->order[i] * SET_FILES;
        unsigned up = x->above[i];
        struct masks m = masks[x->order[i] * FILES + file];
        head = load32(r);
        if (!(head & 0x7fffffff)) {
            /* absent, or virgin under a live file of the parent */
            if (~m.unmapped)
                return false;
            if (head == 0)
                continue;
            if (!(alive >> up & 1))
                return false;
            resolved[i] = resolved[up];
            alive |= 1u << i;
            continue;
        }
        if (!head_formed(head))
            return false;
        if (state_of(head) == MARKED) {
            if (!x->marked_keep && (size_of(head) || ~m.unmapped))
                return false;
            continue;
        }
        if (m.unmapped) {
            if (!(alive >> up & 1))
                return false;
            m.stored |= m.unmapped & resolved[up];
        }
        if (!past_clear(head, m.stored))
            return false;
        resolved[i] = m.stored;
        alive |= 1u << i;
    }
    return true;
}

/* A bit is 1 exactly when a stored entry names the block, and none from block b on. */
static bool check_bits(const uint8_t *t, const struct pass *k, unsigned b)
{
    uint64_t differ = 0, past = 0;
    for (unsigned i = 0; i < MAX_BLOCKS / 64; i++)
        differ |= k->named[i] ^ load64(t + BITMAP + i * 8);
    if (b % 64)
        past = k->named[b / 64] << b % 64;
    for (unsigned i = (b + 63) / 64; i < MAX_BLOCKS / 64; i++)
        past |= k->named[i];
    return (differ | past) == 0;
}

/* The first part of the check: the header, the entries of every record and the bits. The masks of the records of the sets
 * before set *to are kept where they are wanted; the records from set *to on are zero. */
static inline __attribute__((always_inline)) bool check_blocks(const uint8_t *t, size_t length, const struct layout l,
                                                               struct masks *masks, unsigned *to)
{
    if (length != l.tables)
        return false;
    uint32_t head = load32(t);
    unsigned b = head >> 19, n = SETS;
    if (b - 1 >= MAX_BLOCKS || (head >> 7 & 0xfff) >= b)
        return false;
    while (n > 0 && !(t[RECORDS + (n - 1) * l.set_bytes] >> 7))
        n--;
    for (unsigned s = n; s < SETS; s++)
        if (!zero_words(t + l.heads + s * SET_FILES, SET_FILES / 8))
            n = SETS;
    struct pass k;
    zero_bytes((uint8_t *)&k, sizeof k);
    for (unsigned i = 0; i < n * FILES; i++) {
        const uint8_t *r = t + l.heads + i * RECORD;
        bool blank = state_of(load32(r)) != OWN && zero_words(r + 4, 16);
        struct masks m = blank ? (struct masks){ 0, ~(uint64_t)0 } : pass_map(&k, r + 4);
        if (masks)
            masks[i] = m;
    }
    *to = n;
    return !k.bad && !k.twice && check_bits(t, &k, b);
}

static bool formed_as(const uint8_t *t, size_t length, const struct layout l, size_t pages, struct store *x)
{
    struct masks masks[SETS * FILES];
    unsigned n;
    if (!check_blocks(t, length, l, masks, &n))
        return false;
    uint32_t head = load32(t);
    unsigned b = head >> 19;
    if (head & 0x7f || pages != (size_t)b * PAGE)
        return false;
    if (!check_sets(t, l, x))
        return false;
    for (unsigned s = 0; s < n; s++)
        if (!(x->used >> s & 1) && !zero_words(t + l.heads + s * SET_FILES, SET_FILES / 8))
            return false;
    x->marked_keep = l.marked_keep;
    for (unsigned f = 0; f < FILES; f++)
        if (!check_number(t + l.heads, x, f, masks))
            return false;
    x->blocks = b;
    return true;
}

static bool well_formed(const uint8_t *t, size_t length, size_t pages, struct store *x)
{
    return formed_as(t, length, now, pages, x);
}

/* Tables of either length by the rules of their time. */
static bool old_formed(const uint8_t *t, size_t length, size_t pages, struct store *x)
{
    if (length == OLD_TABLES)
        return formed_as(t, length, before_terms, pages, x);
    return formed_as(t, length, marked_kept, pages, x);
}

/* ---- looking ---- */

static inline sweep_answer answer(uint32_t number, uint32_t first, uint32_t second, uint32_t third)
{
    return (sweep_answer){ number, first, second, third };
}

/* A number with zero counts. */
static inline sweep_answer refused(uint32_t number) { return answer(number, 0, 0, 0); }

/* The free blocks: bits from B on are 0. */
static unsigned count_free(const uint8_t *t, const struct store *x)
{
    unsigned n = x->blocks;
    for (unsigned i = 0; i < (x->blocks + 63) / 64; i++)
        n -= ones(raw64(t + BITMAP + i * 8));
    return n;
}

static inline bool is_used(const struct store *x, uint32_t set) { return set < SETS && x->used >> set & 1; }

static inline uint32_t head_at(const uint8_t *t, unsigned set, unsigned file) { return load32(t + record_at(set, file)); }

static inline unsigned entry_at(const uint8_t *t, unsigned set, unsigned file, unsigned page)
{
    return load16(t + record_at(set, file) + 4 + page * 2);
}

static inline void put_entry(uint8_t *t, unsigned set, unsigned file, unsigned page, unsigned entry)
{
    store16(t + record_at(set, file) + 4 + page * 2, entry);
}

/* What a page resolves to, a hole or a stored entry; the maps looked at are added to looks. */
static inline unsigned resolve(const uint8_t *t, const struct store *x, unsigned set, unsigned file, unsigned page,
                               unsigned *looks)
{
    const uint8_t *at = t + HEADS + 4 + file * RECORD + page * 2;
    unsigned e;
    for (;;) {
        ++*looks;
        e = load16(at + set * SET_FILES);
        if (e != UNMAPPED)
            return e;
        set = x->parent[set];
    }
}

static inline unsigned size_by_reading(const uint8_t *t, const struct store *x, unsigned set, unsigned file)
{
    uint32_t head;
    while (state_of(head = head_at(t, set, file)) == VIRGIN)
        set = x->parent[set];
    return size_of(head);
}

/* Numbers 2, 3, 5 and 6, of a call that looks at a file. */
static inline unsigned look_number(const uint8_t *t, const struct store *x, uint32_t set, uint32_t file)
{
    if (!is_used(x, set))
        return SWEEP_NO_SET;
    if (file >= FILES)
        return SWEEP_BAD_FILE;
    unsigned state = state_of(head_at(t, set, file));
    if (state == ABSENT)
        return SWEEP_ABSENT;
    return state == MARKED ? SWEEP_MARKED : SWEEP_OK;
}

/* Numbers 2, 3 and 4, of a call that changes a file. */
static inline unsigned place_number(const struct store *x, uint32_t set, uint32_t file)
{
    if (!is_used(x, set))
        return SWEEP_NO_SET;
    if (file >= FILES)
        return SWEEP_BAD_FILE;
    return x->writeable[set] ? SWEEP_OK : SWEEP_READ_ONLY;
}

sweep_answer twin_size(const uint8_t *t, size_t tl, const uint8_t *p, size_t pl, uint32_t set, uint32_t file)
{
    (void)p;
    struct store x;
    if (!well_formed(t, tl, pl, &x))
        return refused(SWEEP_BAD_TABLES);
    unsigned number = look_number(t, &x, set, file);
    if (number)
        return refused(number);
    return answer(0, size_by_reading(t, &x, set, file), 0, 0);
}

sweep_answer twin_free(const uint8_t *t, size_t tl, const uint8_t *p, size_t pl)
{
    (void)p;
    struct store x;
    if (!well_formed(t, tl, pl, &x))
        return refused(SWEEP_BAD_TABLES);
    return answer(0, count_free(t, &x), 0, 0);
}

sweep_answer twin_check_blocks(const uint8_t *t, size_t tl)
{
    unsigned n;
    return refused(check_blocks(t, tl, now, NULL, &n) ? SWEEP_OK : SWEEP_BAD_TABLES);
}

sweep_answer twin_check(const uint8_t *t, size_t tl, const uint8_t *p, size_t pl)
{
    (void)p;
    struct store x;
    return refused(well_formed(t, tl, pl, &x) ? SWEEP_OK : SWEEP_BAD_TABLES);
}

sweep_answer twin_read(const uint8_t *t, size_t tl, const uint8_t *p, size_t pl, uint32_t set, uint32_t file,
                       uint32_t offset, uint8_t *buffer, size_t length)
{
    struct store x;
    if (!well_formed(t, tl, pl, &x))
        return refused(SWEEP_BAD_TABLES);
    unsigned number = look_number(t, &x, set, file);
    if (number)
        return refused(number);
    size_t size = size_by_reading(t, &x, set, file);
    size_t n = offset >= size ? 0 : size - offset < length ? size - offset : length;
    unsigned looks = 0;
    for (size_t done = 0; done < n;) {
        size_t at = (offset + done) % PAGE, part = PAGE - at < n - done ? PAGE - at : n - done;
        unsigned e = resolve(t, &x, set, file, (unsigned)((offset + done) / PAGE), &looks);
        if (e == HOLE)
            zero_bytes(buffer + done, part);
        else
            copy_bytes(buffer + done, p + (size_t)(e & BLOCK) * PAGE + at, part);
        done += part;
    }
    return answer(0, (uint32_t)n, looks, 0);
}

/* ---- records ---- */

sweep_answer twin_format(uint8_t *t, size_t tl, uint8_t *p, size_t pl)
{
    if (tl != TABLES || pl % PAGE || pl < PAGE || pl > (size_t)MAX_BLOCKS * PAGE)
        return refused(SWEEP_BAD_TABLES);
    zero_bytes(t, TABLES);
    store32(t, (uint32_t)(pl / PAGE) << 19);
    store24(t + RECORDS, 0xc44400);
    store32(t + RECORDS + 3, END_DAY);
    zero_bytes(p, pl);
    return refused(0);
}

sweep_answer twin_create(uint8_t *t, size_t tl, uint8_t *p, size_t pl, uint32_t set, uint32_t file)
{
    (void)p;
    struct store x;
    if (!well_formed(t, tl, pl, &x))
        return refused(SWEEP_BAD_TABLES);
    unsigned number = place_number(&x, set, file);
    if (number)
        return refused(number);
    uint8_t *r = t + record_at(set, file);
    if (state_of(load32(r)) != ABSENT)
        return refused(SWEEP_PRESENT);
    store32(r, head_of(OWN, 0));
    for (unsigned i = 0; i < PAGES / 4; i++)
        store64(r + 4 + i * 8, LANES(HOLE));
    return refused(0);
}

sweep_answer twin_make(uint8_t *t, size_t tl, uint8_t *p, size_t pl, uint32_t parent, uint32_t set, uint32_t writeable)
{
    (void)p;
    struct store x;
    if (!well_formed(t, tl, pl, &x))
        return refused(SWEEP_BAD_TABLES);
    if (!is_used(&x, parent) || set >= SETS)
        return refused(SWEEP_NO_SET);
    if (is_used(&x, set))
        return refused(SWEEP_PRESENT);
    if (x.level[parent] == LEVELS)
        return refused(SWEEP_TOO_DEEP);
    store24(t + set_at(set),
            1u << 23 | (uint32_t)(writeable != 0) << 22 | (x.level[parent] + 1u) << 19 | parent << 15 | NONE << 11 | NONE << 7);
    store32(t + set_at(set) + 3, END_DAY);
    if (x.first[parent] == NONE) {
        uint8_t *r = t + set_at(parent);
        store24(r, (load24(r) & ~(15u << 11)) | set << 11);
    } else {
        unsigned last = x.first[parent];
        while (x.next[last] != NONE)
            last = x.next[last];
        uint8_t *r = t + set_at(last);
        store24(r, (load24(r) & ~(15u << 7)) | set << 7);
    }
    for (unsigned f = 0; f < FILES; f++) {
        static const uint8_t made[4] = { ABSENT, VIRGIN, VIRGIN, MARKED };
        store32(t + record_at(set, f), head_of(made[state_of(head_at(t, parent, f))], 0));
    }
    return refused(0);
}

static inline void free_block(uint8_t *t, unsigned b) { t[BITMAP + b / 8] &= (uint8_t) ~(0x80u >> b % 8); }

/* The blocks of the pages from `from` up to `to` of a map become free. */
static void free_blocks(uint8_t *t, const uint8_t *map, unsigned from, unsigned to)
{
    for (unsigned q = from; q < to; q++) {
        unsigned e = load16(map + q * 2);
        if (e & STORED)
            free_block(t, e & BLOCK);
    }
}

/* Are any of the four entries from here on stored? */
static inline bool some_stored(const uint8_t *entries) { return raw64(entries) & LANES(0x0080); }

/* A marked file is left with its state and nothing else; gives how many blocks this frees. */
static unsigned clear_marked(uint8_t *t, uint8_t *record)
{
    unsigned n = 0;
    for (uint8_t *at = record + 4; at < record + RECORD; at += 8)
        if (some_stored(at)) {
            n += ones(raw64(at) & LANES(0x0080));
            free_blocks(t, at, 0, 4);
        }
    zero_bytes(record, RECORD);
    store32(record, head_of(MARKED, 0));
    return n;
}

sweep_answer twin_remove(uint8_t *t, size_t tl, uint8_t *p, size_t pl, uint32_t set)
{
    (void)p;
    struct store x;
    if (!well_formed(t, tl, pl, &x))
        return refused(SWEEP_BAD_TABLES);
    if (!is_used(&x, set))
        return refused(SWEEP_NO_SET);
    if (x.first[set] != NONE)
        return refused(SWEEP_HAS_CHILDREN);
    if (set == 0)
        return refused(SWEEP_ROOT);
    for (unsigned f = 0; f < FILES; f++)
        if (state_of(head_at(t, set, f)) & 1) /* absent and virgin files name no block; nor do marked ones, which are rare */
            free_blocks(t, t + record_at(set, f) + 4, 0, PAGES);
    zero_bytes(t + record_at(set, 0), SET_FILES);
    unsigned up = x.parent[set], after = x.next[set];
    if (x.first[up] == set) {
        uint8_t *r = t + set_at(up);
        store24(r, (load24(r) & ~(15u << 11)) | after << 11);
    } else {
        unsigned before = x.first[up];
        while (x.next[before] != set)
            before = x.next[before];
        uint8_t *r = t + set_at(before);
        store24(r, (load24(r) & ~(15u << 7)) | after << 7);
    }
    zero_bytes(t + set_at(set), SET_BYTES);
    return refused(0);
}

/* ---- terms ---- */

/* Dates from 1998 to 2097, where every fourth year is a leap year: y counts the years from 1998, m the months from 1. */
static inline bool leap(unsigned y) { return y % 4 == 2; }
static inline unsigned month_length(unsigned y, unsigned m) { return m == 2 ? 28u + leap(y) : 30 + ((m + m / 8) & 1); }

static inline unsigned day_number(unsigned y, unsigned m, unsigned day)
{
    return (1461 * y + 1) / 4 + 275 * m / 9 - (m > 2 ? 2 - leap(y) : 0) + day - 31;
}

sweep_answer twin_set_term(uint8_t *t, size_t tl, uint8_t *p, size_t pl, uint32_t set, uint32_t year, uint32_t month,
                           uint32_t day, uint32_t months)
{
    (void)p;
    struct store x;
    if (!well_formed(t, tl, pl, &x))
        return refused(SWEEP_BAD_TABLES);
    if (!is_used(&x, set))
        return refused(SWEEP_NO_SET);
    unsigned y = year - 1998;
    if (y >= 100 || month - 1 >= 12 || day - 1 >= month_length(y, month))
        return refused(SWEEP_NO_DATE);
    if (months - 1 >= 120)
        return refused(SWEEP_BAD_MONTHS);
    unsigned later = y * 12 + month - 1 + months, end = END_DAY;
    if (later < 1200) {
        unsigned ly = later / 12, lm = later % 12 + 1, most = month_length(ly, lm);
        end = day_number(ly, lm, day < most ? day : most);
    }
    store32(t + set_at(set) + 3, day_number(y, month, day) << 16 | end);
    return refused(0);
}

sweep_answer twin_current(const uint8_t *t, size_t tl, const uint8_t *p, size_t pl, uint32_t set, uint32_t day)
{
    (void)p;
    struct store x;
    if (!well_formed(t, tl, pl, &x))
        return refused(SWEEP_BAD_TABLES);
    if (!is_used(&x, set))
        return refused(SWEEP_NO_SET);
    uint32_t term = load32(t + set_at(set) + 3);
    return answer(0, term >> 16 <= day && day < (term & 0xffff), 0, 0);
}

/* Tables from before sets had terms, with the default term in used sets. */
static void widen(const uint8_t *old, uint8_t *t, const struct store *x)
{
    copy_bytes(t, old, RECORDS);
    for (unsigned s = 0; s < SETS; s++) {
        memcpy(t + set_at(s), old + RECORDS + s * OLD_SET_BYTES, OLD_SET_BYTES);
        store32(t + set_at(s) + 3, is_used(x, s) ? END_DAY : 0);
    }
    copy_bytes(t + HEADS, old + OLD_HEADS, SETS * SET_FILES);
}

sweep_answer twin_convert(const uint8_t *old, size_t ol, const uint8_t *p, size_t pl, uint8_t *t, size_t tl)
{
    (void)p;
    struct store x;
    if (tl != TABLES || !old_formed(old, ol, pl, &x))
        return refused(SWEEP_BAD_TABLES);
    if (ol == OLD_TABLES)
        widen(old, t, &x);
    else
        copy_bytes(t, old, TABLES);
    for (uint8_t *r = t + HEADS; r < t + TABLES; r += RECORD)
        if (state_of(load32(r)) == MARKED)
            clear_marked(t, r);
    return refused(0);
}

/* ---- changes ---- */

/* A change under way: the file, the search for free blocks, the counts. */
struct change {
    uint8_t *t, *p;
    const struct store *x;
    unsigned set, file;
    unsigned next, free;
    unsigned taken, copies, marks;
};

/* The first free block from the next start on, going round; there is one. The word is stored whole, since the next call loads it
 * whole. */
static inline unsigned take_block(struct change *c)
{
    unsigned word = c->next / 64, b;
    uint64_t w = load64(c->t + BITMAP + word * 8), clear = ~w & ~0ull >> c->next % 64;
    for (;;) {
        if (clear) {
            b = word * 64 + (unsigned)__builtin_clzll(clear);
            if (b < c->x->blocks)
                break;
        }
        word = (word + 1) * 64 < c->x->blocks ? word + 1 : 0;
        w = load64(c->t + BITMAP + word * 8);
        clear = ~w;
    }
    store64(c->t + BITMAP + word * 8, w | 1ull << 63 >> b % 64);
    c->next = b + 1 == c->x->blocks ? 0 : b + 1;
    c->free--;
    return b;
}

static struct change begin(uint8_t *t, uint8_t *p, const struct store *x, unsigned set, unsigned file)
{
    return (struct change){ .t = t, .p = p, .x = x, .set = set, .file = file, .next = load32(t) >> 7 & 0xfff,
                            .free = count_free(t, x) };
}

static sweep_answer finish(const struct change *c)
{
    store32(c->t, c->x->blocks << 19 | c->next << 7);
    return answer(0, c->taken, c->copies, c->marks);
}

/* A virgin file becomes own with the size that it had by reading. */
static void settle(const struct change *c, unsigned set)
{
    uint8_t *r = c->t + record_at(set, c->file);
    if (state_of(load32(r)) == VIRGIN)
        store32(r, head_of(OWN, size_by_reading(c->t, c->x, set, c->file)));
}

static void settle_children(const struct change *c)
{
    for (unsigned k = c->x->first[c->set]; k != NONE; k = c->x->next[k])
        settle(c, k);
}

/* Has any of the four entries of w kind 0? */
static inline bool some_unmapped(uint64_t w) { return (~(w | w << 1) & LANES(STORED)) != 0; }

static bool depends(const uint8_t *t, unsigned set, unsigned file)
{
    const uint8_t *r = t + record_at(set, file);
    if (!live(state_of(load32(r))))
        return false;
    for (unsigned i = 0; i < PAGES / 4; i++)
        if (some_unmapped(load64(r + 4 + i * 8)))
            return true;
    return false;
}

/* Marks the file in a set, and in the sets below that depend on it. Their blocks are free at once. */
static void mark(struct change *c, unsigned set)
{
    c->free += clear_marked(c->t, c->t + record_at(set, c->file));
    c->marks++;
    for (unsigned k = c->x->first[set]; k != NONE; k = c->x->next[k])
        if (depends(c->t, k, c->file))
            mark(c, k);
}

static inline uint8_t *page_of(const struct change *c, unsigned block) { return c->p + (size_t)block * PAGE; }

/* One page for one child that needs it, where it resolves to e. */
static inline void give(struct change *c, unsigned child, unsigned page, unsigned e)
{
    if (e == HOLE) {
        put_entry(c->t, child, c->file, page, HOLE);
        return;
    }
    if (c->free == 0) {
        mark(c, child);
        return;
    }
    unsigned b = take_block(c);
    copy_bytes(page_of(c, b), page_of(c, e & BLOCK), PAGE);
    put_entry(c->t, child, c->file, page, STORED | b);
    c->copies++;
}

/* The children of the set whose file depends on the one above it. */
static inline unsigned dependents(const struct change *c, uint8_t child[SETS])
{
    unsigned n = 0;
    for (unsigned k = c->x->first[c->set]; k != NONE; k = c->x->next[k])
        if (depends(c->t, k, c->file))
            child[n++] = (uint8_t)k;
    return n;
}

/* Step 4 for the pages from `from` up to `to`. Those from `whole` on are dropped whole: the first child that needs one takes
 * over the block that it has in the file's own map. */
static void give_pages(struct change *c, unsigned from, unsigned to, unsigned whole)
{
    uint8_t child[SETS];
    unsigned n = dependents(c, child), looks = 0;
    if (n == 0)
        return;
    for (unsigned q = from; q < to; q++) {
        unsigned e = resolve(c->t, c->x, c->set, c->file, q, &looks);
        bool gift = q >= whole && (entry_at(c->t, c->set, c->file, q) & STORED) != 0;
        for (unsigned i = 0; i < n; i++) {
            unsigned k = child[i];
            if (entry_at(c->t, k, c->file, q) != UNMAPPED || !live(state_of(head_at(c->t, k, c->file))))
                continue;
            if (gift) {
                put_entry(c->t, k, c->file, q, e);
                put_entry(c->t, c->set, c->file, q, HOLE);
                gift = false;
                continue;
            }
            give(c, k, q, e);
        }
    }
}

/* The pages of touched groups, from `lo` up to `hi`, that are not themselves touched, which those from `from` up to `to` are: copied
 * where a block is free; nothing is marked. */
static void give_others(struct change *c, unsigned lo, unsigned from, unsigned to, unsigned hi)
{
    uint8_t child[SETS];
    if (lo == from && to == hi)
        return;
    unsigned n = dependents(c, child), looks = 0;
    if (n == 0)
        return;
    for (unsigned q = lo == from ? to : lo; q < hi; q = q + 1 == from ? to : q + 1) {
        unsigned e = resolve(c->t, c->x, c->set, c->file, q, &looks);
        for (unsigned i = 0; i < n && (e == HOLE || c->free > 0); i++)
            if (entry_at(c->t, child[i], c->file, q) == UNMAPPED)
                give(c, child[i], q, e);
    }
}

/* Step 5 for one page of a write, whose part from `at` on is `part` bytes of data; b is its new block, if one was taken. */
static inline void lay(struct change *c, unsigned page, unsigned b, bool taken, size_t at, const uint8_t *data, size_t part)
{
    uint8_t *to = page_of(c, b);
    if (taken && part < PAGE) {
        unsigned looks = 0;
        unsigned e = resolve(c->t, c->x, c->set, c->file, page, &looks);
        if (e == HOLE)
            zero_bytes(to, PAGE);
        else
            copy_bytes(to, page_of(c, e & BLOCK), PAGE);
    }
    copy_bytes(to + at, data, part);
    if (taken)
        put_entry(c->t, c->set, c->file, page, STORED | b);
}

/* A write by aligned groups of so many pages. */
static sweep_answer write_by(unsigned group, uint8_t *t, size_t tl, uint8_t *p, size_t pl, uint32_t set, uint32_t file,
                             uint32_t offset, const uint8_t *data, size_t length)
{
    struct store x;
    if (!well_formed(t, tl, pl, &x))
        return refused(SWEEP_BAD_TABLES);
    unsigned number = place_number(&x, set, file);
    if (!number)
        number = look_number(t, &x, set, file);
    if (number)
        return refused(number);
    if (offset > MAX_SIZE || length > MAX_SIZE - offset)
        return refused(SWEEP_TOO_LONG);
    if (length == 0)
        return refused(0);

    uint8_t *r = t + record_at(set, file);
    unsigned first = offset / PAGE, end = (unsigned)((offset + length - 1) / PAGE + 1), need = 0;
    for (unsigned q = first; q < end; q++)
        need += !(load16(r + 4 + q * 2) & STORED);
    if (need > count_free(t, &x))
        return refused(SWEEP_FULL);

    struct change c = begin(t, p, &x, set, file);
    settle(&c, set);
    settle_children(&c);
    uint16_t pending[PAGES]; /* the block of each touched page, and STORED where it was taken now */
    for (unsigned q = first; q < end; q++) {
        unsigned e = load16(r + 4 + q * 2);
        pending[q] = (uint16_t)(e & STORED ? e & BLOCK : STORED | take_block(&c));
    }
    c.taken = need;
    give_pages(&c, first, end, end);
    unsigned lo = first / group * group, hi = (end - 1) / group * group + group;
    give_others(&c, lo, first, end, hi < PAGES ? hi : PAGES);
    for (size_t done = 0; done < length;) {
        unsigned q = (unsigned)((offset + done) / PAGE);
        size_t at = (offset + done) % PAGE, part = PAGE - at < length - done ? PAGE - at : length - done;
        lay(&c, q, pending[q] & BLOCK, (pending[q] & STORED) != 0, at, data + done, part);
        done += part;
    }
    unsigned size = size_of(load32(r)), reach = (unsigned)(offset + length);
    store32(r, head_of(OWN, size > reach ? size : reach));
    return finish(&c);
}

sweep_answer twin_write(uint8_t *t, size_t tl, uint8_t *p, size_t pl, uint32_t set, uint32_t file, uint32_t offset,
                        const uint8_t *data, size_t length)
{
    return write_by(8, t, tl, p, pl, set, file, offset, data, length);
}

sweep_answer twin_write_narrow(uint8_t *t, size_t tl, uint8_t *p, size_t pl, uint32_t set, uint32_t file, uint32_t offset,
                               const uint8_t *data, size_t length)
{
    return write_by(1, t, tl, p, pl, set, file, offset, data, length);
}

/* The pages from `from` up to `to` become holes, their blocks free. */
static void drop_pages(uint8_t *t, uint8_t *map, unsigned from, unsigned to)
{
    free_blocks(t, map, from, to);
    for (unsigned q = from; q < to; q++)
        store16(map + q * 2, HOLE);
}

sweep_answer twin_truncate(uint8_t *t, size_t tl, uint8_t *p, size_t pl, uint32_t set, uint32_t file, uint32_t size)
{
    struct store x;
    if (!well_formed(t, tl, pl, &x))
        return refused(SWEEP_BAD_TABLES);
    unsigned number = place_number(&x, set, file);
    if (!number)
        number = look_number(t, &x, set, file);
    if (number)
        return refused(number);
    if (size > MAX_SIZE)
        return refused(SWEEP_TOO_LONG);

    unsigned old = size_by_reading(t, &x, set, file);
    if (size == old)
        return refused(0);
    uint8_t *r = t + record_at(set, file);
    struct change c = begin(t, p, &x, set, file);
    if (size > old) {
        settle(&c, set);
        settle_children(&c);
        store32(r, head_of(OWN, size));
        return finish(&c);
    }

    unsigned first = size / PAGE, end = (old - 1) / PAGE + 1, from = first, looks = 0;
    unsigned keeps = HOLE; /* what the page of the new size resolves to, where it is cut inside */
    bool part = size % PAGE != 0, own = true;
    if (part) {
        keeps = resolve(t, &x, set, file, first, &looks);
        own = (load16(r + 4 + first * 2) & STORED) != 0;
        from = first + 1;
    }
    bool needs = part && keeps != HOLE && !own;
    if (needs && count_free(t, &x) == 0)
        return refused(SWEEP_FULL);
    settle(&c, set);
    settle_children(&c);
    unsigned b = keeps & BLOCK;
    if (needs) {
        b = take_block(&c);
        c.taken = 1;
    }
    give_pages(&c, first, end, from);
    if (part && keeps != HOLE) {
        if (needs) {
            copy_bytes(page_of(&c, b), page_of(&c, keeps & BLOCK), size % PAGE);
            store16(r + 4 + first * 2, STORED | b);
        }
        zero_bytes(page_of(&c, b) + size % PAGE, PAGE - size % PAGE);
    }
    drop_pages(t, r + 4, from, end);
    store32(r, head_of(OWN, size));
    return finish(&c);
}

sweep_answer twin_delete(uint8_t *t, size_t tl, uint8_t *p, size_t pl, uint32_t set, uint32_t file)
{
    struct store x;
    if (!well_formed(t, tl, pl, &x))
        return refused(SWEEP_BAD_TABLES);
    unsigned number = place_number(&x, set, file);
    if (number)
        return refused(number);
    uint8_t *r = t + record_at(set, file);
    unsigned state = state_of(load32(r));
    if (state == ABSENT)
        return refused(SWEEP_ABSENT);
    struct change c = begin(t, p, &x, set, file);
    if (live(state)) {
        settle_children(&c);
        give_pages(&c, 0, PAGES, 0);
    }
    if (state != VIRGIN) /* what is left in the map: blocks handed over are not, whoever has them now */
        free_blocks(t, r + 4, 0, PAGES);
    zero_bytes(r, RECORD);
    return finish(&c);
}

/* ---- compaction ---- */

enum { WINDOW = 256 };

/* A compaction under way. The entries before the one in hand name the blocks 0 to k - 1. */
struct compaction {
    uint8_t *t, *p, *spare;
    unsigned k;
    unsigned start;         /* the window is the blocks from here on */
    uint16_t owner[WINDOW]; /* the place of the entry that names a block of the window, if that is used and not below k */
};

/* The window begins at block k: the owners are among the entries of the record in hand and those behind it. */
static __attribute__((noinline)) void fill_window(struct compaction *c, const uint8_t *record)
{
    c->start = c->k;
    for (const uint8_t *r = record; r < c->t + TABLES; r += RECORD)
        for (const uint8_t *at = r + 4; at < r + RECORD; at += 8) {
            if (!some_stored(at))
                continue;
            for (unsigned i = 0; i < 8; i += 2) {
                unsigned e = load16(at + i), b = (e & BLOCK) - c->start;
                if (e & STORED && b < WINDOW)
                    c->owner[b] = (uint16_t)(at + i - c->t);
            }
        }
}

static inline uint8_t *place_of(const struct compaction *c, unsigned block) { return c->p + (size_t)block * PAGE; }

/* Exchanges the pages of blocks k and j, which another entry and the one in hand name. */
static void exchange_pages(struct compaction *c, const uint8_t *record, unsigned j)
{
    if (c->k - c->start >= WINDOW)
        fill_window(c, record);
    uint16_t other = c->owner[c->k - c->start];
    copy_bytes(c->spare, place_of(c, c->k), PAGE);
    copy_bytes(place_of(c, c->k), place_of(c, j), PAGE);
    copy_bytes(place_of(c, j), c->spare, PAGE);
    store16(c->t + other, STORED | j);
    if (j - c->start < WINDOW)
        c->owner[j - c->start] = other;
}

/* The stored entry at this place gets block k. */
static inline void settle_entry(struct compaction *c, const uint8_t *record, uint8_t *at)
{
    unsigned j = load16(at) & BLOCK, k = c->k;
    uint8_t *bits = c->t + BITMAP + k / 8, bit = (uint8_t)(0x80u >> k % 8);
    if (j != k) {
        if (*bits & bit) {
            exchange_pages(c, record, j);
        } else {
            copy_bytes(place_of(c, k), place_of(c, j), PAGE);
            *bits |= bit;
            free_block(c->t, j);
        }
        store16(at, STORED | k);
    }
    c->k = k + 1;
}

/* Every stored entry in order; gives the used blocks. Its window and the check do not stand on the stack together. */
static __attribute__((noinline)) unsigned pull_together(uint8_t *t, uint8_t *p, uint8_t *spare)
{
    struct compaction c;
    c.t = t, c.p = p, c.spare = spare;
    c.k = 0, c.start = MAX_BLOCKS; /* no block is in the window yet */
    for (uint8_t *r = t + HEADS; r < t + TABLES; r += RECORD) {
        if (state_of(load32(r)) != OWN) /* others name no block */
            continue;
        for (uint8_t *at = r + 4; at < r + RECORD; at += 8) {
            if (!some_stored(at))
                continue;
            for (unsigned i = 0; i < 8; i += 2)
                if (load16(at + i) & STORED)
                    settle_entry(&c, r, at + i);
        }
    }
    return c.k;
}

sweep_answer twin_compact(uint8_t *t, size_t tl, uint8_t *p, size_t pl, uint8_t *spare, size_t sl)
{
    struct store x;
    if (!well_formed(t, tl, pl, &x))
        return refused(SWEEP_BAD_TABLES);
    if (sl != PAGE)
        return refused(SWEEP_BAD_SPARE);
    unsigned used = pull_together(t, p, spare);
    store32(t, x.blocks << 19 | (used == x.blocks ? 0 : used) << 7);
    return refused(0);
}

/* ---- the front panel ---- */

enum { REGISTERS = 16 };
static const uint8_t reset_value[REGISTERS] = { 0 };
static const uint8_t writable[REGISTERS] = { 0x00, 0x00, 0x07, 0xff, 0xff, 0xff, 0xff };

sweep_answer twin_panel_reset(uint8_t *r, size_t rl)
{
    if (rl != REGISTERS)
        return refused(SWEEP_NO_REGISTER);
    memcpy(r, reset_value, REGISTERS);
    return refused(0);
}

sweep_answer twin_panel_read(const uint8_t *r, size_t rl, uint32_t offset)
{
    if (rl != REGISTERS || offset >= REGISTERS)
        return refused(SWEEP_NO_REGISTER);
    return answer(0, offset == SWEEP_PANEL_COMMAND ? reset_value[offset] : r[offset], 0, 0);
}

sweep_answer twin_panel_line(const uint8_t *r, size_t rl)
{
    if (rl != REGISTERS)
        return refused(SWEEP_NO_REGISTER);
    return answer(0, (r[SWEEP_PANEL_CAUSE] & r[SWEEP_PANEL_MASK]) != 0, 0, 0);
}

static inline uint8_t shown(uint32_t count) { return count > 255 ? 255 : (uint8_t)count; }

/* Runs the command and shows what it gave; a value that is no command leaves all but the cause. */
static void run_command(uint8_t *r, uint8_t *t, size_t tl, uint8_t *p, size_t pl, uint8_t value)
{
    uint32_t set = r[SWEEP_PANEL_SET], file = r[SWEEP_PANEL_FILE], other = r[SWEEP_PANEL_OTHER];
    sweep_answer a;
    switch (value) {
    case SWEEP_PANEL_CREATE:
        a = twin_create(t, tl, p, pl, set, file);
        break;
    case SWEEP_PANEL_DELETE:
        a = twin_delete(t, tl, p, pl, set, file);
        break;
    case SWEEP_PANEL_MAKE_READ_ONLY:
    case SWEEP_PANEL_MAKE_WRITEABLE:
        a = twin_make(t, tl, p, pl, set, other, value == SWEEP_PANEL_MAKE_WRITEABLE);
        break;
    case SWEEP_PANEL_REMOVE:
        a = twin_remove(t, tl, p, pl, set);
        break;
    default:
        r[SWEEP_PANEL_CAUSE] |= SWEEP_PANEL_REFUSED;
        return;
    }
    r[SWEEP_PANEL_NUMBER] = (uint8_t)a.number;
    r[SWEEP_PANEL_FIRST] = shown(a.first);
    r[SWEEP_PANEL_SECOND] = shown(a.second);
    r[SWEEP_PANEL_THIRD] = shown(a.third);
    r[SWEEP_PANEL_CAUSE] |= a.number ? SWEEP_PANEL_REFUSED : SWEEP_PANEL_ACCEPTED;
    if (a.third)
        r[SWEEP_PANEL_CAUSE] |= SWEEP_PANEL_MARKED;
}

sweep_answer twin_panel_write(uint8_t *r, size_t rl, uint8_t *t, size_t tl, uint8_t *p, size_t pl, uint32_t offset,
                              uint8_t value)
{
    if (rl != REGISTERS || offset >= REGISTERS)
        return refused(SWEEP_NO_REGISTER);
    uint8_t mask = writable[offset];
    if (offset == SWEEP_PANEL_COMMAND)
        run_command(r, t, tl, p, pl, value);
    else if (offset == SWEEP_PANEL_CAUSE)
        r[offset] &= (uint8_t) ~(value & mask);
    else
        r[offset] = (uint8_t)((r[offset] & ~mask) | (value & mask));
    return refused(0);
}
