/* Two images and a checksum: how the firmware keeps a store over a power cut. The store itself works in memory and knows
 * nothing of this. An image is a sequence number, tables, pages and a checksum over all three; there are two places for it.
 * save() writes the place that does not hold the newest good image, the checksum last; load() takes the newest good one.
 * So a cut at any byte leaves the image before it. main() tries cuts all over an image; see two_images.out. */
#include <stdio.h>
#include <string.h>
#include "sweep.h"

enum { BLOCKS = 8, PAGES_BYTES = BLOCKS * SWEEP_PAGE_BYTES };
enum { BODY_BYTES = 4 + SWEEP_TABLES_BYTES + PAGES_BYTES, IMAGE_BYTES = BODY_BYTES + 4 };

static uint8_t tables[SWEEP_TABLES_BYTES], pages[PAGES_BYTES];
#define STORE tables, sizeof tables, pages, sizeof pages

/* The memory that keeps its bytes without power; here an array and a count of bytes until the cut. */
static uint8_t flash[2][IMAGE_BYTES];
static long until_cut;

static void flash_write(int place, size_t at, const uint8_t *data, size_t length)
{
    for (size_t i = 0; i < length && until_cut > 0; i++, until_cut--)
        flash[place][at + i] = data[i];
}

static uint32_t get32(const uint8_t *at)
{
    return (uint32_t)at[0] << 24 | (uint32_t)at[1] << 16 | (uint32_t)at[2] << 8 | at[3];
}

static void put32(uint8_t *at, uint32_t value)
{
    for (int i = 0; i < 4; i++)
        at[i] = (uint8_t)(value >> (24 - 8 * i));
}

static uint32_t crc32(uint32_t crc, const uint8_t *data, size_t length)
{
    crc = ~crc;
    for (size_t i = 0; i < length; i++) {
        crc ^= data[i];
        for (int bit = 0; bit < 8; bit++)
            crc = crc >> 1 ^ (crc & 1 ? 0xEDB88320u : 0);
    }
    return ~crc;
}

/* The place with the newest good image, or -1. Sequence numbers may go round: the later is less than 2^31 ahead. */
static int newest(void)
{
    int best = -1;
    for (int place = 0; place < 2; place++) {
        const uint8_t *image = flash[place];
        int good = crc32(0, image, BODY_BYTES) == get32(image + BODY_BYTES);
        if (good && (best < 0 || get32(image) - get32(flash[best]) < 0x80000000u))
            best = place;
    }
    return best;
}

static void save(void)
{
    uint8_t number[4], check[4];
    int old = newest(), place = old == 0 ? 1 : 0;
    put32(number, old < 0 ? 1 : get32(flash[old]) + 1);
    uint32_t crc = crc32(0, number, 4);
    crc = crc32(crc, tables, sizeof tables);
    put32(check, crc32(crc, pages, sizeof pages));
    flash_write(place, 0, number, 4);
    flash_write(place, 4, tables, sizeof tables);
    flash_write(place, 4 + sizeof tables, pages, sizeof pages);
    flash_write(place, BODY_BYTES, check, 4); /* last: without it the image does not count */
}

/* Takes the newest good image into memory. 0: there is none, or the store does not know it (number 1); format then. */
static int load(void)
{
    int place = newest();
    if (place < 0)
        return 0;
    memcpy(tables, flash[place] + 4, sizeof tables);
    if (sweep_check_blocks(tables, sizeof tables).number != SWEEP_OK) /* the tables alone, before the pages are fetched */
        return 0;
    memcpy(pages, flash[place] + 4 + sizeof tables, sizeof pages);
    return sweep_check(STORE).number == SWEEP_OK;
}

/* A store of one sweep with its reference copy: `first` is kept by the copy, `second` stands in the set itself. */
static int fill_store(uint8_t first, uint8_t second)
{
    uint8_t sweep[1500];
    int bad = sweep_format(STORE).number != SWEEP_OK || sweep_create(STORE, 0, 0).number != SWEEP_OK;
    memset(sweep, first, sizeof sweep);
    bad = bad || sweep_write(STORE, 0, 0, 0, sweep, sizeof sweep).number != SWEEP_OK;
    bad = bad || sweep_make(STORE, 0, 1, 0).number != SWEEP_OK;
    memset(sweep, second, sizeof sweep);
    return bad || sweep_write(STORE, 0, 0, 0, sweep, sizeof sweep).number != SWEEP_OK;
}

static int shows(uint8_t first, uint8_t second)
{
    uint8_t copy[1500], now[1500];
    return sweep_read(STORE, 0, 0, 0, now, sizeof now).first == 1500 && now[0] == second && now[1499] == second
        && sweep_read(STORE, 1, 0, 0, copy, sizeof copy).first == 1500 && copy[0] == first && copy[1499] == first;
}

int main(void)
{
    static uint8_t kept[2][IMAGE_BYTES];
    int cuts = 0, old = 0, new = 0, torn = 0;
    until_cut = 4 * IMAGE_BYTES;
    if (load() || fill_store(10, 11))
        return 1;
    save();
    if (fill_store(20, 21))
        return 1;
    save();
    memcpy(kept, flash, sizeof kept);
    for (long cut = 0; cut <= IMAGE_BYTES; cut += cut < IMAGE_BYTES - 80 ? 61 : 1, cuts++) {
        memcpy(flash, kept, sizeof flash);
        if (fill_store(30, 31)) /* a day's work in memory, then a save that is cut */
            return 1;
        until_cut = cut;
        save();
        if (cut > 4 && cut < IMAGE_BYTES) { /* what number 1 alone says of the place that was being written */
            memcpy(tables, flash[0] + 4, sizeof tables);
            torn += sweep_check(STORE).number == SWEEP_OK;
        }
        if (!load())
            return 1;
        old += shows(20, 21);
        new += shows(30, 31);
    }
    printf("%d cuts: %d times the image before, %d times the new one, %d times neither\n", cuts, old, new, cuts - old - new);
    printf("%d of the cut images have well-formed tables: number 1 is no checksum\n", torn);
    return 0;
}
