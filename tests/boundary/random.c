/* Random lists of calls from a seed: random SEED SECONDS. Exit status 0, or the program aborts at a difference. */
#include <stdio.h>
#include <stdlib.h>
#include <time.h>
#include "calls.h"
#include "lists.h"

static uint64_t state;

static uint64_t word(void) /* splitmix64 */
{
    uint64_t z = state += 0x9E3779B97F4A7C15u;
    z = (z ^ z >> 30) * 0xBF58476D1CE4E5B9u;
    z = (z ^ z >> 27) * 0x94D049BB133111EBu;
    return z ^ z >> 31;
}

int main(int count, char **words)
{
    if (count != 3) {
        fprintf(stderr, "usage: random SEED SECONDS\n");
        return 2;
    }
    state = strtoull(words[1], 0, 10);
    time_t end = time(0) + strtol(words[2], 0, 10);
    unsigned long lists = 0;
    printf("seed %s, seconds %s\n", words[1], words[2]);
    do {
        uint8_t data[1500];
        size_t length = 20 + word() % (sizeof data - 20);
        for (size_t i = 0; i < length; i++)
            data[i] = (uint8_t)(word() >> 20);
        run_list(data, length, call_plainly);
        lists++;
    } while (time(0) < end);
    printf("lists %lu\n", lists);
    show_totals(&exported);
    return 0;
}
