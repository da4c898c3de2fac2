/* For the tests of edges: a caller's buffers, calls on them that are compared with the judge, and what must come of each. */
#include <stdio.h>
#include <string.h>
#include "edges.h"

struct buffers world;
int wrong;

sweep_answer do_it(unsigned name, const uint32_t *numbers, int count)
{
    static unsigned turns;
    struct call call = {name, {0}, {{0, 0}}};
    memcpy(call.n, numbers, sizeof *numbers * (size_t)count);
    return do_call(&exported, call_plainly, &world, &call, turns++);
}

void expect(const char *what, uint32_t given, uint32_t wanted)
{
    if (given == wanted)
        return;
    printf("edges: %s: %lu, not %lu\n", what, (unsigned long)given, (unsigned long)wanted);
    wrong = 1;
}
