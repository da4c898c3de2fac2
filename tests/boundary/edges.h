/* For the tests of edges: a caller's buffers, calls on them that are compared with the judge, and what must come of each. */
#ifndef EDGES_H
#define EDGES_H

#include "calls.h"

extern struct buffers world;
extern int wrong; /* whether something else came */

/* Does a call on the buffers, with the numbers that it is told. */
sweep_answer do_it(unsigned name, const uint32_t *numbers, int count);
#define DO(name, ...) do_it(name, (const uint32_t[]){__VA_ARGS__}, sizeof((const uint32_t[]){__VA_ARGS__}) / sizeof(uint32_t))
#define CALL(name) do_it(name, (const uint32_t[]){0}, 0)

void expect(const char *what, uint32_t given, uint32_t wanted);

#endif
