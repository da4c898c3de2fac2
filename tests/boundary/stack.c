/* The stack that the calls use: stack SEED SECONDS. Each call runs on a stack of its own that was painted before; what is not
 * paint afterwards was used. Exit status: 0, or 1 if a call used more than LIMIT bytes. Built without sanitizers. */
#define _DEFAULT_SOURCE
#include <stdio.h>
#include <stdlib.h>
#include <string.h>
#include <time.h>
#include <ucontext.h>
#include "calls.h"
#include "lists.h"

enum { STACK = 65536, LIMIT = 4096, PAINT = 0xD6 };
static _Alignas(64) uint8_t stack[STACK];
static ucontext_t here, there;
static size_t most[CALLS + 1]; /* the last: a call that does nothing */

static struct {
    const struct call *call;
    sweep_answer answer;
} job;

static void do_job(void)
{
    if (job.call)
        job.answer = call_plainly(job.call);
}

static void run_job(unsigned name)
{
    getcontext(&there);
    there.uc_stack.ss_sp = stack;
    there.uc_stack.ss_size = STACK;
    there.uc_link = &here;
    makecontext(&there, do_job, 0);
    swapcontext(&here, &there);
    size_t unused = 0;
    while (unused < STACK && stack[unused] == PAINT)
        unused++;
    if (STACK - unused > most[name])
        most[name] = STACK - unused;
    memset(stack + unused, PAINT, STACK - unused);
}

static sweep_answer call_on_painted_stack(const struct call *call)
{
    job.call = call;
    run_job(call->name);
    return job.answer;
}

int main(int count, char **words)
{
    if (count != 3)
        return 2;
    uint64_t state = strtoull(words[1], 0, 10);
    time_t end = time(0) + strtol(words[2], 0, 10);
    memset(stack, PAINT, STACK);
    job.call = 0;
    run_job(CALLS);
    do {
        uint8_t data[1000];
        for (size_t i = 0; i < sizeof data; i++) {
            state = state * 6364136223846793005u + 1442695040888963407u;
            data[i] = (uint8_t)(state >> 40);
        }
        run_list(data, sizeof data, call_on_painted_stack);
    } while (time(0) < end);
    size_t largest = 0;
    for (int name = 0; name < CALLS; name++) {
        printf("stack of %s: %lu bytes\n", exported.functions[name].name, (unsigned long)(most[name] - most[CALLS]));
        if (most[name] - most[CALLS] > largest)
            largest = most[name] - most[CALLS];
    }
    printf("stack: largest %lu bytes, limit %d\n", (unsigned long)largest, LIMIT);
    return largest > LIMIT;
}
