/* The target for libFuzzer: any bytes are a list of calls. What was run is told at the end. */
#include <stdlib.h>
#include "calls.h"
#include "lists.h"

int LLVMFuzzerInitialize(int *count, char ***words);
int LLVMFuzzerTestOneInput(const uint8_t *data, size_t length);

static void show(void)
{
    show_totals(&exported);
}

int LLVMFuzzerInitialize(int *count, char ***words)
{
    (void)count;
    (void)words;
    return atexit(show);
}

int LLVMFuzzerTestOneInput(const uint8_t *data, size_t length)
{
    run_list(data, length, call_plainly);
    return 0;
}
