#include "bench_trace.h"
#include <stdio.h>

int main(void) {
    struct bench_trace_settings settings = {2, MOKA_TRACE_UNLIMITED, MOKA_TRACE_UNLIMITED, 0, 0, false, false, 1, 0, false};
    struct bench_trace_operation operations[] = {{7, 1, MOKA_TRACE_INSERT}, {7, 0, MOKA_TRACE_GET}};
    struct bench_trace_outcome outcome;
    if (bench_trace_play(&settings, operations, 2, &outcome) != MOKA_TRACE_DONE)
        return 1;
    printf("%llu hits\n", (unsigned long long)outcome.hits);
    return 0;
}
