/*
 * Prints the cost of the library's caches: bytes per entry of a full cache, and the longest insert while it fills, with and without an initial_capacity. Times
 * are in milliseconds of processor time. The argument is the number of entries. Each cache is filled five times, and the shortest of the five longest inserts
 * counts, since the system may interrupt an insert.
 */
#include "mini_moka.h"
#include <inttypes.h>
#include <malloc.h>
#include <stdio.h>
#include <stdlib.h>
#include <string.h>
#include <time.h>

#define TIMES 5

/* Returns the bytes that malloc has allocated, with its own headers. */
static uint64_t in_use(void) {
    struct mallinfo2 info = mallinfo2();
    return info.uordblks + info.hblkhd;
}

static uint64_t now(void) {
    struct timespec time;
    clock_gettime(CLOCK_THREAD_CPUTIME_ID, &time);
    return (uint64_t)time.tv_sec * UINT64_C(1000000000) + (uint64_t)time.tv_nsec;
}

/* The cost of filling a cache once. */
struct cost {
    double bytes_an_entry;
    uint64_t longest;
};

/* Fills a cache with keys and values of these lengths, or with numbers if key_length is 0. */
static struct cost fill(uint64_t entries, size_t key_length, size_t value_length, bool reserves) {
    struct mini_moka cache = {0};
    struct mini_moka_settings bytes = MINI_MOKA_SETTINGS_INIT;
    struct mini_moka_u64_settings numbers = MINI_MOKA_U64_SETTINGS_INIT;
    struct cost cost = {0, 0};
    char key[64] = "", value[64] = "";
    uint64_t before = in_use();
    bytes.capacity = numbers.capacity = entries;
    bytes.initial_capacity = numbers.initial_capacity = reserves ? entries : 0;
    uint32_t status = key_length == 0 ? mini_moka_u64_open(&cache, &numbers) : mini_moka_open(&cache, &bytes);
    for (uint64_t i = 0; i < entries && status == MINI_MOKA_DONE; i++) {
        memcpy(key, &i, sizeof i);
        uint64_t begin = now();
        status = key_length == 0 ? mini_moka_u64_insert(&cache, i, i, 0) : mini_moka_insert(&cache, key, key_length, value, value_length, 0);
        uint64_t time = now() - begin;
        if (time > cost.longest)
            cost.longest = time;
    }
    if (status != MINI_MOKA_DONE) {
        fprintf(stderr, "%s\n", mini_moka_status_text(status));
        exit(1);
    }
    cost.bytes_an_entry = (double)(in_use() - before) / (double)entries;
    mini_moka_close(&cache);
    return cost;
}

/* Prints the costs of one kind of cache. */
static void print_costs(const char *kind, uint64_t entries, size_t key_length, size_t value_length) {
    struct cost grows = {0, UINT64_MAX}, reserves = {0, UINT64_MAX};
    for (int i = 0; i < TIMES; i++) {
        struct cost once = fill(entries, key_length, value_length, false);
        grows.bytes_an_entry = once.bytes_an_entry;
        grows.longest = once.longest < grows.longest ? once.longest : grows.longest;
        once = fill(entries, key_length, value_length, true);
        reserves.longest = once.longest < reserves.longest ? once.longest : reserves.longest;
    }
    printf("%-44s %6.0f bytes per entry, longest insert %8.3f ms, with initial_capacity %8.3f ms\n", kind, grows.bytes_an_entry, (double)grows.longest / 1e6,
           (double)reserves.longest / 1e6);
}

int main(int count, char **words) {
    uint64_t entries = count > 1 ? strtoull(words[1], NULL, 10) : 1000000;
    printf("%" PRIu64 " entries\n", entries);
    print_costs("numbers", entries, 0, 0);
    print_costs("keys of 16 bytes, values of 64", entries, 16, 64);
    print_costs("keys of 32 bytes, values of 64", entries, 32, 64);
    return 0;
}
