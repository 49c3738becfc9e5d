/*
 * Tests the shares of include/mini_moka.h: the window, its growth in an adaptive cache, and the entries that are protected. It is linked with --wrap for malloc
 * and realloc. Prints each check that fails with its line, and exits with status 1 then.
 */
#include "check.h"
#include "mini_moka.h"
#include "mini_moka_segments.h"
#include <string.h>

#define NONE MINI_MOKA_UNLIMITED

enum { BEFORE = 99, CAPACITY = 1000 };

/* ---- refused memory */

void *__real_malloc(size_t size);
void *__real_realloc(void *block, size_t size);

static int allocations, refused = -1; /* number of allocations so far, and the one that is refused, or -1 */

static bool refuses(void) {
    return allocations++ == refused;
}

void *__wrap_malloc(size_t size) {
    return refuses() ? NULL : __real_malloc(size);
}

void *__wrap_realloc(void *block, size_t size) {
    return refuses() ? NULL : __real_realloc(block, size);
}

/* ---- caches of numbers and of bytes */

/* Returns the number that mini_moka_count or mini_moka_window writes. */
static uint64_t number_of(uint32_t (*call)(struct mini_moka *, uint64_t *), struct mini_moka *cache) {
    uint64_t number = BEFORE;
    CHECK(call(cache, &number) == MINI_MOKA_DONE);
    return number;
}

static uint64_t window_of(struct mini_moka *cache) {
    return number_of(mini_moka_window, cache);
}

static struct mini_moka_u64_settings adaptive_numbers(uint64_t capacity) {
    struct mini_moka_u64_settings settings = MINI_MOKA_U64_ADAPTIVE_SETTINGS_INIT;
    settings.capacity = capacity;
    return settings;
}

/* Inserts numbers from `first` on, each twice: a second time when `apart` others were inserted once. Between the two a small window gives it up. */
static void insert_and_return(struct mini_moka *cache, uint64_t first, uint64_t count, uint64_t apart) {
    uint64_t value;
    for (uint64_t key = first; key < first + count; key++) {
        CHECK(mini_moka_u64_get_or_insert(cache, key, key, 0, &value) == MINI_MOKA_DONE && value == key);
        if (key >= first + apart)
            CHECK(mini_moka_u64_get_or_insert(cache, key - apart, key - apart, 0, &value) == MINI_MOKA_DONE);
    }
}

/* The same with keys of eight bytes. */
static void insert_bytes_and_return(struct mini_moka *cache, uint64_t count, uint64_t apart) {
    for (uint64_t key = 0; key < count; key++) {
        uint64_t earlier = key - apart;
        CHECK(mini_moka_insert(cache, &key, sizeof key, &key, sizeof key, 0) == MINI_MOKA_DONE);
        if (key >= apart)
            CHECK(mini_moka_insert(cache, &earlier, sizeof earlier, &key, sizeof key, 0) == MINI_MOKA_DONE);
    }
}

/* Tests that a walk visits these keys in this order. */
static void visits(struct mini_moka *cache, const uint64_t *keys, size_t count) {
    uint64_t key, value;
    CHECK(mini_moka_walk(cache) == MINI_MOKA_DONE);
    for (size_t i = 0; i < count; i++)
        CHECK(mini_moka_u64_next(cache, 0, &key, &value) == MINI_MOKA_DONE && key == keys[i]);
    CHECK(mini_moka_u64_next(cache, 0, &key, &value) == MINI_MOKA_ABSENT);
}

/* ---- settings */

/* Opens a cache of each kind, and of segments, with these shares. Tests the status. */
static void opens(uint8_t window, uint8_t protected, bool is_adaptive, uint32_t status) {
    struct mini_moka cache = {0};
    struct mini_moka_segments segments = {0};
    struct mini_moka_settings bytes = MINI_MOKA_SETTINGS_INIT;
    struct mini_moka_u64_settings numbers = MINI_MOKA_U64_SETTINGS_INIT;
    uint32_t closed = status == MINI_MOKA_DONE ? MINI_MOKA_DONE : MINI_MOKA_CLOSED;
    bytes.window_share = numbers.window_share = window;
    bytes.protected_share = numbers.protected_share = protected;
    bytes.is_adaptive = numbers.is_adaptive = is_adaptive;
    CHECK(mini_moka_open(&cache, &bytes) == status && mini_moka_close(&cache) == closed);
    CHECK(mini_moka_u64_open(&cache, &numbers) == status && mini_moka_close(&cache) == closed);
    CHECK(mini_moka_segments_open(&segments, &bytes, 2) == status && mini_moka_segments_close(&segments) == closed);
    /* A duration of 0 is reported first. */
    bytes.time_to_live = numbers.time_to_idle = 0;
    CHECK(mini_moka_open(&cache, &bytes) == MINI_MOKA_ZERO_DURATION && mini_moka_u64_open(&cache, &numbers) == MINI_MOKA_ZERO_DURATION);
}

static void shares_above_100_are_refused(void) {
    for (int is_adaptive = 0; is_adaptive < 2; is_adaptive++) {
        opens(100, 100, is_adaptive, MINI_MOKA_DONE);
        opens(101, 100, is_adaptive, MINI_MOKA_SHARE_TOO_LARGE);
        opens(100, 101, is_adaptive, MINI_MOKA_SHARE_TOO_LARGE);
        opens(UINT8_MAX, 0, is_adaptive, MINI_MOKA_SHARE_TOO_LARGE);
        opens(0, UINT8_MAX, is_adaptive, MINI_MOKA_SHARE_TOO_LARGE);
    }
}

/* The window's weight is its share of the capacity, rounded down, and 0 without a capacity. A closed handle has none. */
static void windows_are_shares_of_the_capacity(void) {
    const struct {
        uint64_t capacity;
        uint8_t share;
        uint64_t window;
    } rows[] = {{1000, 1, 10}, {1000, 20, 200}, {99, 1, 0}, {99, 50, 49}, {7, 100, 7}, {1000, 0, 0}, {NONE, 100, 0}, {NONE - 1, 100, NONE - 1}, {0, 100, 0}};
    struct mini_moka cache = {0};
    uint64_t weight = BEFORE;
    CHECK(mini_moka_window(&cache, &weight) == MINI_MOKA_CLOSED && weight == BEFORE);
    for (size_t i = 0; i < sizeof rows / sizeof *rows; i++) {
        for (int is_adaptive = 0; is_adaptive < 2; is_adaptive++) {
            struct mini_moka_settings bytes = MINI_MOKA_SETTINGS_INIT;
            struct mini_moka_u64_settings numbers = MINI_MOKA_U64_SETTINGS_INIT;
            bytes.capacity = numbers.capacity = rows[i].capacity;
            bytes.window_share = numbers.window_share = rows[i].share;
            bytes.is_adaptive = numbers.is_adaptive = is_adaptive;
            CHECK(mini_moka_u64_open(&cache, &numbers) == MINI_MOKA_DONE && window_of(&cache) == rows[i].window);
            CHECK(mini_moka_close(&cache) == MINI_MOKA_DONE);
            bytes.is_weighed = i % 2 == 0;
            CHECK(mini_moka_open(&cache, &bytes) == MINI_MOKA_DONE && window_of(&cache) == rows[i].window);
            CHECK(mini_moka_close(&cache) == MINI_MOKA_DONE);
        }
    }
}

/* The initial settings of both kinds have a window of 1 percent, and those of adaptive caches protect 80 percent of the rest. */
static void initial_settings_have_their_shares(void) {
    struct mini_moka_settings bytes = MINI_MOKA_SETTINGS_INIT, adaptive_bytes = MINI_MOKA_ADAPTIVE_SETTINGS_INIT;
    struct mini_moka_u64_settings numbers = MINI_MOKA_U64_SETTINGS_INIT, adaptive = MINI_MOKA_U64_ADAPTIVE_SETTINGS_INIT;
    CHECK(bytes.window_share == 1 && bytes.protected_share == 0 && !bytes.is_adaptive && !bytes.is_weighed && bytes.removed_room == 0);
    CHECK(numbers.window_share == 1 && numbers.protected_share == 0 && !numbers.is_adaptive && numbers.removed_room == 0);
    CHECK(adaptive_bytes.window_share == 1 && adaptive_bytes.protected_share == 80 && adaptive_bytes.is_adaptive && !adaptive_bytes.is_weighed);
    CHECK(adaptive.window_share == 1 && adaptive.protected_share == 80 && adaptive.is_adaptive && adaptive.removed_room == 0);
    CHECK(!numbers.is_weighed && !adaptive.is_weighed);
    CHECK(adaptive_bytes.capacity == NONE && adaptive_bytes.time_to_live == NONE && adaptive_bytes.time_to_idle == NONE);
    CHECK(adaptive.capacity == NONE && adaptive.time_to_live == NONE && adaptive.time_to_idle == NONE);
}

/* ---- fixed shares */

/* A cache that is all window keeps the entries that were inserted last, and one without a window keeps those that were first. */
static void windows_keep_what_came_last(void) {
    const uint64_t first[] = {0, 1, 2, 3, 4}, last[] = {5, 6, 7, 8, 9}, both[] = {0, 1, 2, 8, 9};
    struct mini_moka cache = {0};
    struct mini_moka_u64_settings settings = MINI_MOKA_U64_SETTINGS_INIT;
    settings.capacity = 5;
    for (int share = 0; share <= 100; share += share == 0 ? 40 : 60) {
        settings.window_share = (uint8_t)share;
        CHECK(mini_moka_u64_open(&cache, &settings) == MINI_MOKA_DONE);
        for (uint64_t key = 0; key < 10; key++) {
            uint32_t status = share == 0 && key >= 5 ? MINI_MOKA_REJECTED : MINI_MOKA_DONE;
            CHECK(mini_moka_u64_insert(&cache, key, key, 0) == status);
        }
        visits(&cache, share == 0 ? first : share == 40 ? both : last, 5);
        CHECK(mini_moka_close(&cache) == MINI_MOKA_DONE);
    }
}

/* A protected entry leaves after all others. Entries above the protected share are protected no more, least recently used first. */
static void used_entries_are_protected(void) {
    const uint64_t none[] = {4, 0, 1, 2, 3, 5}, two[] = {4, 0, 1, 5, 2, 3}, all[] = {4, 5, 0, 1, 2, 3};
    const uint8_t shares[] = {0, 20, 100};
    const uint64_t *const orders[] = {none, two, all};
    struct mini_moka cache = {0};
    struct mini_moka_u64_settings settings = MINI_MOKA_U64_SETTINGS_INIT;
    uint64_t value;
    settings.capacity = 10;
    settings.window_share = 0;
    for (size_t i = 0; i < 3; i++) {
        settings.protected_share = shares[i];
        CHECK(mini_moka_u64_open(&cache, &settings) == MINI_MOKA_DONE);
        for (uint64_t key = 0; key < 5; key++)
            CHECK(mini_moka_u64_insert(&cache, key, key, 0) == MINI_MOKA_DONE);
        for (uint64_t key = 0; key < 4; key++)
            CHECK(mini_moka_u64_get(&cache, key, 0, &value) == MINI_MOKA_DONE);
        CHECK(mini_moka_u64_insert(&cache, 5, 5, 0) == MINI_MOKA_DONE);
        visits(&cache, orders[i], 6);
        CHECK(mini_moka_close(&cache) == MINI_MOKA_DONE);
    }
}

/* ---- adaptive caches */

/* A window grows until returning keys are still in it, and not in a cache that isn't adaptive. It begins at its share. */
static void windows_grow(void) {
    struct mini_moka cache = {0};
    for (int is_adaptive = 0; is_adaptive < 2; is_adaptive++) {
        struct mini_moka_u64_settings numbers = adaptive_numbers(CAPACITY);
        struct mini_moka_settings bytes = MINI_MOKA_ADAPTIVE_SETTINGS_INIT;
        bytes.capacity = CAPACITY;
        numbers.is_adaptive = bytes.is_adaptive = is_adaptive;
        for (uint8_t share = 1; share <= 3; share += 2) {
            numbers.window_share = share;
            CHECK(mini_moka_u64_open(&cache, &numbers) == MINI_MOKA_DONE);
            insert_and_return(&cache, 0, CAPACITY / 2 - 1, 40);
            CHECK(window_of(&cache) == share * (uint64_t)10);
            insert_and_return(&cache, 2 * CAPACITY, 5 * CAPACITY, 40);
            CHECK(is_adaptive ? window_of(&cache) >= 40 && window_of(&cache) < 120 : window_of(&cache) == share * (uint64_t)10);
            CHECK(number_of(mini_moka_count, &cache) == CAPACITY && mini_moka_close(&cache) == MINI_MOKA_DONE);
        }
        CHECK(mini_moka_open(&cache, &bytes) == MINI_MOKA_DONE);
        insert_bytes_and_return(&cache, 5 * CAPACITY, 20);
        CHECK(is_adaptive ? window_of(&cache) >= 20 && window_of(&cache) < 80 : window_of(&cache) == 10);
        CHECK(number_of(mini_moka_count, &cache) == CAPACITY && mini_moka_close(&cache) == MINI_MOKA_DONE);
    }
}

/* Opens a cache with a queue, and fills it with the keys from 0 on, which are used more than any that comes later. */
static void open_full(struct mini_moka *cache, uint64_t capacity, uint8_t share) {
    struct mini_moka_u64_settings settings = adaptive_numbers(capacity);
    uint64_t value;
    settings.window_share = share;
    settings.removed_room = 10 * CAPACITY;
    CHECK(mini_moka_u64_open(cache, &settings) == MINI_MOKA_DONE);
    for (uint64_t key = 0; key < capacity; key++)
        CHECK(mini_moka_u64_insert(cache, key, key, 0) == MINI_MOKA_DONE);
    for (uint64_t key = 0; key < 8 * capacity; key++)
        CHECK(mini_moka_u64_get(cache, key % capacity, 0, &value) == MINI_MOKA_DONE && value == key % capacity);
}

/* Inserts a new key, and again those that the window then gives up. Adds the first keys that leave to `given`, and returns their number. */
static size_t insert_what_leaves(struct mini_moka *cache, uint64_t new_key, uint64_t *given) {
    uint64_t key, value;
    uint32_t cause;
    size_t count = 0;
    CHECK(mini_moka_u64_insert(cache, new_key, new_key, 0) == MINI_MOKA_DONE);
    for (int i = 0; i < 3 && mini_moka_u64_removed(cache, &key, &value, &cause) == MINI_MOKA_DONE; i++) {
        CHECK(cause == MINI_MOKA_CAUSE_SIZE && value == key);
        if (key < CAPACITY)
            given[count++] = key;
        else
            CHECK(mini_moka_u64_insert(cache, key, key, 0) == MINI_MOKA_DONE);
    }
    return count;
}

/* A window grows to 80 percent at most. A larger share stays. */
static void windows_are_bounded(void) {
    struct mini_moka cache = {0};
    uint64_t given[3];
    for (uint8_t share = 1; share <= 90; share += 89) {
        open_full(&cache, 100, share);
        for (uint64_t key = CAPACITY; key < 2 * CAPACITY; key++) {
            uint64_t before = window_of(&cache);
            insert_what_leaves(&cache, key, given);
            CHECK(window_of(&cache) >= before && number_of(mini_moka_count, &cache) <= 100);
        }
        CHECK(window_of(&cache) == (share == 1 ? 80 : 90) && mini_moka_close(&cache) == MINI_MOKA_DONE);
    }
}

/* A window shrinks if keys return that were evicted from outside of it, but not below its share. */
static void windows_shrink(void) {
    struct mini_moka cache = {0};
    uint64_t given[CAPACITY], before = 0;
    size_t count = 0;
    open_full(&cache, CAPACITY, 1);
    for (uint64_t key = CAPACITY; window_of(&cache) < 60 && key < 2 * CAPACITY; key++)
        count += insert_what_leaves(&cache, key, given + count);
    before = window_of(&cache);
    CHECK(before == 60 && count >= 50);
    for (size_t i = 0; i < count; i++) {
        /* The last ten of the first keys were in the window. The others were outside of it. */
        if (given[i] >= CAPACITY - 10)
            continue;
        CHECK(mini_moka_u64_insert(&cache, given[i], 0, 0) == MINI_MOKA_DONE && window_of(&cache) <= before);
        before = window_of(&cache);
    }
    CHECK(before == 10 && mini_moka_close(&cache) == MINI_MOKA_DONE);
}

/* Without a capacity, or a share of 0, a cache has no window to adapt. */
static void caches_without_a_window_do_not_adapt(void) {
    struct mini_moka cache = {0};
    struct mini_moka_u64_settings settings = adaptive_numbers(NONE);
    CHECK(mini_moka_u64_open(&cache, &settings) == MINI_MOKA_DONE);
    insert_and_return(&cache, 0, 3 * CAPACITY, 40);
    CHECK(window_of(&cache) == 0 && mini_moka_close(&cache) == MINI_MOKA_DONE);
    settings.capacity = CAPACITY;
    settings.window_share = 0;
    CHECK(mini_moka_u64_open(&cache, &settings) == MINI_MOKA_DONE);
    insert_and_return(&cache, 0, 3 * CAPACITY, 40);
    CHECK(window_of(&cache) == 0 && mini_moka_close(&cache) == MINI_MOKA_DONE);
}

/* Each entry is in the cache or was drained, once for each time that it was inserted, while the window grows and shrinks. */
static void queues_of_adaptive_caches_lose_nothing(void) {
    enum { KEYS = 3000 };
    static int there[KEYS];
    struct mini_moka cache = {0};
    struct mini_moka_u64_settings settings = adaptive_numbers(200);
    struct mini_moka_statistics met;
    uint64_t key, value, left = 0, remain = 0, least = NONE, most = 0;
    uint32_t cause;
    settings.removed_room = 8;
    CHECK(mini_moka_u64_open(&cache, &settings) == MINI_MOKA_DONE);
    for (uint64_t i = 0; i < 20000; i++) {
        key = i % 2 == 0 ? i / 2 % KEYS : (i / 2 + KEYS - 3 * (i / 500)) % KEYS;
        if (mini_moka_u64_peek(&cache, key, 0, &value) == MINI_MOKA_ABSENT)
            there[key]++;
        CHECK(mini_moka_u64_get_or_insert(&cache, key, key, 0, &value) == MINI_MOKA_DONE && value == key);
        while (mini_moka_u64_removed(&cache, &key, &value, &cause) == MINI_MOKA_DONE) {
            CHECK(key < KEYS && --there[key] == 0 && value == key && cause == MINI_MOKA_CAUSE_SIZE);
            left++;
        }
        least = window_of(&cache) < least ? window_of(&cache) : least;
        most = window_of(&cache) > most ? window_of(&cache) : most;
        CHECK(number_of(mini_moka_count, &cache) <= 200);
    }
    for (key = 0; key < KEYS; key++) {
        CHECK(there[key] == (mini_moka_u64_contains(&cache, key, 0) == MINI_MOKA_DONE));
        remain += (uint64_t)there[key];
    }
    CHECK(mini_moka_statistics(&cache, &met) == MINI_MOKA_DONE && met.lost == 0 && met.evictions == left && met.inserts == left + remain);
    CHECK(least == 2 && most > 20 && remain == number_of(mini_moka_count, &cache));
    CHECK(mini_moka_close(&cache) == MINI_MOKA_DONE);
}

/* The window of segments is the sum of theirs, and each adapts. */
static void segments_adapt(void) {
    struct mini_moka_segments cache = {0};
    struct mini_moka_settings settings = MINI_MOKA_ADAPTIVE_SETTINGS_INIT;
    uint64_t weight = BEFORE, sum = 0, part;
    CHECK(mini_moka_segments_window(&cache, &weight) == MINI_MOKA_CLOSED && weight == BEFORE);
    settings.capacity = CAPACITY;
    CHECK(mini_moka_segments_open(&cache, &settings, 2) == MINI_MOKA_DONE);
    CHECK(mini_moka_segments_window(&cache, &weight) == MINI_MOKA_DONE && weight == 10);
    for (uint64_t key = 0; key < 5 * CAPACITY; key++) {
        uint64_t earlier = key - 20;
        CHECK(mini_moka_segments_insert(&cache, &key, sizeof key, &key, sizeof key, 0) == MINI_MOKA_DONE);
        if (key >= 20)
            CHECK(mini_moka_segments_insert(&cache, &earlier, sizeof earlier, &key, sizeof key, 0) == MINI_MOKA_DONE);
    }
    for (size_t i = 0; i < 2; i++) {
        CHECK(mini_moka_window(&cache.segments[i].in.cache, &part) == MINI_MOKA_DONE && part > 10);
        sum += part;
    }
    CHECK(mini_moka_segments_window(&cache, &weight) == MINI_MOKA_DONE && weight == sum && mini_moka_segments_close(&cache) == MINI_MOKA_DONE);
}

/* ---- refused memory */

/*
 * A cache that is opened for its capacity has its counters then. The insert that makes it half full allocates two tables of tags, and is done if memory for one
 * is refused; then the cache never adapts.
 */
static void refused_tables_are_no_error(void) {
    for (int which = -1; which < 2; which++) {
        struct mini_moka cache = {0};
        struct mini_moka_u64_settings settings = adaptive_numbers(CAPACITY);
        int asked = which < 0 ? 2 : which + 1;
        settings.initial_capacity = CAPACITY + 1;
        CHECK(mini_moka_u64_open(&cache, &settings) == MINI_MOKA_DONE);
        allocations = 0;
        for (uint64_t key = 0; key < CAPACITY / 2 - 1; key++)
            CHECK(mini_moka_u64_insert(&cache, key, key, 0) == MINI_MOKA_DONE);
        CHECK(allocations == 0);
        refused = which;
        CHECK(mini_moka_u64_insert(&cache, CAPACITY, 0, 0) == MINI_MOKA_DONE && allocations == asked);
        refused = -1;
        CHECK(mini_moka_u64_insert(&cache, CAPACITY + 1, 0, 0) == MINI_MOKA_DONE && allocations == asked);
        insert_and_return(&cache, 2 * CAPACITY, 5 * CAPACITY, 40);
        CHECK(which < 0 ? window_of(&cache) >= 40 : window_of(&cache) == 10);
        CHECK(allocations == asked && number_of(mini_moka_count, &cache) == CAPACITY);
        CHECK(mini_moka_close(&cache) == MINI_MOKA_DONE);
    }
}

/* Returns the number of allocations that opening a cache takes. If one of them is refused, the handle stays closed. */
static int allocations_to_open(size_t initial_capacity) {
    struct mini_moka cache = {0};
    struct mini_moka_u64_settings settings = adaptive_numbers(CAPACITY);
    settings.initial_capacity = initial_capacity;
    uint32_t status = MINI_MOKA_OUT_OF_MEMORY;
    int which = -1;
    while (status != MINI_MOKA_DONE) {
        allocations = 0;
        refused = ++which;
        status = mini_moka_u64_open(&cache, &settings);
        refused = -1;
        CHECK(status == MINI_MOKA_DONE || (status == MINI_MOKA_OUT_OF_MEMORY && mini_moka_close(&cache) == MINI_MOKA_CLOSED));
    }
    CHECK(mini_moka_close(&cache) == MINI_MOKA_DONE);
    return which;
}

/* The counters are allocated at the opening from half of the capacity on. */
static void counters_are_allocated_with_half_of_the_capacity(void) {
    int fewer = allocations_to_open(CAPACITY / 2 - 1);
    CHECK(fewer > 0 && allocations_to_open(CAPACITY / 2) == fewer + 1 && allocations_to_open(CAPACITY) == fewer + 1);
}

int main(void) {
    shares_above_100_are_refused();
    windows_are_shares_of_the_capacity();
    initial_settings_have_their_shares();
    windows_keep_what_came_last();
    used_entries_are_protected();
    windows_grow();
    windows_are_bounded();
    windows_shrink();
    caches_without_a_window_do_not_adapt();
    queues_of_adaptive_caches_lose_nothing();
    segments_adapt();
    refused_tables_are_no_error();
    counters_are_allocated_with_half_of_the_capacity();
    return failures != 0;
}
