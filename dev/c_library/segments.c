/*
 * Tests a cache of include/mini_moka_segments.h in one thread: each call, and a cache of one segment compared with a plain handle. It is linked with --wrap for
 * malloc, realloc, calloc and free. Prints the first check that fails, and exits with status 1 then.
 */
#include "segments.h"

enum { ROOM = 64 };

/* ---- allocations: the bytes that the library asks for, and the place of the segments */

void *__real_malloc(size_t size);
void *__real_realloc(void *block, size_t size);
void *__real_calloc(size_t count, size_t size);
void __real_free(void *block);

static bool is_counting;
static size_t allocated, shift, blocks, granted = SIZE_MAX;
static char *whole, *shifted;

/* Counts the bytes of a request, and returns true if it is refused: each is, once `granted` requests were not. */
static bool is_refused(size_t size) {
    if (is_counting)
        allocated += size;
    if (granted == 0)
        return true;
    if (granted != SIZE_MAX)
        granted--;
    return false;
}

void *__wrap_malloc(size_t size) {
    return is_refused(size) ? NULL : __real_malloc(size);
}

void *__wrap_realloc(void *block, size_t size) {
    return is_refused(size) ? NULL : __real_realloc(block, size);
}

/* Allocates `shift` bytes more, in front of the block, so that it isn't aligned as the C library aligns it. The block still ends where the allocation does. */
void *__wrap_calloc(size_t count, size_t size) {
    blocks++;
    if (shift == 0)
        return __real_calloc(count, size);
    whole = (char *)__real_calloc(1, count * size + shift);
    return shifted = whole == NULL ? NULL : whole + shift;
}

void __wrap_free(void *block) {
    __real_free(block != NULL && block == shifted ? whole : block);
}

/* ---- one thread */

/* Tests each call in one thread. */
static void calls_answer(void) {
    struct mini_moka_segments cache = {0};
    struct mini_moka_settings settings = MINI_MOKA_SETTINGS_INIT;
    struct mini_moka_statistics met;
    char buffer[ROOM];
    uint64_t number;
    size_t length;
    uint32_t cause;
    CHECK(mini_moka_segments_insert(&cache, "a", 1, "apple", 5, 0) == MINI_MOKA_CLOSED);
    CHECK(mini_moka_segments_insert_for(&cache, "a", 1, "apple", 5, 5, 0) == MINI_MOKA_CLOSED);
    CHECK(mini_moka_segments_removed(&cache, buffer, 8, buffer + 8, 8, &length, &(size_t){0}, &cause) == MINI_MOKA_CLOSED);
    CHECK(mini_moka_segments_get(&cache, "a", 1, 0, buffer, ROOM, &length) == MINI_MOKA_CLOSED);
    CHECK(mini_moka_segments_get_or_insert(&cache, "a", 1, "apple", 5, 0, buffer, ROOM, &length) == MINI_MOKA_CLOSED);
    CHECK(mini_moka_segments_peek(&cache, "a", 1, 0, buffer, ROOM, &length) == MINI_MOKA_CLOSED);
    CHECK(mini_moka_segments_remove(&cache, "a", 1, 0, buffer, ROOM, &length) == MINI_MOKA_CLOSED);
    CHECK(mini_moka_segments_contains(&cache, "a", 1, 0) == MINI_MOKA_CLOSED && mini_moka_segments_invalidate(&cache, "a", 1, 0) == MINI_MOKA_CLOSED);
    CHECK(mini_moka_segments_count(&cache, &number) == MINI_MOKA_CLOSED && mini_moka_segments_statistics(&cache, &met) == MINI_MOKA_CLOSED);
    CHECK(mini_moka_segments_remove_expired(&cache, 0) == MINI_MOKA_CLOSED);
    CHECK(mini_moka_segments_invalidate_all(&cache) == MINI_MOKA_CLOSED && mini_moka_segments_close(&cache) == MINI_MOKA_CLOSED);
    CHECK(mini_moka_segments_open(&cache, &settings, 0) == MINI_MOKA_DONE && mini_moka_segments_open(&cache, &settings, 0) == MINI_MOKA_ALREADY_OPEN);
    CHECK(mini_moka_segments_insert(&cache, "a", 1, "apple", 5, 0) == MINI_MOKA_DONE && mini_moka_segments_insert(&cache, "", 0, "", 0, 0) == MINI_MOKA_DONE);
    CHECK(mini_moka_segments_get(&cache, "a", 1, 0, buffer, ROOM, &length) == MINI_MOKA_DONE && length == 5 && memcmp(buffer, "apple", 5) == 0);
    CHECK(mini_moka_segments_get_or_insert(&cache, "", 0, "pear", 4, 0, buffer, ROOM, &length) == MINI_MOKA_DONE && length == 0);
    CHECK(mini_moka_segments_peek(&cache, "", 0, 0, buffer, ROOM, &length) == MINI_MOKA_DONE && length == 0);
    CHECK(mini_moka_segments_contains(&cache, "a", 1, 0) == MINI_MOKA_DONE && mini_moka_segments_contains(&cache, "b", 1, 0) == MINI_MOKA_ABSENT);
    CHECK(number_of(&cache, mini_moka_segments_count) == 2 && number_of(&cache, mini_moka_segments_weight) == 2);
    CHECK(mini_moka_segments_remove(&cache, "a", 1, 0, buffer, 4, &length) == MINI_MOKA_TOO_SHORT && length == 5);
    CHECK(mini_moka_segments_remove(&cache, "a", 1, 0, buffer, ROOM, &length) == MINI_MOKA_DONE);
    CHECK(mini_moka_segments_get(&cache, "a", 1, 0, buffer, ROOM, &length) == MINI_MOKA_ABSENT);
    CHECK(mini_moka_segments_invalidate(&cache, "", 0, 0) == MINI_MOKA_DONE && number_of(&cache, mini_moka_segments_count) == 0);
    CHECK(mini_moka_segments_statistics(&cache, &met) == MINI_MOKA_DONE && met.hits == 2 && met.misses == 1 && met.inserts == 2);
    CHECK(met.removals == 2 && met.updates + met.rejections + met.evictions + met.expirations == 0);
    CHECK(mini_moka_segments_close(&cache) == MINI_MOKA_DONE && mini_moka_segments_close(&cache) == MINI_MOKA_CLOSED);
    CHECK(cache.block == NULL && cache.segments == NULL && cache.count == 0);
}

/* Segments begin at multiples of their size, and lie within their allocation, wherever that is. */
static void segments_are_aligned(void) {
    struct mini_moka_settings settings = MINI_MOKA_SETTINGS_INIT;
    struct mini_moka_statistics met;
    size_t key_length, length;
    uint32_t cause;
    char buffer[2];
    for (shift = 0; shift < 2 * MINI_MOKA_SEGMENT_SIZE; shift += 16) {
        struct mini_moka_segments cache = {0};
        CHECK(mini_moka_segments_open(&cache, &settings, 3) == MINI_MOKA_DONE);
        CHECK((uintptr_t)cache.segments % MINI_MOKA_SEGMENT_SIZE == 0 && (uintptr_t)cache.segments - (uintptr_t)cache.block < MINI_MOKA_SEGMENT_SIZE);
        for (unsigned char key = 0; key < 100; key++)
            CHECK(mini_moka_segments_insert(&cache, &key, 1, &key, 1, 0) == MINI_MOKA_DONE);
        CHECK(number_of(&cache, mini_moka_segments_count) == 100 && number_of(&cache, mini_moka_segments_weight) == 100);
        CHECK(mini_moka_segments_statistics(&cache, &met) == MINI_MOKA_DONE && met.inserts == 100);
        CHECK(mini_moka_segments_removed(&cache, buffer, 1, buffer + 1, 1, &key_length, &length, &cause) == MINI_MOKA_ABSENT);
        CHECK(mini_moka_segments_invalidate_all(&cache) == MINI_MOKA_DONE && mini_moka_segments_close(&cache) == MINI_MOKA_DONE);
    }
    shift = 0;
}

/* The number of segments follows from the capacity. If a segment can't be opened, none stays open. */
static void segments_are_counted(void) {
    struct mini_moka_segments cache = {0};
    struct mini_moka_settings settings = MINI_MOKA_SETTINGS_INIT;
    const uint64_t capacities[] = {0, 99, 199, 200, 1599, 1600, MINI_MOKA_UNLIMITED};
    const size_t counts[] = {1, 1, 1, 2, 15, 16, 16};
    for (size_t i = 0; i < sizeof counts / sizeof *counts; i++) {
        settings.capacity = capacities[i];
        CHECK(mini_moka_segments_open(&cache, &settings, 0) == MINI_MOKA_DONE && cache.count == counts[i]);
        CHECK(mini_moka_segments_close(&cache) == MINI_MOKA_DONE);
    }
    CHECK(mini_moka_segments_open(&cache, &settings, 1000) == MINI_MOKA_DONE && cache.count == 1000 && mini_moka_segments_close(&cache) == MINI_MOKA_DONE);
    settings.is_weighed = true;
    settings.capacity = (1 << 21) - 1;
    CHECK(mini_moka_segments_open(&cache, &settings, 0) == MINI_MOKA_DONE && cache.count == 1 && mini_moka_segments_close(&cache) == MINI_MOKA_DONE);
    settings.capacity = 1 << 21;
    CHECK(mini_moka_segments_open(&cache, &settings, 0) == MINI_MOKA_DONE && cache.count == 2 && mini_moka_segments_close(&cache) == MINI_MOKA_DONE);
    blocks = 0;
    CHECK(mini_moka_segments_open(&cache, &settings, SIZE_MAX) == MINI_MOKA_OUT_OF_MEMORY && cache.segments == NULL);
    CHECK(mini_moka_segments_open(&cache, &settings, (size_t)UINT32_MAX + 1) == MINI_MOKA_OUT_OF_MEMORY && cache.segments == NULL && blocks == 0);
    settings.initial_capacity = SIZE_MAX;
    CHECK(mini_moka_segments_open(&cache, &settings, 3) == MINI_MOKA_OUT_OF_MEMORY && cache.segments == NULL);
    settings.time_to_idle = 0;
    CHECK(mini_moka_segments_open(&cache, &settings, 3) == MINI_MOKA_ZERO_DURATION && cache.segments == NULL);
}

/* The parts of the capacity add up to the whole, and each segment gets keys. */
static void capacity_is_spread(void) {
    struct mini_moka_segments cache = {0};
    struct mini_moka_settings settings = MINI_MOKA_SETTINGS_INIT;
    settings.capacity = 1003;
    settings.initial_capacity = 1003;
    CHECK(mini_moka_segments_open(&cache, &settings, 4) == MINI_MOKA_DONE);
    for (uint64_t key = 0; key < 20000; key++)
        CHECK(!mini_moka_is_error(mini_moka_segments_insert(&cache, &key, sizeof key, &key, sizeof key, 0)));
    CHECK(number_of(&cache, mini_moka_segments_count) == 1003);
    for (size_t i = 0; i < cache.count; i++) {
        uint64_t part = 0;
        CHECK(mini_moka_count(&cache.segments[i].in.cache, &part) == MINI_MOKA_DONE && part == (i < 3 ? 251 : 250));
    }
    CHECK(mini_moka_segments_invalidate_all(&cache) == MINI_MOKA_DONE && number_of(&cache, mini_moka_segments_count) == 0);
    CHECK(mini_moka_segments_close(&cache) == MINI_MOKA_DONE);
}

/* Each segment's queue has a part of removed_room, rounded up. Each removed entry is drained once, or lost. */
static void removed_entries_are_drained(void) {
    struct mini_moka_segments cache = {0};
    struct mini_moka_settings settings = MINI_MOKA_SETTINGS_INIT;
    struct mini_moka_statistics met;
    bool is_drained[100] = {false};
    unsigned char key, value;
    size_t key_length, value_length;
    uint32_t cause, status;
    uint64_t drained = 0;
    settings.capacity = 1000;
    settings.removed_room = 9;
    CHECK(mini_moka_segments_open(&cache, &settings, 4) == MINI_MOKA_DONE);
    for (key = 0; key < 100; key++)
        CHECK(mini_moka_segments_insert(&cache, &key, 1, &key, 1, 0) == MINI_MOKA_DONE);
    CHECK(mini_moka_segments_invalidate_all(&cache) == MINI_MOKA_DONE);
    CHECK(mini_moka_segments_removed(&cache, &key, 0, &value, 1, &key_length, &value_length, &cause) == MINI_MOKA_TOO_SHORT && key_length == 1);
    while ((status = mini_moka_segments_removed(&cache, &key, 1, &value, 1, &key_length, &value_length, &cause)) == MINI_MOKA_DONE) {
        CHECK(key == value && key < 100 && !is_drained[key] && cause == MINI_MOKA_CAUSE_EXPLICIT);
        is_drained[key] = true;
        drained++;
    }
    CHECK(status == MINI_MOKA_ABSENT && drained == 12 && mini_moka_segments_statistics(&cache, &met) == MINI_MOKA_DONE && met.lost == 88);
    CHECK(mini_moka_segments_close(&cache) == MINI_MOKA_DONE);
}

/* Returns true if two results of a call are equal: the statuses, and the values if one is found. */
static bool are_equal(uint32_t status, const char *found, size_t length, uint32_t other_status, const char *other, size_t other_length) {
    bool is_found = status == MINI_MOKA_DONE;
    return status == other_status && length == other_length && (!is_found || memcmp(found, other, length) == 0);
}

/* Makes a random call with a key on a cache of one segment and on a plain handle. Both must answer alike. */
static void compare_a_call(struct mini_moka_segments *all, struct mini_moka *one, uint64_t *state, uint64_t now) {
    char key = (char)('a' + next_number(state) % 7), a[ROOM], b[ROOM];
    size_t length = 0, other = 0, room = next_number(state) % 8 + 2, size = next_number(state) % 6;
    uint32_t status, other_status;
    switch (next_number(state) % 13) {
    case 0:
        status = mini_moka_segments_remove(all, &key, 1, now, a, room, &length);
        other_status = mini_moka_remove(one, &key, 1, now, b, room, &other);
        break;
    case 1:
        status = mini_moka_segments_invalidate(all, &key, 1, now);
        other_status = mini_moka_invalidate(one, &key, 1, now);
        break;
    case 2: case 3:
        status = mini_moka_segments_get(all, &key, 1, now, a, room, &length);
        other_status = mini_moka_get(one, &key, 1, now, b, room, &other);
        break;
    case 4:
        status = mini_moka_segments_peek(all, &key, 1, now, a, room, &length);
        other_status = mini_moka_peek(one, &key, 1, now, b, room, &other);
        break;
    case 5:
        status = mini_moka_segments_contains(all, &key, 1, now);
        other_status = mini_moka_contains(one, &key, 1, now);
        break;
    case 6:
        status = mini_moka_segments_get_or_insert(all, &key, 1, "otherwise", size, now, a, room, &length);
        other_status = mini_moka_get_or_insert(one, &key, 1, "otherwise", size, now, b, room, &other);
        break;
    case 7:
        memset(a, (int)(now & 127), ROOM);
        status = mini_moka_segments_insert_for(all, &key, 1, a, size, now % 8, now);
        other_status = mini_moka_insert_for(one, &key, 1, a, size, now % 8, now);
        length = 0;
        break;
    default:
        memset(a, (int)(now & 127), ROOM);
        status = mini_moka_segments_insert(all, &key, 1, a, size, now);
        other_status = mini_moka_insert(one, &key, 1, a, size, now);
        length = 0;
    }
    CHECK(are_equal(status, a, length, other_status, b, other));
}

/* Drains an entry of both, and returns false if none is queued. */
static bool drains_alike(struct mini_moka_segments *all, struct mini_moka *one) {
    char key, value[ROOM], other_key, other_value[ROOM];
    size_t key_length = 0, length = 0, other_key_length = 0, other = 0;
    uint32_t cause = 0, other_cause = 0;
    uint32_t status = mini_moka_segments_removed(all, &key, 1, value, ROOM, &key_length, &length, &cause);
    uint32_t other_status = mini_moka_removed(one, &other_key, 1, other_value, ROOM, &other_key_length, &other, &other_cause);
    CHECK(are_equal(status, value, length, other_status, other_value, other));
    CHECK(cause == other_cause && key_length == other_key_length && (status != MINI_MOKA_DONE || key == other_key));
    return status == MINI_MOKA_DONE;
}

/* Checks that each count is positive, and that no two are equal, so that none can stand for another. */
static void counts_differ(const struct mini_moka_statistics *met) {
    const uint64_t counts[] = {met->hits,      met->misses,      met->inserts,  met->updates, met->rejections,
                               met->evictions, met->expirations, met->removals, met->lost};
    for (size_t i = 0; i < sizeof counts / sizeof *counts; i++) {
        CHECK(counts[i] > 0);
        for (size_t j = 0; j < i; j++)
            CHECK(counts[i] != counts[j]);
    }
}

/* A cache of one segment works as a plain handle with the same settings, in each call that takes a moment: with either duration, weighed or not. */
static void one_segment_is_a_cache(void) {
    uint64_t state = 1, number;
    for (int round = 0; round < 8; round++) {
        struct mini_moka_segments all = {0};
        struct mini_moka one = {0};
        struct mini_moka_statistics met, other;
        bool is_weighed = round % 2 == 1;
        struct mini_moka_settings settings = {is_weighed ? 20 : 3, 20, 12, 0, {7, 8}, is_weighed, 9, 1, 0, false};
        if (round / 2 == 1)
            settings.time_to_live = MINI_MOKA_UNLIMITED;
        else if (round / 2 == 2)
            settings.time_to_idle = MINI_MOKA_UNLIMITED;
        CHECK(mini_moka_segments_open(&all, &settings, 1) == MINI_MOKA_DONE && mini_moka_open(&one, &settings) == MINI_MOKA_DONE);
        for (uint64_t now = 0; now < 3000; now++) {
            compare_a_call(&all, &one, &state, now);
            if (now % 40 == 0)
                while (drains_alike(&all, &one)) {
                }
            CHECK(mini_moka_weight(&one, &number) == MINI_MOKA_DONE && number == number_of(&all, mini_moka_segments_weight));
            CHECK(mini_moka_count(&one, &number) == MINI_MOKA_DONE && number == number_of(&all, mini_moka_segments_count));
        }
        CHECK(mini_moka_segments_statistics(&all, &met) == MINI_MOKA_DONE && mini_moka_statistics(&one, &other) == MINI_MOKA_DONE);
        counts_differ(&met);
        CHECK(memcmp(&met, &other, sizeof met) == 0);
        CHECK(mini_moka_segments_close(&all) == MINI_MOKA_DONE && mini_moka_close(&one) == MINI_MOKA_DONE);
    }
}

/* Adds the counts of a segment. */
static void add(struct mini_moka_statistics *sum, const struct mini_moka_statistics *part) {
    sum->hits += part->hits, sum->misses += part->misses, sum->inserts += part->inserts;
    sum->updates += part->updates, sum->rejections += part->rejections, sum->evictions += part->evictions;
    sum->expirations += part->expirations, sum->removals += part->removals, sum->lost += part->lost;
}

/* The weight, the number of entries and each count are the sums of the segments'. */
static void statistics_are_added(void) {
    struct mini_moka_segments cache = {0};
    struct mini_moka_settings settings = {60, 40, MINI_MOKA_UNLIMITED, 0, {1, 2}, true, 9, 1, 0, false};
    struct mini_moka_statistics met, part, sum;
    uint64_t state = 1, entries = 0, weight = 0, number;
    size_t length;
    char buffer[ROOM] = {0};
    memset(&sum, 0, sizeof sum);
    CHECK(mini_moka_segments_open(&cache, &settings, 3) == MINI_MOKA_DONE);
    for (uint64_t now = 0; now < 3000; now++) {
        uint64_t key = next_number(&state) % 20, dice = next_number(&state) % 8;
        if (dice == 0)
            CHECK(mini_moka_segments_invalidate(&cache, &key, 1, now) == MINI_MOKA_DONE);
        else if (dice < 3)
            CHECK(!mini_moka_is_error(mini_moka_segments_get(&cache, &key, 1, now, buffer, ROOM, &length)));
        else
            CHECK(!mini_moka_is_error(mini_moka_segments_insert(&cache, &key, 1, buffer, next_number(&state) % 9, now)));
    }
    for (size_t i = 0; i < cache.count; i++) {
        struct mini_moka *segment = &cache.segments[i].in.cache;
        CHECK(mini_moka_statistics(segment, &part) == MINI_MOKA_DONE);
        add(&sum, &part);
        CHECK(mini_moka_count(segment, &number) == MINI_MOKA_DONE && (entries += number) > 0);
        CHECK(mini_moka_weight(segment, &number) == MINI_MOKA_DONE && (weight += number) > 0);
    }
    CHECK(entries == number_of(&cache, mini_moka_segments_count) && weight == number_of(&cache, mini_moka_segments_weight) && weight != entries);
    CHECK(mini_moka_segments_statistics(&cache, &met) == MINI_MOKA_DONE && memcmp(&met, &sum, sizeof met) == 0);
    counts_differ(&met);
    CHECK(mini_moka_segments_close(&cache) == MINI_MOKA_DONE);
}

/* A key's segment follows from the products of its words, of 64 by 64 bits. The last word is filled with zeros. */
static void keys_are_hashed_by_products(void) {
    struct mini_moka_segments all = {0};
    uint64_t state = 1, words[6];
    for (int round = 0; round < 2000; round++) {
        unsigned char key[sizeof words];
        size_t length = next_number(&state) % sizeof key;
        memset(words, 0, sizeof words);
        for (size_t i = 0; i < length; i++)
            key[i] = (unsigned char)next_number(&state);
        memcpy(words, key, length);
        all.seed = next_number(&state);
        all.count = next_number(&state) % UINT32_MAX + 1;
        uint64_t hash = all.seed ^ length;
        for (size_t i = 0; i * 8 < length; i++) {
            __extension__ unsigned __int128 product = (unsigned __int128)(hash ^ words[i]) * UINT64_C(0x9E3779B97F4A7C15);
            hash = (uint64_t)product ^ (uint64_t)(product >> 64);
        }
        CHECK(mini_moka_segments_at(&all, key, length) == (size_t)((hash >> 32) * all.count >> 32));
    }
}

/* The numbers of entries of the segments, after 100 inserts, follow from the seed. */
static void the_seed_picks_the_segments(void) {
    uint64_t parts[3][8];
    for (int round = 0; round < 3; round++) {
        struct mini_moka_segments cache = {0};
        struct mini_moka_settings settings = MINI_MOKA_SETTINGS_INIT;
        settings.seed[0] = round == 2 ? 1 : 5;
        settings.seed[1] = 6;
        CHECK(mini_moka_segments_open(&cache, &settings, 8) == MINI_MOKA_DONE);
        for (unsigned char key = 0; key < 100; key++)
            CHECK(mini_moka_segments_insert(&cache, &key, 1, &key, 1, 0) == MINI_MOKA_DONE);
        for (size_t i = 0; i < 8; i++)
            CHECK(mini_moka_count(&cache.segments[i].in.cache, &parts[round][i]) == MINI_MOKA_DONE);
        CHECK(mini_moka_segments_close(&cache) == MINI_MOKA_DONE);
    }
    CHECK(memcmp(parts[0], parts[1], sizeof parts[0]) == 0 && memcmp(parts[0], parts[2], sizeof parts[0]) != 0);
}

/* Returns the bytes that the library allocates for a cache of this number of segments. */
static size_t reserved(size_t entries, size_t count) {
    struct mini_moka_segments cache = {0};
    struct mini_moka_settings settings = MINI_MOKA_SETTINGS_INIT;
    settings.initial_capacity = entries;
    allocated = 0;
    is_counting = true;
    CHECK(mini_moka_segments_open(&cache, &settings, count) == MINI_MOKA_DONE);
    is_counting = false;
    CHECK(mini_moka_segments_close(&cache) == MINI_MOKA_DONE);
    return allocated;
}

/* Returns the same of a cache of numbers. */
static size_t reserved_numbers(size_t entries, size_t count) {
    struct mini_moka_segments cache = {0};
    struct mini_moka_u64_settings settings = MINI_MOKA_U64_SETTINGS_INIT;
    settings.initial_capacity = entries;
    allocated = 0;
    is_counting = true;
    CHECK(mini_moka_segments_u64_open(&cache, &settings, count) == MINI_MOKA_DONE);
    is_counting = false;
    CHECK(mini_moka_segments_close(&cache) == MINI_MOKA_DONE);
    return allocated;
}

/* The segments together reserve what caches of their parts do, which is about what one does. */
static void initial_capacity_is_spread(void) {
    size_t one = reserved(10000, 1), none = reserved(0, 16);
    for (size_t count = 2; count <= 16; count *= 2) {
        size_t all = reserved(10000, count);
        CHECK(one > 10000 * 40 && all > one / 2 && all < 2 * one + none);
    }
    CHECK(reserved(1003, 4) == 3 * reserved(251, 1) + reserved(250, 1) && reserved(251, 1) > reserved(250, 1));
    CHECK(reserved_numbers(1003, 4) == 3 * reserved_numbers(251, 1) + reserved_numbers(250, 1) && reserved_numbers(251, 1) > reserved_numbers(250, 1));
}

/* ---- numbers */

/* Returns true if the other kind's calls return this status, and write nothing. */
static bool is_no_cache_of_numbers(struct mini_moka_segments *cache, uint32_t status) {
    uint64_t key = 5, value = 5;
    uint32_t cause = 5;
    CHECK(mini_moka_segments_u64_insert(cache, 1, 2, 0) == status && mini_moka_segments_u64_get(cache, 1, 0, &value) == status);
    CHECK(mini_moka_segments_u64_peek(cache, 1, 0, &value) == status && mini_moka_segments_u64_remove(cache, 1, 0, &value) == status);
    CHECK(mini_moka_segments_u64_contains(cache, 1, 0) == status && mini_moka_segments_u64_invalidate(cache, 1, 0) == status);
    CHECK(mini_moka_segments_u64_get_or_insert(cache, 1, 2, 0, &value) == status && mini_moka_segments_u64_insert_for(cache, 1, 2, 3, 0) == status);
    CHECK(mini_moka_segments_u64_removed(cache, &key, &value, &cause) == status);
    return key == 5 && value == 5 && cause == 5;
}

/* Tests each call of numbers in one thread, and calls of the other kind. */
static void numbers_answer(void) {
    struct mini_moka_segments cache = {0};
    struct mini_moka_settings bytes = MINI_MOKA_SETTINGS_INIT;
    struct mini_moka_u64_settings settings = MINI_MOKA_U64_SETTINGS_INIT;
    uint64_t value = 0;
    size_t length = 0;
    char buffer[ROOM];
    cache.seed = 1;
    CHECK(is_no_cache_of_numbers(&cache, MINI_MOKA_CLOSED));
    CHECK(mini_moka_segments_open(&cache, &bytes, 3) == MINI_MOKA_DONE && mini_moka_segments_u64_open(&cache, &settings, 3) == MINI_MOKA_ALREADY_OPEN);
    CHECK(is_no_cache_of_numbers(&cache, MINI_MOKA_OTHER_KIND) && number_of(&cache, mini_moka_segments_count) == 0);
    CHECK(mini_moka_segments_close(&cache) == MINI_MOKA_DONE);
    CHECK(mini_moka_segments_u64_open(&cache, &settings, 3) == MINI_MOKA_DONE && cache.count == 3);
    CHECK(mini_moka_segments_u64_open(&cache, &settings, 3) == MINI_MOKA_ALREADY_OPEN && mini_moka_segments_open(&cache, &bytes, 3) == MINI_MOKA_ALREADY_OPEN);
    CHECK(mini_moka_segments_get(&cache, "a", 1, 0, buffer, ROOM, &length) == MINI_MOKA_OTHER_KIND);
    CHECK(mini_moka_segments_get_or_insert(&cache, "a", 1, "apple", 5, 0, buffer, ROOM, &length) == MINI_MOKA_OTHER_KIND);
    CHECK(cache.seed == 0 && mini_moka_segments_u64_insert(&cache, 7, 49, 0) == MINI_MOKA_DONE);
    CHECK(mini_moka_segments_u64_get_or_insert(&cache, 7, 50, 0, &value) == MINI_MOKA_DONE && value == 49);
    CHECK(mini_moka_segments_u64_get_or_insert(&cache, 8, 64, 0, &value) == MINI_MOKA_DONE && value == 64);
    CHECK(mini_moka_segments_u64_get(&cache, 7, 0, &value) == MINI_MOKA_DONE && value == 49);
    CHECK(mini_moka_segments_u64_remove(&cache, 7, 0, &value) == MINI_MOKA_DONE && value == 49 && number_of(&cache, mini_moka_segments_count) == 1);
    CHECK(mini_moka_segments_close(&cache) == MINI_MOKA_DONE && cache.segments == NULL);
    settings.time_to_live = 0;
    CHECK(mini_moka_segments_u64_open(&cache, &settings, 3) == MINI_MOKA_ZERO_DURATION && cache.segments == NULL);
}

/* The parts of the capacity of numbers add up to the whole, each segment gets keys, and each removed number is drained once or lost. */
static void numbers_are_spread(void) {
    struct mini_moka_segments cache = {0};
    struct mini_moka_u64_settings settings = MINI_MOKA_U64_SETTINGS_INIT;
    struct mini_moka_statistics met;
    uint64_t key, value, drained = 0;
    uint32_t cause, status;
    settings.capacity = 1599;
    CHECK(mini_moka_segments_u64_open(&cache, &settings, 0) == MINI_MOKA_DONE && cache.count == 15 && mini_moka_segments_close(&cache) == MINI_MOKA_DONE);
    settings.capacity = 1003;
    settings.removed_room = 9;
    CHECK(mini_moka_segments_u64_open(&cache, &settings, 4) == MINI_MOKA_DONE);
    for (key = 0; key < 20000; key++)
        CHECK(!mini_moka_is_error(mini_moka_segments_u64_insert(&cache, key, key * key, 0)));
    for (size_t i = 0; i < cache.count; i++) {
        uint64_t part = 0;
        CHECK(mini_moka_count(&cache.segments[i].in.cache, &part) == MINI_MOKA_DONE && part == (i < 3 ? 251 : 250));
    }
    while ((status = mini_moka_segments_u64_removed(&cache, &key, &value, &cause)) == MINI_MOKA_DONE) {
        CHECK(value == key * key && (cause == MINI_MOKA_CAUSE_SIZE || cause == MINI_MOKA_CAUSE_REJECTED));
        drained++;
    }
    CHECK(status == MINI_MOKA_ABSENT && drained == 12 && mini_moka_segments_statistics(&cache, &met) == MINI_MOKA_DONE);
    CHECK(met.lost == 20000 - 1003 - 12 && mini_moka_segments_close(&cache) == MINI_MOKA_DONE);
}

/* Makes a random call on a cache of numbers of one segment and on a plain handle. Both must answer alike. */
static void compare_a_number_call(struct mini_moka_segments *all, struct mini_moka *one, uint64_t *state, uint64_t now) {
    uint64_t key = next_number(state) % 7, value = next_number(state) % 5, a = 9, b = 9;
    uint32_t status, other_status;
    switch (next_number(state) % 12) {
    case 0:
        status = mini_moka_segments_u64_remove(all, key, now, &a);
        other_status = mini_moka_u64_remove(one, key, now, &b);
        break;
    case 1:
        status = mini_moka_segments_u64_invalidate(all, key, now);
        other_status = mini_moka_u64_invalidate(one, key, now);
        break;
    case 2: case 3:
        status = mini_moka_segments_u64_get(all, key, now, &a);
        other_status = mini_moka_u64_get(one, key, now, &b);
        break;
    case 4:
        status = mini_moka_segments_u64_peek(all, key, now, &a);
        other_status = mini_moka_u64_peek(one, key, now, &b);
        break;
    case 5:
        status = mini_moka_segments_u64_contains(all, key, now);
        other_status = mini_moka_u64_contains(one, key, now);
        break;
    case 6:
        status = mini_moka_segments_u64_get_or_insert(all, key, value, now, &a);
        other_status = mini_moka_u64_get_or_insert(one, key, value, now, &b);
        break;
    case 7:
        status = mini_moka_segments_u64_insert_for(all, key, value, now % 8, now);
        other_status = mini_moka_u64_insert_for(one, key, value, now % 8, now);
        break;
    default:
        status = mini_moka_segments_u64_insert(all, key, value, now);
        other_status = mini_moka_u64_insert(one, key, value, now);
    }
    CHECK(status == other_status && a == b);
}

/* Drains a number of both, and returns false if none is queued. */
static bool drains_numbers_alike(struct mini_moka_segments *all, struct mini_moka *one) {
    uint64_t key = 9, value = 9, other_key = 9, other = 9;
    uint32_t cause = 9, other_cause = 9;
    uint32_t status = mini_moka_segments_u64_removed(all, &key, &value, &cause);
    CHECK(mini_moka_u64_removed(one, &other_key, &other, &other_cause) == status && key == other_key && value == other && cause == other_cause);
    return status == MINI_MOKA_DONE;
}

/* A cache of numbers of one segment works as a plain handle with the same settings, with either duration. */
static void one_segment_is_a_cache_of_numbers(void) {
    uint64_t state = 1, number;
    for (int round = 0; round < 4; round++) {
        struct mini_moka_segments all = {0};
        struct mini_moka one = {0};
        struct mini_moka_statistics met, other;
        struct mini_moka_u64_settings settings = {3, 20, 12, 0, 9, 1, 0, false, false};
        if (round == 1)
            settings.time_to_live = MINI_MOKA_UNLIMITED;
        else if (round == 2)
            settings.time_to_idle = MINI_MOKA_UNLIMITED;
        CHECK(mini_moka_segments_u64_open(&all, &settings, 1) == MINI_MOKA_DONE && mini_moka_u64_open(&one, &settings) == MINI_MOKA_DONE);
        for (uint64_t now = 0; now < 3000; now++) {
            compare_a_number_call(&all, &one, &state, now);
            if (now % 40 == 0)
                while (drains_numbers_alike(&all, &one)) {
                }
            CHECK(mini_moka_count(&one, &number) == MINI_MOKA_DONE && number == number_of(&all, mini_moka_segments_count));
        }
        CHECK(mini_moka_segments_statistics(&all, &met) == MINI_MOKA_DONE && mini_moka_statistics(&one, &other) == MINI_MOKA_DONE);
        counts_differ(&met);
        CHECK(memcmp(&met, &other, sizeof met) == 0);
        CHECK(mini_moka_segments_close(&all) == MINI_MOKA_DONE && mini_moka_close(&one) == MINI_MOKA_DONE);
    }
}

/* The segments of a weighed cache of numbers weigh the upper halves of values. By default each has a capacity of 2^20 at least. */
static void segments_weigh_numbers(void) {
    struct mini_moka_segments cache = {0};
    struct mini_moka_u64_settings settings = MINI_MOKA_U64_SETTINGS_INIT;
    settings.capacity = 1 << 22;
    settings.is_weighed = true;
    CHECK(mini_moka_segments_u64_open(&cache, &settings, 0) == MINI_MOKA_DONE && cache.count == 4);
    for (uint64_t key = 0; key < 100; key++)
        CHECK(mini_moka_segments_u64_insert(&cache, key, key << 32 | 1, 0) == MINI_MOKA_DONE);
    CHECK(number_of(&cache, mini_moka_segments_count) == 100 && number_of(&cache, mini_moka_segments_weight) == 4950);
    CHECK(mini_moka_segments_u64_insert(&cache, 100, (uint64_t)1 << 51, 0) == MINI_MOKA_DONE);
    CHECK(mini_moka_segments_u64_insert(&cache, 101, ((uint64_t)1 << 52) + ((uint64_t)1 << 32), 0) == MINI_MOKA_REJECTED);
    CHECK(mini_moka_segments_close(&cache) == MINI_MOKA_DONE);
}

/* Returns the hits of random gets on a cache of numbers with these shares, or of a plain handle with them if it has no segment. Writes its last window. */
static uint64_t hits_of(const struct mini_moka_u64_settings *settings, size_t count, uint64_t *window) {
    struct mini_moka_segments all = {0};
    struct mini_moka one = {0};
    struct mini_moka *cache = &one;
    struct mini_moka_statistics met;
    uint64_t state = 1, value;
    if (count == 0)
        CHECK(mini_moka_u64_open(&one, settings) == MINI_MOKA_DONE);
    else
        CHECK(mini_moka_segments_u64_open(&all, settings, count) == MINI_MOKA_DONE && (cache = &all.segments[0].in.cache) != NULL);
    for (uint64_t now = 0; now < 40000; now++) {
        uint64_t key = next_number(&state) % 3 == 0 ? next_number(&state) % 150 : now / 3;
        if (count == 0)
            CHECK(mini_moka_u64_get_or_insert(&one, key, key, now, &value) == MINI_MOKA_DONE);
        else
            CHECK(mini_moka_segments_u64_get_or_insert(&all, key, key, now, &value) == MINI_MOKA_DONE);
    }
    CHECK(mini_moka_statistics(cache, &met) == MINI_MOKA_DONE && mini_moka_window(cache, window) == MINI_MOKA_DONE);
    CHECK((count == 0 ? mini_moka_close(&one) : mini_moka_segments_close(&all)) == MINI_MOKA_DONE);
    return met.hits;
}

/* The shares of a cache of numbers are those of its segments. Each changes the number of hits. */
static void shares_of_numbers_are_kept(void) {
    const struct mini_moka_u64_settings rows[] = {
        {200, MINI_MOKA_UNLIMITED, MINI_MOKA_UNLIMITED, 0, 0, 1, 0, false, false},   {200, MINI_MOKA_UNLIMITED, MINI_MOKA_UNLIMITED, 0, 0, 30, 0, false, false},
        {200, MINI_MOKA_UNLIMITED, MINI_MOKA_UNLIMITED, 0, 0, 30, 50, false, false}, {200, MINI_MOKA_UNLIMITED, MINI_MOKA_UNLIMITED, 0, 0, 1, 80, true, false},
    };
    uint64_t hits[4], window, other;
    for (size_t i = 0; i < 4; i++) {
        hits[i] = hits_of(&rows[i], 1, &window);
        CHECK(hits[i] == hits_of(&rows[i], 0, &other) && window == other);
        for (size_t j = 0; j < i; j++)
            CHECK(hits[i] != hits[j]);
    }
}

/* ---- visits */

enum { VISITED = 300 };

/* What a visitor gets, and where it ends. */
struct met {
    struct mini_moka_segments *cache;
    size_t count, most;
    uint32_t keys[VISITED];
};

/* Returns the length of the value at a key. Some are long, and one is 0. */
static size_t length_of(uint32_t key) {
    return key * 7 % 1000;
}

/* Writes the bytes of the key, of which some are long, and returns their number. */
static size_t bytes_of(uint32_t key, char *bytes) {
    size_t length = key % 5 == 0 ? 8 + key : 8;
    memset(bytes, (int)(key % 100), length);
    memcpy(bytes, &key, sizeof key);
    return length;
}

/* Checks that exactly the lock of the segment is held. */
static void is_locked(struct mini_moka_segments *cache, size_t at) {
    for (size_t i = 0; i < cache->count; i++) {
        bool is_held = pthread_mutex_trylock(&cache->segments[i].in.lock) != 0;
        CHECK(is_held == (i == at));
        if (!is_held)
            CHECK(pthread_mutex_unlock(&cache->segments[i].in.lock) == 0);
    }
}

static bool meet(struct met *met, uint32_t key, size_t segment) {
    is_locked(met->cache, segment);
    CHECK(met->count < VISITED);
    met->keys[met->count++] = key;
    return met->count != met->most;
}

/* The visitors, declared by the header's types. */
static mini_moka_visitor meet_bytes;
static mini_moka_u64_visitor meet_number;

static bool meet_bytes(void *context, const void *key, size_t key_length, const void *value, size_t value_length) {
    struct met *met = (struct met *)context;
    char wanted[8 + VISITED];
    uint32_t number;
    memcpy(&number, key, sizeof number);
    CHECK(number < VISITED && key_length == bytes_of(number, wanted) && memcmp(key, wanted, key_length) == 0 && value_length == length_of(number));
    for (size_t i = 0; i < value_length; i++)
        CHECK(((const char *)value)[i] == (char)(number % 127));
    return meet(met, number, mini_moka_segments_at(met->cache, key, key_length));
}

static bool meet_number(void *context, uint64_t key, uint64_t value) {
    struct met *met = (struct met *)context;
    CHECK(key < VISITED && value == key * key);
    return meet(met, (uint32_t)key, mini_moka_segments_at(met->cache, &key, sizeof key));
}

/* Checks that the visitor got each key from `first` on once, and no lock is held. */
static void all_were_met(const struct met *met, uint32_t first) {
    bool is_met[VISITED] = {false};
    for (size_t i = 0; i < met->count; i++) {
        CHECK(met->keys[i] >= first && !is_met[met->keys[i]]);
        is_met[met->keys[i]] = true;
    }
    CHECK(met->count == VISITED - first);
    is_locked(met->cache, SIZE_MAX);
}

/* Fills a cache: the first 40 keys at 0 ns, the others at 10 ns. */
static void fill_bytes(struct mini_moka_segments *cache) {
    struct mini_moka_settings settings = MINI_MOKA_SETTINGS_INIT;
    char bytes[8 + VISITED], value[1000];
    settings.time_to_live = 20;
    CHECK(mini_moka_segments_open(cache, &settings, 5) == MINI_MOKA_DONE);
    for (uint32_t key = 0; key < VISITED; key++) {
        memset(value, (int)(key % 127), sizeof value);
        CHECK(mini_moka_segments_insert(cache, bytes, bytes_of(key, bytes), value, length_of(key), key < 40 ? 0 : 10) == MINI_MOKA_DONE);
    }
}

/* A removal of expired entries reaches each segment. */
static void segments_remove_what_is_expired(void) {
    struct mini_moka_segments cache = {0};
    fill_bytes(&cache);
    CHECK(mini_moka_segments_remove_expired(&cache, 19) == MINI_MOKA_DONE && number_of(&cache, mini_moka_segments_count) == VISITED);
    CHECK(mini_moka_segments_remove_expired(&cache, 20) == MINI_MOKA_DONE && number_of(&cache, mini_moka_segments_count) == VISITED - 40);
    is_locked(&cache, SIZE_MAX);
    CHECK(mini_moka_segments_close(&cache) == MINI_MOKA_DONE);
}

/* A visit gets each unexpired entry once, in the order of a walk of each segment, and changes nothing. */
static void visits_meet_each_entry(void) {
    struct mini_moka_segments cache = {0};
    struct mini_moka_statistics before, after;
    char key[8 + VISITED], value[1000];
    size_t key_length, length, at = 0;
    struct met met = {&cache, 0, 0, {0}};
    uint32_t number;
    CHECK(mini_moka_segments_visit(&cache, 0, meet_bytes, &met) == MINI_MOKA_CLOSED);
    fill_bytes(&cache);
    CHECK(mini_moka_segments_statistics(&cache, &before) == MINI_MOKA_DONE);
    CHECK(mini_moka_segments_visit(&cache, 10, meet_bytes, &met) == MINI_MOKA_DONE);
    all_were_met(&met, 0);
    for (size_t i = 0; i < cache.count; i++) {
        CHECK(mini_moka_walk(&cache.segments[i].in.cache) == MINI_MOKA_DONE);
        while (mini_moka_next(&cache.segments[i].in.cache, 10, key, sizeof key, value, sizeof value, &key_length, &length) == MINI_MOKA_DONE) {
            memcpy(&number, key, sizeof number);
            CHECK(at < met.count && met.keys[at++] == number);
        }
    }
    CHECK(at == VISITED);
    met.count = 0;
    CHECK(mini_moka_segments_visit(&cache, 20, meet_bytes, &met) == MINI_MOKA_DONE);
    all_were_met(&met, 40);
    CHECK(mini_moka_segments_statistics(&cache, &after) == MINI_MOKA_DONE && memcmp(&before, &after, sizeof before) == 0);
    for (met.most = 1; met.most < VISITED; met.most++) {
        met.count = 0;
        CHECK(mini_moka_segments_visit(&cache, 10, meet_bytes, &met) == MINI_MOKA_DONE && met.count == met.most);
        is_locked(&cache, SIZE_MAX);
    }
    CHECK(mini_moka_segments_u64_visit(&cache, 10, meet_number, &met) == MINI_MOKA_OTHER_KIND && met.count == VISITED - 1);
    CHECK(mini_moka_segments_close(&cache) == MINI_MOKA_DONE);
}

/* Checks a short entry, whose key and value are equal. */
static bool meet_short(void *context, const void *key, size_t key_length, const void *value, size_t value_length) {
    CHECK(key != NULL && value != NULL && key != value && key_length == value_length && memcmp(key, value, key_length) == 0);
    *(size_t *)context += key_length + 1;
    return true;
}

/* A visit copies keys and values of no byte, of one and of two. */
static void visits_meet_short_entries(void) {
    for (size_t length = 0; length < 3; length++) {
        struct mini_moka_segments cache = {0};
        struct mini_moka_settings settings = MINI_MOKA_SETTINGS_INIT;
        size_t met = 0;
        CHECK(mini_moka_segments_open(&cache, &settings, 2) == MINI_MOKA_DONE);
        CHECK(mini_moka_segments_insert(&cache, "ab", length, "ab", length, 0) == MINI_MOKA_DONE);
        CHECK(mini_moka_segments_visit(&cache, 0, meet_short, &met) == MINI_MOKA_DONE && met == length + 1);
        CHECK(mini_moka_segments_close(&cache) == MINI_MOKA_DONE);
    }
}

/* If any request for memory is refused, a visit returns so, meets no entry twice, and holds no lock. */
static void visits_are_refused_memory(void) {
    size_t refused = 0;
    uint32_t status = MINI_MOKA_OUT_OF_MEMORY;
    for (; status != MINI_MOKA_DONE; refused++) {
        struct mini_moka_segments cache = {0};
        struct met met = {&cache, 0, 0, {0}};
        fill_bytes(&cache);
        granted = refused;
        status = mini_moka_segments_visit(&cache, 10, meet_bytes, &met);
        granted = SIZE_MAX;
        CHECK(status == MINI_MOKA_DONE || (status == MINI_MOKA_OUT_OF_MEMORY && met.count < VISITED));
        met.count = 0;
        CHECK(mini_moka_segments_visit(&cache, 10, meet_bytes, &met) == MINI_MOKA_DONE);
        all_were_met(&met, 0);
        CHECK(mini_moka_segments_close(&cache) == MINI_MOKA_DONE);
    }
    /* Two buffers, which grow several times each, and the key of each walk. */
    CHECK(refused > 6);
}

/* A visit of numbers gets each unexpired one once, in the order of a walk of each segment, and asks for no memory. */
static void visits_meet_each_number(void) {
    struct mini_moka_segments cache = {0};
    struct mini_moka_u64_settings settings = MINI_MOKA_U64_SETTINGS_INIT;
    struct mini_moka_statistics before, after;
    struct met met = {&cache, 0, 0, {0}};
    uint64_t key, value;
    size_t at = 0;
    settings.time_to_live = 20;
    CHECK(mini_moka_segments_u64_visit(&cache, 0, meet_number, &met) == MINI_MOKA_CLOSED);
    CHECK(mini_moka_segments_u64_open(&cache, &settings, 5) == MINI_MOKA_DONE);
    for (key = 0; key < VISITED; key++)
        CHECK(mini_moka_segments_u64_insert(&cache, key, key * key, key < 40 ? 0 : 10) == MINI_MOKA_DONE);
    CHECK(mini_moka_segments_statistics(&cache, &before) == MINI_MOKA_DONE);
    granted = 0;
    CHECK(mini_moka_segments_u64_visit(&cache, 10, meet_number, &met) == MINI_MOKA_DONE);
    granted = SIZE_MAX;
    all_were_met(&met, 0);
    for (size_t i = 0; i < cache.count; i++) {
        CHECK(mini_moka_walk(&cache.segments[i].in.cache) == MINI_MOKA_DONE);
        while (mini_moka_u64_next(&cache.segments[i].in.cache, 10, &key, &value) == MINI_MOKA_DONE)
            CHECK(at < met.count && met.keys[at++] == key);
    }
    CHECK(at == VISITED);
    met.count = 0;
    CHECK(mini_moka_segments_u64_visit(&cache, 20, meet_number, &met) == MINI_MOKA_DONE);
    all_were_met(&met, 40);
    CHECK(mini_moka_segments_statistics(&cache, &after) == MINI_MOKA_DONE && memcmp(&before, &after, sizeof before) == 0);
    for (met.most = 1; met.most < VISITED; met.most++) {
        met.count = 0;
        CHECK(mini_moka_segments_u64_visit(&cache, 10, meet_number, &met) == MINI_MOKA_DONE && met.count == met.most);
        is_locked(&cache, SIZE_MAX);
    }
    CHECK(mini_moka_segments_visit(&cache, 10, meet_bytes, &met) == MINI_MOKA_OTHER_KIND && met.count == VISITED - 1);
    CHECK(mini_moka_segments_close(&cache) == MINI_MOKA_DONE);
}

int main(void) {
    calls_answer();
    segments_are_aligned();
    segments_are_counted();
    capacity_is_spread();
    removed_entries_are_drained();
    one_segment_is_a_cache();
    statistics_are_added();
    keys_are_hashed_by_products();
    the_seed_picks_the_segments();
    initial_capacity_is_spread();
    numbers_answer();
    numbers_are_spread();
    one_segment_is_a_cache_of_numbers();
    segments_weigh_numbers();
    shares_of_numbers_are_kept();
    segments_remove_what_is_expired();
    visits_meet_each_entry();
    visits_meet_short_entries();
    visits_are_refused_memory();
    visits_meet_each_number();
    return 0;
}
