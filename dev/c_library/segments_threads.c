/*
 * Tests caches of include/mini_moka_segments.h that threads share: segments_threads [CALLS]. Four threads make CALLS random calls each on common keys, while a
 * fifth counts, weighs, visits, drains and clears. A value that is found, visited or drained must have been inserted at its key, and each entry that leaves
 * must be returned, drained or lost. dev/c_library/run also runs it under ThreadSanitizer. Prints the first check that fails, and exits with status 1 then.
 */
#include "segments.h"

enum { THREADS = 4, KEYS = 500, LONGEST = 48, ROOM = 64 };

static int calls = 20000;

static struct mini_moka_segments shared;

/* Writes a value of a key, and returns its length. The value is the key, followed by its low byte repeated. */
static size_t fill(unsigned char *value, uint32_t key, size_t length) {
    memset(value, (int)(key & 255), length);
    memcpy(value, &key, sizeof key);
    return length;
}

static void look(uint32_t key, uint32_t status, const unsigned char *found, size_t length) {
    unsigned char wanted[LONGEST];
    CHECK(status == MINI_MOKA_DONE || status == MINI_MOKA_ABSENT);
    CHECK(status != MINI_MOKA_DONE || (length >= 8 && length <= LONGEST && memcmp(found, wanted, fill(wanted, key, length)) == 0));
}

/* Gets the key, or inserts a value of it, and checks the value that it writes. */
static void get_or_make(uint32_t key, size_t length, uint64_t now) {
    unsigned char value[LONGEST], buffer[ROOM];
    size_t written = 0;
    uint32_t status = mini_moka_segments_get_or_insert(&shared, &key, sizeof key, value, fill(value, key, length), now, buffer, ROOM, &written);
    CHECK(status == MINI_MOKA_DONE);
    look(key, status, buffer, written);
}

static void *make_calls(void *number) {
    uint64_t state = (uint64_t)(uintptr_t)number;
    unsigned char value[LONGEST], buffer[ROOM];
    size_t length = 0;
    uintptr_t returned = 0;
    for (int i = 0; i < calls; i++) {
        uint32_t key = (uint32_t)(next_number(&state) % KEYS), status;
        uint64_t now = (uint64_t)i;
        switch (next_number(&state) % 9) {
        case 0: get_or_make(key, 8 + next_number(&state) % (LONGEST - 8), now); break;
        case 1: case 2:
            status = mini_moka_segments_insert(&shared, &key, sizeof key, value, fill(value, key, 8 + next_number(&state) % (LONGEST - 8)), now);
            CHECK(status == MINI_MOKA_DONE || status == MINI_MOKA_REJECTED);
            break;
        case 3:
            status = mini_moka_segments_remove(&shared, &key, sizeof key, now, buffer, ROOM, &length);
            look(key, status, buffer, length);
            returned += status == MINI_MOKA_DONE;
            break;
        case 4: CHECK(!mini_moka_is_error(mini_moka_segments_contains(&shared, &key, sizeof key, now))); break;
        case 5:
            status = mini_moka_segments_peek(&shared, &key, sizeof key, now, buffer, ROOM, &length);
            look(key, status, buffer, length);
            break;
        case 6: CHECK(mini_moka_segments_invalidate(&shared, &key, sizeof key, now) == MINI_MOKA_DONE); break;
        default:
            status = mini_moka_segments_get(&shared, &key, sizeof key, now, buffer, ROOM, &length);
            look(key, status, buffer, length);
        }
    }
    return (void *)returned;
}

/* Drains the removed entries, and returns their number. */
static uintptr_t drain(void) {
    unsigned char value[LONGEST];
    uint32_t key, cause;
    size_t key_length, value_length;
    uintptr_t drained = 0;
    while (mini_moka_segments_removed(&shared, &key, sizeof key, value, LONGEST, &key_length, &value_length, &cause) == MINI_MOKA_DONE) {
        CHECK(key_length == sizeof key && key < KEYS && cause <= MINI_MOKA_CAUSE_REJECTED);
        look(key, MINI_MOKA_DONE, value, value_length);
        drained++;
    }
    return drained;
}

/* The keys that a visit has met. */
struct visit {
    bool is_met[KEYS];
    size_t count;
};

/* Checks an entry of a visit, which meets no key twice. */
static bool meet(void *context, const void *key, size_t key_length, const void *value, size_t value_length) {
    struct visit *visit = (struct visit *)context;
    uint32_t number;
    CHECK(key_length == sizeof number);
    memcpy(&number, key, sizeof number);
    CHECK(number < KEYS && !visit->is_met[number]);
    visit->is_met[number] = true;
    visit->count++;
    look(number, MINI_MOKA_DONE, (const unsigned char *)value, value_length);
    return true;
}

static void *count_and_clear(void *unused) {
    struct mini_moka_statistics met;
    uintptr_t drained = (uintptr_t)unused;
    for (int i = 0; i < calls / 100; i++) {
        struct visit visit = {{false}, 0};
        CHECK(mini_moka_segments_visit(&shared, (uint64_t)i * 100, meet, &visit) == MINI_MOKA_DONE && visit.count <= 310);
        CHECK(number_of(&shared, mini_moka_segments_count) <= 310 && number_of(&shared, mini_moka_segments_weight) <= 310);
        CHECK(mini_moka_segments_statistics(&shared, &met) == MINI_MOKA_DONE);
        drained += drain();
        if (i % 16 == 15)
            CHECK(mini_moka_segments_invalidate_all(&shared) == MINI_MOKA_DONE);
    }
    return (void *)drained;
}

/* Runs these calls in four threads, and those in a fifth. Returns the sum of what they return. */
static uint64_t run(void *(*call)(void *), void *(*other)(void *)) {
    pthread_t threads[THREADS + 1];
    uint64_t sum = 0;
    for (int i = 0; i < THREADS; i++)
        CHECK(pthread_create(&threads[i], NULL, call, (void *)(uintptr_t)(i + 1)) == 0);
    CHECK(pthread_create(&threads[THREADS], NULL, other, NULL) == 0);
    for (int i = 0; i <= THREADS; i++) {
        void *count;
        CHECK(pthread_join(threads[i], &count) == 0);
        sum += (uintptr_t)count;
    }
    return sum;
}

static void threads_share(void) {
    struct mini_moka_settings settings = {310, 1000, 500, 0, {3, 4}, false, 400, 1, 0, false};
    struct mini_moka_statistics met;
    CHECK(mini_moka_segments_open(&shared, &settings, 4) == MINI_MOKA_DONE);
    uint64_t gone = run(make_calls, count_and_clear) + drain();
    CHECK(mini_moka_segments_statistics(&shared, &met) == MINI_MOKA_DONE);
    CHECK(met.inserts == number_of(&shared, mini_moka_segments_count) + gone + met.lost && gone > 0);
    CHECK(mini_moka_segments_close(&shared) == MINI_MOKA_DONE);
}

/* ---- numbers */

/* A value of a key has the key in its upper half. */
static void look_at(uint64_t key, uint32_t status, uint64_t value) {
    CHECK(status == MINI_MOKA_DONE || status == MINI_MOKA_ABSENT);
    CHECK(status != MINI_MOKA_DONE || value >> 32 == key);
}

static void *make_number_calls(void *number) {
    uint64_t state = (uint64_t)(uintptr_t)number, value = 0;
    uintptr_t returned = 0;
    for (int i = 0; i < calls; i++) {
        uint64_t key = next_number(&state) % KEYS, now = (uint64_t)i, made = key << 32 | (next_number(&state) & UINT32_MAX);
        uint32_t status;
        switch (next_number(&state) % 9) {
        case 0: case 1:
            status = mini_moka_segments_u64_insert(&shared, key, made, now);
            CHECK(status == MINI_MOKA_DONE || status == MINI_MOKA_REJECTED);
            break;
        case 2:
            status = mini_moka_segments_u64_get_or_insert(&shared, key, made, now, &value);
            CHECK(status == MINI_MOKA_DONE);
            look_at(key, status, value);
            break;
        case 3:
            status = mini_moka_segments_u64_remove(&shared, key, now, &value);
            look_at(key, status, value);
            returned += status == MINI_MOKA_DONE;
            break;
        case 4: CHECK(!mini_moka_is_error(mini_moka_segments_u64_contains(&shared, key, now))); break;
        case 5:
            status = mini_moka_segments_u64_peek(&shared, key, now, &value);
            look_at(key, status, value);
            break;
        case 6: CHECK(mini_moka_segments_u64_invalidate(&shared, key, now) == MINI_MOKA_DONE); break;
        default:
            status = mini_moka_segments_u64_get(&shared, key, now, &value);
            look_at(key, status, value);
        }
    }
    return (void *)returned;
}

static bool meet_number(void *context, uint64_t key, uint64_t value) {
    struct visit *visit = (struct visit *)context;
    CHECK(key < KEYS && !visit->is_met[key]);
    visit->is_met[key] = true;
    visit->count++;
    look_at(key, MINI_MOKA_DONE, value);
    return true;
}

/* Visits and drains the numbers, and returns the number that was drained. */
static void *visit_and_drain(void *unused) {
    uintptr_t drained = (uintptr_t)unused;
    uint64_t key, value;
    uint32_t cause;
    for (int i = 0; i < calls / 100; i++) {
        struct visit visit = {{false}, 0};
        CHECK(mini_moka_segments_u64_visit(&shared, (uint64_t)i * 100, meet_number, &visit) == MINI_MOKA_DONE && visit.count <= 310);
        while (mini_moka_segments_u64_removed(&shared, &key, &value, &cause) == MINI_MOKA_DONE) {
            look_at(key, MINI_MOKA_DONE, value);
            drained++;
        }
    }
    return (void *)drained;
}

static void threads_share_numbers(void) {
    struct mini_moka_u64_settings settings = {310, 1000, 500, 0, 400, 1, 0, false, false};
    struct mini_moka_statistics met;
    CHECK(mini_moka_segments_u64_open(&shared, &settings, 4) == MINI_MOKA_DONE);
    uint64_t gone = run(make_number_calls, visit_and_drain) + (uintptr_t)visit_and_drain(NULL);
    CHECK(mini_moka_segments_statistics(&shared, &met) == MINI_MOKA_DONE);
    CHECK(met.inserts == number_of(&shared, mini_moka_segments_count) + gone + met.lost && gone > 0);
    CHECK(mini_moka_segments_close(&shared) == MINI_MOKA_DONE);
}

/* ---- a get or an insert */

/* The numbers that the threads got for each key. */
static uint64_t got[THREADS + 1][KEYS];

/* Gets each number, or inserts that of the thread. */
static void *get_or_insert_numbers(void *number) {
    uintptr_t thread = (uintptr_t)number;
    for (uint64_t key = 0; key < KEYS; key++)
        CHECK(mini_moka_segments_u64_get_or_insert(&shared, key, thread, 0, &got[thread][key]) == MINI_MOKA_DONE);
    return NULL;
}

/* Does the same with the bytes of the numbers. */
static void *get_or_insert_bytes(void *number) {
    uint64_t thread = (uintptr_t)number;
    size_t length;
    for (uint64_t key = 0; key < KEYS; key++) {
        uint64_t *at = &got[thread][key];
        CHECK(mini_moka_segments_get_or_insert(&shared, &key, sizeof key, &thread, sizeof thread, 0, at, sizeof *at, &length) == MINI_MOKA_DONE);
        CHECK(length == sizeof thread);
    }
    return NULL;
}

/* Checks that all threads have got the same number for each key, which one of them inserted. Closes the cache. */
static void all_got_the_same(void) {
    struct mini_moka_statistics met;
    for (int key = 0; key < KEYS; key++)
        for (int i = 1; i <= THREADS; i++)
            CHECK(got[i][key] == got[0][key] && got[i][key] <= THREADS);
    CHECK(mini_moka_segments_statistics(&shared, &met) == MINI_MOKA_DONE && met.inserts == KEYS && met.hits == THREADS * KEYS && met.updates == 0);
    CHECK(mini_moka_segments_close(&shared) == MINI_MOKA_DONE);
}

static void threads_get_or_insert(void) {
    struct mini_moka_settings settings = MINI_MOKA_SETTINGS_INIT;
    struct mini_moka_u64_settings numbers = MINI_MOKA_U64_SETTINGS_INIT;
    CHECK(mini_moka_segments_open(&shared, &settings, 2) == MINI_MOKA_DONE && run(get_or_insert_bytes, get_or_insert_bytes) == 0);
    all_got_the_same();
    CHECK(mini_moka_segments_u64_open(&shared, &numbers, 2) == MINI_MOKA_DONE && run(get_or_insert_numbers, get_or_insert_numbers) == 0);
    all_got_the_same();
}

int main(int count, char **words) {
    if (count > 1)
        calls = atoi(words[1]);
    threads_share();
    threads_share_numbers();
    threads_get_or_insert();
    return 0;
}
