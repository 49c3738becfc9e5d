/* Tests the status and the output of each call of include/mini_moka.h. Prints each check that fails with its line, and exits with status 1 then. */
#include "check.h"
#include "mini_moka.h"
#include <string.h>

#define NONE MINI_MOKA_UNLIMITED

/* BEFORE fills outputs before a call, and stays if the call doesn't write them. ROOM is the length of a buffer. */
enum { BEFORE = 99, ROOM = 8 };

static const struct mini_moka_settings BYTES = {10, NONE, NONE, 0, {1, 2}, false, 0, 1, 0, false};
static const struct mini_moka_u64_settings NUMBERS = {10, NONE, NONE, 0, 0, 1, 0, false, false};

/* Returns the number that mini_moka_count or mini_moka_weight writes. */
static uint64_t number_of(uint32_t (*call)(struct mini_moka *, uint64_t *), struct mini_moka *cache) {
    uint64_t number = BEFORE;
    CHECK(call(cache, &number) == MINI_MOKA_DONE);
    return number;
}

/* ---- bytes, as texts */

static uint32_t insert(struct mini_moka *cache, const char *key, const char *value, uint64_t now) {
    return mini_moka_insert(cache, key, strlen(key), value, strlen(value), now);
}

typedef uint32_t look_up(struct mini_moka *, const void *, size_t, uint64_t, void *, size_t, size_t *);

/* Returns true if a look-up returns this status and writes this text to a buffer of eight bytes, or nothing if the text is null. */
static bool finds(look_up *call, struct mini_moka *cache, const char *key, uint64_t now, uint32_t status, const char *text) {
    uint8_t buffer[ROOM], before[ROOM];
    size_t length = BEFORE;
    memset(buffer, BEFORE, ROOM);
    memset(before, BEFORE, ROOM);
    if (call(cache, key, strlen(key), now, buffer, ROOM, &length) != status)
        return false;
    if (text != NULL)
        memcpy(before, text, strlen(text));
    return memcmp(buffer, before, ROOM) == 0 && length == (text == NULL ? BEFORE : strlen(text));
}

/* Returns true if a get-or-insert returns this status and writes this text to a buffer of eight bytes, or nothing if the text is null. */
static bool gives(struct mini_moka *cache, const char *key, const char *otherwise, uint64_t now, uint32_t status, const char *text) {
    uint8_t buffer[ROOM], before[ROOM];
    size_t length = BEFORE;
    memset(buffer, BEFORE, ROOM);
    memset(before, BEFORE, ROOM);
    if (mini_moka_get_or_insert(cache, key, strlen(key), otherwise, strlen(otherwise), now, buffer, ROOM, &length) != status)
        return false;
    if (text != NULL)
        memcpy(before, text, strlen(text));
    return memcmp(buffer, before, ROOM) == 0 && length == (text == NULL ? BEFORE : strlen(text));
}

static uint32_t contains(struct mini_moka *cache, const char *key, uint64_t now) {
    return mini_moka_contains(cache, key, strlen(key), now);
}

static uint32_t invalidate(struct mini_moka *cache, const char *key, uint64_t now) {
    return mini_moka_invalidate(cache, key, strlen(key), now);
}

static void bytes_come_and_go(void) {
    struct mini_moka cache = {0};
    CHECK(mini_moka_open(&cache, &BYTES) == MINI_MOKA_DONE);
    CHECK(mini_moka_open(&cache, &BYTES) == MINI_MOKA_ALREADY_OPEN);
    CHECK(mini_moka_u64_open(&cache, &NUMBERS) == MINI_MOKA_ALREADY_OPEN);
    CHECK(finds(mini_moka_get, &cache, "a", 0, MINI_MOKA_ABSENT, NULL));
    CHECK(insert(&cache, "a", "apple", 0) == MINI_MOKA_DONE);
    CHECK(insert(&cache, "", "", 0) == MINI_MOKA_DONE);
    CHECK(insert(&cache, "full", "12345678", 0) == MINI_MOKA_DONE);
    CHECK(finds(mini_moka_get, &cache, "a", 0, MINI_MOKA_DONE, "apple"));
    CHECK(finds(mini_moka_get, &cache, "", 0, MINI_MOKA_DONE, ""));
    CHECK(finds(mini_moka_peek, &cache, "full", 0, MINI_MOKA_DONE, "12345678"));
    CHECK(finds(mini_moka_peek, &cache, "b", 0, MINI_MOKA_ABSENT, NULL));
    CHECK(number_of(mini_moka_count, &cache) == 3);
    CHECK(number_of(mini_moka_weight, &cache) == 3);
    CHECK(insert(&cache, "a", "pear", 0) == MINI_MOKA_DONE);
    CHECK(finds(mini_moka_remove, &cache, "a", 0, MINI_MOKA_DONE, "pear"));
    CHECK(finds(mini_moka_remove, &cache, "a", 0, MINI_MOKA_ABSENT, NULL));
    CHECK(contains(&cache, "a", 0) == MINI_MOKA_ABSENT && contains(&cache, "", 0) == MINI_MOKA_DONE);
    CHECK(invalidate(&cache, "", 0) == MINI_MOKA_DONE && contains(&cache, "", 0) == MINI_MOKA_ABSENT);
    CHECK(mini_moka_invalidate_all(&cache) == MINI_MOKA_DONE && number_of(mini_moka_count, &cache) == 0);
    CHECK(mini_moka_close(&cache) == MINI_MOKA_DONE && mini_moka_close(&cache) == MINI_MOKA_CLOSED);
}

/* If a value doesn't fit in the buffer, a look-up writes only its length, and a removal leaves the entry. */
static void long_values_stay(void) {
    struct mini_moka cache = {0};
    uint8_t buffer[ROOM] = {BEFORE};
    size_t length = BEFORE;
    CHECK(mini_moka_open(&cache, &BYTES) == MINI_MOKA_DONE);
    CHECK(insert(&cache, "long", "123456789", 0) == MINI_MOKA_DONE);
    CHECK(mini_moka_get(&cache, "long", 4, 0, buffer, ROOM, &length) == MINI_MOKA_TOO_SHORT && length == 9 && buffer[0] == BEFORE);
    length = BEFORE;
    CHECK(mini_moka_peek(&cache, "long", 4, 0, buffer, ROOM, &length) == MINI_MOKA_TOO_SHORT && length == 9 && buffer[0] == BEFORE);
    length = BEFORE;
    CHECK(mini_moka_remove(&cache, "long", 4, 0, buffer, ROOM, &length) == MINI_MOKA_TOO_SHORT && length == 9 && buffer[0] == BEFORE);
    CHECK(contains(&cache, "long", 0) == MINI_MOKA_DONE);
    CHECK(mini_moka_close(&cache) == MINI_MOKA_DONE);
}

/* Two entries of ten bytes fill a weighed cache of 20. */
static void bytes_are_weighed(void) {
    struct mini_moka cache = {0};
    struct mini_moka_settings weighed = BYTES;
    weighed.capacity = 20;
    weighed.is_weighed = true;
    CHECK(mini_moka_open(&cache, &weighed) == MINI_MOKA_DONE);
    CHECK(insert(&cache, "1234", "123456", 0) == MINI_MOKA_DONE && number_of(mini_moka_weight, &cache) == 10);
    CHECK(insert(&cache, "abcd", "abcdef", 0) == MINI_MOKA_DONE && number_of(mini_moka_weight, &cache) == 20);
    CHECK(insert(&cache, "new", "", 0) == MINI_MOKA_REJECTED && contains(&cache, "new", 0) == MINI_MOKA_ABSENT);
    CHECK(insert(&cache, "much", "123456789012345678901", 0) == MINI_MOKA_REJECTED && contains(&cache, "much", 0) == MINI_MOKA_ABSENT);
    CHECK(number_of(mini_moka_count, &cache) == 2 && !mini_moka_is_error(MINI_MOKA_REJECTED));
    CHECK(mini_moka_close(&cache) == MINI_MOKA_DONE);
}

/* In a weighed cache of numbers an entry weighs the upper half of its value: two entries of ten fill one of 20. */
static void numbers_are_weighed(void) {
    const uint64_t ten = (uint64_t)10 << 32;
    struct mini_moka cache = {0};
    struct mini_moka_u64_settings weighed = MINI_MOKA_U64_SETTINGS_INIT;
    uint64_t value = BEFORE;
    weighed.capacity = 20;
    weighed.is_weighed = true;
    CHECK(mini_moka_u64_open(&cache, &weighed) == MINI_MOKA_DONE);
    CHECK(mini_moka_u64_insert(&cache, 1, ten + 7, 0) == MINI_MOKA_DONE && number_of(mini_moka_weight, &cache) == 10);
    CHECK(mini_moka_u64_insert(&cache, 2, ten + UINT32_MAX, 0) == MINI_MOKA_DONE && number_of(mini_moka_weight, &cache) == 20);
    CHECK(mini_moka_u64_insert(&cache, 3, (uint64_t)1 << 32, 0) == MINI_MOKA_REJECTED && mini_moka_u64_contains(&cache, 3, 0) == MINI_MOKA_ABSENT);
    CHECK(mini_moka_u64_insert(&cache, 4, UINT32_MAX, 0) == MINI_MOKA_DONE && number_of(mini_moka_weight, &cache) == 20);
    CHECK(mini_moka_u64_get(&cache, 1, 0, &value) == MINI_MOKA_DONE && value == ten + 7 && number_of(mini_moka_count, &cache) == 3);
    CHECK(mini_moka_u64_insert(&cache, 1, ten + ten + 8, 0) == MINI_MOKA_DONE && number_of(mini_moka_weight, &cache) == 30);
    CHECK(mini_moka_u64_contains(&cache, 1, 0) == MINI_MOKA_DONE && number_of(mini_moka_weight, &cache) == 20);
    CHECK(mini_moka_close(&cache) == MINI_MOKA_DONE);
}

/* Returns true if all statistics are 0. */
static bool nothing_was_counted(struct mini_moka *cache) {
    struct mini_moka_statistics met, none;
    memset(&none, 0, sizeof none);
    return mini_moka_statistics(cache, &met) == MINI_MOKA_DONE && memcmp(&met, &none, sizeof met) == 0;
}

/* Tests the statistics of two hits, a miss, two inserts, one of them an update, and an expired entry. */
static void calls_are_counted(void) {
    struct mini_moka cache = {0};
    struct mini_moka_settings settings = BYTES;
    struct mini_moka_statistics met;
    settings.time_to_live = 20;
    CHECK(mini_moka_open(&cache, &settings) == MINI_MOKA_DONE && nothing_was_counted(&cache));
    CHECK(insert(&cache, "a", "apple", 0) == MINI_MOKA_DONE && insert(&cache, "a", "pear", 0) == MINI_MOKA_DONE);
    CHECK(finds(mini_moka_get, &cache, "a", 19, MINI_MOKA_DONE, "pear") && finds(mini_moka_get, &cache, "a", 19, MINI_MOKA_DONE, "pear"));
    CHECK(finds(mini_moka_peek, &cache, "a", 19, MINI_MOKA_DONE, "pear"));
    CHECK(finds(mini_moka_get, &cache, "a", 20, MINI_MOKA_ABSENT, NULL));
    CHECK(mini_moka_statistics(&cache, &met) == MINI_MOKA_DONE);
    CHECK(met.hits == 2 && met.misses == 1 && met.inserts == 2 && met.updates == 1 && met.expirations == 1);
    CHECK(met.rejections == 0 && met.evictions == 0 && met.removals == 0);
    CHECK(mini_moka_close(&cache) == MINI_MOKA_DONE);
    CHECK(mini_moka_open(&cache, &settings) == MINI_MOKA_DONE && nothing_was_counted(&cache));
    CHECK(mini_moka_close(&cache) == MINI_MOKA_DONE);
}

/* Makes a step of a walk, and returns its status. If an entry is found, appends it to the text as "key=value ". */
static uint32_t walk_on(struct mini_moka *cache, uint64_t now, char *text) {
    uint8_t key[ROOM], value[ROOM];
    size_t key_length = BEFORE, value_length = BEFORE;
    uint32_t status = mini_moka_next(cache, now, key, ROOM, value, ROOM, &key_length, &value_length);
    if (status == MINI_MOKA_DONE)
        sprintf(text + strlen(text), "%.*s=%.*s ", (int)key_length, (char *)key, (int)value_length, (char *)value);
    else
        CHECK(status == MINI_MOKA_TOO_SHORT || (key_length == BEFORE && value_length == BEFORE));
    return status;
}

/* A walk visits the unexpired entries in order of use, the most recently used last. A change ends it. */
static void walks_meet_each_entry(void) {
    struct mini_moka cache = {0};
    struct mini_moka_settings settings = BYTES;
    uint8_t key[ROOM], value[ROOM];
    size_t key_length = BEFORE, value_length = BEFORE;
    char text[100] = "";
    settings.time_to_live = 20;
    CHECK(mini_moka_open(&cache, &settings) == MINI_MOKA_DONE);
    CHECK(walk_on(&cache, 0, text) == MINI_MOKA_CHANGED);
    CHECK(mini_moka_walk(&cache) == MINI_MOKA_DONE && walk_on(&cache, 0, text) == MINI_MOKA_ABSENT);
    CHECK(insert(&cache, "a", "apple", 1) == MINI_MOKA_DONE && insert(&cache, "b", "", 0) == MINI_MOKA_DONE);
    CHECK(insert(&cache, "", "nothing", 1) == MINI_MOKA_DONE);
    CHECK(walk_on(&cache, 1, text) == MINI_MOKA_CHANGED && text[0] == 0);
    CHECK(finds(mini_moka_get, &cache, "a", 1, MINI_MOKA_DONE, "apple") && mini_moka_walk(&cache) == MINI_MOKA_DONE);
    while (walk_on(&cache, 1, text) == MINI_MOKA_DONE)
        CHECK(finds(mini_moka_peek, &cache, "b", 1, MINI_MOKA_DONE, ""));
    CHECK(strcmp(text, "b= =nothing a=apple ") == 0 && walk_on(&cache, 1, text) == MINI_MOKA_ABSENT);
    text[0] = 0;
    CHECK(mini_moka_walk(&cache) == MINI_MOKA_DONE && walk_on(&cache, 20, text) == MINI_MOKA_DONE && walk_on(&cache, 20, text) == MINI_MOKA_DONE);
    CHECK(strcmp(text, "=nothing a=apple ") == 0 && number_of(mini_moka_count, &cache) == 3);
    CHECK(mini_moka_walk(&cache) == MINI_MOKA_DONE);
    CHECK(mini_moka_next(&cache, 1, key, ROOM, value, 0, &key_length, &value_length) == MINI_MOKA_DONE && key_length == 1 && value_length == 0);
    CHECK(mini_moka_next(&cache, 1, key, ROOM, value, 6, &key_length, &value_length) == MINI_MOKA_TOO_SHORT && key_length == 0 && value_length == 7);
    CHECK(mini_moka_next(&cache, 1, key, ROOM, value, 7, &key_length, &value_length) == MINI_MOKA_DONE && memcmp(value, "nothing", 7) == 0);
    CHECK(contains(&cache, "a", 1) == MINI_MOKA_DONE && mini_moka_next(&cache, 1, key, ROOM, value, ROOM, &key_length, &value_length) == MINI_MOKA_CHANGED);
    CHECK(mini_moka_close(&cache) == MINI_MOKA_DONE);
}

/* ---- removed entries */

/* Returns the number of removed entries that were lost. */
static uint64_t lost(struct mini_moka *cache) {
    struct mini_moka_statistics met = {.lost = BEFORE};
    CHECK(mini_moka_statistics(cache, &met) == MINI_MOKA_DONE);
    return met.lost;
}

/* Returns true if a drain returns this status and, with MINI_MOKA_DONE, writes this entry as "key=value" and this cause. */
static bool drains(struct mini_moka *cache, uint32_t status, const char *text, uint32_t cause) {
    uint8_t key[ROOM], value[ROOM];
    size_t key_length = BEFORE, value_length = BEFORE;
    uint32_t why = BEFORE;
    char met[2 * ROOM + 2];
    if (mini_moka_removed(cache, key, ROOM, value, ROOM, &key_length, &value_length, &why) != status)
        return false;
    if (status != MINI_MOKA_DONE)
        return key_length == BEFORE && value_length == BEFORE && why == BEFORE;
    sprintf(met, "%.*s=%.*s", (int)key_length, (char *)key, (int)value_length, (char *)value);
    return strcmp(met, text) == 0 && why == cause;
}

/* Entries are drained in the order in which they left, with their causes. An entry that mini_moka_remove returns isn't queued. Draining doesn't end a walk. */
static void removed_entries_are_drained(void) {
    struct mini_moka cache = {0};
    struct mini_moka_settings settings = BYTES;
    char text[100] = "";
    settings.capacity = 2;
    settings.time_to_live = 20;
    settings.removed_room = 10;
    CHECK(mini_moka_open(&cache, &settings) == MINI_MOKA_DONE && drains(&cache, MINI_MOKA_ABSENT, NULL, 0));
    CHECK(insert(&cache, "a", "apple", 0) == MINI_MOKA_DONE && insert(&cache, "a", "pear", 0) == MINI_MOKA_DONE);
    CHECK(insert(&cache, "b", "", 1) == MINI_MOKA_DONE && insert(&cache, "c", "cherry", 1) == MINI_MOKA_REJECTED);
    for (int i = 0; i < 3; i++)
        CHECK(finds(mini_moka_get, &cache, "d", 1, MINI_MOKA_ABSENT, NULL));
    CHECK(insert(&cache, "d", "date", 2) == MINI_MOKA_DONE && contains(&cache, "b", 21) == MINI_MOKA_ABSENT);
    CHECK(invalidate(&cache, "d", 21) == MINI_MOKA_DONE && invalidate(&cache, "d", 21) == MINI_MOKA_DONE);
    CHECK(insert(&cache, "", "nothing", 21) == MINI_MOKA_DONE && finds(mini_moka_remove, &cache, "", 21, MINI_MOKA_DONE, "nothing"));
    CHECK(insert(&cache, "e", "elder", 21) == MINI_MOKA_DONE && mini_moka_walk(&cache) == MINI_MOKA_DONE);
    CHECK(drains(&cache, MINI_MOKA_DONE, "a=apple", MINI_MOKA_CAUSE_REPLACED));
    CHECK(drains(&cache, MINI_MOKA_DONE, "c=cherry", MINI_MOKA_CAUSE_REJECTED));
    CHECK(drains(&cache, MINI_MOKA_DONE, "a=pear", MINI_MOKA_CAUSE_SIZE));
    CHECK(drains(&cache, MINI_MOKA_DONE, "b=", MINI_MOKA_CAUSE_EXPIRED));
    CHECK(drains(&cache, MINI_MOKA_DONE, "d=date", MINI_MOKA_CAUSE_EXPLICIT));
    CHECK(drains(&cache, MINI_MOKA_ABSENT, NULL, 0));
    CHECK(walk_on(&cache, 21, text) == MINI_MOKA_DONE && strcmp(text, "e=elder ") == 0);
    CHECK(mini_moka_invalidate_all(&cache) == MINI_MOKA_DONE && drains(&cache, MINI_MOKA_DONE, "e=elder", MINI_MOKA_CAUSE_EXPLICIT));
    CHECK(lost(&cache) == 0 && insert(&cache, "f", "fig", 21) == MINI_MOKA_DONE && mini_moka_invalidate_all(&cache) == MINI_MOKA_DONE);
    CHECK(mini_moka_close(&cache) == MINI_MOKA_DONE && drains(&cache, MINI_MOKA_CLOSED, NULL, 0));
    CHECK(mini_moka_open(&cache, &settings) == MINI_MOKA_DONE && drains(&cache, MINI_MOKA_ABSENT, NULL, 0));
    CHECK(mini_moka_close(&cache) == MINI_MOKA_DONE);
}

/* A removed entry that is too long for a buffer stays at the front, and its lengths are written. */
static void long_removed_entries_stay(void) {
    struct mini_moka cache = {0};
    struct mini_moka_settings settings = BYTES;
    uint8_t key[ROOM] = {BEFORE}, value[ROOM] = {BEFORE};
    size_t key_length = BEFORE, value_length = BEFORE;
    uint32_t cause = BEFORE;
    settings.removed_room = 1;
    CHECK(mini_moka_open(&cache, &settings) == MINI_MOKA_DONE);
    CHECK(insert(&cache, "long", "1234567", 0) == MINI_MOKA_DONE && invalidate(&cache, "long", 0) == MINI_MOKA_DONE);
    CHECK(mini_moka_removed(&cache, key, 3, value, ROOM, &key_length, &value_length, &cause) == MINI_MOKA_TOO_SHORT);
    CHECK(key_length == 4 && value_length == 7 && cause == BEFORE && key[0] == BEFORE && value[0] == BEFORE);
    key_length = value_length = BEFORE;
    CHECK(mini_moka_removed(&cache, key, ROOM, value, 6, &key_length, &value_length, &cause) == MINI_MOKA_TOO_SHORT);
    CHECK(key_length == 4 && value_length == 7 && cause == BEFORE && key[0] == BEFORE && value[0] == BEFORE);
    CHECK(mini_moka_removed(&cache, key, 4, value, 7, &key_length, &value_length, &cause) == MINI_MOKA_DONE && cause == MINI_MOKA_CAUSE_EXPLICIT);
    CHECK(memcmp(key, "long", 4) == 0 && memcmp(value, "1234567", 7) == 0 && drains(&cache, MINI_MOKA_ABSENT, NULL, 0));
    CHECK(mini_moka_close(&cache) == MINI_MOKA_DONE);
}

/* A full queue keeps its entries, and later ones are counted as lost. Without a queue none is counted as lost. */
static void full_queues_lose(void) {
    struct mini_moka cache = {0};
    struct mini_moka_u64_settings settings = NUMBERS;
    uint64_t key = BEFORE, value = BEFORE;
    uint32_t cause = BEFORE;
    settings.removed_room = 2;
    CHECK(mini_moka_u64_open(&cache, &settings) == MINI_MOKA_DONE);
    for (uint64_t i = 0; i < 5; i++)
        CHECK(mini_moka_u64_insert(&cache, 7, i, 0) == MINI_MOKA_DONE);
    CHECK(lost(&cache) == 2);
    CHECK(mini_moka_u64_removed(&cache, &key, &value, &cause) == MINI_MOKA_DONE && key == 7 && value == 0 && cause == MINI_MOKA_CAUSE_REPLACED);
    CHECK(mini_moka_u64_invalidate(&cache, 7, 0) == MINI_MOKA_DONE && lost(&cache) == 2);
    CHECK(mini_moka_u64_removed(&cache, &key, &value, &cause) == MINI_MOKA_DONE && value == 1 && cause == MINI_MOKA_CAUSE_REPLACED);
    CHECK(mini_moka_u64_removed(&cache, &key, &value, &cause) == MINI_MOKA_DONE && value == 4 && cause == MINI_MOKA_CAUSE_EXPLICIT);
    key = value = cause = BEFORE;
    CHECK(mini_moka_u64_removed(&cache, &key, &value, &cause) == MINI_MOKA_ABSENT && key == BEFORE && value == BEFORE && cause == BEFORE);
    CHECK(mini_moka_close(&cache) == MINI_MOKA_DONE);
    CHECK(mini_moka_u64_open(&cache, &NUMBERS) == MINI_MOKA_DONE && mini_moka_u64_insert(&cache, 7, 49, 0) == MINI_MOKA_DONE);
    CHECK(mini_moka_u64_insert(&cache, 7, 50, 0) == MINI_MOKA_DONE && mini_moka_u64_removed(&cache, &key, &value, &cause) == MINI_MOKA_ABSENT);
    CHECK(lost(&cache) == 0 && mini_moka_close(&cache) == MINI_MOKA_DONE);
}

/* An entry that is expired when a call of its key replaces or removes it leaves as expired, even if the cleanup has not reached it. A live one does not. */
static void expired_entries_leave_as_expired(void) {
    struct mini_moka cache = {0};
    struct mini_moka_settings settings = BYTES;
    struct mini_moka_statistics met;
    settings.time_to_live = 20;
    settings.removed_room = 10;
    CHECK(mini_moka_open(&cache, &settings) == MINI_MOKA_DONE);
    /* "live" was inserted first and expires last, so the cleanup stops there. */
    CHECK(insert(&cache, "live", "1", 1) == MINI_MOKA_DONE && insert(&cache, "a", "apple", 0) == MINI_MOKA_DONE);
    CHECK(insert(&cache, "b", "berry", 0) == MINI_MOKA_DONE && insert(&cache, "c", "cherry", 0) == MINI_MOKA_DONE);
    CHECK(insert(&cache, "d", "date", 0) == MINI_MOKA_DONE && contains(&cache, "a", 20) == MINI_MOKA_ABSENT && number_of(mini_moka_count, &cache) == 5);
    CHECK(insert(&cache, "a", "again", 20) == MINI_MOKA_DONE && drains(&cache, MINI_MOKA_DONE, "a=apple", MINI_MOKA_CAUSE_EXPIRED));
    CHECK(invalidate(&cache, "b", 20) == MINI_MOKA_DONE && drains(&cache, MINI_MOKA_DONE, "b=berry", MINI_MOKA_CAUSE_EXPIRED));
    CHECK(finds(mini_moka_remove, &cache, "c", 20, MINI_MOKA_ABSENT, NULL) && drains(&cache, MINI_MOKA_DONE, "c=cherry", MINI_MOKA_CAUSE_EXPIRED));
    CHECK(insert(&cache, "live", "2", 20) == MINI_MOKA_DONE && drains(&cache, MINI_MOKA_DONE, "live=1", MINI_MOKA_CAUSE_REPLACED));
    /* Now "d" was written first, so the cleanup reaches it. */
    CHECK(invalidate(&cache, "live", 20) == MINI_MOKA_DONE && drains(&cache, MINI_MOKA_DONE, "d=date", MINI_MOKA_CAUSE_EXPIRED));
    CHECK(drains(&cache, MINI_MOKA_DONE, "live=2", MINI_MOKA_CAUSE_EXPLICIT) && drains(&cache, MINI_MOKA_ABSENT, NULL, 0));
    CHECK(mini_moka_statistics(&cache, &met) == MINI_MOKA_DONE && met.inserts == 7 && met.updates == 1 && met.expirations == 4 && met.removals == 1);
    /* A call that removes all has no moment. */
    CHECK(mini_moka_invalidate_all(&cache) == MINI_MOKA_DONE && drains(&cache, MINI_MOKA_DONE, "a=again", MINI_MOKA_CAUSE_EXPLICIT));
    CHECK(mini_moka_close(&cache) == MINI_MOKA_DONE);
}

/* The same for numbers. A get-or-insert at the key of an expired entry is a miss and an insert, and no update. */
static void expired_numbers_leave_as_expired(void) {
    struct mini_moka cache = {0};
    struct mini_moka_statistics met;
    uint64_t key = BEFORE, value = BEFORE;
    uint32_t cause = BEFORE;
    CHECK(mini_moka_u64_open(&cache, &(struct mini_moka_u64_settings){10, NONE, 20, 0, 10, 1, 0, false, false}) == MINI_MOKA_DONE);
    CHECK(mini_moka_u64_insert(&cache, 1, 1, 1) == MINI_MOKA_DONE);
    for (uint64_t i = 2; i < 6; i++)
        CHECK(mini_moka_u64_insert(&cache, i, i, 0) == MINI_MOKA_DONE);
    CHECK(mini_moka_u64_insert(&cache, 2, 20, 20) == MINI_MOKA_DONE && mini_moka_u64_get_or_insert(&cache, 3, 30, 20, &value) == MINI_MOKA_DONE && value == 30);
    CHECK(mini_moka_u64_invalidate(&cache, 4, 20) == MINI_MOKA_DONE && mini_moka_u64_remove(&cache, 5, 20, &value) == MINI_MOKA_ABSENT);
    for (uint64_t i = 2; i < 6; i++) {
        CHECK(mini_moka_u64_removed(&cache, &key, &value, &cause) == MINI_MOKA_DONE && key == i && value == i && cause == MINI_MOKA_CAUSE_EXPIRED);
    }
    CHECK(mini_moka_u64_removed(&cache, &key, &value, &cause) == MINI_MOKA_ABSENT);
    CHECK(mini_moka_statistics(&cache, &met) == MINI_MOKA_DONE && met.hits == 0 && met.misses == 1 && met.inserts == 7 && met.updates == 0);
    CHECK(met.expirations == 4 && met.removals == 0 && mini_moka_close(&cache) == MINI_MOKA_DONE);
}

/* ---- a get or an insert of bytes */

/* A get-or-insert writes the value that it finds, or else the one that it inserts, and doesn't update. */
static void bytes_are_got_or_inserted(void) {
    struct mini_moka cache = {0};
    struct mini_moka_statistics met;
    struct mini_moka_settings settings = BYTES;
    uint8_t buffer[ROOM] = {BEFORE};
    size_t length = BEFORE;
    settings.capacity = 2;
    settings.removed_room = 10;
    settings.time_to_live = 20;
    CHECK(mini_moka_open(&cache, &settings) == MINI_MOKA_DONE && mini_moka_walk(&cache) == MINI_MOKA_DONE);
    CHECK(gives(&cache, "a", "apple", 0, MINI_MOKA_DONE, "apple") && gives(&cache, "a", "pear", 1, MINI_MOKA_DONE, "apple"));
    CHECK(mini_moka_next(&cache, 1, buffer, 1, buffer + 1, 1, &length, &(size_t){0}) == MINI_MOKA_CHANGED);
    CHECK(gives(&cache, "", "", 1, MINI_MOKA_DONE, "") && gives(&cache, "", "12345678", 1, MINI_MOKA_DONE, ""));
    CHECK(finds(mini_moka_peek, &cache, "a", 1, MINI_MOKA_DONE, "apple") && number_of(mini_moka_count, &cache) == 2);
    /* The cache is full, so this entry is rejected. */
    CHECK(gives(&cache, "c", "12345678", 1, MINI_MOKA_DONE, "12345678") && contains(&cache, "c", 1) == MINI_MOKA_ABSENT);
    CHECK(drains(&cache, MINI_MOKA_DONE, "c=12345678", MINI_MOKA_CAUSE_REJECTED) && drains(&cache, MINI_MOKA_ABSENT, NULL, 0));
    /* An entry that is expired leaves, and gives way to the new one. */
    CHECK(gives(&cache, "a", "pear", 20, MINI_MOKA_DONE, "pear") && drains(&cache, MINI_MOKA_DONE, "a=apple", MINI_MOKA_CAUSE_EXPIRED));
    CHECK(mini_moka_statistics(&cache, &met) == MINI_MOKA_DONE && met.hits == 2 && met.misses == 4 && met.inserts == 4 && met.rejections == 1);
    CHECK(met.expirations == 1 && met.updates + met.evictions + met.removals == 0 && mini_moka_close(&cache) == MINI_MOKA_DONE);
}

/* If the buffer is shorter than the value, a get-or-insert gets or inserts it all the same, and writes only its length. */
static void long_values_are_got_or_inserted(void) {
    struct mini_moka cache = {0};
    struct mini_moka_statistics met;
    uint8_t buffer[2 * ROOM] = {BEFORE};
    CHECK(mini_moka_open(&cache, &BYTES) == MINI_MOKA_DONE);
    for (int round = 0; round < 2; round++) {
        size_t length = BEFORE;
        CHECK(mini_moka_get_or_insert(&cache, "long", 4, "123456789", 9, 0, buffer, ROOM, &length) == MINI_MOKA_TOO_SHORT && length == 9);
        CHECK(buffer[0] == BEFORE && mini_moka_statistics(&cache, &met) == MINI_MOKA_DONE);
        CHECK(met.hits == (uint64_t)round && met.misses == 1 && met.inserts == 1);
        length = BEFORE;
        CHECK(mini_moka_peek(&cache, "long", 4, 0, buffer, 2 * ROOM, &length) == MINI_MOKA_DONE && length == 9 && memcmp(buffer, "123456789", 9) == 0);
        buffer[0] = BEFORE;
    }
    CHECK(mini_moka_close(&cache) == MINI_MOKA_DONE);
}

/* ---- numbers */

static void numbers_come_and_go(void) {
    struct mini_moka cache = {0};
    uint64_t value = BEFORE;
    CHECK(mini_moka_u64_open(&cache, &NUMBERS) == MINI_MOKA_DONE);
    CHECK(mini_moka_u64_get(&cache, 7, 0, &value) == MINI_MOKA_ABSENT && value == BEFORE);
    CHECK(mini_moka_u64_insert(&cache, 7, 49, 0) == MINI_MOKA_DONE);
    CHECK(mini_moka_u64_open(&cache, &NUMBERS) == MINI_MOKA_ALREADY_OPEN);
    CHECK(mini_moka_open(&cache, &BYTES) == MINI_MOKA_ALREADY_OPEN);
    CHECK(mini_moka_u64_get(&cache, 7, 0, &value) == MINI_MOKA_DONE && value == 49);
    CHECK(mini_moka_u64_peek(&cache, 8, 0, &value) == MINI_MOKA_ABSENT && value == 49);
    CHECK(mini_moka_u64_get_or_insert(&cache, 8, 64, 0, &value) == MINI_MOKA_DONE && value == 64);
    CHECK(mini_moka_u64_get_or_insert(&cache, 8, 65, 0, &value) == MINI_MOKA_DONE && value == 64);
    CHECK(mini_moka_u64_peek(&cache, 7, 0, &value) == MINI_MOKA_DONE && value == 49);
    CHECK(number_of(mini_moka_count, &cache) == 2);
    CHECK(number_of(mini_moka_weight, &cache) == 2);
    CHECK(mini_moka_u64_insert(&cache, 7, 50, 0) == MINI_MOKA_DONE);
    CHECK(mini_moka_u64_remove(&cache, 7, 0, &value) == MINI_MOKA_DONE && value == 50);
    CHECK(mini_moka_u64_remove(&cache, 7, 0, &value) == MINI_MOKA_ABSENT && value == 50);
    CHECK(mini_moka_u64_contains(&cache, 7, 0) == MINI_MOKA_ABSENT && mini_moka_u64_contains(&cache, 8, 0) == MINI_MOKA_DONE);
    CHECK(mini_moka_u64_invalidate(&cache, 8, 0) == MINI_MOKA_DONE && mini_moka_u64_contains(&cache, 8, 0) == MINI_MOKA_ABSENT);
    CHECK(mini_moka_u64_insert(&cache, 9, 81, 0) == MINI_MOKA_DONE);
    CHECK(mini_moka_invalidate_all(&cache) == MINI_MOKA_DONE && number_of(mini_moka_count, &cache) == 0);
    CHECK(mini_moka_close(&cache) == MINI_MOKA_DONE && mini_moka_close(&cache) == MINI_MOKA_CLOSED);
    CHECK(mini_moka_u64_open(&cache, &NUMBERS) == MINI_MOKA_DONE);
    CHECK(mini_moka_u64_get(&cache, 9, 0, &value) == MINI_MOKA_ABSENT);
    CHECK(mini_moka_close(&cache) == MINI_MOKA_DONE);
}

/* An entry lives until the end of its time to live, or of its time to idle after a get. */
static void numbers_expire(void) {
    struct mini_moka cache = {0};
    uint64_t value = BEFORE;
    struct mini_moka_u64_settings live = {.capacity = 10, .time_to_live = 20, .time_to_idle = NONE, .initial_capacity = 10};
    struct mini_moka_u64_settings idle = {.capacity = NONE, .time_to_live = NONE, .time_to_idle = 20};
    CHECK(mini_moka_u64_open(&cache, &live) == MINI_MOKA_DONE);
    CHECK(mini_moka_u64_insert(&cache, 7, 49, 0) == MINI_MOKA_DONE);
    CHECK(mini_moka_u64_get(&cache, 7, 19, &value) == MINI_MOKA_DONE && value == 49);
    CHECK(mini_moka_u64_peek(&cache, 7, 20, &value) == MINI_MOKA_ABSENT && number_of(mini_moka_count, &cache) == 1);
    CHECK(mini_moka_u64_get(&cache, 7, 20, &value) == MINI_MOKA_ABSENT);
    CHECK(mini_moka_u64_insert(&cache, 8, 64, 20) == MINI_MOKA_DONE);
    CHECK(mini_moka_u64_remove(&cache, 8, 40, &value) == MINI_MOKA_ABSENT);
    CHECK(number_of(mini_moka_count, &cache) == 0);
    CHECK(mini_moka_close(&cache) == MINI_MOKA_DONE);
    CHECK(mini_moka_u64_open(&cache, &idle) == MINI_MOKA_DONE);
    CHECK(mini_moka_u64_insert(&cache, 7, 49, 0) == MINI_MOKA_DONE);
    CHECK(mini_moka_u64_get(&cache, 7, 19, &value) == MINI_MOKA_DONE);
    CHECK(mini_moka_u64_contains(&cache, 7, 38) == MINI_MOKA_DONE);
    CHECK(mini_moka_u64_contains(&cache, 7, 39) == MINI_MOKA_ABSENT);
    CHECK(mini_moka_close(&cache) == MINI_MOKA_DONE);
}

/* A number lives until the end of its own time to live, or of the cache's if that is shorter. The next insert at its key has the cache's again. */
static void numbers_have_their_own_time_to_live(void) {
    struct mini_moka cache = {0};
    struct mini_moka_u64_settings settings = NUMBERS;
    CHECK(mini_moka_u64_insert_for(&cache, 7, 49, 5, 0) == MINI_MOKA_CLOSED);
    CHECK(mini_moka_u64_open(&cache, &settings) == MINI_MOKA_DONE);
    CHECK(mini_moka_u64_insert_for(&cache, 7, 49, 5, 0) == MINI_MOKA_NO_TIME_TO_LIVE && number_of(mini_moka_count, &cache) == 0);
    CHECK(mini_moka_insert_for(&cache, "a", 1, "b", 1, 5, 0) == MINI_MOKA_OTHER_KIND);
    CHECK(mini_moka_close(&cache) == MINI_MOKA_DONE);
    settings.time_to_live = 20;
    CHECK(mini_moka_u64_open(&cache, &settings) == MINI_MOKA_DONE);
    CHECK(mini_moka_u64_insert_for(&cache, 7, 49, 5, 10) == MINI_MOKA_DONE && mini_moka_u64_insert_for(&cache, 8, 64, 99, 10) == MINI_MOKA_DONE);
    CHECK(mini_moka_u64_contains(&cache, 7, 14) == MINI_MOKA_DONE && mini_moka_u64_contains(&cache, 7, 15) == MINI_MOKA_ABSENT);
    CHECK(mini_moka_u64_contains(&cache, 8, 29) == MINI_MOKA_DONE && mini_moka_u64_contains(&cache, 8, 30) == MINI_MOKA_ABSENT);
    CHECK(mini_moka_u64_insert_for(&cache, 7, 49, 5, 10) == MINI_MOKA_DONE && mini_moka_u64_insert(&cache, 7, 50, 10) == MINI_MOKA_DONE);
    CHECK(mini_moka_u64_contains(&cache, 7, 29) == MINI_MOKA_DONE && mini_moka_u64_contains(&cache, 7, 30) == MINI_MOKA_ABSENT);
    CHECK(mini_moka_u64_insert_for(&cache, 7, 49, 0, 30) == MINI_MOKA_DONE && mini_moka_u64_contains(&cache, 7, 30) == MINI_MOKA_ABSENT);
    CHECK(mini_moka_u64_insert_for(&cache, 7, 49, UINT64_MAX, UINT64_MAX - 1) == MINI_MOKA_DONE);
    CHECK(mini_moka_u64_contains(&cache, 7, UINT64_MAX) == MINI_MOKA_DONE && mini_moka_u64_insert_for(&cache, 7, 49, 1, UINT64_MAX - 1) == MINI_MOKA_DONE);
    CHECK(mini_moka_u64_contains(&cache, 7, UINT64_MAX - 1) == MINI_MOKA_DONE && mini_moka_u64_contains(&cache, 7, UINT64_MAX) == MINI_MOKA_ABSENT);
    CHECK(mini_moka_close(&cache) == MINI_MOKA_DONE);
    settings.capacity = 0;
    CHECK(mini_moka_u64_open(&cache, &settings) == MINI_MOKA_DONE && mini_moka_u64_insert_for(&cache, 7, 49, 5, 0) == MINI_MOKA_REJECTED);
    CHECK(mini_moka_close(&cache) == MINI_MOKA_DONE);
}

/* So do bytes. */
static void bytes_have_their_own_time_to_live(void) {
    struct mini_moka cache = {0};
    struct mini_moka_settings settings = BYTES;
    CHECK(mini_moka_insert_for(&cache, "a", 1, "apple", 5, 5, 0) == MINI_MOKA_CLOSED);
    CHECK(mini_moka_open(&cache, &settings) == MINI_MOKA_DONE);
    CHECK(mini_moka_insert_for(&cache, "a", 1, "apple", 5, 5, 0) == MINI_MOKA_NO_TIME_TO_LIVE && number_of(mini_moka_count, &cache) == 0);
    CHECK(mini_moka_u64_insert_for(&cache, 7, 49, 5, 0) == MINI_MOKA_OTHER_KIND);
    CHECK(mini_moka_close(&cache) == MINI_MOKA_DONE);
    settings.time_to_live = 20;
    CHECK(mini_moka_open(&cache, &settings) == MINI_MOKA_DONE);
    CHECK(mini_moka_insert_for(&cache, "a", 1, "apple", 5, 5, 10) == MINI_MOKA_DONE && mini_moka_insert_for(&cache, "b", 1, "bean", 4, 99, 10) == MINI_MOKA_DONE);
    CHECK(finds(mini_moka_get, &cache, "a", 14, MINI_MOKA_DONE, "apple") && finds(mini_moka_peek, &cache, "a", 15, MINI_MOKA_ABSENT, NULL));
    CHECK(finds(mini_moka_peek, &cache, "b", 29, MINI_MOKA_DONE, "bean") && finds(mini_moka_peek, &cache, "b", 30, MINI_MOKA_ABSENT, NULL));
    CHECK(insert(&cache, "a", "almond", 14) == MINI_MOKA_DONE && finds(mini_moka_get, &cache, "a", 29, MINI_MOKA_DONE, "almond"));
    CHECK(contains(&cache, "a", 34) == MINI_MOKA_ABSENT);
    CHECK(mini_moka_close(&cache) == MINI_MOKA_DONE);
}

/* mini_moka_remove_expired removes what is expired behind an unexpired entry too. A call of a key stops there. */
static void expired_entries_are_removed(void) {
    struct mini_moka cache = {0};
    struct mini_moka_u64_settings settings = NUMBERS;
    struct mini_moka_statistics met;
    uint64_t key = BEFORE, value = BEFORE;
    uint32_t cause = BEFORE;
    settings.removed_room = 4;
    settings.time_to_live = 20;
    CHECK(mini_moka_remove_expired(&cache, 0) == MINI_MOKA_CLOSED);
    CHECK(mini_moka_u64_open(&cache, &settings) == MINI_MOKA_DONE);
    CHECK(mini_moka_u64_insert(&cache, 7, 49, 0) == MINI_MOKA_DONE && mini_moka_u64_insert_for(&cache, 8, 64, 5, 0) == MINI_MOKA_DONE);
    CHECK(mini_moka_walk(&cache) == MINI_MOKA_DONE);
    CHECK(mini_moka_remove_expired(&cache, 4) == MINI_MOKA_DONE && number_of(mini_moka_count, &cache) == 2);
    CHECK(mini_moka_u64_next(&cache, 4, &key, &value) == MINI_MOKA_CHANGED);
    CHECK(mini_moka_u64_contains(&cache, 8, 5) == MINI_MOKA_ABSENT && number_of(mini_moka_count, &cache) == 2);
    CHECK(mini_moka_remove_expired(&cache, 5) == MINI_MOKA_DONE && number_of(mini_moka_count, &cache) == 1);
    CHECK(mini_moka_u64_removed(&cache, &key, &value, &cause) == MINI_MOKA_DONE && key == 8 && value == 64 && cause == MINI_MOKA_CAUSE_EXPIRED);
    CHECK(mini_moka_u64_removed(&cache, &key, &value, &cause) == MINI_MOKA_ABSENT);
    CHECK(mini_moka_statistics(&cache, &met) == MINI_MOKA_DONE && met.expirations == 1 && met.removals == 0);
    CHECK(mini_moka_u64_contains(&cache, 7, 19) == MINI_MOKA_DONE && mini_moka_close(&cache) == MINI_MOKA_DONE);
}

/* The same of bytes. */
static void expired_bytes_are_removed(void) {
    struct mini_moka cache = {0};
    struct mini_moka_settings settings = BYTES;
    settings.time_to_live = 20;
    CHECK(mini_moka_open(&cache, &settings) == MINI_MOKA_DONE && insert(&cache, "a", "apple", 0) == MINI_MOKA_DONE);
    CHECK(mini_moka_insert_for(&cache, "b", 1, "bean", 4, 5, 0) == MINI_MOKA_DONE && number_of(mini_moka_count, &cache) == 2);
    CHECK(mini_moka_remove_expired(&cache, 5) == MINI_MOKA_DONE && number_of(mini_moka_count, &cache) == 1);
    CHECK(finds(mini_moka_peek, &cache, "a", 5, MINI_MOKA_DONE, "apple") && finds(mini_moka_peek, &cache, "b", 0, MINI_MOKA_ABSENT, NULL));
    CHECK(mini_moka_close(&cache) == MINI_MOKA_DONE);
}

/* A cache stays within its capacity, and two handles have separate caches. mini_moka_u64_get_or_insert writes the value even if its entry is rejected. */
static void caches_are_bounded(void) {
    struct mini_moka first = {0}, second = {0};
    CHECK(mini_moka_u64_open(&first, &NUMBERS) == MINI_MOKA_DONE);
    CHECK(mini_moka_u64_open(&second, &NUMBERS) == MINI_MOKA_DONE);
    for (uint64_t key = 0; key < 1000; key++) {
        uint64_t value = BEFORE;
        CHECK(mini_moka_u64_get_or_insert(&first, key, key * key, key, &value) == MINI_MOKA_DONE && value == key * key);
        CHECK(number_of(mini_moka_count, &first) <= 10);
    }
    for (uint64_t key = 1000; key < 1100; key++) {
        uint32_t status = mini_moka_u64_insert(&first, key, 0, key);
        CHECK(mini_moka_u64_contains(&first, key, key) == (status == MINI_MOKA_REJECTED ? MINI_MOKA_ABSENT : status));
    }
    CHECK(number_of(mini_moka_count, &second) == 0);
    CHECK(mini_moka_close(&first) == MINI_MOKA_DONE);
    CHECK(mini_moka_close(&second) == MINI_MOKA_DONE);
}

/* A walk visits the unexpired numbers in order of use. A change ends it. */
static void walks_meet_each_number(void) {
    struct mini_moka cache = {0};
    struct mini_moka_u64_settings settings = NUMBERS;
    uint64_t key = BEFORE, value = BEFORE;
    settings.time_to_live = 20;
    CHECK(mini_moka_u64_open(&cache, &settings) == MINI_MOKA_DONE);
    CHECK(mini_moka_u64_next(&cache, 0, &key, &value) == MINI_MOKA_CHANGED && key == BEFORE && value == BEFORE);
    CHECK(mini_moka_u64_insert(&cache, 7, 49, 1) == MINI_MOKA_DONE && mini_moka_u64_insert(&cache, 8, 64, 0) == MINI_MOKA_DONE);
    CHECK(mini_moka_u64_get(&cache, 7, 1, &value) == MINI_MOKA_DONE && mini_moka_walk(&cache) == MINI_MOKA_DONE);
    CHECK(mini_moka_u64_next(&cache, 1, &key, &value) == MINI_MOKA_DONE && key == 8 && value == 64);
    CHECK(mini_moka_u64_peek(&cache, 7, 1, &value) == MINI_MOKA_DONE && number_of(mini_moka_count, &cache) == 2);
    CHECK(mini_moka_u64_next(&cache, 1, &key, &value) == MINI_MOKA_DONE && key == 7 && value == 49);
    CHECK(mini_moka_u64_next(&cache, 1, &key, &value) == MINI_MOKA_ABSENT && key == 7 && value == 49);
    CHECK(mini_moka_walk(&cache) == MINI_MOKA_DONE && mini_moka_u64_next(&cache, 20, &key, &value) == MINI_MOKA_DONE && key == 7);
    CHECK(mini_moka_u64_contains(&cache, 7, 1) == MINI_MOKA_DONE && mini_moka_u64_next(&cache, 1, &key, &value) == MINI_MOKA_CHANGED);
    CHECK(mini_moka_close(&cache) == MINI_MOKA_DONE);
}

/* Tests the statistics of a hit, two misses, two inserts and two expired entries, and then of a rejected entry and two removed ones. */
static void calls_of_numbers_are_counted(void) {
    struct mini_moka cache = {0};
    struct mini_moka_u64_settings settings = NUMBERS;
    struct mini_moka_statistics met;
    uint64_t value = BEFORE;
    settings.time_to_live = 20;
    settings.capacity = 2;
    CHECK(mini_moka_u64_open(&cache, &settings) == MINI_MOKA_DONE && mini_moka_u64_insert(&cache, 7, 49, 0) == MINI_MOKA_DONE);
    CHECK(mini_moka_u64_get(&cache, 7, 1, &value) == MINI_MOKA_DONE && mini_moka_u64_get(&cache, 8, 1, &value) == MINI_MOKA_ABSENT);
    CHECK(mini_moka_u64_get_or_insert(&cache, 8, 64, 1, &value) == MINI_MOKA_DONE && value == 64);
    CHECK(mini_moka_u64_contains(&cache, 8, 30) == MINI_MOKA_ABSENT);
    CHECK(mini_moka_statistics(&cache, &met) == MINI_MOKA_DONE);
    CHECK(met.hits == 1 && met.misses == 2 && met.inserts == 2 && met.expirations == 2 && met.updates + met.rejections + met.evictions + met.removals == 0);
    CHECK(mini_moka_u64_insert(&cache, 1, 1, 30) == MINI_MOKA_DONE && mini_moka_u64_insert(&cache, 2, 4, 30) == MINI_MOKA_DONE);
    CHECK(mini_moka_u64_insert(&cache, 3, 9, 30) == MINI_MOKA_REJECTED && mini_moka_u64_remove(&cache, 1, 30, &value) == MINI_MOKA_DONE);
    CHECK(mini_moka_invalidate_all(&cache) == MINI_MOKA_DONE && mini_moka_statistics(&cache, &met) == MINI_MOKA_DONE);
    CHECK(met.inserts == 5 && met.rejections == 1 && met.removals == 2 && met.updates + met.evictions == 0);
    CHECK(mini_moka_close(&cache) == MINI_MOKA_DONE);
}

/* ---- settings and statuses */

/* The header's initial settings have no limits, and a duration of 0 is refused. */
static void durations_of_zero_are_refused(void) {
    struct mini_moka cache = {0};
    struct mini_moka_settings bytes = MINI_MOKA_SETTINGS_INIT;
    struct mini_moka_u64_settings numbers = MINI_MOKA_U64_SETTINGS_INIT;
    CHECK(mini_moka_open(&cache, &bytes) == MINI_MOKA_DONE && mini_moka_close(&cache) == MINI_MOKA_DONE);
    CHECK(mini_moka_u64_open(&cache, &numbers) == MINI_MOKA_DONE && mini_moka_close(&cache) == MINI_MOKA_DONE);
    CHECK(mini_moka_open(&cache, &(struct mini_moka_settings){0}) == MINI_MOKA_ZERO_DURATION);
    CHECK(mini_moka_open(&cache, &(struct mini_moka_settings){.capacity = 10, .time_to_idle = NONE}) == MINI_MOKA_ZERO_DURATION);
    CHECK(mini_moka_open(&cache, &(struct mini_moka_settings){.capacity = 10, .time_to_live = NONE}) == MINI_MOKA_ZERO_DURATION);
    CHECK(mini_moka_u64_open(&cache, &(struct mini_moka_u64_settings){.capacity = 10, .time_to_idle = NONE}) == MINI_MOKA_ZERO_DURATION);
    CHECK(mini_moka_u64_open(&cache, &(struct mini_moka_u64_settings){.capacity = 10, .time_to_live = NONE}) == MINI_MOKA_ZERO_DURATION);
    CHECK(mini_moka_close(&cache) == MINI_MOKA_CLOSED);
    numbers.time_to_live = numbers.time_to_idle = 1;
    CHECK(mini_moka_u64_open(&cache, &numbers) == MINI_MOKA_DONE && mini_moka_close(&cache) == MINI_MOKA_DONE);
    numbers.capacity = 0;
    CHECK(mini_moka_u64_open(&cache, &numbers) == MINI_MOKA_DONE && mini_moka_u64_insert(&cache, 7, 49, 0) == MINI_MOKA_REJECTED);
    numbers.time_to_live = 0;
    CHECK(mini_moka_u64_open(&cache, &numbers) == MINI_MOKA_ALREADY_OPEN);
    CHECK(mini_moka_u64_contains(&cache, 7, 0) == MINI_MOKA_ABSENT && mini_moka_close(&cache) == MINI_MOKA_DONE);
}

/* Each status has its own text, and three of them are no errors. */
static void statuses_have_texts(void) {
    for (uint32_t status = 0; status <= MINI_MOKA_NO_TIME_TO_LIVE + 1; status++) {
        CHECK(mini_moka_is_error(status) == (status != MINI_MOKA_DONE && status != MINI_MOKA_ABSENT && status != MINI_MOKA_REJECTED));
        for (uint32_t other = 0; other < status; other++)
            CHECK(strcmp(mini_moka_status_text(status), mini_moka_status_text(other)) != 0);
    }
    CHECK(strcmp(mini_moka_status_text(MINI_MOKA_ZERO_DURATION), "a time to live or to idle is 0; MINI_MOKA_SETTINGS_INIT sets neither") == 0);
    CHECK(strcmp(mini_moka_status_text(MINI_MOKA_REJECTED), "the new entry was not admitted") == 0);
    CHECK(strcmp(mini_moka_status_text(MINI_MOKA_SHARE_TOO_LARGE), "a share is above 100 percent") == 0);
    CHECK(strcmp(mini_moka_status_text(MINI_MOKA_NO_TIME_TO_LIVE), "the cache has no time to live") == 0);
    CHECK(strcmp(mini_moka_status_text(UINT32_MAX), "an unknown status") == 0);
}

/* An update with a longer value is stored, above the capacity. The next call evicts. */
static void updates_may_exceed_the_capacity(void) {
    struct mini_moka cache = {0};
    struct mini_moka_settings weighed = MINI_MOKA_SETTINGS_INIT;
    weighed.capacity = 20;
    weighed.is_weighed = true;
    CHECK(mini_moka_open(&cache, &weighed) == MINI_MOKA_DONE);
    CHECK(insert(&cache, "1", "123456789", 0) == MINI_MOKA_DONE && insert(&cache, "2", "123456789", 0) == MINI_MOKA_DONE);
    CHECK(insert(&cache, "2", "1234567890123456789", 0) == MINI_MOKA_DONE && number_of(mini_moka_weight, &cache) == 30);
    CHECK(contains(&cache, "2", 0) == MINI_MOKA_DONE && number_of(mini_moka_weight, &cache) == 20);
    CHECK(mini_moka_close(&cache) == MINI_MOKA_DONE);
}

/* A call evicts up to 100 entries. If an update is heavier than the capacity, its entry leaves last. */
static void heavy_updates_empty_the_cache(void) {
    struct mini_moka cache = {0};
    struct mini_moka_settings weighed = MINI_MOKA_SETTINGS_INIT;
    char key[12], value[3000] = "";
    weighed.capacity = 2000;
    weighed.is_weighed = true;
    CHECK(mini_moka_open(&cache, &weighed) == MINI_MOKA_DONE);
    for (int number = 100; number < 340; number++) {
        snprintf(key, sizeof key, "%d", number);
        CHECK(insert(&cache, key, "value", 0) == MINI_MOKA_DONE);
    }
    CHECK(mini_moka_insert(&cache, "339", 3, value, sizeof value, 0) == MINI_MOKA_DONE && number_of(mini_moka_count, &cache) == 240);
    CHECK(contains(&cache, "0", 0) == MINI_MOKA_ABSENT && number_of(mini_moka_count, &cache) == 140);
    CHECK(invalidate(&cache, "0", 0) == MINI_MOKA_DONE && number_of(mini_moka_count, &cache) == 40);
    CHECK(finds(mini_moka_remove, &cache, "0", 0, MINI_MOKA_ABSENT, NULL) && number_of(mini_moka_count, &cache) == 0);
    CHECK(mini_moka_close(&cache) == MINI_MOKA_DONE);
}

/* A full cache admits a new entry to its window if the entry fits there. A get with a short buffer is a hit, and a peek isn't counted. */
static void full_caches_have_a_window(void) {
    struct mini_moka cache = {0};
    struct mini_moka_settings settings = BYTES;
    struct mini_moka_statistics counts;
    uint8_t buffer[1];
    size_t length = 0;
    for (int window = 0; window < 2; window++) {
        settings.capacity = window == 0 ? 99 : 100;
        CHECK(mini_moka_open(&cache, &settings) == MINI_MOKA_DONE);
        for (int number = 0; number < 100; number++) {
            uint32_t status = mini_moka_insert(&cache, &number, sizeof number, "1234", 4, 0);
            CHECK(status == MINI_MOKA_DONE || (number == 99 && window == 0 && status == MINI_MOKA_REJECTED));
            CHECK(mini_moka_get(&cache, &number, sizeof number, 0, buffer, 1, &length) == (status == MINI_MOKA_DONE ? MINI_MOKA_TOO_SHORT : MINI_MOKA_ABSENT));
            CHECK(mini_moka_peek(&cache, &number, sizeof number, 0, buffer, 1, &length) == (status == MINI_MOKA_DONE ? MINI_MOKA_TOO_SHORT : MINI_MOKA_ABSENT));
        }
        CHECK(insert(&cache, "new", "1234", 0) == (window == 0 ? MINI_MOKA_REJECTED : MINI_MOKA_DONE));
        CHECK(mini_moka_statistics(&cache, &counts) == MINI_MOKA_DONE && counts.hits == (window == 0 ? 99 : 100) && counts.misses == (window == 0));
        CHECK(counts.rejections == (window == 0 ? 2 : 0) && counts.evictions == (window == 0 ? 0 : 1));
        CHECK(mini_moka_close(&cache) == MINI_MOKA_DONE);
    }
}

/* ---- refusals */

/* Tests that each call of bytes returns this status and writes nothing. */
static void bytes_answer(struct mini_moka *cache, uint32_t status) {
    char text[1] = "";
    CHECK(insert(cache, "a", "apple", 0) == status);
    CHECK(finds(mini_moka_get, cache, "a", 0, status, NULL) && finds(mini_moka_peek, cache, "a", 0, status, NULL));
    CHECK(finds(mini_moka_remove, cache, "a", 0, status, NULL) && gives(cache, "a", "apple", 0, status, NULL));
    CHECK(contains(cache, "a", 0) == status && invalidate(cache, "a", 0) == status);
    CHECK(walk_on(cache, 0, text) == status && text[0] == 0);
    CHECK(drains(cache, status, NULL, 0));
}

/* Tests that each call of numbers returns this status and writes nothing. */
static void numbers_answer(struct mini_moka *cache, uint32_t status) {
    uint64_t key = BEFORE, value = BEFORE;
    uint32_t cause = BEFORE;
    CHECK(mini_moka_u64_next(cache, 0, &key, &value) == status && key == BEFORE);
    CHECK(mini_moka_u64_removed(cache, &key, &value, &cause) == status && key == BEFORE && cause == BEFORE);
    CHECK(mini_moka_u64_insert(cache, 7, 49, 0) == status && mini_moka_u64_get(cache, 7, 0, &value) == status);
    CHECK(mini_moka_u64_peek(cache, 7, 0, &value) == status && mini_moka_u64_remove(cache, 7, 0, &value) == status);
    CHECK(mini_moka_u64_contains(cache, 7, 0) == status && mini_moka_u64_invalidate(cache, 7, 0) == status);
    CHECK(mini_moka_u64_get_or_insert(cache, 7, 49, 0, &value) == status && value == BEFORE);
}

/* A call on a closed handle, or on one of the other kind, returns the status for that and changes nothing. */
static void calls_are_refused(void) {
    struct mini_moka cache = {0};
    struct mini_moka_statistics met = {.hits = BEFORE, .removals = BEFORE, .lost = BEFORE};
    uint64_t number = BEFORE;
    CHECK(mini_moka_statistics(&cache, &met) == MINI_MOKA_CLOSED && met.hits == BEFORE && met.removals == BEFORE && met.lost == BEFORE);
    CHECK(mini_moka_walk(&cache) == MINI_MOKA_CLOSED);
    bytes_answer(&cache, MINI_MOKA_CLOSED);
    numbers_answer(&cache, MINI_MOKA_CLOSED);
    CHECK(mini_moka_close(&cache) == MINI_MOKA_CLOSED && mini_moka_invalidate_all(&cache) == MINI_MOKA_CLOSED);
    CHECK(mini_moka_count(&cache, &number) == MINI_MOKA_CLOSED && mini_moka_weight(&cache, &number) == MINI_MOKA_CLOSED && number == BEFORE);
    CHECK(mini_moka_u64_open(&cache, &NUMBERS) == MINI_MOKA_DONE);
    bytes_answer(&cache, MINI_MOKA_OTHER_KIND);
    CHECK(number_of(mini_moka_count, &cache) == 0);
    CHECK(mini_moka_close(&cache) == MINI_MOKA_DONE);
    CHECK(mini_moka_open(&cache, &BYTES) == MINI_MOKA_DONE);
    numbers_answer(&cache, MINI_MOKA_OTHER_KIND);
    CHECK(number_of(mini_moka_count, &cache) == 0);
    CHECK(mini_moka_close(&cache) == MINI_MOKA_DONE);
}

/* If memory for initial_capacity or removed_room is refused, the handle stays closed. */
static void too_much_room_is_refused(void) {
    struct mini_moka cache = {0};
    struct mini_moka_settings settings = BYTES;
    settings.initial_capacity = SIZE_MAX;
    CHECK(mini_moka_open(&cache, &settings) == MINI_MOKA_OUT_OF_MEMORY);
    CHECK(mini_moka_u64_open(&cache, &(struct mini_moka_u64_settings){10, NONE, NONE, SIZE_MAX, 0, 1, 0, false, false}) == MINI_MOKA_OUT_OF_MEMORY);
    CHECK(mini_moka_u64_open(&cache, &(struct mini_moka_u64_settings){10, NONE, NONE, 0, SIZE_MAX, 1, 0, false, false}) == MINI_MOKA_OUT_OF_MEMORY);
    settings.initial_capacity = 0;
    settings.removed_room = SIZE_MAX;
    CHECK(mini_moka_open(&cache, &settings) == MINI_MOKA_OUT_OF_MEMORY);
    CHECK(mini_moka_close(&cache) == MINI_MOKA_CLOSED);
}

int main(void) {
    bytes_come_and_go();
    long_values_stay();
    bytes_are_weighed();
    numbers_are_weighed();
    calls_are_counted();
    walks_meet_each_entry();
    removed_entries_are_drained();
    long_removed_entries_stay();
    full_queues_lose();
    expired_entries_leave_as_expired();
    expired_numbers_leave_as_expired();
    bytes_are_got_or_inserted();
    long_values_are_got_or_inserted();
    numbers_come_and_go();
    numbers_expire();
    numbers_have_their_own_time_to_live();
    bytes_have_their_own_time_to_live();
    expired_entries_are_removed();
    expired_bytes_are_removed();
    walks_meet_each_number();
    calls_of_numbers_are_counted();
    caches_are_bounded();
    durations_of_zero_are_refused();
    statuses_have_texts();
    updates_may_exceed_the_capacity();
    heavy_updates_empty_the_cache();
    full_caches_have_a_window();
    calls_are_refused();
    too_much_room_is_refused();
    return failures != 0;
}
