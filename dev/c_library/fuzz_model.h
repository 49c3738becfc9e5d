/* The model of fuzz.c: what it knows of keys and of entries that left, and the calls that it makes. */
#include "mini_moka.h"
#include <inttypes.h>
#include <stdio.h>
#include <stdlib.h>
#include <string.h>

enum { KEYS = 300, LONGEST = 4096, SHORT_KEY = 24, CALLS_OF_A_CACHE = 3000, CAUSES = 5, NO_PUT = -1 };

/* ---- refused memory */

void *__real_malloc(size_t size);
void *__real_realloc(void *block, size_t size);

static int allocations_left = -1; /* number of allocations before the one that is refused, or -1 if none is */
static bool was_refused;
static uint64_t refusals;

static bool refuses(void) {
    if (allocations_left < 0 || allocations_left-- > 0)
        return false;
    was_refused = true;
    refusals++;
    return true;
}

void *__wrap_malloc(size_t size) {
    return refuses() ? NULL : __real_malloc(size);
}

void *__wrap_realloc(void *block, size_t size) {
    return refuses() ? NULL : __real_realloc(block, size);
}

/* ---- pseudorandom numbers */

static uint64_t state;

static uint64_t mix(uint64_t number) {
    number = (number ^ (number >> 30)) * UINT64_C(0xbf58476d1ce4e5b9);
    number = (number ^ (number >> 27)) * UINT64_C(0x94d049bb133111eb);
    return number ^ (number >> 31);
}

static uint64_t next_number(void) {
    return mix(state += UINT64_C(0x9e3779b97f4a7c15));
}

static uint64_t below(uint64_t bound) {
    return next_number() % bound;
}

/* ---- the model */

/* The model's knowledge of a key: its last write and last use, if no call has removed the entry. */
struct known {
    bool is_there;
    uint64_t version, written, live, used; /* live is its time to live */
    bool may_have_left; /* a call was made while the entry was expired, and may have removed it */
};

/* An entry that a call inserted: one version of a key's value. */
struct put {
    uint64_t version, written, live, used;
    uint32_t status; /* of the insert: MINI_MOKA_REJECTED also if a get-or-insert counted a rejection */
    bool has_left, was_expired; /* was_expired is set if a call that removes expired entries was made while the entry was expired */
    uint32_t ended; /* the cause for which a call of the key, or one that removes all, ended the entry if it was still there, or CAUSES */
    int next; /* the next entry of the same key, or NO_PUT */
};

struct model {
    struct mini_moka cache;
    bool is_bytes, is_weighed;
    uint64_t capacity, time_to_live, time_to_idle, now, versions;
    uint64_t live; /* the time to live of the entry that a call inserts: its own, or the cache's if that is shorter */
    struct known keys[KEYS];
    bool goes_back, is_swept; /* is_swept is set if the model has noted what is expired now */
    uint64_t hits, misses, inserts, rejections;
    uint64_t updates, removals; /* the most that there can be: those of entries that are live if they haven't left */
    size_t removed_room;
    bool is_adaptive, is_local; /* is_local is set if many keys return soon */
    uint64_t least_window, most_window;
    bool is_eager; /* true if each look-up drains the removed entries */
    struct put puts[CALLS_OF_A_CACHE];
    int put_count, first_put[KEYS], last_put[KEYS];
    uint64_t drained[CAUSES], returned, skipped;
};

static const char *calls[] = {"insert",        "get",            "peek",   "contains", "remove", "invalidate",
                              "get or insert", "invalidate all", "counts", "walk",     "drain",  "open", "remove expired"};
static unsigned call;
static uint64_t calls_made, seed;

static void differs(const char *what) {
    fprintf(stderr, "seed %" PRIu64 ", call %" PRIu64 " (%s): %s\n", seed, calls_made, calls[call], what);
    exit(1);
}

static void require(bool holds, const char *what) {
    if (!holds)
        differs(what);
}

static bool is_over(uint64_t since, uint64_t duration, uint64_t now) {
    return duration != MINI_MOKA_UNLIMITED && since + duration <= now;
}

static bool is_expired(const struct model *model, uint64_t written, uint64_t live, uint64_t used) {
    return is_over(written, live, model->now) || is_over(used, model->time_to_idle, model->now);
}

static bool is_alive(const struct model *model, const struct known *key) {
    return key->is_there && !is_expired(model, key->written, key->live, key->used);
}

/* Returns true if a cache without a capacity must have the entry. */
static bool is_surely_alive(const struct model *model, const struct known *key) {
    return is_alive(model, key) && !key->may_have_left;
}

/* ---- keys and values: bytes derived from numbers */

static size_t fill(uint8_t *bytes, uint64_t number) {
    size_t length = mix(number) % 8 == 0 ? mix(number + 1) % (LONGEST + 1) : mix(number + 1) % 40;
    for (size_t i = 0; i < length; i++)
        bytes[i] = (uint8_t)(mix(number + 2 + i / 8) >> i % 8 * 8);
    return length;
}

/* Writes the bytes of a key, and returns their length. They begin with the key's number, so that keys differ; key 0 is empty. */
static size_t key_bytes(uint8_t *bytes, uint64_t number) {
    size_t length = fill(bytes, number * 1000003);
    if (number == 0)
        return 0;
    length = length < 8 ? 8 : length;
    memcpy(bytes, &number, 8);
    return length;
}

/* The upper 32 bits, which a cache of numbers may weigh, are below 4096. */
static uint64_t value_number(uint64_t key, uint64_t version) {
    return mix(key * 31 + version) % ((uint64_t)1 << 44);
}

/* Returns what the key's last entry weighs. */
static uint64_t weight_at(const struct model *model, uint64_t key) {
    static uint8_t bytes[LONGEST];
    uint64_t value = value_number(key, model->keys[key].version);
    if (!model->is_weighed)
        return 1;
    return model->is_bytes ? key_bytes(bytes, key) + fill(bytes, value) : value >> 32;
}

/* ---- calls, of either kind */

/* Allocates a block of a key and `behind` bytes after it, so that AddressSanitizer finds an access outside of them. */
static uint8_t *block_of(uint64_t key, size_t *key_length, size_t behind) {
    static uint8_t key_at[LONGEST];
    *key_length = key_bytes(key_at, key);
    uint8_t *block = __real_malloc(*key_length + behind + (*key_length + behind == 0));
    if (block == NULL)
        abort();
    memcpy(block, key_at, *key_length);
    return block;
}

/* Inserts a version of the key's value, at times with its own time to live. The value adjoins the key in memory. */
static uint32_t insert(struct model *model, uint64_t key, uint64_t version) {
    static uint8_t value_at[LONGEST];
    uint64_t own = below(4) > 0 ? MINI_MOKA_UNLIMITED : model->time_to_live == MINI_MOKA_UNLIMITED ? 7 : below(2 * model->time_to_live);
    bool has_own = own != MINI_MOKA_UNLIMITED;
    model->live = own < model->time_to_live ? own : model->time_to_live;
    if (!model->is_bytes && has_own)
        return mini_moka_u64_insert_for(&model->cache, key, value_number(key, version), own, model->now);
    if (!model->is_bytes)
        return mini_moka_u64_insert(&model->cache, key, value_number(key, version), model->now);
    size_t key_length, value_length = fill(value_at, value_number(key, version));
    uint8_t *pair = block_of(key, &key_length, value_length);
    memcpy(pair + key_length, value_at, value_length);
    const uint8_t *value = pair + key_length;
    uint32_t status = has_own ? mini_moka_insert_for(&model->cache, pair, key_length, value, value_length, own, model->now)
                              : mini_moka_insert(&model->cache, pair, key_length, value, value_length, model->now);
    free(pair);
    return status;
}

typedef uint32_t bytes_call(struct mini_moka *, const void *, size_t, uint64_t, void *, size_t, size_t *);
typedef uint32_t numbers_call(struct mini_moka *, uint64_t, uint64_t, uint64_t *);

/* Returns the length of a buffer for a value: its exact length, the longest one, or a random one, which may be too short. */
static size_t some_room(size_t length) {
    switch (below(4)) {
    case 0: return below(LONGEST + 1);
    case 1: return LONGEST;
    default: return length;
    }
}

/* Compares the bytes and the length that a call wrote with those of a number. */
static void compare_bytes(uint32_t status, const uint8_t *buffer, size_t room, size_t length, uint64_t number) {
    static uint8_t wanted[LONGEST];
    size_t wanted_length = fill(wanted, number);
    require(status != MINI_MOKA_DONE || (length == wanted_length && length <= room && memcmp(buffer, wanted, length) == 0), "wrong bytes were found");
    require(status != MINI_MOKA_TOO_SHORT || (length == wanted_length && length > room), "a wrong length was written");
    require(status == MINI_MOKA_DONE || status == MINI_MOKA_TOO_SHORT || length == SIZE_MAX, "a length was written without a value");
}

/* Makes a look-up, and compares the value that it finds. The buffer adjoins the key, and is uninitialised. */
static uint32_t look_up(struct model *model, bytes_call *bytes, numbers_call *numbers, uint64_t key) {
    static uint8_t wanted[LONGEST];
    uint64_t version = model->keys[key].version;
    if (!model->is_bytes) {
        uint64_t value = 0;
        uint32_t status = numbers(&model->cache, key, model->now, &value);
        require(status != MINI_MOKA_DONE || value == value_number(key, version), "a wrong value was found");
        return status;
    }
    size_t key_length, length = SIZE_MAX, room = some_room(fill(wanted, value_number(key, version)));
    uint8_t *at = block_of(key, &key_length, room), *buffer = at + key_length;
    uint32_t status = bytes(&model->cache, at, key_length, model->now, buffer, room, &length);
    compare_bytes(status, buffer, room, length, value_number(key, version));
    free(at);
    return status;
}

static uint32_t contains(struct model *model, uint64_t key) {
    static uint8_t key_at[LONGEST];
    if (!model->is_bytes)
        return mini_moka_u64_contains(&model->cache, key, model->now);
    return mini_moka_contains(&model->cache, key_at, key_bytes(key_at, key), model->now);
}

static uint32_t invalidate(struct model *model, uint64_t key) {
    static uint8_t key_at[LONGEST];
    if (!model->is_bytes)
        return mini_moka_u64_invalidate(&model->cache, key, model->now);
    return mini_moka_invalidate(&model->cache, key_at, key_bytes(key_at, key), model->now);
}

/* ---- entries that left */

/* Returns the statistics of the open cache. */
static struct mini_moka_statistics statistics_of(struct model *model) {
    struct mini_moka_statistics met;
    require(mini_moka_statistics(&model->cache, &met) == MINI_MOKA_DONE, "mini_moka_statistics failed");
    return met;
}

/* Returns the weight that the window of the open cache may have. */
static uint64_t window_of(struct model *model) {
    uint64_t window = 0;
    require(mini_moka_window(&model->cache, &window) == MINI_MOKA_DONE, "mini_moka_window failed");
    return window;
}

/* Returns the weight of the entries of the open cache. */
static uint64_t weight_of(struct model *model) {
    uint64_t weight = 0;
    require(mini_moka_weight(&model->cache, &weight) == MINI_MOKA_DONE, "mini_moka_weight failed");
    return weight;
}

static void note_put(struct model *model, uint64_t key, uint64_t version, uint32_t status) {
    int at = model->put_count++;
    model->puts[at] = (struct put){version, model->now, model->live, model->now, status, false, false, CAUSES, NO_PUT};
    if (model->first_put[key] == NO_PUT)
        model->first_put[key] = at;
    else
        model->puts[model->last_put[key]].next = at;
    model->last_put[key] = at;
}

/* Notes a use of the key's entry. */
static void note_use(struct model *model, uint64_t key) {
    model->keys[key].used = model->puts[model->last_put[key]].used = model->now;
}

/* Notes that a call ended the key's last entry, if it was still there: for this cause, or as expired if it has a moment. */
static void note_end(struct model *model, uint64_t key, uint32_t cause, bool has_moment) {
    if (model->last_put[key] == NO_PUT)
        return;
    struct put *put = &model->puts[model->last_put[key]];
    if (put->ended == CAUSES)
        put->ended = has_moment && is_expired(model, put->written, put->live, put->used) ? MINI_MOKA_CAUSE_EXPIRED : cause;
}

/* Notes which entries are expired now, for a call that may remove them. */
static void sweep(struct model *model) {
    for (size_t i = 0; i < KEYS && !model->is_swept; i++) {
        struct put *put = model->last_put[i] == NO_PUT ? NULL : &model->puts[model->last_put[i]];
        if (put != NULL && put->ended == CAUSES && is_expired(model, put->written, put->live, put->used))
            put->was_expired = model->keys[i].may_have_left = true;
    }
    model->is_swept = true;
}

/* Returns true if the entry can have left for this cause. Only an eviction can't be told. */
static bool can_leave(const struct model *model, const struct put *put, uint32_t cause) {
    if (put->status == MINI_MOKA_REJECTED || cause == MINI_MOKA_CAUSE_REJECTED)
        return cause == MINI_MOKA_CAUSE_REJECTED && put->status == MINI_MOKA_REJECTED;
    switch (cause) {
    case MINI_MOKA_CAUSE_SIZE: return model->capacity != MINI_MOKA_UNLIMITED;
    case MINI_MOKA_CAUSE_EXPIRED: return put->was_expired || put->ended == MINI_MOKA_CAUSE_EXPIRED;
    default: return put->ended == cause;
    }
}

/* Returns true if the entry has this value: the number, or the bytes. */
static bool has_value(const struct model *model, uint64_t key, const struct put *put, uint64_t number, const uint8_t *value, size_t length) {
    static uint8_t wanted[LONGEST];
    if (!model->is_bytes)
        return number == value_number(key, put->version);
    return fill(wanted, value_number(key, put->version)) == length && memcmp(wanted, value, length) == 0;
}

/* Notes a drained entry: the key's first entry that matches has left, and those before it were lost. */
static void note_drained(struct model *model, uint64_t key, uint64_t number, const uint8_t *value, size_t length, uint32_t cause) {
    require(key < KEYS && cause < CAUSES, "an unknown entry was drained");
    for (int at = model->first_put[key]; at != NO_PUT; at = model->puts[at].next) {
        struct put *put = &model->puts[at];
        if (put->has_left)
            continue;
        put->has_left = true;
        if (can_leave(model, put, cause) && has_value(model, key, put, number, value, length)) {
            model->drained[cause]++;
            if (put->version == model->keys[key].version)
                model->keys[key].is_there = false;
            return;
        }
        model->skipped++;
    }
    differs("a drained entry was never inserted, had left before, or has an impossible cause");
}

/* Drains an entry, and returns false if none is queued. A drain must not allocate. */
static bool drain(struct model *model) {
    static uint8_t key_at[LONGEST], value_at[LONGEST], wanted[LONGEST];
    uint64_t key = 0, value = 0;
    size_t key_length = SIZE_MAX, value_length = SIZE_MAX, key_room = some_room(LONGEST), value_room = some_room(LONGEST);
    uint32_t cause = CAUSES, status;
    int left_before = allocations_left;
    uint64_t refusals_before = refusals;
    allocations_left = 0;
    if (model->is_bytes) {
        status = mini_moka_removed(&model->cache, key_at, key_room, value_at, value_room, &key_length, &value_length, &cause);
        if (status == MINI_MOKA_TOO_SHORT) {
            size_t first_key_length = key_length, first_value_length = value_length;
            require((key_length > key_room || value_length > value_room) && cause == CAUSES, "the buffers were long enough");
            status = mini_moka_removed(&model->cache, key_at, LONGEST, value_at, LONGEST, &key_length, &value_length, &cause);
            require(key_length == first_key_length && value_length == first_value_length, "another entry was at the front after MINI_MOKA_TOO_SHORT");
        }
    } else {
        status = mini_moka_u64_removed(&model->cache, &key, &value, &cause);
    }
    allocations_left = left_before;
    require(refusals == refusals_before, "a drain allocated memory");
    require(status == MINI_MOKA_DONE || (status == MINI_MOKA_ABSENT && cause == CAUSES), "a drain failed");
    if (status == MINI_MOKA_ABSENT)
        return false;
    require(model->removed_room > 0, "an entry was queued without a queue");
    if (model->is_bytes) {
        memcpy(&key, key_at, key_length < 8 ? 0 : 8);
        require(key < KEYS && key_bytes(wanted, key) == key_length && memcmp(wanted, key_at, key_length) == 0, "a wrong key was drained");
    }
    note_drained(model, key, value, value_at, value_length, cause);
    return true;
}

/* Drains all removed entries, of which there are at most removed_room. */
static void drain_all(struct model *model) {
    size_t count = 0;
    while (drain(model))
        count++;
    require(count <= model->removed_room, "more than removed_room entries were queued");
}

/* Drains the removed entries if the cache is eager. Returns true if the model knows each entry that has left. */
static bool knows_what_left(struct model *model) {
    if (model->removed_room == 0 || !model->is_eager)
        return false;
    drain_all(model);
    return statistics_of(model).lost == 0;
}

/* ---- statuses */

static bool is_found(uint32_t status) {
    return status == MINI_MOKA_DONE || status == MINI_MOKA_TOO_SHORT;
}

/* Returns true if the status is MINI_MOKA_OUT_OF_MEMORY; then an allocation must have been refused. */
static bool is_refused(uint32_t status) {
    require(status != MINI_MOKA_OUT_OF_MEMORY || was_refused, "out of memory, but no allocation was refused");
    return status == MINI_MOKA_OUT_OF_MEMORY;
}

/* Compares the status of a look-up with what is known of the key. In a cache with a capacity the entry may have left. */
static void meet(struct model *model, struct known *key, uint32_t status) {
    require(is_found(status) || status == MINI_MOKA_ABSENT, "a look-up returned an unexpected status");
    bool is_known = knows_what_left(model) || (model->capacity == MINI_MOKA_UNLIMITED && !key->may_have_left);
    require(!is_found(status) || is_alive(model, key), "an entry was found that has left or is expired");
    require(is_found(status) || !is_alive(model, key) || !is_known, "an entry is missing");
    /* An entry that is found hasn't left. A live one that isn't found has, and an expired one may remain. */
    if (is_found(status))
        key->may_have_left = false;
    else if (is_alive(model, key))
        key->is_there = false;
}
