/*
 * A cache of bytes or of numbers that threads share: N segments, each a handle of mini_moka.h behind a pthread mutex. All its code is in this header; a program
 * links the library and pthreads. The caches inside are proved. The sharing between threads is tested: dev/c_library/run runs threads that make each call but
 * open and close under ThreadSanitizer.
 *
 * A key belongs to one segment, which has its part of the capacity and its own admission policy. A call waits only for calls in the same segment. Calls work as
 * those of mini_moka.h, and return the same statuses. A new entry that weighs more than its segment's part of the capacity is rejected. An update to such a
 * weight may empty the segment (mini_moka.h, the size of a cache). Keys that strangers choose may all belong to one segment: then the capacity of the others is
 * not used.
 *
 * A program must keep these rules:
 *
 * - A struct mini_moka_segments starts as all zeros. One thread opens and closes it, while no other is in a call. The program never copies it.
 * - A visitor (mini_moka_segments_visit) makes no call on the cache that it visits, and returns.
 * - The rules of mini_moka.h on pointers, memory, signal handlers and fork hold here too.
 */
#ifndef MINI_MOKA_SEGMENTS_H
#define MINI_MOKA_SEGMENTS_H

#include "mini_moka.h"
#include <pthread.h>
#include <stdlib.h>
#include <string.h>

#ifdef __cplusplus
extern "C" {
#endif

/*
 * The maximum number of segments that mini_moka_segments_open chooses, and the least capacity of each then, in entries and in bytes. With fewer entries a
 * segment has no window, and with fewer bytes only small entries fit in the window, so more new entries are rejected.
 */
#define MINI_MOKA_SEGMENTS_MOST 16
#define MINI_MOKA_SEGMENT_LEAST 100
#define MINI_MOKA_SEGMENT_LEAST_BYTES (UINT64_C(1) << 20)

/* The bytes of two cache lines, since most processors fetch lines in pairs. */
#define MINI_MOKA_SEGMENT_SIZE 128

/* A segment, which fills its cache lines, so that threads in different segments don't share one. */
union mini_moka_segment {
    struct {
        pthread_mutex_t lock;
        struct mini_moka cache;
    } in;
    char lines[MINI_MOKA_SEGMENT_SIZE];
};

/* A cache that threads share. Its fields are internal. */
struct mini_moka_segments {
    union mini_moka_segment *segments;
    void *block; /* the allocation in which the segments begin, at its first multiple of MINI_MOKA_SEGMENT_SIZE */
    size_t count;
    uint64_t seed;
};

/* Mixes a word into a hash, by the exclusive or of both halves of a product of 64 by 64 bits. */
static inline uint64_t mini_moka_segments_mix(uint64_t hash, uint64_t word) {
    const uint64_t odd = UINT64_C(0x9E3779B97F4A7C15);
    uint64_t a = hash ^ word, low = (a & UINT32_MAX) * (odd & UINT32_MAX), middle = (a >> 32) * (odd & UINT32_MAX) + (low >> 32);
    uint64_t other = (a & UINT32_MAX) * (odd >> 32) + (middle & UINT32_MAX);
    return (a * odd) ^ ((a >> 32) * (odd >> 32) + (middle >> 32) + (other >> 32));
}

/* Returns the index of a key's segment. */
static inline size_t mini_moka_segments_at(const struct mini_moka_segments *all, const void *key, size_t length) {
    const unsigned char *bytes = (const unsigned char *)key;
    uint64_t hash = all->seed ^ length, word;
    for (; length >= sizeof word; bytes += sizeof word, length -= sizeof word) {
        memcpy(&word, bytes, sizeof word);
        hash = mini_moka_segments_mix(hash, word);
    }
    if (length > 0) {
        word = 0;
        memcpy(&word, bytes, length);
        hash = mini_moka_segments_mix(hash, word);
    }
    return (size_t)((hash >> 32) * all->count >> 32);
}

/* Locks a key's segment, and returns it. */
static inline union mini_moka_segment *mini_moka_segments_lock(struct mini_moka_segments *all, const void *key, size_t length) {
    union mini_moka_segment *segment = &all->segments[mini_moka_segments_at(all, key, length)];
    pthread_mutex_lock(&segment->in.lock);
    return segment;
}

static inline uint32_t mini_moka_segments_unlock(union mini_moka_segment *segment, uint32_t status) {
    pthread_mutex_unlock(&segment->in.lock);
    return status;
}

/* Closes the cache and frees it. No other thread may be in a call. */
static inline uint32_t mini_moka_segments_close(struct mini_moka_segments *all) {
    if (all->segments == NULL)
        return MINI_MOKA_CLOSED;
    for (size_t i = 0; i < all->count; i++) {
        mini_moka_close(&all->segments[i].in.cache);
        pthread_mutex_destroy(&all->segments[i].in.lock);
    }
    free(all->block);
    all->block = NULL;
    all->segments = NULL;
    all->count = 0;
    return MINI_MOKA_DONE;
}

/* Returns a segment's part of the whole. The parts add up to the whole, and no two differ by more than 1. Each part of MINI_MOKA_UNLIMITED is the whole. */
static inline uint64_t mini_moka_segments_part(uint64_t whole, size_t count, size_t at) {
    return whole == MINI_MOKA_UNLIMITED ? whole : whole / count + (at < whole % count);
}

/* Opens `count` segments, or as many as suit the capacity if that is 0. The call opens one, with its part of the settings. */
static inline uint32_t mini_moka_segments_open_all(struct mini_moka_segments *all, const struct mini_moka_settings *settings, size_t count,
                                                   uint32_t (*call)(struct mini_moka *, const struct mini_moka_settings *)) {
    if (all->segments != NULL)
        return MINI_MOKA_ALREADY_OPEN;
    if (count == 0) {
        uint64_t most = settings->capacity / (settings->is_weighed ? MINI_MOKA_SEGMENT_LEAST_BYTES : MINI_MOKA_SEGMENT_LEAST);
        count = most < MINI_MOKA_SEGMENTS_MOST ? (size_t)most + (most == 0) : MINI_MOKA_SEGMENTS_MOST;
    }
    if (count > UINT32_MAX || count >= SIZE_MAX / sizeof *all->segments)
        return MINI_MOKA_OUT_OF_MEMORY;
    all->block = calloc(count + 1, sizeof *all->segments);
    if (all->block == NULL)
        return MINI_MOKA_OUT_OF_MEMORY;
    size_t over = (uintptr_t)all->block % MINI_MOKA_SEGMENT_SIZE;
    all->segments = (union mini_moka_segment *)(void *)((char *)all->block + (over == 0 ? 0 : MINI_MOKA_SEGMENT_SIZE - over));
    all->seed = mini_moka_segments_mix(settings->seed[0], settings->seed[1]);
    for (all->count = 0; all->count < count;) {
        union mini_moka_segment *segment = &all->segments[all->count];
        struct mini_moka_settings part = *settings;
        part.capacity = mini_moka_segments_part(settings->capacity, count, all->count);
        part.initial_capacity = (size_t)mini_moka_segments_part(settings->initial_capacity, count, all->count);
        part.removed_room = settings->removed_room / count + (settings->removed_room % count > 0);
        uint32_t status = pthread_mutex_init(&segment->in.lock, NULL) == 0 ? MINI_MOKA_DONE : MINI_MOKA_OUT_OF_MEMORY;
        if (status == MINI_MOKA_DONE) {
            all->count++;
            status = call(&segment->in.cache, &part);
        }
        if (status != MINI_MOKA_DONE) {
            mini_moka_segments_close(all);
            return status;
        }
    }
    return MINI_MOKA_DONE;
}

/* Opens a segment of numbers, by the settings that both kinds have. */
static inline uint32_t mini_moka_segments_u64_open_one(struct mini_moka *segment, const struct mini_moka_settings *part) {
    const struct mini_moka_u64_settings settings = {part->capacity,     part->time_to_live, part->time_to_idle,    part->initial_capacity,
                                                    part->removed_room, part->window_share, part->protected_share, part->is_adaptive,
                                                    part->is_weighed};
    return mini_moka_u64_open(segment, &settings);
}

/*
 * Opens a cache of `count` segments. If that is 0, chooses up to 16, each with a capacity of at least 100 entries, or 2^20 if entries are weighed; a smaller
 * cache has one. Each segment has its part of the capacity, of initial_capacity and of removed_room, which is rounded up. Keys are never spread quite evenly,
 * so a segment may grow although the whole cache has fewer entries than initial_capacity, unless that is the capacity. With more segments than the capacity
 * some keep nothing. If a segment can't be opened, nothing stays open.
 */
static inline uint32_t mini_moka_segments_open(struct mini_moka_segments *all, const struct mini_moka_settings *settings, size_t count) {
    return mini_moka_segments_open_all(all, settings, count, mini_moka_open);
}

/* Opens a cache of numbers in the same way. Calls for bytes return MINI_MOKA_OTHER_KIND on it, as calls for numbers do on one of bytes. */
static inline uint32_t mini_moka_segments_u64_open(struct mini_moka_segments *all, const struct mini_moka_u64_settings *settings, size_t count) {
    const struct mini_moka_settings both = {settings->capacity,     settings->time_to_live, settings->time_to_idle, settings->initial_capacity,
                                            {0, 0},                 settings->is_weighed,   settings->removed_room, settings->window_share,
                                            settings->protected_share, settings->is_adaptive};
    return mini_moka_segments_open_all(all, &both, count, mini_moka_segments_u64_open_one);
}

/* ---- bytes */

/* The calls with a key. Each returns MINI_MOKA_CLOSED if the cache isn't open. */
static inline uint32_t mini_moka_segments_insert(struct mini_moka_segments *all, const void *key, size_t key_length, const void *value, size_t value_length,
                                                 uint64_t now) {
    if (all->segments == NULL)
        return MINI_MOKA_CLOSED;
    union mini_moka_segment *segment = mini_moka_segments_lock(all, key, key_length);
    return mini_moka_segments_unlock(segment, mini_moka_insert(&segment->in.cache, key, key_length, value, value_length, now));
}

static inline uint32_t mini_moka_segments_insert_for(struct mini_moka_segments *all, const void *key, size_t key_length, const void *value,
                                                     size_t value_length, uint64_t time_to_live, uint64_t now) {
    if (all->segments == NULL)
        return MINI_MOKA_CLOSED;
    union mini_moka_segment *segment = mini_moka_segments_lock(all, key, key_length);
    return mini_moka_segments_unlock(segment, mini_moka_insert_for(&segment->in.cache, key, key_length, value, value_length, time_to_live, now));
}

static inline uint32_t mini_moka_segments_get(struct mini_moka_segments *all, const void *key, size_t key_length, uint64_t now, void *buffer,
                                              size_t buffer_length, size_t *length) {
    if (all->segments == NULL)
        return MINI_MOKA_CLOSED;
    union mini_moka_segment *segment = mini_moka_segments_lock(all, key, key_length);
    return mini_moka_segments_unlock(segment, mini_moka_get(&segment->in.cache, key, key_length, now, buffer, buffer_length, length));
}

static inline uint32_t mini_moka_segments_peek(struct mini_moka_segments *all, const void *key, size_t key_length, uint64_t now, void *buffer,
                                               size_t buffer_length, size_t *length) {
    if (all->segments == NULL)
        return MINI_MOKA_CLOSED;
    union mini_moka_segment *segment = mini_moka_segments_lock(all, key, key_length);
    return mini_moka_segments_unlock(segment, mini_moka_peek(&segment->in.cache, key, key_length, now, buffer, buffer_length, length));
}

/* Gets the value of the key, or inserts a copy of `otherwise`, as mini_moka_get_or_insert does. No other thread's call comes between. */
static inline uint32_t mini_moka_segments_get_or_insert(struct mini_moka_segments *all, const void *key, size_t key_length, const void *otherwise,
                                                        size_t otherwise_length, uint64_t now, void *buffer, size_t buffer_length, size_t *length) {
    if (all->segments == NULL)
        return MINI_MOKA_CLOSED;
    union mini_moka_segment *segment = mini_moka_segments_lock(all, key, key_length);
    return mini_moka_segments_unlock(
        segment, mini_moka_get_or_insert(&segment->in.cache, key, key_length, otherwise, otherwise_length, now, buffer, buffer_length, length));
}

static inline uint32_t mini_moka_segments_remove(struct mini_moka_segments *all, const void *key, size_t key_length, uint64_t now, void *buffer,
                                                 size_t buffer_length, size_t *length) {
    if (all->segments == NULL)
        return MINI_MOKA_CLOSED;
    union mini_moka_segment *segment = mini_moka_segments_lock(all, key, key_length);
    return mini_moka_segments_unlock(segment, mini_moka_remove(&segment->in.cache, key, key_length, now, buffer, buffer_length, length));
}

static inline uint32_t mini_moka_segments_contains(struct mini_moka_segments *all, const void *key, size_t key_length, uint64_t now) {
    if (all->segments == NULL)
        return MINI_MOKA_CLOSED;
    union mini_moka_segment *segment = mini_moka_segments_lock(all, key, key_length);
    return mini_moka_segments_unlock(segment, mini_moka_contains(&segment->in.cache, key, key_length, now));
}

static inline uint32_t mini_moka_segments_invalidate(struct mini_moka_segments *all, const void *key, size_t key_length, uint64_t now) {
    if (all->segments == NULL)
        return MINI_MOKA_CLOSED;
    union mini_moka_segment *segment = mini_moka_segments_lock(all, key, key_length);
    return mini_moka_segments_unlock(segment, mini_moka_invalidate(&segment->in.cache, key, key_length, now));
}

/*
 * Drains a removed entry of the first segment that has one, as mini_moka_removed does. Entries of one key are drained in the order in which they left. If other
 * threads make calls, a call after MINI_MOKA_TOO_SHORT may find another entry.
 */
static inline uint32_t mini_moka_segments_removed(struct mini_moka_segments *all, void *key, size_t key_room, void *value, size_t value_room,
                                                  size_t *key_length, size_t *value_length, uint32_t *cause) {
    uint32_t status = all->segments == NULL ? MINI_MOKA_CLOSED : MINI_MOKA_ABSENT;
    for (size_t i = 0; i < all->count && status == MINI_MOKA_ABSENT; i++) {
        struct mini_moka *cache = &all->segments[i].in.cache;
        pthread_mutex_lock(&all->segments[i].in.lock);
        status = mini_moka_segments_unlock(&all->segments[i],
                                           mini_moka_removed(cache, key, key_room, value, value_room, key_length, value_length, cause));
    }
    return status;
}

/* A buffer for keys or values, which begins as all zeros. */
struct mini_moka_segments_buffer {
    void *bytes;
    size_t room;
};

/* Makes the buffer at least this long. Returns false if memory is refused. */
static inline bool mini_moka_segments_grow(struct mini_moka_segments_buffer *buffer, size_t length) {
    if (length <= buffer->room)
        return true;
    void *bytes = realloc(buffer->bytes, length);
    if (bytes == NULL)
        return false;
    buffer->bytes = bytes;
    buffer->room = length;
    return true;
}

/* Returns the status of a visit, from that of the last segment. */
static inline uint32_t mini_moka_segments_visited(uint32_t status) {
    if (status == MINI_MOKA_ABSENT)
        return MINI_MOKA_DONE;
    return status;
}

/* Gets the `context` of the visit, and a copy of an entry, which is valid until it returns. Returns false to end the visit. */
typedef bool mini_moka_visitor(void *context, const void *key, size_t key_length, const void *value, size_t value_length);

/* Visits the entries of a locked segment. Returns MINI_MOKA_ABSENT after the last one, and MINI_MOKA_DONE if the visitor ended the visit. */
static inline uint32_t mini_moka_segments_visit_one(struct mini_moka *cache, uint64_t now, mini_moka_visitor *visitor, void *context,
                                                    struct mini_moka_segments_buffer *key, struct mini_moka_segments_buffer *value) {
    uint32_t status = mini_moka_walk(cache);
    while (status == MINI_MOKA_DONE) {
        size_t key_length, value_length;
        status = mini_moka_next(cache, now, key->bytes, key->room, value->bytes, value->room, &key_length, &value_length);
        if (status == MINI_MOKA_DONE && !visitor(context, key->bytes, key_length, value->bytes, value_length))
            return MINI_MOKA_DONE;
        if (status == MINI_MOKA_TOO_SHORT)
            status = mini_moka_segments_grow(key, key_length) && mini_moka_segments_grow(value, value_length) ? MINI_MOKA_DONE : MINI_MOKA_OUT_OF_MEMORY;
    }
    return status;
}

/*
 * Calls the visitor with each entry that is unexpired at `now`, until it returns false. It locks one segment after another, and visits the entries of each in
 * the order of a walk (mini_moka_walk). Calls in a segment wait while it is visited. A visit doesn't count as an access.
 *
 * If other threads change the cache meanwhile, no entry is visited twice, and one that stays in the cache is visited. One that is inserted or leaves meanwhile
 * may be visited or not. The entries of a segment are those of one moment, but those of two segments may not be.
 *
 * Returns MINI_MOKA_DONE also if the visitor ended the visit. It allocates memory for the longest key and the longest value. If that is refused, it returns
 * MINI_MOKA_OUT_OF_MEMORY, and may have visited some entries.
 */
static inline uint32_t mini_moka_segments_visit(struct mini_moka_segments *all, uint64_t now, mini_moka_visitor *visitor, void *context) {
    struct mini_moka_segments_buffer key = {NULL, 0}, value = {NULL, 0};
    if (all->segments == NULL)
        return MINI_MOKA_CLOSED;
    /* No pointer that the library gets is null, so each buffer has a byte. */
    uint32_t status = mini_moka_segments_grow(&key, 1) && mini_moka_segments_grow(&value, 1) ? MINI_MOKA_ABSENT : MINI_MOKA_OUT_OF_MEMORY;
    for (size_t i = 0; i < all->count && status == MINI_MOKA_ABSENT; i++) {
        pthread_mutex_lock(&all->segments[i].in.lock);
        status = mini_moka_segments_unlock(&all->segments[i], mini_moka_segments_visit_one(&all->segments[i].in.cache, now, visitor, context, &key, &value));
    }
    free(key.bytes);
    free(value.bytes);
    return mini_moka_segments_visited(status);
}

/* ---- numbers */

/* These calls work as those of bytes. */
static inline uint32_t mini_moka_segments_u64_insert(struct mini_moka_segments *all, uint64_t key, uint64_t value, uint64_t now) {
    if (all->segments == NULL)
        return MINI_MOKA_CLOSED;
    union mini_moka_segment *segment = mini_moka_segments_lock(all, &key, sizeof key);
    return mini_moka_segments_unlock(segment, mini_moka_u64_insert(&segment->in.cache, key, value, now));
}

static inline uint32_t mini_moka_segments_u64_insert_for(struct mini_moka_segments *all, uint64_t key, uint64_t value, uint64_t time_to_live, uint64_t now) {
    if (all->segments == NULL)
        return MINI_MOKA_CLOSED;
    union mini_moka_segment *segment = mini_moka_segments_lock(all, &key, sizeof key);
    return mini_moka_segments_unlock(segment, mini_moka_u64_insert_for(&segment->in.cache, key, value, time_to_live, now));
}

static inline uint32_t mini_moka_segments_u64_get(struct mini_moka_segments *all, uint64_t key, uint64_t now, uint64_t *value) {
    if (all->segments == NULL)
        return MINI_MOKA_CLOSED;
    union mini_moka_segment *segment = mini_moka_segments_lock(all, &key, sizeof key);
    return mini_moka_segments_unlock(segment, mini_moka_u64_get(&segment->in.cache, key, now, value));
}

static inline uint32_t mini_moka_segments_u64_peek(struct mini_moka_segments *all, uint64_t key, uint64_t now, uint64_t *value) {
    if (all->segments == NULL)
        return MINI_MOKA_CLOSED;
    union mini_moka_segment *segment = mini_moka_segments_lock(all, &key, sizeof key);
    return mini_moka_segments_unlock(segment, mini_moka_u64_peek(&segment->in.cache, key, now, value));
}

static inline uint32_t mini_moka_segments_u64_remove(struct mini_moka_segments *all, uint64_t key, uint64_t now, uint64_t *value) {
    if (all->segments == NULL)
        return MINI_MOKA_CLOSED;
    union mini_moka_segment *segment = mini_moka_segments_lock(all, &key, sizeof key);
    return mini_moka_segments_unlock(segment, mini_moka_u64_remove(&segment->in.cache, key, now, value));
}

static inline uint32_t mini_moka_segments_u64_contains(struct mini_moka_segments *all, uint64_t key, uint64_t now) {
    if (all->segments == NULL)
        return MINI_MOKA_CLOSED;
    union mini_moka_segment *segment = mini_moka_segments_lock(all, &key, sizeof key);
    return mini_moka_segments_unlock(segment, mini_moka_u64_contains(&segment->in.cache, key, now));
}

static inline uint32_t mini_moka_segments_u64_invalidate(struct mini_moka_segments *all, uint64_t key, uint64_t now) {
    if (all->segments == NULL)
        return MINI_MOKA_CLOSED;
    union mini_moka_segment *segment = mini_moka_segments_lock(all, &key, sizeof key);
    return mini_moka_segments_unlock(segment, mini_moka_u64_invalidate(&segment->in.cache, key, now));
}

static inline uint32_t mini_moka_segments_u64_get_or_insert(struct mini_moka_segments *all, uint64_t key, uint64_t otherwise, uint64_t now,
                                                            uint64_t *value) {
    if (all->segments == NULL)
        return MINI_MOKA_CLOSED;
    union mini_moka_segment *segment = mini_moka_segments_lock(all, &key, sizeof key);
    return mini_moka_segments_unlock(segment, mini_moka_u64_get_or_insert(&segment->in.cache, key, otherwise, now, value));
}

static inline uint32_t mini_moka_segments_u64_removed(struct mini_moka_segments *all, uint64_t *key, uint64_t *value, uint32_t *cause) {
    uint32_t status = all->segments == NULL ? MINI_MOKA_CLOSED : MINI_MOKA_ABSENT;
    for (size_t i = 0; i < all->count && status == MINI_MOKA_ABSENT; i++) {
        pthread_mutex_lock(&all->segments[i].in.lock);
        status = mini_moka_segments_unlock(&all->segments[i], mini_moka_u64_removed(&all->segments[i].in.cache, key, value, cause));
    }
    return status;
}

/* Gets the `context` of the visit, and an entry. Returns false to end the visit. */
typedef bool mini_moka_u64_visitor(void *context, uint64_t key, uint64_t value);

/* Visits the entries of a locked segment, as mini_moka_segments_visit_one does. */
static inline uint32_t mini_moka_segments_u64_visit_one(struct mini_moka *cache, uint64_t now, mini_moka_u64_visitor *visitor, void *context) {
    uint64_t key, value;
    uint32_t status = mini_moka_walk(cache);
    while (status == MINI_MOKA_DONE) {
        status = mini_moka_u64_next(cache, now, &key, &value);
        if (status == MINI_MOKA_DONE && !visitor(context, key, value))
            return MINI_MOKA_DONE;
    }
    return status;
}

/* Calls the visitor as mini_moka_segments_visit does. It is never refused memory. */
static inline uint32_t mini_moka_segments_u64_visit(struct mini_moka_segments *all, uint64_t now, mini_moka_u64_visitor *visitor, void *context) {
    uint32_t status = all->segments == NULL ? MINI_MOKA_CLOSED : MINI_MOKA_ABSENT;
    for (size_t i = 0; i < all->count && status == MINI_MOKA_ABSENT; i++) {
        pthread_mutex_lock(&all->segments[i].in.lock);
        status = mini_moka_segments_unlock(&all->segments[i], mini_moka_segments_u64_visit_one(&all->segments[i].in.cache, now, visitor, context));
    }
    return mini_moka_segments_visited(status);
}

/* ---- either kind */

/* The calls on all segments, one after another. Another thread may change a segment before the call reaches it or after. */
static inline uint32_t mini_moka_segments_remove_expired(struct mini_moka_segments *all, uint64_t now) {
    if (all->segments == NULL)
        return MINI_MOKA_CLOSED;
    for (size_t i = 0; i < all->count; i++) {
        pthread_mutex_lock(&all->segments[i].in.lock);
        mini_moka_segments_unlock(&all->segments[i], mini_moka_remove_expired(&all->segments[i].in.cache, now));
    }
    return MINI_MOKA_DONE;
}

static inline uint32_t mini_moka_segments_invalidate_all(struct mini_moka_segments *all) {
    if (all->segments == NULL)
        return MINI_MOKA_CLOSED;
    for (size_t i = 0; i < all->count; i++) {
        pthread_mutex_lock(&all->segments[i].in.lock);
        mini_moka_segments_unlock(&all->segments[i], mini_moka_invalidate_all(&all->segments[i].in.cache));
    }
    return MINI_MOKA_DONE;
}

/* Adds two counts. The sum is at most UINT64_MAX. */
static inline uint64_t mini_moka_segments_add(uint64_t count, uint64_t other) {
    return other > UINT64_MAX - count ? UINT64_MAX : count + other;
}

/* Adds up the numbers that a call writes for each segment. */
static inline uint32_t mini_moka_segments_sum(struct mini_moka_segments *all, uint32_t (*call)(struct mini_moka *, uint64_t *), uint64_t *sum) {
    uint64_t whole = 0;
    if (all->segments == NULL)
        return MINI_MOKA_CLOSED;
    for (size_t i = 0; i < all->count; i++) {
        uint64_t part = 0;
        pthread_mutex_lock(&all->segments[i].in.lock);
        mini_moka_segments_unlock(&all->segments[i], call(&all->segments[i].in.cache, &part));
        whole = mini_moka_segments_add(whole, part);
    }
    *sum = whole;
    return MINI_MOKA_DONE;
}

static inline uint32_t mini_moka_segments_count(struct mini_moka_segments *all, uint64_t *count) {
    return mini_moka_segments_sum(all, mini_moka_count, count);
}

static inline uint32_t mini_moka_segments_weight(struct mini_moka_segments *all, uint64_t *weight) {
    return mini_moka_segments_sum(all, mini_moka_weight, weight);
}

/* Writes the sum of the weights that the segments' windows may have. Each window adapts by itself. */
static inline uint32_t mini_moka_segments_window(struct mini_moka_segments *all, uint64_t *weight) {
    return mini_moka_segments_sum(all, mini_moka_window, weight);
}

static inline uint32_t mini_moka_segments_statistics(struct mini_moka_segments *all, struct mini_moka_statistics *statistics) {
    struct mini_moka_statistics whole;
    memset(&whole, 0, sizeof whole);
    if (all->segments == NULL)
        return MINI_MOKA_CLOSED;
    for (size_t i = 0; i < all->count; i++) {
        struct mini_moka_statistics part;
        memset(&part, 0, sizeof part);
        pthread_mutex_lock(&all->segments[i].in.lock);
        mini_moka_segments_unlock(&all->segments[i], mini_moka_statistics(&all->segments[i].in.cache, &part));
        whole.hits = mini_moka_segments_add(whole.hits, part.hits);
        whole.misses = mini_moka_segments_add(whole.misses, part.misses);
        whole.inserts = mini_moka_segments_add(whole.inserts, part.inserts);
        whole.updates = mini_moka_segments_add(whole.updates, part.updates);
        whole.rejections = mini_moka_segments_add(whole.rejections, part.rejections);
        whole.evictions = mini_moka_segments_add(whole.evictions, part.evictions);
        whole.expirations = mini_moka_segments_add(whole.expirations, part.expirations);
        whole.removals = mini_moka_segments_add(whole.removals, part.removals);
        whole.lost = mini_moka_segments_add(whole.lost, part.lost);
    }
    *statistics = whole;
    return MINI_MOKA_DONE;
}

#ifdef __cplusplus
}
#endif

#endif
