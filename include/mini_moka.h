/*
 * mini-moka's single-thread cache, proved. Keys and values are bytes of any length, or 64-bit numbers, which take no memory of their own.
 * docs/C_AND_RUST.md says how to build and link the library.
 *
 * A shared object that links the library has its own copy, and exports none of its functions.
 *
 * Moments and durations are in nanoseconds. Moments count from any start that the program chooses, as with CLOCK_MONOTONIC; they may go backwards. Each call
 * returns a mini_moka_status, and none aborts. A call writes through a pointer only if it returns MINI_MOKA_DONE; with MINI_MOKA_TOO_SHORT it writes only
 * lengths.
 *
 * A handle can queue the entries that leave its cache, for the program to drain. A write-back cache writes them to a store, and a cache of pointers frees their
 * objects. The setting removed_room is the capacity of the queue; mini_moka_removed takes entries out.
 *
 * The size of a cache:
 *
 * - An update with a heavier value may leave a weighed cache above its capacity. Then each insert, get, mini_moka_contains, mini_moka_remove and
 *   mini_moka_invalidate first evicts up to 100 entries, in the order of a walk, until the others fit. An update heavier than the whole capacity is
 *   stored, so these calls evict most entries and the update: remove its key instead. Any other cache never exceeds its capacity.
 * - A cache has at most 2,000,000,000 entries; then an insert returns MINI_MOKA_OUT_OF_MEMORY. An entry weighs at most UINT32_MAX, even if it has more bytes.
 * - An insert that finds the cache's memory full doubles it and moves each entry, so a big cache pauses. A cache never grows if its
 *   initial_capacity is the maximum number of entries that it will have, also if an insert finds that many and evicts one. Values, and keys of more than 24
 *   bytes, have memory of their own, which an insert of bytes allocates.
 *
 * A program must keep these rules, which no proof checks:
 *
 * - A handle starts as all zeros, which is a closed handle: struct mini_moka cache = {0}; From then on the program only passes its address. It neither changes
 *   nor copies a handle, and finally closes it. In C++ write {} in place of {0}. Write struct mini_moka_statistics there too, since a function has that name.
 * - Only one call on a handle runs at a time. Threads that share one hold a lock during each call; mini_moka_segments.h has a cache that does so.
 * - No pointer is null, not even one to zero bytes.
 * - Memory that a call writes (the handle, a buffer, a length, a value, a count, a cause, statistics) overlaps no memory of another argument. So the two
 *   lengths of mini_moka_next and mini_moka_removed are two variables. The key and the value of an insert, which are only read, may overlap each other. Memory
 *   that is only written, as a buffer, needn't be initialised.
 * - The library uses malloc, realloc and free. A program that replaces them replaces all three, before it opens a handle.
 * - A signal handler makes no call.
 * - A child process of fork may use its copies of the handles, if no other thread was in a call on one of them at the fork.
 */
#ifndef MINI_MOKA_H
#define MINI_MOKA_H

#include <stdbool.h>
#include <stddef.h>
#include <stdint.h>

#ifdef __cplusplus
extern "C" {
#endif

/* The version of this header and of its library. */
#define MINI_MOKA_VERSION "0.14.0"

/* The value of a capacity or a duration that sets no limit. */
#define MINI_MOKA_UNLIMITED UINT64_MAX

enum mini_moka_status {
    MINI_MOKA_DONE = 0,
    MINI_MOKA_ABSENT = 1,           /* the call was made: the key has no unexpired entry, a walk has visited each entry, or no removed entry is queued */
    MINI_MOKA_CLOSED = 2,           /* the handle is closed, and nothing was done */
    MINI_MOKA_ALREADY_OPEN = 3,     /* the handle is open, and was not changed */
    MINI_MOKA_OUT_OF_MEMORY = 4,    /* memory was refused, and no entry was written */
    MINI_MOKA_OTHER_KIND = 5,       /* the handle has a cache of numbers and the call is for bytes, or the other way round: nothing was done */
    MINI_MOKA_TOO_SHORT = 6,        /* a buffer is shorter than the key or the value found, whose length is written */
    MINI_MOKA_CHANGED = 7,          /* no walk was begun, or a call that may change the cache ended it */
    MINI_MOKA_ZERO_DURATION = 8,    /* a time to live or to idle is 0, as in settings of all zeros, so no entry would be found: nothing was opened. For no
                                       duration use MINI_MOKA_UNLIMITED, which MINI_MOKA_SETTINGS_INIT has */
    MINI_MOKA_REJECTED = 9,         /* the call was made, and the full cache did not admit the new entry */
    MINI_MOKA_SHARE_TOO_LARGE = 10, /* a share is above 100 percent: nothing was opened */
    MINI_MOKA_NO_TIME_TO_LIVE = 11, /* the cache has no time to live, so no entry can have its own: nothing was done */
};

/*
 * The cause for which an entry left a cache, or was not admitted. An expired entry that is still there may also be evicted, or removed by
 * mini_moka_invalidate_all, which has no moment. In any other call it leaves as expired.
 */
enum mini_moka_cause {
    MINI_MOKA_CAUSE_SIZE = 0,     /* it was evicted for the capacity: other entries are used more */
    MINI_MOKA_CAUSE_EXPIRED = 1,  /* its time to live or to idle had passed, also if an insert replaced it or a call of its key removed it */
    MINI_MOKA_CAUSE_EXPLICIT = 2, /* a call of its key removed it while it was unexpired, or mini_moka_invalidate_all removed it */
    MINI_MOKA_CAUSE_REPLACED = 3, /* an insert gave its key another value while it was unexpired */
    MINI_MOKA_CAUSE_REJECTED = 4, /* it was new, and the full cache did not admit it */
};

/* Returns true for each status but MINI_MOKA_DONE, MINI_MOKA_ABSENT and MINI_MOKA_REJECTED. */
static inline bool mini_moka_is_error(uint32_t status) {
    return status > MINI_MOKA_ABSENT && status != MINI_MOKA_REJECTED;
}

/* Returns the text of a status, for messages. */
static inline const char *mini_moka_status_text(uint32_t status) {
    static const char *const texts[] = {
        "done",
        "no such entry",
        "the handle is closed",
        "the handle is open already",
        "memory was refused",
        "the handle keeps the other kind of keys",
        "a buffer is too short",
        "no walk was begun, or a change has ended it",
        "a time to live or to idle is 0; MINI_MOKA_SETTINGS_INIT sets neither",
        "the new entry was not admitted",
        "a share is above 100 percent",
        "the cache has no time to live",
    };
    return status < sizeof texts / sizeof *texts ? texts[status] : "an unknown status";
}

/* A handle on a cache of either kind. Its fields are internal. */
struct mini_moka {
    void *at;
    bool is_open;
};

/* ---- bytes */

/*
 * Settings of a cache of bytes. MINI_MOKA_UNLIMITED sets no capacity, or no duration. A duration of 0 is refused. A cache of capacity 0 keeps nothing, but a
 * weighed one keeps an entry of an empty key and an empty value, which weighs 0.
 */
struct mini_moka_settings {
    uint64_t capacity;       /* maximum number of entries; if is_weighed is set, maximum bytes of keys and values */
    uint64_t time_to_live;   /* nanoseconds that an entry lives after its last write */
    uint64_t time_to_idle;   /* nanoseconds that an entry lives after its last read or write */
    size_t initial_capacity; /* number of entries for which memory is reserved; up to it, an insert is refused memory only for its value, or for a key of
                                more than 24 bytes. From half of a capacity in entries on, the counters of popularity are allocated at the start too */
    uint64_t seed[2];        /* the key of the hash function: 16 secret bytes, if strangers choose the cache's keys */
    bool is_weighed;         /* true if an entry weighs the bytes of its key and value instead of 1 */
    size_t removed_room;     /* maximum number of removed entries that are queued for mini_moka_removed; 0 queues none */
    uint8_t window_share;    /* the window's share of the capacity in percent, at most 100; 0 for no window */
    uint8_t protected_share; /* the share of the capacity outside of the window, in percent, that is for entries used there; at most 100 */
    bool is_adaptive;        /* true if the window's share follows the calls: it begins at window_share, never falls below it, and grows to 80 at most */
};

/*
 * Settings without limits, to start from: struct mini_moka_settings settings = MINI_MOKA_ADAPTIVE_SETTINGS_INIT; settings.capacity = 1000;
 *
 * The first are of a cache whose window adapts, which has more hits where recently inserted keys are asked for again, and is the best default. The others
 * are of a cache with a fixed window of 1 percent.
 */
#define MINI_MOKA_ADAPTIVE_SETTINGS_INIT {MINI_MOKA_UNLIMITED, MINI_MOKA_UNLIMITED, MINI_MOKA_UNLIMITED, 0, {0, 0}, false, 0, 1, 80, true}
#define MINI_MOKA_SETTINGS_INIT {MINI_MOKA_UNLIMITED, MINI_MOKA_UNLIMITED, MINI_MOKA_UNLIMITED, 0, {0, 0}, false, 0, 1, 0, false}

/*
 * Opens a closed handle with a new cache. If memory is refused, a duration is 0 or a share is above 100, the handle stays closed. An initial_capacity of
 * 2,000,000,000 or more is refused too: MINI_MOKA_OUT_OF_MEMORY. The memory for removed_room entries is reserved here, so no other call is refused memory
 * for them.
 *
 * Only a cache with a capacity and a window adapts. Its window grows when keys return that it gave up, and shrinks when keys return that were evicted from
 * outside of it. For this the cache remembers keys in two small tables, of at most 1 byte for each entry that fits or of 64 bytes. It allocates them once it
 * is half full. If memory for them is refused, the call does its work all the same, and the cache never adapts.
 */
uint32_t mini_moka_open(struct mini_moka *handle, const struct mini_moka_settings *settings);

/*
 * Inserts a copy of the value under a copy of the key. Returns MINI_MOKA_DONE if the cache now has the entry. A new entry begins in a window, a hundredth of
 * the capacity, rounded down. If the window is full, one of its entries may be evicted for others that are used more (MINI_MOKA_CAUSE_SIZE). An entry that is
 * too heavy for the window, as any is with a capacity below 100, may be rejected in this call. It then returns MINI_MOKA_REJECTED, and the cache has no entry
 * of the key.
 */
uint32_t mini_moka_insert(struct mini_moka *handle, const void *key, size_t key_length, const void *value, size_t value_length, uint64_t now);

/*
 * Inserts as mini_moka_insert does, with the entry's own time to live, in nanoseconds. The entry expires after that, or after the cache's time to live if that
 * is shorter. A later mini_moka_insert gives the key the cache's again. In a cache without a time to live it returns MINI_MOKA_NO_TIME_TO_LIVE, and does
 * nothing. No call finds the entry once it is expired. Its memory is freed in the order of writing, at the latest after the cache's time to live.
 */
uint32_t mini_moka_insert_for(struct mini_moka *handle, const void *key, size_t key_length, const void *value, size_t value_length, uint64_t time_to_live,
                              uint64_t now);

/*
 * Looks up the key, and makes its entry the most recently used one. Copies the value to the beginning of the buffer, and writes its length. If the buffer is
 * shorter, returns MINI_MOKA_TOO_SHORT and writes only the length, which counts as a hit too. (mini_moka_peek writes the length without counting.)
 *
 * No look-up or removal copies the key, and none is refused memory.
 */
uint32_t mini_moka_get(struct mini_moka *handle, const void *key, size_t key_length, uint64_t now, void *buffer, size_t buffer_length, size_t *length);

/* Looks up the key as mini_moka_get does, but doesn't count as an access: it counts, moves and removes nothing. */
uint32_t mini_moka_peek(struct mini_moka *handle, const void *key, size_t key_length, uint64_t now, void *buffer, size_t buffer_length, size_t *length);

/*
 * Gets the value of the key, or inserts a copy of `otherwise` if there is none. Copies the value that it got or inserted, and writes its length, as
 * mini_moka_get does: if the buffer is shorter, it returns MINI_MOKA_TOO_SHORT, but the value was got or inserted. It returns MINI_MOKA_DONE even if the new
 * entry was rejected. It never updates: an expired entry of the key leaves as MINI_MOKA_CAUSE_EXPIRED, and the call is a miss and an insert. If memory for the
 * insert is refused, the miss is counted all the same.
 */
uint32_t mini_moka_get_or_insert(struct mini_moka *handle, const void *key, size_t key_length, const void *otherwise, size_t otherwise_length, uint64_t now,
                                 void *buffer, size_t buffer_length, size_t *length);

/* Returns MINI_MOKA_DONE if the key has an unexpired entry, else MINI_MOKA_ABSENT. It doesn't count as an access. */
uint32_t mini_moka_contains(struct mini_moka *handle, const void *key, size_t key_length, uint64_t now);

/*
 * Removes the entry of the key, and copies its value as mini_moka_get does. If the buffer is shorter, the entry stays: the call is a peek then, and removes no
 * expired entries either. An expired entry of the key is removed too, and the call returns MINI_MOKA_ABSENT.
 */
uint32_t mini_moka_remove(struct mini_moka *handle, const void *key, size_t key_length, uint64_t now, void *buffer, size_t buffer_length, size_t *length);

/* Removes the entry of the key, if there is one. */
uint32_t mini_moka_invalidate(struct mini_moka *handle, const void *key, size_t key_length, uint64_t now);

/*
 * Copies the next entry of a walk (mini_moka_walk) to the beginnings of both buffers, and writes the lengths of its key and its value. If a buffer is
 * shorter, returns MINI_MOKA_TOO_SHORT. A walk keeps a copy of its last key: if memory for a key of more than 24 bytes is refused, returns
 * MINI_MOKA_OUT_OF_MEMORY. With both the walk stays at the entry, so that the call can be repeated. It doesn't count as an access.
 */
uint32_t mini_moka_next(struct mini_moka *handle, uint64_t now, void *key, size_t key_room, void *value, size_t value_room, size_t *key_length,
                        size_t *value_length);

/*
 * Drains the removed entry that left first. Copies its key and its value to the beginnings of both buffers, and writes their lengths and a mini_moka_cause.
 * If a buffer is shorter, returns MINI_MOKA_TOO_SHORT and writes only the lengths, and the entry stays at the front. If no entry is queued, returns
 * MINI_MOKA_ABSENT. It is never refused memory.
 *
 * Each entry that leaves is queued in the call in which it leaves, unless mini_moka_remove returns it. A replaced value is queued with its key, and a rejected
 * entry as it was passed. If removed_room entries are queued, later ones are dropped and counted as `lost` in the statistics. A queued entry stays until it is
 * drained, or until the handle is closed.
 */
uint32_t mini_moka_removed(struct mini_moka *handle, void *key, size_t key_room, void *value, size_t value_room, size_t *key_length, size_t *value_length,
                           uint32_t *cause);

/* ---- numbers */

/* Settings of a cache of numbers. They work as those of bytes. */
struct mini_moka_u64_settings {
    uint64_t capacity;       /* maximum number of entries; if is_weighed is set, maximum weight of all */
    uint64_t time_to_live;   /* nanoseconds that an entry lives after its last write */
    uint64_t time_to_idle;   /* nanoseconds that an entry lives after its last read or write */
    size_t initial_capacity; /* number of entries for which memory is reserved; up to it, no insert is refused memory */
    size_t removed_room;     /* maximum number of removed entries that are queued for mini_moka_u64_removed; 0 queues none */
    uint8_t window_share;    /* the window's share of the capacity in percent, at most 100; 0 for no window */
    uint8_t protected_share; /* the share of the capacity outside of the window, in percent, that is for entries used there; at most 100 */
    bool is_adaptive;        /* true if the window's share follows the calls */
    bool is_weighed;         /* true if an entry weighs the upper 32 bits of its value instead of 1 */
};

/* Settings without limits: of a cache whose window adapts, and of one with a fixed window. */
#define MINI_MOKA_U64_ADAPTIVE_SETTINGS_INIT {MINI_MOKA_UNLIMITED, MINI_MOKA_UNLIMITED, MINI_MOKA_UNLIMITED, 0, 0, 1, 80, true, false}
#define MINI_MOKA_U64_SETTINGS_INIT {MINI_MOKA_UNLIMITED, MINI_MOKA_UNLIMITED, MINI_MOKA_UNLIMITED, 0, 0, 1, 0, false, false}

/* Opens a closed handle with a new cache. The hash function has a fixed key: if strangers choose the cache's keys, use a cache of bytes. */
uint32_t mini_moka_u64_open(struct mini_moka *handle, const struct mini_moka_u64_settings *settings);

/* These calls work as those of bytes. */
uint32_t mini_moka_u64_insert(struct mini_moka *handle, uint64_t key, uint64_t value, uint64_t now);
uint32_t mini_moka_u64_insert_for(struct mini_moka *handle, uint64_t key, uint64_t value, uint64_t time_to_live, uint64_t now);
uint32_t mini_moka_u64_get(struct mini_moka *handle, uint64_t key, uint64_t now, uint64_t *value);
uint32_t mini_moka_u64_peek(struct mini_moka *handle, uint64_t key, uint64_t now, uint64_t *value);
uint32_t mini_moka_u64_contains(struct mini_moka *handle, uint64_t key, uint64_t now);
uint32_t mini_moka_u64_remove(struct mini_moka *handle, uint64_t key, uint64_t now, uint64_t *value);
uint32_t mini_moka_u64_invalidate(struct mini_moka *handle, uint64_t key, uint64_t now);
uint32_t mini_moka_u64_next(struct mini_moka *handle, uint64_t now, uint64_t *key, uint64_t *value);
uint32_t mini_moka_u64_removed(struct mini_moka *handle, uint64_t *key, uint64_t *value, uint32_t *cause);

/*
 * Gets the value of the key, or inserts `otherwise` if there is none, and writes the value that it got or inserted. It returns MINI_MOKA_DONE even if the new
 * entry was rejected. It never updates: an expired entry of the key leaves as MINI_MOKA_CAUSE_EXPIRED, and the call is a miss and an insert.
 */
uint32_t mini_moka_u64_get_or_insert(struct mini_moka *handle, uint64_t key, uint64_t otherwise, uint64_t now, uint64_t *value);

/* ---- either kind */

/*
 * Counts of the calls on a handle since it was opened, and of the entries that left. Each count stops at UINT64_MAX. Until then
 * inserts - updates - rejections = evictions + expirations + removals + the number of entries.
 *
 * If there is a queue, each entry that left was drained, is queued, was lost, or was returned by a removal that returned MINI_MOKA_DONE:
 * drained + queued + lost + returned = updates + rejections + evictions + expirations + removals.
 */
struct mini_moka_statistics {
    uint64_t hits;        /* gets that found a value */
    uint64_t misses;      /* gets that found none */
    uint64_t inserts;     /* inserts that were not refused memory: MINI_MOKA_DONE or MINI_MOKA_REJECTED */
    uint64_t updates;     /* inserts that gave the key of an unexpired entry another value */
    uint64_t rejections;  /* new entries that the full cache did not admit */
    uint64_t evictions;   /* entries that were evicted for the capacity */
    uint64_t expirations; /* entries that left as expired, also if an insert replaced them or a call of their key removed them */
    uint64_t removals;    /* unexpired entries that a call of their key removed, and all that mini_moka_invalidate_all removed */
    uint64_t lost;        /* entries that left while the queue of removed entries was full; always 0 without a queue */
};

/* Closes the handle and frees its cache. Returns MINI_MOKA_CLOSED if the handle is closed already. */
uint32_t mini_moka_close(struct mini_moka *handle);

/* Removes all entries, expired or not, as MINI_MOKA_CAUSE_EXPLICIT. */
uint32_t mini_moka_invalidate_all(struct mini_moka *handle);

/*
 * Removes all expired entries, as MINI_MOKA_CAUSE_EXPIRED. Other calls remove a batch of them at most, in the orders of writing and of use, and stop at the
 * first that isn't expired. This one visits each entry, unless the cache has no duration.
 */
uint32_t mini_moka_remove_expired(struct mini_moka *handle, uint64_t now);

/* Writes the number of entries, including expired ones that no call has removed yet. */
uint32_t mini_moka_count(struct mini_moka *handle, uint64_t *count);

/* Writes the weight of the entries, at most UINT64_MAX. */
uint32_t mini_moka_weight(struct mini_moka *handle, uint64_t *weight);

/* Writes the weight that the window may have, 0 without a window. It changes only if the cache adapts. */
uint32_t mini_moka_window(struct mini_moka *handle, uint64_t *weight);

/* Writes the counts of the calls and of the entries that left. */
uint32_t mini_moka_statistics(struct mini_moka *handle, struct mini_moka_statistics *statistics);

/*
 * Begins a walk over the unexpired entries: those of the window last, and the others before them, each least recently used first. An entry that leaves the
 * window is put after all others outside of it, though some of them may have been used later.
 *
 * Each mini_moka_next of bytes, or mini_moka_u64_next of numbers, writes one entry; after the last it returns MINI_MOKA_ABSENT. During a walk a program may
 * peek, drain removed entries, and get the count, the weight and the statistics. Any other call may end the walk.
 */
uint32_t mini_moka_walk(struct mini_moka *handle);

#ifdef __cplusplus
}
#endif

#endif
