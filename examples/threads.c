/*
 * Shares a cache of sessions between four threads. A session lives for ten minutes, and the entries that leave the cache are drained. Prints the number of
 * sessions that were inserted, that remain, and that were drained or lost.
 */
#include "mini_moka_segments.h"
#include <inttypes.h>
#include <stdio.h>
#include <time.h>

#define SECOND UINT64_C(1000000000)
#define THREADS 4
#define SESSIONS 5000

/* A thread, and the number of removed entries that it has drained. */
struct worker {
    struct mini_moka_segments *cache;
    pthread_t thread;
    uint64_t number, drained;
};

static uint64_t now(void) {
    struct timespec time;
    clock_gettime(CLOCK_MONOTONIC, &time);
    return (uint64_t)time.tv_sec * SECOND + (uint64_t)time.tv_nsec;
}

/* Drains the removed entries. A real program would write them to a store. */
static void drain(struct worker *worker) {
    uint64_t key[2], value;
    size_t key_length, value_length;
    uint32_t cause;
    while (mini_moka_segments_removed(worker->cache, key, sizeof key, &value, sizeof value, &key_length, &value_length, &cause) == MINI_MOKA_DONE)
        worker->drained++;
}

/* Inserts the sessions of a thread. A key is the number of the thread and that of the session. */
static void *work(void *at) {
    struct worker *worker = at;
    for (uint64_t session = 0; session < SESSIONS; session++) {
        uint64_t key[2] = {worker->number, session};
        uint32_t status = mini_moka_segments_insert(worker->cache, key, sizeof key, &session, sizeof session, now());
        if (mini_moka_is_error(status))
            fprintf(stderr, "%s\n", mini_moka_status_text(status));
        if (session % 100 == 0)
            drain(worker);
    }
    return NULL;
}

int main(void) {
    struct mini_moka_segments cache = {0};
    struct mini_moka_settings settings = MINI_MOKA_ADAPTIVE_SETTINGS_INIT;
    struct mini_moka_statistics counts = {0};
    struct worker workers[THREADS] = {0};
    uint64_t drained = 0, remaining = 0;
    settings.capacity = 10000;
    settings.time_to_live = 600 * SECOND;
    settings.removed_room = 10000;
    uint32_t status = mini_moka_segments_open(&cache, &settings, 0);
    if (status != MINI_MOKA_DONE) {
        fprintf(stderr, "%s\n", mini_moka_status_text(status));
        return 1;
    }
    for (uint64_t i = 0; i < THREADS; i++) {
        workers[i].cache = &cache;
        workers[i].number = i;
        if (pthread_create(&workers[i].thread, NULL, work, &workers[i]) != 0)
            abort();
    }
    for (uint64_t i = 0; i < THREADS; i++)
        pthread_join(workers[i].thread, NULL);
    drain(&workers[0]);
    for (uint64_t i = 0; i < THREADS; i++)
        drained += workers[i].drained;
    mini_moka_segments_count(&cache, &remaining);
    mini_moka_segments_statistics(&cache, &counts);
    printf("%" PRIu64 " inserted, %" PRIu64 " remain, %" PRIu64 " drained or lost\n", counts.inserts, remaining, drained + counts.lost);
    mini_moka_segments_close(&cache);
    return 0;
}
