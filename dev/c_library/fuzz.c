/*
 * Compares random calls of include/mini_moka.h with a plain model: fuzz [CALLS [SEED]]. Keys and values are numbers, or have 0 to 4096 bytes. Now and then an
 * allocation within a call is refused; a look-up makes none. Keys, values and buffers adjoin each other, in blocks of exactly their length. It is linked with
 * --wrap for malloc and realloc. Prints the first difference, and exits with status 1 then.
 *
 * Half of the caches are adaptive, and most have random shares. A window stays within its bounds, and only an insert that is done moves it.
 *
 * Without a capacity the model knows the result of each call, as long as no moment is before an earlier one. With one it doesn't know which entries have left,
 * so a look-up may find nothing. A value that is found must be the last one written, and unexpired, and the capacity must hold. In some caches moments go back;
 * then a live entry that was expired before may have left.
 *
 * If a cache queues removed entries, each drained entry must have been inserted and not have left before. Its cause must be the one that the model knows: an
 * entry that a call of its key replaces or removes leaves as replaced or removed while it is live, and else as expired. Each inserted entry is in the cache, or
 * was drained once, returned by a removal, or lost. As long as none was lost, the model knows which entries have left.
 */
#include "fuzz_model.h"

/* ---- each call compared with the model */

static uint64_t windows_moved;

static void write_down(struct model *model, struct known *key, uint64_t version) {
    *key = (struct known){true, version, model->now, model->live, model->now, false};
}

static void play_insert(struct model *model, uint64_t key) {
    uint64_t version = ++model->versions;
    uint32_t status = insert(model, key, version);
    if (is_refused(status) || status == MINI_MOKA_NO_TIME_TO_LIVE) {
        require(is_refused(status) || model->time_to_live == MINI_MOKA_UNLIMITED, "a cache with a time to live denied it");
        return;
    }
    require(status == MINI_MOKA_DONE || (status == MINI_MOKA_REJECTED && model->capacity != MINI_MOKA_UNLIMITED), "an insert failed");
    model->inserts++;
    model->rejections += status == MINI_MOKA_REJECTED;
    if (status == MINI_MOKA_DONE) {
        model->updates += is_alive(model, &model->keys[key]);
        note_end(model, key, MINI_MOKA_CAUSE_REPLACED, true);
    }
    note_put(model, key, version, status);
    write_down(model, &model->keys[key], version);
    /* A peek removes nothing, so it finds the entry if the insert returned MINI_MOKA_DONE, unless its own time to live is 0. */
    allocations_left = -1;
    uint32_t found = look_up(model, mini_moka_peek, mini_moka_u64_peek, key);
    require(is_found(found) == (status == MINI_MOKA_DONE && is_alive(model, &model->keys[key])), "an insert returned a wrong status");
    model->keys[key].is_there = status == MINI_MOKA_DONE;
}

static void play_look_up(struct model *model, uint64_t key) {
    bool is_get = call == 1;
    uint32_t status = is_get ? look_up(model, mini_moka_get, mini_moka_u64_get, key) : look_up(model, mini_moka_peek, mini_moka_u64_peek, key);
    meet(model, &model->keys[key], status);
    if (is_get && is_found(status)) {
        model->hits++;
        note_use(model, key);
    } else if (is_get) {
        model->misses++;
    }
}

static void play_contains(struct model *model, uint64_t key) {
    meet(model, &model->keys[key], contains(model, key));
}

static void play_remove(struct model *model, uint64_t key) {
    uint32_t status = look_up(model, mini_moka_remove, mini_moka_u64_remove, key);
    /* A value that is returned isn't queued, but one that is expired is removed too. */
    if (status == MINI_MOKA_ABSENT && !is_alive(model, &model->keys[key]))
        note_end(model, key, CAUSES, true);
    meet(model, &model->keys[key], status);
    if (status == MINI_MOKA_DONE) {
        model->puts[model->last_put[key]].has_left = true;
        model->returned++;
    }
    if (status != MINI_MOKA_TOO_SHORT)
        model->keys[key].is_there = false;
}

static void play_invalidate(struct model *model, uint64_t key) {
    require(invalidate(model, key) == MINI_MOKA_DONE, "an invalidation failed");
    model->removals += is_alive(model, &model->keys[key]);
    note_end(model, key, MINI_MOKA_CAUSE_EXPLICIT, true);
    model->keys[key].is_there = false;
}

/* Removes all expired entries. No entry that is left is expired, and without a capacity each unexpired one is left. */
static void play_remove_expired(struct model *model) {
    uint64_t count = 0, alive = 0, surely_alive = 0;
    require(mini_moka_remove_expired(&model->cache, model->now) == MINI_MOKA_DONE, "mini_moka_remove_expired failed");
    require(mini_moka_count(&model->cache, &count) == MINI_MOKA_DONE, "a count failed");
    for (uint64_t key = 0; key < KEYS; key++) {
        alive += is_alive(model, &model->keys[key]);
        surely_alive += is_surely_alive(model, &model->keys[key]);
        if (is_alive(model, &model->keys[key]))
            continue;
        note_end(model, key, CAUSES, true);
        model->keys[key].is_there = false;
    }
    require(count <= alive && (count >= surely_alive || model->capacity != MINI_MOKA_UNLIMITED), "a wrong number of entries is unexpired");
}

/* Removes all entries. The call has no moment, so none leaves as expired. */
static void play_invalidate_all(struct model *model) {
    uint64_t count = 0;
    require(mini_moka_count(&model->cache, &count) == MINI_MOKA_DONE, "a count failed");
    require(mini_moka_invalidate_all(&model->cache) == MINI_MOKA_DONE, "mini_moka_invalidate_all failed");
    model->removals += count;
    for (uint64_t key = 0; key < KEYS; key++) {
        note_end(model, key, MINI_MOKA_CAUSE_EXPLICIT, false);
        model->keys[key].is_there = false;
    }
}

/* Gets the value of the key, or inserts a version of it. Compares the value that is written: the known one if a hit was counted, else the new one. */
static uint32_t get_or_insert(struct model *model, uint64_t key, uint64_t version) {
    static uint8_t otherwise[LONGEST];
    uint64_t hits = statistics_of(model).hits, number = value_number(key, version), known = value_number(key, model->keys[key].version);
    if (!model->is_bytes) {
        uint64_t value = 0;
        uint32_t status = mini_moka_u64_get_or_insert(&model->cache, key, number, model->now, &value);
        require(status != MINI_MOKA_DONE || value == (statistics_of(model).hits > hits ? known : number), "a wrong value was found or inserted");
        return status;
    }
    size_t key_length, length = SIZE_MAX, otherwise_length = fill(otherwise, number), room = some_room(otherwise_length);
    uint8_t *at = block_of(key, &key_length, otherwise_length + room), *buffer = at + key_length + otherwise_length;
    memcpy(at + key_length, otherwise, otherwise_length);
    uint32_t status = mini_moka_get_or_insert(&model->cache, at, key_length, at + key_length, otherwise_length, model->now, buffer, room, &length);
    compare_bytes(status, buffer, room, length, statistics_of(model).hits > hits ? known : number);
    free(at);
    return status;
}

static void play_get_or_insert(struct model *model, uint64_t key) {
    uint64_t version = model->versions + 1;
    model->live = model->time_to_live;
    struct known *known = &model->keys[key];
    struct mini_moka_statistics before = statistics_of(model);
    uint32_t status = get_or_insert(model, key, version);
    struct mini_moka_statistics after = statistics_of(model);
    if (after.misses == before.misses) {
        meet(model, known, status);
        model->hits++;
        note_use(model, key);
        return;
    }
    model->misses++;
    if (is_refused(status)) {
        meet(model, known, MINI_MOKA_ABSENT);
        return;
    }
    require(is_found(status), "a get-or-insert failed");
    uint32_t inserted = after.rejections > before.rejections ? MINI_MOKA_REJECTED : MINI_MOKA_DONE;
    model->inserts++;
    model->rejections += inserted == MINI_MOKA_REJECTED;
    /* A live entry would have been found, so only an expired one can be replaced. */
    note_end(model, key, CAUSES, true);
    note_put(model, key, version, inserted);
    meet(model, known, MINI_MOKA_ABSENT);
    model->versions = version;
    write_down(model, known, version);
    allocations_left = -1;
    uint32_t found = look_up(model, mini_moka_peek, mini_moka_u64_peek, key);
    require(is_found(found) == (inserted == MINI_MOKA_DONE), "a get-or-insert counted a wrong rejection");
    known->is_there = inserted == MINI_MOKA_DONE;
}

/* Drains all, and checks that each inserted entry remains, or was drained, returned or lost. Compares the drained entries of each cause with the statistics. */
static void check_drained(struct model *model, const struct mini_moka_statistics *met, uint64_t count) {
    const uint64_t left[CAUSES] = {met->evictions, met->expirations, met->removals - model->returned, met->updates, met->rejections};
    uint64_t drained = 0;
    drain_all(model);
    if (model->removed_room == 0) {
        require(met->lost == 0, "an entry was lost without a queue");
        return;
    }
    for (size_t cause = 0; cause < CAUSES; cause++) {
        drained += model->drained[cause];
        require(model->drained[cause] <= left[cause], "more entries were drained for a cause than left for it");
        require(model->drained[cause] == left[cause] || met->lost > 0, "an entry wasn't drained");
    }
    require(met->inserts == count + drained + model->returned + met->lost, "an entry neither remains nor was drained, returned or lost");
    require(model->skipped <= met->lost, "an entry was drained before one that left earlier");
    require(met->lost == 0 || drained >= model->removed_room, "an entry was lost before the queue was full");
}

static void play_counts(struct model *model) {
    uint64_t count = 0, weight = 0, alive = 0, there = 0, least_weight = 0, most_weight = 0;
    require(mini_moka_count(&model->cache, &count) == MINI_MOKA_DONE && mini_moka_weight(&model->cache, &weight) == MINI_MOKA_DONE, "a count or weight failed");
    for (size_t i = 0; i < KEYS; i++) {
        alive += is_surely_alive(model, &model->keys[i]);
        there += model->keys[i].is_there;
        least_weight += is_surely_alive(model, &model->keys[i]) ? weight_at(model, i) : 0;
        most_weight += model->keys[i].is_there ? weight_at(model, i) : 0;
    }
    require(model->capacity != MINI_MOKA_UNLIMITED || (alive <= count && count <= there), "a wrong count");
    require(model->is_weighed || (weight == count && count <= model->capacity), "a wrong weight, or more entries than the capacity");
    require(model->capacity != MINI_MOKA_UNLIMITED || (least_weight <= weight && weight <= most_weight), "a wrong weight of all entries");
    struct mini_moka_statistics met = statistics_of(model);
    require(met.hits == model->hits && met.misses == model->misses && met.inserts == model->inserts, "wrong statistics");
    require(met.rejections == model->rejections, "a wrong number of rejections");
    require(met.inserts - met.updates - met.rejections == met.evictions + met.expirations + met.removals + count, "the statistics don't add up");
    bool is_exact = model->capacity == MINI_MOKA_UNLIMITED && !model->goes_back;
    require(met.updates <= model->updates && (met.updates == model->updates || !is_exact), "a wrong number of updates");
    uint64_t most = model->removals + model->returned;
    require(met.removals <= most && (met.removals == most || !is_exact), "a wrong number of removals");
    require(model->capacity != MINI_MOKA_UNLIMITED || met.evictions + met.rejections == 0, "evictions without a capacity");
    require(model->time_to_live != MINI_MOKA_UNLIMITED || model->time_to_idle != MINI_MOKA_UNLIMITED || met.expirations == 0, "expirations without a duration");
    check_drained(model, &met, count);
}

/* Makes an insert that is refused memory. It doesn't end a walk. */
static void refuse_insert(struct model *model) {
    static uint8_t key_at[LONGEST];
    size_t key_length = key_bytes(key_at, below(KEYS));
    int left_before = allocations_left;
    bool refused_before = was_refused;
    allocations_left = 0;
    require(mini_moka_insert(&model->cache, key_at, key_length, key_at, LONGEST, model->now) == MINI_MOKA_OUT_OF_MEMORY, "an insert succeeded without memory");
    allocations_left = left_before;
    was_refused = refused_before;
}

/* Walks through all entries: each unexpired one is visited once, with its value, and no other. A call that may change the cache ends the walk. */
static void play_walk(struct model *model) {
    static uint8_t key[LONGEST], value[LONGEST], wanted_key[LONGEST], wanted[LONGEST];
    bool is_met[KEYS] = {false};
    size_t key_length, value_length, met = 0, alive = 0;
    bool needs_memory = false;
    uint32_t status;
    require(mini_moka_walk(&model->cache) == MINI_MOKA_DONE, "mini_moka_walk failed");
    do {
        size_t room = below(4) == 0 ? below(64) : LONGEST;
        if (below(16) == 0)
            refuse_insert(model);
        if (below(16) == 0)
            drain(model);
        status = mini_moka_next(&model->cache, model->now, key, LONGEST, value, room, &key_length, &value_length);
        if (status == MINI_MOKA_TOO_SHORT) {
            require(value_length > room, "the buffer was long enough");
            status = mini_moka_next(&model->cache, model->now, key, LONGEST, value, LONGEST, &key_length, &value_length);
        }
        if (is_refused(status)) {
            allocations_left = -1;
            needs_memory = true;
            status = MINI_MOKA_DONE;
            continue;
        }
        if (status != MINI_MOKA_DONE)
            break;
        require(!needs_memory || key_length > SHORT_KEY, "a step allocated memory for a short key");
        needs_memory = false;
        uint64_t number = 0;
        memcpy(&number, key, key_length < 8 ? 0 : 8);
        require(number < KEYS && !is_met[number] && is_alive(model, &model->keys[number]), "a walk visited an entry that has left or is expired, or one twice");
        is_met[number] = true;
        met++;
        require(key_length == key_bytes(wanted_key, number) && memcmp(key, wanted_key, key_length) == 0, "a walk wrote a wrong key");
        size_t wanted_length = fill(wanted, value_number(number, model->keys[number].version));
        require(value_length == wanted_length && memcmp(value, wanted, value_length) == 0, "a walk wrote a wrong value");
    } while (status == MINI_MOKA_DONE);
    require(status == MINI_MOKA_ABSENT, "a walk ended with a wrong status");
    for (size_t i = 0; i < KEYS; i++)
        alive += is_surely_alive(model, &model->keys[i]);
    require(met >= alive || model->capacity != MINI_MOKA_UNLIMITED, "a walk missed an entry");
    meet(model, &model->keys[0], contains(model, 0));
    require(mini_moka_next(&model->cache, model->now, key, LONGEST, value, LONGEST, &key_length, &value_length) == MINI_MOKA_CHANGED, "a walk didn't end");
}

/* Walks through all numbers. */
static void play_number_walk(struct model *model) {
    bool is_met[KEYS] = {false};
    uint64_t key, value, met = 0, alive = 0;
    uint32_t status;
    require(mini_moka_walk(&model->cache) == MINI_MOKA_DONE, "mini_moka_walk failed");
    while ((status = mini_moka_u64_next(&model->cache, model->now, &key, &value)) == MINI_MOKA_DONE) {
        require(key < KEYS && !is_met[key] && is_alive(model, &model->keys[key]), "a walk visited an entry that has left or is expired, or one twice");
        require(value == value_number(key, model->keys[key].version), "a walk wrote a wrong value");
        is_met[key] = true;
        met++;
    }
    require(status == MINI_MOKA_ABSENT, "a walk ended with a wrong status");
    for (size_t i = 0; i < KEYS; i++)
        alive += is_surely_alive(model, &model->keys[i]);
    require(met >= alive || model->capacity != MINI_MOKA_UNLIMITED, "a walk missed an entry");
    meet(model, &model->keys[0], contains(model, 0));
    require(mini_moka_u64_next(&model->cache, model->now, &key, &value) == MINI_MOKA_CHANGED, "a walk didn't end");
}

/* Returns the key of a call: in some caches often one of a few, which change with time. */
static uint64_t some_key(const struct model *model) {
    return model->is_local && below(3) > 0 ? (calls_made / 3 + below(14)) % KEYS : below(KEYS);
}

/* Makes a random call. */
static void play_call(struct model *model, unsigned dice) {
    uint64_t key = some_key(model);
    /* For each call, the upper bound of the dice, which are below 1000. */
    static const unsigned below_it[] = {340, 680, 740, 800, 850, 880, 950, 951, 968, 970, 998, 999, 1000};
    for (call = 0; dice >= below_it[call];)
        call++;
    call = call == 11 ? 12 : call; /* 11 opens a cache */
    /* A peek, a drain, and counts remove nothing. */
    if (call != 2 && call != 7 && call != 8 && call != 10)
        sweep(model);
    was_refused = false;
    allocations_left = below(16) == 0 ? (int)below(3) : -1;
    switch (call) {
    case 0: play_insert(model, key); break;
    case 1: case 2: play_look_up(model, key); break;
    case 3: play_contains(model, key); break;
    case 4: play_remove(model, key); break;
    case 5: play_invalidate(model, key); break;
    case 6: play_get_or_insert(model, key); break;
    case 7: play_invalidate_all(model); break;
    case 8: play_counts(model); break;
    case 9: model->is_bytes ? play_walk(model) : play_number_walk(model); break;
    case 10: drain(model); break;
    default: play_remove_expired(model);
    }
    allocations_left = -1;
}

/* Makes a random call at the next moment, and compares the window and the weight before and after it. */
static void play(struct model *model) {
    struct mini_moka_statistics before = statistics_of(model);
    uint64_t window = window_of(model);
    calls_made++;
    if (below(8) == 0) {
        model->now += below(50);
        if (model->goes_back && below(8) == 0)
            model->now -= below(1000) % (model->now + 1);
        model->is_swept = false;
    }
    play_call(model, (unsigned)below(1000));
    struct mini_moka_statistics after = statistics_of(model);
    uint64_t now = window_of(model);
    require(model->least_window <= now && now <= model->most_window, "a window is out of its bounds");
    require(now == window || after.inserts > before.inserts, "a window moved without an insert");
    windows_moved += now != window;
    /* A get and mini_moka_contains first evict what is above the capacity. */
    require((call != 1 && call != 3) || was_refused || weight_of(model) <= model->capacity || after.evictions - before.evictions >= 100,
            "the cache is above its capacity");
}

/* Returns a share: one of the header's initial settings, one at a bound, or any. */
static uint8_t some_share(uint8_t initial) {
    switch (below(8)) {
    case 0: return below(2) == 0 ? 0 : 100;
    case 1: case 2: case 3: return (uint8_t)below(101);
    default: return initial;
    }
}

/* Sets random shares, and the bounds of the window. */
static void set_shares(struct model *model, uint8_t *window, uint8_t *protected) {
    model->is_adaptive = below(2) == 0;
    model->is_local = below(2) == 0;
    *window = some_share(1);
    *protected = some_share(model->is_adaptive ? 80 : 0);
    if (model->capacity == MINI_MOKA_UNLIMITED)
        return;
    model->least_window = model->most_window = model->capacity * *window / 100;
    if (model->is_adaptive && model->least_window > 0 && *window < 80)
        model->most_window = model->capacity * 80 / 100;
}

/* Opens a cache with random settings. Returns false if it is refused memory. */
static bool open_cache(struct model *model) {
    memset(model, 0, sizeof *model);
    model->is_bytes = below(4) != 0;
    model->is_weighed = below(2) == 0;
    model->capacity = below(2) == 0 ? MINI_MOKA_UNLIMITED : below(model->is_weighed ? 100000 : KEYS);
    model->time_to_live = below(2) == 0 ? MINI_MOKA_UNLIMITED : 1 + below(5000);
    model->time_to_idle = below(2) == 0 ? MINI_MOKA_UNLIMITED : 1 + below(2000);
    size_t room = below(2) == 0 ? 0 : below(KEYS);
    model->removed_room = below(3) == 0 ? 0 : below(2) == 0 ? 1 + below(8) : 1 + below(2 * KEYS);
    model->is_eager = below(2) == 0;
    model->goes_back = below(3) == 0;
    for (size_t i = 0; i < KEYS; i++)
        model->first_put[i] = model->last_put[i] = NO_PUT;
    uint8_t window, protected;
    set_shares(model, &window, &protected);
    struct mini_moka_settings bytes = {
        model->capacity,   model->time_to_live, model->time_to_idle, room,      {next_number(), next_number()},
        model->is_weighed, model->removed_room, window,              protected, model->is_adaptive,
    };
    struct mini_moka_u64_settings numbers = {
        model->capacity, model->time_to_live, model->time_to_idle, room,             model->removed_room,
        window,          protected,           model->is_adaptive,  model->is_weighed,
    };
    call = 11;
    was_refused = false;
    allocations_left = below(4) == 0 ? (int)below(6) : -1;
    uint32_t status = model->is_bytes ? mini_moka_open(&model->cache, &bytes) : mini_moka_u64_open(&model->cache, &numbers);
    allocations_left = -1;
    require(status == MINI_MOKA_DONE || is_refused(status), "a cache failed to open");
    require(status != MINI_MOKA_DONE || window_of(model) == model->least_window, "a window begins elsewhere than at its share");
    return status == MINI_MOKA_DONE;
}

int main(int count, char **words) {
    static struct model model;
    uint64_t wanted = count > 1 ? strtoull(words[1], NULL, 10) : 1000000;
    state = seed = count > 2 ? strtoull(words[2], NULL, 10) : 1;
    uint64_t caches = 0;
    while (calls_made < wanted) {
        if (!open_cache(&model))
            continue;
        caches++;
        for (int i = 0; i < CALLS_OF_A_CACHE && calls_made < wanted; i++)
            play(&model);
        call = 8;
        if (below(2) == 0)
            play_counts(&model);
        require(mini_moka_close(&model.cache) == MINI_MOKA_DONE, "a cache failed to close");
    }
    printf("%" PRIu64 " calls of %" PRIu64 " caches, %" PRIu64 " allocations refused, windows moved %" PRIu64 " times: no difference\n", calls_made, caches,
           refusals, windows_moved);
    return 0;
}
