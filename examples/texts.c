/* Caches a text for half an hour. The moments are constants here; examples/logins.c reads a clock. */
#include "mini_moka.h"
#include <stdio.h>

int main(void) {
    struct mini_moka cache = {0};
    struct mini_moka_settings settings = MINI_MOKA_ADAPTIVE_SETTINGS_INIT;
    char name[64];
    size_t length;
    settings.capacity = 10000;
    settings.time_to_live = UINT64_C(1800) * 1000000000;
    uint32_t status = mini_moka_open(&cache, &settings);
    if (status == MINI_MOKA_DONE)
        status = mini_moka_insert(&cache, "token", 5, "alice", 5, 0);
    if (status == MINI_MOKA_DONE)
        status = mini_moka_get(&cache, "token", 5, 1, name, sizeof name, &length);
    if (status == MINI_MOKA_DONE)
        printf("%.*s\n", (int)length, name);
    else
        fprintf(stderr, "%s\n", mini_moka_status_text(status));
    mini_moka_close(&cache);
    return mini_moka_is_error(status);
}
