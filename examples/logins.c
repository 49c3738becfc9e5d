/*
 * Keeps a table of logins: a token is valid for half an hour after the login. Reads the lines `login USER`, `who TOKEN` and `logout TOKEN` from standard input,
 * and answers each with a line.
 */
#include "mini_moka.h"
#include <inttypes.h>
#include <stdio.h>
#include <string.h>
#include <time.h>

#define SECOND UINT64_C(1000000000)

/* The users' numbers by token, and the last token issued. */
struct logins {
    struct mini_moka users;
    uint64_t last_token;
};

/* Returns the current time in nanoseconds. */
static uint64_t now(void) {
    struct timespec time;
    clock_gettime(CLOCK_MONOTONIC, &time);
    return (uint64_t)time.tv_sec * SECOND + (uint64_t)time.tv_nsec;
}

/* Opens a table of at most 100,000 logins. */
static uint32_t logins_open(struct logins *logins) {
    struct mini_moka_u64_settings settings = MINI_MOKA_U64_ADAPTIVE_SETTINGS_INIT;
    settings.capacity = 100000;
    settings.time_to_live = 30 * 60 * SECOND;
    return mini_moka_u64_open(&logins->users, &settings);
}

/* Prints the answer to a line. Tokens are counted here; a real program would issue random ones. */
static void answer(struct logins *logins, const char *word, uint64_t number) {
    uint64_t user;
    if (strcmp(word, "login") == 0) {
        uint64_t token = ++logins->last_token;
        uint32_t status = mini_moka_u64_insert(&logins->users, token, number, now());
        if (status == MINI_MOKA_DONE)
            printf("token %" PRIu64 "\n", token);
        else
            printf("no login: %s\n", mini_moka_status_text(status));
    } else if (strcmp(word, "who") == 0) {
        if (mini_moka_u64_get(&logins->users, number, now(), &user) == MINI_MOKA_DONE)
            printf("user %" PRIu64 "\n", user);
        else
            puts("nobody");
    } else if (strcmp(word, "logout") == 0) {
        if (mini_moka_u64_remove(&logins->users, number, now(), &user) == MINI_MOKA_DONE)
            printf("user %" PRIu64 " has left\n", user);
        else
            puts("nobody");
    } else {
        puts("login USER, who TOKEN or logout TOKEN");
    }
}

int main(void) {
    struct logins logins = {0};
    uint32_t status = logins_open(&logins);
    if (status != MINI_MOKA_DONE) {
        fprintf(stderr, "%s\n", mini_moka_status_text(status));
        return 1;
    }
    char word[16];
    uint64_t number;
    while (scanf("%15s %" SCNu64, word, &number) == 2)
        answer(&logins, word, number);
    mini_moka_close(&logins.users);
    return 0;
}
