/* A leaderboard: four threads score for players, and the best three are read while they do.
 *
 *     cc leaderboard.c $(pkg-config --cflags --libs clsm) -pthread -o leaderboard && ./leaderboard
 *
 * A player's score stands at the player's number. Scans go by rising key, so there is a second row
 * for each player, at a key that is the smaller the greater the score is: the ranking. */
#include <clsm.h>

#include <inttypes.h>
#include <pthread.h>
#include <stdatomic.h>
#include <stdio.h>
#include <stdlib.h>

enum { PLAYERS = 100, ROUNDS = 50, THREADS = 4, BEST = 3 };

static const uint64_t ALL = PLAYERS; /* at this key stands the sum of all scores */
static const uint64_t RANKING = (uint64_t)1 << 63, MOST = ((uint64_t)1 << 31) - 1;

static clsm_store *store;
static atomic_int running;

/* Ends the program if a call was refused, as memory may run out. */
static int must(int code) {
    if (code >= CLSM_FULL) {
        fprintf(stderr, "leaderboard: %s\n", clsm_strerror(code));
        exit(1);
    }
    return code;
}

static uint64_t place_of(uint64_t score, uint64_t player) {
    return RANKING | (MOST - score) << 32 | player;
}

static uint64_t player_of(const clsm_row *row) { return row->key & UINT32_MAX; }

/* Adds to a score, and moves the player up in the ranking by a batch: no read finds the player
 * twice there, or not at all. */
static void win(clsm_caller *caller, uint64_t player, uint64_t points) {
    clsm_changed score;
    must(clsm_add(caller, player, points, &score));
    const clsm_row rows[] = {{place_of(score.after.words[0], player), score.after},
                             {.key = place_of(score.before.words[0], player)}};
    must(clsm_batch(caller, rows, score.before.length ? 2 : 1));
    must(clsm_add(caller, ALL, points, NULL));
}

/* A thread has every fourth player. In each round a player wins its number of points, plus one. */
static void *play(void *own) {
    const uint64_t *first = own;
    clsm_caller *caller;
    must(clsm_caller_open(store, &caller));
    for (int round = 0; round < ROUNDS; round++)
        for (uint64_t player = *first; player < PLAYERS; player += THREADS)
            win(caller, player, player + 1);
    clsm_caller_close(caller);
    atomic_fetch_sub(&running, 1);
    return NULL;
}

/* The first players of the ranking at one moment. */
static int best(clsm_caller *caller, clsm_row rows[BEST]) {
    clsm_scan *scan;
    int count = 0;
    must(clsm_scan_open(caller, RANKING, UINT64_MAX, &scan));
    while (count < BEST && must(clsm_scan_next(scan, &rows[count])) == CLSM_OK) count++;
    clsm_scan_close(scan);
    return count;
}

int main(void) {
    uint64_t owns[THREADS] = {0, 1, 2, 3};
    pthread_t threads[THREADS];
    clsm_caller *caller;
    clsm_row rows[BEST];
    clsm_value sum;
    must(clsm_open(NULL, &store));
    must(clsm_caller_open(store, &caller));
    atomic_store(&running, THREADS);
    for (int i = 0; i < THREADS; i++)
        if (pthread_create(&threads[i], NULL, play, &owns[i])) return 1;
    while (atomic_load(&running) > 0) best(caller, rows); /* whoever they are by now */
    for (int i = 0; i < THREADS; i++) pthread_join(threads[i], NULL);
    for (int i = 0, count = best(caller, rows); i < count; i++)
        printf("player %" PRIu64 ": %" PRIu64 "\n", player_of(&rows[i]), rows[i].value.words[0]);
    must(clsm_get(caller, ALL, &sum));
    printf("all: %" PRIu64 "\n", sum.words[0]);
    clsm_caller_close(caller);
    return must(clsm_close(store));
}
