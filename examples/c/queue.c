/* A work queue: makers fill blocks and put them on shelves, workers take them, add their words up and free them.
 * Usage: queue ROUNDS. Ends with 0 where the sum is the one that was sent. Built and run by tools/try_c.py. */
#include "balloc.h"
#include <inttypes.h>
#include <pthread.h>
#include <stdatomic.h>
#include <stdio.h>
#include <stdlib.h>

enum { MAKERS = 2, WORKERS = 2, SHELVES = 64, WORDS = 31 };

struct lane {
    balloc_pass *pass;
    uint64_t rounds, sum, blocks, failed;
};

static atomic_uint makers_left = MAKERS;

/* Goes on with a call until it has ended. */
static int32_t finish(struct lane *lane, int32_t code, uint64_t *id) {
    while (code == BALLOC_INTERRUPTED) code = balloc_resume(lane->pass, id);
    return code;
}

static void *make(void *at) {
    struct lane *lane = at;
    uint64_t shelf = 0;
    while (lane->blocks < lane->rounds) {
        uint64_t id;
        int32_t code = finish(lane, balloc_alloc_words(lane->pass, WORDS, &id), &id);
        if (code == BALLOC_EXHAUSTED) continue; /* the workers are behind */
        lane->failed += code != BALLOC_DONE;
        uint64_t words[WORDS];
        for (uint32_t i = 0; i < WORDS; i++) lane->sum += words[i] = lane->blocks * WORDS + i;
        lane->failed += balloc_write_range(lane->pass, id, 0, words, WORDS) != BALLOC_DONE;
        while (balloc_put(lane->pass, id, (uint8_t)(shelf % SHELVES)) == BALLOC_SHELF_FULL) shelf++;
        lane->blocks++;
    }
    atomic_fetch_sub(&makers_left, 1);
    return NULL;
}

static void *work(void *at) {
    struct lane *lane = at;
    unsigned empty = 0;
    for (uint64_t shelf = 0; empty <= SHELVES; shelf++) {
        unsigned left = atomic_load(&makers_left);
        uint64_t id, none, words[WORDS];
        int32_t code = balloc_take(lane->pass, (uint8_t)(shelf % SHELVES), &id);
        if (code != BALLOC_DONE) {
            empty = left == 0 && code == BALLOC_SHELF_EMPTY ? empty + 1 : 0;
            continue;
        }
        empty = 0;
        lane->failed += balloc_read_range(lane->pass, id, 0, words, WORDS) != BALLOC_DONE;
        for (uint32_t i = 0; i < WORDS; i++) lane->sum += words[i];
        code = finish(lane, balloc_free(lane->pass, id), &none);
        lane->failed += code != BALLOC_DONE && code != BALLOC_FREED;
        lane->blocks++;
    }
    return NULL;
}

int main(int argc, char **argv) {
    static balloc_pass passes[MAKERS + WORKERS];
    static struct lane lanes[MAKERS + WORKERS];
    pthread_t threads[MAKERS + WORKERS];
    uint64_t rounds = argc > 1 ? strtoull(argv[1], NULL, 10) : 100000;
    uint64_t sent = 0, got = 0, failed = 0, won, lost;
    balloc_census census;
    if (balloc_open(16, 2, 0, BALLOC_MOST_TURNS, 8, passes, MAKERS + WORKERS) != BALLOC_DONE) return 2;
    for (int i = 0; i < MAKERS + WORKERS; i++) {
        lanes[i].pass = &passes[i], lanes[i].rounds = rounds;
        if (pthread_create(&threads[i], NULL, i < MAKERS ? make : work, &lanes[i])) return 2;
    }
    for (int i = 0; i < MAKERS + WORKERS; i++) {
        pthread_join(threads[i], NULL);
        *(i < MAKERS ? &sent : &got) += lanes[i].sum;
        failed += lanes[i].failed;
    }
    for (int i = 0; i < MAKERS + WORKERS; i++) failed += balloc_close(&passes[i], true, &won, &lost, &census) != BALLOC_DONE;
    printf("sent %" PRIu64 " got %" PRIu64 " failed %" PRIu64 "\n", sent, got, failed);
    return sent != got || failed;
}
