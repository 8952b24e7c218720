/* Threads that free each other's blocks: each allocates blocks of all sizes by malloc, calloc, realloc and aligned_alloc,
 * fills them, and swaps them for what lies in slots that all share; what it gets it checks, word by word, and frees, or
 * resizes and puts back. Half of the way the threads end, and others go on. It knows nothing of balloc, and is run over any
 * malloc by tools/try_malloc.py. Usage: swap THREADS ROUNDS. Ends with 0 where each word was right and all was freed. */
#include <inttypes.h>
#include <pthread.h>
#include <stdatomic.h>
#include <stdio.h>
#include <stdlib.h>
#include <string.h>

enum { MOST = 256, SLOTS = 2048 };

struct block {
    uint64_t count, stamp, words[];
};

struct swapper {
    uint64_t rounds, random, given, freed, wrong;
};

static _Atomic(struct block *) slots[SLOTS];

static uint64_t below(struct swapper *s, uint64_t most) {
    s->random = s->random * 6364136223846793005u + 1442695040888963407u;
    return (s->random >> 33) % most;
}

/* Mostly small, now and then as large as some pages. */
static uint64_t some_count(struct swapper *s) {
    uint64_t kind = below(s, 64);
    return kind == 0 ? below(s, 4000) : kind < 8 ? below(s, 256) : below(s, 16);
}

static struct block *filled(struct swapper *s, struct block *block, uint64_t count, uint64_t from) {
    if (!block) exit(2);
    if (!from) block->stamp = s->random;
    block->count = count;
    for (uint64_t i = from; i < count; i++) block->words[i] = block->stamp + i;
    return block;
}

static struct block *allocated(struct swapper *s) {
    uint64_t count = some_count(s), bytes = sizeof(struct block) + 8 * count;
    struct block *block;
    s->given++;
    switch (below(s, 16)) {
    case 0: block = aligned_alloc(64, (bytes + 63) / 64 * 64); s->wrong += (uintptr_t)block % 64 != 0; break;
    case 1: block = realloc(NULL, bytes); break;
    case 2:
    case 3:
        block = calloc(1, bytes);
        for (uint64_t i = 0; block && i < bytes / 8; i++) s->wrong += ((uint64_t *)block)[i] != 0;
        break;
    default: block = malloc(bytes);
    }
    s->wrong += (uintptr_t)block % 16 != 0;
    return filled(s, block, count, 0);
}

static void check(struct swapper *s, const struct block *block, uint64_t count) {
    for (uint64_t i = 0; i < count; i++) s->wrong += block->words[i] != block->stamp + i;
}

static struct block *resized(struct swapper *s, struct block *block) {
    uint64_t count = some_count(s), had = block->count;
    block = realloc(block, sizeof(struct block) + 8 * count);
    if (!block) exit(2);
    check(s, block, had < count ? had : count);
    return filled(s, block, count, had < count ? had : count);
}

static void *swap(void *of) {
    struct swapper *s = of;
    for (uint64_t round = 0; round < s->rounds; round++) {
        struct block *block = atomic_exchange(&slots[below(s, SLOTS)], allocated(s));
        if (block && below(s, 8) == 0) block = atomic_exchange(&slots[below(s, SLOTS)], resized(s, block));
        if (!block) continue;
        check(s, block, block->count);
        free(block);
        s->freed++;
    }
    return NULL;
}

int main(int argc, char **argv) {
    static struct swapper swappers[MOST];
    pthread_t threads[MOST];
    uint64_t count = argc > 1 ? strtoull(argv[1], NULL, 10) : 32, rounds = argc > 2 ? strtoull(argv[2], NULL, 10) : 100000;
    uint64_t given = 0, freed = 0, wrong = 0;
    if (count < 1 || count > MOST) return 2;
    for (int half = 0; half < 2; half++) {
        for (uint64_t i = 0; i < count; i++) {
            swappers[i].rounds = rounds / 2;
            swappers[i].random += i + 1;
            if (pthread_create(&threads[i], NULL, swap, &swappers[i])) return 2;
        }
        for (uint64_t i = 0; i < count; i++) pthread_join(threads[i], NULL);
    }
    for (int i = 0; i < SLOTS; i++) {
        struct block *block = slots[i];
        if (!block) continue;
        check(&swappers[0], block, block->count);
        free(block);
        freed++;
    }
    for (uint64_t i = 0; i < count; i++) given += swappers[i].given, freed += swappers[i].freed, wrong += swappers[i].wrong;
    printf("given %" PRIu64 " freed %" PRIu64 " wrong %" PRIu64 "\n", given, freed, wrong);
    return wrong != 0 || given != freed;
}
