/* Threads that call a heap at random, with numbers of which half are wrong: freed and put ones, those of other passes,
 * made-up ones, words behind a block's end, shelves that there are not, needs that are too large. Some blocks' memory is out:
 * it is written by pointers, and checked calls on it are refused. Each thread keeps what
 * it holds, with a copy of the words, and so knows what each call has to answer.
 * Usage: hostile THREADS CALLS DEPTH. Ends with 0 where each code and each word was right and nothing was lost. */
#include "balloc.h"
#include <inttypes.h>
#include <pthread.h>
#include <stdatomic.h>
#include <stdio.h>
#include <stdlib.h>
#include <string.h>

enum { MOST = 16, HELD = 12, WORDS = 4096, OLD = 64 };

struct block {
    uint64_t id;
    uint64_t usable;
    uint64_t words[WORDS];
    uint64_t *memory; /* where that begins, while it is out */
};

struct caller {
    balloc_pass *pass;
    uint64_t calls, random, given, freed, put, taken, out, interrupted, wrong;
    int held;
    struct block blocks[HELD];
    uint64_t old[OLD];
};

static _Atomic uint64_t seen_by_all[64]; /* numbers of any pass */

static uint64_t next(struct caller *c) {
    c->random ^= c->random << 13;
    c->random ^= c->random >> 7;
    c->random ^= c->random << 17;
    return c->random;
}

static void expect(struct caller *c, const char *call, bool right, int32_t code) {
    if (!right && c->wrong++ < 5) fprintf(stderr, "%s: unexpected code %d\n", call, (int)code);
}

/* Goes on with a call until it has ended. In its middle every other call is refused. */
static int32_t finish(struct caller *c, int32_t code, uint64_t *id) {
    while (code == BALLOC_INTERRUPTED) {
        c->interrupted++;
        int32_t other = balloc_free(c->pass, c->held ? c->blocks[0].id : 0);
        expect(c, "free in a call", other == BALLOC_IN_CALL, other);
        code = balloc_resume(c->pass, id);
    }
    return code;
}

static struct block *find(struct caller *c, uint64_t id) {
    for (int i = 0; i < c->held; i++)
        if (c->blocks[i].id == id) return &c->blocks[i];
    return NULL;
}

static void forget(struct caller *c, struct block *block) {
    c->old[next(c) % OLD] = block->id;
    *block = c->blocks[--c->held];
}

/* A number: half of the time one of a block that is held, if any. */
static uint64_t pick(struct caller *c) {
    uint64_t dice = next(c);
    if (dice & 1 && c->held) return c->blocks[(dice >> 8) % (unsigned)c->held].id;
    switch ((dice >> 1) % 4) {
    case 0: return c->old[(dice >> 8) % OLD];
    case 1: return atomic_load(&seen_by_all[(dice >> 8) % 64]);
    case 2: return next(c);
    default: return (dice >> 8) % 64 | next(c) % 4 << 32;
    }
}

/* Takes a block that came under this number into the books, and fills it. */
static void enter(struct caller *c, uint64_t id, bool taken) {
    struct block *block = &c->blocks[c->held];
    uint64_t sum = 0, all = 0;
    expect(c, "a number in use", find(c, id) == NULL, 0);
    atomic_store(&seen_by_all[id % 64], id);
    block->id = id;
    block->memory = NULL;
    int32_t code = balloc_words(c->pass, id, &block->usable);
    expect(c, "words", code == BALLOC_DONE && block->usable <= WORDS, code);
    c->held++;
    if (taken) { /* filled by who put it */
        code = balloc_read_range(c->pass, id, 0, block->words, block->usable);
        expect(c, "range of a taken block", code == BALLOC_DONE, code);
        for (uint64_t i = 1; i < block->usable; i++)
            expect(c, "a word of a taken block", block->words[i] == block->words[0] + i, 0);
    } else {
        uint64_t from = next(c);
        code = balloc_fill(c->pass, id, from);
        expect(c, "fill", code == BALLOC_DONE, code);
        for (uint64_t i = 0; i < block->usable; i++) block->words[i] = from + i;
    }
    for (uint64_t i = 0; i < block->usable; i++) all += block->words[i];
    code = balloc_sum(c->pass, id, &sum);
    expect(c, "sum", code == BALLOC_DONE && sum == all, code);
}

/* The words of memory that is out. A sanitizer of threads doesn't see the steps of the heap by which memory goes from one
 * thread to another, and so it isn't to see these. */
#define UNSEEN __attribute__((noinline, no_sanitize("thread")))

#ifdef __SANITIZE_THREAD__
const char *__tsan_default_suppressions(void);
const char *__tsan_default_suppressions(void) { return "race:balloc_\nrace:live_heap\n"; } /* nor those that fill memory */
#endif

static UNSEEN uint64_t word_of(const volatile uint64_t *memory, uint64_t i) { return memory[i]; }

static UNSEEN void lay_word(volatile uint64_t *memory, uint64_t i, uint64_t word) { memory[i] = word; }

/* The memory of a block is aligned, and has the words that were written. They are written anew. */
static void go_out(struct caller *c, struct block *block, uint64_t *memory) {
    expect(c, "memory that isn't aligned", memory != NULL && (uintptr_t)memory % 16 == 0, 0);
    block->memory = memory;
    for (uint64_t i = 0; i < block->usable; i++) {
        expect(c, "a word of memory", word_of(memory, i) == block->words[i], 0);
        block->words[i] = next(c);
        lay_word(memory, i, block->words[i]);
    }
    c->out++;
}

static void call_memory(struct caller *c) {
    uint64_t id = pick(c), word;
    struct block *block = find(c, id);
    void *memory = c;
    int32_t code = balloc_memory(c->pass, id, &memory);
    int32_t wanted = block == NULL ? BALLOC_NO_BLOCK : BALLOC_DONE;
    expect(c, "memory", code == wanted && (code == BALLOC_DONE || !memory), code);
    if (code != BALLOC_DONE || code != wanted) return;
    if (block->memory) expect(c, "memory that is told again", memory == block->memory, code);
    else go_out(c, block, memory);
    code = balloc_read(c->pass, id, 0, &word);
    expect(c, "a read of memory that is out", code == BALLOC_OUT, code);
}

static void call_home(struct caller *c) {
    uint64_t id = pick(c);
    struct block *block = find(c, id);
    int32_t code = balloc_home(c->pass, id);
    expect(c, "home", code == (block ? BALLOC_DONE : BALLOC_NO_BLOCK), code);
    if (block) block->memory = NULL;
}

/* An allocation with memory. Nothing is known of what is in that, so it is written before it is checked. */
static void call_alloc_memory(struct caller *c) {
    uint64_t dice = next(c), id = ~0u;
    size_t bytes = dice % 16 == 0 ? SIZE_MAX - (dice >> 40) : (dice >> 40) % 900;
    void *memory = c;
    int32_t code = balloc_alloc(c->pass, bytes, &id, &memory);
    if (code != BALLOC_DONE) {
        expect(c, "no memory", memory == NULL, code);
        code = finish(c, code, &id);
        if (code == BALLOC_DONE) {
            c->given++;
            enter(c, id, false);
        } else expect(c, "alloc of memory", code == (bytes > 8 * 131071 ? BALLOC_TOO_LARGE : BALLOC_EXHAUSTED), code);
        return;
    }
    struct block *block = &c->blocks[c->held];
    expect(c, "a number in use", find(c, id) == NULL, 0);
    atomic_store(&seen_by_all[id % 64], id);
    block->id = id;
    block->memory = NULL;
    code = balloc_words(c->pass, id, &block->usable);
    expect(c, "memory that is too small", code == BALLOC_DONE && block->usable <= WORDS && bytes <= 8 * block->usable, code);
    for (uint64_t i = 0; i < block->usable; i++) block->words[i] = word_of(memory, i);
    c->held++, c->given++;
    go_out(c, block, memory);
}

static void call_alloc(struct caller *c) {
    uint64_t dice = next(c), id = ~0u;
    uint32_t need = dice % 16 == 0 ? 131072 + (uint32_t)(dice >> 40) : dice % 16 == 1 ? (uint32_t)(dice >> 40) % 3000 : (uint32_t)(dice >> 40) % 100;
    int32_t code = finish(c, balloc_alloc_words(c->pass, need, &id), &id);
    if (need > 131071) {
        expect(c, "alloc of too many words", code == BALLOC_TOO_LARGE, code);
    } else if (code == BALLOC_DONE) {
        c->given++;
        enter(c, id, false);
    } else {
        expect(c, "alloc", code == BALLOC_EXHAUSTED, code);
    }
}

static void call_free(struct caller *c) {
    uint64_t id = pick(c), none;
    struct block *block = find(c, id);
    for (uint64_t i = 0; block && block->memory && i < block->usable; i++)
        expect(c, "a word of memory that is freed", word_of(block->memory, i) == block->words[i], 0);
    int32_t code = finish(c, balloc_free(c->pass, id), &none);
    if (block == NULL) {
        expect(c, "free of no block", code == BALLOC_NO_BLOCK, code);
        return;
    }
    expect(c, "free", code == BALLOC_DONE || code == BALLOC_FREED, code);
    c->freed++;
    forget(c, block);
    code = balloc_free(c->pass, id);
    expect(c, "second free", code == BALLOC_NO_BLOCK, code);
}

static void call_word(struct caller *c) {
    uint64_t id = pick(c), dice = next(c), word = 0;
    struct block *block = find(c, id);
    uint32_t i = dice & 1 && block ? (uint32_t)((dice >> 8) % (block->usable + 1)) : (uint32_t)(dice >> 16);
    int32_t wanted = block == NULL ? BALLOC_NO_BLOCK : block->memory ? BALLOC_OUT : i < block->usable ? BALLOC_DONE : BALLOC_NO_WORD;
    int32_t code = dice & 2 ? balloc_write(c->pass, id, i, dice) : balloc_read(c->pass, id, i, &word);
    expect(c, "word", code == wanted, code);
    if (code != BALLOC_DONE) return;
    if (dice & 2) block->words[i] = dice;
    else expect(c, "a word that was read", word == block->words[i], code);
}

static void call_range(struct caller *c) {
    static _Thread_local uint64_t words[WORDS + 1];
    uint64_t id = pick(c), dice = next(c);
    struct block *block = find(c, id);
    uint32_t from = (uint32_t)(dice >> 8) % 200;
    size_t count = dice & 1 ? WORDS + 1 : (dice >> 40) % 200;
    int32_t wanted = block == NULL ? BALLOC_NO_BLOCK : block->memory ? BALLOC_OUT
                     : from + count <= block->usable ? BALLOC_DONE : BALLOC_NO_WORD;
    for (size_t i = 0; i < count; i++) words[i] = dice + i;
    int32_t code = dice & 2 ? balloc_write_range(c->pass, id, from, words, count) : balloc_read_range(c->pass, id, from, words, count);
    expect(c, "range", code == wanted, code);
    if (code == BALLOC_DONE && dice & 2) memcpy(block->words + from, words, count * sizeof *words);
    for (size_t i = 0; i < count && !(dice & 2); i++)
        expect(c, "a word of a range", words[i] == (code == BALLOC_DONE ? block->words[from + i] : dice + i), code);
}

static void call_put(struct caller *c) {
    uint64_t id = pick(c), dice = next(c);
    struct block *block = find(c, id);
    uint8_t shelf = (uint8_t)(dice & 1 ? dice >> 8 : (dice >> 8) % 64);
    if (block && block->memory) {
        int32_t code = balloc_put(c->pass, id, shelf);
        expect(c, "put of memory that is out", code == BALLOC_OUT, code);
        return;
    }
    if (block) balloc_fill(c->pass, id, dice);
    for (uint64_t i = 0; block && i < block->usable; i++) block->words[i] = dice + i;
    int32_t code = balloc_put(c->pass, id, shelf);
    if (block == NULL) expect(c, "put of no block", code == BALLOC_NO_BLOCK, code);
    else if (shelf >= 64) expect(c, "put on no shelf", code == BALLOC_NO_SHELF, code);
    else expect(c, "put", code == BALLOC_DONE || code == BALLOC_SHELF_FULL, code);
    if (code != BALLOC_DONE) return;
    c->put++;
    forget(c, block);
    code = balloc_put(c->pass, id, shelf);
    expect(c, "second put", code == BALLOC_NO_BLOCK, code);
}

static void call_take(struct caller *c) {
    uint64_t dice = next(c), id = ~0u;
    uint8_t shelf = (uint8_t)(dice & 1 ? dice >> 8 : (dice >> 8) % 64);
    int32_t code = balloc_take(c->pass, shelf, &id);
    if (shelf >= 64) expect(c, "take from no shelf", code == BALLOC_NO_SHELF, code);
    else expect(c, "take", code == BALLOC_DONE || code == BALLOC_SHELF_EMPTY || code == BALLOC_SHELF_MISSED, code);
    if (code != BALLOC_DONE) return;
    c->taken++;
    enter(c, id, true);
}

static void *work(void *at) {
    struct caller *c = at;
    for (uint64_t call = 0; call < c->calls; call++) {
        uint64_t dice = next(c) % 20, id;
        if (dice < 3 && c->held < HELD) call_alloc(c);
        else if (dice < 6) call_free(c);
        else if (dice < 10) call_word(c);
        else if (dice < 12) call_range(c);
        else if (dice < 13) call_put(c);
        else if (dice < 15 && c->held < HELD) call_take(c);
        else if (dice < 17) call_memory(c);
        else if (dice < 18) call_home(c);
        else if (dice < 19 && c->held < HELD) call_alloc_memory(c);
        else {
            int32_t code = balloc_resume(c->pass, &id);
            expect(c, "resume of no call", code == BALLOC_IDLE, code);
        }
    }
    return NULL;
}

int main(int argc, char **argv) {
    int threads = argc > 1 ? atoi(argv[1]) : 4;
    uint64_t calls = argc > 2 ? strtoull(argv[2], NULL, 10) : 250000;
    uint32_t depth = argc > 3 ? (uint32_t)atoi(argv[3]) : 0;
    static balloc_pass passes[MOST];
    static struct caller callers[MOST];
    pthread_t ids[MOST];
    uint64_t id, word, turns, won, lost, cleared;
    balloc_census census = {0}, none;
    struct caller all = {0};
    if (threads < 1 || threads > MOST) return 2;
    /* what is empty, twice open or out of range is refused */
    all.wrong += balloc_alloc_words(&passes[0], 1, &id) != BALLOC_CLOSED;
    all.wrong += balloc_close(&passes[0], true, &won, &lost, &census) != BALLOC_CLOSED;
    all.wrong += balloc_open(0, 1, 1, 1000, depth, passes, (size_t)threads) != BALLOC_BAD_NUMBERS;
    all.wrong += balloc_open(1, 1, 1, 1000, depth, passes, 0) != BALLOC_BAD_NUMBERS;
    all.wrong += balloc_open(1, 1, 1, 1000, BALLOC_MOST_DEPTH + 1, passes, (size_t)threads) != BALLOC_BAD_NUMBERS;
    all.wrong += balloc_open(64, 4, 32, BALLOC_MOST_TURNS, depth, passes, (size_t)threads) != BALLOC_DONE;
    all.wrong += balloc_open(64, 4, 32, BALLOC_MOST_TURNS, depth, passes, (size_t)threads) != BALLOC_IN_USE;
    for (int i = 0; i < threads; i++) {
        callers[i].pass = &passes[i], callers[i].calls = calls, callers[i].random = 88172645463325252u + 977u * (unsigned)i;
        if (pthread_create(&ids[i], NULL, work, &callers[i])) return 2;
    }
    for (int i = 0; i < threads; i++) pthread_join(ids[i], NULL);
    /* a pass isn't closed while memory is out */
    for (int i = 0; i < threads; i++)
        for (int k = 0; k < callers[i].held; k++)
            if (callers[i].blocks[k].memory) {
                all.wrong += balloc_close(&passes[i], true, &won, &lost, &none) != BALLOC_OUT;
                all.wrong += balloc_home(&passes[i], callers[i].blocks[k].id) != BALLOC_DONE;
            }
    /* what still lies on shelves */
    for (uint8_t shelf = 0; shelf < 64; shelf++) {
        struct caller *c = &callers[0];
        if (balloc_take(c->pass, shelf, &id) != BALLOC_DONE) continue;
        c->taken++;
        c->held = 0;
        enter(c, id, true);
        c->wrong += balloc_free(c->pass, id) != BALLOC_DONE;
        c->freed++;
    }
    for (int i = 0; i < threads; i++) {
        struct caller *c = &callers[i];
        all.given += c->given, all.freed += c->freed, all.put += c->put, all.taken += c->taken;
        all.interrupted += c->interrupted, all.wrong += c->wrong, all.out += c->out;
        all.wrong += balloc_counts(&passes[i], &turns, &won, &lost, &cleared) != BALLOC_DONE;
        all.wrong += balloc_close(&passes[i], true, &won, &lost, &census) != BALLOC_DONE;
        all.wrong += census.counted != (i == threads - 1);
        all.wrong += balloc_close(&passes[i], true, &won, &lost, &none) != BALLOC_CLOSED || none.counted;
        all.wrong += balloc_read(&passes[i], 0, 0, &word) != BALLOC_CLOSED;
    }
    all.wrong += all.put != all.taken;
    /* all blocks were freed, so none is live, and all units are free */
    for (int class = 0; class < BALLOC_CLASSES; class++) all.wrong += census.per_class[class].live != 0;
    all.wrong += census.free_units != 32;
    printf("given %" PRIu64 " freed %" PRIu64 " put %" PRIu64 " taken %" PRIu64 " out %" PRIu64 " interrupted %" PRIu64 " wrong %" PRIu64 "\n",
           all.given, all.freed, all.put, all.taken, all.out, all.interrupted, all.wrong);
    return all.wrong != 0;
}
