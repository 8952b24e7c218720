/* Memory of the heap by pointers: two threads, each with a seat of its own. The first hands memory to the other by a
 * variable; that one writes to it and hands it back, and each gives back what its own seat told. What the other keeps of the
 * first one's memory it puts into a bundle, which it hands back once it is full. Ends with 0 where each byte was right. */
#include "balloc_malloc.h"
#include <pthread.h>
#include <stdatomic.h>
#include <stdlib.h>
#include <string.h>

enum { ROUNDS = 20000, BYTES = 100 };

static balloc_seat seats[2]; /* one for each thread; all zero */
static _Atomic(unsigned char *) there, back, kept;
static balloc_bundle bundle; /* the other thread's until it is full, then the first one's until it is empty */
static atomic_int is_full;

static void *heap; /* where its memory begins */

static int holds(const unsigned char *bytes, unsigned char value) {
    for (int i = 0; i < BYTES; i++)
        if (bytes[i] != value) return 0;
    return 1;
}

/* A call that was interrupted is made again. */
static unsigned char *take(balloc_seat *seat, uint32_t *size) {
    void *memory;
    while ((*size = balloc_malloc_take(seat, BYTES, &memory)) == BALLOC_MALLOC_BUSY) {}
    return memory;
}

static void give(balloc_seat *seat, void *memory, uint32_t size) {
    balloc_malloc_give(seat, BALLOC_MALLOC_FIRST(heap, memory), size);
}

static void *hand_over(void *wrong) {
    for (int round = 0; round < ROUNDS; round++) {
        uint32_t size, too;
        unsigned char *bytes = take(&seats[0], &size), *more = take(&seats[0], &too), *came;
        if (!bytes || !more) exit(3);
        atomic_store(&kept, more);
        memset(bytes, 1 + round % 100, BYTES);
        atomic_store(&there, bytes);
        while (!(came = atomic_exchange(&back, NULL))) {}
        *(int *)wrong += came != bytes || !holds(bytes, 101 + round % 100);
        if (is_full) *(int *)wrong += balloc_malloc_empty(&seats[0], &bundle) != 0, is_full = 0;
        give(&seats[0], bytes, size);
    }
    return NULL;
}

static void *answer(void *wrong) {
    for (int round = 0; round < ROUNDS; round++) {
        uint32_t size;
        unsigned char *came, *own = take(&seats[1], &size);
        while (!(came = atomic_exchange(&there, NULL))) {}
        *(int *)wrong += !holds(came, 1 + round % 100);
        memset(came, 101 + round % 100, BYTES);
        /* All that is taken of as many bytes has one size. */
        size_t count = balloc_malloc_put(&bundle, BALLOC_MALLOC_FIRST(heap, kept), size);
        if (count == BALLOC_MALLOC_MOST_PIECES) is_full = 1;
        atomic_store(&back, came);
        while (is_full) {}
        if (own) give(&seats[1], own, size);
    }
    return NULL;
}

int main(void) {
    int wrong[2] = {0, 0};
    size_t bytes;
    pthread_t other;
    if (balloc_malloc_open(64, 2, 16, seats, 2, &heap, &bytes) != BALLOC_MALLOC_DONE) return 2;
    if (pthread_create(&other, NULL, answer, &wrong[1])) return 2;
    hand_over(&wrong[0]);
    pthread_join(other, NULL);
    return wrong[0] + wrong[1] == 0 ? 0 : 1;
}
