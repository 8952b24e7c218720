/* One pass allocates a block, writes a word of its memory and puts the block on a shelf; the other takes it and reads the
 * word by a checked call.
 * It is C and C++. Ends with 0 where the word came. */
#include "balloc.h"

int main(void) {
    static balloc_pass passes[2]; /* one for each thread; all zero */
    uint64_t id, word = 0, won, lost;
    void *memory;
    balloc_census census;
    if (balloc_open(16, 2, 4, 1000000, 0, passes, 2) != BALLOC_DONE) return 2;
    if (balloc_alloc(&passes[0], 31 * sizeof word, &id, &memory) != BALLOC_DONE) return 3;
    ((uint64_t *)memory)[30] = 7;
    balloc_home(&passes[0], id); /* its memory is the heap's again, until the block has an owner that asks for it */
    balloc_put(&passes[0], id, 5);
    if (balloc_free(&passes[0], id) != BALLOC_NO_BLOCK) return 4; /* it is no block of this pass any more */
    if (balloc_take(&passes[1], 5, &id) == BALLOC_DONE) balloc_read(&passes[1], id, 30, &word);
    for (int i = 0; i < 2; i++) balloc_close(&passes[i], true, &won, &lost, &census);
    if (!census.counted || census.free_units != 4) return 5; /* both are closed, so the heap is, and nothing is live */
    return word == 7 ? 0 : 1;
}
