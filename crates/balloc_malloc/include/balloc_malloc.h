/* Memory of a lock-free heap by pointers, proved: what an allocator's symbols of C can be written over. What a C
 * caller owes is on this page, and nothing else is:
 *
 * - A seat is a variable of the caller's, one for each thread, and begins as all bytes zero. It is never copied, and its
 *   bytes are not the caller's to touch.
 * - One call at a time is made with a seat. It may go from one thread to another by a lock, by the start or the end of a
 *   thread, or by a SEQ_CST atomic.
 * - A bundle is a variable of the caller's too, which begins as all bytes zero, and is never copied. One call at a time is
 *   made with it, and it may go from thread to thread as a seat may: so what one thread frees comes to the seat of another.
 * - Each pointer points to an object of its type, or to `count` of them, for the call alone; no two overlap.
 * - Memory goes back once, to the seat that told it or into a bundle, by its first word and the size that was told with it,
 *   and nobody touches it from then on. Until then all its bytes are the caller's: nothing of the library's stands among them. Other
 *   threads may use it meanwhile, as any memory of C; what they do with it comes before it goes back, by one of the ways
 *   above.
 * - Each word of memory that is resized has been written.
 * - malloc, realloc and free of the program that this library is linked with come from one allocator, another one than
 *   this, which threads may call at once. balloc_malloc_open uses them, and take, give and resize do for what they note of
 *   each 16,384 bytes that they cut into pieces; no call is made from a signal handler.
 *
 * balloc.h has the version of both headers.
 */
#ifndef BALLOC_MALLOC_H
#define BALLOC_MALLOC_H

#include <stddef.h>
#include <stdint.h>

#ifdef __cplusplus
extern "C" {
#define BALLOC_MALLOC_ALIGNED alignas(64)
#else
#define BALLOC_MALLOC_ALIGNED _Alignas(64)
#endif

/* A seat, which fills a cache line of its own. */
typedef struct balloc_seat {
    BALLOC_MALLOC_ALIGNED unsigned char bytes[64];
} balloc_seat;

/* Memory on its way back to a seat: pieces that seats of one heap told. */
typedef struct balloc_bundle {
    size_t words[33];
} balloc_bundle;

/* The first word of memory: how many words of 8 bytes stand in front of it in the heap's memory. `heap` is where
 * balloc_malloc_open told that this begins. */
#define BALLOC_MALLOC_FIRST(heap, memory) ((size_t)(((uintptr_t)(memory) - (uintptr_t)(heap)) / 8))

/* The most of each number of a heap, and the most bytes of its memory, since these heaps have no large
 * blocks: a take of more is refused, whatever is free. */
#define BALLOC_MALLOC_MOST_FRAMES 4096
#define BALLOC_MALLOC_MOST_HEAPS 16
#define BALLOC_MALLOC_MOST_SEATS 16
#define BALLOC_MALLOC_MOST_DEPTH 4096
#define BALLOC_MALLOC_MOST_BYTES 16376

/* The most pieces that a bundle has. */
#define BALLOC_MALLOC_MOST_PIECES 32

enum {
    BALLOC_MALLOC_DONE = 0,              /* the call was made */
    BALLOC_MALLOC_CAUSES = 1048576,      /* what take and resize answer below this is the size of the memory that they tell:
                                            how many words of 8 bytes it has. What they answer above it is a cause */
    BALLOC_MALLOC_REFUSED = 1048577,     /* the heap has no block left for so many bytes, or never has one */
    BALLOC_MALLOC_TOO_LARGE = 1048578,   /* more bytes than a block of any kind of heap has, 1,048,568 */
    BALLOC_MALLOC_SPENT = 1048579,       /* the seat's pass has taken all its turns, 2^36 - 1 */
    BALLOC_MALLOC_BUSY = 1048580,        /* after many lost exchanges a call of the heap is under way: this one's, or an
                                            earlier one's of this seat. The seat's next take goes on with it, and frees
                                            what an interrupted take got: so make the call again */
    BALLOC_MALLOC_EMPTY = 1048581,       /* the seat has no pass */
    BALLOC_MALLOC_BAD_NUMBERS = 1048582, /* a number of the heap is out of its range, or a seat has a pass already */
    BALLOC_MALLOC_NO_MEMORY = 1048583    /* no memory for the heap, or for what is noted of its memory */
};

/* Opens a heap with so many frames of 4,096 words (1 to BALLOC_MALLOC_MOST_FRAMES) and processor heaps (1 to
 * BALLOC_MALLOC_MOST_HEAPS), and puts a pass of it into each of the `count` seats (1 to BALLOC_MALLOC_MOST_SEATS). A seat
 * cuts blocks of the heap, of 16,376 bytes, into pieces of one size each, and gives these with no step on a word that others
 * share. Of blocks whose pieces have all come back it keeps at most `depth` (0 to BALLOC_MALLOC_MOST_DEPTH), and one of each
 * size. Tells where the heap's memory begins, and how many bytes it has: all memory that these seats tell lies there. A heap
 * isn't closed. Where it answers anything but BALLOC_MALLOC_DONE nothing is told, and the seats are as they were, or empty
 * as they were.
 * BALLOC_MALLOC_DONE, BALLOC_MALLOC_BAD_NUMBERS, BALLOC_MALLOC_NO_MEMORY */
uint32_t balloc_malloc_open(uint32_t frames, uint32_t heaps, uint32_t depth, balloc_seat *seats, size_t count, void **memory,
                            size_t *bytes);

/* Tells memory of at least `bytes` bytes, which hold anything, at a multiple of 16, and answers its size in words of 8 bytes.
 * Where it answers a cause it tells NULL.
 * A size, BALLOC_MALLOC_REFUSED, BALLOC_MALLOC_TOO_LARGE, BALLOC_MALLOC_SPENT, BALLOC_MALLOC_BUSY, BALLOC_MALLOC_EMPTY,
 * BALLOC_MALLOC_NO_MEMORY */
uint32_t balloc_malloc_take(balloc_seat *seat, size_t bytes, void **memory);

/* Tells memory as balloc_malloc_take does, and answers its size, where it needs nothing new for it: at most 2,048 bytes, of
 * 16,384 that the seat has cut into pieces of such a size already. What balloc_malloc_take answered as it told the first piece
 * of these is the size of each. Else it tells NULL, and nothing has changed: then ask balloc_malloc_take, which cuts others.
 * A size, BALLOC_MALLOC_DONE */
uint32_t balloc_malloc_take_ready(balloc_seat *seat, size_t bytes, void **memory);

/* Gives memory back that this seat told, and that was not given back since: by its first word and its size. */
void balloc_malloc_give(balloc_seat *seat, size_t first, uint32_t size);

/* Puts memory into a bundle that has fewer than BALLOC_MALLOC_MOST_PIECES, by its first word and its size, from any thread:
 * no seat is needed, and it doesn't matter who has the one that told it. Answers how many pieces the bundle has now. */
size_t balloc_malloc_put(balloc_bundle *bundle, uint32_t first, uint32_t size);

/* Takes back what a bundle has, whose pieces are memory of this seat's heap: the last one first, up to a piece that this seat
 * hasn't told, or that it has back already. Answers how many pieces are left in the bundle: none where all is well. */
size_t balloc_malloc_empty(balloc_seat *seat, balloc_bundle *bundle);

/* Tells memory of at least `bytes` bytes, with what such memory has, as far as both go, and answers its size: this memory,
 * where it has as many; else other memory, which is told in its place, and this one has gone back. Each word of this one
 * has been written. Where it answers a cause it tells this memory, which stays as it was.
 * A size, BALLOC_MALLOC_REFUSED, BALLOC_MALLOC_TOO_LARGE, BALLOC_MALLOC_SPENT, BALLOC_MALLOC_BUSY, BALLOC_MALLOC_NO_MEMORY */
uint32_t balloc_malloc_resize(balloc_seat *seat, size_t first, uint32_t size, size_t bytes, void **moved);

/* Tells how many of the seat's takes found a piece ready, modulo 2^64, how many blocks are out with it, those that it keeps too, and how
 * many exchanges it has lost to other seats.
 * BALLOC_MALLOC_DONE, BALLOC_MALLOC_EMPTY */
uint32_t balloc_malloc_counts(balloc_seat *seat, uint64_t *hits, uint64_t *out, uint64_t *lost);

#ifdef __cplusplus
}
#endif

#endif
