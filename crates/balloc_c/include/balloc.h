/* A lock-free heap of 64-bit words, proved. What a C caller owes is on this page, and nothing else is:
 *
 * - A heap has one pass for each thread that uses it. A pass is a variable of the caller's, and begins as
 *   BALLOC_EMPTY (all bytes zero). It is never copied, and its parts are not the caller's to touch.
 * - One call at a time is made with a pass. It may go from one thread to another by a lock, or by the start or
 *   the end of a thread.
 * - Each pointer points to an object of its type, or to `count` of them, for the call alone; no two overlap.
 * - The memory of a block is touched by nobody but who balloc_alloc or balloc_memory told it first, or whom that one lets: only
 *   its bytes, only until balloc_free or balloc_home has made its call, and for balloc_home each of its words holds a number.
 * - malloc, realloc and free come from one allocator. Only balloc_open, balloc_close and a call that gets a
 *   block use them; none is called from a signal handler, or in the forked child of a process with threads.
 *
 * A block is named by a number that its pass gave. Each call tests what it is given, in the order of the codes
 * that its comment names, and answers the first one that fits: a number that names no block of this pass
 * (freed, put on a shelf, made up) is BALLOC_NO_BLOCK, and nothing happens. A number that was freed or put names
 * nothing until 2^32 more blocks have gone through its slot of the pass's table. Each pass numbers its own blocks,
 * from 0 on: a number that another pass gave may name a block of this one, and is then taken for it.
 */
#ifndef BALLOC_H
#define BALLOC_H

#include <stdbool.h>
#include <stddef.h>
#include <stdint.h>

/* The version of this page and of the library behind it; CHANGELOG.md says what changed. MAJOR rises where a program has to
 * be changed (while it is 0, MINOR does), MINOR where a name or a code is added, and PATCH where all names, numbers and
 * layouts stay. A program is built with the page of the very library that it is linked with. */
#define BALLOC_VERSION_MAJOR 0
#define BALLOC_VERSION_MINOR 6
#define BALLOC_VERSION_PATCH 0

#ifdef __cplusplus
extern "C" {
#define BALLOC_ALIGNED alignas(64)
#else
#define BALLOC_ALIGNED _Alignas(64)
#endif

/* A pass, which fills a cache line of its own. */
typedef struct balloc_pass {
    BALLOC_ALIGNED bool live;
    void *at;
    uint64_t rest[6];
} balloc_pass;

#define BALLOC_EMPTY {0}

#define BALLOC_CLASSES 11

/* The blocks of one class of small blocks: all of its superblocks, and of them those that are free and that no
 * processor heap offers, those that are free and offered, and those that are live. */
typedef struct balloc_class_count {
    uint64_t blocks, free, reserved, live;
} balloc_class_count;

/* What a heap held when its last pass closed, where `counted` is true; else the other fields tell nothing. `won` and
 * `lost` are the exchanges of all its passes, each at most 2^64 - 1. */
typedef struct balloc_census {
    bool counted;
    uint64_t won;
    uint64_t lost;
    balloc_class_count per_class[BALLOC_CLASSES];
    uint32_t free_frames;
    uint32_t free_units;
} balloc_census;

/* The most of each number of a heap; and there are shelves 0 to BALLOC_SHELVES - 1. */
#define BALLOC_MOST_FRAMES 4096
#define BALLOC_MOST_HEAPS 16
#define BALLOC_MOST_UNITS 64
#define BALLOC_MOST_PASSES 16
#define BALLOC_MOST_TURNS 68719476735
#define BALLOC_MOST_DEPTH 64
#define BALLOC_MOST_WORDS 131071
#define BALLOC_SHELVES 64

enum {
    BALLOC_DONE = 0,          /* the call was made */
    BALLOC_FREED = 1,         /* balloc_resume: a free has ended */
    BALLOC_INTERRUPTED = 2,   /* the call is under way, after many lost exchanges: balloc_resume goes on with it. The
                                 block of a free is gone already */
    BALLOC_CLOSED = -1,       /* the pass is empty */
    BALLOC_IN_USE = -2,       /* a pass isn't empty */
    BALLOC_BAD_NUMBERS = -3,  /* a number of the heap is out of its range */
    BALLOC_NO_MEMORY = -4,    /* no memory for the heap or the pass's table */
    BALLOC_IN_CALL = -5,      /* a call was interrupted and is still under way: this one isn't made, and its block is
                                 still the pass's */
    BALLOC_IDLE = -6,         /* no call is under way */
    BALLOC_NO_BLOCK = -7,     /* the number names no block of this pass */
    BALLOC_NO_WORD = -8,      /* the block has no such word */
    BALLOC_NO_SHELF = -9,     /* there is no such shelf */
    BALLOC_EXHAUSTED = -10,   /* the heap has no block left for this need */
    BALLOC_TOO_LARGE = -11,   /* above BALLOC_MOST_WORDS */
    BALLOC_SPENT = -12,       /* the pass has taken all its turns */
    BALLOC_SHELF_FULL = -13,  /* a block lies there; the pass keeps its own, under its number */
    BALLOC_SHELF_EMPTY = -14, /* no block lies there */
    BALLOC_SHELF_MISSED = -15, /* another pass changed the shelf in between */
    BALLOC_OUT = -16          /* the block's memory is out: balloc_home brings it home */
};

/* Opens a heap with so many frames of 4,096 words for small blocks (1 to BALLOC_MOST_FRAMES), processor heaps (1 to
 * BALLOC_MOST_HEAPS) and units of 2,048 words for large ones (0 to BALLOC_MOST_UNITS), and one pass for each of the
 * `count` variables (1 to BALLOC_MOST_PASSES), each of which takes at most `turn_limit` turns (1 to BALLOC_MOST_TURNS):
 * a turn is one attempt of an allocation of at most 2,047 words. A pass keeps blocks of each size that it
 * frees, and gives them again with no step on a word that others share: at most `depth` (0 to BALLOC_MOST_DEPTH; 0: none)
 * whose words were home, as many more of these in a magazine, and as many whose memory was out, which balloc_alloc alone
 * gives again. They are lost to the other passes until it closes and frees its blocks.
 * BALLOC_DONE, BALLOC_IN_USE, BALLOC_BAD_NUMBERS, BALLOC_NO_MEMORY */
int32_t balloc_open(uint32_t frames, uint32_t heaps, uint32_t units, uint64_t turn_limit, uint32_t depth,
                    balloc_pass *passes, size_t count);

/* Closes a pass, and tells how many exchanges it won and lost: it is empty again. Its blocks are freed first where
 * `frees` says so, those that it keeps too, where the memory of none is out; where that is interrupted the pass stays open, and balloc_resume and then another close go on with
 * it. Else they stay allocated, those that it keeps too, as does the block of a call that is under way. The last pass of a heap takes the heap
 * with it, and `census` tells what that held. It tells nothing (`counted` is false) while other passes are open, where one
 * of them was closed in the middle of a call, or where there is no memory for a list of them.
 * BALLOC_DONE, BALLOC_CLOSED; where it frees, BALLOC_IN_CALL, BALLOC_OUT, BALLOC_INTERRUPTED */
int32_t balloc_close(balloc_pass *pass, bool frees, uint64_t *won, uint64_t *lost, balloc_census *census);

/* Tells what a pass has counted: its turns, the exchanges that it won and lost, and the empty superblocks that it took
 * for partial ones.
 * BALLOC_DONE, BALLOC_CLOSED */
int32_t balloc_counts(balloc_pass *pass, uint64_t *turns, uint64_t *won, uint64_t *lost, uint64_t *cleared);

/* Allocates a block of at least so many bytes, and tells its number and where its memory begins, aligned to 16 bytes: that is
 * out, the caller's to write and read as any memory, by any thread. What is in it isn't said: memory that was freed is given
 * again as it is. NULL where it is refused;
 * where it is interrupted, balloc_resume tells the number and balloc_memory the memory.
 * BALLOC_DONE, BALLOC_CLOSED, BALLOC_IN_CALL, BALLOC_TOO_LARGE, BALLOC_NO_MEMORY, BALLOC_EXHAUSTED,
 * BALLOC_SPENT, BALLOC_INTERRUPTED */
int32_t balloc_alloc(balloc_pass *pass, size_t bytes, uint64_t *id, void **memory);

/* The same in words, without memory: the words are home, and the calls below write and read them, each access checked.
 * BALLOC_DONE, BALLOC_CLOSED, BALLOC_IN_CALL, BALLOC_TOO_LARGE, BALLOC_NO_MEMORY, BALLOC_EXHAUSTED,
 * BALLOC_SPENT, BALLOC_INTERRUPTED */
int32_t balloc_alloc_words(balloc_pass *pass, uint32_t words, uint64_t *id);

/* Tells where the memory of a block begins, 8 bytes for each of its words (balloc_words): words that are home are out from now
 * on, with what is in them. Where they are out already it tells the same address again, and they stay whose they are. NULL
 * where it is refused.
 * BALLOC_DONE, BALLOC_CLOSED, BALLOC_IN_CALL, BALLOC_NO_BLOCK */
int32_t balloc_memory(balloc_pass *pass, uint64_t id, void **memory);

/* Brings the memory of a block home, with what is in it. Where it is home nothing happens.
 * BALLOC_DONE, BALLOC_CLOSED, BALLOC_IN_CALL, BALLOC_NO_BLOCK */
int32_t balloc_home(balloc_pass *pass, uint64_t id);

/* Frees a block: its number names none from then on, also where the free is interrupted, or where the pass keeps the
 * block. Memory that is out comes home, whatever is in it, or is kept as it is, for balloc_alloc.
 * BALLOC_DONE, BALLOC_CLOSED, BALLOC_IN_CALL, BALLOC_NO_BLOCK, BALLOC_INTERRUPTED */
int32_t balloc_free(balloc_pass *pass, uint64_t id);

/* Goes on with the allocation or the free that was interrupted, and tells the number of a block that it gets.
 * BALLOC_DONE, BALLOC_FREED, BALLOC_CLOSED, BALLOC_IDLE, BALLOC_NO_MEMORY, BALLOC_EXHAUSTED, BALLOC_SPENT,
 * BALLOC_INTERRUPTED */
int32_t balloc_resume(balloc_pass *pass, uint64_t *id);

/* Tells how many usable words a block has, numbered from 0: as many as were asked for, or more.
 * BALLOC_DONE, BALLOC_CLOSED, BALLOC_NO_BLOCK */
int32_t balloc_words(balloc_pass *pass, uint64_t id, uint64_t *words);

/* Writes a word of a block.
 * BALLOC_DONE, BALLOC_CLOSED, BALLOC_IN_CALL, BALLOC_NO_BLOCK, BALLOC_OUT, BALLOC_NO_WORD */
int32_t balloc_write(balloc_pass *pass, uint64_t id, uint32_t i, uint64_t value);

/* Reads a word of a block: what its owners last wrote there, and some number where none has written.
 * BALLOC_DONE, BALLOC_CLOSED, BALLOC_IN_CALL, BALLOC_NO_BLOCK, BALLOC_OUT, BALLOC_NO_WORD */
int32_t balloc_read(balloc_pass *pass, uint64_t id, uint32_t i, uint64_t *value);

/* Writes `count` words of a block in a row, from word `from` on: all of them, or none where the block hasn't so many.
 * BALLOC_DONE, BALLOC_CLOSED, BALLOC_IN_CALL, BALLOC_NO_BLOCK, BALLOC_OUT, BALLOC_NO_WORD */
int32_t balloc_write_range(balloc_pass *pass, uint64_t id, uint32_t from, const uint64_t *words, size_t count);

/* Reads `count` words of a block in a row, from word `from` on: all of them, or none where the block hasn't so many.
 * BALLOC_DONE, BALLOC_CLOSED, BALLOC_IN_CALL, BALLOC_NO_BLOCK, BALLOC_OUT, BALLOC_NO_WORD */
int32_t balloc_read_range(balloc_pass *pass, uint64_t id, uint32_t from, uint64_t *words, size_t count);

/* Writes each word of a block: word i is from + i, modulo 2^64.
 * BALLOC_DONE, BALLOC_CLOSED, BALLOC_IN_CALL, BALLOC_NO_BLOCK, BALLOC_OUT */
int32_t balloc_fill(balloc_pass *pass, uint64_t id, uint64_t from);

/* Tells the sum of all words of a block, modulo 2^64.
 * BALLOC_DONE, BALLOC_CLOSED, BALLOC_IN_CALL, BALLOC_NO_BLOCK, BALLOC_OUT */
int32_t balloc_sum(balloc_pass *pass, uint64_t id, uint64_t *sum);

/* Puts a block on a shelf, from where any pass may take it. From a full one it is back.
 * BALLOC_DONE, BALLOC_CLOSED, BALLOC_IN_CALL, BALLOC_NO_BLOCK, BALLOC_OUT, BALLOC_NO_SHELF, BALLOC_SHELF_FULL */
int32_t balloc_put(balloc_pass *pass, uint64_t id, uint8_t shelf);

/* Takes the block that lies on a shelf, with what was written in it, and tells its number in this pass.
 * BALLOC_DONE, BALLOC_CLOSED, BALLOC_IN_CALL, BALLOC_NO_SHELF, BALLOC_NO_MEMORY, BALLOC_SHELF_EMPTY,
 * BALLOC_SHELF_MISSED */
int32_t balloc_take(balloc_pass *pass, uint8_t shelf, uint64_t *id);

#ifdef __cplusplus
}
#endif

#endif
