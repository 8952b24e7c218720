/* The symbols of malloc over balloc's heaps. What decides is crates/balloc_malloc; here is what that can't have: a thread's
 * own variables, its first call and its end, and the names. Nothing of ours stands among the caller's memory: whose each
 * page of a heap is, and how many words its pieces have, is noted aside. Only a seat's thread makes calls with it: what others
 * free comes to it in bundles. What no seat gives is the C library's, and goes back there. README.md has the rest. */
#include "balloc_malloc.h"
#include <dlfcn.h>
#include <errno.h>
#include <malloc.h>
#include <pthread.h>
#include <sched.h>
#include <stdatomic.h>
#include <stdlib.h>
#include <string.h>
#include <sys/mman.h>
#define EXPORT __attribute__((visibility("default")))
#ifdef __x86_64__ /* one more, by one thread; others only look */
#define COUNT(at) ({ __asm__("incq %0" : "+m"(at) : : "cc"); })
#else
#define COUNT(at) atomic_store_explicit(&(at), (at) + 1, memory_order_relaxed)
#endif
enum { HEAPS = 256, SEATS = 16, SHARED = 4, DEPTH = 8, FRAMES = 512, SIZES = 129, WAYS = 32, DONE = BALLOC_MALLOC_DONE };
static const size_t WORD = 8, PAGE = 1 << 14, FRAME = 1 << 15, SLOT = 1 << 28, ALL = (size_t)HEAPS << 28, MOST = 2048, SHIFT = 56;
extern void *__libc_malloc(size_t), *__libc_calloc(size_t, size_t), *__libc_realloc(void *, size_t), *__libc_memalign(size_t, size_t), __libc_free(void *);
typedef struct seat { /* what others read, what its thread alone writes, and what others write are apart */
    _Alignas(64) _Atomic(void *) owner; /* the `me` of its thread; NULL where it is free */
    struct seat *next; balloc_seat *pass; uint32_t mark; /* a thread's seats stand in a ring; of its pages' notes */
    _Alignas(64) _Atomic size_t given[SIZES], freed[SIZES]; /* by 16 bytes that were asked for; that pieces have */
    size_t awaits; /* its heap refused: asked first again once as many are freed */
    _Alignas(64) _Atomic(struct parcel *) list; /* what other threads freed */
} seat;
typedef struct parcel { balloc_bundle bundle; struct parcel *next; seat *to; size_t count; uint16_t halves[BALLOC_MALLOC_MOST_PIECES]; } parcel;
static balloc_seat passes[HEAPS * SEATS]; static pthread_key_t at_end; static size_t sizes[HEAPS];
static seat seats[HEAPS * SEATS], none = {.mark = 1u << 31}; /* a thread's that has none: no pass, and no page's mark */
static _Atomic size_t opened, region = 1ull << 63; /* where the heaps' slots begin; first, nowhere */
static uint32_t notes[HEAPS << 14]; /* of each page: its seat, and in the lower 11 bits half the words of its pieces */
static atomic_flag door = ATOMIC_FLAG_INIT; /* who finds it closed uses the C library; so may a forked child for ever */
static _Thread_local struct { seat *first; size_t from; parcel *packed[WAYS], *spare; int spares; } me = {.first = &none}; /* from below that heap */
static inline size_t place_of(void *p) { return (size_t)p - region; } static inline int is_ours(void *p) { return place_of(p) < ALL; }
static inline size_t first_at(size_t place) { return (uint32_t)place % SLOT / WORD; } /* a heap's memory begins as its slot does */
static inline size_t bytes_of(void *p) { return 2 * WORD * (notes[place_of(p) / PAGE] % 2048); }
/* What the library asks for is the C library's; but a heap's words, far more than all else, begin its slot as it opens. */
void *glue_malloc(size_t n)
{
    void *slot = (void *)(region + opened * SLOT - WORD), *page = slot + WORD - SHIFT; if (n < FRAMES * FRAME) return __libc_malloc(n);
    return n > SLOT || mprotect(page, n + SHIFT, PROT_READ | PROT_WRITE) ? NULL : ({ if (me.from) madvise(page, n, MADV_HUGEPAGE); slot; });
}
void glue_free(void *p) { if (!is_ours(p + WORD)) __libc_free(p); }
static size_t sum(_Atomic size_t *counts) { size_t all = 0; for (int k = 0; k < SIZES; k++) all += counts[k]; return all; }
/* Only here is a page new: what is taken of a page that is ready is told by its note, which others read. */
static uint32_t take(seat *s, size_t n, void **p)
{
    uint32_t size = balloc_malloc_take(s->pass, n, p); if (size >= BALLOC_MALLOC_CAUSES) return size;
    return notes[place_of(*p) / PAGE] = s->mark | size / 2, COUNT(s->given[(n + 15) / 16]), size;
}
static inline void give(seat *s, size_t at, size_t half) { COUNT(s->freed[half]), balloc_malloc_give(s->pass, first_at(at), 2 * half); }
static void send(parcel *p) { if (p) for (p->next = p->to->list; !atomic_compare_exchange_weak(&p->to->list, &p->next, p);); }
static __attribute__((noinline)) void give_or_pack(size_t place, uint32_t note) /* sent at once where no end of the thread will be told */
{
    uint32_t half = note % 2048; seat *s = &seats[note / 2048]; parcel **way = &me.packed[note / 2048 % WAYS], *p = *way;
    if (s->owner != &me) {
        if (p && p->to != s) send(p), p = NULL;
        if (!p) p = me.spare ? me.spares--, me.spare : __libc_calloc(1, sizeof(parcel)), me.spare = p ? p->next : NULL;
        if (!(*way = p)) return; /* no memory to note it in: it isn't used again */
        p->to = s, p->halves[p->count] = half, p->count = balloc_malloc_put(&p->bundle, first_at(place), 2 * half);
        if (me.first == &none || p->count == BALLOC_MALLOC_MOST_PIECES) send(p), *way = NULL;
    } else if (give(s, place, half), s->awaits && !--s->awaits) me.first = s;
}
EXPORT void free(void *p)
{
    size_t place = place_of(p); seat *s = me.first; if (place >= ALL) return __libc_free(p);
    uint32_t note = notes[place / PAGE], half = note ^ s->mark; if (half < 2048) give(s, place, half); else give_or_pack(place, note);
}
static void leave(void *first) /* at the thread's end */
{
    for (int i = 0; i < WAYS; i++) { send(me.packed[i]), me.packed[i] = NULL; } for (parcel *p; (p = me.spare); __libc_free(p)) me.spare = p->next;
    me.spares = me.from = 0, me.first = &none; for (seat *s = first, *next; s; s = next != first ? next : NULL) next = s->next, s->owner = NULL;
}
static int open_heap(size_t h) /* the first one takes the addresses of all; what is opened since others refused is larger */
{
    const int how = MAP_PRIVATE | MAP_ANONYMOUS | MAP_NORESERVE, frames = FRAMES << (me.from < 3 ? me.from : 3); cpu_set_t cpus;
    void *words, *all = region >> 63 ? mmap(NULL, ALL + SLOT, PROT_NONE, how, -1, 0) : NULL;
    if (h == HEAPS || all == MAP_FAILED || (all && pthread_key_create(&at_end, leave))) return 0;
    if (all && !sched_getaffinity(0, sizeof(cpus), &cpus)) mallopt(M_ARENA_MAX, CPU_COUNT(&cpus)); /* no thread asked more of it yet */
    if (all) region = ((size_t)all + SLOT - 1) / SLOT * SLOT + SHIFT;
    return DONE == balloc_malloc_open(frames, SHARED, DEPTH, &passes[h * SEATS], SEATS, &words, &sizes[h]) && (size_t)words == region + h * SLOT;
}
static seat *sit(void) /* on a seat of a heap where this thread has none */
{
    size_t i = me.from * SEATS; if (me.from > HEAPS || atomic_flag_test_and_set(&door)) return NULL;
    while (i < opened * SEATS && seats[i].owner) i++;
    opened += i == opened * SEATS && open_heap(opened);
    seat *found = i < opened * SEATS && !pthread_setspecific(at_end, &seats[i]) ? &seats[i] : NULL;
    me.from = found ? i / SEATS + 1 : HEAPS + 1; /* where there is none it looks no more */
    if (found) found->next = me.first != &none ? me.first->next : found, *(me.first != &none ? &me.first->next : &me.first) = found;
    if (found) found->pass = &passes[i], found->mark = i << 11, found->owner = &me;
    return atomic_flag_clear(&door), found;
}
static __attribute__((noinline)) void *search(size_t n) /* from seat to seat of the ring, and then on new ones */
{
    me.first->given[(n + 15) / 16]--; /* it was counted */ uint32_t code = DONE; seat *s = me.first != &none ? me.first : sit();
    for (; s; s = s->next != me.first ? s->next : code == BALLOC_MALLOC_REFUSED || code == BALLOC_MALLOC_SPENT ? sit() : NULL) {
        void *p; for (parcel *b = atomic_exchange(&s->list, NULL), *next; b; b = next) {
            for (next = b->next; b->count; b->count--) COUNT(s->freed[b->halves[b->count - 1]]), s->awaits -= s->awaits > 1;
            if (!balloc_malloc_empty(s->pass, &b->bundle)) { if (me.spares > WAYS) __libc_free(b); else b->next = me.spare, me.spare = b, me.spares++; }
        }
        if ((code = take(s, n, &p)) < BALLOC_MALLOC_CAUSES) return me.first = s, p;
        s->awaits = (sum(s->given) - sum(s->freed)) / 8 + 1;
    }
    return __libc_malloc(n);
}
EXPORT void *malloc(size_t n)
{
    seat *s = me.first; if (n > MOST) return __libc_malloc(n); else COUNT(s->given[(n + 15) / 16]);
    void *p; return s->pass && (balloc_malloc_take_ready(s->pass, n, &p), p) ? p : search(n);
}
EXPORT void *calloc(size_t n, size_t m)
{
    size_t all; void *p = __builtin_mul_overflow(n, m, &all) || all > MOST ? NULL : malloc(all); return p ? memset(p, 0, all) : __libc_calloc(n, m);
}
EXPORT void *realloc(void *p, size_t n) /* to 0 bytes it frees, as the C library's does */
{
    if (!is_ours(p)) return p ? __libc_realloc(p, n) : malloc(n);
    size_t had = bytes_of(p); if (n && n <= had && n >= had / 2) return p;
    void *to = n ? malloc(n) : NULL; if (to) memcpy(to, p, n < had ? n : had);
    return to || !n ? free(p), to : NULL;
}
EXPORT void *memalign(size_t a, size_t n) /* pieces of a multiple of 64 bytes lie at multiples of 64 */
{
    void *p = !a || a & (a - 1) ? errno = EINVAL, NULL : a > 64 || n > MOST - 63 ? __libc_memalign(a, n) : malloc(a > 16 ? (n + 63) / 64 * 64 : n);
    return p && (size_t)p % a ? free(p), __libc_memalign(a, n) : p;
}
EXPORT void *aligned_alloc(size_t a, size_t n) { return memalign(a, n); }
EXPORT int posix_memalign(void **p, size_t a, size_t n) { return a < 8 || a & (a - 1) ? EINVAL : (*p = memalign(a, n)) ? 0 : ENOMEM; }
EXPORT size_t malloc_usable_size(void *p) { return is_ours(p) ? bytes_of(p) : ((size_t (*)(void *))dlsym(RTLD_NEXT, "malloc_usable_size"))(p); }
static size_t half_of(size_t k) { return !k ? 1 : k <= 8 ? k : k <= 16 ? (k + 1) & -2 : k <= 32 ? (k + 3) & -4 : (k + 7) & -8; } /* of 16 * k bytes */
EXPORT void balloc_report(void) /* on standard error, also for a debugger; nothing while a thread looks for a seat */
{
    uint64_t given[SIZES] = {0}, live[SIZES] = {0}, all = 0, gone = 0, bytes = 0, hits = 0, lost = 0, more, out, less;
    if (atomic_flag_test_and_set(&door)) return; /* meanwhile nobody takes a seat; those of other threads tell no more */
    for (seat *s = seats; s < seats + opened * SEATS; s++) {
        for (int k = 0; k < SIZES; k++) given[half_of(k)] += s->given[k], live[half_of(k)] += s->given[k], live[k] -= s->freed[k];
        all += sum(s->given), gone += sum(s->freed), bytes += (s - seats) % SEATS ? 0 : sizes[(s - seats) / SEATS];
        if ((!s->owner || s->owner == &me) && balloc_malloc_counts(&passes[s - seats], &more, &out, &less) == DONE) hits += more, lost += less;
    }
    dprintf(2, "balloc: %lu given, %lu freed, %lu live; pages served %lu; %lu exchanges lost; %zu heaps with %lu MB of addresses\n",
            all, gone, all - gone, hits, lost, (size_t)opened, bytes >> 20);
    for (int k = 0; k < SIZES; k++) if (given[k]) dprintf(2, "balloc: of %zu bytes %lu given, %lu live\n", 2 * WORD * k, given[k], live[k]);
    atomic_flag_clear(&door);
}
__attribute__((destructor)) static void report(void) { char *asked = getenv("BALLOC_STATS"); if (asked && !strcmp(asked, "1")) balloc_report(); }
