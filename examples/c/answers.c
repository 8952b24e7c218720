/* What malloc and its like answer at their edges. Built and run by tools/try_malloc.py, over balloc.
 * Ends with 0 where each answer is that of the manual; else a line names the one that isn't. */
#define _GNU_SOURCE
#include <errno.h>
#include <malloc.h>
#include <pthread.h>
#include <stdint.h>
#include <stdio.h>
#include <stdlib.h>
#include <string.h>
#include <sys/wait.h>
#include <unistd.h>

#define EXPECT(what) expect((what), __LINE__, #what)
#define FAILS(call, cause) (errno = 0, (call) == NULL && errno == (cause))

static int failed;
static pthread_key_t key;
static volatile size_t huge = SIZE_MAX; /* the compiler sees no number, and so can't answer itself */

static void expect(int right, int line, const char *what) {
    if (!right) failed = 1, printf("line %d: %s\n", line, what);
}

static void at_end(void *p) { free(p), free(malloc(100)); }

static void *other(void *p) {
    free(p); /* before any call that gets memory */
    char *own = realloc(strcpy(malloc(8), "seven.."), 5000);
    pthread_setspecific(key, malloc(40));
    return own;
}

int main(void) {
    void *p = NULL, *q;
    free(NULL);
    p = malloc(0), q = malloc(0);
    EXPECT(p && q && p != q);
    free(p), free(q);
    EXPECT((p = realloc(NULL, 10)) && malloc_usable_size(p) >= 10);
    EXPECT((p = realloc(p, 16360)) && (p = realloc(p, 16361)) && (p = realloc(p, 100000)) && (p = realloc(p, 3)));
    EXPECT(realloc(p, 0) == NULL);
    EXPECT(FAILS(malloc(huge), ENOMEM) && FAILS(malloc(huge / 2 + 1), ENOMEM));
    EXPECT(FAILS(calloc(huge / 2, 3), ENOMEM) && FAILS(calloc(huge, 1), ENOMEM) && FAILS(calloc(1ul << 32, huge / 2), ENOMEM));
    p = strcpy(malloc(20), "nineteen characters");
    EXPECT(FAILS(realloc(p, huge), ENOMEM) && !strcmp(p, "nineteen characters"));
    EXPECT(FAILS(reallocarray(p, huge / 2, 3), ENOMEM) && !strcmp(p, "nineteen characters"));
    EXPECT((p = reallocarray(p, 10, 10)) && !strcmp(p, "nineteen characters"));
    errno = 5, free(p), free(malloc(200000));
    EXPECT(errno == 5);
    for (size_t a = 1; a <= 1 << 20; a *= 2)
        for (size_t n = 0; n < 40000; n = 3 * n + 1) {
            EXPECT((p = memalign(a, n)) && (uintptr_t)p % a == 0 && malloc_usable_size(p) >= n), memset(p, 1, n), free(p);
            EXPECT((p = aligned_alloc(a, n)) && (uintptr_t)p % a == 0), free(p);
            if (a >= 8) EXPECT(posix_memalign(&p, a, n) == 0 && p && (uintptr_t)p % a == 0), p = realloc(p, n + 1), free(p);
        }
    EXPECT(FAILS(aligned_alloc(huge / 2, 8), EINVAL) && FAILS(memalign(24, 8), EINVAL));
    EXPECT(posix_memalign(&p, 4, 8) == EINVAL && posix_memalign(&p, 24, 8) == EINVAL && posix_memalign(&p, 0, 8) == EINVAL);
    EXPECT(posix_memalign(&p, 64, huge / 2) == ENOMEM);
    EXPECT((p = valloc(10)) && (uintptr_t)p % 4096 == 0), free(p);
    EXPECT((p = pvalloc(10)) && malloc_usable_size(p) >= 4096), free(p);
    EXPECT(malloc_usable_size(NULL) == 0);
    for (size_t n = 0; n < 40000; n += 7) {
        EXPECT((p = malloc(n)) && (uintptr_t)p % 16 == 0 && malloc_usable_size(p) >= n), memset(p, 255, malloc_usable_size(p));
        EXPECT((q = calloc(n, 1)) && (!n || (!memcmp(q, (char *)q + 1, n - 1) && !*(char *)q))), free(p), free(q);
    }
    pthread_key_create(&key, at_end);
    for (int i = 0; i < 100; i++) {
        pthread_t thread;
        EXPECT(pthread_create(&thread, NULL, other, malloc(i)) == 0 && pthread_join(thread, &p) == 0 && !strcmp(p, "seven.."));
        free(realloc(p, 6000));
    }
    int status = 1;
    pid_t child = fork();
    if (child == 0) {
        for (int i = 0; i < 100000; i++) free(malloc(i % 5000));
        _exit(failed);
    }
    EXPECT(waitpid(child, &status, 0) == child && status == 0);
    return failed;
}
