/* Counts the calls of a program that take memory, and refuses one of them. For tests/memory/drill.py and images.py, which put it into LD_PRELOAD.
 *
 * REFUSE_COUNT names a file of three numbers of 8 bytes: the count of calls, the bytes that are held, and the most that were held at once. It has
 * them while the program runs and after it. REFUSE_AT is the number of the call that is refused, counted from 1, or 0 for none. What is taken
 * before the program's main counts too, but for what the loader takes. A block that realloc makes longer counts once, as it is in the end: the C
 * library moves a large one by its pages.
 */
#define _GNU_SOURCE
#include <errno.h>
#include <fcntl.h>
#include <malloc.h>
#include <stdint.h>
#include <stdlib.h>
#include <sys/mman.h>
#include <unistd.h>

extern void *__libc_malloc(size_t size);
extern void *__libc_calloc(size_t count, size_t size);
extern void *__libc_realloc(void *block, size_t size);
extern void *__libc_memalign(size_t alignment, size_t size);
extern void __libc_free(void *block);

enum { CALLS, HELD, MOST, NUMBERS };

static uint64_t *taken;
static uint64_t refused_at;

__attribute__((constructor)) static void begin(void) {
    const char *path = getenv("REFUSE_COUNT");
    const char *at = getenv("REFUSE_AT");
    int file = path ? open(path, O_RDWR) : -1;
    if (file < 0 || !at) {
        _exit(99);
    }
    void *place = mmap(NULL, NUMBERS * sizeof *taken, PROT_READ | PROT_WRITE, MAP_SHARED, file, 0);
    if (place == MAP_FAILED) {
        _exit(99);
    }
    close(file);
    refused_at = strtoull(at, NULL, 10);
    taken = place;
}

/* Whether this call is the refused one. */
static int is_refused(void) {
    if (!taken || ++taken[CALLS] != refused_at) {
        return 0;
    }
    errno = ENOMEM;
    return 1;
}

/* What a block has counts as held. */
static void *hold(void *block) {
    if (taken && block) {
        taken[HELD] += malloc_usable_size(block);
        if (taken[HELD] > taken[MOST]) {
            taken[MOST] = taken[HELD];
        }
    }
    return block;
}

/* So many bytes are held no more. What was taken before the constructor never counted. */
static void lose(size_t size) {
    if (taken) {
        taken[HELD] -= size < taken[HELD] ? size : taken[HELD];
    }
}

void *malloc(size_t size) {
    return is_refused() ? NULL : hold(__libc_malloc(size));
}

void *calloc(size_t count, size_t size) {
    return is_refused() ? NULL : hold(__libc_calloc(count, size));
}

void *realloc(void *block, size_t size) {
    if (is_refused()) {
        return NULL;
    }
    size_t before = malloc_usable_size(block);
    void *found = __libc_realloc(block, size);
    if (found || size == 0) {
        lose(before);
    }
    return hold(found);
}

void free(void *block) {
    lose(malloc_usable_size(block));
    __libc_free(block);
}

void *memalign(size_t alignment, size_t size) {
    return is_refused() ? NULL : hold(__libc_memalign(alignment, size));
}

void *aligned_alloc(size_t alignment, size_t size) {
    return memalign(alignment, size);
}

int posix_memalign(void **block, size_t alignment, size_t size) {
    void *found = memalign(alignment, size);
    if (!found) {
        return ENOMEM;
    }
    *block = found;
    return 0;
}
