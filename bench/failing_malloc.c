// Lets calls for memory fail: preloaded before the system's library by `failing_allocations.py`. FAILING_CALL is the number
// of the call of malloc, calloc, realloc, aligned_alloc or posix_memalign that fails, from 1; with FAILING_ALL each later one
// fails too. FAILING_COUNT names a file of 8 bytes that counts the calls, whichever way the process ends.
#define _GNU_SOURCE
#include <errno.h>
#include <fcntl.h>
#include <stdatomic.h>
#include <stddef.h>
#include <stdlib.h>
#include <sys/mman.h>

void *__libc_malloc(size_t size);
void *__libc_calloc(size_t number, size_t size);
void *__libc_realloc(void *old, size_t size);
void *__libc_memalign(size_t alignment, size_t size);

static atomic_ulong first_calls, *calls = &first_calls;

static unsigned long number_of(const char *name) {
    const char *text = getenv(name);
    unsigned long number = 0;
    for (; text && *text >= '0' && *text <= '9'; text++)
        number = 10 * number + (*text - '0');
    return number;
}

// Before the environment is known nothing fails.
static int fails(void) {
    unsigned long call = atomic_fetch_add(calls, 1) + 1;
    unsigned long failing = number_of("FAILING_CALL");
    if (!failing || call < failing || (call > failing && !number_of("FAILING_ALL")))
        return 0;
    errno = ENOMEM;
    return 1;
}

void *malloc(size_t size) {
    return fails() ? NULL : __libc_malloc(size);
}

void *calloc(size_t number, size_t size) {
    return fails() ? NULL : __libc_calloc(number, size);
}

void *realloc(void *old, size_t size) {
    return fails() ? NULL : __libc_realloc(old, size);
}

void *aligned_alloc(size_t alignment, size_t size) {
    return fails() ? NULL : __libc_memalign(alignment, size);
}

int posix_memalign(void **place, size_t alignment, size_t size) {
    if (fails())
        return ENOMEM;
    *place = __libc_memalign(alignment, size);
    return *place ? 0 : ENOMEM;
}

// From here on the calls are counted in the file.
__attribute__((constructor)) static void count_in_file(void) {
    const char *name = getenv("FAILING_COUNT");
    int file = name ? open(name, O_RDWR) : -1;
    void *place = file < 0 ? MAP_FAILED : mmap(NULL, sizeof *calls, PROT_READ | PROT_WRITE, MAP_SHARED, file, 0);
    if (place != MAP_FAILED) {
        atomic_store((atomic_ulong *)place, atomic_load(calls));
        calls = place;
    }
}
