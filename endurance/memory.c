// A library that is loaded before the C library and counts the memory that a program holds, in a file that it shares with
// other processes. The environment has the file's path as MEMORY. A request counts with the memory that the C library gave
// it, which is a little more than was requested.
#define _GNU_SOURCE
#include <errno.h>
#include <fcntl.h>
#include <malloc.h>
#include <stdint.h>
#include <stdlib.h>
#include <sys/mman.h>
#include <unistd.h>

// A block of at least this number of octets is large: its present or former place is listed. A freed block may still have
// memory.
enum { LARGE = 1 << 17, MOST_LARGE = 250 };

static struct page {
    // The memory held now, and the most that was held at once; the number of requests; large blocks that found no place in
    // the list.
    int64_t octets, blocks, most_octets, requests, untold;
    // The large blocks, each once for its place; one without octets is none.
    struct {
        int64_t address, octets;
    } large[MOST_LARGE];
} none, *page = &none;

extern void *__libc_malloc(size_t size);
extern void *__libc_calloc(size_t count, size_t size);
extern void *__libc_realloc(void *from, size_t size);
extern void *__libc_memalign(size_t alignment, size_t size);
extern void __libc_free(void *at);

__attribute__((constructor)) static void map_page(void) {
    const char *path = getenv("MEMORY");
    int file = path ? open(path, O_RDWR | O_CLOEXEC) : -1;
    if (file < 0) return;
    struct page *found = mmap(NULL, sizeof *page, PROT_READ | PROT_WRITE, MAP_SHARED, file, 0);
    close(file);
    if (found == MAP_FAILED) return;
    // Memory that was held before is still held.
    *found = none;
    page = found;
}

static int64_t add(int64_t *to, int64_t count) { return __atomic_add_fetch(to, count, __ATOMIC_RELAXED); }

static void note_most(int64_t octets) {
    int64_t most = __atomic_load_n(&page->most_octets, __ATOMIC_RELAXED);
    while (octets > most) {
        if (__atomic_compare_exchange_n(&page->most_octets, &most, octets, 1, __ATOMIC_RELAXED, __ATOMIC_RELAXED)) return;
    }
}

static void tell_large(int64_t address, int64_t octets) {
    for (unsigned place = 0; place < MOST_LARGE; place++) {
        int64_t found = 0, *at = &page->large[place].address;
        int is_taken = __atomic_compare_exchange_n(at, &found, address, 0, __ATOMIC_RELAXED, __ATOMIC_RELAXED);
        if (!is_taken && found != address) continue;
        if (octets > page->large[place].octets) page->large[place].octets = octets;
        return;
    }
    add(&page->untold, 1);
}

static void *given(void *at) {
    if (!at) return at;
    int64_t octets = (int64_t)malloc_usable_size(at);
    if (octets >= LARGE) tell_large((int64_t)(intptr_t)at, octets);
    note_most(add(&page->octets, octets));
    add(&page->blocks, 1), add(&page->requests, 1);
    return at;
}

static void given_back(void *at) {
    if (!at) return;
    add(&page->octets, -(int64_t)malloc_usable_size(at)), add(&page->blocks, -1);
}

void *malloc(size_t size) { return given(__libc_malloc(size)); }

void *calloc(size_t count, size_t size) { return given(__libc_calloc(count, size)); }

void free(void *at) {
    int before = errno;
    given_back(at);
    __libc_free(at);
    errno = before;
}

// A refused request leaves the old block as it was.
void *realloc(void *from, size_t size) {
    given_back(from);
    void *found = __libc_realloc(from, size);
    given(found ? found : size ? from : NULL);
    return found;
}

void *memalign(size_t alignment, size_t size) { return given(__libc_memalign(alignment, size)); }

void *aligned_alloc(size_t alignment, size_t size) { return memalign(alignment, size); }

int posix_memalign(void **to, size_t alignment, size_t size) {
    void *found = memalign(alignment, size);
    if (!found) return ENOMEM;
    *to = found;
    return 0;
}
