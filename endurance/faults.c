// A library that is loaded before the C library and makes the system fail a program, by a page of numbers in the file
// FAULTS, which other processes can map too: a disk that is full, clocks that jump, sends that fail, no memory. It counts
// the failures there.
#define _GNU_SOURCE
#include <dlfcn.h>
#include <errno.h>
#include <fcntl.h>
#include <stdint.h>
#include <stdlib.h>
#include <sys/mman.h>
#include <sys/socket.h>
#include <sys/stat.h>
#include <sys/syscall.h>
#include <sys/uio.h>
#include <time.h>
#include <unistd.h>

// Places in the page: the requested fault, and, eight further, its count.
enum { DISK_IS_FULL, WALL_CLOCK_MS, MONOTONIC_CLOCK_MS, ONE_SEND_IN, ONE_REQUEST_IN, COUNTS = 8, PLACES = 16 };

extern void *__libc_malloc(size_t size);
extern void *__libc_calloc(size_t count, size_t size);
extern void *__libc_realloc(void *from, size_t size);
extern void *__libc_memalign(size_t alignment, size_t size);

static int64_t none[PLACES], *page = none;

__attribute__((constructor)) static void map_page(void) {
    const char *path = getenv("FAULTS");
    int file = path ? open(path, O_RDWR | O_CLOEXEC) : -1;
    if (file < 0) return;
    void *found = mmap(NULL, PLACES * sizeof *page, PROT_READ | PROT_WRITE, MAP_SHARED, file, 0);
    if (found != MAP_FAILED) page = found;
    close(file);
}

static int64_t wanted(int place) { return __atomic_load_n(&page[place], __ATOMIC_RELAXED); }

static void count(int place) { __atomic_add_fetch(&page[COUNTS + place], 1, __ATOMIC_RELAXED); }

// Returns true once in this number of calls, spread without a pattern.
static int is_refused(int place) {
    static uint64_t asked[COUNTS];
    int64_t one_in = wanted(place);
    if (one_in <= 0) return 0;
    uint64_t word = __atomic_add_fetch(&asked[place], 1, __ATOMIC_RELAXED) * 0x9e3779b97f4a7c15ull;
    word = (word ^ word >> 32) * 0xd6e8feb86659fd93ull;
    if ((word >> 32) % (uint64_t)one_in) return 0;
    count(place);
    return 1;
}

static int is_disk_full(int file) {
    struct stat found;
    if (!wanted(DISK_IS_FULL) || fstat(file, &found) != 0 || !S_ISREG(found.st_mode)) return 0;
    count(DISK_IS_FULL);
    errno = ENOSPC;
    return 1;
}

ssize_t write(int file, const void *octets, size_t length) {
    return is_disk_full(file) ? -1 : syscall(SYS_write, file, octets, length);
}

ssize_t writev(int file, const struct iovec *parts, int count_of_parts) {
    return is_disk_full(file) ? -1 : syscall(SYS_writev, file, parts, count_of_parts);
}

int fdatasync(int file) { return is_disk_full(file) ? -1 : (int)syscall(SYS_fdatasync, file); }

int clock_gettime(clockid_t clock, struct timespec *time) {
    int place = clock == CLOCK_REALTIME ? WALL_CLOCK_MS : clock == CLOCK_MONOTONIC ? MONOTONIC_CLOCK_MS : -1;
    long status = syscall(SYS_clock_gettime, clock, time);
    int64_t by = place < 0 ? 0 : wanted(place);
    if (status != 0 || by == 0) return (int)status;
    count(place);
    int64_t nanoseconds = (int64_t)time->tv_sec * 1000000000 + time->tv_nsec + by * 1000000;
    time->tv_sec = nanoseconds / 1000000000, time->tv_nsec = nanoseconds % 1000000000;
    return 0;
}

// If a connected socket refuses a datagram, the exchange sends it by the worker's own socket. That refuses it, too, so it
// is lost.
static _Thread_local int is_refused_again;

static int is_send_refused(void) {
    if (!is_refused_again && !is_refused(ONE_SEND_IN)) return 0;
    is_refused_again = 0;
    errno = ENOBUFS;
    return 1;
}

static int is_for_datagrams(int file) {
    int kind = 0;
    socklen_t size = sizeof kind;
    return getsockopt(file, SOL_SOCKET, SO_TYPE, &kind, &size) == 0 && kind == SOCK_DGRAM;
}

// The control socket's answers aren't touched.
ssize_t send(int file, const void *octets, size_t length, int flags) {
    if (wanted(ONE_SEND_IN) > 0 && is_for_datagrams(file)) {
        is_refused_again = 0;
        if (is_send_refused()) {
            is_refused_again = 1;
            return -1;
        }
    }
    return syscall(SYS_sendto, file, octets, length, flags, NULL, 0);
}

// The address of a datagram, or none: the control socket's answers aren't touched.
ssize_t sendto(int file, const void *octets, size_t length, int flags, const struct sockaddr *to, socklen_t size) {
    if (to && is_send_refused()) return -1;
    return syscall(SYS_sendto, file, octets, length, flags, to, size);
}

ssize_t sendmsg(int file, const struct msghdr *message, int flags) {
    if (message->msg_name && is_send_refused()) return -1;
    return syscall(SYS_sendmsg, file, message, flags);
}

int sendmmsg(int file, struct mmsghdr *messages, unsigned count_of_messages, int flags) {
    if (is_send_refused()) return -1;
    return (int)syscall(SYS_sendmmsg, file, messages, count_of_messages, flags);
}

static int is_memory_refused(void) {
    if (!is_refused(ONE_REQUEST_IN)) return 0;
    errno = ENOMEM;
    return 1;
}

void *malloc(size_t size) { return is_memory_refused() ? NULL : __libc_malloc(size); }

void *calloc(size_t number, size_t size) { return is_memory_refused() ? NULL : __libc_calloc(number, size); }

void *realloc(void *from, size_t size) { return is_memory_refused() ? NULL : __libc_realloc(from, size); }

int posix_memalign(void **to, size_t alignment, size_t size) {
    void *found = is_memory_refused() ? NULL : __libc_memalign(alignment, size);
    if (!found) return ENOMEM;
    *to = found;
    return 0;
}

void *aligned_alloc(size_t alignment, size_t size) { return is_memory_refused() ? NULL : __libc_memalign(alignment, size); }
