/* Stands before the C library and refuses a program one thing, once: the request for memory whose place, counted from 1, the
   environment has as REFUSED_MEMORY, or the thread whose place it has as REFUSED_THREAD. Says so on standard error, and also
   when the system refuses to bind a socket.

   Of a file of call records (its name ends in .csv) REFUSED_WRITE is the place of the first write that fails, after
   REFUSED_WRITE_CUT of its octets, and REFUSED_WRITES how many behind it fail; with REFUSED_SYNC it can't be put on the disk.
   Both end once there is a file of the name REFUSED_UNTIL. Each write to a file whose name ends in SLOW_FILES takes SLOW_MS
   milliseconds longer.

   With BLOCKED_SENDS each datagram over IPv4 would have to wait, until there is a file of the name REFUSED_UNTIL. */
#define _GNU_SOURCE
#include <dlfcn.h>
#include <errno.h>
#include <netinet/in.h>
#include <pthread.h>
#include <stdio.h>
#include <stdlib.h>
#include <string.h>
#include <sys/socket.h>
#include <sys/syscall.h>
#include <unistd.h>

extern void *__libc_malloc(size_t size);
extern void *__libc_realloc(void *from, size_t size);

static void say_refused(void)
{
    static const char said[] = "this was refused\n";

    if (syscall(SYS_write, STDERR_FILENO, said, sizeof said - 1) < 0)
        abort();
}

static int is_refused(unsigned long *made, const char *name)
{
    const char *place = getenv(name);

    if (place == NULL || __atomic_add_fetch(made, 1, __ATOMIC_RELAXED) != strtoul(place, NULL, 10))
        return 0;
    say_refused();
    return 1;
}

static int is_memory_refused(void)
{
    static unsigned long made;

    if (!is_refused(&made, "REFUSED_MEMORY"))
        return 0;
    errno = ENOMEM;
    return 1;
}

void *malloc(size_t size)
{
    return is_memory_refused() ? NULL : __libc_malloc(size);
}

void *realloc(void *from, size_t size)
{
    return is_memory_refused() ? NULL : __libc_realloc(from, size);
}

int pthread_create(pthread_t *thread, const pthread_attr_t *attributes, void *(*start)(void *), void *argument)
{
    static unsigned long made;
    int (*create)(pthread_t *, const pthread_attr_t *, void *(*)(void *), void *);

    if (is_refused(&made, "REFUSED_THREAD"))
        return EAGAIN;
    *(void **)&create = dlsym(RTLD_NEXT, "pthread_create");
    return create(thread, attributes, start, argument);
}

int bind(int file, const struct sockaddr *at, socklen_t length)
{
    static const char said[] = "bind was refused\n";
    int status = syscall(SYS_bind, file, at, length);

    if (status != 0) {
        int fault = errno;

        if (write(STDERR_FILENO, said, sizeof said - 1) < 0)
            abort();
        errno = fault;
    }
    return status;
}

static int ends_in(int file, const char *end)
{
    char link[64], path[4096];
    ssize_t length, octets = strlen(end);

    snprintf(link, sizeof link, "/proc/self/fd/%d", file);
    length = readlink(link, path, sizeof path);
    return length > octets && memcmp(path + length - octets, end, octets) == 0;
}

static int is_of_records(int file)
{
    return ends_in(file, ".csv");
}

static unsigned long number_of(const char *name)
{
    const char *text = getenv(name);

    return text == NULL ? 0 : strtoul(text, NULL, 10);
}

static int is_over(void)
{
    const char *path = getenv("REFUSED_UNTIL");

    return path != NULL && access(path, F_OK) == 0;
}

static void slow_down(int file)
{
    const char *end = getenv("SLOW_FILES");

    if (end != NULL && ends_in(file, end))
        usleep(1000 * number_of("SLOW_MS"));
}

ssize_t pwrite(int file, const void *octets, size_t length, off_t place)
{
    slow_down(file);
    return syscall(SYS_pwrite64, file, octets, length, place);
}

ssize_t pwrite64(int file, const void *octets, size_t length, off_t place)
{
    return pwrite(file, octets, length, place);
}

/* (one thread writes records) */
ssize_t write(int file, const void *octets, size_t length)
{
    static unsigned long made;
    unsigned long first = number_of("REFUSED_WRITE"), cut = number_of("REFUSED_WRITE_CUT");

    slow_down(file);
    if (first == 0 || is_over() || !is_of_records(file) || ++made < first || made - first > number_of("REFUSED_WRITES"))
        return syscall(SYS_write, file, octets, length);
    if (made == first) {
        say_refused();
        if (cut > 0 && cut < length)
            return syscall(SYS_write, file, octets, cut);
    }
    errno = ENOSPC;
    return -1;
}

int fdatasync(int file)
{
    if (number_of("REFUSED_SYNC") == 0 || is_over() || !is_of_records(file))
        return syscall(SYS_fdatasync, file);
    say_refused();
    errno = EIO;
    return -1;
}

static int would_wait(int file)
{
    struct sockaddr_in at;
    socklen_t length = sizeof at, type_length = sizeof(int);
    int type = 0;

    if (number_of("BLOCKED_SENDS") == 0 || is_over() || getsockopt(file, SOL_SOCKET, SO_TYPE, &type, &type_length) != 0)
        return 0;
    if (type != SOCK_DGRAM || getsockname(file, (struct sockaddr *)&at, &length) != 0 || at.sin_family != AF_INET)
        return 0;
    say_refused();
    errno = EAGAIN;
    return 1;
}

ssize_t sendto(int file, const void *octets, size_t length, int flags, const struct sockaddr *to, socklen_t to_length)
{
    return would_wait(file) ? -1 : syscall(SYS_sendto, file, octets, length, flags, to, to_length);
}

ssize_t send(int file, const void *octets, size_t length, int flags)
{
    return sendto(file, octets, length, flags, NULL, 0);
}

ssize_t sendmsg(int file, const struct msghdr *message, int flags)
{
    return would_wait(file) ? -1 : syscall(SYS_sendmsg, file, message, flags);
}

int sendmmsg(int file, struct mmsghdr *messages, unsigned count, int flags)
{
    return would_wait(file) ? -1 : syscall(SYS_sendmmsg, file, messages, count, flags);
}
