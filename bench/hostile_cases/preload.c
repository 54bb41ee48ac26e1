// Stands between a program and the C library: refuses it memory, or lets a signal come again and again, whose handler returns and makes
// no call again. Loaded by LD_PRELOAD; hostile.py compiles it.
//   HOSTILE_REFUSE  which request for memory is refused, counted from 1, and all after it
//   HOSTILE_ONCE    set if those after it are granted
//   HOSTILE_TICK    microseconds between two signals
//   HOSTILE_COUNTS  where the counts go at the end: requests for memory, signals, calls that a signal interrupted or cut short
#define _GNU_SOURCE
#include <dlfcn.h>
#include <errno.h>
#include <fcntl.h>
#include <signal.h>
#include <stdio.h>
#include <stdlib.h>
#include <sys/time.h>
#include <unistd.h>

extern void *__libc_malloc(size_t), *__libc_calloc(size_t, size_t), *__libc_realloc(void *, size_t);
static long first_refused, requests, interrupted;
static volatile long signals;
static int once;

static int is_refused(void) {
    requests++;
    return first_refused && (once ? requests == first_refused : requests >= first_refused);
}

void *malloc(size_t size) {
    if (!is_refused()) return __libc_malloc(size);
    errno = ENOMEM;
    return NULL;
}

void *calloc(size_t count, size_t size) {
    if (!is_refused()) return __libc_calloc(count, size);
    errno = ENOMEM;
    return NULL;
}

void *realloc(void *old, size_t size) {
    if (!is_refused()) return __libc_realloc(old, size);
    errno = ENOMEM;
    return NULL;
}

ssize_t read(int fd, void *bytes, size_t count) {
    ssize_t (*real)(int, void *, size_t) = dlsym(RTLD_NEXT, "read");
    ssize_t came = real(fd, bytes, count);
    if (came < 0 && errno == EINTR) interrupted++;
    return came;
}

ssize_t write(int fd, const void *bytes, size_t count) {
    ssize_t (*real)(int, const void *, size_t) = dlsym(RTLD_NEXT, "write");
    ssize_t went = real(fd, bytes, count);
    if ((went < 0 && errno == EINTR) || (went >= 0 && (size_t)went < count)) interrupted++;
    return went;
}

static void on_signal(int number) {
    (void)number;
    signals++;
}

static long number_of(const char *name) {
    const char *text = getenv(name);
    return text ? atol(text) : 0;
}

__attribute__((constructor)) static void begin(void) {
    long tick = number_of("HOSTILE_TICK");
    if (tick) {
        struct sigaction action = {.sa_handler = on_signal};
        struct itimerval timer = {{0, tick}, {0, tick}};
        sigaction(SIGALRM, &action, NULL);
        setitimer(ITIMER_REAL, &timer, NULL);
    }
    once = getenv("HOSTILE_ONCE") != NULL;
    requests = 0;
    first_refused = number_of("HOSTILE_REFUSE");
}

__attribute__((destructor)) static void note_counts(void) {
    const char *to = getenv("HOSTILE_COUNTS");
    char text[100];
    struct itimerval never = {{0, 0}, {0, 0}};
    setitimer(ITIMER_REAL, &never, NULL);
    int size = snprintf(text, sizeof text, "%ld %ld %ld\n", requests, signals, interrupted);
    int file = to ? open(to, O_WRONLY | O_CREAT | O_TRUNC, 0644) : -1;
    if (file < 0) return;
    if (write(file, text, size) != size) _exit(99);
    close(file);
}
