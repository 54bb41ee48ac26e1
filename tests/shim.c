// Stands between the program and the C library's calls of files and of memory: counts and lists them, and makes one of them fail, come
// short or be interrupted. Loaded by LD_PRELOAD; edge.py compiles it.
//   EDGE_CALL    the call that is bent: open, read, write, seek, fsync, close, unlink or alloc, with EDGE_FD only on this descriptor
//                ("file": any above 2 that isn't a spill file, "spill": a spill file)
//   EDGE_NUMBER  which of these calls, counted from 1
//   EDGE_DO      fail, short or interrupt; a read can also give zeros or come to the end
//   EDGE_GATE    a file that the program waits for once its spill file is open
//   EDGE_CALLS   where the counts go at the end: reads, writes, seeks, opens, bent; and below them a line for each call on a path
// From the n-th rewind of the keys file on, the file pass-n is read in its place, if there is one. A spill file is also linked as
// `spilled`, and stays there.
#define _GNU_SOURCE
#include <dlfcn.h>
#include <errno.h>
#include <fcntl.h>
#include <stdarg.h>
#include <stdio.h>
#include <stdlib.h>
#include <string.h>
#include <unistd.h>

#define REAL(type, name, ...) ((type (*)(__VA_ARGS__))dlsym(RTLD_NEXT, #name))
#define MOST 64

extern void *__libc_malloc(size_t), *__libc_realloc(void *, size_t);
static long reads, writes, seeks, opens, matched, bent;
static int spill = -1, ended;
static char paths[MOST][256], list[1 << 16];
static size_t listed;

static void note(const char *call, const char *path) {
    int count = snprintf(list + listed, sizeof list - listed, "%s %s\n", call, path);
    if (count > 0 && listed + count < sizeof list) listed += count;
}

static void note_on(const char *call, int fd) {
    if (fd > 2 && fd < MOST) note(call, paths[fd]);
}

static int matches(const char *call, int fd) {
    const char *wanted = getenv("EDGE_CALL"), *on = getenv("EDGE_FD");
    if (ended || !wanted || strcmp(wanted, call)) return 0;
    if (!on) return 1;
    if (!strcmp(on, "spill")) return fd == spill;
    return strcmp(on, "file") ? fd == atoi(on) : fd > 2 && fd != spill;
}

// Whether this call is the one that is bent.
static int is_bent(const char *call, int fd) {
    const char *number = getenv("EDGE_NUMBER");
    if (!matches(call, fd) || ++matched != (number ? atol(number) : 0)) return 0;
    bent = 1;
    return 1;
}

static int does(const char *how) {
    const char *wanted = getenv("EDGE_DO");
    return wanted && !strcmp(wanted, how);
}

static int fail(void) {
    errno = does("interrupt") ? EINTR : EIO;
    return -1;
}

static void *no_memory(void) {
    errno = ENOMEM;
    return NULL;
}

static ssize_t bend(ssize_t (*real)(int, void *, size_t), int fd, void *bytes, size_t count) {
    if (does("end")) return 0;
    if (does("short")) return real(fd, bytes, count > 1 ? 1 : count);
    if (!does("zeros")) return fail();
    ssize_t came = real(fd, bytes, count);
    if (came > 0) memset(bytes, 0, came);
    return came;
}

ssize_t read(int fd, void *bytes, size_t count) {
    ssize_t (*real)(int, void *, size_t) = dlsym(RTLD_NEXT, "read");
    reads++;
    return is_bent("read", fd) ? bend(real, fd, bytes, count) : real(fd, bytes, count);
}

ssize_t write(int fd, const void *bytes, size_t count) {
    ssize_t (*real)(int, void *, size_t) = dlsym(RTLD_NEXT, "write");
    writes++;
    note_on("write", fd);
    return is_bent("write", fd) ? bend(real, fd, (void *)bytes, count) : real(fd, (void *)bytes, count);
}

ssize_t __write(int fd, const void *bytes, size_t count) { return write(fd, bytes, count); }

static void wait_for(const char *gate) {
    for (int tries = 0; gate && tries < 10000 && access(gate, F_OK); tries++) usleep(1000);
}

// Keeps what a spill file holds.
static void keep(const char *path) {
    REAL(int, unlink, const char *)("spilled");
    (void)!link(path, "spilled");
    wait_for(getenv("EDGE_GATE"));
}

int open(const char *path, int flags, ...) {
    va_list rest;
    va_start(rest, flags);
    int mode = flags & O_CREAT ? va_arg(rest, int) : 0;
    va_end(rest);
    opens++;
    note("open", path);
    int fd = is_bent("open", -1) ? fail() : REAL(int, open, const char *, int, ...)(path, flags, mode);
    if (fd < 0 || fd >= MOST) return fd;
    snprintf(paths[fd], sizeof paths[fd], "%s", path);
    const char *end = strrchr(path, '.');
    if (end && !strcmp(end, ".spill")) {
        spill = fd;
        keep(path);
    }
    return fd;
}

int fsync(int fd) {
    note_on("fsync", fd);
    return is_bent("fsync", fd) ? fail() : REAL(int, fsync, int)(fd);
}

// The system closes a descriptor also if it says that it failed.
int close(int fd) {
    note_on("close", fd);
    int done = REAL(int, close, int)(fd), is_wrong = is_bent("close", fd);
    if (fd == spill) spill = -1;
    return is_wrong ? fail() : done;
}

int unlink(const char *path) {
    note("unlink", path);
    return is_bent("unlink", -1) ? fail() : REAL(int, unlink, const char *)(path);
}

off_t lseek(int fd, off_t offset, int whence) {
    char other[32];
    if (is_bent("seek", fd)) return fail();
    off_t place = REAL(off_t, lseek, int, off_t, int)(fd, offset, whence);
    if (fd == spill) return place;
    snprintf(other, sizeof other, "pass-%ld", ++seeks);
    int with = REAL(int, open, const char *, int, ...)(other, O_RDONLY);
    if (with >= 0) {
        dup2(with, fd);
        REAL(int, close, int)(with);
    }
    return place;
}

void *malloc(size_t size) { return is_bent("alloc", -1) ? no_memory() : __libc_malloc(size); }

void *realloc(void *old, size_t size) { return is_bent("alloc", -1) ? no_memory() : __libc_realloc(old, size); }

__attribute__((destructor)) static void note_calls(void) {
    const char *to = getenv("EDGE_CALLS");
    ended = 1;
    int file = to ? REAL(int, open, const char *, int, ...)(to, O_WRONLY | O_CREAT | O_TRUNC, 0644) : -1;
    if (file < 0) return;
    dprintf(file, "%ld %ld %ld %ld %ld\n%s", reads, writes, seeks, opens, bent, list);
}
