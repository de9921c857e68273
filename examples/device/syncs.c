/* Turns a device bad at one sync of a journal, for the program that this library is loaded into before the C library
   (LD_PRELOAD).

   DEVICE_FAULT is `WHAT COUNT HOW`. Of the syncs behind a write of WHAT, `frame` or `gate`, it is the one numbered COUNT,
   counted from 0. HOW tells what comes of it: `once` the device is bad during that sync, `stays` from then on, and with
   `dies` the process is killed in its place.

   DEVICE_LIMIT is the file by which the device is made bad, and well again. DEVICE_MET is a file into which the place of
   the frame is written, and its size, once the sync was met. DEVICE_SHARED is the file that is shared with maps.c: behind
   each write and each cut it is waited until that process has seen all pages. */
#define _GNU_SOURCE
#include <errno.h>
#include <fcntl.h>
#include <signal.h>
#include <stdatomic.h>
#include <stdio.h>
#include <stdlib.h>
#include <string.h>
#include <sys/mman.h>
#include <sys/syscall.h>
#include <time.h>
#include <unistd.h>

enum what { NOTHING, FRAME, GATE };
static enum what what, written;
static char how[8];
static long wanted, count;
static const char *limit, *met;
static long long place, size_of;
static struct shared { atomic_long asked, seen; } *shared;

__attribute__((constructor)) static void begin(void) {
    const char *said = getenv("DEVICE_FAULT"), *with = getenv("DEVICE_SHARED");
    char word[8];
    limit = getenv("DEVICE_LIMIT");
    met = getenv("DEVICE_MET");
    if (said) {
        if (sscanf(said, "%7s %ld %7s", word, &wanted, how) != 3) _exit(99);
        what = strcmp(word, "frame") == 0 ? FRAME : GATE;
    }
    if (with) {
        int file = syscall(SYS_openat, AT_FDCWD, with, O_RDWR, 0);
        shared = mmap(NULL, sizeof *shared, PROT_READ | PROT_WRITE, MAP_SHARED, file, 0);
        if (shared == MAP_FAILED) _exit(99);
        syscall(SYS_close, file);
    }
}

static void tell(const char *path, const char *text) {
    int file = syscall(SYS_openat, AT_FDCWD, path, O_CREAT | O_WRONLY, 0600);
    if (file < 0 || syscall(SYS_write, file, text, strlen(text)) < 0) _exit(98);
    syscall(SYS_close, file);
}

/* Waits until the other process has all pages of the file mapped, for a second at most. */
static void show(void) {
    if (!shared) return;
    long turn = atomic_fetch_add(&shared->asked, 1) + 1;
    struct timespec pause = {0, 50000};
    for (int tries = 0; tries < 20000 && atomic_load(&shared->seen) < turn; tries++) nanosleep(&pause, NULL);
}

ssize_t pwrite(int file, const void *from, size_t size, off_t at) {
    const unsigned char *bytes = from;
    ssize_t moved = syscall(SYS_pwrite64, file, from, size, at);
    int error = errno;
    /* The length in front of a frame, and the gates round it. */
    if (size > 13 && size == 13 + ((size_t)bytes[0] << 24 | bytes[1] << 16 | bytes[2] << 8 | bytes[3])) {
        written = FRAME;
        place = at - 1;
        size_of = size;
    } else {
        written = size == 1 && bytes[0] == 1 ? GATE : NOTHING;
    }
    show();
    errno = error;
    return moved;
}

int ftruncate(int file, off_t length) {
    int said = syscall(SYS_ftruncate, file, length), error = errno;
    show();
    errno = error;
    return said;
}

int fdatasync(int file) {
    int is_met = what != NOTHING && written == what && count++ == wanted;
    written = NOTHING;
    if (!is_met) return syscall(SYS_fdatasync, file);
    char text[64];
    snprintf(text, sizeof text, "%lld %lld\n", place, size_of);
    tell(met, text);
    if (strcmp(how, "dies") == 0) syscall(SYS_kill, getpid(), SIGKILL);
    tell(limit, "4096");
    int said = syscall(SYS_fdatasync, file), error = errno;
    if (strcmp(how, "once") == 0) tell(limit, "0");
    errno = error;
    return said;
}
