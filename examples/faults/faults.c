/* Calls of the system that fail, for the program that this library is loaded into before the C library (LD_PRELOAD).

   FAULT is `CALLS FIRST LAST HOW ERROR`. Of the calls of this kind those numbered FIRST to LAST, counted from 0, are
   answered with the number ERROR, and HOW tells what they do before that: `none` nothing, `half` the first half of what
   they are to write, `all` all of it. `dies` has the process killed in their place, and `dies-half` and `dies-behind`
   behind that much. `short` moves one byte, and is no error. An `accept` fails once a link is there.

   device           pread, pwrite, fdatasync, fsync, ftruncate, statx
   stdin, stdout    read of 0, which gives at most 100 bytes then, and write of 1
   memory           malloc, calloc and realloc, of the program's own code
   recv, send, accept, thread, clock

   FAULT_MET is a file that is made once a call was failed. CLOCK is a file with seconds that are added to the system's
   clock; it is read at each reading of the clock. */
#define _GNU_SOURCE
#include <dlfcn.h>
#include <errno.h>
#include <fcntl.h>
#include <link.h>
#include <poll.h>
#include <pthread.h>
#include <signal.h>
#include <stdatomic.h>
#include <stdio.h>
#include <stdlib.h>
#include <string.h>
#include <sys/socket.h>
#include <sys/stat.h>
#include <sys/syscall.h>
#include <sys/uio.h>
#include <time.h>
#include <unistd.h>

enum how { NONE, HALF, ALL, SHORT };
static char kind[16], how_word[16];
static enum how how;
static int error, dies;
static long first, last;
static const char *met, *clock_file;
static atomic_long calls;
static uintptr_t code_from, code_to;

/* The first object that is listed is the program. */
static int look(struct dl_phdr_info *info, size_t size, void *none) {
    for (int at = 0; at < info->dlpi_phnum; at++) {
        const ElfW(Phdr) *part = &info->dlpi_phdr[at];
        if (part->p_type == PT_LOAD && part->p_flags & PF_X) {
            code_from = info->dlpi_addr + part->p_vaddr;
            code_to = code_from + part->p_memsz;
        }
    }
    return 1;
}

__attribute__((constructor)) static void begin(void) {
    const char *said = getenv("FAULT");
    met = getenv("FAULT_MET");
    clock_file = getenv("CLOCK");
    dl_iterate_phdr(look, NULL);
    if (!said) return;
    char word[16];
    if (sscanf(said, "%15s %ld %ld %15s %d", word, &first, &last, how_word, &error) != 5) _exit(99);
    dies = strncmp(how_word, "dies", 4) == 0;
    how = strstr(how_word, "half") ? HALF : strcmp(how_word, "all") == 0 || strstr(how_word, "behind") ? ALL : NONE;
    if (strcmp(how_word, "short") == 0) how = SHORT;
    memcpy(kind, word, sizeof kind);
}

/* Whether the call that is made now is one that fails. */
static int fails(const char *what) {
    if (strcmp(kind, what) != 0) return 0;
    long at = atomic_fetch_add(&calls, 1);
    if (at < first || at > last) return 0;
    if (met) close(syscall(SYS_openat, AT_FDCWD, met, O_CREAT | O_WRONLY, 0600));
    return 1;
}

static long ended(void) {
    if (dies) syscall(SYS_kill, getpid(), SIGKILL);
    errno = error;
    return -1;
}

/* How many of so many bytes are moved by a call that fails. */
static size_t moved(size_t size) {
    return how == ALL ? size : how == HALF ? size / 2 : 0;
}

ssize_t pwrite(int file, const void *from, size_t size, off_t place) {
    if (!fails("device")) return syscall(SYS_pwrite64, file, from, size, place);
    if (how == SHORT) return syscall(SYS_pwrite64, file, from, size ? 1 : 0, place);
    if (moved(size)) syscall(SYS_pwrite64, file, from, moved(size), place);
    return ended();
}

ssize_t pread(int file, void *into, size_t size, off_t place) {
    if (!fails("device")) return syscall(SYS_pread64, file, into, size, place);
    if (how == SHORT) return syscall(SYS_pread64, file, into, size ? 1 : 0, place);
    if (moved(size)) syscall(SYS_pread64, file, into, moved(size), place);
    return ended();
}

int fdatasync(int file) {
    if (!fails("device") || how == SHORT) return syscall(SYS_fdatasync, file);
    if (how == ALL) syscall(SYS_fdatasync, file);
    return ended();
}

int fsync(int file) {
    if (!fails("device") || how == SHORT) return syscall(SYS_fsync, file);
    if (how == ALL) syscall(SYS_fsync, file);
    return ended();
}

int ftruncate(int file, off_t length) {
    if (!fails("device") || how == SHORT) return syscall(SYS_ftruncate, file, length);
    if (how == ALL) syscall(SYS_ftruncate, file, length);
    return ended();
}

int statx(int folder, const char *path, int flags, unsigned mask, struct statx *into) {
    if (!fails("device") || how == SHORT) return syscall(SYS_statx, folder, path, flags, mask, into);
    return ended();
}

ssize_t read(int file, void *into, size_t size) {
    if (file == 0 && strcmp(kind, "stdin") == 0 && size > 100) size = 100;
    if (file != 0 || !fails("stdin")) return syscall(SYS_read, file, into, size);
    return how == SHORT ? syscall(SYS_read, file, into, size ? 1 : 0) : ended();
}

ssize_t write(int file, const void *from, size_t size) {
    if (file != 1 || !fails("stdout")) return syscall(SYS_write, file, from, size);
    if (how == SHORT) return syscall(SYS_write, file, from, size ? 1 : 0);
    if (moved(size)) syscall(SYS_write, file, from, moved(size));
    return ended();
}

ssize_t recv(int link, void *into, size_t size, int flags) {
    if (!fails("recv")) return syscall(SYS_recvfrom, link, into, size, flags, NULL, NULL);
    return how == SHORT ? syscall(SYS_recvfrom, link, into, size ? 1 : 0, flags, NULL, NULL) : ended();
}

ssize_t send(int link, const void *from, size_t size, int flags) {
    if (!fails("send")) return syscall(SYS_sendto, link, from, size, flags, NULL, 0);
    if (how == SHORT) return syscall(SYS_sendto, link, from, size ? 1 : 0, flags, NULL, 0);
    if (moved(size)) syscall(SYS_sendto, link, from, moved(size), flags, NULL, 0);
    return ended();
}

int accept4(int listener, struct sockaddr *address, socklen_t *length, int flags) {
    struct pollfd waits = {listener, POLLIN, 0};
    while (strcmp(kind, "accept") == 0 && poll(&waits, 1, -1) < 1) {
    }
    if (!fails("accept")) return syscall(SYS_accept4, listener, address, length, flags);
    return ended();
}

int clock_gettime(clockid_t which, struct timespec *time) {
    if (which == CLOCK_REALTIME && fails("clock")) return ended();
    int said = syscall(SYS_clock_gettime, which, time);
    if (which == CLOCK_REALTIME && clock_file) {
        char text[32] = "";
        int file = syscall(SYS_openat, AT_FDCWD, clock_file, O_RDONLY, 0);
        if (file >= 0) {
            if (syscall(SYS_read, file, text, sizeof text - 1) > 0) time->tv_sec += atol(text);
            syscall(SYS_close, file);
        }
    }
    return said;
}

int pthread_create(pthread_t *thread, const pthread_attr_t *attributes, void *(*work)(void *), void *given) {
    static int (*made)(pthread_t *, const pthread_attr_t *, void *(*)(void *), void *);
    if (!made) made = dlsym(RTLD_NEXT, "pthread_create");
    return fails("thread") ? error : made(thread, attributes, work, given);
}

extern void *__libc_malloc(size_t), *__libc_calloc(size_t, size_t), *__libc_realloc(void *, size_t);

static int is_refused(void *caller) {
    uintptr_t from = (uintptr_t)caller;
    if (from < code_from || from >= code_to || !fails("memory")) return 0;
    if (dies) syscall(SYS_kill, getpid(), SIGKILL);
    errno = ENOMEM;
    return 1;
}

void *malloc(size_t size) {
    return is_refused(__builtin_return_address(0)) ? NULL : __libc_malloc(size);
}

void *calloc(size_t count, size_t size) {
    return is_refused(__builtin_return_address(0)) ? NULL : __libc_calloc(count, size);
}

void *realloc(void *block, size_t size) {
    return is_refused(__builtin_return_address(0)) ? NULL : __libc_realloc(block, size);
}
