/* Has a file mapped, and all its pages in use: `maps FILE SHARED`. SHARED is the file by which syncs.c asks it to look at
   all pages again. It prints a line once it has seen them for the first time, and ends when it is killed. */
#define _GNU_SOURCE
#include <fcntl.h>
#include <setjmp.h>
#include <signal.h>
#include <stdatomic.h>
#include <stdio.h>
#include <sys/mman.h>
#include <sys/stat.h>
#include <time.h>
#include <unistd.h>

enum { ROOM = 1 << 24, PAGE = 4096 };
static struct shared { atomic_long asked, seen; } *shared;
static sigjmp_buf again;

/* The file was cut while it was looked at. */
static void is_cut(int signal) {
    siglongjmp(again, signal);
}

static int sum(const volatile unsigned char *bytes, off_t size) {
    int sum = 0;
    for (off_t at = 0; at < size; at += PAGE) sum += bytes[at];
    return sum;
}

int main(int count, char **words) {
    if (count != 3) return 2;
    int file = open(words[1], O_RDONLY), with = open(words[2], O_RDWR);
    const volatile unsigned char *bytes = mmap(NULL, ROOM, PROT_READ, MAP_SHARED, file, 0);
    shared = mmap(NULL, sizeof *shared, PROT_READ | PROT_WRITE, MAP_SHARED, with, 0);
    if (bytes == MAP_FAILED || shared == MAP_FAILED) return 1;
    signal(SIGBUS, is_cut);
    for (int rounds = 0;; rounds++) {
        long asked = atomic_load(&shared->asked);
        struct stat found;
        sigsetjmp(again, 1);
        if (fstat(file, &found)) return 1;
        sum(bytes, found.st_size < ROOM ? found.st_size : ROOM);
        atomic_store(&shared->seen, asked);
        if (rounds == 0) {
            puts("mapped");
            fflush(stdout);
        }
        struct timespec pause = {0, 50000};
        while (atomic_load(&shared->asked) == asked) nanosleep(&pause, NULL);
    }
}
