// Runs a command and writes to a file: seconds by the clock, seconds of the processor, peak memory in KiB. It is
// small itself, since a child's peak counts what its parent held before it became the command.
#include <cstdio>
#include <sys/resource.h>
#include <sys/wait.h>
#include <time.h>
#include <unistd.h>
int main(int, char **word) {
    timespec begun, ended;
    rusage used;
    int status;
    clock_gettime(CLOCK_MONOTONIC, &begun);
    pid_t child = vfork();
    if (child == 0) {
        execvp(word[2], word + 2);
        _exit(127);
    }
    if (wait4(child, &status, 0, &used) != child || status != 0) return 1;
    clock_gettime(CLOCK_MONOTONIC, &ended);
    FILE *said = fopen(word[1], "w");
    if (!said) return 1;
    timeval user = used.ru_utime, system = used.ru_stime;
    double clock = ended.tv_sec - begun.tv_sec + (ended.tv_nsec - begun.tv_nsec) / 1e9;
    double processor = user.tv_sec + system.tv_sec + (user.tv_usec + system.tv_usec) / 1e6;
    fprintf(said, "%.6f %.6f %ld\n", clock, processor, used.ru_maxrss);
    return fclose(said);
}
