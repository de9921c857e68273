// The device calls alone: so many turns of one write of a group's entries and a sync, the gate and a sync, and a
// write of the group's replies. Nothing is read, looked at or kept. Prints the seconds by the clock.
#include <chrono>
#include <cstdio>
#include <cstdlib>
#include <fcntl.h>
#include <string>
#include <unistd.h>
int main(int, char **word) {
    int file = open(word[1], O_CREAT | O_TRUNC | O_RDWR, 0600), out = open("/dev/null", O_WRONLY);
    long turns = atol(word[2]), group = atol(word[3]);
    std::string entries(63 * group, 0), replies(22 * group, 'a');
    off_t place = 0;
    auto begun = std::chrono::steady_clock::now();
    for (long turn = 0; turn < turns; turn++) {
        bool holds = pwrite(file, entries.data(), entries.size(), place + 1) > 0 && fdatasync(file) == 0
                     && pwrite(file, "\1", 1, place) == 1 && fdatasync(file) == 0
                     && write(out, replies.data(), replies.size()) > 0;
        if (!holds) return perror("loop"), 1;
        place += entries.size();
    }
    printf("%.6f\n", std::chrono::duration<double>(std::chrono::steady_clock::now() - begun).count());
}
