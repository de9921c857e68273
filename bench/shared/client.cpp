// The client of bench/serve and bench/peers. It keeps all links in one thread, so that it takes no more than one
// processor from the server. It reads a port, how many links and how many rows each, and then each row of each link
// with the replies that it is to have, and prints the seconds from the first row sent to the last reply read, and of
// the seconds from a row sent to its reply read the median and the 99th percentile. On a link a row is sent once the
// one before was replied to. With words it is the bare server: a port, how many links, how many bids in a row, and
// the moment that it tells.
#include <algorithm>
#include <arpa/inet.h>
#include <chrono>
#include <cstdio>
#include <cstdlib>
#include <cstring>
#include <fcntl.h>
#include <mutex>
#include <netinet/tcp.h>
#include <string>
#include <sys/epoll.h>
#include <thread>
#include <unistd.h>
#include <vector>
struct Row { std::string text, reply; };
using Clock = std::chrono::steady_clock;
struct Link { int socket; std::vector<Row> rows; size_t place = 0, said = 0; Clock::time_point sent; };
static std::vector<double> waits;
static double since(Clock::time_point begun) { return std::chrono::duration<double>(Clock::now() - begun).count(); }
static void must(bool holds, const char *what) {
    if (!holds) { perror(what); exit(1); }
}
static std::string given(size_t size) {
    std::string bytes(size, 0);
    must(fread(&bytes[0], 1, size, stdin) == size, "rows");
    return bytes;
}
static int connected(int port) {
    sockaddr_in address{};
    address.sin_family = AF_INET;
    address.sin_port = htons(port);
    address.sin_addr.s_addr = htonl(INADDR_LOOPBACK);
    for (int tries = 0; tries < 200; tries++) {
        int one = 1, link = socket(AF_INET, SOCK_STREAM, 0);
        if (connect(link, reinterpret_cast<sockaddr *>(&address), sizeof address) == 0) {
            setsockopt(link, IPPROTO_TCP, TCP_NODELAY, &one, sizeof one);
            return link;
        }
        close(link);
        usleep(20000);
    }
    must(false, "connect");
    return -1;
}
static void send_row(Link &link) {
    const std::string &text = link.rows[link.place].text;
    link.sent = Clock::now();
    for (size_t sent = 0; sent < text.size();) {
        ssize_t more = write(link.socket, text.data() + sent, text.size() - sent);
        must(more > 0, "write");
        sent += more;
    }
}
// Reads what came, and sends the next row where this one was replied to. True behind the last row.
static bool read_row(Link &link) {
    char piece[65536];
    const std::string &reply = link.rows[link.place].reply;
    ssize_t more = read(link.socket, piece, sizeof piece);
    must(more > 0 && link.said + more <= reply.size(), "read");
    must(memcmp(piece, reply.data() + link.said, more) == 0, "another reply");
    link.said += more;
    if (link.said < reply.size()) return false;
    waits.push_back(since(link.sent));
    link.place++;
    link.said = 0;
    if (link.place == link.rows.size()) return true;
    send_row(link);
    return false;
}
// Serves a link: a bid's body is the only text with a brace that closes.
static void serve_link(int link, int row, const char *moment, int file, std::mutex &turn, off_t &place) {
    char piece[65536];
    for (int number = 1; ; number += row) {
        for (int bodies = 0; bodies < row;) {
            ssize_t more = read(link, piece, sizeof piece);
            if (more <= 0) return;
            for (ssize_t each = 0; each < more; each++) bodies += piece[each] == '}';
        }
        {
            std::lock_guard<std::mutex> held(turn);
            std::string entries(63 * row, 0);
            must(pwrite(file, entries.data(), entries.size(), place) > 0 && fdatasync(file) == 0, "entries");
            place += entries.size();
            must(pwrite(file, "\1", 1, place) == 1 && fdatasync(file) == 0, "gate");
        }
        std::string said;
        for (int each = number; each < number + row; each++) {
            std::string body = "accepted " + std::to_string(each) + " " + moment + "\n";
            said += "HTTP/1.1 200 OK\r\nContent-Type: text/plain\r\nContent-Length: " + std::to_string(body.size());
            said += "\r\n\r\n" + body;
        }
        must(write(link, said.data(), said.size()) == ssize_t(said.size()), "reply");
    }
}
static int serve(int port, int links, int row, const char *moment) {
    int one = 1, listener = socket(AF_INET, SOCK_STREAM, 0);
    int file = open("bare", O_CREAT | O_RDWR, 0600);
    sockaddr_in address{};
    address.sin_family = AF_INET;
    address.sin_port = htons(port);
    address.sin_addr.s_addr = htonl(INADDR_LOOPBACK);
    must(bind(listener, reinterpret_cast<sockaddr *>(&address), sizeof address) == 0, "bind");
    must(listen(listener, 64) == 0, "listen");
    std::mutex turn;
    off_t place = 0;
    std::vector<std::thread> workers;
    for (int each = 0; each < links; each++) {
        int link = accept(listener, nullptr, nullptr);
        setsockopt(link, IPPROTO_TCP, TCP_NODELAY, &one, sizeof one);
        workers.emplace_back([=, &turn, &place] { serve_link(link, row, moment, file, turn, place); });
    }
    for (std::thread &worker : workers) worker.join();
    return 0;
}
int main(int words, char **word) {
    if (words > 1) return serve(atoi(word[1]), atoi(word[2]), atoi(word[3]), word[4]);
    int port;
    size_t count, rows;
    must(scanf("%d %zu %zu", &port, &count, &rows) == 3, "counts");
    std::vector<Link> links(count);
    for (Link &link : links) {
        for (size_t row = 0; row < rows; row++) {
            size_t text, reply;
            must(scanf("%zu %zu", &text, &reply) == 2 && getchar() == '\n', "sizes");
            std::string bytes = given(text + reply);
            link.rows.push_back({bytes.substr(0, text), bytes.substr(text)});
        }
        link.socket = connected(port);
    }
    int waiting = epoll_create1(0);
    size_t left = count;
    auto begun = Clock::now();
    for (Link &link : links) {
        epoll_event event{};
        event.events = EPOLLIN;
        event.data.ptr = &link;
        must(epoll_ctl(waiting, EPOLL_CTL_ADD, link.socket, &event) == 0, "epoll");
        send_row(link);
    }
    while (left > 0) {
        epoll_event events[64];
        int ready = epoll_wait(waiting, events, 64, -1);
        for (int each = 0; each < ready; each++) {
            Link &link = *static_cast<Link *>(events[each].data.ptr);
            if (!read_row(link)) continue;
            must(epoll_ctl(waiting, EPOLL_CTL_DEL, link.socket, nullptr) == 0, "epoll");
            left--;
        }
    }
    double seconds = since(begun);
    std::sort(waits.begin(), waits.end());
    printf("%.6f %.6f %.6f\n", seconds, waits[waits.size() / 2], waits[(waits.size() - 1) * 99 / 100]);
}
