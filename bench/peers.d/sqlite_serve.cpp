// A plain server of bids by HTTP over SQLite (database.hpp): 8 threads, each of which serves one link after another,
// and one mutex around the database. It ends behind so many links. Words: the database, the port, the links.
#include "database.hpp"
#include <arpa/inet.h>
#include <atomic>
#include <mutex>
#include <netinet/tcp.h>
#include <thread>
static std::string value_of(Text head, Text name) {
    size_t at = head.find(name);
    if (at == Text::npos) return "";
    at += name.size();
    return std::string(head.substr(at, head.find('\r', at) - at));
}
static void serve_link(int link, House &house, std::mutex &turn) {
    std::string held;
    char piece[65536];
    for (;;) {
        size_t head, size = 0;
        for (;;) {
            head = held.find("\r\n\r\n");
            if (head != std::string::npos) {
                size = atol(value_of(held, "Content-Length: ").c_str());
                if (held.size() >= head + 4 + size) break;
            }
            ssize_t more = read(link, piece, sizeof piece);
            if (more <= 0) return;
            held.append(piece, more);
        }
        std::string key = value_of(Text(held).substr(0, head + 2), "Auction-Key: "), body;
        {
            std::lock_guard<std::mutex> own(turn);
            body = house.reply(time(nullptr), key, Text(held).substr(head + 4, size));
        }
        held.erase(0, head + 4 + size);
        std::string said = body[0] == 'a' ? "HTTP/1.1 200 OK" : "HTTP/1.1 422 Unprocessable Content";
        said += "\r\nContent-Type: text/plain\r\nContent-Length: " + std::to_string(body.size()) + "\r\n\r\n" + body;
        if (write(link, said.data(), said.size()) != ssize_t(said.size())) return;
    }
}
int main(int, char **word) {
    House house(word[1]);
    std::mutex turn;
    std::atomic<int> left(atoi(word[3]));
    int one = 1, listener = socket(AF_INET, SOCK_STREAM, 0);
    sockaddr_in address{};
    address.sin_family = AF_INET;
    address.sin_port = htons(atoi(word[2]));
    address.sin_addr.s_addr = htonl(INADDR_LOOPBACK);
    must(bind(listener, reinterpret_cast<sockaddr *>(&address), sizeof address) == 0, "bind");
    must(listen(listener, 64) == 0, "listen");
    std::vector<std::thread> workers;
    for (int each = 0; each < 8; each++) {
        workers.emplace_back([&] {
            while (left-- > 0) {
                int link = accept(listener, nullptr, nullptr);
                setsockopt(link, IPPROTO_TCP, TCP_NODELAY, &one, sizeof one);
                serve_link(link, house, turn);
                close(link);
            }
        });
    }
    for (std::thread &worker : workers) worker.join();
}
