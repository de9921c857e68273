// Puts a table of bids (number, auction, bidder, rate, amount) into SQLite, with an index in order of rate: `put FILE
// GROUP`, so many rows a transaction in the mode WAL, or all in one transaction where GROUP is 0. `sum FILE` opens it
// and adds up. Both print how many rows there are, their sum and their greatest rate; `put` prints first the seconds
// by the clock of the rows.
#include "database.hpp"
#include <chrono>
static void put(Database &database, u64 group) {
    database.run("CREATE TABLE bids (number INTEGER PRIMARY KEY, auction TEXT, bidder TEXT, steps INTEGER, "
                 "amount INTEGER); CREATE INDEX by_rate ON bids (auction, steps, bidder, number);");
    Statement add(database, "INSERT INTO bids VALUES (?, ?, ?, ?, ?)");
    char line[256];
    must(fgets(line, sizeof line, stdin), "header");
    auto begun = std::chrono::steady_clock::now();
    for (u64 row = 0; fgets(line, sizeof line, stdin); row++) {
        if (group ? row % group == 0 : row == 0) database.run(row ? "COMMIT; BEGIN" : "BEGIN");
        Text rest(line), words[5];
        size_t count = 0;
        rest = rest.substr(0, rest.find('\n'));
        for (size_t end = 0; end != Text::npos && count < 5; rest = rest.substr(end == Text::npos ? 0 : end + 1))
            words[count++] = rest.substr(0, end = rest.find(','));
        u64 number, steps, amount;
        must(count == 5 && whole(words[0], number) && is_name(words[1]) && is_name(words[2]) && rate(words[3], steps)
                 && whole(words[4], amount) && amount % 100 == 0, "row");
        add.change(number, words[1], words[2], steps, amount);
    }
    database.run("COMMIT");
    printf("%.6f\n", std::chrono::duration<double>(std::chrono::steady_clock::now() - begun).count());
}
int main(int count, char **word) {
    bool is_put = Text(word[1]) == "put";
    u64 group = count > 3 ? strtoull(word[3], nullptr, 10) : 0;
    Database database(word[2], group ? DURABLE : "PRAGMA synchronous = FULL;");
    if (is_put) put(database, group);
    Statement told(database, "SELECT count(*), sum(amount), max(steps) FROM bids");
    must(told.row(), "sum");
    printf("%lu %lu %lu\n", told.number(0), told.number(1), told.number(2));
}
