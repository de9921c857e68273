// SQLite by prepared statements, and the house in its tables: bids with the refusals of house.hpp, and accounts and
// pledges. Each accepted message is one transaction.
#pragma once
#include "lines.hpp"
#include <algorithm>
#include <sqlite3.h>
#include <tuple>
struct Database {
    sqlite3 *at = nullptr;
    explicit Database(const char *path, const char *pragmas) {
        must(sqlite3_open(path, &at) == SQLITE_OK, path);
        run(pragmas);
    }
    void run(const char *text) {
        char *told = nullptr;
        if (sqlite3_exec(at, text, nullptr, nullptr, &told) == SQLITE_OK) return;
        fprintf(stderr, "%s: %s\n", text, told);
        exit(1);
    }
    ~Database() { sqlite3_close_v2(at); }
};
struct Statement {
    Database &database;
    sqlite3_stmt *at = nullptr;
    Statement(Database &database, const char *text) : database(database) {
        must(sqlite3_prepare_v3(database.at, text, -1, SQLITE_PREPARE_PERSISTENT, &at, nullptr) == SQLITE_OK, text);
    }
    ~Statement() { sqlite3_finalize(at); }
    void bind(int place, Text text) { sqlite3_bind_text(at, place, text.data(), text.size(), SQLITE_STATIC); }
    void bind(int place, u64 number) { sqlite3_bind_int64(at, place, number); }
    // Whether a row is there. It is read by `number` until the next call.
    template <class... Values> bool row(const Values &...values) {
        sqlite3_reset(at);
        int place = 0;
        (bind(++place, values), ...);
        return step();
    }
    bool step() {
        int said = sqlite3_step(at);
        must(said == SQLITE_ROW || said == SQLITE_DONE, sqlite3_errmsg(database.at));
        if (said == SQLITE_DONE) sqlite3_reset(at);
        return said == SQLITE_ROW;
    }
    // Runs a statement without rows, and tells how many rows it changed.
    template <class... Values> int change(const Values &...values) {
        must(!row(values...), "a row");
        return sqlite3_changes(database.at);
    }
    u64 number(int column) { return sqlite3_column_int64(at, column); }
    Text text(int column) {
        auto bytes = reinterpret_cast<const char *>(sqlite3_column_text(at, column));
        return {bytes, size_t(sqlite3_column_bytes(at, column))};
    }
};
// Bids as `rows` and `run` keep them.
inline const char *const DURABLE = "PRAGMA journal_mode = WAL; PRAGMA synchronous = FULL;";
inline const char *const TABLES = R"(
CREATE TABLE IF NOT EXISTS submitters (key TEXT PRIMARY KEY, name TEXT UNIQUE) WITHOUT ROWID;
CREATE TABLE IF NOT EXISTS bidders (name TEXT PRIMARY KEY, submitter TEXT) WITHOUT ROWID;
CREATE TABLE IF NOT EXISTS auctions (name TEXT PRIMARY KEY, cusip TEXT, offering INTEGER, minimum INTEGER,
    threshold INTEGER, closing INTEGER, issue INTEGER, maturity INTEGER, published INTEGER DEFAULT 0,
    settled INTEGER DEFAULT 0) WITHOUT ROWID;
CREATE TABLE IF NOT EXISTS entries (submitter TEXT, number INTEGER, moment INTEGER, body BLOB,
    PRIMARY KEY (submitter, number)) WITHOUT ROWID;
CREATE TABLE IF NOT EXISTS bids (auction TEXT, steps INTEGER, bidder TEXT, number INTEGER, amount INTEGER,
    PRIMARY KEY (auction, steps, bidder, number)) WITHOUT ROWID;
CREATE TABLE IF NOT EXISTS sums (auction TEXT, bidder TEXT, amount INTEGER, count INTEGER,
    PRIMARY KEY (auction, bidder)) WITHOUT ROWID;
CREATE TABLE IF NOT EXISTS holdings (holder TEXT, cusip TEXT, held INTEGER, pledged INTEGER DEFAULT 0,
    PRIMARY KEY (holder, cusip), CHECK (pledged BETWEEN 0 AND held)) WITHOUT ROWID;
CREATE TABLE IF NOT EXISTS pledges (holder TEXT, number INTEGER, pledgee TEXT, cusip TEXT, remaining INTEGER,
    PRIMARY KEY (holder, number)) WITHOUT ROWID;
CREATE TABLE IF NOT EXISTS redeemed (cusip TEXT PRIMARY KEY, paid INTEGER) WITHOUT ROWID;
)";
struct House {
    Database database;
    u64 running = 0;
    std::string sender, tail;
    explicit House(const char *path) : database(path, DURABLE) {
        database.run(TABLES);
        Statement last(database, "SELECT max(moment) FROM entries");
        if (last.row()) running = last.number(0);
    }
    Statement &of(const char *text) {
        for (auto &[known, statement] : statements)
            if (known == text) return *statement;
        return *statements.emplace_back(text, new Statement(database, text)).second;
    }
    // No statement stays open behind a reply: the log couldn't begin anew under a reader.
    std::string reply(u64 moment, Text key, Text json) {
        std::string said = replied(moment, key, json);
        for (auto &known : statements)
            if (sqlite3_stmt_busy(known.second->at)) sqlite3_reset(known.second->at);
        return said;
    }
    std::string replied(u64 moment, Text key, Text json) {
        Request request;
        sender = "operator";
        if (key != "op:root") {
            Statement &found = of("SELECT name FROM submitters WHERE key = ?");
            if (!found.row(key)) return refused(1);
            sender = found.text(0);
        }
        if (!request.read(json)) return refused(6);
        if (request.is_query()) return reading(request);
        tail.clear();
        request.put(tail);
        Statement &kept = of("SELECT moment, body FROM entries WHERE submitter = ? AND number = ?");
        if (kept.row(Text(sender), request.number))
            return kept.text(1) == tail ? accepted(request.number, kept.number(0)) : refused(3);
        moment = std::max(moment, running);
        if (request.kind->is_operators != (sender == "operator")) return refused(2);
        of("BEGIN IMMEDIATE").change();
        if (int refusal = done(request, moment)) {
            of("ROLLBACK").change();
            return refused(refusal);
        }
        of("INSERT INTO entries VALUES (?, ?, ?, ?)").change(Text(sender), request.number, moment, Text(tail));
        of("COMMIT").change();
        running = moment;
        return accepted(request.number, moment);
    }
    // Changes the tables, or gives the first refusal.
    int done(const Request &request, u64 moment) {
        const Text *text = request.text;
        const u64 *value = request.value;
        switch (request.kind->tag) {
        case 0x01: return of("INSERT OR IGNORE INTO submitters VALUES (?2, ?1)").change(text[0], text[1]) ? 0 : 50;
        case 0x02:
            if (!of("SELECT 1 FROM submitters WHERE name = ?").row(text[1])) return 71;
            return of("INSERT OR IGNORE INTO bidders VALUES (?, ?)").change(text[0], text[1]) ? 0 : 50;
        case 0x04:
            return of("INSERT OR IGNORE INTO auctions VALUES (?, ?, ?, ?, ?, ?, ?, ?, 0, 0)")
                .change(text[0], text[1], value[2], value[3], value[6], eastern(value[7], value[9]), value[10],
                        value[11]) ? 0 : 40;
        case 0x05: return bid(text[0], text[1], value[2], value[3], request.number, moment);
        case 0x09: return of("UPDATE auctions SET published = 1 WHERE name = ? AND NOT published AND closing <= ?")
                       .change(text[0], moment) ? 0 : 60;
        case 0x0a: return settle(text[0], moment);
        case 0x0b: {
            if (int refusal = moved(text[0], text[1], value[2], moment)) return refusal;
            if (!of("UPDATE holdings SET held = held - ?3 WHERE holder = ?1 AND cusip = ?2 AND held - pledged >= ?3")
                     .change(Text(sender), text[0], value[2])) return 73;
            return credit(text[1], text[0], value[2]);
        }
        case 0x0c:
            if (int refusal = moved(text[0], text[1], value[2], moment)) return refusal;
            if (!of("UPDATE holdings SET pledged = pledged + ?3 "
                    "WHERE holder = ?1 AND cusip = ?2 AND held - pledged >= ?3")
                     .change(Text(sender), text[0], value[2])) return 73;
            of("INSERT INTO pledges VALUES (?, ?, ?, ?, ?)")
                .change(Text(sender), request.number, text[1], text[0], value[2]);
            return 0;
        case 0x0d: {
            Statement &found = of("SELECT pledgee, cusip, remaining FROM pledges WHERE holder = ? AND number = ?");
            if (value[2] == 0 || value[2] % 100) return 13;
            if (!found.row(text[0], value[1])) return 78;
            if (found.text(0) != sender) return 79;
            if (found.number(2) < value[2]) return 80;
            of("UPDATE holdings SET pledged = pledged - ?3 WHERE holder = ?1 AND cusip = ?2")
                .change(text[0], found.text(1), value[2]);
            of("UPDATE pledges SET remaining = remaining - ?3 WHERE holder = ?1 AND number = ?2")
                .change(text[0], value[1], value[2]);
            return 0;
        }
        case 0x0e: {
            Statement &held = of("SELECT total(held) FROM holdings WHERE cusip = ?");
            if (of("SELECT 1 FROM auctions WHERE cusip = ? AND NOT settled").row(text[0])) return 74;
            if (of("SELECT 1 FROM auctions WHERE cusip = ? AND maturity > ?").row(text[0], moment / 86400)) return 81;
            held.row(text[0]);
            u64 paid = held.number(0);
            sqlite3_reset(held.at);
            return of("INSERT OR IGNORE INTO redeemed VALUES (?, ?)").change(text[0], paid) ? 0 : 82;
        }
        }
        return 2;
    }
    int bid(Text auction, Text bidder, u64 steps, u64 amount, u64 number, u64 moment) {
        Statement &terms = of("SELECT minimum, threshold, closing, maturity - issue FROM auctions WHERE name = ?");
        if (!terms.row(auction)) return 10;
        Statement &enrolled = of("SELECT submitter FROM bidders WHERE name = ?");
        if (!enrolled.row(bidder) || enrolled.text(0) != sender) return 11;
        if (amount < terms.number(0)) return 12;
        if (amount == 0 || amount % 100) return 13;
        if (125 * steps * terms.number(3) >= 900'000'000) return 16;
        if (moment >= terms.number(2)) return 17;
        Statement &own = of("SELECT amount, count FROM sums WHERE auction = ? AND bidder = ?");
        bool is_known = own.row(auction, bidder);
        if ((is_known ? own.number(0) : 0) + amount >= terms.number(1)) return 20;
        if (is_known && own.number(1) == 1000) return 21;
        of("INSERT INTO bids VALUES (?, ?, ?, ?, ?)").change(auction, steps, bidder, number, amount);
        of("INSERT INTO sums VALUES (?, ?, ?, 1) "
           "ON CONFLICT DO UPDATE SET amount = amount + excluded.amount, count = count + 1")
            .change(auction, bidder, amount);
        return 0;
    }
    // What is bid has to be within the offering, as in the scripts of the benchmarks: then each bid is awarded whole.
    int settle(Text auction, u64 moment) {
        Statement &sold = of("SELECT (SELECT total(amount) FROM sums WHERE auction = name) <= offering FROM auctions "
                             "WHERE name = ? AND published AND NOT settled AND issue <= ?");
        if (!sold.row(auction, moment / 86400)) return 63;
        must(sold.number(0), "more is bid than is offered");
        of("INSERT INTO holdings SELECT submitter, cusip, sum(amount), 0 FROM sums "
           "JOIN bidders ON bidders.name = bidder JOIN auctions ON auctions.name = auction "
           "WHERE auction = ? GROUP BY submitter ON CONFLICT DO UPDATE SET held = held + excluded.held").change(auction);
        of("UPDATE auctions SET settled = 1 WHERE name = ?").change(auction);
        return 0;
    }
    int moved(Text cusip, Text to, u64 amount, u64 moment) {
        Statement &bill = of("SELECT maturity FROM auctions WHERE cusip = ?");
        if (!bill.row(cusip)) return 70;
        if (!of("SELECT 1 FROM submitters WHERE name = ?").row(to)) return 71;
        if (amount == 0 || amount % 100) return 13;
        if (to == sender) return 76;
        if (of("SELECT 1 FROM redeemed WHERE cusip = ?").row(cusip)) return 82;
        return bill.number(0) <= moment / 86400 ? 77 : 0;
    }
    int credit(Text holder, Text cusip, u64 amount) {
        of("INSERT INTO holdings VALUES (?, ?, ?, 0) ON CONFLICT DO UPDATE SET held = held + excluded.held")
            .change(holder, cusip, amount);
        return 0;
    }
    // In place of the texts of the host: the figures that are compared.
    std::string reading(const Request &request) {
        bool is_results = request.kind->name == Text("results");
        Statement &told = is_results ? of("SELECT total(amount), max(steps) FROM bids WHERE auction = ?")
                                     : of("SELECT paid FROM redeemed WHERE cusip = ?");
        must(told.row(request.text[0]), "nothing is told");
        std::string sum = std::to_string(told.number(0));
        return is_results ? "competitive " + sum + "\nhigh " + rate_text(told.number(1)) + "\n" : "total " + sum + "\n";
    }

private:
    std::vector<std::pair<const char *, Statement *>> statements;
};
