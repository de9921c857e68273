// A house of bids in the tables of the standard library: names by hashing, the rest in std::map. A bid meets the
// refusals of docs/FORMATS.md in their order; kinds beside register, enrol, announce, bid and publish are left out.
#pragma once
#include "cut.hpp"
#include "lines.hpp"
#include <map>
#include <unordered_map>
struct Hash {
    using is_transparent = void;
    size_t operator()(Text text) const { return std::hash<Text>()(text); }
};
using Names = std::unordered_map<std::string, u32, Hash, std::equal_to<>>;
struct Auction {
    u64 offering, minimum, floor, threshold, closing, days;
    bool is_published = false;
    struct Line {
        u32 steps, bidder, submitter;
        u64 number;
        auto operator<=>(const Line &) const = default;
    };
    std::map<Line, u64> book;
    struct Own { u64 sum = 0; u32 count = 0; };
    std::map<u32, Own> own;
};
struct House {
    enum { OPERATOR = 0, MOST_BIDS = 1000, MOST_MESSAGES = 1 << 20 };
    struct Entry { u64 moment; std::string tail; };
    struct Bid { u32 auction, bidder, steps; u64 amount; };
    Names submitters{{"operator", OPERATOR}}, keys, bidders, auctions;
    std::vector<std::string> submitter_names{"operator"};
    std::vector<u64> sent{0};
    std::vector<u32> submitter_of;
    std::vector<Auction> auction;
    std::map<std::pair<u32, u64>, Entry> entries;
    std::map<std::pair<u32, u64>, Bid> bids;
    u64 running = 0;

    static bool find(const Names &names, Text name, u32 &number) {
        auto found = names.find(name);
        if (found == names.end()) return false;
        number = found->second;
        return true;
    }
    // The first refusal of a message that nobody sent before; 0 where there is none.
    int refusal(u32 sender, const Request &request, u64 moment) {
        if (request.kind->is_operators != (sender == OPERATOR)) return 2;
        if (sent[sender] == MOST_MESSAGES) return 4;
        u32 it = 0, other = 0;
        const Text *text = request.text;
        switch (request.kind->tag) {
        case 0x01: return find(submitters, text[0], it) || find(keys, text[1], it) ? 50 : 0;
        case 0x02:
            if (find(bidders, text[0], it)) return submitter_names[submitter_of[it]] == text[1] ? 50 : 52;
            return find(submitters, text[1], other) ? 0 : 71;
        case 0x04: return find(auctions, text[0], it) ? 40 : 0;
        case 0x05: return bid_refusal(sender, request, moment);
        case 0x09:
            if (!find(auctions, text[0], it)) return 10;
            return moment < auction[it].closing ? 60 : auction[it].is_published ? 61 : 0;
        default: return 2;
        }
    }
    int bid_refusal(u32 sender, const Request &request, u64 moment) {
        u32 it = 0, bidder = 0;
        u64 steps = request.value[2], amount = request.value[3];
        if (!find(auctions, request.text[0], it)) return 10;
        if (!find(bidders, request.text[1], bidder) || submitter_of[bidder] != sender) return 11;
        Auction &at = auction[it];
        if (amount < at.minimum) return 12;
        if (amount == 0 || amount % 100) return 13;
        if (125 * steps * at.days >= 900'000'000) return 16;
        if (moment >= at.closing) return 17;
        auto own = at.own.find(bidder);
        if (own == at.own.end()) return amount >= at.threshold ? 20 : 0;
        if (own->second.sum + amount >= at.threshold) return 20;
        return own->second.count == MOST_BIDS ? 21 : 0;
    }
    void apply(u32 sender, const Request &request, u64 moment, std::string tail) {
        running = moment;
        sent[sender]++;
        entries.emplace(std::pair(sender, request.number), Entry{moment, std::move(tail)});
        const Text *text = request.text;
        const u64 *value = request.value;
        u32 it = 0, bidder = 0;
        switch (request.kind->tag) {
        case 0x01:
            keys.emplace(text[1], submitters.emplace(text[0], submitters.size()).first->second);
            submitter_names.emplace_back(text[0]);
            sent.push_back(0);
            break;
        case 0x02:
            bidders.emplace(text[0], bidders.size());
            find(submitters, text[1], it);
            submitter_of.push_back(it);
            break;
        case 0x04:
            auctions.emplace(text[0], auctions.size());
            auction.push_back({value[2], value[3], value[5], value[6], eastern(value[7], value[9]),
                               value[11] - value[10]});
            break;
        case 0x05: {
            find(auctions, text[0], it);
            find(bidders, text[1], bidder);
            u32 steps = value[2];
            auction[it].book.emplace(Auction::Line{steps, bidder, sender, request.number}, value[3]);
            Auction::Own &own = auction[it].own[bidder];
            own.sum += value[3], own.count++;
            bids.emplace(std::pair(sender, request.number), Bid{it, bidder, steps, value[3]});
            break;
        }
        case 0x09:
            find(auctions, text[0], it);
            auction[it].is_published = true;
        }
    }
    // Number of bids, what is awarded, the stop-out rate and the percentage.
    std::string results(Text name) {
        u32 it;
        if (!find(auctions, name, it)) return refused(10);
        const Auction &at = auction[it];
        if (!at.is_published) return refused(62);
        std::vector<u64> limits(bidders.size(), at.offering * 35 / 100 / 100 * 100);
        Stop stop = cut([&](auto on_line) {
            for (auto &[line, amount] : at.book)
                if (!on_line(line.steps, line.bidder, amount)) break;
        }, at.offering, 0, at.floor, limits);
        char text[200];
        snprintf(text, sizeof text, "bids %zu\ncompetitive %lu\nhigh %s\nallotted %lu.%02lu\n", at.book.size(),
                 stop.recognised, rate_text(stop.steps).c_str(), stop.hundredths / 100, stop.hundredths % 100);
        return text;
    }
};
