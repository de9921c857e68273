// The cut of an auction (docs/RULES.md, "Awards") over lines that stand in order of rate and bidder.
#pragma once
#include <algorithm>
#include <cstdint>
#include <cstdio>
#include <vector>
struct Stop {
    bool is_found = false;
    uint64_t steps = 0, hundredths = 10000, recognised = 0, at = 0, below = 0;
};
// `each` calls what it is given with steps, bidder and amount of each line; limits has each bidder's limit.
template <class Each>
Stop cut(Each each, uint64_t offering, uint64_t noncompetitive, uint64_t floor, const std::vector<uint64_t> &limits) {
    uint64_t cap = offering * 35 / 100;
    uint64_t sought = std::max(offering > noncompetitive ? offering - noncompetitive : 0, floor);
    std::vector<uint64_t> used(limits.size());
    Stop stop;
    if (limits.empty()) return stop;
    uint64_t steps = 0, bidder = 0, bid = 0, at = 0, below = 0;
    bool is_full = false;
    auto close_bidder = [&] {
        uint64_t more = std::min({bid, cap, limits[bidder] - used[bidder]});
        used[bidder] += more, at += more, bid = 0;
    };
    auto close_rate = [&] {
        if (at > 0 && !is_full) {
            stop = {true, steps, 10000, below + at, at, below};
            is_full = below + at >= sought;
            if (is_full) stop.hundredths = (10000 * (sought - below) + at - 1) / at;
        }
        below += at, at = 0;
    };
    each([&](uint64_t of_steps, uint64_t of_bidder, uint64_t amount) {
        if (of_steps != steps || of_bidder != bidder) close_bidder();
        if (of_steps != steps) close_rate();
        steps = of_steps, bidder = of_bidder, bid += amount;
        return !is_full;
    });
    if (!is_full) close_bidder(), close_rate();
    return stop;
}
// The price per 100 in millionths, a half raised.
inline uint64_t price(uint64_t steps, uint64_t days) { return (2 * (900'000'000 - 125 * steps * days) + 9) / 18; }
