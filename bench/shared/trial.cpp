// The bids of `trial SEED COUNT` in std::map: in order of rate, bidder and number, an index by bidder and number,
// each bidder's sum; then what is bid at each rate, and the cut.
#include <cstdint>
#include <cstdio>
#include <cstdlib>
#include <map>
#include <tuple>
using u64 = uint64_t;
using u32 = uint32_t;
int main(int, char **argv) {
    u64 drawn = strtoull(argv[1], nullptr, 10), count = strtoull(argv[2], nullptr, 10);
    std::map<std::tuple<u32, u32, u64>, u64> book;
    std::map<std::pair<u32, u64>, u32> bids;
    std::map<u32, u64> sums;
    for (u64 number = 1; number <= count; number++) {
        drawn = 6364136223846793005ull * drawn + 1442695040888963407ull;
        u32 steps = 1000 + (drawn >> 33) % 101, bidder = number % 4096;
        u64 amount = 100 * (1 + (drawn >> 40) % 1000);
        book.emplace(std::make_tuple(steps, bidder, number), amount);
        bids.emplace(std::make_pair(bidder, number), steps);
        sums[bidder] += amount;
    }
    std::map<u32, u64> at;
    for (auto &line : book) at[std::get<0>(line.first)] += line.second;
    // Short of what is offered, the stop is the greatest rate, and all is awarded.
    u64 sought = 1000000000, below = 0, hundredths = 10000;
    u32 high = 0;
    for (auto &rate : at) {
        high = rate.first;
        if (below + rate.second >= sought) {
            hundredths = (10000 * (sought - below) + rate.second - 1) / rate.second;
            break;
        }
        below += rate.second;
    }
    printf("high %u.%03u\nallotted %lu.%02lu\n", high / 200, high % 200 * 5, hundredths / 100, hundredths % 100);
}
