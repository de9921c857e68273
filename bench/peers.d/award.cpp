// Reads a book of `award`, numbers its bidders by hashing, sorts its competitive lines, and prints stop-out rate,
// percentage and price.
#include "cut.hpp"
#include "lines.hpp"
#include <unordered_map>
struct Line { u32 steps, bidder; u64 amount; };
struct Bidder { char kind = 0; u64 position = 0; };
static std::string all_of_input() {
    std::string text;
    for (size_t size = 0;;) {
        text.resize(size + (1 << 20));
        ssize_t more = read(0, &text[size], 1 << 20);
        must(more >= 0, "read");
        text.resize(size += more);
        if (more == 0) return text;
    }
}
static u64 amount(Text word) {
    u64 value;
    must(whole(word, value) && value >= 100 && value <= 1'000'000'000'000 && value % 100 == 0, "amount");
    return value;
}
int main() {
    std::string text = all_of_input();
    std::unordered_map<Text, u32> numbers;
    std::vector<Bidder> bidders;
    std::vector<Line> lines;
    u64 offering = 0, floor = 0, days = 0, noncompetitive = 0;
    bool ended = false;
    for (size_t begun = 0; !ended;) {
        size_t end = text.find('\n', begun), count = 0;
        must(end != std::string::npos, "a line end is missing");
        Text words[5], line(text.data() + begun, end - begun);
        for (size_t from = 0, to = 0; to != Text::npos && count < 5; from = to + 1) {
            to = line.find(' ', from);
            words[count++] = line.substr(from, to - from);
        }
        begun = end + 1;
        if (words[0] == "end") { ended = count == 1; continue; }
        if (words[0] == "offering") {
            must(count == 4 && offering == 0 && whole(words[3], days), "offering");
            offering = amount(words[1]), floor = amount(words[2]);
            continue;
        }
        must(offering > 0 && words[0].size() == 1 && is_name(words[1]), "line");
        auto [found, is_new] = numbers.try_emplace(words[1], numbers.size());
        if (is_new) bidders.emplace_back();
        Bidder &bidder = bidders[found->second];
        char kind = words[0][0];
        if (kind == 'p') {
            must(count == 3, "position");
            bidder.position = words[2][0] == '-' ? 0 : strtoull(words[2].data(), nullptr, 10);
            continue;
        }
        must(count == (kind == 'c' ? 4 : 3) && (bidder.kind == 0 || bidder.kind == kind), "bid");
        bidder.kind = kind;
        if (kind == 'n') { noncompetitive += amount(words[2]); continue; }
        u64 steps;
        must(kind == 'c' && rate(words[2], steps) && 125 * steps * days < 900'000'000, "rate");
        lines.push_back({u32(steps), found->second, amount(words[3])});
    }
    std::sort(lines.begin(), lines.end(), [](const Line &one, const Line &other) {
        return one.steps != other.steps ? one.steps < other.steps : one.bidder < other.bidder;
    });
    std::vector<u64> limits;
    u64 cap = offering * 35 / 100;
    for (Bidder &each : bidders) limits.push_back((cap > each.position ? cap - each.position : 0) / 100 * 100);
    Stop stop = cut([&](auto on_line) {
        for (Line &line : lines)
            if (!on_line(line.steps, line.bidder, line.amount)) break;
    }, offering, noncompetitive, floor, limits);
    if (!stop.is_found) return puts("no awards"), 0;
    u64 millionths = price(stop.steps, days);
    printf("high %s\nallotted %lu.%02lu\nprice %lu.%06lu\n", rate_text(stop.steps).c_str(), stop.hundredths / 100,
           stop.hundredths % 100, millionths / 1'000'000, millionths % 1'000'000);
}
