// Reads a journal in pieces, rebuilds the tables (house.hpp) with every check that a message meets, and prints the
// results.
#include "house.hpp"
int main(int, char **word) {
    FILE *journal = fopen(word[1], "rb");
    must(journal, word[1]);
    setvbuf(journal, nullptr, _IOFBF, 1 << 16);
    char head[17], frame[12], payload[32768];
    must(fread(head, 1, 17, journal) == 17 && memcmp(head, "TBHOSTJOURNAL002\1", 17) == 0, "title");
    House house;
    u64 frames = 0;
    while (getc(journal) == 1) {
        must(fread(frame, 1, 12, journal) == 12 && Request::number_at(frame + 4, 8) == frames++, "frame");
        size_t size = Request::number_at(frame, 4);
        must(size >= 1 && size <= sizeof payload && fread(payload, 1, size, journal) == size, "payload");
        Text records(payload, size);
        for (size_t at = 0; at < size;) {
            size_t named = u8(payload[at++]);
            must(at + named + 16 < size, "record");
            u32 sender;
            must(House::find(house.submitters, records.substr(at, named), sender), "submitter");
            at += named;
            Request request;
            request.number = Request::number_at(payload + at, 8);
            u64 moment = Request::number_at(payload + at + 8, 8);
            size_t begun = at += 16;
            must(request.take(records, at), "members");
            must(moment >= house.running && !house.entries.contains({sender, request.number}), "order");
            must(house.refusal(sender, request, moment) == 0, "an entry that is refused");
            house.apply(sender, request, moment, std::string(records.substr(begun, at - begun)));
        }
    }
    fputs(house.results(word[2]).c_str(), stdout);
}
