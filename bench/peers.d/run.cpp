// Reads a script as `run` does, keeps its tables (house.hpp), writes the same journal by the same device calls, and
// replies.
#include "house.hpp"
int main(int, char **word) {
    House house;
    Journal journal(word[1]);
    each_line([&](u64 moment, Text key, Text json) -> std::string {
        u32 sender;
        if (key == "op:root") sender = House::OPERATOR;
        else if (!House::find(house.keys, key, sender)) return refused(1);
        Request request;
        if (!request.read(json)) return refused(6);
        if (request.is_query()) return house.results(request.text[0]);
        std::string tail;
        request.put(tail);
        auto kept = house.entries.find({sender, request.number});
        if (kept != house.entries.end())
            return kept->second.tail == tail ? accepted(request.number, kept->second.moment) : refused(3);
        moment = std::max(moment, house.running);
        if (int refusal = house.refusal(sender, request, moment)) return refused(refusal);
        journal.append(house.submitter_names[sender], request.number, moment, tail);
        house.apply(sender, request, moment, std::move(tail));
        return accepted(request.number, moment);
    });
}
