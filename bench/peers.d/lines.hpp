// What the peers that read scripts and journals share: the lines of a script, flat objects of JSON, and the records
// and device calls of the journal (docs/FORMATS.md). Kinds that the benchmarks don't send are left out.
#pragma once
#include <charconv>
#include <cstdint>
#include <cstdio>
#include <cstdlib>
#include <cstring>
#include <ctime>
#include <fcntl.h>
#include <string>
#include <string_view>
#include <unistd.h>
#include <vector>
using u8 = uint8_t;
using u32 = uint32_t;
using u64 = uint64_t;
using Text = std::string_view;

inline void must(bool holds, const char *what) {
    if (holds) return;
    perror(what);
    exit(1);
}
template <class Number> bool whole(Text text, Number &number) {
    auto [end, error] = std::from_chars(text.data(), text.data() + text.size(), number);
    return !text.empty() && error == std::errc() && end == text.data() + text.size();
}
inline bool is_name(Text text) {
    if (text.empty() || text.size() > 32 || text[0] == '-' || text[0] == '_') return false;
    for (char each : text)
        if (!(('a' <= each && each <= 'z') || ('0' <= each && each <= '9') || each == '_' || each == '-')) return false;
    return true;
}
// A rate with one to three decimals, in steps of 0.005.
inline bool rate(Text text, u64 &steps) {
    size_t point = text.find('.');
    u64 dollars, part = 0;
    if (!whole(text.substr(0, point), dollars) || dollars > 999) return false;
    if (point != Text::npos) {
        Text decimals = text.substr(point + 1);
        if (decimals.size() > 3 || !whole(decimals, part)) return false;
        for (size_t place = decimals.size(); place < 3; place++) part *= 10;
    }
    steps = (1000 * dollars + part) / 5;
    return part % 5 == 0;
}
inline std::string rate_text(u64 steps) {
    char text[32];
    snprintf(text, sizeof text, "%lu.%03lu", steps / 200, steps % 200 * 5);
    return text;
}
inline bool day(Text text, u64 &days) {
    tm date{};
    if (text.size() != 10 || !whole(text.substr(0, 4), date.tm_year)) return false;
    if (!whole(text.substr(5, 2), date.tm_mon) || !whole(text.substr(8, 2), date.tm_mday)) return false;
    date.tm_year -= 1900, date.tm_mon -= 1;
    days = timegm(&date) / 86400;
    return true;
}
inline bool minute(Text text, u64 &minutes) {
    u64 hour, rest;
    if (text.size() != 5 || !whole(text.substr(0, 2), hour) || !whole(text.substr(3), rest)) return false;
    minutes = 60 * hour + rest;
    return hour < 24 && rest < 60;
}
// The moment of a minute of a day in Eastern time.
inline u64 eastern(u64 days, u64 minutes) {
    static bool zoned = (setenv("TZ", "EST5EDT,M3.2.0,M11.1.0", 1), tzset(), true);
    (void)zoned;
    time_t seconds = days * 86400;
    tm date;
    gmtime_r(&seconds, &date);
    date.tm_isdst = -1, date.tm_min = minutes;
    return mktime(&date);
}

// A flat object of texts without escapes and of whole numbers.
struct Fields {
    struct Field { Text name, value; bool is_text; };
    Field fields[24];
    size_t count = 0;
    bool read(Text json) {
        size_t at = 0;
        auto blanks = [&] { while (at < json.size() && strchr(" \t\r\n", json[at])) at++; };
        auto takes = [&](char wanted) { blanks(); return at < json.size() && json[at] == wanted && ++at; };
        auto text = [&](Text &into) {
            if (!takes('"')) return false;
            size_t end = json.find_first_of("\"\\", at);
            if (end == Text::npos || json[end] == '\\') return false;
            into = json.substr(at, end - at), at = end + 1;
            return true;
        };
        count = 0;
        if (!takes('{')) return false;
        while (count < 24) {
            Field &field = fields[count];
            if (!text(field.name) || !takes(':')) return false;
            blanks();
            field.is_text = at < json.size() && json[at] == '"';
            if (field.is_text) {
                if (!text(field.value)) return false;
            } else {
                size_t end = json.find_first_not_of("0123456789", at);
                if (end == at || end == Text::npos) return false;
                field.value = json.substr(at, end - at), at = end;
            }
            count++;
            if (takes(',')) continue;
            if (!takes('}')) return false;
            blanks();
            return at == json.size();
        }
        return false;
    }
    const Field *find(Text name) const {
        for (size_t place = count; place > 0; place--)
            if (fields[place - 1].name == name) return &fields[place - 1];
        return nullptr;
    }
};

// A member's form: n a name, c a CUSIP, a an amount or a number, d a day, m a minute, r a rate.
struct Member { const char *name; char form; };
struct Kind { u8 tag; const char *name; bool is_operators; std::vector<Member> members; };
inline const Kind KINDS[] = {
    {0x01, "register", true, {{"submitter", 'n'}, {"key", 'n'}}},
    {0x02, "enrol", true, {{"bidder", 'n'}, {"submitter", 'n'}}},
    {0x04, "announce", true, {{"auction", 'n'}, {"cusip", 'c'}, {"offering", 'a'}, {"minimum", 'a'}, {"ceiling", 'a'},
                              {"floor", 'a'}, {"threshold", 'a'}, {"date", 'd'}, {"nc_close", 'm'}, {"c_close", 'm'},
                              {"issue", 'd'}, {"maturity", 'd'}}},
    {0x05, "bid", false, {{"auction", 'n'}, {"bidder", 'n'}, {"rate", 'r'}, {"amount", 'a'}}},
    {0x09, "publish", true, {{"auction", 'n'}}},
    {0x0a, "settle", true, {{"auction", 'n'}}},
    {0x0b, "transfer", false, {{"cusip", 'c'}, {"to", 'n'}, {"amount", 'a'}}},
    {0x0c, "pledge", false, {{"cusip", 'c'}, {"to", 'n'}, {"amount", 'a'}}},
    {0x0d, "release", false, {{"holder", 'n'}, {"pledge", 'a'}, {"amount", 'a'}}},
    {0x0e, "redeem", true, {{"cusip", 'c'}}},
    {0x00, "results", false, {{"auction", 'n'}}},
    {0x00, "redemption", true, {{"cusip", 'c'}}},
};
inline size_t width_of(char form) { return form == 'a' ? 8 : form == 'm' ? 2 : 4; }

// A message or a query: the members in their order, as texts or as numbers.
struct Request {
    const Kind *kind = nullptr;
    u64 number = 0;
    Text text[12];
    u64 value[12];
    bool is_query() const { return kind->tag == 0; }
    bool read(Text json) {
        Fields fields;
        if (!fields.read(json)) return false;
        const Fields::Field *named = fields.find("kind");
        kind = nullptr;
        for (const Kind &each : KINDS)
            if (named && named->value == each.name) kind = &each;
        if (!kind) return false;
        const Fields::Field *numbered = fields.find("number");
        bool is_numbered = numbered && !numbered->is_text && whole(numbered->value, number) && number > 0;
        if (!is_query() && !is_numbered) return false;
        for (size_t place = 0; place < kind->members.size(); place++) {
            const Member &member = kind->members[place];
            const Fields::Field *field = fields.find(member.name);
            if (!field || field->is_text != (member.form != 'a')) return false;
            text[place] = field->value;
            u64 &into = value[place];
            bool holds = member.form == 'n'   ? is_name(field->value)
                         : member.form == 'c' ? field->value.size() == 9
                         : member.form == 'a' ? whole(field->value, into)
                         : member.form == 'd' ? day(field->value, into)
                         : member.form == 'm' ? minute(field->value, into)
                                              : rate(field->value, into);
            if (!holds) return false;
        }
        return true;
    }
    // The record behind the moment: the tag and the members.
    void put(std::string &into) const {
        into += char(kind->tag);
        for (size_t place = 0; place < kind->members.size(); place++) {
            char form = kind->members[place].form;
            if (form == 'n') into += char(text[place].size());
            if (form == 'n' || form == 'c') into += text[place];
            else put_number(into, value[place], width_of(form));
        }
    }
    // Reads the tag and the members of a record, and moves behind them.
    bool take(Text record, size_t &at) {
        kind = nullptr;
        for (const Kind &each : KINDS)
            if (at < record.size() && each.tag == u8(record[at]) && each.tag) kind = &each;
        if (!kind) return false;
        at++;
        for (size_t place = 0; place < kind->members.size(); place++) {
            char form = kind->members[place].form;
            if (at >= record.size()) return false;
            size_t size = form == 'n' ? u8(record[at++]) : form == 'c' ? 9 : width_of(form);
            if (at + size > record.size()) return false;
            if (form == 'n' || form == 'c') text[place] = record.substr(at, size);
            else value[place] = number_at(record.data() + at, size);
            at += size;
        }
        return true;
    }
    static void put_number(std::string &into, u64 value, size_t width) {
        for (size_t place = width; place > 0; place--) into += char(value >> 8 * (place - 1));
    }
    static u64 number_at(const char *from, size_t width) {
        u64 value = 0;
        for (size_t place = 0; place < width; place++) value = value << 8 | u8(from[place]);
        return value;
    }
};

// The journal: a frame is written with a closed gate behind it and synced, and then its own gate.
struct Journal {
    int file;
    off_t gate = 17;
    u64 frames = 0;
    std::string frame;
    explicit Journal(const char *path) : file(open(path, O_CREAT | O_TRUNC | O_RDWR, 0600)) {
        must(file >= 0 && pwrite(file, "TBHOSTJOURNAL002\1\0", 18, 0) == 18 && fdatasync(file) == 0, path);
    }
    void append(Text submitter, u64 number, u64 moment, Text tail) {
        frame.clear();
        Request::put_number(frame, 1 + submitter.size() + 16 + tail.size(), 4);
        Request::put_number(frame, frames++, 8);
        frame += char(submitter.size());
        frame += submitter;
        Request::put_number(frame, number, 8);
        Request::put_number(frame, moment, 8);
        frame += tail;
        frame += '\0';
        must(pwrite(file, frame.data(), frame.size(), gate + 1) == ssize_t(frame.size()), "frame");
        must(fdatasync(file) == 0 && pwrite(file, "\1", 1, gate) == 1 && fdatasync(file) == 0, "gate");
        gate += frame.size();
    }
};

// Calls on_line with moment, key and JSON of each line of the input up to `end`, and writes what it answers at once.
template <class OnLine> void each_line(OnLine on_line) {
    std::vector<char> piece(1 << 16);
    std::string held;
    for (;;) {
        ssize_t more = read(0, piece.data(), piece.size());
        must(more > 0, "a line end is missing");
        held.append(piece.data(), more);
        size_t begun = 0;
        for (size_t end; (end = held.find('\n', begun)) != std::string::npos; begun = end + 1) {
            Text line(held.data() + begun, end - begun);
            if (line == "end") return;
            size_t first = line.find(' '), second = line.find(' ', first + 1);
            u64 moment;
            must(second != Text::npos && whole(line.substr(0, first), moment), "bad line");
            std::string reply = on_line(moment, line.substr(first + 1, second - first - 1), line.substr(second + 1));
            must(write(1, reply.data(), reply.size()) == ssize_t(reply.size()), "reply");
        }
        held.erase(0, begun);
    }
}
inline std::string accepted(u64 number, u64 moment) {
    return "accepted " + std::to_string(number) + " " + std::to_string(moment) + "\n";
}
inline std::string refused(int number) { return "refused " + std::to_string(number) + "\n"; }
