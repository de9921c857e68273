// Reads a script as `run` does, keeps its tables in SQLite (database.hpp), and replies.
#include "database.hpp"
int main(int, char **word) {
    House house(word[1]);
    each_line([&](u64 moment, Text key, Text json) { return house.reply(moment, key, json); });
}
