// Answers lines as the program does: those of standard input, over the tables of a schema's file where one is named.
#include <iostream>
#include <iterator>
#include <string>

#include <weltiyo.hpp>

int main(int count, char **words) {
    try {
        auto db = count > 1 ? weltiyo::Database::from_file(words[1]) : weltiyo::Database();
        for (std::string line; std::getline(std::cin, line);) {
            if (line.size() <= WELTIYO_LONGEST_LINE && !line.empty() && line.back() == '\r')
                line.pop_back();
            if (!line.empty())
                std::cout << db.answer(line) << '\n';
        }
    } catch (const weltiyo::SchemaFault &fault) {
        std::cerr << fault.what() << '\n';
        return 3;
    }
}
