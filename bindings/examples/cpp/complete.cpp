// Completions of what was typed, which may have one mistake:
// c++ -std=c++17 complete.cpp $(pkg-config --cflags --libs zerotrie) -o complete && ./complete crp
#include "zerotrie.hpp"
#include <iostream>

int main(int count, char **arguments) try {
    const zerotrie::Map words{
        {"car", 0}, {"cargo", 1}, {"carp", 2}, {"carpet", 3}, {"carton", 4}, {"zürich", 5},
    };
    for (int i = 1; i < count; i++) {
        // a mistake is a character that is missing, or one too many, or another one
        const auto near = zerotrie::Search::fuzzy_chars(arguments[i], 1).beginnings();
        std::cout << arguments[i] << ":";
        for (const auto [word, value] : words.search(near)) std::cout << " " << word;
        std::cout << "\n";
    }
} catch (const std::exception &error) {
    std::cerr << error.what() << "\n";
    return 1;
}
