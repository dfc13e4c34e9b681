// The first ten words that begin with a text, and the longest word that it begins with, from a file that `zerotrie build` wrote:
// c++ -std=c++17 words.cpp $(pkg-config --cflags --libs zerotrie) -o words && ./words words.trie counter
#include "zerotrie.hpp"
#include <fstream>
#include <iostream>

int main(int count, char **arguments) try {
    if (count != 3) return 2;
    std::ifstream file(arguments[1], std::ios::binary);
    const std::string bytes{std::istreambuf_iterator<char>(file), {}};
    const zerotrie::Map words = zerotrie::Map::open(bytes);
    const std::string_view text = arguments[2];
    size_t left = 10;
    for (const auto [word, value] : words.stream(text)) {
        std::cout << word << " " << value << "\n";
        if (--left == 0) break;
    }
    const auto longest = words.longest_prefix(text);
    if (longest) std::cout << "longest: " << longest->first << " " << longest->second << "\n";
} catch (const std::exception &error) {
    std::cerr << arguments[1] << ": " << error.what() << "\n";
    return 1;
}
