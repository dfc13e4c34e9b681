// Header names in either case, each with its usual spelling:
// c++ -std=c++17 headers.cpp $(pkg-config --cflags --libs zerotrie) -o headers && ./headers content-TYPE
#include "zerotrie.hpp"
#include <iostream>

int main(int count, char **arguments) try {
    const char *const spellings[] = {"Accept", "Accept-Encoding", "Content-Length", "Content-Type", "ETag", "Host"};
    std::vector<std::pair<std::string, size_t>> names;
    for (const std::string_view spelling : spellings) {
        std::string name;
        for (const char letter : spelling) name += letter >= 'A' && letter <= 'Z' ? static_cast<char>(letter + 32) : letter;
        names.emplace_back(name, names.size());
    }
    const zerotrie::Map headers(zerotrie::Kind::IgnoreCase, names);
    for (int i = 1; i < count; i++) {
        const auto number = headers.get(arguments[i]);
        std::cout << arguments[i] << ": " << (number ? spellings[*number] : "unknown") << "\n";
    }
} catch (const std::exception &error) {
    std::cerr << error.what() << "\n";
    return 1;
}
