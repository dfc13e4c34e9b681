// The locale that a locale falls back to: "english" does not fall back to "en":
// c++ -std=c++17 locale.cpp $(pkg-config --cflags --libs zerotrie) -o locale && ./locale en-GB-oxendict zh_Hans english
#include "zerotrie.hpp"
#include <iostream>

int main(int count, char **arguments) try {
    const zerotrie::Map locales(zerotrie::Kind::IgnoreCase, zerotrie::PairList{
        {"en", 1}, {"en-GB", 2}, {"de", 3}, {"de-CH", 4}, {"zh", 5}, {"zh-Hant", 6}});
    for (int i = 1; i < count; i++) {
        const std::string_view tag = arguments[i];
        const auto found = locales.longest_prefix_at(tag, "-_");
        if (found) std::cout << tag << ": " << found->first << " " << found->second << "\n";
        else std::cout << tag << ": none\n";
    }
} catch (const std::exception &error) {
    std::cerr << error.what() << "\n";
    return 1;
}
