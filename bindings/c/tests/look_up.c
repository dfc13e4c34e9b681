/* A program that only looks up. */
#include "zerotrie.h"

int main(int count, char **arguments) {
    static const uint8_t trie[] = { 'i', 'n', 0x83, 't', 'o', 0x84 };
    size_t value = 0, len = 0;
    while (arguments[0][len]) len++;
    return count > 5 || !zerotrie_get(ZEROTRIE_SIMPLE_ASCII, trie, sizeof trie, arguments[0], len, &value);
}
