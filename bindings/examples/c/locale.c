/* The locale that a locale falls back to: "english" does not fall back to "en":
 * cc locale.c $(pkg-config --cflags --libs zerotrie) -o locale && ./locale en-GB-oxendict zh_Hans english */
#include "zerotrie.h"
#include <stdio.h>
#include <string.h>

static const zerotrie_pair locales[] = {
    { ZEROTRIE_TEXT("en"), 1 }, { ZEROTRIE_TEXT("en-GB"), 2 }, { ZEROTRIE_TEXT("de"), 3 },
    { ZEROTRIE_TEXT("de-CH"), 4 }, { ZEROTRIE_TEXT("zh"), 5 }, { ZEROTRIE_TEXT("zh-Hant"), 6 }
};

int main(int count, char **arguments) {
    uint8_t bytes[200];
    size_t len, value;
    const zerotrie_status status = zerotrie_build(ZEROTRIE_IGNORE_CASE, locales, sizeof locales / sizeof *locales, bytes,
                                                  sizeof bytes, &len);
    if (status == ZEROTRIE_MIXED_CASE) {
        size_t first, second;
        if (zerotrie_why_refused(ZEROTRIE_IGNORE_CASE, locales, sizeof locales / sizeof *locales, &first, &second) == status)
            fprintf(stderr, "locales %zu and %zu: %s\n", first, second, zerotrie_status_text(status));
    }
    if (status != ZEROTRIE_DONE) return 1;
    const zerotrie_trie trie = zerotrie_trie_of(ZEROTRIE_IGNORE_CASE, bytes, len);
    for (int i = 1; i < count; i++) {
        const char *const tag = arguments[i];
        if (zerotrie_trie_longest_prefix_at(trie, tag, strlen(tag), "-_", 2, &len, &value))
            printf("%s: %.*s %zu\n", arguments[i], (int)len, arguments[i], value);
        else
            printf("%s: none\n", arguments[i]);
    }
    return 0;
}
