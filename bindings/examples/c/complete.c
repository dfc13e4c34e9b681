/* Completions of what was typed, which may have one mistake:
 * cc complete.c $(pkg-config --cflags --libs zerotrie) -o complete && ./complete crp */
#include "zerotrie.h"
#include <stdio.h>
#include <string.h>

static const zerotrie_pair words[] = {
    { ZEROTRIE_TEXT("car"), 0 },    { ZEROTRIE_TEXT("cargo"), 1 },  { ZEROTRIE_TEXT("carp"), 2 },
    { ZEROTRIE_TEXT("carpet"), 3 }, { ZEROTRIE_TEXT("carton"), 4 }, { ZEROTRIE_TEXT("zürich"), 5 },
};
enum { COUNT = sizeof words / sizeof *words };

int main(int count, char **arguments) {
    uint8_t bytes[200];
    size_t len;
    zerotrie_rooms rooms;
    zerotrie_next next = ZEROTRIE_END;
    zerotrie_status status =
        zerotrie_build_sorted(ZEROTRIE_PERFECT_HASH, words, COUNT, bytes, sizeof bytes, &len);
    for (int i = 1; i < count && status == ZEROTRIE_DONE; i++) {
        /* a mistake is a character that is missing, or one too many, or another one */
        zerotrie_search near = zerotrie_fuzzy_chars(arguments[i], strlen(arguments[i]), 1);
        near.beginnings = true;
        const zerotrie_trie trie = zerotrie_trie_of(ZEROTRIE_PERFECT_HASH, bytes, len);
        zerotrie_listing part = zerotrie_listing_found(trie, near, &rooms);
        printf("%s:", arguments[i]);
        while ((next = zerotrie_listing_next(&part)) == ZEROTRIE_PART)
            for (size_t number = 0; number < part.count; number++) {
                const zerotrie_bytes word = zerotrie_listing_key(&part, number);
                printf(" %.*s", (int)word.len, (const char *)word.ptr);
            }
        printf("\n");
        if (next == ZEROTRIE_STUCK) status = part.status;
    }
    if (status != ZEROTRIE_DONE) fprintf(stderr, "%s\n", zerotrie_status_text(status));
    return status != ZEROTRIE_DONE;
}
