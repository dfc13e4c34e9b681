/* Header names in either case, each with its usual spelling:
 * cc headers.c $(pkg-config --cflags --libs zerotrie) -o headers && ./headers content-TYPE */
#include "zerotrie.h"
#include <stdio.h>
#include <stdlib.h>
#include <string.h>

static const char *const spellings[] = { "Accept", "Accept-Encoding", "Content-Length", "Content-Type", "ETag", "Host" };
static const char names[] = "acceptaccept-encodingcontent-lengthcontent-typeetaghost";
enum { COUNT = sizeof spellings / sizeof *spellings };

int main(int count, char **arguments) {
    size_t ends[COUNT], values[COUNT], end = 0, len, value;
    for (size_t i = 0; i < COUNT; i++) {
        ends[i] = end += strlen(spellings[i]);
        values[i] = i;
    }
    const size_t room = zerotrie_build_bound(COUNT, end);
    uint8_t *const bytes = malloc(room);
    if (!bytes) return 1;
    const zerotrie_status status = zerotrie_build_many(ZEROTRIE_IGNORE_CASE, names, end, ends, COUNT, values,
                                                       COUNT, bytes, room, &len);
    if (status != ZEROTRIE_DONE) {
        fprintf(stderr, "%s\n", zerotrie_status_text(status));
        free(bytes);
        return 1;
    }
    const zerotrie_trie trie = zerotrie_trie_of(ZEROTRIE_IGNORE_CASE, bytes, len);
    for (int i = 1; i < count; i++) {
        const bool found = zerotrie_trie_gets(trie, arguments[i], &value);
        printf("%s: %s\n", arguments[i], found ? spellings[value] : "unknown");
    }
    free(bytes);
    return 0;
}
