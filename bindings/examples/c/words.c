/* The first ten words that begin with a text, and the longest word that it begins with, from a file that `zerotrie build` wrote:
 * cc words.c $(pkg-config --cflags --libs zerotrie) -o words && ./words words.trie counter */
#define _POSIX_C_SOURCE 200809L
#include "zerotrie.h"
#include <fcntl.h>
#include <stdio.h>
#include <string.h>
#include <sys/mman.h>
#include <sys/stat.h>
#include <unistd.h>

int main(int count, char **arguments) {
    struct stat file;
    zerotrie_trie trie;
    const int at = count == 3 ? open(arguments[1], O_RDONLY) : -1;
    if (at < 0 || fstat(at, &file) != 0 || file.st_size == 0) return 2;
    uint8_t *const bytes = mmap(NULL, (size_t)file.st_size, PROT_READ, MAP_PRIVATE, at, 0);
    close(at);
    if (bytes == MAP_FAILED) return 2;
    size_t place, ends[10], values[10], len, value;
    const zerotrie_status status = zerotrie_trie_open(bytes, (size_t)file.st_size, &trie);
    const zerotrie_fault fault = status == ZEROTRIE_DONE ? zerotrie_trie_first_fault(trie, &place) : ZEROTRIE_NO_FAULT;
    if (status != ZEROTRIE_DONE || fault != ZEROTRIE_NO_FAULT) {
        fprintf(stderr, "%s: %s\n", arguments[1], fault ? zerotrie_fault_text(fault) : zerotrie_status_text(status));
        return 1;
    }
    const char *const text = arguments[2];
    uint8_t room[2000];
    zerotrie_listing part = zerotrie_listing_of(trie, text, strlen(text), room, sizeof room, ends, values, 10);
    if (zerotrie_listing_next(&part) == ZEROTRIE_STUCK) fprintf(stderr, "%s\n", zerotrie_status_text(part.status));
    for (size_t i = 0; i < part.count; i++) {
        const zerotrie_bytes word = zerotrie_listing_key(&part, i);
        printf("%.*s %zu\n", (int)word.len, (const char *)word.ptr, values[i]);
    }
    if (zerotrie_trie_longest_prefix(trie, text, strlen(text), &len, &value))
        printf("longest: %.*s %zu\n", (int)len, text, value);
    return munmap(bytes, (size_t)file.st_size);
}
