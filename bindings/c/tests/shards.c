/* The union of shards whose keys interleave has the bytes of one build of all pairs, for each number
 * of shards, and what it takes does not grow as the number does. */
#include "zerotrie.h"
#include <stdio.h>
#include <stdlib.h>
#include <time.h>

enum { PAIRS = 20000, KEY = 12, SHARDS = 32, ROOM = 1 << 20 };

static char keys[PAIRS][KEY];
static zerotrie_pair pairs[PAIRS], part[PAIRS];
static uint8_t whole[ROOM], joined[ROOM], room[ROOM];

static void make_pairs(void) {
    for (size_t i = 0; i < PAIRS; i++) {
        /* in order, and alike at their beginnings */
        const int len = snprintf(keys[i], KEY, "%05u%c%u", (unsigned)(i / 3), "akz"[i % 3], (unsigned)(i % 7));
        pairs[i].key = zerotrie_bytes_of(keys[i], (size_t)len);
        pairs[i].value = i;
    }
}

/* Builds shard by shard into the room, one behind the other. */
static bool make_shards(size_t count, zerotrie_trie *tries) {
    size_t used = 0;
    for (size_t shard = 0; shard < count; shard++) {
        size_t taken = 0, len = 0;
        for (size_t i = shard; i < PAIRS; i += count)
            part[taken++] = pairs[i];
        if (zerotrie_build_sorted(ZEROTRIE_PERFECT_HASH, part, taken, room + used, ROOM - used, &len)
            != ZEROTRIE_DONE)
            return false;
        tries[shard] = zerotrie_trie_of(ZEROTRIE_PERFECT_HASH, room + used, len);
        used += len;
    }
    return true;
}

/* The least processor time of three unions; 0 if one is wrong. */
static clock_t time_of(size_t count, size_t len) {
    zerotrie_trie tries[SHARDS];
    clock_t least = 0;
    if (!make_shards(count, tries))
        return 0;
    for (int i = 0; i < 3; i++) {
        size_t made = 0;
        const clock_t begin = clock();
        const zerotrie_status status = zerotrie_combine(ZEROTRIE_UNION, ZEROTRIE_REFUSE, tries, count,
                                                        ZEROTRIE_PERFECT_HASH, joined, ROOM, &made);
        const clock_t time = clock() - begin + 1;
        if (status != ZEROTRIE_DONE || made != len)
            return 0;
        for (size_t at = 0; at < len; at++)
            if (joined[at] != whole[at])
                return 0;
        least = i && least < time ? least : time;
    }
    return least;
}

int main(void) {
    static const size_t counts[] = { 1, 2, 3, 8, SHARDS };
    clock_t times[5];
    size_t len = 0;
    make_pairs();
    if (zerotrie_build_sorted(ZEROTRIE_PERFECT_HASH, pairs, PAIRS, whole, ROOM, &len) != ZEROTRIE_DONE)
        return 1;
    for (int i = 0; i < 5; i++)
        if (!(times[i] = time_of(counts[i], len))) {
            printf("shards: the union of %u is wrong\n", (unsigned)counts[i]);
            return 1;
        }
    if (times[4] > 8 * times[1]) {
        printf("shards: a union of 32 takes %ld, and of 2 %ld\n", (long)times[4], (long)times[1]);
        return 1;
    }
    puts("shards: unions are right, and grow little with their number");
    return 0;
}
