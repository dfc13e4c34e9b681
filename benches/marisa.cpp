// What src/bin/marisa.rs calls of marisa-trie. A trie is kept with an agent, which a look-up needs, so it is for one thread at a time.
#include <cstddef>
#include <cstdint>
#include <marisa.h>

struct Marisa {
    marisa::Trie trie;
    marisa::Agent agent;
};

// A trie of keys that are one after another, each of which ends at its number in `ends`, by settings of marisa/base.h.
extern "C" Marisa *marisa_built(const char *keys, const std::size_t *ends, std::size_t count, int settings) {
    marisa::Keyset set;
    for (std::size_t number = 0, at = 0; number < count; at = ends[number++])
        set.push_back(keys + at, ends[number] - at);
    Marisa *made = new Marisa;
    made->trie.build(set, settings);
    return made;
}

extern "C" void marisa_freed(Marisa *made) {
    delete made;
}

extern "C" std::size_t marisa_bytes(const Marisa *made) {
    return made->trie.io_size();
}

// The number that the trie gives to a key. SIZE_MAX: it has none.
extern "C" std::size_t marisa_number(Marisa *made, const char *key, std::size_t len) {
    made->agent.set_query(key, len);
    return made->trie.lookup(made->agent) ? made->agent.key().id() : SIZE_MAX;
}
