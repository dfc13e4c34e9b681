/* The three functions by which the library allocates, over malloc, for processors for which the kit
 * has none. They are trusted, and not proved. */
#include <stdbool.h>
#include <stddef.h>
#include <stdint.h>
#include <stdlib.h>

struct tried {
    bool ok;
    uint8_t *p;
};

/* What `p` is if there is no memory: an address that nobody reads or writes. */
static uint8_t none;

static struct tried tried_of(uint8_t *p) {
    struct tried tried = { p != NULL, p ? p : &none };
    return tried;
}

/* A block of n bytes; its alignment divides 16. */
struct tried rattle_alloc(size_t n, size_t align);
struct tried rattle_alloc(size_t n, size_t align) {
    return tried_of(malloc(n != 0 ? n : align));
}

/* The block, made one of n bytes, whose first `kept` bytes are as they were. */
struct tried rattle_realloc(uint8_t *p, size_t kept, size_t n, size_t align);
struct tried rattle_realloc(uint8_t *p, size_t kept, size_t n, size_t align) {
    (void)kept;
    return tried_of(realloc(p, n != 0 ? n : align));
}

void rattle_dealloc(uint8_t *p);
void rattle_dealloc(uint8_t *p) {
    free(p);
}
