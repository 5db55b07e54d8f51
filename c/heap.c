/* What the proved code asks of the heap, over the C library's malloc. Each call answers whether it was given memory; a pointer
 * that goes with `no` is never used. Blocks are aligned as malloc aligns them, which is enough: nothing here asks for more. */
#include <stddef.h>
#include <stdlib.h>

struct given {
    _Bool is_given;
    void *at;
};

static char nothing;

/* The pointer that the C library gave, or `no` if it gave none. */
static struct given answer(void *at) {
    struct given it = {at != NULL, at != NULL ? at : &nothing};
    return it;
}

struct given rattle_alloc(size_t size, size_t align) { return answer(malloc(size != 0 ? size : align)); }

struct given rattle_realloc(void *at, size_t kept, size_t size, size_t align) {
    (void)kept;
    return answer(realloc(at, size != 0 ? size : align));
}

void rattle_dealloc(void *at) { free(at); }
