/* How libgtp_c_memory takes memory: the three calls that it makes, over malloc. A gateway may put its own pool in their
 * place. What they owe, which nothing checks: a block lies apart from all others, has the size that was asked, and is
 * aligned as asked, which is to 16 at most; blocks come from one allocator; a refusal has 0 in `given`, and a pointer
 * that isn't NULL. */
#include <stddef.h>
#include <stdint.h>
#include <stdlib.h>

struct block { uint8_t given; void *at; };

struct block rattle_alloc(size_t size, size_t align);
struct block rattle_realloc(void *at, size_t old, size_t size, size_t align);
void rattle_dealloc(void *at, size_t size, size_t align);

static char nothing;

static struct block block_at(void *at) { return (struct block){at != NULL, at ? at : &nothing}; }

struct block rattle_alloc(size_t size, size_t align) { return block_at(malloc(size ? size : align)); }

struct block rattle_realloc(void *at, size_t old, size_t size, size_t align) {
    (void)old;
    return block_at(realloc(at, size ? size : align));
}

void rattle_dealloc(void *at, size_t size, size_t align) {
    (void)size;
    (void)align;
    free(at);
}
