/* malloc.c: the three memory calls of libuimg, over malloc. */
#include <stddef.h>
#include <stdint.h>
#include <stdlib.h>

/* The result of a call: whether there was memory, and where. */
struct memory {
    uint8_t is_there;
    void *start;
};

/* An address that nothing is written to, for a result without memory. */
static max_align_t nowhere;

static struct memory answer(void *start)
{
    return start ? (struct memory){1, start} : (struct memory){0, &nowhere};
}

/* For 0 bytes it takes as many as the alignment. The library requests alignments of at most 16,
   which malloc gives. */
struct memory rattle_alloc(size_t size, size_t alignment)
{
    return answer(malloc(size ? size : alignment));
}

struct memory rattle_realloc(void *start, size_t kept, size_t size, size_t alignment)
{
    (void)kept;
    return answer(realloc(start, size ? size : alignment));
}

void rattle_dealloc(void *start)
{
    free(start);
}
