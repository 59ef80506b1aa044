/* block.c: the three memory calls of libuimg, over one block that the caller gives, for programs
   without malloc. It serves one thread at a time. */
#include <stddef.h>
#include <stdint.h>
#include <string.h>

#include <uimg_block.h>

/* The result of a call: whether there was memory, and where. */
struct memory {
    uint8_t is_there;
    void *start;
};

enum { UNIT = 16 };

/* A piece of the block begins with its size, in a unit of its own. Pieces follow one another. */
static uint8_t *block;
static size_t given, taken, most;

/* An address that nothing is written to, for a result without memory. */
static max_align_t nowhere;

void uimg_use_block(void *start, size_t size)
{
    size_t skipped = (UNIT - (uintptr_t)start % UNIT) % UNIT;

    block = (uint8_t *)start + (skipped < size ? skipped : size);
    given = skipped < size ? size - skipped : 0;
    taken = most = 0;
}

size_t uimg_block_most(void)
{
    return most;
}

static size_t whole_units(size_t size)
{
    return (size + UNIT - 1) / UNIT * UNIT;
}

static void take(size_t end)
{
    taken = end;
    if (taken > most)
        most = taken;
}

static size_t piece_size(void *start)
{
    size_t size;

    memcpy(&size, (uint8_t *)start - UNIT, sizeof size);
    return size;
}

static int is_last(void *start)
{
    return (uint8_t *)start + piece_size(start) == block + taken;
}

struct memory rattle_alloc(size_t size, size_t alignment)
{
    size_t left = given - taken;
    uint8_t *start;

    (void)alignment;
    if (left < UNIT || size > left - UNIT || whole_units(size) > left - UNIT)
        return (struct memory){0, &nowhere};
    size = whole_units(size);
    start = block + taken + UNIT;
    memcpy(start - UNIT, &size, sizeof size);
    take(taken + UNIT + size);
    return (struct memory){1, start};
}

void rattle_dealloc(void *start)
{
    if (is_last(start))
        taken -= UNIT + piece_size(start);
}

struct memory rattle_realloc(void *start, size_t kept, size_t size, size_t alignment)
{
    size_t before = (size_t)((uint8_t *)start - block);
    struct memory moved;

    if (is_last(start) && size <= given - before && whole_units(size) <= given - before) {
        size = whole_units(size);
        memcpy((uint8_t *)start - UNIT, &size, sizeof size);
        take(before + size);
        return (struct memory){1, start};
    }
    moved = rattle_alloc(size, alignment);
    if (moved.is_there)
        memcpy(moved.start, start, kept < size ? kept : size);
    return moved;
}
