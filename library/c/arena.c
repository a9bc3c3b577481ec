/* arena.c: the library's memory from a block of RVCFI_ARENA bytes, for a program without malloc. Calls come one at a time.
 *
 * Blocks stand one behind the other. The newest one grows and shrinks in place, and is given back where it stands; an
 * older one keeps its place until the last block is given back, and then all of the arena is free. Each call of the
 * library gives back all that it takes, so each begins with a free arena. */
#include "heap.h"

#include <stdint.h>
#include <string.h>

#ifndef RVCFI_ARENA
#define RVCFI_ARENA 65536
#endif

#define ALIGNMENT 16u

/* The arena, which a long double aligns. Where that is less than ALIGNMENT, this does not compile. */
union room {
    uint8_t bytes[RVCFI_ARENA];
    long double aligned;
};

struct before_room {
    char first;
    union room room;
};

typedef char room_is_aligned[offsetof(struct before_room, room) % ALIGNMENT == 0 ? 1 : -1];

static union room arena;

static size_t used;   /* the bytes of the arena before the first free one, a multiple of ALIGNMENT */
static size_t newest; /* where the newest block begins, or `used`, where no block is, where that is not known */
static size_t blocks; /* how many blocks are out */

static struct rattle_tried tried(bool ok, size_t at)
{
    struct rattle_tried answer;

    answer.ok = ok;
    answer.p = arena.bytes + (ok ? at : 0);
    return answer;
}

/* Whether a block of `size` bytes fits at `at`. One of 0 bytes takes a place too, so that each has its own. */
static bool fits(size_t at, size_t size)
{
    return at < sizeof arena.bytes && size <= sizeof arena.bytes - at;
}

/* Where the block behind one of `size` bytes at `at` may begin: at most at the end of the arena. */
static size_t behind(size_t at, size_t size)
{
    size_t end = at + (size != 0 ? size : 1);
    size_t rest = (ALIGNMENT - end % ALIGNMENT) % ALIGNMENT;

    return rest <= sizeof arena.bytes - end ? end + rest : sizeof arena.bytes;
}

static size_t place_of(const void *block)
{
    return (size_t)((const uint8_t *)block - arena.bytes);
}

struct rattle_tried rattle_alloc(size_t size, size_t align)
{
    (void)align;
    if (!fits(used, size))
        return tried(false, 0);
    newest = used;
    used = behind(newest, size);
    blocks += 1;
    return tried(true, newest);
}

struct rattle_tried rattle_realloc(void *block, size_t kept, size_t size, size_t align)
{
    struct rattle_tried moved;

    if (place_of(block) == newest) {
        if (!fits(newest, size))
            return tried(false, 0);
        used = behind(newest, size);
        return tried(true, newest);
    }
    moved = rattle_alloc(size, align);
    if (moved.ok) {
        memcpy(moved.p, block, kept < size ? kept : size);
        blocks -= 1;
    }
    return moved;
}

void rattle_dealloc(void *block)
{
    blocks -= 1;
    if (blocks == 0)
        used = 0;
    else if (place_of(block) == newest)
        used = newest;
    newest = used;
}
