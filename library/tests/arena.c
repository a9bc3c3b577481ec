/* arena.c: what c/arena.c says of its blocks, on an arena of 1,024 bytes. */
#define RVCFI_ARENA 1024
#include "../c/arena.c"

#include "check.h"

#include <stdlib.h>

static uint8_t *taken(size_t size)
{
    struct rattle_tried tried = rattle_alloc(size, 1);

    CHECK(tried.ok && tried.p != NULL && (uintptr_t)tried.p % 16 == 0);
    return tried.p;
}

static uint8_t *resized(uint8_t *block, size_t kept, size_t size)
{
    struct rattle_tried tried = rattle_realloc(block, kept, size, 1);

    CHECK(tried.ok && tried.p != NULL && (uintptr_t)tried.p % 16 == 0);
    return tried.p;
}

/* The newest block grows and shrinks where it is, up to the whole arena and no further. */
static void newest_in_place(void)
{
    uint8_t *first = taken(100), *second;

    CHECK(resized(first, 100, 1024) == first);
    CHECK(!rattle_alloc(1, 1).ok && rattle_alloc(1, 1).p != NULL);
    CHECK(!rattle_realloc(first, 1024, 1025, 1).ok && !rattle_realloc(first, 1024, (size_t)-1, 1).ok);
    CHECK(resized(first, 16, 16) == first);
    second = taken(1008);
    CHECK(second == first + 16 && !rattle_alloc(0, 1).ok && !rattle_alloc((size_t)-1, 1).ok);
    rattle_dealloc(second);
    CHECK(taken(1008) == second);
    rattle_dealloc(second);
    rattle_dealloc(first);
}

/* An older block moves with what it holds, and all is free when the last block is given back. */
static void older_moves(void)
{
    uint8_t *first = taken(64), *second = taken(0), *moved;

    CHECK(second != first && taken(0) != second);
    memset(first, 7, 64);
    moved = resized(first, 64, 128);
    CHECK(moved != first && moved[0] == 7 && moved[63] == 7);
    CHECK(!rattle_realloc(second, 0, 2000, 1).ok);
    rattle_dealloc(moved);
    rattle_dealloc(second);
    CHECK(!rattle_alloc(1024, 1).ok);
    rattle_dealloc(second + 16); /* the third one */
    first = taken(1024);
    rattle_dealloc(first);
}

#define MOST 6

struct held {
    uint8_t *block;
    size_t size;
    uint8_t mark;
};

static void is_whole(const struct held *held)
{
    size_t k;

    for (k = 0; k < held->size; k++)
        CHECK(held->block[k] == held->mark);
}

static void take(struct held *held, size_t size, uint8_t mark)
{
    struct rattle_tried tried = rattle_alloc(size, 1);

    if (!tried.ok)
        return;
    held->block = tried.p;
    held->size = size;
    held->mark = mark;
    memset(held->block, mark, size);
}

static void resize(struct held *held, size_t size)
{
    size_t kept = held->size < size ? held->size : size;
    struct rattle_tried tried = rattle_realloc(held->block, kept, size, 1);

    if (!tried.ok)
        return;
    held->block = tried.p;
    held->size = kept;
    is_whole(held);
    held->size = size;
    memset(held->block, held->mark, size);
}

static void give(struct held *held)
{
    rattle_dealloc(held->block);
    held->block = NULL;
    held->size = 0;
}

/* Blocks that are drawn keep what they hold, so no two share a byte. */
static void drawn(unsigned seed)
{
    struct held held[MOST] = {{NULL, 0, 0}};
    int turn, k;

    srand(seed);
    for (turn = 0; turn < 200; turn++) {
        struct held *one = &held[rand() % MOST];

        if (one->block == NULL)
            take(one, (size_t)(rand() % 300), (uint8_t)turn);
        else if (rand() % 2 == 0)
            resize(one, (size_t)(rand() % 300));
        else
            give(one);
        for (k = 0; k < MOST; k++)
            is_whole(&held[k]);
    }
    for (k = 0; k < MOST; k++)
        if (held[k].block != NULL)
            give(&held[k]);
    CHECK(blocks == 0 && used == 0);
}

int main(void)
{
    unsigned seed;

    newest_in_place();
    older_moves();
    for (seed = 1; seed <= 100; seed++)
        drawn(seed);
    return checks_failed != 0;
}
