/* allocator.c: a host's own allocator for one thread, linked in or preloaded in place of the C library's. Blocks stand in one arena, one behind
 * the other. A block is filled with 0xcc when it is given and with 0xdd when it is given back, has a mark behind it, and moves each time it
 * grows. A pointer that is no block of it, a block that is given back twice, and a mark that was written over end the program. `own_blocks` is
 * how many blocks are out; `own_left` how many more are granted, all if it is negative. */
#include <errno.h>
#include <stddef.h>
#include <stdint.h>
#include <string.h>

#define ARENA ((size_t)1 << 30)
#define UNIT 16
static const uint64_t OUT = 0x6f75746f75746f75, FREE = 0x6672656566726565, MARK = 0x6d61726b6d61726b;

/* In front of each block; `wanted` is the size that was asked for, and `before` where the block in front begins. */
struct head {
    uint64_t state, wanted, before, unused;
};

static _Alignas(UNIT) uint8_t arena[ARENA];
static size_t used, last; /* where the last block ends and begins */
long own_blocks, own_left = -1;

static struct head *head_at(size_t offset) {
    return (struct head *)(void *)(arena + offset);
}

/* The head of a block that is out. */
static struct head *head_of(void *block) {
    struct head *h = (struct head *)(void *)((uint8_t *)block - sizeof *h);
    if ((uint8_t *)block < arena + sizeof *h || (uint8_t *)block > arena + used || (uintptr_t)block % UNIT) __builtin_trap();
    if (h->state != OUT || memcmp((uint8_t *)block + h->wanted, &MARK, sizeof MARK)) __builtin_trap();
    return h;
}

void *malloc(size_t wanted) {
    struct head *h = head_at(used);
    size_t size = sizeof *h + (wanted + sizeof MARK + UNIT - 1) / UNIT * UNIT;
    if (wanted > ARENA / 2 || size > ARENA - used || !own_left) {
        errno = ENOMEM;
        return NULL;
    }
    if (own_left > 0) own_left--;
    own_blocks++;
    *h = (struct head){OUT, wanted, last, 0};
    last = used, used += size;
    memset(h + 1, 0xcc, wanted);
    memcpy((uint8_t *)(h + 1) + wanted, &MARK, sizeof MARK);
    return h + 1;
}

void free(void *block) {
    struct head *h;
    if (!block) return;
    h = head_of(block);
    memset(block, 0xdd, h->wanted);
    h->state = FREE;
    own_blocks--;
    while (used && head_at(last)->state == FREE) used = last, last = head_at(last)->before;
}

void *realloc(void *block, size_t wanted) {
    size_t old = block ? head_of(block)->wanted : 0;
    void *moved = malloc(wanted);
    if (!moved || !block) return moved;
    memcpy(moved, block, old < wanted ? old : wanted);
    free(block);
    return moved;
}

void *calloc(size_t count, size_t each) {
    void *block = each && count > ARENA / each ? NULL : malloc(count * each);
    return block ? memset(block, 0, count * each) : NULL;
}
