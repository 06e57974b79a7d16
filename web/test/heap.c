/* Random calls of build/heap.c, over an arena that stands for the memory: test/run compiles and runs them.
 * Each block is aligned, lies in the memory, keeps its bytes and overlaps no other. Once everything was given back, what is
 * asked for is there. */
#include <stdint.h>
#include <stdio.h>
#include <string.h>
#include <sys/mman.h>
static unsigned long long arena, pages, most, refusal;
static unsigned char *heap_base_at;
#define __heap_base (*heap_base_at)
#define memory_size() (arena / 65536 + pages)
static unsigned long long grow(unsigned long long more) {
    unsigned long long was = pages;
    if (more > most - pages)
        return refusal;
    pages += more;
    return arena / 65536 + was;
}
#define memory_grow(more) grow(more)
#define export_name(word) unused
#include "../build/heap.c"

#define BLOCKS 400
#define ROUNDS 60
#define STEPS 10000
static struct {
    u8 *at;
    u64 size;
    u8 fill;
} blocks[BLOCKS];
static u64 failed;

static u64 next(void) {
    static u64 seed = 88172645463325252ull;
    seed ^= seed << 13;
    seed ^= seed >> 7;
    return seed ^= seed << 17;
}
static int wrong(const char *what) {
    printf("WRONG: %s\n", what);
    return 1;
}
static int keeps(int i, u64 n) {
    for (u64 k = 0; k < n; k += 1)
        if (blocks[i].at[k] != blocks[i].fill)
            return 0;
    return 1;
}
static int fits(u8 *at, u64 n) {
    return (u64)at % 16 == 0 && (u64)at >= arena + 1000 && (u64)at + n <= arena + pages * PAGE;
}
/* Each class is that of its size, and the next one that of a byte more. */
static int classes(void) {
    for (u64 class = 0; class + 1 < CLASSES; class += 1)
        if (class_of(size_of(class)) != class || class_of(size_of(class) + 1) != class + 1 || size_of(class) % 16)
            return wrong("a class");
    if (size_of(CLASSES - 1) != LARGEST || take(LARGEST + 1))
        return wrong("the last class");
    return 0;
}
/* Gives a block back, if there is one, and takes another in its place. */
static int take_anew(int i, u64 n) {
    if (blocks[i].at) {
        if (!keeps(i, blocks[i].size))
            return wrong("bytes before a block is given back");
        rattle_dealloc(blocks[i].at);
    }
    struct tried t = rattle_alloc(n, 16);
    blocks[i].at = t.ok ? t.p : 0, blocks[i].size = n, blocks[i].fill = next();
    failed += !t.ok;
    if (t.ok && !fits(t.p, n))
        return wrong("the place of a block");
    if (t.ok)
        memset(t.p, blocks[i].fill, n);
    return 0;
}
/* Makes a block longer or shorter; it keeps some of its bytes. */
static int make_as_long(int i, u64 n) {
    u64 was = blocks[i].size, keep = next() % (was + 1);
    struct tried t = rattle_realloc(blocks[i].at, keep, n, 16);
    failed += !t.ok;
    if (!t.ok)
        return keeps(i, was) ? 0 : wrong("bytes after a block could not be made longer");
    blocks[i].at = t.p;
    if (!fits(t.p, n) || !keeps(i, keep < n ? keep : n))
        return wrong("bytes after a block was made longer");
    blocks[i].size = n;
    memset(t.p, blocks[i].fill, n);
    return 0;
}
/* A new memory, with another limit. That it can't grow is told in 64 bits, or in 32, as after addresses are lowered. */
static void begin(u8 *room) {
    arena = ((u64)room + 65535) / 65536 * 65536;
    heap_base_at = (u8 *)arena + 1000;
    pages = 1, most = 2 + next() % 200;
    refusal = next() % 2 ? (u64)-1 : (u32)-1;
    memset(free_lists, 0, sizeof free_lists);
    fresh_at = fresh_end = 0;
    memset(blocks, 0, sizeof blocks);
}
static int round_of(u8 *room) {
    begin(room);
    u64 largest = 16ull << next() % 18;
    for (int step = 0; step < STEPS; step += 1) {
        int i = next() % BLOCKS;
        u64 n = next() % 4 ? next() % largest : next() % 200;
        if (blocks[i].at == 0 || next() % 3 == 0 ? take_anew(i, n) : make_as_long(i, n))
            return 1;
    }
    for (int i = 0; i < BLOCKS; i += 1) {
        if (blocks[i].at && !keeps(i, blocks[i].size))
            return wrong("bytes at the end");
        rattle_dealloc(blocks[i].at);
    }
    return rattle_alloc(1, 16).ok ? 0 : wrong("nothing is there, though all was given back");
}
int main(void) {
    u8 *room = mmap(0, 1ull << 30, PROT_READ | PROT_WRITE, MAP_PRIVATE | MAP_ANONYMOUS | MAP_NORESERVE, -1, 0);
    if (classes())
        return 1;
    for (int i = 0; i < ROUNDS; i += 1)
        if (round_of(room))
            return 1;
    printf("the heap: %d calls, of which %llu had no memory: none wrong\n", ROUNDS * STEPS, failed);
    return 0;
}
