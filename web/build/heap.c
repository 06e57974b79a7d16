/* The heap of the module: rattle_alloc, rattle_realloc and rattle_dealloc of the kit's libc::heap, where no C library is.
 *
 * Each block has a header of 16 bytes with its class. Classes go up in four steps between two powers of two, so a block has
 * at most a quarter more than was asked. A free block goes to the list of its class, and no two are joined. Fresh bytes are
 * cut off the end of the memory, which grows by memory.grow; where it can't grow, they are cut off the largest free block.
 * So a block is aligned to 16, and the heap does what the kit's guide UNSAFE.md asks of malloc, realloc and free. Addresses
 * have 64 bits here, and are below 2^32. */
typedef unsigned char u8;
typedef unsigned int u32;
typedef unsigned long long u64;

extern u8 __heap_base;
#ifndef memory_size /* tests have one of their own */
#define memory_size() __builtin_wasm_memory_size(0)
#define memory_grow(pages) __builtin_wasm_memory_grow(0, pages)
#endif

#define PAGE 65536ull       /* bytes */
#define MOST_PAGES 65536ull /* 4 GiB, all that 32-bit addresses reach */
#define HEAD 16ull
#define CLASSES 140 /* the last has LARGEST bytes */
#define LARGEST (1ull << 40)

struct tried {
    u64 ok;
    void *p;
};

struct head {
    u64 class;
    struct head *next;
};

static struct head *free_lists[CLASSES];
static u64 fresh_at, fresh_end;

/* The bytes of a class: 16, 32, 48, 64, 80, 96, 112, 128, then 160, 192, 224, 256, 320, .. */
static u64 size_of(u64 class) {
    if (class < 8)
        return (class + 1) * 16;
    u64 power = (class - 8) / 4, step = (class - 8) % 4 + 1;
    return (128ull << power) + step * (32ull << power);
}

/* The smallest class that has n bytes. */
static u64 class_of(u64 n) {
    if (n <= 128)
        return n == 0 ? 0 : (n - 1) / 16;
    u64 power = 63 - __builtin_clzll((n - 1) >> 7); /* 128 << power < n <= 256 << power */
    u64 over = n - 1 - (128ull << power);
    return 8 + 4 * power + over / (32ull << power);
}

static void put_in_list(struct head *block) {
    block->next = free_lists[block->class];
    free_lists[block->class] = block;
}

/* Puts what is left of the fresh bytes to the free blocks: the largest class that fits. What is after that is lost. */
static void put_rest_away(void) {
    u64 rest = fresh_end - fresh_at;
    if (rest < HEAD + 16)
        return;
    u64 class = class_of(rest - HEAD);
    if (size_of(class) > rest - HEAD)
        class -= 1;
    struct head *block = (struct head *)fresh_at;
    block->class = class;
    put_in_list(block);
}

/* Gives the memory so many pages more, if it can. That it can't is told as -1 of 32 bits, or of 64 before the addresses are
 * lowered. */
static _Bool grows_by(u64 pages) {
    return pages <= MOST_PAGES && (u32)memory_grow(pages) != (u32)-1;
}

/* Has the largest free block of at least n bytes, with its head, as the fresh bytes. */
static _Bool break_a_free_block(u64 n) {
    for (u64 class = CLASSES; class-- > 0 && HEAD + size_of(class) >= n;) {
        struct head *block = free_lists[class];
        if (block == 0)
            continue;
        free_lists[class] = block->next;
        put_rest_away();
        fresh_at = (u64)block;
        fresh_end = fresh_at + HEAD + size_of(class);
        return 1;
    }
    return 0;
}

/* Has at least n fresh bytes: of more memory, an eighth more where it can grow by so much, or else of a free block. */
static _Bool has_fresh(u64 n) {
    u64 end = memory_size() * PAGE, room = fresh_end == end ? fresh_end - fresh_at : 0;
    u64 wanted = (n - room + PAGE - 1) / PAGE, pages = end / PAGE / 8;
    if (pages < wanted || !grows_by(pages)) {
        if (!grows_by(wanted))
            return break_a_free_block(n);
        pages = wanted;
    }
    if (fresh_end != end) {
        put_rest_away();
        fresh_at = end;
    }
    fresh_end = end + pages * PAGE;
    return 1;
}

static void *fresh(u64 class) {
    u64 n = HEAD + size_of(class);
    if (fresh_at == 0) {
        fresh_at = ((u64)&__heap_base + 15) & ~15ull;
        fresh_end = memory_size() * PAGE;
    }
    if (n > fresh_end - fresh_at && !has_fresh(n))
        return 0;
    struct head *block = (struct head *)fresh_at;
    fresh_at += n;
    block->class = class;
    return (u8 *)block + HEAD;
}

static void *take(u64 n) {
    if (n > LARGEST)
        return 0;
    u64 class = class_of(n);
    struct head *block = free_lists[class];
    if (block == 0)
        return fresh(class);
    free_lists[class] = block->next;
    return (u8 *)block + HEAD;
}

static void give(void *p) {
    if (p != 0)
        put_in_list((struct head *)((u8 *)p - HEAD));
}

/* The block with at least n bytes, where it stands unless it is too short or much too long. */
static void *resize(void *p, u64 n, u64 kept) {
    struct head *block = (struct head *)((u8 *)p - HEAD);
    if (n <= size_of(block->class) && class_of(n) + 4 >= block->class)
        return p;
    void *q = take(n);
    if (q == 0)
        return 0;
    __builtin_memcpy(q, p, kept < n ? kept : n);
    give(p);
    return q;
}

static u8 nowhere[16] __attribute__((aligned(16)));

struct tried rattle_alloc(u64 n, u64 alignment) {
    void *p = take(n ? n : alignment);
    return (struct tried){p != 0, p ? p : nowhere};
}

struct tried rattle_realloc(void *p, u64 kept, u64 n, u64 alignment) {
    void *q = resize(p, n ? n : alignment, kept);
    return (struct tried){q != 0, q ? q : nowhere};
}

void rattle_dealloc(void *p) {
    give(p);
}

/* The caller's own blocks, of at least 16 bytes: an address, or 0 where there is no memory. */
__attribute__((export_name("lx_take"))) u32 lx_take(u32 n) {
    return (u32)(u64)take(n);
}

__attribute__((export_name("lx_give"))) void lx_give(u32 address) {
    give((void *)(u64)address);
}
