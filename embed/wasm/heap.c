/*
 * heap.c: the heap of the proved code in a WebAssembly module, from the end of the module's data to the end of its
 * memory, which is grown as blocks need it. Trusted, not proved.
 *
 * Blocks have classes of sizes. A block that is given back goes to the list of its class, and the next block of that
 * class is taken from there. When the last block that is held is given back the heap is as at its beginning: since a
 * call holds nothing when it returns, and its caller gives back what it passed, each call begins with an empty heap,
 * and the memory is as large as the largest call made it.
 *
 * `size` may be 0; a block of its own is given then too. A block of more than LARGEST bytes is refused, and one that is
 * to be aligned to more than 16.
 */
typedef unsigned long u64;
typedef unsigned char u8;

#define UNIT 16ul
#define LARGEST (1ul << 32)
/* Eight classes of 1 to 8 units, and four for each doubling up to LARGEST. */
#define CLASSES (8ul + 4 * 25)
#define PAGE 65536ul
/* The fewest pages that the memory grows by, if it may. */
#define STEP 16ul

/* What stands before the bytes of each block. */
struct block {
    struct block *next;
    u64 class;
};

_Static_assert(sizeof(struct block) == UNIT, "the bytes of a block are aligned to 16");

/* What an allocation gives: 1 and the bytes, or 0 and any address that is not null. */
struct given {
    u64 ok;
    void *at;
};

extern u8 __heap_base;

static struct block *free_blocks[CLASSES];
static u8 *top; /* the first byte that no block has had since the heap was empty; null before the first block */
static u64 held;
static char none;

static u8 *bottom(void) { return (u8 *)(((u64)&__heap_base + UNIT - 1) & ~(UNIT - 1)); }

/* The class of the smallest blocks with so many bytes. */
static u64 class_of(u64 size) {
    u64 last = size == 0 ? 0 : (size - 1) / UNIT;
    if (last < 8) return last;
    u64 shift = 61 - (u64)__builtin_clzl(last);
    return 4 * shift + (last >> shift);
}

/* The bytes of the blocks of a class. */
static u64 size_of(u64 class) {
    if (class < 8) return (class + 1) * UNIT;
    u64 shift = class / 4 - 1;
    return ((class % 4 + 5) << shift) * UNIT;
}

/* Whether the memory has so many bytes from `top` on, after it was grown if need be. */
static _Bool reaches(u64 size) {
    u64 end = (u64)top + size, had = __builtin_wasm_memory_size(0);
    if (end <= had * PAGE) return 1;
    u64 pages = (end + PAGE - 1) / PAGE - had;
    if (pages < STEP && __builtin_wasm_memory_grow(0, STEP) != ~0ul) return 1;
    return __builtin_wasm_memory_grow(0, pages) != ~0ul;
}

/* The bytes of a block, or null. */
static void *take(u64 size) {
    if (size > LARGEST) return 0;
    if (top == 0) top = bottom();
    u64 class = class_of(size), whole = sizeof(struct block) + size_of(class);
    struct block *block = free_blocks[class];
    if (block) {
        free_blocks[class] = block->next;
    } else {
        if (!reaches(whole)) return 0;
        block = (struct block *)top;
        block->class = class;
        top += whole;
    }
    held++;
    return block + 1;
}

static void give_back(void *at) {
    struct block *block = (struct block *)at - 1;
    if (held == 0 || block->class >= CLASSES) __builtin_trap();
    block->next = free_blocks[block->class];
    free_blocks[block->class] = block;
    if (--held == 0) {
        for (u64 class = 0; class < CLASSES; class++) free_blocks[class] = 0;
        top = bottom();
    }
}

static struct given given(void *at) { return (struct given){.ok = at != 0, .at = at ? at : &none}; }

struct given rattle_alloc(u64 size, u64 align) { return given(align > UNIT ? 0 : take(size)); }

/* A block stays where it is if the new size is one of its class, or if a smaller block is refused. */
struct given rattle_realloc(void *at, u64 kept, u64 size, u64 align) {
    u64 room = size_of(((struct block *)at - 1)->class);
    if (size <= LARGEST && size_of(class_of(size)) == room) return given(at);
    void *to = align > UNIT ? 0 : take(size);
    if (to == 0) return given(size <= room ? at : 0);
    __builtin_memcpy(to, at, kept < size ? kept : size);
    give_back(at);
    return given(to);
}

void rattle_dealloc(void *at) { give_back(at); }

/* For the caller of the module: a block for the bytes that it passes, or null. */
__attribute__((export_name("host_alloc"))) void *host_alloc(u64 size) { return take(size); }

__attribute__((export_name("host_free"))) void host_free(void *at) {
    if (at) give_back(at);
}

/* The bytes that blocks have now, with what stands before them. */
__attribute__((export_name("heap_used"))) u64 heap_used(void) { return held == 0 ? 0 : (u64)(top - bottom()); }
