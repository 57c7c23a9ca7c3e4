/* The heap of the WebAssembly module: what compiled Rattle code calls to get and give back memory, over the
 * module's own linear memory. No proof covers this file. It needs no C library and imports nothing.
 *
 * It is a two-level segregated fit (TLSF). Free blocks are in lists by size: 16 lists for each power of two,
 * and two words of bits say which lists have a block. So each call takes a bounded time, whatever was asked
 * for before, apart from the copy of a block that has to move. Neighbouring free blocks are joined at once.
 *
 * A block is a header of 16 bytes and then its room, a multiple of 16 bytes. All addresses are multiples of
 * 16. The memory grows by whole pages when no free block fits; if the host refuses, the call is refused. */

typedef unsigned long word;
_Static_assert(sizeof(word) == 8 && sizeof(void *) == 8, "a memory of 64 bits");

typedef struct Block {
    struct Block *before; /* the block below this one in memory, or 0 */
    word size;            /* the room in bytes; the lowest bit says that the block is free */
    /* Of a free block, the room begins with these: */
    struct Block *next, *last;
} Block;

enum { HEADER = 16, LEAST = 16, STEPS = 16, STEP_BITS = 4, LEVELS = 40, PAGE = 65536 };
#define FREE 1ul
#define MOST (1ul << 40) /* blocks are smaller than this */

/* What a call of Rattle answers: struct Tried of the library libc, whose `ok` is a bool. */
typedef struct {
    word ok;
    void *p;
} Tried;

extern unsigned char __heap_base;
static Block *lists[LEVELS][STEPS];
static word levels;         /* which rows of lists have a block */
static word steps[LEVELS];  /* which lists of a row have one */
static Block *top;          /* the block of size 0 that ends the memory */
static word in_use;         /* bytes of blocks that are taken, with their headers */
/* The place that a refused call answers, as the native heap's. */
static _Alignas(16) unsigned char nothing[16];

#ifdef PAFJIRN_TESTS
/* The first call that is refused, with all later ones, counted from 1; 0 for none. Only a build for tests has
 * it. */
static word refused, calls;
__attribute__((export_name("pafjirn_refuse"))) void pafjirn_refuse(word number) {
    refused = number;
    calls = 0;
}
__attribute__((export_name("pafjirn_calls"))) word pafjirn_calls(void) { return calls; }
static int is_refused(void) { return ++calls >= refused && refused; }
#else
static int is_refused(void) { return 0; }
#endif

static word room_of(const Block *block) { return block->size & ~FREE; }
static int is_free(const Block *block) { return (block->size & FREE) != 0; }
static Block *above(const Block *block) {
    return (Block *)((unsigned char *)block + HEADER + room_of(block));
}
static void *memory_of(Block *block) { return (unsigned char *)block + HEADER; }
static Block *block_of(void *memory) { return (Block *)((unsigned char *)memory - HEADER); }
static int highest(word n) { return 63 - __builtin_clzl(n); }

/* The list of a size: below 256 bytes one for each multiple of 16, and from there 16 for each power of two.
 * */
static void list_of(word size, int *level, int *step) {
    if (size < LEAST * STEPS) {
        *level = 0;
        *step = (int)(size / LEAST);
    } else {
        int high = highest(size);
        *level = high - 7;
        *step = (int)(size >> (high - STEP_BITS)) & (STEPS - 1);
    }
}

static void put(Block *block) {
    int level, step;
    list_of(room_of(block), &level, &step);
    Block *first = lists[level][step];
    block->size |= FREE;
    block->next = first;
    block->last = 0;
    if (first) first->last = block;
    lists[level][step] = block;
    levels |= 1ul << level;
    steps[level] |= 1ul << step;
}

static void take_out(Block *block) {
    int level, step;
    list_of(room_of(block), &level, &step);
    if (block->next) block->next->last = block->last;
    if (block->last) {
        block->last->next = block->next;
    } else if (!(lists[level][step] = block->next)) {
        if (!(steps[level] &= ~(1ul << step))) levels &= ~(1ul << level);
    }
    block->size &= ~FREE;
}

/* A free block with this room, out of its list, or 0. Every block of the list that is taken is large enough,
 * since the size is rounded up to the next list's least first. */
static Block *found(word size) {
    int level, step;
    word least = size;
    if (least >= LEAST * STEPS) least += (1ul << (highest(least) - STEP_BITS)) - 1;
    list_of(least, &level, &step);
    word in_row = steps[level] & (~0ul << step);
    if (!in_row) {
        word rows = levels & (~0ul << level << 1);
        if (!rows) return 0;
        level = __builtin_ctzl(rows);
        in_row = steps[level];
    }
    Block *block = lists[level][__builtin_ctzl(in_row)];
    take_out(block);
    return block;
}

/* Joins a free block, which is in no list, with the free blocks beside it, and puts it into its list. */
static void give_back(Block *block) {
    Block *high = above(block), *low = block->before;
    if (is_free(high)) {
        take_out(high);
        block->size += HEADER + high->size;
    }
    if (low && is_free(low)) {
        take_out(low);
        low->size += HEADER + block->size;
        block = low;
    }
    above(block)->before = block;
    put(block);
}

/* Cuts a taken block to a size, and gives the rest back if it can be a block. */
static void cut(Block *block, word size) {
    word rest = block->size - size;
    if (rest < HEADER + LEAST) return;
    block->size = size;
    Block *high = above(block);
    high->before = block;
    high->size = rest - HEADER;
    give_back(high);
}

/* Makes the bytes from `begin` to `end` a free block and the end of the memory. If the memory that there is
 * ends at `begin`, both become one. */
static void add(word begin, word end) {
    Block *block;
    if (top && (word)top + HEADER == begin) {
        block = top;
    } else {
        block = (Block *)begin;
        block->before = 0;
    }
    block->size = end - (word)block - 2 * HEADER;
    top = above(block);
    top->size = 0;
    top->before = block;
    give_back(block);
}

/* Adds memory for a block of this size. Returns whether the host gave it. It asks for an eighth of what there
 * is at once, and for less if that is refused. */
static int grow(word size) {
    if (!top) {
        word begin = ((word)&__heap_base + 15) & ~15ul, end = __builtin_wasm_memory_size(0) * PAGE;
        if (end >= begin + 2 * HEADER + LEAST) {
            add(begin, end);
            if (room_of(top->before) >= size && is_free(top->before)) {
                /* (`found` rounds up, so ask whether it really finds one) */
                Block *block = found(size);
                if (block) {
                    put(block);
                    return 1;
                }
            }
        }
    }
    word now = __builtin_wasm_memory_size(0);
    word least = (size + (size >> STEP_BITS) + 4 * HEADER + PAGE - 1) / PAGE;
    word asked = now / 8 > least ? now / 8 : least;
    word old = __builtin_wasm_memory_grow(0, asked);
    if (old == ~0ul) old = __builtin_wasm_memory_grow(0, asked = least);
    if (old == ~0ul) return 0;
    add(old * PAGE, (old + asked) * PAGE);
    return 1;
}

static word rounded(word size) { return size < LEAST ? LEAST : (size + 15) & ~15ul; }

static void *allocated(word size) {
    if (size >= MOST || is_refused()) return 0;
    size = rounded(size);
    Block *block = found(size);
    if (!block) {
        if (!grow(size)) return 0;
        block = found(size);
        if (!block) return 0;
    }
    cut(block, size);
    in_use += HEADER + block->size;
    return memory_of(block);
}

static void given_back(void *memory) {
    Block *block = block_of(memory);
    in_use -= HEADER + block->size;
    give_back(block);
}

/* Makes a taken block larger by the free block above it, if that is enough. */
static int widened(Block *block, word size) {
    Block *high = above(block);
    if (!is_free(high) || block->size + HEADER + room_of(high) < size) return 0;
    take_out(high);
    block->size += HEADER + high->size;
    above(block)->before = block;
    return 1;
}

static void *resized(void *memory, word kept, word size) {
    if (size >= MOST || is_refused()) return 0;
    Block *block = block_of(memory);
    word had = block->size, wanted = rounded(size);
    if (had >= wanted || widened(block, wanted)) {
        cut(block, wanted);
        in_use += block->size - had;
        return memory;
    }
    /* (a block that has to move is no second call) */
#ifdef PAFJIRN_TESTS
    word was = refused;
    refused = 0;
#endif
    void *made = allocated(size);
#ifdef PAFJIRN_TESTS
    refused = was;
    if (calls) calls--;
#endif
    if (!made) return 0;
    __builtin_memcpy(made, memory, kept < had ? kept : had);
    given_back(memory);
    return made;
}

static Tried tried(void *memory) {
    Tried answer = {memory != 0, memory ? memory : nothing};
    return answer;
}

/* The three functions that compiled Rattle code calls. Alignments divide 16. A block may have no bytes. */
Tried rattle_alloc(word size, word alignment) { return tried(allocated(size ? size : alignment)); }

Tried rattle_realloc(void *memory, word kept, word size, word alignment) {
    return tried(resized(memory, kept, size ? size : alignment));
}

void rattle_dealloc(void *memory) { given_back(memory); }

/* What the host calls: for the texts that it passes, and for handles. */
__attribute__((export_name("pafjirn_room"))) void *pafjirn_room(word size) {
    void *made = allocated(size);
    if (made) __builtin_memset(made, 0, size);
    return made;
}

__attribute__((export_name("pafjirn_give_back"))) void pafjirn_give_back(void *memory) {
    if (memory) given_back(memory);
}

#ifdef PAFJIRN_TESTS
/* Another size for a block, of which this many bytes are kept. 0 where memory is refused: then it stays. */
__attribute__((export_name("pafjirn_resize"))) void *pafjirn_resize(void *memory, word kept, word size) {
    return resized(memory, kept, size);
}
#endif

/* The bytes that are taken now, with their headers. */
__attribute__((export_name("pafjirn_in_use"))) word pafjirn_in_use(void) { return in_use; }
