/* The memory of the module: what the proved library asks for, over WebAssembly's memory.grow.
 *
 * Blocks stand one after another. Each begins with its size, whose lowest bit says that the block is in use, and the
 * size of the block before it; what it holds begins after these 16 bytes, at a multiple of 16. Two free blocks never
 * stand side by side. Free blocks form a list for each power of two. It is for one thread. */
typedef __UINT64_TYPE__ uint64_t;

typedef struct block {
    uint64_t size;             /* of the whole block, a multiple of 16; the lowest bit: in use */
    uint64_t before;           /* the size of the block before it, 0 of the first */
    struct block *next, *last; /* of a free block: its neighbours in the list */
} block;

enum { HEADER = 16, LEAST = 32, PAGE = 65536, STEP = 16 * PAGE, LISTS = 64 };

static block *lists[LISTS];
static block *end; /* behind the last block: a header alone, always in use */

#ifdef __wasm__
/* The memory ends well below 4 GiB: an address below 0, which a stack that is too deep reaches, stays out of bounds
 * where the module is lowered to addresses of 32 bits. */
static const uint64_t PAGES = 65536 - 256;

/* The address of so many more bytes, a multiple of PAGE; 0 where there are none. */
static uint64_t more(uint64_t bytes) {
    uint64_t pages = bytes / PAGE, had = __builtin_wasm_memory_size(0), at;
    if (pages > PAGES || had > PAGES - pages) return 0;
    at = __builtin_wasm_memory_grow(0, pages);
    return at == had ? at * PAGE : 0;
}
#else
uint64_t more(uint64_t bytes);
#endif

static uint64_t size_of(const block *b) { return b->size & ~(uint64_t)1; }
static int in_use(const block *b) { return b->size & 1; }
static block *after(block *b) { return (block *)((char *)b + size_of(b)); }
static int list_of(uint64_t size) { return 63 - __builtin_clzll(size); }

static void enter(block *b, uint64_t size) {
    block **list = &lists[list_of(size)];
    b->size = size;
    after(b)->before = size;
    b->last = 0;
    b->next = *list;
    if (*list) (*list)->last = b;
    *list = b;
}

static void leave(block *b) {
    if (b->last) b->last->next = b->next;
    else lists[list_of(size_of(b))] = b->next;
    if (b->next) b->next->last = b->last;
}

/* Makes a block that was in use free, one with its free neighbours. */
static void release(block *b) {
    uint64_t size = size_of(b);
    block *next = after(b);
    if (!in_use(next)) {
        leave(next);
        size += size_of(next);
    }
    if (b->before) {
        block *before = (block *)((char *)b - b->before);
        if (!in_use(before)) {
            leave(before);
            size += size_of(before);
            b = before;
        }
    }
    enter(b, size);
}

/* Keeps so many bytes of a block in use, and gives back the rest, if that makes a block. */
static void trim(block *b, uint64_t size) {
    uint64_t rest = size_of(b) - size;
    block *next;
    if (rest < LEAST) return;
    b->size = size | 1;
    next = after(b);
    next->size = rest | 1;
    next->before = size;
    after(next)->before = rest;
    release(next);
}

/* Makes more memory a free block of at least so many bytes at the end. Whether there was any. */
static int grow(uint64_t size) {
    uint64_t bytes = (size + 2 * HEADER + STEP - 1) / STEP * STEP, at = more(bytes);
    block *b;
    if (!at) return 0;
    if (end && (uint64_t)end + HEADER == at) {
        b = end; /* it knows the block before it */
        b->size = bytes | 1;
    } else {
        b = (block *)at;
        b->before = 0;
        b->size = (bytes - HEADER) | 1;
    }
    end = after(b);
    end->size = HEADER | 1;
    end->before = size_of(b);
    release(b);
    return 1;
}

static uint64_t block_size(uint64_t bytes) {
    uint64_t size = (bytes + HEADER + 15) / 16 * 16;
    return size < LEAST ? LEAST : size;
}

/* A free block of at least so many bytes, or 0. */
static block *find(uint64_t size) {
    int list = list_of(size);
    for (block *b = lists[list]; b; b = b->next)
        if (size <= size_of(b)) return b;
    for (list++; list < LISTS; list++)
        if (lists[list]) return lists[list];
    return 0;
}

static int too_large(uint64_t bytes) { return bytes >> 40 != 0; }

__attribute__((export_name("gco_malloc"))) void *gco_malloc(uint64_t bytes) {
    uint64_t size = block_size(bytes);
    block *b;
    if (too_large(bytes)) return 0;
    b = find(size);
    if (!b) {
        if (!grow(size)) return 0;
        b = find(size);
    }
    leave(b);
    b->size |= 1;
    trim(b, size);
    return (char *)b + HEADER;
}

__attribute__((export_name("gco_free"))) void gco_free(void *p) {
    if (p) release((block *)((char *)p - HEADER));
}

/* The block with another size, moved where it does not fit; 0 where there is no memory, and then it is as it was. */
static void *resized(void *p, uint64_t bytes) {
    block *b = (block *)((char *)p - HEADER), *next = after(b);
    uint64_t size = block_size(bytes), had = size_of(b);
    void *to;
    if (too_large(bytes)) return 0;
    if (had < size && !in_use(next) && size <= had + size_of(next)) {
        leave(next);
        b->size += size_of(next);
        after(b)->before = size_of(b);
    }
    if (size <= size_of(b)) {
        trim(b, size);
        return p;
    }
    to = gco_malloc(bytes);
    if (!to) return 0;
    __builtin_memcpy(to, p, had - HEADER);
    gco_free(p);
    return to;
}

/* The three calls that the proved library makes. Alignments are at most 16. Where no bytes are wanted, so many as the
 * alignment are taken. */
typedef struct tried {
    uint64_t ok;
    void *p;
} tried;

static char nothing; /* what is pointed to where there is no memory */

static tried told(void *p) {
    tried answer = {p != 0, p ? p : &nothing};
    return answer;
}

tried rattle_alloc(uint64_t bytes, uint64_t alignment) { return told(gco_malloc(bytes ? bytes : alignment)); }

tried rattle_realloc(void *p, uint64_t kept, uint64_t bytes, uint64_t alignment) {
    (void)kept;
    return told(resized(p, bytes ? bytes : alignment));
}

void rattle_dealloc(void *p) { gco_free(p); }
