/* heap.c by random calls: what each block holds is looked at before it is given back, moved or resized. */
#include <stdio.h>
#include <stdlib.h>
#include <string.h>
#include <sys/mman.h>

#include "../heap.c"

enum { SLOTS = 4000, CALLS = 3000000 };

static char *memory;
static uint64_t used, limit = (uint64_t)1 << 25; /* less than the blocks want now and then */

uint64_t more(uint64_t bytes) {
    static int calls;
    char *at = memory + used;
    if (++calls % 7 == 3) at += PAGE; /* someone else took a page in between */
    if (at + bytes > memory + limit) return 0;
    used = (uint64_t)(at + bytes - memory);
    return (uint64_t)at;
}

typedef struct slot {
    unsigned char *p, byte;
    uint64_t size;
} slot;

static slot slots[SLOTS];

static uint64_t next_random(void) {
    static uint64_t state = 88172645463325252ull;
    state ^= state << 13;
    state ^= state >> 7;
    return state ^= state << 17;
}

static void wants(int holds, const char *what) {
    if (holds) return;
    printf("heap_test: %s\n", what);
    exit(1);
}

static void look_at(const slot *s, uint64_t size) {
    for (uint64_t k = 0; k < size; k += size > 4096 ? 509 : 1) wants(s->p[k] == s->byte, "what a block holds has changed");
}

static void fill(slot *s, tried got, uint64_t size, unsigned char byte) {
    wants(((uint64_t)got.p & 15) == 0, "a block does not begin at a multiple of 16");
    *s = (slot){got.p, byte, size};
    memset(s->p, byte, size);
}

/* One random call; whether there was no memory for it. */
static int call(uint64_t random) {
    slot *s = &slots[(random >> 20) % SLOTS];
    uint64_t most = (random >> 33 & 63) == 0 ? 1500000 : (random >> 33 & 3) ? 300 : 20000, size = (random >> 40) % most;
    if (!s->p) {
        tried got = rattle_alloc(size, 8);
        if (got.ok) fill(s, got, size, (unsigned char)(random >> 56));
        return !got.ok;
    }
    look_at(s, s->size);
    if (random & 4) {
        uint64_t kept = s->size < size ? s->size : size;
        tried got = rattle_realloc(s->p, kept, size, 8);
        if (!got.ok) return 1;
        s->p = got.p;
        look_at(s, kept);
        fill(s, got, size, s->byte);
        return 0;
    }
    rattle_dealloc(s->p);
    s->p = NULL;
    return 0;
}

int main(void) {
    long refused = 0, blocks = 0, parts;
    memory = mmap(NULL, limit, PROT_READ | PROT_WRITE, MAP_PRIVATE | MAP_ANONYMOUS | MAP_NORESERVE, -1, 0);
    wants(memory != MAP_FAILED, "there is no memory for the test");
    for (long k = 0; k < CALLS; k++) refused += call(next_random());
    for (int k = 0; k < SLOTS; k++)
        if (slots[k].p) rattle_dealloc(slots[k].p);
    for (int list = 0; list < LISTS; list++)
        for (block *b = lists[list]; b; b = b->next) blocks++;
    parts = (long)(used / STEP);
    wants(blocks <= parts, "free neighbours were not made one");
    wants(refused > 0, "no call was without memory");
    wants(!gco_malloc((uint64_t)1 << 41), "there was memory for 2 TiB");
    printf("heap_test: %d calls, %ld without memory, %ld free blocks at the end\n", CALLS, refused, blocks);
    return 0;
}
