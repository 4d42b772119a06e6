/* The three calls for memory that a proved library or program makes, over malloc. The contracts of the toolchain's
 * libc::heap say what each owes. Alignments are at most 16, which malloc keeps. */
#include <stdint.h>
#include <stdlib.h>

typedef struct tried {
    uint64_t ok;
    void *p;
} tried;

static char nothing; /* what is pointed to where there is no memory */

static tried told(void *p) {
    tried answer = {p != NULL, p ? p : &nothing};
    return answer;
}

tried rattle_alloc(uint64_t bytes, uint64_t alignment) { return told(malloc(bytes ? bytes : alignment)); }

tried rattle_realloc(void *p, uint64_t kept, uint64_t bytes, uint64_t alignment) {
    (void)kept;
    return told(realloc(p, bytes ? bytes : alignment));
}

void rattle_dealloc(void *p) { free(p); }
