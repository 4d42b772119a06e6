/* Each call of gco_pictures.h: worked examples, every status but that of memory, every field that a call tells, what a
 * refusal leaves, and four threads at once. It exits with the first line that fails. */
#include <pthread.h>
#include <stdio.h>
#include <string.h>
#include "gco_pictures.h"

#define WANT(x)                                                   \
    do {                                                          \
        if (!(x)) {                                               \
            printf("tests/images.c:%d: %s\n", __LINE__, #x);      \
            return 1;                                             \
        }                                                         \
    } while (0)

enum { ROOM = 64 };

/* What one call reads, and what it made. */
typedef struct call {
    gco_restore_options restore;
    gco_stereo_options stereo;
    gco_segment_options segment;
    const char *input;
    size_t length, room;
    uint8_t out[ROOM];
    gco_picture_told told;
} call;

static call begin(const char *input, size_t length) {
    call c = {.restore = {.smooth = GCO_POTTS, .trunc = 1, .weight = 1, .cycles = 100},
              .stereo = {.labels = 2, .cap = 20, .trunc = 1, .weight = 1, .cycles = 100},
              .segment = {.low = 0, .high = 200, .strong = 20, .weak = 5, .edge = 5, .cycles = 100},
              .input = input,
              .length = length,
              .room = ROOM};
    memset(c.out, 7, ROOM);
    memset(&c.told, 0xff, sizeof c.told);
    return c;
}

#define BEGIN(text) begin(text, sizeof text - 1)

static uint32_t restore(call *c) {
    return gco_restore_pgm(&c->restore, (const uint8_t *)c->input, c->length, c->out, c->room, &c->told);
}

static uint32_t stereo(call *c) {
    return gco_stereo_pgm(&c->stereo, (const uint8_t *)c->input, c->length, c->out, c->room, &c->told);
}

static uint32_t segment(call *c) {
    return gco_segment_pgm(&c->segment, (const uint8_t *)c->input, c->length, c->out, c->room, &c->told);
}

/* whether this was told, and 0 in each field that is not named */
static int tells(const call *c, gco_picture_told due) {
    const gco_picture_told *t = &c->told;
    return t->energy == due.energy && t->data == due.data && t->smooth == due.smooth && t->label == due.label
        && t->bytes == due.bytes && t->place == due.place && t->vmin == due.vmin && t->vmax == due.vmax
        && t->alpha == due.alpha && t->beta == due.beta;
}

/* whether the buffer begins with this and is as it was behind that */
static int holds(const call *c, const char *text, size_t length) {
    for (size_t k = length; k < ROOM; k++)
        if (c->out[k] != 7) return 0;
    return memcmp(c->out, text, length) == 0;
}

#define HOLDS(c, text) holds(&(c), text, sizeof text - 1)

#define ROW "P5\n3 1\n3\n\0\003\0"
#define VIEWS "P5\n4 1\n99\n\n\024\036\050P5\n4 1\n99\n\024\036\050\0"
#define MARKED "P5\n3 1\n255\n\0\0\310P5\n3 1\n2\n\002\0\0"

static int worked(void) {
    call c = BEGIN(ROW);
    WANT(restore(&c) == GCO_PICTURE_OK && HOLDS(c, "P5\n3 1\n3\n\0\003\0"));
    WANT(tells(&c, (gco_picture_told){.energy = 2, .smooth = 2, .bytes = 12, .vmin = 1, .vmax = 1}));
    /* the level in the middle costs more than it gives */
    c = BEGIN(ROW);
    c.restore.label_cost = 2;
    WANT(restore(&c) == GCO_PICTURE_OK && HOLDS(c, "P5\n3 1\n3\n\0\0\0"));
    WANT(tells(&c, (gco_picture_told){.energy = 5, .data = 3, .label = 2, .bytes = 12}));
    /* all but the left column moved by one */
    c = BEGIN(VIEWS);
    WANT(stereo(&c) == GCO_PICTURE_OK && HOLDS(c, "P5\n4 1\n1\n\0\001\001\001"));
    WANT(tells(&c, (gco_picture_told){.energy = 11, .data = 10, .smooth = 1, .bytes = 13, .vmin = 1, .vmax = 1}));
    /* a seed of label 1 beside a sample of label 0 */
    c = BEGIN(MARKED);
    c.room = 12;
    WANT(segment(&c) == GCO_PICTURE_OK && HOLDS(c, "P5\n3 1\n1\n\001\0\001"));
    WANT(tells(&c, (gco_picture_told){.energy = 25, .smooth = 25, .bytes = 12}));
    return 0;
}

/* a call that is refused: the status, what is told, and a buffer that is as it was */
#define REFUSED(run, c, status, ...) WANT(run(&(c)) == (status) && tells(&(c), (gco_picture_told){__VA_ARGS__}) && holds(&(c), "", 0))
#define REFUSES(run, text, status, ...)           \
    do {                                          \
        call c = BEGIN(text);                     \
        REFUSED(run, c, status, __VA_ARGS__);     \
    } while (0)

static int refused(void) {
    call c = BEGIN(MARKED);
    c.room = 11;
    REFUSED(segment, c, GCO_PICTURE_NO_ROOM, .bytes = 12);
    c = BEGIN("P6");
    c.segment.edge = 65536;
    c.segment.neighbours = 2;
    REFUSED(segment, c, GCO_PICTURE_OPTION_RANGE, .place = 4);
    c = BEGIN(VIEWS);
    c.stereo.labels = 0;
    REFUSED(stereo, c, GCO_PICTURE_OPTION_RANGE, .place = 0);
    c = BEGIN(ROW);
    c.restore.label_cost = 10000001;
    REFUSED(restore, c, GCO_PICTURE_OPTION_RANGE, .place = 6);
    REFUSES(restore, "P6\n1 1\n255\n\0\0\0", GCO_PICTURE_NOT_PGM, .place = 0);
    REFUSES(segment, "P5\n1 1\n1\n\0", GCO_PICTURE_NOT_PGM, .place = 0);
    REFUSES(restore, "P5\n3 z", GCO_PICTURE_BAD_HEADER, .place = 5);
    REFUSES(segment, "P5\n1 1\n1\n\0P5\n3 z", GCO_PICTURE_BAD_HEADER, .place = 15);
    REFUSES(restore, "P5\n0 1\n1\n", GCO_PICTURE_ZERO_SIZE, .place = 0);
    REFUSES(restore, "P5\n4097 1\n1\n", GCO_PICTURE_TOO_LARGE, .place = 0);
    REFUSES(restore, "P5\n1 1\n0\n\0", GCO_PICTURE_BAD_MAXVAL, .place = 0);
    REFUSES(restore, "P5\n2 1\n1\n\0", GCO_PICTURE_TRUNCATED, .place = 0);
    REFUSES(restore, "P5\n2 1\n1\n\0\002", GCO_PICTURE_SAMPLE_ABOVE_MAX, .place = 1);
    REFUSES(restore, "P2\n2 1\n1\n0;1", GCO_PICTURE_BAD_SAMPLE, .place = 10);
    REFUSES(stereo, "P5\n1 1\n1\n\0P5\n2 1\n1\n\0\0", GCO_PICTURE_SIZES_DIFFER, .place = 0);
    REFUSES(segment, "P5\n2 1\n1\n\0\0P5\n2 1\n3\n\0\003", GCO_PICTURE_BAD_SEED, .place = 1);
    REFUSES(restore, "P5\n1 1\n256\n\0\0", GCO_PICTURE_TOO_MANY_LEVELS, .place = 0);
    c = BEGIN(ROW);
    c.restore.moves = GCO_SWAP_MOVES;
    c.restore.label_cost = 1;
    REFUSED(restore, c, GCO_PICTURE_LABEL_COST_IN_SWAP, .place = 0);
    /* the shifts 0 and 2 side by side cost 4, and those of 0 and 1 and of 1 and 2 one each */
    c = BEGIN("P5\n4 1\n255\n\012\310\074\310P5\n4 1\n255\n\012\310\074\144");
    c.stereo = (gco_stereo_options){.labels = 3, .cap = 90, .smooth = GCO_QUADRATIC, .trunc = 9, .weight = 1, .cycles = 100};
    REFUSED(stereo, c, GCO_PICTURE_NOT_REGULAR, .place = 2, .alpha = 1, .beta = 1);
    return 0;
}

static void *in_thread(void *failures) {
    for (int k = 0; k < 200; k++) *(int *)failures += worked() + refused();
    return NULL;
}

int main(void) {
    pthread_t threads[4];
    int failures[4] = {0};
    if (worked() || refused()) return 1;
    for (int k = 0; k < 4; k++) WANT(pthread_create(&threads[k], NULL, in_thread, &failures[k]) == 0);
    for (int k = 0; k < 4; k++) {
        pthread_join(threads[k], NULL);
        WANT(failures[k] == 0);
    }
    puts("images.c: every call, every status but that of memory, four threads");
    return 0;
}
