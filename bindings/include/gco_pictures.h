/* gco_pictures: the image commands of gco, from the bytes of PGM to the bytes of PGM: take noise out of a picture, find
 * the shifts between two views, part a picture in two. docs/IMAGES.md says what each command minimises, and docs/PGM.md
 * which pictures are read. The bytes that a call writes are those that the program `gco` writes.
 *
 * One call is one whole picture: the library keeps nothing between calls, has no state of its own, and may be called
 * from many threads at once. Nothing is to be opened, closed or freed.
 *
 *     gco_restore_options options = {.smooth = GCO_POTTS, .trunc = 1, .weight = 4, .cycles = 100};
 *     gco_picture_told told;
 *     uint8_t *out = malloc(length + 2);                           // room for each picture that may be written
 *     uint32_t status = gco_restore_pgm(&options, input, length, out, length + 2, &told);
 *     // status == GCO_PICTURE_OK, the first told.bytes bytes of out are a PGM picture, told.energy is its energy
 *
 * What the caller owes, since nothing in C can test it: each array has as many elements as its count says, overlaps no
 * other that the call writes, and is left alone by other threads while the call runs. What a call writes are `out` and
 * `told`, nothing else. Its memory comes from malloc and is given back before it returns.
 *
 * What the caller may give: anything else. Each option and each byte is tested before it is used, and what is wrong is
 * told by the status: the first that holds in the order of the list below. Where the status is not GCO_PICTURE_OK, `out`
 * is as it was. */
#ifndef GCO_PICTURES_H
#define GCO_PICTURES_H

#include <stddef.h>
#include <stdint.h>

#ifdef __cplusplus
extern "C" {
#endif

enum { GCO_POTTS = 0, GCO_LINEAR = 1, GCO_QUADRATIC = 2 };          /* the cost of two labels at a pair of pixels */
enum { GCO_FOUR_NEIGHBOURS = 0, GCO_EIGHT_NEIGHBOURS = 1 };         /* which pixels are pairs */
enum { GCO_EXPANSION_MOVES = 0, GCO_SWAP_MOVES = 1 };

/* The options of restoring a picture, whose labels are its grey levels. */
typedef struct gco_restore_options {
    uint32_t smooth;     /* GCO_POTTS, GCO_LINEAR or GCO_QUADRATIC */
    uint32_t trunc;      /* 1 to 10,000: at what a linear or quadratic cost is cut off */
    uint32_t weight;     /* 0 to 1,000: the weight of each pair */
    uint32_t neighbours; /* GCO_FOUR_NEIGHBOURS or GCO_EIGHT_NEIGHBOURS */
    uint32_t moves;      /* GCO_EXPANSION_MOVES or GCO_SWAP_MOVES */
    uint32_t cycles;     /* 0 to 1,000: the most cycles; the program's default is 100 */
    uint32_t label_cost; /* 0 to 10,000,000: what each level costs by itself, wherever a pixel has it */
} gco_restore_options;

/* The options of matching two views: a label is how many columns further left the right view shows the same. */
typedef struct gco_stereo_options {
    uint32_t labels; /* 1 to 256: how many labels there are */
    uint32_t cap;    /* 0 to 10,000,000: at what the cost of a label at a pixel is cut off */
    uint32_t smooth, trunc, weight, neighbours, moves, cycles; /* as above */
} gco_stereo_options;

/* The options of parting a picture in two. */
typedef struct gco_segment_options {
    uint32_t low;    /* 0 to 65,535: the sample of label 0 */
    uint32_t high;   /* 0 to 65,535: the sample of label 1 */
    uint32_t strong; /* 0 to 1,000: the weight of a pair whose samples differ by at most `edge` */
    uint32_t weak;   /* 0 to 1,000: the weight of another pair */
    uint32_t edge;   /* 0 to 65,535 */
    uint32_t neighbours, cycles; /* as above */
} gco_segment_options;

/* What a call tells beside its status; all of it is written by each call, 0 where nothing is said. */
typedef struct gco_picture_told {
    int64_t energy;              /* the sum of the next three */
    int64_t data, smooth, label; /* what the labels cost the pixels, the pairs, and by themselves */
    uint64_t bytes;              /* how many bytes the picture has, also where `out` has fewer */
    uint64_t place;              /* refused: the place that the status names, from 0 */
    uint64_t vmin, vmax;         /* where they are not 0, vmin times the energy is at most twice vmax times the least of all
                                  * labellings (as in gco.h); gco_segment_pgm tells none */
    uint32_t alpha, beta;        /* GCO_PICTURE_NOT_REGULAR: the labels of the move, twice the same of an expansion */
} gco_picture_told;

/* Statuses, in the order of the tests. Those that gco.h has, too, have its numbers. */
enum {
    GCO_PICTURE_OK = 0,
    GCO_PICTURE_OUT_OF_MEMORY = 1,     /* may come at any test behind the options */
    GCO_PICTURE_OPTION_RANGE = 41,     /* option `place` of the options, in their order, is out of its range: the first such */
    GCO_PICTURE_NOT_PGM = 30,          /* no picture stands there: it begins neither with P5 nor with P2 */
    GCO_PICTURE_BAD_HEADER = 31,       /* the header of a picture cannot go on at byte `place` of the input */
    GCO_PICTURE_ZERO_SIZE = 32,        /* a picture has no columns or no rows */
    GCO_PICTURE_TOO_LARGE = 33,        /* a side is above 4,096, or there are more than 1,048,576 samples */
    GCO_PICTURE_BAD_MAXVAL = 34,       /* a maxval is 0 or above 65,535 */
    GCO_PICTURE_TRUNCATED = 35,        /* the input ends before the last sample */
    GCO_PICTURE_SAMPLE_ABOVE_MAX = 36, /* sample `place` of a picture is above its maxval */
    GCO_PICTURE_BAD_SAMPLE = 37,       /* byte `place` of the input cannot stand among the samples of P2 */
    GCO_PICTURE_SIZES_DIFFER = 38,     /* the second picture has another width or height */
    GCO_PICTURE_BAD_SEED = 39,         /* gco_segment_pgm: sample `place` of the seeds is above 2, the first such */
    GCO_PICTURE_TOO_MANY_LEVELS = 40,  /* gco_restore_pgm: the maxval is above 255 */
    GCO_PICTURE_LABEL_COST_IN_SWAP = 27, /* gco_restore_pgm: swaps, where a label costs more than 0 by itself */
    GCO_PICTURE_NOT_REGULAR = 24,      /* the term of pair `place` in the move of alpha and beta is not regular: the smooth
                                        * cost is no metric */
    GCO_PICTURE_NO_ROOM = 42           /* `out` is too small: the picture has `bytes` bytes */
};

/* Restores the picture at the front of the input, and writes the levels with its maxval. Beyond the header the written
 * picture has a byte for each sample: a buffer of 2 bytes more than the input is always enough. So it is below. */
uint32_t gco_restore_pgm(const gco_restore_options *options, const uint8_t *input, size_t input_length,
                         uint8_t *out, size_t room, gco_picture_told *told);

/* Matches the left view at the front of the input and the right one behind it, and writes the shifts of the left one's
 * pixels. Their maxval is the greatest label, but at least 1. */
uint32_t gco_stereo_pgm(const gco_stereo_options *options, const uint8_t *input, size_t input_length,
                        uint8_t *out, size_t room, gco_picture_told *told);

/* Parts the picture at the front of the input in two, by the seeds behind it: 0 (free), 1 (label 0) and 2 (label 1).
 * Writes the labels with maxval 1. */
uint32_t gco_segment_pgm(const gco_segment_options *options, const uint8_t *input, size_t input_length,
                         uint8_t *out, size_t room, gco_picture_told *told);

#ifdef __cplusplus
}
#endif

#endif
