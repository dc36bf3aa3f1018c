/* The stage's work on one block in plain C, as a receiver maker would write it: what the benchmark compares with. */
#ifndef PLAIN_H
#define PLAIN_H
#include <stddef.h>
#include <stdint.h>

/* columns x0 up to and without x1, rows y0 up to and without y1 */
struct plain_block {
    size_t x0, x1, y0, y1;
};

struct plain_plane {
    size_t width, height;
    int depth;
};

enum plain_type { PLAIN_OFF, PLAIN_BAND, PLAIN_EDGE };

/* place is the band's position or the edge's class; the offsets are as coded */
struct plain_set {
    int type, place, offset[4];
};

/* filters one block from a plane into another */
void plain_filter(const uint16_t *in, uint16_t *out, const struct plain_plane *plane, const struct plain_block *block,
                  const struct plain_set *set);

/* whether the samples of one block, and those around it, are within the depth */
int plain_within(const uint16_t *in, const struct plain_plane *plane, const struct plain_block *block);

/* copies one block from a plane into another, row by row */
void plain_copy(const uint16_t *in, uint16_t *out, const struct plain_plane *plane, const struct plain_block *block);

/* checks the samples of one block and copies them into a plane; 0 if one is above the depth, and then nothing is copied */
int plain_deliver(const uint16_t *samples, uint16_t *out, const struct plain_plane *plane, const struct plain_block *block);
#endif
