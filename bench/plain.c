#include "plain.h"
#include <string.h>

static int clipped(int v, int top) { return v < 0 ? 0 : v > top ? top : v; }

/* the mask keeps a sample above the depth inside the table */
static void band_row(const uint16_t *restrict in, uint16_t *restrict out, size_t n, int depth, const int table[32])
{
    for (size_t i = 0; i < n; i++)
        out[i] = clipped(in[i] + table[in[i] >> (depth - 5) & 31], (1 << depth) - 1);
}

/* a and b are the two neighbours of each sample */
static void edge_row(const uint16_t *restrict in, const uint16_t *restrict a, const uint16_t *restrict b, uint16_t *restrict out,
                     size_t n, int depth, const int by_sum[5])
{
    for (size_t i = 0; i < n; i++) {
        int s = in[i];
        int sum = (s > a[i]) - (s < a[i]) + (s > b[i]) - (s < b[i]);
        out[i] = clipped(s + by_sum[2 + sum], (1 << depth) - 1);
    }
}

static void band_block(const uint16_t *in, uint16_t *out, const struct plain_plane *plane, const struct plain_block *block,
                       int position, const int offset[4])
{
    int table[32] = {0};
    for (int k = 0; k < 4; k++)
        table[(position + k) % 32] = offset[k];
    for (size_t y = block->y0; y < block->y1; y++) {
        size_t i = y * plane->width + block->x0;
        band_row(in + i, out + i, block->x1 - block->x0, plane->depth, table);
    }
}

/* samples with a neighbour outside the picture stay as they are */
static void edge_block(const uint16_t *in, uint16_t *out, const struct plain_plane *plane, const struct plain_block *block,
                       int class, const int offset[4])
{
    static const int across[4] = {1, 0, 1, -1}, down[4] = {0, 1, 1, 1};
    const int by_sum[5] = {offset[0], offset[1], 0, offset[2], offset[3]};
    ptrdiff_t step = down[class] * (ptrdiff_t)plane->width + across[class];
    size_t x0 = block->x0, x1 = block->x1;
    if (across[class] && x0 == 0)
        x0++;
    if (across[class] && x1 == plane->width)
        x1--;
    for (size_t y = block->y0; y < block->y1; y++) {
        const uint16_t *row = in + y * plane->width;
        uint16_t *to = out + y * plane->width;
        if (down[class] && (y == 0 || y + 1 == plane->height)) {
            memcpy(to + block->x0, row + block->x0, (block->x1 - block->x0) * sizeof *row);
            continue;
        }
        if (x0 > block->x0)
            to[0] = row[0];
        if (x1 < block->x1)
            to[x1] = row[x1];
        edge_row(row + x0, row + x0 - step, row + x0 + step, to + x0, x1 - x0, plane->depth, by_sum);
    }
}

void plain_copy(const uint16_t *in, uint16_t *out, const struct plain_plane *plane, const struct plain_block *block)
{
    for (size_t y = block->y0; y < block->y1; y++) {
        size_t i = y * plane->width + block->x0;
        memcpy(out + i, in + i, (block->x1 - block->x0) * sizeof *in);
    }
}

void plain_filter(const uint16_t *in, uint16_t *out, const struct plain_plane *plane, const struct plain_block *block,
                  const struct plain_set *set)
{
    int scale = plane->depth > 10 ? 1 << (plane->depth - 10) : 1, offset[4];
    for (int k = 0; k < 4; k++)
        offset[k] = set->offset[k] * scale;
    switch (set->type) {
    case PLAIN_BAND:
        band_block(in, out, plane, block, set->place, offset);
        break;
    case PLAIN_EDGE:
        edge_block(in, out, plane, block, set->place, offset);
        break;
    default:
        plain_copy(in, out, plane, block);
    }
}

/* all samples ORed: one is above the depth exactly if this is */
static uint16_t together(const uint16_t *samples, size_t n)
{
    uint16_t all = 0;
    for (size_t i = 0; i < n; i++)
        all |= samples[i];
    return all;
}

int plain_within(const uint16_t *in, const struct plain_plane *plane, const struct plain_block *block)
{
    size_t x0 = block->x0 - (block->x0 > 0), x1 = block->x1 + (block->x1 < plane->width);
    size_t y0 = block->y0 - (block->y0 > 0), y1 = block->y1 + (block->y1 < plane->height);
    uint16_t all = 0;
    for (size_t y = y0; y < y1; y++)
        all |= together(in + y * plane->width + x0, x1 - x0);
    return all < 1 << plane->depth;
}

int plain_deliver(const uint16_t *samples, uint16_t *out, const struct plain_plane *plane, const struct plain_block *block)
{
    size_t n = block->x1 - block->x0;
    if (together(samples, n * (block->y1 - block->y0)) >= 1 << plane->depth)
        return 0;
    for (size_t y = block->y0; y < block->y1; y++, samples += n)
        memcpy(out + y * plane->width + block->x0, samples, n * sizeof *samples);
    return 1;
}
