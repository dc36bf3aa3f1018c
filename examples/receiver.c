/* A small receiver: one picture through the stage, with content that it makes itself.
 *
 * usage: receiver [FILE]
 *
 * The sets arrive as bins CTU by CTU and the deblocked blocks in a shuffled order. Each block is filtered as soon as
 * the stage accepts it, and finished rows go to the reference store as they grow. Given a FILE, the receiver also
 * writes the picture there, so that another program can judge it.
 *
 * It is C99 and C++98 at once, which is why memory is cast and fields are set one by one.
 */
#include <inttypes.h>
#include <stdio.h>
#include <stdlib.h>
#include <string.h>
#include "steamgusset.h"

enum { COMPONENTS = 3, SETS = 8 };

/* ---- what can go wrong */

static void fail(const char *what, const char *why)
{
    fprintf(stderr, "receiver: %s: %s\n", what, why);
    exit(1);
}

/* For an answer that has to be SG_OK. */
static void must(const char *call, uint32_t answer)
{
    if (answer != SG_OK)
        fail(call, sg_reason(answer));
}

/* A header of another version would lend what the archive does not expect. */
static void check_version(void)
{
    if (sg_version() / 65536 != SG_VERSION_MAJOR || sg_version() < SG_VERSION)
        fail("libsteamgusset.a", "it is another version's than steamgusset.h");
}

/* An absent plane has length 0 and needs no memory. */
static void *room(size_t count, size_t size)
{
    if (count == 0)
        return NULL;
    void *memory = malloc(count * size);
    if (memory == NULL)
        fail("memory", "there is not enough");
    return memory;
}

static uint16_t *room_for_samples(size_t count)
{
    return (uint16_t *)room(count, sizeof(uint16_t));
}

static uint8_t *room_for_bytes(size_t count)
{
    return (uint8_t *)room(count, 1);
}

/* ---- a picture: the state and all that is lent with it */

struct picture {
    sg_state state;
    sg_picture_sizes sizes;
    uint16_t *deblocked[COMPONENTS];
    uint16_t *filtered[COMPONENTS];
    uint8_t *marks;
    uint8_t *table;
    uint8_t set[SG_SET_BYTES]; /* the last one read */
};

/* No buffer has to be cleared: open sets the marks, and the stage uses no set or sample that was not stored since. */
static void open_picture(struct picture *p, const sg_state *description)
{
    memset(p, 0, sizeof *p);
    p->state = *description;
    must("sizes", sg_sizes(&p->state, &p->sizes));
    for (int i = 0; i < COMPONENTS; i++) {
        p->deblocked[i] = room_for_samples(p->sizes.samples[i]);
        p->filtered[i] = room_for_samples(p->sizes.samples[i]);
    }
    p->marks = room_for_bytes(p->sizes.marks);
    p->table = room_for_bytes(p->sizes.table);
    must("open", sg_open(&p->state, p->marks, p->sizes.marks));
}

static void close_picture(struct picture *p)
{
    for (int i = 0; i < COMPONENTS; i++) {
        free(p->deblocked[i]);
        free(p->filtered[i]);
    }
    free(p->marks);
    free(p->table);
}

/* The calls on a picture, with its buffers and their lengths put in. */

static uint32_t read_set(struct picture *p, const uint8_t *bins, size_t bytes, size_t count)
{
    return sg_read(&p->state, bins, bytes, count, p->table, p->sizes.table, p->set);
}

static uint32_t write_set(struct picture *p, const uint8_t set[SG_SET_BYTES], uint8_t *out, size_t bytes, size_t *count)
{
    return sg_write(&p->state, set, out, bytes, p->table, p->sizes.table, count);
}

static uint32_t deliver(struct picture *p, uint32_t component, uint32_t ctb, const uint16_t *samples, size_t length)
{
    const size_t *n = p->sizes.samples;
    return sg_deliver(&p->state, component, ctb, samples, length, p->deblocked[0], n[0], p->deblocked[1], n[1],
                      p->deblocked[2], n[2], p->marks, p->sizes.marks);
}

static uint32_t filter(struct picture *p, uint32_t component, uint32_t ctb)
{
    const size_t *n = p->sizes.samples;
    return sg_filter(&p->state, component, ctb, p->deblocked[0], n[0], p->deblocked[1], n[1], p->deblocked[2], n[2],
                     p->filtered[0], n[0], p->filtered[1], n[1], p->filtered[2], n[2], p->marks, p->sizes.marks,
                     p->table, p->sizes.table);
}

static uint32_t finished_rows(const struct picture *p, uint32_t component, sg_rows *finished)
{
    const size_t *n = p->sizes.samples;
    return sg_finished_rows(&p->state, component, p->filtered[0], n[0], p->filtered[1], n[1], p->filtered[2], n[2],
                            p->marks, p->sizes.marks, finished);
}

/* ---- what a stream brings: bins for each CTU, and planes that the deblocking filter has made */

struct stream {
    uint8_t bins[SETS][SG_BINS_BYTES];
    size_t counts[SETS];
    uint16_t *planes[COMPONENTS];
};

#define OFF 0, 0, 0, 0, 0, 0
#define BAND(position, a, b, c, d) 1, position, 128 + (a), 128 + (b), 128 + (c), 128 + (d)
#define EDGE(direction, a, b, c, d) 2, direction, 128 + (a), 128 + (b), 128 + (c), 128 + (d)

/* Every type and class, bands that wrap, the largest magnitude, 31 at luma's depth of 10 and 7 at chroma's of 8; two
 * sets that a merge can copy, left and up. */
static const uint8_t CHOSEN[SETS][SG_SET_BYTES] = {
    {EDGE(0, 9, 4, -4, -9), BAND(10, 7, -7, 3, -3), BAND(12, 1, 2, -2, -1)},
    {EDGE(0, 9, 4, -4, -9), BAND(10, 7, -7, 3, -3), BAND(12, 1, 2, -2, -1)},
    {BAND(30, 31, -31, 5, 0), EDGE(2, 3, 1, 0, -6), EDGE(2, 0, 0, 0, -1)},
    {OFF, OFF, OFF},
    {EDGE(0, 9, 4, -4, -9), BAND(10, 7, -7, 3, -3), BAND(12, 1, 2, -2, -1)},
    {EDGE(1, 31, 31, -31, -31), OFF, OFF},
    {EDGE(2, 6, 0, 0, -6), EDGE(3, 2, 2, -2, -2), EDGE(3, 7, 0, -1, -7)},
    {EDGE(3, 1, 2, -3, -4), BAND(0, -7, -7, -7, -7), BAND(31, 7, 7, 7, 7)},
};

/* The encoder's side has a state and a table of its own: the reader makes its table from the bins alone. */
static void encode(struct stream *s, const sg_state *description)
{
    struct picture p;
    open_picture(&p, description);
    if (p.sizes.ctus != SETS)
        fail("encode", "there is not one set for each CTU");
    for (int k = 0; k < SETS; k++)
        must("write", write_set(&p, CHOSEN[k], s->bins[k], SG_BINS_BYTES, &s->counts[k]));
    close_picture(&p);
}

/* A small generator (xorshift), so that every run has the same noise and the same order. */
static uint32_t drawn(uint32_t *seed, uint32_t below)
{
    *seed ^= *seed << 13;
    *seed ^= *seed >> 17;
    *seed ^= *seed << 5;
    return (*seed >> 8) % below;
}

/* A gradient from black to white with noise on it, over the range of a component's depth. */
static uint16_t *gradient(size_t width, size_t height, uint32_t depth, uint32_t *seed)
{
    uint16_t *plane = room_for_samples(width * height);
    const uint32_t top = (UINT32_C(1) << depth) - 1, noise = top / 16;
    for (size_t n = 0; n < width * height; n++) {
        uint32_t slope = (uint32_t)((n % width + n / width) * (top - noise) / (width + height - 2));
        plane[n] = (uint16_t)(slope + drawn(seed, noise + 1));
    }
    return plane;
}

static void make(struct stream *s, const sg_state *description, const sg_picture_sizes *sizes, uint32_t *seed)
{
    const uint32_t depths[COMPONENTS] = {description->luma_depth, description->chroma_depth, description->chroma_depth};
    encode(s, description);
    for (int i = 0; i < COMPONENTS; i++)
        s->planes[i] = gradient(sizes->width[i], sizes->height[i], depths[i], seed);
}

/* ---- the receiver */

struct ctb {
    uint32_t component, number;
};

struct receiver {
    struct picture picture;
    size_t *filtered_in_row;         /* CTBs, for each CTB row of each component */
    uint16_t *reference[COMPONENTS]; /* the reference store */
    sg_rows stored[COMPONENTS];      /* how much of it is there */
    size_t bins, filtered, not_ready, asked_for_rows;
};

static void open_receiver(struct receiver *r, const sg_state *description)
{
    memset(r, 0, sizeof *r);
    open_picture(&r->picture, description);
    for (int i = 0; i < COMPONENTS; i++)
        r->reference[i] = room_for_samples(r->picture.sizes.samples[i]);
    const size_t rows = COMPONENTS * r->picture.sizes.rows;
    r->filtered_in_row = (size_t *)room(rows, sizeof(size_t));
    memset(r->filtered_in_row, 0, rows * sizeof(size_t));
}

static void close_receiver(struct receiver *r)
{
    for (int i = 0; i < COMPONENTS; i++)
        free(r->reference[i]);
    free(r->filtered_in_row);
    close_picture(&r->picture);
}

/* Copies to the reference store the rows that have been finished since the last look. */
static void store_finished(struct receiver *r, uint32_t component)
{
    sg_rows *stored = &r->stored[component];
    sg_rows finished;
    must("finished rows", finished_rows(&r->picture, component, &finished));
    r->asked_for_rows++;
    if (finished.rows == stored->rows)
        return;
    memcpy(r->reference[component] + stored->samples, r->picture.filtered[component] + stored->samples,
           (finished.samples - stored->samples) * sizeof(uint16_t));
    *stored = finished;
}

/* Rows can have been finished only if this block was the last of its CTB row. Asking at every block would give the same
 * picture, but each time the stage looks at every mark of the component. */
static void count_filtered(struct receiver *r, struct ctb c)
{
    const sg_picture_sizes *sizes = &r->picture.sizes;
    const size_t row = c.component * sizes->rows + c.number / sizes->columns;
    r->filtered++;
    if (++r->filtered_in_row[row] == sizes->columns)
        store_finished(r, c.component);
}

static void filter_if_ready(struct receiver *r, struct ctb c)
{
    const uint32_t answer = filter(&r->picture, c.component, c.number);
    if (answer == SG_NOT_READY) {
        r->not_ready++;
        return;
    }
    must("filter", answer);
    count_filtered(r, c);
}

/* The blocks of a component in one CTB row, of the columns from left up to, and without, right. */
static void filter_in_row(struct receiver *r, uint32_t component, size_t row, size_t left, size_t right)
{
    for (size_t column = left; column < right; column++) {
        struct ctb c;
        c.component = component;
        c.number = (uint32_t)(row * r->picture.sizes.columns + column);
        filter_if_ready(r, c);
    }
}

static size_t smaller(size_t a, size_t b)
{
    return a < b ? a : b;
}

/* After a delivery: only that block and those around it can have become ready. Each waited for it, so that none of them
 * was filtered before. */
static void filter_around(struct receiver *r, struct ctb c)
{
    const sg_picture_sizes *sizes = &r->picture.sizes;
    const size_t column = c.number % sizes->columns, row = c.number / sizes->columns;
    const size_t left = column > 0 ? column - 1 : 0, right = smaller(column + 2, sizes->columns);
    const size_t top = row > 0 ? row - 1 : 0, bottom = smaller(row + 2, sizes->rows);
    for (size_t y = top; y < bottom; y++)
        filter_in_row(r, c.component, y, left, right);
}

/* After a read: only the blocks of that CTU can have become ready. */
static void filter_unit(struct receiver *r, uint32_t ctu)
{
    struct ctb c;
    c.number = ctu;
    for (c.component = 0; c.component < COMPONENTS; c.component++)
        if (r->picture.sizes.samples[c.component] > 0)
            filter_if_ready(r, c);
}

/* Here damaged bins end the receiver. One that conceals would store a set of its own choice with sg_write. */
static void take_set(struct receiver *r, const struct stream *s)
{
    const uint32_t ctu = r->picture.state.next;
    const size_t count = s->counts[ctu];
    must("read", read_set(&r->picture, s->bins[ctu], (count + 7) / 8, count));
    r->bins += count;
    filter_unit(r, ctu);
}

/* A block row by row out of a plane: a decoder has it like this once it is deblocked. */
static size_t cut_out(const uint16_t *plane, size_t width, const sg_block_place *b, uint16_t *samples)
{
    const size_t across = b->x1 - b->x0;
    for (size_t y = b->y0; y < b->y1; y++, samples += across)
        memcpy(samples, plane + y * width + b->x0, across * sizeof *samples);
    return across * (b->y1 - b->y0);
}

static void take_block(struct receiver *r, const struct stream *s, struct ctb c)
{
    uint16_t samples[64 * 64]; /* the largest CTB */
    sg_block_place block;
    must("block", sg_block(&r->picture.state, c.component, c.number, &block));
    size_t length = cut_out(s->planes[c.component], r->picture.sizes.width[c.component], &block, samples);
    must("deliver", deliver(&r->picture, c.component, c.number, samples, length));
    filter_around(r, c);
}

static int is_whole(const struct receiver *r)
{
    for (int i = 0; i < COMPONENTS; i++)
        if (r->stored[i].rows < r->picture.sizes.height[i])
            return 0;
    return 1;
}

/* All CTBs of all components present, in a drawn order. */
static struct ctb *shuffled(const sg_picture_sizes *sizes, uint32_t *seed)
{
    struct ctb *order = (struct ctb *)room(sizes->marks, sizeof *order);
    for (size_t n = 0; n < sizes->marks; n++) {
        const size_t at = drawn(seed, (uint32_t)n + 1);
        if (at < n)
            order[n] = order[at];
        order[at].component = (uint32_t)(n / sizes->ctus);
        order[at].number = (uint32_t)(n % sizes->ctus);
    }
    return order;
}

/* A set arrives with every second block, so that now a set is missing and now a neighbour. */
static void receive(struct receiver *r, const struct stream *s, const struct ctb *order)
{
    const sg_picture_sizes *sizes = &r->picture.sizes;
    for (size_t n = 0; n < sizes->marks; n++) {
        if (n % 2 == 0 && r->picture.state.next < sizes->ctus)
            take_set(r, s);
        take_block(r, s, order[n]);
    }
    if (!is_whole(r))
        fail("receive", "the stream ended before the picture did");
}

/* ---- what it prints */

/* FNV-1a of a number's low bytes, the lowest first. */
static uint64_t summed(uint64_t sum, uint32_t number, int bytes)
{
    for (int n = 0; n < bytes; n++)
        sum = (sum ^ ((number >> 8 * n) & 255)) * UINT64_C(1099511628211);
    return sum;
}

static const uint64_t NOTHING_SUMMED = UINT64_C(14695981039346656037);

static uint64_t plane_summed(uint64_t sum, const uint16_t *plane, size_t samples)
{
    for (size_t n = 0; n < samples; n++)
        sum = summed(sum, plane[n], 2);
    return sum;
}

static uint64_t bytes_summed(uint64_t sum, const uint8_t *bytes, size_t length)
{
    for (size_t n = 0; n < length; n++)
        sum = summed(sum, bytes[n], 1);
    return sum;
}

static size_t changed(const struct receiver *r, const struct stream *s)
{
    size_t count = 0;
    for (int i = 0; i < COMPONENTS; i++)
        for (size_t n = 0; n < r->stored[i].samples; n++)
            count += r->reference[i][n] != s->planes[i][n];
    return count;
}

/* C++98 has no %zu. */
static void print_count(const char *what, size_t count)
{
    printf("%s: %lu\n", what, (unsigned long)count);
}

static void print_figures(const struct receiver *r, const struct stream *s)
{
    const sg_state *d = &r->picture.state;
    uint64_t sum = NOTHING_SUMMED;
    for (int i = 0; i < COMPONENTS; i++)
        sum = plane_summed(sum, r->reference[i], r->stored[i].samples);
    printf("picture: %" PRIu32 "x%" PRIu32 ", CTB size %" PRIu32 ", luma depth %" PRIu32 ", chroma depth %" PRIu32 "\n",
           d->width, d->height, d->ctb, d->luma_depth, d->chroma_depth);
    printf("sets: %" PRIu32 "\n", d->next);
    print_count("bins", r->bins);
    print_count("blocks", r->filtered);
    print_count("not ready", r->not_ready);
    print_count("asked for finished rows", r->asked_for_rows);
    print_count("changed samples", changed(r, s));
    printf("checksum: %016" PRIx64 "\n", sum);
}

/* ---- refusals change nothing */

/* All that is lent, and the state, in one number. */
static uint64_t looked_at(const struct picture *p)
{
    uint64_t sum = bytes_summed(NOTHING_SUMMED, (const uint8_t *)&p->state, sizeof p->state);
    for (int i = 0; i < COMPONENTS; i++) {
        sum = plane_summed(sum, p->deblocked[i], p->sizes.samples[i]);
        sum = plane_summed(sum, p->filtered[i], p->sizes.samples[i]);
    }
    sum = bytes_summed(sum, p->marks, p->sizes.marks);
    sum = bytes_summed(sum, p->table, p->sizes.table);
    return bytes_summed(sum, p->set, SG_SET_BYTES);
}

static void print_refusal(const struct picture *p, uint64_t before, uint32_t answer, uint32_t expected)
{
    if (answer != expected)
        fail("a call that is refused", sg_reason(answer));
    if (looked_at(p) != before)
        fail("a refused call", "it changed something");
    printf("refused %" PRIu32 ": %s; nothing changed\n", answer, sg_reason(answer));
}

/* One monochrome CTB: the chroma planes are NULL with length 0, format and chroma's switch are 0, and chroma's depth is
 * luma's. */
static sg_state described_small(void)
{
    sg_state d;
    memset(&d, 0, sizeof d);
    d.width = 8;
    d.height = 8;
    d.ctb = 16;
    d.luma_depth = 8;
    d.chroma_depth = 8;
    d.luma = 1;
    return d;
}

static void show_refusals(void)
{
    const uint8_t bins[2] = {0xE3, 0x40};
    const uint16_t samples[8 * 8] = {0};
    const sg_state description = described_small();
    struct picture p;
    open_picture(&p, &description);
    must("deliver", deliver(&p, 0, 0, samples, 8 * 8));
    /* What the stage has not written yet is set, so that two looks can be compared. */
    memset(p.filtered[0], 0, p.sizes.samples[0] * sizeof(uint16_t));
    memset(p.table, 0, p.sizes.table);
    const uint64_t before = looked_at(&p);
    print_refusal(&p, before, read_set(&p, bins, sizeof bins, 17), SG_COUNT_TOO_LARGE);
    print_refusal(&p, before, deliver(&p, 0, 0, samples, 8 * 8), SG_DELIVERED_BEFORE);
    close_picture(&p);
}

/* ---- the picture for another program */

static void put(FILE *file, const void *elements, size_t size, size_t count)
{
    if (count > 0 && fwrite(elements, size, count, file) != count)
        fail("file", "it cannot be written");
}

/* The state, the table, the stream's planes and the reference store, in this machine's byte order. */
static void save(const char *path, const struct receiver *r, const struct stream *s)
{
    FILE *file = fopen(path, "wb");
    if (file == NULL)
        fail(path, "it cannot be opened for writing");
    put(file, &r->picture.state, sizeof(sg_state), 1);
    put(file, r->picture.table, 1, r->picture.sizes.table);
    for (int i = 0; i < COMPONENTS; i++)
        put(file, s->planes[i], sizeof(uint16_t), r->picture.sizes.samples[i]);
    for (int i = 0; i < COMPONENTS; i++)
        put(file, r->reference[i], sizeof(uint16_t), r->stored[i].samples);
    if (fclose(file) != 0)
        fail(path, "it cannot be written");
}

/* ---- all of it */

/* Neither side is a multiple of 64, so the last column and the last row of CTBs are cut short. Luma and chroma have a
 * depth each. */
static sg_state described(void)
{
    sg_state d;
    memset(&d, 0, sizeof d);
    d.width = 200;
    d.height = 120;
    d.ctb = 64;
    d.format = SG_FORMAT_420;
    d.luma_depth = 10;
    d.chroma_depth = 8;
    d.luma = 1;
    d.chroma = 1;
    return d;
}

int main(int argc, char **argv)
{
    const sg_state description = described();
    uint32_t seed = 20130413;
    struct stream stream;
    struct receiver receiver;

    if (argc > 2) {
        fprintf(stderr, "usage: receiver [FILE]\n");
        return 2;
    }
    check_version();
    open_receiver(&receiver, &description);
    make(&stream, &description, &receiver.picture.sizes, &seed);
    struct ctb *order = shuffled(&receiver.picture.sizes, &seed);
    receive(&receiver, &stream, order);
    print_figures(&receiver, &stream);
    show_refusals();
    if (fflush(stdout) != 0)
        fail("standard output", "it cannot be written");
    if (argc == 2)
        save(argv[1], &receiver, &stream);

    free(order);
    for (int i = 0; i < COMPONENTS; i++)
        free(stream.planes[i]);
    close_receiver(&receiver);
    return 0;
}
