/* Steamgusset: sample adaptive offset (SAO) of ITU-T H.265 (04/2013), the last in-loop filter of an HEVC decoder.
 *
 * The stage stands between the entropy reader and the reference picture store. It reads each coding tree unit's (CTU's)
 * offset parameters from decoded bins, takes deblocked coding tree blocks (CTBs) as they finish, in any order, and
 * filters them into a second set of planes. Deblocking, arithmetic decoding and choosing parameters lie elsewhere.
 *
 * Which pictures: the stage gives the standard's samples for every picture that keeps the rules of its description and
 * has none of what is not covered yet:
 *
 * - several slices; one slice may have any number of segments
 * - tiles
 * - lossless units, and PCM units whose loop filtering is disabled: they keep their samples
 * - above 10 bits, offsets sent with a scale (log2_sao_offset_scale) other than the component's depth minus 10
 *
 * No call can see them: such a picture is accepted and comes out wrong.
 *
 * BUILDING
 *
 *     cc receiver.c $(pkg-config --cflags --libs steamgusset)     once tools/install has put it in its place
 *     cc -Iinclude receiver.c libsteamgusset.a                    or without
 *
 * It takes C99 or later, or C++98 or later, with the types of <stdint.h> and a size_t of 8 bytes. Nothing else is
 * linked but the C library. sg_version finds out an archive of another version. In the project, examples/receiver.c is
 * a whole receiver, which compiles as C and as C++, and docs/CALLS.md lists the calls.
 *
 * THE LIFE OF A PICTURE
 *
 *     sg_state state;                                      the description, by the names of its fields
 *     memset(&state, 0, sizeof state);                     what is not named is 0
 *     state.width = 200;
 *     state.height = 120;
 *     state.ctb = 64;
 *     state.format = SG_FORMAT_420;
 *     state.luma_depth = 10;
 *     state.chroma_depth = 8;                              luma and chroma may differ
 *     state.luma = 1;
 *     state.chroma = 1;
 *     sg_picture_sizes sizes;
 *     sg_sizes(&state, &sizes);                            how long each buffer has to be; allocate them
 *     sg_open(&state, marks, sizes.marks);
 *     for each CTU, in raster order:
 *         sg_read(&state, bins, ...);                      its parameter set; an encoder calls sg_write instead
 *     for each CTB of each component, in any order, before, between and after the reads:
 *         sg_deliver(&state, component, ctb, samples, ...);
 *     for each CTB of each component, in any order, as soon as it is accepted:
 *         sg_filter(&state, component, ctb, ...);          SG_NOT_READY: ask again later
 *     at any time, best when the last CTB of a CTB row has been filtered:
 *         sg_finished_rows(&state, component, ..., &rows); so many rows of the filtered plane are final
 *
 * Every order of these calls gives the same picture. For the next picture of the same size, open again. No buffer
 * needs to be cleared: no answer, set or filtered sample depends on what it held before the opening.
 *
 * ANSWERS
 *
 * Every call but sg_version answers SG_OK or the number of its refusal (enum sg_refusal). There is no other error, and
 * no content of the numbers and buffers handed in for which a call does anything else. Several reasons may hold at
 * once; the answer is the first in the order listed with the call. A refused call has changed nothing: the state and
 * every buffer read as before.
 *
 * Damaged bins show, if at all, as SG_TOO_EARLY or SG_BINS_REMAIN, and a damaged count as SG_COUNT_TOO_LARGE too. A
 * receiver that conceals them calls sg_write with a set of its own choice, SG_SET_BYTES zero bytes for off, and throws
 * the bins away: that stores the set and moves on to the next CTU. SG_NOT_READY means later. Every other refusal in a
 * running receiver says that its own books are wrong.
 *
 * MEMORY
 *
 * All memory is the caller's. The stage keeps no pointer after a call, allocates nothing and has no global state, so
 * any number of pictures may be under way on any number of threads. Two calls that run at the same time must share no
 * buffer that either of them writes: since filter and deliver write the marks, calls on one picture take turns. So do
 * they with what the caller itself writes into a buffer that is lent.
 *
 * Within a call, a buffer that is written (every pointer without const) overlaps no other buffer of the call. In
 * particular the filtered planes are not the deblocked ones. Buffers that are only read may overlap each other.
 *
 * A pointer is aligned as its type asks: 2 bytes for samples, 4 for the state, that of size_t for the structs that
 * answer. Bytes may lie anywhere. A pointer with a length may be NULL if the length is 0, as for an absent plane. Every
 * other pointer points to as many elements as its length says. The pointers without a length are never NULL.
 *
 * Lengths are counted in elements: samples of a plane, bytes of marks, table and bins. A sample has 16 bits at every
 * depth. A plane has no padding: row after row, each as long as the plane is wide. Planes that begin with a cache line,
 * at a multiple of 64 bytes, are copied fastest.
 *
 * WHAT THE CALLER MAY WRITE ITSELF
 *
 * Between two calls, everything. A call goes by what it is handed, whoever wrote it, and ends well. Of what it uses it
 * refuses as SG_STORED what no accepted call leaves: a next CTU above the CTU count, a mark above 2, an entry of the
 * table that is no set within the rules, a deblocked sample above 2^depth - 1 by its component's depth. An accepted
 * sg_filter gives the standard's samples for the set and the deblocked samples that stand there at that time.
 *
 * Blocks are best delivered by sg_deliver, which checks them. A decoder that deblocks within the deblocked planes may
 * do without: when a CTB's samples are final, none above 2^depth - 1 by its component's depth, it sets the CTB's mark,
 * which is marks[component * sizes.ctus + ctb], from 0 to 1. That leaves what sg_deliver leaves. The samples of a CTB
 * whose mark is 0 are never used.
 *
 * That every order gives the same picture is promised where state, marks, table and deblocked planes change by accepted
 * calls, or as an accepted call would change them. After any other write it is the caller who sees to that: a deblocked
 * sample changed after its mark was set is seen by the CTBs that are filtered later and not by those before, and a CTB
 * that the caller marks 2 counts as filtered. What the filtered planes hold is used by no call.
 */
#ifndef STEAMGUSSET_H
#define STEAMGUSSET_H

#include <stddef.h>
#include <stdint.h>

#ifdef __cplusplus
extern "C" {
#endif

/* ---- version */

/* The version of this header. The major number grows when what crosses changes so that a caller compiled before would
 * be wrong, the minor number when something is added. */
#define SG_VERSION_MAJOR 5
#define SG_VERSION_MINOR 0
#define SG_VERSION (SG_VERSION_MAJOR * 65536 + SG_VERSION_MINOR)

/* The version of the archive, put together as SG_VERSION is. Header and archive fit if their major numbers are equal
 * and the archive's minor number is at least the header's:
 *
 *     if (sg_version() / 65536 != SG_VERSION_MAJOR || sg_version() < SG_VERSION)
 *         the archive is another version's
 *
 * It takes nothing and refuses nothing. An archive that does not have it is older than this header: linking fails. */
uint32_t sg_version(void);

/* ---- answers */

enum sg_refusal {
    SG_OK = 0,
    SG_DESCRIPTION = 1,
    SG_LENGTH = 2,
    SG_NO_SUCH_BLOCK = 3,
    SG_COUNT_TOO_LARGE = 4,
    SG_TOO_EARLY = 5,
    SG_BINS_REMAIN = 6,
    SG_ALL_READ = 7,
    SG_SAMPLE_TOO_LARGE = 8,
    SG_DELIVERED_BEFORE = 9,
    SG_NOT_READY = 10,
    SG_FILTERED_BEFORE = 11,
    SG_NO_BINS = 12,
    SG_NO_ROOM = 13,
    SG_STORED = 14
};

/* The reason in words, for a log. */
static inline const char *sg_reason(uint32_t answer)
{
    switch (answer) {
    case SG_OK: return "accepted";
    case SG_DESCRIPTION: return "the description breaks a rule";
    case SG_LENGTH: return "a lent buffer, or the samples delivered, have the wrong length";
    case SG_NO_SUCH_BLOCK: return "no such component or CTB number";
    case SG_COUNT_TOO_LARGE: return "the declared count exceeds 8 times the bytes given";
    case SG_TOO_EARLY: return "the bins end too early";
    case SG_BINS_REMAIN: return "bins remain after the CTU";
    case SG_ALL_READ: return "every CTU already has its set";
    case SG_SAMPLE_TOO_LARGE: return "a delivered sample exceeds 2^depth - 1";
    case SG_DELIVERED_BEFORE: return "that CTB was delivered before";
    case SG_NOT_READY: return "filter is not ready";
    case SG_FILTERED_BEFORE: return "that CTB was filtered before";
    case SG_NO_BINS: return "no bins mean this set";
    case SG_NO_ROOM: return "the bins do not fit the buffer";
    case SG_STORED: return "stored data that no accepted call leaves";
    default: return "no answer has this number";
    }
}

/* ---- what crosses */

/* The chroma formats, by H.265's names and numbers (Table 6-1): what the planes of Cb and Cr, and their CTBs, are beside
 * luma's. Where separate_colour_plane_flag is 1, H.265 codes each colour plane as a monochrome picture, and so does the
 * caller describe it: three pictures of format 0. */
enum sg_format {
    SG_FORMAT_MONOCHROME = 0, /* there are none */
    SG_FORMAT_420 = 1,        /* half the width and half the height */
    SG_FORMAT_422 = 2,        /* half the width and the full height */
    SG_FORMAT_444 = 3         /* the same */
};

/* The description of a picture, and how far its sets are in. The caller fills in the description by its fields' names;
 * open, read and write keep next, which stands last. Numbers outside the ranges given here break a rule:
 * SG_DESCRIPTION, before every other reason. */
typedef struct sg_state {
    uint32_t width;        /* in luma samples: a multiple of 8, from 8 to 8192 */
    uint32_t height;       /* likewise */
    uint32_t ctb;          /* CTB size in luma samples: 16, 32 or 64 */
    uint32_t format;       /* chroma_format_idc, 0 to 3: enum sg_format */
    uint32_t luma_depth;   /* bit depth of luma, BitDepthY: 8 to 16 */
    uint32_t chroma_depth; /* bit depth of Cb and Cr, BitDepthC: 8 to 16; in monochrome the same as luma_depth */
    uint32_t luma;         /* slice_sao_luma_flag: 0 or 1 */
    uint32_t chroma;       /* slice_sao_chroma_flag: 0 or 1; 0 in monochrome */
    uint32_t next;         /* the number of the next CTU to be read or written; all are in when it is the CTU count */
} sg_state;

/* What a description asks the caller to lend, by sg_sizes. Arrays go by component: 0 luma, 1 Cb, 2 Cr. A component that
 * is absent has 0. */
typedef struct sg_picture_sizes {
    size_t width[3];   /* of a plane, in its own samples */
    size_t height[3];
    size_t samples[3]; /* the length of a plane, deblocked or filtered: width * height */
    size_t columns;    /* CTB columns and rows, the last of which the picture may cut short */
    size_t rows;
    size_t ctus;       /* columns * rows */
    size_t marks;      /* the length of the marks: a byte for each CTB of each component present */
    size_t table;      /* the length of the table: SG_ENTRY_BYTES for each CTU */
} sg_picture_sizes;

/* Where a CTB lies in its plane, by sg_block: columns x0 up to, and without, x1, rows y0 up to, and without, y1. */
typedef struct sg_block_place {
    size_t x0;
    size_t x1;
    size_t y0;
    size_t y1;
} sg_block_place;

/* The finished part of a filtered plane: its first rows, and how many samples they are. */
typedef struct sg_rows {
    size_t rows;
    size_t samples;
} sg_rows;

/* A parameter set in a call:
 *
 *      byte    0     1         2       3       4       5      6 to 11   12 to 17
 *            +-----+---------+-------+-------+-------+-------+---------+---------+
 *            |                      luma                     |   Cb    |   Cr    |
 *            +-----+---------+-------+-------+-------+-------+---------+---------+
 *      off   |  0  |    0    |   0   |   0   |   0   |   0   |
 *      band  |  1  | position| 128+o1| 128+o2| 128+o3| 128+o4|   likewise six bytes each
 *      edge  |  2  |  class  | 128+o1| 128+o2| 128+o3| 128+o4|
 *            +-----+---------+-------+-------+-------+-------+
 *
 * Position is 0 to 31. Class is 0 to 3: neighbours left and right, above and below, upper left and lower right, upper
 * right and lower left. Offsets o1 to o4 are as coded, before they are scaled to the depth. Their magnitude is at most
 * 7 at depth 8, 15 at depth 9 and 31 above, by the depth of the component; for edge o1 and o2 are not negative, o3 and
 * o4 not positive. Cr has Cb's type and class. A component whose switch is off, or that is absent, is off.
 *
 * Edge of class 2 with offsets 1, 0, 0, -2 for luma alone: 02 02 81 80 80 7E, and twelve bytes 00. */
#define SG_SET_BYTES 18

/* A CTU's entry in the table, where the entries lie one after another in raster order: the bytes of its set. */
#define SG_ENTRY_BYTES SG_SET_BYTES

/* Room for the bins of any CTU. Two merge flags, luma 135, Cb 135 and Cr 133 are 405 bins at most: for a component 2
 * for the type (not Cr), four magnitudes of 31, four signs and 5 for the position. So many there are where both depths
 * are at least 10: a magnitude is 7 at most at depth 8, and 15 at depth 9. */
#define SG_BINS_BYTES 51

/* The layout that the archive was compiled for: a compiler that lays out otherwise stops here. To the archive the state
 * is an array of numbers, so the last one ends it. */
#define SG_LAYOUT(name, holds) typedef char sg_layout_of_##name[(holds) ? 1 : -1]
SG_LAYOUT(state, sizeof(sg_state) == offsetof(sg_state, next) + sizeof(uint32_t));
SG_LAYOUT(sizes, sizeof(sg_picture_sizes) == 14 * sizeof(size_t));
SG_LAYOUT(block, sizeof(sg_block_place) == 4 * sizeof(size_t));
SG_LAYOUT(rows, sizeof(sg_rows) == 2 * sizeof(size_t));
SG_LAYOUT(size, sizeof(size_t) == 8);
SG_LAYOUT(room, 8 * SG_BINS_BYTES >= 2 + 135 + 135 + 133);
#undef SG_LAYOUT

/* ---- what to lend */

/* How long the buffers of a picture have to be. Only the description is read.
 *
 *   state    a description
 *   sizes    filled in
 *
 * Refused, in this order:
 *   SG_DESCRIPTION        the description breaks a rule
 */
uint32_t sg_sizes(const sg_state *state, sg_picture_sizes *sizes);

/* Where a CTB lies in its plane; (x1 - x0) * (y1 - y0) samples are to be delivered for it. Only the description is
 * read.
 *
 *   state       a description
 *   component   0 luma, 1 Cb, 2 Cr
 *   ctb         the CTB's number in raster order, which is that of its CTU
 *   block       filled in
 *
 * Refused, in this order:
 *   SG_DESCRIPTION        the description breaks a rule
 *   SG_NO_SUCH_BLOCK      the picture has no such component, or no CTB of that number
 */
uint32_t sg_block(const sg_state *state, uint32_t component, uint32_t ctb, sg_block_place *block);

/* ---- the six calls */

/* Opens a picture. The next CTU that the state names is not read, so a state of an earlier picture will do.
 *
 *   state    a description
 *   marks    sizes.marks bytes
 *
 * Accepted, every mark is 0 and state->next is 0.
 *
 * Refused, in this order:
 *   SG_DESCRIPTION        the description breaks a rule
 *   SG_LENGTH             of the marks
 */
uint32_t sg_open(sg_state *state, uint8_t *marks, size_t marks_length);

/* Reads the sao() syntax of the next CTU (7.3.8.3) from bins that are decoded already. Bins are packed from the most
 * significant bit of the first byte. Bits after the count are ignored. If both switches are off, a CTU has no bins:
 * count 0.
 *
 *   state    as the last call left it
 *   bins     bins_length bytes, of which count bins are the CTU's
 *   table    sizes.table bytes
 *   set      SG_SET_BYTES bytes
 *
 * Accepted, the set is in the table at the CTU's place and in set, and state->next is one more. A merge is resolved:
 * what is stored is the set copied.
 *
 * Refused, in this order:
 *   SG_DESCRIPTION        the description breaks a rule
 *   SG_LENGTH             of the table
 *   SG_STORED             state->next is above the CTU count
 *   SG_ALL_READ           every CTU already has its set
 *   SG_COUNT_TOO_LARGE    count exceeds 8 * bins_length
 *   SG_TOO_EARLY          the count bins are only the beginning of a CTU
 *   SG_BINS_REMAIN        the CTU ends before the count does
 *   SG_STORED             the table's entry that a merge copies is no set within the rules
 */
uint32_t sg_read(sg_state *state, const uint8_t *bins, size_t bins_length, size_t count, uint8_t *table,
                 size_t table_length, uint8_t set[SG_SET_BYTES]);

/* Writes the sao() syntax of the next CTU as bins, the shortest that read back as the set: merge left if the left set
 * is equal, else merge up if the upper set is equal, else the full form. If both switches are off, there are no bins.
 *
 *   state    as the last call left it
 *   set      SG_SET_BYTES bytes
 *   out      out_length bytes of room; SG_BINS_BYTES are always enough
 *   table    sizes.table bytes
 *   count    filled in
 *
 * Accepted, *count bins stand in the first bytes of out, the unused low bits of the last one 0 and the bytes after it
 * as they were; the set is in the table at the CTU's place, and state->next is one more.
 *
 * Refused, in this order:
 *   SG_DESCRIPTION        the description breaks a rule
 *   SG_LENGTH             of the table
 *   SG_STORED             state->next is above the CTU count
 *   SG_ALL_READ           every CTU already has its set
 *   SG_STORED             the table's entry of the left or the upper CTU is no set within the rules
 *   SG_NO_BINS            the set is outside the rules; so are bytes that encode no set at all: a type above 2, or a
 *                         type 0 with a byte after it that is not 0
 *   SG_NO_ROOM            the bins exceed 8 * out_length
 */
uint32_t sg_write(sg_state *state, const uint8_t set[SG_SET_BYTES], uint8_t *out, size_t out_length, uint8_t *table,
                  size_t table_length, size_t *count);

/* Delivers a deblocked CTB. Its set need not be in.
 *
 *   state       as the last call left it
 *   component   0 luma, 1 Cb, 2 Cr; a number without a component is refused, however large it is
 *   ctb         the CTB's number in raster order
 *   samples     the CTB's samples, row after row, without the part that the picture cuts off: as many as sg_block says
 *   y, cb, cr   the deblocked planes, sizes.samples[0], [1], [2] samples
 *   marks       sizes.marks bytes
 *
 * Accepted, the samples are in their place of the component's plane and the CTB's mark is 1.
 *
 * Refused, in this order:
 *   SG_DESCRIPTION        the description breaks a rule
 *   SG_LENGTH             of a plane or of the marks
 *   SG_STORED             state->next is above the CTU count
 *   SG_NO_SUCH_BLOCK      the picture has no such component, or no CTB of that number
 *   SG_LENGTH             of the samples
 *   SG_STORED             the CTB's mark is above 2
 *   SG_DELIVERED_BEFORE   the CTB's mark is 1 or 2
 *   SG_SAMPLE_TOO_LARGE   a sample exceeds 2^depth - 1, by the component's depth
 */
uint32_t sg_deliver(const sg_state *state, uint32_t component, uint32_t ctb, const uint16_t *samples,
                    size_t samples_length, uint16_t *y, size_t y_length, uint16_t *cb, size_t cb_length, uint16_t *cr,
                    size_t cr_length, uint8_t *marks, size_t marks_length);

/* Filters a CTB (8.7.3). It is ready when its CTU's set is in and the CTB and its neighbours, up to eight, of the same
 * component are delivered or filtered, whatever the type of the set. So after a delivery only that CTB and its
 * neighbours, and after a read only that CTU's CTBs, can have become ready. A component whose switch is off is filtered
 * too: its samples are copied.
 *
 *   state                    as the last call left it
 *   component                0 luma, 1 Cb, 2 Cr; a number without a component is refused, however large it is
 *   ctb                      the CTB's number in raster order
 *   y, cb, cr                the deblocked planes, sizes.samples[0], [1], [2] samples
 *   out_y, out_cb, out_cr    the filtered planes, of the same lengths
 *   marks                    sizes.marks bytes
 *   table                    sizes.table bytes
 *
 * Accepted, the CTB's samples of the component's filtered plane are the standard's and the CTB's mark is 2.
 *
 * Refused, in this order:
 *   SG_DESCRIPTION        the description breaks a rule
 *   SG_LENGTH             of a plane, of the marks or of the table
 *   SG_STORED             state->next is above the CTU count
 *   SG_NO_SUCH_BLOCK      the picture has no such component, or no CTB of that number
 *   SG_STORED             the mark of the CTB or of a neighbour is above 2
 *   SG_FILTERED_BEFORE    the CTB's mark is 2
 *   SG_NOT_READY          the CTU's set is not in, or the CTB or a neighbour is not delivered
 *   SG_STORED             the table's entry of the CTU is no set within the rules
 *   SG_STORED             a deblocked sample of the CTB, or next to it, exceeds 2^depth - 1, by the component's depth
 */
uint32_t sg_filter(const sg_state *state, uint32_t component, uint32_t ctb, const uint16_t *y, size_t y_length,
                   const uint16_t *cb, size_t cb_length, const uint16_t *cr, size_t cr_length, uint16_t *out_y,
                   size_t out_y_length, uint16_t *out_cb, size_t out_cb_length, uint16_t *out_cr, size_t out_cr_length,
                   uint8_t *marks, size_t marks_length, const uint8_t *table, size_t table_length);

/* How much of a component's filtered plane is finished: its rows up to, and without, the first CTB row that has an
 * unfiltered CTB, or all rows. They do not change any more, so that the plane's first finished->samples samples, the
 * caller's own, may serve as reference.
 *
 * Every mark of the component is looked at once: what a call costs grows with the number of CTBs, and what it costs to
 * ask after every block with its square (docs/SPEED.md has figures). The answer can have grown only after an accepted
 * sg_filter of the last unfiltered CTB of a CTB row. So count the filtered CTBs of each CTB row, and ask then.
 *
 *   state       as the last call left it
 *   component   0 luma, 1 Cb, 2 Cr; a number without a component is refused, however large it is
 *   y, cb, cr   the filtered planes, sizes.samples[0], [1], [2] samples
 *   marks       sizes.marks bytes
 *   finished    filled in: rows, and rows * sizes.width[component] samples; a refusal leaves it as it was
 *
 * Refused, in this order:
 *   SG_DESCRIPTION        the description breaks a rule
 *   SG_LENGTH             of a plane or of the marks
 *   SG_STORED             state->next is above the CTU count
 *   SG_NO_SUCH_BLOCK      the picture has no such component
 *   SG_STORED             a mark of the component is above 2
 */
uint32_t sg_finished_rows(const sg_state *state, uint32_t component, const uint16_t *y, size_t y_length,
                          const uint16_t *cb, size_t cb_length, const uint16_t *cr, size_t cr_length,
                          const uint8_t *marks, size_t marks_length, sg_rows *finished);

#ifdef __cplusplus
}
#endif

#endif
