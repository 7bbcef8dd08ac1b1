/*
 * Mizdrek: forward transforms and quantizer levels for AV2 stills. Link crates/mizdrek/out/libmizdrek.a, which
 * `rt lib` in crates/mizdrek writes.
 *
 * Answers. A call returns a signed number: 0 or more is its answer; below 0 it is minus the number of a refusal (see
 * mizdrek_refusal). Where several refusals apply, the lowest number is returned; the calls on a plane, the reader and the
 * report of records and the choice of a trial have orders of their own, which their comments give. A refused call changes
 * no buffer, no ticket, no plane and no other number that it was lent.
 *
 * Buffers. A buffer is two arguments: a pointer, then how many elements it holds, its `_len`. A call reads or writes only
 * the first part of a buffer, as its comment says, and refuses with MIZDREK_SHORT_BUFFER where the buffer is shorter.
 * A pointer must be aligned and not null, even at length 0, and nothing that a call writes may overlap anything else that
 * it is lent.
 *
 * Kinds. 0 is the DCT, 1 the ADST. The ADST has sides 4, 8 and 16, and in a block both sides must then be the same. The
 * ADST's 64 numbers of side 8 are reconstructed, since the repository's could not be had (docs/DIFFERENCES.md).
 *
 * Threads. No call keeps anything, so any number of them may run at once on different buffers. The calls on one plane must
 * not run at the same time.
 */
#ifndef MIZDREK_H
#define MIZDREK_H

#include <stddef.h>
#include <stdint.h>

#ifdef __cplusplus
extern "C" {
#endif

/* Why a call is refused: it returns minus this number. */
enum mizdrek_refusal {
    /* A side, a quantizer's width or a pass's line count isn't 4, 8, 16 or 32, or a pass's shift isn't 0 to 15; or a plane
     * is made with a side outside 4 to 256. */
    MIZDREK_BAD_SIZE = 1,
    /* A kind isn't 0 or 1, or the ADST is asked in a block that isn't square, or at side 32. */
    MIZDREK_BAD_KIND = 2,
    /* A buffer is shorter than the part that the call reads or writes. A preview buffer is only tested for 1, 4 or 8
     * lines. An output that is lent with a plane must hold the whole plane. */
    MIZDREK_SHORT_BUFFER = 3,
    /* One of a block's first w * h residuals lies outside -4095 to 4095. */
    MIZDREK_RESIDUAL_RANGE = 4,
    /* A batch isn't 1, 4 or 8 lines, a start of 4 or 8 lines isn't a multiple of 4, or it ends past the line count. A
     * preview is refused as its batch is. */
    MIZDREK_BATCH_RANGE = 5,
    /* A ticket has a mark past its line count, or row marks with a column unmarked; or a row batch, or a preview of one,
     * is asked with a column unmarked. */
    MIZDREK_BATCH_ORDER = 6,
    /* A quantizer setting is outside its range. */
    MIZDREK_BAD_SETTING = 7,
    /* A scan has more than 1024 entries, or an entry means a place past the end of the coefficients; or more than 1024
     * levels are to be chosen by. */
    MIZDREK_SCAN_RANGE = 8,
    /* A coefficient that is to be quantized lies outside -1048576 to 1048576. */
    MIZDREK_COEFFICIENT_RANGE = 9,
    /* The bytes end inside a record. */
    MIZDREK_CUT_RECORD = 10,
    /* A record's side byte has one of its upper four bits set, or a level is beyond 2^30 from zero, in a record or in a
     * trial; or a level that a record holds is zero. */
    MIZDREK_BAD_RECORD = 11,
    /* A block number isn't above the one before. */
    MIZDREK_RECORD_ORDER = 12,
    /* A tile lies outside its plane, isn't at multiples of 4, overlaps an open one or is a seventeenth; a room isn't 0 or
     * 1; or a plane has a side outside 4 to 256, or an open tile that breaks one of these rules or a rule of 1, 2 or 6. */
    MIZDREK_BAD_TILE = 13,
    /* A tile isn't open for the room. */
    MIZDREK_TILE_NOT_OPEN = 14,
    /* Records that are to be added up are 2^36 bytes or more. */
    MIZDREK_BAD_FILE = 16
};

/* The exponent of the scale that a decoder applies to the coefficients of a block w wide and h high: 0 or 1. */
int64_t mizdrek_dc_tx_scale(size_t w, size_t h);

/* The quantizer step of an index: 64 for index 0; an index above 255 counts as 255. Nothing is refused. */
uint32_t mizdrek_qstep(uint32_t index);

/*
 * One pass: `lines` lines of `side` samples each. Sample k of line j is src[k * lines + j]; frequency f of line j goes to
 * dst[j * side + f]. Each sum is rounded by 2^(shift - 1), wraps at 32 bits and is shifted right by `shift`, 1 to 15;
 * at shift 0 it only wraps, so that these are the raw kernel sums: a line of which sample k alone is 1 gives column k of
 * its kernel. Reads and writes side * lines numbers and answers side * lines.
 */
int64_t mizdrek_pass(size_t side, uint32_t kind, int32_t shift, size_t lines,
                     const int32_t *src, size_t src_len,
                     int32_t *dst, size_t dst_len);

/*
 * A block w wide and h high: columns first, into scratch, then rows, into output. Residuals and output are row-major;
 * scratch holds the columns' pass, column after column. Reads w * h residuals from -4095 to 4095, writes w * h numbers of
 * scratch and of output, and answers w * h.
 */
int64_t mizdrek_block(size_t w, size_t h, uint32_t column_kind, uint32_t row_kind,
                      const int32_t *residuals, size_t residuals_len,
                      int32_t *scratch, size_t scratch_len,
                      int32_t *output, size_t output_len);

/*
 * A block that is worked on in batches of lines, in any order: its sides, its kinds, and a bit for each line that is done,
 * the lowest for line 0. mizdrek_open fills it in; the batches mark it; the previews only read it.
 */
struct mizdrek_ticket {
    size_t w;
    size_t h;
    uint32_t column_kind;
    uint32_t row_kind;
    uint32_t columns;
    uint32_t rows;
};

/* Tests a block as mizdrek_block does, makes *ticket its ticket with no line done, and answers 0. Writes no buffer. */
int64_t mizdrek_open(size_t w, size_t h, uint32_t column_kind, uint32_t row_kind,
                     const int32_t *residuals, size_t residuals_len,
                     const int32_t *scratch, size_t scratch_len,
                     const int32_t *output, size_t output_len,
                     struct mizdrek_ticket *ticket);

/*
 * Works out 1, 4 or 8 columns from column `start` on, into scratch, marks them in *ticket and answers `count`. Column j is
 * the h numbers of scratch from place j * h on. The residuals' range is not tested here: sums wrap at 32 bits.
 */
int64_t mizdrek_column_batch(struct mizdrek_ticket *ticket,
                             const int32_t *residuals, size_t residuals_len,
                             int32_t *scratch, size_t scratch_len,
                             size_t start, size_t count);

/*
 * Works out 1, 4 or 8 rows from row `start` on, into output, once all columns are marked; marks them in *ticket and
 * answers `count`. Row j is the w numbers of output from place j * w on.
 */
int64_t mizdrek_row_batch(struct mizdrek_ticket *ticket,
                          const int32_t *scratch, size_t scratch_len,
                          int32_t *output, size_t output_len,
                          size_t start, size_t count);

/*
 * Shows the columns that mizdrek_column_batch would write to scratch with the same arguments, and answers `count`. Writes
 * count * h numbers of preview: column start + i is the h numbers from place i * h on. The ticket, the residuals and
 * scratch are only read. Refuses what the batch refuses, and gives MIZDREK_SHORT_BUFFER also where preview holds fewer
 * than count * h numbers; that is only tested for 1, 4 or 8 lines, as any other count is refused in any case.
 */
int64_t mizdrek_preview_columns(const struct mizdrek_ticket *ticket,
                                const int32_t *residuals, size_t residuals_len,
                                const int32_t *scratch, size_t scratch_len,
                                int32_t *preview, size_t preview_len,
                                size_t start, size_t count);

/*
 * Shows the rows that mizdrek_row_batch would write to output with the same arguments, and answers `count`. Writes
 * count * w numbers of preview: row start + i is the w numbers from place i * w on. The ticket, scratch and output are
 * only read. Refuses what the batch refuses, and gives MIZDREK_SHORT_BUFFER also where preview holds fewer than count * w
 * numbers; that is only tested for 1, 4 or 8 lines, as for columns.
 */
int64_t mizdrek_preview_rows(const struct mizdrek_ticket *ticket,
                             const int32_t *scratch, size_t scratch_len,
                             const int32_t *output, size_t output_len,
                             int32_t *preview, size_t preview_len,
                             size_t start, size_t count);

/* One of a plane's 16 tiles. It is open where `opened` isn't 0; a closed one may hold anything. */
struct mizdrek_tile {
    uint32_t opened;
    uint32_t room;
    size_t x;
    size_t y;
    struct mizdrek_ticket ticket;
};

/*
 * A frame plane w wide and h high that two rooms work on. Its tiles are blocks that never overlap, each with its upper
 * left number at column x, row y of one row-major output. Both rooms lend the same record and the same output; each tile
 * has residuals and a scratch of its own. mizdrek_make_plane fills the record in; each later call, of either room, is lent
 * it as the last one left it, and tests all of it. No room's batches depend on the other room's.
 */
struct mizdrek_plane {
    size_t w;
    size_t h;
    struct mizdrek_tile tiles[16];
};

/* Makes *plane a plane with sides from 4 to 256 and no tile open, and answers 0. */
int64_t mizdrek_make_plane(size_t w, size_t h, struct mizdrek_plane *plane);

/*
 * Tests a block as mizdrek_open does, with an output that must hold the whole plane, and opens it for room 0 or 1 as a
 * tile at x, y, which are multiples of 4, with no line done. Answers the tile's number: the smallest from 0 to 15 that no
 * open tile has. Writes no buffer. Refused by the first that applies of MIZDREK_BAD_SIZE, MIZDREK_BAD_KIND,
 * MIZDREK_SHORT_BUFFER, MIZDREK_BAD_TILE and MIZDREK_RESIDUAL_RANGE.
 */
int64_t mizdrek_open_tile(struct mizdrek_plane *plane, uint32_t room, size_t x, size_t y,
                          size_t w, size_t h, uint32_t column_kind, uint32_t row_kind,
                          const int32_t *residuals, size_t residuals_len,
                          const int32_t *scratch, size_t scratch_len,
                          const int32_t *output, size_t output_len);

/*
 * Closes a tile of the room, finished or not, and answers its number. A finished tile keeps its place until it is closed;
 * a closed one's place and number can be had again. Refused by MIZDREK_BAD_TILE, then MIZDREK_TILE_NOT_OPEN.
 */
int64_t mizdrek_close_tile(struct mizdrek_plane *plane, uint32_t room, size_t tile);

/*
 * Works out 1, 4 or 8 columns of a tile of the room, as mizdrek_column_batch does, from the tile's residuals into its
 * scratch, marks them in the tile's ticket and answers `count`. Refused by the first that applies of MIZDREK_BAD_TILE,
 * MIZDREK_TILE_NOT_OPEN, MIZDREK_SHORT_BUFFER and MIZDREK_BATCH_RANGE.
 */
int64_t mizdrek_tile_columns(struct mizdrek_plane *plane, uint32_t room, size_t tile,
                             const int32_t *residuals, size_t residuals_len,
                             int32_t *scratch, size_t scratch_len,
                             size_t start, size_t count);

/*
 * Works out 1, 4 or 8 rows of a tile of the room, as mizdrek_row_batch does, from the tile's scratch into the plane's
 * output, marks them in the tile's ticket and answers `count`. Row j is the tile's numbers of output from place
 * (y + j) * plane->w + x on; no other number of output changes. Refused by the first that applies of MIZDREK_BAD_TILE,
 * MIZDREK_TILE_NOT_OPEN, MIZDREK_SHORT_BUFFER, MIZDREK_BATCH_RANGE and MIZDREK_BATCH_ORDER.
 */
int64_t mizdrek_tile_rows(struct mizdrek_plane *plane, uint32_t room, size_t tile,
                          const int32_t *scratch, size_t scratch_len,
                          int32_t *output, size_t output_len,
                          size_t start, size_t count);

/* The 4x4 Walsh-Hadamard transform of 16 residuals from -4095 to 4095. Writes 16 numbers of output and answers 16. */
int64_t mizdrek_fwht4x4(const int32_t *residuals, size_t residuals_len,
                        int32_t *output, size_t output_len);

/*
 * Quantizes one coefficient. Answers 1 where it is kept and 0 where it is dropped, and writes *level (+0.0 where it is
 * dropped) and *magnitude. Settings: step 1 to 1048576, factor 1/1024 to 1024, threshold 0 to 1048576, dead_zone 0 to 0.5.
 */
int64_t mizdrek_quantize_one(float factor, float threshold, float dead_zone, uint32_t step, int32_t coefficient,
                             float *level, float *magnitude);

/*
 * Quantizes the coefficients that a scan names, in its order: one level and one magnitude for each entry; answers how many
 * entries the scan has. An entry rc means place rc where the scan's second entry is there and equals the width; in every
 * other scan it means place (rc % 32) * width + rc / 32. Settings as for mizdrek_quantize_one.
 */
int64_t mizdrek_quantize_to_levels(size_t width, uint32_t step, float factor, float threshold, float dead_zone,
                                   const int32_t *coefficients, size_t coefficients_len,
                                   const uint16_t *scan, size_t scan_len,
                                   float *levels, size_t levels_len,
                                   float *magnitudes, size_t magnitudes_len);

/*
 * Chooses between two trials of a block by the sums of the magnitudes of their first `count` levels. Answers 0 where the
 * first trial's sum is the smaller or both are the same, and 1 where the second's is: the levels to keep are the first
 * `count` of that buffer, where they stand. A count of 0 answers 0. Both buffers are only read, and may overlap. Refused
 * by the first that applies of MIZDREK_SCAN_RANGE, for a count above 1024, MIZDREK_SHORT_BUFFER, and MIZDREK_BAD_RECORD,
 * where one of the first `count` levels of either trial is beyond 2^30 from zero.
 */
int64_t mizdrek_lighter(const int32_t *first, size_t first_len,
                        const int32_t *second, size_t second_len,
                        size_t count);

/*
 * Reads block records, one after the other up to the end of bytes, and answers how many blocks they are. A record is
 *
 *     4 bytes             the block's number, 0 to 2^32 - 1, low byte first
 *     1 byte              log2(w) - 2 in the two low bits, log2(h) - 2 in the next two; the upper four are zero
 *     w * h / 8 bytes     a bit for each place of the block, low bit first
 *     4 bytes each        the levels of the places whose bit is set, as signed numbers, low byte first
 *
 * Such a level isn't zero and is at most 2^30 from it; block numbers rise strictly. No bytes are no blocks. Block 7, 4x4,
 * with 3 at place 0 and -1 at place 5, is 07 00 00 00 00 21 00 03 00 00 00 FF FF FF FF.
 *
 * Writes a number for each block, two sides, w before h, and w * h levels by place, zero where the bit is clear, block
 * after block without gaps. Nothing is written before all is tested. The first damaged record decides, by the first that
 * applies to it of MIZDREK_CUT_RECORD, MIZDREK_BAD_RECORD and MIZDREK_RECORD_ORDER; its length goes by the lower four bits
 * of its side byte, whatever the upper four are. Where none is damaged, MIZDREK_SHORT_BUFFER is given if one of the three
 * buffers is shorter than its part.
 */
int64_t mizdrek_read_records(const uint8_t *bytes, size_t bytes_len,
                             uint32_t *numbers, size_t numbers_len,
                             size_t *sides, size_t sides_len,
                             int32_t *levels, size_t levels_len);

/*
 * Writes `count` blocks, which are lent as mizdrek_read_records leaves them, as records, and answers how many bytes they
 * are. Reads `count` numbers, 2 * count sides and the w * h levels of each block; a zero level is a clear bit. These are
 * the only bytes that are read as these blocks. Nothing is written before all is tested. MIZDREK_BAD_SIZE goes by the
 * sides that are lent, even where they are fewer than 2 * count; then come MIZDREK_SHORT_BUFFER, MIZDREK_BAD_RECORD and
 * MIZDREK_RECORD_ORDER.
 */
int64_t mizdrek_write_records(size_t count,
                              const uint32_t *numbers, size_t numbers_len,
                              const size_t *sides, size_t sides_len,
                              const int32_t *levels, size_t levels_len,
                              uint8_t *bytes, size_t bytes_len);

/*
 * Adds up block records, without unpacking them. Answers how many blocks they are, as mizdrek_read_records does, and
 * writes how many of the blocks' levels aren't zero to *levels and the sum of the levels' magnitudes to *magnitude. No
 * bytes give three zeros. MIZDREK_BAD_FILE comes before all else: it is given for 2^36 bytes or more, whose sum might pass
 * 64 bits. Then the first damaged record decides, as in mizdrek_read_records. MIZDREK_SHORT_BUFFER is never given.
 */
int64_t mizdrek_report(const uint8_t *bytes, size_t bytes_len,
                       uint64_t *levels, uint64_t *magnitude);

#ifdef __cplusplus
}
#endif

#endif
