/* Calls every function of include/mizdrek.h on the documents' small examples. Says what is wrong, or "ok". */
#define _DEFAULT_SOURCE /* for MAP_ANONYMOUS and MAP_NORESERVE */
#include "mizdrek.h"

#include <math.h>
#include <stdio.h>
#include <string.h>
#include <sys/mman.h>

static int wrong = 0;

static void expect(const char *what, int64_t got, int64_t wanted)
{
    if (got != wanted) {
        printf("%s: %lld, not %lld\n", what, (long long)got, (long long)wanted);
        wrong = 1;
    }
}

static void fill(int32_t *numbers, size_t count, int32_t number)
{
    for (size_t i = 0; i < count; i++) {
        numbers[i] = number;
    }
}

static void expect_all(const char *what, const int32_t *got, size_t count, int32_t wanted)
{
    for (size_t i = 0; i < count; i++) {
        expect(what, got[i], wanted);
    }
}

static void expect_same(const char *what, const int32_t *got, const int32_t *wanted, size_t count)
{
    for (size_t i = 0; i < count; i++) {
        expect(what, got[i], wanted[i]);
    }
}

static void tables(void)
{
    expect("dc_tx_scale of 4x4", mizdrek_dc_tx_scale(4, 4), 0);
    expect("dc_tx_scale of 32x32", mizdrek_dc_tx_scale(32, 32), 1);
    expect("dc_tx_scale of 5x4", mizdrek_dc_tx_scale(5, 4), -MIZDREK_BAD_SIZE);
    expect("qstep of 0", mizdrek_qstep(0), 64);
    expect("qstep of 25", mizdrek_qstep(25), 80);
    expect("qstep of 255", mizdrek_qstep(255), 61440);
    expect("qstep of 256", mizdrek_qstep(256), 61440);
}

static void pass(void)
{
    static const int32_t line[8] = {3, 9, 14, 18, 21, 22, 20, 13}, column[8] = {11, 34, 54, 71, 84, 88, 79, 50};
    int32_t src[32] = {1}, dst[32];
    expect("pass", mizdrek_pass(8, 1, 2, 4, src, 32, dst, 32), 32);
    for (size_t f = 0; f < 8; f++) {
        expect("ADST8 pass", dst[f], line[f]);
    }
    expect("pass at shift 0", mizdrek_pass(8, 1, 0, 4, src, 32, dst, 32), 32);
    for (size_t f = 0; f < 8; f++) {
        expect("ADST8 pass at shift 0", dst[f], column[f]);
    }
    expect_all("ADST8 pass at shift 0 over zeros", dst + 8, 24, 0);
    fill(src, 32, 8388608);
    expect("DCT4 pass at shift 0", mizdrek_pass(4, 0, 0, 4, src, 16, dst, 16), 16);
    expect("DCT4 pass at shift 0, wrapped", dst[0], INT32_MIN);
    expect_all("DCT4 pass at shift 0, wrapped, others", dst + 1, 3, 0);
    fill(dst, 32, 7);
    expect("pass at shift -1", mizdrek_pass(8, 1, -1, 4, src, 32, dst, 32), -MIZDREK_BAD_SIZE);
    expect("pass at shift 16", mizdrek_pass(8, 1, 16, 4, src, 32, dst, 32), -MIZDREK_BAD_SIZE);
    expect("pass of kind 2", mizdrek_pass(8, 2, 2, 4, src, 32, dst, 32), -MIZDREK_BAD_KIND);
    expect("pass with a short source", mizdrek_pass(8, 1, 2, 4, src, 31, dst, 32), -MIZDREK_SHORT_BUFFER);
    expect_all("a refused pass", dst, 32, 7);
}

static void block(void)
{
    int32_t residuals[17], scratch[17], output[17];
    fill(residuals, 17, 1);
    fill(scratch, 17, 7);
    fill(output, 17, 7);
    expect("block", mizdrek_block(4, 4, 0, 0, residuals, 17, scratch, 17, output, 17), 16);
    expect("4x4 DCT of 1, first", output[0], 32);
    expect_all("4x4 DCT of 1, others", output + 1, 15, 0);
    expect("past the block's scratch", scratch[16], 7);
    expect("past the block's output", output[16], 7);

    residuals[15] = 4096;
    fill(scratch, 17, 7);
    fill(output, 17, 7);
    expect("block with 4096", mizdrek_block(4, 4, 0, 0, residuals, 17, scratch, 17, output, 17), -MIZDREK_RESIDUAL_RANGE);
    expect("block of 4x8 ADST", mizdrek_block(4, 8, 1, 1, residuals, 17, scratch, 17, output, 17), -MIZDREK_BAD_KIND);
    expect_all("scratch of a refused block", scratch, 17, 7);
    expect_all("output of a refused block", output, 17, 7);
}

static void ticket(void)
{
    int32_t residuals[32], scratch[32], output[32];
    struct mizdrek_ticket ticket, before;
    memset(&ticket, 0xff, sizeof ticket);
    fill(residuals, 32, 1);
    fill(scratch, 32, 7);
    fill(output, 32, 7);
    expect("open", mizdrek_open(8, 4, 0, 0, residuals, 32, scratch, 32, output, 32, &ticket), 0);
    expect("the ticket's w", (int64_t)ticket.w, 8);
    expect("the ticket's h", (int64_t)ticket.h, 4);
    expect("the ticket's marks", ticket.columns | ticket.rows, 0);

    before = ticket;
    expect("rows first", mizdrek_row_batch(&ticket, scratch, 32, output, 32, 0, 4), -MIZDREK_BATCH_ORDER);
    expect("columns from 2", mizdrek_column_batch(&ticket, residuals, 32, scratch, 32, 2, 4), -MIZDREK_BATCH_RANGE);
    expect("a refused batch's ticket", memcmp(&before, &ticket, sizeof ticket), 0);
    expect_all("output of a refused batch", output, 32, 7);

    expect("columns 4 to 7", mizdrek_column_batch(&ticket, residuals, 32, scratch, 32, 4, 4), 4);
    expect("their marks", ticket.columns, 0xf0);
    expect_all("the other columns", scratch, 16, 7);
    expect("columns 0 to 3", mizdrek_column_batch(&ticket, residuals, 32, scratch, 32, 0, 4), 4);
    expect("all columns' marks", ticket.columns, 0xff);
    expect("rows 0 to 3", mizdrek_row_batch(&ticket, scratch, 32, output, 32, 0, 4), 4);
    expect("all rows' marks", ticket.rows, 0xf);
    expect("8x4 DCT of 1, first", output[0], 45);
    expect_all("8x4 DCT of 1, others", output + 1, 31, 0);

    before = ticket;
    expect("open 5x4", mizdrek_open(5, 4, 0, 0, residuals, 32, scratch, 32, output, 32, &ticket), -MIZDREK_BAD_SIZE);
    expect("a refused opening's ticket", memcmp(&before, &ticket, sizeof ticket), 0);
}

/* A block 8 wide and 4 high, its ticket, and a preview buffer one number longer than its rows. */
struct work {
    int32_t residuals[32], scratch[32], output[32], preview[33];
    struct mizdrek_ticket ticket, before;
};

static int64_t preview_columns(struct work *work, size_t preview_len, size_t start, size_t count)
{
    fill(work->preview, 33, 7);
    work->before = work->ticket;
    return mizdrek_preview_columns(&work->ticket, work->residuals, 32, work->scratch, 32,
                                   work->preview, preview_len, start, count);
}

static int64_t preview_rows(struct work *work, size_t preview_len, size_t start, size_t count)
{
    fill(work->preview, 33, 7);
    work->before = work->ticket;
    return mizdrek_preview_rows(&work->ticket, work->scratch, 32, work->output, 32,
                                work->preview, preview_len, start, count);
}

/* The ticket is as before, and of preview no more than the first `written` numbers have changed. */
static void expect_kept(const char *what, const struct work *work, size_t written)
{
    expect(what, memcmp(&work->before, &work->ticket, sizeof work->ticket), 0);
    expect_all(what, work->preview + written, 33 - written, 7);
}

/* A preview that gave back `answer` was refused for this reason, and has changed nothing. */
static void expect_refused(const char *what, const struct work *work, int64_t answer, enum mizdrek_refusal reason)
{
    expect(what, answer, -(int64_t)reason);
    expect_kept(what, work, 0);
}

static void refused_previews(struct work *work)
{
    expect_refused("rows first", work, preview_rows(work, 33, 0, 4), MIZDREK_BATCH_ORDER);
    expect_refused("a preview short for 1 column", work, preview_columns(work, 3, 0, 1), MIZDREK_SHORT_BUFFER);
    expect_refused("a preview short for 4 columns", work, preview_columns(work, 15, 0, 4), MIZDREK_SHORT_BUFFER);
    expect_refused("a preview short for 8 columns", work, preview_columns(work, 31, 0, 8), MIZDREK_SHORT_BUFFER);
    expect_refused("a preview short for 4 rows", work, preview_rows(work, 31, 0, 4), MIZDREK_SHORT_BUFFER);
    expect_refused("two columns in an empty preview", work, preview_columns(work, 0, 0, 2), MIZDREK_BATCH_RANGE);
    expect_refused("two rows in an empty preview", work, preview_rows(work, 0, 0, 2), MIZDREK_BATCH_RANGE);
    work->ticket.w = SIZE_MAX;
    expect_refused("rows of a made-up ticket", work, preview_rows(work, 0, 0, 8), MIZDREK_BAD_SIZE);
    work->ticket.w = 8;
    expect_all("scratch of refused previews", work->scratch, 32, 7);
    expect_all("output of refused previews", work->output, 32, 7);
}

static void column_previews(struct work *work)
{
    int32_t *residuals = work->residuals, *scratch = work->scratch;
    expect("a preview of columns 4 to 7", preview_columns(work, 33, 4, 4), 4);
    expect_kept("past the columns' preview", work, 16);
    expect_all("scratch after a preview", scratch, 32, 7);
    expect("columns 4 to 7, previewed", mizdrek_column_batch(&work->ticket, residuals, 32, scratch, 32, 4, 4), 4);
    expect_same("the columns' preview", work->preview, scratch + 16, 16);
    expect("columns 0 to 3", mizdrek_column_batch(&work->ticket, residuals, 32, scratch, 32, 0, 4), 4);
    expect("a preview of all columns", preview_columns(work, 32, 0, 8), 8);
    expect_same("all columns' preview", work->preview, scratch, 32);
}

static void row_previews(struct work *work)
{
    int32_t scratch[32];
    memcpy(scratch, work->scratch, sizeof scratch);
    expect("a preview of row 2", preview_rows(work, 33, 2, 1), 1);
    expect_kept("past the row's preview", work, 8);
    expect_all("output after a preview", work->output, 32, 7);
    expect_same("scratch after a preview of rows", work->scratch, scratch, 32);
    expect("row 2, previewed", mizdrek_row_batch(&work->ticket, work->scratch, 32, work->output, 32, 2, 1), 1);
    expect_same("the row's preview", work->preview, work->output + 16, 8);
    expect("a preview of all rows", preview_rows(work, 32, 0, 4), 4);
    expect_kept("past all rows' preview", work, 32);
    expect("all rows, previewed", mizdrek_row_batch(&work->ticket, work->scratch, 32, work->output, 32, 0, 4), 4);
    expect_same("all rows' preview", work->preview, work->output, 32);
}

static void preview(void)
{
    struct work work;
    for (int32_t i = 0; i < 32; i++) {
        work.residuals[i] = i * 37 % 101 - 50;
    }
    fill(work.scratch, 32, 7);
    fill(work.output, 32, 7);
    expect("open for previews",
           mizdrek_open(8, 4, 0, 0, work.residuals, 32, work.scratch, 32, work.output, 32, &work.ticket), 0);
    refused_previews(&work);
    column_previews(&work);
    row_previews(&work);
}

/* A plane 16 wide and 8 high for tiles 8 wide and 4 high, and the scratches of two tiles, one after the other. */
struct frame {
    struct mizdrek_plane plane, before;
    int32_t residuals[32], scratch[64], output[129];
};

static int64_t open_tile(struct frame *frame, uint32_t room, size_t x, size_t y, size_t output_len)
{
    frame->before = frame->plane;
    return mizdrek_open_tile(&frame->plane, room, x, y, 8, 4, 0, 0, frame->residuals, 32, frame->scratch, 32,
                             frame->output, output_len);
}

static int64_t close_tile(struct frame *frame, uint32_t room, size_t tile)
{
    frame->before = frame->plane;
    return mizdrek_close_tile(&frame->plane, room, tile);
}

static int64_t tile_columns(struct frame *frame, uint32_t room, size_t tile, size_t count)
{
    frame->before = frame->plane;
    return mizdrek_tile_columns(&frame->plane, room, tile, frame->residuals, 32, frame->scratch + tile % 2 * 32, 32, 0, count);
}

static int64_t tile_rows(struct frame *frame, uint32_t room, size_t tile, size_t output_len)
{
    frame->before = frame->plane;
    return mizdrek_tile_rows(&frame->plane, room, tile, frame->scratch + tile % 2 * 32, 32, frame->output, output_len, 0, 4);
}

/* A call that gave back `answer` was refused for this reason, and has left the record as it was. */
static void expect_same_plane(const char *what, const struct frame *frame, int64_t answer, enum mizdrek_refusal reason)
{
    expect(what, answer, -(int64_t)reason);
    expect(what, memcmp(&frame->before, &frame->plane, sizeof frame->plane), 0);
}

static void make_plane(struct frame *frame)
{
    static const struct mizdrek_tile closed;
    memset(&frame->plane, 0xff, sizeof frame->plane);
    frame->before = frame->plane;
    expect_same_plane("a plane of 257x8", frame, mizdrek_make_plane(257, 8, &frame->plane), MIZDREK_BAD_SIZE);
    expect_same_plane("a plane of 16x3", frame, mizdrek_make_plane(16, 3, &frame->plane), MIZDREK_BAD_SIZE);
    expect("make_plane", mizdrek_make_plane(16, 8, &frame->plane), 0);
    expect("the plane's w", (int64_t)frame->plane.w, 16);
    expect("the plane's h", (int64_t)frame->plane.h, 8);
    for (size_t i = 0; i < 16; i++) {
        expect("a new plane's tile", memcmp(&frame->plane.tiles[i], &closed, sizeof closed), 0);
    }
}

static void open_tiles(struct frame *frame)
{
    const struct mizdrek_tile *tile = &frame->plane.tiles[1];
    expect("a tile of room 0", open_tile(frame, 0, 0, 0, 128), 0);
    expect("a tile of room 1", open_tile(frame, 1, 8, 4, 129), 1);
    expect("it is open", tile->opened, 1);
    expect("its room", tile->room, 1);
    expect("its x and y", (int64_t)(tile->x * 100 + tile->y), 804);
    expect("its sides", (int64_t)(tile->ticket.w * 100 + tile->ticket.h), 804);
    expect("its marks", tile->ticket.columns | tile->ticket.rows, 0);
    expect_same_plane("an overlapping tile", frame, open_tile(frame, 1, 4, 0, 128), MIZDREK_BAD_TILE);
    expect_same_plane("a misplaced tile", frame, open_tile(frame, 1, 8, 2, 128), MIZDREK_BAD_TILE);
    expect_same_plane("a tile outside", frame, open_tile(frame, 1, 12, 0, 128), MIZDREK_BAD_TILE);
    expect_same_plane("a tile of room 2", frame, open_tile(frame, 2, 8, 0, 128), MIZDREK_BAD_TILE);
    expect_same_plane("a plane's short output", frame, open_tile(frame, 2, 8, 0, 127), MIZDREK_SHORT_BUFFER);
}

static void refused_tiles(struct frame *frame)
{
    expect_same_plane("a tile's rows first", frame, tile_rows(frame, 0, 0, 128), MIZDREK_BATCH_ORDER);
    expect_same_plane("two columns of a tile", frame, tile_columns(frame, 0, 0, 2), MIZDREK_BATCH_RANGE);
    expect_same_plane("rows in a short output", frame, tile_rows(frame, 0, 0, 127), MIZDREK_SHORT_BUFFER);
    expect_same_plane("the other room's columns", frame, tile_columns(frame, 0, 1, 8), MIZDREK_TILE_NOT_OPEN);
    expect_same_plane("rows of tile 16", frame, tile_rows(frame, 1, 16, 0), MIZDREK_TILE_NOT_OPEN);
    expect_same_plane("closing the other room's", frame, close_tile(frame, 0, 1), MIZDREK_TILE_NOT_OPEN);
    frame->plane.tiles[0].x = SIZE_MAX - 3;
    expect_same_plane("columns on a broken record", frame, tile_columns(frame, 1, 1, 8), MIZDREK_BAD_TILE);
    expect_same_plane("closing on a broken record", frame, close_tile(frame, 1, 1), MIZDREK_BAD_TILE);
    frame->plane.tiles[0].x = 0;
    expect_all("scratch of refused calls", frame->scratch, 64, 7);
    expect_all("output of refused calls", frame->output, 129, 7);
}

static void plane(void)
{
    struct frame frame;
    fill(frame.residuals, 32, 1);
    fill(frame.scratch, 64, 7);
    fill(frame.output, 129, 7);
    make_plane(&frame);
    open_tiles(&frame);
    refused_tiles(&frame);

    expect("a tile's columns", tile_columns(&frame, 1, 1, 8), 8);
    expect("their marks", frame.plane.tiles[1].ticket.columns, 0xff);
    expect_all("the other tile's scratch", frame.scratch, 32, 7);
    expect("a tile's rows", tile_rows(&frame, 1, 1, 129), 4);
    expect("their marks", frame.plane.tiles[1].ticket.rows, 0xf);
    for (size_t i = 0; i < 129; i++) {
        int inside = i / 16 >= 4 && i / 16 < 8 && i % 16 >= 8;
        expect("a place of the plane", frame.output[i], i == 72 ? 45 : inside ? 0 : 7);
    }

    expect_same_plane("a finished tile's place", &frame, open_tile(&frame, 0, 8, 4, 128), MIZDREK_BAD_TILE);
    expect("closing", close_tile(&frame, 1, 1), 1);
    expect_same_plane("closing again", &frame, close_tile(&frame, 1, 1), MIZDREK_TILE_NOT_OPEN);
    expect("a closed place", open_tile(&frame, 0, 8, 4, 128), 1);
}

static void wht(void)
{
    int32_t residuals[16], output[16];
    fill(residuals, 16, 8);
    expect("fwht4x4", mizdrek_fwht4x4(residuals, 16, output, 16), 16);
    expect("WHT of 8, first", output[0], 32);
    expect_all("WHT of 8, others", output + 1, 15, 0);
    expect("a short WHT", mizdrek_fwht4x4(residuals, 15, output, 16), -MIZDREK_SHORT_BUFFER);
}

static void one_place(int32_t coefficient, int64_t kept, float level, float magnitude)
{
    float l = 7, m = 7;
    expect("one place", mizdrek_quantize_one(1.0f, 0.5f, 0.375f, 16, coefficient, &l, &m), kept);
    expect("its level", l == level && !signbit(l) == !signbit(level), 1);
    expect("its magnitude", m == magnitude, 1);
}

static void levels(void)
{
    static const int32_t coefficients[16] = {9, -24, 7, -9};
    static const uint16_t by_columns[16] = {0, 4, 8, 12, 1, 5, 9, 13, 2, 6, 10, 14, 3, 7, 11, 15};
    float levels[16], magnitudes[16], l = 7, m = 7;
    one_place(9, 1, 0.0f, 0.5625f);
    one_place(-24, 1, -1.0f, 1.5f);
    one_place(7, 0, 0.0f, 0.4375f);
    one_place(-9, 1, -0.0f, 0.5625f);
    expect("step 0", mizdrek_quantize_one(1.0f, 0.5f, 0.375f, 0, 9, &l, &m), -MIZDREK_BAD_SETTING);
    expect("a refused place", l == 7 && m == 7, 1);

    expect("levels",
           mizdrek_quantize_to_levels(4, 16, 1.0f, 0.5f, 0.375f, coefficients, 16, by_columns, 16, levels, 16, magnitudes, 16), 16);
    expect("the level of -24", levels[4] == -1.0f, 1);
    expect("the magnitude of -24", magnitudes[4] == 1.5f, 1);
    expect("a lost place",
           mizdrek_quantize_to_levels(4, 16, 1.0f, 0.5f, 0.375f, coefficients, 15, by_columns, 16, levels, 16, magnitudes, 16),
           -MIZDREK_SCAN_RANGE);
}

/* Document 02's example, block 7, 4x4, with 3 at place 0 and -1 at place 5; behind it block 8, 8 wide and 4 high, without
 * a level. */
static const uint8_t two_records[24] = {7, 0, 0, 0, 0, 0x21, 0, 3, 0, 0, 0, 0xff, 0xff, 0xff, 0xff,
                                        8, 0, 0, 0, 1, 0, 0, 0, 0};

/* Bytes and the buffers of a list, each longer than the two blocks need. */
struct buffers {
    uint8_t bytes[32];
    uint32_t numbers[4];
    size_t sides[6];
    int32_t levels[50];
};

struct disk {
    struct buffers now, before;
};

static int64_t read_records(struct disk *disk, size_t bytes_len, size_t numbers_len, size_t sides_len, size_t levels_len)
{
    struct buffers *now = &disk->now;
    disk->before = *now;
    return mizdrek_read_records(now->bytes, bytes_len, now->numbers, numbers_len, now->sides, sides_len,
                                now->levels, levels_len);
}

static int64_t write_records(struct disk *disk, size_t count, size_t numbers_len, size_t sides_len, size_t levels_len,
                             size_t bytes_len)
{
    struct buffers *now = &disk->now;
    disk->before = *now;
    return mizdrek_write_records(count, now->numbers, numbers_len, now->sides, sides_len, now->levels, levels_len,
                                 now->bytes, bytes_len);
}

/* A call that gave back `answer` has changed nothing. */
static void expect_idle(const char *what, const struct disk *disk, int64_t answer, int64_t wanted)
{
    expect(what, answer, wanted);
    expect(what, memcmp(&disk->before, &disk->now, sizeof disk->now), 0);
}

/* The first `count` of the two blocks are in the list, and behind them the numbers that were there before. */
static void expect_list(const char *what, const struct disk *disk, size_t count)
{
    const struct buffers *now = &disk->now, *before = &disk->before;
    for (size_t i = 0; i < 4; i++) {
        expect(what, now->numbers[i], i < count ? 7 + (int64_t)i : before->numbers[i]);
    }
    for (size_t i = 0; i < 6; i++) {
        expect(what, (int64_t)now->sides[i], i >= 2 * count ? (int64_t)before->sides[i] : i == 2 ? 8 : 4);
    }
    for (size_t i = 0; i < 50; i++) {
        int inside = i < (count == 2 ? 48 : 16);
        expect(what, now->levels[i], !inside ? before->levels[i] : i == 0 ? 3 : i == 5 ? -1 : 0);
    }
}

/* The first `count` bytes are the two records', and behind them are the bytes that were there before. */
static void expect_bytes(const char *what, const struct disk *disk, size_t count)
{
    expect(what, memcmp(disk->now.bytes, two_records, count), 0);
    expect(what, memcmp(disk->now.bytes + count, disk->before.bytes + count, 32 - count), 0);
}

static void refused_reading(struct disk *disk)
{
    uint8_t *bytes = disk->now.bytes;
    expect_idle("too few numbers", disk, read_records(disk, 24, 1, 4, 48), -MIZDREK_SHORT_BUFFER);
    expect_idle("too few sides", disk, read_records(disk, 24, 2, 3, 48), -MIZDREK_SHORT_BUFFER);
    expect_idle("too few levels", disk, read_records(disk, 24, 2, 4, 47), -MIZDREK_SHORT_BUFFER);
    expect_idle("an end in a level", disk, read_records(disk, 14, 0, 0, 0), -MIZDREK_CUT_RECORD);
    expect_idle("an end in a number", disk, read_records(disk, 18, 0, 0, 0), -MIZDREK_CUT_RECORD);
    bytes[15] = 7;
    expect_idle("number 7 twice", disk, read_records(disk, 24, 0, 0, 0), -MIZDREK_RECORD_ORDER);
    bytes[19] = 0x11;
    expect_idle("an upper bit in a side byte", disk, read_records(disk, 24, 0, 0, 0), -MIZDREK_BAD_RECORD);
    expect_idle("an end after it", disk, read_records(disk, 23, 0, 0, 0), -MIZDREK_CUT_RECORD);
    bytes[7] = 0;
    expect_idle("a zero level before it", disk, read_records(disk, 23, 0, 0, 0), -MIZDREK_BAD_RECORD);
    bytes[7] = 1;
    bytes[10] = 0x40;
    expect_idle("a level of 2^30 + 1", disk, read_records(disk, 15, 1, 2, 16), -MIZDREK_BAD_RECORD);
    bytes[7] = 0;
    expect("a level of 2^30", read_records(disk, 15, 1, 2, 16), 1);
    expect("it", disk->now.levels[0], 1073741824);
}

static void refused_writing(struct disk *disk)
{
    struct buffers *now = &disk->now;
    now->numbers[1] = 7;
    expect_idle("number 7 twice in a list", disk, write_records(disk, 2, 2, 4, 48, 24), -MIZDREK_RECORD_ORDER);
    now->levels[5] = -1073741825;
    expect_idle("a level of -2^30 - 1", disk, write_records(disk, 2, 2, 4, 48, 24), -MIZDREK_BAD_RECORD);
    expect_idle("one number for two blocks", disk, write_records(disk, 2, 1, 4, 48, 24), -MIZDREK_SHORT_BUFFER);
    expect_idle("three sides for two blocks", disk, write_records(disk, 2, 2, 3, 48, 24), -MIZDREK_SHORT_BUFFER);
    expect_idle("47 levels for two blocks", disk, write_records(disk, 2, 2, 4, 47, 24), -MIZDREK_SHORT_BUFFER);
    expect_idle("23 bytes for two blocks", disk, write_records(disk, 2, 2, 4, 48, 23), -MIZDREK_SHORT_BUFFER);
    expect_idle("more blocks than there are", disk, write_records(disk, SIZE_MAX, 2, 4, 48, 24), -MIZDREK_SHORT_BUFFER);
    now->sides[3] = 5;
    expect_idle("a side of 5", disk, write_records(disk, SIZE_MAX, 0, 4, 0, 0), -MIZDREK_BAD_SIZE);
    expect_idle("a side of 5 that isn't lent", disk, write_records(disk, 2, 2, 3, 48, 24), -MIZDREK_SHORT_BUFFER);
    now->levels[5] = -1073741824;
    expect("a level of -2^30", write_records(disk, 1, 1, 2, 16, 15), 15);
    expect("its low byte", now->bytes[11], 0);
    expect("its high byte", now->bytes[14], 0xc0);
}

static void records(void)
{
    struct disk disk;
    memset(&disk, 9, sizeof disk);
    memcpy(disk.now.bytes, two_records, 24);
    expect_idle("no bytes", &disk, read_records(&disk, 0, 0, 0, 0), 0);
    expect("the example", read_records(&disk, 15, 4, 6, 50), 1);
    expect_list("the example's list", &disk, 1);
    expect("two records", read_records(&disk, 24, 2, 4, 48), 2);
    expect_list("two records' list", &disk, 2);

    memset(disk.now.bytes, 9, sizeof disk.now.bytes);
    expect_idle("no blocks", &disk, write_records(&disk, 0, 0, 0, 0, 0), 0);
    expect("the example's block", write_records(&disk, 1, 4, 6, 50, 32), 15);
    expect_bytes("the example's bytes", &disk, 15);
    expect("two blocks", write_records(&disk, 2, 2, 4, 48, 24), 24);
    expect_bytes("two blocks' bytes", &disk, 24);

    refused_writing(&disk);
    memcpy(disk.now.bytes, two_records, 24);
    refused_reading(&disk);
}

/* A report with 70 and 700 in the two numbers before. */
static void expect_report(const char *what, const uint8_t *bytes, size_t bytes_len, int64_t answer, uint64_t levels,
                          uint64_t magnitude)
{
    uint64_t l = 70, m = 700;
    expect(what, mizdrek_report(bytes, bytes_len, &l, &m), answer);
    expect(what, (int64_t)l, (int64_t)levels);
    expect(what, (int64_t)m, (int64_t)magnitude);
}

static void expect_no_report(const char *what, const uint8_t *bytes, size_t bytes_len, enum mizdrek_refusal reason)
{
    expect_report(what, bytes, bytes_len, -(int64_t)reason, 70, 700);
}

static void report(void)
{
    uint8_t bytes[24];
    memcpy(bytes, two_records, 24);
    expect_report("the report of no bytes", bytes, 0, 0, 0, 0);
    expect_report("the example's report", bytes, 15, 1, 2, 4);
    expect_report("two records' report", bytes, 24, 2, 2, 4);
    expect_no_report("a report of 14 bytes", bytes, 14, MIZDREK_CUT_RECORD);
    expect_no_report("a report of 23 bytes", bytes, 23, MIZDREK_CUT_RECORD);
    bytes[15] = 7;
    expect_no_report("a report with number 7 twice", bytes, 24, MIZDREK_RECORD_ORDER);
    bytes[19] = 0x11;
    expect_no_report("a report with an upper bit", bytes, 24, MIZDREK_BAD_RECORD);
    memset(bytes + 7, 0, 8);
    expect_no_report("a report with zero levels", bytes, 24, MIZDREK_BAD_RECORD);
    bytes[10] = 0x40;
    bytes[14] = 0xc0;
    expect_report("the report of 2^30 and -2^30", bytes, 15, 1, 2, (uint64_t)1 << 31);
}

/* Zeros that take no memory before they are read. Their second record has number 0 like the first; 2^36 of them are too
 * long, and that comes first. */
static void long_report(void)
{
    size_t length = (size_t)1 << 36;
    void *zeros = mmap(NULL, length, PROT_READ, MAP_PRIVATE | MAP_ANONYMOUS | MAP_NORESERVE, -1, 0);
    if (zeros == MAP_FAILED) {
        puts("not tried, since 2^36 bytes can't be mapped: reports about that length");
        return;
    }
    expect_no_report("a report of 2^36 - 1 bytes", zeros, length - 1, MIZDREK_RECORD_ORDER);
    expect_no_report("a report of 2^36 bytes", zeros, length, MIZDREK_BAD_FILE);
    munmap(zeros, length);
}

/* A choice between two pairs of levels by the first `count` of each, which are as before after it. */
static void expect_lighter(const char *what, int32_t a, int32_t b, int32_t c, int32_t d, size_t count, int64_t answer)
{
    const int32_t before[4] = {a, b, c, d};
    int32_t first[2] = {a, b}, second[2] = {c, d};
    expect(what, mizdrek_lighter(first, 2, second, 2, count), answer);
    expect_same(what, first, before, 2);
    expect_same(what, second, before + 2, 2);
}

static void lighter(void)
{
    const int32_t limit = 1073741824;
    static int32_t most[1025], more[1025];
    expect_lighter("3 -4 and -2 1", 3, -4, -2, 1, 2, 1);
    expect_lighter("-2 1 and 3 -4", -2, 1, 3, -4, 2, 0);
    expect_lighter("3 -4 and 0 7, a tie", 3, -4, 0, 7, 2, 0);
    expect_lighter("5 -5 and 1 1", 5, -5, 1, 1, 2, 1);
    expect_lighter("1 9 and 2 0 by one level", 1, 9, 2, 0, 1, 0);
    expect_lighter("9 9 and 0 0 by no level", 9, 9, 0, 0, 0, 0);
    expect_lighter("2^30 and -2^30", limit, -limit, -limit, limit - 1, 2, 1);
    expect_lighter("-2^30 - 1", 0, -limit - 1, 0, 0, 2, -MIZDREK_BAD_RECORD);
    expect_lighter("2^30 + 1 in the second", 0, 0, limit + 1, 0, 2, -MIZDREK_BAD_RECORD);
    expect_lighter("-2^31 past the count", 0, INT32_MIN, 0, INT32_MIN, 1, 0);
    expect_lighter("three levels of two", limit + 1, 0, 0, 0, 3, -MIZDREK_SHORT_BUFFER);
    expect_lighter("1025 levels of two", limit + 1, 0, 0, 0, 1025, -MIZDREK_SCAN_RANGE);

    fill(most, 1025, limit);
    fill(more, 1025, -limit);
    expect("1024 levels, a tie", mizdrek_lighter(most, 1024, more, 1025, 1024), 0);
    most[1023] -= 1;
    expect("1024 levels, the second", mizdrek_lighter(more, 1025, most, 1024, 1024), 1);
    expect("a short second trial", mizdrek_lighter(most, 1024, more, 1023, 1024), -MIZDREK_SHORT_BUFFER);
    expect("1025 levels", mizdrek_lighter(most, 1025, more, 1025, 1025), -MIZDREK_SCAN_RANGE);
    expect("a trial and itself", mizdrek_lighter(most, 1025, most, 1025, 1024), 0);
}

int main(void)
{
    tables();
    pass();
    block();
    ticket();
    preview();
    plane();
    wht();
    levels();
    lighter();
    records();
    report();
    long_report();
    if (!wrong) {
        puts("ok");
    }
    return wrong;
}
