/*
 * batchplan: plans a batch sheet, writes one from plain arrays, and writes one as free MPS for other solvers.
 *
 * A sheet has n materials with costs and bounds, m limits with their starting multipliers, a step length p/D and a step
 * count k. Planning it takes k steps of a dual subgradient method in whole numbers, and gives the sums of the amounts,
 * a lower bound on cost (low), a gap, and for each limit the closing multiplier and the residual total. At the closing
 * multipliers no further step is taken, but low counts their dual value too. docs/TASK.md states every rule; T7.4 and
 * the like are its anchors.
 *
 * A sheet, lowest byte first, has 12 + 6e bytes (T2):
 *   at 0        the sizes n, m, e, p, D, k, of 2 bytes each, unsigned
 *   at 12       e keys of 2 bytes each, unsigned, rising: row * 64 + column
 *   at 12 + 2e  e values of 4 bytes each, signed, none of them 0, in the order of their keys
 * What has no entry is 0. n is 1 to 32, m 0 to 16, e at most n(m + 3) + 2m, p and D 1 to 1,024, k 1 to 4,096. The rows
 * (T3) are
 *   0           column j:     the cost of material j,         -10,000 to 10,000
 *   1           column j:     its least amount,               1 to 1,000
 *   2           column j:     its most amount,                1 to 1,000
 *   3 + i       column j:     a of limit i and material j,    -1,000 to 1,000
 *   3 + i       column n:     b of limit i,                   -32,000,000 to 32,000,000
 *   3 + i       column n + 1: the start of limit i,           1 to 1,073,741,824
 * and limit i says that the sum of a times amount is at most b. Its multiplier, kept times D, begins at the start.
 * batchplan_write_sheet makes these bytes of sizes and figures; there is one sheet for them, and no other.
 *
 * To go on next week where a plan ends: give each limit of the new sheet the closing multiplier of the old record as
 * its start. Among the arrays of batchplan_write_sheet these are the m figures of `start`. In the bytes limit i has its
 * start under the key 64 (3 + i) + n + 1, as an entry more, in e and in the order of the keys, and no entry where it is
 * 0. Multiplier and start are both times D, so that the new sheet keeps D, and the units of costs and limits too. Low
 * and gap hold for any starts, but starts near the limits' prices make the better plan: examples/glass_next.txt shows
 * by how much.
 *
 * The functions are proved: for every sheet, all arrays and every buffer, their numbers and every byte that they leave
 * are those of the rules, and they always return. The proofs are about the functions as they are called by the
 * conditions below. Nothing checks a C caller.
 *
 * What the caller keeps, of every pointer and length that it passes:
 *   - A sheet that is planned, listed or written as MPS, `const uint8_t *sheet`, points to `sheet_bytes` bytes that
 *     can be read.
 *   - The arrays `cost`, `least`, `most`, `a`, `b` and `start` each point to as many aligned figures of 4 bytes as the
 *     length beside them says, which can be read.
 *   - The buffers `record`, `text` and `uint8_t *sheet` each point to as many bytes as the length beside them says,
 *     which can be read and written.
 *   - Where any of these lengths is 0 the pointer may be NULL: nothing is read or written through it.
 *   - `place`, `low`, `gap` and `length_or_place` each point to an aligned object of their type that can be written.
 *     They are written by every call, and are never NULL.
 *   - A buffer or an object that can be written overlaps no other of these. Arrays, which are only read, may overlap:
 *     one array of zeros will do for `least` and `start`.
 *   - Nothing of this is changed, by another thread or a signal handler, until the call returns.
 * There are no other conditions: the bytes of a sheet may be any bytes, sizes and figures any numbers, and arrays and
 * buffers may have any length.
 *
 * The functions keep no state, allocate nothing, print nothing and read no clock, file or environment. So threads may
 * call them at the same time, each with its own objects. They want less than 16 KB of stack. Planning the largest
 * sheet takes some two milliseconds.
 *
 * To link: the archive target/staticlib/libbatchplan_lib.a, made by `./build library`, for x86-64 Linux, and
 * the C library. Python and others that load a library want a shared object:
 *     gcc -shared -o libbatchplan.so -Wl,--whole-archive target/staticlib/libbatchplan_lib.a -Wl,--no-whole-archive
 * Sizes and lengths have 8 bytes there: in ctypes set `argtypes`, or a right call may be refused with 2.
 */
#ifndef BATCHPLAN_H
#define BATCHPLAN_H

#include <stddef.h>
#include <stdint.h>

#ifdef __cplusplus
extern "C" {
#endif

/*
 * The version of the rules that this header is for (T10.5). It goes up by one when an answer, a length or the layout of
 * a record changes. Where batchplan_version() gives another number, the library was not made for this header. A
 * function that is added leaves it as it is: a library that lacks the function does not link or, where it is loaded,
 * lacks the symbol.
 *
 * Version 2 has the starts, and longer sheets with them: 3852 bytes in place of 3756. A sheet that version 1 reads has
 * no starts, and its answer and its record are in version 2 what they were.
 *
 * Version 3 counts the dual value at the closing multipliers in low, and leaves lengths and layouts as they were. For
 * the same sheet low may be higher than in version 2, and gap is then lower, by k times as much; neither is ever worse.
 * A sheet that version 2 plans may be refused, with 9 at the place k, where that value shows that there is no recipe:
 * the place of 9 goes from 0 to k, and no longer to k - 1.
 * Sums, multipliers and residual totals of a plan are what they were, and a sheet that version 2 refuses has the same
 * refusal.
 */
#define BATCHPLAN_VERSION 3

/* The length of the longest sheet. A longer one is refused; and a buffer of this length takes every sheet that is
 * written, so that 8 never comes. */
#define BATCHPLAN_SHEET_BYTES 3852

/* The length of the longest record: a record buffer of this length takes every record, so that 8 never comes. */
#define BATCHPLAN_RECORD_BYTES 342

/* A text buffer of this length takes every listing. */
#define BATCHPLAN_LISTING_BYTES 4096

/* The length of the longest MPS text: a text buffer of this length takes every MPS text, so that 11 never comes. */
#define BATCHPLAN_MPS_BYTES 9248

/* What batchplan_plan, batchplan_write_sheet and batchplan_mps answer: 0 for a plan, or for a sheet or a text that is
 * written, and else the number of the refusal (T7.4, T13.4, T14.5). The place is 0 where nothing else is said. Entries,
 * materials and steps count from 0. */
enum {
    BATCHPLAN_PLAN = 0,        /* a plan */
    BATCHPLAN_WRITTEN = 0,     /* a sheet or an MPS text that is written */
    BATCHPLAN_SHORT = 1,       /* the sheet has under 12 bytes */
    BATCHPLAN_DIMENSIONS = 2,  /* n, m or the count of entries is outside its range, or an array's length is wrong */
    BATCHPLAN_LENGTH = 3,      /* the sheet's length is not what its count of entries asks for */
    BATCHPLAN_PARAMETERS = 4,  /* p, D or k is outside its range */
    BATCHPLAN_KEY = 5,         /* an entry's key names no figure, or is not above the one before; place: the entry */
    BATCHPLAN_VALUE = 6,       /* an entry's value is 0 or outside its range; place: the entry. Of arrays: a figure is
                                * neither 0 nor in its range; place 0 */
    BATCHPLAN_BOUNDS = 7,      /* a material's least amount is above its most amount; place: the material */
    BATCHPLAN_BUFFER = 8,      /* the buffer is too short; place: the length of the record or the sheet */
    BATCHPLAN_INFEASIBLE = 9,  /* no recipe keeps all bounds and limits ("no blend"); place: the step that shows it, or
                                * k where the closing multipliers do, after the last step (T5.8) */
    BATCHPLAN_DIVERGED = 10,   /* a multiplier grew above 1,073,741,824; place: the step */
    BATCHPLAN_TEXT = 11        /* the buffer is too short for the MPS text; place: the length of the text */
};

/*
 * Plans a sheet (T10.3).
 *
 * For a plan: the answer is 0, *place is 0, *low and *gap are the plan's figures, and the record stands at the start of
 * the buffer. The bytes of the buffer after the record are as they were. No feasible recipe costs less than low / D,
 * and none is cheaper than the average by more than gap / (k * D). D stands in the sheet, and not in the record. Low is
 * the greatest of D times the least cost that the bounds leave, the dual values of the k steps, and the dual value at
 * the closing multipliers (T5.3); gap goes by this low (T5.4).
 *
 * For a refusal: the answer is its number, 1 to 10, *place is its place, *low and *gap are 0, and every byte of the
 * buffer is as it was.
 *
 * A record, lowest byte first, has 22 + 4n + 12m bytes (T6):
 *   at 0             n                  2 bytes, unsigned
 *   at 2             m                  2 bytes, unsigned
 *   at 4             k                  2 bytes, unsigned
 *   at 6             low                8 bytes, signed
 *   at 14            gap                8 bytes, signed
 *   at 22            n sums             of 4 bytes each, signed; the averaged amount of a material is its sum / k
 *   at 22 + 4n       m multipliers      of 4 bytes each, signed, those after the last step, times D: next week's starts
 *   at 22 + 4n + 4m  m residual totals  of 8 bytes each, signed; the average oversteps a limit by its total / k
 */
size_t batchplan_plan(const uint8_t *sheet, size_t sheet_bytes, uint8_t *record, size_t record_bytes,
                      size_t *place, int64_t *low, int64_t *gap);

/*
 * Writes the listing of a sheet: what the program batchplan prints (T8, T10.4). The sheet is planned with a record
 * buffer of its own, of BATCHPLAN_RECORD_BYTES bytes, so that it is never refused with 8.
 *
 * The answer is the length of the listing, which stands at the start of the text buffer; the bytes after it are as they
 * were. There is no closing 0 byte. Where the listing is longer than the buffer, the answer is 0 and every byte of the
 * buffer is as it was.
 */
size_t batchplan_listing(const uint8_t *sheet, size_t sheet_bytes, uint8_t *text, size_t text_bytes);

/*
 * Writes the sheet of sizes and figures (T10.6, T13). The sizes are n, m, p, D and k. The figures stand in six arrays;
 * one that is 0 is absent from the sheet. So a most amount that is left out is 0, and none of the material is used; a b
 * that is left out is 0, and the limit still holds. A figure that does not fit 32 bits is the caller's to refuse. An
 * array, its length beside it, how many figures that must be, and which:
 *   cost   costs    n      the cost of each material
 *   least  leasts   n      its least amount
 *   most   mosts    n      its most amount
 *   a      as       n * m  limit by limit: a of limit i and material j at the place n * i + j
 *   b      bs       m      b of each limit
 *   start  starts   m      its start
 * The ranges of sizes and figures are those of a sheet, above.
 *
 * Where it is written: the answer is 0, *length_or_place is the length of the sheet, 12 + 6e for e figures that are not
 * 0, and the sheet stands at the start of the buffer. The bytes of the buffer after the sheet are as they were.
 * batchplan_plan, which wants this length and not the buffer's, reads the sheet without any of refusals 1 to 7, as
 * these sizes and figures.
 *
 * For a refusal: the answer is its number, *length_or_place is its place, and every byte of the buffer is as it was.
 * They are looked for in this order, and the first that is found is the answer:
 *   2  n or m is outside its range, or an array has another length than stands here
 *   4  p, D or k is outside its range
 *   6  a figure is outside its range and not 0; the place is 0
 *   7  a material's least amount is above its most amount, which may be absent; place: the first such material
 *   8  the buffer is shorter than the sheet; place: the length that the sheet has
 * A buffer of BATCHPLAN_SHEET_BYTES bytes takes every sheet, so that 8 never comes.
 */
size_t batchplan_write_sheet(size_t n, size_t m, size_t p, size_t d, size_t k, const int32_t *cost, size_t costs,
                             const int32_t *least, size_t leasts, const int32_t *most, size_t mosts,
                             const int32_t *a, size_t as, const int32_t *b, size_t bs,
                             const int32_t *start, size_t starts, uint8_t *sheet, size_t sheet_bytes,
                             size_t *length_or_place);

/*
 * Writes a sheet as free MPS, a form in which solvers of linear programs take their problems (T10.7, T14). The text
 * asks for the amounts X0, X1 and so on, one for each material, that keep all bounds and the limits L0, L1 and so on,
 * and make COST as small as can be. Costs, bounds and limits are carried as they stand in the sheet. The step length,
 * the step count and the starts are not carried, and no step is taken.
 *
 * The text is lines of ASCII, each with a newline at its end. There is no closing 0 byte. GLPK reads it with
 * `glpsol --freemps`. CBC wants the word FREE after the name in the first line, which the text does not have: change
 * `NAME SHEET` to `NAME SHEET FREE`, or CBC may find errors in the bounds.
 *
 * Where it is written: the answer is 0, *length_or_place is the length of the text, and the text stands at the start of
 * the buffer. The bytes of the buffer after the text are as they were.
 *
 * For a refusal: the answer is its number, *length_or_place is its place, and every byte of the buffer is as it was.
 * They are looked for in this order, and the first that is found is the answer:
 *   1 to 7  the sheet is not read; number and place are those that batchplan_plan answers
 *   11      the buffer is shorter than the text; place: the length that the text has
 * A buffer of BATCHPLAN_MPS_BYTES bytes takes every text, so that 11 never comes.
 */
size_t batchplan_mps(const uint8_t *sheet, size_t sheet_bytes, uint8_t *text, size_t text_bytes,
                     size_t *length_or_place);

/* The version of the rules that the library follows: BATCHPLAN_VERSION, where header and library belong together. */
size_t batchplan_version(void);

#ifdef __cplusplus
}
#endif

#endif
