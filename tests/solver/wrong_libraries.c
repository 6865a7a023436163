/*
 * Libraries that are wrong on purpose, each in one thing. tests/archive must find every one that plans, lists or writes
 * MPS, and tests/write every one that writes sheets.
 *
 * NAME_plan stands for batchplan_plan, NAME_listing for batchplan_listing, NAME_mps for batchplan_mps, and NAME_write
 * for batchplan_write_sheet. Where there is only one of them, the others are the archive's.
 */
#include "batchplan.h"

#include <string.h>

#define PLAN(name)                                                                                                  \
    size_t name##_plan(const uint8_t *sheet, size_t sheet_bytes, uint8_t *record, size_t record_bytes, size_t *place, \
                       int64_t *low, int64_t *gap)
#define LISTING(name) size_t name##_listing(const uint8_t *sheet, size_t sheet_bytes, uint8_t *text, size_t text_bytes)
#define RIGHT_PLAN batchplan_plan(sheet, sheet_bytes, record, record_bytes, place, low, gap)
#define RIGHT_LISTING batchplan_listing(sheet, sheet_bytes, text, text_bytes)

static unsigned two_bytes(const uint8_t *from)
{
    return from[0] + 256u * from[1];
}

/* Which entries of a sheet of n materials a copy keeps, by their keys. */
typedef int keeps(unsigned n, unsigned key);

/* Row 3, of the first limit, ends below key 256. */
static int first_rows(unsigned n, unsigned key)
{
    (void)n;
    return key < 256;
}

/* Column n + 1 has the starting multipliers. */
static int no_starts(unsigned n, unsigned key)
{
    return key % 64 != n + 1;
}

/* A copy of a sheet without some of its entries. */
static size_t copy_of(const uint8_t *sheet, uint8_t *copy, keeps *is_kept)
{
    size_t e = two_bytes(sheet + 4), kept = 0, from, to = 0;
    unsigned n = two_bytes(sheet);
    for (from = 0; from < e; from++) kept += is_kept(n, two_bytes(sheet + 12 + 2 * from)) != 0;
    memcpy(copy, sheet, 12);
    copy[4] = kept % 256;
    copy[5] = kept / 256;
    for (from = 0; from < e; from++) {
        if (!is_kept(n, two_bytes(sheet + 12 + 2 * from))) continue;
        memcpy(copy + 12 + 2 * to, sheet + 12 + 2 * from, 2);
        memcpy(copy + 12 + 2 * kept + 4 * to, sheet + 12 + 2 * e + 4 * from, 4);
        to++;
    }
    return 12 + 6 * kept;
}

/* Plans a copy of a sheet, where the sheet itself is not refused before the steps. */
#define PLAN_COPY(is_kept)                                                                                        \
    uint8_t copy[BATCHPLAN_SHEET_BYTES], own[BATCHPLAN_RECORD_BYTES];                                             \
    size_t own_bytes = record_bytes < sizeof own ? record_bytes : sizeof own;                                     \
    size_t number = batchplan_plan(sheet, sheet_bytes, own, own_bytes, place, low, gap);                          \
    if (number >= BATCHPLAN_SHORT && number <= BATCHPLAN_BUFFER) return number;                                   \
    return batchplan_plan(copy, copy_of(sheet, copy, is_kept), record, record_bytes, place, low, gap);

/* Ignores every limit after the first. */
PLAN(first_limit)
{
    PLAN_COPY(first_rows)
}

/* Ignores the starting multipliers. */
PLAN(no_start)
{
    PLAN_COPY(no_starts)
}

/* Gives low for gap. */
PLAN(low_for_gap)
{
    size_t number = RIGHT_PLAN;
    *gap = *low;
    return number;
}

/* A copy of a sheet with another number of steps. */
static void copy_with_steps(const uint8_t *sheet, size_t sheet_bytes, uint8_t *copy, unsigned k)
{
    memcpy(copy, sheet, sheet_bytes);
    copy[10] = k % 256;
    copy[11] = k / 256;
}

static void put_eight_bytes(uint8_t *to, int64_t value)
{
    int at;
    for (at = 0; at < 8; at++) to[at] = (uint64_t)value >> 8 * at & 255;
}

/* Leaves the closing value out of low and gap. So low is that of the sheet with a step less, of which the closing value
 * is the dual value of the last step here. */
PLAN(low_of_steps)
{
    uint8_t copy[BATCHPLAN_SHEET_BYTES], own[BATCHPLAN_RECORD_BYTES];
    size_t number = RIGHT_PLAN, own_place;
    int64_t own_low, own_gap;
    unsigned k = number == BATCHPLAN_PLAN ? two_bytes(sheet + 10) : 1;
    if (k == 1) return number;
    copy_with_steps(sheet, sheet_bytes, copy, k - 1);
    batchplan_plan(copy, sheet_bytes, own, sizeof own, &own_place, &own_low, &own_gap);
    *gap += k * (*low - own_low);
    *low = own_low;
    put_eight_bytes(record + 6, *low);
    put_eight_bytes(record + 14, *gap);
    return number;
}

/* Takes a further step at the closing multipliers: sums, multipliers and residual totals are those of a step more. */
PLAN(further_step)
{
    uint8_t copy[BATCHPLAN_SHEET_BYTES], own[BATCHPLAN_RECORD_BYTES];
    size_t number = RIGHT_PLAN, own_place;
    int64_t own_low, own_gap;
    if (number != BATCHPLAN_PLAN) return number;
    copy_with_steps(sheet, sheet_bytes, copy, two_bytes(sheet + 10) + 1);
    if (batchplan_plan(copy, sheet_bytes, own, sizeof own, &own_place, &own_low, &own_gap) == BATCHPLAN_PLAN)
        memcpy(record + 22, own + 22, 4 * two_bytes(sheet) + 12 * two_bytes(sheet + 2));
    return number;
}

/* Names the last step where refusal 9 comes after it, at the closing look. */
PLAN(last_step)
{
    size_t number = RIGHT_PLAN;
    *place -= number == BATCHPLAN_INFEASIBLE && *place == two_bytes(sheet + 10);
    return number;
}

/* Gives the place of a refusal as one more than it is. */
PLAN(next_place)
{
    size_t number = RIGHT_PLAN;
    *place += number != BATCHPLAN_PLAN;
    return number;
}

/* Changes the byte after the record, where the buffer has one. */
PLAN(byte_after_record)
{
    size_t number = RIGHT_PLAN;
    size_t end = number == BATCHPLAN_PLAN ? 22 + 4 * two_bytes(record) + 12 * two_bytes(record + 2) : record_bytes;
    if (end < record_bytes) record[end] ^= 1;
    return number;
}

/* Leaves a byte of a refused sheet's work in the buffer. */
PLAN(byte_at_refusal)
{
    size_t number = RIGHT_PLAN;
    if (number != BATCHPLAN_PLAN && record_bytes > 0) record[record_bytes - 1] ^= 1;
    return number;
}

/* Writes one byte outside the buffer, after it or before it. */
PLAN(write_after_record)
{
    ((volatile uint8_t *)record)[record_bytes] = 0;
    return RIGHT_PLAN;
}

PLAN(write_before_record)
{
    ((volatile uint8_t *)record)[-1] = 0;
    return RIGHT_PLAN;
}

/* Reads one byte outside the sheet, after it or before it; or writes to the sheet. */
PLAN(read_after_sheet)
{
    (void)((const volatile uint8_t *)sheet)[sheet_bytes];
    return RIGHT_PLAN;
}

PLAN(read_before_sheet)
{
    (void)((const volatile uint8_t *)sheet)[-1];
    return RIGHT_PLAN;
}

PLAN(write_to_sheet)
{
    if (sheet_bytes > 0) *(volatile uint8_t *)(uintptr_t)sheet = sheet[0];
    return RIGHT_PLAN;
}

LISTING(read_after_listed_sheet)
{
    (void)((const volatile uint8_t *)sheet)[sheet_bytes];
    return RIGHT_LISTING;
}

/* Writes as much of a listing as there is room for. */
LISTING(cut_listing)
{
    uint8_t own[BATCHPLAN_LISTING_BYTES];
    size_t length = batchplan_listing(sheet, sheet_bytes, own, sizeof own);
    memcpy(text, own, length < text_bytes ? length : text_bytes);
    return length <= text_bytes ? length : 0;
}

/* Closes a listing with a byte of 0, where there is room. */
LISTING(closing_zero)
{
    size_t length = RIGHT_LISTING;
    if (length < text_bytes && length > 0) text[length] = 0;
    return length;
}

/* Writes one byte outside the text, after it or before it. */
LISTING(write_after_text)
{
    ((volatile uint8_t *)text)[text_bytes] = 0;
    return RIGHT_LISTING;
}

LISTING(write_before_text)
{
    ((volatile uint8_t *)text)[-1] = 0;
    return RIGHT_LISTING;
}

#define MPS(name)                                                                                                      \
    size_t name##_mps(const uint8_t *sheet, size_t sheet_bytes, uint8_t *text, size_t text_bytes,                      \
                      size_t *length_or_place)
#define RIGHT_MPS batchplan_mps(sheet, sheet_bytes, text, text_bytes, length_or_place)

/* Writes no figure of a limit after the first. */
MPS(no_later_limits)
{
    uint8_t copy[BATCHPLAN_SHEET_BYTES], own[BATCHPLAN_MPS_BYTES];
    size_t own_length, number = batchplan_mps(sheet, sheet_bytes, own, sizeof own, &own_length);
    if (number != BATCHPLAN_WRITTEN) return RIGHT_MPS;
    return batchplan_mps(copy, copy_of(sheet, copy, first_rows), text, text_bytes, length_or_place);
}

/* Refuses a buffer that no text fits in before it looks at the sheet. */
MPS(room_first)
{
    *length_or_place = 87;
    return text_bytes < 87 ? BATCHPLAN_TEXT : RIGHT_MPS;
}

/* Refuses a buffer that the text just fits in. */
MPS(exact_refused)
{
    uint8_t own[BATCHPLAN_MPS_BYTES];
    size_t number = batchplan_mps(sheet, sheet_bytes, own, sizeof own, length_or_place);
    if (number == BATCHPLAN_WRITTEN && *length_or_place == text_bytes) return BATCHPLAN_TEXT;
    return RIGHT_MPS;
}

/* Gives how many bytes the buffer lacks as the place of refusal 11. */
MPS(missing_bytes)
{
    size_t number = RIGHT_MPS;
    if (number == BATCHPLAN_TEXT) *length_or_place -= text_bytes;
    return number;
}

/* Gives one less than the text's length, as a length and as a place. */
MPS(one_short)
{
    size_t number = RIGHT_MPS;
    *length_or_place -= number == BATCHPLAN_WRITTEN || number == BATCHPLAN_TEXT;
    return number;
}

/* Leaves the length or place as it was. */
MPS(unset_mps_length)
{
    size_t own;
    length_or_place = &own;
    return RIGHT_MPS;
}

/* Writes as much of a text as there is room for, where it is refused with 11. */
MPS(cut_mps)
{
    uint8_t own[BATCHPLAN_MPS_BYTES];
    size_t own_length, number = RIGHT_MPS;
    if (number != BATCHPLAN_TEXT) return number;
    batchplan_mps(sheet, sheet_bytes, own, sizeof own, &own_length);
    memcpy(text, own, text_bytes);
    return number;
}

/* Closes a text with a byte of 0, where there is room. */
MPS(byte_after_mps)
{
    size_t number = RIGHT_MPS;
    if (number == BATCHPLAN_WRITTEN && *length_or_place < text_bytes) text[*length_or_place] = 0;
    return number;
}

/* Leaves a byte of a refused sheet's text in the buffer. */
MPS(byte_at_refused_mps)
{
    size_t number = RIGHT_MPS;
    if (number != BATCHPLAN_WRITTEN && text_bytes > 0) text[0] = 'N';
    return number;
}

/* Writes one byte outside the text, after it or before it. */
MPS(write_after_mps)
{
    ((volatile uint8_t *)text)[text_bytes] = 0;
    return RIGHT_MPS;
}

MPS(write_before_mps)
{
    ((volatile uint8_t *)text)[-1] = 0;
    return RIGHT_MPS;
}

/* Reads one byte outside the sheet, after it or before it; or writes to the sheet. */
MPS(read_after_mps_sheet)
{
    (void)((const volatile uint8_t *)sheet)[sheet_bytes];
    return RIGHT_MPS;
}

MPS(read_before_mps_sheet)
{
    (void)((const volatile uint8_t *)sheet)[-1];
    return RIGHT_MPS;
}

MPS(write_to_mps_sheet)
{
    if (sheet_bytes > 0) *(volatile uint8_t *)(uintptr_t)sheet = sheet[0];
    return RIGHT_MPS;
}

#define WRITE(name)                                                                                                    \
    size_t name##_write(size_t n, size_t m, size_t p, size_t d, size_t k, const int32_t *cost, size_t costs,           \
                        const int32_t *least, size_t leasts, const int32_t *most, size_t mosts, const int32_t *a,      \
                        size_t as, const int32_t *b, size_t bs, const int32_t *start, size_t starts, uint8_t *sheet,   \
                        size_t sheet_bytes, size_t *length_or_place)
#define RIGHT_WRITE                                                                                                    \
    batchplan_write_sheet(n, m, p, d, k, cost, costs, least, leasts, most, mosts, a, as, b, bs, start, starts, sheet,  \
                          sheet_bytes, length_or_place)

/* Leaves the length or place as it was. */
WRITE(unset_length)
{
    size_t own;
    length_or_place = &own;
    return RIGHT_WRITE;
}

/* Wants one byte more than the sheet has. */
WRITE(wanted_too_high)
{
    size_t number = RIGHT_WRITE;
    *length_or_place += number == BATCHPLAN_BUFFER;
    return number;
}

/* Changes the byte after the sheet, where the buffer has one. */
WRITE(byte_after_sheet)
{
    size_t number = RIGHT_WRITE;
    if (number == BATCHPLAN_WRITTEN && *length_or_place < sheet_bytes) sheet[*length_or_place] ^= 1;
    return number;
}

/* Leaves a byte of a refused sheet in the buffer. */
WRITE(byte_of_refused_sheet)
{
    size_t number = RIGHT_WRITE;
    if (number != BATCHPLAN_WRITTEN && sheet_bytes > 0) sheet[0] ^= 1;
    return number;
}

/* Writes one byte outside the buffer, after it or before it. */
WRITE(write_after_sheet)
{
    ((volatile uint8_t *)sheet)[sheet_bytes] = 0;
    return RIGHT_WRITE;
}

WRITE(write_before_sheet)
{
    ((volatile uint8_t *)sheet)[-1] = 0;
    return RIGHT_WRITE;
}

/* Reads one figure outside an array, after it or before it; or writes to the array. */
#define ARRAY(array, length)                                                                                           \
    WRITE(read_after_##array)                                                                                          \
    {                                                                                                                  \
        (void)((const volatile int32_t *)array)[length];                                                               \
        return RIGHT_WRITE;                                                                                            \
    }                                                                                                                  \
    WRITE(read_before_##array)                                                                                         \
    {                                                                                                                  \
        (void)((const volatile int32_t *)array)[-1];                                                                   \
        return RIGHT_WRITE;                                                                                            \
    }                                                                                                                  \
    WRITE(write_to_##array)                                                                                            \
    {                                                                                                                  \
        if (length > 0) *(volatile int32_t *)(uintptr_t)array = array[0];                                              \
        return RIGHT_WRITE;                                                                                            \
    }

ARRAY(cost, costs)
ARRAY(least, leasts)
ARRAY(most, mosts)
ARRAY(a, as)
ARRAY(b, bs)
ARRAY(start, starts)
