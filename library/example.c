/*
 * Plans a sheet and prints its figures, then its listing.
 *
 *     example [FILE]     the sheet is FILE, or standard input
 *
 * To compile, after `./build library`:
 *
 *     gcc -Ilibrary/include library/example.c -Ltarget/staticlib -lbatchplan_lib -o target/example
 */
#include <inttypes.h>
#include <stdio.h>

#include "batchplan.h"

/* An unsigned number of 2 bytes, little-endian. */
static unsigned size_at(const uint8_t *bytes)
{
    return bytes[0] + 256u * bytes[1];
}

/* A number of 4 bytes, little-endian. The sums and the multipliers of a record are never negative. */
static uint32_t figure_at(const uint8_t *bytes)
{
    return bytes[0] | (uint32_t)bytes[1] << 8 | (uint32_t)bytes[2] << 16 | (uint32_t)bytes[3] << 24;
}

/* Reads a sheet, or its first bytes where it is longer than any that is read. Gives 0 where it cannot be read. */
static int read_sheet(const char *name, uint8_t *sheet, size_t room, size_t *length)
{
    FILE *file = name ? fopen(name, "rb") : stdin;
    int good;
    if (!file)
        return 0;
    *length = fread(sheet, 1, room, file);
    good = !ferror(file);
    if (name)
        fclose(file);
    return good;
}

/* Prints low, gap, and out of the record each material's sum and each limit's multiplier. What low and gap mean depends
 * on the sheet's scale D. */
static void print_plan(int64_t low, int64_t gap, unsigned scale, const uint8_t *record)
{
    unsigned materials = size_at(record), limits = size_at(record + 2), steps = size_at(record + 4), i, j;
    printf("low %" PRId64 ": no feasible recipe costs less than %.3f\n", low, (double)low / scale);
    printf("gap %" PRId64 ": the average costs at most %.3f more than any feasible recipe\n", gap,
           (double)gap / steps / scale);
    for (j = 0; j < materials; j++) {
        uint32_t sum = figure_at(record + 22 + 4 * j);
        printf("material %u: sum %" PRIu32 ", averaged amount %.3f\n", j, sum, (double)sum / steps);
    }
    for (i = 0; i < limits; i++)
        printf("limit %u: next week's start %" PRIu32 "\n", i, figure_at(record + 22 + 4 * materials + 4 * i));
}

int main(int count, char **arguments)
{
    static uint8_t sheet[BATCHPLAN_SHEET_BYTES + 1];
    uint8_t record[BATCHPLAN_RECORD_BYTES], text[BATCHPLAN_LISTING_BYTES];
    size_t length, number, place;
    int64_t low, gap;

    if (batchplan_version() != BATCHPLAN_VERSION) {
        fputs("this program was made for another version of the library\n", stderr);
        return 2;
    }
    if (!read_sheet(count > 1 ? arguments[1] : NULL, sheet, sizeof sheet, &length)) {
        fputs("the sheet cannot be read\n", stderr);
        return 2;
    }
    number = batchplan_plan(sheet, length, record, sizeof record, &place, &low, &gap);
    if (number == BATCHPLAN_PLAN)
        print_plan(low, gap, size_at(sheet + 8), record);
    else
        printf("refusal %zu at place %zu\n", number, place);
    fwrite(text, 1, batchplan_listing(sheet, length, text, sizeof text), stdout);
    return 0;
}
