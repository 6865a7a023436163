/*
 * Writes a sheet from rows of numbers, as a spreadsheet has them, plans it and tells the plan in words.
 *
 *     write [FILE]     the sheet's bytes also go to FILE, so that `batchplan <FILE` lists the same plan
 *
 * The exit status is 0 for a plan, 1 for a refusal, and 2 where library or file are at fault.
 *
 * To compile, after `./build library`:
 *
 *     gcc -Ilibrary/include library/write.c -Ltarget/staticlib -lbatchplan_lib -o target/write
 */
#include <inttypes.h>
#include <stdio.h>

#include "batchplan.h"

#define COUNT(array) (sizeof(array) / sizeof(array)[0])

/* A charge of glass. Costs are in crowns per tonne and amounts in kg, so that a cost times an amount is in thousandths
 * of a crown. */
static const char *const materials[] = {"sand", "soda ash", "limestone", "cullet"};
static const int32_t cost[] = {900, 7500, 800, 1700};
static const int32_t least[] = {450, 140, 90, 250};
static const int32_t most[] = {530, 180, 150, 330};

/* At least 715 kg of SiO2, 130 of Na2O and 102 of CaO. A limit says "at most", so that all its signs are turned round.
 * Oxide contents are in percent, so that a content times an amount is in units of 10 g. */
static const char *const limits[] = {"SiO2", "Na2O", "CaO"};
static const int32_t a[] = {
    -99, 0, -1, -72,
    0, -58, 0, -13,
    0, 0, -55, -11,
};
static const int32_t b[] = {-71500, -13000, -10200};

/* Where last week's plan ended. In the first week they are 0. */
static const int32_t start[] = {7480, 130800, 14840};

/* Steps of the length P/D, and how many. */
enum { P = 1, D = 1024, STEPS = 4096 };

/* A number of some bytes, little-endian. */
static uint64_t number_at(const uint8_t *bytes, unsigned width)
{
    uint64_t number = 0;
    while (width-- > 0)
        number = 256 * number + bytes[width];
    return number;
}

/* A signed number of 8 bytes, little-endian. */
static int64_t signed_at(const uint8_t *bytes)
{
    uint64_t number = number_at(bytes, 8);
    return number <= INT64_MAX ? (int64_t)number : -(int64_t)~number - 1;
}

/* Tells why a table has no plan. The other refusals do not come: a sheet that is written is read. */
static void print_refusal(size_t number, size_t place)
{
    switch (number) {
    case BATCHPLAN_DIMENSIONS:
        puts("refused: there are no materials, too many materials or limits, or a row of a wrong length");
        break;
    case BATCHPLAN_PARAMETERS:
        puts("refused: the step length or the number of steps is outside its range");
        break;
    case BATCHPLAN_VALUE:
        puts("refused: a cost, an amount, a limit's figure or a start is outside its range");
        break;
    case BATCHPLAN_BOUNDS:
        printf("refused: the least amount of %s is above its most\n", materials[place]);
        break;
    case BATCHPLAN_BUFFER:
        printf("refused: the sheet wants a buffer of %zu bytes\n", place);
        break;
    case BATCHPLAN_INFEASIBLE:
        fputs("refused: no recipe keeps all bounds and limits, as ", stdout);
        if (place < STEPS)
            printf("step %zu shows\n", place);
        else
            puts("the closing multipliers show");
        break;
    case BATCHPLAN_DIVERGED:
        printf("refused: a multiplier ran away in step %zu\n", place);
        break;
    default:
        printf("refused: number %zu at place %zu\n", number, place);
    }
}

/* x divided by `by` hundreds, cut down to hundredths: what is claimed of a cost is never rounded up. */
static double hundredths(int64_t x, int64_t by)
{
    return (double)(x / by - (x % by < 0)) / 100;
}

/* Tells what to weigh, what each limit comes to, and what is proved of the cost. */
static void print_plan(int64_t low, int64_t gap, const uint8_t *record)
{
    const uint8_t *sums = record + 22, *multipliers = sums + 4 * COUNT(materials);
    const uint8_t *totals = multipliers + 4 * COUNT(limits);
    size_t i, j;
    for (j = 0; j < COUNT(materials); j++)
        printf("weigh %.2f kg of %s\n", (double)number_at(sums + 4 * j, 4) / STEPS, materials[j]);
    for (i = 0; i < COUNT(limits); i++) {
        double over = (double)signed_at(totals + 8 * i) / STEPS / 100;
        printf("%s: %.3f kg %s", limits[i], over > 0 ? over : -over, over > 0 ? "short" : "to spare");
        printf(", next week's start %" PRIu64 "\n", number_at(multipliers + 4 * i, 4));
    }
    printf("no recipe that keeps bounds and limits costs less than %.2f crowns\n", hundredths(low, 10 * D));
    printf("this one costs at most %.2f crowns more than any of them\n", -hundredths(-gap, 10 * (int64_t)STEPS * D));
}

/* Writes bytes to a file. Gives 0 where that fails. */
static int save(const char *name, const uint8_t *bytes, size_t length)
{
    FILE *file = fopen(name, "wb");
    int good;
    if (!file)
        return 0;
    good = fwrite(bytes, 1, length, file) == length;
    return fclose(file) == 0 && good;
}

int main(int count, char **arguments)
{
    uint8_t sheet[BATCHPLAN_SHEET_BYTES], record[BATCHPLAN_RECORD_BYTES];
    size_t number, length, place;
    int64_t low, gap;

    if (batchplan_version() != BATCHPLAN_VERSION) {
        fputs("this program was made for another version of the library\n", stderr);
        return 2;
    }
    number = batchplan_write_sheet(COUNT(materials), COUNT(limits), P, D, STEPS, cost, COUNT(cost), least, COUNT(least),
                                   most, COUNT(most), a, COUNT(a), b, COUNT(b), start, COUNT(start),
                                   sheet, sizeof sheet, &length);
    if (number != BATCHPLAN_WRITTEN) {
        print_refusal(number, length);
        return 1;
    }
    printf("the sheet has %zu bytes\n", length);
    if (count > 1 && !save(arguments[1], sheet, length)) {
        fputs("the sheet cannot be saved\n", stderr);
        return 2;
    }
    number = batchplan_plan(sheet, length, record, sizeof record, &place, &low, &gap);
    if (number != BATCHPLAN_PLAN) {
        print_refusal(number, place);
        return 1;
    }
    print_plan(low, gap, record);
    return 0;
}
