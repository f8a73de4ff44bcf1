/*
 * A single point interchange: fills its sheet from the starting entries and what is counted, prints the rating, then corrects one
 * count.
 *
 *     cc -I include -o point examples/c/point.c target/staticlib/libicu.a
 *     ./point
 *
 * prints
 *
 *     ICU 102.1 %, letter G
 *     east-west 85225 ms, north-south 37270 ms
 *     with 2000 through eastbound: ICU 98.5 %, letter F
 */
#include <stdio.h>

#include "icu.h"

/* Left, through and right of EB, WB, NB, SB: no through crosses the arterial. */
static const uint32_t lanes[12] = {2, 3, 1, 2, 3, 1, 2, 0, 1, 2, 0, 2};
static const uint32_t volumes[12] = {500, 2200, 300, 700, 1500, 800, 800, 0, 200, 900, 0, 800};

/* Ideal flows, lost times and the cycle stay as they start. */
static void enter(uint32_t entries[ICU_ENTRIES])
{
    for (int m = 0; m < 12; m++) {
        entries[ICU_LANES(m)] = lanes[m];
        entries[ICU_VOLUME(m)] = volumes[m];
        entries[ICU_MINIMUM_GREEN(m)] = 8000;
    }
    entries[ICU_FREE_RIGHT(ICU_EB)] = 1;
    entries[ICU_FREE_RIGHT(ICU_SB)] = 1;
}

static void print_rating(const uint32_t sheet[ICU_POINT_CELLS])
{
    unsigned icu = sheet[ICU_POINT_ICU];
    printf("ICU %u.%u %%, letter %c\n", icu / 10, icu % 10, (char)('A' + sheet[ICU_POINT_LETTER]));
}

static int refused(IcuAnswer answer)
{
    if (answer.number != ICU_ACCEPTED)
        printf("refused: %u at %u\n", (unsigned)answer.number, (unsigned)answer.place);
    return answer.number != ICU_ACCEPTED;
}

int main(void)
{
    uint32_t entries[ICU_ENTRIES];
    uint32_t sheet[ICU_POINT_CELLS];

    if (refused(icu_point_start(entries, ICU_ENTRIES)))
        return 1;
    enter(entries);
    if (refused(icu_point_fill(entries, ICU_ENTRIES, sheet, ICU_POINT_CELLS)))
        return 1;
    print_rating(sheet);
    printf("east-west %u ms, north-south %u ms\n", (unsigned)sheet[ICU_POINT_EB_WB], (unsigned)sheet[ICU_POINT_NB_SB]);

    uint32_t count = ICU_VOLUME(ICU_MOVEMENT(ICU_EB, ICU_THROUGH));
    if (refused(icu_point_amend(sheet, ICU_POINT_CELLS, count, 2000)))
        return 1;
    printf("with 2000 through eastbound: ");
    print_rating(sheet);
    return 0;
}
