/*
 * A first junction: fills its sheet, prints the rating, then corrects one count.
 *
 *     cc -I include -o first examples/c/first.c target/staticlib/libicu.a
 *     ./first
 *
 * prints
 *
 *     ICU 66.6 %, letter C
 *     the left lane from the west carries 1805.0 vehicles per hour
 *     with 600 through westbound: ICU 77.1 %, letter D
 */
#include <stdio.h>

#include "icu.h"

/* One left and one through lane on each approach, 100 lefts and 400 throughs. */
static void enter(uint32_t entries[ICU_ENTRIES])
{
    static const uint32_t volumes[3] = {100, 400, 0};
    for (int a = ICU_EB; a <= ICU_SB; a++) {
        for (int turn = ICU_LEFT; turn <= ICU_RIGHT; turn++) {
            int m = ICU_MOVEMENT(a, turn);
            entries[ICU_LANES(m)] = turn != ICU_RIGHT;
            entries[ICU_VOLUME(m)] = volumes[turn];
            entries[ICU_IDEAL_FLOW(m)] = 1900;
            entries[ICU_LOST_TIME(m)] = 4000;
            entries[ICU_MINIMUM_GREEN(m)] = 4000;
            entries[ICU_LANE_FACTOR(m)] = ICU_TABLE_FACTOR; /* nobody counted each lane */
        }
        entries[ICU_SHARED_LANE(a)] = 0;
        entries[ICU_PEDESTRIANS(a)] = 0;
        entries[ICU_PUSH_BUTTON(a)] = 1;
        entries[ICU_PEDESTRIAN_TIME(a)] = 16000;
        entries[ICU_FREE_RIGHT(a)] = 0;
    }
    entries[ICU_CYCLE] = 120;
}

static void print_rating(const uint32_t sheet[ICU_CELLS])
{
    unsigned icu = sheet[ICU_ICU];
    printf("ICU %u.%u %%, letter %c\n", icu / 10, icu % 10, (char)('A' + sheet[ICU_LETTER]));
}

/* A flow is counted in parts of a vehicle per hour; volumes and ideal flows are whole. */
static void print_flow(uint32_t flow)
{
    unsigned tenths = (unsigned)flow;
    printf("the left lane from the west carries %u.%u vehicles per hour\n", tenths / ICU_FLOW_UNIT, tenths % ICU_FLOW_UNIT);
}

static int refused(IcuAnswer answer)
{
    if (answer.number != ICU_ACCEPTED)
        printf("refused: %u at %u\n", (unsigned)answer.number, (unsigned)answer.place);
    return answer.number != ICU_ACCEPTED;
}

int main(void)
{
    uint32_t entries[ICU_ENTRIES];
    uint32_t sheet[ICU_CELLS];

    enter(entries);
    if (refused(icu_fill(entries, ICU_ENTRIES, sheet, ICU_CELLS)))
        return 1;
    print_rating(sheet);
    print_flow(sheet[ICU_LINE(ICU_EB, ICU_LEFT_FLOW)]);

    uint32_t count = ICU_VOLUME(ICU_MOVEMENT(ICU_WB, ICU_THROUGH));
    if (refused(icu_amend(sheet, ICU_CELLS, count, 600)))
        return 1;
    printf("with 600 through westbound: ");
    print_rating(sheet);
    return 0;
}
