/*
 * Prints "m D", the decay number of every m below 115,200 and of some from there on, one to a line.
 * Links libdecay_call.a.
 */
#include <inttypes.h>
#include <stdio.h>

uint64_t icu_decay_number(uint64_t m);

static void print(uint64_t m)
{
    printf("%" PRIu64 " %" PRIu64 "\n", m, icu_decay_number(m));
}

int main(void)
{
    static const uint64_t further[] = {115201, 122400, 960000, UINT32_MAX, UINT32_MAX + UINT64_C(1), UINT64_MAX - 1, UINT64_MAX};

    for (uint64_t m = 0; m <= 115200; m++)
        print(m);
    for (size_t i = 0; i < sizeof further / sizeof *further; i++)
        print(further[i]);
    return 0;
}
