/* SPDX-License-Identifier: Apache-2.0 OR MIT */
/*
 * Prints the number and the name of each reason that libbactool has, for scripts/try-library: of the numbers up to 2^24,
 * and of those near each greater power of two, the ones with a name.
 */
#include <bactool.h>
#include <stdio.h>

static void print_reason(uint32_t why)
{
    char name[16];
    size_t length = bactool_reason(why, name, sizeof name);
    if (length > 0)
        printf("%lu %.*s\n", (unsigned long)why, (int)length, name);
}

int main(void)
{
    const uint32_t below = 1 << 24;
    for (uint32_t why = 0; why < below; why++)
        print_reason(why);
    for (uint32_t power = below; power > 0; power <<= 1)
        for (uint32_t more = 0; more < 512; more++)
            print_reason(power - 256 + more);
    for (uint32_t less = 0; less < 256; less++)
        print_reason(UINT32_MAX - less);
    return 0;
}
