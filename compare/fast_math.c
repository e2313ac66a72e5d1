/* What include/sigvanyor.h asks of the floating-point environment, and what comes of another: one
 * player with the payoffs 0.0 and 5e-324, the least number above 0. Strategy 1 alone is an
 * equilibrium. Where the processor takes denormals as zero, as in a program that gcc links with
 * -ffast-math, the two are equal and the library lists strategy 0 too. compare/header builds this
 * both ways. */
#include "sigvanyor.h"
#include <stdio.h>
#include <string.h>
#include <xmmintrin.h>

int main(void) {
    const unsigned flush_to_zero = 1u << 15, denormals_are_zero = 1u << 6;
    const uint64_t bits[] = {0, 1};
    const size_t counts[] = {2}, first[] = {0};
    double payoffs[2], utilities[2] = {-1, -1};
    size_t choices[2] = {9, 9}, total = 99, written = 99;
    uint8_t equilibrium = 7;
    memcpy(payoffs, bits, sizeof bits);

    const bool answered = sigvanyor_equilibria(counts, 1, payoffs, 2, choices, 2, utilities, 2, &total, &written) == 0 &&
                          sigvanyor_is_equilibrium(counts, 1, payoffs, 2, first, 1, &equilibrium) == 0;
    const bool right = answered && total == 1 && written == 1 && choices[0] == 1 && choices[1] == 9 && equilibrium == 0;
    const bool both = answered && total == 2 && written == 2 && choices[0] == 0 && choices[1] == 1 && equilibrium == 1;
    const bool changed = (_mm_getcsr() & (flush_to_zero | denormals_are_zero)) != 0;

    if (right)
        printf("fast_math: %s: the one equilibrium is listed\n", changed ? "another environment" : "the default environment");
    else if (both && changed)
        printf("fast_math: denormals are zero: a profile that is no equilibrium is listed, as the header warns\n");
    else
        printf("fast_math: the listing is wrong\n");
#ifdef __FAST_MATH__
    return !(right || (both && changed));
#else
    return !right;
#endif
}
