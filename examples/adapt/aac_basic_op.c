/* For tests alone: a function that needs each operator of basic_op.h. */
#pragma GCC diagnostic ignored "-Wunused-function"
#include "basic_op.h"

Word32 all_operators(Word32 a, Word32 b)
{
    register Word32 sum;

    sum = add(a, b) + sub(a, b) + mult(a, b) + mult_r(a, b) + div_s(b, a);
    sum += shl(a, b) + shr(a, b) + shr_r(a, b) + norm_s(a) + saturate(a);
    sum += L_add(a, b) + L_sub(a, b) + L_mult(a, b) + L_mac(sum, a, b) + L_msu(sum, a, b);
    sum += L_shl(a, b) + L_shr(a, b) + L_shr_r(a, b) + norm_l(a);
    sum += mac_r(sum, a, b) + msu_r(sum, a, b) + round16(sum) + extract_h(sum) + extract_l(sum);
    return sum;
}
