/*
 * Ignores the answer of each function, one to a line. The compiler must warn of
 * every line; host/run counts them. This is never linked.
 */

#include "o32.h"

void ignore(const uint8_t *input, uint8_t *output, uint32_t *plan);

void ignore(const uint8_t *input, uint8_t *output, uint32_t *plan)
{
    o32_signature(input, 1, output, 1);
    o32_make_plan(O32_FPU, input, 1, plan, 1);
    o32_fill(O32_FPU, plan, 1, input, 1, output, 1);
    o32_write(O32_FPU, input, 1, output, 1);
    o32_read(O32_FPU, input, 1, input, 1, output, 1);
    o32_walk(O32_FPU, input, 1, input, 1, output, 1);
    o32_frame(O32_FPU, 1, 0, 0, 0, 0);
    o32_prologue(O32_FPU, 1, 0, 0, 0, 0, output, 1);
    o32_epilogue(O32_FPU, 1, 0, 0, 0, 0, output, 1);
    o32_check_prologue(O32_FPU, 1, 0, 0, 0, 0, input, 1);
    o32_describe(input, 1);
}
