/* Cleans the tape of the scope paper's filter example, `rax = f();` `return;`, and prints the report and the new tape. From the repository's
 * root, after `bin/archive`:
 *
 *     cc -Iinclude examples/c/clean.c target/staticlib/libpuchkewa.a -o target/clean-c && target/clean-c
 */
#include <inttypes.h>
#include <stdio.h>

#include "puchkewa.h"

static const uint8_t tape[] = {
    0x02, 0x00,                                           /* a line, indent 0 */
    0x11, 0x03, 0x00, 'r', 'a', 'x',                      /* Register */
    0x16, 0x03, 0x00, ' ', '=', ' ',                      /* Punct */
    0x14, 0x01, 0x00, 'f',                                /* Symbol */
    0x16, 0x03, 0x00, '(', ')', ';',                      /* Punct */
    0x02, 0x00,                                           /* a line, indent 0 */
    0x13, 0x06, 0x00, 'r', 'e', 't', 'u', 'r', 'n',       /* Keyword */
    0x16, 0x01, 0x00, ';',                                /* Punct */
    0xFF,                                                 /* the end */
};

static uint8_t work_a[PUCHKEWA_WORK], work_b[PUCHKEWA_WORK], out[PUCHKEWA_OUTPUT];

int main(void)
{
    struct puchkewa_settings settings = { .convention = PUCHKEWA_SYSV_64 };
    struct puchkewa_report r = puchkewa_clean(settings, tape, sizeof tape, work_a, sizeof work_a, work_b, sizeof work_b, out, sizeof out);
    if (r.refusal != PUCHKEWA_FINISHED) {
        printf("refused %" PRIu64 " at %" PRIu64 "\n", r.refusal, r.place);
        return 1;
    }
    printf("length %" PRIu64 ", attempts %" PRIu64 " %" PRIu64 " %" PRIu64 ", removed %" PRIu64 ", cut %" PRIu64 "\n",
           r.length, r.attempts_1, r.attempts_2, r.attempts_3, r.removed, r.cut);
    for (uint64_t i = 0; i < r.length; i++)
        printf(i + 1 < r.length ? "%02X " : "%02X\n", out[i]);
    return 0;
}
