/* Cleans `rax = f();` `rbx = counter + rax;` `return rbx;` and prints for each line of the cleaned listing why it may mean something else: f is
 * called once counter has been read. From the repository's root, after `bin/archive`:
 *
 *     cc -Iinclude examples/c/cautions.c target/staticlib/libpuchkewa.a -o target/cautions-c && target/cautions-c
 */
#include <inttypes.h>
#include <stdio.h>

#include "puchkewa.h"

static const uint8_t tape[] = {
    0x02, 0x00,                                                                        /* a line, indent 0 */
    0x11, 3, 0, 'r', 'a', 'x',  0x16, 3, 0, ' ', '=', ' ',                             /* Register, Punct */
    0x14, 1, 0, 'f',  0x16, 3, 0, '(', ')', ';',                                       /* Symbol, Punct */
    0x02, 0x00,
    0x11, 3, 0, 'r', 'b', 'x',  0x16, 3, 0, ' ', '=', ' ',
    0x14, 7, 0, 'c', 'o', 'u', 'n', 't', 'e', 'r',  0x16, 3, 0, ' ', '+', ' ',
    0x11, 3, 0, 'r', 'a', 'x',  0x16, 1, 0, ';',
    0x02, 0x00,
    0x13, 6, 0, 'r', 'e', 't', 'u', 'r', 'n',  0x16, 1, 0, ' ',                        /* Keyword, Punct */
    0x11, 3, 0, 'r', 'b', 'x',  0x16, 1, 0, ';',
    0xFF,                                                                              /* the end */
};

static const struct {
    unsigned kind;
    const char *words;
} kinds[] = {
    { PUCHKEWA_CAUTION_ODD_FORM, "a line is not looked into" },
    { PUCHKEWA_CAUTION_STILL_READ, "an older value is read" },
    { PUCHKEWA_CAUTION_OVERWRITTEN, "a call may have overwritten the value" },
    { PUCHKEWA_CAUTION_CALL_MOVED, "a call has moved" },
    { PUCHKEWA_CAUTION_READ_MOVED, "a read has moved" },
    { PUCHKEWA_CAUTION_OTHER_WIDTH, "another width or sign" },
    { PUCHKEWA_CAUTION_OTHER_TEXT, "the text groups otherwise" },
    { PUCHKEWA_CAUTION_ODD_NUMBER, "a number is large or oddly spelt" },
    { PUCHKEWA_CAUTION_SLOT, "a stack slot" },
    { PUCHKEWA_CAUTION_HANDED_OVER, "the value may be handed over unseen" },
};

static uint8_t work_a[PUCHKEWA_WORK], work_b[PUCHKEWA_WORK], out[PUCHKEWA_CAUTIONS_OUTPUT];

int main(void)
{
    struct puchkewa_settings settings = { .convention = PUCHKEWA_SYSV_64 };
    struct puchkewa_answer r = puchkewa_cautions(settings, tape, sizeof tape, work_a, sizeof work_a, work_b, sizeof work_b, out, sizeof out);
    if (r.refusal != PUCHKEWA_FINISHED) {
        printf("refused %" PRIu64 " at %" PRIu64 "\n", r.refusal, r.place);
        return 1;
    }
    for (uint64_t q = 0; 2 * q < r.value; q++) {
        unsigned set = out[2 * q] + 256u * out[2 * q + 1];
        printf("line %" PRIu64 ":%s\n", q, set == 0 ? " none" : "");
        for (unsigned k = 0; k < sizeof kinds / sizeof kinds[0]; k++)
            if (set & kinds[k].kind)
                printf("  %s\n", kinds[k].words);
    }
    return 0;
}
