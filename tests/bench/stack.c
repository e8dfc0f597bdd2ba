/* How many bytes of stack a call of the static library takes: stack SAMPLE, or stack brackets
 *
 * The call runs on a painted stack of its own; what is no longer the paint was used. SAMPLE is a file with a convention byte and a tape, which is
 * cleaned, and whose cautions are told. `brackets`: formulas that are one bracket inside the other, at the depths where something changes; each is cleaned with the profile, and its
 * start value is asked for. 12,282 closed brackets around rax are the most that pass; of those that are not closed (14) a tape can hold 24,569 behind
 * `return`, and 24,571 behind `r8 = `, the deepest of all. One more is too much text (11). */
#include <stdint.h>
#include <stdio.h>
#include <string.h>
#include <ucontext.h>

#include "puchkewa.h"

enum { WORK = PUCHKEWA_WORK, OUTPUT = PUCHKEWA_OUTPUT, STACK = 16 << 20, PAINT = 0xA5 };
static uint8_t input[65537], work_a[WORK], work_b[WORK], out[OUTPUT], stack[STACK];
static size_t length;
static struct puchkewa_settings settings;
static uint64_t refusal;
static ucontext_t here, there;

static void clean(void) { refusal = puchkewa_clean(settings, input + 1, length - 1, work_a, WORK, work_b, WORK, out, OUTPUT).refusal; }
static void start(void) { refusal = puchkewa_start_value(input + 1, length - 1, (const uint8_t *)"rax", 3, out, 0, 5).refusal; }
static void cautions(void) { refusal = puchkewa_cautions(settings, input + 1, length - 1, work_a, WORK, work_b, WORK, out, OUTPUT).refusal; }
static void nothing(void) {}

static size_t used(void (*f)(void)) {
    memset(stack, PAINT, STACK);
    getcontext(&there);
    there.uc_stack.ss_sp = stack;
    there.uc_stack.ss_size = STACK;
    there.uc_link = &here;
    makecontext(&there, f, 0);
    swapcontext(&here, &there);
    size_t n = 0;
    while (n < STACK && stack[n] == PAINT) n++;
    return STACK - n;
}

static void token(uint8_t kind, size_t n) {
    uint8_t head[3] = { kind, n & 255, n >> 8 };
    memcpy(input + length, head, 3);
    length += 3 + n;
}

static void text(uint8_t kind, const char *s) {
    size_t n = strlen(s);
    token(kind, n);
    memcpy(input + length - n, s, n);
}

/* A Punct of `before` and n brackets. */
static void open(const char *before, size_t n) {
    size_t k = strlen(before);
    token(0x16, k + n);
    memcpy(input + length - k - n, before, k);
    memset(input + length - n, '(', n);
}

enum form { CLOSED, RETURNED, ASSIGNED };
static const char *const forms[] = { "return ((..rax..));", "return ((..", "r8 = ((.." };

/* The tape of a formula with so many brackets. The line that assigns has one behind it, since the last one must return. */
static void brackets(size_t n, enum form form) {
    static const uint8_t front[] = { 1, 2, 0 };
    memcpy(input, front, length = sizeof front);
    text(form == ASSIGNED ? 0x11 : 0x13, form == ASSIGNED ? "r8" : "return");
    open(form == ASSIGNED ? " = " : " ", n);
    if (form == CLOSED) {
        text(0x11, "rax");
        token(0x16, n + 1), memset(input + length - n - 1, ')', n), input[length - 1] = ';';
    }
    if (form == ASSIGNED) input[length++] = 2, input[length++] = 0;
    input[length++] = 0xFF;
}

static void nested(size_t n, enum form form) {
    brackets(n, form);
    settings = (struct puchkewa_settings){ .convention = PUCHKEWA_SYSV_64, .profile = true };
    size_t none = used(nothing), cleaning = used(clean) - none;
    uint64_t cleaned = refusal;
    size_t starting = used(start) - none;
    printf("%s, %zu brackets: cleaning answers %llu, %zu bytes of stack; start value answers %llu, %zu bytes\n", forms[form], n,
           (unsigned long long)cleaned, cleaning, (unsigned long long)refusal, starting);
}

int main(int argc, char **argv) {
    if (argc == 2 && strcmp(argv[1], "brackets") == 0) {
        size_t depths[] = { 0, 1, 1000, 12282, 12283 };
        for (size_t i = 0; i < sizeof depths / sizeof *depths; i++) nested(depths[i], CLOSED);
        nested(24569, RETURNED), nested(24570, RETURNED);
        nested(24571, ASSIGNED), nested(24572, ASSIGNED);
        return 0;
    }
    FILE *f = argc == 2 ? fopen(argv[1], "rb") : NULL;
    if (!f) return fputs("usage: stack SAMPLE, or stack brackets\n", stderr), 2;
    length = fread(input, 1, sizeof input, f);
    fclose(f);
    if (length == 0) return 2;
    settings = (struct puchkewa_settings){ .convention = input[0] };
    printf("%zu bytes of stack, of its cautions %zu\n", used(clean) - used(nothing), used(cautions) - used(nothing));
    return 0;
}
