/* Puchkewa cleans a listing of pseudocode: a tape in, the cleaned tape out. Cleaning joins a line that sets a register into the lines that read it. A tape is
 * the bytes that hold a listing (docs/TAPE.md). "The Rust" is the module whose cleaning this library follows. Further calls bring a tape from one edition of C
 * to the other; keep named states of a listing; bring a tape to the form by offset from a load address, and back; write the most laborious listing; tell
 * which start value makes a formula return a wanted value; and tell which finished line may mean something else than the raw lines, and why.
 *
 * Each function is proved to meet what is said here, for every input (crates/puchkewa/src). The promise of the cleaning is `Cleans` in
 * crates/clean/specs/Replies.antt, that of a call that writes a tape is `WritesTold` in crates/answers/specs/Answers.antt. The functions keep no state,
 * allocate nothing and call nothing of C but memset and memcpy. Calls in several threads are safe where they share no memory that one of them
 * writes. A cleaned listing need not mean the same as the raw one (docs/DIFFERENCES.md).
 *
 * What no call can ask, and its caller must see to:
 *   Overlap. Memory that a call writes must not overlap any other memory that it is lent.
 *   Pointers. None may be null, and each has as many bytes behind it as its length says.
 *   Stack. Not proved, but measured: the cleaning takes about 117,000 bytes, puchkewa_cautions 128,000, puchkewa_start_value 42,000, each other call less than
 *   4,000. With the profile, and in puchkewa_start_value, each level of nested brackets takes 144 more: up to 3.6 million in all (docs/TIMES.md). On a thread
 *   that has less the program crashes; 8 MiB are enough for every call.
 *
 * Link with target/staticlib/libpuchkewa.a, which `bin/archive` makes (x86-64 Linux), or with the shared library that `bin/shared` makes of it. Packages for
 * Rust and Python: bindings. */
#ifndef PUCHKEWA_H
#define PUCHKEWA_H

#include <stdbool.h>
#include <stddef.h>
#include <stdint.h>

#ifdef __cplusplus
extern "C" {
#endif

/* The version of the interface and of what it does: a change of either changes it. */
#define PUCHKEWA_VERSION "0.16.0"

/* The least that each work area and the output must have, in bytes. 59,137 bytes are enough for the output of every tape. */
#define PUCHKEWA_WORK 49152
#define PUCHKEWA_OUTPUT 59137

/* Named states: the least that the store must have, and the output of coming back. */
#define PUCHKEWA_STORE 524288
#define PUCHKEWA_RESTORED 65523

/* The calling convention of the listed code: which registers a call overwrites. */
enum puchkewa_convention {
    PUCHKEWA_32_BIT = 0,    /* 32 bits: rax rcx rdx and their parts */
    PUCHKEWA_SYSV_64 = 1,   /* 64 bits, System V: rax rcx rdx rsi rdi r8 r9 r10 r11 */
    PUCHKEWA_WINDOWS_64 = 2 /* 64 bits, Windows: rax rcx rdx r8 r9 r10 r11 */
};

/* How the numbers of a listing are read: as the Rust reads them, or by C's edition of 2024 (docs/DIFFERENCES.md has both). */
enum puchkewa_edition {
    PUCHKEWA_RUST = 0,   /* as the Rust reads them: decimal, a leading 0 or not, and 0x; 010 is ten (in C of 2018 it is eight) */
    PUCHKEWA_C_2018 = 0, /* an older name for PUCHKEWA_RUST, and a wrong one: it is not C of 2018 */
    PUCHKEWA_C_2024 = 1  /* decimal, octal behind a leading 0, 0x and 0X, 0b and 0B; one ' may stand between two digits; 010 is eight */
};

/* The settings of a call, passed by value. Set them by { .convention = .. }: those that are not named are then off, and so are those that a later version
 * adds. Cleaning goes in rounds; a round is attempts, each to join one line into the lines that read its register; behind the rounds come the cuts, which take
 * `rax = ` off a call whose result the Rust's scan takes for unread. */
struct puchkewa_settings {
    uint8_t convention; /* 0, 1 or 2: enum puchkewa_convention */
    bool settle;        /* false: at most three rounds. true: rounds until one changes nothing, at most one more than the listing has lines; one further
                           round before the cuts would then change no byte */
    uint8_t edition;    /* 0 or 1: enum puchkewa_edition */
    bool parts;         /* true: a value is joined into a use below 32 bits only if that use has the width and the lowest bit of the register that was
                           assigned: ah is not al */
    bool profile;       /* true: the listing must be a straight piece: assignments of sums and differences to 64-bit registers at one indent, then a
                           return. What is returned is the same before and after: each expression of more than one token that is joined into another gets
                           brackets, unless it stands alone between delimiters, as ` = ` and `;`. Such a call goes down into nested brackets, 144 bytes of
                           stack each: up to 3.6 million bytes in all (docs/TIMES.md) */
};

/* Why a call was refused: the first question that was answered "no". A cleaning asks 1, 9 and 2, in this order; then of each command of the tape, from the
 * left, 3, 4, 5, 6, 10, 11, 7 and 8; and where the profile is asked for, 14 once the tape is read. Each of the other calls says below what it asks, and
 * docs/TAPE.md has all questions in tables.
 *
 * The place of a refusal, by its number:
 *
 *   1, 2, 9, 15, 16, 17, 19, 20, 21   0
 *   3                                 the offset in the tape where a command must begin: the tape's length, if it stops without FF
 *   4, 5, 6, 8, 10, 11                the offset of the command
 *   7                                 the offset of the first byte that is not printable
 *   12, 13, 18                        the offset of the first command that earns it, once the whole tape has passed
 *   14                                the number of the first line that breaks the profile, from 0; 0 of a listing without lines
 *   22                                the number of the first cell that earns it, from 0
 *
 * Offsets count from the tape's first byte, which is 0. */
enum puchkewa_refusal {
    PUCHKEWA_FINISHED = 0,           /* nothing was refused */
    PUCHKEWA_BAD_CONVENTION = 1,     /* the convention is not 0, 1 or 2 */
    PUCHKEWA_TOO_LITTLE_ROOM = 2,    /* a work area has fewer than 49,152 bytes, or the output fewer than 59,137. puchkewa_laborious: the output
                                        has fewer than 59,137; puchkewa_to_2018, puchkewa_to_2024: fewer than the tape;
                                        puchkewa_to_offsets, puchkewa_from_offsets: fewer than 59,146; puchkewa_cautions: a work area
                                        fewer than 49,152, or the output fewer than 512; named states: the store has fewer than 524,288, or
                                        the output of puchkewa_restore fewer than 65,523 */
    PUCHKEWA_NO_COMMAND = 3,         /* the tape ends where a command must begin, or the byte there begins no command of the tape's form */
    PUCHKEWA_CUT_OFF = 4,            /* the command's operand or text runs past the end of the tape */
    PUCHKEWA_TOKEN_BEFORE_LINE = 5,  /* a token before any line; an 03 (by offset 05) that does not stand directly after a line's command, or
                                        has its lowest address above its highest */
    PUCHKEWA_BEYOND_LIMITS = 6,      /* indent above 63; a text that is empty; a Number of more than 24 bytes */
    PUCHKEWA_NOT_PRINTABLE = 7,      /* a text byte outside 20 to 7E (hexadecimal) */
    PUCHKEWA_AFTER_END = 8,          /* bytes after the end command FF */
    PUCHKEWA_BAD_EDITION = 9,        /* the edition is not 0 or 1 */
    PUCHKEWA_TOO_MANY = 10,          /* more than 256 lines or 1,024 tokens */
    PUCHKEWA_TOO_MUCH_TEXT = 11,     /* more than 24,576 bytes of text */
    PUCHKEWA_NEW_KEYWORD = 12,       /* puchkewa_to_2024: a Symbol that is one of the eleven keywords in small letters that C's edition of 2024 has
                                        and that of 2018 has not (docs/TAPE.md) */
    PUCHKEWA_NEW_NUMBER = 13,        /* puchkewa_to_2018: a Number that begins 0b or 0B after at most one minus, or holds a ', and is not read by
                                        the 2024 edition */
    PUCHKEWA_NOT_STRAIGHT = 14,      /* the profile was asked for, or a start value, and a line breaks the profile, or there is no line */
    PUCHKEWA_NO_START_VALUE = 15,    /* puchkewa_start_value: no start value makes the formula return the wanted value */
    PUCHKEWA_BAD_NAMES = 16,         /* puchkewa_start_value: the chosen or a listed name is no 64-bit register or is a var_ name, or the list ends
                                        inside an entry */
    PUCHKEWA_TOO_MANY_LINES = 17,    /* puchkewa_laborious: more than 256 lines were asked for */
    PUCHKEWA_OUT_OF_REACH = 18,      /* puchkewa_to_offsets: an address below the base, or 2^32 or more above it;
                                        puchkewa_from_offsets: base and offset together are above 2^64 - 1 */
    PUCHKEWA_NO_BASE = 19,           /* puchkewa_from_offsets: the tape does not begin with 06 */
    PUCHKEWA_NOT_HELD = 20,          /* puchkewa_restore, puchkewa_delete: no state is held under the name */
    PUCHKEWA_STORE_FULL = 21,        /* puchkewa_save: the name is new, and eight states are held */
    PUCHKEWA_STORE_DAMAGED = 22      /* named states: a cell's first byte is above 1, or it is held with a length above 65,523 or under the name
                                        of an earlier held cell */
};

/* What a cleaning did. */
struct puchkewa_report {
    uint64_t refusal;    /* 0 when finished, else the number of the question that refused: enum puchkewa_refusal */
    uint64_t place;      /* of a refusal: where, as enum puchkewa_refusal says for each number; 0 when finished */
    uint64_t length;     /* the length of the new tape, at the front of the output */
    uint64_t attempts_1; /* attempts in the first round; 0 where `settle` was set .. */
    uint64_t attempts_2; /* .. in the second, 0 if it was not run .. */
    uint64_t attempts_3; /* .. in the third, 0 if it was not run */
    uint64_t removed;    /* lines removed: the attempts that succeeded */
    uint64_t cut;        /* results of calls that were cut: the Rust's scan takes them for unread */
    uint64_t rounds;     /* where `settle` was set: the rounds that were made, the last included, at least 1; otherwise 0 */
    uint64_t attempts;   /* where `settle` was set: the attempts of all rounds; otherwise 0 */
};

/* Cleans the listing of a tape.
 *
 * settings      see above.
 * tape          the tape: tape_length bytes, only read.
 * work_a        a work area of work_a_length bytes, at least PUCHKEWA_WORK. What it holds before the call does not matter.
 * work_b        a second one.
 * out           the output: out_length bytes, at least PUCHKEWA_OUTPUT.
 *
 * When finished, the first `length` bytes of the output are the tape of the cleaned listing and its other bytes are as before; the first
 * 49,152 bytes of each work area are zero and its other bytes as before. When refused, all counts are 0 and nothing that was lent is changed.
 *
 * The tape, both work areas and the output must not overlap, and no pointer may be null (for an empty tape pass any valid pointer and 0). */
struct puchkewa_report puchkewa_clean(struct puchkewa_settings settings,
                                      const uint8_t *tape, size_t tape_length,
                                      uint8_t *work_a, size_t work_a_length,
                                      uint8_t *work_b, size_t work_b_length,
                                      uint8_t *out, size_t out_length);

/* What a call beside the cleaning answers. */
struct puchkewa_answer {
    uint64_t refusal; /* 0, or the number of the question that refused: enum puchkewa_refusal */
    uint64_t place;   /* of a refusal: where, as enum puchkewa_refusal says for each number; 0 when not refused */
    uint64_t value;   /* where nothing refused: what the call says of its answer; otherwise 0 */
};

/* Between C's editions of 2018 and 2024: makes of the tape of a listing for the one a tape for the other. (Clean such a tape with PUCHKEWA_C_2024, before or
 * after: PUCHKEWA_RUST reads 010 as ten.)
 *
 * puchkewa_to_2018: Numbers that the 2024 edition reads lose their quotes, and binary ones become hexadecimal in small letters without leading
 * zeros, behind their minus if they have one: 0b1010 is 0xa. Their values by the 2024 edition stay the same, and no text grows.
 * puchkewa_to_2024: nothing changes; a listing that has one of the new keywords as a Symbol is refused.
 * Kinds, lines, marks (03) and all other texts are kept.
 *
 * tape          the tape: tape_length bytes, only read.
 * out           the output: out_length bytes, at least as many as the tape has; otherwise 2.
 *
 * First 2 is asked, then the questions of the tape (3 to 8, 10 and 11), then 13 or 12 of each command from the left. `value` is the length of the
 * new tape; the first `value` bytes of the output are that tape and its other bytes are as before. When refused, nothing that was lent is
 * changed. The tape and the output must not overlap, and no pointer may be null. */
struct puchkewa_answer puchkewa_to_2018(const uint8_t *tape, size_t tape_length, uint8_t *out, size_t out_length);
struct puchkewa_answer puchkewa_to_2024(const uint8_t *tape, size_t tape_length, uint8_t *out, size_t out_length);

/* Named states of a listing: up to eight tapes, each under a name of 8 bytes (any bytes), in a lent store.
 *
 * store         PUCHKEWA_STORE bytes or more, of which the first 524,288 are used: eight cells of 65,536. A cell is a byte 0 (free) or 1 (held), the
 *               name, the tape's length in 4 bytes, the lowest first, and the tape. A store whose bytes are all 0 holds nothing.
 * name          8 bytes, only read.
 *
 * Questions: 2 (a shorter store, or on coming back an output below PUCHKEWA_RESTORED bytes), then 22; saving: the tape's, then 21; coming back and
 * deleting: 20. When refused, nothing that was lent is changed.
 *
 * puchkewa_save     saves a tape: in the cell that is held under the name (length and tape are written, and what a longer one left behind it stays), or in
 *                   the first free cell. `value` is 0. No other byte changes.
 * puchkewa_restore  copies the tape that is held under the name to the front of the output, as it stands, unasked; `value` is its length. The output past
 *                   it is as before, and so is the store.
 * puchkewa_delete   sets the first byte of the name's cell to 0, and nothing else. `value` is 0.
 *
 * While only these calls write the store, what comes back is the tape last saved under that name, and no store that they made earns 22. Store, name, tape and
 * output must not overlap, and no pointer may be null. (crates/puchkewa/src/export_states.rt, definitions in crates/states/specs.) */
struct puchkewa_answer puchkewa_save(uint8_t *store, size_t store_length, const uint8_t name[8], const uint8_t *tape, size_t tape_length);
struct puchkewa_answer puchkewa_restore(const uint8_t *store, size_t store_length, const uint8_t name[8], uint8_t *out, size_t out_length);
struct puchkewa_answer puchkewa_delete(uint8_t *store, size_t store_length, const uint8_t name[8]);

/* The most laborious listing of so many lines, 0 to 256: writes the tape of a listing whose first round makes the most attempts, in every setting of a
 * call: 0 for none, 1 for one line, and 2n - 2 for n from two on. No listing of n lines needs more.
 *
 * lines         how many; more than 256 are refused by 17, before 2.
 * out           the output: out_length bytes, at least PUCHKEWA_OUTPUT; fewer are refused by 2.
 *
 * `value` is the tape's length (6,131 for 256 lines); the output past it is as before. When refused, nothing is changed.
 * (crates/puchkewa/src/export_laborious.rt; the claim is `MostLaborious` in crates/laborious/specs/Listing.antt.) */
struct puchkewa_answer puchkewa_laborious(uint64_t lines, uint8_t *out, size_t out_length);

/* Which start value gives this output: the smallest value, 0 to 2^64 - 1, that the chosen register can start with so that a formula returns the wanted
 * value, modulo 2^64.
 *
 * tape          the tape of the formula: a straight piece, as for `profile` above. Numbers in it are read as PUCHKEWA_RUST says.
 * chosen        the name of the register: chosen_length bytes. Any 64-bit register, also r99, and also one that the formula lacks; no var_ name.
 * values        what the other registers start with: a list of values_length bytes, entries one after the other. An entry is a byte with the length of the
 *               name, the name, and the value in 8 bytes, the lowest first. A register that is not listed starts with 0; of equal names the first
 *               decides; an entry for the chosen register is ignored. Names count by their text: r8 and r08 are two.
 * wanted        the value that the formula is to return.
 *
 * The questions: the tape's (3 to 8, 10 and 11), then 14, 16, 15. 15 is answered exactly when no start value works. When not refused, `value` is the start
 * value; the formula returns `wanted` for it and for no smaller one. All that is lent is only read. No pointer may be null (for an empty list pass any valid
 * pointer and 0). As with `profile`, the call goes down into nested brackets (docs/TIMES.md has the stack that it takes).
 * (crates/puchkewa/src/export_start.rt; the claim is `StartValue` in crates/start/specs/Smallest.antt.) */
struct puchkewa_answer puchkewa_start_value(const uint8_t *tape, size_t tape_length,
                                            const uint8_t *chosen, size_t chosen_length,
                                            const uint8_t *values, size_t values_length,
                                            uint64_t wanted);

/* The least that the output of puchkewa_to_offsets and puchkewa_from_offsets must have, in bytes. */
#define PUCHKEWA_OFFSETS_OUTPUT 59146

/* A tape brought to the form by offset from the load address `base`, and back (docs/TAPE.md). There and back at the same base gives the identical tape.
 *
 * base          the load address.
 * tape          the tape: tape_length bytes, only read. puchkewa_to_offsets takes one of the form that puchkewa_clean takes, puchkewa_from_offsets one that
 *               begins with 06 and its base.
 * out           the output: out_length bytes, at least PUCHKEWA_OFFSETS_OUTPUT.
 *
 * When not refused, `value` is the length of the new tape, at the front of the output; its other bytes are as before. When refused, nothing is changed. The questions:
 * 2; of puchkewa_from_offsets 19, and 4 if 06 is cut short; those of the tape; then 18, whose place is the first command with such an address. The tape and the output
 * must not overlap, and no pointer may be null. */
struct puchkewa_answer puchkewa_to_offsets(uint64_t base, const uint8_t *tape, size_t tape_length,
                                           uint8_t *out, size_t out_length);
struct puchkewa_answer puchkewa_from_offsets(const uint8_t *tape, size_t tape_length,
                                             uint8_t *out, size_t out_length);

/* The least that the output of puchkewa_cautions must have, in bytes: two for each of 256 lines. */
#define PUCHKEWA_CAUTIONS_OUTPUT 512

/* Why a finished line may mean something else than the raw lines that it came from: a bit for each kind of caution. */
enum puchkewa_caution {
    PUCHKEWA_CAUTION_ODD_FORM = 1,      /* A line here, or one that the value may reach, is not looked into (inline assembly, an instruction by
                                           name, two statements, `&&`, a loop other than do .. while, a line entered from elsewhere): compare
                                           with the raw lines yourself. */
    PUCHKEWA_CAUTION_STILL_READ = 2,    /* The register was read elsewhere too, on this line or another: there it now holds an older value. */
    PUCHKEWA_CAUTION_OVERWRITTEN = 4,   /* A call stands between the value's assignment and its use here, which may have overwritten the
                                           register. */
    PUCHKEWA_CAUTION_CALL_MOVED = 8,    /* A call is now made in another order, after other reads, or only under a condition. */
    PUCHKEWA_CAUTION_READ_MOVED = 16,   /* A value is now read later, in another order, or only under a condition: mind what calls change, and
                                           device registers. */
    PUCHKEWA_CAUTION_OTHER_WIDTH = 32,  /* The value went through a part of a register, or is now computed or compared at another width or
                                           sign. */
    PUCHKEWA_CAUTION_OTHER_TEXT = 64,   /* Read as C, the line's text groups otherwise than the joined expression, or writes what was only read,
                                           or counts elements for bytes. */
    PUCHKEWA_CAUTION_ODD_NUMBER = 128,  /* A number is large, or not spelt plainly: C may read it, or add it up, otherwise. */
    PUCHKEWA_CAUTION_SLOT = 256,        /* A stack slot was taken for a register; it is memory, and pointers and calls may reach it. */
    PUCHKEWA_CAUTION_HANDED_OVER = 512  /* The value may be handed over unseen: to a call that does not spell its arguments, or back to the
                                           caller (the result, and the registers that calls preserve). */
};

/* Tells the cautions of each line of the cleaned listing. It cleans the tape's listing, as puchkewa_clean does, and writes no tape.
 *
 * settings, tape, work_a, work_b    as for puchkewa_clean.
 * out                               the output: out_length bytes, at least PUCHKEWA_CAUTIONS_OUTPUT.
 *
 * The questions are those of puchkewa_clean, in its order; 2 asks for 512 bytes of output. When not refused, `value` is twice the number of
 * the cleaned listing's lines, and the bytes 2q and 2q + 1 of the output are the set of line q, from 0, the low byte first: the sum of its kinds
 * (enum puchkewa_caution), or 0. The other bytes of the output are as before; the first 49,152 bytes of each work area are zero and its other bytes as
 * before. When refused, nothing that was lent is changed. The tape, both work areas and the output must not overlap, and no pointer may be null.
 *
 * In a line without a caution none of the known ways was found; that is no proof that it means the same.
 * (crates/puchkewa/src/export_cautions.rt; the sets are `finished_cautions` in crates/cautions/specs/Cautions.antt.) */
struct puchkewa_answer puchkewa_cautions(struct puchkewa_settings settings,
                                         const uint8_t *tape, size_t tape_length,
                                         uint8_t *work_a, size_t work_a_length,
                                         uint8_t *work_b, size_t work_b_length,
                                         uint8_t *out, size_t out_length);

#ifdef __cplusplus
}
#endif

#endif
