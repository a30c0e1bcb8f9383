/* The TAK counting machine for callers from C (C99 or newer) and C++.
 *
 * A machine runs a small program in slices of clock cycles. Its life is:
 *
 *   1. tak_load turns a program text into an image;
 *   2. tak_start makes the fresh record and zeroes the memory;
 *   3. tak_grant, as often as wanted, grants cycles, runs the program until an ending holds, and hands out the values that it output.
 *
 * The end of this file has a whole program. CALLS.md says all this at more length, and TCL.md has the language of the machine's programs;
 * both stand in docs of the repository and are installed in share/doc/tak, with further programs.
 *
 * What a machine is made of: five parameters (K bits of a cell, N registers, S data cells of which the first B are addressed directly
 * and the others are the stack, T instruction cells), the image (4*T words), N registers, S data cells, and the record. The caller
 * owns all of it and lends it to each call; the library keeps nothing between calls and allocates nothing. M means 2^(K-1); the values
 * of a machine are -M to M - 1.
 *
 * What holds for every call:
 *
 *   - A slice is a pointer and the count of its elements, not of its bytes; no call can see that a slice is shorter than the count
 *     beside it. With the count 0 the pointer is not used and may be null. Other pointers, those to a single number among them, must
 *     be valid and aligned for their type.
 *   - What a call may write (pointers without const) must not overlap anything else that the same call is lent. Calls may run at the
 *     same time if none writes what another is lent; several machines may share an image and an input.
 *   - The result is 0, or the number of a refusal (TAK_REFUSED_...): the first check that does not pass, in the order beside the call.
 *   - A refused call leaves every slice as it was. Every call writes the single numbers behind its pointers; a refused one writes 0
 *     to them, but for the index of a faulty line.
 *   - A call takes at most TAK_..._STACK bytes of stack on x86-64, its arguments and return address included, if memcpy, memmove and
 *     memset are bound before it: in a static program, or one linked with -z now. Otherwise a call that is the first to use one of
 *     them, which may be a late one (a dump), also takes what the dynamic linker needs to find it, some 3 KiB.
 *
 * To store a machine, store record, registers and data cells, and image and input (tak_load makes the same image of the same text), and
 * the last ending if it is wanted. It goes on from them at any time, in another process too; without the ending a grant of 0 goes on
 * with the leftover and tells how that ends. A record from before version 0.3.0 lacks the last number; CALLS.md says how to carry it over.
 */
#ifndef TAK_H
#define TAK_H

#include <stddef.h>
#include <stdint.h>

#ifdef __cplusplus
extern "C" {
#endif

/* The version of this interface. */
#define TAK_VERSION_MAJOR 0
#define TAK_VERSION_MINOR 3
#define TAK_VERSION_PATCH 0
#define TAK_VERSION "0.3.0"

/* Limits. */
#define TAK_MIN_K 8                                /* K is TAK_MIN_K to TAK_MAX_K */
#define TAK_MAX_K 30
#define TAK_MAX_N 256                              /* N is 1 to TAK_MAX_N */
#define TAK_MAX_S 4096                             /* S is 1 to TAK_MAX_S, and at most M - 1; B is 0 to S */
#define TAK_MAX_T 4096                             /* T is 1 to TAK_MAX_T, and at most M - 1 */
#define TAK_MAX_TEXT_LENGTH 65536                  /* bytes of a text */
#define TAK_MAX_INPUT_LENGTH 65536                 /* bytes of an input */
#define TAK_MAX_GRANT UINT64_C(1000000000)         /* cycles of one grant, 10^9 */
#define TAK_MAX_GRANTED UINT64_C(1000000000000000) /* cycles of all grants of a machine together, 10^15 */

/* Lengths of slices that the parameters do not fix. */
#define TAK_RECORD_LENGTH 12  /* numbers of a record */
#define TAK_DECIMAL_LENGTH 11 /* bytes that tak_decimal asks for */

/* Stack that a call needs at most, in bytes. */
#define TAK_LOAD_STACK 2048
#define TAK_START_STACK 768
#define TAK_GRANT_STACK 1536
#define TAK_DECIMAL_STACK 128

/* Positions in a record, which is int64_t[TAK_RECORD_LENGTH]: record[TAK_N] is N. Beside each what tak_grant accepts there. */
enum {
    TAK_K,       /* bits of a cell */
    TAK_N,       /* registers */
    TAK_S,       /* data cells */
    TAK_B,       /* directly addressed data cells */
    TAK_T,       /* instruction cells; these five within the limits above */
    TAK_IAR,     /* the cell that runs next, or that has failed: 0 to T; line i of the text, from 0, fills cell i */
    TAK_IRCR,    /* the return code of the last step: 0 to 3, and the machine has failed if it is not 0 */
    TAK_SHR,     /* the data cell on top of the stack: B - 1 (the stack is empty) to S - 1 */
    TAK_PLACE,   /* the first byte of the input that is not read yet, which a failing IN leaves: 0 to the input's length */
    TAK_GRANTED, /* the cycles of all accepted grants together: 0 to TAK_MAX_GRANTED */
    TAK_SPENT,   /* the cycles spent: 0 to granted; granted less spent is the leftover */
    TAK_DEEPEST  /* the greatest SHR reached since start: SHR to S - 1; see tak_grant */
};

/* How an accepted grant ended; 0 stands for a refused one. A grant looks before each step, in this order. A machine that has failed, or
 * has ended and keeps its image, stands still for good: a further grant that passes its checks counts in granted, and ends alike with 0
 * values and 0 cycles. */
enum {
    TAK_FAILED = 1,     /* the last step had a return code other than 0, which is in the record */
    TAK_ENDED = 2,      /* the next cell is empty, since no line of the text fills it (a line without words does), or IAR is T */
    TAK_PAUSED = 3,     /* the leftover does not pay for the next step; a further grant goes on */
    TAK_OUTPUT_FULL = 4 /* the room left in the output slice does not hold the values of the next step; see tak_grant */
};

/* Return codes in the record. Arithmetic: 1, the result (of DIVR the quotient) is outside -M to M - 1; 2, the divisor is 0. IN: 1, the
 * next word of the input is not a number; 2, it is outside -M to M - 1; 3, nothing is left. PUSH: 1, the stack is full. POP: 1, it is
 * empty. NOT, AND, OR, XOR, NAND, NOR: 1, a value is not a truth value (-1 or 0). JMPT and JMPF: 2, the same, before all else. A jump
 * that is taken: 1, the target is not 0 to T - 1. SKIP: 1, there is no cell to go to. */

/* Refusals: what is wrong, and which calls say so. */
enum {
    TAK_REFUSED_PARAMETER_K = 1,
        /* K is outside 8 to 30. tak_load, tak_start, tak_grant */
    TAK_REFUSED_PARAMETER_N = 2,
        /* N is outside 1 to 256. tak_load, tak_start, tak_grant */
    TAK_REFUSED_PARAMETER_S = 3,
        /* S is outside 1 to 4,096, or above M - 1. tak_load, tak_start, tak_grant */
    TAK_REFUSED_PARAMETER_B = 4,
        /* B is outside 0 to S. tak_load, tak_start, tak_grant */
    TAK_REFUSED_PARAMETER_T = 5,
        /* T is outside 1 to 4,096, or above M - 1. tak_load, tak_start, tak_grant */
    TAK_REFUSED_IMAGE_LENGTH = 6,
        /* the image slice does not have 4*T words. tak_load, tak_start, tak_grant */
    TAK_REFUSED_TEXT_LENGTH = 7,
        /* the text has more than 65,536 bytes. tak_load */
    TAK_REFUSED_LINE_COUNT = 8,
        /* the text has more than T lines. tak_load */
    TAK_REFUSED_MEMORY_LENGTH = 9,
        /* the register slice does not have N numbers, or the cell slice does not have S. tak_start, tak_grant */
    TAK_REFUSED_IMAGE = 10,
        /* no text, of whatever length, yields this image with these parameters. tak_start, tak_grant */
    TAK_REFUSED_INSTRUCTION = 11,
        /* the first word of the line is not an instruction. tak_load */
    TAK_REFUSED_ARGUMENT_COUNT = 12,
        /* the line does not have as many arguments as its instruction takes. tak_load */
    TAK_REFUSED_ARGUMENT_FORM = 13,
        /* an argument of the line is not an argument at all, or has a form that its place does not allow. tak_load */
    TAK_REFUSED_ARGUMENT_RANGE = 14,
        /* an argument of the line is a register not below N, a cell not below B, or a number outside -M to M - 1. tak_load */
    TAK_REFUSED_RECORD = 15,
        /* IAR, IRCR, SHR, place, granted, spent or deepest of the record, a register or a data cell is outside its limits. tak_grant */
    TAK_REFUSED_INPUT_LENGTH = 16,
        /* the input has more than 65,536 bytes. tak_grant */
    TAK_REFUSED_CYCLES = 17,
        /* the grant is over 10^9 cycles, or would take all grants together over 10^15. tak_grant */
    TAK_REFUSED_DECIMAL_LENGTH = 18,
        /* fewer than 11 bytes are lent for a decimal. tak_decimal */
    TAK_REFUSED_SAME_TARGET = 19,
        /* the first and the third argument of the line, both of which it writes, are one register. tak_load */
    TAK_REFUSED_RECORD_LENGTH = 100
        /* the record slice has another length than a record. tak_start, tak_grant */
};

/* Loads a program text into an image of 4*T words, all of which it writes. The text is exactly `text_length` bytes, and a zero byte is one
 * like any other: of a string hand over strlen, not sizeof. LF ends a line, and a last LF begins no further one. `lines` becomes the
 * count of lines, `line` the index of the faulty line, from 0, with the refusals 11 to 14 and 19, and else 0.
 * Checks, in order: 1 2 3 4 5 6 7 8 11 12 13 14 19; from 11 on they are about the first faulty line, first 11, then 12, then argument
 * after argument from the left, each for 13 and then for 14, and last 19, which only a line of DIVR gets. */
uint32_t tak_load(uint32_t k, uint32_t n, uint32_t s, uint32_t b, uint32_t t,
                  const uint8_t *text, size_t text_length,
                  uint32_t *image, size_t image_length,
                  uint64_t *lines, uint64_t *line);

/* Writes the fresh record (the parameters, SHR and deepest = B - 1, all else 0) and zeroes the N registers and S data cells. It is also
 * how a machine begins anew.
 * Checks, in order: 100 1 2 3 4 5 6 9 10. */
uint32_t tak_start(uint32_t k, uint32_t n, uint32_t s, uint32_t b, uint32_t t,
                   const uint32_t *image, size_t image_length,
                   int32_t *registers, size_t registers_length,
                   int32_t *cells, size_t cells_length,
                   int64_t *record, size_t record_length);

/* Adds cycles, 0 to TAK_MAX_GRANT, to granted and runs the program from where the record says until one of the four endings holds. The
 * record, the registers and the data cells go from one call to the next as the call before left them. Image and input stay the same
 * in every call of a run; that they do is not checked, and with others that fit the machine goes on with those (an input shorter than
 * TAK_PLACE does not: 15). The input is exactly `input_length` bytes: decimal numbers, with + or - in front and leading zeros if
 * wanted, between blanks (space, tab, CR, LF), and no comments. IN does not wait for more: where nothing is left it fails for good.
 *
 * `ending` becomes how it ended, `spent` the cycles that this call spent (a failing step costs its price too), `values` the number of
 * values written to output[0] and behind, over what stood there; later elements keep their contents. So use the values after each
 * call. OUT writes 1 value, DUMP_REG the N registers, DUMP_DATA_MEM the S data cells, each in order, and whole or not at all; nothing
 * marks where a dump begins.
 *
 * After TAK_OUTPUT_FULL use the values and grant 0, with this slice or another: the leftover of the earlier grant pays for the rest. A
 * slice shorter than N or S never takes that dump: TAK_OUTPUT_FULL with 0 values says that the whole slice is too short for the next
 * step, and a loop that only grants 0 again with the same slice never ends. A slice of the greater of N and S values always suffices.
 *
 * record[TAK_DEEPEST] becomes the greatest of what it was and SHR after each step of the call; POP does not lower it, and a PUSH that
 * fails does not raise it. S = record[TAK_DEEPEST] + 1, or 1 if that is 0, is the least S with which the run would have come as far;
 * where a PUSH has failed this is S as it is, and the run needs more. TCL.md says how to choose S by it.
 *
 * A call returns when an ending holds and not before, and may spend the whole leftover, that of earlier grants included: who grants
 * more after each full output, instead of 0, gathers up to 10^15 cycles, which one later call then spends. 10^9 cycles may take several
 * seconds. With a record from elsewhere look at granted less spent first.
 *
 * Checks, in order: 100 1 2 3 4 5 6 9 10 15 16 17. */
uint32_t tak_grant(int64_t *record, size_t record_length,
                   uint64_t cycles,
                   const uint32_t *image, size_t image_length,
                   const uint8_t *input, size_t input_length,
                   int32_t *registers, size_t registers_length,
                   int32_t *cells, size_t cells_length,
                   int32_t *output, size_t output_length,
                   uint32_t *ending, uint64_t *values, uint64_t *spent);

/* Writes a value in decimal at the start of `bytes`, a minus in front if it is negative, no zero byte behind it. `count` becomes the
 * count of bytes written, at most TAK_DECIMAL_LENGTH; later bytes keep their contents. TAK_DECIMAL_LENGTH bytes must be lent for every
 * value, short ones too.
 * Checks, in order: 18. */
uint32_t tak_decimal(int32_t value, uint8_t *bytes, size_t length, uint64_t *count);

/* A whole program: it runs another in slices of 400 cycles, through full outputs.
 *
 *   #include <stdio.h>
 *   #include <string.h>
 *   #include <tak.h>
 *
 *   enum { K = 16, N = 4, S = 3, B = 1, T = 16, OUTPUT = N < S ? S : N };
 *
 *   static const char text[] = "IN R0\nOUT R0\nDEC R0 1\nJMPGE 1 R0 R1\nDUMP_REG\n";
 *   static const char input[] = "5";
 *
 *   int main(void)
 *   {
 *       uint32_t image[4 * T], ending = 0, refusal;
 *       int32_t registers[N], cells[S], output[OUTPUT];
 *       int64_t record[TAK_RECORD_LENGTH];
 *       uint64_t cycles = 400, lines, line, values, spent;
 *
 *       refusal = tak_load(K, N, S, B, T, (const uint8_t *)text, strlen(text), image, 4 * T, &lines, &line);
 *       if (refusal == 0)
 *           refusal = tak_start(K, N, S, B, T, image, 4 * T, registers, N, cells, S, record, TAK_RECORD_LENGTH);
 *       do {
 *           if (refusal == 0)
 *               refusal = tak_grant(record, TAK_RECORD_LENGTH, cycles, image, 4 * T, (const uint8_t *)input, strlen(input),
 *                                   registers, N, cells, S, output, OUTPUT, &ending, &values, &spent);
 *           if (refusal != 0) {
 *               printf("refused: %u\n", (unsigned)refusal);
 *               return 1;
 *           }
 *           printf("grant of %u, ending %u, values", (unsigned)cycles, (unsigned)ending);
 *           for (uint64_t i = 0; i < values; i++)
 *               printf(" %d", (int)output[i]);
 *           printf("\n");
 *           cycles = ending == TAK_OUTPUT_FULL ? 0 : 400;
 *       } while (ending == TAK_PAUSED || ending == TAK_OUTPUT_FULL);
 *       return ending == TAK_ENDED ? 0 : 1;
 *   }
 */

#ifdef __cplusplus
}
#endif

#endif
