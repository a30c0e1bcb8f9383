/* Runs a program in slices of cycles, through full outputs, and prints what each grant did. */
#include <inttypes.h>
#include <stdio.h>
#include <string.h>

#include "tak.h"

/* The parameters fix the lengths of the slices. The output slice has room for the longest dump, the greater of N and S, so that no
 * step waits for more room than there is. */
enum { K = 16, N = 4, S = 3, B = 1, T = 16, OUTPUT = N < S ? S : N };

/* The cycles granted between two other things that a handheld does. */
enum { SLICE = 600 };

/* The machine between two calls. */
static uint32_t image[4 * T];
static int32_t registers[N];
static int32_t cells[S];
static int64_t record[TAK_RECORD_LENGTH];

/* Adds up the input's numbers, up to a 0, and outputs each sum; then the registers and the data cells. */
static const char text[] = "IN R0            # 0\n"
                           "JMPEQ 6 R0 R3    # 1: R3 is 0\n"
                           "ADD R1 R0 R1     # 2\n"
                           "OUT R1           # 3\n"
                           "MOV R1 DM0       # 4\n"
                           "JMP 0            # 5\n"
                           "DUMP_REG         # 6\n"
                           "DUMP_DATA_MEM    # 7\n";

static const char input[] = "120 35 -20 48 6 500 12 0";

/* By the endings' numbers. */
static const char *const ending_names[] = {"refused", "failed", "ended", "paused", "output full"};

/* Loads and starts; gives the refusal, or 0. */
static uint32_t make_machine(void)
{
    uint64_t lines, line;
    uint32_t refusal = tak_load(K, N, S, B, T, (const uint8_t *)text, strlen(text), image, 4 * T, &lines, &line);

    if (refusal == 0)
        refusal = tak_start(K, N, S, B, T, image, 4 * T, registers, N, cells, S, record, TAK_RECORD_LENGTH);
    else
        printf("line %" PRIu64 ": ", line);
    return refusal;
}

/* One grant, its values printed; gives the refusal, or 0. */
static uint32_t grant(uint64_t cycles, uint32_t *ending)
{
    int32_t output[OUTPUT];
    uint64_t values, spent, i;
    uint32_t refusal = tak_grant(record, TAK_RECORD_LENGTH, cycles, image, 4 * T, (const uint8_t *)input, strlen(input),
                                 registers, N, cells, S, output, OUTPUT, ending, &values, &spent);

    if (refusal != 0)
        return refusal;
    printf("grant of %" PRIu64 ": %s, %" PRIu64 " cycles, values", cycles, ending_names[*ending], spent);
    for (i = 0; i < values; i++)
        printf(" %" PRId32, output[i]);
    printf("\n");
    return 0;
}

/* One slice: a grant of its cycles, and after each full output a grant of 0, which goes on with what the slice has left. A further
 * grant of SLICE instead would let the leftover grow, and one call could become long. */
static uint32_t run_slice(uint32_t *ending)
{
    uint32_t refusal = grant(SLICE, ending);

    while (refusal == 0 && *ending == TAK_OUTPUT_FULL)
        refusal = grant(0, ending);
    return refusal;
}

int main(void)
{
    uint32_t ending = TAK_PAUSED;
    uint32_t refusal = make_machine();

    while (refusal == 0 && ending == TAK_PAUSED) {
        refusal = run_slice(&ending);
        /* Between two slices the handheld does other things; the machine waits in its buffers. */
    }
    if (refusal != 0) {
        printf("refused: %" PRIu32 "\n", refusal);
        return 1;
    }
    printf("%s: return code %" PRId64 ", cell %" PRId64 ", %" PRId64 " of %" PRId64 " cycles spent\n", ending_names[ending],
           record[TAK_IRCR], record[TAK_IAR], record[TAK_SPENT], record[TAK_GRANTED]);
    return ending == TAK_ENDED ? 0 : 1;
}
