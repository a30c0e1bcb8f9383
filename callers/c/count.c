/* Loads a small program, grants it cycles in parts and prints what each call replies; then shows that a refused call changes nothing. */
#include <inttypes.h>
#include <stdio.h>
#include <string.h>

#include "tak.h"

/* The parameters fix the lengths of the slices: 4 words for each of T instruction cells, N registers, S data cells.
 * All five differ, so that no two of them can be exchanged unseen. */
enum { K = 9, N = 3, S = 5, B = 2, T = 7, OUTPUT = 4 };

/* The machine between two calls. Nothing else is kept anywhere. */
static uint32_t image[4 * T];
static int32_t registers[N];
static int32_t cells[S];
static int64_t record[TAK_RECORD_LENGTH];

static void load(const char *text)
{
    uint64_t lines, line;
    uint32_t refusal = tak_load(K, N, S, B, T, (const uint8_t *)text, strlen(text), image, 4 * T, &lines, &line);

    printf("load: refusal %" PRIu32 ", %" PRIu64 " lines, line index %" PRIu64 "\n", refusal, lines, line);
}

static void start(void)
{
    uint32_t refusal = tak_start(K, N, S, B, T, image, 4 * T, registers, N, cells, S, record, TAK_RECORD_LENGTH);

    printf("start: refusal %" PRIu32 ", K %" PRId64 ", N %" PRId64 ", S %" PRId64 ", B %" PRId64 ", T %" PRId64 ", SHR %" PRId64 "\n",
           refusal, record[TAK_K], record[TAK_N], record[TAK_S], record[TAK_B], record[TAK_T], record[TAK_SHR]);
}

/* The value as the decimal writer spells it. */
static void print_value(int32_t value)
{
    uint8_t bytes[TAK_DECIMAL_LENGTH];
    uint64_t count;

    if (tak_decimal(value, bytes, sizeof bytes, &count) == 0)
        printf("value: %.*s\n", (int)count, (const char *)bytes);
}

static const char *ending_name(uint32_t ending)
{
    switch (ending) {
    case TAK_FAILED:
        return "failed";
    case TAK_ENDED:
        return "ended";
    case TAK_PAUSED:
        return "paused";
    case TAK_OUTPUT_FULL:
        return "output full";
    default:
        return "refused";
    }
}

/* The program reads no input, so that the input slice is empty and its pointer may be null. */
static void grant(uint64_t cycles)
{
    int32_t output[OUTPUT];
    uint32_t ending;
    uint64_t values, spent, i;
    uint32_t refusal = tak_grant(record, TAK_RECORD_LENGTH, cycles, image, 4 * T, NULL, 0, registers, N, cells, S, output, OUTPUT,
                                 &ending, &values, &spent);

    printf("grant of %" PRIu64 ": refusal %" PRIu32 ", %s, %" PRIu64 " values, %" PRIu64 " cycles\n", cycles, refusal,
           ending_name(ending), values, spent);
    for (i = 0; i < values; i++)
        print_value(output[i]);
}

int main(void)
{
    uint32_t image_before[4 * T];
    int64_t record_before[TAK_RECORD_LENGTH];

    load("SET R0 13\nSET R2 -10\nDIV R0 R2 R2\nOUT R2\nPUSH R2\nPOP R0\n");
    start();
    grant(52);
    grant(50);
    grant(1);
    grant(16);
    printf("record: IAR %" PRId64 ", IRCR %" PRId64 ", granted %" PRId64 ", spent %" PRId64 "\n", record[TAK_IAR],
           record[TAK_IRCR], record[TAK_GRANTED], record[TAK_SPENT]);
    /* The stack was one deep and is empty again: B + 1 data cells would do. */
    printf("stack: SHR %" PRId64 ", deepest %" PRId64 ", least S %" PRId64 "\n", record[TAK_SHR], record[TAK_DEEPEST],
           record[TAK_DEEPEST] + 1);

    memcpy(image_before, image, sizeof image);
    memcpy(record_before, record, sizeof record);
    load("SET R0 255\nSET R0 256\n"); /* 9 bits hold -256..255 */
    load("SET R2 13\nSET R3 13\n"); /* there are 3 registers */
    load("SET DM1 13\nSET DM2 13\n"); /* and 2 cells with a name */
    grant(1000000001);
    printf("image %s, record %s\n", memcmp(image, image_before, sizeof image) == 0 ? "as before" : "changed",
           memcmp(record, record_before, sizeof record) == 0 ? "as before" : "changed");
    return 0;
}
