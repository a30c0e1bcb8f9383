/* Empty slices with a null pointer, in every place that takes a slice: each call gives what an empty slice gives. */
#include <stdio.h>

#include "tak.h"

enum { K = 8, N = 2, S = 4, B = 2, T = 6, UNWRITTEN = 77 };

static uint32_t image[4 * T], ending;
static int32_t registers[N], cells[S], output[S];
static int64_t record[TAK_RECORD_LENGTH];
static uint64_t lines, line, values, spent, count;
static int passed, failed;

static void expect(const char *what, uint64_t got, uint64_t wanted)
{
    if (got == wanted) {
        passed++;
        return;
    }
    failed++;
    printf("empty: %s is %llu instead of %llu\n", what, (unsigned long long)got, (unsigned long long)wanted);
}

static uint32_t load(const uint8_t *text, size_t length, uint32_t *to, size_t to_length)
{
    lines = line = UNWRITTEN;
    return tak_load(K, N, S, B, T, text, length, to, to_length, &lines, &line);
}

static uint32_t start(void)
{
    return tak_start(K, N, S, B, T, image, 4 * T, registers, N, cells, S, record, TAK_RECORD_LENGTH);
}

static uint32_t grant(int32_t *out, size_t out_length)
{
    ending = values = spent = UNWRITTEN;
    return tak_grant(record, TAK_RECORD_LENGTH, 1000, image, 4 * T, NULL, 0, registers, N, cells, S, out, out_length, &ending, &values,
                     &spent);
}

int main(void)
{
    static const uint8_t in[] = "IN R0", out[] = "OUT R0", push[] = "PUSH R0";

    expect("an empty text", load(NULL, 0, image, 4 * T), 0);
    expect("its lines", lines, 0);
    expect("a load without an image", load(NULL, 0, NULL, 0), TAK_REFUSED_IMAGE_LENGTH);

    expect("a start", start(), 0);
    expect("a start without an image", tak_start(K, N, S, B, T, NULL, 0, registers, N, cells, S, record, TAK_RECORD_LENGTH),
           TAK_REFUSED_IMAGE_LENGTH);
    expect("a start without registers", tak_start(K, N, S, B, T, image, 4 * T, NULL, 0, cells, S, record, TAK_RECORD_LENGTH),
           TAK_REFUSED_MEMORY_LENGTH);
    expect("a start without cells", tak_start(K, N, S, B, T, image, 4 * T, registers, N, NULL, 0, record, TAK_RECORD_LENGTH),
           TAK_REFUSED_MEMORY_LENGTH);
    expect("a start without a record", tak_start(K, N, S, B, T, image, 4 * T, registers, N, cells, S, NULL, 0),
           TAK_REFUSED_RECORD_LENGTH);

    expect("the empty program", grant(NULL, 0), 0);
    expect("its ending", ending, TAK_ENDED);
    expect("a load", load(in, sizeof in - 1, image, 4 * T), 0);
    expect("a start", start(), 0);
    expect("IN of no input", grant(NULL, 0), 0);
    expect("its ending", ending, TAK_FAILED);
    expect("its return code", (uint64_t)record[TAK_IRCR], 3);
    expect("a load", load(out, sizeof out - 1, image, 4 * T), 0);
    expect("a start", start(), 0);
    expect("OUT without room", grant(NULL, 0), 0);
    expect("its ending", ending, TAK_OUTPUT_FULL);
    expect("its values", values, 0);
    expect("its cycles", spent, 0);
    expect("OUT with room", grant(output, S), 0);
    expect("its ending", ending, TAK_ENDED);
    expect("a load", load(push, sizeof push - 1, image, 4 * T), 0);
    expect("a start", start(), 0);
    expect("PUSH without room for values", grant(NULL, 0), 0);
    expect("its ending", ending, TAK_ENDED);
    expect("its deepest", (uint64_t)record[TAK_DEEPEST], B);
    expect("a grant without a record",
           tak_grant(NULL, 0, 0, image, 4 * T, NULL, 0, registers, N, cells, S, NULL, 0, &ending, &values, &spent),
           TAK_REFUSED_RECORD_LENGTH);
    expect("a grant without an image",
           tak_grant(record, TAK_RECORD_LENGTH, 0, NULL, 0, NULL, 0, registers, N, cells, S, NULL, 0, &ending, &values, &spent),
           TAK_REFUSED_IMAGE_LENGTH);
    expect("a grant without registers",
           tak_grant(record, TAK_RECORD_LENGTH, 0, image, 4 * T, NULL, 0, NULL, 0, cells, S, NULL, 0, &ending, &values, &spent),
           TAK_REFUSED_MEMORY_LENGTH);
    expect("a grant without cells",
           tak_grant(record, TAK_RECORD_LENGTH, 0, image, 4 * T, NULL, 0, registers, N, NULL, 0, NULL, 0, &ending, &values, &spent),
           TAK_REFUSED_MEMORY_LENGTH);

    count = UNWRITTEN;
    expect("a decimal without bytes", tak_decimal(5, NULL, 0, &count), TAK_REFUSED_DECIMAL_LENGTH);
    expect("its count", count, 0);
    printf("%d passed, %d failed\n", passed, failed);
    return failed == 0 ? 0 : 1;
}
