/* Every call with each fault, and with every two that can stand together: prints the call, both faults and what it answered. A fault has the
 * number of the refusal that it is to get; not every call looks for it. Before that, which of two faulty arguments is told, and the limits of
 * each number of a record. */
#include <inttypes.h>
#include <stdio.h>
#include <stdlib.h>
#include <string.h>

#include "tak.h"

/* A count greater than any limit of a parameter, and a length greater than that of a text. */
enum { GREAT = 5000, LONG = 65537 };

/* In the order in which they are made, so that none undoes another: faults of a line before those of the whole text. */
static const uint32_t faults[] = {
    TAK_REFUSED_INSTRUCTION,    TAK_REFUSED_ARGUMENT_COUNT, TAK_REFUSED_ARGUMENT_FORM, TAK_REFUSED_ARGUMENT_RANGE,
    TAK_REFUSED_SAME_TARGET,    TAK_REFUSED_LINE_COUNT,     TAK_REFUSED_TEXT_LENGTH,   TAK_REFUSED_PARAMETER_K,
    TAK_REFUSED_PARAMETER_N,    TAK_REFUSED_PARAMETER_S,    TAK_REFUSED_PARAMETER_B,   TAK_REFUSED_PARAMETER_T,
    TAK_REFUSED_IMAGE_LENGTH,   TAK_REFUSED_MEMORY_LENGTH,  TAK_REFUSED_IMAGE,         TAK_REFUSED_RECORD,
    TAK_REFUSED_INPUT_LENGTH,   TAK_REFUSED_CYCLES,         TAK_REFUSED_DECIMAL_LENGTH, TAK_REFUSED_RECORD_LENGTH,
};

enum { FAULTS = sizeof faults / sizeof *faults };

/* What the calls are lent. */
static uint32_t k, n, s, b, t, ending;
static uint8_t text[LONG], input[LONG], bytes[TAK_DECIMAL_LENGTH];
static uint32_t image[4 * GREAT];
static int32_t registers[GREAT], cells[GREAT], output[4];
static int64_t record[TAK_RECORD_LENGTH];
static size_t text_length, image_length, input_length, registers_length, cells_length, record_length, bytes_length;
static uint64_t cycles, lines, line, values, spent, count;

static uint32_t load(void) { return tak_load(k, n, s, b, t, text, text_length, image, image_length, &lines, &line); }

static uint32_t start(void)
{
    return tak_start(k, n, s, b, t, image, image_length, registers, registers_length, cells, cells_length, record, record_length);
}

static uint32_t grant(void)
{
    return tak_grant(record, record_length, cycles, image, image_length, input, input_length, registers, registers_length, cells,
                     cells_length, output, 4, &ending, &values, &spent);
}

static uint32_t decimal(void) { return tak_decimal(-5, bytes, bytes_length, &count); }

static const struct {
    const char *name;
    uint32_t (*call)(void);
} calls[] = {{"tak_load", load}, {"tak_start", start}, {"tak_grant", grant}, {"tak_decimal", decimal}};

enum { CALLS = sizeof calls / sizeof *calls };

/* A machine and arguments that every call accepts. */
static void make_right(void)
{
    static const char right[] = "DIVR R0 R1 R2   \n";

    k = 30, n = 3, s = 5, b = 2, t = 7, cycles = 100;
    text_length = sizeof right - 1, image_length = 4 * t, input_length = 0, registers_length = n, cells_length = s;
    record_length = TAK_RECORD_LENGTH, bytes_length = TAK_DECIMAL_LENGTH;
    memcpy(text, right, text_length);
    memset(input, ' ', sizeof input);
    if (load() != 0 || start() != 0) {
        printf("refusals: the right machine is refused\n");
        exit(2);
    }
}

/* A parameter: load and start have it as an argument, grant in the record. */
static void set(uint32_t *parameter, int position, uint32_t value)
{
    *parameter = value;
    record[position] = value;
}

/* An argument of the text's line, counted from 0. */
static void spoil_argument(int index, const char *word) { memcpy(text + 5 + 3 * index, word, 2); }

/* Makes the arguments faulty. */
static void spoil(uint32_t fault)
{
    switch (fault) {
    case TAK_REFUSED_PARAMETER_K: set(&k, TAK_K, TAK_MAX_K + 1); break;
    case TAK_REFUSED_PARAMETER_N: set(&n, TAK_N, TAK_MAX_N + 1); break;
    case TAK_REFUSED_PARAMETER_S: set(&s, TAK_S, TAK_MAX_S + 1); break;
    case TAK_REFUSED_PARAMETER_B: set(&b, TAK_B, GREAT); break;
    case TAK_REFUSED_PARAMETER_T: set(&t, TAK_T, TAK_MAX_T + 1); break;
    case TAK_REFUSED_IMAGE_LENGTH: image_length--; break;
    case TAK_REFUSED_TEXT_LENGTH:
        memset(text + text_length, ' ', LONG - text_length);
        text_length = LONG;
        break;
    case TAK_REFUSED_LINE_COUNT:
        memset(text + text_length, '\n', t);
        text_length += t;
        break;
    case TAK_REFUSED_MEMORY_LENGTH: cells_length--; break;
    case TAK_REFUSED_IMAGE: image[0] = 63; break;
    case TAK_REFUSED_INSTRUCTION: memcpy(text, "SUM", 3); break;
    case TAK_REFUSED_ARGUMENT_COUNT: spoil_argument(3, "R1"); break;
    case TAK_REFUSED_ARGUMENT_FORM: spoil_argument(1, "??"); break;
    case TAK_REFUSED_ARGUMENT_RANGE: spoil_argument(1, "R3"); break;
    case TAK_REFUSED_SAME_TARGET: spoil_argument(2, "R0"); break;
    case TAK_REFUSED_RECORD: record[TAK_IAR] = GREAT; break;
    case TAK_REFUSED_INPUT_LENGTH: input_length = LONG; break;
    case TAK_REFUSED_CYCLES: cycles = TAK_MAX_GRANT + 1; break;
    case TAK_REFUSED_DECIMAL_LENGTH: bytes_length--; break;
    case TAK_REFUSED_RECORD_LENGTH: record_length--; break;
    }
}

static int of_an_argument(uint32_t fault) { return fault == TAK_REFUSED_ARGUMENT_FORM || fault == TAK_REFUSED_ARGUMENT_RANGE; }

static int of_a_line(uint32_t fault)
{
    return fault == TAK_REFUSED_INSTRUCTION || fault == TAK_REFUSED_ARGUMENT_COUNT || of_an_argument(fault) ||
           fault == TAK_REFUSED_SAME_TARGET;
}

/* A word that is no instruction takes no count of arguments, no forms and no two targets, and one argument has one fault. */
static int stand_together(uint32_t first, uint32_t second)
{
    if (first == second) return 1;
    if (first == TAK_REFUSED_INSTRUCTION && of_a_line(second)) return 0;
    return !(of_an_argument(first) && of_an_argument(second));
}

/* Of two faulty arguments the left one is told, whatever is wrong with each, and not that two are one register. */
static void two_arguments(void)
{
    static const struct {
        uint32_t refusal;
        const char *word;
    } wrong[] = {{TAK_REFUSED_ARGUMENT_FORM, "??"}, {TAK_REFUSED_ARGUMENT_RANGE, "R3"}};

    for (int left = 0; left < 2; left++) {
        for (int right = 1; right < 3; right++) {
            make_right();
            spoil_argument(0, wrong[left].word);
            spoil_argument(right, wrong[1 - left].word);
            if (load() != wrong[left].refusal || line != 0) {
                printf("refusals: of two faulty arguments the right one is told\n");
                exit(2);
            }
        }
        make_right();
        spoil_argument(0, wrong[left].word);
        spoil_argument(2, wrong[left].word);
        if (load() != wrong[left].refusal || line != 0) {
            printf("refusals: of one faulty argument, twice, another fault is told\n");
            exit(2);
        }
    }
}

/* The record's numbers that 15 is about, each with the least and the greatest that a grant accepts while the others are as here: SHR goes
 * up to deepest and deepest down to SHR, granted down to spent and spent up to granted. */
static const struct {
    int position;
    int64_t value, least, greatest;
} numbers[] = {
    {TAK_IAR, 1, 0, 7},     {TAK_IRCR, 0, 0, 3},   {TAK_SHR, 2, 1, 3},     {TAK_PLACE, 1, 0, 6},
    {TAK_SPENT, 20, 0, 50}, {TAK_DEEPEST, 3, 2, 4}, {TAK_GRANTED, 50, 20, TAK_MAX_GRANTED},
};

enum { NUMBERS = sizeof numbers / sizeof *numbers };

/* What a grant answers if one of them is another. */
static uint32_t grant_with(int i, int64_t value)
{
    make_right();
    cycles = 0, input_length = 6;
    for (int j = 0; j < NUMBERS; j++)
        record[numbers[j].position] = j == i ? value : numbers[j].value;
    return grant();
}

static void record_limits(void)
{
    for (int i = 0; i < NUMBERS; i++) {
        if (grant_with(i, numbers[i].least) != 0 || grant_with(i, numbers[i].greatest) != 0 ||
            grant_with(i, numbers[i].least - 1) != TAK_REFUSED_RECORD || grant_with(i, numbers[i].greatest + 1) != TAK_REFUSED_RECORD) {
            printf("refusals: the record's number %d has other limits\n", numbers[i].position);
            exit(2);
        }
    }
}

int main(void)
{
    two_arguments();
    record_limits();
    for (int c = 0; c < CALLS; c++) {
        make_right();
        printf("%s 0 0 %" PRIu32 "\n", calls[c].name, calls[c].call());
        for (int i = 0; i < FAULTS; i++) {
            for (int j = i; j < FAULTS; j++) {
                if (!stand_together(faults[i], faults[j])) continue;
                make_right();
                spoil(faults[i]);
                if (i != j) spoil(faults[j]);
                printf("%s %" PRIu32 " %" PRIu32 " %" PRIu32 "\n", calls[c].name, faults[i], faults[j], calls[c].call());
            }
        }
    }
    return 0;
}
