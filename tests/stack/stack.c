/* The stack that each call of include/tak.h needs. A call runs on a stack of its own, painted before; the deepest byte that
 * lost its paint says how much was needed. Two paints, since a call may write one of them itself. Prints a line for each
 * call: its name, the bytes of the worst case, the header's bound. The status is 0 only if no call needs more than its bound. */
#include <stdio.h>
#include <stdlib.h>
#include <string.h>
#include <ucontext.h>

#include "tak.h"

enum { STACK = 1 << 18, TEXT = 65536, GREATEST = 4096, REGISTERS = 256 };

struct parameters {
    uint32_t k, n, s, b, t;
};

static const struct parameters SMALL = {8, 2, 4, 2, 6};
static const struct parameters LARGE = {30, REGISTERS, GREATEST, GREATEST / 2, GREATEST};
static const struct parameters UNEVEN = {30, REGISTERS - 1, GREATEST - 1, GREATEST / 2, GREATEST - 1};

/* What the calls are lent. The text has room for one byte more than load takes. */
static struct parameters p;
static uint8_t text[TEXT + 1], input[TEXT + 1], bytes[16];
static size_t text_length, input_length, bytes_length, image_length, record_length;
static uint32_t image[4 * GREATEST];
static int32_t registers[REGISTERS], cells[GREATEST], output[GREATEST];
static size_t output_length;
static int64_t record[TAK_RECORD_LENGTH];
static uint64_t cycles, lines, line, values, spent, count;
static uint32_t reply, ending;
static int32_t value;

static void call_load(void) { reply = tak_load(p.k, p.n, p.s, p.b, p.t, text, text_length, image, image_length, &lines, &line); }

static void call_start(void) {
    reply = tak_start(p.k, p.n, p.s, p.b, p.t, image, image_length, registers, p.n, cells, p.s, record, record_length);
}

static void call_grant(void) {
    reply = tak_grant(record, record_length, cycles, image, image_length, input, input_length, registers, p.n, cells, p.s, output,
                      output_length, &ending, &values, &spent);
}

static void call_decimal(void) { reply = tak_decimal(value, bytes, bytes_length, &count); }

/* MEASURING */
static uint8_t stack[STACK];
static ucontext_t here, there;
static void (*measured)(void);
static uint8_t *top;

/* The frame that the call is made from is not counted, but for the arguments that the call has on the stack. */
static void enter(void) {
    top = __builtin_frame_address(0);
    measured();
}

static size_t painted(void (*call)(void), int paint) {
    memset(stack, paint, sizeof stack);
    getcontext(&there);
    there.uc_stack.ss_sp = stack;
    there.uc_stack.ss_size = sizeof stack;
    there.uc_link = &here;
    measured = call;
    makecontext(&there, enter, 0);
    swapcontext(&here, &there);
    size_t i = 0;
    while (i < sizeof stack && stack[i] == paint) i++;
    return (size_t)(top - (stack + i));
}

/* The worst of a call so far. */
struct worst {
    const char *name;
    size_t bytes, bound;
    unsigned long calls;
};

static struct worst load = {"tak_load", 0, TAK_LOAD_STACK, 0}, start = {"tak_start", 0, TAK_START_STACK, 0},
                    grant = {"tak_grant", 0, TAK_GRANT_STACK, 0}, decimal = {"tak_decimal", 0, TAK_DECIMAL_STACK, 0};

static void note(struct worst *w, size_t n) {
    if (w->bytes < n) w->bytes = n;
    w->calls++;
}

static void expect(uint32_t wanted, const char *what) {
    if (reply == wanted) return;
    printf("stack: %s gave %u instead of %u\n", what, (unsigned)reply, (unsigned)wanted);
    exit(2);
}

/* LOAD */
static void clear_text(void) { text_length = 0; }

static void add(const char *s) {
    size_t n = strlen(s);
    if (sizeof text < text_length + n) {
        printf("stack: a text is too long\n");
        exit(2);
    }
    memcpy(text + text_length, s, n);
    text_length += n;
}

/* The byte again and again, up to a length of the text. */
static void fill(int byte, size_t length) {
    memset(text + text_length, byte, length - text_length);
    text_length = length;
}

static void measure_load(uint32_t wanted, const char *what) {
    for (int paint = 0x5A; paint <= 0xA5; paint += 0xA5 - 0x5A) {
        note(&load, painted(call_load, paint));
        expect(wanted, what);
    }
}

static void use(struct parameters q) {
    p = q;
    image_length = 4 * (size_t)p.t;
    record_length = TAK_RECORD_LENGTH;
}

/* Lines that load under LARGE: every form of an argument and every instruction. */
static const char *const RIGHT[] = {
    "CLEAR_REG", "CLEAR_DATA_MEM", "DUMP_REG", "DUMP_DATA_MEM", "IN R0", "IN DM0", "OUT R0", "OUT DM0", "OUT SHR", "MOV R0 R1",
    "MOV R0 DM1", "MOV DM1 R0", "MOV DM0 DM1", "MOV IAR R1", "SET R0 5", "SET DM0 -5", "PUSH R0", "PUSH DM0", "PUSH SHR", "POP R0",
    "POP DM0", "SETT R0", "SETF R0", "NOT R0 R1", "AND R0 R1 R2", "OR R0 R1 R2", "XOR R0 R1 R2", "NAND R0 R1 R2", "NOR R0 R1 R2",
    "NEG R0 R1", "ABS R0 R1", "ADD R0 R1 R2", "SUB IAR R1 R2", "MUL R0 R1 R2", "DIV R0 R1 R2", "MOD R0 R1 R2", "INC R0 7", "DEC R0 7",
    "CMPEQ R0 R1 R2", "CMPNEQ R0 R1 R2", "CMPLT R0 R1 R2", "CMPGT R0 R1 R2", "CMPLE R0 R1 R2", "CMPGE R0 R1 R2", "JMP 3", "JMP -3",
    "JMPT 1 R0", "JMPF 1 R0", "JMPEQ 1 R0 R1", "JMPNEQ 1 R0 R1", "JMPLT 1 R0 R1", "JMPGT 1 R0 R1", "JMPLE 1 R0 R1", "JMPGE 1 R0 R1",
    "SKIP", "NOP", "RNOT R0 R1", "RAND R0 R1 R2", "ROR R0 R1 R2", "RXOR R0 R1 R2", "RNAND R0 R1 R2", "RNOR R0 R1 R2", "RSL R0", "ASL R0",
    "RSR R0", "ASR R0", "DIVR R0 R1 R2", "DIVR R0 R1 R1", "", "# a comment", "add\tr255,\tr0 , r0007 ; and a comment",
    "SET R0 +000000000000000000000000000005", "MOV IRCR R0", "SET DM2047 -536870912", "SET DM2047 536870911",
};

/* Faulty lines with their numbers, among them an argument that is faulty and words behind it that are too many. */
static const struct {
    uint32_t number;
    const char *line;
} FAULTY[] = {
    {11, "MOVE R0 R1"}, {11, "CLEAR_DATA_MEMORY"}, {11, "?"}, {12, "ADD R0 R1"}, {12, "ADD R0 R1 R2 R3"}, {12, "ADD ?? ??"},
    {12, "ADD ?? R1 R2 R3 R4 R5 R6"}, {12, "CLEAR_DATA_MEM 1"}, {13, "ADD R0 R1 5"}, {13, "MOV R0 IAR"}, {13, "SET R0 1x"},
    {13, "SET D0 1"}, {13, "SET R 1"}, {13, "ADD R0 R1 SHRR"}, {14, "ADD R256 ?? R0"}, {14, "SET DM2048 0"}, {14, "SET R0 536870912"},
    {14, "SET R0 -536870913"}, {14, "SET R0 99999999999999999999999999999999999999999999"}, {14, "DIVR R0 R256 R0"},
    {19, "DIVR R0 R1 R0"}, {19, "DIVR R00 SHR R0"},
};

enum { RIGHTS = sizeof RIGHT / sizeof *RIGHT, FAULTS = sizeof FAULTY / sizeof *FAULTY };

/* Right lines up to a count. */
static void right_lines(size_t n) {
    for (size_t i = 0; i < n; i++) {
        const char *l = RIGHT[i * 31 % RIGHTS];
        add(strlen(l) < 15 ? l : "NOP");
        add("\n");
    }
}

static void load_lines(void) {
    use(LARGE);
    for (size_t i = 0; i < RIGHTS; i++) {
        clear_text();
        add(RIGHT[i]);
        measure_load(0, RIGHT[i]);
    }
    for (size_t i = 0; i < FAULTS; i++) {
        clear_text();
        add(FAULTY[i].line);
        measure_load(FAULTY[i].number, FAULTY[i].line);
        clear_text();
        right_lines(GREATEST - 1);
        add(FAULTY[i].line);
        measure_load(FAULTY[i].number, "a fault in the last line");
        add("\n\n");
        measure_load(8, "a fault, and more than T lines");
    }
    clear_text();
    measure_load(0, "the empty text");
    right_lines(GREATEST);
    measure_load(0, "T lines");
    add("\n");
    measure_load(8, "more than T lines");
}

static void load_lengths(void) {
    static const char *const BEGINNINGS[] = {"SET R0 ", "SET R0 -", "SET R", "SET DM", "ADD R0 R1 R", "", "ADD ?? "};
    static const uint32_t NUMBERS[] = {14, 14, 14, 14, 14, 11, 12};
    use(LARGE);
    for (size_t i = 0; i < sizeof NUMBERS / sizeof *NUMBERS; i++) {
        clear_text();
        add(BEGINNINGS[i]);
        fill('9', TEXT);
        measure_load(i == 2 || i == 3 ? 12 : NUMBERS[i], "a long word");
    }
    clear_text();
    add("SET R0 ");
    fill('0', TEXT);
    measure_load(0, "zeros");
    clear_text();
    fill(' ', TEXT);
    measure_load(0, "blanks");
    clear_text();
    fill('#', TEXT);
    measure_load(0, "a comment");
    clear_text();
    fill('\n', TEXT);
    measure_load(8, "line feeds");
    clear_text();
    add("NOP");
    while (text_length + 2 <= TEXT) add(" R");
    measure_load(12, "many words");
    fill(' ', TEXT + 1);
    measure_load(7, "a text that is too long");
}

/* Refusals 1 to 6, and the small machine. */
static void load_small(void) {
    static const struct parameters BAD[] = {
        {7, 2, 4, 2, 6}, {8, 0, 4, 2, 6}, {8, 2, 128, 2, 6}, {8, 2, 4, 5, 6}, {8, 2, 4, 2, 128},
    };
    clear_text();
    add("SET R0 13\nSET R1 -10\nDIV R0 R1 R1\nOUT R1\n");
    for (uint32_t i = 0; i < 5; i++) {
        use(BAD[i]);
        measure_load(i + 1, "a parameter");
    }
    use(SMALL);
    measure_load(0, "the small machine");
    image_length--;
    measure_load(6, "an image slice of another length");
}

/* START AND GRANT */
static void load_text(const char *what) {
    call_load();
    expect(0, what);
}

static void measure_start(uint32_t wanted, const char *what) {
    for (int paint = 0x5A; paint <= 0xA5; paint += 0xA5 - 0x5A) {
        note(&start, painted(call_start, paint));
        expect(wanted, what);
    }
}

/* From a fresh machine each time, so that both paints run the same steps. */
static void measure_grant(uint32_t wanted, const char *what) {
    for (int paint = 0x5A; paint <= 0xA5; paint += 0xA5 - 0x5A) {
        call_start();
        for (size_t i = 0; i < p.n; i++) registers[i] = (int32_t)(i * 5 % 7) - 3;
        note(&grant, painted(call_grant, paint));
        expect(wanted, what);
    }
}

static void start_cases(void) {
    use(LARGE);
    clear_text();
    right_lines(GREATEST);
    load_text("T lines");
    measure_start(0, "T lines");
    record_length = TAK_RECORD_LENGTH - 1;
    measure_start(TAK_REFUSED_RECORD_LENGTH, "a record slice of another length");
    record_length = TAK_RECORD_LENGTH;
    image[4 * GREATEST - 4] = 56;
    measure_start(10, "an image that no text yields");
    image_length--;
    measure_start(6, "an image slice of another length");
    use(LARGE);
    p.k = 31;
    measure_start(1, "K");
    use(SMALL);
    clear_text();
    add("NOP");
    load_text("the small machine");
    measure_start(0, "the small machine");
}

/* Each line by itself and twice, with room for its values and without, with cycles and without. */
static void grant_lines(struct parameters q) {
    static const char *const INPUTS[] = {"", "  12 -7", "x", "99999999999999999999"};
    use(q);
    for (size_t i = 0; i < RIGHTS; i++) {
        if (p.n < REGISTERS && strstr(RIGHT[i], "r255")) continue;
        clear_text();
        add(RIGHT[i]);
        add("\n");
        add(RIGHT[i]);
        load_text(RIGHT[i]);
        for (size_t j = 0; j < sizeof INPUTS / sizeof *INPUTS; j++) {
            input_length = strlen(INPUTS[j]);
            memcpy(input, INPUTS[j], input_length);
            for (cycles = 0; cycles <= 1000000; cycles += 1000000) {
                output_length = GREATEST;
                measure_grant(0, RIGHT[i]);
                output_length = 0;
                measure_grant(0, RIGHT[i]);
            }
        }
    }
}

static void grant_cases(void) {
    use(LARGE);
    clear_text();
    right_lines(GREATEST);
    load_text("T lines");
    memset(input, '9', sizeof input);
    input_length = TEXT;
    output_length = GREATEST;
    cycles = 1000000;
    measure_grant(0, "T lines");
    input_length++;
    measure_grant(16, "an input that is too long");
    input_length = 0;
    cycles = 1000000001;
    measure_grant(17, "a grant that is too large");
    cycles = 0;
    record[TAK_DEEPEST] = p.s;
    note(&grant, painted(call_grant, 0x5A));
    expect(15, "a record with deepest outside its limits");
    image[4 * GREATEST - 4] = 56;
    note(&grant, painted(call_grant, 0x5A));
    expect(10, "an image that no text yields");
    record[TAK_K] = -1;
    note(&grant, painted(call_grant, 0x5A));
    expect(1, "K");
    record_length--;
    note(&grant, painted(call_grant, 0x5A));
    expect(TAK_REFUSED_RECORD_LENGTH, "a record slice of another length");
}

/* DECIMAL */
static void measure_decimal(void) {
    for (int paint = 0x5A; paint <= 0xA5; paint += 0xA5 - 0x5A) note(&decimal, painted(call_decimal, paint));
}

static void decimal_cases(void) {
    for (bytes_length = 0; bytes_length <= sizeof bytes; bytes_length++) {
        for (int64_t v = 1; v <= INT32_MAX; v *= 10) {
            value = (int32_t)v;
            measure_decimal();
            value = (int32_t)-v;
            measure_decimal();
        }
        value = 0;
        measure_decimal();
        value = INT32_MAX;
        measure_decimal();
        value = INT32_MIN;
        measure_decimal();
        expect(bytes_length < TAK_DECIMAL_LENGTH ? 18 : 0, "the decimal writer");
    }
}

static int report(const struct worst *w) {
    printf("stack: %s needs %zu bytes, bound %zu, %lu calls\n", w->name, w->bytes, w->bound, w->calls);
    return w->bytes <= w->bound;
}

int main(void) {
    load_lines();
    load_lengths();
    load_small();
    start_cases();
    grant_lines(LARGE);
    grant_lines(UNEVEN);
    grant_cases();
    decimal_cases();
    int passed = report(&load) + report(&start) + report(&grant) + report(&decimal);
    printf("%d passed, %d failed\n", passed, 4 - passed);
    return passed == 4 ? 0 : 1;
}
