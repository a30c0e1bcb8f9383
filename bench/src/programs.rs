//! The programs, texts and inputs that are timed. The loops never end, so that each grant is spent.

use model::Parameters;

pub const USUAL: Parameters = Parameters {
    k: 30,
    n: 16,
    s: 1024,
    b: 32,
    t: 128,
};

pub const LARGE: Parameters = Parameters {
    k: 30,
    n: 16,
    s: 4096,
    b: 2048,
    t: 4096,
};

pub const ARITHMETIC: &str = "SET R1 3
SET R2 5
ADD R1 R2 R3
SUB R3 R2 R1
MUL R1 R2 R4
NEG R4 R5
ABS R5 R5
JMP 2";

pub const BITS: &str = "SET R1 12345
SET R2 -777
RXOR R1 R2 R3
RAND R3 R1 R4
ROR R4 R2 R5
RNAND R5 R3 R6
RNOR R6 R1 R7
RSL R1
ASR R7
RSR R3
RNOT R5 R2
JMP 2";

pub const LOGIC: &str = "SETT R1
SETF R2
AND R1 R2 R3
OR R1 R3 R4
XOR R4 R1 R5
NAND R5 R4 R6
NOR R6 R2 R7
NOT R7 R2
CMPLT R3 R4 R8
CMPEQ R8 R1 R1
JMPT 2 R8
JMP 2";

pub const MOVES: &str = "SET R1 17
SET DM3 -4
MOV R1 DM2
MOV DM2 DM5
MOV DM5 R3
MOV R3 R4
MOV IAR R5
JMP 1";

/// For a from 2 up to 30,000, the greatest common divisor of a and 30,030, over and over.
pub const GCD: &str = "SET R8 30000
SET R9 0
SET R0 2
MOV R0 R1
SET R2 30030
JMPEQ 10 R2 R9
MOD R1 R2 R3
MOV R2 R1
MOV R3 R2
JMP 5
ADD R4 R1 R4
MOV R9 R4
INC R0 1
JMPLT 3 R0 R8
JMP 2";

/// Counts the primes by trial division up to the root.
pub const PRIMES: &str = "SET R9 0
SET R0 2
SET R1 2
MUL R1 R1 R2
JMPGT 9 R2 R0
MOD R0 R1 R3
JMPEQ 10 R3 R9
INC R1 1
JMP 3
INC R4 1
INC R0 1
JMP 2";

pub const COUNTING: &str = "SET R0 0
SET R1 500000000
INC R0 1
JMPLT 2 R0 R1
JMP 0";

/// The sum of n, n-1, ... 0 by a procedure that calls itself 300 deep; the places to return to stand on the stack.
pub const RECURSION: &str = "SET R0 300
SET R2 0
SET R9 0
PUSH IAR
JMP 7
JMP 0
NOP
JMPEQ 13 R0 R9
PUSH R0
DEC R0 1
PUSH IAR
JMP 7
POP R0
ADD R2 R0 R2
POP R1
INC R1 2
JMP R1";

pub const STACK: &str = "SET R0 0
SET R1 900
SET R2 0
PUSH R0
INC R0 1
JMPLT 3 R0 R1
POP DM4
DEC R0 1
JMPGT 6 R0 R2
JMP 3";

/// About 60 KB of lines that jump nowhere and fail nowhere, 4,095 lines at most.
pub fn lines_of_60_kb() -> String {
    const LINES: [&str; 12] = [
        "SET R1 12",
        "IN R0",
        "ADD R0 R1 R2 # loose pieces",
        "MOV R2 DM7",
        "CMPLT R1 R2 R3",
        "SUB R2 R1 R4",
        "RXOR R4 R2 R5",
        "MOV DM7 R6 ; the carton before",
        "SET DM12 -300 // for now",
        "MOD R4 R1 R7",
        "",
        "NEG R1 R8",
    ];
    let mut text = String::new();
    let mut count = 0;
    while text.len() < 60_000 && count < 4095 {
        text.push_str(LINES[count % LINES.len()]);
        text.push('\n');
        count += 1;
    }
    text
}

/// About 60 KB of lines that are mostly comments and blanks.
pub fn comments_of_60_kb() -> String {
    let mut text = String::new();
    while text.len() < 60_000 {
        text.push_str("    \t\t        add  r1,   r2,\tr3        ");
        text.push_str(
            "// the loose pieces of a carton are added to the count of the shelf, box by box\n",
        );
        text.push_str("                                                                \n");
    }
    text
}

/// Numbers of both signs and several lengths between blanks.
pub fn numbers(bytes: usize) -> Vec<u8> {
    let mut text = Vec::new();
    let mut value = 7i64;
    while text.len() < bytes {
        value = (value * 48_271) % 2_147_483_647;
        let shown = (value % 1_000_000) >> (value % 17);
        let shown = if value % 3 == 0 { -shown } else { shown };
        text.extend_from_slice(format!("{shown} ").as_bytes());
    }
    text.truncate(bytes);
    text
}
