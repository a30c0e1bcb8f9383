JMP 13                # 0: over this text
#  1  PRINT: n, n-1, .. 1, 0 by a loop, then 0, 1, .. n-1, n by a procedure that calls itself.
#  2
#  3  Input    n. Below 0 nothing is printed; above 1000 it is refused: FAILED 1 22.
#  4
#  5  A call   PUSH IAR and then JMP. IAR is the number of the PUSH's own cell, so the cell behind the JMP is 2 further:
#  6           the procedure returns by POP R1, INC R1 2, JMP R1. Values that are needed behind a call are pushed before
#  7           the call and popped behind it, in the opposite order.
#  8  Stack    up needs 2 cells for each number above 0, and 2 more. If S in tak.par is too small, PUSH has code 1 and the
#  9           run ends there, FAILED 1, with what was printed before.
# 10  Cycles   Each number costs 76 cycles in the loop and up to 163 in the procedure, most of it for OUT.
# 11
# 12  R0 n     R1 where to return to     R2 the greatest n     R3 the loop's number     R4 always 0
SET R2 1000           # 13
IN R0                 # 14
JMPGT 22 R0 R2        # 15
MOV R0 R3             # 16
# 17  the loop
JMPLT 23 R3 R4        # 18: below 0: all are printed
OUT R3                # 19
DEC R3 1              # 20
JMP 18                # 21
JMP -1                # 22: n is too great: a jump to -1 always fails with code 1
JMPLT 44 R0 R4        # 23: n is below 0
PUSH IAR              # 24: call up
JMP 28                # 25
JMP 44                # 26: the first empty cell
# 27  up: prints 0 to R0 and leaves R0 as it was
JMPEQ 34 R0 R4        # 28: 0 has no number before it
PUSH R0               # 29
DEC R0 1              # 30
PUSH IAR              # 31: call up for n-1
JMP 28                # 32
POP R0                # 33
PUSH IAR              # 34: call one
JMP 40                # 35
POP R1                # 36: return
INC R1 2              # 37
JMP R1                # 38
# 39  one: prints R0
OUT R0                # 40
POP R1                # 41
INC R1 2              # 42
JMP R1                # 43
