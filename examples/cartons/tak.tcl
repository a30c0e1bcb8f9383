JMP 22                # 0: over this text, which is made of cells too
#  1  CARTONS: cartons and loose pieces into one count of screws.
#  2
#  3  Input    The pieces in a carton, then for each scan two numbers: the cartons and the loose pieces.
#  4           Both may be negative: a return. 0 0 ends the list (IN behind the last number would fail with code 3).
#  5  Output   Two numbers. 0 and the count of pieces if all went well; 1 and the number of the scan
#  6           (1 is the first) at which the count left the range; 2 and the pieces in a carton if these are below 1.
#  7           So a count is there only behind a 0, and never a wrong one.
#  8
#  9  A line is a cell, also an empty one or a comment, and a jump names a cell: the number behind each # is the line's
# 10  own. Insert a line, and every target behind it moves by one. A comment in a line of its own costs 1 cycle when it is
# 11  run through, which is why cell 0 jumps over these.
# 12
# 13  Overflow MUL and ADD would fail with code 1 and end the run. This program asks before it multiplies or adds, so that
# 14           the output can say which scan it was. The count must stay in the range after every single step: a count
# 15           that leaves it and would come back with a later return is given up as well.
# 16
# 17  R0 always 0                  R1 pieces in a carton       R2 cartons       R3 loose pieces     R4 the count so far
# 18  R5, R6 most cartons either way whose pieces fit          R7 what is added R8, R9 ends of the range
# 19  R10 number of the scan       R11 for a moment            R12 where add was called from
# 20
# 21  To change it: for another K set cells 22 and 23 to 2^(K-1) - 1 and -2^(K-1), and K in tak.par.
SET R8 536870911      # 22: the greatest number at K = 30
SET R9 -536870912     # 23: and the least
IN R1                 # 24: the pieces in a carton
JMPLE 59 R1 R0        # 25: below 1: no carton
DIV R8 R1 R5          # 26: the most cartons whose pieces are a number
DIV R9 R1 R6          # 27: the same for returns; DIV rounds towards zero, so both are exact
IN R2                 # 28: cartons of this scan
IN R3                 # 29: its loose pieces
INC R10 1             # 30: scans are numbered from 1; 65,536 bytes of input cannot hold too many
JMPNEQ 33 R2 R0       # 31
JMPEQ 52 R3 R0        # 32: 0 0: the end mark
JMPGT 55 R2 R5        # 33: MUL would overflow
JMPLT 55 R2 R6        # 34
MUL R2 R1 R7          # 35: cartons into pieces
MOV IAR R12           # 36: keep this cell's number, then call add
JMP 43                # 37
MOV R3 R7             # 38: the loose pieces
MOV IAR R12           # 39
JMP 43                # 40
JMP 28                # 41
# 42  add: adds R7 to R4, or goes to 55 if the sum is outside the range
JMPLT 47 R7 R0        # 43
SUB R8 R7 R11         # 44: R7 is 0 or more: the greatest count that it fits on
JMPGT 55 R4 R11       # 45
JMP 49                # 46
SUB R9 R7 R11         # 47: R7 is negative: the least count that it fits on
JMPLT 55 R4 R11       # 48
ADD R4 R7 R4          # 49
INC R12 2             # 50: two cells behind the MOV is the cell behind the call
JMP R12               # 51
OUT R0                # 52: 0: all went well
OUT R4                # 53: the count
JMP 62                # 54: the first empty cell: the program ends
SET R11 1             # 55: 1: the count is outside the range
OUT R11               # 56
OUT R10               # 57: at this scan
JMP 62                # 58
SET R11 2             # 59: 2: no carton
OUT R11               # 60
OUT R1                # 61
