JMP 13                # 0: over this text
#  1  BOXES: pieces into full boxes and loose pieces.
#  2
#  3  Input    For each article two numbers: the pieces in a box, and the pieces. A box of 0 pieces ends the list.
#  4  Output   For each article three numbers: full boxes, loose pieces, and boxes with a partly filled one counted.
#  5
#  6  Signs    Pieces may be negative: a return. DIVR rounds towards zero and its remainder has the sign of the pieces, so
#  7           -13 pieces in boxes of 10 are -1 box, -3 loose pieces and -2 boxes in all: a return mirrors a delivery.
#  8           Boxes times their size and the loose pieces are always the pieces again.
#  9  Overflow None can happen: a box has 1 piece or more, so no result is larger than the pieces, and where loose
# 10           pieces are left the boxes are at most half as many as the pieces. A box below 0 is refused: FAILED 1 27.
# 11
# 12  R0 always 0     R1 pieces in a box     R2 pieces, then the loose ones     R3 full boxes
IN R1                 # 13: the pieces in a box
JMPEQ 28 R1 R0        # 14: 0: the end mark
JMPLT 27 R1 R0        # 15
IN R2                 # 16: the pieces
DIVR R2 R1 R3         # 17: full boxes into R3, the loose pieces stay in R2
OUT R3                # 18
OUT R2                # 19
JMPEQ 25 R2 R0        # 20: no box is partly filled
JMPLT 24 R2 R0        # 21
INC R3 1              # 22
SKIP                  # 23: over the next cell
DEC R3 1              # 24
OUT R3                # 25
JMP 13                # 26
JMP -1                # 27: a box below 0: a jump to -1 always fails with code 1
