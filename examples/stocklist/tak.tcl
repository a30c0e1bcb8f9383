JMP 14                # 0: over this text
#  1  STOCKLIST: adds up a list that says first how long it is.
#  2
#  3  Input    How many articles, then the pieces of each. Pieces may be negative.
#  4  Output   The pieces together, and how many articles have fewer than 0 (to be counted again).
#  5
#  6  The end  IN behind the last number fails with code 3, and a failed run cannot go on. So a list has to say where it
#  7           ends: by a count in front, as here, by an end mark (see cartons), or the failure is the end (see
#  8           stocklist-open). With the count a list that was cut off is noticed: FAILED 3 17, and no sum.
#  9  Overflow ADD has code 1 when the sum is outside the range, -8388608 to 8388607 at K = 24: FAILED 1 18, and no
# 10           sum. That is the safe answer here: no sum rather than a wrong one. For greater sums raise K in tak.par.
# 11  Refusal  A count below 0 is refused on purpose: a jump to -1 always fails with code 1: FAILED 1 23.
# 12
# 13  R0 always 0     R1 articles left     R2 pieces of an article     R3 the sum     R4 articles below 0
IN R1                 # 14: how many
JMPLT 23 R1 R0        # 15
JMPEQ 24 R1 R0        # 16: none left
IN R2                 # 17
ADD R3 R2 R3          # 18
DEC R1 1              # 19
JMPGE 16 R2 R0        # 20
INC R4 1              # 21: an article below 0
JMP 16                # 22
JMP -1                # 23: a count below 0
OUT R3                # 24
OUT R4                # 25
