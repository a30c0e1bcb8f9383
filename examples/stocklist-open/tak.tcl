JMP 12                # 0: over this text
#  1  STOCKLIST-OPEN: adds up a list of any length, which ends where the input ends.
#  2
#  3  Input    The pieces of each article. Pieces may be negative.
#  4  Output   The sum after each article. The last one is the sum of the list.
#  5
#  6  The end  This program ends by failing: IN at the end of the input has code 3, so the last line is FAILED 3 12.
#  7           Nothing else is a good end. FAILED 1 12: a word in the list is no number. FAILED 2 12: a number is
#  8           outside the range. FAILED 1 13: the sum is, -8388608 to 8388607 at K = 24; the sum before it stands.
#  9           PAUSED: the cycles ran out. A list that was cut off is not noticed; if that matters, use stocklist.
# 10
# 11  R1 the sum     R2 pieces of an article
IN R2                 # 12
ADD R1 R2 R1          # 13
OUT R1                # 14
JMP 12                # 15
