JMP 22                # 0: over this text
#  1  ARTICLES: an inventory of two articles, which counts the entries that it rejects.
#  2
#  3  Input    For each entry two numbers: the article, 1 or 2, and its pieces. An article of 0 ends the list.
#  4  Output   Three numbers: the pieces of article 1, those of article 2, and how many entries were rejected.
#  5
#  6  Reject   An entry is added if its article is 1 or 2 and its pieces are 0 to 5000. Any other is rejected and counted,
#  7           once even if both its numbers are wrong, and the run goes on. A return (pieces below 0) is rejected too.
#  8  Failure  What is no number of the range is not rejected: IN ends the run and nothing is output. The cell is 25 for
#  9           an article, 27 for pieces. FAILED 1: a word is no number. FAILED 2: a number is outside the range, for
# 10           example a long bar code. FAILED 3: the list was cut off; without any input it is FAILED 3 25.
# 11  Overflow None can happen: 65,536 bytes of input hold at most 9,362 entries of 5000 pieces, together 46,810,000, and
# 12           536,870,911 is the greatest number at K = 30. With K below 27 in tak.par ADD can have code 1: FAILED 1 39
# 13           or FAILED 1 43 for a total (K below 16: FAILED 1 47 for the rejected entries too), and nothing is output.
# 14
# 15  Cells    DM0 entries rejected     DM1 pieces of article 1     DM2 pieces of article 2
# 16           ADD takes registers alone: MOV a cell into a register, ADD, and MOV it back. The program names each cell;
# 17           no register can choose one, so each article has lines of its own.
# 18  Truth    CMP.. makes -1 (true) or 0 (false); OR, NOT and AND join such values, JMPT and JMPF test them.
# 19
# 20  R0 always 0     R1 always 1     R2 always 2     R3 the most pieces     R4 the article     R5 its pieces
# 21  R6 to R13 truth values, made by the cells 28 to 35                     R14 what a cell holds, for a moment
SET R1 1              # 22
SET R2 2              # 23
SET R3 5000           # 24
IN R4                 # 25: the article
JMPEQ 50 R4 R0        # 26: 0: the end mark
IN R5                 # 27: its pieces
CMPEQ R4 R1 R6        # 28: it is article 1
CMPEQ R4 R2 R7        # 29: it is article 2
OR R6 R7 R8           # 30: it is one of them
CMPLT R5 R0 R9        # 31: the pieces are below 0
CMPGT R5 R3 R10       # 32: they are above 5000
OR R9 R10 R11         # 33: they are outside 0 to 5000
NOT R11 R12           # 34: they are inside
AND R8 R12 R13        # 35: article and pieces are right
JMPF 46 R13           # 36: they are not: reject
JMPT 42 R7            # 37: article 2
MOV DM1 R14           # 38: article 1
ADD R14 R5 R14        # 39
MOV R14 DM1           # 40
JMP 25                # 41
MOV DM2 R14           # 42: article 2
ADD R14 R5 R14        # 43
MOV R14 DM2           # 44
JMP 25                # 45
MOV DM0 R14           # 46: one more is rejected
ADD R14 R1 R14        # 47
MOV R14 DM0           # 48
JMP 25                # 49
OUT DM1               # 50
OUT DM2               # 51
OUT DM0               # 52
