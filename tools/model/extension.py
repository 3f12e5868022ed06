"""What the whole opcode map has beside the base map: opcodes behind `0F`, `0F 38` and `0F 3A`, and those behind VEX and EVEX. Its two
one-byte opcodes stand in `opcode_map.py`.

A line of a table has: opcodes; what stands behind (E any ModRM, Em one of memory, Er one of a register, with `/` and the values of its
reg field where it has only some, bytes in hexadecimal where ModRM is one of these, none); `ib` where an immediate byte follows; the
register that is written (r of ModRM's reg field, m of its rm field, v of vvvv, `rv` both); and for each of no prefix, 66, F3 and F2,
of which only one stands, whether it has the instruction: n, 6, 3, 2. A dot is nothing.
"""

from functools import lru_cache
from typing import NamedTuple, Optional

# Behind 0F.
TWO_BYTE = """
00     E/6        .  .  2
01     C0,C2-C7,CC-CF,D2-D8,DA-DF,E9-ED,FA-FF . . n
01     CC,CE,CF   .  .  6
01     C6,D9      .  .  32
01     Em/5       .  .  3
01     E8,EA,EC-EF,FA,FD-FF . . 3
01     CA         .  .  32
01     FE,FF      .  .  2
10-11  E          .  .  n632
12     E          .  .  n32
12     Em         .  .  6
13     Em         .  .  n6
14-15  E          .  .  n6
16     E          .  .  n3
16     Em         .  .  6
17     Em         .  .  n6
18     Em/4567    .  .  n6
19-1D  E          .  .  n6
28-29  E          .  .  n6
2A     E          .  .  n632
2B     Em         .  .  n6
2C-2D  E          .  .  n6
2C-2D  E          .  r  32
2E-2F  E          .  .  n6
37     none       .  .  n
50     Er         .  r  n6
51     E          .  .  n632
52-53  E          .  .  n3
54-57  E          .  .  n6
58-5A  E          .  .  n632
5B     E          .  .  n63
5C-5F  E          .  .  n632
60-6B  E          .  .  n6
6C-6D  E          .  .  6
6E     E          .  .  n6
6F     E          .  .  n63
70     E          ib .  n632
71-72  Er/246     ib .  n6
73     Er/26      ib .  n6
73     Er/37      ib .  6
74-76  E          .  .  n6
77     none       .  .  n
78     E          .  m  n
79     E          .  .  n
7C-7D  E          .  .  62
7E     E          .  m  n6
7E     E          .  .  3
7F     E          .  .  n63
AA     none       .  .  n
AE     E/46       .  .  3
AE     Er/5       .  .  3
AE     Er/6       .  .  62
C2     E          ib .  n632
C4     E          ib .  n6
C5     Er         ib r  n6
C6     E          ib .  n6
C7     Em/6       .  .  n6
C7     E/6        .  .  3
C7     Em/7       .  .  n
D0     E          .  .  62
D1-D5  E          .  .  n6
D6     E          .  .  6
D6     Er         .  .  32
D7     Er         .  r  n6
D8-E5  E          .  .  n6
E6     E          .  .  632
E7     Em         .  .  n6
E8-EF  E          .  .  n6
F0     Em         .  .  2
F1-F6  E          .  .  n6
F7     Er         .  .  n6
F8-FF  E          .  .  n6
"""

# Behind 0F 38.
THREE_BYTE = """
00-0B,1C-1E               E  . . n6
10,14,15,17,20-25,28,29   E  . . 6
2A                        Em . . 6
2B,30-35,37-41            E  . . 6
80,81                     Em . . 6
C8-CD                     E  . . n
CF,DB-DF                  E  . . 6
F5                        Em . . 6
F6                        Em . . n
F8                        Em . . 632
F8                        Er . m 2
F8                        Er . . 3
F9                        Em . . n
FA,FB                     Er . r 3
"""

# Behind 0F 3A.
THREE_BYTE_3A = """
08-0E,20-22,40-42,44,60-63,CE,CF,DF  E ib . 6
0F     E ib . n6
14-17  E ib m 6
CC     E ib . n
"""

# VEX, map 1.
VEX_1 = """
10-12,14-16,28-2A,2E,2F   E  .  . n632
13,17,2B                  Em .  . n632
2C,2D                     E  .  r 32
41,42,44-47,4A,4B         Er .  . n6
50                        Er .  r n6
51-6F                     E  .  . n632
70                        E  ib . n632
71-73                     Er ib . 6
74-76                     E  .  . 6
77                        none . . n
7C,7D,7F                  E  .  . n632
7E                        E  .  m 6
7E                        E  .  . 3
90                        E  .  . n6
91                        Em .  . n6
92                        Er .  . n62
93                        Er .  r n62
98,99                     Er .  . n6
AE                        Em/23 . . n
C2                        E  ib . n632
C4                        E  ib . 6
C5                        Er ib r 6
C6                        E  ib . n6
D0-D6,D8-E6               E  .  . n632
D7                        Er .  r 6
E7                        Em .  . 6
E8-EF,F1-F6,F8-FE         E  .  . 6
F0                        Em .  . 2
F7                        Er .  . 6
"""

# VEX, map 2.
VEX_2 = """
00-0F,13,16-19,1C-1E,20-25,28,29,2B        E  . . 6
1A,2A,2C-2F,5A,8C,8E,90-93                 Em . . 6
30-41,45-47,58,59,78,79,96-9F,A6-AF,B4-BF  E  . . 6
49                 Em/0 . . n6
49                 C0  . .  n
49                 Er  . .  2
4B                 Em  . .  632
5C                 Er  . .  32
5E                 Er  . .  n632
6C                 Er  . .  n6
50-53,D2,D3,DA     E   . .  n632
72                 E   . .  3
B0,B1              Em  . .  n632
CB-CD              Er  . .  2
CF,DB-DF           E   . .  6
E0-EF              Em  . r  6
F2                 E   . r  n
F3                 E/123 . v n
F5                 E   . r  n32
F6                 E   . rv 2
F7                 E   . r  n632
"""

# VEX, map 3.
VEX_3 = """
00-02,04-06,08-0F,18,19,1D,20-22,38,39,40-42,44,46,48-4C,5C-5F,60-63,68-6F,78-7F,CE,CF,DE,DF  E ib . 6
14-17  E  ib m 6
30-33  Er ib . 6
F0     E  ib r 2
"""

# EVEX, map 1.
EVEX_1 = """
10-12,14-16,28-2A,2E,2F   E  .  . n632
13,17,2B                  Em .  . n632
2C,2D                     E  .  r 32
51,54-6F                  E  .  . n632
70                        E  ib . n632
71-73                     E  ib . 6
74-76                     E  .  . 6
78,79                     E  .  . n6
78,79                     E  .  r 32
7A,7B,7F                  E  .  . n632
7E                        E  .  m 6
7E                        E  .  . 3
C2                        E  ib . n632
C4                        E  ib . 6
C5                        Er ib r 6
C6                        E  ib . n6
D1-D6,E8-EF,F1-F6,F8-FE   E  .  . 6
D8-E6                     E  .  . n632
E7                        Em .  . 6
"""

# EVEX, map 2.
EVEX_2 = """
00,04,0B-0D,10-16,18-2D,30-40,42-47,4C-4F,50-55,58-5B,62-66,68,70-73,75-7F   E  . . n632
83,88-8B,8D,8F,96-9F,A6-AF,B4-BF,C4,C8,CA-CD,CF,DC-DF                        E  . . n632
90-93,A0-A3,C6,C7                                                            Em . . n632
"""

# EVEX, map 3.
EVEX_3 = """
00,01,03-05,08-0B,0F,18-1B,1D-1F,20-23,25-27,38-3B,3E,3F,42-44,50,51,54-57,66,67,70-73,C2,CE,CF  E ib . n632
14-17  E ib m 6
"""

# EVEX, map 5.
EVEX_5 = """
10,11,2A            E . . 3
1D                  E . . n6
2C,2D               E . r 3
2E,2F               E . . n
51,58-5F,7A-7D      E . . n632
6E                  E . . 6
78,79               E . . n6
78,79               E . r 3
7E                  E . m 6
"""

# EVEX, map 6.
EVEX_6 = """
13                                     E . . n632
2C,2D,42,43,4C-4F,96-9F,A6-AF,B6-BF    E . . 6
56,57,D6,D7                            E . . 32
"""

# By the number of the map: 2 behind 0F, 3 and 4 behind 0F 38 and 0F 3A, 5 to 7 of VEX, 8 to 12 of EVEX.
TABLES = {
    2: TWO_BYTE, 3: THREE_BYTE, 4: THREE_BYTE_3A, 5: VEX_1, 6: VEX_2, 7: VEX_3,
    8: EVEX_1, 9: EVEX_2, 10: EVEX_3, 11: EVEX_5, 12: EVEX_6,
}  # fmt: skip
VEX_MAPS = {1: 5, 2: 6, 3: 7}
EVEX_MAPS = {1: 8, 2: 9, 3: 10, 5: 11, 6: 12}


class Line(NamedTuple):
    opcodes: frozenset[int]
    # The ModRM bytes that fit; none where no ModRM follows.
    modrms: Optional[frozenset[int]]
    imm: str
    writes: str
    under: str


def numbers(text: str) -> frozenset[int]:
    """Those of a list such as 10-12,14."""
    found: set[int] = set()
    for part in text.split(","):
        first, _, last = part.partition("-")
        found.update(range(int(first, 16), int(last or first, 16) + 1))
    return frozenset(found)


def modrms_of(operand: str) -> Optional[frozenset[int]]:
    if operand == "none":
        return None
    if operand[0] != "E" or len(operand) > 1 and operand[1] not in "mr/":
        return numbers(operand)
    mode, _, digits = operand.partition("/")
    return frozenset(
        modrm
        for modrm in range(256)
        if (mode == "E" or (mode == "Er") == (modrm >> 6 == 3)) and (not digits or str(modrm >> 3 & 7) in digits)
    )


def line_of(text: str) -> Line:
    opcodes, operand, imm, writes, under = text.split()
    return Line(numbers(opcodes), modrms_of(operand), imm.strip("."), " ".join(writes.strip(".")), under)


LINES = {number: [line_of(text) for text in table.strip().splitlines()] for number, table in TABLES.items()}


@lru_cache(maxsize=None)
def lines_at(number: int, opcode: int, standing: frozenset[str]) -> list[Line]:
    """The lines of an opcode where these of 66, F3 and F2 stand: 6, 3, 2."""
    if len(standing) > 1:
        return []
    (under,) = standing or {"n"}
    return [line for line in LINES.get(number, []) if opcode in line.opcodes and under in line.under]
