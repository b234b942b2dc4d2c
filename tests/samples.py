"""Files and scripts that several tests of this folder give the program, and what it tells of them."""
from __future__ import annotations

HEAD = ";!knitout-2\n;;Carriers: 1 2 3\n"


def file_of(body: str) -> bytes:
    """A file with three carriers and this body, whose first line is line 3."""
    return (HEAD + body).encode()


# Two rows of two stitches, which stay on the needles.
SCARF = file_of("""\
in 1
tuck - f2 1
tuck - f1 1
knit + f1 1
knit + f2 1
out 1
""")
SCARF_VERDICT = b"""\
sound lines 6 made 4 held 2 rack 0
in:
hook:
f1: 6
f2: 7
"""
SCARF_LOOPS = b"""\
loop 4 on f2 - with 1 through
loop 5 on f1 - with 1 through
loop 6 on f1 + with 1 through 5
loop 7 on f2 + with 1 through 4
"""

# Two loops of one needle go over to a needle that holds one.
CROWDED_NEEDLE = file_of("""\
in 1
tuck + f1 1
tuck + f1 1
tuck + b1 1
xfer f1 b1
""")
CROWDED_NEEDLE_VERDICT = b"""\
sound lines 5 made 3 held 3 rack 0
in: 1
hook:
b1: 6 4 5
"""
# The same, where a needle holds two loops at most.
CROWDED_NEEDLE_FAULT = b"""\
broken line 7 rule TooManyLoops at 2
> xfer f1 b1
"""

# A cast-on, under a head of several lines, with an empty line behind it.
CAST_ON = b"""\
;!knitout-2
;;Machine: SWG091N2
;;Gauge: 15
;;Carriers: 1 2 3 4 5 6 7 8 9 10
;;Position: Center

x-stitch-number 60
stitch 10 5
inhook 6
tuck - f3 6 ; cast on
tuck - b2 6
tuck - f1 6
knit + f1 6
knit + b2 6
releasehook 6
knit + f3 6
outhook 6
"""
# The same with carriage returns, and with no line feed behind the last line.
CAST_ON_WITH_RETURNS = CAST_ON.replace(b"\n", b"\r\n").removesuffix(b"\r\n")
CAST_ON_VERDICT = b"""\
sound lines 11 made 6 held 3 rack 0
in:
hook:
f1: 13
f3: 16
b2: 14
"""

# Two puts of one block by one session, and the verdict.
TWO_PUTS = b"""\
live 1
|;!knitout-2
|;;Carriers: 1
|in 1
|knit + f1 1
session
put 0
|in 1
|knit + f1 1
|knit + f2 1
put 0
|in 1
verdict
"""
