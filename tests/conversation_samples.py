"""Conversations that were worked out by hand, with all that is said in them."""
from __future__ import annotations

from typing import NamedTuple

from saved_texts import SAVED


class Sample(NamedTuple):
    """A conversation: the options, what is asked, what is said, and the status."""

    options: tuple[str, ...]
    given: str
    said: str
    status: int = 0


# An edit is answered.
AN_EDIT = Sample(
    (),
    """\
serve 1 lines 4
|;!knitout-2
|;;Carriers: 1 2
|in 1
|knit + f1 1
put 0 lines 3
|in 1
|knit + f1 1
|knit + f2 1
verdict
""",
    """\
opened version 0 blocks 1 sound lines 2 made 1 held 1 rack 0

session 0 1 accepted version 1 block 0 sound lines 3 made 2 held 2 rack 0

session 0 2 verdict version 1
sound lines 3 made 2 held 2 rack 0
in: 1
hook:
f1: 4
f2: 5

final version 1
sound lines 3 made 2 held 2 rack 0
in: 1
hook:
f1: 4
f2: 5

""",
)

# A line that breaks a rule: its block, and which of its lines it is.
A_BROKEN_LINE = Sample(
    ("--block", "2"),
    """\
serve 1 lines 5
|;!knitout-2
|;;Carriers: 1 2
|in 1
|tuck + f1 1
|knit + f1 1
put 1 lines 1
|knit + f1 2
verdict
""",
    """\
opened version 0 blocks 2 sound lines 3 made 2 held 1 rack 0

session 0 1 accepted version 1 block 1 broken line 5 rule CarrierIsOut at 3
broken block 1 line 1

session 0 2 verdict version 1
broken line 5 rule CarrierIsOut at 3
> knit + f1 2
broken block 1 line 1

final version 1
broken line 5 rule CarrierIsOut at 3
> knit + f1 2
broken block 1 line 1

""",
)

# Two sessions, one too late; what happened since; the lost text; put again.
TOO_LATE = Sample(
    (),
    """\
serve 1 lines 3
|;!knitout-2
|;;Carriers: 1 2
|in 1
put 0 lines 1
|in 2
session 1 put 0 lines 1
|in 1 2
session 1 since 0
session 1 look 0
session 1 look 0 at 0
session 1 put 0 lines 1
|in 1 2
""",
    """\
opened version 0 blocks 1 sound lines 1 made 0 held 0 rack 0

session 0 1 accepted version 1 block 0 sound lines 1 made 0 held 0 rack 0

session 1 1 stale version 1 block 0 seen 0 now 1

session 1 2 since version 1 from 0 entries 1
1 session 0 put 0 seen 0 lines 1

session 1 3 shown version 1 block 0 stamp 1 first 3 lines 1
|in 2

session 1 4 text version 1 block 0 stamp 0 lines 1
|in 1

session 1 5 accepted version 2 block 0 sound lines 1 made 0 held 0 rack 0

final version 2
sound lines 1 made 0 held 0 rack 0
in: 1 2
hook:

""",
)

# Blocks in order, behind an add and a cut.
IN_ORDER = Sample(
    ('--block', '1'),
    """\
serve 1 lines 4
|;!knitout-2
|;;Carriers: 1 2
|in 1
|out 1
session 3 add 0 lines 1
|tuck + f1 1
session 3 cut 1
blocks
session 3 look @1
look 1
look 9
loop 4
""",
    """\
opened version 0 blocks 2 sound lines 2 made 0 held 0 rack 0

session 3 1 accepted version 1 block 2 sound lines 3 made 1 held 1 rack 0

session 3 2 accepted version 2 block 1 sound lines 2 made 1 held 1 rack 0

session 0 1 blocks version 2 blocks 2
block 0 stamp 0 first 3 lines 1
block 2 stamp 1 first 4 lines 1

session 3 3 shown version 2 block 2 stamp 1 first 4 lines 1
|tuck + f1 1

session 0 2 gone version 2 block 1 at 2

session 0 3 noblock version 2 block 9 ids 3

session 0 4 loop version 2 loop 4 on f1 + with 1 through

final version 2
sound lines 2 made 1 held 1 rack 0
in: 1
hook:
f1: 4

""",
)

# Lines that say nothing: each is named, and the conversation goes on.
BAD_LINES = Sample(
    (),
    """\
serve 1 lines 3
|;!knitout-2
|;;Carriers: 1 2
|in 1
putt 0 lines 2
|a
|b
put 0 lines 2
|in 1
verdict
|stray
look @1
session 64 verdict
# a remark

put 0
since 9
look 0 at 3
""",
    """\
opened version 0 blocks 1 sound lines 1 made 0 held 0 rack 0

badinput line 5 BadLine

badinput line 10 BadLine

session 0 1 verdict version 0
sound lines 1 made 0 held 0 rack 0
in: 1
hook:

badinput line 11 BadLine

badinput line 12 NoOwn

badinput line 13 ManySessions

badinput line 16 BadLine

session 0 2 noversion version 0 at 9

session 0 3 notext version 0 block 0 stamp 3

final version 0
sound lines 1 made 0 held 0 rack 0
in: 1
hook:

""",
)

# The end comes inside a text.
BROKEN_OFF = Sample(
    (),
    """\
serve 1 lines 3
|;!knitout-2
|;;Carriers: 1 2
|in 1
put 0 lines 2
|in 2""",
    """\
opened version 0 blocks 1 sound lines 1 made 0 held 0 rack 0

badinput line 7 BadLine

final version 0
sound lines 1 made 0 held 0 rack 0
in: 1
hook:

""",
)

# Replies as JSON.
AS_JSON = Sample(
    ("--json",),
    """\
serve 1 lines 4
|;!knitout-2
|;;Carriers: 1 2
|in 1
|tuck + f1 1
session 2 put 0 lines 1
|in 9
look 0
blocks
since 0
loop 4
verdict
put 7 lines 0
bad
""",
    """\
{"blocks":1,"brief":{"held":1,"lines":2,"made":1,"rack":"0","verdict":"sound"},"reply":"opened","version":0}
{"block":0,"brief":{"at":1,"line":3,"rule":"NoCarrier","verdict":"broken"},"broken":{"block":0,"line":1},"number":1,\
"reply":"accepted","session":2,"version":1}
{"block":0,"first":3,"lines":["in 9"],"number":1,"reply":"shown","session":0,"stamp":1,"version":1}
{"blocks":[{"block":0,"first":3,"lines":1,"stamp":1}],"number":2,"reply":"blocks","session":0,"version":1}
{"entries":[{"block":0,"edit":"put","lines":1,"number":1,"seen":0,"session":2}],"from":0,"number":3,"reply":"since","session":0,"version":1}
{"loop":null,"number":4,"reply":"loop","session":0,"version":1}
{"broken":{"block":0,"line":1},"number":5,"reply":"verdict","session":0,"verdict":{"at":1,"line":3,"rule":"NoCarrier",\
"text":"in 9","verdict":"broken"},"version":1}
{"name":"7","number":6,"reply":"unseen","session":0}
{"cause":"BadLine","line":14,"reply":"badinput"}
{"broken":{"block":0,"line":1},"reply":"final","verdict":{"at":1,"line":3,"rule":"NoCarrier","text":"in 9","verdict":"broken"},"version":1}
""",
)

# No conversation.
NO_CONVERSATION = Sample(
    (),
    """\
live 1
|;!knitout-2
""",
    """\
bad input: script line 1 NoServe
""",
    3,
)

# An opening that is none.
NO_OPENING = Sample(
    (),
    """\
serve 1 lines 1
|;!knitout-3
""",
    """\
bad input: head BadMagic
""",
    3,
)

# A text that is too long is counted and not kept, and a name is asked before it.
A_LONG_TEXT = Sample(
    (),
    """\
serve 1 lines 3
|;!knitout-2
|;;Carriers: 1 2
|in 1
put 0 lines 4097
"""
    + "|\n" * 4_097
    + """\
session 1 add 0 lines 0
session 1 cut @1
""",
    """\
opened version 0 blocks 1 sound lines 1 made 0 held 0 rack 0

session 0 1 blocklong lines 4097

session 1 1 accepted version 1 block 1 sound lines 1 made 0 held 0 rack 0

session 1 2 accepted version 2 block 1 sound lines 1 made 0 held 0 rack 0

final version 2
sound lines 1 made 0 held 0 rack 0
in: 1
hook:

""",
)

# A conversation that goes on from a saved text, whose limits hold. Its sessions know the opening, and undo what is done from now on.
A_SAVED_TEXT = Sample(
    ("--high=0", "--block=1"),
    f"serve 1 journal 16\n{SAVED.decode()}undo\nput 0 lines 0\nlook 0\nput 0 lines 0\nundo\n",
    """\
opened version 2 blocks 1 sound lines 1 made 0 held 0 rack 0

session 0 1 noundo

session 0 2 stale version 2 block 0 seen 0 now 2

session 0 3 shown version 2 block 0 stamp 2 first 3 lines 1
|in 1

session 0 4 accepted version 3 block 0 sound lines 0 made 0 held 0 rack 0

session 0 5 accepted version 4 block 0 sound lines 1 made 0 held 0 rack 0

final version 4
sound lines 1 made 0 held 0 rack 0
in: 1
hook:

""",
)

SAMPLES = {
    "an_edit": AN_EDIT,
    "a_broken_line": A_BROKEN_LINE,
    "too_late": TOO_LATE,
    "in_order": IN_ORDER,
    "bad_lines": BAD_LINES,
    "broken_off": BROKEN_OFF,
    "as_json": AS_JSON,
    "no_conversation": NO_CONVERSATION,
    "no_opening": NO_OPENING,
    "a_long_text": A_LONG_TEXT,
    "a_saved_text": A_SAVED_TEXT,
}
