"""Findings, warnings, canonical texts and pictures of knitout files, by the checker check_main.

>>> from tekhvumo import Limits, check, findings, loop_of, state_before
>>> text = ";!knitout-2\\n;;Carriers: 1\\nin 1\\ntuck + f1 1\\nknit - f1 1\\nout 1\\n"
>>> check(text).is_sound
True
>>> [finding.rule for finding in findings(text, Limits(high=0))]
['OffBed', 'OffBed']

Conversations, in which a document is judged at each edit, are in `tekhvumo.serve`.
"""
from typing import Any

from .api import Verdict, check, findings, loop_of, state_before
from .findings import Cure, Finding
from .lines import Needle
from .program import Limits, Loop, NotSound, SetupFault, State, Status, find_program
from .version import VERSION as __version__

# What is read in when it is asked for: a check of a file needs none of it, and takes less time than reading it.
LATER = frozenset({"AsyncConversation", "Conversation", "OpeningRefused", "ProcessGone", "Refused", "ServeError", "Stale"})

__all__ = [
    "AsyncConversation",
    "Conversation",
    "Cure",
    "Finding",
    "Limits",
    "Loop",
    "Needle",
    "NotSound",
    "OpeningRefused",
    "ProcessGone",
    "Refused",
    "ServeError",
    "SetupFault",
    "Stale",
    "State",
    "Status",
    "Verdict",
    "__version__",
    "check",
    "find_program",
    "findings",
    "loop_of",
    "state_before",
]


def __getattr__(name: str) -> Any:
    if name in LATER:
        from . import serve

        return getattr(serve, name)
    raise AttributeError(f"module {__name__!r} has no attribute {name!r}")
