"""The names of warnings, and what each says."""
from __future__ import annotations

from .findings import SUMMARIES

WARNINGS = {
    "ForgottenCarrier": "A knit, tuck or split has no carrier, so it forms no loop.",
    "EmptyNeedle": "A needle without loops is knitted, split or transferred.",
    "KnitCastOn": "A row of needles without loops is knitted.",
    "LongFloat": "A yarn goes far from one loop to the next.",
    "CarrierBehind": "A row begins where its carrier isn't, as it goes the same way twice.",
    "CarrierUnused": "A carrier comes in and forms no loop.",
    "ReleasedUnused": "The hook lets go of a yarn that no loop holds.",
    "HookHeldLong": "The hook holds a yarn over many courses.",
    "FacingNeedles": "Needles that face each other knit in one row.",
    "FabricTooWide": "The fabric is wider than the machine.",
    "CarrierLeftIn": "A carrier is in at the end.",
    "HookLeftHolding": "The hook holds yarns at the end.",
    "LoopOnSlider": "A loop is on a slider at the end.",
    "LoopsLeft": "Loops are left at the end, though others are dropped.",
    "RackLeft": "The rack isn't 0 at the end.",
}
SUMMARIES.update(WARNINGS)
