"""Several editors on one document: a bridge over a Unix socket, and the library of its clients.

`tekhvumo share FILE` runs the bridge. An editor's side is a `Shared`:

    shared = Shared.connect("scarf.k.socket")
    shared.edit(12, 13, ["xfer f2 b2"])       the line 12, counted from 0, is another
    for change in shared.sync():              others hear of it, and the editor of others
        buffer[change.first : change.end] = change.lines
"""
from .client import HouseFull, Shared, ShareError, ShareGone
from .merge import Change

__all__ = ["Change", "HouseFull", "ShareError", "ShareGone", "Shared"]
