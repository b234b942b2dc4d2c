"""A language server: `tekhvumo lsp` speaks the language server protocol over standard input and output.

`framing.py` and `endpoint.py` are the protocol's messages; `text.py`, `blocks.py`, `verdicts.py` and `document.py` a document
and the verdict on it as it is typed; `answers.py` what is answered at once, `work.py`, `outline.py` and `workers.py` what
takes longer; `server.py` puts them together.
"""
from typing import BinaryIO

from ..settings import Wishes


def serve(heard: BinaryIO, said: BinaryIO, program: str, wishes: Wishes) -> int:
    """Serves an editor over two streams; the exit status. `program` is check_main."""
    # (the processes that work for the server need nothing of it)
    from .server import Server

    return Server(heard, said, program, wishes).run()
