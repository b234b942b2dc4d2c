"""A file by each judge: by the carriage, line by line, and by the book, in blocks."""
from __future__ import annotations

import unittest

from program import Answer, answer_of

LINE_LIMIT = 4_096


class EachWay(unittest.TestCase):
    def answer(self, *words: str, given: bytes, sizes: tuple[str, ...] = ("1", "64")) -> Answer:
        """What `check` or `passes` answers, which is the same in blocks of each of these sizes."""
        answer = answer_of(*words, given=given)
        others = [answer_of(*words, "--block", size, given=given) for size in sizes]
        self.assertTrue(all(other == answer for other in others), (words, given[:400], [other.report[:400] for other in [answer, *others]]))
        return answer

    def text(self, given: bytes) -> bytes:
        """The canonical text."""
        status, text = answer_of("text", given=given)
        self.assertEqual(status, 0, given)
        return text
