"""Tests of heads on the program check_main: how many lines they have, why one is refused, and the carriers that they declare.

`python3 -m unittest discover tests` runs them, on the check_main that TEKHVUMO_PROGRAM names or that is found.
"""
from __future__ import annotations

import unittest

from each_way import EachWay
from program import answer_of

MAGIC = ";!knitout-2"
# A file, how many lines of it are the head, and the names of its carriers.
HEADS = [
    ([MAGIC, ";;Carriers: 1 2 3"], 2, "1 2 3"),
    ([MAGIC + " \t", ";;Carriers: 1 2 3", "", ""], 4, "1 2 3"),
    ([MAGIC, ";;Carriers: 1 2 3", " ;x"], 2, "1 2 3"),
    ([MAGIC, ";;Carriers:a;b\tc"], 2, "a;b c"),
    ([MAGIC, ";;Carriers:"], 2, ""),
]
NAMES_65 = " ".join(str(number) for number in range(1, 66))
# A file, and why its head is refused.
REFUSED = [
    ([], "BadMagic"),
    ([";!knitout-22", ";;Carriers: 1"], "BadMagic"),
    ([MAGIC, "drop f1"], "NoCarriers"),
    ([MAGIC, ";;Carriers: 1 1", ";;Carriers: 4"], "line 3 TwoCarriers"),
    ([MAGIC, ";;Carriers: 1 2 1"], "line 2 CarrierNameTwice"),
    ([MAGIC, ";;Carriers: " + NAMES_65], "line 2 ManyCarriers"),
    ([MAGIC, ";;Carriers: " + NAMES_65 + " 1"], "line 2 CarrierNameTwice"),
]
NAMES_64 = " ".join(f"c{number}" for number in range(64))


def file_of(lines: list[str]) -> bytes:
    return "".join(line + "\n" for line in lines).encode()


def script_of(opening: list[str], commands: list[str]) -> bytes:
    return file_of(["live 1", *["|" + line for line in opening], "session", *commands])


class Heads(unittest.TestCase):
    def test_reads_heads(self) -> None:
        """What isn't the head is the body, and a new first block begins behind the head."""
        for lines, head, names in HEADS:
            with self.subTest(lines):
                told = f"sound lines {len(lines) - head} made 0 held 0 rack 0\nin:\nhook:\n"
                self.assertEqual(answer_of("check", given=file_of(lines)), (0, told.encode()))
                script = script_of(lines, ["look head", "add start", "|pause", "look @1"])
                report = answer_of("live", given=script).report.decode()
                header = f";;Carriers: {names}".rstrip()
                self.assertIn(f"\n1 shown version 0 block head stamp 0 first 1 lines 1\n|{header}\n2 ", report)
                self.assertRegex(report, rf"\n3 shown version 1 block \d stamp 1 first {head + 1} lines 1\n\|pause\n")

    def test_refuses_heads(self) -> None:
        for lines, cause in REFUSED:
            told = f"bad input: head {cause}\n".encode()
            for command in ("check", "text", "passes"):
                with self.subTest(cause, command=command):
                    self.assertEqual(answer_of(command, given=file_of(lines)), (3, told))
            self.assertEqual(answer_of("live", given=script_of(lines, [])), (3, told))


class Carriers(EachWay):
    def check(self, names: str, body: list[str], told: str) -> None:
        answer = self.answer("check", "--loops", given=file_of([MAGIC, ";;Carriers: " + names, *body]))
        self.assertEqual(answer, (1 if told.startswith("broken") else 0, told.encode()))

    def loop(self, names: str, used: str) -> None:
        """One loop of these carriers, of which all come in."""
        carried = " ".join(name for name in names.split() if name in used.split())
        made = f"sound lines 2 made 1 held 1 rack 0\nin: {carried}\nhook:\nf1: 4\nloop 4 on f1 + with {used} through\n"
        self.check(names, ["in " + used, "tuck + f1 " + used], made)

    def test_names_are_found(self) -> None:
        refused = answer_of("check", given=file_of([MAGIC, ";;Carriers: A BC A"]))
        self.assertEqual(refused, (3, b"bad input: head line 2 CarrierNameTwice\n"))
        self.check("A BC", ["in BC"], "sound lines 1 made 0 held 0 rack 0\nin: BC\nhook:\n")
        self.check("A BC", ["in A"], "sound lines 1 made 0 held 0 rack 0\nin: A\nhook:\n")
        self.check("A BC", ["in B"], "broken line 3 rule NoCarrier at 1\n> in B\n")

    def test_yarns_are_a_list_and_a_set(self) -> None:
        """A loop has its carriers as they are written, the machine those that are in by the header."""
        self.loop("0 1 2 3 4 5", "5 0")

    def test_the_fifth_carrier_is_kept(self) -> None:
        self.loop("0 1 2 3 4", "0 1 2 3 4")

    def test_all_carriers_are_kept(self) -> None:
        self.loop(NAMES_64, NAMES_64)
        body = ["in " + NAMES_64, "out c63", "tuck + f1 " + NAMES_64]
        self.check(NAMES_64, body, f"broken line 5 rule CarrierIsOut at 66\n> {body[2]}\n")


if __name__ == "__main__":
    unittest.main()
