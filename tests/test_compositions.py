"""Tests of lines whose verdict is worked out by hand: what a line asks and changes, behind other blocks and in one block with other lines.
So each text is judged line by line, in blocks of one line and of several, and in one block.

`python3 -m unittest discover tests` runs them, on the check_main that TEKHVUMO_PROGRAM names or that is found.
"""
from __future__ import annotations

import unittest

from program import answer_of

SIZES = ("1", "2", "3", "5", "4096")


def tucks(count: int, needle: str, carrier: str = "1") -> str:
    """So many lines, each of which tucks a loop on the needle."""
    return "; ".join([f"tuck + {needle} {carrier}"] * count)


class Lines(unittest.TestCase):
    def told(self, body: str, carriers: str) -> tuple[int, list[str]]:
        """What is written of a body whose lines are parted by semicolons: the same without blocks and in blocks of each size."""
        text = f";!knitout-2\n;;Carriers: {carriers}\n{body}\n".replace("; ", "\n").encode()
        whole = answer_of("check", "--loops", given=text)
        for size in SIZES:
            with self.subTest(body, size=size):
                self.assertEqual(answer_of("check", "--loops", "--block", size, given=text), whole)
        return whole.status, whole.report.decode().splitlines()

    def keeps(self, body: str, *lines: str, carriers: str = "1 2") -> None:
        """The body is sound, and these lines are among those that are written of it."""
        status, told = self.told(body, carriers)
        with self.subTest(body):
            self.assertEqual(status, 0, told)
            self.assertEqual([line for line in lines if line not in told], [], told)

    def breaks(self, body: str, rule: str, at: int, carriers: str = "1 2") -> None:
        """The body's last line breaks a rule at a place, and no line before it does."""
        status, told = self.told(body, carriers)
        lines = body.split("; ")
        with self.subTest(body):
            self.assertEqual(status, 1, told)
            self.assertEqual(told[:2], [f"broken line {2 + len(lines)} rule {rule} at {at}", f"> {lines[-1]}"])


class Beds(Lines):
    def test_a_split_moves_the_loops_and_makes_one(self) -> None:
        split = "split + f1 b1 1"
        told = ("sound lines 4 made 3 held 3 rack 0", "f1: 6", "b1: 4 5", "loop 6 on f1 + with 1 through 5")
        self.keeps(f"in 1; {tucks(1, 'b1')}; {tucks(1, 'f1')}; {split}", *told)
        self.keeps(f"in 1; {tucks(8, 'b1')}; {tucks(8, 'f1')}; {split}", "sound lines 18 made 17 held 17 rack 0")
        self.breaks(f"in 1; {tucks(8, 'b1')}; {tucks(9, 'f1')}; {split}", "TooManyLoops", 3)

    def test_a_split_moves_the_loops_and_forms_one(self) -> None:
        split = "split + f3 b4 1"
        told = ("f3: 7", "b4: 5 6", "loop 7 on f3 + with 1 through 6")
        self.keeps(f"in 1; rack -1; {tucks(1, 'b4')}; {tucks(1, 'f3')}; {split}", *told)
        self.breaks(f"rack -1; {split}", "CarrierIsOut", 4)
        self.breaks(f"in 1; {split}", "NotAligned", 3)
        self.breaks(f"in 1; tuck + b3 1; xfer b3 fs3; rack -1; {split}", "SliderHolds", 2)
        self.breaks(f"in 1; rack -1; {tucks(9, 'b4')}; {tucks(8, 'f3')}; {split}", "TooManyLoops", 3)

    def test_a_tuck_needs_room_for_one_more(self) -> None:
        self.keeps(f"in 1; {tucks(15, 'b1')}; tuck - b1 1", "sound lines 17 made 16 held 16 rack 0")
        self.breaks(f"in 1; {tucks(16, 'b1')}; tuck - b1 1", "TooManyLoops", 2)

    def test_a_tuck_joins_what_was_formed(self) -> None:
        """Two tucks go before and behind loops that were there: with these a needle holds 16 loops."""
        around = "xfer b4 f4; tuck - b4 1; xfer f4 b4; tuck - b4 1"
        loops = " ".join(str(line) for line in range(4, 18))
        self.keeps(f"in 1; {tucks(14, 'b4')}; {around}", f"b4: 19 {loops} 21", "loop 21 on b4 - with 1 through")
        self.breaks(f"in 1; {tucks(15, 'b4')}; {around}", "TooManyLoops", 2)
        self.breaks("tuck - b4 1", "CarrierIsOut", 3)

    def test_a_transfer_from_an_untouched_needle(self) -> None:
        transfer = "xfer f3 b1"
        self.keeps(f"in 1; rack 2; {tucks(1, 'b1')}; {tucks(1, 'f3')}; {transfer}", "sound lines 5 made 2 held 2 rack 2", "b1: 5 6")
        self.keeps(f"in 1; rack 2; {tucks(8, 'b1')}; {tucks(8, 'f3')}; {transfer}", "sound lines 19 made 16 held 16 rack 2")
        self.breaks(f"in 1; rack 2; {tucks(8, 'b1')}; {tucks(9, 'f3')}; {transfer}", "TooManyLoops", 2)
        self.breaks(transfer, "NotAligned", 2)

    def test_a_knit_without_carriers_drops_the_loops(self) -> None:
        self.keeps(f"in 1; {tucks(2, 'f1')}; {tucks(1, 'b1')}; knit + f1", "sound lines 5 made 3 held 1 rack 0", "b1: 6")

    def test_a_knit_is_drawn_through_what_was_formed(self) -> None:
        self.keeps("in 1; tuck + f2 1; knit - f2 1", "f2: 5", "loop 5 on f2 - with 1 through 4")

    def test_a_transfer_on_empty_beds_is_sound(self) -> None:
        self.assertEqual(self.told("xfer f1 b1", "1"), (0, ["sound lines 1 made 0 held 0 rack 0", "in:", "hook:"]))

    def test_two_transfers_to_one_needle(self) -> None:
        """The two want different racks, so the second breaks wherever the first keeps the rules."""
        both = "xfer f1 b1; xfer f2 b1"
        self.breaks(both, "NotAligned", 2)
        self.breaks(f"in 1; {tucks(8, 'b1')}; {tucks(8, 'f1')}; {both}", "NotAligned", 2)
        self.breaks("rack 1; xfer f1 b1", "NotAligned", 2)
        self.breaks(f"in 1; {tucks(8, 'b1')}; {tucks(9, 'f1')}; xfer f1 b1", "TooManyLoops", 2)


class Sliders(Lines):
    def test_a_drop_asks_nothing_of_a_slider(self) -> None:
        self.keeps("in 1; tuck + f4 1; xfer f4 bs4; drop b4", "sound lines 4 made 1 held 1 rack 0", "bs4: 4")

    def test_the_slider_beside_the_hook_is_bare(self) -> None:
        self.keeps("in 1; knit - b4 1", "sound lines 2 made 1 held 1 rack 0", "b4: 4")

    def test_a_loop_on_the_slider_is_one_too_many(self) -> None:
        self.breaks("in 1; tuck + f4 1; xfer f4 bs4; knit - b4 1", "SliderHolds", 2)


class Racks(Lines):
    def test_the_front_needle_less_the_back_one(self) -> None:
        for transfer in ("xfer f2 b5", "xfer b5 f2"):
            self.keeps(f"rack -3; {transfer}", "sound lines 2 made 0 held 0 rack -3")
            for rack in ("0", "-2.75", "-3.25", "3"):
                self.breaks(f"rack {rack}; {transfer}", "NotAligned", 2)
        self.keeps("rack 3; drop f2", "sound lines 2 made 0 held 0 rack 3")

    def test_a_split_without_carriers_is_a_transfer_at_its_own_places(self) -> None:
        self.keeps("rack 4; split + fs3 b-1", "sound lines 2 made 0 held 0 rack 4")
        self.breaks("split + fs3 b-1", "NotAligned", 3)


SIX = "c0 c1 c2 c3 c4 c5"


class Carriers(Lines):
    def test_a_carrier_goes_out(self) -> None:
        self.keeps("in c3; out c3", "in:", "hook:", carriers=SIX)
        self.breaks("out c3", "CarrierIsOut", 1, carriers=SIX)
        self.breaks("inhook c3; out c3", "CarrierHooked", 1, carriers=SIX)

    def test_carriers_come_in_by_the_hook(self) -> None:
        """Both carriers are asked for before the hook."""
        self.keeps("inhook c5 c0", "in: c0 c5", "hook: c0 c5", carriers=SIX)
        self.breaks("in c5; inhook c5 c0", "CarrierIsIn", 1, carriers=SIX)
        self.breaks("inhook c0; inhook c5 c0", "CarrierIsIn", 2, carriers=SIX)
        self.breaks("inhook c1; inhook c5 c0", "HookBusy", 0, carriers=SIX)

    def test_the_hook_releases_all_that_it_holds(self) -> None:
        self.keeps("inhook c0 c5; releasehook c5 c0", "in: c0 c5", "hook:", carriers=SIX)
        for before in ("in c5 c0", "inhook c5", "inhook c5 c0 c1"):
            self.breaks(f"{before}; releasehook c5 c0", "HookOther", 0, carriers=SIX)

    def test_a_carrier_that_goes_out_by_the_hook(self) -> None:
        self.keeps("in c3; outhook c3", "in:", "hook:", carriers=SIX)
        self.breaks("inhook c1; outhook c3", "CarrierIsOut", 1, carriers=SIX)
        self.breaks("in c3; inhook c1; outhook c3", "HookBusy", 0, carriers=SIX)

    def test_a_carrier_comes_in_and_knits(self) -> None:
        knits = "in 1; knit + f1 1"
        self.keeps(knits, "sound lines 2 made 1 held 1 rack 0", "f1: 4", "loop 4 on f1 + with 1 through")
        self.keeps(f"in 1; tuck + f1 1; out 1; {knits}", "f1: 7", "loop 7 on f1 + with 1 through 4")
        self.breaks("in 1; in 1", "CarrierIsIn", 1)
        self.breaks(f"in 1; tuck + b1 1; xfer b1 fs1; out 1; {knits}", "SliderHolds", 2)

    def test_a_carrier_that_came_in_is_there(self) -> None:
        self.keeps("in 1; miss + f1 1", "sound lines 2 made 0 held 0 rack 0", "in: 1")
        self.breaks("miss + f1 1", "CarrierIsOut", 3)


class Faults(Lines):
    def test_a_later_fault_is_raised(self) -> None:
        self.breaks("pause; pause; rack 1; xfer f1 b1", "NotAligned", 2)

    def test_a_line_that_breaks_a_rule_ends_the_block(self) -> None:
        told = ["broken line 3 rule OffBed at 1", "> drop f1024"]
        self.assertEqual(self.told("drop f1024; in 1; knit + f1 1; drop f1025", "1"), (1, told))

    def test_a_blank_line_asks_nothing(self) -> None:
        self.keeps("in 1; ; tuck + f1 1; ", "sound lines 4 made 1 held 1 rack 0", "f1: 5")

    def test_a_refused_knit_is_left_to_the_other_call(self) -> None:
        """A line in its usual spelling is carried out at once; one that breaks a rule is read anew, and counted once."""
        self.breaks("xfer f1 b1; knit + f1 1", "CarrierIsOut", 3)

    def test_a_refused_knit_stops_the_carriage(self) -> None:
        told = ["broken line 3 rule CarrierIsOut at 3", "> knit + f1 1"]
        self.assertEqual(self.told("knit + f1 1; in 1; knit + f1 1", "1"), (1, told))


class Loops(Lines):
    def test_a_loop_by_its_line(self) -> None:
        told = ["sound lines 2 made 1 held 1 rack 0", "in: 1", "hook:", "f1: 4", "loop 4 on f1 - with 1 through"]
        self.assertEqual(self.told("in 1; tuck - f1 1", "1"), (0, told))

    def test_the_loops_of_a_carriage(self) -> None:
        self.assertEqual(self.told("in 1", "1"), (0, ["sound lines 1 made 0 held 0 rack 0", "in: 1", "hook:"]))

    def test_loops_in_lists_that_they_share(self) -> None:
        loops = (
            "loop 4 on f1 - with 1 through",
            "loop 5 on b1 - with 2 through",
            "loop 7 on b1 + with 2 1 through 5 4",
            "loop 8 on b1 - with 1 through 7",
        )
        self.keeps("in 1 2; tuck - f1 1; tuck - b1 2; xfer f1 b1; knit + b1 2 1; knit - b1 1", "b1: 8", *loops)


if __name__ == "__main__":
    unittest.main()
