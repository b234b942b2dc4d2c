"""Tests of the pictures that tekhvumo draws: what stands in them and where, read as XML."""
from __future__ import annotations

import re
from fractions import Fraction
from xml.etree import ElementTree

from tekhvumo.findings import Report
from tekhvumo.lines import Source
from tekhvumo.pictures import MOST_LOOPS, Range, drawn
from tekhvumo.pictures.story import Story
from tekhvumo.program import Program, Status
from tekhvumo.settings import Settings

from .case import HEAD, TOP, Case, body


def row(word: str, direction: str, bed: str, first: int, last: int, carriers: str = "1") -> str:
    """An instruction for each needle of a bed, in the order of the direction."""
    numbers = range(first, last + 1) if direction == "+" else range(last, first - 1, -1)
    return "; ".join(f"{word} {direction} {bed}{number} {carriers}" for number in numbers)


def tube(rounds: int) -> str:
    one = f"{row('knit', '-', 'f', 1, 4)}; {row('knit', '+', 'b', 1, 4)}"
    return "; ".join(["in 1", one.replace("knit", "tuck"), *[one] * rounds, "out 1"])


SWATCH = f"in 1; {row('tuck', '-', 'f', 1, 6)}; {row('knit', '+', 'f', 1, 6)}"
EYELET = f"{SWATCH}; xfer f3 b3; rack 1; xfer b3 f4; rack 0; {row('knit', '-', 'f', 1, 6)}"
SPLIT = f"{SWATCH}; split - f4 b4 1; drop b4; rack 0.25; knit + f4 1; knit + b4 1"
GARTER = f"{SWATCH}; {'; '.join(f'xfer f{it} b{it}' for it in range(1, 7))}; {row('knit', '-', 'b', 1, 6)}"


class Drawn:
    """A picture, read."""

    def __init__(self, svg: str) -> None:
        self.root = ElementTree.fromstring(svg)
        self.words = " ".join("".join(it.itertext()) for it in self.of("text"))

    def of(self, tag: str, kind: str = "") -> list[ElementTree.Element]:
        """The elements of a tag that are of a class."""
        return [it for it in self.root.iter() if it.tag.endswith(f"}}{tag}") and kind in ["", *self.kinds(it)]]

    @staticmethod
    def kinds(element: ElementTree.Element) -> list[str]:
        return element.get("class", "").split()

    def titles(self, tag: str, kind: str) -> list[str]:
        return [element[0].text or "" for element in self.of(tag, kind) if len(element)]

    def loops(self) -> dict[int, tuple[float, float]]:
        """The place of each line's loop."""
        found = {}
        for element in self.of("g", "loop"):
            line = int(re.match(r"line ([0-9]+):", element[0].text or "")[1])
            runs = [path.get("d", "") for path in element if "run" in self.kinds(path)]
            found[line] = tuple(map(float, re.match(r"M(\S+) (\S+?)m", runs[0]).groups()))
        return found

    def number_places(self, number: int) -> list[tuple[float, float]]:
        """Where a needle's number stands, from above."""
        found = [it for it in self.of("text", "number") if it.text == str(number)]
        return sorted(((float(it.get("x")), float(it.get("y"))) for it in found), key=lambda place: place[1])


class PictureCase(Case):
    def made(self, name: str, text: str, lines: Range | None = None, apart: bool | None = None) -> tuple[str, Report]:
        return drawn(Program(self.program), Source(name, text.encode()), Settings(), lines, apart)

    def drawn(self, text: str, lines: Range | None = None, apart: bool | None = None) -> Drawn:
        picture, report = self.made("a.k", text, lines, apart)
        self.assertEqual(report.status, Status.SOUND)
        return Drawn(picture)

    def refused(self, text: str, lines: Range | None = None) -> tuple[int, str]:
        """The status, and the rule and words of the first finding, where nothing is drawn."""
        picture, report = self.made("a.k", text, lines)
        self.assertEqual(picture, "")
        finding = report.findings[0]
        return report.status, f"{finding.rule}: {finding.message}"

    def example(self, name: str) -> Drawn:
        return self.drawn((TOP / "examples" / name).read_text())


class Loops(PictureCase):
    def test_each_loop_and_each_needle_that_holds_one(self) -> None:
        picture = self.example("tube.k")
        counts = {kind: len(picture.of("g", kind)) for kind in ("loop", "knit", "cast-on", "front", "back")}
        self.assertEqual(counts, {"loop": 72, "knit": 60, "cast-on": 12, "front": 36, "back": 36})
        self.assertEqual((len(picture.of("circle", "held")), len(picture.of("circle", "wrong"))), (12, 0))

    def test_courses_go_upward(self) -> None:
        places = self.drawn(body(f"{SWATCH}; {row('knit', '-', 'f', 1, 6)}")).loops()
        heights = [{places[line][1] for line in lines} for lines in (range(4, 10), range(10, 16), range(16, 22))]
        self.assertEqual([len(it) for it in heights], [1, 1, 1])
        self.assertGreater(min(heights[0]), max(heights[1]))
        self.assertGreater(min(heights[1]), max(heights[2]))

    def test_wales_stand_at_their_needles_numbers(self) -> None:
        picture = self.drawn(body(SWATCH))
        for line, number in ((9, 1), (10, 1), (4, 6), (15, 6)):
            self.assertEqual({x for x, _ in picture.number_places(number)}, {picture.loops()[line][0]})

    def test_cast_on_tuck_and_yarn_over_are_told_apart(self) -> None:
        lines = f"{EYELET}; tuck + f2 1; knit + f3 1; tuck + b3 1; tuck + f9 1"
        said = " ".join(self.drawn(body(lines)).titles("g", "loop"))
        for words in ("line 4: cast-on - f6", "line 23: yarn-over - f3", "line 26: tuck + f2", "line 29: cast-on + f9"):
            self.assertIn(words, said)
        self.assertRegex(said, "line 22: knit - f4 with 1, through (12 13|13 12)")
        tops = {re.sub(r"M\S+ [^m]+", "", it.get("d")) for it in self.drawn(body(lines)).of("path", "top")}
        # (four kinds on the front bed, one on the back bed, and the swatch of the yarn)
        self.assertEqual(len(tops), 6)

    def test_two_yarns_in_a_loop_lie_beside_each_other(self) -> None:
        picture = self.drawn(body("in 1 2; tuck + f1 1 2; knit + f1 1 2"))
        self.assertEqual([len(it.findall("*")) - 1 for it in picture.of("g", "plated")], [4, 4])

    def test_back_loops_stand_between_front_ones_in_a_full_gauge_rib(self) -> None:
        places = self.drawn(body("rack 0.25; in 1; knit + f1 1; knit + b1 1; knit + f2 1; knit + b2 1")).loops()
        across = [places[line][0] for line in (5, 6, 7, 8)]
        self.assertEqual(across, sorted(set(across)))
        self.assertEqual(len({places[line][1] for line in (5, 6, 7, 8)}), 1)

    def test_fair_isle_lies_in_one_row(self) -> None:
        lines = f"{SWATCH}; in 2; knit - f6 1; knit - f4 1; knit - f2 1; knit - f5 2; knit - f3 2; knit - f1 2"
        places = self.drawn(body(lines)).loops()
        self.assertEqual(len({places[line][1] for line in range(17, 23)}), 1)

    def test_needles_are_carried_as_check_main_does(self) -> None:
        examples = [path.read_text() for path in sorted((TOP / "examples").glob("*.k"))]
        for text in [*examples, *map(body, (SWATCH, EYELET, SPLIT, GARTER, tube(2)))]:
            source = Source("a.k", text.encode())
            program = Program(self.program)
            answer = program.check(source.data, loops=True)
            end = answer.verdict.get("line", len(source.pieces) + 1)
            story = Story(source, answer.loops, source.head_length + 1, end - 1).run({}, Fraction(0))
            state = program.state_above(source, end)
            self.assertEqual(story.needles, {needle: list(lines) for needle, lines in state.needles.items()})
            self.assertEqual(story.rack, state.rack)


class Beds(PictureCase):
    def test_both_beds_have_numbers_where_they_are_racked(self) -> None:
        for rack, needles in ((0, 0), (2, 2), (-3, -3), ("0.5", 0.5)):
            places = self.drawn(body(f"{SWATCH}; rack {rack}")).number_places(4)
            [front] = {x for x, _ in places[1:]}
            self.assertEqual((places[0][0] - front) / 20, needles)

    def test_the_beds_lie_above_the_fabric(self) -> None:
        picture = self.drawn(body(SWATCH))
        held = [float(it.get("cy")) for it in picture.of("circle", "held")]
        self.assertLess(max(held), min(y for _, y in picture.loops().values()))

    def test_a_needle_with_several_loops_has_their_number(self) -> None:
        picture = self.drawn(body("in 1; tuck + f1 1; tuck + f1 1; tuck + f1 1"))
        self.assertEqual([it.text for it in picture.of("text", "count")], ["3"])

    def test_front_and_back_of_a_tube_are_two_panels(self) -> None:
        text = body(tube(3))
        apart, together = self.drawn(text).loops(), self.drawn(text, apart=False).loops()
        front = [line for line in apart if (line - 4) % 8 < 4]
        back = [line for line in apart if line not in front]
        self.assertGreater(min(apart[line][0] for line in back), max(apart[line][0] for line in front))
        self.assertEqual({apart[line][1] for line in front}, {apart[line][1] for line in back})
        self.assertEqual({together[line][0] for line in front}, {together[line][0] for line in back})

    def test_rib_and_garter_are_one_panel(self) -> None:
        for text in ((TOP / "examples" / "rib.k").read_text(), body(GARTER)):
            across = {x for x, _ in self.drawn(text).loops().values()}
            self.assertLessEqual(len(across), 8)
            self.assertGreater(len({x for x, _ in self.drawn(text, apart=True).loops().values()}), len(across) - 1)

    def test_a_broken_program_is_drawn_up_to_its_line(self) -> None:
        # 12 loops above the line, one of which was transferred, and the two needles of the line
        picture, report = self.made("a.k", (TOP / "examples" / "forgotten-rack.k").read_text())
        self.assertEqual((report.status, report.findings[0].rule), (Status.SOUND, "NotAligned"))
        found = Drawn(picture)
        counts = [len(found.of(*it)) for it in (("g", "loop"), ("circle", "held"), ("circle", "wrong"))]
        self.assertEqual(counts, [12, 5, 2])
        self.assertEqual(found.titles("circle", "wrong"), ["b2", "f2"])
        self.assertIn("broken at line 27: xfer f2 b2", found.words)
        # (f2 and b2 don't face each other)
        across = [float(it.get("cx")) for it in found.of("circle", "wrong")]
        self.assertEqual(across[0] - across[1], 20)


class Yarns(PictureCase):
    def test_the_yarn_goes_from_each_loop_to_the_next(self) -> None:
        picture = self.drawn(body(f"{SWATCH}; out 1"))
        # 11 ways, and the two ends; the name stands where the yarn came in, at the right
        self.assertEqual([it.get("d").count("M") for it in picture.of("path", "yarn")], [11 + 2])
        [name] = picture.of("text", "carrier")
        self.assertEqual((name.text, float(name.get("x")) > picture.loops()[4][0]), ("1", True))

    def test_a_row_in_the_wrong_direction_has_a_float(self) -> None:
        right, wrong = (f"{SWATCH}; {row('knit', direction, 'f', 1, 6)}" for direction in "-+")
        self.assertEqual(len(self.drawn(body(right)).of("path", "float")), 0)
        self.assertEqual(len(self.drawn(body(wrong)).of("path", "float")), 1)

    def test_a_row_against_its_direction_is_a_row_for_each_loop(self) -> None:
        places = self.drawn(body("in 1; tuck + f3 1; tuck + f2 1; tuck + f1 1")).loops()
        self.assertEqual(len({y for _, y in places.values()}), 3)

    def test_a_yarn_that_goes_out_and_in_begins_anew(self) -> None:
        picture = self.drawn(body("in 1; tuck + f1 1; out 1; in 1; tuck + f5 1"))
        self.assertEqual([it.text for it in picture.of("text", "carrier")], ["1", "1"])
        self.assertEqual(sum(it.get("d").count("M") for it in picture.of("path", "yarn")), 4)

    def test_colours_are_those_of_the_program(self) -> None:
        knits = "in 1 2; tuck + f1 1; tuck + f2 2; x-vis-color teal 2; tuck + f3 2"
        picture = self.drawn(body(f"x-vis-color #12ab34 1; {knits}; x-vis-color }}{{ 1"))
        [sheet] = picture.of("style")
        for words in (".y3 { stroke: #0072b2; stroke: #12ab34; }", ".y4 { stroke: #d55e00; stroke: teal; }"):
            self.assertIn(words, sheet.text)
        self.assertNotIn("}{", sheet.text)
        used = [[kind for path in it for kind in Drawn.kinds(path) if kind[0] == "y"] for it in picture.of("g", "loop")]
        self.assertEqual([it[0] for it in used], ["y3", "y1", "y4"])

    def test_a_light_colour_has_an_edge(self) -> None:
        for colour, edges in (("#ffffff", True), ("#fff", True), ("#222222", False)):
            picture = self.drawn(body(f"x-vis-color {colour} 1; in 1; tuck + f1 1"))
            self.assertEqual(bool(picture.of("path", "edge")), edges)


class Marks(PictureCase):
    def test_transfers_are_marked(self) -> None:
        picture = self.drawn(body(EYELET))
        said = "the loop of line 12 is transferred to b3 by line 16 to f4 by line 18"
        self.assertEqual(picture.titles("path", "transfer"), [said])
        self.assertIn("transferred", picture.words)

    def test_drops_are_marked(self) -> None:
        picture = self.drawn(body(f"{SWATCH}; drop f2; knit + f3"))
        said = [f"the loop of line {line} is dropped by line {by}" for line, by in ((11, 16), (12, 17))]
        self.assertEqual(picture.titles("path", "drop"), said)
        self.assertEqual(len(self.drawn(body(SPLIT)).titles("path", "drop")), 1)

    def test_the_legend_has_what_is_used(self) -> None:
        self.assertEqual(len(self.drawn(body(SWATCH)).of("g", "sample")), 2)
        self.assertEqual(len(self.drawn(body(EYELET)).of("g", "sample")), 3)
        self.assertNotIn("dropped", self.drawn(body(SWATCH)).words)


class Ranges(PictureCase):
    def test_lines_of_a_program(self) -> None:
        text = (TOP / "examples" / "rib.k").read_text()
        picture = self.drawn(text, Range(28, 43))
        self.assertEqual(sorted(picture.loops()), list(range(28, 44)))
        self.assertIn("behind line 43: rack 0.25, in: 3", picture.words)
        # each loop of the first row goes on from one above the range
        self.assertEqual(sum(it.get("d").count("v8") for it in picture.of("path", "link")), 8)
        self.assertEqual(len(picture.of("circle", "held")), 8)

    def test_a_range_beyond_the_instructions(self) -> None:
        for lines in (Range(1, 2), Range(40, 50)):
            status, said = self.refused(body(SWATCH), lines)
            self.assertEqual(status, Status.USAGE)
            self.assertTrue(said.startswith("NoLines: there are instructions in lines 3 to 15"))
        self.assertEqual(len(self.drawn(body(SWATCH), Range(1, 50)).loops()), 12)

    def test_a_program_that_breaks_above_or_below_the_range(self) -> None:
        text = body(f"{SWATCH}; in 1; {row('knit', '-', 'f', 1, 6)}")
        self.assertEqual(len(self.drawn(text, Range(10, 15)).loops()), 6)
        status, said = self.refused(text, Range(17, 19))
        self.assertEqual((status, said[:11]), (Status.BROKEN, "CarrierIsIn"))
        self.assertIn("broken at line 16", self.drawn(text, Range(10, 19)).words)

    def test_too_many_loops_ask_for_a_range(self) -> None:
        rows = "; ".join(row("knit", "+-"[it % 2], "f", 1, 200) for it in range(100))
        text = body(f"in 1; {row('tuck', '-', 'f', 1, 200)}; {rows}")
        status, said = self.refused(text)
        self.assertEqual((status, said[:10]), (Status.TOO_LARGE, "ManyLoops:"))
        found = re.search(r"`--lines ([0-9]+)-([0-9]+)`", said)
        loops = len(self.drawn(text, Range(int(found[1]), int(found[2]))).loops())
        self.assertTrue(MOST_LOOPS - 300 < loops <= MOST_LOOPS)

    def test_the_words_of_the_command(self) -> None:
        path = f"{TOP}/examples/rib.k"
        rows = [("--lines", "20-30", 0), ("--beds", "apart", 0), ("--lines", "30-20", 2), ("--lines", "3", 2)]
        for *words, status in rows:
            ended, output = self.tekhvumo("draw", *words, path)
            self.assertEqual((ended, output[:4]), (status, "" if status else "<svg"))


class Texts(PictureCase):
    def test_the_picture_in_the_documents_is_what_is_drawn(self) -> None:
        picture, _ = self.made("examples/rib.k", (TOP / "examples" / "rib.k").read_text())
        self.assertEqual(picture, (TOP / "docs" / "pictures" / "rib.svg").read_text())

    def test_names_that_are_no_xml(self) -> None:
        text = ";!knitout-2\n;;Carriers: <\x02&'\nin <\x02&'\ntuck + f1 <\x02&'\n"
        picture, report = self.made("<&\x01\">", text)
        self.assertEqual(report.status, Status.SOUND)
        self.assertIn("yarn <\ufffd&'", Drawn(picture).words)

    def test_a_program_without_loops_and_a_far_needle(self) -> None:
        self.drawn(HEAD)
        for far in ("drop f99999999999", "knit + f900 1; drop f900"):
            picture = self.drawn(body(f"in 1; tuck + f1 1; {far}"))
            self.assertLess(float(picture.root.get("width")), 20_000)

    def test_a_refused_file_is_not_drawn(self) -> None:
        status, said = self.refused("drop f1\n")
        self.assertEqual((status, said[:8]), (Status.BAD_INPUT, "BadMagic"))
        self.assertEqual(self.tekhvumo("draw", "absent.k"), (Status.READ_FAULT, ""))
