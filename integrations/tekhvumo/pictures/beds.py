"""The beds of a picture, and what they hold."""
from __future__ import annotations

from typing import Sequence

from ..lines import Needle, listed
from .part import Part

BEDS = {"b": "back bed", "bs": "back sliders", "fs": "front sliders", "f": "front bed"}


class Beds(Part):
    """The beds in the state in which a story ends, the back one as it is racked."""

    def whole(self, top: float, when: str) -> float:
        """The beds with their numbers, what they hold, and what is in the carriers and the hook; where they end."""
        state = self.state
        held = f"in: {listed(state.carriers) or 'none'}, in the hook: {listed(state.hook) or 'none'}"
        self.text(10, top, f"{when}: rack {float(state.rack):g}, {held}", "small")
        seen = {needle.bed for needle in (*state.needles, *self.at.wrong)}
        shown = [bed for bed in BEDS if bed in seen or len(bed) == 1]
        self.at.lines_of_beds = {bed: top + 30 + 22 * place for place, bed in enumerate(shown)}
        if self.at.is_apart:
            for beds in ("f", "b"):
                own = [bed for bed in shown if bed[0] == beds]
                self.at.lines_of_beds.update({bed: top + 30 + 22 * place for place, bed in enumerate(own)})
        for bed, y in self.at.lines_of_beds.items():
            self.bed(bed, y)
        for panel in self.at.panels:
            back = [y for bed, y in self.at.lines_of_beds.items() if bed == "b" and "b" in panel.beds]
            front = [y for bed, y in self.at.lines_of_beds.items() if bed == "f" and "f" in panel.beds]
            for y in back:
                self.numbers("b", y - 13, is_racked=True)
            for y in front:
                self.numbers("f", y - 13 if self.at.is_apart else y + 18, is_racked=True)
        # (below the numbers)
        self.at.below_beds = max(self.at.lines_of_beds.values()) + (10 if self.at.is_apart else 22)
        return self.at.below_beds

    def bed(self, bed: str, y: float) -> None:
        """A bed: its needles, the loops that each holds, and the needles of the broken line."""
        panel = self.at.panel_of(Needle(bed, 0))
        self.text(panel.left - 14 - self.at.slot * max(0.0, -self.at.racked), y + 3, BEDS[bed], "small end")
        places = [self.at.bed_x(Needle(bed, number)) for number in range(self.at.low, self.at.high + 1)]
        ticks = "".join(f"M{x:g} {y - 3:g}v6" for x in places)
        self.draw("path", "bed", d=f"M{places[0] - 6:g} {y:g}H{places[-1] + 6:g}{ticks}")
        for needle, lines in self.state.needles.items():
            if needle.bed == bed and self.at.shows(needle):
                self.held(needle, lines, y)
        for needle in self.at.wrong:
            if needle.bed == bed:
                self.draw("circle", "wrong", title=str(needle), cx=self.at.bed_x(needle), cy=y, r=9)

    def held(self, needle: Needle, lines: Sequence[int], y: float) -> None:
        """What a needle holds, in the colour of the last loop, and the number of its loops."""
        x, made = self.at.bed_x(needle), self.story.stitches.get(lines[-1])
        title = f"{needle} holds the loops of lines {' '.join(map(str, lines))}"
        self.draw("circle", f"held y{made.colours[0]}" if made else "held legend", title=title, cx=x, cy=y, r=5)
        if made and self.at.needs_edge(made.colours[0]):
            for radius in (3, 7):
                self.draw("circle", "rim", cx=x, cy=y, r=radius)
        if len(lines) > 1:
            self.text(x, y + 3, str(len(lines)), "count")
