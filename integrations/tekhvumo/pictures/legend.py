"""The legend of a picture."""
from __future__ import annotations

from .part import Part
from .story import CAST_ON, KNIT, TUCK, YARN_OVER
from .svg import CROSS, arrow, element, shape


class Legend(Part):
    """What shapes, marks and colours mean."""

    def whole(self, top: float) -> float:
        """The shapes of loops, the marks and the yarns, as far as they are used; where it ends."""
        y = top
        for is_front, bed in ((True, "front bed"), (False, "back bed")):
            kinds = {it.kind for it in self.at.stitches if it.loop.needle.is_front == is_front}
            if kinds:
                self.text(10, y + 4, f"{bed}:")
                for place, kind in enumerate(kind for kind in (KNIT, TUCK, CAST_ON, YARN_OVER) if kind in kinds):
                    x = 84.0 + 92 * place
                    self.draw("g", "sample", shape(kind, is_front, x, y, "legend"))
                    self.text(x + 14, y + 4, kind)
                y += 22
        return self.marks(y)

    def marks(self, y: float) -> float:
        """The marks and the yarns that are used; where they end."""
        x = 14.0
        if any(stitch.way for stitch in self.at.stitches):
            self.draw("path", "transfer", d=arrow(x, y + 4, x + 12, y - 6))
            self.text(x + 18, y + 4, "transferred")
            x += 92
        if any(stitch.dropped for stitch in self.at.stitches):
            self.draw("path", "drop", d=f"M{x + 4:g} {y:g}{CROSS}")
            self.text(x + 18, y + 4, "dropped")
            x += 80
        used = sorted({number for stitch in self.at.stitches for number in stitch.colours})
        for number in used:
            name = f"yarn {self.story.colours.all[number].carrier}"
            way = f"M{x:g} {y:g}h14"
            edge = element("path", "edge top", d=way) if self.at.needs_edge(number) else ""
            self.draw("g", "swatch", edge + element("path", f"top y{number}", d=way))
            self.text(x + 20, y + 4, name)
            x += 34 + 6.5 * len(name)
            self.at.right = max(self.at.right, x)
        return y + 26
