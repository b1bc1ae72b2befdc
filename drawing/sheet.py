"""The sheet that a firing is drawn on: its measures, where slots and values stand on it, and how an element is added."""
import itertools
from xml.etree import ElementTree

FONT = 20
# The width of a letter in heights of the font: hardly a word or number of the picture is wider in common fonts.
LETTER_WIDTH = 0.6


class Sheet:
    """The curves stand from top to bottom, the tree below them, and both from left to right.

    Units are 96 to the inch: the sheet is as wide as an A4 page with margins of 10 mm, and with a tree of ten levels not as high.
    """
    width, margin = 720, 16
    left, right = 116, 690
    top, bottom = 222, 602
    tree_top, level_height = 668, 25

    def __init__(self, slots, levels, values):
        self.slots = slots
        self.low, self.high = min(values), max(values)
        if self.low == self.high:
            self.low, self.high = self.low - 1, self.high + 1
        self.tree_bottom = self.tree_top + self.level_height * levels
        self.svg = ElementTree.Element("svg", {
            "xmlns": "http://www.w3.org/2000/svg",
            "viewBox": f"0 0 {self.width} {self.tree_bottom + 62}",
            "preserveAspectRatio": "xMidYMin",
            "font-family": "sans-serif",
            "font-size": str(FONT),
        })
        draw(self.svg, "rect", width="100%", height="100%", fill="#ffffff")

    def x(self, slot):
        return self.left + self.slot_width() * slot

    def slot_width(self):
        return (self.right - self.left) / self.slots

    def y(self, value):
        return self.top + 10 + (self.bottom - self.top - 20) * (self.high - value) / (self.high - self.low)

    def slot_step(self):
        """How many slots apart the marks below are: of 10 seconds to 10 minutes the least that leaves room for each."""
        return next(step for step in (1, 2, 3, 6, 12, 30, 60) if self.slots <= 9 * step)

    def marked_values(self):
        """The multiples of the least step that leaves room for each; a step begins with 1, 2 or 5."""
        steps = (digit * 10 ** power for power in itertools.count() for digit in (1, 2, 5))
        step = next(step for step in steps if self.high - self.low <= 8 * step)
        return range(-(-self.low // step) * step, self.high + 1, step)

    def part(self, name, **attributes):
        return draw(self.svg, "g", id=name, **attributes)

    def as_bytes(self):
        return ElementTree.tostring(self.svg, encoding="utf-8", xml_declaration=True) + b"\n"


def draw(parent, tag, text=None, **attributes):
    """Adds an element; a name's underscores are hyphens in SVG."""
    element = ElementTree.SubElement(parent, tag, {name.replace("_", "-"): value if isinstance(value, str) else place(value)
                                                   for name, value in attributes.items()})
    element.text = text
    return element


def place(number):
    """So many digits tell hundredths apart on every scale."""
    return f"{number:.7g}"


def path(corners):
    return "M" + "L".join(f"{place(x)} {place(y)}" for x, y in corners)


def text_width(text, font=FONT):
    return LETTER_WIDTH * font * len(text)
