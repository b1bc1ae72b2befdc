"""What a picture of a firing shows, read back from its shapes and words.

Places are turned into slots and values by the marks of the picture's own axes, so what is read is what a person sees.
Values are in hundredths. A picture that cannot be read so raises Unreadable.
"""
import re
from collections import defaultdict
from xml.etree import ElementTree

from numbers_typed import numbers, typed

SVG = "{http://www.w3.org/2000/svg}"
# A bar so wide holds every value, and a label stands no further from what it names.
WIDE_BAR = 70
NEAR = 10


class Unreadable(ValueError):
    pass


def require(is_so, what):
    if not is_so:
        raise Unreadable(what)


def measures(shape):
    """An element's attributes, those that are numbers as numbers."""
    return {name: float(value) if re.fullmatch(r"-?[\d.]+", value) else value for name, value in shape.attrib.items()}


def corners(path):
    return [tuple(map(float, corner.split())) for corner in re.split("[ML]", path["d"].rstrip("Z"))[1:]]


def seconds(clock):
    minutes, rest = clock.split(":")
    return 60 * int(minutes) + int(rest)


class Axis:
    """Whole numbers by the places of their marks, which must be evenly spaced."""

    def __init__(self, marks):
        require(len(marks) > 1, "an axis has fewer than two marks")
        (self.start, self.first), (end, last) = marks[0], marks[-1]
        self.unit = (end - self.start) / (last - self.first)
        for place, number in marks:
            require(self.at(place) == number, f"the mark {number} stands at {self.at(place)}")

    def at(self, place):
        number = self.first + (place - self.start) / self.unit
        require(abs(number - round(number)) < 0.05, f"{number} is drawn where a whole number is to stand")
        return round(number)


class Picture:
    def __init__(self, svg):
        try:
            self.root = ElementTree.fromstring(svg)
        except ElementTree.ParseError as error:
            raise Unreadable(f"this is no XML: {error}") from error
        self.read_axes(self.marks("times"), self.marks("values"))
        self.slots = len(self.shapes("setpoints", "circle"))
        self.read_slots()

    def read_axes(self, times, values):
        self.slot_axis = Axis([(line["x1"], seconds(label["text"]) // 10) for line, label in times])
        self.value_axis = Axis([(line["y1"], typed(label["text"])) for line, label in values])
        self.left, self.right = values[0][0]["x1"], values[0][0]["x2"]
        self.top, self.bottom = times[0][0]["y1"], times[0][0]["y2"]
        for line, label in times:
            require(label["x"] == line["x1"], f"the time {label['text']} does not stand under its mark")
        for line, label in values:
            require(0 < label["y"] - line["y1"] < NEAR, f"the value {label['text']} does not stand beside its mark")

    def read_slots(self):
        """Below the tree stand the slots that begin at the marked times, each with its number in its middle."""
        begin = [seconds(label["text"]) // 10 for _, label in self.marks("times")]
        marks = self.marks("slots")
        numbered = [int(label["text"]) for _, label in marks]
        require(numbered == [slot for slot in begin if slot < self.slots], f"the slots {numbered} are marked, and the times of {begin}")
        for line, label in marks:
            slot = int(label["text"])
            require(self.slot_axis.at(line["x1"]) == slot == self.slot_in_middle(label["x"]), f"slot {slot} does not stand under its time")

    def part(self, name):
        parts = self.root.findall(f"{SVG}g[@id='{name}']")
        require(len(parts) == 1, f"there are {len(parts)} parts {name}")
        return parts[0]

    def shapes(self, name, tag):
        return [measures(shape) for shape in self.part(name).iter(SVG + tag)]

    def marks(self, name):
        """The lines of an axis with their labels."""
        marks = [(mark.find(f"{SVG}line"), mark.find(f"{SVG}text")) for mark in self.part(name).findall(f"{SVG}g")]
        return [(measures(line), {**measures(label), "text": label.text}) for line, label in marks]

    def words(self):
        """All texts with letters in them."""
        return sorted(text.text for text in self.root.iter(f"{SVG}text") if re.search("[a-z]", text.text))

    def legend(self):
        """The samples with their labels: the tag of each, and the label."""
        return [(sample.tag.removeprefix(SVG), label.text) for sample, label in self.samples()]

    def samples(self):
        shapes = list(self.part("legend"))
        return zip(shapes[0::2], shapes[1::2])

    def steps(self, path):
        """For each slot that a line of steps passes its values there."""
        values = defaultdict(list)
        for (x1, y1), (x2, y2) in zip(corners(path), corners(path)[1:]):
            require(x1 == x2 or y1 == y2, "a line of steps has a slope")
            for slot in range(*sorted(map(self.slot_axis.at, (x1, x2)))):
                values[slot].append(self.value_axis.at(y1))
        return values

    def setpoints(self):
        """Each slot with its setpoint; a dot stands in the middle of its slot."""
        return [(self.slot_in_middle(dot["cx"]), self.value_axis.at(dot["cy"])) for dot in self.shapes("setpoints", "circle")]

    def slot_in_middle(self, x):
        return self.slot_axis.at(x - self.slot_axis.unit / 2)

    def words_at_setpoints(self):
        return [dot.find(f"{SVG}title").text for dot in self.part("setpoints")]

    def restored(self):
        """Each slot with its restored setpoint."""
        [line] = self.shapes("restored", "path")
        return [(slot, value) for slot, values in self.steps(line).items() for value in values]

    def rest(self):
        """The rest value, and the slots from and to which its line goes."""
        [line] = self.shapes("rest", "line")
        require(line["y1"] == line["y2"], "the line of the rest value has a slope")
        return self.value_axis.at(line["y1"]), self.slot_axis.at(line["x1"]), self.slot_axis.at(line["x2"])

    def bands(self):
        """For each slot its band's ends, and whether it is drawn as its own."""
        kinds = {sample.get("fill"): label.text == "own band" for sample, label in self.samples() if sample.tag == f"{SVG}rect"}
        require(all(area["fill"] in kinds for area in self.shapes("bands", "path")), "a band is not in the legend")
        return sorted((slot, min(ends), max(ends), kinds[area["fill"]])
                      for area in self.shapes("bands", "path") for slot, ends in self.steps(area).items())

    def own_bands(self):
        """The slots over the strip of own bands."""
        return [slot for strip in self.shapes("bands", "rect") for slot in range(*self.slots_of(strip))]

    def slots_of(self, bar):
        return self.slot_axis.at(bar["x"]), self.slot_axis.at(bar["x"] + bar["width"])

    def terms(self):
        """Each term's node, by its place in the tree, with its value and the slots that it feeds."""
        levels = {measures(label)["y"]: int(label.text) for label in self.part("levels")}
        return [self.term(term, levels) for term in self.part("terms").findall(f"{SVG}g")]

    def term(self, term, levels):
        outline, *bars = [measures(bar) for bar in term.findall(f"{SVG}rect")]
        [level] = [level for y, level in levels.items() if outline["y"] < y < outline["y"] + outline["height"]]
        first, after = self.slots_of(outline)
        width = 2 ** max(levels.values()) // 2 ** level
        node, value = numbers(term.find(f"{SVG}title").text)
        require((node, after) == ((2 ** level * width + first) / width, min(first + width, self.slots)),
                f"the outline of node {node} is from slot {first} to {after}, in level {level}")
        self.read_value(term, value, bars)
        return int(node), int(100 * value), [slot for bar in bars for slot in range(*self.slots_of(bar))]

    def read_value(self, term, value, bars):
        """A term's value stands in a bar that holds it, if there is one."""
        labels = [(label.text, measures(label)) for label in term.findall(f"{SVG}text")]
        require(labels or all(bar["width"] < WIDE_BAR for bar in bars), f"the value {value} is not written in its bar")
        for text, label in labels:
            is_held = any(bar["x"] < label["x"] < bar["x"] + bar["width"] and NEAR < label["y"] - bar["y"] < bar["height"] for bar in bars)
            require(numbers(text) == [value] and is_held, f"{text} is written where {value} is to stand")

    def greatest_error(self):
        """The slot, the setpoint and the restored setpoint that are marked."""
        [ring] = self.shapes("greatest-error", "circle")
        leader, joint = self.shapes("greatest-error", "line")
        require({ring["cx"]} == {line[end] for line in (leader, joint) for end in ("x1", "x2")} and ring["cy"] == joint["y1"],
                "the mark of the greatest error is not around its setpoint")
        return self.slot_in_middle(ring["cx"]), self.value_axis.at(joint["y1"]), self.value_axis.at(joint["y2"])

    def everything(self):
        terms = self.terms()
        return {
            "words": self.words(),
            "legend": self.legend(),
            "rest value, and where its line begins and ends": self.rest(),
            "setpoints": self.setpoints(),
            "words at setpoints": self.words_at_setpoints(),
            "bands": self.bands(),
            "own bands": self.own_bands(),
            "restored": self.restored(),
            "terms": [(node, value) for node, value, _ in terms],
            "slots fed by terms": sorted((slot, node, value) for node, value, slots in terms for slot in slots),
            "greatest error": self.greatest_error(),
        }
