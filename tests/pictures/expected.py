"""What the picture of a firing is to show, by its text, by what the program `fire` prints for it and by the bytes of its record."""
from decimal import Decimal

from numbers_typed import typed


def counted(number, name):
    return f"{number} {name}" + "s" * (int(number) != 1)


def with_comma(number):
    return f"{number:.2f}".replace(".", ",")


def on_the_line(length):
    return f"{counted(length, 'byte')}, {with_comma(Decimal(8 * length) / 1200)} s"


class Expected:
    def __init__(self, text, printed, record_bytes):
        rest, band, *self.lines = text.splitlines()
        fields = [line.split(" ") for line in self.lines]
        self.rest = typed(rest)
        self.setpoints = [typed(setpoint) for setpoint, *_ in fields]
        self.bands = [typed([band, *owns][-1]) for _, *owns in fields]
        self.own_bands = [slot for slot, slot_band in enumerate(self.bands) if slot_band != typed(band)]
        self.summary, *rows = [row.split() for row in printed.splitlines()]
        self.terms = [(int(node), typed(value)) for kind, node, value in rows if kind == "term"]
        self.restored = [value for kind, _, value in rows if kind == "slot"]
        self.clocks = [f"{slot // 6}:{slot % 6}0" for slot in range(len(self.lines))]
        errors = [abs(setpoint - typed(value)) for setpoint, value in zip(self.setpoints, self.restored)]
        self.worst = errors.index(max(errors))
        self.text_bytes, self.record_bytes = len(text), record_bytes

    def words(self):
        slots, count, band, error = self.summary
        own = f", own bands in {counted(len(self.own_bands), 'slot')}" if self.own_bands else ""
        words = [f"{counted(slots, 'slot')}, {counted(count, 'term')}", f"band {band}{own}, greatest error {error}",
                 f"record: {on_the_line(self.record_bytes)} at 1200 bits a second", f"text: {on_the_line(self.text_bytes)}",
                 f"greatest error {error}, first in slot {self.worst} at {self.clocks[self.worst]}",
                 "tonnes of fuel an hour", "minutes:seconds", "level", "slot", *(label for _, label in self.legend())]
        return sorted(words if self.terms else [*words, "no term: the rest value feeds every slot"])

    def legend(self):
        own = [("rect", "own band")] if self.own_bands else []
        rest = f"rest value {with_comma(Decimal(self.rest) / 100)}"
        return [("circle", "setpoint"), ("rect", "band"), *own, ("path", "restored"), ("line", rest)]

    def words_at_setpoints(self):
        return [f"slot {slot} at {clock}: {line}, restored {value}"
                for slot, (clock, line, value) in enumerate(zip(self.clocks, self.lines, self.restored))]

    def bands_drawn(self):
        """For each slot its band's ends, and whether it is its own."""
        return [(slot, setpoint - band, setpoint + band, slot in self.own_bands)
                for slot, (setpoint, band) in enumerate(zip(self.setpoints, self.bands))]

    def fed_by_terms(self):
        """Each slot with a term on the path to the root, the lowest such node and the restored setpoint; the others have the rest value."""
        leaves = next(2 ** height for height in range(10) if len(self.lines) <= 2 ** height)
        nodes = {node for node, _ in self.terms}
        above = [[leaves + slot >> up for up in range(10) if leaves + slot >> up in nodes] for slot in range(len(self.lines))]
        return [(slot, above[slot][0], typed(value)) for slot, value in enumerate(self.restored) if above[slot]]

    def everything(self):
        return {
            "words": self.words(),
            "legend": self.legend(),
            "rest value, and where its line begins and ends": (self.rest, 0, len(self.lines)),
            "setpoints": list(enumerate(self.setpoints)),
            "words at setpoints": self.words_at_setpoints(),
            "bands": self.bands_drawn(),
            "own bands": self.own_bands,
            "restored": [(slot, typed(value)) for slot, value in enumerate(self.restored)],
            "terms": self.terms,
            "slots fed by terms": self.fed_by_terms(),
            "greatest error": (self.worst, self.setpoints[self.worst], typed(self.restored[self.worst])),
        }
