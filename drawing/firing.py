"""What the program `fire` says of a profile text: what it prints, and how it reads the text's own numbers.

No number of the text is read here: the program is asked. Values are in hundredths.
"""
import functools
import pathlib
import subprocess
import sys
from typing import NamedTuple

ROOT = pathlib.Path(__file__).resolve().parent.parent
# The first proves and builds the second where that is needed, and explains a refusal.
FIRE = ROOT / "fire"
PROGRAM = ROOT / "crates" / "fire" / "out" / "fire"


class Fired(NamedTuple):
    """What the program prints; terms are values by node."""
    slots: int
    count: int
    band: int
    error: int
    terms: dict
    restored: list

    def leaves(self):
        """The smallest power of two that is not below the number of slots."""
        return 1 << (self.slots - 1).bit_length()

    def levels(self):
        return self.leaves().bit_length()

    def slots_below(self, node):
        """The first slot below a node, and the slot after the last; none of them is past the profile's end."""
        width = self.leaves() >> (node.bit_length() - 1)
        first = node * width - self.leaves()
        return first, min(first + width, self.slots)

    def feeding_node(self, slot):
        """The node of the lowest term above a slot, 0 where the rest value feeds it."""
        node = self.leaves() + slot
        while node > 0 and node not in self.terms:
            node //= 2
        return node


class Profile(NamedTuple):
    """What a text holds: its setpoint lines as typed; setpoints, and the band that each slot goes by, as the program reads them."""
    rest: int
    common_band: int
    lines: list
    setpoints: list
    bands: list

    def specials(self):
        """For each slot whether it has a band of its own, other than the common one."""
        return [band != self.common_band for band in self.bands]

    def lows(self):
        return [setpoint - band for setpoint, band in zip(self.setpoints, self.bands)]

    def highs(self):
        return [setpoint + band for setpoint, band in zip(self.setpoints, self.bands)]


def ask(program, text):
    """What a program prints for a text, none where it refuses the text."""
    ran = subprocess.run([program], input=text, stdout=subprocess.PIPE, check=False)
    if ran.returncode != 0:
        sys.exit(ran.returncode)
    summary, *lines = [line.split(" ") for line in ran.stdout.decode().splitlines()]
    if summary[0] == "refused":
        return None
    slots, count, band, error = summary
    terms = {int(node): hundredths(value) for kind, node, value in lines if kind == "term"}
    restored = [hundredths(value) for kind, _, value in lines if kind == "slot"]
    return Fired(int(slots), int(count), hundredths(band), hundredths(error), terms, restored)


def hundredths(printed):
    """The program prints two digits after every comma."""
    return int(printed.replace(",", ""))


def setpoints_as_read(fields):
    """Typed fields as setpoints: with the band 0 the program restores each as it has read it."""
    return ask(PROGRAM, "".join(f"{line}\n" for line in ["0", "0", *fields]).encode()).restored


@functools.cache
def band_as_read(field):
    """A typed field as a band: the program prints the common one."""
    return ask(PROGRAM, f"0\n{field}\n0\n".encode()).band


def profile_of(text, common_band):
    """What a text holds that the program has accepted."""
    rest, _, *lines = text.decode().splitlines()
    fields = [line.split(" ") for line in lines]
    setpoints = setpoints_as_read([setpoint for setpoint, *_ in fields])
    bands = [band_as_read(own[0]) if own else common_band for _, *own in fields]
    return Profile(setpoints_as_read([rest])[0], common_band, lines, setpoints, bands)


def record_bytes(terms, special_slots):
    """PANEL_RECORD_BYTES of panel.h."""
    return (55 + 26 * terms + (10 + 25 * special_slots if special_slots else 0) + 7) // 8
