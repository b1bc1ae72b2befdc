"""The parts of the picture of a firing, each under a name of its own: the curves, and below them the tree's terms by level."""
import itertools

from drawing.firing import record_bytes
from drawing.sheet import draw, path, text_width

SECONDS_A_SLOT = 10
LINE_BITS_A_SECOND = 1200

HEADING_FONT, SMALL_FONT, VALUE_FONT = 28, 17, 14
SAMPLE_WIDTH = 32

# Shapes and shades tell the parts apart where there are no colours.
INK, PAPER, GRID, OUTLINE = "#000000", "#ffffff", "#cccccc", "#999999"
BAND, OWN_BAND = "#dddddd", "#aaaaaa"
RESTORED, TERM, ERROR = "#0057a8", "#a9c6e3", "#c00000"


def written(value):
    return f"{value / 100:.2f}".replace(".", ",")


def counted(number, name):
    return f"{number} {name}" if number == 1 else f"{number} {name}s"


def clock(slot):
    """When a slot begins, in minutes and seconds."""
    return "{}:{:02}".format(*divmod(slot * SECONDS_A_SLOT, 60))


def on_the_line(length):
    return f"{counted(length, 'byte')}, {written(100 * 8 * length / LINE_BITS_A_SECOND)} s"


def runs(keys):
    """The runs of slots with one key: the key, the first slot, and the slot after the last."""
    first = 0
    for key, run in itertools.groupby(keys):
        after = first + len(list(run))
        yield key, first, after
        first = after


def draw_heading(sheet, fired, special_slots, text_bytes):
    own_bands = f", own bands in {counted(special_slots, 'slot')}" if special_slots else ""
    lines = [f"band {written(fired.band)}{own_bands}, greatest error {written(fired.error)}",
             f"record: {on_the_line(record_bytes(fired.count, special_slots))} at {LINE_BITS_A_SECOND} bits a second",
             f"text: {on_the_line(text_bytes)}"]
    part = sheet.part("heading")
    draw(part, "text", f"{counted(fired.slots, 'slot')}, {counted(fired.count, 'term')}", x=sheet.margin, y=36, font_size=HEADING_FONT,
         font_weight="bold")
    for number, line in enumerate(lines):
        draw(part, "text", line, x=sheet.margin, y=66 + 26 * number)


def draw_legend(sheet, rest, has_own_bands):
    part = sheet.part("legend")

    def area(fill):
        return lambda x, y: draw(part, "rect", x=x, y=y - 9, width=SAMPLE_WIDTH, height=18, fill=fill)

    samples = {
        "setpoint": lambda x, y: draw(part, "circle", cx=x + SAMPLE_WIDTH / 2, cy=y, r=4),
        "band": area(BAND),
        "own band": area(OWN_BAND),
        "restored": lambda x, y: draw_restored_line(part, [(x, y), (x + SAMPLE_WIDTH, y)], 2),
        f"rest value {written(rest)}": lambda x, y: draw_rest_line(part, x, x + SAMPLE_WIDTH, y),
    }
    if not has_own_bands:
        del samples["own band"]
    labels = list(samples)
    for y, row in [(150, labels[:-2]), (176, labels[-2:])]:
        x = sheet.margin
        for label in row:
            samples[label](x, y - 6)
            draw(part, "text", label, x=x + SAMPLE_WIDTH + 8, y=y)
            x += SAMPLE_WIDTH + 8 + text_width(label) + 20


def draw_values(sheet):
    part = sheet.part("values", text_anchor="end")
    for value in sheet.marked_values():
        y = sheet.y(value)
        mark = draw(part, "g")
        draw(mark, "line", x1=sheet.left, x2=sheet.right, y1=y, y2=y, stroke=GRID)
        draw(mark, "text", written(value), x=sheet.left - 10, y=y + 7)
    draw_upright(sheet, "tonnes of fuel an hour", sheet.top, sheet.bottom)


def draw_times(sheet):
    """The times at which slots begin, and the profile's end where it is a round one."""
    part = sheet.part("times", text_anchor="middle")
    for slot in range(0, sheet.slots + 1, sheet.slot_step()):
        draw_mark(sheet, part, slot, clock(slot), slot, sheet.top, sheet.bottom)
    draw_caption(sheet, part, "minutes:seconds", sheet.bottom)


def draw_slots(sheet):
    """The same slots below the tree, each with its number in its middle."""
    part = sheet.part("slots", text_anchor="middle")
    for slot in range(0, sheet.slots, sheet.slot_step()):
        draw_mark(sheet, part, slot, str(slot), slot + 0.5, sheet.tree_top, sheet.tree_bottom)
    draw_caption(sheet, part, "slot", sheet.tree_bottom)


def draw_mark(sheet, part, slot, label, middle, top, bottom):
    mark = draw(part, "g")
    draw(mark, "line", x1=sheet.x(slot), x2=sheet.x(slot), y1=top, y2=bottom, stroke=GRID)
    draw(mark, "text", label, x=sheet.x(middle), y=bottom + 24)


def draw_caption(sheet, part, text, above):
    draw(part, "text", text, x=(sheet.left + sheet.right) / 2, y=above + 46, font_size=SMALL_FONT)


def draw_upright(sheet, text, top, bottom):
    draw(sheet.svg, "text", text, transform=f"translate({sheet.margin + 4} {(top + bottom) / 2}) rotate(-90)", text_anchor="middle",
         font_size=SMALL_FONT)


def steps(sheet, first, values):
    """The corners of a line over slots from the first, a step for each value."""
    return [(sheet.x(side), sheet.y(value)) for slot, value in enumerate(values, first) for side in (slot, slot + 1)]


def draw_bands(sheet, profile):
    """Each band around its setpoint; own bands, which may be too narrow to be seen there, have a strip under the curves too."""
    part = sheet.part("bands")
    for is_own, first, after in runs(profile.specials()):
        over, under = [steps(sheet, first, ends[first:after]) for ends in (profile.highs(), profile.lows())]
        draw(part, "path", d=path(over + under[::-1]) + "Z", fill=OWN_BAND if is_own else BAND)
        if is_own:
            draw_bar(sheet, part, first, after, y=sheet.bottom - 6, height=6, fill=OWN_BAND)


def draw_bar(sheet, part, first, after, **attributes):
    draw(part, "rect", x=sheet.x(first), width=sheet.x(after) - sheet.x(first), **attributes)


def draw_restored(sheet, restored):
    draw_restored_line(sheet.part("restored"), steps(sheet, 0, restored), min(2, max(1, sheet.slot_width())))


def draw_restored_line(part, corners, width):
    draw(part, "path", d=path(corners), fill="none", stroke=RESTORED, stroke_width=width)


def draw_rest(sheet, rest):
    draw_rest_line(sheet.part("rest"), sheet.left, sheet.right, sheet.y(rest))


def draw_rest_line(part, x1, x2, y):
    draw(part, "line", x1=x1, x2=x2, y1=y, y2=y, stroke=INK, stroke_width=1.2, stroke_dasharray="8 5")


def draw_setpoints(sheet, profile, restored):
    part = sheet.part("setpoints")
    radius = min(4, max(1.1, 0.3 * sheet.slot_width()))
    for slot, (setpoint, line) in enumerate(zip(profile.setpoints, profile.lines)):
        dot = draw(part, "circle", cx=sheet.x(slot + 0.5), cy=sheet.y(setpoint), r=radius)
        draw(dot, "title", f"slot {slot} at {clock(slot)}: {line}, restored {written(restored[slot])}")


def draw_greatest_error(sheet, setpoints, fired):
    """Marks the first slot whose setpoint and restored setpoint are as far apart as the program says."""
    slot = next(slot for slot in range(fired.slots) if abs(setpoints[slot] - fired.restored[slot]) == fired.error)
    x, y = sheet.x(slot + 0.5), sheet.y(setpoints[slot])
    part = sheet.part("greatest-error", stroke=ERROR)
    draw(part, "line", x1=x, x2=x, y1=sheet.top - 8, y2=y - 9, stroke_dasharray="2 3")
    draw(part, "line", x1=x, x2=x, y1=y, y2=sheet.y(fired.restored[slot]), stroke_width=3)
    draw(part, "circle", cx=x, cy=y, r=9, fill="none", stroke_width=2)
    label = f"greatest error {written(fired.error)}, first in slot {slot} at {clock(slot)}"
    least = sheet.margin + text_width(label) / 2
    draw(part, "text", label, x=min(max(x, least), sheet.width - least), y=sheet.top - 14, fill=ERROR, stroke="none", text_anchor="middle")


def draw_levels(sheet, levels):
    part = sheet.part("levels", text_anchor="end")
    for level in range(levels):
        draw(part, "text", str(level), x=sheet.left - 10, y=sheet.tree_top + sheet.level_height * level + 19)
    draw_upright(sheet, "level", sheet.tree_top, sheet.tree_bottom)


def draw_terms(sheet, fired):
    part = sheet.part("terms", text_anchor="middle", font_size=VALUE_FONT)
    fed = list(runs(fired.feeding_node(slot) for slot in range(fired.slots)))
    for node, value in fired.terms.items():
        runs_fed = [(first, after) for feeding, first, after in fed if feeding == node]
        draw_term(sheet, draw(part, "g"), node, written(value), fired.slots_below(node), runs_fed)
    if not fired.terms:
        draw(part, "text", "no term: the rest value feeds every slot", x=(sheet.left + sheet.right) / 2, y=sheet.tree_top + 17)


def draw_term(sheet, part, node, value, slots_below, runs_fed):
    """The slots below the node in outline, those that the term feeds in full, and its value where their longest run holds it.

    There is such a run: without a term that feeds no slot there would be fewer terms.
    """
    y = sheet.tree_top + sheet.level_height * (node.bit_length() - 1) + 3
    draw(part, "title", f"node {node}: {value}")
    for (first, after), fill, stroke in [(slots_below, PAPER, OUTLINE), *((run, TERM, RESTORED) for run in runs_fed)]:
        draw_bar(sheet, part, first, after, y=y, height=sheet.level_height - 6, fill=fill, stroke=stroke, stroke_width=0.6)
    left, right = map(sheet.x, max(runs_fed, key=lambda run: run[1] - run[0]))
    if text_width(value, VALUE_FONT) <= right - left:
        draw(part, "text", value, x=(left + right) / 2, y=y + 14)
