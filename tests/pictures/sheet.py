"""Whether a picture can be read on paper: it fits an A4 page, no part or word hides another, and all is told apart without colours."""
import itertools
import re

from seen import SVG, corners, measures

# An A4 page with margins of 10 mm, in units of which 96 make an inch, and the smallest type on it.
PAGE_WIDTH, PAGE_HEIGHT = 720, 1047
LEAST_FONT = 14
# Letters are hardly wider on average in common fonts, and no higher above the line that they stand on.
LETTER_WIDTH, LETTER_HEIGHT = 0.6, 0.75
# Of 256 shades of grey so many tell two areas apart, and so many a line or a letter from what it stands on.
AREAS_APART, INK_APART = 30, 90
INK = "#000000"


def boxes(element, font=None, anchor="start"):
    """The words below an element, the size of their type, and where they stand: left, top, right, bottom."""
    font, anchor = float(element.get("font-size", font)), element.get("text-anchor", anchor)
    if element.tag == f"{SVG}text":
        width, height = LETTER_WIDTH * font * len(element.text), LETTER_HEIGHT * font
        before = {"start": 0, "middle": width / 2, "end": width}[anchor]
        upright = re.fullmatch(r"translate\(([\d.]+) ([\d.]+)\) rotate\(-90\)", element.get("transform", ""))
        if upright:
            x, y = map(float, upright.groups())
            yield element.text, font, (x - height, y - width + before, x, y + before)
        else:
            x, y = float(element.get("x")), float(element.get("y"))
            yield element.text, font, (x - before, y - height, x - before + width, y)
    for child in element:
        yield from boxes(child, font, anchor)


def wrong_words(picture, width, height):
    words = list(boxes(picture.root))
    for text, font, (left, top, right, bottom) in words:
        if font < LEAST_FONT:
            yield f"{text!r} is in type of {font}"
        if left < 0 or top < 0 or right > width or bottom > height:
            yield f"{text!r} is off the sheet"
    for (one, _, (left, top, right, bottom)), (other, _, box) in itertools.combinations(words, 2):
        if left < box[2] and box[0] < right and top < box[3] and box[1] < bottom:
            yield f"{one!r} and {other!r} lie on each other"


def wrong_places(picture, width, height):
    """What is off the sheet, corners of curves and bands beyond the axes, and a strip of own bands that lies on these."""
    for shape in map(measures, picture.root.iter()):
        for names, most in [(("x", "x1", "x2", "cx"), width), (("y", "y1", "y2", "cy"), height)]:
            if not all(0 <= shape.get(name, 0) <= most for name in names):
                yield f"{shape} is off the sheet"
    curves = [corner for name in ("bands", "restored") for path in picture.shapes(name, "path") for corner in corners(path)]
    for x, y in curves:
        if not (picture.left <= x <= picture.right and picture.top <= y <= picture.bottom):
            yield f"a corner at {x} {y} is beyond the axes"
    for strip in picture.shapes("bands", "rect"):
        if not max(y for _, y in curves) <= strip["y"] < strip["y"] + strip["height"] <= picture.bottom:
            yield f"the strip {strip} does not lie under the curves"


def wrong_order(picture):
    """Bands lie under the curves, and these under the setpoints and the mark."""
    order = [part.get("id") for part in picture.root if part.get("id")]
    under = ["bands", "restored", "setpoints", "greatest-error"]
    if [name for name in order if name in under] != under:
        yield f"the parts are drawn in the order {order}"


def shade(colour):
    """How bright a colour is without its hue, 0 to 255."""
    red, green, blue = (int(colour[at:at + 2], 16) for at in (1, 3, 5))
    return 0.299 * red + 0.587 * green + 0.114 * blue


def wrong_shades(picture):
    paper = picture.root.find(f"{SVG}rect").get("fill")
    [line], [ring] = picture.shapes("restored", "path"), picture.shapes("greatest-error", "circle")
    inks = [INK, line["stroke"], picture.shapes("rest", "line")[0]["stroke"], picture.part("greatest-error").get("stroke"),
            *(dot.get("fill", INK) for dot in picture.shapes("setpoints", "circle"))]
    areas = [paper, *(area["fill"] for area in picture.shapes("legend", "rect"))]
    terms = [[measures(bar)["fill"] for bar in term.findall(f"{SVG}rect")] for term in picture.part("terms").findall(f"{SVG}g")]
    if line["fill"] != "none" or ring["fill"] != "none":
        yield "the restored line or the ring hides what it goes around"
    if any(outline != paper for outline, *_ in terms):
        yield "the slots below a node are not in outline"
    fed = {fill for _, *fills in terms for fill in fills}
    areas_apart = [*itertools.combinations(areas, 2), *((paper, fill) for fill in fed)]
    inks_apart = [*((paper, ink) for ink in set(inks)), *((INK, fill) for fill in fed)]
    for least, one, other in [(AREAS_APART, *pair) for pair in areas_apart] + [(INK_APART, *pair) for pair in inks_apart]:
        if abs(shade(one) - shade(other)) < least:
            yield f"{one} and {other} are not told apart"


def wrong_samples(picture):
    """The legend's dot and lines look like those of the picture."""
    samples = {label.text.split(" ")[0]: sample for sample, label in picture.samples()}
    for label, name in [("setpoint", "setpoints"), ("restored", "restored"), ("rest", "rest")]:
        looks = [[shape.get(what) for what in ("fill", "stroke", "stroke-dasharray")] for shape in (samples[label], picture.part(name)[0])]
        if looks[0] != looks[1]:
            yield f"the sample of {label} looks like {looks[0]}, and what is drawn like {looks[1]}"
    if not samples["rest"].get("stroke-dasharray"):
        yield "the line of the rest value has no dashes"


def wrong_sizes(picture):
    """Dots, rings and lines that are too small to be seen."""
    [ring] = picture.shapes("greatest-error", "circle")
    _, joint = picture.shapes("greatest-error", "line")
    [line], [rest] = picture.shapes("restored", "path"), picture.shapes("rest", "line")
    sizes = [(6, ring["r"]), (2, joint["stroke-width"]), (1, line["stroke-width"]), (1, rest["stroke-width"]),
             *((1, dot["r"]) for dot in picture.shapes("setpoints", "circle"))]
    yield from (f"something is {size} large, not {least}" for least, size in sizes if size < least)


def wrong_on_sheet(picture):
    _, _, width, height = map(float, picture.root.get("viewBox").split())
    if width > PAGE_WIDTH or height > PAGE_HEIGHT:
        yield f"the sheet of {width} by {height} does not fit the page"
    yield from wrong_words(picture, width, height)
    yield from wrong_places(picture, width, height)
    yield from wrong_order(picture)
    yield from wrong_shades(picture)
    yield from wrong_samples(picture)
    yield from wrong_sizes(picture)
