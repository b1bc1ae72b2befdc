"""The benchmark's requests: what each call is asked, for bench/run on this machine and for firmware/test on the panel's core.

Reading a text is counted by a call that has nothing else to do: the least band for a budget of 1,024, refused with 5 once the text is read,
or with 12 where it has special slots.
The better of two offers has rows beside it for reading its text and checking its two records.
"""
import pathlib
import random
import re
from collections import namedtuple

EXAMPLES = pathlib.Path(__file__).resolve().parent.parent / "examples"

# Of 512 random setpoints the first so many are a profile of their own: powers of two, and lengths with filler behind them.
SLOTS_OF_WHOLE = 512
WHOLE = f"{SLOTS_OF_WHOLE} random"
FIRST_SLOTS = [64, 128, 256, 257, 300]
PART_OF_A_PROFILE = re.compile(rf"(\d+) of ({WHOLE})")

# A record of a case is bytes, or the name of the case that builds it; two offers are a record and a second one.
Case = namedtuple("Case", "name call number text record refusal second", defaults=(0, b"", b"", 0, b""))


def typed(value):
    return b"%s%d,%02d" % (b"-" if value < 0 else b"", abs(value) // 100, abs(value) % 100)


def profile(band, setpoints, rest=1400, own=()):
    """A profile's text; the first slots have these bands of their own."""
    lines = [typed(value) for value in [rest, band] + setpoints]
    for slot, own_band in enumerate(own):
        lines[2 + slot] += b" " + typed(own_band)
    return b"".join(line + b"\n" for line in lines)


def packed(slots, band, rest, terms, specials=()):
    """A record, by document 01's table of fields and what document 02's F-6 adds to it."""
    fields = [(2 if specials else 1, 4), (slots - 1, 9), (band, 16), (rest, 16), (len(terms), 10)]
    for node, value in terms:
        fields += [(node, 10), (value, 16)]
    if specials:
        fields.append((len(specials), 10))
    for slot, own_band in specials:
        fields += [(slot, 9), (own_band, 16)]
    bits = "".join(format(number % (1 << width), f"0{width}b") for number, width in fields)
    bits += "0" * (-len(bits) % 8)
    return bytes(int(bits[at:at + 8], 2) for at in range(0, len(bits), 8))


def first_of_random(slots):
    return f"{slots} of {WHOLE}"


def shapes():
    """Setpoints by the name of their shape."""
    rng = random.Random(512)
    plateaus = [rng.randrange(0, 2001) for _ in range(32)]
    spread = [40000 * slot // 511 - 20000 for slot in range(512)]
    whole = [rng.randrange(-20000, 20001) for _ in range(SLOTS_OF_WHOLE)]
    return {
        WHOLE: whole,
        **{first_of_random(slots): whole[:slots] for slots in FIRST_SLOTS},
        "512 in steps": [plateaus[slot // 16] for slot in range(512)],
        "512 on a ramp": [37 * slot for slot in range(512)],
        "512 of two values": [1000 + 1000 * (slot % 2) for slot in range(512)],
        "512 equal": [1450] * 512,
        "512 extremes": [rng.choice([-20000, 20000]) for _ in range(512)],
        "300 random": [rng.randrange(0, 2001) for _ in range(300)],
        "512 evenly spread": random.Random(39).sample(spread, 512),
    }


def builds():
    samples = [(path.name, path.read_bytes()) for path in sorted(EXAMPLES.glob("*.txt")) if path.name != "expected-output.txt"]
    cases = [Case(f"build {name}", "text_to_record", text=text) for name, text in samples]
    setpoints = shapes()
    for shape, band in [("512 random", 0), ("512 random", 25), ("512 random", 300), ("512 random", 40000),
                        ("512 in steps", 25), ("512 in steps", 300), ("512 on a ramp", 25), ("512 on a ramp", 300),
                        ("512 of two values", 0), ("512 of two values", 300), ("512 equal", 25),
                        ("512 extremes", 0), ("512 extremes", 40000), ("300 random", 25), ("512 evenly spread", 38),
                        *[(first_of_random(slots), 25) for slots in FIRST_SLOTS]]:
        cases.append(Case(f"build {shape}, band {typed(band).decode()}", "text_to_record", text=profile(band, setpoints[shape])))
    for slots, own in own_bands().items():
        cases.append(Case(f"build {WHOLE}, own bands in {slots}", "text_to_record", text=profile(300, setpoints[WHOLE], own=own)))
    return cases


def own_bands():
    """Bands for the first slots, beside a common band of 3,00: around it in all slots, and tighter ones in 24."""
    rng = random.Random(6)
    return {
        512: [rng.choice([rng.randrange(200, 300), rng.randrange(301, 401)]) for _ in range(512)],
        24: [rng.randrange(20, 51) for _ in range(24)],
    }


def readings():
    """Texts of 514 lines, read and nothing more."""
    rng = random.Random(514)
    lines = {
        "random lines": [b"%d,%02d" % (rng.randrange(200), rng.randrange(100)) for _ in range(512)],
        "random thousandths": [b"%d,%03d" % (rng.randrange(200), rng.randrange(1000)) for _ in range(512)],
        "long lines": [b"-199,99"] * 512,
        "the longest lines": [b"-199,994"] * 512,
        "the shortest lines": [b"0"] * 512,
        "long lines with the common band as own": [b"-199,994 000,254"] * 512,
        "the longest lines with own bands": [b"-199,994 -000,004"] * 512,
    }
    texts = {name: b"\n".join([b"14,00", b"0,25", *setpoints, b""]) for name, setpoints in lines.items()}
    return [reading(name, text, 12 if name == "the longest lines with own bands" else 5) for name, text in texts.items()]


def reading(name, text, refusal=5):
    return Case(f"read {name}", "least_band_of_text", 1024, text, refusal=refusal)


def terms_on_all_nodes(rng):
    return [(node, rng.randrange(-20000, 20001)) for node in range(1, 1024)]


# A band that is not the common one of 400,00, in every slot: no error of the offers and checks exceeds it.
WIDE_SPECIALS = [(slot, 39999) for slot in range(512)]


def offers(setpoints):
    """Two offers for one text, and what is read and checked for them: the longest records, one of them beside the shortest, and one twice."""
    rng = random.Random(1)
    first, second = [packed(512, 40000, 0, terms_on_all_nodes(rng)) for _ in range(2)]
    shortest = packed(512, 40000, 0, [])
    text = profile(40000, setpoints, rest=0)
    first_2, second_2 = [packed(512, 40000, 0, terms_on_all_nodes(rng), WIDE_SPECIALS) for _ in range(2)]
    text_2 = profile(40000, setpoints, rest=0, own=[own_band for _, own_band in WIDE_SPECIALS])
    noisy = (EXAMPLES / "noisy.txt").read_bytes()
    return [
        Case("two offers, 1,023 terms", "better_offer", text=text, record=first, second=second),
        Case("two offers, 1,023 terms and none", "better_offer", text=text, record=first, second=shortest),
        Case("two offers, noisy.txt", "better_offer", text=noisy, record="build noisy.txt", second="build noisy.txt"),
        reading("the text of 1,023 terms", text),
        reading("noisy.txt", noisy),
        Case("check the first offer, 1,023 terms", "record_against_text", text=text, record=first),
        Case("check the second offer, 1,023 terms", "record_against_text", text=text, record=second),
        Case("check the offer of no terms", "record_against_text", text=text, record=shortest),
        Case("two offers, 1,023 terms and 512 special slots", "better_offer", text=text_2, record=first_2, second=second_2),
        reading("the text of 512 special slots", text_2, refusal=12),
        Case("check the first offer, 512 special slots", "record_against_text", text=text_2, record=first_2),
        Case("check the second offer, 512 special slots", "record_against_text", text=text_2, record=second_2),
    ]


def air():
    """Primary air: steps 1 and 400, and flows of the table's front, middle and end."""
    return ([Case(f"flow of step {step}", "flow_of_step", step) for step in [1, 400]]
            + [Case(f"lowest step for flow {flow:,}", "step_for_flow", flow) for flow in [1, 500, 1000]])


def other_calls():
    """The calls that build nothing."""
    rng = random.Random(1023)
    full = packed(512, 40000, 0, terms_on_all_nodes(rng))
    largest = packed(512, 40000, 0, terms_on_all_nodes(rng), WIDE_SPECIALS)
    noisy = (EXAMPLES / "noisy.txt").read_bytes()
    setpoints = shapes()
    cases = [
        Case("one slot, 1,023 terms", "record_slot", 511, record=full),
        Case("one slot, 1,023 terms and 512 special slots", "record_slot", 511, record=largest),
        Case("one slot, noisy.txt", "record_slot", 300, record="build noisy.txt"),
        Case("check 512 random, 1,023 terms", "record_against_text", text=profile(0, setpoints["512 random"]), record=full),
        Case("check 512 random, 1,023 terms and 512 special slots", "record_against_text", text=profile(0, setpoints["512 random"]),
             record=largest),
        Case("check 512 random, band 3,00", "record_against_text", text=profile(300, setpoints["512 random"]),
             record="build 512 random, band 3,00"),
        Case("check noisy.txt", "record_against_text", text=noisy, record="build noisy.txt"),
    ]
    for slots in [256, 257, 300]:
        shape = first_of_random(slots)
        cases.append(Case(f"least band of {shape}, budget 16", "least_band_of_text", 16, profile(0, setpoints[shape])))
    for budget in [0, 16, 255]:
        for shape in ["512 random", "512 on a ramp"]:
            cases.append(Case(f"least band of {shape}, budget {budget}", "least_band_of_text", budget, profile(0, setpoints[shape])))
    return readings() + cases + offers(setpoints["512 random"]) + air()
