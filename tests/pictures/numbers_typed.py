"""Numbers as people type them, with a comma or a point; read by Python's decimal arithmetic."""
import re
from decimal import ROUND_HALF_UP, Decimal


def typed(field):
    """A number in hundredths; a third digit is rounded half away from zero."""
    return int((100 * Decimal(field.replace(",", "."))).quantize(Decimal(1), ROUND_HALF_UP))


def numbers(text):
    """All numbers of a text."""
    return [Decimal(number.replace(",", ".")) for number in re.findall(r"-?\d+(?:,\d+)?", text)]
