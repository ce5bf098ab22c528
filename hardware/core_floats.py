"""Arithmetic and conversions of floating-point numbers, exact and then rounded once. (Intel SDM, volume 1, 4.8 and chapter
11; volume 2, ADDSD and so on.)"""

from fractions import Fraction
from math import isqrt

from floats import DENORMAL, DENORMALS_ARE_ZEROS, DOWN, FLUSH_TO_ZERO, FORMATS, INEXACT, INVALID, OVERFLOW, TO_NEAREST, \
    UNDERFLOW, UP, is_nan, kind_of, rounding

DIVIDE_BY_ZERO = 4


def sign_of(bits, width):
    return bits >> 8 * width - 1


def infinity(sign, width):
    form = FORMATS[width]
    return sign << 8 * width - 1 | form.all_ones << form.fraction


def default_nan(width):
    form = FORMATS[width]
    return infinity(1, width) | 1 << form.fraction - 1


def quieted(bits, width):
    return bits | 1 << FORMATS[width].fraction - 1


def value_of(bits, width):
    """The number that finite bits stand for."""
    form = FORMATS[width]
    exponent, fraction = bits >> form.fraction & form.all_ones, bits & (1 << form.fraction) - 1
    bias = form.all_ones >> 1
    mantissa = fraction | 1 << form.fraction if exponent else fraction
    magnitude = Fraction(mantissa) * Fraction(2) ** (max(exponent, 1) - bias - form.fraction)
    return -magnitude if sign_of(bits, width) else magnitude


def settled(bits, width, mxcsr):
    """The bits with a denormal as zero where MXCSR wants it, and the exception of one that stays."""
    if kind_of(bits, width) != "denormal":
        return bits, 0
    if mxcsr & DENORMALS_ARE_ZEROS:
        return sign_of(bits, width) << 8 * width - 1, 0
    return bits, DENORMAL


def whole(value, mode):
    """A number as an integer by the rounding mode, and whether it isn't exact."""
    low = value.numerator // value.denominator
    rest = value - low
    if not rest:
        return low, False
    if mode == TO_NEAREST:
        up = rest > Fraction(1, 2) or rest == Fraction(1, 2) and low & 1
    elif mode == DOWN:
        up = False
    else:
        up = mode == UP or low < 0
    return low + (1 if up else 0), True


def top_of(magnitude):
    """The exponent of the highest bit of a number above 0."""
    top = magnitude.numerator.bit_length() - magnitude.denominator.bit_length()
    return top - 1 if Fraction(2) ** top > magnitude else top


def rounded(value, sign, width, mxcsr):
    """The bits of an exact number, whose sign counts where it's 0, and the exceptions."""
    form = FORMATS[width]
    bias, digits, mode = form.all_ones >> 1, form.fraction, rounding(mxcsr)
    signed = sign << 8 * width - 1
    if not value:
        return signed, 0
    magnitude = abs(value)

    def scaled(exponent):
        """The number in units of the last digit at an exponent."""
        units, inexact = whole((-magnitude if sign else magnitude) / Fraction(2) ** (exponent - digits), mode)
        return abs(units), inexact

    top = top_of(magnitude)
    units, inexact = scaled(top)
    after = top + (1 if units >> digits + 1 else 0)
    if after < 1 - bias:
        if mxcsr & FLUSH_TO_ZERO:
            return signed, UNDERFLOW | INEXACT
        units, inexact = scaled(1 - bias)
        return signed | units, UNDERFLOW | INEXACT if inexact else 0
    if after > bias:
        away = mode == TO_NEAREST or mode == (DOWN if sign else UP)
        return infinity(sign, width) if away else infinity(sign, width) - 1, OVERFLOW | INEXACT
    units >>= after - top
    return signed | (after + bias) << digits | units & (1 << digits) - 1, INEXACT if inexact else 0


def nan_of(first, second, width):
    """What comes of two operands of which one is a NaN."""
    exceptions = INVALID if "signalling NaN" in (kind_of(first, width), kind_of(second, width)) else 0
    return quieted(first if is_nan(first, width) else second, width), exceptions


def combined(name, first, second, width, mxcsr):
    """add, sub, mul or div of two numbers."""
    if is_nan(first, width) or is_nan(second, width):
        return nan_of(first, second, width)
    first, exceptions = settled(first, width, mxcsr)
    second, more = settled(second, width, mxcsr)
    exceptions |= more
    kinds = kind_of(first, width), kind_of(second, width)
    signs = sign_of(first, width), sign_of(second, width) ^ (name == "sub")
    crossed = signs[0] ^ signs[1]
    if name in ("add", "sub"):
        if kinds == ("infinity", "infinity"):
            return (default_nan(width), INVALID) if crossed else (first, 0)
        if "infinity" in kinds:
            return infinity(signs[0] if kinds[0] == "infinity" else signs[1], width), exceptions
        total = value_of(first, width) + (-value_of(second, width) if name == "sub" else value_of(second, width))
        sign = (rounding(mxcsr) == DOWN if crossed else signs[0]) if not total else total < 0
        answer, last = rounded(total, int(sign), width, mxcsr)
        return answer, exceptions | last
    if name == "mul":
        if "infinity" in kinds:
            return (default_nan(width), INVALID) if "zero" in kinds else (infinity(crossed, width), exceptions)
        answer, last = rounded(value_of(first, width) * value_of(second, width), crossed, width, mxcsr)
        return answer, exceptions | last
    if kinds in (("infinity", "infinity"), ("zero", "zero")):
        return default_nan(width), INVALID
    if kinds[0] == "infinity":
        return infinity(crossed, width), exceptions
    if kinds[1] == "infinity":
        return crossed << 8 * width - 1, exceptions
    if kinds[1] == "zero":
        return infinity(crossed, width), DIVIDE_BY_ZERO
    answer, last = rounded(value_of(first, width) / value_of(second, width), crossed, width, mxcsr)
    return answer, exceptions | last


def root(bits, width, mxcsr):
    if is_nan(bits, width):
        return nan_of(bits, bits, width)
    bits, exceptions = settled(bits, width, mxcsr)
    kind = kind_of(bits, width)
    if kind == "zero":
        return bits, 0
    if sign_of(bits, width):
        return default_nan(width), INVALID
    if kind == "infinity":
        return bits, 0
    value = value_of(bits, width)
    # So many digits that the rest only tells whether it's exact.
    scale = 2 * FORMATS[width].fraction + 1100
    scaled = value.numerator * 4 ** scale // value.denominator
    floor = isqrt(scaled)
    exact = floor * floor * value.denominator == value.numerator * 4 ** scale
    answer, last = rounded(Fraction(2 * floor + (0 if exact else 1), 2 ** (scale + 1)), 0, width, mxcsr)
    return answer, exceptions | last


def extreme(name, first, second, width, mxcsr):
    """min or max: the second where they are equal zeros or one is a NaN."""
    if is_nan(first, width) or is_nan(second, width):
        return settled(second, width, mxcsr)[0], INVALID
    first, exceptions = settled(first, width, mxcsr)
    second, more = settled(second, width, mxcsr)
    one, other = value_or_infinite(first, width), value_or_infinite(second, width)
    takes_first = one < other if name == "min" else one > other
    return first if takes_first else second, exceptions | more


def value_or_infinite(bits, width):
    """A number that compares as that of the bits does."""
    if kind_of(bits, width) == "infinity":
        return float("-inf") if sign_of(bits, width) else float("inf")
    return value_of(bits, width)


def ordered(first, second, width, mxcsr):
    """Zero, parity and carry as ucomis sets them, as three bits, and the exceptions."""
    if is_nan(first, width) or is_nan(second, width):
        return (1, 1, 1), nan_of(first, second, width)[1]
    first, exceptions = settled(first, width, mxcsr)
    second, more = settled(second, width, mxcsr)
    one, other = value_or_infinite(first, width), value_or_infinite(second, width)
    return (int(one == other), 0, int(one < other)), exceptions | more


def of_integer(bits, from_width, width, mxcsr):
    """An integer with a sign as a floating-point number."""
    value = bits - (1 << 8 * from_width) if bits >> 8 * from_width - 1 else bits
    return rounded(Fraction(value), int(value < 0), width, mxcsr)


def to_integer(bits, width, to, mxcsr, is_cut):
    """An integer with a sign, by the rounding mode or cut; the least one where it doesn't fit."""
    least = 1 << 8 * to - 1
    if is_nan(bits, width) or kind_of(bits, width) == "infinity":
        return least, INVALID
    if kind_of(bits, width) == "denormal" and mxcsr & DENORMALS_ARE_ZEROS:
        return 0, 0
    value, inexact = whole(value_of(bits, width), 3 if is_cut else rounding(mxcsr))
    if not -least <= value < least:
        return least, INVALID
    return value & 2 * least - 1, INEXACT if inexact else 0


def other_precision(bits, width, mxcsr):
    """A single as a double, or a double as a single."""
    to = 12 - width
    form, other = FORMATS[width], FORMATS[to]
    if is_nan(bits, width):
        payload = bits & (1 << form.fraction) - 1
        shift = other.fraction - form.fraction
        moved = payload << shift if shift > 0 else payload >> -shift
        return quieted(infinity(sign_of(bits, width), to) | moved, to), INVALID if kind_of(bits, width)[0] == "s" else 0
    bits, exceptions = settled(bits, width, mxcsr)
    if kind_of(bits, width) == "infinity":
        return infinity(sign_of(bits, width), to), 0
    answer, last = rounded(value_of(bits, width), sign_of(bits, width), to, mxcsr)
    return answer, exceptions | last
