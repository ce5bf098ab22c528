"""Comparisons and conversions of floating point numbers, by their bits. (Intel SDM, volume 1, chapters 4 and 11; volume 2,
CMPPD with tables 3-1 to 3-3, VCMPPD, CVTPD2PS, CVTTPD2DQ.)"""

from typing import NamedTuple


class Format(NamedTuple):
    exponent: int
    fraction: int

    @property
    def all_ones(self):
        return (1 << self.exponent) - 1

    @property
    def one(self):
        """The bits of 1."""
        return ((1 << self.exponent - 1) - 1) << self.fraction


# By the number of bytes.
FORMATS = {4: Format(8, 23), 8: Format(11, 52)}

# Bits of MXCSR. (Intel SDM, volume 1, 10.2.3.)
INVALID, DENORMAL, OVERFLOW, UNDERFLOW, INEXACT = 1, 2, 8, 16, 32
DENORMALS_ARE_ZEROS, FLUSH_TO_ZERO = 0x40, 0x8000
TO_NEAREST, DOWN, UP = 0, 1, 2


def rounding(mxcsr):
    return mxcsr >> 13 & 3


def kind_of(bits, width):
    form = FORMATS[width]
    exponent, fraction = bits >> form.fraction & form.all_ones, bits & (1 << form.fraction) - 1
    if exponent == form.all_ones:
        return "infinity" if not fraction else "quiet NaN" if fraction >> form.fraction - 1 else "signalling NaN"
    if not exponent:
        return "denormal" if fraction else "zero"
    return "normal"


def is_nan(bits, width):
    return kind_of(bits, width).endswith("NaN")


def ordered(bits, width):
    """A number that compares with others as that of the bits does."""
    magnitude = bits & (1 << 8 * width - 1) - 1
    return -magnitude if bits >> 8 * width - 1 else magnitude


# Of each predicate the answers for greater, less, equal and unordered, and whether a quiet NaN is invalid (s) or not (q).
PREDICATES = [
    (tuple(answer == "1" for answer in word[:4]), word[4] == "s")
    for word in (
        "0010q 0100s 0110s 0001q 1101q 1011s 1001s 1110q 0011q 0101s 0111s 0000q 1100q 1010s 1000s 1111q "
        "0010s 0100q 0110q 0001s 1101s 1011q 1001q 1110s 0011s 0101q 0111q 0000s 1100s 1010q 1000q 1111s"
    ).split()
]


def compare(first, second, width, predicate, mxcsr):
    """All ones or zeros, and the exceptions."""
    (greater, less, equal, unordered), signals = PREDICATES[predicate]
    kinds = kind_of(first, width), kind_of(second, width)
    exceptions = 0
    if is_nan(first, width) or is_nan(second, width):
        holds = unordered
        if "signalling NaN" in kinds or signals:
            exceptions = INVALID
    else:
        if "denormal" in kinds and mxcsr & DENORMALS_ARE_ZEROS:
            first = 0 if kinds[0] == "denormal" else first
            second = 0 if kinds[1] == "denormal" else second
        elif "denormal" in kinds:
            exceptions = DENORMAL
        one, other = ordered(first, width), ordered(second, width)
        holds = greater if one > other else less if one < other else equal
    return ((1 << 8 * width) - 1 if holds else 0), exceptions


def rounded(mantissa, shift, mode, is_negative):
    """mantissa / 2^shift as an integer by the rounding mode, and whether it isn't exact."""
    if shift <= 0:
        return mantissa << -shift, False
    quotient, rest = mantissa >> shift, mantissa & (1 << shift) - 1
    if not rest:
        return quotient, False
    half = 1 << shift - 1
    if mode == TO_NEAREST:
        up = rest > half or rest == half and quotient & 1
    else:
        up = mode == DOWN and is_negative or mode == UP and not is_negative
    return quotient + (1 if up else 0), True


def mantissa_of(bits):
    """A double's magnitude as mantissa * 2^exponent."""
    exponent, fraction = bits >> 52 & 0x7FF, bits & (1 << 52) - 1
    return (fraction | 1 << 52, exponent - 1075) if exponent else (fraction, -1074)


def to_single(bits, mxcsr):
    """A double's bits as a single's, and the exceptions."""
    kind, is_negative = kind_of(bits, 8), bits >> 63
    sign, exceptions = is_negative << 31, 0
    if kind.endswith("NaN"):
        return sign | 0x7FC00000 | (bits & (1 << 52) - 1) >> 29, INVALID if kind == "signalling NaN" else 0
    if kind == "infinity":
        return sign | 0x7F800000, 0
    if kind == "zero" or kind == "denormal" and mxcsr & DENORMALS_ARE_ZEROS:
        return sign, 0
    if kind == "denormal":
        exceptions = DENORMAL
    mode = rounding(mxcsr)
    mantissa, exponent = mantissa_of(bits)
    top = mantissa.bit_length() - 1 + exponent
    # 24 bits, as if the exponent had no bound
    quotient, is_inexact = rounded(mantissa, top - 23 - exponent, mode, is_negative)
    after = top + (quotient >> 24)
    if after < -126:
        if mxcsr & FLUSH_TO_ZERO:
            return sign, exceptions | UNDERFLOW | INEXACT
        quotient, is_inexact = rounded(mantissa, -149 - exponent, mode, is_negative)
        return sign | quotient, exceptions | (UNDERFLOW | INEXACT if is_inexact else 0)
    if after > 127:
        away = mode == TO_NEAREST or mode == DOWN and is_negative or mode == UP and not is_negative
        return sign | (0x7F800000 if away else 0x7F7FFFFF), exceptions | OVERFLOW | INEXACT
    quotient >>= quotient >> 24
    return sign | after + 127 << 23 | quotient & 0x7FFFFF, exceptions | (INEXACT if is_inexact else 0)


def to_integer(bits, mxcsr):
    """A double's bits as an integer of 32 bits, cut towards zero, and the exceptions."""
    kind = kind_of(bits, 8)
    if kind == "infinity" or kind.endswith("NaN"):
        return 0x80000000, INVALID
    if kind == "zero" or kind == "denormal" and mxcsr & DENORMALS_ARE_ZEROS:
        return 0, 0
    mantissa, exponent = mantissa_of(bits)
    quotient = mantissa << exponent if exponent >= 0 else mantissa >> -exponent
    is_inexact = exponent < 0 and mantissa & (1 << -exponent) - 1
    value = -quotient if bits >> 63 else quotient
    if not -(2**31) <= value < 2**31:
        return 0x80000000, INVALID
    return value & 0xFFFFFFFF, INEXACT if is_inexact else 0
