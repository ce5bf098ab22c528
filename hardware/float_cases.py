"""Floating point numbers for states: those at the limits of what comparisons and conversions tell apart."""

import floats

RELATIONS = ("greater", "less", "equal", "unordered")


def limits(width):
    """Zero, the least and the greatest of each kind of number, the NaNs, one and its neighbour."""
    form = floats.FORMATS[width]
    infinity, least = form.all_ones << form.fraction, 1 << form.fraction
    quiet = least >> 1
    return [0, 1, least - 1, quiet, least, infinity - least, infinity, infinity | 1, infinity | quiet,
            infinity | quiet | quiet >> 1 | 5, form.one, form.one + 1, form.one + least, form.one + 3 * least | quiet >> 2]


LIMITS = {width: limits(width) for width in floats.FORMATS}
SIGNALLING = {width: LIMITS[width][7] for width in floats.FORMATS}


def some_float(random, width):
    form, chance = floats.FORMATS[width], random.random()
    if chance < 0.5:
        value = random.choice(LIMITS[width])
    elif chance < 0.8:
        value = form.one + (random.randrange(-6, 7) << form.fraction) | random.getrandbits(form.fraction)
    else:
        return random.getrandbits(8 * width)
    return value | random.getrandbits(1) << 8 * width - 1


def some_double(random):
    """For conversions: about the limits of singles and of integers."""
    chance = random.random()
    if chance < 0.3:
        return some_float(random, 8)
    if chance < 0.65:
        exponent = random.choice([-151, -150, -149, -148, -140, -127, -126, -125, 127, 128, 0, 1])
        fraction = random.choice([
            0, 1, 1 << 28, (1 << 28) + 1, (1 << 29) - 1, (1 << 52) - 1, (1 << 52) - (1 << 28), random.getrandbits(52),
            random.getrandbits(23) << 29, random.getrandbits(23) << 29 | 1 << 28])
    else:
        exponent = random.choice([-2, -1, 0, 1, 5, 20, 29, 30, 31, 32])
        fraction = random.choice([
            0, 1, (1 << 52) - 1, random.getrandbits(52), random.getrandbits(20) << 32, random.getrandbits(31) << 21])
    return random.getrandbits(1) << 63 | exponent + 1023 << 52 | fraction


def unordered_pair(random, width):
    """A quiet NaN, and what isn't a signalling one, in either order."""
    form = floats.FORMATS[width]
    nan = form.all_ones << form.fraction | 1 << form.fraction - 1 | random.getrandbits(form.fraction - 1)
    nan |= random.getrandbits(1) << 8 * width - 1
    other = some_float(random, width)
    while floats.kind_of(other, width) == "signalling NaN":
        other = some_float(random, width)
    return (nan, other) if random.getrandbits(1) else (other, nan)


def pair(random, width, relation):
    """Two numbers in this relation."""
    if relation == "unordered":
        return unordered_pair(random, width)
    while True:
        first = some_float(random, width)
        second = first if relation == "equal" else some_float(random, width)
        if any(floats.is_nan(bits, width) or floats.kind_of(bits, width) == "denormal" for bits in (first, second)):
            continue
        one, other = floats.ordered(first, width), floats.ordered(second, width)
        if (relation == "greater") == (one > other) and (relation == "less") == (one < other):
            return first, second
