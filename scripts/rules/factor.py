"""upsample [factor] and downsample [factor]"""

import re
from fractions import Fraction

from rules import Effect, Refused, count, in_profile, several


def factor_words(source):
    return several(source, lambda s: s.choice(("1", "2", "5", "256", "02", "0", "257", "x", "")), (0, 1, 1, 1, 1, 1, 2))


def factor(words):
    count(words, 0, 1)
    if not words:
        return 1, 2
    if not re.fullmatch("[0-9]+", words[0]):
        raise Refused("BadArgument", 2)
    if not 1 <= int(words[0]) <= 256:
        raise Refused("OutOfRange", 2)
    return 2, int(words[0])


@in_profile(factor_words)
def upsample(words, rate, channels, file):
    word, times = factor(words)
    if rate * times > 2**32 - 1:
        raise Refused("RateTooLarge", word)
    return Effect(rate * times, channels, times=Fraction(times))


@in_profile(factor_words)
def downsample(words, rate, channels, file):
    word, times = factor(words)
    if rate % times:
        raise Refused("RateNotDivisible", word)
    return Effect(rate // times, channels, times=Fraction(1, times))
