"""The rules of effects, each in a module of this folder, or in one with those of the same words; here is what they share.

A rule is a function of the effect's name, with `@in_profile(MAKER)` above it. Of the words after the name, the rate, the channels
and the bytes of the coefficient file that the words name it makes an `Effect`, or it raises `Refused`. MAKER makes words of the
effect from a source of random numbers, right ones and wrong ones. `scripts/plan_rules.py` loads all modules of this folder.
"""

import collections
import re
from fractions import Fraction

import compare_texts as texts

# A rule, and what makes random words for it.
Rule = collections.namedtuple("Rule", "read random_words")
# The rules by the names of their effects.
RULES = {}


def in_profile(random_words):
    """Puts an effect into the profile: its rule has its name."""

    def put(rule):
        RULES[rule.__name__] = Rule(rule, random_words)
        return rule

    return put


class Refused(Exception):
    """A fault of an effect's words: its name and the word's number."""

    def __init__(self, name, word):
        super().__init__(name)
        self.name, self.word = name, word


class Effect:
    """What an effect holds and makes: its line, how late it gives, the frames of n, and the layout after it."""

    def __init__(self, rate, channels, line=0, late=0, more=0, times=Fraction(1)):
        self.rate, self.channels, self.line, self.late, self.more, self.times = rate, channels, line, late, more, times

    def most(self, frames):
        return -(-(frames * self.times.numerator) // self.times.denominator) + self.more


# ---- words


def read(word, reader, *arguments):
    """What a parser of texts gives, its faults as faults of this word."""
    try:
        return reader(*arguments)
    except texts.Fault as fault:
        name = "OutOfRange" if str(fault) in ("OutOfRange", "TooFar") else "BadArgument"
        raise Refused(name, word) from fault


def read_gain(word, text, least, most):
    value = read(word, texts.gain, text)
    if not least * texts.TRILLIONTHS <= value <= most * texts.TRILLIONTHS:
        raise Refused("OutOfRange", word)
    return value


def read_position(word, text, rate, default, previous):
    at = read(word, texts.position, text, rate, default, previous)
    anchor, frames = re.fullmatch(r"(Start|End)\((\d+)\)", at).groups()
    return anchor.lower(), int(frames)


def count(words, least, most):
    if len(words) < least:
        raise Refused("WrongCount", 1)
    if len(words) > most:
        raise Refused("WrongCount", most + 2)


def in_order(positions):
    for number, (before, after) in enumerate(zip(positions, positions[1:]), 3):
        if before[0] == after[0]:
            behind = after[1] < before[1] if after[0] == "start" else after[1] > before[1]
            if behind:
                raise Refused("PositionBehind", number)


def max_end(positions):
    return max([frames for anchor, frames in positions if anchor == "end"], default=0)


# ---- random words


def several(source, make, counts):
    return [make(source) for _ in range(source.choice(counts))]


def time_text(source):
    small = f"{source.randint(0, 60)}s"
    great = f"{source.choice((2**27, 2**28 - 3, 2**40))}s"
    rare = source.choice((great, texts.whole_term(source), texts.specification(source)))
    return rare if source.random() < 0.2 else small


def position_text(source):
    return source.choice(("", "", "=", "+", "-")) + time_text(source)


def gain_text(source):
    small = f"{source.choice(('', '-', '+'))}{source.randint(0, 2)}.{source.randint(0, 999)}"
    part = f"0.{source.randint(0, 99):02}"
    return source.choice((part, part, part, small, texts.number(source, 4), texts.half(source)))
