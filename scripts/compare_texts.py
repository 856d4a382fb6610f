#!/usr/bin/env python3
"""Compare a program that reads texts with the rules for texts, computed here with exact fractions.

    scripts/compare_texts.py PROGRAM [--count N] [--seed S]
        runs PROGRAM on N random texts (100000) and compares each line of its output; prints
        `texts: N compared, 0 differ` and ends with status 0, or prints what differs, with status 1
    scripts/compare_texts.py --lines FILE
        prints what the rules say of the lines of FILE
    scripts/compare_texts.py --write N [--seed S]
        prints N random lines

A line is `KIND RATE TEXT`, with the kinds `gain`, `time` and `millis`, or
`position RATE DEFAULT PREVIOUS TEXT`, with DEFAULT one of `start`, `previous`, `end`, and PREVIOUS
as `start:N` or `end:N`. One space stands between the words, and TEXT is the rest of the line, which
may be empty or contain spaces. The answer is a line with a number, a position as `Start(N)` or
`End(N)`, or the name of the fault.

The rules here cut a whole text at its separators and add exact fractions.
"""

import argparse
import random
import re
import subprocess
import sys
from fractions import Fraction
from math import floor

TRILLIONTHS = 10**12
MAX_POSITION = 2**40
GREATEST = 2**64 - 1


class Fault(Exception):
    """A refusal, by its name."""


def nearest(value):
    """The nearest whole number, halves away from zero."""
    size = floor(abs(value) + Fraction(1, 2))
    return -size if value < 0 else size


def is_digits(text):
    return all(c in "0123456789" for c in text)


def decimal_parts(text):
    """Sign, digits before and after the point, and exponent text (None without a mark), or None."""
    sign = -1 if text[:1] == "-" else 1
    body = text[1:] if text[:1] in ("+", "-") else text
    marks = [i for i, c in enumerate(body) if c in "eE"]
    mantissa = body[: marks[0]] if marks else body
    exponent = body[marks[0] + 1 :] if marks else None
    whole, _, fraction = mantissa.partition(".")
    if not is_digits(whole) or not is_digits(fraction) or not whole + fraction:
        return None
    if exponent is not None:
        digits = exponent[1:] if exponent[:1] in ("+", "-") else exponent
        if not digits or not is_digits(digits):
            return None
    return sign, whole, fraction, exponent


def exponent_value(exponent):
    return int(exponent) if exponent is not None else 0


def mantissa_value(whole, fraction):
    return Fraction(int("0" + whole + fraction), 10 ** len(fraction))


def decimal_value(whole, fraction, exponent):
    return mantissa_value(whole, fraction) * Fraction(10) ** exponent_value(exponent)


def gain(text):
    if len(text.encode()) > 40:
        raise Fault("TooLong")
    parts = decimal_parts(text)
    if parts is None:
        raise Fault("NotANumber")
    sign, whole, fraction, exponent = parts
    if abs(exponent_value(exponent)) > 30:
        raise Fault("OutOfRange")
    value = nearest(sign * decimal_value(whole, fraction, exponent) * TRILLIONTHS)
    if abs(value) > 1000 * TRILLIONTHS:
        raise Fault("OutOfRange")
    return value


def millis(text, rate):
    parts = decimal_parts(text)
    if len(text.encode()) > 40 or parts is None:
        raise Fault("BadTime")
    sign, whole, fraction, exponent = parts
    if abs(exponent_value(exponent)) > 30:
        raise Fault("TooFar")
    billionths = nearest(sign * decimal_value(whole, fraction, exponent) * 10**9)
    if billionths < 0:
        raise Fault("Negative")
    frames = max(1, floor(Fraction(billionths * rate, 1000 * 10**9)))
    if frames > MAX_POSITION:
        raise Fault("TooFar")
    return frames


def cut_terms(text):
    """The signed terms of a time: cut before each sign that does not follow an `e`."""
    starts = [i for i, c in enumerate(text) if c in "+-" and text[i - 1 : i] not in ("e", "E")]
    edges = [0] + starts + [len(text)]
    return [text[a:b] for a, b in zip(edges, edges[1:])]


def is_run(text):
    return is_digits(text) and len(text) <= 18


def clock_value(term):
    """The seconds of a clock term, or None where it has another form."""
    body = term[:-1] if term[-1:] == "t" else term
    front, _, fraction = body.partition(".")
    components = front.split(":")
    if len(components) > 3 or not all(map(is_run, components)) or not is_run(fraction):
        return None
    if not "".join(components) + fraction:
        return None
    seconds = 0
    for component in components:
        seconds = 60 * seconds + int(component or "0")
    return seconds + mantissa_value("", fraction)


def count_value(body):
    """The number of a sample count without its `s`, or None where it has another form."""
    if body[:1] in ("+", "-"):
        return None
    parts = decimal_parts(body)
    if parts is None:
        return None
    _, whole, fraction, exponent = parts
    if len(whole) > 18 or len(fraction) > 18 or len((exponent or "").lstrip("+-")) > 2:
        return None
    return decimal_value(whole, fraction, exponent)


def term_value(term):
    """The kind and the exact value of a term, or None where it has another form."""
    if term[-1:] == "s":
        value = count_value(term[:-1])
        return None if value is None else ("count", value)
    value = clock_value(term)
    return None if value is None else ("clock", value)


def terms_of(text, rate):
    """The frames of each term, the later ones with their signs."""
    if len(text.encode()) > 80:
        raise Fault("BadTime")
    first, *later = cut_terms(text)
    values = [(1, term_value(first))]
    values += [(-1 if term[0] == "-" else 1, term_value(term[1:])) for term in later]
    if any(value is None for _, value in values):
        raise Fault("BadTime")
    frames = []
    for sign, (kind, value) in values:
        if kind == "clock":
            value = floor(value * rate + Fraction(1, 2))
        elif value.denominator != 1:
            raise Fault("NotWhole")
        if value > MAX_POSITION:
            raise Fault("TooFar")
        frames.append(sign * int(value))
    return frames


def within(frames):
    if frames < 0:
        raise Fault("Negative")
    if frames > MAX_POSITION:
        raise Fault("TooFar")
    return frames


def time(text, rate):
    return within(sum(terms_of(text, rate)))


def position(text, rate, default, previous):
    anchor = {"=": "start", "+": "previous", "-": "end"}.get(text[:1])
    first, *later = terms_of(text if anchor is None else text[1:], rate)
    moved = sum(later)
    anchor = anchor or default
    base, offset = previous
    if anchor == "start":
        return f"Start({within(first + moved)})"
    if anchor == "end":
        return f"End({within(max(0, first - moved))})"
    if base == "start":
        return f"Start({within(offset + first + moved)})"
    return f"End({within(max(0, offset - first - moved))})"


def previous_position(word):
    anchor, _, number = word.partition(":")
    if anchor not in ("start", "end") or not re.fullmatch("[0-9]+", number):
        raise ValueError(word)
    return anchor, int(number)


def answer(line):
    """The answer to a line, as the program writes it."""
    kind, rate, rest = line.split(" ", 2)
    rate = int(rate)
    try:
        if kind == "gain":
            return str(gain(rest))
        if kind == "time":
            return str(time(rest, rate))
        if kind == "millis":
            return str(millis(rest, rate))
        default, previous, text = rest.split(" ", 2)
        return position(text, rate, default, previous_position(previous))
    except Fault as fault:
        return str(fault)


# ---- random lines


def digits(source, longest):
    length = source.choice((0, 1, 1, 2, 3, source.randint(0, longest)))
    plain = "".join(source.choice("0123456789") for _ in range(length))
    return source.choice((plain, plain, "0" * source.randint(0, 3) + plain, "9" * length))


def sign_of(source, signs=("", "", "-", "+")):
    return source.choice(signs)


def number(source, longest):
    text = sign_of(source) + digits(source, longest)
    if source.random() < 0.6:
        text += "." + digits(source, longest)
    if source.random() < 0.4:
        plain = str(source.randint(0, 33))
        padded = "0" * source.randint(0, 9) + str(source.randint(0, 40))
        text += source.choice("eE") + sign_of(source) + source.choice((plain, padded, ""))
    return text


def half(source):
    """A number close to where the rounding or the range turns."""
    sign = sign_of(source)
    decimals = source.choice((0, 1, 499999999999, 999999999999))
    after = source.choice(("5", "49999", "50", "5000000001", "4"))
    power = source.choice((3, 12, -30, 30, 31, -31))
    end = source.choice(
        ("9999999999995", "9999999999994999", "0000000000004999", "0000000000005", "0", "")
    )
    return source.choice(
        (
            f"{sign}{source.randint(0, 3)}.{decimals:012}{after}",
            f"{sign}{source.randint(0, 99)}5e-{source.randint(8, 16)}",
            f"{sign}{source.choice((999, 1000))}.{end}",
            f"{source.randint(1, 9)}e{power}",
            f"{source.randint(0, 10**source.randint(36, 41))}",
            f"{source.randint(0, 10**33)}e-{source.randint(28, 31)}",
        )
    )


def sample_count(source):
    text = digits(source, 21)
    if source.random() < 0.3:
        text += "." + digits(source, 19)
    if source.random() < 0.5:
        power = source.choice((str(source.randint(0, 13)), "0" + source.choice("0123456789")))
        text += source.choice("eE") + sign_of(source) + source.choice((power, digits(source, 3)))
    return text + "s"


def clock(source):
    count = source.choice((1, 1, 2, 3, 3, 4))
    text = ":".join(digits(source, source.choice((2, 2, 19))) for _ in range(count))
    if source.random() < 0.5:
        text += "." + digits(source, 19)
    return text + source.choice(("", "", "", "t"))


def term(source):
    return sample_count(source) if source.random() < 0.4 else clock(source)


def whole_term(source):
    """A term that is most likely accepted."""
    return source.choice(
        (
            f"{source.randint(0, 100000)}s",
            f"{source.randint(0, 300)}",
            f"{source.randint(0, 90)}:{source.randint(0, 99)}.{source.randint(0, 9999)}",
            f"{source.randint(0, 9)}:{source.randint(0, 99)}:{source.randint(0, 99)}t",
            f"{source.randint(0, 99)}.{source.randint(0, 99)}e{source.randint(2, 5)}s",
            f"0.{source.randint(0, 10**18 - 1):018}",
            f"{source.choice((MAX_POSITION - 1, MAX_POSITION, MAX_POSITION + 1))}s",
        )
    )


def specification(source):
    make = whole_term if source.random() < 0.6 else term
    text = make(source)
    for _ in range(source.choice((0, 0, 1, 1, 2, 3, 8))):
        text += source.choice("+-") + make(source)
    return text


def spoiled(source, text):
    """A text with a few bytes changed, dropped or put in."""
    for _ in range(source.choice((1, 1, 2, 3))):
        place = source.randint(0, len(text))
        put = source.choice(("", *"0159.:+-eEst=x #é\t~"))
        kept = source.choice((place, place + 1))
        text = text[:place] + put + text[kept:]
    return text


RATES = (1, 2, 3, 7, 8000, 11025, 22050, 44100, 48000, 96000, 192000, 2**32 - 1)


def random_line(source):
    rate = source.choice((*RATES, source.randint(1, 2**32 - 1)))
    kind = source.choice(("gain", "time", "position", "millis"))
    if kind in ("time", "position"):
        text = specification(source)
    elif source.random() < 0.6:
        text = number(source, source.choice((4, 4, 17, 42)))
    else:
        text = half(source)
    if kind == "position":
        text = source.choice(("", "=", "+", "-")) + text
    if source.random() < 0.15:
        text = spoiled(source, text)
    if kind != "position":
        return f"{kind} {rate} {text}"
    default = source.choice(("start", "previous", "end"))
    base = source.choice(("start", "end"))
    far = source.choice((0, 3, 100, 20000, MAX_POSITION, GREATEST, source.randint(0, GREATEST)))
    return f"position {rate} {default} {base}:{far} {text}"


def random_lines(count, seed):
    source = random.Random(seed)
    return [random_line(source) for _ in range(count)]


def compare(program, count, seed):
    lines = random_lines(count, seed)
    text = "".join(line + "\n" for line in lines)
    run = subprocess.run([program], input=text.encode(), stdout=subprocess.PIPE, check=False)
    given = run.stdout.decode().split("\n")
    if run.returncode != 0 or len(given) != count + 1:
        print(f"texts: status {run.returncode}, {len(given) - 1} of {count} lines")
        return 1
    compared = [(line, answer(line), got) for line, got in zip(lines, given)]
    differing = [row for row in compared if row[1] != row[2]]
    for line, wanted, got in differing[:20]:
        print(f"{line!r}: {wanted} by the rules, {got} by the program")
    print(f"texts: {count} compared, {len(differing)} differ")
    return 1 if differing else 0


def main():
    parser = argparse.ArgumentParser(
        description=__doc__, formatter_class=argparse.RawDescriptionHelpFormatter
    )
    parser.add_argument("program", nargs="?")
    parser.add_argument("--count", type=int, default=100_000)
    parser.add_argument("--seed", type=int, default=1)
    parser.add_argument("--lines", metavar="FILE")
    parser.add_argument("--write", type=int, metavar="N")
    chosen = parser.parse_args()
    if chosen.write is not None:
        sys.stdout.write("".join(line + "\n" for line in random_lines(chosen.write, chosen.seed)))
        return 0
    if chosen.lines is not None:
        with open(chosen.lines, encoding="utf-8", newline="\n") as file:
            lines = file.read().split("\n")[:-1]
        sys.stdout.write("".join(answer(line) + "\n" for line in lines))
        return 0
    if chosen.program is None:
        parser.error("name a program")
    return compare(chosen.program, chosen.count, chosen.seed)


if __name__ == "__main__":
    sys.exit(main())
