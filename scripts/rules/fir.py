"""fir file, or fir h_0 h_1 .."""

import re

import compare_texts as texts
from rules import Effect, Refused, count, gain_text, in_profile, read, several


def fir_words(source):
    return source.choice((["a.txt"], ["b.txt"], ["-"], [], several(source, gain_text, (1, 2, 3, 1024, 1025))))


def coefficients(data):
    """How many numbers a coefficient file has; None where it is bad."""
    if len(data) > 2**20:
        return None
    bare = re.sub(rb"#[^\n]*", b"", data)
    words = [word for word in re.split(rb"[ \t\n\r\v\f]+", bare) if word]
    try:
        for word in words:
            texts.gain(word.decode())
    except (texts.Fault, UnicodeDecodeError):
        return None
    return len(words) if 1 <= len(words) <= 1024 else None


@in_profile(fir_words)
def fir(words, rate, channels, file):
    count(words, 0, 1024)
    if len(words) < 2:
        if not words or words == ["-"]:
            raise Refused("NotInProfile", len(words) + 1)
        taps = coefficients(file)
        if taps is None:
            raise Refused("BadCoefficients", 2)
        return Effect(rate, channels, line=taps - 1, late=(taps - 1) // 2)
    for number, text in enumerate(words, 2):
        read(number, texts.gain, text)
    return Effect(rate, channels, line=len(words) - 1, late=(len(words) - 1) // 2)
