"""remix [-a or -m] <out-spec>"""

import re

import compare_texts as texts
from rules import Effect, Refused, count, gain_text, in_profile, read, several


def in_spec(source):
    ends = [source.choice(("", "1", "2", str(source.randint(0, 20)))) for _ in range(2)]
    span = source.choice((ends[0], ends[0], "-".join(ends)))
    return span + source.choice(("", "", "", "v", "i", "p", "v" + gain_text(source), "p3", "i1"))


def out_spec(source):
    return ",".join(in_spec(source) for _ in range(source.choice((1, 1, 2, 3, 70))))


def remix_words(source):
    return source.choice(([], [], ["-a"], ["-m"], ["-p"])) + several(source, out_spec, (0, 1, 1, 2, 16, 17))


def contributions(number, text, channels):
    """How many channels an in-spec names."""
    form = re.fullmatch(r"([0-9]*)(-?)([0-9]*)(?:([vip])(.*))?", text, re.DOTALL)
    if form is None or not form[1] + form[2]:
        raise Refused("BadArgument", number)
    first = int(form[1] or 1)
    last = int(form[3] or channels) if form[2] else first
    if 0 in (first, last):
        raise Refused("BadArgument", number)
    if form[4] in ("p", "i") and form[5]:
        raise Refused("NotInProfile", number)
    if form[4] == "v" and form[5]:
        read(number, texts.gain, form[5])
    if first > channels or last > channels:
        raise Refused("NoSuchChannel", number)
    return abs(last - first) + 1


@in_profile(remix_words)
def remix(words, rate, channels, file):
    skipped = 1 if words[:1] and words[0] in ("-a", "-m", "-p") else 0
    specs = words[skipped:]
    count(specs, 1, len(specs))
    if len(specs) > 16:
        raise Refused("TooManyChannels", 18 + skipped)
    if words[0] == "-p":
        raise Refused("NotInProfile", 2)
    for number, text in enumerate(specs, 2 + skipped):
        if text != "0":
            if sum(contributions(number, part, channels) for part in text.split(",")) > 64:
                raise Refused("OutOfRange", number)
    return Effect(rate, len(specs))
