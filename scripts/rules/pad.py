"""pad {length[@position]}"""

import compare_texts as texts
from rules import (
    Effect,
    Refused,
    count,
    max_end,
    in_order,
    in_profile,
    position_text,
    read,
    read_position,
    several,
    time_text,
)


def pad_text(source):
    return time_text(source) + source.choice(("", "@" + position_text(source)))


def pad_words(source):
    return several(source, pad_text, (0, 1, 2, 2, 3, 64, 65))


@in_profile(pad_words)
def pad(words, rate, channels, file):
    count(words, 1, 64)
    positions, total = [], 0
    for number, text in enumerate(words, 2):
        length, mark, place = text.partition("@")
        if not mark and 2 < number < len(words) + 1:
            raise Refused("BadArgument", number)
        total += read(number, texts.time, length, rate)
        previous = positions[-1] if positions else ("start", 0)
        if mark:
            positions.append(read_position(number, place, rate, "start", previous))
        else:
            positions.append(("start", 0) if number == 2 else ("end", 0))
    in_order(positions)
    return Effect(rate, channels, line=max_end(positions), late=max_end(positions), more=total)
