"""fade t in [stop [out]]"""

import compare_texts as texts
from rules import Effect, Refused, count, in_profile, position_text, read, read_position, several


def fade_words(source):
    return [source.choice("ttttq")] + several(source, position_text, (0, 1, 2, 2, 3, 4))


@in_profile(fade_words)
def fade(words, rate, channels, file):
    count(words, 1, 4)
    if words == ["t"]:
        raise Refused("WrongCount", 1)
    if words[0] != "t":
        raise Refused("NotInProfile", 2)
    out = read(3, texts.time, words[1], rate)
    line = 0
    if len(words) > 2:
        anchor, frames = read_position(4, words[2], rate, "start", ("start", 0))
        if len(words) > 3:
            out = read(5, texts.time, words[3], rate)
        if anchor == "end" or frames == 0:
            line = frames + out
    return Effect(rate, channels, line=line, late=line)
